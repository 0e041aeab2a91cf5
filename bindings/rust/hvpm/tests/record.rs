//! A record of a machine: its events as a script, and their audit. `tests/embed/record.c` and the tests in Python
//! have the program repeat what the same functions of the library recorded.

mod common;

use common::{CONFIG, ROOT, bytes};
use hvpm::pages::Pages;
use hvpm::{
    Caller, Config, Connection, ConnectionId, Machine, PartitionId, Port, PortId, PortType, Property,
};
use hvpm::{Registers, Sint, Status, VpIndex};
use std::ptr::NonNull;

#[repr(align(4096))]
struct Page([u8; 4096]);

/// The boot, a hypercall, typed calls, a list, accesses, and what pages do; and its audit is that of the replies.
#[test]
fn each_event_is_recorded() -> Result<(), Status> {
    let mut machine = Machine::boot_recorded(CONFIG)?.audited();
    let mut audit = String::new();
    let (child, list) = (PartitionId(2), bytes::<8>(&[(0, 1)]));
    audit += machine.create_partition(ROOT, 0)?.reply.line();
    let first = machine.take_record();
    assert_eq!(first.script, "boot 32 12 1 0xf700000044 4294967295\n1.0 call 0x40 0x0 0x0 -\n");
    assert_eq!((first.audit.as_str(), first.is_cut), (audit.as_str(), false));
    audit.clear();
    audit += machine.hypercall(ROOT, Registers { rcx: 0x4A, rdx: 0x1000, r8: 0 }, &list)?.line();
    audit += machine.set_partition_property(ROOT, child, Property::CpuCap, 5)?.line();
    assert_eq!(machine.deposit_pages(ROOT, child, &[20, 21, 22])?.count, 3);
    audit += &format!(
        "{}\n",
        [
            "4 1.0 call 0000000300000048 more 0000000100000000 -",
            "5 1.0 call 0001000300000048 more 0000000200000000 -",
            "6 1.0 call 0002000300000048 ok 0000000300000000 -",
        ]
        .join("\n")
    );
    audit += machine.create_vp(ROOT, child, VpIndex(0))?.line(); // P12
    audit += machine.write_msr(ROOT, 0x4000_0080, 1)?.line();
    audit += machine.read_slot(ROOT, Sint(16))?.line(); // P21
    let record = machine.take_record();
    let script = [
        "1.0 call 0x4a 0x1000 0x0 01",
        "1.0 call 0x45 0x0 0x0 0200000000000000020002000000000005",
        "1.0 call 0x300000048 0x0 0x0 02000000000000001400000000000000150000000000000016",
        "1.0 call 0x1004e 0x2 0x0 -",
        "1.0 wrmsr 0x40000080 0x1",
        "1.0 slot 16",
    ];
    assert_eq!((record.script, record.audit), (script.join("\n") + "\n", audit));
    assert_eq!(machine.take_record(), hvpm::Record::default());
    Ok(())
}

#[test]
fn what_pages_do_is_recorded() -> Result<(), Status> {
    let mut memory = Box::new(Page([0; 4096]));
    let mut machine = Machine::boot_recorded(CONFIG)?;
    let mut pages = Pages::new(ROOT);
    for (msr, value) in [(0x80, 1), (0x83, 0x5001), (0x92, 0x32)] {
        machine.write_msr(ROOT, 0x4000_0000 + msr, value)?;
    }
    machine.hypercall(
        ROOT,
        Registers { rcx: 0x95, ..Registers::default() },
        &bytes::<48>(&[(0, 1), (8, 2), (16, 1), (24, 1), (32, 2)]),
    )?;
    machine.hypercall(
        ROOT,
        Registers { rcx: 0x96, ..Registers::default() },
        &bytes::<48>(&[(0, 1), (8, 2), (16, 1), (24, 2), (32, 1)]),
    )?;
    let page = NonNull::from(&mut memory.0).cast();
    // SAFETY: the page has 4,096 bytes at a multiple of 4,096, and outlives the pages. Only this thread uses it,
    // by this pointer.
    unsafe { pages.r#move(&mut machine, Some(page), None)? };
    let reply = machine.post_message(ROOT, ConnectionId(2), 9, b"a")?;
    pages.after(&mut machine, &reply)?;
    assert!(!machine.take_record().is_cut);
    assert_eq!(pages.vector(&mut machine)?, Some(0x32));
    // SAFETY: as above.
    unsafe { page.byte_add(512).cast::<u32>().write_volatile(0) };
    pages.before(&mut machine)?;
    let record = machine.take_record();
    assert_eq!(record.script, "1.0 interrupt\n1.0 clearslot 2\n");
    assert_eq!(record.audit, "7 1.0 interrupt ok 32\n8 1.0 clearslot 2 ok -\n");
    Ok(())
}

/// A script has a rep call in one line: the record ends before another event between two elements.
#[test]
fn a_rep_call_that_is_interrupted_ends_the_record() -> Result<(), Status> {
    let mut machine = Machine::boot_recorded(CONFIG)?;
    machine.withdraw_memory(ROOT, PartitionId(1), &mut [0; 2], 0)?;
    assert!(!machine.take_record().is_cut);
    machine.take_interrupt(Caller::new(1, 0))?;
    let record = machine.take_record();
    assert_eq!((record.script.as_str(), record.audit.as_str(), record.is_cut), ("", "", true));
    assert_eq!(machine.events(), 2);
    Ok(())
}

/// Nor may another processor go on with the elements.
#[test]
fn a_rep_call_that_another_processor_goes_on_with_ends_the_record() -> Result<(), Status> {
    let mut machine = Machine::boot_recorded(Config { pool: 8, vps: 2, ..CONFIG })?;
    assert!(!machine.take_record().is_cut);
    let call = Registers { rcx: (2 << 32) | 0x50, ..Registers::default() };
    let input = bytes::<24>(&[(0, 1), (18, 2), (22, 2)]);
    let reply = machine.hypercall(ROOT, call, &input)?;
    assert_eq!(reply.answer(), hvpm::Answer::More { next: 1 });
    let call = Registers { rcx: hvpm::next(call.rcx, &reply), ..call };
    assert!(machine.hypercall(Caller::new(1, 1), call, &input)?.is_served());
    let record = machine.take_record();
    assert_eq!((record.script.lines().count(), record.is_cut), (1, true));
    Ok(())
}

/// A phase of a script has 64 processors at most.
#[test]
fn a_record_has_a_phase_for_each_64_processors() -> Result<(), Status> {
    let mut machine = Machine::boot_recorded(CONFIG)?;
    for vp in (0..64).chain(0..64) {
        machine.take_interrupt(Caller::new(1, vp))?;
    }
    assert!(!machine.take_record().script.contains("phase"));
    machine.take_interrupt(Caller::new(2, 63))?;
    machine.take_interrupt(Caller::new(1, 63))?;
    let record = machine.take_record();
    assert_eq!(record.script, "phase\n2.63 interrupt\n1.63 interrupt\n");
    assert!(!record.is_cut);
    Ok(())
}

/// A run of a machine that records ends where that of another one does.
#[test]
fn a_recorded_run_ends_at_a_message() -> Result<(), Status> {
    let mut machine = Machine::boot_recorded(Config { pages: 64, pool: 16, ..CONFIG })?;
    for (msr, value) in [(0x80, 1), (0x83, 1), (0x92, 0x32)] {
        machine.write_msr(ROOT, 0x4000_0000 + msr, value)?;
    }
    let (partition, r#type, sint, vp) = (PartitionId(1), PortType::Messages, Sint(2), VpIndex(0));
    let (id, connection_id) = (PortId(2), ConnectionId(2));
    let port = Port { partition, id, peer: partition, r#type, sint, vp, base_flag: 0, flag_count: 0 };
    let connection = Connection { partition, id: connection_id, port_partition: partition, port: id, r#type };
    assert!(machine.create_port(ROOT, &port)?.is_served());
    assert!(machine.connect_port(ROOT, &connection)?.is_served());
    for byte in [b"a", b"b"] {
        assert!(machine.post_message(ROOT, connection_id, 9, byte)?.is_served());
    }
    machine.clear_slot(ROOT, sint)?;
    let registers = [hvpm::register::RAX, hvpm::register::EOM, hvpm::register::RBX]
        .map(|name| hvpm::VpRegister { name, value: 0 });
    let made = machine.write_registers(ROOT, partition, vp, &registers)?;
    assert_eq!((made.count, made.reply.answer()), (2, hvpm::Answer::More { next: 2 }));
    assert!(matches!(made.reply.effect(), hvpm::Effect::Synic(_)));
    Ok(())
}

#[test]
fn a_machine_without_a_record_has_none() -> Result<(), Status> {
    let mut machine = Machine::boot(CONFIG)?;
    machine.take_interrupt(ROOT)?;
    assert_eq!(machine.take_record(), hvpm::Record::default());
    Ok(())
}
