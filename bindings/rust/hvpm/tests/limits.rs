//! Each function at the last of its indexes, and with numbers whose bytes all differ.

mod common;

use common::{CONFIG, ROOT, has};
use hvpm::pages::Pages;
use hvpm::{Access, Answer, Balance, Caller, Config, Connection, ConnectionId, Effect, FlagChange, Machine};
use hvpm::{PageRun, PartitionId, Port, PortId, PortType, Property, Registers, Rule, Sint, Status, Synic};
use hvpm::{VpIndex, VpRegister, access_line, hypercall_line, next};
use std::ptr::NonNull;

/// The last processor that a root has.
const LAST: Caller = Caller::new(1, 63);
/// The last ids that P7 lets pass, of a port and a connection for messages. Those for flags are one less.
const ID: u32 = 0xFF_FFFF;
const SINT: Sint = Sint(15);
const CHILD: PartitionId = PartitionId(2);
const SELF: PartitionId = PartitionId::SELF;
const SINT15: u32 = hvpm::msr::SINT15;

/// A root with the most pages and processors, whose last processor is ready for messages and event flags.
fn boot() -> Machine {
    let config = Config { mask: CONFIG.mask, pages: 65_536, pool: 1000, vps: 64 };
    let mut machine = Machine::boot(config).expect("it boots").audited();
    for (msr, value) in [(0x4000_0080, 1), (0x4000_0082, 1), (0x4000_0083, 1), (SINT15, 0xFF)] {
        has(machine.write_msr(LAST, msr, value), Effect::Nothing);
    }
    machine
}

fn port(r#type: PortType, id: u32, base_flag: u16, flag_count: u16) -> Port {
    let (partition, peer, vp) = (PartitionId::ROOT, PartitionId::ROOT, VpIndex(63));
    Port { partition, id: PortId(id), peer, r#type, sint: SINT, vp, base_flag, flag_count }
}

fn connection(r#type: PortType, id: u32) -> Connection {
    let (partition, port_partition) = (PartitionId::ROOT, PartitionId::ROOT);
    Connection { partition, id: ConnectionId(id), port_partition, port: PortId(id), r#type }
}

/// What changed at that processor.
fn at_last(shown: u16, raised: [u64; 4]) -> Synic {
    Synic { at: LAST, shown, waiting: 0, flag: None, raised, freed: None }
}

const VECTOR: [u64; 4] = [0, 0, 0, 1 << 63];

/// The machine, where a message is in the last slot and another one waits, and the last event flag is set.
fn with_last() -> Machine {
    let mut machine = boot();
    let flags = PortType::Events;
    has(machine.create_port(LAST, &port(PortType::Messages, ID, 0, 0)), Effect::Nothing);
    has(machine.create_port(LAST, &port(flags, ID - 1, 2047, 1)), Effect::Nothing);
    has(machine.create_port(LAST, &port(flags, ID - 2, 0, 2048)), Effect::Nothing);
    has(machine.connect_port(LAST, &connection(PortType::Messages, ID)), Effect::Nothing);
    has(machine.connect_port(LAST, &connection(flags, ID - 1)), Effect::Nothing);
    has(machine.connect_port(LAST, &connection(flags, ID - 2)), Effect::Nothing);
    let post =
        |machine: &mut Machine| machine.post_message(LAST, ConnectionId(ID), 0x7FFF_FFFF, &[0xAB; 240]);
    has(post(&mut machine), Effect::Synic(at_last(1 << 15, VECTOR)));
    has(post(&mut machine), Effect::Synic(Synic { waiting: 1 << 15, ..at_last(0, [0; 4]) }));
    let flag = Some(FlagChange { sint: SINT, flag: 2047, is_set: true });
    has(
        machine.signal_event(LAST, ConnectionId(ID - 1), 0),
        Effect::Synic(Synic { flag, ..at_last(0, VECTOR) }),
    );
    has(machine.signal_event(LAST, ConnectionId(ID - 2), 2047), Effect::Nothing);
    machine
}

/// The slot: type, size, MessagePending, port and payload.
fn last_slot(is_pending: u8) -> [u8; 256] {
    let mut slot = [0xAB; 256];
    slot[..16]
        .copy_from_slice(&[0xFF, 0xFF, 0xFF, 0x7F, 240, is_pending, 0, 0, 0xFF, 0xFF, 0xFF, 0, 0, 0, 0, 0]);
    slot
}

fn last_flag() -> [u8; 256] {
    let mut flags = [0; 256];
    flags[255] = 0x80;
    flags
}

#[test]
fn the_last_slot_flag_and_vector_are_taken() -> Result<(), Status> {
    let mut machine = with_last();
    assert_eq!(machine.peek_slot(LAST, SINT), Some(last_slot(1)));
    assert_eq!(machine.read_slot(LAST, SINT)?.output(), last_slot(1));
    assert_eq!(machine.peek_flags(LAST, SINT), Some(last_flag()));
    assert_eq!(machine.read_flags(LAST, SINT)?.output(), last_flag());
    assert_eq!(machine.peek_pending(LAST), Some(VECTOR));
    assert_eq!(machine.take_interrupt(LAST)?.output(), [0xFF]);
    assert_eq!(
        (machine.peek_msr(LAST, SINT15), machine.read_msr_value(LAST, SINT15)?.value),
        (Some(0xFF), Some(0xFF))
    );
    let flag = Some(FlagChange { sint: SINT, flag: 2047, is_set: false });
    has(machine.clear_flag(LAST, SINT, 2047), Effect::Synic(Synic { flag, ..at_last(0, [0; 4]) }));
    let freed = Some(PortId(ID));
    has(machine.clear_slot(LAST, SINT), Effect::Synic(Synic { freed, ..at_last(1 << 15, [0; 4]) }));
    assert_eq!(machine.peek_slot(LAST, SINT), Some([0; 256]));
    has(machine.write_msr(LAST, hvpm::msr::EOM, u64::MAX), Effect::Synic(at_last(1 << 15, VECTOR)));
    assert_eq!(machine.peek_slot(LAST, SINT), Some(last_slot(0)));
    Ok(())
}

#[test]
fn a_page_has_the_last_slot_and_flag() -> Result<(), Status> {
    #[repr(align(4096))]
    struct Memory([u8; 8192]);
    let (mut machine, mut pages) = (with_last(), Pages::new(LAST));
    let mut memory = Box::new(Memory([0xA5; 8192]));
    let at = NonNull::from(&mut memory.0).cast::<u8>();
    // SAFETY: both pages lie in that block, which outlives the pages and is used by this pointer alone.
    let byte = |place| unsafe { at.add(place).read_volatile() };
    // SAFETY: as above.
    unsafe { pages.r#move(&mut machine, Some(at), Some(at.add(4096)))? };
    assert_eq!(pages.shown(), 1 << 15);
    assert!((0..256).all(|place| byte(3840 + place) == last_slot(1)[place]));
    assert!((0..4096).all(|place| byte(4096 + place) == if place == 4095 { 0x80 } else { 0 }));
    assert_eq!(machine.peek_flags(LAST, SINT), Some([0; 256]));
    let reply = machine.write_msr(LAST, hvpm::msr::EOM, 0)?;
    pages.after(&mut machine, &reply)?;
    // SAFETY: as above.
    unsafe { at.add(3840).cast::<u32>().write_volatile(0) };
    pages.before(&mut machine)?;
    assert_eq!((pages.take_freed(), pages.shown()), (true, 0));
    let reply = machine.write_msr(LAST, hvpm::msr::EOM, 0)?;
    pages.after(&mut machine, &reply)?;
    assert!((0..256).all(|place| byte(3840 + place) == last_slot(0)[place]));
    assert_eq!((pages.vector(&mut machine)?, pages.vector(&mut machine)?), (Some(0xFF), None));
    let reply = machine.post_message(LAST, ConnectionId(ID), 1, &[])?;
    pages.after(&mut machine, &reply)?;
    assert!((0..256).all(|place| byte(3840 + place) == last_slot(1)[place]), "another message waits");
    Ok(())
}

#[test]
fn looks_find_the_last_of_all() -> Result<(), Status> {
    let mut machine = with_last();
    let root = PartitionId::ROOT;
    assert_eq!(machine.peek_port(root, PortId(ID)), Some(port(PortType::Messages, ID, 0, 0)));
    assert_eq!(machine.peek_port(root, PortId(ID - 1)), Some(port(PortType::Events, ID - 1, 2047, 1)));
    assert_eq!(machine.peek_port(root, PortId(ID - 2)), Some(port(PortType::Events, ID - 2, 0, 2048)));
    let events = connection(PortType::Events, ID - 1);
    assert_eq!(machine.peek_connection(root, ConnectionId(ID - 1)), Some(events));
    let any = Port { id: PortId(0), vp: VpIndex::ANY, ..port(PortType::Messages, 0, 0, 0) };
    has(machine.create_port(LAST, &any), Effect::Nothing);
    assert_eq!(machine.peek_port(root, PortId(0)), Some(any));
    assert_eq!(machine.vps(root).collect::<Vec<_>>(), (0..64).map(VpIndex).collect::<Vec<_>>());
    assert_eq!([62, 63].map(|vp| machine.vp_after(root, Some(VpIndex(vp)))), [Some(VpIndex(63)), None]);
    assert_eq!(machine.ports(root).collect::<Vec<_>>(), [0, ID - 2, ID - 1, ID].map(PortId));
    assert_eq!(machine.connections(root).last(), Some(ConnectionId(ID)));
    let run = |page, count, pooled| PageRun { page, count, pooled };
    assert_eq!(machine.page_runs(root).collect::<Vec<_>>(), [run(0, 1000, true), run(1000, 64_536, false)]);
    assert_eq!(machine.page_after(root, Some(65_534)), Some(run(65_535, 1, false)));
    assert_eq!([65_535, 65_536].map(|page| machine.page_owner(page)), [Some(root), None]);
    has(machine.delete_port(LAST, root, PortId(ID)), Effect::Nothing);
    has(machine.disconnect_port(LAST, root, ConnectionId(ID)), Effect::Nothing);
    let (ports, connections) = (machine.ports(root).count(), machine.connections(root).count());
    let row = machine.peek_partition(root).expect("the root is there");
    assert_eq!((ports, connections, row.ports, row.connections), (3, 2, 3, 2));
    assert_eq!((row.vps, row.children, row.pooled, row.in_use), (64, 0, 1000, 64 * 4 + 5));
    Ok(())
}

/// A child with the last processor, and calls of the last element that a page has room for.
#[test]
fn the_last_elements_and_the_last_processor_are_taken() -> Result<(), Status> {
    let mut machine = boot();
    assert_eq!(machine.create_partition(LAST, u64::MAX)?.value, Some(CHILD));
    has(machine.initialize_partition(LAST, CHILD), Effect::Nothing);
    let pages: Vec<u64> = (65_536 - 511..65_536).collect();
    let moved = |page, partition, pooled| Effect::Page { page, partition, pooled };
    has(machine.deposit_memory(LAST, CHILD, &pages, 510), moved(65_535, CHILD, true));
    assert_eq!(machine.deposit_pages(LAST, CHILD, &pages[..510])?.count, 510);
    let mut taken = [9; 512];
    has(machine.withdraw_memory(LAST, SELF, &mut taken, 511), moved(0, PartitionId::ROOT, false));
    assert_eq!((taken[510], taken[511]), (9, 0));
    has(machine.create_vp(LAST, CHILD, VpIndex(63)), Effect::Processor(Caller::new(2, 63)));
    assert_eq!(machine.create_vp(LAST, CHILD, VpIndex(64))?.rule(), Some(Rule(19)));
    let row = machine.peek_partition(CHILD).expect("the child is there");
    assert_eq!((row.depth, row.vps, row.pooled, row.in_use), (1, 1, 511, 4));
    let balance = machine.get_memory_balance(LAST, CHILD)?.value;
    assert_eq!(balance, Some(Balance { available: 507, in_use: 4 }));
    let name = hvpm::register::SINT15;
    let registers: Vec<_> = (0..127).map(|at| VpRegister { name, value: 0x10080 + at }).collect();
    has(machine.set_vp_registers(LAST, CHILD, VpIndex(63), &registers, 126), Effect::Nothing);
    let mut read = [VpRegister { name, value: 9 }; 256];
    has(machine.get_vp_registers(LAST, CHILD, VpIndex(63), &mut read, 255), Effect::Nothing);
    assert_eq!((read[254].value, read[255].value), (9, 0x100FE));
    assert_eq!(machine.read_registers(LAST, CHILD, VpIndex(63), &mut read[..1])?.count, 1);
    assert_eq!(read[0].value, 0x100FE);
    assert_eq!(machine.write_registers(LAST, CHILD, VpIndex(63), &registers[..1])?.count, 1);
    assert_eq!(machine.peek_msr(Caller::new(2, 63), SINT15), Some(0x10080));
    has(machine.delete_vp(LAST, CHILD, VpIndex(63)), Effect::Processor(Caller::new(2, 63)));
    has(machine.finalize_partition(LAST, CHILD), Effect::Nothing);
    has(machine.delete_partition(LAST, CHILD), Effect::Pages { from: CHILD, to: PartitionId::ROOT });
    Ok(())
}

/// EOM is the last register that a page has room for, and shows the message that waits.
#[test]
fn a_list_ends_at_a_message() -> Result<(), Status> {
    let mut machine = with_last();
    has(
        machine.clear_slot(LAST, SINT),
        Effect::Synic(Synic { freed: Some(PortId(ID)), ..at_last(1 << 15, [0; 4]) }),
    );
    let mut registers = [VpRegister { name: hvpm::register::RAX, value: 7 }; 200];
    registers[126].name = hvpm::register::EOM;
    let made = machine.write_registers(LAST, SELF, VpIndex(63), &registers)?;
    assert_eq!((made.count, made.reply.effect()), (127, Effect::Synic(at_last(1 << 15, VECTOR))));
    assert_eq!(machine.write_registers(LAST, SELF, VpIndex(63), &registers[127..])?.count, 73);
    Ok(())
}

/// A run has as many elements as there is room for outputs, and goes on at a large index.
#[test]
fn a_run_is_as_long_as_its_outputs() -> Result<(), Status> {
    let mut machine = boot();
    let call = Registers { rcx: (512 << 32) | 0x49, rdx: 0, r8: 0 };
    let mut outputs = [0; 4096];
    let run = machine.run(LAST, call, &[1], &mut outputs)?;
    assert_eq!((run.events, run.outputs.len(), run.reply.answer()), (511, 4088, Answer::More { next: 511 }));
    assert!((0..).zip(run.outputs.chunks(8)).all(|(page, bytes)| bytes == u64::to_le_bytes(page)));
    let call = Registers { rcx: next(call.rcx, &run.reply), ..call };
    let run = machine.run_at_most(LAST, call, &[1], u32::MAX, &mut outputs)?;
    assert_eq!((run.events, run.reply.answer(), run.reply.result()), (1, Answer::Served, 512 << 32));
    Ok(())
}

// ---- Numbers whose bytes all differ ----

/// The caller, who doesn't exist: P1 refuses all calls. Its lines begin with `WHO`.
const BY: Caller = Caller::new(0x0102_0304_0506_0708, 0x4142_4344);
const WHO: &str = "72623859790382856.1094861636 ";
const OF: PartitionId = PartitionId(0x1112_1314_1516_1718);
const OTHER: PartitionId = PartitionId(0x2122_2324_2526_2728);
const VP: VpIndex = VpIndex(0x3132_3334);
const NUMBER: u32 = 0x5152_5354;
const VALUE: u64 = 0x6162_6364_6566_6768;

/// The script of the events that P1 refuses, without the caller.
fn script(take: impl FnOnce(&mut Machine) -> Result<(), Status>) -> Vec<String> {
    let mut machine = Machine::boot_recorded(CONFIG).expect("it boots");
    take(&mut machine).expect("each event is taken");
    let record = machine.take_record();
    assert!(!record.is_cut && record.audit.lines().all(|line| line.contains(WHO) && line.ends_with(" P1")));
    record
        .script
        .lines()
        .skip(1)
        .map(|line| line.strip_prefix(WHO).expect("it is of the caller").into())
        .collect()
}

#[test]
fn partitions_and_processors_arrive_whole() {
    let lines = script(|machine| {
        machine.create_partition(BY, VALUE)?;
        machine.initialize_partition(BY, OF)?;
        machine.finalize_partition(BY, OF)?;
        machine.delete_partition(BY, OF)?;
        machine.get_partition_property(BY, OF, Property::CpuWeight)?;
        machine.set_partition_property(BY, OF, Property::CpuCap, VALUE)?;
        machine.get_partition_id(BY)?;
        machine.get_next_child_partition(BY, OF, OTHER)?;
        machine.get_memory_balance(BY, OF)?;
        machine.create_vp(BY, OF, VP)?;
        machine.delete_vp(BY, OF, VP)?;
        Ok(())
    });
    let wanted = [
        "call 0x40 0x0 0x0 6867666564636261",
        "call 0x10041 0x1112131415161718 0x0 -",
        "call 0x10042 0x1112131415161718 0x0 -",
        "call 0x10043 0x1112131415161718 0x0 -",
        "call 0x44 0x0 0x0 1817161514131211030002",
        "call 0x45 0x0 0x0 181716151413121102000200000000006867666564636261",
        "call 0x46 0x0 0x0 -",
        "call 0x47 0x0 0x0 18171615141312112827262524232221",
        "call 0x4a 0x0 0x0 1817161514131211",
        "call 0x1004e 0x1112131415161718 0x31323334 -",
        "call 0x1004f 0x1112131415161718 0x31323334 -",
    ];
    assert_eq!(lines, wanted);
}

#[test]
fn lists_arrive_whole() {
    let registers = [(VP.0, VALUE), (NUMBER, OTHER.0)].map(|(name, value)| VpRegister { name, value });
    let mut shown = registers;
    let lines = script(|machine| {
        machine.deposit_memory(BY, OF, &[VALUE, OTHER.0], 1)?;
        machine.withdraw_memory(BY, OF, &mut [0; 0x432], 0x321)?;
        machine.get_vp_registers(BY, OF, VP, &mut shown, 1)?;
        machine.set_vp_registers(BY, OF, VP, &registers, 1)?;
        machine.deposit_pages(BY, OF, &[VALUE, OTHER.0])?;
        machine.withdraw_pages(BY, OF, &mut [0; 0x123])?;
        machine.read_registers(BY, OF, VP, &mut shown)?;
        machine.write_registers(BY, OF, VP, &registers)?;
        machine.deposit_memory(BY, OF, &[0; 0x1_0000], 0)?;
        Ok(())
    });
    // The partition and the processor, and behind them two elements: names, or names with values.
    let read = "18171615141312113433323100000000\
                3433323154535251";
    let written = "18171615141312113433323100000000\
                   3433323100000000000000000000000068676665646362610000000000000000\
                   545352510000000000000000000000002827262524232221";
    let wanted = [
        "call 0x1000200000048 0x0 0x0 181716151413121168676665646362612827262524232221".into(),
        "call 0x321043200000049 0x0 0x0 1817161514131211".into(),
        format!("call 0x1000200000050 0x0 0x0 {read}"),
        format!("call 0x1000200000051 0x0 0x0 {written}"),
        "call 0x200000048 0x0 0x0 181716151413121168676665646362612827262524232221".into(),
        "call 0x12300000049 0x0 0x0 1817161514131211".into(),
        format!("call 0x200000050 0x0 0x0 {read}"),
        format!("call 0x200000051 0x0 0x0 {written}"),
        "call 0xffff00000048 0x0 0x0 1817161514131211".into(),
    ];
    assert_eq!(lines, wanted);
    assert_eq!(shown, registers);
}

#[test]
fn ports_and_messages_arrive_whole() {
    let (id, port) = (ConnectionId(NUMBER), PortId(NUMBER));
    let (r#type, sint) = (PortType::Events, Sint(0xF3));
    let made = Port {
        partition: OF,
        id: port,
        peer: OTHER,
        r#type,
        sint,
        vp: VP,
        base_flag: 0x7172,
        flag_count: 0x8182,
    };
    let link = Connection {
        partition: OF,
        id,
        port_partition: OTHER,
        port: PortId(VP.0),
        r#type: PortType::Messages,
    };
    let lines = script(|machine| {
        machine.delete_port(BY, OF, port)?;
        machine.disconnect_port(BY, OF, id)?;
        machine.post_message(BY, id, VP.0, &[1, 2, 3])?;
        machine.post_message(BY, id, VP.0, &[0; 0x129])?;
        machine.signal_event(BY, id, 0x7172)?;
        machine.create_port(BY, &made)?;
        machine.connect_port(BY, &link)?;
        Ok(())
    });
    let wanted = [
        "call 0x10058 0x1112131415161718 0x51525354 -",
        "call 0x1005b 0x1112131415161718 0x51525354 -",
        "call 0x5c 0x0 0x0 54535251000000003433323103000000010203",
        "call 0x5c 0x0 0x0 5453525100000000343332312901",
        "call 0x1005d 0x717251525354 0x0 -",
        "call 0x95 0x0 0x0 1817161514131211545352510000000028272625242322210200000000000000f30000003433323172718281",
        "call 0x96 0x0 0x0 181716151413121154535251000000002827262524232221343332310000000001",
    ];
    assert_eq!(lines, wanted);
}

#[test]
fn accesses_and_registers_arrive_whole() -> Result<(), Status> {
    let call = Registers { rcx: 0x4A, rdx: VALUE, r8: OTHER.0 };
    let lines = script(|machine| {
        machine.hypercall(BY, call, &[0xAB])?;
        machine.run(BY, call, &[0xAB], &mut [0; 16])?;
        machine.run_at_most(BY, call, &[0xAB], 1, &mut [0; 16])?;
        machine.read_msr(BY, NUMBER)?;
        machine.read_msr_value(BY, NUMBER)?;
        machine.write_msr(BY, NUMBER, VALUE)?;
        machine.read_slot(BY, Sint(0xF3))?;
        machine.clear_slot(BY, Sint(0xF3))?;
        machine.read_flags(BY, Sint(0xF3))?;
        machine.clear_flag(BY, Sint(0xF3), 0x7172)?;
        machine.take_interrupt(BY)?;
        Ok(())
    });
    let called = "call 0x4a 0x6162636465666768 0x2122232425262728 ab";
    let accesses = [
        (Access::ReadMsr(NUMBER), "rdmsr 0x51525354"),
        (Access::ReadMsr(NUMBER), "rdmsr 0x51525354"),
        (Access::WriteMsr(NUMBER, VALUE), "wrmsr 0x51525354 0x6162636465666768"),
        (Access::ReadSlot(Sint(0xF3)), "slot 243"),
        (Access::ClearSlot(Sint(0xF3)), "clearslot 243"),
        (Access::ReadFlags(Sint(0xF3)), "flags 243"),
        (Access::ClearFlag(Sint(0xF3), 0x7172), "clearflag 243 29042"),
        (Access::TakeInterrupt, "interrupt"),
    ];
    assert_eq!(lines[..3], [called; 3]);
    assert_eq!(lines[3..], accesses.map(|(_, line)| line));
    for (access, line) in accesses {
        assert_eq!(access_line(BY, access)?, format!("{WHO}{line}\n"));
    }
    assert_eq!(hypercall_line(BY, call, &[0xAB])?, format!("{WHO}{called}\n"));
    Ok(())
}

/// A mask with all bits, and the rest of a boot.
#[test]
fn a_boot_arrives_whole() -> Result<(), Status> {
    let config = Config { mask: 0xF7F6_F5F4_F3F2_F1F0, pages: 0xFEDC, pool: 0x4321, vps: 63 };
    let mut machine = Machine::boot_recorded(config)?;
    assert_eq!(machine.take_record().script, "boot 65244 17185 63 0xf7f6f5f4f3f2f1f0 4294967295\n");
    assert_eq!(machine.features(PartitionId::ROOT), Some([0xF3F2_F1F0, 0xF7F6_F5F4, 0, 0]));
    let row = machine.peek_partition(PartitionId::ROOT).expect("the root is there");
    assert_eq!((row.mask, row.pooled, row.vps), (config.mask, 0x4321, 63));
    assert_eq!(hvpm::boot_line(config, u32::MAX), "boot 65244 17185 63 0xf7f6f5f4f3f2f1f0 4294967295\n");
    Ok(())
}

/// Bytes that this process has in memory.
fn resident() -> u64 {
    let pages = std::fs::read_to_string("/proc/self/statm").expect("Linux tells it");
    4096 * pages.split(' ').nth(1).expect("a second number").parse::<u64>().expect("a number")
}

/// Each record has half a megabyte.
#[test]
fn a_record_is_freed_with_its_machine() -> Result<(), Status> {
    let record = || -> Result<(), Status> {
        let mut machine = Machine::boot_recorded(CONFIG)?;
        for _ in 0..64 {
            let call = Registers { rcx: (511 << 32) | 0x48, ..Registers::default() };
            machine.hypercall(ROOT, call, &[0xFF; 4096])?;
        }
        Ok(())
    };
    record()?;
    let before = resident();
    (0..100).try_for_each(|_| record())?;
    assert!(resident() < before + (25 << 20), "{} bytes are left", resident() - before);
    Ok(())
}
