//! Boot, hypercalls by their registers, accesses, and the lines of a script.

mod common;

use common::{CONFIG, ROOT, bytes, is_fault, is_served, set_up, shown};
use hvpm::{Access, Answer, Caller, Config, HvStatus, Machine, Registers, Rule, Sint, Status};
use hvpm::{access_line, boot_line, hypercall_line, next};

#[test]
fn slots_are_no_flags() {
    let mut machine = set_up();
    let (slot, flags) = shown();
    is_served(machine.read_slot(ROOT, Sint(2)), "12 1.0 slot 2", &slot);
    is_served(machine.read_slot(ROOT, Sint(3)), "13 1.0 slot 3", &[0; 256]);
    is_served(machine.read_flags(ROOT, Sint(3)), "14 1.0 flags 3", &flags);
    is_served(machine.read_flags(ROOT, Sint(2)), "15 1.0 flags 2", &[0; 256]);
    is_served(machine.clear_flag(ROOT, Sint(3), 5), "16 1.0 clearflag 3 5", &[]);
    is_served(machine.read_flags(ROOT, Sint(3)), "17 1.0 flags 3", &[0; 256]);
    is_served(machine.read_slot(ROOT, Sint(2)), "18 1.0 slot 2", &slot);
    is_served(machine.clear_slot(ROOT, Sint(2)), "19 1.0 clearslot 2", &[]);
    is_served(machine.read_slot(ROOT, Sint(2)), "20 1.0 slot 2", &[0; 256]);
    assert_eq!(machine.events(), 20);
}

#[test]
fn numbers_arrive_whole() {
    let mut machine = set_up();
    is_served(machine.clear_flag(ROOT, Sint(15), 2047), "12 1.0 clearflag 15 2047", &[]);
    is_fault(machine.clear_flag(ROOT, Sint(5), 2048), "13 1.0 clearflag 5 2048", 21);
    is_fault(machine.clear_flag(ROOT, Sint(255), 65535), "14 1.0 clearflag 255 65535", 21);
    is_fault(machine.read_slot(ROOT, Sint(16)), "15 1.0 slot 16", 21);
    is_fault(machine.clear_slot(ROOT, Sint(17)), "16 1.0 clearslot 17", 21);
    is_fault(machine.read_flags(ROOT, Sint(255)), "17 1.0 flags 255", 21);
    let (siefp, value) = (0x4000_0082, 0xfedc_ba98_7654_3211u64);
    is_served(machine.write_msr(ROOT, siefp, value), "18 1.0 wrmsr 40000082 fedcba9876543211", &[]);
    is_served(machine.read_msr(ROOT, siefp), "19 1.0 rdmsr 40000082", &value.to_le_bytes());
    is_fault(machine.read_msr(ROOT, 0xffff_ffff), "20 1.0 rdmsr ffffffff", 25);
    is_fault(machine.write_msr(ROOT, 0x4000_0092, 0xf), "21 1.0 wrmsr 40000092 000000000000000f", 27);
    let stranger = Caller::new(u64::MAX - 1, u32::MAX);
    is_fault(machine.take_interrupt(stranger), "22 18446744073709551614.4294967295 interrupt", 1);
    is_fault(machine.take_interrupt(Caller::new(1, 1)), "23 1.1 interrupt", 3);
}

#[test]
fn an_msr_is_read_as_a_number() -> Result<(), Status> {
    let mut machine = Machine::boot(CONFIG)?.audited();
    let sint = machine.read_msr_value(ROOT, 0x4000_0093)?;
    assert_eq!(
        (sint.value, sint.reply.line()),
        (Some(0x10000), "1 1.0 rdmsr 40000093 ok 0000010000000000\n")
    );
    let unknown = machine.read_msr_value(ROOT, 0x4000_0000)?;
    assert_eq!((unknown.value, unknown.reply.rule()), (None, Some(Rule(25))));
    Ok(())
}

#[test]
fn the_highest_vector_is_taken_first() {
    let mut machine = set_up();
    is_served(machine.take_interrupt(ROOT), "12 1.0 interrupt", &[0x33]);
    is_served(machine.take_interrupt(ROOT), "13 1.0 interrupt", &[0x32]);
    is_served(machine.take_interrupt(ROOT), "14 1.0 interrupt", &[0]);
}

#[test]
fn a_call_continues_at_the_next_element() -> Result<(), Status> {
    let mut machine = Machine::boot(CONFIG)?.audited();
    let call = Registers { rcx: (2 << 32) | 0x49, rdx: 0, r8: 8 };
    let reply = machine.hypercall(ROOT, call, &[1])?;
    assert_eq!(reply.line(), "1 1.0 call 0000000200000049 more 0000000100000000 0000000000000000\n");
    assert_eq!((reply.answer(), reply.result()), (Answer::More { next: 1 }, 1 << 32));
    assert_eq!(next(call.rcx, &reply), (1 << 48) | (2 << 32) | 0x49);
    // The index takes the place of the one before.
    assert_eq!(next((0xFFF << 48) | call.rcx, &reply), (1 << 48) | (2 << 32) | 0x49);
    let reply = machine.hypercall(ROOT, Registers { rcx: next(call.rcx, &reply), ..call }, &[1])?;
    assert_eq!(reply.line(), "2 1.0 call 0001000200000049 ok 0000000200000000 0100000000000000\n");
    assert_eq!((reply.answer(), reply.result()), (Answer::Served, 2 << 32));
    Ok(())
}

#[test]
fn rdx_and_r8_are_the_input_of_a_fast_call() -> Result<(), Status> {
    let mut machine = Machine::boot(CONFIG)?.audited();
    let reply = machine.hypercall(ROOT, Registers { rcx: 0x1004E, rdx: 7, r8: 1 }, &[])?;
    assert_eq!(reply.line(), "1 1.0 call 000000000001004e denied 000000000000000d P9\n");
    assert_eq!(
        (reply.answer(), reply.result(), reply.output()),
        (Answer::Denied { rule: Rule(9) }, 0xD, &[][..])
    );
    let reply = machine.hypercall(ROOT, Registers { rcx: 0x1004E, rdx: 1, r8: 64 }, &[])?;
    assert_eq!(reply.line(), "2 1.0 call 000000000001004e denied 000000000000000e P19\n");
    Ok(())
}

/// Served, denied, and a fault.
#[test]
fn a_reply_has_a_status_and_a_rule() -> Result<(), Status> {
    let mut machine = Machine::boot(CONFIG)?.audited();
    let call = |rcx| Registers { rcx, rdx: 0, r8: 0 };
    let served = machine.hypercall(ROOT, call(0x46), &[])?;
    assert_eq!((served.is_served(), served.status(), served.rule()), (true, Some(HvStatus(0)), None));
    let more = machine.hypercall(ROOT, call((2 << 32) | 0x49), &[1])?;
    assert_eq!((more.is_served(), more.status(), more.rule()), (true, Some(HvStatus(0)), None));
    let denied = machine.hypercall(ROOT, call(0x97), &[])?;
    assert_eq!(
        (denied.is_served(), denied.status(), denied.rule()),
        (false, Some(HvStatus(2)), Some(Rule(4)))
    );
    let fault = machine.read_slot(ROOT, Sint(16))?;
    assert_eq!((fault.is_served(), fault.status(), fault.rule()), (false, None, Some(Rule(21))));
    assert_eq!(
        format!("{:?}", machine.read_slot(ROOT, Sint(16))?),
        "Reply { answer: Fault { rule: Rule(21) }, result: 0, output: [], effect: Nothing }"
    );
    Ok(())
}

#[test]
fn elements_are_taken_in_a_run() -> Result<(), Status> {
    let mut machine = Machine::boot(CONFIG)?.audited();
    let call = Registers { rcx: (3 << 32) | 0x49, rdx: 0, r8: 0 };
    let mut outputs = [0xA5; 31];
    let run = machine.run(ROOT, call, &[1], &mut outputs)?;
    assert_eq!((run.events, run.reply.answer(), run.reply.line()), (2, Answer::More { next: 2 }, ""));
    assert_eq!(run.outputs, bytes::<16>(&[(8, 1)]));
    let call = Registers { rcx: next(call.rcx, &run.reply), ..call };
    let run = machine.run(ROOT, call, &[1], &mut outputs)?;
    assert_eq!((run.events, run.reply.answer(), run.reply.result()), (1, Answer::Served, 3 << 32));
    assert_eq!((run.outputs, run.reply.output()), (&bytes::<8>(&[(0, 2)])[..], &bytes::<8>(&[(0, 2)])[..]));
    assert_eq!(machine.run(ROOT, call, &[1], &mut outputs[..15]).err(), Some(Status::Short));
    assert_eq!(machine.events(), 3);
    Ok(())
}

#[test]
fn a_run_may_be_bounded() -> Result<(), Status> {
    let mut machine = Machine::boot(CONFIG)?;
    let mut call = Registers { rcx: (3 << 32) | 0x49, rdx: 0, r8: 0 };
    let mut outputs = [0xA5; 32];
    assert_eq!(machine.run_at_most(ROOT, call, &[1], 0, &mut outputs).err(), Some(Status::Short));
    let run = machine.run_at_most(ROOT, call, &[1], 2, &mut outputs)?;
    assert_eq!((run.events, run.reply.answer()), (2, Answer::More { next: 2 }));
    call.rcx = next(call.rcx, &run.reply);
    let run = machine.run_at_most(ROOT, call, &[1], 2, &mut outputs)?;
    assert_eq!(
        (run.events, run.reply.answer(), run.outputs),
        (1, Answer::Served, &bytes::<8>(&[(0, 2)])[..])
    );
    assert_eq!(machine.events(), 3);
    Ok(())
}

#[test]
fn events_are_explained() -> Result<(), Status> {
    let mut machine = Machine::boot(CONFIG)?;
    let id = Registers { rcx: 0x46, ..Registers::default() };
    let reply = machine.hypercall(ROOT, id, &[])?;
    assert_eq!(machine.explain(ROOT, id, &[], &reply)?, "HvGetPartitionId: ok, partition 1");
    let get = Registers { rcx: (1 << 32) | 0x50, ..Registers::default() };
    let input = bytes::<20>(&[(0, 9), (18, 9)]);
    let reply = machine.hypercall(ROOT, get, &input)?;
    assert!(machine.explain(ROOT, get, &input, &reply)?.ends_with("P9: the target doesn't exist"));
    let reply = machine.write_msr(ROOT, 0x4000_0092, 0xf)?;
    let words = machine.explain_access(ROOT, Access::WriteMsr(0x4000_0092, 0xf), &reply)?;
    assert!(words.contains("fault, P27: "), "{words}");
    assert_eq!(machine.events(), 3);
    Ok(())
}

#[test]
fn boots_are_refused() {
    let refusals = [
        (Config { pages: 0, ..CONFIG }, Status::Pages),
        (Config { pages: 65_537, pool: 65_537, vps: 0, ..CONFIG }, Status::Pages),
        (Config { pool: 33, ..CONFIG }, Status::Pool),
        (Config { pages: 11, vps: 65, ..CONFIG }, Status::Pool),
        (Config { vps: 0, ..CONFIG }, Status::Vps),
        (Config { vps: 4, ..CONFIG }, Status::Vps),
    ];
    for (config, status) in refusals {
        assert_eq!(Machine::boot(config).err(), Some(status), "{config:?}");
    }
    assert!(Machine::boot(Config { vps: 3, ..CONFIG }).is_ok());
}

#[test]
fn a_machine_moves_to_another_thread() {
    let mut machine = set_up();
    let thread =
        std::thread::spawn(move || machine.take_interrupt(ROOT).map(|reply| reply.output().to_vec()));
    assert_eq!(thread.join().expect("it ends"), Ok(vec![0x33]));
}

/// Each line is what docs/POLICY.md says of a script.
#[test]
fn events_are_lines_of_a_script() {
    let by = Caller::new(2, 1);
    let call = Registers { rcx: (6 << 32) | 0x48, rdx: 0x3000, r8: 0 };
    assert_eq!(boot_line(CONFIG, 1000), "boot 32 12 1 0xf700000044 1000\n");
    let line = hypercall_line(by, call, &[2, 0, 0xAB]);
    assert_eq!(line, Ok("2.1 call 0x600000048 0x3000 0x0 0200ab\n".into()));
    assert_eq!(hypercall_line(ROOT, call, &[]), Ok("1.0 call 0x600000048 0x3000 0x0 -\n".into()));
    assert_eq!(hypercall_line(ROOT, call, &[7; 4097]), hypercall_line(ROOT, call, &[7; 4096]));
    let accesses = [
        (Access::ReadMsr(0x4000_0092), "rdmsr 0x40000092"),
        (Access::WriteMsr(0x4000_0092, 0x32), "wrmsr 0x40000092 0x32"),
        (Access::ReadSlot(Sint(2)), "slot 2"),
        (Access::ClearSlot(Sint(255)), "clearslot 255"),
        (Access::ReadFlags(Sint(0)), "flags 0"),
        (Access::ClearFlag(Sint(3), 65535), "clearflag 3 65535"),
        (Access::TakeInterrupt, "interrupt"),
    ];
    for (access, words) in accesses {
        assert_eq!(access_line(by, access), Ok(format!("2.1 {words}\n")));
    }
}

#[test]
fn a_line_is_made_only_where_it_is_asked_for() -> Result<(), Status> {
    let mut machine = Machine::boot(CONFIG)?;
    let read = |machine: &mut Machine| machine.read_msr(ROOT, 0x4000_0002);
    assert_eq!(read(&mut machine)?.line(), "");
    let mut machine = machine.audited();
    assert_eq!(read(&mut machine)?.line(), "2 1.0 rdmsr 40000002 ok 0000000000000000\n");
    Ok(())
}
