//! The effect of each event, as docs/POLICY.md says what the event changes.

mod common;

use common::{CHILD, GUEST, POST, ROOT, SIGNAL, enable, has, with_child};
use hvpm::{Answer, Effect, FlagChange, Machine, PartitionId, PortId, Registers, Rule, Sint, Status, Synic};
use hvpm::{VpIndex, next};

/// At the child's processor these slots show another message, or none, and this vector was raised.
fn at_guest(shown: u16, vector: Option<u8>) -> Synic {
    let mut raised = [0; 4];
    if let Some(vector) = vector {
        raised[usize::from(vector / 64)] = 1 << (vector % 64);
    }
    Synic { at: GUEST, shown, waiting: 0, flag: None, raised, freed: None }
}

fn ready() -> Result<Machine, Status> {
    let mut machine = with_child()?;
    enable(&mut machine);
    Ok(machine)
}

#[test]
fn messages_are_shown_wait_and_go() -> Result<(), Status> {
    let mut machine = ready()?;
    has(machine.post_message(ROOT, POST, 9, b"one"), Effect::Synic(at_guest(1 << 2, Some(0x82))));
    let waits = Synic { waiting: 1 << 2, ..at_guest(0, None) };
    has(machine.post_message(ROOT, POST, 9, b"two"), Effect::Synic(waits));
    let gone = Effect::Synic(Synic { freed: Some(PortId(5)), ..at_guest(1 << 2, None) });
    has(machine.clear_slot(GUEST, Sint(2)), gone);
    has(machine.clear_slot(GUEST, Sint(2)), Effect::Nothing);
    has(machine.write_msr(GUEST, 0x4000_0084, 0), Effect::Synic(at_guest(1 << 2, Some(0x82))));
    has(machine.take_interrupt(GUEST), Effect::Synic(at_guest(0, None)));
    Ok(())
}

#[test]
fn flags_are_set_and_cleared() -> Result<(), Status> {
    let mut machine = ready()?;
    let flag = |is_set| Some(FlagChange { sint: Sint(3), flag: 10, is_set });
    let set = Synic { flag: flag(true), ..at_guest(0, Some(0x33)) };
    has(machine.signal_event(ROOT, SIGNAL, 2), Effect::Synic(set));
    has(machine.signal_event(ROOT, SIGNAL, 2), Effect::Nothing);
    let cleared = Synic { flag: flag(false), ..at_guest(0, None) };
    has(machine.clear_flag(GUEST, Sint(3), 10), Effect::Synic(cleared));
    Ok(())
}

#[test]
fn pages_and_processors_go() -> Result<(), Status> {
    let (mut machine, root) = (ready()?, PartitionId(1));
    let mut pages = [0];
    let withdrawn = machine.withdraw_memory(ROOT, CHILD, &mut pages, 0);
    has(withdrawn, Effect::Page { page: 20, partition: root, pooled: false });
    assert_eq!(pages, [20]);
    has(machine.delete_vp(ROOT, CHILD, VpIndex(0)), Effect::Processor(GUEST));
    has(machine.create_vp(ROOT, CHILD, VpIndex(0)), Effect::Processor(GUEST));
    has(machine.finalize_partition(ROOT, CHILD), Effect::Partition(CHILD));
    has(machine.delete_partition(ROOT, CHILD), Effect::Pages { from: CHILD, to: root });
    Ok(())
}

#[test]
fn what_is_refused_has_no_effect() -> Result<(), Status> {
    let mut machine = ready()?;
    let denied = machine.create_vp(ROOT, CHILD, VpIndex(0))?;
    assert_eq!((denied.answer(), denied.effect()), (Answer::Denied { rule: Rule(19) }, Effect::Nothing));
    let fault = machine.clear_slot(GUEST, Sint(16))?;
    assert_eq!((fault.answer(), fault.effect()), (Answer::Fault { rule: Rule(21) }, Effect::Nothing));
    Ok(())
}

#[test]
fn a_run_ends_at_an_effect_that_is_no_page() -> Result<(), Status> {
    let mut machine = ready()?;
    has(machine.post_message(ROOT, POST, 9, b"one"), Effect::Synic(at_guest(1 << 2, Some(0x82))));
    has(
        machine.post_message(ROOT, POST, 9, b"two"),
        Effect::Synic(Synic { waiting: 4, ..at_guest(0, None) }),
    );
    has(
        machine.clear_slot(GUEST, Sint(2)),
        Effect::Synic(Synic { freed: Some(PortId(5)), ..at_guest(1 << 2, None) }),
    );
    // HvSetVpRegisters of SINT 5, EOM and SINT 6 of processor 2.0: EOM shows the second message.
    let mut input = [0; 16 + 3 * 32];
    input[0] = 2;
    for (at, name) in [(16, 0x05), (48, 0x14), (80, 0x06)] {
        input[at..at + 3].copy_from_slice(&[name, 0, 0x0A]);
        input[at + 16] = 0x40;
    }
    let call = Registers { rcx: (3 << 32) | 0x51, rdx: 0, r8: 0 };
    let mut outputs = [0; 16];
    let run = machine.run(ROOT, call, &input, &mut outputs)?;
    assert_eq!((run.events, run.reply.answer()), (2, Answer::More { next: 2 }));
    assert_eq!(run.reply.effect(), Effect::Synic(at_guest(1 << 2, Some(0x82))));
    let call = Registers { rcx: next(call.rcx, &run.reply), ..call };
    let run = machine.run(ROOT, call, &input, &mut outputs)?;
    assert_eq!((run.events, run.reply.answer(), run.reply.effect()), (1, Answer::Served, Effect::Nothing));
    Ok(())
}
