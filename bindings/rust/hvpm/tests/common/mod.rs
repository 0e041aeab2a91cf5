//! What the tests share. The values are those of docs/POLICY.md.
#![allow(dead_code)]

use hvpm::{
    Answer, Caller, Config, Connection, ConnectionId, Effect, Machine, PartitionId, Port, PortId, PortType,
};
use hvpm::{Registers, Reply, Rule, Sint, Status, VpIndex};

pub const CONFIG: Config = Config { mask: 0xf7_0000_0044, pages: 32, pool: 12, vps: 1 };
pub const ROOT: Caller = Caller::new(1, 0);

/// Bytes with these at their places, and zeros between.
pub fn bytes<const LEN: usize>(places: &[(usize, u8)]) -> [u8; LEN] {
    let mut bytes = [0; LEN];
    for (at, byte) in places {
        bytes[*at] = *byte;
    }
    bytes
}

/// The text of bytes in the audit.
fn hex(bytes: &[u8]) -> String {
    if bytes.is_empty() {
        return "-".into();
    }
    bytes.iter().fold(String::new(), |text, byte| text + &format!("{byte:02x}"))
}

/// An access is served with this output, and its line says which one it was.
#[track_caller]
pub fn is_served(reply: Result<Reply, Status>, event: &str, output: &[u8]) {
    let reply = reply.expect("it is taken");
    assert_eq!(reply.line(), format!("{event} ok {}\n", hex(output)));
    assert_eq!((reply.answer(), reply.result(), reply.output()), (Answer::Served, 0, output));
}

/// An access is a fault by this rule.
#[track_caller]
pub fn is_fault(reply: Result<Reply, Status>, event: &str, rule: u32) {
    let reply = reply.expect("it is taken");
    let rule = Rule(rule);
    assert_eq!(reply.line(), format!("{event} fault {rule}\n"));
    assert_eq!((reply.answer(), reply.result(), reply.output()), (Answer::Fault { rule }, 0, &[][..]));
}

/// A machine after 11 events: SINT 2 of processor 1.0 shows a message and raised 0x32, and flag 5 of SINT 3
/// is set and raised 0x33.
pub fn set_up() -> Machine {
    let mut machine = Machine::boot(CONFIG).expect("it boots").audited();
    let msrs: [(u32, u64); 5] =
        [(0x4000_0080, 1), (0x4000_0082, 1), (0x4000_0083, 1), (0x4000_0092, 0x32), (0x4000_0093, 0x33)];
    for (number, (msr, value)) in (1..).zip(msrs) {
        let event = format!("{number} 1.0 wrmsr {msr:08x} {value:016x}");
        is_served(machine.write_msr(ROOT, msr, value), &event, &[]);
    }
    let calls: [(u64, u64, &[u8]); 6] = [
        (0x95, 0, &bytes::<48>(&[(0, 1), (8, 2), (16, 1), (24, 1), (32, 2)])),
        (0x96, 0, &bytes::<48>(&[(0, 1), (8, 2), (16, 1), (24, 2), (32, 1)])),
        (0x95, 0, &bytes::<48>(&[(0, 1), (8, 3), (16, 1), (24, 2), (32, 3), (42, 8)])),
        (0x96, 0, &bytes::<48>(&[(0, 1), (8, 3), (16, 1), (24, 3), (32, 2)])),
        (0x5C, 0, &bytes::<17>(&[(0, 2), (8, 1), (12, 1), (16, 0x68)])),
        (0x1005D, (5 << 32) | 3, &[]),
    ];
    for (number, (rcx, rdx, input)) in (6..).zip(calls) {
        let reply = machine.hypercall(ROOT, Registers { rcx, rdx, r8: 0 }, input).expect("it is taken");
        assert_eq!(reply.line(), format!("{number} 1.0 call {rcx:016x} ok 0000000000000000 -\n"));
    }
    machine
}

/// What SINT 2 of that machine shows, and the flags of its SINT 3.
pub fn shown() -> ([u8; 256], [u8; 256]) {
    (bytes(&[(0, 1), (4, 1), (8, 2), (16, 0x68)]), bytes(&[(0, 0x20)]))
}

pub const CHILD: PartitionId = PartitionId(2);
pub const GUEST: Caller = Caller::new(2, 0);

/// The root has connection 1 to the child's port for messages at SINT 2, which raises 0x82, and connection 2
/// to its port for the flags from 8 on at SINT 3, which raises 0x33.
pub const POST: ConnectionId = ConnectionId(1);
pub const SIGNAL: ConnectionId = ConnectionId(2);

/// An event is served with this effect.
#[track_caller]
pub fn has(reply: Result<Reply, Status>, effect: Effect) {
    let reply = reply.expect("it is taken");
    assert!(reply.is_served(), "{}", reply.line());
    assert_eq!(reply.effect(), effect, "{}", reply.line());
}

/// A root, and partition 2 with processor 0 and 12 pages, from 20 on. Its registers are at their start.
pub fn with_child() -> Result<Machine, Status> {
    let mut machine = Machine::boot(Config { mask: 0xf7_0000_0044, pages: 64, pool: 16, vps: 1 })?.audited();
    let pages: Vec<u64> = (20..32).collect();
    let child = machine.create_partition(ROOT, 0)?;
    assert_eq!((child.value, child.reply.effect()), (Some(CHILD), Effect::Nothing));
    has(machine.initialize_partition(ROOT, CHILD), Effect::Nothing);
    for (at, page) in (0..).zip(20..32) {
        let moved = Effect::Page { page, partition: CHILD, pooled: true };
        has(machine.deposit_memory(ROOT, CHILD, &pages, at), moved);
    }
    has(machine.create_vp(ROOT, CHILD, VpIndex(0)), Effect::Processor(GUEST));
    for (id, r#type, sint, base_flag, flag_count) in
        [(5, PortType::Messages, 2, 0, 0), (7, PortType::Events, 3, 8, 4)]
    {
        let (id, sint, vp) = (PortId(id), Sint(sint), VpIndex(0));
        let port =
            Port { partition: CHILD, id, peer: PartitionId(1), r#type, sint, vp, base_flag, flag_count };
        has(machine.create_port(ROOT, &port), Effect::Nothing);
    }
    for (id, port, r#type) in [(POST, 5, PortType::Messages), (SIGNAL, 7, PortType::Events)] {
        let (partition, port) = (PartitionId(1), PortId(port));
        let connection = Connection { partition, id, port_partition: CHILD, port, r#type };
        has(machine.connect_port(ROOT, &connection), Effect::Nothing);
    }
    Ok(machine)
}

/// Makes the child's processor ready for messages and event flags.
pub fn enable(machine: &mut Machine) {
    for (msr, value) in [(0x80, 1), (0x82, 1), (0x83, 1), (0x92, 0x82), (0x93, 0x33)] {
        has(machine.write_msr(GUEST, 0x4000_0000 + msr, value), Effect::Nothing);
    }
}
