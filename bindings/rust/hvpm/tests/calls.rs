//! The hypercalls by their fields, by the audit's lines and by their values. The audits are those of a script
//! and of the typed calls in C, typed by hand.

mod common;

use common::ROOT;
use hvpm::{Answer, Balance, Caller, Config, Connection, ConnectionId, Machine, Output, PartitionId, Port};
use hvpm::{PortId, PortType, Property, Reply, Sint, Status, VpIndex, VpRegister};

const SELF: PartitionId = PartitionId::SELF;
const SECOND: Caller = Caller::new(1, 1);

/// A machine, and the audit of its events.
struct Audited {
    machine: Machine,
    audit: String,
}

impl Audited {
    fn boot(pages: u32, pool: u32) -> Audited {
        let config = Config { mask: 0xf7_0000_0044, pages, pool, vps: 1 };
        Audited { machine: Machine::boot(config).expect("it boots").audited(), audit: String::new() }
    }

    fn take(&mut self, take: impl FnOnce(&mut Machine) -> Result<Reply, Status>) -> Answer {
        let reply = take(&mut self.machine).expect("it is taken");
        self.audit += reply.line();
        reply.answer()
    }

    /// Takes an event whose value is this one, or which has none.
    #[track_caller]
    fn gives<T: PartialEq + std::fmt::Debug>(
        &mut self,
        value: impl Into<Option<T>>,
        take: impl FnOnce(&mut Machine) -> Result<Output<T>, Status>,
    ) {
        let output = take(&mut self.machine).expect("it is taken");
        self.audit += output.reply.line();
        assert_eq!(output.value, value.into());
    }

    /// Takes all elements of a rep call.
    fn drive(&mut self, mut take: impl FnMut(&mut Machine, u16) -> Result<Reply, Status>) {
        let mut answer = self.take(|machine| take(machine, 0));
        while let Answer::More { next } = answer {
            answer = self.take(|machine| take(machine, next));
        }
    }

    #[track_caller]
    fn balance(&mut self, partition: PartitionId, available: u64, in_use: u64) {
        self.gives(Balance { available, in_use }, |machine| machine.get_memory_balance(ROOT, partition));
    }

    /// The audit is this one.
    #[track_caller]
    fn is(self, audit: &str) {
        assert_eq!(self.audit + &format!("events {}\n", self.machine.events()), audit);
    }
}

#[test]
fn a_life_is_that_of_the_script() {
    let (mut told, child) = (Audited::boot(64, 32), PartitionId(2));
    let port = Port {
        partition: PartitionId(1),
        id: PortId(5),
        peer: child,
        r#type: PortType::Messages,
        sint: Sint(2),
        vp: VpIndex(0),
        base_flag: 0,
        flag_count: 0,
    };
    told.gives(child, |machine| machine.create_partition(ROOT, 0));
    let mask = 0x92_0000_0000;
    told.take(|machine| machine.set_partition_property(ROOT, child, Property::PrivilegeFlags, mask));
    told.take(|machine| machine.initialize_partition(ROOT, child));
    told.drive(|machine, at| machine.deposit_memory(ROOT, child, &[32, 33, 34, 35, 36], at));
    told.take(|machine| machine.create_vp(ROOT, child, VpIndex(0)));
    told.take(|machine| machine.create_port(ROOT, &port));
    for (msr, value) in [(0x4000_0080, 1), (0x4000_0083, 1), (0x4000_0092, 0x30)] {
        told.take(|machine| machine.write_msr(ROOT, msr, value));
    }
    talk(&mut told, child);
    told.balance(child, 0, 5);
    told.take(|machine| machine.finalize_partition(ROOT, child));
    told.balance(child, 5, 0);
    told.take(|machine| machine.delete_partition(ROOT, child));
    told.gives(None, |machine| machine.get_partition_id(Caller::new(2, 0)));
    told.take(|machine| machine.delete_port(ROOT, PartitionId(1), PortId(5)));
    told.balance(PartitionId(1), 28, 4);
    told.is(include_str!("life.audit"));
}

/// The child posts, and the root takes the message.
fn talk(told: &mut Audited, child: PartitionId) {
    let (by, id) = (Caller::new(2, 0), ConnectionId(7));
    let (port_partition, port, r#type) = (PartitionId(1), PortId(5), PortType::Messages);
    let connection = Connection { partition: child, id, port_partition, port, r#type };
    told.gives(child, |machine| machine.get_partition_id(by));
    told.take(|machine| machine.connect_port(by, &connection));
    told.take(|machine| machine.post_message(by, id, 1, b"hello"));
    told.gives(None, |machine| machine.create_partition(by, 0));
    told.take(|machine| machine.take_interrupt(ROOT));
    told.take(|machine| machine.read_slot(ROOT, Sint(2)));
    told.take(|machine| machine.clear_slot(ROOT, Sint(2)));
    told.take(|machine| machine.write_msr(ROOT, 0x4000_0084, 0));
}

#[test]
fn the_other_calls_have_the_audit_of_c() {
    let mut told = Audited::boot(32, 16);
    let properties = [
        (Property::PrivilegeFlags, 0xf7_0000_0044),
        (Property::CpuReserve, 0),
        (Property::CpuCap, 65_536),
        (Property::CpuWeight, 100),
    ];
    for (property, value) in properties {
        told.gives(value, |machine| machine.get_partition_property(ROOT, SELF, property));
    }
    let nobody = PartitionId(9);
    told.gives(None, |machine| machine.get_partition_property(ROOT, nobody, Property::CpuWeight));
    let mut pages = [0xA5, 0xA5];
    told.drive(|machine, at| machine.withdraw_memory(ROOT, SELF, &mut pages, at));
    assert_eq!(pages, [0, 1]);
    for child in [2, 3] {
        told.gives(PartitionId(child), |machine| machine.create_partition(ROOT, 0));
    }
    for (previous, child) in [(0, 2), (2, 3), (3, 0)] {
        let previous = PartitionId(previous);
        told.gives(PartitionId(child), |machine| machine.get_next_child_partition(ROOT, SELF, previous));
    }
    set_registers(&mut told);
    signal_flags(&mut told);
    told.take(|machine| machine.disconnect_port(ROOT, SELF, ConnectionId(8)));
    told.take(|machine| machine.delete_vp(ROOT, SELF, VpIndex(1)));
    told.balance(SELF, 5, 9);
    told.is(include_str!("typed.out"));
}

/// A second processor of the root, and registers of it.
fn set_registers(told: &mut Audited) {
    let set = [(0xA0010, 1), (0xA0003, 0x33), (0xA0012, 0xfedc_ba98_7654_3211)]
        .map(|(name, value)| VpRegister { name, value });
    told.take(|machine| machine.create_vp(ROOT, SELF, VpIndex(1)));
    told.drive(|machine, at| machine.set_vp_registers(ROOT, SELF, VpIndex(1), &set, at));
    let mut get = [0x90003, 0xA0012].map(|name| VpRegister { name, value: 0xA5 });
    told.drive(|machine, at| machine.get_vp_registers(ROOT, SELF, VpIndex(1), &mut get, at));
    assert_eq!(get.map(|register| register.value), [1, 0xfedc_ba98_7654_3211]);
    told.gives(0x33, |machine| machine.read_msr_value(SECOND, 0x4000_0093));
    told.gives(None, |machine| machine.read_msr_value(ROOT, 0x4000_0071));
}

/// A port of flags 8 to 11 at the processor that is ready, which is the second.
fn signal_flags(told: &mut Audited) {
    let port = Port {
        partition: SELF,
        id: PortId(6),
        peer: SELF,
        r#type: PortType::Events,
        sint: Sint(3),
        vp: VpIndex::ANY,
        base_flag: 8,
        flag_count: 4,
    };
    let (id, port_id, r#type) = (ConnectionId(8), PortId(6), PortType::Events);
    let connection = Connection { partition: SELF, id, port_partition: SELF, port: port_id, r#type };
    told.take(|machine| machine.create_port(ROOT, &port));
    told.take(|machine| machine.connect_port(ROOT, &connection));
    told.take(|machine| machine.signal_event(ROOT, id, 3));
    told.take(|machine| machine.signal_event(ROOT, id, 4));
    told.take(|machine| machine.clear_flag(SECOND, Sint(3), 11));
    told.take(|machine| machine.take_interrupt(SECOND));
}

/// P5 and P6 refuse a list that no page has room for, and P7 a payload of more than 240 bytes.
#[test]
fn lists_and_payloads_that_are_too_long_are_refused() -> Result<(), Status> {
    let mut machine = Audited::boot(32, 16).machine;
    let rules = [
        (machine.deposit_memory(ROOT, SELF, &[0; 512], 0)?, 6),
        (machine.deposit_memory(ROOT, SELF, &[0; 0x1_0000], 0)?, 5),
        (machine.withdraw_memory(ROOT, SELF, &mut [0; 513], 0)?, 6),
        (machine.get_vp_registers(ROOT, SELF, VpIndex(0), &mut [VpRegister::default(); 1021], 0)?, 6),
        (machine.set_vp_registers(ROOT, SELF, VpIndex(0), &[VpRegister::default(); 128], 0)?, 6),
        (machine.set_vp_registers(ROOT, SELF, VpIndex(0), &[], 0)?, 5),
        (machine.post_message(ROOT, ConnectionId(1), 1, &[0; 241])?, 7),
        (machine.post_message(ROOT, ConnectionId(1), 1, &[0; 240])?, 16),
    ];
    for (number, (reply, rule)) in rules.iter().enumerate() {
        assert_eq!(reply.rule(), Some(hvpm::Rule(*rule)), "case {number}");
    }
    Ok(())
}

#[test]
fn lists_are_longer_than_a_page() -> Result<(), Status> {
    let mut machine = Machine::boot(Config { mask: 0xf7_0000_0044, pages: 2000, pool: 1000, vps: 1 })?;
    let mut pages = [99; 600];
    let made = machine.withdraw_pages(ROOT, SELF, &mut pages)?;
    assert_eq!((made.count, made.reply.answer()), (600, Answer::Served));
    assert!((0..).zip(pages).all(|(at, page)| page == at));
    assert_eq!(machine.deposit_pages(ROOT, SELF, &pages)?.count, 600);
    pages[..550].iter_mut().for_each(|page| *page += 1000);
    let made = machine.deposit_pages(ROOT, SELF, &pages)?;
    assert_eq!((made.count, made.reply.rule()), (550, Some(hvpm::Rule(hvpm::rule::P21))));

    let mut registers: Vec<_> = (0..600)
        .map(|at| VpRegister { name: hvpm::register::RAX + at % 16, value: 7 * u64::from(at) })
        .collect();
    assert_eq!(machine.write_registers(ROOT, SELF, VpIndex(0), &registers)?.count, 600);
    assert_eq!(machine.read_registers(ROOT, SELF, VpIndex(0), &mut registers)?.count, 600);
    assert_eq!((registers[0].value, registers[8].value, registers[599].value), (7 * 592, 7 * 584, 7 * 599));
    assert_eq!(machine.events(), 600 + 600 + 551 + 600 + 600);
    Ok(())
}
