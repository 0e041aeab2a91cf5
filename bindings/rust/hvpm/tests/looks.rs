//! Looks: each shows what an event would read, or what was made, and none is counted.

mod common;

use common::{CONFIG, ROOT, set_up, shown, with_child};
use hvpm::{Caller, Connection, ConnectionId, Life, Machine, Partition, PartitionId, Port, PortId, PortType};
use hvpm::{PageRun, Sint, Status, VpIndex, is_call, is_msr};

const NOBODY: Caller = Caller::new(1, 1);

#[test]
fn processors_show_slots_flags_registers_and_vectors() {
    let mut machine = set_up();
    let (slot, flags) = shown();
    assert_eq!((machine.peek_slot(ROOT, Sint(2)), machine.peek_slot(ROOT, Sint(16))), (Some(slot), None));
    assert_eq!((machine.peek_flags(ROOT, Sint(3)), machine.peek_flags(NOBODY, Sint(3))), (Some(flags), None));
    let msrs = (machine.peek_msr(ROOT, 0x4000_0092), machine.peek_msr(ROOT, 0x4000_0000));
    assert_eq!(msrs, (Some(0x32), None));
    let pending = (machine.peek_pending(ROOT), machine.peek_pending(NOBODY));
    assert_eq!(pending, (Some([3 << 0x32, 0, 0, 0]), None));
    assert_eq!(machine.events(), 11);
    assert_eq!(machine.read_slot(ROOT, Sint(2)).expect("it is taken").output(), slot);
    assert_eq!(machine.read_flags(ROOT, Sint(3)).expect("it is taken").output(), flags);
}

#[test]
fn a_partition_shows_what_it_has() -> Result<(), Status> {
    let mut machine = set_up();
    let root = Partition {
        mask: CONFIG.mask,
        parent: None,
        depth: 0,
        pooled: 12,
        in_use: 8,
        life: Life::Active,
        children: 0,
        vps: 1,
        ports: 2,
        connections: 2,
    };
    assert_eq!(machine.peek_partition(PartitionId(1)), Some(root));
    assert_eq!(machine.peek_partition(PartitionId(2)), None);
    machine.create_partition(ROOT, 0)?;
    let child = Partition {
        mask: 0x30_0000_0044,
        parent: Some(PartitionId(1)),
        depth: 1,
        pooled: 0,
        in_use: 0,
        life: Life::Created,
        children: 0,
        vps: 0,
        ports: 0,
        connections: 0,
    };
    assert_eq!(machine.peek_partition(PartitionId(2)), Some(child));
    machine.initialize_partition(ROOT, PartitionId(2))?;
    machine.finalize_partition(ROOT, PartitionId(2))?;
    assert_eq!(machine.peek_partition(PartitionId(2)), Some(Partition { life: Life::Finalized, ..child }));
    assert_eq!(
        machine.peek_partition(PartitionId(1)).map(|root| (root.children, root.in_use)),
        Some((1, 10))
    );
    Ok(())
}

#[test]
fn ports_and_connections_show_their_fields() {
    let machine = set_up();
    let events = Port {
        partition: PartitionId(1),
        id: PortId(3),
        peer: PartitionId(1),
        r#type: PortType::Events,
        sint: Sint(3),
        vp: VpIndex(0),
        base_flag: 0,
        flag_count: 8,
    };
    assert_eq!(machine.peek_port(PartitionId(1), PortId(3)), Some(events));
    assert_eq!(machine.peek_port(PartitionId(2), PortId(3)), None);
    let messages = Connection {
        partition: PartitionId(1),
        id: ConnectionId(2),
        port_partition: PartitionId(1),
        port: PortId(2),
        r#type: PortType::Messages,
    };
    assert_eq!(machine.peek_connection(PartitionId(1), ConnectionId(2)), Some(messages));
    assert_eq!(machine.peek_connection(PartitionId(1), ConnectionId(4)), None);
}

#[test]
fn links_of_two_partitions_show_both() -> Result<(), Status> {
    let mut machine = with_child()?;
    let (partition, r#type, vp) = (PartitionId(1), PortType::Messages, VpIndex(0));
    let (id, peer, sint) = (PortId(9), PartitionId(2), Sint(4));
    let port = Port { partition, id, peer, r#type, sint, vp, base_flag: 0, flag_count: 0 };
    assert!(machine.create_port(ROOT, &port)?.is_served());
    assert_eq!(machine.peek_port(partition, id), Some(port));
    let (port_partition, connection_id) = (partition, ConnectionId(8));
    let connection = Connection { partition: peer, id: connection_id, port_partition, port: id, r#type };
    assert!(machine.connect_port(ROOT, &connection)?.is_served());
    assert_eq!(machine.peek_connection(peer, connection_id), Some(connection));
    Ok(())
}

#[test]
fn children_and_owners_are_found() -> Result<(), Status> {
    let mut machine = Machine::boot(CONFIG)?;
    assert_eq!(machine.child_after(PartitionId(1), PartitionId(0)), None);
    for _ in 0..2 {
        machine.create_partition(ROOT, 0)?;
    }
    let child = |previous| machine.child_after(PartitionId::ROOT, PartitionId(previous));
    assert_eq!([child(0), child(2), child(3)], [Some(PartitionId(2)), Some(PartitionId(3)), None]);
    assert_eq!(machine.child_after(PartitionId(4), PartitionId(0)), None);
    let owners = (machine.page_owner(31), machine.page_owner(32));
    assert_eq!(owners, (Some(PartitionId(1)), None));
    Ok(())
}

#[test]
fn a_partition_lists_what_it_has() -> Result<(), Status> {
    let mut machine = set_up();
    let root = PartitionId::ROOT;
    assert_eq!(machine.vps(root).collect::<Vec<_>>(), [VpIndex(0)]);
    assert_eq!(machine.ports(root).collect::<Vec<_>>(), [PortId(2), PortId(3)]);
    assert_eq!(machine.connections(root).collect::<Vec<_>>(), [ConnectionId(2), ConnectionId(3)]);
    let runs = |machine: &Machine, id| machine.page_runs(id).collect::<Vec<_>>();
    let run = |page, count, pooled| PageRun { page, count, pooled };
    assert_eq!(runs(&machine, root), [run(0, 12, true), run(12, 20, false)]);
    assert_eq!(run(12, 20, false).pages(), 12..32);
    let child = machine.create_partition(ROOT, 0)?.value.expect("it is served");
    machine.deposit_pages(ROOT, child, &[20, 21, 30])?;
    assert_eq!(runs(&machine, child), [run(20, 2, true), run(30, 1, true)]);
    assert_eq!(machine.page_after(root, Some(15)), Some(run(16, 4, false)));
    assert_eq!(machine.vps(child).count() + machine.ports(child).count(), 0);
    machine.delete_partition(ROOT, child)?;
    assert_eq!(runs(&machine, root), [run(0, 12, true), run(12, 20, false)]);
    assert_eq!(runs(&machine, child), []);
    Ok(())
}

#[test]
fn what_comes_next_is_above() {
    let machine = set_up();
    let root = PartitionId::ROOT;
    assert_eq!(
        [None, Some(VpIndex(0)), Some(VpIndex::ANY)].map(|vp| machine.vp_after(root, vp)),
        [Some(VpIndex(0)), None, None]
    );
    let after = |id| machine.port_after(root, Some(PortId(id)));
    assert_eq!([0, 2, 3, u32::MAX].map(after), [Some(PortId(2)), Some(PortId(3)), None, None]);
    let after = |id| machine.connection_after(root, Some(ConnectionId(id)));
    assert_eq!([1, 2, 3].map(after), [Some(ConnectionId(2)), Some(ConnectionId(3)), None]);
    let last = [31, u64::from(u32::MAX), u64::MAX].map(|page| machine.page_after(root, Some(page)));
    assert_eq!(last, [None; 3]);
}

#[test]
fn a_mask_is_features_of_cpuid() {
    let machine = set_up();
    let features = (machine.features(PartitionId(1)), machine.features(PartitionId(2)));
    assert_eq!(features, (Some([0x44, 0xf7, 0, 0]), None));
}

#[test]
fn the_table_is_that_of_the_program() {
    let table = "partition 1 parent - Active mask 000000f700000044 loose 20 pooled 12 inuse 8 \
                 vps 1 ports 2 connections 2\n\
                 pages 32\n";
    assert_eq!(set_up().table(), Ok(table.into()));
}

#[test]
fn msrs_and_calls_are_known() {
    assert_eq!([0x4000_0092, 0x4000_0000].map(is_msr), [true, false]);
    assert_eq!([0x96, 0x97].map(is_call), [true, false]);
}

/// Threads that share a machine look at it at once, while none makes an event.
#[test]
fn threads_look_at_once() {
    let (slot, _) = shown();
    let machine = std::sync::RwLock::new(set_up());
    std::thread::scope(|threads| {
        for _ in 0..4 {
            threads.spawn(|| {
                let machine = machine.read().expect("no thread panics");
                for _ in 0..100 {
                    assert_eq!(machine.peek_slot(ROOT, Sint(2)), Some(slot));
                    assert_eq!(machine.peek_partition(PartitionId::ROOT).map(|root| root.ports), Some(2));
                }
            });
        }
    });
    let mut machine = machine.into_inner().expect("no thread panics");
    assert!(machine.clear_slot(ROOT, Sint(2)).expect("it is taken").is_served());
}
