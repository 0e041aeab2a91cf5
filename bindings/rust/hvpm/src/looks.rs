//! Looks: they read a machine without an event.

use crate::lines::text;
use crate::{Access, Registers, Reply, VpIndex};
use crate::{Caller, Connection, ConnectionId, Machine, PartitionId, Port, PortId, PortType, Sint, Status};
use alloc::string::String;
use core::iter::successors;
use core::ops::Range;
use hvpm_sys as sys;

/// The life state of a partition.
#[derive(Clone, Copy, Debug, PartialEq, Eq, Hash)]
pub enum Life {
    /// It was created and not yet initialized.
    Created,
    /// It was initialized: its processors may make calls.
    Active,
    /// It was finalized.
    Finalized,
}

impl Life {
    fn of(number: u32) -> Life {
        match number {
            sys::HVPM_LIFE_CREATED => Life::Created,
            sys::HVPM_LIFE_ACTIVE => Life::Active,
            sys::HVPM_LIFE_FINALIZED => Life::Finalized,
            _ => unreachable!("a partition in state {number}"),
        }
    }
}

/// A partition, as [`Machine::peek_partition`] returns it.
#[derive(Clone, Copy, Debug, PartialEq, Eq)]
pub struct Partition {
    /// Its privilege mask.
    pub mask: u64,
    /// Its parent. `None` for the root.
    pub parent: Option<PartitionId>,
    /// The number of its ancestors.
    pub depth: u64,
    /// The number of pages in its pool.
    pub pooled: u64,
    /// The number of those that pay for children, processors, ports and connections.
    pub in_use: u64,
    /// Its life state.
    pub life: Life,
    /// The number of its children.
    pub children: u32,
    /// The number of its virtual processors.
    pub vps: u32,
    /// The number of its ports.
    pub ports: u32,
    /// The number of its connections.
    pub connections: u32,
}

/// Pages of a partition whose numbers follow each other, as [`Machine::page_after`] returns them.
#[derive(Clone, Copy, Debug, PartialEq, Eq)]
pub struct PageRun {
    /// The first page.
    pub page: u64,
    /// The number of pages, at least 1.
    pub count: u32,
    /// Whether they are in the partition's pool. Otherwise they are loose.
    pub pooled: bool,
}

impl PageRun {
    /// Returns the numbers of the pages.
    #[must_use]
    pub fn pages(self) -> Range<u64> {
        self.page..self.page + u64::from(self.count)
    }
}

/// Returns whether the machine implements this model-specific register. The VMM handles all others.
#[must_use]
pub fn is_msr(msr: u32) -> bool {
    // SAFETY: the function takes a number alone.
    unsafe { sys::hvpm_is_msr(msr) }
}

/// Returns whether the machine implements the hypercall with this code, bits 15:0 of RCX.
#[must_use]
pub fn is_call(code: u16) -> bool {
    // SAFETY: the function takes a number alone.
    unsafe { sys::hvpm_is_call(code) }
}

/// Looks read the machine without an event. They aren't counted, have no audit line, need no privilege, and
/// change nothing.
impl Machine {
    /// Returns what `call` shows with the handle and a place for it; `None` if that doesn't exist.
    fn look<T>(&self, mut shown: T, call: impl FnOnce(*const sys::hvpm_machine, *mut T) -> u32) -> Option<T> {
        match call(&self.handle, &mut shown) {
            sys::HVPM_STATUS_OK => Some(shown),
            sys::HVPM_STATUS_NONE => None,
            // The handle has a machine, and no pointer is null.
            status => unreachable!("status {status}"),
        }
    }

    /// Reads the message slot of a SINT: the 256 bytes that [`Machine::read_slot`] outputs. `None` if there
    /// is no such processor or SINT.
    #[must_use]
    pub fn peek_slot(&self, of: Caller, sint: Sint) -> Option<[u8; 256]> {
        // SAFETY: as in `hypercall`; a look only reads what the handle leads to. This holds for all looks.
        self.look([0; 256], |machine, out| unsafe {
            sys::hvpm_peek_slot(machine, of.raw(), sint.0, out.cast())
        })
    }

    /// Reads the event flags of a SINT: the 256 bytes that [`Machine::read_flags`] outputs. `None` if there
    /// is no such processor or SINT.
    #[must_use]
    pub fn peek_flags(&self, of: Caller, sint: Sint) -> Option<[u8; 256]> {
        self.look([0; 256], |machine, out| unsafe {
            sys::hvpm_peek_flags(machine, of.raw(), sint.0, out.cast())
        })
    }

    /// Reads a model-specific register. `None` if there is no such processor or register.
    #[must_use]
    pub fn peek_msr(&self, of: Caller, msr: u32) -> Option<u64> {
        self.look(0, |machine, value| unsafe { sys::hvpm_peek_msr(machine, of.raw(), msr, value) })
    }

    /// Reads the pending vectors of a processor: vector v is bit v % 64 of word v / 64. `None` if there is no
    /// such processor.
    #[must_use]
    pub fn peek_pending(&self, of: Caller) -> Option<[u64; 4]> {
        self.look([0; 4], |machine, out| unsafe { sys::hvpm_peek_pending(machine, of.raw(), out.cast()) })
    }

    /// Reads a partition. `None` if none has this id.
    #[must_use]
    pub fn peek_partition(&self, id: PartitionId) -> Option<Partition> {
        let empty = sys::hvpm_partition {
            mask: 0,
            parent: 0,
            depth: 0,
            pooled: 0,
            in_use: 0,
            life: sys::HVPM_LIFE_CREATED,
            children: 0,
            vps: 0,
            ports: 0,
            connections: 0,
        };
        let shown =
            self.look(empty, |machine, out| unsafe { sys::hvpm_peek_partition(machine, id.0, out) })?;
        Some(Partition {
            mask: shown.mask,
            parent: (shown.parent != 0).then_some(PartitionId(shown.parent)),
            depth: shown.depth,
            pooled: shown.pooled,
            in_use: shown.in_use,
            life: Life::of(shown.life),
            children: shown.children,
            vps: shown.vps,
            ports: shown.ports,
            connections: shown.connections,
        })
    }

    /// Reads a port of a partition. `None` if none has this id.
    #[must_use]
    pub fn peek_port(&self, partition: PartitionId, id: PortId) -> Option<Port> {
        let empty = sys::hvpm_port {
            partition: 0,
            id: 0,
            peer: 0,
            type_: sys::HVPM_PORT_MESSAGES,
            sint: 0,
            vp: 0,
            base_flag: 0,
            flag_count: 0,
        };
        let shown =
            self.look(empty, |machine, out| unsafe { sys::hvpm_peek_port(machine, partition.0, id.0, out) })?;
        Some(Port {
            partition: PartitionId(shown.partition),
            id: PortId(shown.id),
            peer: PartitionId(shown.peer),
            r#type: PortType::of(shown.type_),
            sint: Sint(shown.sint as u8), // P7: at most 15
            vp: VpIndex(shown.vp),
            base_flag: shown.base_flag,
            flag_count: shown.flag_count,
        })
    }

    /// Reads a connection of a partition. Its port may no longer exist. `None` if none has this id.
    #[must_use]
    pub fn peek_connection(&self, partition: PartitionId, id: ConnectionId) -> Option<Connection> {
        let empty = sys::hvpm_connection {
            partition: 0,
            id: 0,
            port_partition: 0,
            port: 0,
            type_: sys::HVPM_PORT_MESSAGES,
        };
        let shown = self.look(empty, |machine, out| unsafe {
            sys::hvpm_peek_connection(machine, partition.0, id.0, out)
        })?;
        Some(Connection {
            partition: PartitionId(shown.partition),
            id: ConnectionId(shown.id),
            port_partition: PartitionId(shown.port_partition),
            port: PortId(shown.port),
            r#type: PortType::of(shown.type_),
        })
    }

    /// Returns the child with the lowest id above `previous`. Pass 0 for the first. `None` if there is no
    /// such child or partition.
    #[must_use]
    pub fn child_after(&self, parent: PartitionId, previous: PartitionId) -> Option<PartitionId> {
        let child = self.look(0, |machine, child| unsafe {
            sys::hvpm_child_after(machine, parent.0, previous.0, child)
        })?;
        (child != 0).then_some(PartitionId(child))
    }

    /// Returns the number that `call` finds above `previous`, or the lowest of all.
    fn number_after(
        &self,
        previous: Option<u32>,
        call: impl FnOnce(*const sys::hvpm_machine, u32, *mut u32) -> u32,
    ) -> Option<u32> {
        // For the library, this number is below all others.
        if previous == Some(sys::HVPM_FIRST) {
            return None;
        }
        let previous = previous.unwrap_or(sys::HVPM_FIRST);
        self.look(0, |machine, number| call(machine, previous, number))
    }

    /// Returns the processor of a partition with the lowest index above `previous`, or the first one. `None` if
    /// there is no such processor or partition.
    #[must_use]
    pub fn vp_after(&self, partition: PartitionId, previous: Option<VpIndex>) -> Option<VpIndex> {
        let found = self.number_after(previous.map(|vp| vp.0), |machine, previous, vp| unsafe {
            sys::hvpm_vp_after(machine, partition.0, previous, vp)
        });
        found.map(VpIndex)
    }

    /// Returns the port of a partition with the lowest id above `previous`, or the first one. `None` if there is
    /// no such port or partition.
    #[must_use]
    pub fn port_after(&self, partition: PartitionId, previous: Option<PortId>) -> Option<PortId> {
        let found = self.number_after(previous.map(|port| port.0), |machine, previous, id| unsafe {
            sys::hvpm_port_after(machine, partition.0, previous, id)
        });
        found.map(PortId)
    }

    /// Returns the connection of a partition with the lowest id above `previous`, or the first one. `None` if
    /// there is no such connection or partition.
    #[must_use]
    pub fn connection_after(
        &self,
        partition: PartitionId,
        previous: Option<ConnectionId>,
    ) -> Option<ConnectionId> {
        let found = self.number_after(previous.map(|id| id.0), |machine, previous, id| unsafe {
            sys::hvpm_connection_after(machine, partition.0, previous, id)
        });
        found.map(ConnectionId)
    }

    /// Returns the longest run of pages that begins at the partition's lowest page above `previous`, or at its
    /// first one. `None` if there is no such page or partition. Takes time logarithmic in the number of the
    /// partition's runs.
    #[must_use]
    pub fn page_after(&self, partition: PartitionId, previous: Option<u64>) -> Option<PageRun> {
        // For the library, this number is below all others.
        let first = u64::from(sys::HVPM_FIRST);
        if previous == Some(first) {
            return None;
        }
        let (previous, empty) =
            (previous.unwrap_or(first), sys::hvpm_page_run { page: 0, count: 0, pooled: 0 });
        let run = self.look(empty, |machine, run| unsafe {
            sys::hvpm_page_after(machine, partition.0, previous, run)
        })?;
        Some(PageRun { page: run.page, count: run.count, pooled: run.pooled != 0 })
    }

    /// Returns the processors of a partition, in order.
    pub fn vps(&self, partition: PartitionId) -> impl Iterator<Item = VpIndex> + '_ {
        successors(self.vp_after(partition, None), move |vp| self.vp_after(partition, Some(*vp)))
    }

    /// Returns the ports of a partition, in order.
    pub fn ports(&self, partition: PartitionId) -> impl Iterator<Item = PortId> + '_ {
        successors(self.port_after(partition, None), move |id| self.port_after(partition, Some(*id)))
    }

    /// Returns the connections of a partition, in order.
    pub fn connections(&self, partition: PartitionId) -> impl Iterator<Item = ConnectionId> + '_ {
        let first = self.connection_after(partition, None);
        successors(first, move |id| self.connection_after(partition, Some(*id)))
    }

    /// Returns the pages of a partition as runs, in order. After [`Effect::Pages`](crate::Effect::Pages), those
    /// of the deleted partition are among them.
    pub fn page_runs(&self, partition: PartitionId) -> impl Iterator<Item = PageRun> + '_ {
        let first = self.page_after(partition, None);
        successors(first, move |run| self.page_after(partition, Some(run.pages().end - 1)))
    }

    /// Returns the partition that owns a page. `None` if there is no such page. Takes time linear in the
    /// number of partition ids ever used: for the pages of a partition, call [`Machine::page_runs`].
    #[must_use]
    pub fn page_owner(&self, page: u64) -> Option<PartitionId> {
        let owner = self.look(0, |machine, owner| unsafe { sys::hvpm_page_owner(machine, page, owner) })?;
        Some(PartitionId(owner))
    }

    /// Returns EAX, EBX, ECX and EDX of CPUID leaf 0x40000003 for a guest: the low and the high half of its
    /// partition's privilege mask, 0 and 0. `None` if there is no such partition.
    #[must_use]
    pub fn features(&self, partition: PartitionId) -> Option<[u32; 4]> {
        self.look([0; 4], |machine, out| unsafe { sys::hvpm_features(machine, partition.0, out.cast()) })
    }

    /// Returns what `hvpm explain` says of a hypercall: its fields and output in words, and for a refused one the
    /// rule with the values that decided. Call it after the event and before the next one, with what the event was
    /// called with.
    ///
    /// # Panics
    ///
    /// If the reply is a fault, which hypercalls don't get.
    pub fn explain(
        &self,
        by: Caller,
        registers: Registers,
        input: &[u8],
        reply: &Reply,
    ) -> Result<String, Status> {
        let registers = registers.raw();
        // SAFETY: as in `peek_slot`, and each buffer has the size that is given.
        text(|at, size, len| unsafe {
            let (bytes, input_len) = (input.as_ptr().cast(), input.len());
            sys::hvpm_explain(&self.handle, by.raw(), &registers, bytes, input_len, &reply.raw, at, size, len)
        })
    }

    /// Like [`Machine::explain`], of an access.
    ///
    /// # Panics
    ///
    /// If the reply is that of a hypercall that is denied or has more elements.
    pub fn explain_access(&self, by: Caller, access: Access, reply: &Reply) -> Result<String, Status> {
        let (access, number, value) = access.numbers();
        // SAFETY: as in `peek_slot`, and the buffer has the size that is given.
        text(|at, size, len| unsafe {
            sys::hvpm_explain_access(&self.handle, by.raw(), access, number, value, &reply.raw, at, size, len)
        })
    }

    /// Returns the table of partitions, as `hvpm run --table` prints it.
    pub fn table(&self) -> Result<String, Status> {
        // SAFETY: as in `peek_slot`, and the buffer has the size that is given.
        text(|at, size, len| unsafe { sys::hvpm_table(&self.handle, at, size, len) })
    }
}
