//! The 21 hypercalls by their fields, as methods of [`Machine`].

use crate::status::done;
use crate::{Caller, ConnectionId, Machine, Made, Output, PartitionId, PortId, Reply, Sint, Status, VpIndex};
use core::mem::offset_of;
use hvpm_sys as sys;

/// The type of a port.
#[derive(Clone, Copy, Debug, PartialEq, Eq, Hash)]
pub enum PortType {
    /// For messages.
    Messages,
    /// For event flags.
    Events,
}

impl PortType {
    fn number(self) -> u32 {
        match self {
            PortType::Messages => sys::HVPM_PORT_MESSAGES,
            PortType::Events => sys::HVPM_PORT_EVENTS,
        }
    }

    pub(crate) fn of(number: u32) -> PortType {
        match number {
            sys::HVPM_PORT_MESSAGES => PortType::Messages,
            sys::HVPM_PORT_EVENTS => PortType::Events,
            _ => unreachable!("a port of type {number}"),
        }
    }
}

/// A property of a partition.
#[derive(Clone, Copy, Debug, PartialEq, Eq, Hash)]
pub enum Property {
    /// Its privilege mask.
    PrivilegeFlags,
    /// 0 to 65,536.
    CpuReserve,
    /// 0 to 65,536.
    CpuCap,
    /// 1 to 10,000.
    CpuWeight,
}

impl Property {
    fn number(self) -> u32 {
        match self {
            Property::PrivilegeFlags => sys::HVPM_PRIVILEGE_FLAGS,
            Property::CpuReserve => sys::HVPM_CPU_RESERVE,
            Property::CpuCap => sys::HVPM_CPU_CAP,
            Property::CpuWeight => sys::HVPM_CPU_WEIGHT,
        }
    }
}

/// A port, as [`Machine::create_port`] takes it and [`Machine::peek_port`] returns it.
#[derive(Clone, Copy, Debug, PartialEq, Eq)]
pub struct Port {
    /// PortPartition: the owner.
    pub partition: PartitionId,
    /// PortId.
    pub id: PortId,
    /// ConnectionPartition: the partition that may connect.
    pub peer: PartitionId,
    /// PortType.
    pub r#type: PortType,
    /// TargetSint.
    pub sint: Sint,
    /// TargetVp: the processor of that SINT, or [`VpIndex::ANY`].
    pub vp: VpIndex,
    /// BaseFlagNumber, of an event port.
    pub base_flag: u16,
    /// FlagCount, of an event port.
    pub flag_count: u16,
}

/// A connection, as [`Machine::connect_port`] takes it and [`Machine::peek_connection`] returns it.
#[derive(Clone, Copy, Debug, PartialEq, Eq)]
pub struct Connection {
    /// ConnectionPartition: the owner.
    pub partition: PartitionId,
    /// ConnectionId.
    pub id: ConnectionId,
    /// PortPartition.
    pub port_partition: PartitionId,
    /// PortId.
    pub port: PortId,
    /// PortType: that of the port.
    pub r#type: PortType,
}

/// The pages of a partition's pool.
#[derive(Clone, Copy, Debug, PartialEq, Eq)]
pub struct Balance {
    /// How many pages are available.
    pub available: u64,
    /// How many pages pay for children, processors, ports and connections.
    pub in_use: u64,
}

/// A register of a virtual processor: its name in the TLFS, and its value.
#[repr(C)] // as the library has it
#[derive(Clone, Copy, Debug, Default, PartialEq, Eq)]
pub struct VpRegister {
    /// HV_REGISTER_NAME.
    pub name: u32,
    /// Its 64 bits.
    pub value: u64,
}

const _: () = assert!(size_of::<VpRegister>() == size_of::<sys::hvpm_vp_register>());
const _: () = assert!(offset_of!(VpRegister, value) == offset_of!(sys::hvpm_vp_register, value));

/// The count of a rep call. P5 refuses a count of more than 12 bits.
fn count(len: usize) -> u16 {
    u16::try_from(len).unwrap_or(u16::MAX)
}

/// The 21 hypercalls by their fields, for a caller that is part of the host: a root that creates partitions,
/// ports and processors. Each executes one event, like [`Machine::hypercall`]. docs/POLICY.md describes the
/// fields and the rules.
///
/// The four rep calls execute the element at index `start`. Begin with 0, and continue with the index in
/// [`Answer::More`](crate::Answer::More).
impl Machine {
    /// HvCreatePartition. The value is the new partition's id. The flags have no effect.
    pub fn create_partition(&mut self, by: Caller, flags: u64) -> Result<Output<PartitionId>, Status> {
        let output = self.take_value(0, |machine, partition, reply, line, size| unsafe {
            sys::hvpm_create_partition(machine, by.raw(), flags, partition, reply, line, size)
        })?;
        Ok(Output { reply: output.reply, value: output.value.map(PartitionId) })
    }

    /// HvInitializePartition: makes a Created child Active.
    pub fn initialize_partition(&mut self, by: Caller, partition: PartitionId) -> Result<Reply, Status> {
        self.take(|machine, reply, line, size| unsafe {
            sys::hvpm_initialize_partition(machine, by.raw(), partition.0, reply, line, size)
        })
    }

    /// HvFinalizePartition: removes a child's processors, ports and connections, for good.
    pub fn finalize_partition(&mut self, by: Caller, partition: PartitionId) -> Result<Reply, Status> {
        self.take(|machine, reply, line, size| unsafe {
            sys::hvpm_finalize_partition(machine, by.raw(), partition.0, reply, line, size)
        })
    }

    /// HvDeletePartition: removes a Created or Finalized child. Its pages become loose pages of the caller.
    pub fn delete_partition(&mut self, by: Caller, partition: PartitionId) -> Result<Reply, Status> {
        self.take(|machine, reply, line, size| unsafe {
            sys::hvpm_delete_partition(machine, by.raw(), partition.0, reply, line, size)
        })
    }

    /// HvGetPartitionProperty. The value is the property's.
    pub fn get_partition_property(
        &mut self,
        by: Caller,
        partition: PartitionId,
        property: Property,
    ) -> Result<Output<u64>, Status> {
        let property = property.number();
        self.take_value(0, |machine, value, reply, line, size| unsafe {
            let by = by.raw();
            sys::hvpm_get_partition_property(machine, by, partition.0, property, value, reply, line, size)
        })
    }

    /// HvSetPartitionProperty: sets a property of a child.
    pub fn set_partition_property(
        &mut self,
        by: Caller,
        partition: PartitionId,
        property: Property,
        value: u64,
    ) -> Result<Reply, Status> {
        let property = property.number();
        self.take(|machine, reply, line, size| unsafe {
            let by = by.raw();
            sys::hvpm_set_partition_property(machine, by, partition.0, property, value, reply, line, size)
        })
    }

    /// HvGetPartitionId. The value is the id of the caller's partition.
    pub fn get_partition_id(&mut self, by: Caller) -> Result<Output<PartitionId>, Status> {
        let output = self.take_value(0, |machine, partition, reply, line, size| unsafe {
            sys::hvpm_get_partition_id(machine, by.raw(), partition, reply, line, size)
        })?;
        Ok(Output { reply: output.reply, value: output.value.map(PartitionId) })
    }

    /// HvGetNextChildPartition. The value is the child with the lowest id above `previous`, or 0 if there is
    /// none. Pass 0 for the first.
    pub fn get_next_child_partition(
        &mut self,
        by: Caller,
        parent: PartitionId,
        previous: PartitionId,
    ) -> Result<Output<PartitionId>, Status> {
        let output = self.take_value(0, |machine, child, reply, line, size| unsafe {
            let by = by.raw();
            sys::hvpm_get_next_child_partition(machine, by, parent.0, previous.0, child, reply, line, size)
        })?;
        Ok(Output { reply: output.reply, value: output.value.map(PartitionId) })
    }

    /// HvDepositMemory, a rep call: moves the caller's page `pages[start]` to the partition's pool.
    pub fn deposit_memory(
        &mut self,
        by: Caller,
        partition: PartitionId,
        pages: &[u64],
        start: u16,
    ) -> Result<Reply, Status> {
        let (at, count) = (pages.as_ptr(), count(pages.len()));
        self.take(|machine, reply, line, size| unsafe {
            sys::hvpm_deposit_memory(machine, by.raw(), partition.0, at, count, start, reply, line, size)
        })
    }

    /// HvWithdrawMemory, a rep call: moves a page of the partition's pool to the caller, and stores it in
    /// `pages[start]`.
    pub fn withdraw_memory(
        &mut self,
        by: Caller,
        partition: PartitionId,
        pages: &mut [u64],
        start: u16,
    ) -> Result<Reply, Status> {
        let (at, count) = (pages.as_mut_ptr(), count(pages.len()));
        self.take(|machine, reply, line, size| unsafe {
            sys::hvpm_withdraw_memory(machine, by.raw(), partition.0, at, count, start, reply, line, size)
        })
    }

    /// HvGetMemoryBalance. The value says how many pages of the partition's pool are available and in use.
    pub fn get_memory_balance(
        &mut self,
        by: Caller,
        partition: PartitionId,
    ) -> Result<Output<Balance>, Status> {
        let balance = Balance { available: 0, in_use: 0 };
        self.take_value(balance, |machine, balance, reply, line, size| unsafe {
            let (available, in_use) = (&mut (*balance).available, &mut (*balance).in_use);
            let by = by.raw();
            sys::hvpm_get_memory_balance(machine, by, partition.0, available, in_use, reply, line, size)
        })
    }

    /// HvCreateVp: creates the processor with this index, 0 to 63.
    pub fn create_vp(&mut self, by: Caller, partition: PartitionId, vp: VpIndex) -> Result<Reply, Status> {
        self.take(|machine, reply, line, size| unsafe {
            sys::hvpm_create_vp(machine, by.raw(), partition.0, vp.0, reply, line, size)
        })
    }

    /// HvDeleteVp: deletes a processor with its registers, messages, event flags and pending vectors.
    pub fn delete_vp(&mut self, by: Caller, partition: PartitionId, vp: VpIndex) -> Result<Reply, Status> {
        self.take(|machine, reply, line, size| unsafe {
            sys::hvpm_delete_vp(machine, by.raw(), partition.0, vp.0, reply, line, size)
        })
    }

    /// HvGetVpRegisters, a rep call: stores the value of register `registers[start].name` in its `value`.
    pub fn get_vp_registers(
        &mut self,
        by: Caller,
        partition: PartitionId,
        vp: VpIndex,
        registers: &mut [VpRegister],
        start: u16,
    ) -> Result<Reply, Status> {
        let (at, count, by) = (registers.as_mut_ptr().cast(), count(registers.len()), by.raw());
        self.take(|machine, reply, line, size| unsafe {
            sys::hvpm_get_vp_registers(machine, by, partition.0, vp.0, at, count, start, reply, line, size)
        })
    }

    /// HvSetVpRegisters, a rep call: sets register `registers[start].name` to its `value`.
    pub fn set_vp_registers(
        &mut self,
        by: Caller,
        partition: PartitionId,
        vp: VpIndex,
        registers: &[VpRegister],
        start: u16,
    ) -> Result<Reply, Status> {
        let (at, count, by) = (registers.as_ptr().cast(), count(registers.len()), by.raw());
        self.take(|machine, reply, line, size| unsafe {
            sys::hvpm_set_vp_registers(machine, by, partition.0, vp.0, at, count, start, reply, line, size)
        })
    }

    /// HvDeletePort. Connections to the port remain.
    pub fn delete_port(&mut self, by: Caller, partition: PartitionId, port: PortId) -> Result<Reply, Status> {
        self.take(|machine, reply, line, size| unsafe {
            sys::hvpm_delete_port(machine, by.raw(), partition.0, port.0, reply, line, size)
        })
    }

    /// HvDisconnectPort: deletes a connection of the partition.
    pub fn disconnect_port(
        &mut self,
        by: Caller,
        partition: PartitionId,
        connection: ConnectionId,
    ) -> Result<Reply, Status> {
        self.take(|machine, reply, line, size| unsafe {
            sys::hvpm_disconnect_port(machine, by.raw(), partition.0, connection.0, reply, line, size)
        })
    }

    /// HvPostMessage: posts a message through a connection of the caller. Rule P7 refuses a payload of more
    /// than 240 bytes.
    pub fn post_message(
        &mut self,
        by: Caller,
        connection: ConnectionId,
        message_type: u32,
        payload: &[u8],
    ) -> Result<Reply, Status> {
        let (bytes, len) = (payload.as_ptr().cast(), u32::try_from(payload.len()).unwrap_or(u32::MAX));
        let by = by.raw();
        self.take(|machine, reply, line, size| unsafe {
            sys::hvpm_post_message(machine, by, connection.0, message_type, bytes, len, reply, line, size)
        })
    }

    /// HvSignalEvent: signals through a connection of the caller. `flag` counts from the port's `base_flag`.
    pub fn signal_event(&mut self, by: Caller, connection: ConnectionId, flag: u16) -> Result<Reply, Status> {
        self.take(|machine, reply, line, size| unsafe {
            sys::hvpm_signal_event(machine, by.raw(), connection.0, flag, reply, line, size)
        })
    }

    /// HvCreatePort.
    pub fn create_port(&mut self, by: Caller, port: &Port) -> Result<Reply, Status> {
        let port = sys::hvpm_port {
            partition: port.partition.0,
            id: port.id.0,
            peer: port.peer.0,
            type_: port.r#type.number(),
            sint: port.sint.0.into(),
            vp: port.vp.0,
            base_flag: port.base_flag,
            flag_count: port.flag_count,
        };
        self.take(|machine, reply, line, size| unsafe {
            sys::hvpm_create_port(machine, by.raw(), &port, reply, line, size)
        })
    }

    /// HvConnectPort: creates a connection to a port.
    pub fn connect_port(&mut self, by: Caller, connection: &Connection) -> Result<Reply, Status> {
        let connection = sys::hvpm_connection {
            partition: connection.partition.0,
            id: connection.id.0,
            port_partition: connection.port_partition.0,
            port: connection.port.0,
            type_: connection.r#type.number(),
        };
        self.take(|machine, reply, line, size| unsafe {
            sys::hvpm_connect_port(machine, by.raw(), &connection, reply, line, size)
        })
    }
}

/// The four rep calls for lists of any length. Each element is an event of its own, without an audit line. A
/// call stops at the element that a rule refuses, and where [`Machine::run`] does. P5 refuses an empty list.
impl Machine {
    /// HvDepositMemory: moves the caller's pages to the partition's pool.
    pub fn deposit_pages(
        &mut self,
        by: Caller,
        partition: PartitionId,
        pages: &[u64],
    ) -> Result<Made, Status> {
        let (at, len) = (pages.as_ptr(), pages.len());
        self.make(|machine, made, reply| unsafe {
            sys::hvpm_deposit_pages(machine, by.raw(), partition.0, at, len, made, reply)
        })
    }

    /// HvWithdrawMemory: moves pages of the pool to the caller, and stores them in `pages`.
    pub fn withdraw_pages(
        &mut self,
        by: Caller,
        partition: PartitionId,
        pages: &mut [u64],
    ) -> Result<Made, Status> {
        let (at, len) = (pages.as_mut_ptr(), pages.len());
        self.make(|machine, made, reply| unsafe {
            sys::hvpm_withdraw_pages(machine, by.raw(), partition.0, at, len, made, reply)
        })
    }

    /// HvGetVpRegisters: stores the value of each register in its `value`.
    pub fn read_registers(
        &mut self,
        by: Caller,
        partition: PartitionId,
        vp: VpIndex,
        registers: &mut [VpRegister],
    ) -> Result<Made, Status> {
        let (at, len) = (registers.as_mut_ptr().cast(), registers.len());
        self.make(|machine, made, reply| unsafe {
            sys::hvpm_read_registers(machine, by.raw(), partition.0, vp.0, at, len, made, reply)
        })
    }

    /// HvSetVpRegisters: sets each register to its `value`. It stops after a write of EOM that shows a
    /// message.
    pub fn write_registers(
        &mut self,
        by: Caller,
        partition: PartitionId,
        vp: VpIndex,
        registers: &[VpRegister],
    ) -> Result<Made, Status> {
        let (at, len) = (registers.as_ptr().cast(), registers.len());
        self.make(|machine, made, reply| unsafe {
            sys::hvpm_write_registers(machine, by.raw(), partition.0, vp.0, at, len, made, reply)
        })
    }

    // SAFETY of the calls above: as in `hypercall`.
    fn make(
        &mut self,
        call: impl FnOnce(*mut sys::hvpm_machine, *mut usize, *mut sys::hvpm_reply) -> u32,
    ) -> Result<Made, Status> {
        let (mut reply, mut count) = (Reply::new(), 0);
        done(call(&mut self.handle, &mut count, &mut reply.raw))?;
        Ok(Made { reply, count })
    }
}
