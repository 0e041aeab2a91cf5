//! Types of ids. Each wraps the number of the TLFS. Any number is allowed: the rules refuse an id that
//! doesn't exist.

use core::fmt;
use hvpm_sys as sys;

/// A partition's id.
#[derive(Clone, Copy, Debug, PartialEq, Eq, PartialOrd, Ord, Hash)]
pub struct PartitionId(pub u64);

impl PartitionId {
    /// The root partition.
    pub const ROOT: PartitionId = PartitionId(1);
    /// HV_PARTITION_ID_SELF. In a hypercall, this id means the caller's own partition.
    pub const SELF: PartitionId = PartitionId(sys::HVPM_SELF);
}

/// The index of a virtual processor in its partition.
#[derive(Clone, Copy, Debug, PartialEq, Eq, PartialOrd, Ord, Hash)]
pub struct VpIndex(pub u32);

impl VpIndex {
    /// HV_ANY_VP. A port with this index may deliver to any processor of its partition.
    pub const ANY: VpIndex = VpIndex(sys::HVPM_ANY_VP);
}

/// The number of a synthetic interrupt source of a processor, 0 to 15.
#[derive(Clone, Copy, Debug, PartialEq, Eq, PartialOrd, Ord, Hash)]
pub struct Sint(pub u8);

/// The id of a port in its partition.
#[derive(Clone, Copy, Debug, PartialEq, Eq, PartialOrd, Ord, Hash)]
pub struct PortId(pub u32);

/// The id of a connection in its partition.
#[derive(Clone, Copy, Debug, PartialEq, Eq, PartialOrd, Ord, Hash)]
pub struct ConnectionId(pub u32);

/// A virtual processor: its partition's id, and its index in that partition.
#[derive(Clone, Copy, Debug, PartialEq, Eq, PartialOrd, Ord, Hash)]
pub struct Caller {
    /// The partition.
    pub partition: PartitionId,
    /// The index in the partition.
    pub vp: VpIndex,
}

impl Caller {
    /// Returns the processor with this index in the partition with this id.
    #[must_use]
    pub const fn new(partition: u64, vp: u32) -> Caller {
        Caller { partition: PartitionId(partition), vp: VpIndex(vp) }
    }

    pub(crate) fn raw(self) -> sys::hvpm_caller {
        sys::hvpm_caller { partition: self.partition.0, vp: self.vp.0 }
    }

    pub(crate) fn of(raw: sys::hvpm_caller) -> Caller {
        Caller::new(raw.partition, raw.vp)
    }
}

/// Formats it as in the audit: `1.0` is processor 0 of partition 1.
impl fmt::Display for Caller {
    fn fmt(&self, f: &mut fmt::Formatter<'_>) -> fmt::Result {
        write!(f, "{}.{}", self.partition.0, self.vp.0)
    }
}
