//! Bulqizet's partition manager from Rust: what hypercalls and the SynIC of guests do, decided by a library
//! whose every function is proved. Embed it in a VMM, or test guest code against it.
//!
//! ```
//! use hvpm::{Answer, Caller, Config, Machine, PartitionId, Registers, Rule};
//!
//! let mut machine = Machine::boot(Config { mask: 0xf7_0000_0044, pages: 32, pool: 12, vps: 1 })?;
//! let root = Caller::new(1, 0);
//!
//! // A guest's exit: HvGetPartitionId, by RCX.
//! let reply = machine.hypercall(root, Registers { rcx: 0x46, ..Registers::default() }, &[])?;
//! assert_eq!(reply.answer(), Answer::Served);
//! assert_eq!(reply.output(), 1u64.to_le_bytes());
//!
//! // Calls of the VMM itself, by their fields.
//! let child = machine.create_partition(root, 0)?.value.expect("it is served");
//! assert_eq!(child, PartitionId(2));
//! let reply = machine.create_vp(root, child, hvpm::VpIndex(0))?;
//! assert_eq!(reply.rule(), Some(Rule(12)), "the child isn't Active yet");
//!
//! // A look reads the machine without an event.
//! assert_eq!(machine.child_after(PartitionId::ROOT, PartitionId(0)), Some(child));
//! assert_eq!(machine.events(), 3);
//! # Ok::<(), hvpm::Status>(())
//! ```
//!
//! An event is one hypercall or one access. Each element of a rep call is an event. A function that fails
//! returns a [`Status`]; then no event happened and nothing changed. A rule that refuses an event isn't a
//! failure: the event's [`Reply`] names the rule, and [`rule_sentence`] says what it demands.
//!
//! docs/POLICY.md specifies the rules, calls and accesses. docs/EMBEDDING.md maps a hypervisor's exits to
//! these functions. [`pages`] maintains a guest's message and event flags pages, and [`guest`] reads its
//! registers. Each function has the name of the C function, without `hvpm_`.
#![no_std]
#![deny(unsafe_op_in_unsafe_fn, missing_docs)]

extern crate alloc;
#[cfg(feature = "std")]
extern crate std;

mod calls;
mod effect;
pub mod guest;
mod ids;
mod lines;
mod looks;
mod machine;
mod names;
mod numbers;
pub mod pages;
mod reply;
mod status;
#[cfg(feature = "std")]
pub mod testing;

pub use calls::{Balance, Connection, Port, PortType, Property, VpRegister};
pub use effect::{Effect, FlagChange, Synic};
pub use guest::Registers;
pub use ids::{Caller, ConnectionId, PartitionId, PortId, Sint, VpIndex};
pub use lines::{Access, Record, access_line, boot_line, hypercall_line};
pub use looks::{Life, PageRun, Partition, is_call, is_msr};
pub use machine::{Config, Machine};
pub use names::{hv_status_name, rule_name, rule_sentence, status_name, version, version_number};
pub use numbers::{call, hv_status, msr, privilege, register, rule};
pub use reply::{Answer, HvStatus, Made, Output, Reply, Rule, Run, next};
pub use status::Status;
