//! Recording: events as lines of a script, which `hvpm run SCRIPT --serial` repeats.

use crate::{Caller, Config, Machine, Registers, Sint, Status};
use alloc::borrow::ToOwned;
use alloc::boxed::Box;
use alloc::format;
use alloc::string::String;
use alloc::vec::Vec;
use core::ffi::c_char;
use hvpm_sys as sys;

/// An access: what a processor does without a hypercall.
#[derive(Clone, Copy, Debug, PartialEq, Eq)]
pub enum Access {
    /// Reads the MSR with this number.
    ReadMsr(u32),
    /// Writes a value to the MSR with this number.
    WriteMsr(u32, u64),
    /// Reads the message slot of a SINT.
    ReadSlot(Sint),
    /// Empties the message slot of a SINT.
    ClearSlot(Sint),
    /// Reads the event flags of a SINT.
    ReadFlags(Sint),
    /// Clears one event flag of a SINT.
    ClearFlag(Sint, u16),
    /// Takes the highest pending vector.
    TakeInterrupt,
}

impl Access {
    /// The access as the library has it: which one it is, the number of the MSR or SINT, and a value.
    pub(crate) fn numbers(self) -> (u32, u32, u64) {
        match self {
            Access::ReadMsr(msr) => (sys::HVPM_READ_MSR, msr, 0),
            Access::WriteMsr(msr, value) => (sys::HVPM_WRITE_MSR, msr, value),
            Access::ReadSlot(sint) => (sys::HVPM_READ_SLOT, sint.0.into(), 0),
            Access::ClearSlot(sint) => (sys::HVPM_CLEAR_SLOT, sint.0.into(), 0),
            Access::ReadFlags(sint) => (sys::HVPM_READ_FLAGS, sint.0.into(), 0),
            Access::ClearFlag(sint, flag) => (sys::HVPM_CLEAR_FLAG, sint.0.into(), flag.into()),
            Access::TakeInterrupt => (sys::HVPM_TAKE_INTERRUPT, 0, 0),
        }
    }
}

/// Returns the text that `call` writes into a buffer of the given size. `call` also stores its length.
pub(crate) fn text(call: impl Fn(*mut c_char, usize, *mut usize) -> u32) -> Result<String, Status> {
    let (mut bytes, mut len) = (Vec::<u8>::new(), 0);
    loop {
        match call(bytes.as_mut_ptr().cast(), bytes.len(), &mut len) {
            sys::HVPM_STATUS_OK => break,
            sys::HVPM_STATUS_SHORT => bytes.resize(len, 0),
            sys::HVPM_STATUS_MEMORY => return Err(Status::Memory),
            // No pointer is null, no handle is empty, and an `Access` exists. Where a reply is explained, it may
            // be that of another kind of event.
            status => unreachable!("status {status}"),
        }
    }
    bytes.truncate(len);
    Ok(String::from_utf8(bytes).expect("a text is ASCII"))
}

/// What a [recorded](Machine::boot_recorded) machine did since the record was last taken.
#[derive(Clone, Debug, Default, PartialEq, Eq)]
#[non_exhaustive]
pub struct Record {
    /// The boot and the events as lines of a script, which `hvpm run SCRIPT --serial` repeats.
    pub script: String,
    /// The audit lines of the events.
    pub audit: String,
    /// Whether the record ended before the machine's last event: memory ran out, or another event came between
    /// two elements of a rep call, which a script has in one line.
    pub is_cut: bool,
}

/// Copies a text of a record, and empties it.
fn take(text: &mut sys::hvpm_text) -> String {
    let len = core::mem::take(&mut text.len);
    if len == 0 {
        return String::new();
    }
    // SAFETY: the library wrote as many bytes there, and nobody writes them while the machine is borrowed.
    let bytes = unsafe { core::slice::from_raw_parts(text.at.cast::<u8>(), len) };
    core::str::from_utf8(bytes).expect("a record is ASCII").to_owned()
}

impl Machine {
    /// Boots a machine like [`Machine::boot`], which records its boot and each of its events: hypercalls, lists,
    /// accesses, and what [`Pages`](crate::pages::Pages) do in a guest's place. Take the record by
    /// [`Machine::take_record`], from time to time or at the end.
    pub fn boot_recorded(config: Config) -> Result<Machine, Status> {
        // SAFETY: zeros are null pointers and numbers. The header asks for them.
        let record: Box<sys::hvpm_record> = Box::new(unsafe { core::mem::zeroed() });
        Machine::boot_with(config, Box::into_raw(record))
    }

    /// Takes what was recorded since the last call. It is empty unless the machine is
    /// [recorded](Machine::boot_recorded).
    ///
    /// All scripts in order, and all audits in order with a last line `events N`, are what
    /// `hvpm run SCRIPT --serial` reads and prints.
    #[must_use]
    pub fn take_record(&mut self) -> Record {
        // SAFETY: the record lives as long as the machine, which is borrowed alone.
        match unsafe { self.handle.record.as_mut() } {
            None => Record::default(),
            Some(record) => Record {
                script: take(&mut record.script),
                audit: take(&mut record.audit),
                is_cut: record.is_cut,
            },
        }
    }
}

/// Returns the first line of a script, which boots a machine, with its line feed. `limit` is at least the
/// number of events.
#[must_use]
pub fn boot_line(config: Config, limit: u32) -> String {
    let Config { mask, pages, pool, vps } = config;
    format!("boot {pages} {pool} {vps} {mask:#x} {limit}\n")
}

/// Returns the line of a hypercall, with its line feed. The line has the bytes of the call's input list, the
/// first 4,096 of them: no list that rule P6 lets pass is longer.
///
/// A rep call is one line, which executes all of its elements: record only the first.
pub fn hypercall_line(by: Caller, registers: Registers, input: &[u8]) -> Result<String, Status> {
    let registers = registers.raw();
    let (bytes, input_len) = (input.as_ptr().cast(), input.len());
    // SAFETY: each pointer leads to as many bytes as its length says, and the library keeps none of them.
    text(|at, size, len| unsafe {
        sys::hvpm_hypercall_line(by.raw(), &registers, bytes, input_len, at, size, len)
    })
}

/// Returns the line of an access, with its line feed.
pub fn access_line(by: Caller, access: Access) -> Result<String, Status> {
    let (access, number, value) = access.numbers();
    // SAFETY: as in `hypercall_line`.
    text(|at, size, len| unsafe { sys::hvpm_access_line(by.raw(), access, number, value, at, size, len) })
}

#[cfg(test)]
mod tests {
    use super::{Status, sys, text};

    #[test]
    fn a_text_may_lack_memory() {
        assert_eq!(text(|_, _, _| sys::HVPM_STATUS_MEMORY), Err(Status::Memory));
    }
}
