//! The machine: boot, hypercalls as a guest makes them, and accesses.

use crate::reply::{Output, Reply, Run, line_of};
use crate::status::{Status, done};
use crate::{Caller, Registers, Sint};
use alloc::boxed::Box;
use core::ffi::c_char;
use core::ptr::null_mut;
use hvpm_sys as sys;

/// What boot gives to the root partition.
#[derive(Clone, Copy, Debug, PartialEq, Eq)]
pub struct Config {
    /// The privilege mask.
    pub mask: u64,
    /// The number of pages, 1 to 65,536.
    pub pages: u32,
    /// How many of them, from page 0 on, are in its pool: at most `pages`, and at least 4 for each processor.
    pub pool: u32,
    /// The number of virtual processors, 1 to 64.
    pub vps: u32,
}

impl Registers {
    pub(crate) fn raw(self) -> sys::hvpm_registers {
        sys::hvpm_registers { rcx: self.rcx, rdx: self.rdx, r8: self.r8 }
    }
}

/// A machine: all partitions with their pages, processors, ports, connections and messages. Dropping it frees
/// its memory.
///
/// A machine may move between threads, and threads may look at it at once by a `&Machine`. An event needs a
/// `&mut Machine`: to share a machine that takes events, put it behind a lock, such as a `RwLock`.
#[derive(Debug)]
pub struct Machine {
    pub(crate) handle: sys::hvpm_machine,
    is_audited: bool,
}

// SAFETY: the library keeps nothing of the thread that calls it, and has no variable of its own.
unsafe impl Send for Machine {}

// SAFETY: a `&Machine` gives looks and the count of events alone. A look of the library writes neither the
// handle nor what that leads to, as the header promises; `tests/embed/side_by_side.c` runs looks of several
// threads over memory that is closed to writes. Whatever writes takes a `&mut Machine`.
unsafe impl Sync for Machine {}

impl Machine {
    /// Boots a machine. The root partition has id 1 and is Active. It has the pages, processors and
    /// privileges of `config`. Returns [`Status::Pages`], [`Status::Pool`] or [`Status::Vps`] if `config`
    /// isn't valid.
    ///
    /// # Panics
    ///
    /// If the library isn't of the version that the crate declares.
    pub fn boot(config: Config) -> Result<Machine, Status> {
        Machine::boot_with(config, null_mut())
    }

    /// Boots a machine with a record, which it owns, or without one.
    pub(crate) fn boot_with(config: Config, record: *mut sys::hvpm_record) -> Result<Machine, Status> {
        crate::names::check_version();
        let Config { mask, pages, pool, vps } = config;
        let handle = sys::hvpm_machine { live: false, events: 0, at: null_mut(), record };
        let mut machine = Machine { handle, is_audited: false };
        // SAFETY: the handle is empty, and all pointers lead to values of their types.
        done(unsafe { sys::hvpm_boot(&mut machine.handle, &sys::hvpm_config { mask, pages, pool, vps }) })?;
        Ok(machine)
    }

    /// Returns the machine with an audit line in each reply from now on. A line takes as long as the event.
    #[must_use]
    pub fn audited(mut self) -> Machine {
        self.is_audited = true;
        self
    }

    /// Returns the number of events so far, served or refused.
    #[must_use]
    pub fn events(&self) -> u64 {
        self.handle.events
    }

    /// Executes an event: `call` gets the handle, a reply, and the buffer for a line, if any, with its size.
    pub(crate) fn take(
        &mut self,
        call: impl FnOnce(*mut sys::hvpm_machine, *mut sys::hvpm_reply, *mut c_char, usize) -> u32,
    ) -> Result<Reply, Status> {
        let mut reply = Reply::new();
        if !self.is_audited {
            done(call(&mut self.handle, &mut reply.raw, null_mut(), 0))?;
            return Ok(reply);
        }
        let mut line = [0u8; sys::HVPM_LINE];
        done(call(&mut self.handle, &mut reply.raw, line.as_mut_ptr().cast(), line.len()))?;
        reply.line = line_of(&line[..reply.raw.line_len as usize]);
        Ok(reply)
    }

    /// Executes an event whose output `call` also stores in a value.
    pub(crate) fn take_value<T>(
        &mut self,
        mut value: T,
        call: impl FnOnce(*mut sys::hvpm_machine, *mut T, *mut sys::hvpm_reply, *mut c_char, usize) -> u32,
    ) -> Result<Output<T>, Status> {
        let reply = self.take(|machine, reply, line, size| call(machine, &mut value, reply, line, size))?;
        Ok(Output { value: reply.is_served().then_some(value), reply })
    }

    /// Executes one hypercall: a simple call, or the element of a rep call at its start index.
    ///
    /// `input` holds the bytes from guest memory at RDX. Bytes that the list needs but `input` lacks read as
    /// zero, and a fast call ignores it. Copy the output, at most 16 bytes, to guest memory at R8 plus the
    /// start index times the length of the output. If the reply is [`crate::Answer::More`], continue with
    /// [`crate::next`].
    pub fn hypercall(&mut self, by: Caller, registers: Registers, input: &[u8]) -> Result<Reply, Status> {
        let registers = registers.raw();
        // SAFETY: the library wrote the handle, and this call borrows it alone. Each other pointer leads to a
        // value of its type or to as many bytes as its length says, and the library keeps none of them. This
        // holds for all calls of the library in this crate.
        self.take(|machine, reply, line, size| unsafe {
            let (bytes, len) = (input.as_ptr().cast(), input.len());
            sys::hvpm_hypercall(machine, by.raw(), &registers, bytes, len, reply, line, size)
        })
    }

    /// Executes a hypercall like [`Machine::hypercall`]. A rep call continues with its next elements, each as
    /// an event of its own. It stops
    ///
    /// - after the last element, or one that a rule refuses;
    /// - after one whose effect is neither [`crate::Effect::Nothing`] nor [`crate::Effect::Page`];
    /// - when fewer than 16 bytes of `outputs` are left;
    /// - when the machine takes no more events, or lacks memory for the next element, which isn't executed.
    ///
    /// If the reply is [`crate::Answer::More`], continue with [`crate::next`]. There are no audit lines: to
    /// get them, call [`Machine::hypercall`] for each element. Returns [`Status::Short`] if `outputs` has
    /// fewer than 16 bytes.
    pub fn run<'o>(
        &mut self,
        by: Caller,
        registers: Registers,
        input: &[u8],
        outputs: &'o mut [u8],
    ) -> Result<Run<'o>, Status> {
        self.run_at_most(by, registers, input, u32::MAX, outputs)
    }

    /// Executes a hypercall like [`Machine::run`], but also stops after `most` elements, so that a lock around it
    /// is held for a bounded time. Returns [`Status::Short`] if `most` is 0.
    pub fn run_at_most<'o>(
        &mut self,
        by: Caller,
        registers: Registers,
        input: &[u8],
        most: u32,
        outputs: &'o mut [u8],
    ) -> Result<Run<'o>, Status> {
        let registers = registers.raw();
        let mut reply = Reply::new();
        let mut run = sys::hvpm_run_done { events: 0, output_len: 0 };
        // SAFETY: as in `hypercall`.
        done(unsafe {
            sys::hvpm_run_at_most(
                &mut self.handle,
                by.raw(),
                &registers,
                input.as_ptr().cast(),
                input.len(),
                most,
                &mut reply.raw,
                outputs.as_mut_ptr().cast(),
                outputs.len(),
                &mut run,
            )
        })?;
        Ok(Run { reply, events: run.events, outputs: &outputs[..run.output_len as usize] })
    }

    /// Reads a model-specific register. The output is its value: 8 bytes, little-endian.
    pub fn read_msr(&mut self, by: Caller, msr: u32) -> Result<Reply, Status> {
        self.take(|machine, reply, line, size| unsafe {
            sys::hvpm_read_msr(machine, by.raw(), msr, reply, line, size)
        })
    }

    /// Like [`Machine::read_msr`], with the value as a number.
    pub fn read_msr_value(&mut self, by: Caller, msr: u32) -> Result<Output<u64>, Status> {
        self.take_value(0, |machine, value, reply, line, size| unsafe {
            sys::hvpm_read_msr_value(machine, by.raw(), msr, value, reply, line, size)
        })
    }

    /// Writes a model-specific register. A write of EOM may show messages and raise vectors.
    pub fn write_msr(&mut self, by: Caller, msr: u32, value: u64) -> Result<Reply, Status> {
        self.take(|machine, reply, line, size| unsafe {
            sys::hvpm_write_msr(machine, by.raw(), msr, value, reply, line, size)
        })
    }

    /// Reads the message slot of a SINT. The output is 256 bytes, all zero if the slot is empty.
    pub fn read_slot(&mut self, by: Caller, sint: Sint) -> Result<Reply, Status> {
        self.take(|machine, reply, line, size| unsafe {
            sys::hvpm_read_slot(machine, by.raw(), sint.0, reply, line, size)
        })
    }

    /// Empties the message slot of a SINT. The next message appears on EOM or on a post.
    pub fn clear_slot(&mut self, by: Caller, sint: Sint) -> Result<Reply, Status> {
        self.take(|machine, reply, line, size| unsafe {
            sys::hvpm_clear_slot(machine, by.raw(), sint.0, reply, line, size)
        })
    }

    /// Reads the event flags of a SINT. The output is 256 bytes; flag f is bit f % 8 of byte f / 8.
    pub fn read_flags(&mut self, by: Caller, sint: Sint) -> Result<Reply, Status> {
        self.take(|machine, reply, line, size| unsafe {
            sys::hvpm_read_flags(machine, by.raw(), sint.0, reply, line, size)
        })
    }

    /// Clears one event flag of a SINT.
    pub fn clear_flag(&mut self, by: Caller, sint: Sint, flag: u16) -> Result<Reply, Status> {
        self.take(|machine, reply, line, size| unsafe {
            sys::hvpm_clear_flag(machine, by.raw(), sint.0, flag, reply, line, size)
        })
    }

    /// Takes the highest pending vector. The output is one byte: the vector, or 0 if none is pending.
    pub fn take_interrupt(&mut self, by: Caller) -> Result<Reply, Status> {
        self.take(|machine, reply, line, size| unsafe {
            sys::hvpm_take_interrupt(machine, by.raw(), reply, line, size)
        })
    }
}

impl Drop for Machine {
    fn drop(&mut self) {
        // SAFETY: as in `hypercall`; the library leaves an empty handle as it is.
        unsafe { sys::hvpm_destroy(&mut self.handle) }
        if !self.handle.record.is_null() {
            // SAFETY: `boot_recorded` made the record of a box. The library has freed its texts.
            drop(unsafe {
                sys::hvpm_record_free(self.handle.record);
                Box::from_raw(self.handle.record)
            });
        }
    }
}

#[cfg(test)]
mod tests {
    use super::{Caller, Config, Machine, Status};

    /// The library alone writes the count of a handle; no test takes as many events.
    #[test]
    fn a_machine_takes_no_more_events_than_are_counted() {
        let by = Caller::new(1, 0);
        let config = Config { mask: 0, pages: 32, pool: 12, vps: 1 };
        let mut machine = Machine::boot(config).expect("it boots").audited();
        machine.handle.events = u64::MAX - 1;
        let last = machine.take_interrupt(by).expect("the last event is taken");
        assert_eq!(last.line(), "18446744073709551615 1.0 interrupt ok 00\n");
        assert_eq!(machine.take_interrupt(by).err(), Some(Status::UsedUp));
        assert_eq!(machine.events(), u64::MAX);
    }
}
