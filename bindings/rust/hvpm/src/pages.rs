//! Keeps a processor's message page (SIMP) and event flags page (SIEFP) in step with the machine, like
//! `hvpm_pages.h` in C. The guest reads and writes both pages without an exit, so call these functions around
//! each event. All of one exit is one critical section. "Pages" in docs/EMBEDDING.md explains the protocol.
//!
//! ```
//! # use hvpm::{Caller, Config, Machine, Registers, Status, pages::Pages};
//! # let (by, call) = (Caller::new(1, 0), Registers { rcx: 0x46, rdx: 0, r8: 0 });
//! # let mut machine = Machine::boot(Config { mask: 4, pages: 8, pool: 8, vps: 1 })?;
//! # fn inject(_: Caller, _: u8) {}
//! let mut p = Pages::new(by);
//! p.before(&mut machine)?; // EOM: its processor; a post: each one of the port's partition
//! let reply = machine.hypercall(by, call, &[])?; // what the guest exited for, or write_msr
//! p.after(&mut machine, &reply)?; // after each event, for the processor that its effect names
//! while let Some(vector) = p.vector(&mut machine)? {
//!     inject(p.of(), vector);
//! }
//! # Ok::<(), Status>(())
//! ```

use crate::reply::Reply;
use crate::status::{Status, done};
use crate::{Caller, Machine};
use core::ptr::{NonNull, null_mut};
use hvpm_sys as sys;

/// The pages of a processor. It starts without any. In the audit and in a [record](Machine::take_record) the
/// events that are made in the guest's place are the guest's own.
#[derive(Debug)]
pub struct Pages {
    raw: sys::hvpm_pages,
}

// SAFETY: the pointers lead to the guest's memory, which any thread may use, as `move` demands.
unsafe impl Send for Pages {}

impl Pages {
    /// Creates the pages of a processor, which has none yet.
    #[must_use]
    pub fn new(of: Caller) -> Pages {
        // SAFETY: zeros are null pointers and numbers. The header asks for them.
        let mut raw: sys::hvpm_pages = unsafe { core::mem::zeroed() };
        raw.of = of.raw();
        Pages { raw }
    }

    /// Returns the processor.
    #[must_use]
    pub fn of(&self) -> Caller {
        Caller::of(self.raw.of)
    }

    /// Returns the SINTs whose message is in the page: bit s is 1 if the message that the machine shows at
    /// SINT s is there.
    #[must_use]
    pub fn shown(&self) -> u16 {
        self.raw.shown
    }

    /// Returns whether a message left its slot since the last call: a post that P23 refused may be repeated.
    #[must_use]
    pub fn take_freed(&mut self) -> bool {
        core::mem::replace(&mut self.raw.freed, false)
    }

    /// Calls `call` with the machine and the pages.
    fn keep(
        &mut self,
        machine: &mut Machine,
        call: impl FnOnce(*mut sys::hvpm_machine, *mut sys::hvpm_pages) -> u32,
    ) -> Result<(), Status> {
        done(call(&mut machine.handle, &mut self.raw))
    }

    /// Clears in the machine the slots that the guest freed in its page. Call it before a post, a write of
    /// EOM and HvSetVpRegisters.
    pub fn before(&mut self, machine: &mut Machine) -> Result<(), Status> {
        // SAFETY: both are borrowed for this call, and the pages are as `move` asks. So it is below.
        self.keep(machine, |machine, pages| unsafe { sys::hvpm_pages_before(machine, pages) })
    }

    /// Updates the pages after an event. Does nothing if the event's effect doesn't name their processor.
    pub fn after(&mut self, machine: &mut Machine, reply: &Reply) -> Result<(), Status> {
        let effect = &reply.raw.effect;
        self.keep(machine, |machine, pages| unsafe { sys::hvpm_pages_after(machine, pages, effect) })
    }

    /// Sets the addresses of the pages after a write of SIMP or SIEFP. Pass `None` if bit 0 of the register
    /// is 0, or if the page isn't in the guest's memory.
    ///
    /// A new message page gets the messages that the machine shows, and a new event flags page gets the flags
    /// that the guest hasn't taken. All other bytes become zero.
    ///
    /// # Safety
    ///
    /// Each page has 4,096 bytes and begins at a multiple of 4,096. Any thread may read and write it until
    /// another call of this function replaces it, or this value is dropped. Meanwhile only the guest uses it,
    /// and there is no Rust reference to it. A call that returns an error replaces nothing: the pages of both
    /// calls stay in use.
    pub unsafe fn r#move(
        &mut self,
        machine: &mut Machine,
        messages: Option<NonNull<u8>>,
        flags: Option<NonNull<u8>>,
    ) -> Result<(), Status> {
        let [messages, flags] =
            [messages, flags].map(|page| page.map_or(null_mut(), |page| page.as_ptr().cast()));
        self.keep(machine, |machine, pages| unsafe { sys::hvpm_pages_move(machine, pages, messages, flags) })
    }

    /// Takes the highest vector that was raised, or `None` if none is left. Inject it at once: a processor
    /// that waits in HLT has no exit at which to ask.
    pub fn vector(&mut self, machine: &mut Machine) -> Result<Option<u8>, Status> {
        let mut vector = 0;
        self.keep(machine, |machine, pages| unsafe { sys::hvpm_pages_vector(machine, pages, &mut vector) })?;
        Ok((vector != 0).then_some(vector))
    }
}
