//! Replies to events.

use crate::Effect;
use alloc::borrow::ToOwned;
use alloc::string::String;
use core::fmt;
use hvpm_sys as sys;

/// A rule of docs/POLICY.md, P1 to P27, by its number.
#[derive(Clone, Copy, Debug, PartialEq, Eq, PartialOrd, Ord, Hash)]
pub struct Rule(pub u32);

/// The status of a hypercall: bits 15:0 of RAX. 0 is HV_STATUS_SUCCESS.
#[derive(Clone, Copy, PartialEq, Eq, PartialOrd, Ord, Hash)]
pub struct HvStatus(pub u16);

impl fmt::Debug for HvStatus {
    fn fmt(&self, f: &mut fmt::Formatter<'_>) -> fmt::Result {
        write!(f, "HvStatus({:#x})", self.0)
    }
}

/// How an event was answered.
#[derive(Clone, Copy, Debug, PartialEq, Eq)]
pub enum Answer {
    /// The event is served. Of a rep call, this was the last element.
    Served,
    /// The element is served, and more follow: see [`next`].
    More {
        /// The start index of the next element.
        next: u16,
    },
    /// A rule refuses the hypercall. Only the count of events changed.
    Denied {
        /// The first rule that doesn't hold.
        rule: Rule,
    },
    /// A rule refuses the access: give the guest #GP. Only the count of events changed.
    Fault {
        /// The first rule that doesn't hold.
        rule: Rule,
    },
}

/// The reply to an event.
#[derive(Clone)]
pub struct Reply {
    pub(crate) raw: sys::hvpm_reply,
    pub(crate) line: String,
}

/// Returns an audit line as text.
pub(crate) fn line_of(bytes: &[u8]) -> String {
    core::str::from_utf8(bytes).expect("a line is ASCII").to_owned()
}

const NOTHING: sys::hvpm_effect = sys::hvpm_effect {
    kind: sys::HVPM_EFFECT_NOTHING,
    vp: 0,
    partition: 0,
    page: 0,
    raised: [0; 4],
    shown: 0,
    waiting: 0,
    flag: 0,
    flag_sint: 0,
    flag_is: 0,
    port: 0,
    freed: 0,
    pooled: 0,
};

impl Reply {
    pub(crate) fn new() -> Reply {
        let raw = sys::hvpm_reply {
            kind: sys::HVPM_REPLY_SERVED,
            rule: 0,
            result: 0,
            next: 0,
            output_len: 0,
            line_len: 0,
            output: [0; 256],
            effect: NOTHING,
        };
        Reply { raw, line: String::new() }
    }

    /// Returns how the event was answered.
    #[must_use]
    pub fn answer(&self) -> Answer {
        let rule = Rule(self.raw.rule);
        match self.raw.kind {
            sys::HVPM_REPLY_SERVED => Answer::Served,
            sys::HVPM_REPLY_MORE => Answer::More { next: self.raw.next as u16 },
            sys::HVPM_REPLY_DENIED => Answer::Denied { rule },
            _ => Answer::Fault { rule },
        }
    }

    /// Returns whether the event was served.
    #[must_use]
    pub fn is_served(&self) -> bool {
        matches!(self.answer(), Answer::Served | Answer::More { .. })
    }

    /// Returns the rule that refuses the event, or `None` if it was served.
    #[must_use]
    pub fn rule(&self) -> Option<Rule> {
        match self.answer() {
            Answer::Denied { rule } | Answer::Fault { rule } => Some(rule),
            Answer::Served | Answer::More { .. } => None,
        }
    }

    /// Returns the status of a hypercall. For an access it is [`HvStatus`] 0, or `None` for a fault.
    #[must_use]
    pub fn status(&self) -> Option<HvStatus> {
        match self.answer() {
            Answer::Fault { .. } => None,
            _ => Some(HvStatus(self.raw.result as u16)),
        }
    }

    /// Returns the result value of a hypercall, for RAX; 0 for an access.
    #[must_use]
    pub fn result(&self) -> u64 {
        self.raw.result
    }

    /// Returns the output of the event, at most 256 bytes.
    #[must_use]
    pub fn output(&self) -> &[u8] {
        &self.raw.output[..self.raw.output_len as usize]
    }

    /// Returns the event's audit line, with its line feed. It is empty unless the machine is
    /// [audited](crate::Machine::audited), and for [`crate::Machine::run`].
    #[must_use]
    pub fn line(&self) -> &str {
        &self.line
    }

    /// Returns what the event changed: messages, event flags, vectors, pages and processors.
    #[must_use]
    pub fn effect(&self) -> Effect {
        Effect::of(&self.raw.effect)
    }
}

impl fmt::Debug for Reply {
    fn fmt(&self, f: &mut fmt::Formatter<'_>) -> fmt::Result {
        f.debug_struct("Reply")
            .field("answer", &self.answer())
            .field("result", &self.result())
            .field("output", &self.output())
            .field("effect", &self.effect())
            .finish()
    }
}

/// The reply to an event whose output is a value.
#[derive(Clone, Debug)]
#[non_exhaustive]
pub struct Output<T> {
    /// The reply.
    pub reply: Reply,
    /// The value, if the event was served.
    pub value: Option<T>,
}

/// How far [`crate::Machine::run`] got.
#[derive(Clone, Debug)]
#[non_exhaustive]
pub struct Run<'o> {
    /// The reply to the last element executed, without an audit line.
    pub reply: Reply,
    /// The number of elements executed, at least 1.
    pub events: u32,
    /// The outputs of these elements, one after another.
    pub outputs: &'o [u8],
}

/// How far a call of a list got, such as [`crate::Machine::deposit_pages`].
#[derive(Clone, Debug)]
#[non_exhaustive]
pub struct Made {
    /// The reply to the last element executed, without an audit line. If it is [`Answer::Denied`], its rule
    /// refused the element behind those that were served.
    pub reply: Reply,
    /// The number of elements served, from the first on. If it is less than the list's, and no rule refused
    /// an element, call the function again with the rest.
    pub count: usize,
}

/// Returns RCX for the next element, after a reply that is [`Answer::More`].
#[must_use]
pub fn next(rcx: u64, reply: &Reply) -> u64 {
    // SAFETY: the reply is a whole one, and is only read.
    unsafe { sys::hvpm_next(rcx, &reply.raw) }
}

#[cfg(test)]
mod tests {
    use super::{Answer, HvStatus, Reply, Rule, sys};
    use crate::{Caller, Effect, PortId};

    /// Also where the machine has no such value today.
    #[test]
    fn fields_are_read_whole() {
        let mut reply = Reply::new();
        (reply.raw.kind, reply.raw.rule, reply.raw.result) = (sys::HVPM_REPLY_DENIED, 27, 0x0708_A000_1234);
        assert_eq!(
            (reply.answer(), reply.status()),
            (Answer::Denied { rule: Rule(27) }, Some(HvStatus(0x1234)))
        );
        (reply.raw.kind, reply.raw.next) = (sys::HVPM_REPLY_MORE, 0x0FFF);
        assert_eq!((reply.answer(), reply.result()), (Answer::More { next: 0x0FFF }, 0x0708_A000_1234));
        let effect = &mut reply.raw.effect;
        (effect.kind, effect.partition, effect.vp, effect.freed) = (sys::HVPM_EFFECT_SYNIC, 7, 9, 1);
        let Effect::Synic(synic) = reply.effect() else { panic!("it is of a processor") };
        assert_eq!((synic.at, synic.freed, synic.flag), (Caller::new(7, 9), Some(PortId(0)), None));
    }
}
