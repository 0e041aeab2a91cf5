//! Effects of events.

use crate::{Caller, PartitionId, PortId, Sint};
use hvpm_sys as sys;

/// What an event changed in any partition: messages, event flags, pending vectors, pages and processors.
/// Anything that the effect doesn't name is unchanged, except for the vector that
/// [`crate::Machine::take_interrupt`] returns, which is no longer pending.
#[derive(Clone, Copy, Debug, PartialEq, Eq)]
pub enum Effect {
    /// None of these changed. Refused events always have this effect.
    Nothing,
    /// Messages, an event flag or vectors changed at one processor, which may be the caller.
    Synic(Synic),
    /// A page moved to another partition, or into or out of a pool.
    Page {
        /// The page.
        page: u64,
        /// The partition that now owns it.
        partition: PartitionId,
        /// Whether the page is in that partition's pool. Otherwise it is loose.
        pooled: bool,
    },
    /// A partition was deleted. Its pages, at least one, are now loose pages of another partition.
    Pages {
        /// The deleted partition.
        from: PartitionId,
        /// The partition that now owns the pages.
        to: PartitionId,
    },
    /// This processor was created or deleted. It has no message, event flag or pending vector.
    Processor(Caller),
    /// A partition was finalized. Its processors, at least one, were removed with their messages, flags and
    /// vectors.
    Partition(PartitionId),
}

/// What an event changed at a processor.
#[derive(Clone, Copy, Debug, PartialEq, Eq)]
pub struct Synic {
    /// The processor.
    pub at: Caller,
    /// Bit s is 1 if the slot of SINT s changed: it shows another message, or is now empty.
    pub shown: u16,
    /// Bit s is 1 if one more message waits at SINT s, behind that in the slot.
    pub waiting: u16,
    /// The event flag that changed.
    pub flag: Option<FlagChange>,
    /// The vectors that were raised: vector v is bit v % 64 of word v / 64. A raised vector may have been
    /// pending already.
    pub raised: [u64; 4],
    /// The port of that partition whose message left its slot. If it still exists, it can take one more.
    pub freed: Option<PortId>,
}

/// An event flag that changed.
#[derive(Clone, Copy, Debug, PartialEq, Eq)]
pub struct FlagChange {
    /// Its SINT.
    pub sint: Sint,
    /// Its number, below 2,048.
    pub flag: u16,
    /// Whether it was set. Otherwise it was cleared.
    pub is_set: bool,
}

impl Effect {
    pub(crate) fn of(raw: &sys::hvpm_effect) -> Effect {
        let (partition, at) = (PartitionId(raw.partition), Caller::new(raw.partition, raw.vp));
        match raw.kind {
            sys::HVPM_EFFECT_NOTHING => Effect::Nothing,
            sys::HVPM_EFFECT_SYNIC => Effect::Synic(Synic::of(raw, at)),
            sys::HVPM_EFFECT_PAGE => Effect::Page { page: raw.page, partition, pooled: raw.pooled != 0 },
            sys::HVPM_EFFECT_PAGES => Effect::Pages { from: PartitionId(raw.page), to: partition },
            sys::HVPM_EFFECT_PROCESSOR => Effect::Processor(at),
            _ => Effect::Partition(partition),
        }
    }
}

impl Synic {
    fn of(raw: &sys::hvpm_effect, at: Caller) -> Synic {
        let is_set = u32::from(raw.flag_is) == sys::HVPM_FLAG_SET;
        let flag = FlagChange { sint: Sint(raw.flag_sint), flag: raw.flag, is_set };
        Synic {
            at,
            shown: raw.shown,
            waiting: raw.waiting,
            flag: (raw.flag_is != 0).then_some(flag),
            raised: raw.raised,
            freed: (raw.freed != 0).then_some(PortId(raw.port)),
        }
    }
}
