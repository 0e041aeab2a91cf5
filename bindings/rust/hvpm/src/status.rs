//! Why a function failed, and the names of statuses and rules.

use core::fmt;
use hvpm_sys as sys;

/// Why a function failed. No event happened and nothing changed.
#[derive(Clone, Copy, Debug, PartialEq, Eq, Hash)]
#[non_exhaustive]
pub enum Status {
    /// Run: the buffer for outputs has fewer than 16 bytes, or no element may be executed.
    Short,
    /// The machine takes no more events.
    UsedUp,
    /// The host is out of memory. You may retry. Accesses never return this.
    Memory,
    /// Boot: no pages, or more than 65,536.
    Pages,
    /// Boot: more pooled pages than pages.
    Pool,
    /// Boot: no processors, more than 64, or more than the pool can pay for.
    Vps,
}

impl Status {
    /// Returns the number of the status in C.
    #[must_use]
    pub fn number(self) -> u32 {
        match self {
            Status::Short => sys::HVPM_STATUS_SHORT,
            Status::UsedUp => sys::HVPM_STATUS_USED_UP,
            Status::Memory => sys::HVPM_STATUS_MEMORY,
            Status::Pages => sys::HVPM_STATUS_PAGES,
            Status::Pool => sys::HVPM_STATUS_POOL,
            Status::Vps => sys::HVPM_STATUS_VPS,
        }
    }
}

/// Converts a status of the library. A safe function never gets the others: a [`crate::Machine`] has a
/// machine, no pointer is null, and the buffer of a line is large enough.
pub(crate) fn done(status: u32) -> Result<(), Status> {
    match status {
        sys::HVPM_STATUS_OK => Ok(()),
        sys::HVPM_STATUS_SHORT => Err(Status::Short),
        sys::HVPM_STATUS_USED_UP => Err(Status::UsedUp),
        sys::HVPM_STATUS_MEMORY => Err(Status::Memory),
        sys::HVPM_STATUS_PAGES => Err(Status::Pages),
        sys::HVPM_STATUS_POOL => Err(Status::Pool),
        sys::HVPM_STATUS_VPS => Err(Status::Vps),
        _ => unreachable!("status {status}"),
    }
}

impl fmt::Display for Status {
    fn fmt(&self, f: &mut fmt::Formatter<'_>) -> fmt::Result {
        f.write_str(match self {
            Status::Short => "the buffer for outputs is too short, or the bound is 0",
            Status::UsedUp => "the machine takes no more events",
            Status::Memory => "out of memory",
            Status::Pages => "boot refused: pages",
            Status::Pool => "boot refused: pool",
            Status::Vps => "boot refused: vps",
        })
    }
}

impl core::error::Error for Status {}

#[cfg(test)]
mod tests {
    use super::{Status, done};

    #[test]
    fn each_status_has_its_number() {
        let numbers = [
            (3, Status::Short),
            (4, Status::UsedUp),
            (5, Status::Memory),
            (6, Status::Pages),
            (7, Status::Pool),
            (8, Status::Vps),
        ];
        assert_eq!(done(0), Ok(()));
        for (number, status) in numbers {
            assert_eq!((done(number), status.number()), (Err(status), number));
        }
    }

    /// An empty handle, an occupied one, a null, what a look doesn't find, and a number that is no status.
    #[test]
    fn no_safe_function_has_another_status() {
        extern crate std;
        for status in [1, 2, 9, 10, 11] {
            assert!(std::panic::catch_unwind(|| done(status)).is_err(), "status {status}");
        }
    }
}
