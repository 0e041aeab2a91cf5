//! Raw declarations of the library hvpm: each number, struct and function of `hvpm.h`, `hvpm_guest.h` and
//! `hvpm_pages.h`, under its name in C. The headers document them. A field whose name is a keyword of Rust
//! ends with `_`: `type_`.
//!
//! The crate `hvpm` is the safe layer over this one.
//!
//! ```
//! use core::ptr::null_mut;
//!
//! let mut machine = hvpm_sys::hvpm_machine { live: false, events: 0, at: null_mut(), record: null_mut() };
//! let config = hvpm_sys::hvpm_config { mask: 0xf7_0000_0044, pages: 32, pool: 12, vps: 1 };
//! let mut child = 0;
//! // SAFETY: each pointer leads to a value of its type, and the handle begins empty.
//! unsafe {
//!     assert_eq!(hvpm_sys::hvpm_boot(&mut machine, &config), hvpm_sys::HVPM_STATUS_OK);
//!     assert_eq!(hvpm_sys::hvpm_child_after(&machine, 1, 0, &mut child), hvpm_sys::HVPM_STATUS_OK);
//!     hvpm_sys::hvpm_destroy(&mut machine);
//! }
//! assert_eq!(child, 0, "the root has no child");
//! ```
#![no_std]

#[allow(non_camel_case_types)]
#[rustfmt::skip]
mod raw;

pub use raw::*;
