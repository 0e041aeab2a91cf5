//! The version of the library, and the names of statuses and rules.

use crate::{HvStatus, Rule, Status};
use core::ffi::{CStr, c_char};
use core::fmt;
use hvpm_sys as sys;

/// The text at a pointer that the library returned.
fn text(at: *const c_char) -> &'static str {
    // SAFETY: the library's texts are static, never null, and end with a zero.
    unsafe { CStr::from_ptr(at) }.to_str().expect("a name is ASCII")
}

/// Returns the version of the library, as `MAJOR.MINOR.PATCH`.
#[must_use]
pub fn version() -> &'static str {
    // SAFETY: the function takes nothing. Those below take only a number.
    text(unsafe { sys::hvpm_version() })
}

/// Returns the version of the library as a number: 100 for 0.1.0, and 10203 for 1.2.3.
#[must_use]
pub fn version_number() -> u32 {
    // SAFETY: as in `version`.
    unsafe { sys::hvpm_version_number() }
}

/// Whether a library of this version has the functions and structs of another one, which the crate declares.
fn fits(library: u32, declared: u32) -> bool {
    let series = |version: u32| if version < 10_000 { version / 100 } else { version / 10_000 * 100 };
    series(library) == series(declared) && library >= declared
}

/// Stops a program that was given another library than the crate declares.
pub(crate) fn check_version() {
    let library = version_number();
    assert!(
        fits(library, sys::HVPM_VERSION),
        "the library hvpm has version {}, and the crate needs {}",
        library,
        sys::HVPM_VERSION
    );
}

/// Returns the name of a status of the library, such as `HVPM_STATUS_MEMORY`.
#[must_use]
pub fn status_name(status: Status) -> &'static str {
    text(unsafe { sys::hvpm_status_name(status.number()) })
}

/// Returns the TLFS name of a hypercall's status, such as `HV_STATUS_ACCESS_DENIED`; `unknown` for a status
/// that the machine never returns.
#[must_use]
pub fn hv_status_name(status: HvStatus) -> &'static str {
    text(unsafe { sys::hvpm_hv_status_name(status.0.into()) })
}

/// Returns the name of a rule, such as `P12`; `unknown` if there is no such rule.
#[must_use]
pub fn rule_name(rule: Rule) -> &'static str {
    text(unsafe { sys::hvpm_rule_name(rule.0) })
}

/// Returns what a rule demands, in one sentence of docs/POLICY.md; `unknown` if there is no such rule.
#[must_use]
pub fn rule_sentence(rule: Rule) -> &'static str {
    text(unsafe { sys::hvpm_rule_sentence(rule.0) })
}

impl fmt::Display for HvStatus {
    fn fmt(&self, f: &mut fmt::Formatter<'_>) -> fmt::Result {
        f.write_str(hv_status_name(*self))
    }
}

impl fmt::Display for Rule {
    fn fmt(&self, f: &mut fmt::Formatter<'_>) -> fmt::Result {
        f.write_str(rule_name(*self))
    }
}

#[cfg(test)]
mod tests {
    use super::{check_version, fits};

    #[test]
    fn a_library_fits_if_nothing_may_have_broken() {
        check_version();
        // The version of the library, and that which is declared.
        let fitting = [(100, 100), (103, 102), (10_203, 10_203), (10_204, 10_203), (10_300, 10_203)];
        let others = [(99, 100), (101, 102), (200, 100), (10_100, 100), (10_202, 10_203), (20_203, 10_203)];
        assert!(fitting.iter().all(|&(library, declared)| fits(library, declared)));
        assert!(!others.iter().any(|&(library, declared)| fits(library, declared)));
    }
}
