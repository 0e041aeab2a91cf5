//! The version, and the names of statuses and rules.

use hvpm::{Caller, HvStatus, PartitionId, Rule, Status, VpIndex};
use hvpm::{hv_status_name, rule_name, rule_sentence, status_name, version, version_number};

#[test]
fn the_version_is_that_of_the_package() {
    assert_eq!(version(), env!("CARGO_PKG_VERSION"));
    let [major, minor, patch] =
        [env!("CARGO_PKG_VERSION_MAJOR"), env!("CARGO_PKG_VERSION_MINOR"), env!("CARGO_PKG_VERSION_PATCH")]
            .map(|part| part.parse::<u32>().expect("cargo gives numbers"));
    assert_eq!(version_number(), major * 10_000 + minor * 100 + patch);
}

#[test]
fn statuses_of_the_library_have_names() {
    let names = [
        (Status::Short, "HVPM_STATUS_SHORT"),
        (Status::UsedUp, "HVPM_STATUS_USED_UP"),
        (Status::Memory, "HVPM_STATUS_MEMORY"),
        (Status::Pages, "HVPM_STATUS_PAGES"),
        (Status::Pool, "HVPM_STATUS_POOL"),
        (Status::Vps, "HVPM_STATUS_VPS"),
    ];
    for (status, name) in names {
        assert_eq!(status_name(status), name);
    }
    let texts = [
        (Status::Short, "the buffer for outputs is too short, or the bound is 0"),
        (Status::UsedUp, "the machine takes no more events"),
        (Status::Memory, "out of memory"),
        (Status::Pages, "boot refused: pages"),
        (Status::Pool, "boot refused: pool"),
        (Status::Vps, "boot refused: vps"),
    ];
    for (status, text) in texts {
        assert_eq!(status.to_string(), text);
    }
}

#[test]
fn statuses_of_hypercalls_have_names() {
    let names =
        [(0, "HV_STATUS_SUCCESS"), (6, "HV_STATUS_ACCESS_DENIED"), (0x13, "HV_STATUS_INSUFFICIENT_BUFFERS")];
    for (status, name) in names {
        assert_eq!((hv_status_name(HvStatus(status)), HvStatus(status).to_string()), (name, name.into()));
    }
    assert_eq!(hv_status_name(HvStatus(1)), "unknown");
    assert_eq!(format!("{:?}", HvStatus(6)), "HvStatus(0x6)");
}

#[test]
fn rules_have_names_and_sentences() {
    assert_eq!([1, 27].map(|rule| rule_name(Rule(rule))), ["P1", "P27"]);
    assert_eq!(Rule(12).to_string(), "P12");
    assert_eq!(rule_sentence(Rule(2)), "The caller's partition is Active.");
    assert_eq!((rule_name(Rule(28)), rule_sentence(Rule(0))), ("unknown", "unknown"));
}

#[test]
fn special_ids_are_those_of_the_policy() {
    assert_eq!((PartitionId::ROOT, PartitionId::SELF), (PartitionId(1), PartitionId(0xffff_ffff_ffff_ffff)));
    assert_eq!(VpIndex::ANY, VpIndex(0xffff_ffff));
    assert_eq!(Caller::new(7, 63).to_string(), "7.63");
}
