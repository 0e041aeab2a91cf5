//! A machine that says what happened if its test panics. `HVPM` names the program.

mod common;

use common::{CONFIG, ROOT};
use hvpm::testing::TestMachine;
use hvpm::{PartitionId, Status, VpIndex};
use std::env;
use std::process::{Command, Output};

/// Runs the ignored test of this name in a process of its own with this program.
fn run_alone(name: &str, program: &str) -> Output {
    let mut command = Command::new(env::current_exe().expect("a test has a path"));
    command
        .args(["--exact", name, "--ignored", "--nocapture"])
        .env("HVPM", program)
        .output()
        .expect("it runs")
}

#[test]
fn a_machine_is_a_machine() -> Result<(), Status> {
    let mut machine = TestMachine::boot(CONFIG);
    assert_eq!(machine.create_partition(ROOT, 0)?.value, Some(PartitionId(2)));
    assert_eq!((machine.events(), machine.take_record().script.lines().count()), (1, 2));
    Ok(())
}

#[test]
#[ignore = "it panics: what it prints is compared"]
fn on_purpose() {
    let mut machine = TestMachine::boot(CONFIG);
    for vp in 0..9 {
        let reply = machine.create_vp(ROOT, PartitionId(7), VpIndex(vp)).expect("an event happens");
        assert!(!reply.is_served());
    }
    panic!("on purpose");
}

#[test]
fn a_panic_shows_the_last_events() {
    let program = env::var("HVPM").unwrap_or("hvpm".into());
    let told = String::from_utf8(run_alone("on_purpose", &program).stderr).expect("it is text");
    let at = told.find("hvpm: the last events\n").unwrap_or_else(|| panic!("{told}"));
    let lines: Vec<&str> = told[at..].lines().collect();
    assert!(lines[1].starts_with("4 1.0 HvCreateVp partition 7, vp 3"), "{told}");
    assert!(lines[6].contains("9 1.0 ") && lines[6].contains("P9: the target doesn't exist"), "{told}");
    assert_eq!(lines[7], "hvpm: look further");
    let file = lines[8].strip_prefix(&format!("{program} explain ")).unwrap_or_else(|| panic!("{told}"));
    let script = std::fs::read_to_string(file).expect("the script is there");
    assert_eq!(script.lines().count(), 10);
    assert_eq!(script.lines().last(), Some("1.0 call 0x1004e 0x7 0x8 -"));
}

#[test]
#[ignore = "what it prints is compared"]
fn without_a_panic() {
    let mut machine = TestMachine::boot(CONFIG);
    assert!(!machine.create_vp(ROOT, PartitionId(7), VpIndex(0)).expect("an event happens").is_served());
}

#[test]
fn a_test_that_passes_tells_nothing() {
    let ended = run_alone("without_a_panic", "/nowhere");
    let told = String::from_utf8(ended.stderr).expect("it is text");
    assert!(ended.status.success() && !told.contains("hvpm"), "{told}");
}

#[test]
fn a_program_that_is_not_there_is_told() {
    let told = String::from_utf8(run_alone("on_purpose", "/nowhere").stderr).expect("it is text");
    assert!(told.contains("not explained: /nowhere: "), "{told}");
}
