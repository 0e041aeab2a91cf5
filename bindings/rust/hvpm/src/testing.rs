//! For tests: a machine that says what happened if its test panics. It needs the feature `std`.
//!
//! ```
//! use hvpm::testing::TestMachine;
//! use hvpm::{Caller, Config};
//!
//! let mut machine = TestMachine::boot(Config { mask: 0x2_0000_0000, pages: 32, pool: 12, vps: 1 });
//! let id = machine.get_partition_id(Caller::new(1, 0))?.value;
//! assert_eq!(id.map(|id| id.0), Some(1));
//! # Ok::<(), hvpm::Status>(())
//! ```

use crate::{Config, Machine};
use core::ops::{Deref, DerefMut};
use std::fs;
use std::path::{Path, PathBuf};
use std::process::Command;
use std::string::String;
use std::vec::Vec;
use std::{env, eprintln, format, thread};

/// How many events are told.
const LAST: usize = 6;

/// A [recorded](Machine::boot_recorded) machine. If it is dropped while its thread panics, it writes its events
/// to a file as a script. It prints the last ones in words on standard error, if the variable `HVPM` names the
/// program or `PATH` has it, and which commands look further.
#[derive(Debug)]
pub struct TestMachine {
    machine: Machine,
}

impl TestMachine {
    /// Boots a machine.
    ///
    /// # Panics
    ///
    /// If the machine doesn't boot.
    #[must_use]
    pub fn boot(config: Config) -> TestMachine {
        TestMachine { machine: Machine::boot_recorded(config).expect("the machine boots") }
    }
}

impl Deref for TestMachine {
    type Target = Machine;

    fn deref(&self) -> &Machine {
        &self.machine
    }
}

impl DerefMut for TestMachine {
    fn deref_mut(&mut self) -> &mut Machine {
        &mut self.machine
    }
}

impl Drop for TestMachine {
    fn drop(&mut self) {
        if thread::panicking() {
            let script = self.machine.take_record().script;
            eprintln!("{}", told(&script, &program()));
        }
    }
}

/// The program `hvpm`.
fn program() -> PathBuf {
    env::var_os("HVPM").map_or_else(|| "hvpm".into(), Into::into)
}

/// Where the script of this test goes: a file named for its thread, which has the name of the test.
fn path() -> PathBuf {
    let thread = thread::current();
    let name = thread.name().unwrap_or("test").replace(|letter: char| !letter.is_alphanumeric(), "_");
    env::temp_dir().join(format!("hvpm-{}-{name}.hv", std::process::id()))
}

/// What is printed of a script.
fn told(script: &str, program: &Path) -> String {
    let (path, hvpm) = (path(), program.display());
    if let Err(error) = fs::write(&path, script) {
        return format!("hvpm: the script isn't written: {error}\n{script}");
    }
    let file = path.display();
    format!(
        "hvpm: the last events\n{}\nhvpm: look further\n{hvpm} explain {file}\n{hvpm} trace {file}\n\
         {hvpm} draw {file} --sequence >run.svg\n{hvpm} draw {file} | dot -Tsvg >state.svg",
        explained(&path, program)
    )
}

/// The last events of a script in words.
fn explained(script: &Path, program: &Path) -> String {
    match Command::new(program).arg("explain").arg(script).output() {
        Err(error) => format!("not explained: {}: {error}", program.display()),
        Ok(output) if !output.status.success() => String::from_utf8_lossy(&output.stderr).trim_end().into(),
        Ok(output) => {
            let text = String::from_utf8_lossy(&output.stdout);
            let lines: Vec<&str> = text.lines().collect();
            lines[lines.len().saturating_sub(LAST)..].join("\n")
        }
    }
}
