//! A driver of the conformance suite: does what the lines of a script say, and prints the audit.
//!
//! ```sh
//! conformance/run --group interface --no-tables --batch target/release/examples/driver
//! ```
//!
//! Without `--batch` it takes one script, by its path. It reads scripts without a fault, and ignores LIMIT.

use hvpm::{Answer, Caller, Config, Machine, Registers, Reply, Sint, Status, next};
use std::fs::read_to_string;
use std::io::{BufRead, Write, stdin, stdout};
use std::process::ExitCode;

/// What ends a script early: a status of the library, or a mistake of the script.
enum End {
    Status(Status),
    Other(String),
}

impl From<Status> for End {
    fn from(status: Status) -> End {
        End::Status(status)
    }
}

fn number(word: &str) -> Result<u64, End> {
    let parsed = match word.strip_prefix("0x") {
        Some(digits) => u64::from_str_radix(digits, 16),
        None => word.parse(),
    };
    parsed.map_err(|error| End::Other(format!("{word}: {error}")))
}

fn bytes(word: &str) -> Result<Vec<u8>, End> {
    let digits = if word == "-" { "" } else { word };
    digits.as_bytes().chunks(2).map(|pair| Ok(number(&format!("0x{}", show(pair)))? as u8)).collect()
}

fn show(pair: &[u8]) -> String {
    String::from_utf8_lossy(pair).into_owned()
}

/// A call, element by element. Adds its lines to the audit.
fn call(machine: &mut Machine, by: Caller, words: &[&str], audit: &mut String) -> Result<(), End> {
    let [rcx, rdx, r8] = [number(words[0])?, number(words[1])?, number(words[2])?];
    let (mut registers, input) = (Registers { rcx, rdx, r8 }, bytes(words[3])?);
    loop {
        let reply = machine.hypercall(by, registers, &input)?;
        audit.push_str(reply.line());
        if !matches!(reply.answer(), Answer::More { .. }) {
            return Ok(());
        }
        registers.rcx = next(rcx, &reply);
    }
}

fn access(machine: &mut Machine, by: Caller, words: &[&str]) -> Result<Reply, End> {
    let numbers = words[1..].iter().map(|word| number(word)).collect::<Result<Vec<_>, _>>()?;
    let first = numbers.first().copied().unwrap_or(0);
    let second = numbers.get(1).copied().unwrap_or(0);
    let (msr, sint) = (first as u32, Sint(first as u8));
    Ok(match words[0] {
        "rdmsr" => machine.read_msr(by, msr)?,
        "wrmsr" => machine.write_msr(by, msr, second)?,
        "slot" => machine.read_slot(by, sint)?,
        "clearslot" => machine.clear_slot(by, sint)?,
        "flags" => machine.read_flags(by, sint)?,
        "clearflag" => machine.clear_flag(by, sint, second as u16)?,
        "interrupt" => machine.take_interrupt(by)?,
        word => return Err(End::Other(format!("unknown word {word}"))),
    })
}

fn boot(words: &[&str]) -> Result<Machine, End> {
    let [pages, pool, vps, mask] =
        [number(words[0])?, number(words[1])?, number(words[2])?, number(words[3])?];
    let config = Config { mask, pages: pages as u32, pool: pool as u32, vps: vps as u32 };
    Ok(Machine::boot(config)?.audited())
}

/// The audit of a script.
fn run(script: &str) -> Result<String, End> {
    let (mut machine, mut audit) = (None, String::new());
    for line in script.lines() {
        let words: Vec<&str> = line.split(' ').filter(|word| !word.is_empty()).collect();
        match (&mut machine, words.as_slice()) {
            (_, [] | ["phase"]) => {}
            (_, [first, ..]) if first.starts_with('#') => {}
            (None, ["boot", rest @ ..]) => machine = Some(boot(rest)?),
            (Some(machine), [who, what, rest @ ..]) => {
                let (partition, vp) = who.split_once('.').ok_or_else(|| End::Other("no processor".into()))?;
                let by = Caller::new(number(partition)?, number(vp)? as u32);
                if *what == "call" {
                    call(machine, by, rest, &mut audit)?;
                } else {
                    audit.push_str(access(machine, by, &words[1..])?.line());
                }
            }
            _ => return Err(End::Other("no boot".into())),
        }
    }
    Ok(audit + &format!("events {}\n", machine.map_or(0, |machine| machine.events())))
}

/// Runs the script at a path and prints the audit. Gives the exit status, and what belongs on standard error.
fn tell(path: &str) -> (u8, String) {
    let script = match read_to_string(path) {
        Ok(script) => script,
        Err(_) => return (1, "cannot read the script".into()),
    };
    match run(&script) {
        Ok(audit) => {
            print!("{audit}");
            (0, String::new())
        }
        Err(End::Status(status @ (Status::Pages | Status::Pool | Status::Vps))) => (1, status.to_string()),
        Err(End::Status(status)) => (3, status.to_string()),
        Err(End::Other(error)) => (1, error),
    }
}

/// Runs one script after another, whose paths are lines of standard input.
fn batch() -> std::io::Result<()> {
    for path in stdin().lock().lines() {
        let (status, text) = tell(&path?);
        println!("{}", format!("end {status} {text}").trim_end());
        stdout().flush()?;
    }
    Ok(())
}

fn main() -> ExitCode {
    let words: Vec<String> = std::env::args().skip(1).collect();
    match words.as_slice() {
        [word] if word == "--batch" => batch().map_or(ExitCode::from(3), |()| ExitCode::SUCCESS),
        [path] => {
            let (status, text) = tell(path);
            if status != 0 {
                eprintln!("driver: {text}");
            }
            ExitCode::from(status)
        }
        _ => {
            eprintln!("usage: driver SCRIPT, or driver --batch");
            ExitCode::from(2)
        }
    }
}
