//! A hypervisor's exit loop in small: two virtual processors, each in a thread, with a table of exits each,
//! and one machine behind a lock. One processor posts a message, which wakes the other from HLT and is in its
//! message page then. It prints the audit and what guests get.

use hvpm::pages::Pages;
use hvpm::{Answer, Caller, Config, Connection, ConnectionId, Machine, PartitionId, Port, PortId, PortType};
use hvpm::{Registers, Reply, Sint, Status, VpIndex, next};
use std::error::Error;
use std::ptr::NonNull;
use std::sync::atomic::{AtomicU8, Ordering::SeqCst};
use std::sync::{Condvar, Mutex};
use std::time::{Duration, Instant};

const SIMP: u32 = 0x4000_0083;

/// Why a processor came out of its guest.
#[derive(Clone, Copy)]
enum Exit {
    /// A hypercall with RCX, RDX, and the bytes of its input list.
    Hypercall(u64, u64, &'static [u8]),
    ReadMsr(u32),
    WriteMsr(u32, u64),
    /// HLT: it waits for a vector.
    Halt,
}

/// What a processor is entered with again.
#[derive(Debug, PartialEq)]
enum Entry {
    /// RAX of a hypercall.
    Result(u64),
    /// EDX:EAX of a read.
    Value(u64),
    /// Nothing: a register was written.
    Done,
    GeneralProtection,
    Vector(u8),
}

/// A page of the guests' memory, which guests use without an exit.
#[repr(align(4096))]
struct Page([AtomicU8; 4096]);

/// A processor: its pages, and the vectors that were injected.
struct Processor {
    pages: Pages,
    injected: Vec<u8>,
}

/// What one lock protects for all of an exit.
struct Host {
    machine: Machine,
    processors: [Processor; 2],
    message_page: &'static Page,
}

impl Host {
    /// Clears in the machine what guests cleared in their pages: before each event, since a post, EOM and
    /// HvSetVpRegisters need it, and it costs little.
    fn before(&mut self) -> Result<(), Status> {
        self.processors.iter_mut().try_for_each(|each| each.pages.before(&mut self.machine))
    }

    /// Brings all pages up to date, and injects the vectors that an event raised, rarely at the caller.
    fn after(&mut self, reply: &Reply) -> Result<(), Status> {
        print!("{}", reply.line());
        for Processor { pages, injected } in &mut self.processors {
            pages.after(&mut self.machine, reply)?;
            while let Some(vector) = pages.vector(&mut self.machine)? {
                println!("    {}: vector {vector:#x}", pages.of());
                injected.push(vector);
            }
        }
        Ok(())
    }

    /// Drives a call to its last element, or to one that is denied. All elements' outputs are for the guest's
    /// memory at R8.
    fn hypercall(&mut self, by: Caller, mut call: Registers, input: &[u8]) -> Result<Entry, Status> {
        let mut output = Vec::new();
        loop {
            let reply = self.machine.hypercall(by, call, input)?;
            self.after(&reply)?;
            output.extend_from_slice(reply.output());
            if !matches!(reply.answer(), Answer::More { .. }) {
                println!("    {by}: {} bytes of output", output.len());
                return Ok(Entry::Result(reply.result()));
            }
            call.rcx = next(call.rcx, &reply);
        }
    }

    /// A write of SIMP names the page, or none.
    fn move_page(&mut self, by: Caller) -> Result<(), Status> {
        let is_enabled = self.machine.peek_msr(by, SIMP).is_some_and(|value| value & 1 == 1);
        let page = is_enabled.then(|| NonNull::from(self.message_page).cast());
        // SAFETY: the page is there for good, aligned, and atomic.
        unsafe { self.processors[by.vp.0 as usize].pages.r#move(&mut self.machine, page, None) }
    }

    fn handle(&mut self, by: Caller, exit: Exit) -> Result<Entry, Status> {
        self.before()?;
        match exit {
            Exit::Hypercall(rcx, rdx, input) => self.hypercall(by, Registers { rcx, rdx, r8: 0 }, input),
            Exit::ReadMsr(msr) => {
                let read = self.machine.read_msr_value(by, msr)?;
                self.after(&read.reply)?;
                Ok(read.value.map_or(Entry::GeneralProtection, Entry::Value))
            }
            Exit::WriteMsr(msr, value) => {
                let reply = self.machine.write_msr(by, msr, value)?;
                if msr == SIMP {
                    self.move_page(by)?;
                }
                self.after(&reply)?;
                Ok(if reply.is_served() { Entry::Done } else { Entry::GeneralProtection })
            }
            Exit::Halt => {
                let vector = self.processors[by.vp.0 as usize].injected.pop();
                Ok(vector.map_or(Entry::Done, Entry::Vector))
            }
        }
    }
}

/// Exits, and what the processor is to be entered with after each.
const EXITS: [(Exit, Entry); 6] = [
    (Exit::Hypercall(0x46, 0, &[]), Entry::Result(0)),
    (Exit::Hypercall(0x4A, 0, &[1]), Entry::Result(0)),
    (Exit::Hypercall(0x0000_0003_0000_0049, 0, &[1]), Entry::Result(3 << 32)),
    (Exit::WriteMsr(0x4000_0095, 0x30), Entry::Done),
    (Exit::ReadMsr(0x4000_0095), Entry::Value(0x30)),
    (Exit::ReadMsr(0x4000_0071), Entry::GeneralProtection),
];

/// The receiver enables messages, and vector 0x30 at SINT 2.
const ENABLE: [(Exit, Entry); 3] = [
    (Exit::WriteMsr(0x4000_0080, 1), Entry::Done),
    (Exit::WriteMsr(SIMP, 1), Entry::Done),
    (Exit::WriteMsr(0x4000_0092, 0x30), Entry::Done),
];

/// A post through connection 1: a message of type 7.
const POST: [(Exit, Entry); 1] =
    [(Exit::Hypercall(0x5C, 0, b"\x01\0\0\0\0\0\0\0\x07\0\0\0\x05\0\0\0hello"), Entry::Result(0))];
const HALT: [(Exit, Entry); 1] = [(Exit::Halt, Entry::Vector(0x30))];

fn run(host: &Mutex<Host>, wake: &Condvar, vp: u32, exits: [&[(Exit, Entry)]; 2]) -> Result<(), Status> {
    for (exit, wanted) in exits.into_iter().flatten() {
        let mut host = host.lock().expect("no thread panics with the lock");
        if let Exit::Halt = exit {
            let (since, patience) = (Instant::now(), Duration::from_secs(60));
            let is_idle = |host: &mut Host| host.processors[vp as usize].injected.is_empty();
            host = wake.wait_timeout_while(host, patience, is_idle).expect("as above").0;
            assert!(since.elapsed() < patience, "processor {vp} isn't woken");
        }
        let entry = host.handle(Caller::new(1, vp), *exit)?;
        assert_eq!(entry, *wanted, "processor {vp}");
        wake.notify_all();
    }
    Ok(())
}

/// A machine with a port for messages at SINT 2 of processor 1, and connection 1 to it.
fn boot() -> Result<Machine, Status> {
    let config = Config { mask: 0xf7_0000_0044, pages: 32, pool: 20, vps: 2 };
    let mut machine = Machine::boot(config)?.audited();
    let (root, partition, r#type) = (Caller::new(1, 0), PartitionId::ROOT, PortType::Messages);
    let port = Port {
        partition,
        id: PortId(1),
        peer: partition,
        r#type,
        sint: Sint(2),
        vp: VpIndex(1),
        base_flag: 0,
        flag_count: 0,
    };
    let connection =
        Connection { partition, id: ConnectionId(1), port_partition: partition, port: PortId(1), r#type };
    assert!(machine.create_port(root, &port)?.is_served());
    assert!(machine.connect_port(root, &connection)?.is_served());
    Ok(machine)
}

fn main() -> Result<(), Box<dyn Error>> {
    let page: &Page = Box::leak(Box::new(Page([const { AtomicU8::new(0) }; 4096])));
    let processors =
        [0, 1].map(|vp| Processor { pages: Pages::new(Caller::new(1, vp)), injected: Vec::new() });
    let mut host = Host { machine: boot()?, processors, message_page: page };
    for (exit, wanted) in ENABLE {
        assert_eq!(host.handle(Caller::new(1, 1), exit)?, wanted);
    }
    let (host, wake) = (Mutex::new(host), Condvar::new());
    std::thread::scope(|scope| -> Result<(), Box<dyn Error>> {
        let (host, wake) = (&host, &wake);
        let processors: [(u32, [&[_]; 2]); 2] = [(1, [&HALT, &EXITS]), (0, [&EXITS, &POST])];
        for thread in processors.map(|(vp, exits)| scope.spawn(move || run(host, wake, vp, exits))) {
            thread.join().map_err(|_| "a thread panicked")??;
        }
        Ok(())
    })?;
    let slot = [0, 4, 16, 20].map(|at| page.0[2 * 256 + at].load(SeqCst));
    assert_eq!(slot, [7, 5, b'h', b'o'], "the page has no message");
    let events = host.into_inner()?.machine.events();
    println!("events {events}");
    // 2 calls at boot, 3 writes, 8 events of EXITS twice, a post and an interrupt.
    if events == 2 + 3 + 2 * 8 + 2 { Ok(()) } else { Err("not as many events as there were".into()) }
}
