//! Random events of two processors with pages, over the crate hvpm and the shared library, as pages.py has them:
//!
//!     pages SEED EVENTS
//!
//! The guests free slots, take flags and move their pages. After each event each byte of all pages is what looks
//! and the guests make of it. The first difference is a panic.

use hvpm::pages::Pages;
use hvpm::{Caller, Config, Connection, ConnectionId, Effect, Machine, PartitionId, Port, PortId, PortType};
use hvpm::{Reply, Sint, Status, VpIndex};
use std::ptr::NonNull;
use std::sync::atomic::{AtomicU8, Ordering::SeqCst};

const ROOT: Caller = Caller::new(1, 0);
const GUEST: PartitionId = PartitionId(2);
const EOM: u32 = 0x4000_0084;
const ANY: u32 = u32::MAX;
/// Port and connection, processor, SINT, the first flag, and how many: none for messages.
const PORTS: [(u32, u32, u8, u16, u16); 7] = [
    (1, 0, 2, 0, 0),
    (2, 1, 2, 0, 0),
    (3, ANY, 15, 0, 0),
    (4, 1, 15, 0, 0),
    (5, 0, 0, 8, 64),
    (6, 1, 7, 0, 2048),
    (7, ANY, 15, 5, 9),
];

type Bytes = [u8; 4096];
type Slots = [[u8; 256]; 16];

/// A page of the guest's memory, and what must be in it. Atomic, since the guest and the machine share it.
#[repr(align(4096))]
struct Page([AtomicU8; 4096]);

fn is_message(slot: &[u8]) -> bool {
    slot[..4] != [0; 4]
}

struct Draw(u64);

impl Draw {
    fn below(&mut self, below: u64) -> u64 {
        self.0 ^= self.0 << 13;
        self.0 ^= self.0 >> 7;
        self.0 ^= self.0 << 17;
        (self.0.wrapping_mul(0x2545_F491_4F6C_DD1D) >> 24) % below
    }
}

/// Places 0 and 1 are for messages, 2 and 3 for flags.
struct Guest {
    pages: Pages,
    memory: [Box<Page>; 4],
    wanted: [Bytes; 4],
    messages: Option<usize>,
    flags: Option<usize>,
    untaken: Bytes,
    seen: Slots,
    freed: bool,
}

impl Guest {
    fn new(of: Caller) -> Guest {
        let memory = [(); 4].map(|()| Box::new(Page([(); 4096].map(|()| AtomicU8::new(0xA5)))));
        let (pages, wanted) = (Pages::new(of), [[0xA5; 4096]; 4]);
        let (untaken, seen) = ([0; 4096], [[0; 256]; 16]);
        Guest { pages, memory, wanted, messages: None, flags: None, untaken, seen, freed: false }
    }

    fn at(&self, place: Option<usize>) -> Option<NonNull<u8>> {
        place.map(|place| NonNull::from(&*self.memory[place]).cast())
    }

    fn is_freed(&self, sint: usize) -> bool {
        self.messages.is_some_and(|place| !is_message(&self.wanted[place][256 * sint..]))
            && is_message(&self.seen[sint])
    }

    fn flags(&self, machine: &Machine) -> Bytes {
        let mut flags = [0; 4096];
        for sint in 0..16 {
            let at = 256 * usize::from(sint);
            flags[at..at + 256]
                .copy_from_slice(&machine.peek_flags(self.pages.of(), Sint(sint)).expect("a look"));
        }
        flags
    }

    fn want(&mut self, machine: &Machine) {
        for sint in 0..16 {
            let (was, now) =
                (self.seen[sint], machine.peek_slot(self.pages.of(), Sint(sint as u8)).expect("a look"));
            let is_other = was[..5] != now[..5] || was[6..] != now[6..];
            self.freed |= is_message(&was) && is_other;
            if let Some(place) = self.messages {
                let slot = &mut self.wanted[place][256 * sint..256 * sint + 256];
                match (is_message(&now), is_other) {
                    (false, _) => slot[..4].fill(0),
                    (true, true) => slot.copy_from_slice(&now),
                    (true, false) => slot[5] = now[5],
                }
            }
            self.seen[sint] = now;
        }
        if let Some(place) = self.flags {
            self.wanted[place] = either(&self.wanted[place], &self.flags(machine));
        }
    }

    fn act(&mut self, draw: &mut Draw) {
        for at in 0..4096 {
            if let Some(place) = self.messages {
                if at % 256 == 0 && is_message(&self.wanted[place][at..]) && draw.below(3) == 0 {
                    self.wanted[place][at..at + 4].fill(0);
                    self.memory[place].0[at..at + 4].iter().for_each(|byte| byte.store(0, SeqCst));
                }
            }
            if let Some(place) = self.flags {
                if self.wanted[place][at] != 0 && draw.below(5) == 0 {
                    self.wanted[place][at] &= draw.below(256) as u8;
                    self.memory[place].0[at].store(self.wanted[place][at], SeqCst);
                }
            }
        }
    }

    fn r#move(
        &mut self,
        machine: &mut Machine,
        messages: Option<usize>,
        flags: Option<usize>,
    ) -> Result<(), Status> {
        if let Some(place) = messages.filter(|_| messages != self.messages) {
            for sint in 0..16 {
                let shown = if self.is_freed(sint) { [0; 256] } else { self.seen[sint] };
                self.wanted[place][256 * sint..256 * sint + 256].copy_from_slice(&shown);
            }
        }
        if flags != self.flags {
            self.untaken = self.flags.map_or(self.untaken, |place| self.wanted[place]);
            if let Some(place) = flags {
                self.wanted[place] = either(&self.untaken, &self.flags(machine));
            }
        }
        (self.messages, self.flags) = (messages, flags);
        let (messages, flags) = (self.at(messages), self.at(flags));
        // SAFETY: the memory stays as long as the pages do, and is atomic.
        unsafe { self.pages.r#move(machine, messages, flags) }
    }

    fn check(&mut self, machine: &Machine) {
        self.want(machine);
        let shown = |sint: usize| u16::from(self.messages.is_some() && is_message(&self.seen[sint])) << sint;
        assert_eq!(self.pages.shown(), (0..16).map(shown).sum::<u16>(), "shown");
        assert_eq!(self.pages.take_freed(), self.freed, "freed");
        self.freed = false;
        for (place, (page, wanted)) in self.memory.iter().zip(&self.wanted).enumerate() {
            for (at, (byte, wanted)) in page.0.iter().zip(wanted).enumerate() {
                assert_eq!(byte.load(SeqCst), *wanted, "byte {at} of page {place}");
            }
        }
        assert!(self.flags.is_none() || self.flags(machine) == [0; 4096], "the library keeps a flag");
    }

    fn take_vectors(&mut self, machine: &mut Machine, draw: &mut Draw) -> Result<(), Status> {
        while draw.below(5) != 0 {
            let pending = machine.peek_pending(self.pages.of()).expect("a look");
            let highest = (0..=255u8).rev().find(|v| pending[usize::from(v / 64)] >> (v % 64) & 1 != 0);
            assert_eq!(self.pages.vector(machine)?, highest, "vector");
        }
        Ok(())
    }
}

fn either(a: &Bytes, b: &Bytes) -> Bytes {
    std::array::from_fn(|at| a[at] | b[at])
}

fn served(reply: Result<Reply, Status>) -> Result<Reply, Status> {
    assert!(reply.as_ref().is_ok_and(Reply::is_served), "{reply:?}");
    reply
}

fn enable(machine: &mut Machine, of: Caller) -> Result<(), Status> {
    for (msr, value) in [(0x80, 1), (0x90, 0x30), (0x92, 0x72), (0x97, 0xB7), (0x9F, 0xFF)] {
        served(machine.write_msr(of, 0x4000_0000 + msr, value))?;
    }
    Ok(())
}

fn begin() -> Result<Machine, Status> {
    let mut machine = Machine::boot(Config { mask: 0xf7_0000_0064, pages: 64, pool: 16, vps: 1 })?;
    machine.create_partition(ROOT, 0)?;
    served(machine.initialize_partition(ROOT, GUEST))?;
    for at in 0..24 {
        served(machine.deposit_memory(ROOT, GUEST, &Vec::from_iter(16..40), at))?;
    }
    for vp in 0..2 {
        served(machine.create_vp(ROOT, GUEST, VpIndex(vp)))?;
        enable(&mut machine, Caller::new(2, vp))?;
    }
    for (id, vp, sint, base_flag, flag_count) in PORTS {
        let r#type = if flag_count == 0 { PortType::Messages } else { PortType::Events };
        let (peer, sint, vp) = (PartitionId(1), Sint(sint), VpIndex(vp));
        let port = Port { partition: GUEST, id: PortId(id), peer, r#type, sint, vp, base_flag, flag_count };
        served(machine.create_port(ROOT, &port))?;
        let (partition, port) = (PartitionId(1), PortId(id));
        let connection = Connection { partition, id: ConnectionId(id), port_partition: GUEST, port, r#type };
        served(machine.connect_port(ROOT, &connection))?;
    }
    Ok(machine)
}

/// The SINTs of a processor at which the event made a message wait.
fn waiting(reply: &Reply, of: Caller) -> u16 {
    match reply.effect() {
        Effect::Synic(synic) if synic.at == of => synic.waiting,
        _ => 0,
    }
}

fn step(machine: &mut Machine, guests: &mut [Guest; 2], draw: &mut Draw, number: u64) -> Result<(), Status> {
    let (what, one) = (draw.below(19), draw.below(2) as usize);
    let of = guests[one].pages.of();
    for guest in &mut *guests {
        guest.act(draw);
        if (12..15).contains(&what) || draw.below(10) < if what < 8 { 7 } else { 1 } {
            guest.pages.before(machine)?;
            guest.want(machine);
            assert!(!(0..16).any(|sint| guest.is_freed(sint)), "a slot isn't cleared");
        }
    }
    let reply = match what {
        0..8 => {
            let size = [0, 1, 240, draw.below(241) as usize][draw.below(4) as usize];
            let payload = Vec::from_iter((0..size).map(|_| draw.below(256) as u8));
            machine.post_message(ROOT, ConnectionId(1 + draw.below(5) as u32), number as u32, &payload)?
        }
        8..12 => {
            let flag = if draw.below(2) == 0 { draw.below(9) } else { draw.below(2048) };
            machine.signal_event(ROOT, ConnectionId(5 + draw.below(4) as u32), flag as u16)?
        }
        12..15 => machine.write_msr(of, EOM, 0)?,
        15..17 => {
            let places = [0, 2].map(|first| [None, Some(first), Some(first + 1)][draw.below(3) as usize]);
            served(machine.write_msr(of, 0x4000_0083, places[0].is_some().into()))?;
            let reply = served(machine.write_msr(of, 0x4000_0082, places[1].is_some().into()))?;
            guests[one].want(machine);
            guests[one].r#move(machine, places[0], places[1])?;
            reply
        }
        17 => machine.post_message(ROOT, ConnectionId(99), 1, &[])?,
        _ => {
            let gone = served(machine.delete_vp(ROOT, GUEST, of.vp))?;
            let guest = &mut guests[one];
            guest.pages.after(machine, &gone)?;
            assert_eq!((guest.pages.shown(), guest.pages.take_freed()), (0, true));
            (guest.messages, guest.flags, guest.untaken) = (None, None, [0; 4096]);
            (guest.seen, guest.freed) = ([[0; 256]; 16], true);
            let reply = served(machine.create_vp(ROOT, GUEST, of.vp))?;
            enable(machine, of)?;
            reply
        }
    };
    for guest in guests {
        guest.want(machine);
        let late = (0..16).filter(|s| waiting(&reply, guest.pages.of()) >> s & 1 != 0 && guest.is_freed(*s));
        let late = Vec::from_iter(late);
        guest.pages.after(machine, &reply)?;
        guest.check(machine);
        for sint in late {
            assert!(
                !guest.is_freed(sint) && guest.pages.shown() >> sint & 1 != 0,
                "a message waits for good"
            );
        }
        guest.take_vectors(machine, draw)?;
    }
    Ok(())
}

fn main() -> Result<(), Status> {
    let words = Vec::from_iter(std::env::args().skip(1).map(|word| word.parse::<u64>().expect("a number")));
    let (mut machine, mut draw) = (begin()?, Draw(2 * words[0] + 1));
    let mut guests = [0, 1].map(|vp| Guest::new(Caller::new(2, vp)));
    for number in 1..=words[1] {
        step(&mut machine, &mut guests, &mut draw, number)?;
    }
    Ok(())
}
