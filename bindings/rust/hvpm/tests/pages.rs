//! A guest's pages beside the machine. The slots are those of docs/POLICY.md.

mod common;

use common::{GUEST, POST, ROOT, SIGNAL, enable, has, with_child};
use hvpm::pages::Pages;
use hvpm::{Caller, Effect, Machine, Registers, Reply, Sint, Status, VpIndex};
use std::ptr::NonNull;
use std::sync::atomic::{AtomicU8, Ordering::SeqCst};

const EOM: u32 = 0x4000_0084;

/// A page of the guest's memory. Atomic, since the guest and the machine share it.
#[repr(align(4096))]
struct Page([AtomicU8; 4096]);

impl Page {
    fn new(byte: u8) -> Box<Page> {
        Box::new(Page([const { AtomicU8::new(0) }; 4096].map(|_| AtomicU8::new(byte))))
    }

    fn at(&self) -> Option<NonNull<u8>> {
        Some(NonNull::from(self).cast())
    }

    fn get(&self, at: usize) -> u8 {
        self.0[at].load(SeqCst)
    }

    /// Type, size, flags and first byte of the payload of the slot of SINT 2.
    fn slot(&self) -> [u8; 4] {
        [0, 4, 5, 16].map(|at| self.get(2 * 256 + at))
    }

    /// The guest lets the message of SINT 2 go.
    fn free(&self) {
        self.0[2 * 256].store(0, SeqCst);
    }

    /// The guest takes a flag of SINT 3.
    fn take_flag(&self, flag: usize) -> bool {
        let bit = 1 << (flag % 8);
        self.0[3 * 256 + flag / 8].fetch_and(!bit, SeqCst) & bit != 0
    }
}

fn post(machine: &mut Machine, pages: &mut Pages, byte: u8) -> Result<Reply, Status> {
    pages.before(machine)?;
    let reply = machine.post_message(ROOT, POST, 9, &[byte])?;
    pages.after(machine, &reply)?;
    Ok(reply)
}

/// A child whose processor is ready, with these pages.
fn set_up(pages: &mut Pages, messages: &Page, flags: &Page) -> Result<Machine, Status> {
    let mut machine = with_child()?;
    enable(&mut machine);
    // SAFETY: both pages outlive `pages` in each test, and are atomic.
    unsafe { pages.r#move(&mut machine, messages.at(), flags.at())? };
    Ok(machine)
}

#[test]
fn messages_are_shown_and_let_go() -> Result<(), Status> {
    let (messages, flags, mut pages) = (Page::new(0xA5), Page::new(0xA5), Pages::new(GUEST));
    let mut machine = set_up(&mut pages, &messages, &flags)?;
    assert!((0..4096).all(|at| messages.get(at) == 0 && flags.get(at) == 0));
    assert!(post(&mut machine, &mut pages, b'a')?.is_served());
    assert_eq!((messages.slot(), pages.shown()), ([9, 1, 0, b'a'], 1 << 2));
    assert_eq!((pages.vector(&mut machine)?, pages.vector(&mut machine)?), (Some(0x82), None));
    post(&mut machine, &mut pages, b'b')?;
    assert_eq!(messages.slot(), [9, 1, 1, b'a'], "MessagePending is set");
    messages.free();
    assert!(!pages.take_freed());
    pages.before(&mut machine)?;
    assert_eq!((pages.take_freed(), pages.take_freed(), pages.shown()), (true, false, 0));
    let reply = machine.write_msr(GUEST, EOM, 0)?;
    pages.after(&mut machine, &reply)?;
    assert_eq!((messages.slot(), pages.vector(&mut machine)?), ([9, 1, 0, b'b'], Some(0x82)));
    Ok(())
}

#[test]
fn flags_move_to_the_page() -> Result<(), Status> {
    let (messages, flags, mut pages) = (Page::new(0), Page::new(0), Pages::new(GUEST));
    let mut machine = set_up(&mut pages, &messages, &flags)?;
    for _ in 0..2 {
        let reply = machine.signal_event(ROOT, SIGNAL, 2)?;
        pages.after(&mut machine, &reply)?;
        assert_eq!(pages.vector(&mut machine)?, Some(0x33));
        assert_eq!(machine.peek_flags(GUEST, Sint(3)), Some([0; 256]), "the machine keeps none");
        assert!(flags.take_flag(10) && !flags.take_flag(10));
    }
    Ok(())
}

#[test]
fn pages_move_with_what_they_show() -> Result<(), Status> {
    let (messages, flags, mut pages) = (Page::new(0), Page::new(0), Pages::new(GUEST));
    let (other, other_flags) = (Page::new(0xA5), Page::new(0xA5));
    let mut machine = set_up(&mut pages, &messages, &flags)?;
    post(&mut machine, &mut pages, b'a')?;
    let reply = machine.signal_event(ROOT, SIGNAL, 0)?;
    pages.after(&mut machine, &reply)?;
    // SAFETY: as in `set_up`.
    unsafe { pages.r#move(&mut machine, other.at(), other_flags.at())? };
    assert_eq!((other.slot(), other.get(0)), ([9, 1, 0, b'a'], 0));
    assert!(other_flags.take_flag(8) && !other_flags.take_flag(9));
    // SAFETY: there is no page.
    unsafe { pages.r#move(&mut machine, None, None)? };
    other.free();
    pages.before(&mut machine)?;
    assert!(!pages.take_freed(), "a page that was moved away is not read");
    Ok(())
}

/// An effect at another processor changes nothing, and one that removes the processor takes its pages away.
#[test]
fn a_processor_that_goes_loses_its_pages() -> Result<(), Status> {
    let (messages, flags, mut pages) = (Page::new(0), Page::new(0), Pages::new(GUEST));
    let mut machine = set_up(&mut pages, &messages, &flags)?;
    let mut others = Pages::new(Caller::new(1, 0));
    assert_eq!((pages.of(), others.of()), (GUEST, Caller::new(1, 0)));
    let reply = post(&mut machine, &mut pages, b'a')?;
    others.after(&mut machine, &reply)?;
    assert_eq!((others.vector(&mut machine)?, pages.vector(&mut machine)?), (None, Some(0x82)));
    let delete = machine.hypercall(ROOT, Registers { rcx: 0x1004F, rdx: 2, r8: 0 }, &[])?;
    pages.after(&mut machine, &delete)?;
    assert_eq!((pages.shown(), pages.take_freed()), (0, true));
    has(machine.create_vp(ROOT, hvpm::PartitionId(2), VpIndex(0)), Effect::Processor(GUEST));
    messages.free();
    pages.before(&mut machine)?;
    assert!(!pages.take_freed());
    Ok(())
}

#[test]
fn pages_move_to_another_thread() {
    fn is_send<T: Send>(_: T) {}
    is_send(Pages::new(GUEST));
}

#[test]
fn the_machine_is_asked_only_where_a_vector_was_raised() -> Result<(), Status> {
    let (messages, flags, mut pages) = (Page::new(0), Page::new(0), Pages::new(GUEST));
    let mut machine = set_up(&mut pages, &messages, &flags)?;
    post(&mut machine, &mut pages, b'a')?;
    assert_eq!(pages.vector(&mut machine)?, Some(0x82));
    let events = machine.events();
    assert_eq!((pages.vector(&mut machine)?, machine.events()), (None, events));
    // Another one takes the vector.
    let reply = machine.signal_event(ROOT, SIGNAL, 2)?;
    pages.after(&mut machine, &reply)?;
    assert_eq!(machine.take_interrupt(GUEST)?.output(), [0x33]);
    assert_eq!(pages.vector(&mut machine)?, None);
    let events = machine.events();
    assert_eq!((pages.vector(&mut machine)?, machine.events()), (None, events));
    Ok(())
}

/// The guest frees its message between the event and the update of its pages, and looked for MessagePending before
/// that was set.
#[test]
fn a_message_behind_one_that_is_freed_meanwhile_is_shown() -> Result<(), Status> {
    let (messages, flags, mut pages) = (Page::new(0), Page::new(0), Pages::new(GUEST));
    let mut machine = set_up(&mut pages, &messages, &flags)?;
    post(&mut machine, &mut pages, b'a')?;
    pages.before(&mut machine)?;
    let reply = machine.post_message(ROOT, POST, 9, b"b")?;
    messages.free();
    pages.after(&mut machine, &reply)?;
    assert_eq!((messages.slot(), pages.shown(), pages.take_freed()), ([9, 1, 0, b'b'], 1 << 2, true));
    Ok(())
}

#[test]
fn a_message_that_was_freed_does_not_move() -> Result<(), Status> {
    let (messages, flags, mut pages) = (Page::new(0), Page::new(0), Pages::new(GUEST));
    let other = Page::new(0xA5);
    let mut machine = set_up(&mut pages, &messages, &flags)?;
    post(&mut machine, &mut pages, b'a')?;
    messages.free();
    // SAFETY: as in `set_up`.
    unsafe { pages.r#move(&mut machine, other.at(), flags.at())? };
    assert_eq!((other.slot(), pages.shown()), ([0; 4], 0));
    Ok(())
}

/// By an exit, without a page.
#[test]
fn a_slot_that_an_event_clears_is_freed() -> Result<(), Status> {
    let mut pages = Pages::new(GUEST);
    let mut machine = with_child()?;
    enable(&mut machine);
    post(&mut machine, &mut pages, b'a')?;
    assert!(!pages.take_freed());
    let reply = machine.clear_slot(GUEST, Sint(2))?;
    pages.after(&mut machine, &reply)?;
    assert!(pages.take_freed());
    Ok(())
}

#[test]
fn a_processor_that_comes_again_begins_without_pages_flags_and_vectors() -> Result<(), Status> {
    let (messages, flags, mut pages) = (Page::new(0), Page::new(0), Pages::new(GUEST));
    let mut machine = set_up(&mut pages, &messages, &flags)?;
    let (partition, vp) = (hvpm::PartitionId(2), VpIndex(0));
    let reply = machine.signal_event(ROOT, SIGNAL, 2)?;
    pages.after(&mut machine, &reply)?;
    // SAFETY: there is no event flags page.
    unsafe { pages.r#move(&mut machine, messages.at(), None)? };
    let mut others = [Pages::new(ROOT), Pages::new(Caller::new(2, 1)), Pages::new(Caller::new(1, 0))];
    for reply in [machine.delete_vp(ROOT, partition, vp)?, machine.create_vp(ROOT, partition, vp)?] {
        pages.after(&mut machine, &reply)?;
        for other in &mut others {
            other.after(&mut machine, &reply)?;
            assert!(!other.take_freed());
        }
    }
    let events = machine.events();
    assert_eq!((pages.vector(&mut machine)?, machine.events()), (None, events));
    enable(&mut machine);
    // SAFETY: as in `set_up`.
    unsafe { pages.r#move(&mut machine, messages.at(), flags.at())? };
    assert!((0..4096).all(|at| flags.get(at) == 0));
    let reply = machine.delete_vp(ROOT, partition, vp)?;
    pages.after(&mut machine, &reply)?;
    has(machine.create_vp(ROOT, partition, vp), Effect::Processor(GUEST));
    enable(&mut machine);
    let reply = machine.signal_event(ROOT, SIGNAL, 2)?;
    pages.after(&mut machine, &reply)?;
    assert!((0..4096).all(|at| flags.get(at) == 0), "the page of before isn't written");
    Ok(())
}

#[test]
fn a_partition_that_is_finalized_takes_the_pages_of_each_processor() -> Result<(), Status> {
    let mut machine = with_child()?;
    has(machine.create_vp(ROOT, hvpm::PartitionId(2), VpIndex(1)), Effect::Processor(Caller::new(2, 1)));
    let mut pages = [0, 1].map(|vp| Pages::new(Caller::new(2, vp)));
    let reply = machine.finalize_partition(ROOT, hvpm::PartitionId(2))?;
    for pages in &mut pages {
        pages.after(&mut machine, &reply)?;
        assert!(pages.take_freed());
    }
    Ok(())
}
