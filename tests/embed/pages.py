#!/usr/bin/env python3
"""Random events of two processors with pages, over the Python module hvpm and the shared library.

    tests/embed/pages.py SEED EVENTS

The guests free slots, take flags and move their pages. After each event each byte of all pages is what looks
and the guests make of it. guests.h does this in C, with all calls, and pages.rs is this in Rust. The first
difference goes to standard error, and the status is then 1.
"""
import mmap
import random
import sys

from hvpm import ANY_VP, Error, Machine, Pages, PortType
from hvpm.effect import Synic

ROOT, SIZE = (1, 0), 4096
SCONTROL, SIEFP, SIMP, EOM, SINT_0 = 0x40000080, 0x40000082, 0x40000083, 0x40000084, 0x40000090
VECTORS = {0: 0x30, 2: 0x72, 7: 0xB7, 15: 0xFF}
# Port and connection, processor, SINT, and for event flags the first one and how many.
PORTS = [
    (1, 0, 2), (2, 1, 2), (3, ANY_VP, 15), (4, 1, 15), (5, 0, 0, 8, 64), (6, 1, 7, 0, 2048),
    (7, ANY_VP, 15, 5, 9),
]  # fmt: skip


class Guest:
    def __init__(self, of):
        self.pages, self.memory = Pages(of), mmap.mmap(-1, 4 * SIZE)
        self.memory[:] = b"\xa5" * len(self.memory)
        self.wanted = [bytearray(b"\xa5" * SIZE) for _ in range(4)]
        self.begin()

    def begin(self):
        """It has no pages: 0 and 1 are for messages, 2 and 3 for flags."""
        self.messages = self.flags = None
        self.untaken, self.seen, self.freed = bytearray(SIZE), [bytes(256)] * 16, True

    def page(self, number):
        return None if number is None else memoryview(self.memory)[number * SIZE : (number + 1) * SIZE]

    def slot(self, sint):
        return memoryview(self.wanted[self.messages])[256 * sint : 256 * (sint + 1)]

    def is_freed(self, sint):
        return self.messages is not None and any(self.seen[sint][:4]) and not any(self.slot(sint)[:4])

    def add_flags(self, machine, to):
        for sint in range(16):
            for flag in machine.peek_flags(self.pages.of, sint):
                to[256 * sint + flag // 8] |= 1 << flag % 8

    def want(self, machine):
        for sint in range(16):
            was, now = self.seen[sint], machine.peek_slot(self.pages.of, sint)
            is_other = was[:5] + was[6:] != now[:5] + now[6:]
            self.freed |= any(was[:4]) and is_other
            if self.messages is not None and not any(now[:4]):
                self.slot(sint)[:4] = bytes(4)
            elif self.messages is not None:
                self.slot(sint)[slice(0, 256) if is_other else slice(5, 6)] = now if is_other else now[5:6]
            self.seen[sint] = now
        if self.flags is not None:
            self.add_flags(machine, self.wanted[self.flags])

    def act(self, rng):
        for sint in range(16) if self.messages is not None else ():
            if any(self.slot(sint)[:4]) and rng.random() < 0.3:
                self.page(self.messages)[256 * sint : 256 * sint + 4] = self.slot(sint)[:4] = bytes(4)
        for at in range(SIZE) if self.flags is not None else ():
            if self.wanted[self.flags][at] and rng.random() < 0.2:
                self.wanted[self.flags][at] &= rng.randrange(256)
                self.page(self.flags)[at] = self.wanted[self.flags][at]

    def move(self, machine, messages, flags):
        freed, old = [sint for sint in range(16) if self.is_freed(sint)], (self.messages, self.flags)
        self.messages, self.flags = messages, flags
        if messages not in (None, old[0]):
            slots = [bytes(256) if sint in freed else now for sint, now in enumerate(self.seen)]
            self.wanted[messages][:] = b"".join(slots)
        if flags != old[1]:
            self.untaken = self.untaken if old[1] is None else self.wanted[old[1]][:]
            if flags is not None:
                self.wanted[flags][:] = self.untaken
                self.add_flags(machine, self.wanted[flags])
        self.pages.move(machine, self.page(messages), self.page(flags))

    def check(self, machine):
        self.want(machine)
        shown = {s for s in range(16) if self.messages is not None and any(self.seen[s][:4])}
        assert self.pages.shown == shown, f"shown {self.pages.shown}, wanted {shown}"
        assert self.pages.take_freed() == self.freed, f"freed isn't {self.freed}"
        self.freed = False
        for number, wanted in enumerate(self.wanted):
            page = self.memory[number * SIZE : (number + 1) * SIZE]
            at = next((at for at in range(SIZE) if page[at] != wanted[at]), None) if page != wanted else None
            assert at is None, f"page {number}, byte {at}: {page[at]}, wanted {wanted[at]}"
        if self.flags is not None:
            assert not any(machine.peek_flags(self.pages.of, s) for s in range(16)), "flags in the library"


def served(*replies):
    for reply in replies:
        assert reply.is_served, reply


def begin():
    machine = Machine.boot(mask=0xF700000064, pages=64, pool=16, vps=1)
    served(machine.create_partition(ROOT), machine.initialize_partition(ROOT, 2))
    served(*(machine.deposit_memory(ROOT, 2, range(16, 40), at) for at in range(24)))
    for vp in 0, 1:
        served(machine.create_vp(ROOT, 2, vp))
        enable(machine, (2, vp))
    for number, vp, sint, *flags in PORTS:
        kind = {"type": PortType.EVENTS} if flags else {}
        of = dict(zip(("base_flag", "flag_count"), flags), **kind)
        served(machine.create_port(ROOT, partition=2, id=number, peer=1, sint=sint, vp=vp, **of))
        served(machine.connect_port(ROOT, id=number, port_partition=2, port=number, **kind))
    return machine


def enable(machine, of):
    for msr, value in [(SCONTROL, 1), *((SINT_0 + sint, vector) for sint, vector in VECTORS.items())]:
        served(machine.write_msr(of, msr, value))


def step(machine, guests, rng, number):
    """Makes an event, and what belongs to it."""
    what = rng.choice(["post"] * 8 + ["signal"] * 4 + ["EOM"] * 3 + ["move"] * 2 + ["none", "new"])
    at = rng.choice(guests)
    of = at.pages.of
    for guest in guests:
        guest.act(rng)
        if what == "EOM" or rng.random() < (0.7 if what == "post" else 0.1):
            guest.pages.before(machine)
            guest.want(machine)
            assert not any(map(guest.is_freed, range(16))), "a slot isn't cleared"
    if what == "post":
        payload = rng.randbytes(rng.choice([0, 1, rng.randrange(241), 240]))
        reply = machine.post_message(ROOT, rng.randrange(1, 6), number, payload)
    elif what == "signal":
        flag = rng.randrange(rng.choice([9, 2048]))
        reply = machine.signal_event(ROOT, rng.randrange(5, 9), flag)
    elif what == "EOM":
        reply = machine.write_msr(of, EOM, 0)
    elif what == "move":
        places = rng.choice([None, 0, 1]), rng.choice([None, 2, 3])
        for msr, place in zip((SIMP, SIEFP), places):
            served(reply := machine.write_msr(of, msr, int(place is not None)))
        at.want(machine)
        at.move(machine, *places)
    elif what == "none":
        reply = machine.post_message(ROOT, 99, 1, b"")
        assert not reply.is_served
    else:
        at.pages.after(machine, machine.delete_vp(ROOT, *of))
        assert (at.pages.shown, at.pages.take_freed()) == (set(), True)
        reply = machine.create_vp(ROOT, *of)
        at.begin()
        enable(machine, of)
    for guest in guests:
        guest.want(machine)
        late = set(filter(guest.is_freed, waiting(reply, guest)))
        guest.pages.after(machine, reply)
        guest.check(machine)
        is_over = late <= guest.pages.shown and not any(map(guest.is_freed, late))
        assert is_over, f"messages wait for good: {late}"
        while rng.random() < 0.8:
            wanted = max(machine.peek_pending(guest.pages.of), default=None)
            vector = guest.pages.vector(machine)
            assert vector == wanted, f"vector {vector}, wanted {wanted}"


def waiting(reply, guest):
    """The SINTs of the guest at which the event made a message wait."""
    effect = reply.effect
    is_there = isinstance(effect, Synic) and (effect.partition, effect.vp) == guest.pages.of
    return effect.waiting if is_there else ()


def main():
    seed, events = map(int, sys.argv[1:])
    machine, rng = begin(), random.Random(seed)
    guests = [Guest((2, 0)), Guest((2, 1))]
    for guest in guests:
        guest.freed = False
    for number in range(1, events + 1):
        try:
            step(machine, guests, rng, number)
        except AssertionError as wrong:
            print(f"seed {seed}, step {number}: {wrong}", file=sys.stderr)
            return 1
    whole, (old, new), pages = mmap.mmap(-1, 2 * SIZE), (mmap.mmap(-1, SIZE) for _ in range(2)), Pages((2, 0))
    pages.move(machine, old, None)
    machine.delete_vp(ROOT, 2, 0)
    is_right = [
        raises(ValueError, pages.move, machine, memoryview(whole)[: SIZE - 1], None),
        raises(ValueError, pages.move, machine, memoryview(whole)[SIZE // 2 : SIZE // 2 + SIZE], None),
        raises(BufferError, old.close),
        raises(Error, pages.move, machine, new, None),  # There is no processor: both pages stay in use.
        raises(BufferError, old.close) and raises(BufferError, new.close),
    ]
    if not all(is_right):
        print(f"a page that can't be, or one that may go: {is_right}", file=sys.stderr)
    return 0 if all(is_right) else 1


def raises(error, what, *arguments):
    try:
        what(*arguments)
    except error:
        return True
    return False


if __name__ == "__main__":
    sys.exit(main())
