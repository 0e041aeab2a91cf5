"""Keeps a processor's message page (SIMP) and event flags page (SIEFP) in step with the machine, like
hvpm_pages.h in C. A driver under test reads and writes both without an exit, so call these functions around
each event:

    pages.before(machine)               # before a post, EOM, and HvSetVpRegisters
    reply = machine.hypercall(..)       # what the driver exited for, or write_msr
    pages.move(machine, messages, flags)        # only after a write of SIMP or SIEFP
    pages.after(machine, reply)         # after each event, for each processor
    while vector := pages.vector(machine): ..   # interrupt the driver
"""
from __future__ import annotations

import ctypes
from typing import Any, FrozenSet, List, Optional, Tuple

from . import _raw
from ._convert import bits_of, caller, check
from ._library import call
from .machine import Machine
from .replies import Caller, Reply

SIZE = 4096


def _page(memory: Any) -> Any:
    """Returns the buffer as a page, or None."""
    if memory is None:
        return None
    page = (ctypes.c_uint8 * SIZE).from_buffer(memory)
    if ctypes.addressof(page) % SIZE:
        raise ValueError("a page begins at a multiple of 4,096: take a part of an mmap")
    return page


class Pages:
    """The pages of a processor, which has none at first. In the audit and in a machine's record the events
    that are made in the guest's place are the guest's own."""

    def __init__(self, of: Tuple[int, int]) -> None:
        self._raw = _raw.hvpm_pages(of=caller(of))
        self._memory: List[Any] = []  # The pages that the library uses.

    def _keep(self, name: str, machine: Machine, *arguments: Any) -> None:
        with machine._lock:
            check(call("pages_" + name, machine._handle, self._raw, *arguments))

    @property
    def of(self) -> Caller:
        """The processor."""
        return Caller(self._raw.of.partition, self._raw.of.vp)

    @property
    def shown(self) -> FrozenSet[int]:
        """The SINTs whose message is in the page and in the machine."""
        return bits_of([self._raw.shown], 16)

    def take_freed(self) -> bool:
        """Returns whether a message left its slot since the last call: a post that P23 refused may be
        repeated."""
        freed, self._raw.freed = bool(self._raw.freed), False
        return freed

    def before(self, machine: Machine) -> None:
        """Clears in the machine the slots that the guest freed in its page. Call it before a post, a write of
        EOM and HvSetVpRegisters."""
        self._keep("before", machine)

    def after(self, machine: Machine, reply: Reply[Any]) -> None:
        """Updates the pages after an event. Does nothing if the event's effect doesn't name their
        processor."""
        self._keep("after", machine, reply._raw.effect)

    def move(self, machine: Machine, messages: Any, flags: Any) -> None:
        """Sets the pages after a write of SIMP or SIEFP. Each is a writable buffer of 4,096 bytes that begins
        at a multiple of 4,096, such as a part of an mmap. It is None if bit 0 of the register is 0.

        A new message page gets the messages that the machine shows, and a new event flags page gets the
        flags that the guest hasn't taken. All other bytes become zero."""
        pages = [_page(messages), _page(flags)]
        addresses = [page and ctypes.addressof(page) for page in pages]
        self._memory = self._memory + pages  # After an error the library may use any of them.
        self._keep("move", machine, *addresses)
        self._memory = pages

    def vector(self, machine: Machine) -> Optional[int]:
        """Takes the highest vector that was raised, or None if none is left."""
        vector = ctypes.c_uint8()
        self._keep("vector", machine, vector)
        return vector.value or None
