"""Callers, replies and errors."""
from __future__ import annotations

import enum
import struct
from dataclasses import dataclass, field
from typing import Any, Generic, NamedTuple, Optional, Tuple, TypeVar, cast

from . import _raw
from ._library import call
from .effect import Effect

Value = TypeVar("Value")


class Caller(NamedTuple):
    """A virtual processor: its partition's id, and its index in that partition. A pair of numbers works as
    well."""

    partition: int
    vp: int


class Status(enum.IntEnum):
    """What a function of the library returns. Any status but OK means that nothing happened."""

    OK = _raw.HVPM_STATUS_OK
    EMPTY = _raw.HVPM_STATUS_EMPTY
    OCCUPIED = _raw.HVPM_STATUS_OCCUPIED
    SHORT = _raw.HVPM_STATUS_SHORT
    USED_UP = _raw.HVPM_STATUS_USED_UP
    MEMORY = _raw.HVPM_STATUS_MEMORY
    PAGES = _raw.HVPM_STATUS_PAGES
    POOL = _raw.HVPM_STATUS_POOL
    VPS = _raw.HVPM_STATUS_VPS
    NULL = _raw.HVPM_STATUS_NULL
    NONE = _raw.HVPM_STATUS_NONE


MESSAGES = {
    Status.EMPTY: "the machine was destroyed",
    Status.SHORT: "the buffer for outputs is too short",
    Status.USED_UP: "the machine takes no more events",
    Status.MEMORY: "out of memory",
    Status.PAGES: "boot refused: pages",
    Status.POOL: "boot refused: pool",
    Status.VPS: "boot refused: vps",
}


class Error(Exception):
    """A function failed: no event happened and nothing changed. `status` says why. A rule that refuses an
    event isn't an error: the event's reply names it."""

    def __init__(self, status: Status) -> None:
        super().__init__(MESSAGES.get(status, status_name(status)))
        self.status = status


class Rule(int):
    """A rule of docs/POLICY.md by its number, 1 to 27. `str(Rule(12))` is `P12`."""

    @property
    def sentence(self) -> str:
        """What the rule demands."""
        return rule_sentence(self)

    def __str__(self) -> str:
        return rule_name(self)

    __repr__ = __str__


class HvStatus(int):
    """The status of a hypercall: bits 15:0 of RAX. `str(HvStatus(6))` is `HV_STATUS_ACCESS_DENIED`."""

    def __str__(self) -> str:
        return hv_status_name(self)

    __repr__ = __str__


@dataclass(frozen=True)
class Message:
    """A message in a slot."""

    type: int
    port: int
    """The id of the port by which it came."""
    payload: bytes
    is_pending: bool
    """Whether another message waits at this SINT, which a write of EOM shows once the slot is empty."""

    @classmethod
    def of(cls, slot: bytes) -> Optional[Message]:
        """Reads the 256 bytes of a slot. None if it is empty."""
        type, size, flags, port = struct.unpack_from("<IBBxxQ", slot)
        return cls(type, port, slot[16 : 16 + size], bool(flags & 1)) if type else None


class Answer(enum.IntEnum):
    """How an event was answered."""

    SERVED = _raw.HVPM_REPLY_SERVED
    MORE = _raw.HVPM_REPLY_MORE
    DENIED = _raw.HVPM_REPLY_DENIED
    FAULT = _raw.HVPM_REPLY_FAULT


@dataclass(frozen=True)
class Reply(Generic[Value]):
    """The reply to an event."""

    answer: Answer
    """SERVED, or MORE if the event is an element that isn't the last. If a rule refuses the event, DENIED for
    a hypercall and FAULT for an access."""
    rule: Optional[Rule]
    """The rule that refuses the event; None if it was served."""
    status: Optional[HvStatus]
    """The status of a hypercall. For an access it is 0, or None for a fault."""
    result: int
    """The result value of a hypercall, for RAX; 0 for an access."""
    next: int
    """The start index of the next element, if the answer is MORE; otherwise 0."""
    output: bytes
    """The output of the event, at most 256 bytes."""
    line: str
    """The event's audit line, with its line feed."""
    effect: Effect
    """What the event changed: messages, event flags, vectors, pages and processors."""
    value: Optional[Value]
    """The output as a number or what else the function says; None if the event wasn't served."""
    _raw: Any = field(repr=False, compare=False)

    @property
    def is_served(self) -> bool:
        """Whether the event was served."""
        return self.answer in (Answer.SERVED, Answer.MORE)

    def expect(self) -> Value:
        """Returns the value of an event that has to be served. Raises `Refused` if a rule refuses it."""
        if self.rule is not None:
            raise Refused(self)
        return cast(Value, self.value)


class Refused(Exception):
    """A rule refused an event that had to be served."""

    def __init__(self, reply: Reply[Any]) -> None:
        rule = Rule(reply.rule or 0)
        line = f"{reply.line.strip()}: " if reply.line else ""
        super().__init__(f"{line}{rule} doesn't hold: {rule.sentence}")
        self.reply = reply


@dataclass(frozen=True)
class Run:
    """How far `Machine.run` got."""

    reply: Reply[None]
    """The reply to the last element executed, without an audit line."""
    events: int
    """The number of elements executed, at least 1."""
    outputs: bytes
    """The outputs of these elements, one after another."""


@dataclass(frozen=True)
class Made:
    """How far a call of a list got, such as `Machine.deposit_pages`."""

    reply: Reply[None]
    """The reply to the last element executed, without an audit line. If it is DENIED, its rule refused the
    element behind those that were served."""
    count: int
    """The number of elements served, from the first on. If it is less than the list's, and no rule refused an
    element, call the method again with the rest."""
    values: Tuple[int, ...] = ()
    """What they output: pages, or values of registers."""

    def expect(self) -> Tuple[int, ...]:
        """Returns the values of a call whose elements all have to be served. Raises `Refused` if a rule
        refuses one."""
        self.reply.expect()
        return self.values


def next(rcx: int, reply: Reply[Any]) -> int:
    """Returns RCX for the next element, after a reply that is MORE."""
    return int(call("next", rcx, reply._raw))


def version_number() -> int:
    """Returns the version of the library as a number: 100 for 0.1.0, and 10203 for 1.2.3."""
    return int(call("version_number"))


def version() -> str:
    """Returns the version of the library, as `MAJOR.MINOR.PATCH`."""
    return str(call("version"), "ascii")


def status_name(status: int) -> str:
    """Returns the name of a status of the library, such as `HVPM_STATUS_MEMORY`."""
    return str(call("status_name", status), "ascii")


def hv_status_name(status: int) -> str:
    """Returns the TLFS name of a hypercall's status, such as `HV_STATUS_ACCESS_DENIED`; `unknown` for a
    status that the machine never returns."""
    return str(call("hv_status_name", status), "ascii")


def rule_name(rule: int) -> str:
    """Returns the name of a rule, such as `P12`; `unknown` if there is no such rule."""
    return str(call("rule_name", rule), "ascii")


def rule_sentence(rule: int) -> str:
    """Returns what a rule demands, in one sentence of docs/POLICY.md; `unknown` if there is no such rule."""
    return str(call("rule_sentence", rule), "ascii")
