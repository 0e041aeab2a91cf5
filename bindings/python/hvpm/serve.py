"""Drives `hvpm serve --json` through a pipe: a machine in a process of its own, without the library.

    with hvpm.serve.Session() as session:
        session.boot(mask=0xF700000064, pages=64, pool=32, vps=1)
        event = session.call((1, 0), "HvCreatePartition", Flags=0)[-1]
        assert event.answer == hvpm.serve.SERVED and event.value == 2, session.explain()

A rep call runs to its end, and has an event for each element. "Session" in docs/PROGRAM.md has the
language."""
from __future__ import annotations

import json
import os
import select
import subprocess
import time
from dataclasses import dataclass, field, replace
from typing import Any, Dict, FrozenSet, List, Optional, Tuple, Union

from ._convert import Data, bits_of, data
from ._program import find_program
from .forms import Element, frame

By = Tuple[int, int]

SERVED, MORE, DENIED, FAULT = "ok", "more", "denied", "fault"


class Fault(Exception):
    """The program reports a fault of the line or of the host. Only the `events` happened: elements of a rep
    call that began."""

    def __init__(self, text: str, events: List[Event]) -> None:
        super().__init__(text)
        self.events = events


@dataclass(frozen=True)
class Event:
    """An event, from its line of the audit."""

    number: int
    by: By
    what: str
    """What happened: `call` with RCX, or the words of an access."""
    answer: str
    """SERVED, MORE, DENIED or FAULT."""
    result: int
    """The result value of a hypercall; 0 for an access."""
    output: bytes
    rule: Optional[str]
    """The rule that refuses the event, such as `P12`; None if it was served."""
    line: str
    """The line, with its line feed."""
    trace: Dict[str, Any] = field(default_factory=dict, compare=False)
    """The object that `hvpm trace` prints of the event. docs/trace.schema.json has its members."""

    @property
    def reason(self) -> Optional[str]:
        """Why the rule refuses the event, with the values that decided; None if it was served."""
        reason: Optional[str] = self.trace.get("reason")
        return reason

    @property
    def effect(self) -> Dict[str, Any]:
        """What the event changed, and whose that is."""
        effect: Dict[str, Any] = self.trace.get("effect", {"kind": "nothing"})
        return effect

    @property
    def is_served(self) -> bool:
        """Whether the event was served."""
        return self.answer in (SERVED, MORE)

    @property
    def value(self) -> int:
        """The output as a number, such as the id of a new partition, a register or a vector; 0 without
        output."""
        return int.from_bytes(self.output, "little")


def event_of(line: str) -> Event:
    """Reads a line of the audit: `N ID.VP WHAT REPLY`."""
    number, by, *words = line.split()
    partition, vp = by.split(".")
    place = next(at for at, word in enumerate(words) if word in (SERVED, MORE, DENIED, FAULT))
    answer, last = words[place], words[-1]
    is_served = answer in (SERVED, MORE)
    return Event(
        number=int(number),
        by=(int(partition), int(vp)),
        what=" ".join(words[:place]),
        answer=answer,
        result=int(words[place + 1], 16) if words[0] == "call" else 0,
        output=bytes.fromhex(last) if is_served and last != "-" else b"",
        rule=None if is_served else last,
        line=line,
    )


class Session:
    """A run of `PROGRAM serve --json`. `close` or the end of `with` ends it.

    An answer that doesn't come within `timeout` seconds raises TimeoutError, and ends the program. Without
    `program` it is the one that HVPM names, or else that of a wheel, of a checkout or of PATH. With `names`
    the lines of `events` may be by names, as in `hvpm serve --names`."""

    def __init__(self, program: Optional[str] = None, timeout: float = 60.0, names: bool = False) -> None:
        words = [find_program() if program is None else program, "serve", "--json"]
        words += ["--names"] if names else []
        self._process = subprocess.Popen(words, stdin=subprocess.PIPE, stdout=subprocess.PIPE)
        assert self._process.stdin is not None and self._process.stdout is not None  # Popen made them.
        self._in, self._out = self._process.stdin, self._process.stdout
        self._timeout, self._heard, self._poll = timeout, b"", select.poll()
        self._poll.register(self._out, select.POLLIN)
        try:
            self._hear()  # its name and version
        except BaseException:
            self._end()
            raise

    def __enter__(self) -> Session:
        return self

    def __exit__(self, *_: object) -> None:
        self._end()

    def _end(self) -> int:
        """Ends the program, and returns its status."""
        try:
            self._in.close()
        except BrokenPipeError:
            pass  # It has ended.
        try:
            return self._process.wait(self._timeout)
        except subprocess.TimeoutExpired:
            self._process.kill()
            return self._process.wait()
        finally:
            self._out.close()

    def _hear(self) -> Dict[str, Any]:
        """The program's next line."""
        end = time.monotonic() + self._timeout
        while b"\n" not in self._heard:
            if not self._poll.poll(max(0.0, 1000 * (end - time.monotonic()))):
                self._process.kill()
                raise TimeoutError(f"no answer in {self._timeout} seconds")
            part = os.read(self._out.fileno(), 1 << 16)
            if not part:
                raise EOFError("the program ended")
            self._heard += part
        line, _, self._heard = self._heard.partition(b"\n")
        answer: Dict[str, Any] = json.loads(line)
        return answer

    def _ask(self, line: str) -> Dict[str, Any]:
        """The answer to a line. Raises `Fault` if it has a fault."""
        if "\n" in line:
            raise ValueError("a line has no line feed")
        self._in.write(line.encode("ascii") + b"\n")
        self._in.flush()
        answer = self._hear()
        if answer["fault"] is not None:
            raise Fault(f"line {answer['line']}: {answer['fault']}", _events(answer))
        return answer

    def close(self) -> int:
        """Ends the session. Returns the number of its events."""
        try:
            self._in.close()
            last = self._hear()
        finally:
            status = self._end()
        if status != 0 or "end" not in last:
            raise EOFError(f"the program ended with status {status}")
        return int(last["events"])

    # ---- Events ----

    def boot(self, *, mask: int, pages: int, pool: int, vps: int, limit: int = 2**32 - 1) -> None:
        """Boots a machine, once in a session: a second boot is a `Fault`, and changes nothing. So is one that
        is refused, after which another one may follow."""
        self._ask(f"boot {pages} {pool} {vps} {mask:#x} {limit}")

    def phase(self) -> None:
        """Begins another phase. The lines of a phase are of 64 processors at most."""
        self._ask("phase")

    def events(self, line: str) -> List[Event]:
        """Sends a line of a script. Returns its events: one, or one for each element of a rep call, or none
        for a line that is skipped, `boot` and `phase`."""
        return _events(self._ask(line))

    def call(
        self, by: By, name: str, *elements: Element, reps: Optional[int] = None, **fields: Union[int, Data]
    ) -> List[Event]:
        """Makes a hypercall by the names of "Blocks and effects" in docs/POLICY.md. It needs each field. A rep
        call's elements are page numbers, registers, or pairs of a register and a value, and HvWithdrawMemory
        needs `reps`, how many pages it takes. The payload of a message is bytes, of which PayloadSize is the
        length if it isn't given.

            session.call((1, 0), "HvPostMessage", ConnectionId=7, MessageType=1, Payload=b"hello")
            session.call((1, 0), "HvDepositMemory", 40, 41, PartitionId=2)"""
        rcx, block = frame(name, elements, reps, fields)
        return self.hypercall(by, rcx, input=block)

    def hypercall(self, by: By, rcx: int, rdx: int = 0, r8: int = 0, input: Data = b"") -> List[Event]:
        """Makes a hypercall by its registers. Returns its event, or one for each element of a rep call."""
        return self.events(f"{by[0]}.{by[1]} call {rcx:#x} {rdx:#x} {r8:#x} {data(input).hex() or '-'}")

    def _access(self, by: By, words: str) -> Event:
        (event,) = self.events(f"{by[0]}.{by[1]} {words}")
        return event

    def read_msr(self, by: By, msr: int) -> Event:
        """Reads a model-specific register."""
        return self._access(by, f"rdmsr {msr:#x}")

    def write_msr(self, by: By, msr: int, value: int) -> Event:
        """Writes a model-specific register."""
        return self._access(by, f"wrmsr {msr:#x} {value:#x}")

    def read_slot(self, by: By, sint: int) -> Event:
        """Reads the message slot of a SINT."""
        return self._access(by, f"slot {sint}")

    def clear_slot(self, by: By, sint: int) -> Event:
        """Empties the message slot of a SINT."""
        return self._access(by, f"clearslot {sint}")

    def read_flags(self, by: By, sint: int) -> Event:
        """Reads the event flags of a SINT."""
        return self._access(by, f"flags {sint}")

    def clear_flag(self, by: By, sint: int, flag: int) -> Event:
        """Clears one event flag of a SINT."""
        return self._access(by, f"clearflag {sint} {flag}")

    def take_interrupt(self, by: By) -> Event:
        """Takes the highest pending vector."""
        return self._access(by, "interrupt")

    # ---- Looks are no events ----

    def table(self) -> str:
        """Returns the table of partitions."""
        return str(self._ask("table")["table"])

    def help(self) -> str:
        """Returns what a session takes, in lines."""
        return str(self._ask("help")["help"])

    def explain(self) -> Optional[str]:
        """Returns the last event in words, as `hvpm explain` prints it. None before the first."""
        told: Optional[str] = self._ask("explain")["explain"]
        return told

    def _peek(self, of: By, words: str) -> Optional[bytes]:
        told: Optional[str] = self._ask(f"peek {of[0]}.{of[1]} {words}")["peek"]
        return None if told is None else bytes.fromhex(told)

    def peek_slot(self, of: By, sint: int) -> Optional[bytes]:
        """Returns the 256 bytes of a message slot. None if there is no such processor or SINT."""
        return self._peek(of, f"slot {sint}")

    def peek_flags(self, of: By, sint: int) -> Optional[FrozenSet[int]]:
        """Returns the event flags of a SINT that are set. None if there is no such processor or SINT."""
        told = self._peek(of, f"flags {sint}")
        return None if told is None else bits_of(told, 8)

    def peek_msr(self, of: By, msr: int) -> Optional[int]:
        """Returns a model-specific register. None if there is no such processor or register."""
        told = self._peek(of, f"rdmsr {msr:#x}")
        return None if told is None else int.from_bytes(told, "little")

    def peek_pending(self, of: By) -> Optional[FrozenSet[int]]:
        """Returns the vectors that are pending at a processor. None if there is no such processor."""
        told = self._peek(of, "pending")
        return None if told is None else bits_of(told, 8)


def _events(answer: Dict[str, Any]) -> List[Event]:
    lines = [event_of(line + "\n") for line in answer["events"]]
    return [replace(event, trace=trace) for event, trace in zip(lines, answer["trace"])]
