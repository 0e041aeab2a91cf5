"""Scripts and audits, as "Script" and "Audit" of docs/POLICY.md and docs/PROGRAM.md have them."""
import json
import re
from functools import lru_cache
from typing import NamedTuple, Optional

from model.machine import DENIED, FAULT, MORE, BootRefused, Machine

SCRIPT_BYTES, LIST_DIGITS, PHASE_VPS = 1 << 20, 8192, 64
BOOT = (32, 32, 32, 64, 32)  # bits of each number
LOOKS = {"slot": (8,), "flags": (8,), "rdmsr": (32,), "pending": ()}
ACCESSES = {
    "rdmsr": (32,), "wrmsr": (32, 64), "slot": (8,), "clearslot": (8,), "flags": (8,), "clearflag": (8, 16),
    "interrupt": (),
}  # fmt: skip
START = 0xFFF << 48


class Fault(Exception):
    """A line with a fault, and its text."""

    def __init__(self, line, text):
        super().__init__(f"line {line}: {text}")


class Line(NamedTuple):
    """A line of a VP."""

    by: tuple
    word: str
    numbers: tuple
    data: bytes = b""


def number(word, bits):
    if not re.fullmatch(r"[0-9]+|0x[0-9A-Fa-f]{1,16}", word):
        return None
    value = int(word, 16 if word.startswith("0x") else 10)
    return value if value < 1 << bits else None


def processor(word):
    found = re.fullmatch(r"([0-9]+)\.([0-9]+)", word)
    by = found and (number(found[1], 64), number(found[2], 32))
    return None if not by or None in by else by


def numbers(words, bits):
    """The numbers of a line; the fault where one is bad."""
    values = tuple(number(word, size) for word, size in zip(words, bits))
    return "bad number" if None in values else values


class Reader:
    """Reads a script line by line; a line with a fault changes nothing."""

    def __init__(self):
        self.is_booted, self.vps = False, set()

    def read(self, line):
        """The words `boot` and `phase` with the numbers behind them, a Line, or None for a line that is
        skipped. A line with a fault gives its text alone."""
        words = [word for word in line.split(" ") if word]
        if not words or words[0].startswith("#"):
            return None
        if not re.fullmatch(r"[ -~]*", line):
            return "bad byte"
        if not self.is_booted:
            return self.boot(words)
        if words[0] == "boot":
            return "second boot"
        if words[0] == "phase":
            if len(words) > 1:
                return "word count"
            self.vps = set()
            return ("phase",)
        return self.of_a_vp(words)

    def boot(self, words):
        if words[0] != "boot":
            return "no boot"
        if len(words) != 1 + len(BOOT):
            return "word count"
        values = numbers(words[1:], BOOT)
        return values if isinstance(values, str) else ("boot", *values)

    def of_a_vp(self, words):
        by = processor(words[0])
        if by is None:
            return "bad processor"
        if len(words) < 2 or words[1] not in ("call", *ACCESSES):
            return "unknown word"
        word, rest = words[1], words[2:]
        bits = (64, 64, 64) if word == "call" else ACCESSES[word]
        if len(rest) != len(bits) + (word == "call"):
            return "word count"
        values = numbers(rest, bits)
        if isinstance(values, str):
            return values
        data = "" if word != "call" or rest[3] == "-" else rest[3]
        if len(data) > LIST_DIGITS or not re.fullmatch(r"([0-9A-Fa-f]{2})*", data):
            return "bad hex"
        if by not in self.vps and len(self.vps) == PHASE_VPS:
            return "too many processors"
        self.vps.add(by)
        return Line(by, word, values, bytes.fromhex(data))


class Script(NamedTuple):
    boot: tuple
    phases: list  # of lists of lines


@lru_cache(maxsize=4)
def read_script(text):
    """The script, or its first fault."""
    if len(text) > SCRIPT_BYTES:
        raise Fault(0, "too long")
    reader, boot, phases = Reader(), None, [[]]
    for at, line in enumerate(text.split("\n"), 1):
        found = reader.read(line)
        if isinstance(found, str):
            raise Fault(at, found)
        if isinstance(found, Line):
            phases[-1].append(found)
        elif found and found[0] == "boot":
            boot, reader.is_booted = found[1:], True
        elif found:
            phases.append([])
    if boot is None:
        raise Fault(0, "no boot")
    return Script(boot, phases)


class Turn:
    """A line at which a VP is, with the RCX of its next event."""

    def __init__(self, line):
        self.line, self.rcx = line, line.numbers[0] if line.word == "call" else None

    def who(self):
        return "%d.%d" % self.line.by

    def what(self):
        word, values = self.line.word, self.line.numbers
        if word == "call":
            return f"call {self.rcx:016x}"
        if word == "rdmsr":
            return f"rdmsr {values[0]:08x}"
        if word == "wrmsr":
            return f"wrmsr {values[0]:08x} {values[1]:016x}"
        return " ".join([word, *map(str, values)])

    def take(self, machine):
        """Makes the event: its reply, after which RCX is that of the next element."""
        if self.line.word != "call":
            return machine.access(self.line.by, self.line.word, self.line.numbers)
        reply = machine.hypercall(self.line.by, self.rcx, *self.line.numbers[1:], self.line.data)
        if reply.kind == MORE:
            self.rcx = self.rcx & ~START | reply.next << 48
        return reply


def reply_text(reply):
    if reply.kind == FAULT:
        return f"fault P{reply.rule}"
    result = "" if reply.result is None else f" {reply.result:016x}"
    if reply.kind == DENIED:
        return f"denied{result} P{reply.rule}"
    return f"{reply.kind}{result} {reply.output.hex() or '-'}"


class Run:
    """A machine that takes the lines of a script in their order."""

    def __init__(self, boot):
        self.machine, self.limit = Machine(*boot[:4]), boot[4]
        self.events, self.is_full = 0, False

    def take(self, line):
        """The events of a line: for each its turn, as it was before, its WHAT, and its reply."""
        turn, is_more = Turn(line), True
        while is_more:
            if self.events == self.limit:
                self.is_full = True
                return
            what, reply = turn.what(), turn.take(self.machine)
            self.events += 1
            is_more = reply.kind == MORE
            yield turn.who(), what, reply

    def lines(self, line):
        """The audit's lines of a line."""
        for who, what, reply in self.take(line):
            yield f"{self.events} {who} {what} {reply_text(reply)}"


class Told(NamedTuple):
    """Standard output, the line on standard error behind the program's name, and the status."""

    out: str
    error: str
    status: int


def joined(lines):
    return "".join(f"{line}\n" for line in lines)


def begun(text):
    """A script's run before its first line, and its phases; or what the program tells in place of that."""
    try:
        script = read_script(text)
        return Run(script.boot), script.phases
    except Fault as fault:
        return Told("", str(fault), 1), None
    except BootRefused as refused:
        return Told("", f"boot refused: {refused}", 1), None


def run_serial(text, has_table):
    """What `run --serial` tells of a script."""
    run, phases = begun(text)
    if phases is None:
        return run
    lines = []
    for phase in phases:
        for line in phase:
            lines += run.lines(line)
    lines.append(f"events {run.events}")
    out = joined([*lines, *(run.machine.table() if has_table else ())])
    return Told(out, "history full", 3) if run.is_full else Told(out, "", 0)


class Answer(NamedTuple):
    """What a line of a session is answered: the lines of its events, then its fault, the table's lines, or what
    a look shows."""

    events: list = []
    fault: Optional[str] = None
    table: Optional[list] = None
    peek: tuple = ()


def answers(text):
    """What a session answers to each line, and its number of events. After a last line feed comes an empty
    line."""
    reader, run, out = Reader(), None, []
    for line in text.split("\n"):
        words = [word for word in line.split(" ") if word]
        found = ("table",) if words[:1] == ["table"] else reader.read(line)
        if found == ("table",):
            found = table_fault(line, words, run) or found
        if words[:1] == ["peek"]:
            found = look(line, words, run)
        answer = Answer()
        if isinstance(found, str):
            answer = Answer(fault=found)
        elif isinstance(found, Line):
            events = list(run.lines(found))
            answer = Answer(events, "history full" if run.is_full else None)
            run.is_full = False
        elif found == ("table",):
            answer = Answer(table=list(run.machine.table()))
        elif found and found[0] == "peek":
            answer = Answer(peek=found[1:])
        elif found and found[0] == "boot":
            try:
                run, reader.is_booted = Run(found[1:]), True
            except BootRefused as refused:
                answer = Answer(fault=f"boot refused: {refused}")
        out.append(answer)
    return out, run.events if run else 0


def serve(text):
    """What `serve` tells of the lines on its standard input."""
    out, (told, events) = [], answers(text)
    for at, answer in enumerate(told, 1):
        out += answer.events
        out += [f"fault: line {at}: {answer.fault}"] if answer.fault else answer.table or []
        out += [shown or "none" for shown in answer.peek]
    return Told(joined([*out, f"events {events}"]), "", 0)


def traced(at, event):
    """The object of an event that line `at` asks for, with the members that its line of the audit has."""
    number, vp, *words = event.split(" ")
    is_refused = "denied" in words or "fault" in words
    rule, output = (words[-1], "") if is_refused else (None, words[-1].strip("-"))
    return {"event": int(number), "vp": vp, "line": at, "rule": rule, "output": output}


def shortened(out):
    """What `serve --json` told, with only these members in the objects of events."""
    lines = []
    for line in out.splitlines():
        answer = json.loads(line)
        if json.dumps(answer, separators=(",", ":")) != line:
            return out
        for at, event in enumerate(answer.get("trace", ())):
            answer["trace"][at] = {name: event[name] for name in ("event", "vp", "line", "rule", "output")}
        lines.append(json.dumps(answer, separators=(",", ":")))
    return joined(lines)


def serve_json(text):
    """What `serve --json` tells of them, as `shortened` gives it."""
    told, events = answers(text)
    if not text or text.endswith("\n"):
        told.pop()
    out = [{"program": "hvpm", "version": "0.1.0"}]
    for at, answer in enumerate(told, 1):
        shown = {} if answer.table is None else {"table": joined(answer.table)}
        if answer.peek:
            shown["peek"] = answer.peek[0]
        trace = [traced(at, event) for event in answer.events]
        out.append({"line": at, "events": answer.events, "trace": trace, "fault": answer.fault, **shown})
    out.append({"end": True, "events": events})
    return Told(joined(json.dumps(line, separators=(",", ":")) for line in out), "", 0)


def table_fault(line, words, run):
    """The fault of a line `table`, if it has one."""
    if not re.fullmatch(r"[ -~]*", line):
        return "bad byte"
    if run is None:
        return "no boot"
    return "word count" if len(words) > 1 else None


def look(line, words, run):
    """The fault of a line `peek`, or that word with the bytes that it shows, or None for none."""
    if not re.fullmatch(r"[ -~]*", line):
        return "bad byte"
    if run is None:
        return "no boot"
    by = processor(words[1]) if len(words) > 1 else None
    if by is None:
        return "bad processor"
    if len(words) < 3 or words[2] not in LOOKS:
        return "unknown word"
    bits = LOOKS[words[2]]
    if len(words) != 3 + len(bits):
        return "word count"
    values = numbers(words[3:], bits)
    if isinstance(values, str):
        return values
    seen = run.machine.look(by, words[2], *values)
    return ("peek", None if seen is None else seen.hex())
