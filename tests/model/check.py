"""What `hvpm check` says of an audit ("Check" in docs/PROGRAM.md)."""
import json
import re
from collections import deque
from typing import NamedTuple

from model.machine import MORE
from model.script import ACCESSES, Turn, begun, reply_text

SHOWN = 800  # bytes of a line
ANY = "\0"


class Verdict(NamedTuple):
    """Of a legal audit the number of its events, otherwise the first line that isn't legal, with the texts
    that docs/PROGRAM.md lets it have. One that ends with ANY may go on with any text."""

    events: int = None
    line: int = None
    texts: tuple = ()

    def fits(self, said, status):
        """Whether a program says this."""
        if self.line is None:
            return status == 0 and said == f"legal, {self.events} events\n"
        texts = [f"line {self.line}: {text}\n" for text in self.texts]
        begins = tuple(text.partition(ANY)[0] for text in texts if ANY in text)
        is_printable = re.fullmatch(r"[ -~]*\n", said) is not None
        return status == 1 and is_printable and (said in texts or said.startswith(begins))


def as_json(said):
    """What --json makes of what is said of an audit that isn't legal."""
    line, wrong = re.fullmatch(r"line (\d+): (.*)\n", said).groups()
    told = {"legal": False, "events": None, "line": int(line), "wrong": wrong}
    return json.dumps(told, separators=(",", ":")) + "\n"


def shown(line):
    if line is None:
        return "the end"
    text = re.sub(r"[^ -~]", "?", line) or "an empty line"
    return text if len(text) <= SHOWN else text[:SHOWN] + ANY


def asked(who, rest):
    """A VP and its WHAT, from a line behind its number, where WHAT begins as one does."""
    words = rest.split(" ")
    count = 2 if words[0] == "call" else 1 + len(ACCESSES.get(words[0], ()))
    if words[0] not in ("call", *ACCESSES) or len(words) <= count or "" in words[: count + 1]:
        return ANY
    return shown(" ".join([who, *words[:count]]))


def without_rule(reply):
    return re.sub(r"^(denied [0-9a-f]{16}|fault)( .*)?$", r"\1", reply)


class Checker:
    """Steps the model in the order of an audit's lines."""

    def __init__(self, script, is_prefix=False, has_rules=True):
        self.run, phases = begun(script)
        self.is_prefix, self.has_rules = is_prefix, has_rules
        self.phases = [self.queues(phase) for phase in phases]
        self.left = {}

    @staticmethod
    def queues(phase):
        found = {}
        for line in phase:
            found.setdefault(line.by, deque()).append(Turn(line))
        return found

    def next_phase(self):
        """Begins the next phases while all VPs have finished their lines."""
        while not any(self.left.values()) and self.phases:
            self.left = self.phases.pop(0)

    def verdict(self, audit):
        lines = audit.split("\n")
        has_feed = lines[-1] == ""  # of the last line
        lines = lines[:-1] if has_feed else lines
        for at, line in enumerate([*lines, None], 1):
            self.next_phase()
            if line is None and self.is_prefix:
                return Verdict(events=self.run.events)
            texts = self.faults(line)
            if texts is not None:
                return Verdict(line=at, texts=texts)
            if at == len(lines) and not has_feed:
                return Verdict(line=at, texts=("wanted a line feed, found the end",))
            if line.startswith("events "):
                return self.after_the_last(lines, at)
        raise AssertionError("an audit ends with its last line, or with None")

    def after_the_last(self, lines, at):
        if at < len(lines):
            return Verdict(line=at + 1, texts=(f"wanted the end, found {shown(lines[at])}",))
        return Verdict(events=self.run.events)

    def faults(self, line):
        """None if a line is legal, and then the event is made; otherwise the texts that it may have."""
        busy = ["%d.%d" % by for by, turns in self.left.items() if turns]
        found = re.fullmatch(r"([0-9]+) (([0-9]+)\.([0-9]+)) (.*)", line or "")
        if found:
            by = int(found[3]), int(found[4])
            return self.event_faults(found[1], found[2], by, found[5], busy, line)
        is_last = line is None or line.startswith("events ")
        count = f"events {self.run.events}"
        if is_last and line == count and (self.is_prefix or not busy):
            return None
        if is_last and busy and not self.is_prefix:
            return tuple(f"wanted an event of {who}, found {shown(line)}" for who in busy)
        wants_count = f"wanted {count}, found {shown(line)}"
        if is_last:
            return (wants_count,)
        is_number = f"wanted number {self.run.events + 1}, found {shown(line.split(' ')[0])}"
        no_event = f"wanted the line of an event, found {shown(line)}"
        return (no_event, is_number, *([] if busy else [wants_count]))

    def event_faults(self, number, who, by, rest, busy, line):
        """Those of a line that begins with a number and a VP. Where several hold, each may be told."""
        run, is_vp = self.run, by[0] < 1 << 64 and by[1] < 1 << 32
        texts = [] if is_vp else [f"wanted the line of an event, found {shown(line)}"]
        if number != str(run.events + 1):
            texts.append(f"wanted number {run.events + 1}, found {shown(number)}")
        if not self.left.get(by):
            texts += [f"{it} has nothing left to do in this phase" for it in {who, "%d.%d" % by}]
            texts += [] if busy else [f"wanted events {run.events}, found {shown(line)}"]
        elif run.events == run.limit:
            texts.append(f"{'%d.%d' % by} has no event left, since the script's limit is reached")
        return tuple(texts) or self.reply_faults(self.left[by], who, rest)

    def reply_faults(self, turns, who, rest):
        """Those of an event's VP, WHAT and REPLY."""
        what, wanted_who = turns[0].what(), turns[0].who()
        reply = turns[0].take(self.run.machine)
        self.run.events += 1
        if reply.kind != MORE:
            turns.popleft()
        if who != wanted_who or not rest.startswith(f"{what} "):
            return (f"wanted {wanted_who} {what}, found {asked(who, rest)}",)
        found, wanted = rest[len(what) + 1 :], reply_text(reply)
        if found == wanted or (not self.has_rules and without_rule(found) == without_rule(wanted)):
            return None
        # Where no reply begins there, that may be WHAT to its end.
        has_reply = re.match(r"(ok|more|denied|fault)( |$)", found)
        other_what = () if has_reply else (f"wanted {who} {what}, found {ANY}",)
        return (f"{who} {what}: wanted {wanted}, found {shown(found)}", *other_what)
