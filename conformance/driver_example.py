#!/usr/bin/env python3
"""A driver: reads a script, lets a machine do what its lines say, and prints the audit.

    conformance/run --group interface --no-tables conformance/driver_example.py
    conformance/run --group interface --no-tables --batch conformance/driver_example.py

With --batch it takes one script after another from standard input, each by its path. The machine is a toy: it
has the root partition alone, and serves HvGetPartitionId. Whoever connects an emulator puts it in the place
of `Toy`, and keeps the rest."""
import sys

REP_CALLS = {0x48, 0x49, 0x50, 0x51}
RULES = {"P1": 0xD, "P3": 0xE, "P4": 0x2, "P5": 0x3, "P6": 0x4, "P8": 0x6}  # the statuses


class Refused(Exception):
    """Says what a boot is refused for: pages, pool or vps."""


class Toy:
    def __init__(self, pages, pool, processors, mask):
        if not 0 < pages <= 65536:
            raise Refused("pages")
        if pool > pages:
            raise Refused("pool")
        if not 0 < processors <= 64 or 4 * processors > pool:
            raise Refused("vps")
        self.processors, self.mask = processors, mask

    def call(self, partition, processor, rcx, rdx, r8, data):
        """One hypercall, or the element of a rep call at its start index: the result value, the output of
        that element, and the first rule that isn't met, "" where all are."""
        unmet = [
            ("P1", partition != 1),
            ("P3", processor >= self.processors),
            ("P4", rcx & 0xFFFF != 0x46),
            ("P5", rcx >> 16 != 0),
            ("P6", r8 % 8 != 0 or r8 % 4096 > 4096 - 8),
            ("P8", not self.mask >> 33 & 1),
        ]
        rule = next((name for name, is_unmet in unmet if is_unmet), "")
        return (RULES[rule], b"", rule) if rule else (0, (1).to_bytes(8, "little"), "")

    def access(self, partition, processor, word, numbers):
        """One access, as "rdmsr" with its numbers: the output, and the first rule that isn't met.
        The toy has none."""
        return b"", "P1" if partition != 1 else "P3" if processor >= self.processors else "P25"


def number(word):
    return int(word, 16) if word.startswith("0x") else int(word)


def events(machine, caller, word, words):
    """What a line makes of the machine, event by event: what is printed of each behind the processor."""
    partition, processor = map(number, caller.split("."))
    if word != "call":
        numbers = [number(each) for each in words]
        shown = [f"{each:08x}" if at == 0 else f"{each:016x}" for at, each in enumerate(numbers)]
        output, rule = machine.access(partition, processor, word, numbers)
        what = [word, *(shown if word.endswith("msr") else map(str, numbers))]
        yield " ".join([*what, f"fault {rule}" if rule else f"ok {output.hex() or '-'}"])
        return
    rcx, rdx, r8 = map(number, words[:3])
    data = bytes.fromhex(words[3].replace("-", ""))
    while True:
        result, output, rule = machine.call(partition, processor, rcx, rdx, r8, data)
        done, count = result >> 32, rcx >> 32 & 0xFFF
        more = not rule and rcx & 0xFFFF in REP_CALLS and done < count
        if rule:
            reply = f"denied {result:016x} {rule}"
        else:
            reply = f"{'more' if more else 'ok'} {result:016x} {output.hex() or '-'}"
        yield f"call {rcx:016x} {reply}"
        if not more:
            return
        rcx = rcx & ~(0xFFF << 48) | done << 48


def run(path):
    """Boots a machine, and prints the audit of a script."""
    lines = [line.split() for line in open(path) if line.split() and not line.split()[0].startswith("#")]
    machine = Toy(*map(number, lines[0][1:5]))
    printed = 0
    for caller, *words in lines[1:]:
        if caller != "phase":
            partition, processor = map(number, caller.split("."))
            for text in events(machine, caller, words[0], words[1:]):
                printed += 1
                print(printed, f"{partition}.{processor}", text)
    print("events", printed)


def run_batch():
    """Runs the scripts whose paths are lines of standard input; a line `end` stands
    behind what is told of each."""
    for path in sys.stdin:
        try:
            run(path.rstrip("\n"))
            print("end 0", flush=True)
        except Refused as why:
            print(f"end 1 boot refused: {why}", flush=True)


if sys.argv[-1] == "--batch":
    run_batch()
else:
    try:
        run(sys.argv[-1])
    except Refused as why:
        sys.exit(f"driver: boot refused: {why}")
