#!/usr/bin/env python3
"""A driver of the conformance suite: does what the lines of a script say, and prints the audit.

    conformance/run --group interface --no-tables --batch bindings/python/examples/driver.py

Without --batch it takes one script, by its path. It reads scripts without a fault, and ignores LIMIT."""
import sys

import hvpm


def number(word):
    """A number of a script: hexadecimal after 0x, and else decimal, with any number of leading zeros."""
    return int(word, 16 if word.startswith("0x") else 10)


def call(machine, by, rcx, rdx, r8, input):
    """A call, element by element: gives its lines of the audit."""
    registers = list(map(number, (rcx, rdx, r8)))
    input = b"" if input == "-" else bytes.fromhex(input)
    answer = hvpm.Answer.MORE
    while answer is hvpm.Answer.MORE:
        reply = machine.hypercall(by, *registers, input)
        yield reply.line
        answer, registers[0] = reply.answer, hvpm.next(registers[0], reply)


def event(machine, by, word, *rest):
    """What a line of a processor says: gives its lines of the audit."""
    if word == "call":
        yield from call(machine, by, *rest)
        return
    accesses = {
        "rdmsr": machine.read_msr,
        "wrmsr": machine.write_msr,
        "slot": machine.read_slot,
        "clearslot": machine.clear_slot,
        "flags": machine.read_flags,
        "clearflag": machine.clear_flag,
        "interrupt": machine.take_interrupt,
    }
    yield accesses[word](by, *map(number, rest)).line


def run(script):
    """The audit of a script."""
    machine, audit = None, []
    for line in script:
        words = line.split()
        if not words or words[0].startswith("#") or words[0] == "phase":
            continue
        if words[0] == "boot":
            pages, pool, vps, mask = map(number, words[1:5])
            machine = hvpm.Machine.boot(mask=mask, pages=pages, pool=pool, vps=vps)
        else:
            by = tuple(map(number, words[0].split(".")))
            audit += event(machine, by, *words[1:])
    return "".join(audit) + f"events {machine.events}\n"


def tell(path):
    """Runs the script at a path and prints the audit. Gives the exit status, and the text for an error."""
    try:
        with open(path) as script:
            sys.stdout.write(run(script))
    except OSError:
        return 1, "cannot read the script"
    except hvpm.Error as error:
        return (1 if str(error).startswith("boot refused") else 3), str(error)
    return 0, ""


def main():
    if sys.argv[1:] == ["--batch"]:
        for path in sys.stdin:
            status, text = tell(path.rstrip("\n"))
            print(f"end {status} {text}".rstrip(), flush=True)
        return 0
    if len(sys.argv) != 2:
        print("usage: driver.py SCRIPT, or driver.py --batch", file=sys.stderr)
        return 2
    status, text = tell(sys.argv[1])
    if status:
        print(f"driver: {text}", file=sys.stderr)
    return status


if __name__ == "__main__":
    sys.exit(main())
