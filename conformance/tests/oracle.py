#!/usr/bin/env python3
"""A program for the runner's tests: it tells what a case's files want, but for a fault of its own.

    oracle.py FAULT [--table] SCRIPT
    oracle.py FAULT --batch
"""
import os
import signal
import sys
import time

KEPT = []  # the scripts of this process before this one


def read(path):
    """A file's text, none where it isn't there."""
    if not os.path.exists(path):
        return None
    with open(path) as file:
        return file.read()


def wanted(stem, table):
    """What a case's files want: standard output without the lines `phase`, the status, and
    the line on standard error."""
    folder, name = os.path.split(stem)
    rows = [row.split("\t") for row in (read(os.path.join(folder, "ends")) or "").splitlines()]
    status, error = next(((int(status), error) for each, status, error in rows if each == name), (0, ""))
    audit = read(stem + ".audit")
    if audit is None:  # a boot that is refused, or the runner's probe
        return ("" if status else "events 0\n"), status, error
    audit = "".join(line for line in audit.splitlines(keepends=True) if line != "phase\n")
    return audit + (read(stem + ".table") if table else ""), status, error


def late(lines):
    """The first event of the last processor, told before all others, and numbered anew."""
    events = [line.split(" ", 1)[1] for line in lines[:-1]]
    by = events[-1].split(" ")[0]
    at = next(at for at, event in enumerate(events) if event.startswith(by))
    events.insert(0, events.pop(at))
    return [f"{number} {event}" for number, event in enumerate(events, 1)] + lines[-1:]


def spoil(fault, text, name):
    """The output with a fault, of the case with that name."""
    lines = text.splitlines(keepends=True)
    if len(lines) < 2:
        return text
    last = next(at for at, line in enumerate(lines) if line.startswith("events "))
    if fault == "byte" or fault == "once" and name == "of_processors" or fault == "kept" and KEPT:
        return text.replace("ok 0000000000000000 0", "ok 0000000000000000 f", 1)
    if fault == "extra":
        return text + "one line more\n"
    if fault == "again":
        return "".join([*lines[:last], f"{last + 1} {lines[last - 1].split(' ', 1)[1]}", *lines[last:]])
    if fault == "tail":
        return text + " "
    if fault == "nothing":
        return ""
    if fault == "end":
        return "".join(lines[:last] + lines[last + 1 :])
    if fault == "event":
        return "".join(lines[: last - 1] + lines[last:])
    if fault == "cell":
        return text.replace(" parent - ", " parent 0 ", 1)
    if fault == "phase":
        return lines[0] + "phase\n" + "".join(lines[1:])
    if fault == "feed":
        return text[:-1]
    if fault == "rules":
        return "".join(line[: line.rindex(" P") + 1] + "P0\n" if " P" in line else line for line in lines)
    if fault == "late":
        return "".join(late(lines))
    return text


def tell(fault, script, table):
    """Tells of a script; gives the status and the line on standard error."""
    name = os.path.basename(script).removesuffix(".hv")
    out, status, error = wanted(script.removesuffix(".hv"), table and fault != "table")
    if name == "probe":
        sys.stdout.write("usage: oracle\n" if fault == "usage" else out)
        return status, error
    sys.stdout.write(spoil(fault, out, name))
    sys.stdout.flush()
    KEPT.append(name)
    if fault == "endless":
        while True:
            sys.stdout.write("x" * (1 << 20))
    if fault == "asleep":
        time.sleep(60)
    while fault == "busy":
        pass
    if fault == "crash":
        os.kill(os.getpid(), signal.SIGSEGV)
    if fault == "exit":
        os._exit(7)
    status = {"status": 3, "zero": 0}.get(fault, status)
    return status, "noise" if fault == "noise" else error


def main(fault, words):
    if words == ["--batch"]:
        for line in sys.stdin:
            path = line.rstrip("\n")
            table = path.startswith("--table ")
            status, error = tell(fault, path.removeprefix("--table "), table)
            print(f"end {status} {error}".rstrip(), flush=True)
        return 7 if fault == "ending" else 0
    status, error = tell(fault, words[-1], "--table" in words)
    if error:
        print(f"oracle: {error}", file=sys.stderr)
    return status


sys.exit(main(sys.argv[1], sys.argv[2:]))
