#!/usr/bin/env python3
"""Drives the core through a pipe, line by line: examples/serve/bench.py [PROGRAM], which
is bin/hvpm if none is given."""
import json
import pathlib
import subprocess
import sys


class Bench:
    """A session of `hvpm serve --json`."""

    def __init__(self, program):
        pipe = subprocess.PIPE
        self.core = subprocess.Popen([program, "serve", "--json"], stdin=pipe, stdout=pipe, text=True, bufsize=1)
        self.greeting = self.read()

    def read(self):
        return json.loads(self.core.stdout.readline())

    def ask(self, line):
        """Sends a line and returns its answer, which is one line."""
        self.core.stdin.write(line + "\n")
        return self.read()

    def done(self, line):
        """Sends a line that has no fault, and returns the lines of its events."""
        answer = self.ask(line)
        assert answer["fault"] is None, answer
        return answer["events"]

    def end(self):
        """Ends the session, and returns its last line and the exit status."""
        last, _ = self.core.communicate()
        return json.loads(last), self.core.returncode


bench = Bench(sys.argv[1] if len(sys.argv) > 1 else pathlib.Path(__file__).parents[2] / "bin" / "hvpm")
assert bench.greeting["program"] == "hvpm"
assert bench.done("# the root, with 32 pages") == []
assert bench.done("boot 32 12 1 0x000000f700000044 1000") == []
assert bench.done("1.0 call 0x40 0 0 -") == ["1 1.0 call 0000000000000040 ok 0000000000000000 0200000000000000"]
child = "0200000000000000"
pages = "".join(page.to_bytes(8, "little").hex() for page in (12, 13, 14))
deposit = bench.done(f"1.0 call 0x0000000300000048 0 0 {child}{pages}")
assert [event.split()[4] for event in deposit] == ["more", "more", "ok"]
assert bench.done("1.0 call 0x10041 2 0 -")[0].endswith(" ok 0000000000000000 -")
assert bench.done("1.0 call 0x10041 2 0 -")[0].endswith(" denied 0000000000000007 P12"), "it is Active already"
assert bench.done("2.0 interrupt")[0].endswith(" fault P3"), "it has no processor"
assert bench.ask("explain")["explain"].startswith("7 2.0 take an interrupt: fault, P3: ")
assert bench.ask("peek 1.0 rdmsr 0x40000092")["peek"] == "0000010000000000", "SINT 2 is masked"
assert bench.ask("1.0 reset") == {"line": 10, "events": [], "trace": [], "fault": "unknown word"}
assert bench.ask("table")["table"].splitlines()[1].startswith("partition 2 parent 1 Active ")
assert bench.end() == ({"end": True, "events": 7}, 0)
print("passed")
