#!/usr/bin/env python3
"""A driver with a bug, for the runner's tests: the model of this repository, tests/model, in which one text of
its machine is another one.

    planted.py BUG [--table] SCRIPT
    planted.py BUG --batch
"""
import sys
from pathlib import Path

MODEL = Path(__file__).resolve().parents[2] / "tests/model"

# A bug: the text, what stands in its place, what one of the first three rows of the runner's table says, and a
# folder of `interface` in which that shows.
BUGS = {
    "ready by the wrong page": (
        "page = SIMP if port_type == MESSAGES else SIEFP", "page = SIEFP", "HvPostMessage ok -> denied P22", "messages"),
    "messages counted by processor": (
        "owner.stored(port_id, port.born) < STORED",
        "sum((it.port, it.born) == (port_id, port.born) for it in vp.messages()) < STORED",
        "HvPostMessage denied P23 -> ok", "rules"),
    "MessagePending never set": (
        "bool(self.waiting[sint])", "0", "slot ok -> ok, another flags (bit 0 is MessagePending)", "messages"),
    "the lowest vector first": (
        "max(self.pending, default=0)", "min(self.pending, default=0)", "interrupt ok -> ok, another vector", "interrupts"),
    "Finalized children forgotten": (
        "need(13, not target.children)",
        "need(13, all(self.partitions[it].life == FINALIZED for it in target.children))",
        "HvFinalizePartition denied P13 -> ok", "rules"),
    "EOM without effect": ("elif self.is_ready(MESSAGES):", "elif False:", "slot ok -> ok, another ", "messages"),
    "the highest page withdrawn": (
        "page = min(target.pooled)", "page = max(target.pooled)", "HvWithdrawMemory ok -> ok, another output", "pages"),
    "ports without a charge": (
        "PORT_COST * len(self.ports)", "0", "HvGetMemoryBalance ok -> ok, another available, another in use", "ports"),
    "flags from 0 on": ("port.base + flag)", "flag)", "flags ok -> ok, another flag", "flags"),
    "masks narrowed in one partition": (
        "        for child in partition.children:\n            self.narrow(self.partitions[child], value)\n", "",
        "HvGetPartitionProperty ok -> ok, another output", "narrowing"),
    "a SINT that takes any vector": ("need(27, accepts(name, value))", "need(27, REGISTERS[name].is_written)",
                                     "wrmsr of a SINT fault P27 -> ok", "accesses"),
    "a page deposited twice": ("        need(21, page in caller.loose)\n        caller.loose.remove(page)\n",
                               "        caller.loose.discard(page)\n", "HvDepositMemory denied P21 -> ok", "pages"),
    "an old port's messages": ("port.born == connection.born", "True", "HvPostMessage denied P17 -> ok", "messages"),
    "privileges after targets": ("            need(8, caller.has(frame.call.privilege))\n", "", "denied P8 -> ok", "rules"),
    "a crash": ("        target.life = FINALIZED\n", "        import os\n        os.abort()\n",
                "the program -> it was ended by signal 6 (SIGABRT)", "processors"),
    "ids kept from script to script": (
        "self.next_id, self.served = ROOT + 1, 0",
        "self.next_id, self.served = KEPT['id'], 0", "HvCreatePartition ok -> ok, another output", "calls"),
}  # fmt: skip


def load(bug):
    """Puts the machine with the bug in place of the model's, and gives what runs a script."""
    sys.dont_write_bytecode = True
    sys.path.insert(0, str(MODEL.parent))
    import model.machine as machine

    old, new, *_ = BUGS[bug]
    text = (MODEL / "machine.py").read_text()
    assert text.count(old) == 1, f"{bug}: {text.count(old)} times in the model: {old}"
    text = text.replace(old, new)
    if "KEPT" in new:
        text = text.replace("        self.next_id += 1\n", "        self.next_id += 1\n        KEPT['id'] += 1\n")
        machine.KEPT = {"id": 2}
    exec(compile(text, "planted", "exec"), machine.__dict__)
    from model.script import run_serial

    return run_serial


def main(bug, words):
    run = load(bug)
    if words == ["--batch"]:
        for line in sys.stdin:
            table, path = line.startswith("--table "), line.rstrip("\n").removeprefix("--table ")
            told = run(Path(path).read_text("latin-1"), table)
            sys.stdout.write(told.out)
            print(f"end {told.status} {told.error}".rstrip(), flush=True)
        return 0
    told = run(Path(words[-1]).read_text("latin-1"), "--table" in words)
    sys.stdout.write(told.out)
    if told.error:
        print(f"planted: {told.error}", file=sys.stderr)
    return told.status


if __name__ == "__main__":
    sys.exit(main(sys.argv[1], sys.argv[2:]))
