#!/usr/bin/env python3
"""Prints tables of the figures of docs/SPEED.md, those of that page in its form:

    bench/tables.py [NAME [OUTPUT]]

NAME is one of largest, threads, pools, embed, registers, messages and longest. bench/NAME.sh runs, and what it
prints becomes the table. With OUTPUT, a file with what bench/NAME.sh printed before, nothing runs. Without a
word all seven run.

    bench/tables.py gate FILE

prints what each crate's proof, tests and wrong edits took in the gate, as .ci/times noted it in FILE.

    bench/tables.py growth [POOLS REGISTERS MESSAGES]
    bench/tables.py plots [--check]

write bench/growth.tsv, the instructions of an event as what is there grows, of what bench/pools.sh,
bench/registers.sh and bench/messages.sh print, or printed before into these files; and docs/pictures/growth.svg
from it. With --check nothing is written: the status is 1 if the picture isn't that of its data.

    bench/tables.py build

times a new clone of the repository: compiling and running the program unproved, proving it, and the gate.
That takes hours.

A first line names the machine and the toolchain. A cell that the output has no figure for is -. The status is
1 where a benchmark fails, and 2 where the words are wrong.
"""
import math
import os
import pathlib
import platform
import re
import resource
import subprocess
import sys
import tempfile
import time

ROOT = pathlib.Path(__file__).resolve().parent.parent

LARGEST = {
    "id": "calls for the caller's own id",
    "reps": "rep calls of 255 elements that read registers",
    "messages": "messages posted, read and cleared",
    "partitions": "partitions created and deleted",
    "queues": "1,000 ports filled with messages, which are ended",
    "processors": "lines that each name another VP, 64 in a phase",
}
EMBED = {
    "calls for the caller's id": "calls for the caller's own id",
    "partitions made and deleted": "partitions created and deleted",
    "pages withdrawn and deposited, rep calls": "pages withdrawn and deposited, element by element",
    "an MSR written and read": "an MSR written and read",
    "messages posted, read, cleared, ended": "messages posted, read, cleared and ended",
}
# Rows of the table of messages: VPs, ports of each kind, partitions beside the root, stored messages.
MESSAGES = {
    "ports of each kind at one processor: 1": ("1", "1", "0", "at most 2"),
    "processors of the root, with 100 ports of each kind: 1": ("1", "100", "0", "at most 2"),
    "processors of the root, with 100 ports of each kind: 64": ("64", "100", "0", "at most 2"),
    "partitions beside the root: 1": ("2", "1", "1", "at most 2"),
    "partitions beside the root: 10": ("11", "10", "10", "at most 2"),
    "partitions beside the root: 100": ("101", "100", "100", "at most 2"),
    "kept messages at the processor: 100": ("1", "100", "0", "100"),
    "kept messages at the processor: 700": ("1", "100", "0", "700"),
}
PAGES = (4096, 16384, 32768, 65536)
# Of the longest events: the event, what it grows with, and how much of that there is.
LONGEST = {
    "scattered": ("HvDeletePartition", "runs of pages that do not touch", "32,000 runs of one page"),
    "finalize": ("HvFinalizePartition", "what the partition has",
                 "64 VPs, 8,000 ports, 8,000 connections, 8,000 messages"),
    "deletevp": ("HvDeleteVp", "stored messages", "32,000 messages of 4,000 ports"),
    "narrow": ("HvSetPartitionProperty of a mask", "partitions below", "20,000 children"),
    "firstchild": ("HvDeletePartition", "siblings with higher ids", "the first of 30,000 children"),
    "lastchild": ("HvDeletePartition", "siblings with higher ids", "the last of 30,000 children"),
    "createport": ("HvCreatePort", "blocks of ports with higher ids", "the first of 30,000 ports"),
    "deleteport": ("HvDeletePort", "blocks of ports with higher ids", "the first of 30,000 ports"),
    "createlastport": ("HvCreatePort", "blocks of ports with higher ids", "the last of 30,000 ports"),
    "deletelastport": ("HvDeletePort", "blocks of ports with higher ids", "the last of 30,000 ports"),
    "post": ("HvPostMessage", "messages stored at the VP", "32,000 messages of 4,000 ports"),
    "eom": ("a write of EOM", "SINTs with a message", "1 SINT, 32,000 messages"),
    "createvp": ("HvCreateVp", "nothing", ""),
    "ownid": ("HvGetPartitionId", "nothing", ""),
}


class Part:
    """The figures of a script: its events, processor time, peak memory and instructions, None
    where the output lacks one."""

    def __init__(self, text):
        def figure(pattern, kind=int):
            found = re.search(pattern, text, re.M)
            return kind(found[1]) if found else None

        self.events = figure(r"^events (\d+)")
        self.peak = figure(r"Maximum resident set size \(kbytes\): (\d+)")
        self.instructions = figure(r"^instructions an event: (\d+)")
        times = [figure(rf"{of} time \(seconds\): ([\d.]+)", float) for of in ("User", "System")]
        self.seconds = None if None in times else sum(times)


def parts_of(text):
    """The parts of an output by their titles: what stands between '== ' and the size of the script."""
    pieces = re.split(r"^== (.*)\n", text, flags=re.M)[1:]
    titles = [re.sub(r", \d+ bytes$", "", title) for title in pieces[::2]]
    return dict(zip(titles, map(Part, pieces[1::2])))


def shown(figure, form):
    return "-" if figure is None else form.format(figure)


def number(figure):
    return shown(figure, "{:,}")


def milliseconds(seconds):
    return shown(None if seconds is None else round(seconds * 1000), "{:,} ms")


def print_table(head, rows):
    print(f"| {' | '.join(head)} |")
    print("|---" * len(head) + "|")
    for row in rows:
        print(f"| {' | '.join(row)} |")


def largest(text):
    parts = parts_of(text)
    boot = parts.pop("the boot line alone", Part(""))
    rows = []
    for name, part in parts.items():
        beyond = None if None in (part.peak, boot.peak) else (part.peak - boot.peak) / 1024
        rows.append((LARGEST[name.partition(",")[0]], number(part.events), milliseconds(part.seconds),
                     number(part.instructions), shown(beyond, "{:.1f} MiB")))
    print_table(("script", "events", "processor time", "instructions an event",
                 "peak memory above an empty script"), rows)


def threads(text):
    taken = re.search(r"^processor time of a run: (\S+ ms), with --serial (\S+ ms)$", text, re.M)
    runs = re.search(r"^(\d+) passed, (\d+) failed$", text, re.M)
    cells = (*(taken.groups() if taken else "--"), *(runs.groups() if runs else "--"))
    print_table(("in threads", "with `--serial`", "runs in order", "runs out of order"), [cells])


def pools(text):
    parts = {title.rpartition(",")[0] if title.endswith("events") else title: part
             for title, part in parts_of(text).items()}
    rows = []
    for pages in PAGES:
        titles = (f"{pages} pages", f"every second of {pages} pages",
                  f"{min(pages - 8, 60000)} of {pages} pages in a random order")
        cells = []
        for part in (parts.get(title, Part("")) for title in titles):
            figures = []
            if part.events and part.seconds is not None:
                each = part.seconds / part.events * 1e6
                figures.append(f"{part.events:,} in {milliseconds(part.seconds)}, {each:.1f} µs")
            if part.instructions is not None:
                figures.append(f"{part.instructions:,} instructions")
            cells.append(", ".join(figures) or "-")
        rows.append((f"{pages:,}", *cells))
    print_table(("pages", "in order", "every second page", "in a random order"), rows)


def embed(text):
    kinds = re.findall(r"^(\S.*?) +(\d+) +(\d+)$", text, re.M)
    rows = [(EMBED[name], plain, with_line) for name, plain, with_line in kinds]
    print_table(("work", "without a line of the audit", "with it"), rows)
    scripts = re.findall(r"^(\S+) +([\d.]+) ns, of (\d+) events", text, re.M)
    if scripts:
        print()
        print_table(("script", "events", "ns an event"),
                    [(name, number(int(events)), ns) for name, ns, events in scripts])


def registers(text):
    parts = parts_of(text)

    def cells(kind, count):
        return str(count), number(parts.get(f"{kind}: {count}", Part("")).instructions)

    rows = [(*cells("processors of the root", vps), *cells("partitions beside the root", others))
            for vps, others in zip((1, 4, 16, 64), (1, 10, 50, 100))]
    print_table(("VPs of the root", "instructions", "partitions beside the root", "instructions"), rows)


def messages(text):
    parts = parts_of(text)
    rows = [(*cells, number(parts.get(title, Part("")).instructions)) for title, cells in MESSAGES.items()]
    print_table(("VPs", "ports of each kind", "partitions beside the root", "stored messages at the VP",
                 "instructions"), rows)


def longest(text):
    found = re.findall(r"^(\w+) (\d+) ns(?:, (\d+) instructions)?$", text, re.M)
    rows = [(*LONGEST[kind], f"{int(taken) / 1000:,.1f} µs", number(int(count) if count else None))
            for kind, taken, count in found]
    print_table(("event", "grows with", "here", "time", "instructions"), rows)


def gate(text):
    """The crates by the time that they took, the longest first, and all of them together."""
    kinds = ("proof", "tests", "edits")
    taken = {}
    for crate, kind, seconds in re.findall(r"^(\w+) (\w+) (\d+)$", text, re.M):
        taken.setdefault(crate, dict.fromkeys(kinds, 0))[kind] += int(seconds)
    taken = dict(sorted(taken.items(), key=lambda it: -sum(it[1].values())))
    taken["all crates"] = {kind: sum(it[kind] for it in taken.values()) for kind in kinds}
    rows = [(crate, *(f"{seconds:,}" if seconds else "-" for seconds in (*parts.values(), sum(parts.values()))))
            for crate, parts in taken.items()]
    print_table(("crate", "proof, s", "tests, s", "wrong edits, s", "together, s"), rows)


TABLES = {table.__name__: table for table in (largest, threads, pools, embed, registers, messages, longest)}


def build():
    """Times the commands one after another in a new clone. The first that fails ends it."""
    steps = ("bin/hvpm run examples/first.hv", "bin/hvpm --prove", "rt ci --anew")
    rows = []
    with tempfile.TemporaryDirectory() as folder:
        subprocess.run(["git", "clone", "--quiet", "--", str(ROOT), folder], check=True)
        for step in steps:
            before, start = resource.getrusage(resource.RUSAGE_CHILDREN), time.monotonic()
            subprocess.run(step.split(), cwd=folder, check=True, stdout=sys.stderr)
            after, end = resource.getrusage(resource.RUSAGE_CHILDREN), time.monotonic()
            used = after.ru_utime + after.ru_stime - before.ru_utime - before.ru_stime
            rows.append((f"`{step}`", minutes(end - start), minutes(used)))
    print_table(("command, one after another in a new clone", "time", "processor time"), rows)


def minutes(seconds):
    return f"{seconds:.0f} s" if seconds < 120 else f"{seconds / 60:.0f} min"


# ---- Growth ----

DATA, PLOTS = ROOT / "bench" / "growth.tsv", ROOT / "docs" / "pictures" / "growth.svg"
HEAD = "plot\tcurve\tx\tinstructions an event\n"
# The plots, and of each curve its name and the titles of its parts, with x for the number.
CURVES = {
    "pages": (("pools", "in order", r"x pages"), ("pools", "every second page", r"every second of x pages"),
              ("pools", "in a random order", r"\d+ of x pages in a random order")),
    "processors or partitions": (
        ("registers", "registers: VPs of the root", r"processors of the root: x"),
        ("registers", "registers: partitions", r"partitions beside the root: x"),
        ("messages", "messages: VPs of the root", r"processors of the root, with 100 ports of each kind: x"),
        ("messages", "messages: partitions", r"partitions beside the root: x")),
    "ports, or stored messages": (("messages", "ports of each kind", r"ports of each kind at one processor: x"),
                                  ("messages", "messages at the VP", r"kept messages at the processor: x")),
}
COLORS = ("#0969da", "#bf8700", "#1a7f37", "#cf222e")


def growth(texts):
    """The lines of bench/growth.tsv, of what the three scripts printed."""
    lines = HEAD
    for plot, curves in CURVES.items():
        for script, curve, title in curves:
            for name, part in parts_of(texts[script]).items():
                name = re.sub(r", \d+ events$", "", name)
                found = re.fullmatch(title.replace("x", r"(\d+)", 1), name)
                if found and part.instructions is not None:
                    lines += f"{plot}\t{curve}\t{found[1]}\t{part.instructions}\n"
    return lines


def plotted(text):
    """The picture of bench/growth.tsv: a plot beside the other, with x by its logarithm and y from 0."""
    rows = [line.split("\t") for line in text.splitlines()[1:]]
    wide, high, gap, below = 250, 170, 74, 24 + 18 * max(map(len, CURVES.values()))
    parts = []
    for i, plot in enumerate(CURVES):
        points = [(curve, int(x), int(y)) for name, curve, x, y in rows if name == plot]
        xs = sorted({x for _, x, _ in points})
        most = max(y for _, _, y in points)
        step = 10 ** (len(str(most)) - 1)
        top = -(-most // step) * step
        low, span = math.log(xs[0]), math.log(xs[-1]) - math.log(xs[0]) or 1
        left, bottom = 60 + i * (wide + gap), 34 + high

        def at(x, y):
            return f"{left + wide * (math.log(x) - low) / span:.1f} {bottom - high * y / top:.1f}"

        parts.append(f'<text class="bold" x="{left}" y="20">{plot}</text>')
        for part in range(5):
            y = bottom - high * part / 4
            parts.append(f'<path class="grid" d="M{left} {y:.1f}h{wide}"/>'
                         f'<text class="soft end" x="{left - 6}" y="{y + 4:.1f}">{top * part // 4:,}</text>')
        for x in (xs[0], xs[-1]):
            parts.append(f'<text class="soft mid" x="{at(x, 0).split()[0]}" y="{bottom + 16}">{x:,}</text>')
        for k, (_, curve, _) in enumerate(CURVES[plot]):
            mine = sorted((x, y) for name, x, y in points if name == curve)
            if not mine:
                continue
            parts.append(f'<path class="curve" stroke="{COLORS[k]}" d="M{" ".join(at(x, y) for x, y in mine)}"/>')
            for x, y in mine:
                where = at(x, y).split()
                parts.append(f'<circle fill="{COLORS[k]}" cx="{where[0]}" cy="{where[1]}" r="3"/>')
            y = bottom + 36 + 18 * k
            parts.append(f'<path class="curve" stroke="{COLORS[k]}" d="M{left} {y - 4}h22"/>'
                         f'<text x="{left + 28}" y="{y}">{curve}</text>')
    width, height = 60 + 3 * wide + 2 * gap + 20, 34 + high + below + 12
    return (f'<svg xmlns="http://www.w3.org/2000/svg" viewBox="0 0 {width} {height}" width="{width}" '
            f'height="{height}" role="img">\n<title>Instructions an event, as what is there grows</title>\n<style>'
            ":root{--ink:#1f2328;--soft:#59636e;--line:#d1d9e0}\n@media (prefers-color-scheme:dark){:root{"
            "--ink:#f0f6fc;--soft:#9198a1;--line:#3d444d}}\ntext{font:13px Helvetica,Arial,sans-serif;"
            "fill:var(--ink)}.soft{fill:var(--soft);font-size:11px}.bold{font-weight:bold}.end{text-anchor:end}"
            ".mid{text-anchor:middle}\n.grid{stroke:var(--line);fill:none}.curve{fill:none;stroke-width:2}</style>\n"
            + "\n".join(parts) + "\n</svg>\n")


def plots(words):
    """Makes the data or the picture, and returns the status."""
    if words[0] == "growth":
        names = ("pools", "registers", "messages")
        texts = {name: pathlib.Path(path).read_text() for name, path in zip(names, words[1:])}
        for name in names[len(texts):]:
            texts[name] = subprocess.run([ROOT / "bench" / f"{name}.sh"], check=True, stdout=subprocess.PIPE,
                                         text=True).stdout
        DATA.write_text(growth(texts))
    made = plotted(DATA.read_text())
    if words[1:] != ["--check"]:
        PLOTS.write_text(made)
    elif PLOTS.read_text() != made:
        print("docs/pictures/growth.svg isn't that of bench/growth.tsv: run bench/tables.py plots")
        return 1
    return 0


def machine():
    """The machine and the toolchain, in one line."""
    def first(pattern, path):
        found = re.search(pattern, pathlib.Path(path).read_text(), re.M) if os.path.exists(path) else None
        return found[1] if found else "-"

    def version(*words):
        try:
            return subprocess.run(words, capture_output=True, text=True).stdout.split("\n")[0] or "-"
        except OSError:
            return "-"

    model = first(r"^model name\s*: (.*)$", "/proc/cpuinfo")
    memory = first(r"^MemTotal:\s*(\d+)", "/proc/meminfo")
    gibibytes = memory if memory == "-" else f"{int(memory) / 1024 ** 2:.0f} GiB"
    return (f"{os.cpu_count()} processors ({model}), {gibibytes} of memory, Linux {platform.release()}, "
            f"{version('rt', 'version')}, {version('valgrind', '--version')}")


def main():
    words = sys.argv[1:]
    if words == ["--help"]:
        print(__doc__.strip())
        return 0
    if words in (["plots"], ["plots", "--check"], ["growth"]) or words[:1] == ["growth"] and len(words) == 4:
        return plots(words)
    if words[:1] == ["gate"] and len(words) == 2:
        print(machine())
        print()
        gate(pathlib.Path(words[1]).read_text())
        return 0
    if len(words) > 2 or (words and words[0] not in TABLES and words != ["build"]):
        print(__doc__.strip(), file=sys.stderr)
        return 2
    print(machine())
    try:
        if words == ["build"]:
            print()
            build()
            return 0
        for name in words[:1] or TABLES:
            print()
            if words[1:]:
                text = pathlib.Path(words[1]).read_text()
            else:
                text = subprocess.run([ROOT / "bench" / f"{name}.sh"], check=True,
                                      stdout=subprocess.PIPE, text=True).stdout
            TABLES[name](text)
    except subprocess.CalledProcessError as failed:
        print(failed, file=sys.stderr)
        return 1
    return 0


if __name__ == "__main__":
    sys.exit(main())
