"""What tests read from docs/POLICY.md: the rows of its tables, the fields of calls, and the names of registers."""
import re

from shared import ROOT

PAGE = (ROOT / "docs/POLICY.md").read_text()


def rows(first, columns):
    """The cells of the rows that begin so, in a table of so many columns."""
    found = []
    for line in PAGE.splitlines():
        cells = [cell.strip() for cell in line.strip().strip("|").split("|")]
        if line.startswith("|") and len(cells) == columns and re.fullmatch(first, cells[0]):
            found.append(cells)
    return found


def fields():
    """The fields of each call's input block behind one another, with their offsets and sizes."""
    found = {}
    for row in rows(r"Hv\w+(, from \d+)?", 6):
        header = row[2].partition("element")[0]
        named = re.findall(r"\b(\d+):(\d+) ([A-Z]\w+|payload)", header)
        found.setdefault(row[0].partition(",")[0], []).extend((name, int(at), int(size)) for at, size, name in named)
    return found


def registers():
    """The name of each register and its MSR, or None, by its number in calls."""
    found = {}
    for row in rows(r"0x[0-9A-F]{8}( to .*|, .*| \+ s)?", 6):
        names = []
        for name in row[2].replace("SINT s, 0 to 15", "SINT0 to SINT15").split(", "):
            span = re.fullmatch(r"([A-Z]+)(\d+) to \1(\d+)", name)
            names += [f"{span[1]}{k}" for k in range(int(span[2]), int(span[3]) + 1)] if span else [name]
        for place, name in enumerate(names):
            msr = None if row[1] == "none" else int(row[1][:10], 16) + place
            found[int(row[0][:10], 16) + place] = name, msr
    return found
