"""Finds the program `hvpm`."""
from __future__ import annotations

import os
import shutil
import sys
from pathlib import Path

HERE = Path(__file__).resolve()


def find_program() -> str:
    """The program: what the variable HVPM names, or else the first of these that is there: the one beside
    Python, where pip puts that of a wheel, the one that is built in the module's checkout, and that of PATH."""
    named = os.environ.get("HVPM")
    if named:
        return named
    tree = HERE.parents[3] if len(HERE.parents) > 3 else HERE.parent
    crate = tree / "crates/hvpm/out"
    paths = [Path(sys.prefix, "bin/hvpm"), crate / "hvpm", crate / "unproved/hvpm"]
    if not (tree / "crates").exists():
        paths.append(tree / "bin/hvpm")  # in a release; that of a checkout may compile for minutes
    found = next((str(path) for path in paths if os.access(path, os.X_OK)), None) or shutil.which("hvpm")
    if found is None:
        raise FileNotFoundError("there is no program hvpm: put it on PATH, or name it by the variable HVPM")
    return found
