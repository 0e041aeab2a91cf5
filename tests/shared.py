"""What test scripts share: their words, the cases that they count, and the last line that each prints.

The cases are counted here, and not by unittest, which counts functions and ends each at its first difference: a
table's rows and a long story's steps are cases of their own, and go on.
"""
import argparse
import os
import subprocess
import sys
import traceback
from concurrent.futures import ThreadPoolExecutor
from pathlib import Path

import limit

ROOT = Path(__file__).resolve().parents[1]
SHOWN = 400  # characters of what was wanted, and of what came

passed, failed, left_out = [], [], []


def check(what, wanted, came):
    """A case that passes where what came is what was wanted. Long texts are shown from where they differ."""
    good, heard = repr(wanted), repr(came)
    at = max(len(os.path.commonprefix([good, heard])) - SHOWN // 2, 0)
    good, heard = good[at : at + SHOWN], heard[at : at + SHOWN]
    holds(what, wanted == came, f"{f'from letter {at}: ' * (at > 0)}{good} wanted, {heard} came")


def holds(what, is_so, why=""):
    """A case that passes where it is so. Where it isn't, a line says where the script asks, and why."""
    if is_so:
        passed.append(what)
        return
    failed.append(what)
    frames = [(Path(frame.filename).resolve(), frame.lineno) for frame in traceback.extract_stack()]
    asks = [f"{file.relative_to(ROOT)}:{line}: " for file, line in frames if ROOT in file.parents]
    asks = [place for place in asks if not place.startswith("tests/shared.py:")]
    sys.stdout.write(f"FAILED {asks[-1] if asks else ''}{what}{why and ': '}{why}\n")


def leave_out(why):
    """A case that can't be asked here."""
    left_out.append(why)
    print(f"left out: {why}")


class Wrong(Exception):
    """Ends a case at its first difference, and says which one that is."""


def expect(what, found, wanted):
    """Ends a case of `in_parallel` where what is found isn't what is wanted."""
    if found != wanted:
        raise Wrong(f"{what}: wanted {wanted!r}, found {found!r}")


def in_parallel(test, cases, name=None):
    """Runs a test on each of the cases, some at a time. One that ends by an exception has failed. Where `name` gives
    the names of cases, one that ends without has passed; else the test counts by itself."""
    def ask(case):
        what = name(case) if name else f"{case!r:.{SHOWN}}"
        try:
            test(case)
        except Wrong as why:
            holds(what, False, why)
        except Exception:
            holds(what, False, traceback.format_exc())
        else:
            if name:
                passed.append(what)

    with ThreadPoolExecutor(len(os.sched_getaffinity(0))) as pool:
        list(pool.map(ask, cases))


def expand_suite(folder):
    """Writes the suite's scripts to a folder, also those that programs make, and gives their paths."""
    subprocess.run([ROOT / "conformance/run", "--expand", folder], check=True, stdout=subprocess.DEVNULL)
    return sorted(Path(folder).rglob("*.hv"))


def run(words, seconds=60, text="", **how):
    """The status of a command, and what it writes to standard output and standard error. Each byte is a letter,
    and the input is such a text, too. The command is limited in processor time."""
    how = {"stdout": subprocess.PIPE, "stderr": subprocess.PIPE, **how}
    try:
        ended = limit.run(words, seconds, input=text.encode("latin-1"), **how)
    except limit.Stopped as why:
        return str(why), "", ""
    return ended.returncode, *((told or b"").decode("latin-1") for told in (ended.stdout, ended.stderr))


def compile_preload(source, room):
    """Compiles a C file of .ci to a library for LD_PRELOAD, and gives its path."""
    library = Path(room, f"{source}.so")
    words = "-std=c11 -Wall -Wextra -Werror -O2 -fPIC -shared".split()
    words = [os.environ.get("CC", "cc"), *words, ROOT / ".ci" / source, "-o", library, "-ldl"]
    subprocess.run(words, check=True)
    return library


def program(word):
    """The path of a program that can be run, wherever it is run from."""
    if not os.access(word, os.X_OK) or os.path.isdir(word):
        raise argparse.ArgumentTypeError(f"{word} is no program")
    return os.path.realpath(word)


def main(test, about, *words):
    """Runs the test of a script, whose words are --FLAGS, a PROGRAM, and a [PROGRAM] that may be left out. The last
    line is 'N passed, M failed', with 'K left out' where some are. The status is 1 where one failed or none was
    counted, and 2 where the words are wrong."""
    parser = argparse.ArgumentParser(description=about, formatter_class=argparse.RawDescriptionHelpFormatter)
    for word in words:
        if word.startswith("--"):
            parser.add_argument(word, action="store_true")
        else:
            parser.add_argument(word.strip("[]"), type=program, nargs="?" if word.startswith("[") else None)
    test(*vars(parser.parse_args()).values())
    print(f"{len(passed)} passed, {len(failed)} failed" + (f", {len(left_out)} left out" if left_out else ""))
    sys.exit(1 if failed or not (passed or left_out) else 0)
