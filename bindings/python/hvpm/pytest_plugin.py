"""A fixture for pytest: `hvpm_machine` gives each test its own machine.

    @pytest.mark.hvpm(vps=2)
    def test_root(hvpm_machine):
        assert hvpm_machine.get_partition_id((1, 1)).value == 1

The mark changes what the machine boots with. By default the root has every privilege that a call or a
register needs, 64 pages, of which 32 are its pool, and one processor.

The machine is recorded. The report of a test that fails has its last events in words. A file in pytest's
cache gets all events as a script by names, and the report says which commands look further into it."""
from __future__ import annotations

import re
import shlex
import shutil
from pathlib import Path
from typing import Any, Callable, Iterator, List, Tuple

import pytest

from ._program import find_program
from .machine import Machine
from .replies import Error

LAST = 6
DEFAULT = {"mask": 0xF700000064, "pages": 64, "pool": 32, "vps": 1}
FURTHER = """\
{hvpm} asm {file} >run.hv
{hvpm} explain run.hv                        # every event in words
{hvpm} trace run.hv                          # every event with its effect, in JSON
{hvpm} draw run.hv --sequence >run.svg       # who sent what to whom
{hvpm} draw run.hv | dot -Tsvg >state.svg    # the state at the end
"""

Hook = Callable[[Any], Iterator[None]]
_wrapper: Callable[[Hook], Hook] = pytest.hookimpl(hookwrapper=True)


def pytest_configure(config: Any) -> None:
    """Registers the mark."""
    line = "hvpm(mask, pages, pool, vps): what the fixture hvpm_machine boots with"
    config.addinivalue_line("markers", line)


@pytest.fixture
def hvpm_machine(request: pytest.FixtureRequest) -> Iterator[Machine]:
    """A machine, which is destroyed after the test."""
    mark = request.node.get_closest_marker("hvpm")
    with Machine.boot(**{**DEFAULT, **(mark.kwargs if mark else {})}, record=True) as machine:
        yield machine


def _explained(machine: Machine) -> str:
    try:
        return machine.explain(LAST)
    except (Error, ValueError) as error:
        return f"not explained: {error}\n"


def _command() -> str:
    """The program as a shell calls it."""
    try:
        program = find_program()
    except FileNotFoundError:
        return "hvpm"
    return "hvpm" if program == shutil.which("hvpm") else shlex.quote(program)


def _sections(item: Any, machine: Machine) -> List[Tuple[str, str]]:
    """What a report gets: the last events in words, and where the script is."""
    sections = [("hvpm: the last events", _explained(machine) or "none\n")]
    cache = getattr(item.config, "cache", None)
    if cache is None:  # pytest runs without its cache
        return [*sections, ("hvpm: the script", machine.script())]
    file = Path(cache.mkdir("hvpm"), re.sub(r"[^\w.-]+", "_", item.nodeid)[-200:] + ".hva")
    file.write_text(machine.script())
    further = FURTHER.format(hvpm=_command(), file=shlex.quote(str(file)))
    return [*sections, ("hvpm: look further", further)]


@_wrapper
def pytest_runtest_makereport(item: Any) -> Iterator[None]:
    """Adds the machine's events to the report of a test that fails."""
    outcome: Any = yield
    report, machine = outcome.get_result(), getattr(item, "funcargs", {}).get("hvpm_machine")
    if report.when == "call" and report.failed and machine is not None:
        report.sections.extend(_sections(item, machine))
