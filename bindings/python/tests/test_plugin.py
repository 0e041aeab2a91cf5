"""The fixture of pytest. Where pytest can't be imported, a stand-in calls the fixture as pytest does."""
import importlib.util
import os
import subprocess
import sys
import tempfile
import types
import unittest
from pathlib import Path
from unittest import mock

from .shared import ROOT

PROGRAM = os.environ.get("HVPM", "hvpm")
FOLDER = Path(__file__).resolve().parents[1]
TEST = """
import pytest

def test_default(hvpm_machine):
    assert hvpm_machine.get_partition_id((1, 0)).value == 1
    assert hvpm_machine.peek_partition(1).vps == 1

@pytest.mark.hvpm(vps=2)
def test_mark(hvpm_machine):
    assert (hvpm_machine.events, hvpm_machine.peek_partition(1).vps) == (0, 2)
"""


def load():
    """The plugin, with a stand-in for pytest whose decorator gives the function itself."""
    itself = lambda function: function
    stand_in = types.SimpleNamespace(fixture=itself, hookimpl=lambda **_: itself)
    with mock.patch.dict(sys.modules, {"pytest": stand_in}):
        path = FOLDER / "hvpm/pytest_plugin.py"
        spec = importlib.util.spec_from_file_location("hvpm.pytest_plugin_here", path)
        plugin = importlib.util.module_from_spec(spec)
        spec.loader.exec_module(plugin)
    return plugin


def machines(plugin, **mark):
    """The fixture for a test with this mark, or none."""
    found = types.SimpleNamespace(kwargs=mark) if mark else None
    node = types.SimpleNamespace(get_closest_marker={"hvpm": found}.get)
    return plugin.hvpm_machine(types.SimpleNamespace(node=node))


FAILING = """
def test_post(hvpm_machine):
    hvpm_machine.create_vp((1, 0), 5, 0)
    hvpm_machine.signal_event((1, 0), 3, 1)
    assert not "on purpose"
"""
SCRIPT = """\
boot 64 32 1 0xf700000064 4294967295
1.0 HvCreateVp fast PartitionId=5 VpIndex=0
1.0 HvSignalEvent fast ConnectionId=3 FlagNumber=1
"""


def pytest_run(test, *words):
    """What pytest prints of a test, and the files of its cache."""
    with tempfile.TemporaryDirectory() as folder:
        path = Path(folder) / "test_it.py"
        path.write_text(test)
        environment = {**os.environ, "PYTHONPATH": str(FOLDER), "HVPM": PROGRAM}
        words = ["-m", "pytest", "-q", "--strict-markers", "-p", "hvpm.pytest_plugin", *words, str(path)]
        how = {"cwd": folder, "env": environment, "capture_output": True, "text": True}
        told = subprocess.run([sys.executable, *words], **how)
        scripts = {file.name: file.read_text() for file in Path(folder).rglob("*.hva")}
        return told.stdout + told.stderr, scripts


class Plugin(unittest.TestCase):
    def test_a_test_gets_a_machine_of_its_own(self):
        plugin = load()
        first, second = machines(plugin), machines(plugin, vps=2, pool=20)
        machine, other = next(first), next(second)
        self.assertEqual(machine.get_partition_id(ROOT).value, 1)
        self.assertEqual((machine.events, other.events), (1, 0))
        self.assertEqual((machine.peek_partition(1).vps, machine.peek_partition(1).pooled), (1, 32))
        self.assertEqual((other.peek_partition(1).vps, other.peek_partition(1).pooled), (2, 20))
        self.assertEqual((list(first), list(second)), ([], []))
        with self.assertRaisesRegex(Exception, "destroyed"):
            machine.peek_partition(1)

    def report(self, folder, program, when="call", failed=True, take=False):
        """The sections of a test's report, by their titles. Without a folder pytest has no cache."""
        plugin = load()
        fixture = machines(plugin)
        machine = next(fixture)
        machine.create_vp(ROOT, 5, 0)
        if take:
            machine.take_record()
        machine.signal_event(ROOT, 3, 1)
        report = types.SimpleNamespace(when=when, failed=failed, sections=[])
        cache = types.SimpleNamespace(mkdir=lambda name: Path(folder, name)) if folder else None
        config = types.SimpleNamespace(cache=cache)
        item = types.SimpleNamespace(funcargs={"hvpm_machine": machine}, config=config, nodeid="a/t.py::x[1 2]")
        hook = plugin.pytest_runtest_makereport(item)
        next(hook)
        with self.assertRaises(StopIteration), mock.patch.dict(os.environ, {"HVPM": program}):
            hook.send(types.SimpleNamespace(get_result=lambda: report))
        return dict(report.sections)

    def test_a_test_that_fails_shows_its_events(self):
        with tempfile.TemporaryDirectory() as folder:
            Path(folder, "hvpm").mkdir()
            told = self.report(folder, PROGRAM)
            file = Path(folder, "hvpm/a_t.py_x_1_2_.hva")
            self.assertEqual(file.read_text(), SCRIPT)
        words, further = told["hvpm: the last events"], told["hvpm: look further"]
        self.assertEqual([line.split(" ")[:3] for line in words.splitlines()],
                         [["1", "1.0", "HvCreateVp"], ["2", "1.0", "HvSignalEvent"]])
        self.assertIn("denied HV_STATUS_INVALID_PARTITION_ID, P9", words)
        self.assertEqual(further.splitlines()[0], f"{PROGRAM} asm {file} >run.hv")
        self.assertIn(f"{PROGRAM} explain run.hv ", further)

    def test_the_last_six_events_are_shown(self):
        plugin = load()
        fixture = machines(plugin)
        machine = next(fixture)
        for vp in range(9):
            machine.create_vp(ROOT, 5, vp)
        item = types.SimpleNamespace(config=types.SimpleNamespace(cache=None), nodeid="t.py::x")
        words = dict(plugin._sections(item, machine))["hvpm: the last events"]
        self.assertEqual([int(line.split()[0]) for line in words.splitlines()], [4, 5, 6, 7, 8, 9])

    def test_a_file_is_named_for_the_end_of_a_long_name(self):
        with tempfile.TemporaryDirectory() as folder:
            cache = types.SimpleNamespace(mkdir=lambda _: folder)
            item = types.SimpleNamespace(config=types.SimpleNamespace(cache=cache), nodeid=300 * "a" + "::case_7")
            fixture = machines(load())
            load()._sections(item, next(fixture))
            (file,) = Path(folder).iterdir()
            self.assertTrue(file.name.endswith("a_case_7.hva") and len(file.name) == 204, file.name)

    def test_a_report_without_cache_or_program_has_the_script(self):
        told = self.report(None, "/nowhere")
        self.assertEqual(told["hvpm: the script"], SCRIPT)
        self.assertIn("denied HV_STATUS_INVALID_PARTITION_ID, P9", told["hvpm: the last events"])

    def test_a_record_that_was_taken_is_not_explained(self):
        told = self.report(None, PROGRAM, take=True)
        self.assertEqual(told["hvpm: the last events"], "not explained: the record's beginning was taken\n")

    def test_a_test_that_passes_has_no_more(self):
        self.assertEqual(self.report(None, PROGRAM, failed=False), {})
        self.assertEqual(self.report(None, PROGRAM, when="setup"), {})

    def test_a_test_without_a_machine_may_fail(self):
        report = types.SimpleNamespace(when="call", failed=True, sections=[])
        hook = load().pytest_runtest_makereport(types.SimpleNamespace(funcargs={}))
        next(hook)
        self.assertRaises(StopIteration, hook.send, types.SimpleNamespace(get_result=lambda: report))
        self.assertEqual(report.sections, [])

    def test_the_mark_is_registered(self):
        lines = []
        load().pytest_configure(types.SimpleNamespace(addinivalue_line=lambda *words: lines.append(words)))
        self.assertEqual([(name, line[:5]) for name, line in lines], [("markers", "hvpm(")])

    @unittest.skipUnless(importlib.util.find_spec("pytest"), "pytest isn't there")
    def test_pytest_has_the_fixture(self):
        told, scripts = pytest_run(TEST)
        self.assertIn("2 passed", told)
        self.assertEqual(scripts, {})

    @unittest.skipUnless(importlib.util.find_spec("pytest"), "pytest isn't there")
    def test_pytest_shows_why_a_test_failed(self):
        told, scripts = pytest_run(FAILING)
        self.assertEqual(scripts, {"test_it.py_test_post.hva": SCRIPT})
        at = told.index('assert not "on purpose"')
        self.assertIn("hvpm: the last events", told[at:])
        self.assertIn("denied HV_STATUS_INVALID_CONNECTION_ID, P16", told[at:])
        self.assertRegex(told[at:], r"\n\S+ asm \S+/hvpm/test_it.py_test_post.hva >run.hv\n\S+ explain run.hv ")
        told, scripts = pytest_run(FAILING, "-p", "no:cacheprovider")
        self.assertIn("1.0 HvSignalEvent fast ConnectionId=3 FlagNumber=1", told)
        self.assertEqual(scripts, {})
