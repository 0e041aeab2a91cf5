#!/usr/bin/env python3
"""Tests of the suite's runner, and of what all cases keep. The last line is 'N passed, M failed'."""
import hashlib
import io
import re
import shutil
import subprocess
import sys
import tempfile
from contextlib import redirect_stderr, redirect_stdout
from importlib.machinery import SourceFileLoader
from importlib.util import module_from_spec, spec_from_loader
from pathlib import Path
from xml.etree import ElementTree

HOME = Path(__file__).resolve().parent.parent
PYTHON = [sys.executable, "-S"]  # without what a machine adds, which takes longer than the rest
ORACLE = [*PYTHON, str(HOME / "tests" / "oracle.py")]
GROUPS = ("interface", "tlfs", "script", "program", "threads")
TESTS = []


def test(function):
    TESTS.append(function)
    return function


def load(name):
    """A program of this folder, as a module."""
    sys.dont_write_bytecode = True
    loader = SourceFileLoader(name, str(HOME / name))
    module = module_from_spec(spec_from_loader(name, loader))
    loader.exec_module(module)
    return module


RUNNER = load("run")


def run(*words, home=HOME):
    """Runs the runner here, on the cases of a folder: its status, and all that it tells."""
    told = io.StringIO()
    RUNNER.HOME, sys.argv = home, ["run", *words]
    with redirect_stdout(told), redirect_stderr(told):
        try:
            status = RUNNER.main()
        except SystemExit as end:
            status = end.code
        finally:
            RUNNER.HOME = HOME
    return status, told.getvalue()


def run_by_itself(*words):
    ran = subprocess.run(
        [*PYTHON, HOME / "run", *words], stdout=subprocess.PIPE, stderr=subprocess.STDOUT, text=True
    )
    return ran.returncode, ran.stdout


def oracle(fault, *options, case="interface/calls/46_get_partition_id"):
    return run(*options, "--case", case, *ORACLE, fault)


def must(result, status, *parts):
    """Whether the runner ended with the status, and told each of the parts."""
    assert result[0] == status, f"status {result[0]}, and not {status}:\n{result[1]}"
    for part in parts:
        assert part in result[1], f"not told: {part}\nbut:\n{result[1]}"


def must_count(result, passed, failed, *parts):
    """Whether the runner's last line has these counts, its status is that of them,
    and it told each of the parts."""
    must(result, 0 if failed == 0 else 1, *parts)
    last = result[1].splitlines()[-1]
    assert last == f"{passed} passed, {failed} failed", f"not {passed} passed, {failed} failed:\n{result[1]}"


# ---- What the runner finds ----


@test
def a_right_program_passes():
    must_count(run("-j", "4", "--group", "interface/flags", *ORACLE, "none"), 5, 0)
    must_count(run("-j", "2", "--batch", "--group", "interface/boot", *ORACLE, "none"), 33, 0)


@test
def a_wrong_byte_fails_with_its_line():
    told = (
        "\n    1.0 call 0x46 0 0x1f000 -\n",
        "wanted: 1 1.0 call",
        "told:   1 1.0 call",
        "the output: 0x1 wanted, 0xf1 told",
    )
    name = "interface/calls/46_get_partition_id"
    must_count(oracle("byte"), 0, 1, f"FAILED {name}\n", *told, f"\nfailed: {name}\n")
    must_count(oracle("byte", "--batch"), 0, 1, *told)


def rows(told):
    """The rows of the table of causes."""
    lines = told[1].splitlines()
    at = next((at for at, line in enumerate(lines) if line.endswith(": the cause, and the first of them")), len(lines))
    return [line for line in lines[at + 1 : -1] if re.match(" *[0-9]+ ", line)]


@test
def causes_are_counted():
    told = run("--batch", "--group", "interface/flags", *ORACLE, "byte")
    must(told, 1, "cases that begin to fail alike: the cause, and the first of them\n")
    found = [re.fullmatch(r" *(\d+) (\w.*) -> (.*), first (\S+)", row).groups() for row in rows(told)]
    counts = [int(row[0]) for row in found]
    failed = int(re.search(r" (\d+) failed\n$", told[1])[1])
    assert sum(counts) == failed > 1 and counts == sorted(counts, reverse=True), told[1]
    assert all(row[3].startswith("interface/flags/") for row in found), told[1]
    assert rows(run("--group", "interface/flags", *ORACLE, "none")) == []
    for fault, row in (
        ("byte", "HvGetPartitionId ok -> ok, another output"),
        ("nothing", "HvGetPartitionId ok -> nothing"),
        ("exit", "status 0 -> 7"),
        ("crash", "the program -> it was ended by signal 11 (SIGSEGV)"),
        ("noise", "standard error: none -> noise"),
        ("end", "the end -> nothing"),
        ("again", "the end -> one more event: HvGetPartitionId"),
        ("event", "HvGetPartitionId ok -> the end"),
        ("rules", "HvGetPartitionId denied P5 -> denied P0"),
    ):
        told = oracle(fault)
        wanted = f"   1 {row}, first interface/calls/46_get_partition_id"
        assert rows(told) == [wanted], f"{fault}: {rows(told)}, and not {wanted}"
    told = oracle("byte", "--tap")
    must(told, 1, "#    1 HvGetPartitionId ok -> ok, another output, first ")
    for fault, row in (("cell", "table: another parent"), ("table", "table: a line is missing")):
        assert rows(oracle(fault, case="interface/boot/mask"))[0].startswith(f"   1 {row}, first "), fault


@test
def causes_are_those_of_lines():
    slot = "slot 2 ok 0100000005{:02x}00000500000000000000" + "00" * 240
    for good, heard, cause in (
        ("1 1.0 call 000000000000005c ok 0 -", "1 1.0 call 000000000000005c denied 18 P22", "HvPostMessage ok -> denied P22"),
        ("1 1.0 call 0000000000010041 denied 6 P8", "1 1.0 call 0000000000010041 denied 7 P8",
         "HvInitializePartition denied ACCESS_DENIED -> denied INVALID_PARTITION_STATE"),
        ("1 1.0 call 0000000000010041 denied 6", "1 1.0 call 0000000000010041 denied 99",
         "HvInitializePartition denied ACCESS_DENIED -> denied 0x99"),
        ("1 1.0 " + slot.format(1), "1 1.0 " + slot.format(0), "slot ok -> ok, another flags (bit 0 is MessagePending)"),
        ("1 1.0 rdmsr 40000099 ok 0000010000000000", "1 1.0 rdmsr 40000099 fault P26", "rdmsr of a SINT ok -> fault P26"),
        ("1 1.0 wrmsr 40000083 0000000000000001 ok -", "1 1.0 wrmsr 40000083 0000000000000001 fault P27",
         "wrmsr SIMP ok -> fault P27"),
        ("1 1.0 rdmsr 40000000 fault P25", "1 1.0 rdmsr 40000000 ok 00", "rdmsr of an unknown MSR fault P25 -> ok"),
        ("1 1.0 interrupt ok 32", "1 1.0 interrupt ok 31", "interrupt ok -> ok, another vector"),
        ("1 1.0 flags 3 ok 01", "1 1.0 flags 3 ok 02", "flags ok -> ok, another flag"),
        ("1 1.0 flags 3 ok 01", "1 1.0 flags 3 ok 0100", "flags ok -> ok, an output of another length"),
        ("1 1.0 call 0000000200000048 more 0000000100000000 -", "1 1.0 call 0000000200000048 ok 0000000200000000 -",
         "HvDepositMemory more -> ok"),
        ("1 1.0 call 0000000200000048 more 0000000100000000 -", "1 1.0 call 0000000200000048 more 0000000000000000 -",
         "HvDepositMemory more -> more, another result value"),
        ("1 1.0 interrupt ok 00", "1 1.0 flags 3 ok 00", "interrupt -> another event: flags"),
        ("1 1.0 interrupt ok 00", "1 1.1 interrupt ok 00",
         "interrupt -> another event: one with other registers or of another VP"),
        ("events 3", "", "the end -> nothing"),
    ):
        found = RUNNER.report.cause(good, heard)
        assert found == cause, f"{found}, and not {cause}"


@test
def a_slot_that_differs_is_told_by_field():
    names = "message type", "payload size", "flags (bit 0 is MessagePending)", "port id", "payload byte 0"
    good = "1 1.0 slot 2 ok " + "0100000005010000" + "0500000000000000" + "61" * 5 + "00" * 235
    for name, at in zip(names, (0, 4, 5, 8, 16)):
        begin = len("1 1.0 slot 2 ok ") + 2 * at
        heard = good[:begin] + f"{int(good[begin:begin + 2], 16) ^ 3:02x}" + good[begin + 2 :]
        (line,) = RUNNER.report.details(good, heard)
        assert line.startswith(f"{name}: 0x"), line
    flags = "1 1.0 flags 3 ok {}00"
    assert RUNNER.report.details(flags.format("03"), flags.format("05")) == [
        "flag 1: 0x1 wanted, 0x0 told", "flag 2: 0x0 wanted, 0x1 told"]


@test
def a_case_that_fails_in_a_batch_runs_alone():
    kept = "it passes alone: your driver keeps state from one script to the next"
    told = run("--batch", "--group", "interface/flags", *ORACLE, "kept")
    must(told, 1, f"\n    {kept}\n", " of them pass alone: your driver keeps state from one script to the next\n")
    told = run("--batch", "--group", "interface/flags", *ORACLE, "byte")
    must(told, 1, "\n    it fails alone, too\n")
    assert kept not in told[1], told[1]
    assert "alone" not in run("--group", "interface/flags", *ORACLE, "byte")[1]


@test
def an_event_is_told_once():
    told = oracle("byte", case="interface/calls/40_create_partition")
    must_count(told, 0, 2, " --table\n    it fails as it does without --table\n")
    assert told[1].count("    wanted: ") == 1, told[1]
    assert len(rows(told)) == 1 and rows(told)[0].startswith("   1 "), rows(told)


@test
def the_program_explains_the_first_wrong_event():
    with tempfile.TemporaryDirectory() as room:
        program = Path(room, "hvpm")
        program.write_text("#!/bin/sh\n[ $1 = explain ] && echo '1 1.0 HvGetPartitionId: ok, partition 1'\n")
        program.chmod(0o755)
        told = oracle("byte", "--explain", str(program))
        must(told, 1, "\n    explained: 1 1.0 HvGetPartitionId: ok, partition 1\n")
        must(oracle("feed", "--explain", str(program)), 1)
        program.write_text("#!/bin/sh\necho 'hvpm: memory' >&2; exit 3\n")
        must(oracle("byte", "--explain", str(program)), 1, "\n    not explained: hvpm: memory\n")


@test
def bugs_are_named_by_the_first_three_rows():
    """Bugs that are planted into the model of this repository, where it is there."""
    planted = load("tests/planted.py")
    if not planted.MODEL.is_dir():
        return
    for bug, (_, _, row, folder) in planted.BUGS.items():
        words = "--no-tables", "--batch", "-j", "2", "--group", f"interface/{folder}"
        told = run(*words, *PYTHON, str(HOME / "tests" / "planted.py"), bug)
        assert any(row in each for each in rows(told)[:3]), f"{bug}: no row {row} in {rows(told)[:3]}"


@test
def one_case_that_fails_is_enough():
    told = "interface/flags: 4 passed, 1 failed\n", "\nfailed: interface/flags/of_processors\n"
    must_count(run("-j", "4", "--group", "interface/flags", *ORACLE, "once"), 4, 1, *told)
    must_count(run("--batch", "--group", "interface/flags", *ORACLE, "once"), 4, 1, *told)


@test
def each_byte_counts():
    names = ("interface/flags/worked", False), ("program/history/worked_rep", True), ("threads/worked", True)
    for name, table in names:
        path = HOME / f"{name}.hv"
        case = RUNNER.Case(path, RUNNER.read_ends(path.parent))
        text = case.wanted(table).replace("\nphase\n", "\n")
        assert not RUNNER.compare_output(case, table, text, True), name
        for at, char in enumerate(text):
            for other in {chr(ord(char) ^ 1), char.swapcase()} - {char}:
                wrong = text[:at] + other + text[at + 1 :]
                assert RUNNER.compare_output(case, table, wrong, True), f"{name}: byte {at} may be {other!r}"


@test
def the_runner_by_itself_ends_with_its_status():
    words = "--case", "interface/calls/46_get_partition_id", *ORACLE
    must_count(run_by_itself(*words, "none"), 1, 0)
    must_count(run_by_itself(*words, "byte"), 0, 1)


@test
def a_crash_behind_the_last_line_fails():
    crash = "it was ended by signal 11 (SIGSEGV)"
    must_count(oracle("crash"), 0, 1, crash)
    told = run("--batch", "--group", "interface/flags", *ORACLE, "crash")
    must_count(told, 0, 5, f"{crash} before its line `end`")
    must_count(oracle("exit"), 0, 1, "it ended with status 7, and not with status 0")
    must_count(oracle("exit", "--batch"), 0, 1, "it ended with status 7 before its line `end`")
    must_count(oracle("ending", "--batch"), 1, 1, "it ended with status 7 behind the last script")


@test
def a_wrong_status_or_line_on_standard_error_fails():
    fault = "script/faults/worked_bad_hex"
    must_count(oracle("status"), 0, 1, "it ended with status 3, and not with status 0")
    must_count(oracle("status", "--batch"), 0, 1, "it ended with status 3, and not with status 0")
    must_count(oracle("zero", case=fault), 0, 1, "it ended with status 0, and not with status 1")
    must_count(oracle("noise"), 0, 1, "standard error isn't empty: oracle: noise")
    told = "standard error wanted: NAME: line 2: bad hex", "told:   oracle: noise"
    must_count(oracle("noise", case=fault), 0, 1, *told)


@test
def too_much_fails():
    must_count(oracle("extra"), 0, 1, "wanted: nothing more", "told:   one line more")
    must_count(oracle("extra", "--batch"), 0, 1, "wanted: nothing more")
    must_count(oracle("again"), 0, 1, "wanted: events ")
    must_count(oracle("tail"), 0, 1, "wanted: nothing more")
    must_count(oracle("endless"), 0, 1, "it was stopped after 16777216 bytes of output")


@test
def too_little_fails():
    must_count(oracle("feed"), 0, 1, "the line feed at its end is missing")
    must_count(oracle("end"), 0, 1, "wanted: events ", "told:   nothing more")
    must_count(oracle("event"), 0, 1, "told:   events ")
    must_count(oracle("nothing"), 0, 1, "wanted: 1 1.0 call", "told:   nothing more")
    must_count(oracle("nothing", "--batch"), 0, 1, "told:   nothing more")
    for batch in ([], ["--batch"]):
        must_count(oracle("asleep", "--timeout", "0.4", *batch), 0, 1, " seconds by the clock, 0.")
        must_count(oracle("busy", "--timeout", "0.4", *batch), 0, 1, " seconds of processor time")


@test
def a_runner_that_lets_all_pass_is_found():
    main = RUNNER.main
    blind = {
        "differences": lambda *_: [],
        "main": lambda: main() and 0,
        "show_count": lambda results, tap, before="": print(f"{before}{len(results)} passed, 0 failed"),
    }
    for name, wrong in blind.items():
        right = getattr(RUNNER, name)
        setattr(RUNNER, name, wrong)
        try:
            told = oracle("byte")
        finally:
            setattr(RUNNER, name, right)
        must_fail(must_count, told, 0, 1)


def must_fail(check, *words):
    try:
        check(*words)
    except AssertionError:
        return
    raise AssertionError(f"{check.__name__} lets this pass: {words}")


@test
def a_command_that_cannot_run_is_told_once():
    must(run_by_itself("./nope"), 2, "conformance/run: ./nope can't be run: No such file or directory")
    must(run(str(HOME / "README.md")), 2, "can't be run: Permission denied")
    must(run("--batch", "./nope"), 2, "./nope can't be run")
    must(run(*ORACLE, "usage"), 2, "the command tells no audit of a script that only boots", "usage: oracle")
    must(run("--batch", *ORACLE, "usage"), 2, "the command tells no audit")


@test
def the_two_runs_of_a_made_script_have_a_file_each():
    with tempfile.TemporaryDirectory() as room:
        log = Path(room) / "scripts"
        note = 'for last; do :; done; echo "$last" >>"$0"; echo events 0'
        run("-j", "2", "--case", "interface/ports/many", "sh", "-c", note, str(log))
        scripts = [line for line in log.read_text().splitlines() if line.endswith("/many.hv")]
        assert len(scripts) == 2 and len(set(scripts)) == 2, f"the scripts were {scripts}"


@test
def names_of_rules_are_compared_where_they_are_wanted():
    for case in ("interface/calls/46_get_partition_id", "interface/accesses/rdmsr"):
        must_count(oracle("rules", case=case), 0, 1)
        must_count(oracle("rules", "--no-rules", case=case), 1, 0)
        must_count(oracle("byte", "--no-rules", case=case), 0, 1)
    must_count(oracle("rules", case="tlfs/links"), 1, 0)
    must_count(oracle("rules", "--rules", case="tlfs/links"), 0, 1)


@test
def tables_are_compared_where_they_are_wanted():
    name = "interface/boot/mask"
    for fault, told in (("table", "told:   nothing more"), ("cell", "told:   partition 1 parent 0 ")):
        must_count(oracle(fault, case=name), 1, 1, f"FAILED {name} --table\n", told)
        must_count(oracle(fault, "--batch", case=name), 1, 1, f"FAILED {name} --table\n", told)
        must_count(oracle(fault, "--no-tables", case=name), 1, 0)


@test
def threads_may_mix_but_not_across_phases():
    must_count(oracle("none", "--no-tables", case="threads/deposits"), 1, 0)
    must_count(oracle("late", "--no-tables", case="threads/sixty_four"), 1, 0)
    must_count(oracle("late", "--no-tables", case="threads/deposits"), 0, 1)
    must_count(oracle("phase", "--no-tables", case="threads/deposits"), 0, 1, "told:   phase")


# ---- The runner's words ----


@test
def one_case_by_the_path_of_its_file():
    file = str(HOME / "interface" / "boot" / "mask.hv")
    must_count(run("--case", file, *ORACLE, "none"), 2, 0)
    must_count(run("--case", file, "--no-tables", *ORACLE, "none"), 1, 0)
    must(run("--case", "interface/boot/nope", *ORACLE, "none"), 2, "no case interface/boot/nope")


@test
def cases_are_listed_and_left_out():
    paths = (path for group in GROUPS for path in (HOME / group).rglob("*"))
    scripts = [path for path in paths if path.suffix in (".hv", ".make")]
    status, told = run("--list")
    assert status == 0 and len(told.splitlines()) == len(set(told.splitlines())) == len(scripts), told
    status, told = run("--list", "--group", "interface", "--without", "interface/no_guest")
    assert "interface/rules/p06_links\n" in told and "no_guest" not in told and "tlfs" not in told, told
    told = "no group interface/nope; there are\n    interface\n    interface/accesses"
    must(run("--group", "interface/nope", "x"), 2, told)


@test
def results_are_told_to_machines():
    told = run("--tap", "--batch", "--group", "interface/flags", *ORACLE, "none")
    must(told, 0, "TAP version 13\n", "\nok 5 - interface/flags/", "\n1..5\n")
    told = "\nnot ok 1 - interface/calls/46_get_partition_id\n# event 1", "\n# 0 passed, 1 failed\n"
    must(oracle("byte", "--tap"), 1, *told)
    with tempfile.TemporaryDirectory() as room:
        file = Path(room, "results.xml")
        must(run("--junit", str(file), "--batch", "--group", "interface/flags", *ORACLE, "byte"), 1)
        suite = ElementTree.parse(file).getroot().find("testsuite")
        assert len(suite) == int(suite.get("tests")) == 5, suite.attrib
        failures = suite.findall("testcase/failure")
        assert len(failures) == int(suite.get("failures")) > 0, suite.attrib
        assert all(" -> " in each.get("message") and "wanted: " in each.text for each in failures), failures


@test
def help_and_version_are_no_mistakes():
    must(run("--help"), 0, "conformance/run [OPTION].. COMMAND [WORD..]")
    must(run_by_itself("--version"), 0, "suite ")
    for words in ([], ["--nope", "x"], ["-j", "0", "x"], ["--timeout", "soon", "x"]):
        must(run(*words), 2, "usage: conformance/run")


@test
def cases_are_expanded_to_plain_scripts():
    with tempfile.TemporaryDirectory() as room:
        must(run("--group", "interface/messages", "--expand", room), 0)
        folder = Path(room, "interface", "messages")
        assert len(list(folder.glob("*.hv"))) == len(list(folder.glob("*.audit"))) == 25
        assert not list(folder.glob("*.make"))
        assert (folder / "many.hv").read_text().startswith("boot 160 60 2 ")


@test
def files_that_belong_to_no_case_fail():
    with tempfile.TemporaryDirectory() as room:
        home = Path(room)
        shutil.copytree(HOME / "interface" / "boot", home / "interface" / "boot")
        shutil.copyfile(HOME / "VERSION", home / "VERSION")
        boot = home / "interface" / "boot"
        (boot / "mask.audit").unlink()
        (boot / "mask.table").rename(boot / "task.table")
        with open(boot / "ends", "a") as ends:
            ends.write("nothing\t1\tboot refused: pool\n")
        must(run("--case", "interface/boot/mask_all", *ORACLE, "none", home=home), 0)
        told = (
            "boot/mask has no audit",
            "boot/task.table has no script",
            "boot/ends names nothing, which has no script",
        )
        must(run("--batch", "--group", "interface/boot", *ORACLE, "none", home=home), 1, *told)


# ---- What stands beside the runner ----


@test
def the_example_of_a_driver_scores_what_the_readme_says():
    line = r"^conformance/run (.*) conformance/driver_example\.py +# (\d+) passed, (\d+) failed$"
    words, passed, failed = re.search(line, (HOME / "README.md").read_text(), re.MULTILINE).groups()
    driver = [*PYTHON, str(HOME / "driver_example.py")]
    must_count(run("-j", "4", *words.split(), *driver), int(passed), int(failed))
    must_count(run("--batch", *words.split(), *driver), int(passed), int(failed))


@test
def the_page_on_coverage_is_that_of_the_cases():
    assert load("coverage").main(["--check"]) == 0


@test
def the_readme_counts_the_scripts():
    rows = dict(re.findall(r"^\| `(\w+)/` \| (\d+) \|", (HOME / "README.md").read_text(), re.MULTILINE))
    assert rows.keys() == set(GROUPS), rows
    for group, count in rows.items():
        assert len(run("--list", "--group", group)[1].splitlines()) == int(count), group


@test
def a_change_of_a_case_is_a_new_version():
    number, known = (HOME / "VERSION").read_text().split()
    sum_of_all = hashlib.sha256()
    for path in sorted(path for group in GROUPS for path in (HOME / group).rglob("*") if path.is_file()):
        sum_of_all.update(path.relative_to(HOME).as_posix().encode() + b"\0" + path.read_bytes())
    now = sum_of_all.hexdigest()[:16]
    assert known == now, f"cases changed: raise the {number} in conformance/VERSION, and put {now} behind it"


SIZES = {0x40: 8, 0x41: 8, 0x42: 8, 0x43: 8, 0x44: 16, 0x45: 24, 0x47: 16, 0x48: 8, 0x49: 8, 0x4A: 8}
SIZES |= {0x4E: 16, 0x4F: 16, 0x50: 16, 0x51: 16, 0x58: 16, 0x5B: 16, 0x5C: 256, 0x5D: 8, 0x95: 48, 0x96: 48}
OUTPUTS = {0x40: 8, 0x44: 8, 0x46: 8, 0x47: 8, 0x4A: 16}
ELEMENTS = {0x48: (8, 0), 0x49: (0, 8), 0x50: (4, 16), 0x51: (32, 0)}


def pages_of(line):
    """The pages of a call's lists, of those that P6 takes; none of a fast call."""
    rcx, rdx, r8 = (int(word, 0) for word in line.split()[2:5])
    code, count = rcx & 0xFFFF, rcx >> 32 & 0xFFF
    ins, outs = ELEMENTS.get(code, (0, 0))
    lists = [(rdx, SIZES.get(code, 0) + ins * count), (r8, OUTPUTS.get(code, 0) + outs * count)]
    return [
        at // 4096
        for at, size in lists
        if size and at % 8 == 0 and at % 4096 + size <= 4096 and not rcx >> 16 & 1
    ]


def deposited(line):
    """The pages that a call deposits."""
    words = line.split()
    data = bytes.fromhex(words[5].replace("-", "")) if int(words[2], 0) & 0xFFFF == 0x48 else b""
    return {int.from_bytes(data[at : at + 8], "little") for at in range(8, len(data), 8)}


@test
def lists_lie_apart_in_pages_of_boot_that_stay():
    with tempfile.TemporaryDirectory() as room:
        kept = "--without", "interface/addresses", "--without", "interface/boot"
        must(run("--group", "interface", "--group", "tlfs", *kept, "--expand", room), 0)
        for path in sorted(Path(room).rglob("*.hv")):
            text = path.read_text()
            end = int(re.search(r"^boot (\d+)", text, re.MULTILINE)[1])
            calls = re.findall(r"^\d\S* call .*$", text, re.MULTILINE)
            gone = set().union(*map(deposited, calls))
            for line in calls:
                pages = pages_of(line)
                assert all(0 < page < end for page in pages) and not gone & set(pages), f"{path}: {line}"
                assert len(set(pages)) == len(pages), f"{path}: {line}"


@test
def a_test_that_fails_is_told():
    def fails():
        raise AssertionError("on purpose")

    told = io.StringIO()
    with redirect_stdout(told):
        status = main([fails, lambda: None])
    try:
        must_count((status, told.getvalue()), 1, 1, "FAILED fails: AssertionError: on purpose\n")
    except AssertionError as error:
        sys.exit(f"FAILED a_test_that_fails_is_told: {error}")  # where nobody hears of a failed test


def main(tests):
    failed = 0
    for each in tests:
        try:
            each()
        except Exception as error:
            failed += 1
            print(f"FAILED {each.__name__}: {type(error).__name__}: {error}")
    print(f"{len(tests) - failed} passed, {failed} failed")
    return 0 if failed == 0 else 1


if __name__ == "__main__":
    sys.exit(main(TESTS))
