"""Lines by names, and the table of the calls' fields beside that of docs/POLICY.md."""
import os
import re
import subprocess
import unittest
from pathlib import Path

from hvpm import forms

PROGRAM = os.environ.get("HVPM", "hvpm")
TOP = Path(__file__).resolve().parents[3]
POLICY = TOP / "docs/POLICY.md"


def rows(text):
    """The rows of "Blocks and effects": a call, its input's length and its fields."""
    part = text[text.index("\n## Blocks and effects"):]
    lines = [line for line in part.splitlines() if line.startswith("| Hv")]
    return [[cell.strip() for cell in line.split("|")[1:4]] for line in lines]


def named_scripts():
    """The scripts of the suite and of the examples, by names."""
    for path in sorted([*TOP.glob("conformance/**/*.hv"), *TOP.glob("examples/*.hv")]):
        if "faults" not in path.parts:
            yield path, path.read_bytes().decode("latin-1")


class Forms(unittest.TestCase):
    def test_names_are_those_of_the_tlfs(self):
        self.assertEqual(len(forms.FORMS), 21)
        self.assertEqual((forms.call_name(0x50), forms.CODES["HvCreateVp"]), ("HvGetVpRegisters", 0x4E))

    def test_a_frame_has_the_fields_at_their_offsets(self):
        link = {"PartitionId": 2, "ConnectionId": 0x01020304}
        block = bytes.fromhex("02000000000000000403020100000000")
        self.assertEqual(forms.frame("HvDisconnectPort", (), None, link), (0x5B, block))
        rcx, block = forms.frame("HvDepositMemory", (7, 8), None, {"PartitionId": 2})
        self.assertEqual((rcx, len(block), block[8], block[16]), (0x48 | 2 << 32, 24, 7, 8))
        self.assertEqual(forms.frame("HvWithdrawMemory", (), 3, {"PartitionId": 2})[0], 0x49 | 3 << 32)
        self.assertEqual(forms.frame("HvDepositMemory", (7,), 0, {"PartitionId": 2})[0], 0x48)

    def test_lines_that_names_do_not_say_stay(self):
        for line in (
            "boot 32 12 1 0 9\n",
            "# 1.0 call 0x46 0 0 -\n",
            "phase",
            "1.0 call 0x47 0 0 0100000000000000000000000000000001\n",  # a byte that no field covers
            "1.0 call 0x10046 0 0 -",  # no fast form
            "1.0 call 0x1005d 1 1 -",  # a byte in R8
            "1.0 call 0x99 0 0 -",
            "1.0 call 0 0 0 -",
            f"1.0 call 0x100000051 0 0 {'01' * 12}00000000{'02' * 4}01",  # a byte behind a register's name
            f"1.0 call 0x100000051 0 0 {'01' * 12}00000000{'02' * 4}{'00' * 20}01",  # bit 64 of a value
            "1.0 rdmsr 0x40000000",
            "1.0 slot 2\n",
        ):
            self.assertEqual(forms.by_names(line), line)
        self.assertEqual(forms.by_names("1.0 call 0x46 0 8 -\n"), "1.0 HvGetPartitionId output=0x8\n")
        self.assertEqual(forms.by_names("1.0 rdmsr 0x40000084"), "1.0 read EOM")
        line = "1.0 call 0x1000300000049 0x1000 0x2000 ffffffffffffffff"
        named = "1.0 HvWithdrawMemory PartitionId=self reps=3 start=1 input=0x1000 output=0x2000"
        self.assertEqual(forms.by_names(line), named)
        line, named = "1.0 call 0x1ff020000000049 0 0 01", "1.0 HvWithdrawMemory PartitionId=1 reps=512 start=511"
        self.assertEqual(forms.by_names(line), named)
        line, named = "1.0 call 0x100000051 0 0 ", "1.0 HvSetVpRegisters PartitionId=1 VpIndex=0 RAX=0x8000000000000000"
        line += f"01{'00' * 15}000002{'00' * 13}{'00' * 7}80"
        self.assertEqual(forms.by_names(line), named)

    @unittest.skipUnless(POLICY.exists(), "docs/POLICY.md isn't there")
    def test_fields_are_those_of_the_policy(self):
        text, found = POLICY.read_text(), {}
        for name, length, fields in rows(text):
            call, _, rest = name.partition(", from ")
            header = fields.partition("element")[0]
            parts = re.findall(r"\b(\d+):(\d+) ([A-Z]\w+|payload)", header)
            found.setdefault(call, [length, []])[1].extend(
                (word.capitalize() if word == "payload" else word, int(at), int(size)) for at, size, word in parts
            )
        self.assertEqual(sorted(found), sorted(forms.CODES))
        for name, (length, fields) in found.items():
            form = forms.FORMS[forms.CODES[name]]
            size, _, element = length.partition(" + ")
            self.assertEqual((form.size, form.element), (int(size), int(element.rstrip("n") or 0)), name)
            self.assertEqual([tuple(field) for field in form.fields], fields, name)
        fast = re.search(r"The calls ([^.]*?) allow fast", text)[1]
        ranges = [(int(a, 16), int(b or a, 16)) for a, b in re.findall(r"0x(\w+)(?: to 0x(\w+))?", fast)]
        for code, form in forms.FORMS.items():
            self.assertEqual(form.is_fast, any(low <= code <= high for low, high in ranges), hex(code))

    @unittest.skipUnless((TOP / "conformance").exists(), "the suite isn't there")
    def test_the_program_reads_what_names_say(self):
        """Scripts of the suite by names, from which the program makes the numbers again."""
        count = 0
        for path, text in named_scripts():
            lines = text.split("\n")
            named = [forms.by_names(line) for line in lines]
            count += sum(one != other for one, other in zip(lines, named))
            if named == lines or "calls" not in path.parts and "registers" not in path.parts:
                continue
            words = [PROGRAM, "asm", "-"]
            ended = subprocess.run(words, input="\n".join(named), capture_output=True, text=True)
            self.assertEqual(ended.returncode, 0, f"{path}: {ended.stderr}")
            again = [forms.by_names(line) for line in ended.stdout.split("\n")]
            self.assertEqual(again, named, str(path))
        self.assertGreater(count, 5000)
