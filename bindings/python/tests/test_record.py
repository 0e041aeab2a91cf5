"""A record of a machine: a script and its audit, which the program repeats."""
import mmap
import os
import subprocess
import tempfile
import unittest

import hvpm

from .shared import GUEST, MASK, POST, ROOT, SIGNAL, boot, enable, with_child

PROGRAM = os.environ.get("HVPM", "hvpm")


def repeat(script):
    """What the program prints of a script."""
    with tempfile.NamedTemporaryFile("w", suffix=".hv") as file:
        file.write(script)
        file.flush()
        words = [PROGRAM, "run", file.name, "--serial"]
        return subprocess.run(words, check=True, capture_output=True, text=True).stdout


class Records(unittest.TestCase):
    def test_a_record_is_repeated_by_the_program(self):
        """Typed calls, lists, what pages do in the guest's place, and what rules refuse."""
        machine, memory = with_child(record=True), mmap.mmap(-1, 8192)
        enable(machine, GUEST, {2: 0x82, 3: 0x33})
        first = machine.take_record()
        pages = hvpm.Pages(GUEST)
        pages.move(machine, memoryview(memory)[:4096], memoryview(memory)[4096:])
        pages.after(machine, machine.post_message(ROOT, POST, 9, b"a"))
        while pages.vector(machine):
            pass
        memory[2 * 256] = 0
        pages.before(machine)
        pages.after(machine, machine.signal_event(ROOT, SIGNAL, 2))
        self.assertEqual(machine.deposit_pages(ROOT, 2, range(40, 60)).count, 20)
        self.assertEqual(machine.create_vp(ROOT, 2, 0).rule, hvpm.Rule(19))
        rest = machine.take_record()
        self.assertFalse(first.is_cut or rest.is_cut)
        self.assertIn("2.0 interrupt\n2.0 clearslot 2\n", rest.script)
        self.assertIn("2.0 clearflag 3 10\n", rest.script)
        audit = f"{first.audit}{rest.audit}events {machine.events}\n"
        self.assertEqual(repeat(first.script + rest.script), audit)
        self.assertEqual(machine.take_record(), hvpm.Record("", "", False))
        machine.destroy()
        self.assertEqual(machine.take_record().script, "")

    def test_a_record_ends_where_a_script_has_no_such_run(self):
        with hvpm.Machine.boot(mask=MASK, pages=32, pool=12, vps=1, record=True) as machine:
            machine.withdraw_memory(ROOT, 1, count=2)
            machine.take_interrupt(ROOT)
            machine.withdraw_memory(ROOT, 1, count=2, start=1)
            self.assertIn("\n# The record ends here: ", machine.script())
            words = machine.explain().splitlines(True)
            self.assertEqual([machine.explain(last) for last in (0, 1, 9)], ["", words[-1], "".join(words)])
            record = machine.take_record()
        self.assertEqual((record.is_cut, record.script.count("\n"), record.audit.count("\n")), (True, 2, 1))

    def test_a_machine_without_a_record_has_none(self):
        with boot() as machine:
            machine.take_interrupt(ROOT)
            self.assertEqual(machine.take_record(), hvpm.Record("", "", False))
            for show in (machine.script, machine.explain):
                self.assertRaisesRegex(ValueError, r"boot\(.*, record=True\)", show)

    def test_a_record_is_shown_by_names_and_in_words(self):
        with with_child(record=True) as machine:
            machine.post_message(ROOT, POST, 7, b"hi")
            machine.write_msr(GUEST, hvpm.Msr.SIMP, 1)
            machine.set_vp_registers(ROOT, 2, 0, [(hvpm.Register.RIP, 16)])
            machine.hypercall(ROOT, 0x46 | 1 << 63)
            named, words = machine.script(), machine.explain()
            self.assertEqual(machine.script(), named)
            self.assertEqual(machine.explain(2), "".join(words.splitlines(True)[-2:]))
            self.assertEqual(machine.explain(0), "")
            self.assertEqual(machine.explain(machine.events + 1), words)
            record, events = machine.take_record(), machine.events
            self.assertRaisesRegex(ValueError, "beginning was taken", machine.explain)
        lines = named.splitlines()
        self.assertEqual(lines[:3], [
            "boot 64 16 1 0xf700000044 4294967295",
            "1.0 HvCreatePartition Flags=0",
            "1.0 HvInitializePartition fast PartitionId=2",
        ])  # fmt: skip
        self.assertEqual(lines[-5:], [
            "1.0 HvConnectPort ConnectionPartition=self ConnectionId=2 PortPartition=2 PortId=7 PortType=2",
            "1.0 HvPostMessage ConnectionId=1 MessageType=7 PayloadSize=2 Payload=6869",
            "2.0 write SIMP 0x1",
            "1.0 HvSetVpRegisters PartitionId=2 VpIndex=0 RIP=0x10",
            "1.0 call 0x8000000000000046 0x0 0x0 -",
        ])  # fmt: skip
        ended = subprocess.run([PROGRAM, "asm", "-"], input=named, check=True, capture_output=True, text=True)
        self.assertEqual(repeat(ended.stdout), f"{record.audit}events {events}\n")
        told = words.splitlines()
        self.assertEqual(len(told), events)
        self.assertIn("P22: no virtual processor is ready (vp 0 of partition 2 has SCONTROL 0x0", told[-4])
        self.assertEqual(told[-3].partition(" ")[2], "2.0 write HV_X64_MSR_SIMP (0x40000083) value 0x1: ok")

    def test_words_are_those_of_the_program(self):
        """Of each kind of event, by the library and by the program."""
        with with_child(record=True) as machine:
            enable(machine, GUEST, {2: 0x82, 3: 0x33})
            machine.post_message(ROOT, POST, 9, b"a")
            machine.signal_event(ROOT, SIGNAL, 2)
            machine.read_slot(GUEST, 2)
            machine.read_flags(GUEST, 3)
            machine.clear_flag(GUEST, 3, 10)
            machine.clear_slot(GUEST, 2)
            machine.read_msr(GUEST, hvpm.Msr.SINT2)
            machine.take_interrupt(GUEST)
            machine.take_interrupt((9, 9))
            machine.withdraw_pages(ROOT, 1, 99)
            machine.hypercall(ROOT, 0x99)
            words, script = machine.explain(), machine.take_record().script
        told = subprocess.run([PROGRAM, "explain", "-"], input=script, check=True, capture_output=True, text=True)
        self.assertEqual(words, told.stdout)
