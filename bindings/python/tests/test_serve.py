"""The pipe, with the program that HVPM names."""
import os
import signal
import subprocess
import sys
import tempfile
import unittest
from unittest import mock

import hvpm
from hvpm import serve
from hvpm.serve import DENIED, FAULT, MORE, SERVED, Event, Session

from .shared import MASK

ROOT = (1, 0)
PROGRAM = os.environ.get("HVPM")


class Lines(unittest.TestCase):
    def test_lines_of_the_audit_are_read(self):
        line = "4 1.0 call 0000000300000048 more 0000000100000000 -\n"
        event = Event(4, ROOT, "call 0000000300000048", MORE, 1 << 32, b"", None, line)
        self.assertEqual((serve.event_of(line), event.is_served), (event, True))
        line = "1 1.0 call 0000000000000046 ok 0000000000000000 0100000000000000\n"
        output = b"\1" + bytes(7)
        self.assertEqual(
            serve.event_of(line), Event(1, ROOT, "call 0000000000000046", SERVED, 0, output, None, line)
        )
        line = "7 2.63 call 0000000000010041 denied 0000000000000007 P12\n"
        event = Event(7, (2, 63), "call 0000000000010041", DENIED, 7, b"", "P12", line)
        self.assertEqual((serve.event_of(line), event.is_served), (event, False))
        line = "9 1.0 clearflag 3 65535 fault P21\n"
        event = Event(9, ROOT, "clearflag 3 65535", FAULT, 0, b"", "P21", line)
        self.assertEqual((serve.event_of(line), event.value), (event, 0))

    def test_a_value_is_the_whole_output(self):
        line = "1 1.0 call 0000000000000044 ok 0000000000000000 44000000f7000000\n"
        self.assertEqual(serve.event_of(line).value, 0xF700000044)
        line = "1 1.0 call 0000000300000049 more 0fff00000000ffff -\n"
        self.assertEqual(serve.event_of(line).result, 0x0FFF00000000FFFF)

    def test_no_library_is_needed(self):
        """`hvpm.serve` loads none."""
        folder = os.path.join(os.path.dirname(os.path.abspath(__file__)), "..")
        environment = {**os.environ, "LD_LIBRARY_PATH": "", "HVPM_LIB": "/nowhere", "PYTHONPATH": folder}
        subprocess.run([sys.executable, "-c", "import hvpm.serve"], env=environment, check=True)


class Programs(unittest.TestCase):
    """Programs that aren't hvpm."""

    def session(self, script, **how):
        with tempfile.TemporaryDirectory() as folder:
            path = os.path.join(folder, "program")
            with open(path, "w") as file:
                file.write(f"#!/bin/sh\necho '{{}}'\n{script}\n")
            os.chmod(path, 0o755)
            return Session(path, **how)

    def test_a_program_that_ends_with_a_fault_is_an_error(self):
        session = self.session("""cat; echo '{"end": true, "events": 5}'; exit 3""")
        self.assertRaisesRegex(EOFError, "status 3$", session.close)
        self.assertEqual(self.session("""cat; echo '{"end": true, "events": 5}'""").close(), 5)

    def test_a_program_that_does_not_end_is_killed(self):
        session = self.session("exec sleep 60", timeout=0.2)
        self.assertEqual(session._end(), -signal.SIGKILL)

    def test_there_are_defaults(self):
        with self.session("cat") as session, mock.patch.object(session, "_ask") as ask:
            session.boot(mask=5, pages=4, pool=3, vps=2)
            ask.assert_called_once_with("boot 4 3 2 0x5 4294967295")
            self.assertEqual(session._timeout, 60)


@unittest.skipUnless(PROGRAM, "HVPM names no program")
class Sessions(unittest.TestCase):
    def setUp(self):
        self.session = Session(PROGRAM)
        self.addCleanup(self.session.__exit__)

    def boot(self, **change):
        self.session.boot(**{"mask": MASK, "pages": 32, "pool": 12, "vps": 1, **change})
        return self.session

    def test_calls_and_accesses_are_answered(self):
        session = self.boot()
        (event,) = session.hypercall(ROOT, 0x46)
        self.assertEqual((event.answer, event.output, event.value), (SERVED, b"\1" + bytes(7), 1))
        events = session.hypercall(ROOT, 3 << 32 | 0x49, input=b"\1")
        self.assertEqual([event.answer for event in events], [MORE, MORE, SERVED])
        self.assertEqual([event.output[0] for event in events], [0, 1, 2])
        (event,) = session.hypercall(ROOT, 0x1004E, 7, 1)
        self.assertEqual((event.answer, event.result, event.rule), (DENIED, 0xD, "P9"))
        self.assertEqual(session.write_msr(ROOT, 0x40000092, 0x30).what, "wrmsr 40000092 0000000000000030")
        self.assertEqual(session.read_msr(ROOT, 0x40000092).output, b"\x30" + bytes(7))
        self.assertEqual(session.read_slot(ROOT, 2).output, bytes(256))
        self.assertEqual(session.read_flags(ROOT, 3).what, "flags 3")
        self.assertEqual(session.clear_slot(ROOT, 2).what, "clearslot 2")
        self.assertEqual(session.clear_flag(ROOT, 3, 5).what, "clearflag 3 5")
        event = session.clear_flag(ROOT, 3, 2048)
        self.assertEqual((event.answer, event.rule, event.number), (FAULT, "P21", 12))
        session.phase()
        self.assertEqual(session.take_interrupt(ROOT).output, b"\0")
        self.assertIn("partition 1 parent - Active", session.table())
        self.assertEqual(session.close(), 13)

    def test_lines_may_be_by_names(self):
        with Session(PROGRAM, names=True) as session:
            session.boot(mask=MASK, pages=32, pool=12, vps=1)
            self.assertEqual(session.events("1.0 HvCreatePartition Flags=0")[0].value, 2)
            with self.assertRaisesRegex(serve.Fault, "unknown word 'HvPostMesage'; did you mean HvPostMessage"):
                session.events("1.0 HvPostMesage")
            self.assertIn("ID.VP CALL FIELD=VALUE", session.help())
        with self.assertRaisesRegex(serve.Fault, "unknown word$"):
            self.boot().events("1.0 HvCreatePartition Flags=0")

    def test_calls_have_fields(self):
        session = self.boot()
        self.assertEqual(session.call(ROOT, "HvCreatePartition", Flags=0)[0].value, 2)
        events = session.call(ROOT, "HvDepositMemory", 20, 21, 22, 23, 24, 25, PartitionId=2)
        self.assertEqual([event.answer for event in events], 5 * [MORE] + [SERVED])
        self.assertEqual(session.call(ROOT, "HvInitializePartition", PartitionId=2)[0].answer, SERVED)
        withdrawn = session.call(ROOT, "HvWithdrawMemory", reps=2, PartitionId=2)
        self.assertEqual([event.value for event in withdrawn], [20, 21])
        pairs = (hvpm.Register.RAX, 5), (hvpm.Register.SINT2, 0x33)
        written = session.call(ROOT, "HvSetVpRegisters", *pairs, PartitionId=hvpm.SELF, VpIndex=0)
        self.assertEqual([event.answer for event in written], [MORE, SERVED])
        read = session.call(ROOT, "HvGetVpRegisters", *dict(pairs), PartitionId=hvpm.SELF, VpIndex=0)
        self.assertEqual([event.value for event in read], [5, 0x33])
        fields = {"PortPartition": 1, "PortId": 9, "ConnectionPartition": 1, "PortType": 1, "TargetSint": 2}
        flags = {"TargetVp": 0, "BaseFlagNumber": 0, "FlagCount": 0}
        self.assertTrue(session.call(ROOT, "HvCreatePort", **fields, **flags)[0].is_served)
        link = {"ConnectionPartition": 1, "ConnectionId": 4, "PortPartition": 1, "PortId": 9, "PortType": 1}
        self.assertTrue(session.call(ROOT, "HvConnectPort", **link)[0].is_served)
        for msr in (hvpm.Msr.SCONTROL, hvpm.Msr.SIMP):
            session.write_msr(ROOT, msr, 1)
        message = {"ConnectionId": 4, "MessageType": 7}
        self.assertTrue(session.call(ROOT, "HvPostMessage", **message, Payload=bytearray(b"hello"))[0].is_served)
        self.assertEqual(session.peek_slot(ROOT, 2)[16:22], b"hello\0")
        (event,) = session.call(ROOT, "HvPostMessage", **message, PayloadSize=241, Payload=b"")
        self.assertEqual((event.rule, event.output), ("P7", b""))
        self.assertEqual(event.effect, {"kind": "nothing"})
        for name, elements, given, error in (
            ("HvPostMessage", (), {**message, "Payload": "text"}, "bytes are wanted, and not str: encode it"),
            ("HvPostMessage", (), {**message, "Payload": 5}, "bytes are wanted, and not int"),
            ("HvPostMessage", (), message, "the fields of HvPostMessage are ConnectionId, "),
            ("HvGetPartitionId", (), {"PartitionId": 1}, "HvGetPartitionId are none, and not PartitionId"),
            ("HvGetPartitionId", (1,), {}, "takes no elements"),
            ("HvSignalEvent", (), {"ConnectionId": b"", "FlagNumber": 1}, "ConnectionId is a number"),
            ("HvDepositMemory", ((1, 2),), {"PartitionId": 1}, "an element of this call is a number"),
            ("HvSetVpRegisters", (1,), {"PartitionId": 1, "VpIndex": 0}, "is a pair"),
            ("HvGetPartition", (), {}, "no call HvGetPartition"),
        ):
            with self.assertRaisesRegex(TypeError, error):
                session.call(ROOT, name, *elements, **given)
        for given in ({"ConnectionId": 1 << 32, "FlagNumber": 1}, {"ConnectionId": 1, "FlagNumber": -1}):
            with self.assertRaises(OverflowError):
                session.call(ROOT, "HvSignalEvent", **given)
        with self.assertRaisesRegex(OverflowError, "at most 240 bytes"):
            session.call(ROOT, "HvPostMessage", **message, Payload=bytes(241))

    def test_events_have_reason_and_effect(self):
        session = self.boot()
        (event,) = session.hypercall(ROOT, 0x10041, 7)
        self.assertEqual((event.rule, event.trace["rule"], event.effect), ("P9", "P9", {"kind": "nothing"}))
        self.assertIn(f": denied HV_STATUS_INVALID_PARTITION_ID, P9: {event.reason}", session.explain())
        events = session.hypercall(ROOT, 2 << 32 | 0x49, input=b"\1")
        self.assertEqual([event.reason for event in events], [None, None])
        pages = [{"kind": "page", "page": page, "owner": 1, "pooled": False} for page in (0, 1)]
        self.assertEqual([event.effect for event in events], pages)
        self.assertEqual([event.trace["fields"]["element"] for event in events], [0, 1])

    def test_looks_are_no_events(self):
        session = self.boot()
        self.assertIsNone(session.explain())
        self.assertEqual(session.peek_msr(ROOT, hvpm.Msr.SINT2), 0x10000)
        self.assertEqual((session.peek_flags(ROOT, 3), session.peek_pending(ROOT)), (frozenset(), frozenset()))
        self.assertEqual(session.peek_slot(ROOT, 15), bytes(256))
        nowhere = (9, 0)
        self.assertEqual([session.peek_slot(ROOT, 16), session.peek_msr(ROOT, 1)], [None, None])
        self.assertEqual([session.peek_flags(nowhere, 0), session.peek_pending(nowhere)], [None, None])
        flags = {"PortType": 2, "TargetSint": 15, "TargetVp": 0, "BaseFlagNumber": 2047, "FlagCount": 1}
        session.call(ROOT, "HvCreatePort", PortPartition=1, PortId=9, ConnectionPartition=1, **flags)
        link = {"PortPartition": 1, "PortId": 9, "PortType": 2}
        session.call(ROOT, "HvConnectPort", ConnectionPartition=1, ConnectionId=4, **link)
        for msr, value in ((hvpm.Msr.SCONTROL, 1), (hvpm.Msr.SIEFP, 1), (hvpm.Msr.SINT15, 0xFF)):
            session.write_msr(ROOT, msr, value)
        session.call(ROOT, "HvSignalEvent", ConnectionId=4, FlagNumber=0)
        self.assertEqual((session.peek_flags(ROOT, 15), session.peek_pending(ROOT)), ({2047}, {255}))
        session.call(ROOT, "HvCreateVp", PartitionId=7, VpIndex=0)
        told = "7 1.0 HvCreateVp partition 7, vp 0: denied HV_STATUS_INVALID_PARTITION_ID, P9: "
        self.assertTrue(session.explain().startswith(told), session.explain())
        self.assertEqual(session.close(), 7)

    def test_lines_without_an_event_have_none(self):
        session = self.boot()
        self.assertEqual([session.events(line) for line in ("phase", "", "# nothing")], [[], [], []])
        self.assertRaises(ValueError, session.events, "1.0 interrupt\n1.0 interrupt")
        self.assertEqual(len(session.events("1.0 interrupt")), 1)

    def test_a_second_boot_is_an_error(self):
        session = self.boot()
        session.take_interrupt(ROOT)
        with self.assertRaisesRegex(serve.Fault, "line 3: second boot$"):
            self.boot()
        self.assertEqual((session.take_interrupt(ROOT).number, session.close()), (2, 2))

    def test_an_answer_that_does_not_come_is_an_error(self):
        session = Session(PROGRAM, timeout=0.2)
        os.kill(session._process.pid, signal.SIGSTOP)
        with session, self.assertRaisesRegex(TimeoutError, "no answer in 0.2 seconds"):
            session.phase()

    def test_a_boot_may_be_refused_and_repeated(self):
        with self.assertRaisesRegex(serve.Fault, "boot refused: pool$"):
            self.boot(pool=33)
        self.assertEqual(self.boot().hypercall(ROOT, 0x46)[0].number, 1)

    def test_faults_are_raised(self):
        with self.assertRaisesRegex(serve.Fault, "line 1: no boot$"):
            self.session.table()
        session = self.boot()
        with self.assertRaisesRegex(serve.Fault, "unknown word$") as raised:
            session.events("1.0 reset")
        self.assertEqual(raised.exception.events, [])
        self.assertEqual(session.events("1.0 interrupt")[0].number, 1)

    def test_a_limit_ends_a_call_midway(self):
        session = self.boot(limit=2)
        with self.assertRaisesRegex(serve.Fault, "history full$") as raised:
            session.hypercall(ROOT, 3 << 32 | 0x49, input=b"\1")
        self.assertEqual([event.answer for event in raised.exception.events], [MORE, MORE])

    def test_a_program_that_ends_is_noticed(self):
        self.assertRaises(EOFError, Session, "true")
        with self.boot() as session:
            session._process.kill()
            session._process.wait()
            self.assertRaises((EOFError, BrokenPipeError), session.phase)
            self.assertRaises((EOFError, BrokenPipeError), session.close)
