"""What replies have: values of accesses, messages, and what has to be served."""
import unittest
from unittest import mock

import hvpm
from hvpm import _convert, _raw

from .shared import FLAGS, ROOT, SLOT, boot, with_message_and_flag


class Replies(unittest.TestCase):
    def test_accesses_have_values(self):
        with with_message_and_flag() as machine:
            message = hvpm.Message(type=1, port=2, payload=b"h", is_pending=False)
            self.assertEqual(machine.read_slot(ROOT, 2).value, message)
            self.assertEqual(machine.read_slot(ROOT, 2).output, SLOT)
            machine.post_message(ROOT, 2, 9, bytes(240))
            self.assertTrue(machine.read_slot(ROOT, 2).value.is_pending)
            machine.clear_slot(ROOT, 2)
            machine.write_msr(ROOT, hvpm.Msr.EOM, 0)
            message = hvpm.Message(type=9, port=2, payload=bytes(240), is_pending=False)
            self.assertEqual(hvpm.Message.of(machine.peek_slot(ROOT, 2)), message)
            self.assertIsNone(machine.read_slot(ROOT, 3).value)
            self.assertIsNone(machine.read_slot(ROOT, 16).value)
            self.assertEqual(machine.read_flags(ROOT, 3).value, {5})
            self.assertEqual(machine.read_flags(ROOT, 3).output, FLAGS)
            self.assertEqual(machine.read_flags(ROOT, 2).value, set())
            vectors = [machine.take_interrupt(ROOT).value for _ in range(3)]
            self.assertEqual(vectors, [0x33, 0x32, 0])
            self.assertIsNone(machine.take_interrupt((7, 0)).value)

    def test_fields_are_read_whole(self):
        """Also where the machine has no such value today."""
        slot = bytes.fromhex("0102030405feffff0807060504030201") + bytes(240)
        self.assertEqual(hvpm.Message.of(slot), hvpm.Message(0x04030201, 0x0102030405060708, bytes(5), False))
        raw = _raw.hvpm_reply(kind=_raw.HVPM_REPLY_DENIED, rule=27, result=0x0708A0001234, next=0x0FFF)
        reply = _convert.reply_of(raw, b"")
        self.assertEqual((reply.status, reply.rule, reply.result, reply.next), (0x1234, 27, 0x0708A0001234, 0xFFF))
        raw = _raw.hvpm_effect(kind=_raw.HVPM_EFFECT_SYNIC, partition=7, vp=9, freed=1, port=0)
        self.assertEqual(_convert.effect_of(raw), hvpm.effect.Synic(7, 9, freed=0))

    def test_errors_say_why(self):
        texts = {
            "EMPTY": "the machine was destroyed",
            "SHORT": "the buffer for outputs is too short",
            "USED_UP": "the machine takes no more events",
            "MEMORY": "out of memory",
            "PAGES": "boot refused: pages",
            "POOL": "boot refused: pool",
            "VPS": "boot refused: vps",
            "NONE": "HVPM_STATUS_NONE",
        }
        for name, text in texts.items():
            self.assertEqual(str(hvpm.Error(hvpm.Status[name])), text)

    def test_a_text_may_lack_memory(self):
        """The library says how long it is, and then fails to write it."""
        with boot() as machine:
            answers = iter([hvpm.Status.SHORT, hvpm.Status.MEMORY])
            with mock.patch.object(_convert, "call", lambda *_: next(answers)):
                self.assertRaisesRegex(hvpm.Error, "out of memory", machine.table)

    def test_what_has_to_be_served_is_an_error_else(self):
        with boot() as machine:
            self.assertEqual(machine.create_partition(ROOT).expect(), 2)
            self.assertIsNone(machine.initialize_partition(ROOT, 2).expect())
            self.assertIsNone(machine.read_slot(ROOT, 2).expect())
            self.assertEqual(machine.withdraw_pages(ROOT, 1, 2).expect(), (0, 1))
            with self.assertRaisesRegex(hvpm.Refused, r"call .* denied .* P19: P19 doesn't hold: ") as raised:
                machine.create_vp(ROOT, 1, 0).expect()
            self.assertEqual(raised.exception.reply.rule, hvpm.RuleNumber.P19)
            with self.assertRaisesRegex(hvpm.Refused, "^P21 doesn't hold: "):
                machine.deposit_pages(ROOT, 2, [20, 20]).expect()
