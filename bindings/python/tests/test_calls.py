"""The hypercalls by their fields, by the audit's lines and by their values. The audits are those of a script
and of the typed calls in C, typed by hand."""
import pathlib
import unittest

import hvpm
from hvpm import ANY_VP, SELF, Answer, Balance, Message, PortType, Property

from .shared import EOM, EVENTS, ROOT, boot

REPOSITORY = pathlib.Path(__file__).resolve().parents[3]
SECOND = (1, 1)


class Calls(unittest.TestCase):
    def take(self, reply, value=None):
        """Adds an event to the audit. Its value is this one."""
        self.audit += reply.line
        self.assertEqual(reply.value, value, reply.line)
        return reply

    def drive(self, take, *values):
        """Takes all elements of a rep call, with a value for each, if it has any."""
        start, answer, values = 0, Answer.MORE, list(values)
        while answer is Answer.MORE:
            reply = self.take(take(start), values.pop(0) if values else None)
            start, answer = reply.next, reply.answer
        self.assertEqual(values, [])

    def boot(self, pages, pool):
        self.audit, self.machine = "", boot(pages=pages, pool=pool)
        return self.machine

    def check(self, path):
        audit = self.audit + f"events {self.machine.events}\n"
        self.assertEqual(audit, (REPOSITORY / path).read_text())

    def test_a_life_is_that_of_the_script(self):
        m = self.boot(64, 32)
        self.take(m.create_partition(ROOT), 2)
        self.take(m.set_partition_property(ROOT, 2, Property.PRIVILEGE_FLAGS, 0x9200000000))
        self.take(m.initialize_partition(ROOT, 2))
        self.drive(lambda start: m.deposit_memory(ROOT, 2, [32, 33, 34, 35, 36], start))
        self.take(m.create_vp(ROOT, 2, 0))
        self.take(m.create_port(ROOT, partition=1, id=5, peer=2, type=PortType.MESSAGES, sint=2, vp=0))
        for msr, value in ((0x40000080, 1), (0x40000083, 1), (0x40000092, 0x30)):
            self.take(m.write_msr(ROOT, msr, value))
        self.talk(m, (2, 0))
        self.take(m.get_memory_balance(ROOT, 2), Balance(available=0, in_use=5))
        self.take(m.finalize_partition(ROOT, 2))
        self.take(m.get_memory_balance(ROOT, 2), Balance(available=5, in_use=0))
        self.take(m.delete_partition(ROOT, 2))
        self.take(m.get_partition_id((2, 0)))
        self.take(m.delete_port(ROOT, 1, 5))
        self.take(m.get_memory_balance(ROOT, 1), Balance(available=28, in_use=4))
        self.check("examples/life.audit")

    def talk(self, m, by):
        """The child posts, and the root takes the message."""
        self.take(m.get_partition_id(by), 2)
        self.take(m.connect_port(by, partition=2, id=7, port_partition=1, port=5, type=PortType.MESSAGES))
        self.take(m.post_message(by, 7, 1, b"hello"))
        self.take(m.create_partition(by))
        self.take(m.take_interrupt(ROOT), 0x30)
        self.take(m.read_slot(ROOT, 2), Message(type=1, port=5, payload=b"hello", is_pending=False))
        self.take(m.clear_slot(ROOT, 2))
        self.take(m.write_msr(ROOT, EOM, 0))

    def test_the_other_calls_have_the_audit_of_c(self):
        m = self.boot(32, 16)
        for property, value in zip(Property, (0xF700000044, 0, 65_536, 100)):
            self.take(m.get_partition_property(ROOT, SELF, property), value)
        self.take(m.get_partition_property(ROOT, 9, Property.CPU_WEIGHT))
        self.drive(lambda start: m.withdraw_memory(ROOT, SELF, 2, start), 0, 1)
        for child in (2, 3):
            self.take(m.create_partition(ROOT), child)
        for previous, child in ((0, 2), (2, 3), (3, 0)):
            self.take(m.get_next_child_partition(ROOT, SELF, previous), child)
        self.registers(m)
        self.flags(m)
        self.take(m.disconnect_port(ROOT, SELF, 8))
        self.take(m.delete_vp(ROOT, SELF, 1))
        self.take(m.get_memory_balance(ROOT, SELF), Balance(available=5, in_use=9))
        self.check("tests/embed/typed.out")

    def registers(self, m):
        """A second processor of the root, and registers of it."""
        registers = [(0xA0010, 1), (0xA0003, 0x33), (0xA0012, 0xFEDCBA9876543211)]
        self.take(m.create_vp(ROOT, SELF, 1))
        self.drive(lambda start: m.set_vp_registers(ROOT, SELF, 1, registers, start))
        names = [0x90003, 0xA0012]
        self.drive(lambda start: m.get_vp_registers(ROOT, SELF, 1, names, start), 1, 0xFEDCBA9876543211)
        self.take(m.read_msr_value(SECOND, 0x40000093), 0x33)
        self.take(m.read_msr_value(ROOT, 0x40000071))

    def flags(self, m):
        """A port of flags 8 to 11 at the processor that is ready, which is the second."""
        flags = {"base_flag": 8, "flag_count": 4}
        self.take(m.create_port(ROOT, id=6, peer=SELF, sint=3, vp=ANY_VP, **flags, **EVENTS))
        self.take(m.connect_port(ROOT, id=8, port_partition=SELF, port=6, **EVENTS))
        self.take(m.signal_event(ROOT, 8, 3))
        self.take(m.signal_event(ROOT, 8, 4))
        self.take(m.clear_flag(SECOND, 3, 11))
        self.take(m.take_interrupt(SECOND), 0x33)

    def test_lists_and_payloads_that_are_too_long_are_refused(self):
        """P5 and P6 refuse a list that no page has room for, and P7 a payload of more than 240 bytes."""
        m = self.boot(32, 16)
        replies = [
            (m.deposit_memory(ROOT, SELF, [0] * 512), 6),
            (m.deposit_memory(ROOT, SELF, [0] * 0x10000), 5),
            (m.withdraw_memory(ROOT, SELF, 513), 6),
            (m.withdraw_memory(ROOT, SELF, 1, 1), 5),
            (m.get_vp_registers(ROOT, SELF, 0, [0] * 1021), 6),
            (m.set_vp_registers(ROOT, SELF, 0, [(0, 0)] * 128), 6),
            (m.set_vp_registers(ROOT, SELF, 0, []), 5),
            (m.post_message(ROOT, 1, 1, bytes(241)), 7),
            (m.post_message(ROOT, 1, 1, bytes(240)), 16),
        ]
        for number, (reply, rule) in enumerate(replies):
            self.assertEqual((reply.rule, reply.value), (rule, None), f"case {number}")

    def test_lists_are_longer_than_a_page(self):
        m = self.boot(2000, 1000)
        made = m.withdraw_pages(ROOT, SELF, 600)
        self.assertEqual((made.count, made.reply.answer, made.values), (600, Answer.SERVED, tuple(range(600))))
        self.assertEqual(m.deposit_pages(ROOT, SELF, made.values).count, 600)
        made = m.deposit_pages(ROOT, SELF, [*range(1000, 1550), 5000, 1551])
        self.assertEqual((made.count, made.reply.rule, made.values), (550, hvpm.RuleNumber.P21, ()))
        pairs = [(hvpm.Register.RAX + at % 16, 7 * at) for at in range(600)]
        self.assertEqual(m.write_registers(ROOT, SELF, 0, pairs).count, 600)
        made = m.read_registers(ROOT, SELF, 0, [name for name, _ in pairs])
        last = dict(pairs)
        self.assertEqual(made.values, tuple(last[name] for name, _ in pairs))
        self.assertEqual(made.count, 600)
        self.assertEqual(m.events, 600 + 600 + 551 + 600 + 600)

    def test_bytes_are_bytes_and_a_text_is_none(self):
        """A list and a payload may be any of Python's own kinds of bytes."""
        m, text = self.boot(32, 16), "01000000000000000100000000000000"
        for kind in (bytes, bytearray, memoryview):
            given = kind(bytes.fromhex(text))
            self.assertEqual(m.hypercall(ROOT, hvpm.Call.GET_MEMORY_BALANCE, input=given).answer, Answer.SERVED)
            self.assertEqual(m.post_message(ROOT, 1, 1, given).rule, hvpm.RuleNumber.P16)
            line = hvpm.hypercall_line(ROOT, hvpm.Call.GET_MEMORY_BALANCE, input=given)
            self.assertEqual(line, "1.0 call 0x4a 0x0 0x0 0100000000000000\n")
        events = m.events
        for take in (
            lambda: m.post_message(ROOT, 1, 1, "text"),
            lambda: m.hypercall(ROOT, 0x4A, input="text"),
            lambda: m.run(ROOT, 0x4A, input="text"),
            lambda: hvpm.hypercall_line(ROOT, 0x4A, input="text"),
        ):
            with self.assertRaisesRegex(TypeError, "bytes are wanted, and not str: encode it"):
                take()
        with self.assertRaisesRegex(TypeError, "bytes are wanted, and not list$"):
            m.post_message(ROOT, 1, 1, [1])
        self.assertEqual(m.events, events)
