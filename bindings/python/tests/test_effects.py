"""The effect of each event, as docs/POLICY.md says what the event changes."""
import unittest

from hvpm.effect import Flag, Nothing, Page, Pages, Partition, Processor, Synic

from .shared import EOM, GUEST, POST, ROOT, SIGNAL, enable, with_child


class Effects(unittest.TestCase):
    def has(self, reply, effect):
        """An event is served with this effect."""
        self.assertTrue(reply.is_served, reply.line)
        self.assertEqual(reply.effect, effect, reply.line)

    def setUp(self):
        self.machine = with_child()
        enable(self.machine, GUEST, {2: 0x82, 3: 0x33})

    def test_messages_are_shown_wait_and_go(self):
        machine = self.machine
        shown = Synic(2, 0, shown=frozenset({2}), raised=frozenset({0x82}))
        self.has(machine.post_message(ROOT, POST, 9, b"one"), shown)
        self.has(machine.post_message(ROOT, POST, 9, b"two"), Synic(2, 0, waiting=frozenset({2})))
        self.has(machine.clear_slot(GUEST, 2), Synic(2, 0, shown=frozenset({2}), freed=5))
        self.has(machine.clear_slot(GUEST, 2), Nothing())
        self.has(machine.write_msr(GUEST, EOM, 0), shown)
        self.has(machine.take_interrupt(GUEST), Synic(2, 0))

    def test_flags_are_set_and_cleared(self):
        machine = self.machine
        flag = Synic(2, 0, flag=Flag(3, 10, True), raised=frozenset({0x33}))
        self.has(machine.signal_event(ROOT, SIGNAL, 2), flag)
        self.has(machine.signal_event(ROOT, SIGNAL, 2), Nothing())
        self.has(machine.clear_flag(GUEST, 3, 10), Synic(2, 0, flag=Flag(3, 10, False)))

    def test_pages_and_processors_go(self):
        machine = self.machine
        self.has(machine.deposit_memory(ROOT, 2, [40]), Page(40, partition=2, pooled=True))
        self.has(machine.withdraw_memory(ROOT, 2), Page(20, partition=1, pooled=False))
        self.has(machine.delete_vp(ROOT, 2, 0), Processor(2, 0))
        self.has(machine.create_vp(ROOT, 2, 1), Processor(2, 1))
        self.has(machine.finalize_partition(ROOT, 2), Partition(2))
        self.has(machine.delete_partition(ROOT, 2), Pages(source=2, target=1))

    def test_what_is_refused_has_no_effect(self):
        denied, fault = self.machine.create_vp(ROOT, 2, 0), self.machine.clear_slot(GUEST, 16)
        self.assertEqual((denied.rule, denied.effect), (19, Nothing()))
        self.assertEqual((fault.rule, fault.effect), (21, Nothing()))
