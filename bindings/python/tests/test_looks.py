"""Looks: each shows what an event would read, or what was made, and none is counted."""
import unittest

import hvpm
from hvpm import Connection, Life, Partition, Port, PortType

from .shared import MASK, ROOT, SLOT, boot, with_child, with_message_and_flag

NOBODY = (1, 1)


class Looks(unittest.TestCase):
    def test_processors_show_slots_flags_registers_and_vectors(self):
        machine = with_message_and_flag()
        self.assertEqual((machine.peek_slot(ROOT, 2), machine.peek_slot(ROOT, 16)), (SLOT, None))
        self.assertEqual((machine.peek_flags(ROOT, 3), machine.peek_flags(NOBODY, 3)), ({5}, None))
        msrs = machine.peek_msr(ROOT, 0x40000092), machine.peek_msr(ROOT, 0x40000000)
        self.assertEqual(msrs, (0x32, None))
        self.assertEqual((machine.peek_pending(ROOT), machine.peek_pending(NOBODY)), ({0x32, 0x33}, None))
        self.assertEqual(machine.events, 11)

    def test_a_partition_shows_what_it_has(self):
        machine = with_message_and_flag()
        state = {"mask": MASK, "parent": None, "depth": 0, "pooled": 12, "in_use": 8, "life": Life.ACTIVE}
        root = Partition(**state, children=0, vps=1, ports=2, connections=2)
        self.assertEqual((machine.peek_partition(1), machine.peek_partition(2)), (root, None))
        machine.create_partition(ROOT)
        child = machine.peek_partition(2)
        self.assertEqual((child.mask, child.parent, child.depth), (0x3000000044, 1, 1))
        self.assertEqual((child.life, child.pooled, child.vps, child.ports), (Life.CREATED, 0, 0, 0))
        self.assertEqual((machine.peek_partition(1).children, machine.peek_partition(1).in_use), (1, 10))
        machine.finalize_partition(ROOT, 2)
        self.assertIs(machine.peek_partition(2).life, Life.FINALIZED)

    def test_ports_and_connections_show_their_fields(self):
        machine = with_message_and_flag()
        port = Port(
            partition=1, id=3, peer=1, type=PortType.EVENTS, sint=3, vp=0, base_flag=0, flag_count=8
        )
        self.assertEqual((machine.peek_port(1, 3), machine.peek_port(2, 3)), (port, None))
        connection = Connection(partition=1, id=2, port_partition=1, port=2, type=PortType.MESSAGES)
        self.assertEqual((machine.peek_connection(1, 2), machine.peek_connection(1, 4)), (connection, None))

    def test_links_of_two_partitions_show_both(self):
        with with_child() as machine:
            machine.create_port(ROOT, partition=1, id=9, peer=2, sint=4).expect()
            machine.connect_port(ROOT, partition=2, id=8, port_partition=1, port=9).expect()
            port = Port(1, 9, 2, PortType.MESSAGES, sint=4, vp=hvpm.ANY_VP, base_flag=0, flag_count=0)
            self.assertEqual((machine.peek_port(1, 9), machine.peek_port(2, 5).vp), (port, 0))
            connection = Connection(2, 8, port_partition=1, port=9, type=PortType.MESSAGES)
            self.assertEqual(machine.peek_connection(2, 8), connection)

    def test_children_and_owners_are_found(self):
        machine = boot()
        self.assertIsNone(machine.child_after(1))
        machine.create_partition(ROOT)
        machine.create_partition(ROOT)
        self.assertEqual([machine.child_after(1, previous) for previous in (0, 2, 3)], [2, 3, None])
        self.assertEqual(machine.child_after(1), 2)
        self.assertIsNone(machine.child_after(4))
        self.assertEqual((machine.page_owner(31), machine.page_owner(32)), (1, None))

    def test_what_a_partition_has_is_listed(self):
        machine = with_message_and_flag()
        self.assertEqual([machine.vp_after(1), machine.vp_after(1, 0), machine.vp_after(9)], [0, None, None])
        self.assertEqual([machine.port_after(1), machine.port_after(1, 2), machine.port_after(1, 3)], [2, 3, None])
        self.assertEqual([machine.connection_after(1, id) for id in (None, 2, 3)], [2, 3, None])
        self.assertIsNone(machine.port_after(1, 2**32 - 1))
        lists = machine.vps(1), machine.ports(1), machine.connections(1), machine.ports(2)
        self.assertEqual([list(each) for each in lists], [[0], [2, 3], [2, 3], []])
        machine.withdraw_pages(ROOT, 1, 2)
        runs = [hvpm.PageRun(0, 2, False), hvpm.PageRun(2, 10, True), hvpm.PageRun(12, 20, False)]
        self.assertEqual(list(machine.page_runs(1)), runs)
        self.assertEqual(machine.page_after(1, 11), runs[2])
        self.assertEqual([machine.page_after(1, 31), machine.page_after(2)], [None, None])
        self.assertIsNone(machine.page_after(1, 2**32 - 1))

    def test_a_mask_is_features_of_cpuid(self):
        machine = boot()
        self.assertEqual((machine.features(1), machine.features(2)), ((0x44, 0xF7, 0, 0), None))

    def test_the_table_is_that_of_the_program(self):
        self.assertEqual(
            with_message_and_flag().table(),
            "partition 1 parent - Active mask 000000f700000044 loose 20 pooled 12 inuse 8 "
            "vps 1 ports 2 connections 2\n"
            "pages 32\n",
        )

    def test_msrs_and_calls_are_known(self):
        self.assertEqual([hvpm.is_msr(0x40000092), hvpm.is_msr(0x40000000)], [True, False])
        self.assertEqual([hvpm.is_call(0x96), hvpm.is_call(0x97)], [True, False])
