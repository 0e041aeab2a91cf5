"""Each function with the arguments that it needs, at the last of its indexes, and with numbers whose bytes all
differ."""
import mmap
import os
import unittest
from pathlib import Path

import hvpm
from hvpm import ANY_VP, SELF, Access, Answer, Balance, Message, PageRun, Port, PortType, Property
from hvpm.effect import Flag, Nothing, Page, Pages, Processor, Synic

from .shared import EOM, MASK, ROOT, boot, enable

# The last processor that a root has, and the last ids that P7 lets pass: of a port and a connection for messages.
# Those for flags are one less.
LAST = hvpm.Caller(1, 63)
ID = 0xFFFFFF
SINT15 = hvpm.Msr.SINT15

# A caller who doesn't exist: P1 refuses its calls.
BY = (0x0102030405060708, 0x41424344)
WHO = "72623859790382856.1094861636 "
OF, OTHER, VP, NUMBER, VALUE = 0x1112131415161718, 0x2122232425262728, 0x31323334, 0x51525354, 0x6162636465666768
REGISTERS = [(VP, VALUE), (NUMBER, OTHER)]


class Last(unittest.TestCase):
    """A root with the most pages and processors."""

    def setUp(self):
        self.machine = hvpm.Machine.boot(mask=MASK, pages=65_536, pool=1000, vps=64)
        self.addCleanup(self.machine.destroy)
        enable(self.machine, LAST, {15: 0xFF})

    def has(self, reply, effect):
        self.assertTrue(reply.is_served, reply.line)
        self.assertEqual(reply.effect, effect, reply.line)

    def links(self):
        """Messages and event flags of the last SINT. Two messages are posted, and the last flag is set."""
        machine, how = self.machine, {"peer": 1, "sint": 15, "vp": 63}
        flags = {"type": PortType.EVENTS}
        self.has(machine.create_port(LAST, id=ID, **how), Nothing())
        self.has(machine.create_port(LAST, id=ID - 1, base_flag=2047, flag_count=1, **how, **flags), Nothing())
        self.has(machine.create_port(LAST, id=ID - 2, flag_count=2048, **how, **flags), Nothing())
        self.has(machine.connect_port(LAST, id=ID, port_partition=1, port=ID), Nothing())
        for id in (ID - 1, ID - 2):
            self.has(machine.connect_port(LAST, id=id, port_partition=1, port=id, **flags), Nothing())
        shown = Synic(1, 63, shown=frozenset({15}), raised=frozenset({255}))
        self.has(machine.post_message(LAST, ID, 0x7FFFFFFF, b"\xab" * 240), shown)
        self.has(machine.post_message(LAST, ID, 0x7FFFFFFF), Synic(1, 63, waiting=frozenset({15})))
        flag = Synic(1, 63, flag=Flag(15, 2047, True), raised=frozenset({255}))
        self.has(machine.signal_event(LAST, ID - 1, 0), flag)
        self.has(machine.signal_event(LAST, ID - 2, 2047), Nothing())
        return machine, shown

    def test_the_last_slot_flag_and_vector_are_taken(self):
        machine, shown = self.links()
        message = Message(type=0x7FFFFFFF, port=ID, payload=b"\xab" * 240, is_pending=True)
        self.assertEqual(machine.read_slot(LAST, 15).value, message)
        self.assertEqual(Message.of(machine.peek_slot(LAST, 15)), message)
        self.assertEqual(machine.read_slot(LAST, 15).output, machine.peek_slot(LAST, 15))
        self.assertEqual((machine.peek_flags(LAST, 15), machine.read_flags(LAST, 15).value), ({2047}, {2047}))
        self.assertEqual(machine.read_flags(LAST, 15).output, bytes(255) + b"\x80")
        self.assertEqual((machine.peek_pending(LAST), machine.take_interrupt(LAST).value), ({255}, 255))
        self.assertEqual((machine.peek_msr(LAST, SINT15), machine.read_msr_value(LAST, SINT15).value), (255, 255))
        self.assertEqual(machine.read_msr(LAST, SINT15).output, b"\xff" + bytes(7))
        self.has(machine.clear_flag(LAST, 15, 2047), Synic(1, 63, flag=Flag(15, 2047, False)))
        self.has(machine.clear_slot(LAST, 15), Synic(1, 63, shown=frozenset({15}), freed=ID))
        self.assertIsNone(machine.read_slot(LAST, 15).value)
        self.has(machine.write_msr(LAST, EOM, 2**64 - 1), shown)
        message = Message(type=0x7FFFFFFF, port=ID, payload=b"", is_pending=False)
        self.assertEqual(machine.read_slot(LAST, 15).value, message)

    def test_a_page_has_the_last_slot_and_flag(self):
        machine, _ = self.links()
        memory, pages = mmap.mmap(-1, 8192), hvpm.Pages(LAST)
        memory[:] = b"\xa5" * 8192
        pages.move(machine, memoryview(memory)[:4096], memoryview(memory)[4096:])
        self.assertEqual((pages.shown, memory[:3840]), ({15}, bytes(3840)))
        self.assertEqual(Message.of(memory[3840:4096]).payload, b"\xab" * 240)
        self.assertEqual(memory[4096:], bytes(4095) + b"\x80")
        memory[3840:3844] = bytes(4)
        pages.before(machine)
        pages.after(machine, machine.write_msr(LAST, EOM, 0))
        self.assertEqual(Message.of(memory[3840:4096]), Message(0x7FFFFFFF, ID, b"", False))
        self.assertEqual([pages.vector(machine), pages.vector(machine)], [255, None])

    def test_looks_find_the_last_of_all(self):
        machine, _ = self.links()
        port = Port(1, ID - 1, 1, PortType.EVENTS, sint=15, vp=63, base_flag=2047, flag_count=1)
        self.assertEqual(machine.peek_port(1, ID - 1), port)
        self.assertEqual(machine.peek_connection(1, ID).port, ID)
        machine.create_port(LAST, id=0, peer=SELF, sint=0)
        port = Port(1, 0, 1, PortType.MESSAGES, sint=0, vp=ANY_VP, base_flag=0, flag_count=0)
        self.assertEqual(machine.peek_port(1, 0), port)
        self.assertEqual((list(machine.vps(1)), machine.vp_after(1, 62)), (list(range(64)), 63))
        self.assertEqual(list(machine.ports(1)), [0, ID - 2, ID - 1, ID])
        self.assertEqual(list(machine.connections(1)), [ID - 2, ID - 1, ID])
        self.assertEqual((machine.vp_after(1), machine.port_after(1), machine.connection_after(1)), (0, 0, ID - 2))
        runs = [PageRun(0, 1000, True), PageRun(1000, 64_536, False)]
        self.assertEqual((list(machine.page_runs(1)), machine.page_after(1)), (runs, runs[0]))
        self.assertEqual(machine.page_after(1, 65_534), PageRun(65_535, 1, False))
        self.assertEqual([machine.page_owner(page) for page in (65_535, 65_536)], [1, None])
        machine.delete_port(LAST, 1, ID)
        machine.disconnect_port(LAST, 1, ID)
        machine.disconnect_port(LAST, 1, ID - 1)
        row = machine.peek_partition(1)
        self.assertEqual((row.vps, row.children, row.ports, row.connections), (64, 0, 3, 1))

    def test_the_last_elements_and_the_last_processor_are_taken(self):
        machine, pages = self.machine, range(65_536 - 511, 65_536)
        machine.create_partition(LAST, 2**64 - 1).expect()
        machine.initialize_partition(LAST, 2).expect()
        self.has(machine.deposit_memory(LAST, 2, pages, 510), Page(65_535, partition=2, pooled=True))
        self.assertEqual(machine.deposit_pages(LAST, 2, pages[:510]).count, 510)
        reply = machine.withdraw_memory(LAST, SELF, 512, 511)
        self.has(reply, Page(0, partition=1, pooled=False))
        self.assertEqual((reply.value, machine.withdraw_memory(LAST, SELF, 3, 2).value), (0, 1))
        self.has(machine.create_vp(LAST, 2, 63), Processor(2, 63))
        self.assertEqual(machine.get_memory_balance(LAST, 2).value, Balance(available=507, in_use=4))
        row = machine.peek_partition(2)
        self.assertEqual((row.depth, row.vps, row.pooled, row.in_use), (1, 1, 511, 4))
        name = hvpm.Register.SINT15
        pairs = [(name, 0x10080 + at) for at in range(127)]
        self.has(machine.set_vp_registers(LAST, 2, 63, pairs, 126), Nothing())
        names = [hvpm.Register.RAX] * 255 + [name]
        self.assertEqual(machine.get_vp_registers(LAST, 2, 63, names, 255).value, 0x100FE)
        self.assertEqual(machine.read_registers(LAST, 2, 63, [name]).values, (0x100FE,))
        self.assertEqual(machine.write_registers(LAST, 2, 63, pairs[:1]).count, 1)
        self.assertEqual(machine.peek_msr((2, 63), SINT15), 0x10080)
        self.has(machine.delete_vp(LAST, 2, 63), Processor(2, 63))
        machine.finalize_partition(LAST, 2).expect()
        self.has(machine.delete_partition(LAST, 2), Pages(source=2, target=1))

    def test_a_run_is_as_long_as_its_outputs(self):
        rcx = 512 << 32 | hvpm.Call.WITHDRAW_MEMORY
        run = self.machine.run(LAST, rcx, input=b"\1")
        self.assertEqual((run.events, len(run.outputs), run.reply.next), (511, 4088, 511))
        run = self.machine.run_at_most(LAST, 2**32 - 1, hvpm.next(rcx, run.reply), input=b"\1")
        self.assertEqual((run.events, run.reply.answer, run.reply.result), (1, Answer.SERVED, 512 << 32))
        self.assertEqual(self.machine.deposit_pages(LAST, SELF, range(512)).count, 512)
        run = self.machine.run_at_most(LAST, 600, rcx, input=b"\1")
        self.assertEqual((run.events, run.reply.next), (511, 511))

    def test_a_list_that_is_refused_has_the_values_before(self):
        machine = self.machine
        made = machine.read_registers(LAST, 1, 0, [hvpm.Register.VP_INDEX, 0x99, hvpm.Register.RAX])
        self.assertEqual((made.count, made.values, made.reply.rule), (1, (0,), 21))
        made = machine.withdraw_pages(LAST, 1, 1000)
        self.assertEqual((made.count, len(made.values), made.reply.rule), (744, 744, hvpm.RuleNumber.P24))


class Whole(unittest.TestCase):
    """What the machine is given, as its record has it."""

    def check(self, take, *lines):
        """The events that P1 refuses are these lines of the script, without the caller."""
        with hvpm.Machine.boot(mask=MASK, pages=32, pool=12, vps=1, record=True) as machine:
            take(machine)
            record = machine.take_record()
        self.assertFalse(record.is_cut)
        for line in record.audit.splitlines():
            self.assertTrue(WHO in line and line.endswith(" P1"), line)
        self.assertEqual(record.script.splitlines()[1:], [WHO + line for line in lines])

    def test_calls_take_what_they_need(self):
        """Without the arguments that have a default."""

        def take(m):
            m.hypercall(BY, 0x4A)
            m.run(BY, 0x4A)
            m.run_at_most(BY, 1, 0x4A)
            m.create_partition(BY)
            m.get_next_child_partition(BY, OF)
            m.deposit_memory(BY, OF, [VALUE])
            m.withdraw_memory(BY, OF)
            m.get_vp_registers(BY, OF, VP, [NUMBER])
            m.set_vp_registers(BY, OF, VP, [(NUMBER, VALUE)])
            m.post_message(BY, NUMBER, VP)
            m.create_port(BY, id=NUMBER, peer=OTHER, sint=0xF3)
            m.connect_port(BY, id=NUMBER, port_partition=OTHER, port=VP)

        self.check(
            take,
            "call 0x4a 0x0 0x0 -",
            "call 0x4a 0x0 0x0 -",
            "call 0x4a 0x0 0x0 -",
            "call 0x40 0x0 0x0 -",
            "call 0x47 0x0 0x0 1817161514131211",
            "call 0x100000048 0x0 0x0 18171615141312116867666564636261",
            "call 0x100000049 0x0 0x0 1817161514131211",
            "call 0x100000050 0x0 0x0 1817161514131211343332310000000054535251",
            "call 0x100000051 0x0 0x0 18171615141312113433323100000000545352510000000000000000000000006867666564636261",
            "call 0x5c 0x0 0x0 545352510000000034333231",
            "call 0x95 0x0 0x0 ffffffffffffffff545352510000000028272625242322210100000000000000f3000000ffffffff",
            "call 0x96 0x0 0x0 ffffffffffffffff54535251000000002827262524232221343332310000000001",
        )

    def test_partitions_and_processors_arrive_whole(self):
        def take(m):
            m.create_partition(BY, VALUE)
            m.initialize_partition(BY, OF)
            m.finalize_partition(BY, OF)
            m.delete_partition(BY, OF)
            m.get_partition_property(BY, OF, Property.CPU_WEIGHT)
            m.set_partition_property(BY, OF, Property.CPU_CAP, VALUE)
            m.get_partition_id(BY)
            m.get_next_child_partition(BY, OF, OTHER)
            m.get_memory_balance(BY, OF)
            m.create_vp(BY, OF, VP)
            m.delete_vp(BY, OF, VP)

        self.check(
            take,
            "call 0x40 0x0 0x0 6867666564636261",
            "call 0x10041 0x1112131415161718 0x0 -",
            "call 0x10042 0x1112131415161718 0x0 -",
            "call 0x10043 0x1112131415161718 0x0 -",
            "call 0x44 0x0 0x0 1817161514131211030002",
            "call 0x45 0x0 0x0 181716151413121102000200000000006867666564636261",
            "call 0x46 0x0 0x0 -",
            "call 0x47 0x0 0x0 18171615141312112827262524232221",
            "call 0x4a 0x0 0x0 1817161514131211",
            "call 0x1004e 0x1112131415161718 0x31323334 -",
            "call 0x1004f 0x1112131415161718 0x31323334 -",
        )

    def test_lists_arrive_whole(self):
        names = [name for name, _ in REGISTERS]

        def take(m):
            m.deposit_memory(BY, OF, [VALUE, OTHER], 1)
            m.withdraw_memory(BY, OF, 0x432, 0x321)
            m.get_vp_registers(BY, OF, VP, names, 1)
            m.set_vp_registers(BY, OF, VP, REGISTERS, 1)
            m.deposit_pages(BY, OF, [VALUE, OTHER])
            m.withdraw_pages(BY, OF, 0x123)
            m.read_registers(BY, OF, VP, names)
            m.write_registers(BY, OF, VP, REGISTERS)
            m.deposit_memory(BY, OF, [0] * 0x10001)

        read = "181716151413121134333231000000003433323154535251"
        written = (
            "18171615141312113433323100000000" + "3433323100000000000000000000000068676665646362610000000000000000"
            "545352510000000000000000000000002827262524232221"
        )
        self.check(
            take,
            "call 0x1000200000048 0x0 0x0 181716151413121168676665646362612827262524232221",
            "call 0x321043200000049 0x0 0x0 1817161514131211",
            f"call 0x1000200000050 0x0 0x0 {read}",
            f"call 0x1000200000051 0x0 0x0 {written}",
            "call 0x200000048 0x0 0x0 181716151413121168676665646362612827262524232221",
            "call 0x12300000049 0x0 0x0 1817161514131211",
            f"call 0x200000050 0x0 0x0 {read}",
            f"call 0x200000051 0x0 0x0 {written}",
            "call 0xffff00000048 0x0 0x0 1817161514131211",
        )

    def test_ports_and_messages_arrive_whole(self):
        port = {"id": NUMBER, "peer": OTHER, "type": 0x41424344, "sint": 0xA1A2A3F3, "vp": VP}

        def take(m):
            m.delete_port(BY, OF, NUMBER)
            m.disconnect_port(BY, OF, NUMBER)
            m.post_message(BY, NUMBER, VP, b"\1\2\3")
            m.post_message(BY, NUMBER, VP, bytes(0x129))
            m.signal_event(BY, NUMBER, 0x7172)
            m.create_port(BY, partition=OF, **port, base_flag=0x7172, flag_count=0x8182)
            m.connect_port(BY, partition=OF, id=NUMBER, port_partition=OTHER, port=VP, type=0x41424344)

        self.check(
            take,
            "call 0x10058 0x1112131415161718 0x51525354 -",
            "call 0x1005b 0x1112131415161718 0x51525354 -",
            "call 0x5c 0x0 0x0 54535251000000003433323103000000010203",
            "call 0x5c 0x0 0x0 5453525100000000343332312901",
            "call 0x1005d 0x717251525354 0x0 -",
            "call 0x95 0x0 0x0 18171615141312115453525100000000282726252423222144434241"
            "00000000f3a3a2a13433323172718281",
            "call 0x96 0x0 0x0 181716151413121154535251000000002827262524232221343332310000000044434241",
        )

    def test_accesses_and_registers_arrive_whole(self):
        def take(m):
            m.hypercall(BY, 0x4A, VALUE, OTHER, b"\xab")
            m.run(BY, 0x4A, VALUE, OTHER, b"\xab", 16)
            m.run_at_most(BY, 1, 0x4A, VALUE, OTHER, b"\xab", 16)
            m.read_msr(BY, NUMBER)
            m.read_msr_value(BY, NUMBER)
            m.write_msr(BY, NUMBER, VALUE)
            m.read_slot(BY, 0xF3)
            m.clear_slot(BY, 0xF3)
            m.read_flags(BY, 0xF3)
            m.clear_flag(BY, 0xF3, 0x7172)
            m.take_interrupt(BY)

        called = "call 0x4a 0x6162636465666768 0x2122232425262728 ab"
        accesses = [
            "rdmsr 0x51525354",
            "rdmsr 0x51525354",
            "wrmsr 0x51525354 0x6162636465666768",
            "slot 243",
            "clearslot 243",
            "flags 243",
            "clearflag 243 29042",
            "interrupt",
        ]
        self.check(take, called, called, called, *accesses)
        self.assertEqual(hvpm.hypercall_line(BY, 0x4A, VALUE, OTHER, b"\xab"), f"{WHO}{called}\n")
        numbers = [(NUMBER,), (NUMBER, VALUE), (0xF3,), (0xF3,), (0xF3,), (0xF3, 0x7172), ()]
        for access, words, line in zip(Access, numbers, accesses[1:]):
            self.assertEqual(hvpm.access_line(BY, access, *words), f"{WHO}{line}\n")

    def test_lines_take_what_they_need(self):
        self.assertEqual(hvpm.hypercall_line(ROOT, 0x46), "1.0 call 0x46 0x0 0x0 -\n")
        words = ["rdmsr 0x0", "wrmsr 0x0 0x0", "slot 0", "clearslot 0", "flags 0", "clearflag 0 0", "interrupt"]
        self.assertEqual([hvpm.access_line(ROOT, each) for each in Access], [f"1.0 {line}\n" for line in words])

    def test_a_boot_arrives_whole(self):
        how = {"mask": 0xF7F6F5F4F3F2F1F0, "pages": 0xFEDC, "pool": 0x4321, "vps": 63}
        with hvpm.Machine.boot(**how, record=True) as machine:
            line = "boot 65244 17185 63 0xf7f6f5f4f3f2f1f0 4294967295\n"
            self.assertEqual((machine.take_record().script, hvpm.boot_line(**how, limit=2**32 - 1)), (line, line))
            self.assertEqual(machine.features(1), (0xF3F2F1F0, 0xF7F6F5F4, 0, 0))
            row = machine.peek_partition(1)
            self.assertEqual((row.mask, row.pooled, row.vps), (how["mask"], 0x4321, 63))

    def test_a_number_fits_its_argument(self):
        """The largest one arrives, and the next one is refused."""
        machine = boot()
        for take, largest in (
            (lambda number: machine.read_slot(ROOT, number), 2**8 - 1),
            (lambda number: machine.clear_flag(ROOT, 0, number), 2**16 - 1),
            (lambda number: machine.deposit_memory(ROOT, 1, [1], number), 2**16 - 1),
            (lambda number: machine.create_port(ROOT, id=1, peer=1, sint=1, base_flag=number), 2**16 - 1),
            (lambda number: machine.create_port(ROOT, id=1, peer=1, sint=number), 2**32 - 1),
            (lambda number: machine.read_msr(ROOT, number), 2**32 - 1),
            (lambda number: machine.post_message(ROOT, 1, number), 2**32 - 1),
            (lambda number: machine.delete_port(ROOT, number, 1), 2**64 - 1),
            (lambda number: machine.deposit_pages(ROOT, 1, [number]), 2**64 - 1),
            (lambda number: machine.get_vp_registers(ROOT, 1, 0, [number]), 2**32 - 1),
        ):
            events = machine.events
            take(largest)
            self.assertRaises(OverflowError, take, largest + 1)
            self.assertRaises(OverflowError, take, -1)
            self.assertEqual(machine.events, events + 1)


class Memory(unittest.TestCase):
    @unittest.skipUnless(os.path.exists("/proc/self/statm"), "this isn't Linux")
    def test_a_record_is_freed_with_its_machine(self):
        """Each record has half a megabyte."""

        def resident():
            return 4096 * int(Path("/proc/self/statm").read_text().split()[1])

        def record():
            with hvpm.Machine.boot(mask=MASK, pages=32, pool=12, vps=1, record=True) as machine:
                for _ in range(64):
                    machine.hypercall(ROOT, 511 << 32 | hvpm.Call.DEPOSIT_MEMORY, input=b"\xff" * 4096)

        record()
        before = resident()
        for _ in range(100):
            record()
        self.assertLess(resident(), before + (25 << 20))
