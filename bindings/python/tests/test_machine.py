"""Boot, hypercalls by their registers, accesses, and the lines of a script."""
import threading
import unittest

import hvpm
from hvpm import Access, Answer, Status

from .shared import FLAGS, MASK, ROOT, SLOT, boot, with_message_and_flag


class Machines(unittest.TestCase):
    def fails(self, status):
        """The block fails with this status of the library."""
        case = self

        class Failure:
            def __enter__(self):
                self.raised = case.assertRaises(hvpm.Error)
                self.raised.__enter__()

            def __exit__(self, *error):
                done = self.raised.__exit__(*error)
                case.assertIs(self.raised.exception.status, status)
                return done

        return Failure()

    def served(self, reply, event, output=b""):
        """An access is served with this output, and its line says which one it was."""
        self.assertEqual(reply.line, f"{event} ok {output.hex() or '-'}\n")
        self.assertEqual((reply.answer, reply.status, reply.result, reply.rule), (Answer.SERVED, 0, 0, None))
        self.assertEqual((reply.output, reply.is_served), (output, True))

    def fault(self, reply, event, rule):
        self.assertEqual(reply.line, f"{event} fault P{rule}\n")
        self.assertEqual((reply.answer, reply.status, reply.rule), (Answer.FAULT, None, rule))
        self.assertEqual((reply.output, reply.is_served, reply.value), (b"", False, None))

    def test_boots_are_refused(self):
        fits = {"mask": MASK, "pages": 32, "pool": 12, "vps": 3}
        hvpm.Machine.boot(**fits).destroy()
        refusals = [
            ({"pages": 0}, Status.PAGES),
            ({"pages": 65_537, "pool": 65_537, "vps": 0}, Status.PAGES),
            ({"pool": 33}, Status.POOL),
            ({"pages": 11, "vps": 65}, Status.POOL),
            ({"vps": 0}, Status.VPS),
            ({"vps": 4}, Status.VPS),
        ]
        for change, status in refusals:
            with self.subTest(change), self.fails(status):
                hvpm.Machine.boot(**{**fits, **change})
        self.assertEqual(str(hvpm.Error(Status.POOL)), "boot refused: pool")
        with self.assertRaises(TypeError):
            hvpm.Machine()

    def test_a_destroyed_machine_takes_nothing(self):
        with boot() as machine:
            self.assertEqual(machine.events, 0)
        with self.fails(Status.EMPTY):
            machine.get_partition_id(ROOT)
        with self.fails(Status.EMPTY):
            machine.peek_partition(1)
        machine.destroy()

    def test_slots_are_no_flags(self):
        machine = with_message_and_flag()
        self.served(machine.read_slot(ROOT, 2), "12 1.0 slot 2", SLOT)
        self.served(machine.read_slot(ROOT, 3), "13 1.0 slot 3", bytes(256))
        self.served(machine.read_flags(ROOT, 3), "14 1.0 flags 3", FLAGS)
        self.served(machine.read_flags(ROOT, 2), "15 1.0 flags 2", bytes(256))
        self.served(machine.clear_flag(ROOT, 3, 5), "16 1.0 clearflag 3 5")
        self.served(machine.read_flags(ROOT, 3), "17 1.0 flags 3", bytes(256))
        self.served(machine.read_slot(ROOT, 2), "18 1.0 slot 2", SLOT)
        self.served(machine.clear_slot(ROOT, 2), "19 1.0 clearslot 2")
        self.served(machine.read_slot(ROOT, 2), "20 1.0 slot 2", bytes(256))
        self.assertEqual(machine.events, 20)

    def test_numbers_arrive_whole(self):
        machine = boot()
        self.served(machine.clear_flag(ROOT, 15, 2047), "1 1.0 clearflag 15 2047")
        self.fault(machine.clear_flag(ROOT, 255, 65535), "2 1.0 clearflag 255 65535", 21)
        self.fault(machine.read_slot(ROOT, 16), "3 1.0 slot 16", 21)
        self.fault(machine.clear_slot(ROOT, 17), "4 1.0 clearslot 17", 21)
        self.fault(machine.read_flags(ROOT, 255), "5 1.0 flags 255", 21)
        value = 0xFEDCBA9876543211
        self.served(machine.write_msr(ROOT, 0x40000082, value), f"6 1.0 wrmsr 40000082 {value:x}")
        self.served(machine.read_msr(ROOT, 0x40000082), "7 1.0 rdmsr 40000082", value.to_bytes(8, "little"))
        self.fault(machine.read_msr(ROOT, 0xFFFFFFFF), "8 1.0 rdmsr ffffffff", 25)
        stranger = (2**64 - 2, 2**32 - 1)
        self.fault(machine.take_interrupt(stranger), "9 18446744073709551614.4294967295 interrupt", 1)

    def test_an_msr_is_read_as_a_number(self):
        machine = boot()
        reply = machine.read_msr_value(ROOT, 0x40000093)
        self.assertEqual((reply.value, reply.line), (0x10000, "1 1.0 rdmsr 40000093 ok 0000010000000000\n"))
        self.fault(machine.read_msr_value(ROOT, 0x40000000), "2 1.0 rdmsr 40000000", 25)

    def test_the_highest_vector_is_taken_first(self):
        machine = with_message_and_flag()
        vectors = [machine.take_interrupt(ROOT).output for _ in range(3)]
        self.assertEqual(vectors, [b"\x33", b"\x32", b"\0"])

    def test_what_does_not_fit_is_refused(self):
        machine = boot()
        for take in (
            lambda: machine.create_vp(ROOT, 1, 2**32),
            lambda: machine.create_vp(ROOT, 2**64, 0),
            lambda: machine.read_slot(ROOT, -1),
            lambda: machine.take_interrupt((1, 2**32)),
            lambda: machine.create_port(ROOT, id=2**32, peer=1, sint=2),
            lambda: machine.deposit_memory(ROOT, 1, [2**64]),
            lambda: machine.set_vp_registers(ROOT, 1, 0, [(0x20000, 2**64)]),
            lambda: machine.hypercall(ROOT, 2**64),
        ):
            with self.assertRaises(OverflowError):
                take()
        self.assertEqual(machine.events, 0)

    def test_a_call_continues_at_the_next_element(self):
        machine, rcx = boot(), 2 << 32 | 0x49
        reply = machine.hypercall(ROOT, rcx, input=b"\1")
        self.assertEqual(reply.line, "1 1.0 call 0000000200000049 more 0000000100000000 0000000000000000\n")
        self.assertEqual((reply.answer, reply.next, reply.result), (Answer.MORE, 1, 1 << 32))
        self.assertEqual(hvpm.next(0xFFF << 48 | rcx, reply), 1 << 48 | rcx)
        reply = machine.hypercall(ROOT, hvpm.next(rcx, reply), input=b"\1")
        self.assertEqual(reply.line, "2 1.0 call 0001000200000049 ok 0000000200000000 0100000000000000\n")
        self.assertEqual((reply.answer, reply.next, reply.is_served), (Answer.SERVED, 0, True))

    def test_rdx_and_r8_are_the_input_of_a_fast_call(self):
        machine = boot()
        reply = machine.hypercall(ROOT, 0x1004E, 7, 1)
        self.assertEqual(reply.line, "1 1.0 call 000000000001004e denied 000000000000000d P9\n")
        self.assertEqual((reply.answer, reply.status, reply.rule), (Answer.DENIED, 0xD, 9))
        reply = machine.hypercall(ROOT, 0x1004E, 1, 64)
        self.assertEqual((reply.status, reply.rule, reply.is_served), (0xE, 19, False))

    def test_elements_are_taken_in_a_run(self):
        machine, rcx = boot(), 3 << 32 | 0x49
        run = machine.run(ROOT, rcx, input=b"\1", outputs_size=31)
        self.assertEqual((run.events, run.reply.answer, run.reply.line), (2, Answer.MORE, ""))
        self.assertEqual(run.outputs, bytes(8) + b"\1" + bytes(7))
        run = machine.run(ROOT, hvpm.next(rcx, run.reply), input=b"\1")
        self.assertEqual((run.events, run.reply.answer, run.reply.result), (1, Answer.SERVED, 3 << 32))
        self.assertEqual(run.outputs, b"\2" + bytes(7))
        with self.fails(Status.SHORT):
            machine.run(ROOT, rcx, input=b"\1", outputs_size=15)
        self.assertEqual(machine.events, 3)

    def test_a_run_is_bounded(self):
        with boot() as machine:
            rcx = 8 << 32 | hvpm.Call.WITHDRAW_MEMORY
            run = machine.run_at_most(ROOT, 3, rcx, input=b"\1")
            self.assertEqual((run.events, run.reply.answer, run.reply.next), (3, hvpm.Answer.MORE, 3))
            run = machine.run_at_most(ROOT, 9, hvpm.next(rcx, run.reply), input=b"\1")
            self.assertEqual((run.events, run.reply.answer, len(run.outputs)), (5, hvpm.Answer.SERVED, 40))
            with self.assertRaises(hvpm.Error) as raised:
                machine.run_at_most(ROOT, 0, rcx, input=b"\1")
            self.assertEqual((raised.exception.status, machine.events), (hvpm.Status.SHORT, 8))

    def test_each_call_has_the_machine_alone(self):
        """A call waits as long as another one has the machine."""
        machine, pages = boot(), hvpm.Pages(ROOT)
        reply = machine.get_partition_id(ROOT)
        for call in (
            lambda: machine.get_partition_id(ROOT),
            lambda: machine.run(ROOT, 0x46),
            lambda: machine.peek_partition(1),
            lambda: machine.table(),
            lambda: pages.before(machine),
            lambda: pages.after(machine, reply),
            lambda: pages.move(machine, None, None),
            lambda: pages.vector(machine),
            lambda: machine.destroy(),
        ):
            thread = threading.Thread(target=call)
            with machine._lock:
                thread.start()
                thread.join(0.05)
                self.assertTrue(thread.is_alive())
            thread.join()

    def test_threads_share_a_machine(self):
        machine, lines = boot(), []

        def take():
            for _ in range(100):
                lines.append(machine.get_partition_id(ROOT).line)

        threads = [threading.Thread(target=take) for _ in range(4)]
        for thread in threads:
            thread.start()
        for thread in threads:
            thread.join()
        numbers = sorted(int(line.split()[0]) for line in lines)
        self.assertEqual((numbers, machine.events), (list(range(1, 401)), 400))

    def test_events_are_lines_of_a_script(self):
        by, rcx = (2, 1), 6 << 32 | 0x48
        line = hvpm.boot_line(mask=MASK, pages=32, pool=12, vps=1, limit=1000)
        self.assertEqual(line, "boot 32 12 1 0xf700000044 1000\n")
        line = hvpm.hypercall_line(by, rcx, 0x3000, 8, b"\2\0\xab")
        self.assertEqual(line, "2.1 call 0x600000048 0x3000 0x8 0200ab\n")
        self.assertEqual(hvpm.hypercall_line(ROOT, rcx), "1.0 call 0x600000048 0x0 0x0 -\n")
        whole = hvpm.hypercall_line(ROOT, rcx, input=bytes(4096))
        self.assertEqual(hvpm.hypercall_line(ROOT, rcx, input=bytes(4097)), whole)
        lines = [
            ((Access.READ_MSR, 0x40000092), "rdmsr 0x40000092"),
            ((Access.WRITE_MSR, 0x40000092, 0x32), "wrmsr 0x40000092 0x32"),
            ((Access.READ_SLOT, 2), "slot 2"),
            ((Access.CLEAR_SLOT, 255), "clearslot 255"),
            ((Access.READ_FLAGS, 0), "flags 0"),
            ((Access.CLEAR_FLAG, 3, 65535), "clearflag 3 65535"),
            ((Access.TAKE_INTERRUPT,), "interrupt"),
        ]
        for access, words in lines:
            self.assertEqual(hvpm.access_line(by, *access), f"2.1 {words}\n")
        with self.fails(Status.NONE):
            hvpm.access_line(by, 7)
