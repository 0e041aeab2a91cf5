"""A guest's pages beside the machine. The slots are those of docs/POLICY.md."""
import mmap
import unittest

from hvpm import Caller, Error, Pages, Status

from .shared import EOM, GUEST, POST, ROOT, SIGNAL, enable, with_child


class Guests(unittest.TestCase):
    def setUp(self):
        self.machine, self.memory = with_child(), mmap.mmap(-1, 4 * 4096)
        self.memory[:] = b"\xa5" * len(self.memory)
        enable(self.machine, GUEST, {2: 0x82, 3: 0x33})
        self.messages, self.flags, self.others, self.other_flags = (
            memoryview(self.memory)[at : at + 4096] for at in range(0, 4 * 4096, 4096)
        )

    def pages(self):
        pages = Pages(GUEST)
        pages.move(self.machine, self.messages, self.flags)
        return pages

    def post(self, pages, payload):
        pages.before(self.machine)
        reply = self.machine.post_message(ROOT, POST, 9, payload)
        pages.after(self.machine, reply)
        return reply

    def slot(self, page):
        """Type, size, flags and first byte of the payload of the slot of SINT 2."""
        return [page[2 * 256 + at] for at in (0, 4, 5, 16)]

    def free(self, page):
        """The guest lets the message of SINT 2 go."""
        page[2 * 256 : 2 * 256 + 4] = bytes(4)

    def test_messages_are_shown_and_let_go(self):
        machine, pages = self.machine, self.pages()
        self.assertEqual((bytes(self.messages), bytes(self.flags)), (bytes(4096), bytes(4096)))
        self.post(pages, b"a")
        self.assertEqual((self.slot(self.messages), pages.shown), ([9, 1, 0, ord("a")], {2}))
        self.assertEqual((pages.vector(machine), pages.vector(machine)), (0x82, None))
        self.post(pages, b"b")
        self.assertEqual(self.slot(self.messages), [9, 1, 1, ord("a")], "MessagePending is set")
        self.free(self.messages)
        self.assertFalse(pages.take_freed())
        pages.before(machine)
        self.assertEqual((pages.take_freed(), pages.take_freed(), pages.shown), (True, False, set()))
        pages.after(machine, machine.write_msr(GUEST, EOM, 0))
        self.assertEqual((self.slot(self.messages), pages.vector(machine)), ([9, 1, 0, ord("b")], 0x82))

    def test_flags_move_to_the_page(self):
        machine, pages = self.machine, self.pages()
        for _ in range(2):
            pages.after(machine, machine.signal_event(ROOT, SIGNAL, 2))
            self.assertEqual((pages.vector(machine), machine.peek_flags(GUEST, 3)), (0x33, set()))
            self.assertEqual(self.flags[3 * 256 + 1], 1 << 2)
            self.flags[3 * 256 + 1] = 0

    def test_pages_move_with_what_they_show(self):
        machine, pages = self.machine, self.pages()
        self.post(pages, b"a")
        pages.after(machine, machine.signal_event(ROOT, SIGNAL, 0))
        pages.move(machine, self.others, self.other_flags)
        self.assertEqual((self.slot(self.others), self.others[0]), ([9, 1, 0, ord("a")], 0))
        self.assertEqual(self.other_flags[3 * 256 + 1], 1)
        pages.move(machine, None, None)
        self.free(self.others)
        pages.before(machine)
        self.assertFalse(pages.take_freed(), "a page that was moved away is not read")

    def test_a_page_is_aligned_and_writable(self):
        pages = Pages(GUEST)
        halfway = memoryview(self.memory)[2048:6144]
        for buffer in (memoryview(self.memory)[8:4104], halfway, bytes(4096), bytearray(4095)):
            with self.assertRaises((ValueError, TypeError)):
                pages.move(self.machine, buffer, None)

    def test_pages_are_kept_after_an_error(self):
        """The library may use them then. There is no processor 2.9, so nothing can be shown."""
        memory, pages = mmap.mmap(-1, 4096), Pages((2, 9))
        with self.assertRaises(Error) as raised:
            pages.move(self.machine, memory, None)
        self.assertEqual(raised.exception.status, Status.NONE)
        with self.assertRaises(BufferError):
            memory.close()
        pages.move(self.machine, None, None)
        memory.close()

    def test_the_pages_before_an_error_are_kept_too(self):
        first, second, pages = mmap.mmap(-1, 4096), mmap.mmap(-1, 4096), Pages(GUEST)
        pages.move(self.machine, first, None)
        self.machine.delete_vp(ROOT, 2, 0).expect()
        self.assertRaises(Error, pages.move, self.machine, second, None)
        for memory in (first, second):
            self.assertRaises(BufferError, memory.close)

    def test_a_processor_that_goes_loses_its_pages(self):
        machine, pages, others = self.machine, self.pages(), Pages((1, 0))
        self.assertEqual((pages.of, others.of), (GUEST, Caller(1, 0)))
        others.after(machine, self.post(pages, b"a"))
        self.assertEqual((others.vector(machine), pages.vector(machine)), (None, 0x82))
        pages.after(machine, machine.delete_vp(ROOT, 2, 0))
        self.assertEqual((pages.shown, pages.take_freed()), (set(), True))
