#!/usr/bin/env python3
"""A test bench for a guest's driver, which sends each message back. It runs by itself, or in pytest."""
import unittest
from typing import List

from hvpm import Caller, Machine, Msr, RuleNumber

HOST, GUEST = Caller(1, 0), Caller(2, 0)
SINT, MESSAGE = 2, 7
HOST_VECTOR, GUEST_VECTOR = 0x40, 0x50


def enable(machine: Machine, by: Caller, vector: int) -> None:
    for msr, value in ((Msr.SCONTROL, 1), (Msr.SIMP, 1), (Msr.SINT2, vector)):
        machine.write_msr(by, msr, value).expect()


def receive(machine: Machine, by: Caller) -> bytes:
    """The payload of the message that is shown. It lets that go, so that the next one comes."""
    message = machine.read_slot(by, SINT).expect()
    assert message is not None, "no message is there"
    machine.clear_slot(by, SINT).expect()
    machine.write_msr(by, Msr.EOM, 0).expect()
    return message.payload


class EchoDriver:
    """The driver under test, at a processor of the guest."""

    def __init__(self, machine: Machine) -> None:
        self.machine = machine
        self.unsent: List[bytes] = []
        enable(machine, GUEST, GUEST_VECTOR)

    def interrupt(self) -> None:
        """Takes a message, and sends what the host's port has room for."""
        self.unsent.append(receive(self.machine, GUEST))
        while self.unsent and self.machine.post_message(GUEST, 1, MESSAGE, self.unsent[0]).is_served:
            del self.unsent[0]


class Bench(unittest.TestCase):
    def setUp(self) -> None:
        self.machine = m = Machine.boot(mask=0xF700000064, pages=64, pool=32, vps=1, record=True)
        child = m.create_partition(HOST).expect()
        m.initialize_partition(HOST, child).expect()
        m.deposit_pages(HOST, child, range(40, 46)).expect()
        m.create_vp(HOST, child, 0).expect()
        for ours, theirs in ((1, child), (child, 1)):  # port 1 of ours, to which theirs has connection 1
            m.create_port(HOST, partition=ours, id=1, peer=theirs, sint=SINT, vp=0).expect()
            m.connect_port(HOST, partition=theirs, id=1, port_partition=ours, port=1).expect()
        enable(m, HOST, HOST_VECTOR)
        self.driver = EchoDriver(m)

    def tearDown(self) -> None:
        self.machine.destroy()

    def send(self, payload: bytes) -> None:
        """Sends a message to the driver, and gives the driver its interrupts."""
        self.machine.post_message(HOST, 1, MESSAGE, payload).expect()
        while self.machine.take_interrupt(GUEST).value == GUEST_VECTOR:
            self.driver.interrupt()

    def test_a_message_comes_back(self) -> None:
        self.send(b"hello")
        self.assertEqual(self.machine.take_interrupt(HOST).value, HOST_VECTOR)
        self.assertEqual(receive(self.machine, HOST), b"hello")

    def test_none_is_lost_if_the_host_is_slow(self) -> None:
        for number in range(10):
            self.send(b"%d" % number)
        self.assertEqual(self.driver.unsent, [b"8", b"9"], "P23: a port stores 8 messages")
        received = [receive(self.machine, HOST) for _ in range(8)]
        self.send(b"10")
        received += [receive(self.machine, HOST) for _ in range(3)]
        self.assertEqual(received, [b"%d" % number for number in range(11)])

    def test_a_guest_that_turns_its_pages_off_gets_none(self) -> None:
        self.machine.write_msr(GUEST, Msr.SCONTROL, 0).expect()
        reply = self.machine.post_message(HOST, 1, MESSAGE, b"hello")
        self.assertEqual(reply.rule, RuleNumber.P22, self.machine.script())


if __name__ == "__main__":
    unittest.main()
