"""Machines that tests begin with."""
import hvpm

MASK = 0xF700000044
ROOT = hvpm.Caller(1, 0)
GUEST = hvpm.Caller(2, 0)
EOM = 0x40000084
EVENTS = {"type": hvpm.PortType.EVENTS}

# The root's connections to the ports of the child of `with_child`.
POST, SIGNAL = 1, 2


def boot(pages=32, pool=12, vps=1):
    return hvpm.Machine.boot(mask=MASK, pages=pages, pool=pool, vps=vps)


def enable(machine, by, vectors):
    """Makes a processor ready for messages and event flags. Each SINT raises its vector."""
    registers = {0x40000080: 1, 0x40000082: 1, 0x40000083: 1}
    registers.update({0x40000090 + sint: vector for sint, vector in vectors.items()})
    for msr, value in registers.items():
        assert machine.write_msr(by, msr, value).is_served


def with_message_and_flag():
    """A machine after 11 events: SINT 2 of processor 1.0 shows a message and raised 0x32, and flag 5 of SINT
    3 is set and raised 0x33."""
    machine = boot()
    enable(machine, ROOT, {2: 0x32, 3: 0x33})
    replies = [
        machine.create_port(ROOT, id=2, peer=1, sint=2, vp=0),
        machine.connect_port(ROOT, id=2, port_partition=1, port=2),
        machine.create_port(ROOT, id=3, peer=1, sint=3, vp=0, flag_count=8, **EVENTS),
        machine.connect_port(ROOT, id=3, port_partition=1, port=3, **EVENTS),
        machine.post_message(ROOT, 2, 1, b"h"),
        machine.signal_event(ROOT, 3, 5),
    ]
    assert all(reply.is_served for reply in replies) and machine.events == 11
    return machine


SLOT = bytes([1, 0, 0, 0, 1, 0, 0, 0, 2]).ljust(16, b"\0") + b"h".ljust(240, b"\0")
FLAGS = bytes([0x20]).ljust(256, b"\0")


def with_child(**how):
    """A root, and partition 2 with processor 0 and 12 pages, from 20 on. The root has connection POST to its
    port 5 for messages at SINT 2, and SIGNAL to its port 7 for the flags from 8 on at SINT 3."""
    machine = hvpm.Machine.boot(mask=MASK, pages=64, pool=16, vps=1, **how)
    flags = {"base_flag": 8, "flag_count": 4}
    replies = [machine.create_partition(ROOT), machine.initialize_partition(ROOT, 2)]
    replies += [machine.deposit_memory(ROOT, 2, range(20, 32), at) for at in range(12)]
    replies += [
        machine.create_vp(ROOT, 2, 0),
        machine.create_port(ROOT, partition=2, id=5, peer=1, sint=2, vp=0),
        machine.create_port(ROOT, partition=2, id=7, peer=1, sint=3, vp=0, **flags, **EVENTS),
        machine.connect_port(ROOT, id=POST, port_partition=2, port=5),
        machine.connect_port(ROOT, id=SIGNAL, port_partition=2, port=7, **EVENTS),
    ]
    assert all(reply.is_served for reply in replies)
    return machine
