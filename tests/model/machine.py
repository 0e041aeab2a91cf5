"""The machine of docs/POLICY.md: a plain model, written from that page alone.

Each call checks its rules in their order, and changes something only after the last of them."""
from typing import NamedTuple

from model.tables import (
    ANY_VP, CALLS, CHILD_COST, CONNECTION_COST, DEPTHS, EOM, EVENTS, FLAGS, MASKED, MESSAGES, MSRS, NEW_MASK,
    NO_RESOURCES, PAGE, PAYLOAD, PORT_COST, PRIVILEGE_FLAGS, PROPERTIES, REGISTERS, ROOT, SCONTROL, SELF,
    SIEFP, SIMP, SINT_0, SINTS, STATUS, STORED, VP_COST, VP_INDEX, VPS,
)  # fmt: skip

OK, MORE, DENIED, FAULT = "ok", "more", "denied", "fault"
CREATED, ACTIVE, FINALIZED = "Created", "Active", "Finalized"


class Reply(NamedTuple):
    kind: str
    output: bytes = b""
    result: int = None  # of a hypercall
    rule: int = None  # which refuses
    next: int = None  # the start index of the next element


class Refusal(Exception):
    """A rule that doesn't hold."""

    def __init__(self, rule):
        super().__init__(rule)
        self.rule = rule


class BootRefused(Exception):
    """What of the configuration is refused: pages, pool, or vps."""


def need(rule, holds):
    if not holds:
        raise Refusal(rule)


def little(number, length=8):
    return number.to_bytes(length, "little")


# ---- The rows ----


class Port(NamedTuple):
    peer: int
    type: int
    sint: int
    vp: int
    base: int
    count: int
    born: int


class Connection(NamedTuple):
    partition: int
    port: int
    type: int
    born: int


class Message(NamedTuple):
    port: int
    born: int
    type: int
    payload: bytes


class Vp:
    """A virtual processor: registers, and for each SINT what it shows, what waits, and its flags."""

    def __init__(self, index):
        self.registers = {name: register.initially for name, register in REGISTERS.items()}
        self.registers[VP_INDEX] = index
        self.shown = [None] * SINTS
        self.waiting = [[] for _ in range(SINTS)]
        self.flags = [0] * SINTS
        self.pending = set()

    def is_ready(self, port_type):
        page = SIMP if port_type == MESSAGES else SIEFP
        return bool(self.registers[SCONTROL] & self.registers[page] & 1)

    def messages(self):
        for shown, waiting in zip(self.shown, self.waiting):
            yield from ([shown] if shown else []) + waiting

    def raise_vector(self, sint):
        value = self.registers[SINT_0 + sint]
        if not value & MASKED:
            self.pending.add(value & 0xFF)

    def show(self, sint):
        if self.shown[sint] is None and self.waiting[sint]:
            self.shown[sint] = self.waiting[sint].pop(0)
            self.raise_vector(sint)

    def post(self, sint, message):
        self.waiting[sint].append(message)
        self.show(sint)

    def signal(self, sint, flag):
        if not self.flags[sint] >> flag & 1:
            self.flags[sint] |= 1 << flag
            self.raise_vector(sint)

    def write(self, name, value):
        """Sets a register, or ends a message."""
        if name != EOM:
            self.registers[name] = value
        elif self.is_ready(MESSAGES):
            for sint in range(SINTS):
                self.show(sint)

    def slot(self, sint):
        message = self.shown[sint]
        if message is None:
            return bytes(256)
        head = little(message.type, 4) + bytes([len(message.payload), bool(self.waiting[sint]), 0, 0])
        return (head + little(message.port) + message.payload).ljust(256, b"\0")

    def take_interrupt(self):
        vector = max(self.pending, default=0)
        self.pending.discard(vector)
        return vector


class Partition:
    def __init__(self, parent, depth, mask):
        self.parent, self.depth, self.mask = parent, depth, mask
        self.life = CREATED
        self.properties = {code: initially for code, (_, _, initially) in PROPERTIES.items()}
        self.loose, self.pooled = set(), set()
        self.children, self.vps, self.ports, self.connections = set(), {}, {}, {}

    def has(self, privilege):
        return bool(self.mask >> privilege & 1)

    def in_use(self):
        return (CHILD_COST * len(self.children) + VP_COST * len(self.vps) + PORT_COST * len(self.ports)
                + CONNECTION_COST * len(self.connections))  # fmt: skip

    def available(self):
        return len(self.pooled) - self.in_use()

    def ready_vp(self, port):
        """The VP that a port selects, or None."""
        indexes = sorted(self.vps) if port.vp == ANY_VP else [port.vp]
        ready = (self.vps[index] for index in indexes if index in self.vps)
        return next((vp for vp in ready if vp.is_ready(port.type)), None)

    def stored(self, port_id, born):
        return sum((it.port, it.born) == (port_id, born) for vp in self.vps.values() for it in vp.messages())


def accepts(name, value):
    """Whether a register is written with this value."""
    if SINT_0 <= name < SINT_0 + SINTS:
        return value & 0xFF >= 16 or bool(value & MASKED)
    return REGISTERS[name].is_written


# ---- Hypercalls ----


class Frame:
    """A hypercall's input value and lists."""

    def __init__(self, rcx, rdx, r8, data):
        self.code, self.is_fast = rcx & 0xFFFF, bool(rcx >> 16 & 1)
        self.count, self.start = rcx >> 32 & 0xFFF, rcx >> 48 & 0xFFF
        self.reserved = rcx & (0x3FF << 17 | 0x1F << 27 | 0xF << 44 | 0xF << 60)
        self.rdx, self.r8 = rdx, r8
        self.data = little(rdx) + little(r8) if self.is_fast else data
        self.call = CALLS.get(self.code)

    def is_input(self):
        """P5, for a known code."""
        if self.reserved or (self.is_fast and not self.call.takes_fast):
            return False
        if not self.call.is_rep:
            return self.count == self.start == 0
        return self.start < self.count

    def is_aligned(self):
        """P6."""
        call, count = self.call, self.count
        lists = (self.rdx, call.input_length(count)), (self.r8, call.output_length(count))
        return self.is_fast or all(
            length == 0 or (at % 8 == 0 and at % PAGE + length <= PAGE) for at, length in lists
        )

    def field(self, at, size):
        """A field of the block; what is missing, or past the list, reads as zero."""
        data = self.data[: self.call.input_length(self.count)]
        return int.from_bytes(data[at : at + size], "little")

    def element(self, at, size):
        return self.field(self.call.header + self.start * self.call.element + at, size)

    def is_parameters(self):
        """P7: what of the block is well formed by itself."""
        ids = {0x58: (8,), 0x5B: (8,), 0x5C: (0,), 0x5D: (0,), 0x95: (8,), 0x96: (8, 24)}
        if any(self.field(at, 4) >> 24 for at in ids.get(self.code, ())):
            return False
        if self.code == 0x51:
            return self.element(24, 8) == 0
        if self.code == 0x5C:
            return 0 < self.field(8, 4) < 1 << 31 and self.field(12, 4) <= PAYLOAD
        if self.code == 0x96:
            return self.field(32, 4) in (MESSAGES, EVENTS)
        return self.code != 0x95 or self.is_port()

    def is_port(self):
        kind, base, count = self.field(24, 4), self.field(40, 2), self.field(42, 2)
        if kind not in (MESSAGES, EVENTS) or self.field(32, 4) >= SINTS:
            return False
        return kind == MESSAGES or (count >= 1 and base + count <= FLAGS)


class Machine:
    def __init__(self, pages, pool, vps, mask):
        if not 1 <= pages <= 65536:
            raise BootRefused("pages")
        if pool > pages:
            raise BootRefused("pool")
        if not 1 <= vps <= VPS or VP_COST * vps > pool:
            raise BootRefused("vps")
        root = Partition(None, 0, mask)
        root.life = ACTIVE
        root.pooled, root.loose = set(range(pool)), set(range(pool, pages))
        root.vps = {index: Vp(index) for index in range(vps)}
        self.partitions = {ROOT: root}
        self.next_id, self.served = ROOT + 1, 0

    def admit(self, by):
        """P1 to P3: the caller and its VP."""
        partition, index = by
        need(1, partition in self.partitions)
        caller = self.partitions[partition]
        need(2, caller.life == ACTIVE)
        need(3, index in caller.vps)
        return caller, caller.vps[index]

    # -- A hypercall --

    def hypercall(self, by, rcx, rdx, r8, data):
        """One event: a simple call, or the element at the start index."""
        frame = Frame(rcx, rdx, r8, data)
        try:
            caller, _ = self.admit(by)
            need(4, frame.call is not None)
            need(5, frame.is_input())
            need(6, frame.is_aligned())
            need(7, frame.is_parameters())
            need(8, caller.has(frame.call.privilege))
            target_id = self.target(by[0], frame)
            serve = getattr(self, frame.call.name)
            output = serve(frame, by[0], caller, target_id, self.partitions[target_id]) or b""
        except Refusal as refusal:
            return self.denied(frame, refusal.rule)
        self.served += 1
        if not frame.call.is_rep:
            return Reply(OK, output, 0)
        done = frame.start + 1
        if done < frame.count:
            return Reply(MORE, output, done << 32, next=done)
        return Reply(OK, output, done << 32)

    def denied(self, frame, rule):
        status = NO_RESOURCES if rule == 24 and frame.code == 0x49 else STATUS[rule]
        done = frame.start if frame.call and frame.is_input() else 0
        return Reply(DENIED, b"", done << 32 | status, rule)

    def target(self, caller_id, frame):
        """P9 and P10: the target's id."""
        if frame.call.target == "caller":
            return caller_id
        target_id = self.named(caller_id, frame.field(0, 8))
        need(9, target_id in self.partitions)
        is_child = self.partitions[target_id].parent == caller_id
        need(10, is_child or (frame.call.target == "either" and target_id == caller_id))
        return target_id

    @staticmethod
    def named(caller_id, field):
        return caller_id if field == SELF else field

    # -- Partitions --

    def HvCreatePartition(self, frame, caller_id, caller, target_id, target):
        need(14, caller.depth + 1 <= DEPTHS)
        need(24, caller.available() >= CHILD_COST)
        new = self.next_id
        self.partitions[new] = Partition(caller_id, caller.depth + 1, caller.mask & NEW_MASK)
        caller.children.add(new)
        self.next_id += 1
        return little(new)

    def HvInitializePartition(self, frame, caller_id, caller, target_id, target):
        need(12, target.life == CREATED)
        target.life = ACTIVE

    def HvFinalizePartition(self, frame, caller_id, caller, target_id, target):
        need(12, target.life in (CREATED, ACTIVE))
        need(13, not target.children)
        target.life = FINALIZED
        target.vps, target.ports, target.connections = {}, {}, {}

    def HvDeletePartition(self, frame, caller_id, caller, target_id, target):
        need(12, target.life in (CREATED, FINALIZED))
        caller.loose |= target.loose | target.pooled
        caller.children.remove(target_id)
        del self.partitions[target_id]

    def HvGetPartitionProperty(self, frame, caller_id, caller, target_id, target):
        code = frame.field(8, 4)
        need(11, code == PRIVILEGE_FLAGS or code in PROPERTIES)
        return little(target.mask if code == PRIVILEGE_FLAGS else target.properties[code])

    def HvSetPartitionProperty(self, frame, caller_id, caller, target_id, target):
        code, value = frame.field(8, 4), frame.field(16, 8)
        need(11, code == PRIVILEGE_FLAGS or code in PROPERTIES)
        need(12, target.life in (CREATED, ACTIVE))
        if code != PRIVILEGE_FLAGS:
            least, most, _ = PROPERTIES[code]
            need(20, least <= value <= most)
            target.properties[code] = value
            return
        need(18, value & ~caller.mask == 0)
        if target.life == CREATED:
            target.mask = value
        else:
            self.narrow(target, value)

    def narrow(self, partition, value):
        partition.mask &= value
        for child in partition.children:
            self.narrow(self.partitions[child], value)

    def HvGetPartitionId(self, frame, caller_id, caller, target_id, target):
        return little(caller_id)

    def HvGetNextChildPartition(self, frame, caller_id, caller, target_id, target):
        previous = frame.field(8, 8)
        need(15, previous == 0 or previous in target.children)
        return little(min((child for child in target.children if child > previous), default=0))

    # -- Pages --

    def HvDepositMemory(self, frame, caller_id, caller, target_id, target):
        page = frame.element(0, 8)
        need(12, target.life in (CREATED, ACTIVE))
        need(21, page in caller.loose)
        caller.loose.remove(page)
        target.pooled.add(page)

    def HvWithdrawMemory(self, frame, caller_id, caller, target_id, target):
        need(24, target.available() >= 1)
        page = min(target.pooled)
        target.pooled.remove(page)
        caller.loose.add(page)
        return little(page)

    def HvGetMemoryBalance(self, frame, caller_id, caller, target_id, target):
        return little(target.available()) + little(target.in_use())

    # -- Virtual processors --

    def HvCreateVp(self, frame, caller_id, caller, target_id, target):
        index = frame.field(8, 4)
        need(12, target.life == ACTIVE)
        need(19, index < VPS and index not in target.vps)
        need(24, target.available() >= VP_COST)
        target.vps[index] = Vp(index)

    def HvDeleteVp(self, frame, caller_id, caller, target_id, target):
        index = frame.field(8, 4)
        need(12, target.life == ACTIVE)
        need(19, index in target.vps)
        del target.vps[index]

    def register(self, frame, caller, target):
        """P12, P18 and P19 of a register: its VP, and its name."""
        index, name = frame.field(8, 4), frame.element(0, 4)
        need(12, target.life == ACTIVE)
        privilege = REGISTERS[name].privilege if name in REGISTERS else None
        need(18, privilege is None or caller.has(privilege))
        need(19, index in target.vps)
        return target.vps[index], name

    def HvGetVpRegisters(self, frame, caller_id, caller, target_id, target):
        vp, name = self.register(frame, caller, target)
        need(21, name in REGISTERS)
        return little(vp.registers[name]) + bytes(8)

    def HvSetVpRegisters(self, frame, caller_id, caller, target_id, target):
        vp, name = self.register(frame, caller, target)
        value = frame.element(16, 8)
        need(21, name in REGISTERS and accepts(name, value))
        vp.write(name, value)

    # -- Ports and connections --

    def HvCreatePort(self, frame, caller_id, caller, target_id, target):
        port_id, kind, vp = frame.field(8, 4), frame.field(24, 4), frame.field(36, 4)
        peer = self.named(caller_id, frame.field(16, 8))
        need(12, target.life == ACTIVE)
        need(15, peer in self.partitions)
        need(17, port_id not in target.ports)
        need(19, vp == ANY_VP or vp in target.vps)
        need(24, target.available() >= PORT_COST)
        base, count = (frame.field(40, 2), frame.field(42, 2)) if kind == EVENTS else (0, 0)
        target.ports[port_id] = Port(peer, kind, frame.field(32, 4), vp, base, count, self.served + 1)

    def HvDeletePort(self, frame, caller_id, caller, target_id, target):
        need(12, target.life == ACTIVE)
        need(17, frame.field(8, 4) in target.ports)
        del target.ports[frame.field(8, 4)]

    def HvConnectPort(self, frame, caller_id, caller, target_id, target):
        connection_id, port_id, kind = frame.field(8, 4), frame.field(24, 4), frame.field(32, 4)
        partition = self.named(caller_id, frame.field(16, 8))
        need(12, target.life == ACTIVE)
        need(15, partition in self.partitions)
        need(16, connection_id not in target.connections)
        port = self.partitions[partition].ports.get(port_id)
        need(17, port is not None)
        need(18, port.peer == target_id)
        need(21, port.type == kind)
        need(24, target.available() >= CONNECTION_COST)
        target.connections[connection_id] = Connection(partition, port_id, kind, port.born)

    def HvDisconnectPort(self, frame, caller_id, caller, target_id, target):
        need(12, target.life == ACTIVE)
        need(16, frame.field(8, 4) in target.connections)
        del target.connections[frame.field(8, 4)]

    # -- Messages and event flags --

    def reached(self, frame, caller):
        """P16, P17 and P19 of a connection: the port's partition, id and row."""
        need(16, frame.field(0, 4) in caller.connections)
        connection = caller.connections[frame.field(0, 4)]
        owner = self.partitions.get(connection.partition)
        port = owner.ports.get(connection.port) if owner else None
        need(17, port is not None and port.born == connection.born)
        need(19, port.vp == ANY_VP or port.vp in owner.vps)
        return owner, connection.port, port

    def HvPostMessage(self, frame, caller_id, caller, target_id, target):
        owner, port_id, port = self.reached(frame, caller)
        need(21, port.type == MESSAGES)
        vp = owner.ready_vp(port)
        need(22, vp is not None)
        need(23, owner.stored(port_id, port.born) < STORED)
        size = frame.field(12, 4)
        payload = little(frame.field(16, PAYLOAD), PAYLOAD)[:size]
        vp.post(port.sint, Message(port_id, port.born, frame.field(8, 4), payload))

    def HvSignalEvent(self, frame, caller_id, caller, target_id, target):
        owner, _, port = self.reached(frame, caller)
        flag = frame.field(4, 2)
        need(21, port.type == EVENTS and flag < port.count)
        vp = owner.ready_vp(port)
        need(22, vp is not None)
        vp.signal(port.sint, port.base + flag)

    # -- Accesses --

    def access(self, by, word, numbers):
        """One access: the word and the numbers of its line."""
        try:
            caller, vp = self.admit(by)
            output = getattr(self, f"access_{word}")(caller, vp, *numbers) or b""
        except Refusal as refusal:
            return Reply(FAULT, rule=refusal.rule)
        self.served += 1
        return Reply(OK, output)

    @staticmethod
    def msr(caller, number):
        """P25 and P26: the name of the register."""
        need(25, number in MSRS)
        name = MSRS[number]
        need(26, caller.has(REGISTERS[name].privilege))
        return name

    def access_rdmsr(self, caller, vp, number):
        return little(vp.registers[self.msr(caller, number)])

    def access_wrmsr(self, caller, vp, number, value):
        name = self.msr(caller, number)
        need(27, accepts(name, value))
        vp.write(name, value)

    def access_slot(self, caller, vp, sint):
        need(21, sint < SINTS)
        return vp.slot(sint)

    def access_clearslot(self, caller, vp, sint):
        need(21, sint < SINTS)
        vp.shown[sint] = None

    def access_flags(self, caller, vp, sint):
        need(21, sint < SINTS)
        return little(vp.flags[sint], FLAGS // 8)

    def access_clearflag(self, caller, vp, sint, flag):
        need(21, sint < SINTS and flag < FLAGS)
        vp.flags[sint] &= ~(1 << flag)

    def access_interrupt(self, caller, vp):
        return bytes([vp.take_interrupt()])

    # -- Looks --

    def look(self, by, word, *numbers):
        """The bytes that a look at a VP shows, or None where there is no such VP, SINT or MSR."""
        part, index = by
        vp = self.partitions[part].vps.get(index) if part in self.partitions else None
        if vp is None:
            return None
        if word == "pending":
            return little(sum(1 << vector for vector in vp.pending), 32)
        if word == "rdmsr":
            return little(vp.registers[MSRS[numbers[0]]]) if numbers[0] in MSRS else None
        if numbers[0] >= SINTS:
            return None
        return vp.slot(numbers[0]) if word == "slot" else little(vp.flags[numbers[0]], FLAGS // 8)

    # -- The table --

    def table(self):
        for number, it in sorted(self.partitions.items()):
            yield (f"partition {number} parent {it.parent or '-'} {it.life} mask {it.mask:016x} "
                   f"loose {len(it.loose)} pooled {len(it.pooled)} inuse {it.in_use()} vps {len(it.vps)} "
                   f"ports {len(it.ports)} connections {len(it.connections)}")  # fmt: skip
        yield f"pages {sum(len(it.loose) + len(it.pooled) for it in self.partitions.values())}"
