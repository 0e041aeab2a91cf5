"""Random scripts. An author steps the model while it writes, so that most of what it names is there."""
from model.machine import ACTIVE, BootRefused
from model.script import PHASE_VPS, Line, Reader, Run
from model.tables import (
    ANY_VP, CALLS, DEPTHS, EOM, EVENTS, MASKED, MESSAGES, MSRS, NEW_MASK, PAGE, PRIVILEGE_FLAGS, PROPERTIES,
    REGISTERS, ROOT, SCONTROL, SELF, SIEFP, SIMP, SINT_0, VP_COST, VPS,
)  # fmt: skip

ALL = 0x000000F700000044
JUNK = (0, 1, 2, 7, 8, 63, 64, 255, 2047, 2048, 65535, 65536, 1 << 24, ANY_VP - 1, ANY_VP, 1 << 63, SELF - 1,
        SELF)  # fmt: skip
CPUS = (0, 1, 99, 100, 10000, 10001, 65536, 65537, 1 << 32, SELF)
VECTORS = (0, 15, 16, 17, 0x30, 0x41, 255)

# Where a block has bytes that no field covers: each from a place on, so many.
GAPS = {
    **dict.fromkeys((0x44, 0x45, 0x4E, 0x4F, 0x50, 0x51, 0x58, 0x5B), ((12, 4),)), 0x5C: ((4, 4),),
    0x5D: ((6, 2),), 0x95: ((12, 4), (28, 4), (44, 4)), 0x96: ((12, 4), (28, 4), (36, 12)),
}  # fmt: skip

# How often each kind of line is written, by theme.
CALL_NAMES = {call.name: code for code, call in CALLS.items()}
SYNIC = {"HvPostMessage": 12, "HvSignalEvent": 12, "slot": 6, "clearslot": 6, "flags": 4, "clearflag": 5,
         "interrupt": 8, "wrmsr": 10, "rdmsr": 2, "burst": 4}  # fmt: skip
LINKS = {"HvCreatePort": 6, "HvConnectPort": 7, "HvDeletePort": 3, "HvDisconnectPort": 3}
TREE = {"HvCreatePartition": 6, "HvInitializePartition": 6, "HvFinalizePartition": 3, "HvDeletePartition": 4,
        "HvGetPartitionProperty": 3, "HvSetPartitionProperty": 6, "HvGetNextChildPartition": 4,
        "HvGetPartitionId": 1}  # fmt: skip
PAGES = {"HvDepositMemory": 8, "HvWithdrawMemory": 6, "HvGetMemoryBalance": 4}
VP_CALLS = {"HvCreateVp": 5, "HvDeleteVp": 3}
REGISTERS_OF_VPS = {"HvGetVpRegisters": 6, "HvSetVpRegisters": 8}
EVEN = {**dict.fromkeys([*CALL_NAMES, *SYNIC], 2), "odd": 6, "burst": 1}
THEMES = {
    "mail": {**SYNIC, "HvSetVpRegisters": 5, "HvDeleteVp": 1, "HvCreateVp": 1, **dict.fromkeys(LINKS, 1)},
    "registers": {**REGISTERS_OF_VPS, "rdmsr": 10, "wrmsr": 10, "interrupt": 1, **VP_CALLS},
    "tree": {**TREE, **VP_CALLS, "HvDepositMemory": 3},
    "pages": {**PAGES, **TREE, **VP_CALLS, "HvCreatePort": 2, "HvConnectPort": 2},
    "ports": {**LINKS, **VP_CALLS, "burst": 2, "HvPostMessage": 5, "HvSignalEvent": 5,
              "HvFinalizePartition": 1},
    "even": EVEN,
    "refusals": {**EVEN, "odd": 60},
}


def little(number, size):
    return (number & (1 << 8 * size) - 1).to_bytes(size, "little")


class Author:
    """Writes the lines of one script."""

    def __init__(self, random, theme, has_limit=True):
        self.random, self.theme, self.reader = random, theme, Reader()
        # How often an author names something that may be there or not.
        self.wild = 0.5 if theme == "refusals" else random.choice((0.01, 0.05, 0.15))
        self.lines = []
        self.boot(self.configuration(has_limit))

    # -- Choosing --

    def chance(self, part):
        return self.random.random() < part

    def some(self, there, *else_):
        """One of what is there, or sometimes something else."""
        there = list(there)
        if there and not self.chance(self.wild):
            return self.random.choice(there)
        return self.random.choice([*else_, *JUNK])

    def configuration(self, has_limit):
        lacks = 1 << self.random.choice((2, 2, 6, 6, *range(32, 40)))
        mask = self.random.choice((ALL, ALL, ALL, SELF, ALL & ~lacks, self.random.getrandbits(64)))
        limit = self.random.randrange(60) if has_limit and self.chance(0.05) else 100_000
        pages = self.random.choice((24, 100, 200, 256, 256, 3000))
        pool = self.random.randrange(12, pages) if self.chance(0.1) else pages // 2
        has_many = pool >= VP_COST * VPS and self.chance(0.2)
        vps = self.random.choice((40, 64) if has_many else (1, 2, 3))
        return pages, pool, vps, mask, limit

    def boot(self, values):
        try:
            self.run = Run(values)
        except BootRefused:
            self.run = None
        self.reader.is_booted = self.run is not None
        self.write(f"boot {' '.join(self.number(value) for value in values)}")

    def number(self, value):
        """A number in one of its forms."""
        if self.chance(0.05):
            return self.random.choice((f"{value:#018x}", f"0x{value:X}", f"00{value}"))
        return f"{value:#x}" if value > 9 else str(value)

    def write(self, line):
        """Writes a line, unless its VP is one too many in this phase. The model takes it where it is one of
        a VP."""
        if self.chance(0.02):
            line = self.random.choice((f"  {line} ", line.replace(" ", "  "), line, f"# odd \t\xff\n{line}"))
        found = self.reader.read(line.split("\n")[-1])
        if found == "too many processors":
            return
        self.lines.append(line)
        if isinstance(found, Line):
            for _ in self.run.lines(found):
                pass

    def text(self):
        return "\n".join(self.lines) + ("" if self.chance(0.2) else "\n")

    # -- What is there --

    @property
    def partitions(self):
        return self.run.machine.partitions

    def callers(self):
        return [(id, vp) for id, partition in self.partitions.items() for vp in partition.vps]

    def caller(self):
        """A VP, mostly one that exists and fits in this phase."""
        by = self.random.choice(self.callers() or [(ROOT, 0)])
        if self.chance(self.wild):
            by = self.other_caller()
        known = sorted(self.reader.vps)
        return self.random.choice(known) if by not in known and len(known) >= PHASE_VPS else by

    def other_caller(self):
        """One that P1, P2 or P3 refuses, mostly."""
        resting = [id for id, it in self.partitions.items() if it.life != ACTIVE]
        partition = self.random.choice(self.random.choice((JUNK, resting or JUNK, list(self.partitions))))
        return partition, self.random.choice((0, 1, 2, 63, 64, ANY_VP))

    def relative(self, by, is_child=False):
        """A partition, as a caller names it: mostly a child, or itself. P10 refuses the others that exist."""
        there = sorted(self.partitions[by[0]].children) if by[0] in self.partitions else []
        others = [id for id in self.partitions if id != by[0] and id not in there]
        if others and self.chance(self.wild):
            return self.random.choice(others)
        if not is_child or not there:
            there += [by[0], SELF]
        return self.some(there, *self.partitions)

    def row(self, by, named):
        """The partition that a caller names, or the root's where it is none."""
        return self.partitions.get(by[0] if named == SELF else named, self.partitions[ROOT])

    def small_id(self, there):
        """A port or a connection, mostly one of a few."""
        return self.some([*there, *there, 1, 2, 3, 4, 0x123456], 0x00FFFFFF, 0x01000000, 0x01000001)

    # -- Calls --

    def call(self, by, code, block=b"", count=0, start=0):
        """A line of a call, mostly with the shape that P5 and P6 want."""
        call = CALLS[code]
        block = self.filled(code, block) if self.chance(0.3) else block
        fast = call.takes_fast and len(block) <= 16 and self.chance(0.5)
        rcx = code | fast << 16 | count << 32 | start << 48
        if self.chance(self.wild / 4):
            rcx ^= 1 << self.random.randrange(16, 64)
        if fast:
            first, second = (int.from_bytes(block.ljust(16, b"\0")[at : at + 8], "little") for at in (0, 8))
            data = self.random.choice((b"", b"\xff"))
        else:
            first, second = self.address(call.input_length(count)), self.address(call.output_length(count))
            data = self.cut(block)
        self.call_line(by, rcx, first, second, data)

    def filled(self, code, block):
        """A list with anything where no field is, and for a fast call behind it."""
        gaps = [*GAPS.get(code, ())]
        if code == 0x51:
            gaps += [(at + 4, 12) for at in range(16, len(block), 32)]
        filled = bytearray(block)
        for at, size in gaps:
            filled[at : at + size] = self.random.randbytes(len(block[at : at + size]))
        has_r8 = CALLS[code].takes_fast and len(block) == 8
        return bytes(filled) + (self.random.randbytes(8) if has_r8 else b"")

    def call_line(self, by, rcx, first, second, data):
        text = data.hex() if data else "-"
        text = text.upper() if self.chance(0.02) else text
        numbers = " ".join(map(self.number, (rcx, first, second)))
        self.write(f"{by[0]}.{by[1]} call {numbers} {text}")

    def address(self, length):
        """Where a list is, mostly as P6 wants it."""
        page = self.random.choice((0, 1, 0x1F, self.random.getrandbits(20), (1 << 52) - 1)) * PAGE
        room = max(0, PAGE - max(length, 8))
        inside = page + self.random.choice((0, room & ~7, self.random.randrange(0, room + 1) & ~7))
        if self.chance(self.wild / 2):
            inside = page + self.random.choice((1, 4, (room & ~7) + 1, PAGE - 8, PAGE - 1))
        return inside

    def cut(self, block):
        """A list as it is, with bytes behind it, without zeros at its end, or cut anywhere."""
        if self.chance(0.05):
            return block + self.random.randbytes(self.random.choice((1, 8, 300)))
        if self.chance(0.05):
            return block[: self.random.randrange(len(block) + 1)]
        return block.rstrip(b"\0") if self.chance(0.1) else block

    def fields(self, by, code, *fields):
        """A simple call with a block of fields, as pairs of value and size."""
        self.call(by, code, b"".join(little(value, size) for value, size in fields))

    def rep(self, by, code, header, elements):
        """A rep call, from some element on."""
        if self.chance(self.wild):
            elements = elements[: self.random.randrange(len(elements) + 1)]
        start = self.random.randrange(len(elements) + 1) if self.chance(0.15) else 0
        self.call(by, code, header + b"".join(elements), len(elements), start)

    def several(self, most=5):
        return self.random.choice((1, 1, 2, 3, most))

    # -- Lines by name --

    def some_lines(self, count):
        """Lines of the theme. Where no VP is left, each further one would only fail P3."""
        for _ in range(count if self.callers() else 5):
            self.line()
            if not self.callers() and self.chance(0.5):
                return

    def line(self):
        """One line of the theme."""
        weights = THEMES[self.theme]
        name = self.random.choices(list(weights), weights.values())[0]
        getattr(self, name)(self.caller())

    def HvCreatePartition(self, by):
        self.fields(by, 0x40, (self.some([0]), 8))

    def HvInitializePartition(self, by):
        self.fields(by, 0x41, (self.relative(by, True), 8))

    def HvFinalizePartition(self, by):
        self.fields(by, 0x42, (self.relative(by, True), 8))

    def HvDeletePartition(self, by):
        self.fields(by, 0x43, (self.relative(by, True), 8))

    def HvGetPartitionProperty(self, by):
        self.fields(by, 0x44, (self.relative(by), 8), (self.some([PRIVILEGE_FLAGS, *PROPERTIES]), 8))

    def HvSetPartitionProperty(self, by):
        code = self.some([*PROPERTIES, *[PRIVILEGE_FLAGS] * len(PROPERTIES)])
        value = self.random.choice(CPUS)
        if code == PRIVILEGE_FLAGS:
            mask = self.partitions[by[0]].mask if by[0] in self.partitions else ALL
            value = self.random.choice((mask, mask, mask & NEW_MASK, mask & self.random.getrandbits(64)))
            value = value ^ (1 << self.random.randrange(64)) if self.chance(self.wild + 0.05) else value
        self.fields(by, 0x45, (self.relative(by, True), 8), (code, 8), (value, 8))

    def HvGetPartitionId(self, by):
        self.fields(by, 0x46)

    def HvGetNextChildPartition(self, by):
        parent = self.relative(by)
        previous = self.some([0, *self.row(by, parent).children], *self.partitions)
        previous = SELF if self.chance(0.05) else previous
        self.fields(by, 0x47, (parent, 8), (previous, 8))

    def HvDepositMemory(self, by):
        loose = sorted(self.partitions[by[0]].loose) if by[0] in self.partitions else []
        pages = [self.some(loose) for _ in range(self.random.choice((1, 3, 8, 17, 40)))]
        pages = loose[:: self.random.choice((2, 3))][:200] if loose and self.chance(0.1) else pages
        self.rep(by, 0x48, little(self.relative(by), 8), [little(page, 8) for page in pages])

    def HvWithdrawMemory(self, by):
        self.rep(by, 0x49, little(self.relative(by), 8), [b""] * self.several(20))

    def HvGetMemoryBalance(self, by):
        self.fields(by, 0x4A, (self.relative(by), 8))

    def of_vp(self, by, is_free=False):
        """The fields that name a VP, or a free index."""
        partition = self.relative(by)
        there = self.row(by, partition).vps
        indexes = [index for index in (0, 1, 2, 63) if index not in there] if is_free else there
        return (partition, 8), (self.some(indexes, 0, 1, 63, 64), 8)

    def HvCreateVp(self, by):
        self.fields(by, 0x4E, *self.of_vp(by, True))

    def HvDeleteVp(self, by):
        self.fields(by, 0x4F, *self.of_vp(by))

    def register(self):
        return self.some([*REGISTERS, EOM, EOM, SCONTROL, SIMP, SIEFP]) & ANY_VP

    def value(self, name):
        """A value, mostly one that the register accepts."""
        if name in (SCONTROL, SIMP, SIEFP):
            return self.random.choice((1, 1, 1, 1, 0, 0x1001, self.random.getrandbits(64)))
        vector = self.random.choice(VECTORS) | self.random.choice((0, 0, 0, MASKED, 1 << 17, SELF - 0xFF))
        is_sint = SINT_0 <= name < SINT_0 + 16
        return vector if is_sint else self.random.choice((vector, self.random.getrandbits(64)))

    def HvGetVpRegisters(self, by):
        header = b"".join(little(*field) for field in self.of_vp(by))
        self.rep(by, 0x50, header, [little(self.register(), 4) for _ in range(self.several(18))])

    def HvSetVpRegisters(self, by):
        header, elements = b"".join(little(*field) for field in self.of_vp(by)), []
        for _ in range(self.several(18)):
            name, upper = self.register(), 1 if self.chance(self.wild / 4) else 0
            elements.append(little(name, 16) + little(self.value(name), 8) + little(upper, 8))
        self.rep(by, 0x51, header, elements)

    def HvDeletePort(self, by):
        partition = self.relative(by)
        self.fields(by, 0x58, (partition, 8), (self.small_id(self.row(by, partition).ports), 8))

    def HvDisconnectPort(self, by):
        partition = self.relative(by)
        self.fields(by, 0x5B, (partition, 8), (self.small_id(self.row(by, partition).connections), 8))

    def HvCreatePort(self, by):
        partition, kind = self.relative(by), self.some([MESSAGES, EVENTS])
        vp = self.some([*self.row(by, partition).vps, ANY_VP], 0, 1, 64)
        base = self.random.choice((0, 7, 8, 100, 2040, 2047, self.random.randrange(2048)))
        count = self.some([min(2048 - base, self.random.choice((1, 8, 2048)))], 2048 - base, 2049 - base)
        self.fields(by, 0x95, (partition, 8), (self.small_id(()), 8), (self.some(self.partitions, SELF), 8),
                    (kind, 8), (self.sint_of_port(), 4), (vp, 4), (base, 2), (count, 2),
                    (0, 4))  # fmt: skip

    def sint_of_port(self):
        return 16 if self.chance(self.wild / 4) else self.some((0, 1, 2, 2, 3, 7, 15))

    def HvConnectPort(self, by):
        partition = self.relative(by)
        target = by[0] if partition == SELF else partition
        for_target = [(owner, id, port.type) for owner, it in self.partitions.items()
                      for id, port in it.ports.items() if port.peer == target]  # fmt: skip
        owner, port, kind = self.random.choice(for_target or [(ROOT, 1, MESSAGES)])
        if self.chance(self.wild + 0.05):
            part = self.random.randrange(4)
            owner = self.some((), SELF, *self.partitions) if part in (0, 3) else owner
            port = self.small_id(()) if part in (1, 3) else port
            kind = self.random.choice((3 - kind, 3 - kind, 3)) if part in (2, 3) else kind
        self.fields(by, 0x96, (partition, 8), (self.small_id(()), 8), (owner, 8), (port, 8), (kind, 8),
                    (0, 8))  # fmt: skip

    def connection(self, by, kind):
        """A connection of a caller, mostly one of this type."""
        there = self.partitions[by[0]].connections if by[0] in self.partitions else {}
        fitting = [id for id, it in there.items() if it.type == kind]
        return self.some(fitting) if fitting else self.small_id(there)

    def sender(self, by, kind):
        """A VP whose partition has a connection of this type, mostly, in place of another one."""
        rows = {it: self.partitions[it[0]].connections.values() for it in self.callers()}
        senders = [it for it in rows if any(row.type == kind for row in rows[it])]
        is_full = len(self.reader.vps) >= PHASE_VPS
        return by if is_full or not senders or self.chance(0.1) else self.random.choice(senders)

    def HvPostMessage(self, by):
        size = self.some((0, 1, 5, 16, 239, 240), 241)
        payload = self.random.randbytes(self.random.choice((0, min(size, 240), 240)))
        kind = self.some((1, 2, 0x7FFFFFFF, self.random.getrandbits(31)), 0, 1 << 31)
        by = self.sender(by, MESSAGES)
        head = little(self.connection(by, MESSAGES), 8) + little(kind, 4) + little(size, 4)
        self.call(by, 0x5C, head + payload)

    def HvSignalEvent(self, by):
        by = self.sender(by, EVENTS)
        connection = self.connection(by, EVENTS)
        flags = self.flags_of(by, connection)
        flag = self.some((0, 0, 1, flags - 1, self.random.randrange(flags)), flags + 1)
        flag = flags if self.chance(0.05) else flag
        self.fields(by, 0x5D, (connection, 4), (flag, 2), (0, 2))

    def flags_of(self, by, connection):
        """How many flags the port has to which a connection leads; 2,048 where there is none."""
        there = self.partitions[by[0]].connections if by[0] in self.partitions else {}
        leads = there.get(connection)
        owner = self.partitions.get(leads.partition) if leads else None
        port = owner.ports.get(leads.port) if owner else None
        return port.count if port and port.count else 2048

    # -- Accesses --

    def msr(self):
        return self.some(MSRS, 0x40000000, 0x40000001, 0x400000A0, 0x000A0010) & ANY_VP

    def rdmsr(self, by):
        self.access(by, "rdmsr", self.msr())

    def wrmsr(self, by):
        msr = self.random.choice((0x40000084, self.msr(), self.msr()))
        self.access(by, "wrmsr", msr, self.value(MSRS.get(msr)) if msr in MSRS else self.some([0]))

    def sint(self):
        return 16 if self.chance(self.wild / 2) else self.some((0, 1, 2, 2, 3, 7, 15), 255) & 0xFF

    def slot(self, by):
        self.access(by, "slot", self.sint())

    def clearslot(self, by):
        self.access(by, "clearslot", self.sint())

    def flags(self, by):
        self.access(by, "flags", self.sint())

    def clearflag(self, by):
        """Clears a flag, mostly one that is set, and then often reads the flags."""
        vps = {it: self.partitions[it[0]].vps[it[1]] for it in self.callers()}
        flagged = [(it, sint) for it in vps for sint, flags in enumerate(vps[it].flags) if flags]
        if flagged and len(self.reader.vps) < PHASE_VPS and self.chance(0.8):
            by, sint = self.random.choice(flagged)
            flag = vps[by].flags[sint].bit_length() - 1
        else:
            sint, flag = self.sint(), self.some((0, 7, 2047), 2048) & 0xFFFF
        self.access(by, "clearflag", sint, flag)
        if sint <= 0xFF and self.chance(0.5):
            self.access(by, "flags", sint)

    def interrupt(self, by):
        self.access(by, "interrupt")

    def access(self, by, word, *values):
        self.write(" ".join([f"{by[0]}.{by[1]}", word, *map(self.number, values)]))

    def odd(self, by):
        """A call of bytes that mean nothing, or almost something."""
        code = self.random.choice((*CALLS, 0, 0x3F, 0x4B, 0x5A, 0x94, 0x97, self.random.getrandbits(16)))
        count, start = self.random.choice(((0, 0), (1, 0), (2, 1), (1, 1), (4095, 4094), (3, 0)))
        rcx = code | self.chance(0.2) << 16 | count << 32 | start << 48
        if self.chance(0.2):
            rcx |= 1 << self.random.randrange(64)
        data = b"".join(little(self.some([by[0], SELF, 1, 2]), 8) for _ in range(self.random.randrange(7)))
        self.call_line(by, rcx, self.address(64), self.address(64), data)

    def burst(self, by):
        """Lines about one message port and the VP where it sends."""
        by = self.sender(by, MESSAGES)
        there = self.partitions[by[0]].connections.items() if by[0] in self.partitions else ()
        fitting = [(id, it) for id, it in there if it.type == MESSAGES and it.partition in self.partitions]
        if not fitting:
            return
        id, connection = self.random.choice(fitting)
        owner = self.partitions[connection.partition]
        port = owner.ports.get(connection.port)
        at = connection.partition, min(owner.vps, default=0) if not port or port.vp == ANY_VP else port.vp
        sint = port.sint if port else 2
        for _ in range(self.random.choice((4, 8, 16))):
            if self.chance(0.5):
                self.call(by, 0x5C, little(id, 8) + little(self.random.randrange(1, 9), 4) + little(0, 4))
            elif self.chance(0.03):
                self.make_again(by, id, connection, port)
            else:
                self.at_sint(at, sint)

    def at_sint(self, at, sint):
        """A line of a VP about one SINT, or about whether it is ready."""
        word, *values = self.random.choice((
            ("slot", sint), ("clearslot", sint), ("clearslot", sint), ("interrupt",),
            ("wrmsr", 0x40000084, 0), ("wrmsr", 0x40000084, 0), ("wrmsr", 0x40000080, 1),
            ("wrmsr", 0x40000080, self.random.getrandbits(1)),
            ("wrmsr", 0x40000090 + sint, self.random.choice((0x31, 0xA0, 0x10031))),
        ))  # fmt: skip
        self.access(at, word, *values)

    def make_again(self, by, id, connection, port):
        """The port is deleted and created again, and perhaps connected anew."""
        owner, number = connection.partition, connection.port
        maker = self.partitions[owner].parent or ROOT, 0
        self.fields(maker, 0x58, (owner, 8), (number, 8))
        if port:
            self.fields(maker, 0x95, (owner, 8), (number, 8), (port.peer, 8), (MESSAGES, 8), (port.sint, 4),
                        (port.vp, 4), (0, 8))  # fmt: skip
        if self.chance(0.6):
            self.fields(by, 0x5B, (SELF, 8), (id, 8))
            self.fields(by, 0x96, (SELF, 8), (id, 8), (owner, 8), (number, 8), (MESSAGES, 8), (0, 8))

    # -- A world to begin with --

    def settle(self):
        """Partitions with pages, VPs, ports and connections, and registers at which messages arrive."""
        if self.theme in ("tree", "pages") and self.chance(0.4):
            self.make_deepest()
        for _ in range(self.random.choice((0, 1, 2, 4))):
            parent = self.random.choice((ROOT, self.random.choice(self.callers())[0]))
            self.make_child(parent, self.random.choice((12, 20, 30, 30)), self.random.choice((1, 1, 2)))
        if self.theme in ("mail", "ports", "even"):
            self.enable()
            self.link()

    def make_deepest(self):
        """Partitions below one another, as deep as they can be, and one more, which P14 refuses. Each line is
        as it must be, since a partition that isn't made would be the last."""
        wild, self.wild = self.wild, 0
        for depth in range(DEPTHS):
            self.make_child(max(self.callers())[0], 8 * (DEPTHS - depth), 1)
        self.HvCreatePartition(max(self.callers()))
        self.wild = wild

    def make_child(self, parent, pages, vps):
        """A child with all privileges, so many pages if the parent has them, and so many VPs."""
        by, child, partition = (parent, 0), self.run.machine.next_id, self.partitions[parent]
        if parent != ROOT:
            self.call(by, 0x49, little(parent, 8), pages)
        loose = sorted(partition.loose)[:pages]
        self.fields(by, 0x40, (0, 8))
        self.fields(by, 0x45, (child, 8), (PRIVILEGE_FLAGS, 8), (partition.mask, 8))
        self.fields(by, 0x41, (child, 8))
        self.call(by, 0x48, little(child, 8) + b"".join(little(page, 8) for page in loose), len(loose))
        for vp in range(vps):
            self.fields(by, 0x4E, (child, 8), (vp, 8))

    def enable(self):
        for by in self.callers():
            for msr in (0x40000080, 0x40000082, 0x40000083):
                if self.chance(0.9):
                    self.access(by, "wrmsr", msr, 1)
            for sint in (1, 2, 3):
                self.access(by, "wrmsr", 0x40000090 + sint, self.random.choice(VECTORS[2:]))

    def link(self):
        """Ports with connections to them, as the root makes them for its children, or each for itself."""
        active = [id for id, it in self.partitions.items() if it.life == ACTIVE and it.vps]
        for id in range(1, self.random.choice((3, 6, 9, 12))):
            owner, peer = self.random.choice(active), self.random.choice(active)
            kind, vp = self.random.choice((MESSAGES, EVENTS)), self.random.choice((0, 0, ANY_VP))
            base, sint = self.random.randrange(1024), self.random.choice((1, 2, 2, 3))
            for target, code, rest in (
                (owner, 0x95, ((peer, 8), (kind, 8), (sint, 4), (vp, 4), (base, 2), (1024, 2), (0, 4))),
                (peer, 0x96, ((owner, 8), (id, 8), (kind, 8), (0, 8))),
            ):
                by = (self.partitions[target].parent or ROOT, 0)
                self.fields(by, code, (target, 8), (id, 8), *rest)


def write_script(random, length, has_phases=True, has_limit=True):
    """A random script for one order."""
    author = Author(random, random.choice(list(THEMES)), has_limit)
    author.settle()
    for _ in range(4):
        author.some_lines(length // 4)
        if has_phases and author.chance(0.4):
            author.write("phase")
    return author


def write_phases(random, length):
    """A random script whose phases have many VPs."""
    author = Author(random, random.choice(("mail", "mail", "registers", "ports", "even", "tree", "pages")))
    author.settle()
    for _ in range(random.choice((1, 2, 4))):
        author.write("phase")
        author.some_lines(length)
    return author


FAULTS = (
    "boot 32 12 1 0 9", "phase now", "1 slot 2", "1.x slot 2", "99999999999999999999.0 slot 2", "1.0",
    "1.0 jump", "1.0 slot", "1.0 slot 256", "1.0 slot 0x", "1.0 slot 2 3", "1.0 rdmsr 0X40",
    "1.0 call 0 0 0 abc",
    "1.0 call 0 0 0 0g", "1.0 call 0x46 0 x -", "1.0\tslot 2", "1.0 clearflag 1 65536", "1.0 slot -1",
    "1.0 call 0x10000000000000000 0 0 -", "1.4294967296 slot 2", "1.0 interrupt 0", "caf\xe9", "1.0 slot 2\r",
)  # fmt: skip


# At the limits: some of them are refused.
BOOTS = (
    "boot 0 0 0 0 9", "boot 1 1 1 0 9", "boot 65536 4 1 0xf700000044 9", "boot 65537 4 1 0 9",
    "boot 8 9 1 0 9", "boot 8 8 2 0xf700000044 9", "boot 8 7 2 0 9", "boot 8 8 0 0 9",
    "boot 999 256 64 0xf700000044 9", "boot 999 260 65 0 9", "boot 999 255 64 0 9", "phase", "",
)  # fmt: skip


def spoil(random, text):
    """A script with one or more lines that have faults, or a boot that is refused."""
    lines = text.split("\n")
    if random.random() < 0.5:
        lines[0] = random.choice(BOOTS)
        if random.random() < 0.7:
            return "\n".join(lines)
    for _ in range(random.choice((1, 1, 3))):
        lines.insert(random.randrange(len(lines) + 1), random.choice(FAULTS))
    if random.random() < 0.1:
        many = [f"1.{vp} interrupt" for vp in range(random.choice((40, 64, 65)))]
        lines[1:1] = [*many, *random.choice((["phase"], [])), *reversed(many)]
    return "\n".join(lines)
