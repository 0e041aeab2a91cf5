"""An event in words and by its fields, as `hvpm explain` and `hvpm trace` tell of it (docs/PROGRAM.md). The
places of fields are typed from "Blocks and effects" of docs/POLICY.md. The values are those of the script and
the model."""
from collections import deque

from model.machine import ACTIVE, CREATED, DENIED, FAULT, FINALIZED, MORE, Frame
from model.script import Run, Turn, read_script, reply_text
from model.tables import (
    ANY_VP, CHILD_COST, CONNECTION_COST, DEPTHS, EVENTS, FLAGS, MESSAGES, MSRS, PAGE, PAYLOAD, PORT_COST,
    PRIVILEGE_FLAGS, PROPERTIES, REGISTERS, SCONTROL, SELF, SIEFP, SIMP, SINT_0, SINTS, STATUS_NAME, VP_COST,
    VPS,
)  # fmt: skip

PARTITION, PROPERTY, VP = ("partition", 0, 8, "id"), ("property", 8, 4, "property"), ("vp", 8, 4, "number")
PORT, CONNECTION = ("port", 8, 4, "number"), ("connection", 8, 4, "number")
# The fields of each call: name, place and size in the block, or in the element's part of it, and form.
FIELDS = {
    0x40: [("flags", 0, 8, "hex")], 0x41: [PARTITION], 0x42: [PARTITION], 0x43: [PARTITION],
    0x44: [PARTITION, PROPERTY], 0x45: [PARTITION, PROPERTY, ("value", 16, 8, "hex")], 0x46: [],
    0x47: [PARTITION, ("previous", 8, 8, "number")], 0x48: [PARTITION, ("page", 0, 8, "element number")],
    0x49: [PARTITION], 0x4A: [PARTITION], 0x4E: [PARTITION, VP], 0x4F: [PARTITION, VP],
    0x50: [PARTITION, VP, ("register", 0, 4, "element register")],
    0x51: [PARTITION, VP, ("register", 0, 4, "element register"), ("value", 16, 8, "element hex")],
    0x58: [PARTITION, PORT], 0x5B: [PARTITION, CONNECTION],
    0x5C: [("connection", 0, 4, "number"), ("type", 8, 4, "number"), ("payload", 16, PAYLOAD, "payload")],
    0x5D: [("connection", 0, 4, "number"), ("flag", 4, 2, "number")],
    0x95: [PARTITION, PORT, ("takes", 24, 4, "kind"), ("peer", 16, 8, "id"), ("sint", 32, 4, "number"),
           ("vp", 36, 4, "vp"), ("base", 40, 2, "number"), ("count", 42, 2, "number")],
    0x96: [PARTITION, ("port", 24, 4, "number"), ("takes", 32, 4, "kind"), CONNECTION,
           ("port_partition", 16, 8, "id")],
}  # fmt: skip
# What a parameter may not be (P7), in the order in which it is told.
IDS = {
    0x58: [(8, "PortId")], 0x5B: [(8, "ConnectionId")], 0x5C: [(0, "ConnectionId")],
    0x5D: [(0, "ConnectionId")], 0x95: [(8, "PortId")], 0x96: [(8, "ConnectionId"), (24, "PortId")],
}  # fmt: skip

ACCESSES = {
    "rdmsr": "ReadMsr", "wrmsr": "WriteMsr", "slot": "ReadSlot", "clearslot": "ClearSlot",
    "flags": "ReadFlags", "clearflag": "ClearFlag", "interrupt": "TakeInterrupt",
}  # fmt: skip
KINDS = {MESSAGES: "messages", EVENTS: "event flags"}
PROPERTY_NAMES = {
    PRIVILEGE_FLAGS: "PrivilegeFlags", 0x20001: "CpuReserve", 0x20002: "CpuCap", 0x20003: "CpuWeight",
}  # fmt: skip
PRIVILEGES = {
    2: "AccessSynicRegs", 6: "AccessVpIndex", 32: "CreatePartitions", 33: "AccessPartitionId",
    34: "AccessMemoryPool", 36: "PostMessages", 37: "SignalEvents", 38: "CreatePort", 39: "ConnectPort",
}  # fmt: skip
GENERAL = "RAX RCX RDX RBX RSP RBP RSI RDI R8 R9 R10 R11 R12 R13 R14 R15 RIP RFLAGS".split()
REGISTER_NAMES = {
    **{0x20000 + at: name for at, name in enumerate(GENERAL)}, 0x90003: "VP_INDEX",
    **{SINT_0 + sint: f"SINT{sint}" for sint in range(SINTS)},
    **dict(zip(range(0xA0010, 0xA0015), ("SCONTROL", "SVERSION", "SIEFP", "SIMP", "EOM"))),
}  # fmt: skip
SENTENCES = {
    1: "the caller's partition doesn't exist", 2: "the caller's partition isn't Active",
    3: "the caller's virtual processor doesn't exist", 4: "no call has this code",
    5: "the input value isn't one of this call", 6: "a list isn't aligned or crosses a page",
    7: "a parameter is malformed", 8: "the caller lacks the call's privilege", 9: "the target doesn't exist",
    10: "the call doesn't reach this target", 11: "no property has this code",
    12: "the target's life state doesn't allow the call", 13: "the target has children",
    14: "the new partition would be too deep", 15: "the other partition isn't a right one",
    16: "the connection id is missing or taken", 17: "the port is missing or its id is taken",
    18: "the mask, the privilege or the peer isn't right",
    19: "the virtual processor is missing or its index can't be used",
    20: "the property's value is out of range",
    21: "the page, register, type or number isn't right", 22: "no virtual processor is ready",
    23: "the port has as many messages as it may", 24: "too few pages are available",
    25: "no register has this MSR number", 26: "the caller lacks the register's privilege",
    27: "the register doesn't take this value",
}  # fmt: skip
# The life states of P12, and the pages of P24.
LIVES = {0x41: (CREATED,), 0x42: (CREATED, ACTIVE), 0x43: (CREATED, FINALIZED), 0x45: (CREATED, ACTIVE),
         0x48: (CREATED, ACTIVE)}  # fmt: skip
COSTS = {0x40: CHILD_COST, 0x49: 1, 0x4E: VP_COST, 0x95: PORT_COST, 0x96: CONNECTION_COST}
LISTED_FLAGS = 16


def number(data):
    return int.from_bytes(data, "little")


def counted(count, name, plural=None):
    return f"{count} {name if count == 1 else plural or name + 's'}"


def named(names, value, prefix="", unknown=""):
    return f"{prefix}{names[value]} ({value:#x})" if value in names else f"{unknown}{value:#x}"


def id_text(value):
    return "self" if value == SELF else str(value)


def byte_text(data):
    return " ".join([counted(len(data), "byte"), *(f"{byte:02x}" for byte in data)])


def tell(script, vps):
    """What is told of the events of these VPs, one after another, each as the model is right after it."""
    script = read_script(script)
    run, turns = Run(script.boot), {}
    for phase in script.phases:
        for line in phase:
            turns.setdefault(line.by, deque()).append(Turn(line))
    for by in vps:
        turn = turns[by][0]
        what, rcx = turn.what(), turn.rcx
        told = Told(run.machine, turn.line, rcx, turn.take(run.machine))
        told.audit = f"{what} {reply_text(told.reply)}"
        if told.reply.kind != MORE:
            turns[by].popleft()
        yield told


class Told:
    """An event that the model took, with its reply. The model is as it is after that."""

    def __init__(self, machine, line, rcx, reply):
        self.machine, self.reply, self.frame = machine, reply, None
        self.by, self.word, self.numbers = line.by, line.word, line.numbers
        if line.word == "call":
            self.rcx, self.rdx, self.r8 = rcx, *line.numbers[1:]
            self.frame = Frame(rcx, self.rdx, self.r8, line.data)
            frame = self.frame
            self.is_read = frame.call and frame.is_input() and frame.is_aligned() and frame.is_parameters()
            self.values = self.read() if self.is_read else {}

    def read(self):
        frame = self.frame
        size = frame.field(12, 4)
        values = {}
        for name, at, length, form in FIELDS[frame.code]:
            read = frame.element if form.startswith("element") else frame.field
            values[name] = read(at, length)
            if form == "payload":
                values[name] = values[name].to_bytes(PAYLOAD, "little")[:size]
        return values

    def name(self):
        if self.frame is None:
            return ACCESSES[self.word]
        return self.frame.call and self.frame.call.name

    def kept(self, partition):
        """A partition's id that the caller names."""
        return self.by[0] if partition == SELF else partition

    # ---- Fields ----

    def fields(self):
        if self.frame is None:
            return self.access_fields()
        if not self.is_read:
            return {"rcx": hex(self.rcx), "rdx": hex(self.rdx), "r8": hex(self.r8)}
        forms = {
            "hex": hex, "number": int, "id": lambda v: "self" if v == SELF else v, "kind": KINDS.get,
            "property": lambda v: PROPERTY_NAMES.get(v, hex(v)), "vp": lambda v: None if v == ANY_VP else v,
            "register": lambda v: named(REGISTER_NAMES, v), "payload": bytes.hex,
        }  # fmt: skip
        forms_of = [(name, form.split()[-1]) for name, _, _, form in FIELDS[self.frame.code]]
        found = {name: forms[form](self.values[name]) for name, form in forms_of}
        if self.frame.call.is_rep:
            found.update(element=self.frame.start, elements=self.frame.count)
        return found

    def access_fields(self):
        if self.word in ("rdmsr", "wrmsr"):
            value = {"value": hex(self.numbers[1])} if self.word == "wrmsr" else {}
            return {"msr": self.msr(), **value}
        return dict(zip(("sint", "flag"), self.numbers))

    def msr(self):
        names = {msr: REGISTER_NAMES[name] for msr, name in MSRS.items()}
        return named(names, self.numbers[0], "HV_X64_MSR_", "MSR ")

    # ---- Words ----

    def text(self):
        """What the event asks for, and its answer."""
        kind, rule = self.reply.kind, self.reply.rule
        if kind == FAULT:
            answer = f"fault, P{rule}: {self.reason()}"
        elif kind == DENIED:
            answer = f"denied HV_STATUS_{STATUS_NAME[self.reply.result & 0xFFFF]}, P{rule}: {self.reason()}"
        else:
            answer = kind + (self.access_output() if self.frame is None else self.call_output())
        return f"{self.asked()}: {answer}"

    def asked(self):
        if self.frame is None:
            return self.access()
        if not self.is_read:
            name = self.name() or f"call code {self.frame.code:#x}"
            return f"{name} RCX {self.rcx:#x}, RDX {self.rdx:#x}, R8 {self.r8:#x}"
        fast = ", fast" if self.frame.is_fast else ""
        rep = f", rep {self.frame.start} of {self.frame.count}" if self.frame.call.is_rep else ""
        words = self.call()
        return self.name() + (f" {words}" if words else "") + fast + rep

    def access(self):
        first, *rest = [*self.numbers, None]
        return {
            "rdmsr": lambda: f"read {self.msr()}", "wrmsr": lambda: f"write {self.msr()} value {rest[0]:#x}",
            "slot": lambda: f"read the slot of SINT {first}",
            "clearslot": lambda: f"clear the slot of SINT {first}",
            "flags": lambda: f"read the flags of SINT {first}",
            "clearflag": lambda: f"clear flag {rest[0]} of SINT {first}",
            "interrupt": lambda: "take an interrupt",
        }[self.word]()  # fmt: skip

    def property_value(self, value):
        return str(value) if self.values["property"] in PROPERTIES else f"{value:#x}"

    def call(self):
        """The fields of a call, in words."""
        code, of = self.frame.code, self.values
        where = f"partition {id_text(of['partition'])}" if "partition" in of else ""
        if code == 0x40:
            return f"flags {of['flags']:#x}"
        if code in (0x44, 0x45):
            value = f", value {self.property_value(of['value'])}" if code == 0x45 else ""
            return f"{where}, property {named(PROPERTY_NAMES, of['property'])}{value}"
        if code in (0x50, 0x51):
            value = f", value {of['value']:#x}" if code == 0x51 else ""
            return f"{where}, vp {of['vp']}, register {named(REGISTER_NAMES, of['register'])}{value}"
        if code == 0x5C:
            return f"connection {of['connection']}, type {of['type']}, {byte_text(of['payload'])}"
        if code == 0x5D:
            return f"connection {of['connection']}, flag {of['flag']}"
        if code == 0x95:
            vp = "any vp" if of["vp"] == ANY_VP else f"vp {of['vp']}"
            flags = f", base flag {of['base']}, flag count {of['count']}" if of["takes"] == EVENTS else ""
            return (f"{where}, port {of['port']}, peer {id_text(of['peer'])}, {KINDS[of['takes']]}, "
                    f"SINT {of['sint']} of {vp}{flags}")  # fmt: skip
        if code == 0x96:
            return (f"{where}, connection {of['connection']} to port {of['port']} of partition "
                    f"{id_text(of['port_partition'])}, {KINDS[of['takes']]}")  # fmt: skip
        return ", ".join([where, *(f"{name} {value}" for name, value in list(of.items())[1:])]).strip(", ")

    def call_output(self):
        output, code = self.reply.output, self.frame.code
        first = number(output[:8])
        return {
            0x40: f", partition {first}", 0x46: f", partition {first}", 0x49: f", page {first}",
            0x47: f", partition {first}" if first else ", no child", 0x50: f", value {first:#x}",
            0x4A: f", balance {first} pages, {number(output[8:16])} in use",
            0x44: f", value {self.property_value(first)}" if code == 0x44 else "",
        }.get(code, "")  # fmt: skip

    def access_output(self):
        output = self.reply.output
        if self.word == "rdmsr":
            return f", value {number(output):#x}"
        if self.word == "interrupt":
            return f", vector {output[0]:#x}" if output[0] else ", no vector"
        if self.word == "flags":
            flags = [flag for flag in range(FLAGS) if output[flag // 8] >> flag % 8 & 1]
            listed = " ".join(map(str, flags[:LISTED_FLAGS]))
            more = f" and {len(flags) - LISTED_FLAGS} more" if len(flags) > LISTED_FLAGS else ""
            return f", flags {listed}{more}" if flags else ", no flags"
        if self.word != "slot":
            return ""
        if not number(output[:4]):
            return ", no message"
        waits = ", another waits" if output[5] & 1 else ""
        return (f", message type {number(output[:4])} from port {number(output[8:16])}, "
                f"{byte_text(output[16 : 16 + output[4]])}{waits}")  # fmt: skip

    # ---- Reasons ----

    def reason(self):
        """The sentence of the rule that refuses, and the values that decided."""
        rule = self.reply.rule
        if rule is None:
            return None
        values = getattr(self, f"values_{rule}", lambda: None)()
        return SENTENCES[rule] + (f" ({values})" if values is not None else "")

    def partition(self, number):
        return self.machine.partitions.get(number)

    def target(self):
        return self.kept(self.values["partition"]) if self.frame.call.target != "caller" else self.by[0]

    def life(self, number):
        return f"partition {number} is {self.partition(number).life}"

    def lacks(self, bit):
        return f"mask {self.partition(self.by[0]).mask:#x} lacks {PRIVILEGES[bit]}, bit {bit}"

    def has_none(self, has, name, partition=None):
        partition = self.target() if partition is None else partition
        return f"partition {partition} {has} {name} {self.values[name]}"

    def way(self):
        """The connection that the call names, its port's name, and the port."""
        connection = self.partition(self.by[0]).connections[self.values["connection"]]
        owner = self.partition(connection.partition)
        name = f"port {connection.port} of partition {connection.partition}"
        return connection, name, owner and owner.ports.get(connection.port)

    def port(self):
        """The name of the port that HvConnectPort names, and the port."""
        partition = self.kept(self.values["port_partition"])
        name = f"port {self.values['port']} of partition {partition}"
        return name, self.partition(partition).ports[self.values["port"]]

    def values_2(self):
        return self.life(self.by[0])

    def values_5(self):
        frame = self.frame
        if frame.reserved:
            return f"RCX {self.rcx:#x} has reserved bits"
        if frame.is_fast and not frame.call.takes_fast:
            return "the call can't be fast"
        simple = "" if frame.call.is_rep else " of a simple call"
        return f"rep count {frame.count}, start index {frame.start}{simple}"

    def values_6(self):
        call, count = self.frame.call, self.frame.count
        lists = ("input", self.rdx, call.input_length(count)), ("output", self.r8, call.output_length(count))
        for name, at, length in lists:
            if length and (at % 8 or at % PAGE + length > PAGE):
                what = "isn't at a multiple of 8" if at % 8 else "crosses a page"
                return f"the {name} list of {length} bytes at {at:#x} {what}"

    def values_7(self):
        frame, code = self.frame, self.frame.code
        for at, name in IDS.get(code, ()):
            if frame.field(at, 4) >> 24:
                return f"{name} {frame.field(at, 4):#x} has more than 24 bits"
        if code == 0x51:
            return f"the value's upper 8 bytes are {frame.element(24, 8):#x}"
        if code == 0x5C:
            kind = frame.field(8, 4)
            if kind == 0 or kind >> 31:
                return f"MessageType {kind:#x}" + (" has bit 31" if kind else "")
            return f"PayloadSize {frame.field(12, 4)} is above {PAYLOAD}"
        kind = frame.field(32 if code == 0x96 else 24, 4)
        if kind not in KINDS:
            return f"PortType {kind} is neither 1 nor 2"
        if frame.field(32, 4) >= SINTS:
            return f"TargetSint {frame.field(32, 4)} is above {SINTS - 1}"
        base, count = frame.field(40, 2), frame.field(42, 2)
        together = f"BaseFlagNumber {base} and FlagCount {count} are above {FLAGS} together"
        return together if count else "FlagCount 0"

    def values_8(self):
        return self.lacks(self.frame.call.privilege)

    def values_10(self):
        target = self.target()
        parent = self.partition(target).parent
        what = "the root" if parent is None else f"a child of {parent}"
        what = "the caller" if target == self.by[0] else what
        return f"partition {target} is {what}"

    def values_12(self):
        return f"{self.life(self.target())}, not {' or '.join(LIVES.get(self.frame.code, (ACTIVE,)))}"

    def values_13(self):
        target = self.target()
        return f"partition {target} has {counted(len(self.partition(target).children), 'child', 'children')}"

    def values_14(self):
        depth = self.partition(self.by[0]).depth
        return f"partition {self.by[0]} has depth {depth}, and the most is {DEPTHS}"

    def values_15(self):
        if self.frame.code == 0x47:
            return f"partition {self.values['previous']} isn't a child of {self.target()}"
        name = "peer" if self.frame.code == 0x95 else "port_partition"
        return f"no partition {self.kept(self.values[name])}"

    def values_16(self):
        return self.has_none("already has" if self.frame.code == 0x96 else "has no", "connection")

    def values_17(self):
        code = self.frame.code
        if code in (0x58, 0x95):
            return self.has_none("has no" if code == 0x58 else "already has", "port")
        if code == 0x96:
            return self.has_none("has no", "port", self.kept(self.values["port_partition"]))
        connection, name, port = self.way()
        why = ", and that port was made again" if port else ", and the port is gone"
        if self.partition(connection.partition) is None:
            why = ", which is gone"
        return f"connection {self.values['connection']} leads to {name}{why}"

    def values_18(self):
        mask = self.partition(self.by[0]).mask
        if self.frame.code == 0x45:
            return f"the caller's mask {mask:#x} lacks the bits {self.values['value'] & ~mask:#x}"
        if self.frame.code == 0x96:
            name, port = self.port()
            return f"{name} is for partition {port.peer}, not {self.target()}"
        return self.lacks(REGISTERS[self.values["register"]].privilege)

    def values_19(self):
        if self.frame.code in (0x5C, 0x5D):
            _, name, port = self.way()
            return f"{name} aims at vp {port.vp}"
        if self.frame.code == 0x4E:
            vp = self.values["vp"]
            return f"vp {vp} is above {VPS - 1}" if vp >= VPS else self.has_none("already has", "vp")
        return self.has_none("has no", "vp")

    def values_20(self):
        least, most, _ = PROPERTIES[self.values["property"]]
        return f"{PROPERTY_NAMES[self.values['property']]} takes {least} to {most}"

    def values_21(self):
        if self.frame is None:
            sint, *flag = self.numbers
            is_sint = sint >= SINTS
            return f"SINT {sint} isn't below {SINTS}" if is_sint else f"flag {flag[0]} isn't below {FLAGS}"
        if self.frame.code == 0x48:
            return f"page {self.values['page']} isn't a loose page of partition {self.by[0]}"
        if self.frame.code in (0x50, 0x51):
            return self.refused(self.values["register"], self.values.get("value"))
        name, port = self.port() if self.frame.code == 0x96 else self.way()[1:]
        if self.frame.code == 0x5D and port.type == EVENTS:
            return f"{name} has flags 0 to {port.count - 1}, not {self.values['flag']}"
        return f"{name} takes {KINDS[port.type]}"

    @staticmethod
    def refused(register, value):
        if register not in REGISTERS:
            return f"no register {register:#x}"
        if not REGISTERS[register].is_written:
            return f"{REGISTER_NAMES[register]} takes no value"
        return f"vector {value & 0xFF:#x} is below 0x10, and bit 16 is clear"

    def values_22(self):
        connection, _, port = self.way()
        if port.vp == ANY_VP:
            return f"partition {connection.partition} has none that is ready for {KINDS[port.type]}"
        page, name = (SIMP, "SIMP") if port.type == MESSAGES else (SIEFP, "SIEFP")
        registers = self.partition(connection.partition).vps[port.vp].registers
        return (f"vp {port.vp} of partition {connection.partition} has SCONTROL {registers[SCONTROL]:#x} and "
                f"{name} {registers[page]:#x}")  # fmt: skip

    def values_23(self):
        return f"8 messages of {self.way()[1]}"

    def values_24(self):
        partition, needed = self.partition(self.target()), counted(COSTS[self.frame.code], "page")
        return (f"needs {needed}, partition {self.target()} has {partition.available()} available of "
                f"{len(partition.pooled)} pooled")  # fmt: skip

    def values_26(self):
        return self.lacks(REGISTERS[MSRS[self.numbers[0]]].privilege)

    def values_27(self):
        return self.refused(MSRS[self.numbers[0]], self.numbers[1])
