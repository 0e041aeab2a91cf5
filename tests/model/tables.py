"""The tables of docs/POLICY.md, typed from that page: calls, statuses, registers and properties."""
from typing import NamedTuple

PAGE = 4096
SELF = (1 << 64) - 1
ANY_VP = (1 << 32) - 1
ROOT = 1
CHILD_COST, VP_COST, PORT_COST, CONNECTION_COST = 2, 4, 1, 1
DEPTHS, VPS, SINTS, FLAGS, STORED, PAYLOAD = 7, 64, 16, 2048, 8, 240
NEW_MASK = 0x0000003000000044
MESSAGES, EVENTS = 1, 2

ACCESS_SYNIC, ACCESS_VP_INDEX = 2, 6
CREATE_PARTITIONS, ACCESS_PARTITION_ID, ACCESS_MEMORY_POOL = 32, 33, 34
POST_MESSAGES, SIGNAL_EVENTS, CREATE_PORT, CONNECT_PORT = 36, 37, 38, 39

# The status of each rule that refuses a hypercall. P24 has another one for HvWithdrawMemory.
STATUS = {
    1: 0xD, 2: 0x7, 3: 0xE, 4: 0x2, 5: 0x3, 6: 0x4, 7: 0x5, 8: 0x6, 9: 0xD, 10: 0x6, 11: 0x9, 12: 0x7,
    13: 0x19, 14: 0xC, 15: 0xD, 16: 0x12, 17: 0x11, 18: 0x6, 19: 0xE, 20: 0xA, 21: 0x5, 22: 0x18, 23: 0x13,
    24: 0xB,
}  # fmt: skip
NO_RESOURCES = 0x1D
STATUS_NAME = {
    0x2: "INVALID_HYPERCALL_CODE", 0x3: "INVALID_HYPERCALL_INPUT", 0x4: "INVALID_ALIGNMENT",
    0x5: "INVALID_PARAMETER", 0x6: "ACCESS_DENIED", 0x7: "INVALID_PARTITION_STATE",
    0x9: "UNKNOWN_PROPERTY", 0xA: "PROPERTY_VALUE_OUT_OF_RANGE", 0xB: "INSUFFICIENT_MEMORY",
    0xC: "PARTITION_TOO_DEEP", 0xD: "INVALID_PARTITION_ID", 0xE: "INVALID_VP_INDEX",
    0x11: "INVALID_PORT_ID", 0x12: "INVALID_CONNECTION_ID", 0x13: "INSUFFICIENT_BUFFERS",
    0x18: "INVALID_SYNIC_STATE", 0x19: "OBJECT_IN_USE", 0x1D: "NO_RESOURCES",
}  # fmt: skip


class Call(NamedTuple):
    """A row of "The calls", with the lengths of its lists from "Blocks and effects". P7 is among its further
    rules where it says something of the call."""

    name: str
    privilege: int
    target: str  # caller, child, or either
    rules: tuple  # the further ones
    header: int  # bytes of the input list, before its elements
    element: int = 0  # bytes of an element in the input list
    output: int = 0  # bytes of the output list, in a rep call of each element
    is_rep: bool = False
    takes_fast: bool = False

    def input_length(self, count):
        return self.header + self.element * count

    def output_length(self, count):
        return self.output * count if self.is_rep else self.output

    def refusals(self):
        """The numbers of all rules that can refuse it."""
        return 1, 2, 3, 5, 6, 8, *(() if self.target == "caller" else (9, 10)), *self.rules


CALLS = {
    0x40: Call("HvCreatePartition", CREATE_PARTITIONS, "caller", (14, 24), 8, output=8),
    0x41: Call("HvInitializePartition", CREATE_PARTITIONS, "child", (12,), 8, takes_fast=True),
    0x42: Call("HvFinalizePartition", CREATE_PARTITIONS, "child", (12, 13), 8, takes_fast=True),
    0x43: Call("HvDeletePartition", CREATE_PARTITIONS, "child", (12,), 8, takes_fast=True),
    0x44: Call("HvGetPartitionProperty", CREATE_PARTITIONS, "either", (11,), 16, output=8),
    0x45: Call("HvSetPartitionProperty", CREATE_PARTITIONS, "child", (11, 12, 18, 20), 24),
    0x46: Call("HvGetPartitionId", ACCESS_PARTITION_ID, "caller", (), 0, output=8),
    0x47: Call("HvGetNextChildPartition", CREATE_PARTITIONS, "either", (15,), 16, output=8),
    0x48: Call("HvDepositMemory", ACCESS_MEMORY_POOL, "either", (12, 21), 8, element=8, is_rep=True),
    0x49: Call("HvWithdrawMemory", ACCESS_MEMORY_POOL, "either", (24,), 8, output=8, is_rep=True),
    0x4A: Call("HvGetMemoryBalance", ACCESS_MEMORY_POOL, "either", (), 8, output=16),
    0x4E: Call("HvCreateVp", CREATE_PARTITIONS, "either", (12, 19, 24), 16, takes_fast=True),
    0x4F: Call("HvDeleteVp", CREATE_PARTITIONS, "either", (12, 19), 16, takes_fast=True),
    0x50: Call("HvGetVpRegisters", CREATE_PARTITIONS, "either", (12, 18, 19, 21), 16, element=4, output=16,
               is_rep=True),
    0x51: Call("HvSetVpRegisters", CREATE_PARTITIONS, "either", (7, 12, 18, 19, 21), 16, element=32,
               is_rep=True),
    0x58: Call("HvDeletePort", CREATE_PORT, "either", (7, 12, 17), 16, takes_fast=True),
    0x5B: Call("HvDisconnectPort", CONNECT_PORT, "either", (7, 12, 16), 16, takes_fast=True),
    0x5C: Call("HvPostMessage", POST_MESSAGES, "caller", (7, 16, 17, 19, 21, 22, 23), 256),
    0x5D: Call("HvSignalEvent", SIGNAL_EVENTS, "caller", (7, 16, 17, 19, 21, 22), 8, takes_fast=True),
    0x95: Call("HvCreatePort", CREATE_PORT, "either", (7, 12, 15, 17, 19, 24), 48),
    0x96: Call("HvConnectPort", CONNECT_PORT, "either", (7, 12, 15, 16, 17, 18, 21, 24), 48),
}  # fmt: skip

# Of each access, the rules that can refuse it.
ACCESS_REFUSALS = {
    "rdmsr": (1, 2, 3, 25, 26), "wrmsr": (1, 2, 3, 25, 26, 27), "slot": (1, 2, 3, 21),
    "clearslot": (1, 2, 3, 21), "flags": (1, 2, 3, 21), "clearflag": (1, 2, 3, 21), "interrupt": (1, 2, 3),
}  # fmt: skip

# The properties: range and initial value. The range of a mask is that of P18.
PRIVILEGE_FLAGS = 0x00010000
PROPERTIES = {0x00020001: (0, 65536, 0), 0x00020002: (0, 65536, 65536), 0x00020003: (1, 10000, 100)}


class Register(NamedTuple):
    """A row of the table of registers."""

    msr: int = None
    privilege: int = None
    is_written: bool = True
    initially: int = 0


VP_INDEX, SINT_0, SCONTROL, SVERSION, SIEFP, SIMP, EOM = (
    0x00090003, 0x000A0000, 0x000A0010, 0x000A0011, 0x000A0012, 0x000A0013, 0x000A0014,
)  # fmt: skip
MASKED = 1 << 16
REGISTERS = {
    **{0x00020000 + general: Register() for general in range(18)},
    VP_INDEX: Register(0x40000002, ACCESS_VP_INDEX, is_written=False),
    **{SINT_0 + sint: Register(0x40000090 + sint, ACCESS_SYNIC, initially=MASKED) for sint in range(SINTS)},
    SCONTROL: Register(0x40000080, ACCESS_SYNIC),
    SVERSION: Register(0x40000081, ACCESS_SYNIC, is_written=False, initially=1),
    SIEFP: Register(0x40000082, ACCESS_SYNIC),
    SIMP: Register(0x40000083, ACCESS_SYNIC),
    EOM: Register(0x40000084, ACCESS_SYNIC),
}
MSRS = {register.msr: name for name, register in REGISTERS.items() if register.msr is not None}
