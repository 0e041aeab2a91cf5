"""The numbers of docs/POLICY.md by their names. Made by bindings/numbers from the tables of docs/POLICY.md. Don't edit it."""
# fmt: off
import enum


class Call(enum.IntEnum):
    """Codes of hypercalls: bits 15:0 of RCX."""

    CREATE_PARTITION = 0x40
    INITIALIZE_PARTITION = 0x41
    FINALIZE_PARTITION = 0x42
    DELETE_PARTITION = 0x43
    GET_PARTITION_PROPERTY = 0x44
    SET_PARTITION_PROPERTY = 0x45
    GET_PARTITION_ID = 0x46
    GET_NEXT_CHILD_PARTITION = 0x47
    DEPOSIT_MEMORY = 0x48
    WITHDRAW_MEMORY = 0x49
    GET_MEMORY_BALANCE = 0x4a
    CREATE_VP = 0x4e
    DELETE_VP = 0x4f
    GET_VP_REGISTERS = 0x50
    SET_VP_REGISTERS = 0x51
    DELETE_PORT = 0x58
    DISCONNECT_PORT = 0x5b
    POST_MESSAGE = 0x5c
    SIGNAL_EVENT = 0x5d
    CREATE_PORT = 0x95
    CONNECT_PORT = 0x96


class HvStatusNumber(enum.IntEnum):
    """Statuses of hypercalls: bits 15:0 of RAX."""

    SUCCESS = 0x0
    INVALID_HYPERCALL_CODE = 0x2
    INVALID_HYPERCALL_INPUT = 0x3
    INVALID_ALIGNMENT = 0x4
    INVALID_PARAMETER = 0x5
    ACCESS_DENIED = 0x6
    INVALID_PARTITION_STATE = 0x7
    UNKNOWN_PROPERTY = 0x9
    PROPERTY_VALUE_OUT_OF_RANGE = 0xa
    INSUFFICIENT_MEMORY = 0xb
    PARTITION_TOO_DEEP = 0xc
    INVALID_PARTITION_ID = 0xd
    INVALID_VP_INDEX = 0xe
    INVALID_PORT_ID = 0x11
    INVALID_CONNECTION_ID = 0x12
    INSUFFICIENT_BUFFERS = 0x13
    INVALID_SYNIC_STATE = 0x18
    OBJECT_IN_USE = 0x19
    NO_RESOURCES = 0x1d


class RuleNumber(enum.IntEnum):
    """The rules."""

    P1 = 1
    P2 = 2
    P3 = 3
    P4 = 4
    P5 = 5
    P6 = 6
    P7 = 7
    P8 = 8
    P9 = 9
    P10 = 10
    P11 = 11
    P12 = 12
    P13 = 13
    P14 = 14
    P15 = 15
    P16 = 16
    P17 = 17
    P18 = 18
    P19 = 19
    P20 = 20
    P21 = 21
    P22 = 22
    P23 = 23
    P24 = 24
    P25 = 25
    P26 = 26
    P27 = 27


class Register(enum.IntEnum):
    """Names of registers, in HvGetVpRegisters and HvSetVpRegisters."""

    RAX = 0x20000
    RCX = 0x20001
    RDX = 0x20002
    RBX = 0x20003
    RSP = 0x20004
    RBP = 0x20005
    RSI = 0x20006
    RDI = 0x20007
    R8 = 0x20008
    R9 = 0x20009
    R10 = 0x2000a
    R11 = 0x2000b
    R12 = 0x2000c
    R13 = 0x2000d
    R14 = 0x2000e
    R15 = 0x2000f
    RIP = 0x20010
    RFLAGS = 0x20011
    VP_INDEX = 0x90003
    SINT0 = 0xa0000
    SINT1 = 0xa0001
    SINT2 = 0xa0002
    SINT3 = 0xa0003
    SINT4 = 0xa0004
    SINT5 = 0xa0005
    SINT6 = 0xa0006
    SINT7 = 0xa0007
    SINT8 = 0xa0008
    SINT9 = 0xa0009
    SINT10 = 0xa000a
    SINT11 = 0xa000b
    SINT12 = 0xa000c
    SINT13 = 0xa000d
    SINT14 = 0xa000e
    SINT15 = 0xa000f
    SCONTROL = 0xa0010
    SVERSION = 0xa0011
    SIEFP = 0xa0012
    SIMP = 0xa0013
    EOM = 0xa0014


class Msr(enum.IntEnum):
    """Numbers of model-specific registers."""

    VP_INDEX = 0x40000002
    SCONTROL = 0x40000080
    SVERSION = 0x40000081
    SIEFP = 0x40000082
    SIMP = 0x40000083
    EOM = 0x40000084
    SINT0 = 0x40000090
    SINT1 = 0x40000091
    SINT2 = 0x40000092
    SINT3 = 0x40000093
    SINT4 = 0x40000094
    SINT5 = 0x40000095
    SINT6 = 0x40000096
    SINT7 = 0x40000097
    SINT8 = 0x40000098
    SINT9 = 0x40000099
    SINT10 = 0x4000009a
    SINT11 = 0x4000009b
    SINT12 = 0x4000009c
    SINT13 = 0x4000009d
    SINT14 = 0x4000009e
    SINT15 = 0x4000009f


class Privilege(enum.IntFlag):
    """Bits of a privilege mask."""

    ACCESS_SYNIC_REGS = 1 << 2
    ACCESS_VP_INDEX = 1 << 6
    CREATE_PARTITIONS = 1 << 32
    ACCESS_PARTITION_ID = 1 << 33
    ACCESS_MEMORY_POOL = 1 << 34
    POST_MESSAGES = 1 << 36
    SIGNAL_EVENTS = 1 << 37
    CREATE_PORT = 1 << 38
    CONNECT_PORT = 1 << 39
