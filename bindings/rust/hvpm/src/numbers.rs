//! The numbers of docs/POLICY.md by their names.
// Made by bindings/numbers from the tables of docs/POLICY.md. Don't edit it.

/// Codes of hypercalls: bits 15:0 of RCX.
pub mod call {
    #![allow(missing_docs)]
    pub const CREATE_PARTITION: u16 = 0x40;
    pub const INITIALIZE_PARTITION: u16 = 0x41;
    pub const FINALIZE_PARTITION: u16 = 0x42;
    pub const DELETE_PARTITION: u16 = 0x43;
    pub const GET_PARTITION_PROPERTY: u16 = 0x44;
    pub const SET_PARTITION_PROPERTY: u16 = 0x45;
    pub const GET_PARTITION_ID: u16 = 0x46;
    pub const GET_NEXT_CHILD_PARTITION: u16 = 0x47;
    pub const DEPOSIT_MEMORY: u16 = 0x48;
    pub const WITHDRAW_MEMORY: u16 = 0x49;
    pub const GET_MEMORY_BALANCE: u16 = 0x4a;
    pub const CREATE_VP: u16 = 0x4e;
    pub const DELETE_VP: u16 = 0x4f;
    pub const GET_VP_REGISTERS: u16 = 0x50;
    pub const SET_VP_REGISTERS: u16 = 0x51;
    pub const DELETE_PORT: u16 = 0x58;
    pub const DISCONNECT_PORT: u16 = 0x5b;
    pub const POST_MESSAGE: u16 = 0x5c;
    pub const SIGNAL_EVENT: u16 = 0x5d;
    pub const CREATE_PORT: u16 = 0x95;
    pub const CONNECT_PORT: u16 = 0x96;
}

/// Statuses of hypercalls: bits 15:0 of RAX.
pub mod hv_status {
    #![allow(missing_docs)]
    pub const SUCCESS: u16 = 0x0;
    pub const INVALID_HYPERCALL_CODE: u16 = 0x2;
    pub const INVALID_HYPERCALL_INPUT: u16 = 0x3;
    pub const INVALID_ALIGNMENT: u16 = 0x4;
    pub const INVALID_PARAMETER: u16 = 0x5;
    pub const ACCESS_DENIED: u16 = 0x6;
    pub const INVALID_PARTITION_STATE: u16 = 0x7;
    pub const UNKNOWN_PROPERTY: u16 = 0x9;
    pub const PROPERTY_VALUE_OUT_OF_RANGE: u16 = 0xa;
    pub const INSUFFICIENT_MEMORY: u16 = 0xb;
    pub const PARTITION_TOO_DEEP: u16 = 0xc;
    pub const INVALID_PARTITION_ID: u16 = 0xd;
    pub const INVALID_VP_INDEX: u16 = 0xe;
    pub const INVALID_PORT_ID: u16 = 0x11;
    pub const INVALID_CONNECTION_ID: u16 = 0x12;
    pub const INSUFFICIENT_BUFFERS: u16 = 0x13;
    pub const INVALID_SYNIC_STATE: u16 = 0x18;
    pub const OBJECT_IN_USE: u16 = 0x19;
    pub const NO_RESOURCES: u16 = 0x1d;
}

/// The rules.
pub mod rule {
    #![allow(missing_docs)]
    pub const P1: u32 = 1;
    pub const P2: u32 = 2;
    pub const P3: u32 = 3;
    pub const P4: u32 = 4;
    pub const P5: u32 = 5;
    pub const P6: u32 = 6;
    pub const P7: u32 = 7;
    pub const P8: u32 = 8;
    pub const P9: u32 = 9;
    pub const P10: u32 = 10;
    pub const P11: u32 = 11;
    pub const P12: u32 = 12;
    pub const P13: u32 = 13;
    pub const P14: u32 = 14;
    pub const P15: u32 = 15;
    pub const P16: u32 = 16;
    pub const P17: u32 = 17;
    pub const P18: u32 = 18;
    pub const P19: u32 = 19;
    pub const P20: u32 = 20;
    pub const P21: u32 = 21;
    pub const P22: u32 = 22;
    pub const P23: u32 = 23;
    pub const P24: u32 = 24;
    pub const P25: u32 = 25;
    pub const P26: u32 = 26;
    pub const P27: u32 = 27;
}

/// Names of registers, in HvGetVpRegisters and HvSetVpRegisters.
pub mod register {
    #![allow(missing_docs)]
    pub const RAX: u32 = 0x20000;
    pub const RCX: u32 = 0x20001;
    pub const RDX: u32 = 0x20002;
    pub const RBX: u32 = 0x20003;
    pub const RSP: u32 = 0x20004;
    pub const RBP: u32 = 0x20005;
    pub const RSI: u32 = 0x20006;
    pub const RDI: u32 = 0x20007;
    pub const R8: u32 = 0x20008;
    pub const R9: u32 = 0x20009;
    pub const R10: u32 = 0x2000a;
    pub const R11: u32 = 0x2000b;
    pub const R12: u32 = 0x2000c;
    pub const R13: u32 = 0x2000d;
    pub const R14: u32 = 0x2000e;
    pub const R15: u32 = 0x2000f;
    pub const RIP: u32 = 0x20010;
    pub const RFLAGS: u32 = 0x20011;
    pub const VP_INDEX: u32 = 0x90003;
    pub const SINT0: u32 = 0xa0000;
    pub const SINT1: u32 = 0xa0001;
    pub const SINT2: u32 = 0xa0002;
    pub const SINT3: u32 = 0xa0003;
    pub const SINT4: u32 = 0xa0004;
    pub const SINT5: u32 = 0xa0005;
    pub const SINT6: u32 = 0xa0006;
    pub const SINT7: u32 = 0xa0007;
    pub const SINT8: u32 = 0xa0008;
    pub const SINT9: u32 = 0xa0009;
    pub const SINT10: u32 = 0xa000a;
    pub const SINT11: u32 = 0xa000b;
    pub const SINT12: u32 = 0xa000c;
    pub const SINT13: u32 = 0xa000d;
    pub const SINT14: u32 = 0xa000e;
    pub const SINT15: u32 = 0xa000f;
    pub const SCONTROL: u32 = 0xa0010;
    pub const SVERSION: u32 = 0xa0011;
    pub const SIEFP: u32 = 0xa0012;
    pub const SIMP: u32 = 0xa0013;
    pub const EOM: u32 = 0xa0014;
}

/// Numbers of model-specific registers.
pub mod msr {
    #![allow(missing_docs)]
    pub const VP_INDEX: u32 = 0x40000002;
    pub const SCONTROL: u32 = 0x40000080;
    pub const SVERSION: u32 = 0x40000081;
    pub const SIEFP: u32 = 0x40000082;
    pub const SIMP: u32 = 0x40000083;
    pub const EOM: u32 = 0x40000084;
    pub const SINT0: u32 = 0x40000090;
    pub const SINT1: u32 = 0x40000091;
    pub const SINT2: u32 = 0x40000092;
    pub const SINT3: u32 = 0x40000093;
    pub const SINT4: u32 = 0x40000094;
    pub const SINT5: u32 = 0x40000095;
    pub const SINT6: u32 = 0x40000096;
    pub const SINT7: u32 = 0x40000097;
    pub const SINT8: u32 = 0x40000098;
    pub const SINT9: u32 = 0x40000099;
    pub const SINT10: u32 = 0x4000009a;
    pub const SINT11: u32 = 0x4000009b;
    pub const SINT12: u32 = 0x4000009c;
    pub const SINT13: u32 = 0x4000009d;
    pub const SINT14: u32 = 0x4000009e;
    pub const SINT15: u32 = 0x4000009f;
}

/// Bits of a privilege mask.
pub mod privilege {
    #![allow(missing_docs)]
    pub const ACCESS_SYNIC_REGS: u64 = 1 << 2;
    pub const ACCESS_VP_INDEX: u64 = 1 << 6;
    pub const CREATE_PARTITIONS: u64 = 1 << 32;
    pub const ACCESS_PARTITION_ID: u64 = 1 << 33;
    pub const ACCESS_MEMORY_POOL: u64 = 1 << 34;
    pub const POST_MESSAGES: u64 = 1 << 36;
    pub const SIGNAL_EVENTS: u64 = 1 << 37;
    pub const CREATE_PORT: u64 = 1 << 38;
    pub const CONNECT_PORT: u64 = 1 << 39;
}
