// Made by bindings/generate from include/hvpm.h, hvpm_pages.h, hvpm_guest.h. Don't edit it: the headers say what each item means.

use core::ffi::{c_char, c_void};
use core::mem::{offset_of, size_of};

pub const HVPM_VERSION_MAJOR: u32 = 0;
pub const HVPM_VERSION_MINOR: u32 = 1;
pub const HVPM_VERSION_PATCH: u32 = 0;
pub const HVPM_VERSION: u32 = 100;
pub const HVPM_ANY_VP: u32 = 0xffffffff;
pub const HVPM_LINE: usize = 768;
pub const HVPM_OUTPUT: usize = 16;
pub const HVPM_SELF: u64 = 0xffffffffffffffff;
pub const HVPM_FIRST: u32 = 0xffffffff;
pub const HVPM_EXPLANATION: usize = 2048;
pub const HVPM_EVENT_LINE: usize = 96;
pub const HVPM_CALL_LINE: usize = 0x2060;
pub const HVPM_GUEST_SERVED: u32 = 100;

pub const HVPM_EFFECT_NOTHING: u32 = 0;
pub const HVPM_EFFECT_SYNIC: u32 = 1;
pub const HVPM_EFFECT_PAGE: u32 = 2;
pub const HVPM_EFFECT_PAGES: u32 = 3;
pub const HVPM_EFFECT_PROCESSOR: u32 = 4;
pub const HVPM_EFFECT_PARTITION: u32 = 5;

pub const HVPM_FLAG_SET: u32 = 1;
pub const HVPM_FLAG_CLEARED: u32 = 2;

pub const HVPM_REPLY_SERVED: u32 = 0;
pub const HVPM_REPLY_MORE: u32 = 1;
pub const HVPM_REPLY_DENIED: u32 = 2;
pub const HVPM_REPLY_FAULT: u32 = 3;

pub const HVPM_STATUS_OK: u32 = 0;
pub const HVPM_STATUS_EMPTY: u32 = 1;
pub const HVPM_STATUS_OCCUPIED: u32 = 2;
pub const HVPM_STATUS_SHORT: u32 = 3;
pub const HVPM_STATUS_USED_UP: u32 = 4;
pub const HVPM_STATUS_MEMORY: u32 = 5;
pub const HVPM_STATUS_PAGES: u32 = 6;
pub const HVPM_STATUS_POOL: u32 = 7;
pub const HVPM_STATUS_VPS: u32 = 8;
pub const HVPM_STATUS_NULL: u32 = 9;
pub const HVPM_STATUS_NONE: u32 = 10;

pub const HVPM_PORT_MESSAGES: u32 = 1;
pub const HVPM_PORT_EVENTS: u32 = 2;

pub const HVPM_LIFE_CREATED: u32 = 0;
pub const HVPM_LIFE_ACTIVE: u32 = 1;
pub const HVPM_LIFE_FINALIZED: u32 = 2;

pub const HVPM_PRIVILEGE_FLAGS: u32 = 0x10000;
pub const HVPM_CPU_RESERVE: u32 = 0x20001;
pub const HVPM_CPU_CAP: u32 = 0x20002;
pub const HVPM_CPU_WEIGHT: u32 = 0x20003;

pub const HVPM_READ_MSR: u32 = 0;
pub const HVPM_WRITE_MSR: u32 = 1;
pub const HVPM_READ_SLOT: u32 = 2;
pub const HVPM_CLEAR_SLOT: u32 = 3;
pub const HVPM_READ_FLAGS: u32 = 4;
pub const HVPM_CLEAR_FLAG: u32 = 5;
pub const HVPM_TAKE_INTERRUPT: u32 = 6;

pub const HVPM_MSR_GUEST_OS_ID: u32 = 0x40000000;
pub const HVPM_MSR_HYPERCALL: u32 = 0x40000001;
pub const HVPM_MSR_REFERENCE_TSC: u32 = 0x40000021;
pub const HVPM_MSR_VP_ASSIST_PAGE: u32 = 0x40000073;

pub const HVPM_GUEST_DONE: u32 = 0;
pub const HVPM_GUEST_FAULT: u32 = 1;
pub const HVPM_GUEST_CODE: u32 = 2;
pub const HVPM_GUEST_MACHINE: u32 = 3;
pub const HVPM_GUEST_OTHER: u32 = 4;

#[repr(C)]
#[derive(Clone, Copy, Debug)]
pub struct hvpm_caller {
    pub partition: u64,
    pub vp: u32,
}

#[repr(C)]
#[derive(Clone, Copy, Debug)]
pub struct hvpm_text {
    pub at: *mut c_char,
    pub len: usize,
    pub size: usize,
}

#[repr(C)]
#[derive(Clone, Copy, Debug)]
pub struct hvpm_record {
    pub script: hvpm_text,
    pub audit: hvpm_text,
    pub is_cut: bool,
    pub vps: u32,
    pub vp: [hvpm_caller; 64],
    pub rep_by: hvpm_caller,
    pub rep: u64,
}

#[repr(C)]
#[derive(Clone, Copy, Debug)]
pub struct hvpm_machine {
    pub live: bool,
    pub events: u64,
    pub at: *mut c_void,
    pub record: *mut hvpm_record,
}

#[repr(C)]
#[derive(Clone, Copy, Debug)]
pub struct hvpm_config {
    pub mask: u64,
    pub pages: u32,
    pub pool: u32,
    pub vps: u32,
}

#[repr(C)]
#[derive(Clone, Copy, Debug)]
pub struct hvpm_registers {
    pub rcx: u64,
    pub rdx: u64,
    pub r8: u64,
}

#[repr(C)]
#[derive(Clone, Copy, Debug)]
pub struct hvpm_effect {
    pub kind: u32,
    pub vp: u32,
    pub partition: u64,
    pub page: u64,
    pub raised: [u64; 4],
    pub shown: u16,
    pub waiting: u16,
    pub flag: u16,
    pub flag_sint: u8,
    pub flag_is: u8,
    pub port: u32,
    pub freed: u8,
    pub pooled: u8,
}

#[repr(C)]
#[derive(Clone, Copy, Debug)]
pub struct hvpm_reply {
    pub kind: u32,
    pub rule: u32,
    pub result: u64,
    pub next: u32,
    pub output_len: u32,
    pub line_len: u32,
    pub output: [u8; 256],
    pub effect: hvpm_effect,
}

#[repr(C)]
#[derive(Clone, Copy, Debug)]
pub struct hvpm_run_done {
    pub events: u32,
    pub output_len: u32,
}

#[repr(C)]
#[derive(Clone, Copy, Debug)]
pub struct hvpm_port {
    pub partition: u64,
    pub id: u32,
    pub peer: u64,
    pub type_: u32,
    pub sint: u32,
    pub vp: u32,
    pub base_flag: u16,
    pub flag_count: u16,
}

#[repr(C)]
#[derive(Clone, Copy, Debug)]
pub struct hvpm_connection {
    pub partition: u64,
    pub id: u32,
    pub port_partition: u64,
    pub port: u32,
    pub type_: u32,
}

#[repr(C)]
#[derive(Clone, Copy, Debug)]
pub struct hvpm_page_run {
    pub page: u64,
    pub count: u32,
    pub pooled: u8,
}

#[repr(C)]
#[derive(Clone, Copy, Debug)]
pub struct hvpm_partition {
    pub mask: u64,
    pub parent: u64,
    pub depth: u64,
    pub pooled: u64,
    pub in_use: u64,
    pub life: u32,
    pub children: u32,
    pub vps: u32,
    pub ports: u32,
    pub connections: u32,
}

#[repr(C)]
#[derive(Clone, Copy, Debug)]
pub struct hvpm_vp_register {
    pub name: u32,
    pub value: u64,
}

#[repr(C)]
#[derive(Clone, Copy, Debug)]
pub struct hvpm_slot {
    pub type_: u32,
    pub size: u8,
    pub flags: u8,
    pub zero: [u8; 2],
    pub port: u64,
    pub payload: [u8; 240],
}

#[repr(C)]
#[derive(Clone, Copy, Debug)]
pub struct hvpm_pages {
    pub of: hvpm_caller,
    pub messages: *mut hvpm_slot,
    pub flags: *mut u8,
    pub shown: u16,
    pub freed: bool,
    pub raised: [u64; 4],
    pub untaken: [u8; 4096],
}

#[repr(C)]
#[derive(Clone, Copy, Debug)]
pub struct hvpm_guest_cpu {
    pub rax: u64,
    pub rbx: u64,
    pub rcx: u64,
    pub rdx: u64,
    pub rsi: u64,
    pub rdi: u64,
    pub r8: u64,
    pub is_64_bit: bool,
    pub is_protected: bool,
    pub cpl: u8,
}

#[repr(C)]
#[derive(Clone, Copy, Debug)]
pub struct hvpm_guest {
    pub os_id: u64,
    pub hypercall: u64,
    pub assist: [u64; 64],
    pub tsc_page: u64,
}

const _: () = assert!(size_of::<hvpm_machine>() == 32 && offset_of!(hvpm_machine, events) == 8 && offset_of!(hvpm_machine, at) == 16);
const _: () = assert!(size_of::<hvpm_text>() == 24 && size_of::<hvpm_record>() == 1104 && offset_of!(hvpm_record, vp) == 56);
const _: () = assert!(size_of::<hvpm_config>() == 24 && offset_of!(hvpm_config, pages) == 8 && offset_of!(hvpm_config, vps) == 16);
const _: () = assert!(size_of::<hvpm_caller>() == 16 && offset_of!(hvpm_caller, vp) == 8);
const _: () = assert!(size_of::<hvpm_registers>() == 24 && offset_of!(hvpm_registers, r8) == 16);
const _: () = assert!(size_of::<hvpm_run_done>() == 8 && offset_of!(hvpm_run_done, output_len) == 4);
const _: () = assert!(size_of::<hvpm_page_run>() == 16 && offset_of!(hvpm_page_run, count) == 8 && offset_of!(hvpm_page_run, pooled) == 12);
const _: () = assert!(size_of::<hvpm_partition>() == 64 && offset_of!(hvpm_partition, life) == 40 && offset_of!(hvpm_partition, connections) == 56);
const _: () = assert!(size_of::<hvpm_port>() == 40 && offset_of!(hvpm_port, peer) == 16 && offset_of!(hvpm_port, flag_count) == 38);
const _: () = assert!(size_of::<hvpm_connection>() == 32 && offset_of!(hvpm_connection, port_partition) == 16 && offset_of!(hvpm_connection, type_) == 28);
const _: () = assert!(size_of::<hvpm_reply>() == 360 && offset_of!(hvpm_reply, result) == 8 && offset_of!(hvpm_reply, output) == 28 && offset_of!(hvpm_reply, effect) == 288);
const _: () = assert!(size_of::<hvpm_effect>() == 72 && offset_of!(hvpm_effect, raised) == 24 && offset_of!(hvpm_effect, port) == 64);
const _: () = assert!(size_of::<hvpm_slot>() == 256 && offset_of!(hvpm_slot, flags) == 5 && offset_of!(hvpm_slot, payload) == 16);

unsafe extern "C" {
    pub fn hvpm_boot(machine: *mut hvpm_machine, config: *const hvpm_config) -> u32;
    pub fn hvpm_destroy(machine: *mut hvpm_machine);
    pub fn hvpm_hypercall(machine: *mut hvpm_machine, by: hvpm_caller, registers: *const hvpm_registers, input: *const c_void, input_len: usize, reply: *mut hvpm_reply, line: *mut c_char, line_size: usize) -> u32;
    pub fn hvpm_run(machine: *mut hvpm_machine, by: hvpm_caller, registers: *const hvpm_registers, input: *const c_void, input_len: usize, reply: *mut hvpm_reply, outputs: *mut c_void, outputs_size: usize, done: *mut hvpm_run_done) -> u32;
    pub fn hvpm_run_at_most(machine: *mut hvpm_machine, by: hvpm_caller, registers: *const hvpm_registers, input: *const c_void, input_len: usize, most: u32, reply: *mut hvpm_reply, outputs: *mut c_void, outputs_size: usize, done: *mut hvpm_run_done) -> u32;
    pub fn hvpm_next(rcx: u64, reply: *const hvpm_reply) -> u64;
    pub fn hvpm_read_msr(machine: *mut hvpm_machine, by: hvpm_caller, msr: u32, reply: *mut hvpm_reply, line: *mut c_char, line_size: usize) -> u32;
    pub fn hvpm_read_msr_value(machine: *mut hvpm_machine, by: hvpm_caller, msr: u32, value: *mut u64, reply: *mut hvpm_reply, line: *mut c_char, line_size: usize) -> u32;
    pub fn hvpm_write_msr(machine: *mut hvpm_machine, by: hvpm_caller, msr: u32, value: u64, reply: *mut hvpm_reply, line: *mut c_char, line_size: usize) -> u32;
    pub fn hvpm_read_slot(machine: *mut hvpm_machine, by: hvpm_caller, sint: u8, reply: *mut hvpm_reply, line: *mut c_char, line_size: usize) -> u32;
    pub fn hvpm_clear_slot(machine: *mut hvpm_machine, by: hvpm_caller, sint: u8, reply: *mut hvpm_reply, line: *mut c_char, line_size: usize) -> u32;
    pub fn hvpm_read_flags(machine: *mut hvpm_machine, by: hvpm_caller, sint: u8, reply: *mut hvpm_reply, line: *mut c_char, line_size: usize) -> u32;
    pub fn hvpm_clear_flag(machine: *mut hvpm_machine, by: hvpm_caller, sint: u8, flag: u16, reply: *mut hvpm_reply, line: *mut c_char, line_size: usize) -> u32;
    pub fn hvpm_take_interrupt(machine: *mut hvpm_machine, by: hvpm_caller, reply: *mut hvpm_reply, line: *mut c_char, line_size: usize) -> u32;
    pub fn hvpm_create_partition(machine: *mut hvpm_machine, by: hvpm_caller, flags: u64, partition: *mut u64, reply: *mut hvpm_reply, line: *mut c_char, line_size: usize) -> u32;
    pub fn hvpm_initialize_partition(machine: *mut hvpm_machine, by: hvpm_caller, partition: u64, reply: *mut hvpm_reply, line: *mut c_char, line_size: usize) -> u32;
    pub fn hvpm_finalize_partition(machine: *mut hvpm_machine, by: hvpm_caller, partition: u64, reply: *mut hvpm_reply, line: *mut c_char, line_size: usize) -> u32;
    pub fn hvpm_delete_partition(machine: *mut hvpm_machine, by: hvpm_caller, partition: u64, reply: *mut hvpm_reply, line: *mut c_char, line_size: usize) -> u32;
    pub fn hvpm_get_partition_property(machine: *mut hvpm_machine, by: hvpm_caller, partition: u64, property: u32, value: *mut u64, reply: *mut hvpm_reply, line: *mut c_char, line_size: usize) -> u32;
    pub fn hvpm_set_partition_property(machine: *mut hvpm_machine, by: hvpm_caller, partition: u64, property: u32, value: u64, reply: *mut hvpm_reply, line: *mut c_char, line_size: usize) -> u32;
    pub fn hvpm_get_partition_id(machine: *mut hvpm_machine, by: hvpm_caller, partition: *mut u64, reply: *mut hvpm_reply, line: *mut c_char, line_size: usize) -> u32;
    pub fn hvpm_get_next_child_partition(machine: *mut hvpm_machine, by: hvpm_caller, parent: u64, previous: u64, child: *mut u64, reply: *mut hvpm_reply, line: *mut c_char, line_size: usize) -> u32;
    pub fn hvpm_deposit_memory(machine: *mut hvpm_machine, by: hvpm_caller, partition: u64, pages: *const u64, count: u16, start: u16, reply: *mut hvpm_reply, line: *mut c_char, line_size: usize) -> u32;
    pub fn hvpm_withdraw_memory(machine: *mut hvpm_machine, by: hvpm_caller, partition: u64, pages: *mut u64, count: u16, start: u16, reply: *mut hvpm_reply, line: *mut c_char, line_size: usize) -> u32;
    pub fn hvpm_get_memory_balance(machine: *mut hvpm_machine, by: hvpm_caller, partition: u64, available: *mut u64, in_use: *mut u64, reply: *mut hvpm_reply, line: *mut c_char, line_size: usize) -> u32;
    pub fn hvpm_create_vp(machine: *mut hvpm_machine, by: hvpm_caller, partition: u64, vp: u32, reply: *mut hvpm_reply, line: *mut c_char, line_size: usize) -> u32;
    pub fn hvpm_delete_vp(machine: *mut hvpm_machine, by: hvpm_caller, partition: u64, vp: u32, reply: *mut hvpm_reply, line: *mut c_char, line_size: usize) -> u32;
    pub fn hvpm_get_vp_registers(machine: *mut hvpm_machine, by: hvpm_caller, partition: u64, vp: u32, registers: *mut hvpm_vp_register, count: u16, start: u16, reply: *mut hvpm_reply, line: *mut c_char, line_size: usize) -> u32;
    pub fn hvpm_set_vp_registers(machine: *mut hvpm_machine, by: hvpm_caller, partition: u64, vp: u32, registers: *const hvpm_vp_register, count: u16, start: u16, reply: *mut hvpm_reply, line: *mut c_char, line_size: usize) -> u32;
    pub fn hvpm_delete_port(machine: *mut hvpm_machine, by: hvpm_caller, partition: u64, port: u32, reply: *mut hvpm_reply, line: *mut c_char, line_size: usize) -> u32;
    pub fn hvpm_disconnect_port(machine: *mut hvpm_machine, by: hvpm_caller, partition: u64, connection: u32, reply: *mut hvpm_reply, line: *mut c_char, line_size: usize) -> u32;
    pub fn hvpm_post_message(machine: *mut hvpm_machine, by: hvpm_caller, connection: u32, type_: u32, payload: *const c_void, payload_size: u32, reply: *mut hvpm_reply, line: *mut c_char, line_size: usize) -> u32;
    pub fn hvpm_signal_event(machine: *mut hvpm_machine, by: hvpm_caller, connection: u32, flag: u16, reply: *mut hvpm_reply, line: *mut c_char, line_size: usize) -> u32;
    pub fn hvpm_create_port(machine: *mut hvpm_machine, by: hvpm_caller, port: *const hvpm_port, reply: *mut hvpm_reply, line: *mut c_char, line_size: usize) -> u32;
    pub fn hvpm_connect_port(machine: *mut hvpm_machine, by: hvpm_caller, connection: *const hvpm_connection, reply: *mut hvpm_reply, line: *mut c_char, line_size: usize) -> u32;
    pub fn hvpm_deposit_pages(machine: *mut hvpm_machine, by: hvpm_caller, partition: u64, pages: *const u64, count: usize, made: *mut usize, reply: *mut hvpm_reply) -> u32;
    pub fn hvpm_withdraw_pages(machine: *mut hvpm_machine, by: hvpm_caller, partition: u64, pages: *mut u64, count: usize, made: *mut usize, reply: *mut hvpm_reply) -> u32;
    pub fn hvpm_read_registers(machine: *mut hvpm_machine, by: hvpm_caller, partition: u64, vp: u32, registers: *mut hvpm_vp_register, count: usize, made: *mut usize, reply: *mut hvpm_reply) -> u32;
    pub fn hvpm_write_registers(machine: *mut hvpm_machine, by: hvpm_caller, partition: u64, vp: u32, registers: *const hvpm_vp_register, count: usize, made: *mut usize, reply: *mut hvpm_reply) -> u32;
    pub fn hvpm_peek_slot(machine: *const hvpm_machine, of: hvpm_caller, sint: u8, out: *mut u8) -> u32;
    pub fn hvpm_peek_flags(machine: *const hvpm_machine, of: hvpm_caller, sint: u8, out: *mut u8) -> u32;
    pub fn hvpm_peek_msr(machine: *const hvpm_machine, of: hvpm_caller, msr: u32, value: *mut u64) -> u32;
    pub fn hvpm_peek_pending(machine: *const hvpm_machine, of: hvpm_caller, pending: *mut u64) -> u32;
    pub fn hvpm_peek_partition(machine: *const hvpm_machine, id: u64, out: *mut hvpm_partition) -> u32;
    pub fn hvpm_peek_port(machine: *const hvpm_machine, partition: u64, id: u32, out: *mut hvpm_port) -> u32;
    pub fn hvpm_peek_connection(machine: *const hvpm_machine, partition: u64, id: u32, out: *mut hvpm_connection) -> u32;
    pub fn hvpm_child_after(machine: *const hvpm_machine, parent: u64, previous: u64, child: *mut u64) -> u32;
    pub fn hvpm_page_owner(machine: *const hvpm_machine, page: u64, owner: *mut u64) -> u32;
    pub fn hvpm_vp_after(machine: *const hvpm_machine, partition: u64, previous: u32, vp: *mut u32) -> u32;
    pub fn hvpm_port_after(machine: *const hvpm_machine, partition: u64, previous: u32, id: *mut u32) -> u32;
    pub fn hvpm_connection_after(machine: *const hvpm_machine, partition: u64, previous: u32, id: *mut u32) -> u32;
    pub fn hvpm_page_after(machine: *const hvpm_machine, partition: u64, previous: u64, run: *mut hvpm_page_run) -> u32;
    pub fn hvpm_features(machine: *const hvpm_machine, partition: u64, eax_to_edx: *mut u32) -> u32;
    pub fn hvpm_table(machine: *const hvpm_machine, text: *mut c_char, text_size: usize, len: *mut usize) -> u32;
    pub fn hvpm_explain(machine: *const hvpm_machine, by: hvpm_caller, registers: *const hvpm_registers, input: *const c_void, input_len: usize, reply: *const hvpm_reply, text: *mut c_char, text_size: usize, len: *mut usize) -> u32;
    pub fn hvpm_explain_access(machine: *const hvpm_machine, by: hvpm_caller, access: u32, number: u32, value: u64, reply: *const hvpm_reply, text: *mut c_char, text_size: usize, len: *mut usize) -> u32;
    pub fn hvpm_is_msr(msr: u32) -> bool;
    pub fn hvpm_is_call(code: u16) -> bool;
    pub fn hvpm_record_free(record: *mut hvpm_record);
    pub fn hvpm_hypercall_line(by: hvpm_caller, registers: *const hvpm_registers, input: *const c_void, input_len: usize, text: *mut c_char, text_size: usize, len: *mut usize) -> u32;
    pub fn hvpm_access_line(by: hvpm_caller, access: u32, number: u32, value: u64, text: *mut c_char, text_size: usize, len: *mut usize) -> u32;
    pub fn hvpm_version_number() -> u32;
    pub fn hvpm_version() -> *const c_char;
    pub fn hvpm_status_name(status: u32) -> *const c_char;
    pub fn hvpm_hv_status_name(status: u32) -> *const c_char;
    pub fn hvpm_rule_name(rule: u32) -> *const c_char;
    pub fn hvpm_rule_sentence(rule: u32) -> *const c_char;
    pub fn hvpm_pages_before(machine: *mut hvpm_machine, pages: *mut hvpm_pages) -> u32;
    pub fn hvpm_pages_after(machine: *mut hvpm_machine, pages: *mut hvpm_pages, effect: *const hvpm_effect) -> u32;
    pub fn hvpm_pages_move(machine: *mut hvpm_machine, pages: *mut hvpm_pages, messages: *mut c_void, flags: *mut c_void) -> u32;
    pub fn hvpm_pages_vector(machine: *mut hvpm_machine, pages: *mut hvpm_pages, vector: *mut u8) -> u32;
    pub fn hvpm_guest_call(cpu: *const hvpm_guest_cpu, call: *mut hvpm_registers) -> bool;
    pub fn hvpm_guest_return(cpu: *mut hvpm_guest_cpu, result: u64);
    pub fn hvpm_guest_again(cpu: *mut hvpm_guest_cpu, call: *const hvpm_registers);
    pub fn hvpm_guest_has_input(call: *const hvpm_registers) -> bool;
    pub fn hvpm_guest_has_output(call: *const hvpm_registers) -> bool;
    pub fn hvpm_guest_no_list(call: *const hvpm_registers) -> u64;
    pub fn hvpm_guest_privilege(msr: u32) -> u64;
    pub fn hvpm_guest_may(mask: u64, msr: u32) -> bool;
    pub fn hvpm_guest_read_msr(guest: *const hvpm_guest, vp: u32, mask: u64, msr: u32, value: *mut u64) -> u32;
    pub fn hvpm_guest_write_msr(guest: *mut hvpm_guest, vp: u32, mask: u64, msr: u32, value: u64, is_memory: bool) -> u32;
    pub fn hvpm_guest_cpuid(leaf: u32, mask: u64, served: u32, eax_to_edx: *mut u32) -> bool;
    pub fn hvpm_guest_tsc_scale(frequency: u64) -> u64;
    pub fn hvpm_guest_reference_time(tsc: u64, scale: u64, offset: i64) -> u64;
    pub fn hvpm_guest_tsc_page(sequence: u32, scale: u64, offset: i64, page: *mut u8);
}
