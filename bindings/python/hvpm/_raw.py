"""Made by bindings/generate from include/hvpm.h, hvpm_pages.h, hvpm_guest.h. Don't edit it: the headers say what each item means."""
# fmt: off
from ctypes import POINTER, Structure, c_bool, c_char, c_char_p, c_size_t, c_void_p
from ctypes import c_int64, c_uint8, c_uint16, c_uint32, c_uint64

HVPM_VERSION_MAJOR = 0x0
HVPM_VERSION_MINOR = 0x1
HVPM_VERSION_PATCH = 0x0
HVPM_VERSION = 0x64
HVPM_ANY_VP = 0xffffffff
HVPM_LINE = 0x300
HVPM_OUTPUT = 0x10
HVPM_SELF = 0xffffffffffffffff
HVPM_FIRST = 0xffffffff
HVPM_EXPLANATION = 0x800
HVPM_EVENT_LINE = 0x60
HVPM_CALL_LINE = 0x2060
HVPM_GUEST_SERVED = 0x64

HVPM_EFFECT_NOTHING = 0x0
HVPM_EFFECT_SYNIC = 0x1
HVPM_EFFECT_PAGE = 0x2
HVPM_EFFECT_PAGES = 0x3
HVPM_EFFECT_PROCESSOR = 0x4
HVPM_EFFECT_PARTITION = 0x5

HVPM_FLAG_SET = 0x1
HVPM_FLAG_CLEARED = 0x2

HVPM_REPLY_SERVED = 0x0
HVPM_REPLY_MORE = 0x1
HVPM_REPLY_DENIED = 0x2
HVPM_REPLY_FAULT = 0x3

HVPM_STATUS_OK = 0x0
HVPM_STATUS_EMPTY = 0x1
HVPM_STATUS_OCCUPIED = 0x2
HVPM_STATUS_SHORT = 0x3
HVPM_STATUS_USED_UP = 0x4
HVPM_STATUS_MEMORY = 0x5
HVPM_STATUS_PAGES = 0x6
HVPM_STATUS_POOL = 0x7
HVPM_STATUS_VPS = 0x8
HVPM_STATUS_NULL = 0x9
HVPM_STATUS_NONE = 0xa

HVPM_PORT_MESSAGES = 0x1
HVPM_PORT_EVENTS = 0x2

HVPM_LIFE_CREATED = 0x0
HVPM_LIFE_ACTIVE = 0x1
HVPM_LIFE_FINALIZED = 0x2

HVPM_PRIVILEGE_FLAGS = 0x10000
HVPM_CPU_RESERVE = 0x20001
HVPM_CPU_CAP = 0x20002
HVPM_CPU_WEIGHT = 0x20003

HVPM_READ_MSR = 0x0
HVPM_WRITE_MSR = 0x1
HVPM_READ_SLOT = 0x2
HVPM_CLEAR_SLOT = 0x3
HVPM_READ_FLAGS = 0x4
HVPM_CLEAR_FLAG = 0x5
HVPM_TAKE_INTERRUPT = 0x6

HVPM_MSR_GUEST_OS_ID = 0x40000000
HVPM_MSR_HYPERCALL = 0x40000001
HVPM_MSR_REFERENCE_TSC = 0x40000021
HVPM_MSR_VP_ASSIST_PAGE = 0x40000073

HVPM_GUEST_DONE = 0x0
HVPM_GUEST_FAULT = 0x1
HVPM_GUEST_CODE = 0x2
HVPM_GUEST_MACHINE = 0x3
HVPM_GUEST_OTHER = 0x4


class hvpm_caller(Structure):
    _fields_ = [
        ("partition", c_uint64),
        ("vp", c_uint32),
    ]


class hvpm_text(Structure):
    _fields_ = [
        ("at", c_void_p),
        ("len", c_size_t),
        ("size", c_size_t),
    ]


class hvpm_record(Structure):
    _fields_ = [
        ("script", hvpm_text),
        ("audit", hvpm_text),
        ("is_cut", c_bool),
        ("vps", c_uint32),
        ("vp", hvpm_caller * 64),
        ("rep_by", hvpm_caller),
        ("rep", c_uint64),
    ]


class hvpm_machine(Structure):
    _fields_ = [
        ("live", c_bool),
        ("events", c_uint64),
        ("at", c_void_p),
        ("record", POINTER(hvpm_record)),
    ]


class hvpm_config(Structure):
    _fields_ = [
        ("mask", c_uint64),
        ("pages", c_uint32),
        ("pool", c_uint32),
        ("vps", c_uint32),
    ]


class hvpm_registers(Structure):
    _fields_ = [
        ("rcx", c_uint64),
        ("rdx", c_uint64),
        ("r8", c_uint64),
    ]


class hvpm_effect(Structure):
    _fields_ = [
        ("kind", c_uint32),
        ("vp", c_uint32),
        ("partition", c_uint64),
        ("page", c_uint64),
        ("raised", c_uint64 * 4),
        ("shown", c_uint16),
        ("waiting", c_uint16),
        ("flag", c_uint16),
        ("flag_sint", c_uint8),
        ("flag_is", c_uint8),
        ("port", c_uint32),
        ("freed", c_uint8),
        ("pooled", c_uint8),
    ]


class hvpm_reply(Structure):
    _fields_ = [
        ("kind", c_uint32),
        ("rule", c_uint32),
        ("result", c_uint64),
        ("next", c_uint32),
        ("output_len", c_uint32),
        ("line_len", c_uint32),
        ("output", c_uint8 * 256),
        ("effect", hvpm_effect),
    ]


class hvpm_run_done(Structure):
    _fields_ = [
        ("events", c_uint32),
        ("output_len", c_uint32),
    ]


class hvpm_port(Structure):
    _fields_ = [
        ("partition", c_uint64),
        ("id", c_uint32),
        ("peer", c_uint64),
        ("type", c_uint32),
        ("sint", c_uint32),
        ("vp", c_uint32),
        ("base_flag", c_uint16),
        ("flag_count", c_uint16),
    ]


class hvpm_connection(Structure):
    _fields_ = [
        ("partition", c_uint64),
        ("id", c_uint32),
        ("port_partition", c_uint64),
        ("port", c_uint32),
        ("type", c_uint32),
    ]


class hvpm_page_run(Structure):
    _fields_ = [
        ("page", c_uint64),
        ("count", c_uint32),
        ("pooled", c_uint8),
    ]


class hvpm_partition(Structure):
    _fields_ = [
        ("mask", c_uint64),
        ("parent", c_uint64),
        ("depth", c_uint64),
        ("pooled", c_uint64),
        ("in_use", c_uint64),
        ("life", c_uint32),
        ("children", c_uint32),
        ("vps", c_uint32),
        ("ports", c_uint32),
        ("connections", c_uint32),
    ]


class hvpm_vp_register(Structure):
    _fields_ = [
        ("name", c_uint32),
        ("value", c_uint64),
    ]


class hvpm_slot(Structure):
    _fields_ = [
        ("type", c_uint32),
        ("size", c_uint8),
        ("flags", c_uint8),
        ("zero", c_uint8 * 2),
        ("port", c_uint64),
        ("payload", c_uint8 * 240),
    ]


class hvpm_pages(Structure):
    _fields_ = [
        ("of", hvpm_caller),
        ("messages", POINTER(hvpm_slot)),
        ("flags", POINTER(c_uint8)),
        ("shown", c_uint16),
        ("freed", c_bool),
        ("raised", c_uint64 * 4),
        ("untaken", c_uint8 * 4096),
    ]


class hvpm_guest_cpu(Structure):
    _fields_ = [
        ("rax", c_uint64),
        ("rbx", c_uint64),
        ("rcx", c_uint64),
        ("rdx", c_uint64),
        ("rsi", c_uint64),
        ("rdi", c_uint64),
        ("r8", c_uint64),
        ("is_64_bit", c_bool),
        ("is_protected", c_bool),
        ("cpl", c_uint8),
    ]


class hvpm_guest(Structure):
    _fields_ = [
        ("os_id", c_uint64),
        ("hypercall", c_uint64),
        ("assist", c_uint64 * 64),
        ("tsc_page", c_uint64),
    ]


# What each function answers, and what it takes.
FUNCTIONS = {
    "hvpm_boot": (c_uint32, [POINTER(hvpm_machine), POINTER(hvpm_config)]),
    "hvpm_destroy": (None, [POINTER(hvpm_machine)]),
    "hvpm_hypercall": (c_uint32, [POINTER(hvpm_machine), hvpm_caller, POINTER(hvpm_registers), c_void_p, c_size_t, POINTER(hvpm_reply), c_void_p, c_size_t]),
    "hvpm_run": (c_uint32, [POINTER(hvpm_machine), hvpm_caller, POINTER(hvpm_registers), c_void_p, c_size_t, POINTER(hvpm_reply), c_void_p, c_size_t, POINTER(hvpm_run_done)]),
    "hvpm_run_at_most": (c_uint32, [POINTER(hvpm_machine), hvpm_caller, POINTER(hvpm_registers), c_void_p, c_size_t, c_uint32, POINTER(hvpm_reply), c_void_p, c_size_t, POINTER(hvpm_run_done)]),
    "hvpm_next": (c_uint64, [c_uint64, POINTER(hvpm_reply)]),
    "hvpm_read_msr": (c_uint32, [POINTER(hvpm_machine), hvpm_caller, c_uint32, POINTER(hvpm_reply), c_void_p, c_size_t]),
    "hvpm_read_msr_value": (c_uint32, [POINTER(hvpm_machine), hvpm_caller, c_uint32, POINTER(c_uint64), POINTER(hvpm_reply), c_void_p, c_size_t]),
    "hvpm_write_msr": (c_uint32, [POINTER(hvpm_machine), hvpm_caller, c_uint32, c_uint64, POINTER(hvpm_reply), c_void_p, c_size_t]),
    "hvpm_read_slot": (c_uint32, [POINTER(hvpm_machine), hvpm_caller, c_uint8, POINTER(hvpm_reply), c_void_p, c_size_t]),
    "hvpm_clear_slot": (c_uint32, [POINTER(hvpm_machine), hvpm_caller, c_uint8, POINTER(hvpm_reply), c_void_p, c_size_t]),
    "hvpm_read_flags": (c_uint32, [POINTER(hvpm_machine), hvpm_caller, c_uint8, POINTER(hvpm_reply), c_void_p, c_size_t]),
    "hvpm_clear_flag": (c_uint32, [POINTER(hvpm_machine), hvpm_caller, c_uint8, c_uint16, POINTER(hvpm_reply), c_void_p, c_size_t]),
    "hvpm_take_interrupt": (c_uint32, [POINTER(hvpm_machine), hvpm_caller, POINTER(hvpm_reply), c_void_p, c_size_t]),
    "hvpm_create_partition": (c_uint32, [POINTER(hvpm_machine), hvpm_caller, c_uint64, POINTER(c_uint64), POINTER(hvpm_reply), c_void_p, c_size_t]),
    "hvpm_initialize_partition": (c_uint32, [POINTER(hvpm_machine), hvpm_caller, c_uint64, POINTER(hvpm_reply), c_void_p, c_size_t]),
    "hvpm_finalize_partition": (c_uint32, [POINTER(hvpm_machine), hvpm_caller, c_uint64, POINTER(hvpm_reply), c_void_p, c_size_t]),
    "hvpm_delete_partition": (c_uint32, [POINTER(hvpm_machine), hvpm_caller, c_uint64, POINTER(hvpm_reply), c_void_p, c_size_t]),
    "hvpm_get_partition_property": (c_uint32, [POINTER(hvpm_machine), hvpm_caller, c_uint64, c_uint32, POINTER(c_uint64), POINTER(hvpm_reply), c_void_p, c_size_t]),
    "hvpm_set_partition_property": (c_uint32, [POINTER(hvpm_machine), hvpm_caller, c_uint64, c_uint32, c_uint64, POINTER(hvpm_reply), c_void_p, c_size_t]),
    "hvpm_get_partition_id": (c_uint32, [POINTER(hvpm_machine), hvpm_caller, POINTER(c_uint64), POINTER(hvpm_reply), c_void_p, c_size_t]),
    "hvpm_get_next_child_partition": (c_uint32, [POINTER(hvpm_machine), hvpm_caller, c_uint64, c_uint64, POINTER(c_uint64), POINTER(hvpm_reply), c_void_p, c_size_t]),
    "hvpm_deposit_memory": (c_uint32, [POINTER(hvpm_machine), hvpm_caller, c_uint64, POINTER(c_uint64), c_uint16, c_uint16, POINTER(hvpm_reply), c_void_p, c_size_t]),
    "hvpm_withdraw_memory": (c_uint32, [POINTER(hvpm_machine), hvpm_caller, c_uint64, POINTER(c_uint64), c_uint16, c_uint16, POINTER(hvpm_reply), c_void_p, c_size_t]),
    "hvpm_get_memory_balance": (c_uint32, [POINTER(hvpm_machine), hvpm_caller, c_uint64, POINTER(c_uint64), POINTER(c_uint64), POINTER(hvpm_reply), c_void_p, c_size_t]),
    "hvpm_create_vp": (c_uint32, [POINTER(hvpm_machine), hvpm_caller, c_uint64, c_uint32, POINTER(hvpm_reply), c_void_p, c_size_t]),
    "hvpm_delete_vp": (c_uint32, [POINTER(hvpm_machine), hvpm_caller, c_uint64, c_uint32, POINTER(hvpm_reply), c_void_p, c_size_t]),
    "hvpm_get_vp_registers": (c_uint32, [POINTER(hvpm_machine), hvpm_caller, c_uint64, c_uint32, POINTER(hvpm_vp_register), c_uint16, c_uint16, POINTER(hvpm_reply), c_void_p, c_size_t]),
    "hvpm_set_vp_registers": (c_uint32, [POINTER(hvpm_machine), hvpm_caller, c_uint64, c_uint32, POINTER(hvpm_vp_register), c_uint16, c_uint16, POINTER(hvpm_reply), c_void_p, c_size_t]),
    "hvpm_delete_port": (c_uint32, [POINTER(hvpm_machine), hvpm_caller, c_uint64, c_uint32, POINTER(hvpm_reply), c_void_p, c_size_t]),
    "hvpm_disconnect_port": (c_uint32, [POINTER(hvpm_machine), hvpm_caller, c_uint64, c_uint32, POINTER(hvpm_reply), c_void_p, c_size_t]),
    "hvpm_post_message": (c_uint32, [POINTER(hvpm_machine), hvpm_caller, c_uint32, c_uint32, c_void_p, c_uint32, POINTER(hvpm_reply), c_void_p, c_size_t]),
    "hvpm_signal_event": (c_uint32, [POINTER(hvpm_machine), hvpm_caller, c_uint32, c_uint16, POINTER(hvpm_reply), c_void_p, c_size_t]),
    "hvpm_create_port": (c_uint32, [POINTER(hvpm_machine), hvpm_caller, POINTER(hvpm_port), POINTER(hvpm_reply), c_void_p, c_size_t]),
    "hvpm_connect_port": (c_uint32, [POINTER(hvpm_machine), hvpm_caller, POINTER(hvpm_connection), POINTER(hvpm_reply), c_void_p, c_size_t]),
    "hvpm_deposit_pages": (c_uint32, [POINTER(hvpm_machine), hvpm_caller, c_uint64, POINTER(c_uint64), c_size_t, POINTER(c_size_t), POINTER(hvpm_reply)]),
    "hvpm_withdraw_pages": (c_uint32, [POINTER(hvpm_machine), hvpm_caller, c_uint64, POINTER(c_uint64), c_size_t, POINTER(c_size_t), POINTER(hvpm_reply)]),
    "hvpm_read_registers": (c_uint32, [POINTER(hvpm_machine), hvpm_caller, c_uint64, c_uint32, POINTER(hvpm_vp_register), c_size_t, POINTER(c_size_t), POINTER(hvpm_reply)]),
    "hvpm_write_registers": (c_uint32, [POINTER(hvpm_machine), hvpm_caller, c_uint64, c_uint32, POINTER(hvpm_vp_register), c_size_t, POINTER(c_size_t), POINTER(hvpm_reply)]),
    "hvpm_peek_slot": (c_uint32, [POINTER(hvpm_machine), hvpm_caller, c_uint8, POINTER(c_uint8)]),
    "hvpm_peek_flags": (c_uint32, [POINTER(hvpm_machine), hvpm_caller, c_uint8, POINTER(c_uint8)]),
    "hvpm_peek_msr": (c_uint32, [POINTER(hvpm_machine), hvpm_caller, c_uint32, POINTER(c_uint64)]),
    "hvpm_peek_pending": (c_uint32, [POINTER(hvpm_machine), hvpm_caller, POINTER(c_uint64)]),
    "hvpm_peek_partition": (c_uint32, [POINTER(hvpm_machine), c_uint64, POINTER(hvpm_partition)]),
    "hvpm_peek_port": (c_uint32, [POINTER(hvpm_machine), c_uint64, c_uint32, POINTER(hvpm_port)]),
    "hvpm_peek_connection": (c_uint32, [POINTER(hvpm_machine), c_uint64, c_uint32, POINTER(hvpm_connection)]),
    "hvpm_child_after": (c_uint32, [POINTER(hvpm_machine), c_uint64, c_uint64, POINTER(c_uint64)]),
    "hvpm_page_owner": (c_uint32, [POINTER(hvpm_machine), c_uint64, POINTER(c_uint64)]),
    "hvpm_vp_after": (c_uint32, [POINTER(hvpm_machine), c_uint64, c_uint32, POINTER(c_uint32)]),
    "hvpm_port_after": (c_uint32, [POINTER(hvpm_machine), c_uint64, c_uint32, POINTER(c_uint32)]),
    "hvpm_connection_after": (c_uint32, [POINTER(hvpm_machine), c_uint64, c_uint32, POINTER(c_uint32)]),
    "hvpm_page_after": (c_uint32, [POINTER(hvpm_machine), c_uint64, c_uint64, POINTER(hvpm_page_run)]),
    "hvpm_features": (c_uint32, [POINTER(hvpm_machine), c_uint64, POINTER(c_uint32)]),
    "hvpm_table": (c_uint32, [POINTER(hvpm_machine), c_void_p, c_size_t, POINTER(c_size_t)]),
    "hvpm_explain": (c_uint32, [POINTER(hvpm_machine), hvpm_caller, POINTER(hvpm_registers), c_void_p, c_size_t, POINTER(hvpm_reply), c_void_p, c_size_t, POINTER(c_size_t)]),
    "hvpm_explain_access": (c_uint32, [POINTER(hvpm_machine), hvpm_caller, c_uint32, c_uint32, c_uint64, POINTER(hvpm_reply), c_void_p, c_size_t, POINTER(c_size_t)]),
    "hvpm_is_msr": (c_bool, [c_uint32]),
    "hvpm_is_call": (c_bool, [c_uint16]),
    "hvpm_record_free": (None, [POINTER(hvpm_record)]),
    "hvpm_hypercall_line": (c_uint32, [hvpm_caller, POINTER(hvpm_registers), c_void_p, c_size_t, c_void_p, c_size_t, POINTER(c_size_t)]),
    "hvpm_access_line": (c_uint32, [hvpm_caller, c_uint32, c_uint32, c_uint64, c_void_p, c_size_t, POINTER(c_size_t)]),
    "hvpm_version_number": (c_uint32, []),
    "hvpm_version": (c_char_p, []),
    "hvpm_status_name": (c_char_p, [c_uint32]),
    "hvpm_hv_status_name": (c_char_p, [c_uint32]),
    "hvpm_rule_name": (c_char_p, [c_uint32]),
    "hvpm_rule_sentence": (c_char_p, [c_uint32]),
    "hvpm_pages_before": (c_uint32, [POINTER(hvpm_machine), POINTER(hvpm_pages)]),
    "hvpm_pages_after": (c_uint32, [POINTER(hvpm_machine), POINTER(hvpm_pages), POINTER(hvpm_effect)]),
    "hvpm_pages_move": (c_uint32, [POINTER(hvpm_machine), POINTER(hvpm_pages), c_void_p, c_void_p]),
    "hvpm_pages_vector": (c_uint32, [POINTER(hvpm_machine), POINTER(hvpm_pages), POINTER(c_uint8)]),
    "hvpm_guest_call": (c_bool, [POINTER(hvpm_guest_cpu), POINTER(hvpm_registers)]),
    "hvpm_guest_return": (None, [POINTER(hvpm_guest_cpu), c_uint64]),
    "hvpm_guest_again": (None, [POINTER(hvpm_guest_cpu), POINTER(hvpm_registers)]),
    "hvpm_guest_has_input": (c_bool, [POINTER(hvpm_registers)]),
    "hvpm_guest_has_output": (c_bool, [POINTER(hvpm_registers)]),
    "hvpm_guest_no_list": (c_uint64, [POINTER(hvpm_registers)]),
    "hvpm_guest_privilege": (c_uint64, [c_uint32]),
    "hvpm_guest_may": (c_bool, [c_uint64, c_uint32]),
    "hvpm_guest_read_msr": (c_uint32, [POINTER(hvpm_guest), c_uint32, c_uint64, c_uint32, POINTER(c_uint64)]),
    "hvpm_guest_write_msr": (c_uint32, [POINTER(hvpm_guest), c_uint32, c_uint64, c_uint32, c_uint64, c_bool]),
    "hvpm_guest_cpuid": (c_bool, [c_uint32, c_uint64, c_uint32, POINTER(c_uint32)]),
    "hvpm_guest_tsc_scale": (c_uint64, [c_uint64]),
    "hvpm_guest_reference_time": (c_uint64, [c_uint64, c_uint64, c_int64]),
    "hvpm_guest_tsc_page": (None, [c_uint32, c_uint64, c_int64, POINTER(c_uint8)]),
}
