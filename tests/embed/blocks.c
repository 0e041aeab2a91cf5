/*
 * What each typed call of hvpm.h gives the library, byte by byte, and where it puts what the library puts
 * out. In place of the library stand two functions that keep what they are given. Each byte of each field
 * differs from all others, and what must come of them is typed by hand from docs/POLICY.md's table of
 * blocks.
 *
 * Each call is a line of standard output, which `compare` lays beside the header. What is wrong goes to
 * standard error. This file is C and C++.
 */
#include "hvpm.h"

#include <inttypes.h>
#include <stdio.h>
#include <string.h>

static int wrong;

static void holds(const char *call, const char *what, bool is_so) {
    if (is_so) return;
    fprintf(stderr, "%s: %s\n", call, what);
    wrong = 1;
}

/* ---- In place of the library ---- */

/* What the library was given, and how often. */
static struct {
    int times;
    const hvpm_machine *machine;
    hvpm_caller by;
    hvpm_registers registers;
    uint8_t input[4096];
    size_t input_len;
    const hvpm_reply *reply;
    const uint8_t *line;
    size_t line_size;
} got;

/* What it answers. */
static struct { uint32_t status, kind, output_len; } answer;

/* A call of which only what it gives the library matters. */
static void made(uint32_t status) {
    holds("a call", "its status", status == answer.status);
}

static uint32_t take(hvpm_machine *machine, hvpm_caller by, hvpm_reply *reply, uint8_t *line,
                     size_t line_size) {
    got.times++;
    got.machine = machine;
    got.by = by;
    got.reply = reply;
    got.line = line;
    got.line_size = line_size;
    reply->kind = answer.kind;
    reply->output_len = answer.output_len;
    for (size_t i = 0; i < 8; i++) {
        reply->output[i] = (uint8_t)(0xA1 + i);
        reply->output[8 + i] = (uint8_t)(0xB1 + i);
    }
    return answer.status;
}

uint32_t hv_embed_hypercall(hvpm_machine *machine, hvpm_caller by, const hvpm_registers *registers,
                            const uint8_t *input, size_t input_len, hvpm_reply *reply, uint8_t *line,
                            size_t line_size) {
    got.registers = *registers;
    got.input_len = input_len;
    memset(got.input, 0xEE, sizeof got.input);
    if (input_len <= sizeof got.input) memcpy(got.input, input, input_len);
    return take(machine, by, reply, line, line_size);
}

/* The MSR stands as RCX, with an RDX that no call has. */
enum { RDMSR = 0x0F32 };

uint32_t hv_embed_read_msr(hvpm_machine *machine, hvpm_caller by, uint32_t msr, hvpm_reply *reply,
                           uint8_t *line, size_t line_size) {
    got.registers.rcx = msr;
    got.registers.rdx = RDMSR;
    got.registers.r8 = 0;
    got.input_len = 0;
    return take(machine, by, reply, line, line_size);
}

/* ---- The calls ---- */

static const hvpm_caller by = {UINT64_C(0xC8C7C6C5C4C3C2C1), UINT32_C(0xD4D3D2D1)};
static hvpm_machine machine = HVPM_EMPTY;
static hvpm_reply reply;
static char line[HVPM_LINE];

/* Where outputs go. */
static const uint64_t unwritten = UINT64_C(0xEEEEEEEEEEEEEEEE);
static uint64_t out[3];

/* Fields of 8 and of 4 bytes. */
static const uint64_t wide1 = UINT64_C(0x1817161514131211), wide2 = UINT64_C(0x2827262524232221),
                      wide3 = UINT64_C(0x3837363534333231);
static const uint32_t word1 = UINT32_C(0x14131211), word2 = UINT32_C(0x24232221);

static uint32_t create_partition(void) {
    return hvpm_create_partition(&machine, by, wide1, out, &reply, line, sizeof line);
}

static uint32_t initialize_partition(void) {
    return hvpm_initialize_partition(&machine, by, wide1, &reply, line, sizeof line);
}

static uint32_t finalize_partition(void) {
    return hvpm_finalize_partition(&machine, by, wide1, &reply, line, sizeof line);
}

static uint32_t delete_partition(void) {
    return hvpm_delete_partition(&machine, by, wide1, &reply, line, sizeof line);
}

static uint32_t get_partition_property(void) {
    return hvpm_get_partition_property(&machine, by, wide1, word2, out, &reply, line, sizeof line);
}

static uint32_t set_partition_property(void) {
    return hvpm_set_partition_property(&machine, by, wide1, word2, wide3, &reply, line, sizeof line);
}

static uint32_t get_partition_id(void) {
    return hvpm_get_partition_id(&machine, by, out, &reply, line, sizeof line);
}

static uint32_t get_next_child_partition(void) {
    return hvpm_get_next_child_partition(&machine, by, wide1, wide2, out, &reply, line, sizeof line);
}

static uint32_t deposit_memory(void) {
    const uint64_t pages[3] = {wide2, wide3, UINT64_C(0x4847464544434241)};
    return hvpm_deposit_memory(&machine, by, wide1, pages, 3, 1, &reply, line, sizeof line);
}

static uint32_t withdraw_memory(void) {
    return hvpm_withdraw_memory(&machine, by, wide1, out, 3, 1, &reply, line, sizeof line);
}

static uint32_t get_memory_balance(void) {
    return hvpm_get_memory_balance(&machine, by, wide1, &out[0], &out[1], &reply, line, sizeof line);
}

static uint32_t create_vp(void) {
    return hvpm_create_vp(&machine, by, wide1, word2, &reply, line, sizeof line);
}

static uint32_t delete_vp(void) {
    return hvpm_delete_vp(&machine, by, wide1, word2, &reply, line, sizeof line);
}

static uint32_t get_vp_registers(void) {
    hvpm_vp_register registers[3] = {{UINT32_C(0x34333231), unwritten},
                                     {UINT32_C(0x44434241), unwritten},
                                     {UINT32_C(0x54535251), unwritten}};
    const uint32_t status =
        hvpm_get_vp_registers(&machine, by, wide1, word2, registers, 3, 1, &reply, line, sizeof line);
    for (size_t i = 0; i < 3; i++) out[i] = registers[i].value;
    holds("hvpm_get_vp_registers", "it keeps the name", registers[1].name == UINT32_C(0x44434241));
    return status;
}

static uint32_t set_vp_registers(void) {
    const hvpm_vp_register registers[2] = {{UINT32_C(0x34333231), UINT64_C(0x4847464544434241)},
                                           {UINT32_C(0x54535251), UINT64_C(0x6867666564636261)}};
    return hvpm_set_vp_registers(&machine, by, wide1, word2, registers, 2, 1, &reply, line, sizeof line);
}

static uint32_t delete_port(void) {
    return hvpm_delete_port(&machine, by, wide1, word2, &reply, line, sizeof line);
}

static uint32_t disconnect_port(void) {
    return hvpm_disconnect_port(&machine, by, wide1, word2, &reply, line, sizeof line);
}

static uint32_t post_message(void) {
    return hvpm_post_message(&machine, by, word1, word2, "12345", 5, &reply, line, sizeof line);
}

static uint32_t signal_event(void) {
    return hvpm_signal_event(&machine, by, word1, 0x2221, &reply, line, sizeof line);
}

static uint32_t create_port(void) {
    hvpm_port port;
    port.partition = wide1;
    port.id = word2;
    port.peer = wide3;
    port.type = UINT32_C(0x44434241);
    port.sint = UINT32_C(0x54535251);
    port.vp = UINT32_C(0x64636261);
    port.base_flag = 0x7271;
    port.flag_count = 0x8281;
    return hvpm_create_port(&machine, by, &port, &reply, line, sizeof line);
}

static uint32_t connect_port(void) {
    hvpm_connection connection;
    connection.partition = wide1;
    connection.id = word2;
    connection.port_partition = wide3;
    connection.port = UINT32_C(0x44434241);
    connection.type = UINT32_C(0x54535251);
    return hvpm_connect_port(&machine, by, &connection, &reply, line, sizeof line);
}

static uint32_t read_msr_value(void) {
    return hvpm_read_msr_value(&machine, by, word1, out, &reply, line, sizeof line);
}

/*
 * What each of them gives the library. The input's bytes that aren't shown are zero up to its length. Of
 * `out`, `a` is the first number that the call puts out, `b` the second, and `-` is unwritten.
 */
static const struct row {
    const char *name;
    uint32_t (*call)(void);
    uint64_t rcx, rdx, r8;
    size_t input_len;
    const char *input;
    uint32_t output_len;
    const char *out;
} rows[] = {
    {"hvpm_create_partition", create_partition, 0x40, 0, 0, 8, "1112131415161718", 8, "a--"},
    {"hvpm_initialize_partition", initialize_partition, 0x10041, wide1, 0, 0, "", 0, "---"},
    {"hvpm_finalize_partition", finalize_partition, 0x10042, wide1, 0, 0, "", 0, "---"},
    {"hvpm_delete_partition", delete_partition, 0x10043, wide1, 0, 0, "", 0, "---"},
    {"hvpm_get_partition_property", get_partition_property, 0x44, 0, 0, 16, "111213141516171821222324", 8,
     "a--"},
    {"hvpm_set_partition_property", set_partition_property, 0x45, 0, 0, 24,
     "111213141516171821222324000000003132333435363738", 0, "---"},
    {"hvpm_get_partition_id", get_partition_id, 0x46, 0, 0, 0, "", 8, "a--"},
    {"hvpm_get_next_child_partition", get_next_child_partition, 0x47, 0, 0, 16,
     "11121314151617182122232425262728", 8, "a--"},
    {"hvpm_deposit_memory", deposit_memory, UINT64_C(0x0001000300000048), 0, 0, 32,
     "1112131415161718212223242526272831323334353637384142434445464748", 0, "---"},
    {"hvpm_withdraw_memory", withdraw_memory, UINT64_C(0x0001000300000049), 0, 0, 8, "1112131415161718", 8,
     "-a-"},
    {"hvpm_get_memory_balance", get_memory_balance, 0x4A, 0, 0, 8, "1112131415161718", 16, "ab-"},
    {"hvpm_create_vp", create_vp, 0x1004E, wide1, word2, 0, "", 0, "---"},
    {"hvpm_delete_vp", delete_vp, 0x1004F, wide1, word2, 0, "", 0, "---"},
    {"hvpm_get_vp_registers", get_vp_registers, UINT64_C(0x0001000300000050), 0, 0, 28,
     "11121314151617182122232400000000313233344142434451525354", 16, "-a-"},
    {"hvpm_set_vp_registers", set_vp_registers, UINT64_C(0x0001000200000051), 0, 0, 80,
     "11121314151617182122232400000000"
     "3132333400000000000000000000000041424344454647480000000000000000"
     "515253540000000000000000000000006162636465666768",
     0, "---"},
    {"hvpm_delete_port", delete_port, 0x10058, wide1, word2, 0, "", 0, "---"},
    {"hvpm_disconnect_port", disconnect_port, 0x1005B, wide1, word2, 0, "", 0, "---"},
    {"hvpm_post_message", post_message, 0x5C, 0, 0, 256, "111213140000000021222324050000003132333435", 0,
     "---"},
    {"hvpm_signal_event", signal_event, 0x1005D, UINT64_C(0x222114131211), 0, 0, "", 0, "---"},
    {"hvpm_create_port", create_port, 0x95, 0, 0, 48,
     "1112131415161718212223240000000031323334353637384142434400000000515253546162636471728182", 0, "---"},
    {"hvpm_connect_port", connect_port, 0x96, 0, 0, 48,
     "111213141516171821222324000000003132333435363738414243440000000051525354", 0, "---"},
    {"hvpm_read_msr_value", read_msr_value, word1, RDMSR, 0, 0, "", 8, "a--"},
};

/* ---- The cases ---- */

/* Whether the input is these bytes, in hexadecimal, and zeros behind them. */
static bool is_input(const char *hex, size_t len) {
    const size_t shown = strlen(hex) / 2;
    if (got.input_len != len) return false;
    for (size_t i = 0; i < len; i++) {
        unsigned byte = 0;
        if (i < shown && sscanf(hex + 2 * i, "%2x", &byte) != 1) return false;
        if (got.input[i] != byte) return false;
    }
    return true;
}

/* Whether the outputs are where they should be. */
static bool is_out(const char *where) {
    for (size_t i = 0; i < 3; i++) {
        const uint64_t first = UINT64_C(0xA8A7A6A5A4A3A2A1), second = UINT64_C(0xB8B7B6B5B4B3B2B1);
        if (out[i] != (where[i] == 'a' ? first : where[i] == 'b' ? second : unwritten)) return false;
    }
    return true;
}

static uint32_t call(const struct row *row, uint32_t status, uint32_t kind, uint32_t output_len) {
    answer.status = status;
    answer.kind = kind;
    answer.output_len = output_len;
    got.times = 0;
    for (size_t i = 0; i < 3; i++) out[i] = unwritten;
    return row->call();
}

static void try_row(const struct row *row) {
    printf("%s\n", row->name);
    holds(row->name, "it answers the status",
          call(row, HVPM_STATUS_OK, HVPM_REPLY_SERVED, row->output_len) == HVPM_STATUS_OK);
    holds(row->name, "one event", got.times == 1);
    holds(row->name, "the machine, the reply and the line", got.machine == &machine && got.reply == &reply);
    holds(row->name, "the line", (const char *)got.line == line && got.line_size == sizeof line);
    holds(row->name, "the caller", got.by.partition == by.partition && got.by.vp == by.vp);
    holds(row->name, "RCX", got.registers.rcx == row->rcx);
    holds(row->name, "RDX and R8", got.registers.rdx == row->rdx && got.registers.r8 == row->r8);
    holds(row->name, "the input", is_input(row->input, row->input_len));
    holds(row->name, "the output", is_out(row->out));
    call(row, HVPM_STATUS_OK, HVPM_REPLY_MORE, row->output_len);
    holds(row->name, "the output of an element that isn't the last", is_out(row->out));
    call(row, HVPM_STATUS_OK, HVPM_REPLY_DENIED, 0);
    holds(row->name, "no output where it is denied", is_out("---"));
    holds(row->name, "the status of what wasn't done",
          call(row, HVPM_STATUS_MEMORY, HVPM_REPLY_SERVED, row->output_len) == HVPM_STATUS_MEMORY);
    holds(row->name, "no output where it wasn't done", is_out("---"));
}

/* Lists of no elements, of as many as a page has room for, and of more. */
static void try_lists(void) {
    static uint64_t pages[65535];
    static hvpm_vp_register registers[65535];
    const struct {
        uint16_t count;
        size_t pages, names, values;
    } lengths[] = {{0, 8, 16, 16},           {127, 1024, 524, 4080},  {128, 1032, 528, 4080},
                   {511, 4096, 2060, 4080},  {512, 4096, 2064, 4080}, {1021, 4096, 4096, 4080},
                   {65535, 4096, 4096, 4080}};
    answer.output_len = 0;
    for (size_t i = 0; i < sizeof lengths / sizeof *lengths; i++) {
        const uint16_t count = lengths[i].count;
        const uint64_t rcx = UINT64_C(0xFFFF) << 48 | (uint64_t)count << 32;
        made(hvpm_deposit_memory(&machine, by, wide1, count ? pages : NULL, count, 0xFFFF, &reply, line,
                                 sizeof line));
        holds("hvpm_deposit_memory", "its list", got.input_len == lengths[i].pages);
        holds("hvpm_deposit_memory", "all of its indexes", got.registers.rcx == (rcx | 0x48));
        made(hvpm_get_vp_registers(&machine, by, wide1, word2, count ? registers : NULL, count, 0xFFFF,
                                   &reply, line, sizeof line));
        holds("hvpm_get_vp_registers", "its list", got.input_len == lengths[i].names);
        holds("hvpm_get_vp_registers", "all of its indexes", got.registers.rcx == (rcx | 0x50));
        made(hvpm_set_vp_registers(&machine, by, wide1, word2, count ? registers : NULL, count, 0xFFFF,
                                   &reply, line, sizeof line));
        holds("hvpm_set_vp_registers", "its list", got.input_len == lengths[i].values);
        holds("hvpm_set_vp_registers", "all of its indexes", got.registers.rcx == (rcx | 0x51));
    }
}

/* Payloads of no bytes, of the most, and of a size that shows each byte of its field. */
static void try_payloads(void) {
    const struct {
        uint32_t size;
        const char *head;
    } payloads[] = {{0, "11121314000000002122232400000000"},
                    {240, "111213140000000021222324f0000000"},
                    {241, "111213140000000021222324f1000000"},
                    {UINT32_C(0x34333231), "11121314000000002122232431323334"}};
    uint8_t payload[240];
    for (size_t i = 0; i < sizeof payload; i++) payload[i] = (uint8_t)(i + 1);
    for (size_t i = 0; i < sizeof payloads / sizeof *payloads; i++) {
        const uint32_t size = payloads[i].size;
        made(hvpm_post_message(&machine, by, word1, word2, size ? payload : NULL, size, &reply, line,
                               sizeof line));
        if (size != 0) {
            holds("hvpm_post_message", "its payload", memcmp(got.input + 16, payload, sizeof payload) == 0);
            memset(got.input + 16, 0, sizeof payload);
        }
        holds("hvpm_post_message", "its head", is_input(payloads[i].head, 256));
    }
}

/* A list of no elements has no place for an output, whatever the library puts out. */
static void try_none(void) {
    answer.status = HVPM_STATUS_OK;
    answer.output_len = 16;
    made(hvpm_withdraw_memory(&machine, by, wide1, NULL, 0, 0, &reply, line, sizeof line));
    made(hvpm_get_vp_registers(&machine, by, wide1, word2, NULL, 0, 0, &reply, line, sizeof line));
}

int main(void) {
    for (size_t i = 0; i < sizeof rows / sizeof *rows; i++) try_row(&rows[i]);
    try_lists();
    try_payloads();
    try_none();
    return wrong;
}
