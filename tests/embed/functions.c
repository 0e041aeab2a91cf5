/*
 * Calls each function of hvpm.h with each of its pointers null in turn, each function that takes an event on
 * a machine that takes no more of them, and each that looks at a machine on an empty handle. Each must answer
 * what the header says, and change nothing: neither what it is given nor the machine, whose next events are
 * answered as if there had been no call. Each case is a line of standard output, the names of the function
 * and of the argument, which `compare` lays beside the header. What is wrong goes to standard error.
 *
 * A machine takes no more events after 2^64 - 1. The count of them stands in the handle, so this test writes
 * it there, which the header leaves to the library. The machine has a count of its own, of those that were
 * served, with the same bound and the same status: no test reaches it.
 */
#include "hvpm.h"

#include <inttypes.h>
#include <stdio.h>
#include <string.h>

/* How many cases of a null there are. */
enum { CASES = 235 };

static int wrong;

static void want(const char *function, const char *what, uint32_t status, uint32_t wanted) {
    if (status == wanted) return;
    fprintf(stderr, "%s, %s: status %" PRIu32 ", wanted %" PRIu32 "\n", function, what, status, wanted);
    wrong = 1;
}

static void holds(const char *function, const char *what, bool is_so) {
    if (is_so) return;
    fprintf(stderr, "%s: %s doesn't hold\n", function, what);
    wrong = 1;
}

/* ---- What the functions are called with ---- */

static const hvpm_caller root = {1, 0};

/* Arguments that are pointers, and how long the buffers among them are. */
enum argument {
    MACHINE,
    CONFIG,
    REGISTERS,
    INPUT,
    REPLY,
    LINE,
    OUTPUTS,
    DONE,
    VALUE,
    PARTITION,
    CHILD,
    AVAILABLE,
    IN_USE,
    PAGES,
    VP_REGISTERS,
    PAYLOAD,
    PORT,
    CONNECTION,
    OUT,
    OWNER,
    FEATURES,
    PENDING,
    TEXT,
    LEN,
    MADE,
    VP,
    ID,
    RUN,
    ARGUMENTS,
    END = ARGUMENTS
};
static const char *const names[ARGUMENTS] = {
    "machine",   "config", "registers", "input",  "reply", "line",      "outputs", "done", "value",
    "partition", "child",  "available", "in_use", "pages", "registers", "payload", "port", "connection",
    "out",       "owner",  "eax_to_edx", "pending", "text", "len",
    "made",      "vp",     "id",        "run"};
struct arguments {
    void *at[ARGUMENTS];
    size_t len[ARGUMENTS];
};

static bool is_buffer(int argument) {
    return argument == INPUT || argument == LINE || argument == OUTPUTS || argument == PAGES ||
           argument == VP_REGISTERS || argument == PAYLOAD || argument == TEXT;
}

/* Where the arguments lead to: a machine, an empty handle, and what is read and written. */
struct world {
    hvpm_machine machine, empty;
    hvpm_config config;
    hvpm_registers registers;
    uint8_t input[8];
    hvpm_reply reply;
    char line[HVPM_LINE];
    uint8_t outputs[4 * HVPM_OUTPUT];
    hvpm_run_done done;
    uint64_t number, other;
    uint64_t pages[2];
    hvpm_vp_register vp_registers[2];
    char payload[8];
    hvpm_port port;
    hvpm_connection connection;
    union {
        uint8_t bytes[256];
        hvpm_partition partition;
        hvpm_port port;
        hvpm_connection connection;
    } out;
    uint32_t features[4];
    uint64_t pending[4];
    uint32_t id;
    hvpm_page_run run;
    char text[512];
    size_t len;
};

static void take(struct world *world, uint64_t rcx, uint64_t rdx, const void *input, size_t len) {
    const hvpm_registers registers = {rcx, rdx, 0};
    want("the set-up", "call",
         hvpm_hypercall(&world->machine, root, &registers, input, len, &world->reply, NULL, 0),
         HVPM_STATUS_OK);
    holds("the set-up", "served", world->reply.kind == HVPM_REPLY_SERVED);
}

/*
 * Boots a machine and takes 12 events: processor 1.0 is ready, its SINT 2 shows a message and raised 0x32,
 * flag 5 of its SINT 3 is set and raised 0x33, and partition 2 is Created. What functions write is filled
 * with a byte of its own.
 */
static void set_up(struct world *world) {
    static const uint64_t registers[][2] = {{0x80, 1}, {0x82, 1}, {0x83, 1}, {0x92, 0x32}, {0x93, 0x33}};
    static const uint8_t ports[2][48] = {
        {[0] = 1, [8] = 2, [16] = 1, [24] = 1, [32] = 2},
        {[0] = 1, [8] = 3, [16] = 1, [24] = 2, [32] = 3, [42] = 8},
    };
    static const uint8_t connections[2][48] = {
        {[0] = 1, [8] = 2, [16] = 1, [24] = 2, [32] = 1},
        {[0] = 1, [8] = 3, [16] = 1, [24] = 3, [32] = 2},
    };
    static const uint8_t message[17] = {[0] = 2, [8] = 1, [12] = 1, [16] = 0x68};
    memset(world, 0xA5, sizeof *world);
    world->machine = world->empty = (hvpm_machine)HVPM_EMPTY;
    world->config = (hvpm_config){.mask = 0xf700000044, .pages = 32, .pool = 16, .vps = 1};
    want("the set-up", "boot", hvpm_boot(&world->machine, &world->config), HVPM_STATUS_OK);
    for (size_t i = 0; i < 5; i++) {
        const uint32_t msr = 0x40000000 + (uint32_t)registers[i][0];
        want("the set-up", "write",
             hvpm_write_msr(&world->machine, root, msr, registers[i][1], &world->reply, NULL, 0),
             HVPM_STATUS_OK);
    }
    for (size_t i = 0; i < 2; i++) {
        take(world, 0x95, 0, ports[i], sizeof ports[i]);
        take(world, 0x96, 0, connections[i], sizeof connections[i]);
    }
    take(world, 0x5C, 0, message, sizeof message);
    take(world, 0x1005D, UINT64_C(5) << 32 | 3, NULL, 0);
    take(world, 0x40, 0, NULL, 0);
    memset(world->input, 0xFF, sizeof world->input);
    memset(&world->reply, 0xA5, sizeof world->reply);
}

/* What a function is given: an empty handle or none, or a machine that takes an event or is looked at. */
enum kind { HANDLE, EVENT, LOOK };

/*
 * The arguments of one function, none of them null, with which it is served. A call withdraws two pages from
 * the caller's pool.
 */
static struct arguments arguments_of(struct world *world, enum kind kind) {
    world->registers = (hvpm_registers){.rcx = UINT64_C(2) << 32 | 0x49};
    world->pages[0] = 16;
    world->pages[1] = 17;
    world->vp_registers[0].name = 0x20000;
    world->vp_registers[1].name = 0x20001;
    world->port = (hvpm_port){.partition = 1, .id = 4, .peer = 1, .type = HVPM_PORT_MESSAGES};
    world->connection = (hvpm_connection){1, 4, 1, 2, HVPM_PORT_MESSAGES};
    if (kind == LOOK) world->reply = (hvpm_reply){.kind = HVPM_REPLY_SERVED};
    hvpm_machine *machine = kind == HANDLE ? &world->empty : &world->machine;
    return (struct arguments){
        {machine, &world->config, &world->registers, world->input, &world->reply, world->line, world->outputs,
         &world->done, &world->number, &world->number, &world->number, &world->number, &world->other,
         world->pages, world->vp_registers, world->payload, &world->port, &world->connection, &world->out,
         &world->number, world->features, world->pending, world->text, &world->len, &world->len, &world->id,
         &world->id, &world->run},
        {[INPUT] = sizeof world->input,
         [LINE] = sizeof world->line,
         [OUTPUTS] = sizeof world->outputs,
         [PAGES] = 2,
         [VP_REGISTERS] = 2,
         [PAYLOAD] = sizeof world->payload,
         [TEXT] = sizeof world->text},
    };
}

/* What a few events after the 12 of the set-up tell where no other event was between. */
static void is_calm(const char *function, hvpm_machine *machine) {
    static const hvpm_registers withdraw = {.rcx = UINT64_C(1) << 32 | 0x49};
    static const uint8_t self[8] = {0xFF, 0xFF, 0xFF, 0xFF, 0xFF, 0xFF, 0xFF, 0xFF};
    char told[5 * HVPM_LINE + 1], wanted[sizeof told];
    size_t len = 0;
    hvpm_reply reply;
    want(function, "interrupt", hvpm_take_interrupt(machine, root, &reply, told, HVPM_LINE), HVPM_STATUS_OK);
    len += reply.line_len;
    want(function, "slot", hvpm_read_slot(machine, root, 2, &reply, told + len, HVPM_LINE), HVPM_STATUS_OK);
    len += reply.line_len;
    want(function, "flags", hvpm_read_flags(machine, root, 3, &reply, told + len, HVPM_LINE), HVPM_STATUS_OK);
    len += reply.line_len;
    want(function, "rdmsr", hvpm_read_msr(machine, root, 0x40000092, &reply, told + len, HVPM_LINE),
         HVPM_STATUS_OK);
    len += reply.line_len;
    want(function, "call", hvpm_hypercall(machine, root, &withdraw, self, 8, &reply, told + len, HVPM_LINE),
         HVPM_STATUS_OK);
    told[len + reply.line_len] = 0;
    snprintf(wanted, sizeof wanted,
             "13 1.0 interrupt ok 33\n"
             "14 1.0 slot 2 ok 0100000001000000020000000000000068%0*d\n"
             "15 1.0 flags 3 ok 20%0*d\n"
             "16 1.0 rdmsr 40000092 ok 3200000000000000\n"
             "17 1.0 call 0000000100000049 ok 0000000100000000 0000000000000000\n",
             512 - 34, 0, 512 - 2, 0);
    holds(function, "that later events tell what they would have told", strcmp(told, wanted) == 0);
    holds(function, "that they alone are counted", machine->events == 17);
}

/* ---- The functions ---- */

static uint32_t boot(const struct arguments *a) {
    return hvpm_boot(a->at[MACHINE], a->at[CONFIG]);
}

/* It answers nothing; of a null it is only seen that it does nothing. */
static uint32_t destroy(const struct arguments *a) {
    hvpm_destroy(a->at[MACHINE]);
    return a->at[MACHINE] ? HVPM_STATUS_OK : HVPM_STATUS_NULL;
}

static uint32_t hypercall(const struct arguments *a) {
    return hvpm_hypercall(a->at[MACHINE], root, a->at[REGISTERS], a->at[INPUT], a->len[INPUT], a->at[REPLY],
                          a->at[LINE], a->len[LINE]);
}

static uint32_t run(const struct arguments *a) {
    return hvpm_run(a->at[MACHINE], root, a->at[REGISTERS], a->at[INPUT], a->len[INPUT], a->at[REPLY],
                    a->at[OUTPUTS], a->len[OUTPUTS], a->at[DONE]);
}

static uint32_t run_at_most(const struct arguments *a) {
    return hvpm_run_at_most(a->at[MACHINE], root, a->at[REGISTERS], a->at[INPUT], a->len[INPUT], 1,
                            a->at[REPLY], a->at[OUTPUTS], a->len[OUTPUTS], a->at[DONE]);
}

static uint32_t read_msr(const struct arguments *a) {
    return hvpm_read_msr(a->at[MACHINE], root, 0x40000092, a->at[REPLY], a->at[LINE], a->len[LINE]);
}

static uint32_t write_msr(const struct arguments *a) {
    return hvpm_write_msr(a->at[MACHINE], root, 0x40000092, 0x77, a->at[REPLY], a->at[LINE], a->len[LINE]);
}

static uint32_t read_slot(const struct arguments *a) {
    return hvpm_read_slot(a->at[MACHINE], root, 2, a->at[REPLY], a->at[LINE], a->len[LINE]);
}

static uint32_t clear_slot(const struct arguments *a) {
    return hvpm_clear_slot(a->at[MACHINE], root, 2, a->at[REPLY], a->at[LINE], a->len[LINE]);
}

static uint32_t read_flags(const struct arguments *a) {
    return hvpm_read_flags(a->at[MACHINE], root, 3, a->at[REPLY], a->at[LINE], a->len[LINE]);
}

static uint32_t clear_flag(const struct arguments *a) {
    return hvpm_clear_flag(a->at[MACHINE], root, 3, 5, a->at[REPLY], a->at[LINE], a->len[LINE]);
}

static uint32_t take_interrupt(const struct arguments *a) {
    return hvpm_take_interrupt(a->at[MACHINE], root, a->at[REPLY], a->at[LINE], a->len[LINE]);
}

/* The last arguments of each typed call. */
#define TOLD a->at[REPLY], a->at[LINE], a->len[LINE]

static uint32_t create_partition(const struct arguments *a) {
    return hvpm_create_partition(a->at[MACHINE], root, 0, a->at[PARTITION], TOLD);
}

static uint32_t initialize_partition(const struct arguments *a) {
    return hvpm_initialize_partition(a->at[MACHINE], root, 2, TOLD);
}

static uint32_t finalize_partition(const struct arguments *a) {
    return hvpm_finalize_partition(a->at[MACHINE], root, 2, TOLD);
}

static uint32_t delete_partition(const struct arguments *a) {
    return hvpm_delete_partition(a->at[MACHINE], root, 2, TOLD);
}

static uint32_t get_partition_property(const struct arguments *a) {
    return hvpm_get_partition_property(a->at[MACHINE], root, 1, HVPM_CPU_CAP, a->at[VALUE], TOLD);
}

static uint32_t set_partition_property(const struct arguments *a) {
    return hvpm_set_partition_property(a->at[MACHINE], root, 2, HVPM_CPU_CAP, 1, TOLD);
}

static uint32_t get_partition_id(const struct arguments *a) {
    return hvpm_get_partition_id(a->at[MACHINE], root, a->at[PARTITION], TOLD);
}

static uint32_t get_next_child_partition(const struct arguments *a) {
    return hvpm_get_next_child_partition(a->at[MACHINE], root, 1, 0, a->at[CHILD], TOLD);
}

static uint32_t deposit_memory(const struct arguments *a) {
    return hvpm_deposit_memory(a->at[MACHINE], root, 1, a->at[PAGES], (uint16_t)a->len[PAGES], 0, TOLD);
}

static uint32_t withdraw_memory(const struct arguments *a) {
    return hvpm_withdraw_memory(a->at[MACHINE], root, 1, a->at[PAGES], (uint16_t)a->len[PAGES], 0, TOLD);
}

static uint32_t get_memory_balance(const struct arguments *a) {
    return hvpm_get_memory_balance(a->at[MACHINE], root, 1, a->at[AVAILABLE], a->at[IN_USE], TOLD);
}

static uint32_t create_vp(const struct arguments *a) {
    return hvpm_create_vp(a->at[MACHINE], root, 1, 1, TOLD);
}

static uint32_t delete_vp(const struct arguments *a) {
    return hvpm_delete_vp(a->at[MACHINE], root, 1, 0, TOLD);
}

static uint32_t get_vp_registers(const struct arguments *a) {
    return hvpm_get_vp_registers(a->at[MACHINE], root, 1, 0, a->at[VP_REGISTERS],
                                 (uint16_t)a->len[VP_REGISTERS], 0, TOLD);
}

static uint32_t set_vp_registers(const struct arguments *a) {
    return hvpm_set_vp_registers(a->at[MACHINE], root, 1, 0, a->at[VP_REGISTERS],
                                 (uint16_t)a->len[VP_REGISTERS], 0, TOLD);
}

static uint32_t delete_port(const struct arguments *a) {
    return hvpm_delete_port(a->at[MACHINE], root, 1, 2, TOLD);
}

static uint32_t disconnect_port(const struct arguments *a) {
    return hvpm_disconnect_port(a->at[MACHINE], root, 1, 2, TOLD);
}

static uint32_t post_message(const struct arguments *a) {
    return hvpm_post_message(a->at[MACHINE], root, 2, 1, a->at[PAYLOAD], (uint32_t)a->len[PAYLOAD], TOLD);
}

static uint32_t signal_event(const struct arguments *a) {
    return hvpm_signal_event(a->at[MACHINE], root, 3, 5, TOLD);
}

static uint32_t create_port(const struct arguments *a) {
    return hvpm_create_port(a->at[MACHINE], root, a->at[PORT], TOLD);
}

static uint32_t connect_port(const struct arguments *a) {
    return hvpm_connect_port(a->at[MACHINE], root, a->at[CONNECTION], TOLD);
}

static uint32_t read_msr_value(const struct arguments *a) {
    return hvpm_read_msr_value(a->at[MACHINE], root, 0x40000092, a->at[VALUE], TOLD);
}

static uint32_t deposit_pages(const struct arguments *a) {
    return hvpm_deposit_pages(a->at[MACHINE], root, 1, a->at[PAGES], a->len[PAGES], a->at[MADE], a->at[REPLY]);
}

static uint32_t withdraw_pages(const struct arguments *a) {
    return hvpm_withdraw_pages(a->at[MACHINE], root, 1, a->at[PAGES], a->len[PAGES], a->at[MADE], a->at[REPLY]);
}

static uint32_t read_registers(const struct arguments *a) {
    return hvpm_read_registers(a->at[MACHINE], root, 1, 0, a->at[VP_REGISTERS], a->len[VP_REGISTERS],
                               a->at[MADE], a->at[REPLY]);
}

static uint32_t write_registers(const struct arguments *a) {
    return hvpm_write_registers(a->at[MACHINE], root, 1, 0, a->at[VP_REGISTERS], a->len[VP_REGISTERS],
                                a->at[MADE], a->at[REPLY]);
}

static uint32_t peek_slot(const struct arguments *a) {
    return hvpm_peek_slot(a->at[MACHINE], root, 2, a->at[OUT]);
}

static uint32_t peek_flags(const struct arguments *a) {
    return hvpm_peek_flags(a->at[MACHINE], root, 3, a->at[OUT]);
}

static uint32_t peek_msr(const struct arguments *a) {
    return hvpm_peek_msr(a->at[MACHINE], root, 0x40000092, a->at[VALUE]);
}

static uint32_t peek_pending(const struct arguments *a) {
    return hvpm_peek_pending(a->at[MACHINE], root, a->at[PENDING]);
}

static uint32_t peek_partition(const struct arguments *a) {
    return hvpm_peek_partition(a->at[MACHINE], 2, a->at[OUT]);
}

static uint32_t peek_port(const struct arguments *a) {
    return hvpm_peek_port(a->at[MACHINE], 1, 2, a->at[OUT]);
}

static uint32_t peek_connection(const struct arguments *a) {
    return hvpm_peek_connection(a->at[MACHINE], 1, 3, a->at[OUT]);
}

static uint32_t child_after(const struct arguments *a) {
    return hvpm_child_after(a->at[MACHINE], 1, 0, a->at[CHILD]);
}

static uint32_t page_owner(const struct arguments *a) {
    return hvpm_page_owner(a->at[MACHINE], 0, a->at[OWNER]);
}

static uint32_t vp_after(const struct arguments *a) {
    return hvpm_vp_after(a->at[MACHINE], 1, HVPM_FIRST, a->at[VP]);
}

static uint32_t port_after(const struct arguments *a) {
    return hvpm_port_after(a->at[MACHINE], 1, HVPM_FIRST, a->at[ID]);
}

static uint32_t connection_after(const struct arguments *a) {
    return hvpm_connection_after(a->at[MACHINE], 1, HVPM_FIRST, a->at[ID]);
}

static uint32_t page_after(const struct arguments *a) {
    return hvpm_page_after(a->at[MACHINE], 1, HVPM_FIRST, a->at[RUN]);
}

static uint32_t features(const struct arguments *a) {
    return hvpm_features(a->at[MACHINE], 1, a->at[FEATURES]);
}

static uint32_t table(const struct arguments *a) {
    return hvpm_table(a->at[MACHINE], a->at[TEXT], a->len[TEXT], a->at[LEN]);
}

static uint32_t explain(const struct arguments *a) {
    return hvpm_explain(a->at[MACHINE], root, a->at[REGISTERS], a->at[INPUT], a->len[INPUT], a->at[REPLY],
                        a->at[TEXT], a->len[TEXT], a->at[LEN]);
}

static uint32_t explain_access(const struct arguments *a) {
    return hvpm_explain_access(a->at[MACHINE], root, HVPM_READ_SLOT, 2, 0, a->at[REPLY], a->at[TEXT],
                               a->len[TEXT], a->at[LEN]);
}

static uint32_t hypercall_line(const struct arguments *a) {
    return hvpm_hypercall_line(root, a->at[REGISTERS], a->at[INPUT], a->len[INPUT], a->at[TEXT], a->len[TEXT],
                               a->at[LEN]);
}

static uint32_t access_line(const struct arguments *a) {
    return hvpm_access_line(root, HVPM_READ_SLOT, 2, 0, a->at[TEXT], a->len[TEXT], a->at[LEN]);
}

static const struct function {
    const char *name;
    uint32_t (*call)(const struct arguments *);
    enum kind kind;
    int takes[7]; /* its pointers in the header's order */
} functions[] = {
    {"hvpm_boot", boot, HANDLE, {MACHINE, CONFIG, END}},
    {"hvpm_destroy", destroy, HANDLE, {MACHINE, END}},
    {"hvpm_hypercall", hypercall, EVENT, {MACHINE, REGISTERS, INPUT, REPLY, LINE, END}},
    {"hvpm_run", run, EVENT, {MACHINE, REGISTERS, INPUT, REPLY, OUTPUTS, DONE, END}},
    {"hvpm_run_at_most", run_at_most, EVENT, {MACHINE, REGISTERS, INPUT, REPLY, OUTPUTS, DONE, END}},
    {"hvpm_read_msr", read_msr, EVENT, {MACHINE, REPLY, LINE, END}},
    {"hvpm_write_msr", write_msr, EVENT, {MACHINE, REPLY, LINE, END}},
    {"hvpm_read_slot", read_slot, EVENT, {MACHINE, REPLY, LINE, END}},
    {"hvpm_clear_slot", clear_slot, EVENT, {MACHINE, REPLY, LINE, END}},
    {"hvpm_read_flags", read_flags, EVENT, {MACHINE, REPLY, LINE, END}},
    {"hvpm_clear_flag", clear_flag, EVENT, {MACHINE, REPLY, LINE, END}},
    {"hvpm_take_interrupt", take_interrupt, EVENT, {MACHINE, REPLY, LINE, END}},
    {"hvpm_create_partition", create_partition, EVENT, {MACHINE, PARTITION, REPLY, LINE, END}},
    {"hvpm_initialize_partition", initialize_partition, EVENT, {MACHINE, REPLY, LINE, END}},
    {"hvpm_finalize_partition", finalize_partition, EVENT, {MACHINE, REPLY, LINE, END}},
    {"hvpm_delete_partition", delete_partition, EVENT, {MACHINE, REPLY, LINE, END}},
    {"hvpm_get_partition_property", get_partition_property, EVENT, {MACHINE, VALUE, REPLY, LINE, END}},
    {"hvpm_set_partition_property", set_partition_property, EVENT, {MACHINE, REPLY, LINE, END}},
    {"hvpm_get_partition_id", get_partition_id, EVENT, {MACHINE, PARTITION, REPLY, LINE, END}},
    {"hvpm_get_next_child_partition", get_next_child_partition, EVENT, {MACHINE, CHILD, REPLY, LINE, END}},
    {"hvpm_deposit_memory", deposit_memory, EVENT, {MACHINE, PAGES, REPLY, LINE, END}},
    {"hvpm_withdraw_memory", withdraw_memory, EVENT, {MACHINE, PAGES, REPLY, LINE, END}},
    {"hvpm_get_memory_balance", get_memory_balance, EVENT, {MACHINE, AVAILABLE, IN_USE, REPLY, LINE, END}},
    {"hvpm_create_vp", create_vp, EVENT, {MACHINE, REPLY, LINE, END}},
    {"hvpm_delete_vp", delete_vp, EVENT, {MACHINE, REPLY, LINE, END}},
    {"hvpm_get_vp_registers", get_vp_registers, EVENT, {MACHINE, VP_REGISTERS, REPLY, LINE, END}},
    {"hvpm_set_vp_registers", set_vp_registers, EVENT, {MACHINE, VP_REGISTERS, REPLY, LINE, END}},
    {"hvpm_delete_port", delete_port, EVENT, {MACHINE, REPLY, LINE, END}},
    {"hvpm_disconnect_port", disconnect_port, EVENT, {MACHINE, REPLY, LINE, END}},
    {"hvpm_post_message", post_message, EVENT, {MACHINE, PAYLOAD, REPLY, LINE, END}},
    {"hvpm_signal_event", signal_event, EVENT, {MACHINE, REPLY, LINE, END}},
    {"hvpm_create_port", create_port, EVENT, {MACHINE, PORT, REPLY, LINE, END}},
    {"hvpm_connect_port", connect_port, EVENT, {MACHINE, CONNECTION, REPLY, LINE, END}},
    {"hvpm_read_msr_value", read_msr_value, EVENT, {MACHINE, VALUE, REPLY, LINE, END}},
    {"hvpm_deposit_pages", deposit_pages, EVENT, {MACHINE, PAGES, MADE, REPLY, END}},
    {"hvpm_withdraw_pages", withdraw_pages, EVENT, {MACHINE, PAGES, MADE, REPLY, END}},
    {"hvpm_read_registers", read_registers, EVENT, {MACHINE, VP_REGISTERS, MADE, REPLY, END}},
    {"hvpm_write_registers", write_registers, EVENT, {MACHINE, VP_REGISTERS, MADE, REPLY, END}},
    {"hvpm_peek_slot", peek_slot, LOOK, {MACHINE, OUT, END}},
    {"hvpm_peek_flags", peek_flags, LOOK, {MACHINE, OUT, END}},
    {"hvpm_peek_msr", peek_msr, LOOK, {MACHINE, VALUE, END}},
    {"hvpm_peek_pending", peek_pending, LOOK, {MACHINE, PENDING, END}},
    {"hvpm_peek_partition", peek_partition, LOOK, {MACHINE, OUT, END}},
    {"hvpm_peek_port", peek_port, LOOK, {MACHINE, OUT, END}},
    {"hvpm_peek_connection", peek_connection, LOOK, {MACHINE, OUT, END}},
    {"hvpm_child_after", child_after, LOOK, {MACHINE, CHILD, END}},
    {"hvpm_page_owner", page_owner, LOOK, {MACHINE, OWNER, END}},
    {"hvpm_vp_after", vp_after, LOOK, {MACHINE, VP, END}},
    {"hvpm_port_after", port_after, LOOK, {MACHINE, ID, END}},
    {"hvpm_connection_after", connection_after, LOOK, {MACHINE, ID, END}},
    {"hvpm_page_after", page_after, LOOK, {MACHINE, RUN, END}},
    {"hvpm_features", features, LOOK, {MACHINE, FEATURES, END}},
    {"hvpm_table", table, LOOK, {MACHINE, TEXT, LEN, END}},
    {"hvpm_explain", explain, LOOK, {MACHINE, REGISTERS, INPUT, REPLY, TEXT, LEN, END}},
    {"hvpm_explain_access", explain_access, LOOK, {MACHINE, REPLY, TEXT, LEN, END}},
    {"hvpm_hypercall_line", hypercall_line, HANDLE, {REGISTERS, INPUT, TEXT, LEN, END}},
    {"hvpm_access_line", access_line, HANDLE, {TEXT, LEN, END}},
};

/* ---- The cases ---- */

static int cases;

static void tell_case(const struct function *function, int argument, const char *how) {
    printf("%s %s%s\n", function->name, names[argument], how);
    cases++;
}

/* One pointer is null: nothing is written, and nothing happened. */
static void try_null(const struct function *function, int argument) {
    struct world world, before;
    set_up(&world);
    struct arguments arguments = arguments_of(&world, function->kind);
    arguments.at[argument] = NULL;
    tell_case(function, argument, "");
    memcpy(&before, &world, sizeof before);
    want(function->name, names[argument], function->call(&arguments), HVPM_STATUS_NULL);
    holds(function->name, "that nothing is written at a null", memcmp(&before, &world, sizeof before) == 0);
    is_calm(function->name, &world.machine);
    hvpm_destroy(&world.machine);
}

/*
 * A buffer of no bytes may be null: no line, an input list that reads as zeros, no room for outputs or for a
 * text, a rep call of no elements, which P5 refuses, or an empty message.
 */
static void try_none(const struct function *function, int argument) {
    struct world world;
    set_up(&world);
    struct arguments arguments = arguments_of(&world, function->kind == LOOK ? LOOK : EVENT);
    arguments.at[argument] = NULL;
    arguments.len[argument] = 0;
    tell_case(function, argument, " of no bytes");
    const uint32_t status = function->call(&arguments);
    want(function->name, "no bytes", status,
         argument == OUTPUTS || argument == TEXT ? HVPM_STATUS_SHORT : HVPM_STATUS_OK);
    if (argument == LINE)
        holds(function->name, "no line", world.reply.line_len == 0 && world.reply.rule == 0);
    if (argument == INPUT && function->kind == LOOK)
        holds(function->name, "words without input",
              world.len > 28 && memcmp(world.text, "HvWithdrawMemory partition 0", 28) == 0);
    if (argument == INPUT && function->kind == EVENT)
        holds(function->name, "that no partition is 0",
              world.reply.kind == HVPM_REPLY_DENIED && world.reply.rule == 9);
    if (argument == INPUT && function->kind == HANDLE)
        holds(function->name, "a line without input",
              world.len == 31 && memcmp(world.text, "1.0 call 0x200000049 0x0 0x0 -\n", 31) == 0);
    if (argument == TEXT) holds(function->name, "a text's length", world.len > 0 && world.len < 512);
    if (argument == PAGES || argument == VP_REGISTERS)
        holds(function->name, "that a rep call has elements",
              world.reply.kind == HVPM_REPLY_DENIED && world.reply.rule == 5);
    if (argument == PAYLOAD)
        holds(function->name, "that a message may be empty", world.reply.kind == HVPM_REPLY_SERVED);
    hvpm_destroy(&world.machine);
}

/* Nothing is null: it is done, so that what is refused above is refused for the null. */
static void try_all(const struct function *function) {
    struct world world;
    set_up(&world);
    const struct arguments arguments = arguments_of(&world, function->kind);
    want(function->name, "nothing null", function->call(&arguments), HVPM_STATUS_OK);
    holds(function->name, "that it is served", function->kind != EVENT || world.reply.rule == 0);
    holds(function->name, "that an event is counted",
          (world.machine.events > 12) == (function->kind == EVENT));
    hvpm_destroy(&world.machine);
    hvpm_destroy(&world.empty);
}

/* Whether it takes this argument. */
static bool has(const struct function *function, int argument) {
    for (const int *at = function->takes; *at != END; at++)
        if (*at == argument) return true;
    return false;
}

/* Whether it executes several elements, without a line. */
static bool goes_on(const struct function *function) {
    return !has(function, LINE);
}

/* The handle's count is at its end: nothing is written, and nothing happened. One before, one is taken. */
static void try_used_up(const struct function *function) {
    struct world world, before;
    set_up(&world);
    const struct arguments arguments = arguments_of(&world, EVENT);
    world.machine.events = UINT64_MAX;
    memcpy(&before, &world, sizeof before);
    want(function->name, "used up", function->call(&arguments), HVPM_STATUS_USED_UP);
    holds(function->name, "that nothing is written where it is used up",
          memcmp(&before, &world, sizeof before) == 0);
    world.machine.events = 12;
    is_calm(function->name, &world.machine);
    world.machine.events = UINT64_MAX - 1;
    want(function->name, "the last event", function->call(&arguments), HVPM_STATUS_OK);
    holds(function->name, "the last number", world.machine.events == UINT64_MAX);
    holds(function->name, "a line with it",
          goes_on(function) || memcmp(world.line, "18446744073709551615 1.0 ", 25) == 0);
    if (goes_on(function))
        holds(function->name, "that it goes on",
              world.reply.kind == HVPM_REPLY_MORE && world.reply.next == 1 &&
                  (has(function, DONE) ? world.done.events : world.len) == 1);
    want(function->name, "used up after it", function->call(&arguments), HVPM_STATUS_USED_UP);
    hvpm_destroy(&world.machine);
}

/*
 * A look: nothing happens, on a machine that takes no more events either. An empty handle has nothing to be
 * looked at, and nothing is written.
 */
static void try_look(const struct function *function) {
    struct world world, before;
    set_up(&world);
    struct arguments arguments = arguments_of(&world, LOOK);
    world.machine.events = UINT64_MAX;
    want(function->name, "used up", function->call(&arguments), HVPM_STATUS_OK);
    world.machine.events = 12;
    is_calm(function->name, &world.machine);
    arguments.at[MACHINE] = &world.empty;
    memcpy(&before, &world, sizeof before);
    want(function->name, "an empty handle", function->call(&arguments), HVPM_STATUS_EMPTY);
    holds(function->name, "that nothing is written of an empty handle",
          memcmp(&before, &world, sizeof before) == 0);
    hvpm_destroy(&world.machine);
}

int main(void) {
    /* Where a null is read, the last case is told. */
    setvbuf(stdout, NULL, _IOLBF, BUFSIZ);
    holds("hvpm_or_none", "that the library gets no null", hvpm_or_none(NULL, 0) != NULL);
    for (size_t i = 0; i < sizeof functions / sizeof *functions; i++) {
        const struct function *function = &functions[i];
        try_all(function);
        if (function->kind == EVENT) try_used_up(function);
        if (function->kind == LOOK) try_look(function);
        for (const int *argument = function->takes; *argument != END; argument++) {
            try_null(function, *argument);
            if (is_buffer(*argument)) try_none(function, *argument);
        }
    }
    if (cases != CASES) {
        fprintf(stderr, "%d cases, wanted %d\n", cases, CASES);
        wrong = 1;
    }
    return wrong;
}
