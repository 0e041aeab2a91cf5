/*
 * A machine that records: typed calls, lists, accesses, hypercalls, runs, and what hvpm_pages.h does, by more
 * processors than a phase of a script has. The words are SCRIPT and AUDIT, the files for what is recorded:
 * `hvpm run SCRIPT --serial` must print AUDIT, too. A record changes nothing of a call. It ends where memory
 * does, or a rep call is interrupted; `.ci/embed` leads realloc here (-Wl,--wrap). What is wrong goes to
 * standard error.
 */
#include "hvpm_pages.h"

#include <inttypes.h>
#include <stdio.h>
#include <stdlib.h>
#include <string.h>

enum { PAGES = 2000, VPS = 40 };

static int wrong;

static void holds(const char *what, bool is_so) {
    if (is_so) return;
    fprintf(stderr, "%s doesn't hold\n", what);
    wrong = 1;
}

static bool is_refusing; /* realloc fails */
void *__real_realloc(void *at, size_t size), *__wrap_realloc(void *at, size_t size);
void *__wrap_realloc(void *at, size_t size) {
    return is_refusing ? NULL : __real_realloc(at, size);
}

/* Two machines take the same events. The first records, the second is asked for lines. */
static hvpm_machine machines[2] = {HVPM_EMPTY, HVPM_EMPTY};
static hvpm_record record;
static hvpm_reply replies[2];
static char line[HVPM_LINE], other_line[HVPM_LINE];
static uint64_t lines_len; /* of the second machine's audit lines */
static FILE *script, *audit;

/* Puts what was recorded into the files. */
static void drain(void) {
    holds("the script is kept",
          fwrite(record.script.at, 1, record.script.len, script) == record.script.len);
    holds("the audit is kept", fwrite(record.audit.at, 1, record.audit.len, audit) == record.audit.len);
    record.script.len = record.audit.len = 0;
}

/* An event of both machines, which `made` gives the statuses of. */
static void is_same(const char *what, uint32_t one, uint32_t other) {
    holds(what, one == HVPM_STATUS_OK && other == HVPM_STATUS_OK);
    holds("no line that nobody asked for", replies[0].line_len == 0);
    lines_len += replies[1].line_len, replies[1].line_len = 0;
    if (replies[0].kind != replies[1].kind || replies[0].rule != replies[1].rule ||
        replies[0].result != replies[1].result || replies[0].next != replies[1].next ||
        replies[0].output_len != replies[1].output_len || replies[0].effect.kind != replies[1].effect.kind ||
        memcmp(replies[0].output, replies[1].output, replies[0].output_len) != 0)
        holds(what, false);
}

/* Makes an event twice. */
#define BOTH(call, ...) \
    is_same(#call, call(&machines[0], __VA_ARGS__, &replies[0], NULL, 0), \
            call(&machines[1], __VA_ARGS__, &replies[1], line, sizeof line))

static const hvpm_caller root = {1, 0}, guest = {2, 1};

static void boot(void) {
    static const hvpm_config config = {0xf700000067, PAGES, 4 * VPS + 40, VPS};
    machines[0].record = &record;
    for (size_t i = 0; i < 2; i++) holds("boot", hvpm_boot(&machines[i], &config) == HVPM_STATUS_OK);
}

static void typed(void) {
    uint64_t value = 0, more = 0;
    BOTH(hvpm_create_partition, root, 0, &value);
    BOTH(hvpm_set_partition_property, root, 2, HVPM_PRIVILEGE_FLAGS, UINT64_C(0xb100000044));
    BOTH(hvpm_get_partition_property, root, 2, HVPM_PRIVILEGE_FLAGS, &value);
    BOTH(hvpm_initialize_partition, root, 2);
    BOTH(hvpm_get_partition_id, root, &value);
    BOTH(hvpm_get_next_child_partition, root, 1, 0, &value);
    BOTH(hvpm_get_memory_balance, root, 1, &value, &more);
    holds("the balance", value == 38 && more == 4 * VPS + 2);
    BOTH(hvpm_create_partition, guest, 0, &value); /* there is no such processor yet */
}

/* The two machines take the same list, of which the second makes `hvpm_run` do the elements. */
#define LIST(call, count, ...) \
    do { \
        size_t made = 0, other = 0; \
        holds(#call, call(&machines[0], root, __VA_ARGS__, count, &made, &replies[0]) == HVPM_STATUS_OK); \
        holds(#call, call(&machines[1], root, __VA_ARGS__, count, &other, &replies[1]) == HVPM_STATUS_OK); \
        holds(#call " makes as many", made == other && machines[0].events == machines[1].events); \
        holds(#call " ends alike", replies[0].kind == replies[1].kind && \
                                       replies[0].rule == replies[1].rule && \
                                       replies[0].result == replies[1].result); \
    } while (0)

static void lists(void) {
    static uint64_t pages[1200], taken[2][600];
    hvpm_vp_register registers[] = {{HVPM_REGISTER_SINT2, 0}, {HVPM_REGISTER_SIMP, 0}, {1, 0}};
    for (uint64_t i = 0; i < 1200; i++) pages[i] = 4 * VPS + 40 + i;
    LIST(hvpm_deposit_pages, 1200, 2, pages);
    LIST(hvpm_deposit_pages, 3, 2, pages); /* they are there already */
    LIST(hvpm_withdraw_pages, 600, 2, taken[0]);
    for (uint32_t vp = 0; vp < VPS; vp++) BOTH(hvpm_create_vp, root, 2, vp);
    LIST(hvpm_read_registers, 3, 2, 1, registers);
    registers[0].value = 0x32;
    LIST(hvpm_write_registers, 1, 2, 1, registers);
}

/* A hypercall of a guest, with its lists and to its last element; a list that is longer than a page; runs. */
static void calls(void) {
    static uint8_t list[6000], outputs[2][64];
    hvpm_run_done done[2];
    hvpm_registers at = {UINT64_C(3) << 32 | HVPM_CALL_GET_VP_REGISTERS, 0x1000, 0x2000};
    hvpm_put(list, UINT64_MAX, 8), hvpm_put(list + 8, 1, 4);
    for (uint32_t i = 0; i < 3; i++) hvpm_put(list + 16 + 4 * i, HVPM_REGISTER_SINT0 + i, 4);
    do {
        BOTH(hvpm_hypercall, guest, &at, list, sizeof list);
        at.rcx = hvpm_next(at.rcx, &replies[0]);
    } while (replies[0].kind == HVPM_REPLY_MORE);
    at.rcx = 0x99;
    BOTH(hvpm_hypercall, guest, &at, list, sizeof list);
    at.rcx = UINT64_C(0xFFF) << 32 | HVPM_CALL_SET_VP_REGISTERS;
    memset(list + 16, 0xFF, sizeof list - 16);
    BOTH(hvpm_hypercall, guest, &at, list, sizeof list);
    at = (hvpm_registers){UINT64_C(5) << 32 | HVPM_CALL_WITHDRAW_MEMORY, 0, 0};
    hvpm_put(list, 2, 8);
    for (;;) {
        for (size_t i = 0; i < 2; i++)
            holds("a run", hvpm_run(&machines[i], root, &at, list, 8, &replies[i], outputs[i], 31,
                                    &done[i]) == HVPM_STATUS_OK);
        holds("its end", done[0].events == done[1].events && done[0].output_len == done[1].output_len &&
                             replies[0].kind == replies[1].kind && done[0].events <= 3);
        holds("its outputs", memcmp(outputs[0], outputs[1], done[0].output_len) == 0);
        if (replies[0].kind != HVPM_REPLY_MORE) break;
        at.rcx = hvpm_next(at.rcx, &replies[0]);
    }
    for (size_t i = 0; i < 2; i++)
        holds("a run without room", hvpm_run(&machines[i], root, &at, list, 8, &replies[i], outputs[i], 15,
                                             &done[i]) == HVPM_STATUS_SHORT);
}

static void accesses(void) {
    uint64_t value = 0;
    for (uint32_t vp = 0; vp < VPS; vp++) {
        const hvpm_caller ours = {1, vp}, others = {2, vp};
        BOTH(hvpm_read_msr, others, HVPM_MSR_VP_INDEX);
        BOTH(hvpm_read_msr, ours, HVPM_MSR_VP_INDEX);
    }
    BOTH(hvpm_read_msr_value, guest, HVPM_MSR_SINT2, &value);
    holds("a value", value == 0x32);
    BOTH(hvpm_read_slot, guest, 2);
    BOTH(hvpm_clear_slot, guest, 2);
    BOTH(hvpm_read_flags, guest, 3);
    BOTH(hvpm_clear_flag, guest, 3, 2047);
    BOTH(hvpm_take_interrupt, guest);
    BOTH(hvpm_write_msr, guest, 0x40000000, UINT64_MAX); /* a fault */
    holds("a fault", replies[0].kind == HVPM_REPLY_FAULT);
    /* A line that is asked for is the recorded one. */
    const size_t len = record.audit.len;
    holds("a line", hvpm_read_msr(&machines[0], guest, 0x40000002, &replies[0], line, sizeof line) ==
                        HVPM_STATUS_OK);
    holds("a line again", hvpm_read_msr(&machines[1], guest, 0x40000002, &replies[1], other_line,
                                        sizeof other_line) == HVPM_STATUS_OK);
    holds("its length", replies[0].line_len != 0 && replies[0].line_len == replies[1].line_len);
    holds("its text", memcmp(line, other_line, replies[0].line_len) == 0 &&
                          record.audit.len == len + replies[0].line_len &&
                          memcmp(line, record.audit.at + len, replies[0].line_len) == 0);
    holds("too short a line", hvpm_read_msr(&machines[0], guest, 0x40000002, &replies[0], line,
                                            HVPM_LINE - 1) == HVPM_STATUS_SHORT);
    holds("it isn't recorded", record.audit.len == len + replies[1].line_len);
}

static void connect(void) {
    static const hvpm_port ports[] = {{2, 5, 1, HVPM_PORT_MESSAGES, 2, 1, 0, 0},
                                      {2, 7, 1, HVPM_PORT_EVENTS, 3, 1, 8, 4}};
    static const hvpm_connection connections[] = {{1, 1, 2, 5, HVPM_PORT_MESSAGES},
                                                  {1, 2, 2, 7, HVPM_PORT_EVENTS}};
    for (size_t i = 0; i < 2; i++) {
        BOTH(hvpm_create_port, root, &ports[i]);
        BOTH(hvpm_connect_port, root, &connections[i]);
    }
}

/* What the pages need in the guest's place, on both machines. */
static void pages(void) {
    static uint8_t memory[2][2][4096] __attribute__((aligned(4096)));
    hvpm_pages at[2] = {{.of = {2, 1}}, {.of = {2, 1}}};
    static const uint32_t msrs[][2] = {{0x40000080, 1}, {0x40000082, 0x5001}, {0x40000083, 0x6001},
                                       {0x40000092, 0x32}, {0x40000093, 0x33}};
    for (size_t i = 0; i < sizeof msrs / sizeof *msrs; i++)
        BOTH(hvpm_write_msr, guest, msrs[i][0], msrs[i][1]);
    for (size_t i = 0; i < 2; i++)
        holds("a move", hvpm_pages_move(&machines[i], &at[i], memory[i][0], memory[i][1]) == HVPM_STATUS_OK);
    for (uint32_t n = 0; n < 3; n++) {
        for (size_t i = 0; i < 2; i++)
            holds("before a post", hvpm_pages_before(&machines[i], &at[i]) == HVPM_STATUS_OK);
        if (n != 1) BOTH(hvpm_post_message, root, 1, 7, "text", 4);
        else BOTH(hvpm_signal_event, root, 2, 1);
        for (size_t i = 0; i < 2; i++) {
            uint8_t vector = 0;
            holds("after it", hvpm_pages_after(&machines[i], &at[i], &replies[i].effect) == HVPM_STATUS_OK);
            do holds("a vector", hvpm_pages_vector(&machines[i], &at[i], &vector) == HVPM_STATUS_OK);
            while (vector != 0);
        }
        for (size_t i = 0; i < 2; i++) memory[i][0][512] = 0; /* the guest takes the message */
    }
    holds("as many events", machines[0].events == machines[1].events);
}

static void end(void) {
    BOTH(hvpm_delete_port, root, 2, 5);
    BOTH(hvpm_disconnect_port, root, 1, 1);
    BOTH(hvpm_delete_vp, root, 2, 1);
    BOTH(hvpm_finalize_partition, root, 2);
    BOTH(hvpm_delete_partition, root, 2);
    drain();
    fprintf(audit, "events %" PRIu64 "\n", machines[0].events);
    holds("the record has all", !record.is_cut);
    hvpm_record_free(&record);
    holds("it is empty", !record.script.at && !record.audit.at && record.vps == 0);
    for (size_t i = 0; i < 2; i++) hvpm_destroy(&machines[i]);
}

/* The number of lines of a text. */
static size_t lines_of(const hvpm_text *text) {
    size_t count = 0;
    for (size_t i = 0; i < text->len; i++) count += text->at[i] == '\n';
    return count;
}

/* Where memory ends, so does the record, and each event is what it is without one. */
static void out_of_memory(void) {
    static const hvpm_config config = {0xf700000064, 64, 32, 1};
    hvpm_machine machine = HVPM_EMPTY;
    hvpm_record small = {.is_cut = false};
    hvpm_reply reply;
    uint64_t value = 0;
    size_t before = 0;
    machine.record = &small;
    holds("boot", hvpm_boot(&machine, &config) == HVPM_STATUS_OK);
    for (uint32_t i = 0; i < 1000; i++) {
        is_refusing = i >= 10;
        if (!small.is_cut) before = machine.events;
        holds("an event", hvpm_read_msr_value(&machine, root, 0x40000080, &value, &reply, line,
                                              sizeof line) == HVPM_STATUS_OK &&
                              reply.kind == HVPM_REPLY_SERVED && value == 0 && reply.line_len > 30);
    }
    is_refusing = false;
    holds("the record ends", small.is_cut && before == 10 && machine.events == 1000);
    holds("it has what was before",
          lines_of(&small.audit) == before && lines_of(&small.script) == before + 1);
    hvpm_record_free(&small);
    hvpm_destroy(&machine);
}

/* A script has no rep call with another event inside: the record ends before that. */
static void interrupted(bool by_call) {
    static const hvpm_config config = {0xf700000064, 64, 32, 1};
    const uint64_t list[] = {40, 41, 42};
    hvpm_machine machine = HVPM_EMPTY;
    hvpm_record part = {.is_cut = false};
    hvpm_reply reply;
    uint64_t id = 0;
    machine.record = &part;
    holds("boot", hvpm_boot(&machine, &config) == HVPM_STATUS_OK);
    holds("a child", hvpm_create_partition(&machine, root, 0, &id, &reply, NULL, 0) == HVPM_STATUS_OK);
    holds("an element",
          hvpm_deposit_memory(&machine, root, 2, list, 3, 0, &reply, NULL, 0) == HVPM_STATUS_OK);
    holds("another", hvpm_deposit_memory(&machine, root, 2, list, 3, 1, &reply, NULL, 0) == HVPM_STATUS_OK);
    holds("more follow", reply.kind == HVPM_REPLY_MORE && !part.is_cut);
    holds("an event between", (by_call ? hvpm_get_partition_id(&machine, root, &id, &reply, NULL, 0)
                                       : hvpm_take_interrupt(&machine, root, &reply, NULL, 0)) ==
                                  HVPM_STATUS_OK);
    holds("the record ends", part.is_cut && lines_of(&part.script) == 3 && lines_of(&part.audit) == 3);
    holds("the last", hvpm_deposit_memory(&machine, root, 2, list, 3, 2, &reply, NULL, 0) == HVPM_STATUS_OK);
    holds("nothing more", lines_of(&part.script) == 3 && lines_of(&part.audit) == 3);
    hvpm_record_free(&part);
    hvpm_destroy(&machine);
}

int main(int argc, char **argv) {
    if (argc != 3) return 2;
    script = fopen(argv[1], "wb");
    audit = fopen(argv[2], "wb");
    if (!script || !audit) return 1;
    boot();
    typed();
    drain();
    lists();
    calls();
    accesses();
    drain();
    connect();
    pages();
    end();
    out_of_memory();
    interrupted(true);
    interrupted(false);
    holds("the files are written", fclose(script) == 0 && fclose(audit) == 0);
    return wrong;
}
