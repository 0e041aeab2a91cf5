/*
 * Runs of at most so many elements: each executes no more, and one after another they do what a run without a
 * bound does, with a record and without. What is wrong goes to standard error.
 */
#include "hvpm.h"

#include <inttypes.h>
#include <stdio.h>
#include <string.h>

static int wrong;

static void holds(const char *what, uint32_t most, bool is_so) {
    if (is_so) return;
    fprintf(stderr, "%s doesn't hold at %" PRIu32 "\n", what, most);
    wrong = 1;
}

static const hvpm_caller root = {1, 0};

/* A list of pages, and what its elements told. */
enum { PAGES = 200 };
struct told {
    hvpm_reply reply;
    uint8_t outputs[PAGES * 8 + HVPM_OUTPUT];
    uint32_t output_len;
    uint64_t events;
    char table[1024];
    size_t table_len;
};

/* Executes the elements of a rep call in runs of at most so many, and adds what they told. */
static void take(hvpm_machine *machine, hvpm_registers at, const uint8_t *input, size_t input_len,
                 uint32_t most, struct told *told) {
    const uint32_t reps = (uint32_t)(at.rcx >> 32 & 0xFFF);
    uint32_t left = reps;
    do {
        hvpm_run_done done = {0xA5, 0xA5};
        const uint64_t events = machine->events;
        holds("a run", most,
              hvpm_run_at_most(machine, root, &at, input, input_len, most, &told->reply,
                               told->outputs + told->output_len, sizeof told->outputs - told->output_len,
                               &done) == HVPM_STATUS_OK);
        holds("the bound", most, done.events > 0 && done.events <= most);
        holds("it goes as far", most, told->reply.kind == HVPM_REPLY_DENIED ||
                                          done.events == (most < left ? most : left));
        holds("its events", most, machine->events == events + done.events);
        told->output_len += done.output_len;
        left -= done.events;
        holds("what is next", most, told->reply.kind != HVPM_REPLY_MORE || told->reply.next == reps - left);
        at.rcx = hvpm_next(at.rcx, &told->reply);
    } while (told->reply.kind == HVPM_REPLY_MORE && left > 0);
}

/* Deposits pages, of which the last one is refused where there is one too many, and withdraws them. */
static void serve(uint32_t most, bool is_recorded, struct told *deposit, struct told *withdraw) {
    static const hvpm_config config = {.mask = 0xf700000064, .pages = 32 + PAGES, .pool = 12, .vps = 1};
    static uint8_t input[8 + 8 * (PAGES + 1)];
    static hvpm_record record;
    hvpm_machine machine = HVPM_EMPTY;
    hvpm_run_done done = {0xA5, 0xA5};
    hvpm_reply reply;
    uint64_t id = 0;
    if (is_recorded) machine.record = &record;
    holds("boot", most, hvpm_boot(&machine, &config) == HVPM_STATUS_OK);
    holds("a partition", most,
          hvpm_create_partition(&machine, root, 0, &id, &reply, NULL, 0) == HVPM_STATUS_OK && id == 2);
    hvpm_put(input, id, 8);
    for (uint64_t i = 0; i <= PAGES; i++) hvpm_put(input + 8 + 8 * i, i < PAGES ? 32 + i : 0, 8);
    const hvpm_registers in = {(uint64_t)(PAGES + 1) << 32 | HVPM_CALL_DEPOSIT_MEMORY, 0, 0},
                         out = {(uint64_t)PAGES << 32 | HVPM_CALL_WITHDRAW_MEMORY, 0, 0};
    const uint64_t events = machine.events;
    holds("a run of nothing", most,
          hvpm_run_at_most(&machine, root, &in, input, sizeof input, 0, &reply, deposit->outputs,
                           sizeof deposit->outputs, &done) == HVPM_STATUS_SHORT);
    holds("nothing happened", most, machine.events == events && done.events == 0xA5);
    take(&machine, in, input, sizeof input, most, deposit);
    take(&machine, out, input, 8, most, withdraw);
    withdraw->events = machine.events;
    holds("the table", most,
          hvpm_table(&machine, withdraw->table, sizeof withdraw->table, &withdraw->table_len) ==
              HVPM_STATUS_OK);
    hvpm_destroy(&machine);
    hvpm_record_free(&record);
}

int main(void) {
    static const uint32_t bounds[] = {1, 2, 3, 64, PAGES - 1, PAGES, PAGES + 1, UINT32_MAX};
    static struct told whole[2], parts[2];
    serve(UINT32_MAX, false, &whole[0], &whole[1]);
    holds("the last page is refused", 0, whole[0].reply.kind == HVPM_REPLY_DENIED && whole[0].reply.rule == 21);
    holds("all pages come back", 0,
          whole[1].reply.kind == HVPM_REPLY_SERVED && whole[1].output_len == 8 * PAGES);
    for (size_t i = 0; i < 2 * sizeof bounds / sizeof *bounds; i++) {
        const uint32_t most = bounds[i / 2];
        memset(parts, 0, sizeof parts);
        serve(most, i % 2 == 1, &parts[0], &parts[1]);
        for (size_t k = 0; k < 2; k++) {
            const hvpm_reply *const one = &whole[k].reply, *const other = &parts[k].reply;
            holds("the last reply", most, one->kind == other->kind && one->rule == other->rule &&
                                              one->result == other->result);
            holds("the outputs", most,
                  whole[k].output_len == parts[k].output_len &&
                      memcmp(whole[k].outputs, parts[k].outputs, whole[k].output_len) == 0);
        }
        holds("the events", most, whole[1].events == parts[1].events);
        holds("the state", most, whole[1].table_len == parts[1].table_len &&
                                     memcmp(whole[1].table, parts[1].table, whole[1].table_len) == 0);
    }
    return wrong;
}
