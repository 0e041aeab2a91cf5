/*
 * Takes calls by hvpm_run, each to its end: a partition is made, used and deleted. Prints what each call
 * told, and how many pages the root and that partition have available and in use behind it. This must be what
 * runs.out has, which is typed by hand.
 *
 * `.ci/embed` refuses it one block of memory after another. A run that is refused memory must change nothing:
 * the handle and all that a run writes keep their bytes, and the two partitions have the pages that they had.
 * Then it is made again. A run that stops before an element goes on with that element. So what is printed
 * stays as it is, and standard error says what was refused.
 */
#include "hvpm.h"

#include <inttypes.h>
#include <stdio.h>
#include <stdlib.h>
#include <string.h>

static const hvpm_caller root = {1, 0};
static hvpm_machine machine = HVPM_EMPTY;

static void must(bool holds, const char *what) {
    if (holds) return;
    fprintf(stderr, "runs: %s\n", what);
    exit(4);
}

/* How many pages of its pool a partition has available and in use, or -1 and -1 where it isn't there. */
struct balance {
    int available, in_use;
};

static struct balance balance_of(uint8_t partition) {
    const hvpm_registers ask = {.rcx = 0x4A};
    const uint8_t input[8] = {partition};
    hvpm_reply reply;
    char line[HVPM_LINE];
    const uint32_t status =
        hvpm_hypercall(&machine, root, &ask, input, sizeof input, &reply, line, sizeof line);
    must(status == HVPM_STATUS_OK, "a balance isn't told");
    if (reply.kind != HVPM_REPLY_SERVED) return (struct balance){-1, -1};
    return (struct balance){reply.output[0] | reply.output[1] << 8, reply.output[8] | reply.output[9] << 8};
}

/* The balances of both partitions before the next run. */
static struct balance balances[2];

static void weigh(void) {
    for (uint8_t i = 0; i < 2; i++) balances[i] = balance_of(i + 1);
}

static bool is_as_before(void) {
    const struct balance before[2] = {balances[0], balances[1]};
    weigh();
    return memcmp(before, balances, sizeof before) == 0;
}

/* What of a run is written. */
struct told {
    hvpm_reply reply;
    hvpm_run_done done;
    uint8_t outputs[8 * HVPM_OUTPUT];
};

/* A call, and its input list. */
struct call {
    const char *name;
    hvpm_registers registers;
    const uint8_t *input;
    size_t input_len;
};

static uint32_t run(const struct call *call, struct told *told) {
    return hvpm_run(&machine, root, &call->registers, call->input, call->input_len, &told->reply,
                    told->outputs, sizeof told->outputs, &told->done);
}

/* Takes a call as far as it goes. Where it is refused memory, that changed nothing, and it is made again. */
static struct told take(const struct call *call) {
    struct told told, before;
    const hvpm_machine handle = machine;
    memset(&told, 0xA5, sizeof told);
    memcpy(&before, &told, sizeof before);
    uint32_t status = run(call, &told);
    if (status == HVPM_STATUS_MEMORY) {
        fprintf(stderr, "refused %s\n", call->name);
        must(memcmp(&before, &told, sizeof told) == 0, "a refused run wrote something");
        must(machine.live && machine.events == handle.events && machine.at == handle.at,
             "it changed the handle");
        must(is_as_before(), "it changed the pages");
        status = run(call, &told);
    }
    must(status == HVPM_STATUS_OK, "a run isn't taken");
    return told;
}

/* Takes a call to its end, and prints what all of its elements told. */
static void tell(struct call call) {
    uint32_t elements = 0;
    struct told told;
    printf("%s:", call.name);
    for (bool goes_on = true; goes_on;) {
        told = take(&call);
        elements += told.done.events;
        for (uint32_t i = 0; i < told.done.output_len; i++)
            printf("%s%02x", i % 8 ? "" : " ", told.outputs[i]);
        goes_on = told.reply.kind == HVPM_REPLY_MORE;
        if (goes_on) fprintf(stderr, "stopped %s\n", call.name);
        weigh();
        call.registers.rcx = hvpm_next(call.registers.rcx, &told.reply);
    }
    printf(" %" PRIu32 " taken, %016" PRIx64 " P%" PRIu32 ",", elements, told.reply.result, told.reply.rule);
    for (int i = 0; i < 2; i++) printf(" %d/%d", balances[i].available, balances[i].in_use);
    puts("");
}

/* RCX of a rep call with so many elements. */
#define REP(code, elements) ((uint64_t)(elements) << 32 | (code))
#define LIST(bytes) bytes, sizeof bytes

/* Every other page from 14 on: so many runs of one page that their set needs memory again on the way. */
enum { PAGES = 300 };
static uint8_t pages[8 + 8 * PAGES] = {2};

static const uint8_t port[48] = {2, [8] = 5, [16] = 1, [24] = 1, [32] = 2};
static const uint8_t connection[48] = {1, [8] = 7, [16] = 2, [24] = 5, [32] = 1};
/* SCONTROL and SIMP are 1, SINT 2 has the vector 0x30. */
static const uint8_t registers[16 + 3 * 32] = {
    [0] = 2,
    [16] = 0x10, [18] = 0x0A, [32] = 1,
    [48] = 0x13, [50] = 0x0A, [64] = 1,
    [80] = 0x02, [82] = 0x0A, [96] = 0x30,
};
static const uint8_t message[17] = {7, [8] = 1, [12] = 1, [16] = 0x68};
static const uint8_t second[8] = {2};
/* A page that the root has loose by then, and one of its pool. */
static const uint8_t pooled[8 + 2 * 8] = {2, [8] = 18, [16] = 5};
static const uint8_t longest[9000];

int main(void) {
    for (size_t i = 0; i < PAGES; i++) {
        const size_t page = 14 + 2 * i;
        pages[8 + 8 * i] = (uint8_t)page;
        pages[9 + 8 * i] = (uint8_t)(page >> 8);
    }
    const hvpm_config config = {.mask = 0xf700000044, .pages = 800, .pool = 12, .vps = 1};
    must(hvpm_boot(&machine, &config) == HVPM_STATUS_OK, "boot");
    weigh();
    tell((struct call){"create partition", {.rcx = 0x40}, NULL, 0});
    tell((struct call){"initialize", {.rcx = 0x10041, .rdx = 2}, NULL, 0});
    tell((struct call){"deposit", {.rcx = REP(0x48, PAGES)}, LIST(pages)});
    tell((struct call){"create processor", {.rcx = 0x1004E, .rdx = 2}, NULL, 0});
    tell((struct call){"create port", {.rcx = 0x95}, LIST(port)});
    tell((struct call){"connect", {.rcx = 0x96}, LIST(connection)});
    tell((struct call){"set registers", {.rcx = REP(0x51, 3)}, LIST(registers)});
    tell((struct call){"post first", {.rcx = 0x5C}, LIST(message)});
    tell((struct call){"post second", {.rcx = 0x5C}, LIST(message)});
    tell((struct call){"post third", {.rcx = 0x5C}, LIST(message)});
    tell((struct call){"withdraw", {.rcx = REP(0x49, 3)}, LIST(second)});
    tell((struct call){"deposit pooled", {.rcx = REP(0x48, 2)}, LIST(pooled)});
    tell((struct call){"long list", {.rcx = REP(0x51, 4095)}, LIST(longest)});
    tell((struct call){"finalize", {.rcx = 0x10042, .rdx = 2}, NULL, 0});
    tell((struct call){"delete", {.rcx = 0x10043, .rdx = 2}, NULL, 0});
    hvpm_destroy(&machine);
    return 0;
}
