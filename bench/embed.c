/*
 * How long an event takes through the library, without and with its line of the audit.
 * Sourced by embed.sh.
 */
#include "bench.h"

enum { TURNS = 20000, PAGES = 500 };

static hvpm_machine machine = HVPM_EMPTY;
static char line[HVPM_LINE];
static size_t line_size;

static void put_number(uint8_t *at, uint64_t value, size_t len) {
    for (size_t i = 0; i < len; i++) at[i] = (uint8_t)(value >> 8 * i);
}

static void call(uint64_t rcx, uint64_t rdx, const void *input, size_t len) {
    hvpm_registers registers = {rcx, rdx, 0};
    do {
        served(hvpm_hypercall(&machine, root, &registers, input, len, &reply, line_size ? line : NULL,
                              line_size));
        registers.rcx = hvpm_next(registers.rcx, &reply);
    } while (reply.kind == HVPM_REPLY_MORE && !failed);
}

static void ids(void) {
    call(0x46, 0, NULL, 0);
}

static void partitions(void) {
    uint64_t id;
    call(0x40, 0, NULL, 0);
    memcpy(&id, reply.output, sizeof id);
    call(0x10043, id, NULL, 0);
}

/* Withdraws the pool's lowest pages and gives them back, in rep calls. */
static void pages(void) {
    uint8_t block[8 + 8 * PAGES] = {1};
    for (uint64_t i = 0; i < PAGES; i++) put_number(block + 8 + 8 * i, i, 8);
    call((uint64_t)PAGES << 32 | 0x49, 0, block, 8);
    call((uint64_t)PAGES << 32 | 0x48, 0, block, sizeof block);
}

static void registers(void) {
    served(hvpm_write_msr(&machine, root, 0x40000095, 0x30, &reply, line_size ? line : NULL, line_size));
    served(hvpm_read_msr(&machine, root, 0x40000095, &reply, line_size ? line : NULL, line_size));
}

/* Posts a message, reads and clears its slot, ends it, and takes its interrupt. */
static void messages(void) {
    static const uint8_t post[] = {5, 0, 0, 0, 0, 0, 0, 0, 1, 0, 0, 0, 5, 0, 0, 0, 'h', 'e', 'l', 'l', 'o'};
    char *const at = line_size ? line : NULL;
    call(0x5C, 0, post, sizeof post);
    served(hvpm_read_slot(&machine, root, 2, &reply, at, line_size));
    served(hvpm_clear_slot(&machine, root, 2, &reply, at, line_size));
    served(hvpm_write_msr(&machine, root, 0x40000084, 0, &reply, at, line_size));
    served(hvpm_take_interrupt(&machine, root, &reply, at, line_size));
}

static const struct workload {
    const char *name;
    void (*turn)(void);
    int turns;
} workloads[] = {
    {"calls for the caller's id", ids, 50 * TURNS},
    {"partitions made and deleted", partitions, 5 * TURNS},
    {"pages withdrawn and deposited, rep calls", pages, TURNS / 20},
    {"an MSR written and read", registers, 20 * TURNS},
    {"messages posted, read, cleared, ended", messages, 5 * TURNS},
};

/* Nanoseconds of processor time an event. */
static double measure(const struct workload *workload) {
    const uint64_t before = machine.events;
    const double start = now();
    for (int i = 0; i < workload->turns && !failed; i++) workload->turn();
    return (now() - start) / (double)(machine.events - before);
}

int main(void) {
    const hvpm_config config = {.mask = 0xf700000044, .pages = 2000, .pool = 1000, .vps = 1};
    if (hvpm_boot(&machine, &config) != HVPM_STATUS_OK) return 1;
    turn_on_root(&machine);
    make_port(&machine, 5, 2);
    printf("%-44s %10s %10s\n", "ns an event, least of 5", "no line", "a line");
    for (size_t i = 0; i < sizeof workloads / sizeof *workloads; i++) {
        double least[2] = {1e9, 1e9};
        for (int run = 0; run < 10; run++) {
            line_size = run % 2 == 1 ? sizeof line : 0;
            const double taken = measure(&workloads[i]);
            if (taken < least[run % 2]) least[run % 2] = taken;
        }
        printf("%-44s %10.0f %10.0f\n", workloads[i].name, least[0], least[1]);
    }
    printf("events %" PRIu64 "%s\n", machine.events, failed ? ", of which one wasn't served" : "");
    hvpm_destroy(&machine);
    return failed;
}
