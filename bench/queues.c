/*
 * How long a post takes at a processor that keeps 8, 800, 8,000 and 32,000 messages of other ports, 8 of each,
 * with the clearing of its slot and the end of its message. The ports' ids and births are chosen in four ways:
 * ids that rise and that fall, births of which each is twice the one before, and births whose low bits are all 0.
 * The status is 1 if an event isn't served, or if the time beside the most messages is more than twice that
 * beside the fewest. Sourced by embed.sh.
 */
#include "bench.h"

enum { TURNS = 5000, RUNS = 20, EACH = 8, OWN = 1 };

static hvpm_machine machines[4], *machine;

static void put_number(uint8_t *at, uint64_t value, size_t len) {
    for (size_t i = 0; i < len; i++) at[i] = (uint8_t)(value >> 8 * i);
}

static void call(uint64_t rcx, const void *input, size_t len) {
    const hvpm_registers registers = {rcx, 0, 0};
    served(hvpm_hypercall(machine, root, &registers, input, len, &reply, NULL, 0));
}

static void post(uint64_t id) {
    uint8_t block[17] = {0};
    put_number(block, id, 4), put_number(block + 8, 1, 4), put_number(block + 12, 1, 4);
    call(0x5c, block, sizeof block);
}

/* Serves calls for the caller's id until the next event's number is a multiple. */
static void wait_for(uint64_t multiple) {
    while ((machine->events + 1) % multiple != 0 && !failed) call(0x46, NULL, 0);
}

static uint64_t rising(uint64_t i, uint64_t count) {
    (void)count;
    return OWN + 1 + i;
}

static uint64_t falling(uint64_t i, uint64_t count) {
    return OWN + count - i;
}

/* The first 16 births are each twice the one before. */
static uint64_t doubling(uint64_t i, uint64_t count) {
    if (i < 16) wait_for(UINT64_C(256) << i);
    return rising(i, count);
}

/* The low 11 bits of each birth are 0, and 12 of each id. */
static uint64_t aligned(uint64_t i, uint64_t count) {
    (void)count;
    wait_for(2048);
    return (i + 1) << 12;
}

static const struct choice {
    const char *name;
    uint64_t (*id)(uint64_t i, uint64_t count);
} choices[] = {
    {"ids that rise", rising},
    {"ids that fall", falling},
    {"births that double", doubling},
    {"births and ids with equal low bits", aligned},
};

/* Boots a machine whose root's processor keeps this many messages. */
static void fill(const struct choice *choice, uint64_t kept) {
    const hvpm_config config = {.mask = 0xf700000044, .pages = 65536, .pool = 60000, .vps = 1};
    *machine = (hvpm_machine)HVPM_EMPTY;
    if (hvpm_boot(machine, &config) != HVPM_STATUS_OK) failed = true;
    turn_on_root(machine);
    make_port(machine, OWN, 2);
    for (uint64_t i = 0; i < kept / EACH && !failed; i++) {
        const uint64_t id = choice->id(i, kept / EACH);
        make_port(machine, (uint32_t)id, 3 + i % 13);
        for (int turn = 0; turn < EACH; turn++) post(id);
    }
}

/* Nanoseconds of processor time of a turn: a post, the clearing of its slot, and the end of its message. */
static double measure(void) {
    const double start = now();
    for (int i = 0; i < TURNS && !failed; i++) {
        post(OWN);
        served(hvpm_clear_slot(machine, root, 2, &reply, NULL, 0));
        served(hvpm_write_msr(machine, root, 0x40000084, 0, &reply, NULL, 0));
    }
    return (now() - start) / TURNS;
}

int main(void) {
    static const uint64_t kept[] = {8, 800, 8000, 32000};
    enum { SIZES = sizeof kept / sizeof *kept };
    bool slow = false;
    printf("%-36s", "a turn, least of 20");
    for (int size = 0; size < SIZES; size++) printf(" %8" PRIu64, kept[size]);
    printf(" kept");
    for (size_t i = 0; i < sizeof choices / sizeof *choices; i++) {
        double least[SIZES] = {1e9, 1e9, 1e9, 1e9};
        printf("\n%-36s", choices[i].name);
        for (int size = 0; size < SIZES; size++) machine = &machines[size], fill(&choices[i], kept[size]);
        for (int run = 0; run < RUNS * SIZES; run++) {
            const int size = run % SIZES;
            machine = &machines[size];
            const double taken = measure();
            if (taken < least[size]) least[size] = taken;
        }
        for (int size = 0; size < SIZES; size++) {
            printf(" %8.0f", least[size]);
            hvpm_destroy(&machines[size]);
        }
        printf(" ns");
        if (least[SIZES - 1] > 2 * least[0]) slow = true;
    }
    printf("\n%s%s", failed ? "an event wasn't served\n" : "", slow ? "the time grows with the messages\n" : "");
    return failed || slow;
}
