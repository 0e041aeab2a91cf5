/*
 * What it takes to list a partition's pages anew, 30,000 of them in one run and in as many runs as pages, and
 * its ports, and to find a page's owner among 14,000 partitions. Prints microseconds of processor time, the
 * least of five. Run by embed.sh. The status is 1 where a list lacks something.
 */
#include "bench.h"

enum { ALL = 65536, PAGES = 30000, PARTITIONS = 14000, PORTS = 10000, RUNS = 5 };

static hvpm_machine machine = HVPM_EMPTY;

static void boot(uint32_t pool) {
    const hvpm_config config = {.mask = 0xf700000065, .pages = ALL, .pool = pool, .vps = 1};
    hvpm_destroy(&machine);
    want(hvpm_boot(&machine, &config) == HVPM_STATUS_OK);
}

static uint64_t child(void) {
    uint64_t id = 0;
    served(hvpm_create_partition(&machine, root, 0, &id, &reply, NULL, 0));
    return id;
}

/* Gives a partition every page, or every other one, from 100 on. */
static void give(uint64_t partition, uint64_t step) {
    static uint64_t pages[PAGES];
    size_t made = 0;
    for (uint64_t i = 0; i < PAGES; i++) pages[i] = 100 + step * i;
    served(hvpm_deposit_pages(&machine, root, partition, pages, PAGES, &made, &reply));
    want(made == PAGES);
}

/* The pages of a partition, all of them. */
static uint64_t list_pages(uint64_t partition) {
    uint64_t count = 0;
    hvpm_page_run run;
    for (uint64_t last = HVPM_FIRST; hvpm_page_after(&machine, partition, last, &run) == HVPM_STATUS_OK;
         last = run.page + run.count - 1)
        count += run.count;
    return count;
}

static uint64_t list_ports(uint64_t partition) {
    uint64_t count = 0;
    for (uint32_t id = HVPM_FIRST; hvpm_port_after(&machine, partition, id, &id) == HVPM_STATUS_OK;) count++;
    return count;
}

static uint64_t owner_of(uint64_t page) {
    uint64_t owner = 0;
    want(hvpm_page_owner(&machine, page, &owner) == HVPM_STATUS_OK);
    return owner;
}

static void time_it(const char *what, uint64_t (*look)(uint64_t), uint64_t of, uint64_t wanted) {
    double least = 1e12;
    for (int i = 0; i < RUNS; i++) {
        const double from = now();
        want(look(of) == wanted);
        const double took = now() - from;
        if (took < least) least = took;
    }
    printf("%s: %.1f us\n", what, least / 1e3);
}

int main(void) {
    boot(64);
    give(child(), 1);
    time_it("30,000 pages in one run", list_pages, 2, PAGES);
    boot(64);
    give(child(), 2);
    time_it("30,000 pages in 30,000 runs", list_pages, 2, PAGES);
    boot(32768);
    for (uint32_t id = 0; id < PORTS; id++) {
        const hvpm_port port = {.partition = 1, .id = id, .peer = 1, .type = HVPM_PORT_MESSAGES, .sint = 2};
        served(hvpm_create_port(&machine, root, &port, &reply, NULL, 0));
    }
    time_it("10,000 ports", list_ports, 1, PORTS);
    boot(32768);
    for (int i = 0; i < PARTITIONS - 2; i++) child();
    const uint64_t last = child(), page = 40000;
    size_t made = 0;
    served(hvpm_deposit_pages(&machine, root, last, &page, 1, &made, &reply));
    time_it("the owner of a page among 14,000 partitions, the last one", owner_of, page, last);
    time_it("the first one", owner_of, 0, 1);
    hvpm_destroy(&machine);
    return failed;
}
