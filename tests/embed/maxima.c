/*
 * Machines at the limits that docs/POLICY.md sets: as many children, ports, connections, processors and messages
 * as 65,536 pages pay for, more than a million elements of a rep call, and payloads of each size. What fits is
 * served, what is over it is refused by its rule, and memory is no reason. What is wrong goes to standard error,
 * and the status is then 1.
 */
#include "hvpm.h"
#include "hvpm_names.h"
#include "hvpm_pages.h"

#include <stdbool.h>
#include <stdio.h>
#include <stdlib.h>
#include <string.h>

enum {
    PAGES = 65536,
    ROOT = 4,         /* pages of the root's processor */
    CHILDREN = 32766, /* (PAGES - ROOT) / 2 */
    LINKS = 65532,    /* ports, or connections: PAGES - ROOT */
    FILLED = 8000,    /* ports whose messages fill up */
    EACH = 8,         /* messages of a port */
    FULL = 253,       /* partitions with 64 processors: (PAGES - ROOT) / (2 + 4 * 64) */
    REGISTERS = 255,  /* of a rep call whose output fits a page */
    RUNS = 4706
};

static const hvpm_caller root = {1, 0};
static hvpm_machine machine = HVPM_EMPTY;
static hvpm_reply reply;

static void must(bool holds, const char *what, uint64_t which) {
    if (holds) return;
    fprintf(stderr, "maxima: %s %llu: kind %u, rule %u\n", what, (unsigned long long)which, reply.kind,
            reply.rule);
    exit(1);
}

static void serves(uint32_t status, const char *what, uint64_t which) {
    must(status == HVPM_STATUS_OK && reply.kind == HVPM_REPLY_SERVED, what, which);
}

static void refuses(uint32_t status, uint32_t rule, const char *what) {
    must(status == HVPM_STATUS_OK && reply.kind == HVPM_REPLY_DENIED && reply.rule == rule, what, rule);
}

static void boots(uint32_t pool) {
    const hvpm_config config = {.mask = 0xf700000064, .pages = PAGES, .pool = pool, .vps = 1};
    must(hvpm_boot(&machine, &config) == HVPM_STATUS_OK, "a boot", pool);
}

/* The oldest, the youngest and one in the middle go first. */
static void has_children(void) {
    uint64_t id = 0;
    boots(PAGES);
    for (uint64_t child = 2; child < 2 + CHILDREN; child++) {
        serves(hvpm_create_partition(&machine, root, 0, &id, &reply, NULL, 0), "a child", child);
        must(id == child, "its id", child);
    }
    refuses(hvpm_create_partition(&machine, root, 0, &id, &reply, NULL, 0), HVPM_RULE_P24, "one child more");
    for (uint64_t i = 0; i < CHILDREN; i++) {
        const uint64_t child = 2 + (i * 16381 + CHILDREN / 2) % CHILDREN;
        serves(hvpm_finalize_partition(&machine, root, child, &reply, NULL, 0), "an end of", child);
        serves(hvpm_delete_partition(&machine, root, child, &reply, NULL, 0), "no child", child);
    }
    serves(hvpm_create_partition(&machine, root, 0, &id, &reply, NULL, 0), "a child again", 0);
    must(id == 2 + CHILDREN, "its id", id);
    hvpm_destroy(&machine);
}

static uint32_t makes_port(uint32_t id, uint32_t sint) {
    const hvpm_port port = {1, id, 1, HVPM_PORT_MESSAGES, sint, 0, 0, 0};
    return hvpm_create_port(&machine, root, &port, &reply, NULL, 0);
}

static uint32_t connects(uint32_t id, uint32_t port) {
    const hvpm_connection connection = {1, id, 1, port, HVPM_PORT_MESSAGES};
    return hvpm_connect_port(&machine, root, &connection, &reply, NULL, 0);
}

static void has_links(void) {
    boots(PAGES);
    for (uint32_t i = 0; i < LINKS; i++) serves(makes_port(256 * (i + 1), 2), "a port", i);
    refuses(makes_port(0xffffff, 2), HVPM_RULE_P24, "one port more");
    for (uint32_t i = LINKS - 1; i > 0; i--)
        serves(hvpm_delete_port(&machine, root, 1, 256 * (i + 1), &reply, NULL, 0), "no port", i);
    for (uint32_t i = 1; i < LINKS; i++) serves(connects(256 * i, 256), "a connection", i);
    refuses(connects(0xffffff, 256), HVPM_RULE_P24, "one connection more");
    for (uint32_t i = LINKS - 1; i > 0; i--)
        serves(hvpm_disconnect_port(&machine, root, 1, 256 * i, &reply, NULL, 0), "no connection", i);
    hvpm_destroy(&machine);
}

/* The slot of a message, as the guest sees it. */
static void shows(uint32_t type, const uint8_t *payload, size_t size, bool more, uint64_t port) {
    hvpm_slot slot, wanted = {.type = type, .size = (uint8_t)size, .flags = more};
    wanted.port = port;
    memcpy(wanted.payload, payload, size);
    must(hvpm_peek_slot(&machine, root, 2, (uint8_t *)&slot) == HVPM_STATUS_OK, "a look at", type);
    must(memcmp(&slot, &wanted, sizeof slot) == 0, "a slot", type);
}

static void takes_messages(void) {
    serves(hvpm_write_msr(&machine, root, HVPM_MSR_SCONTROL, 1, &reply, NULL, 0), "SCONTROL", 1);
    serves(hvpm_write_msr(&machine, root, HVPM_MSR_SIMP, 1, &reply, NULL, 0), "SIMP", 1);
}

/* The slot that is shown goes, and the next one is shown. */
static void next_message(uint64_t which) {
    serves(hvpm_clear_slot(&machine, root, 2, &reply, NULL, 0), "a clear slot", which);
    serves(hvpm_write_msr(&machine, root, HVPM_MSR_EOM, 0, &reply, NULL, 0), "EOM", which);
}

static void has_messages(void) {
    uint8_t payload[240] = {0};
    boots(PAGES);
    takes_messages();
    for (uint32_t port = 1; port <= FILLED; port++) {
        serves(makes_port(port, 2), "a port", port);
        serves(connects(port, port), "its connection", port);
    }
    for (uint32_t i = 0; i < FILLED * EACH; i++) {
        memcpy(payload, &i, sizeof i);
        serves(hvpm_post_message(&machine, root, 1 + i % FILLED, 1 + i, payload, 5, &reply, NULL, 0), "a post", i);
    }
    refuses(hvpm_post_message(&machine, root, 1, 1, payload, 5, &reply, NULL, 0), HVPM_RULE_P23, "a ninth");
    refuses(hvpm_post_message(&machine, root, FILLED, 1, payload, 5, &reply, NULL, 0), HVPM_RULE_P23, "a ninth");
    for (uint32_t i = 0; i < FILLED * EACH; i++) {
        memcpy(payload, &i, sizeof i);
        shows(1 + i, payload, 5, i + 1 < FILLED * EACH, 1 + i % FILLED);
        next_message(i);
    }
    serves(hvpm_post_message(&machine, root, 1, 1, payload, 5, &reply, NULL, 0), "a post again", 1);
    hvpm_destroy(&machine);
}

static void has_payloads(void) {
    uint8_t payload[241];
    boots(PAGES);
    takes_messages();
    serves(makes_port(9, 2), "a port", 9);
    serves(connects(9, 9), "its connection", 9);
    for (size_t i = 0; i < sizeof payload; i++) payload[i] = (uint8_t)(0xff - i);
    for (size_t size = 0; size <= 240; size++) {
        serves(hvpm_post_message(&machine, root, 9, 7, payload, size, &reply, NULL, 0), "a payload", size);
        shows(7, payload, size, false, 9);
        next_message(size);
    }
    hvpm_destroy(&machine);
}

static void has_processors(void) {
    uint64_t id = 0, list[256];
    size_t made;
    uint64_t page = 2 * FULL + ROOT;
    boots((uint32_t)page);
    for (uint64_t child = 2; child < 2 + FULL; child++) {
        serves(hvpm_create_partition(&machine, root, 0, &id, &reply, NULL, 0), "a child", child);
        serves(hvpm_initialize_partition(&machine, root, id, &reply, NULL, 0), "its start", child);
        for (uint32_t i = 0; i < 256; i++) list[i] = page++;
        must(hvpm_deposit_pages(&machine, root, id, list, 256, &made, &reply) == HVPM_STATUS_OK && made == 256,
             "its pages", child);
        for (uint32_t vp = 0; vp < 64; vp++)
            serves(hvpm_create_vp(&machine, root, id, 63 - vp, &reply, NULL, 0), "a processor", vp);
        refuses(hvpm_create_vp(&machine, root, id, 64, &reply, NULL, 0), HVPM_RULE_P19, "one more");
    }
    refuses(hvpm_create_partition(&machine, root, 0, &id, &reply, NULL, 0), HVPM_RULE_P24, "one child more");
    for (uint64_t child = 2; child < 2 + FULL; child++) {
        serves(hvpm_finalize_partition(&machine, root, child, &reply, NULL, 0), "an end of", child);
        serves(hvpm_delete_partition(&machine, root, child, &reply, NULL, 0), "no child", child);
    }
    hvpm_destroy(&machine);
}

/* HvGetVpRegisters for SVERSION, again and again. */
static void has_elements(void) {
    static uint8_t outputs[REGISTERS * HVPM_OUTPUT], input[16 + 4 * REGISTERS];
    const hvpm_registers call = {.rcx = (uint64_t)REGISTERS << 32 | 0x50};
    uint64_t events = 0;
    boots(PAGES);
    for (size_t i = 0; i < 8; i++) input[i] = 0xff;
    for (size_t i = 0; i < REGISTERS; i++) memcpy(input + 16 + 4 * i, (const uint8_t[]){1, 0, 0xa, 0}, 4);
    for (uint32_t i = 0; i < RUNS; i++) {
        hvpm_run_done done;
        must(hvpm_run(&machine, root, &call, input, sizeof input, &reply, outputs, sizeof outputs, &done) ==
                 HVPM_STATUS_OK,
             "a run", i);
        must(reply.kind == HVPM_REPLY_SERVED && done.events == REGISTERS && done.output_len == 16 * REGISTERS,
             "its elements", i);
        events += done.events;
    }
    must(events == 1200030, "elements", events);
    hvpm_destroy(&machine);
}

int main(void) {
    has_children();
    has_links();
    has_messages();
    has_payloads();
    has_processors();
    has_elements();
    return 0;
}
