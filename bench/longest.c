/*
 * What the longest events take through the library, at the limits of the policy or near them. Run by longest.sh:
 *
 *     longest KIND       sets a machine up, makes the event of this kind, and prints its nanoseconds
 *     longest KIND -     sets the machine up alone, so that what the event takes is the difference
 *     longest            prints the kinds
 *
 * The status is 1 where an event isn't served.
 */
#include "hvpm.h"

#include <inttypes.h>
#include <stdio.h>
#include <stdlib.h>
#include <string.h>
#include <time.h>

enum { PAGES = 65536, SINT = 2, VPS = 64, STORED = 8 };

static hvpm_machine machine = HVPM_EMPTY;
static hvpm_reply reply;
static const hvpm_caller root = {1, 0};
static uint64_t child;
static uint32_t next_page;
static uint64_t pages[PAGES];

/* The last arguments of each call. */
#define TOLD &reply, NULL, 0

static void served(uint32_t status) {
    if (status == HVPM_STATUS_OK && reply.kind == HVPM_REPLY_SERVED) return;
    fprintf(stderr, "longest: status %" PRIu32 ", rule %" PRIu32 "\n", status, reply.rule);
    exit(1);
}

/* Deposits the next loose pages of the root, each this many after the one before. */
static void deposit(uint64_t partition, uint32_t count, uint32_t step) {
    size_t made = 0;
    for (uint32_t i = 0; i < count; i++, next_page += step) pages[i] = next_page;
    served(hvpm_deposit_pages(&machine, root, partition, pages, count, &made, &reply));
}

static void boot(uint32_t pool) {
    const hvpm_config config = {.mask = 0xf700000064, .pages = PAGES, .pool = pool, .vps = 1};
    if (hvpm_boot(&machine, &config) != HVPM_STATUS_OK) exit(1);
    next_page = pool;
}

static void make_child(uint32_t pooled, uint32_t step, uint32_t vps) {
    served(hvpm_create_partition(&machine, root, 0, &child, TOLD));
    served(hvpm_set_partition_property(&machine, root, child, HVPM_PRIVILEGE_FLAGS, 0xf700000064, TOLD));
    served(hvpm_initialize_partition(&machine, root, child, TOLD));
    deposit(child, pooled, step);
    for (uint32_t vp = 0; vp < vps; vp++) {
        const hvpm_caller of = {child, vp};
        served(hvpm_create_vp(&machine, root, child, vp, TOLD));
        served(hvpm_write_msr(&machine, of, HVPM_MSR_SCONTROL, 1, TOLD));
        served(hvpm_write_msr(&machine, of, HVPM_MSR_SIMP, 1, TOLD));
        served(hvpm_write_msr(&machine, of, HVPM_MSR_SINT0 + SINT, 0x30, TOLD));
    }
}

/* Ports of the child from an id on, one after another at its processors, and the root's connections to them. */
static void make_ports(uint32_t from, uint32_t count, uint32_t vps, bool is_connected) {
    for (uint32_t id = from; id < from + count; id++) {
        const hvpm_port port = {child, id, 1, HVPM_PORT_MESSAGES, SINT, id % vps, 0, 0};
        const hvpm_connection connection = {1, id, child, id, HVPM_PORT_MESSAGES};
        served(hvpm_create_port(&machine, root, &port, TOLD));
        if (is_connected) served(hvpm_connect_port(&machine, root, &connection, TOLD));
    }
}

static void post(uint32_t id) {
    served(hvpm_post_message(&machine, root, id, 1, "a payload of a message", 22, TOLD));
}

static void fill(uint32_t ports) {
    for (uint32_t i = 0; i < STORED; i++)
        for (uint32_t id = 1; id <= ports; id++) post(id);
}

/* ---- The kinds: how the machine is set up, and the event ---- */

static void scattered(void) {
    boot(64);
    make_child(32000, 2, 0);
    served(hvpm_finalize_partition(&machine, root, child, TOLD));
}
static void delete_partition(void) {
    served(hvpm_delete_partition(&machine, root, child, TOLD));
}

/* 64 processors, 8,000 ports and as many connections, and 8,000 messages. */
static void with_everything(void) {
    boot(12000);
    make_child(40000, 1, VPS);
    make_ports(1, 1000, VPS, true);
    make_ports(1001, 7000, VPS, false);
    const hvpm_port port = {1, 1, child, HVPM_PORT_MESSAGES, SINT, 0, 0, 0};
    served(hvpm_create_port(&machine, root, &port, TOLD));
    for (uint32_t id = 1; id <= 8000; id++) {
        const hvpm_connection connection = {child, id, 1, 1, HVPM_PORT_MESSAGES};
        served(hvpm_connect_port(&machine, root, &connection, TOLD));
    }
    fill(1000);
}
static void finalize(void) {
    served(hvpm_finalize_partition(&machine, root, child, TOLD));
}

/* 32,000 messages at one processor, and a port more. */
static void full_queue(void) {
    boot(8000);
    make_child(8000, 1, 1);
    make_ports(1, 4001, 1, true);
    fill(4000);
}
static void post_one(void) {
    post(4001);
}
static void delete_vp(void) {
    served(hvpm_delete_vp(&machine, root, child, 0, TOLD));
}
static void full_and_cleared(void) {
    full_queue();
    served(hvpm_clear_slot(&machine, (hvpm_caller){child, 0}, SINT, TOLD));
}
static void end_of_message(void) {
    served(hvpm_write_msr(&machine, (hvpm_caller){child, 0}, HVPM_MSR_EOM, 0, TOLD));
}

static void many_ports(void) {
    boot(64);
    make_child(40000, 1, 1);
    make_ports(2, 30000, 1, false);
}
static void first_port(void) {
    make_ports(1, 1, 1, false);
}
static void last_port(void) {
    make_ports(30002, 1, 1, false);
}
static void delete_first_port(void) {
    served(hvpm_delete_port(&machine, root, child, 2, TOLD));
}

static void delete_last_port(void) {
    served(hvpm_delete_port(&machine, root, child, 30001, TOLD));
}

static void many_children(void) {
    boot(64000);
    for (uint32_t i = 0; i < 30000; i++) served(hvpm_create_partition(&machine, root, 0, &child, TOLD));
}
static void delete_first_child(void) {
    served(hvpm_delete_partition(&machine, root, 2, TOLD));
}

static void delete_last_child(void) {
    served(hvpm_delete_partition(&machine, root, child, TOLD));
}

/* A child with 20,000 children of its own. */
static void many_below(void) {
    uint64_t made;
    boot(64);
    make_child(50000, 1, 1);
    for (uint32_t i = 0; i < 20000; i++)
        served(hvpm_create_partition(&machine, (hvpm_caller){child, 0}, 0, &made, TOLD));
}
static void narrow(void) {
    served(hvpm_set_partition_property(&machine, root, child, HVPM_PRIVILEGE_FLAGS, 0x1000000064, TOLD));
}

static void small(void) {
    boot(64);
    make_child(64, 1, 1);
}
static void create_vp(void) {
    served(hvpm_create_vp(&machine, root, child, 1, TOLD));
}
static void own_id(void) {
    uint64_t id;
    served(hvpm_get_partition_id(&machine, root, &id, TOLD));
}

static const struct kind {
    const char *name;
    void (*set_up)(void), (*event)(void);
} kinds[] = {
    {"scattered", scattered, delete_partition},
    {"finalize", with_everything, finalize},
    {"deletevp", full_queue, delete_vp},
    {"narrow", many_below, narrow},
    {"firstchild", many_children, delete_first_child},
    {"lastchild", many_children, delete_last_child},
    {"createport", many_ports, first_port},
    {"deleteport", many_ports, delete_first_port},
    {"createlastport", many_ports, last_port},
    {"deletelastport", many_ports, delete_last_port},
    {"post", full_queue, post_one},
    {"eom", full_and_cleared, end_of_message},
    {"createvp", small, create_vp},
    {"ownid", small, own_id},
};

int main(int argc, char **argv) {
    struct timespec start, end;
    for (size_t i = 0; i < sizeof kinds / sizeof *kinds; i++) {
        if (argc < 2) printf("%s\n", kinds[i].name);
        if (argc < 2 || strcmp(argv[1], kinds[i].name) != 0) continue;
        kinds[i].set_up();
        if (argc > 2) return 0;
        clock_gettime(CLOCK_PROCESS_CPUTIME_ID, &start);
        kinds[i].event();
        clock_gettime(CLOCK_PROCESS_CPUTIME_ID, &end);
        printf("%lld\n", (end.tv_sec - start.tv_sec) * 1000000000LL + end.tv_nsec - start.tv_nsec);
        return 0;
    }
    return argc < 2 ? 0 : 2;
}
