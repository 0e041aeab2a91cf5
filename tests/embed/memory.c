/*
 * The memory that a handle keeps between calls: however long a call's input list was, at most two pages of it
 * stay; and a machine takes at most what docs/EMBEDDING.md says. What is wrong goes to standard error, and
 * the status is then 1.
 */
#include "hvpm.h"

#include <malloc.h>
#include <stdbool.h>
#include <stdio.h>
#include <stdlib.h>

enum {
    MOST_KEPT = 8192,
    SLACK = 2048,  /* small blocks that malloc holds for itself */
    CACHE = 65536, /* those after many of them */
    LONGEST = 4 << 20,
    ONE_PARTITION = 512,  /* with one page of its own */
    ONE_VP = 6144,        /* the first one of a partition */
    FIRST_MESSAGE = 2560, /* of a processor */
    PORTS = 300,
    ALL_PORTS = 20 * 784 + 64 * 24 /* 19 blocks of 16 rows of 48 bytes, a spare one, and their list */
};

static const hvpm_caller root = {1, 0};
/* HvSetVpRegisters with 4,095 registers, whose list has 131,056 bytes. No page has it, so P6 refuses the call. */
static const hvpm_registers longest = {.rcx = 0x00000fff00000051};
static hvpm_machine machine = HVPM_EMPTY;

static void must(bool holds, const char *what, size_t bytes) {
    if (holds) return;
    fprintf(stderr, "memory: %s, %zu bytes\n", what, bytes);
    exit(1);
}

/* The bytes that malloc has given out. */
static size_t in_use(void) {
    const struct mallinfo2 told = mallinfo2();
    return told.uordblks + told.hblkhd;
}

static void take_call(const uint8_t *input, size_t len) {
    hvpm_reply reply;
    must(hvpm_hypercall(&machine, root, &longest, input, len, &reply, NULL, 0) == HVPM_STATUS_OK,
         "a call with a list", len);
}

static void take_run(const uint8_t *input, size_t len) {
    uint8_t outputs[64];
    hvpm_reply reply;
    hvpm_run_done done;
    must(hvpm_run(&machine, root, &longest, input, len, &reply, outputs, sizeof outputs, &done) ==
             HVPM_STATUS_OK,
         "a run with a list", len);
}

/* Makes calls with lists of many lengths. After each the handle keeps what it must. */
static void keeps_little(const uint8_t *input, void (*take)(const uint8_t *, size_t)) {
    const size_t before = in_use();
    for (size_t len = 1; len <= LONGEST; len *= 2) {
        take(input, len);
        must(in_use() <= before + MOST_KEPT + SLACK, "too much is kept after a list", len);
        take(input, 0);
        must(in_use() <= before + MOST_KEPT + SLACK, "too much is kept after a list and none", len);
    }
}

/* ---- How much a machine takes ---- */

/* What a machine has. docs/EMBEDDING.md has this sum, in bytes. */
struct size {
    size_t partitions, vps, messages, ports, pages;
};
static size_t most_of(struct size of) {
    return 163840 + 4800 * of.partitions + 6144 * of.vps + 1280 * of.messages + 896 * of.ports +
           40 * of.pages;
}

static hvpm_reply reply;
static void done(uint32_t status, const char *what) {
    must(status == HVPM_STATUS_OK && reply.kind <= HVPM_REPLY_MORE, what, reply.rule);
}

/* A machine with `children`, each with so many processors, and for each of the SINTs that are used a port, to
 * which the root has a connection, and so many messages. Its pages are every other one, if they are scattered. */
static void is_bounded(const char *what, uint64_t children, uint32_t vps, uint32_t sints, uint32_t messages,
                       bool is_scattered) {
    const uint32_t own = 4 * vps + vps * sints, most = 65536;
    const uint64_t pool = 4 + 2 * children + children * vps * sints;
    const hvpm_config config = {.mask = 0xf700000064, .pages = most, .pool = (uint32_t)pool, .vps = 1};
    const size_t before = in_use();
    struct size size = {1 + children, 1 + children * vps, 0, 0, most};
    uint64_t page = config.pool, id = 0, list[1024];
    size_t made;
    reply.kind = HVPM_REPLY_SERVED;
    done(hvpm_boot(&machine, &config), "a boot");
    for (uint64_t child = 2; child < 2 + children; child++) {
        done(hvpm_create_partition(&machine, root, 0, &id, &reply, NULL, 0), "a partition");
        done(hvpm_initialize_partition(&machine, root, id, &reply, NULL, 0), "its start");
        for (uint32_t i = 0; i < own; i++, page += is_scattered ? 2 : 1) list[i] = page;
        done(own ? hvpm_deposit_pages(&machine, root, id, list, own, &made, &reply) : 0, "its pages");
        for (uint32_t vp = 0; vp < vps; vp++) {
            const hvpm_caller at = {id, vp};
            done(hvpm_create_vp(&machine, root, id, vp, &reply, NULL, 0), "a processor");
            done(hvpm_write_msr(&machine, at, HVPM_MSR_SCONTROL, 1, &reply, NULL, 0), "its SynIC");
            done(hvpm_write_msr(&machine, at, HVPM_MSR_SIMP, 1, &reply, NULL, 0), "its page");
            for (uint32_t sint = 0; sint < sints; sint++) {
                const uint32_t port = vp * sints + sint + 1;
                const hvpm_port to = {id, port, 1, HVPM_PORT_MESSAGES, sint, vp, 0, 0};
                const hvpm_connection by = {1, (uint32_t)(id << 10 | port), id, port, HVPM_PORT_MESSAGES};
                done(hvpm_create_port(&machine, root, &to, &reply, NULL, 0), "a port");
                done(hvpm_connect_port(&machine, root, &by, &reply, NULL, 0), "a connection");
                for (uint32_t i = 0; i < messages; i++)
                    done(hvpm_post_message(&machine, root, by.id, 7, what, 5, &reply, NULL, 0), "a post");
                size.ports += 2, size.messages += messages;
            }
        }
        must(in_use() - before <= most_of(size), what, in_use() - before);
    }
    printf("%s: %zu of %zu bytes\n", what, in_use() - before, most_of(size));
    hvpm_destroy(&machine);
    must(in_use() <= before + CACHE, "a machine leaves nothing", in_use() - before);
}

/* ---- How much each thing takes ---- */

/* Whether what was made since `before` takes at most so many bytes. */
static size_t takes(const char *what, size_t before, size_t most) {
    const size_t bytes = in_use() - before;
    printf("%s: %zu of %zu bytes\n", what, bytes, most);
    must(bytes <= most, what, bytes);
    return in_use();
}

/* A second child with each thing that it may have. What the first one has leaves no free block of those sizes. */
static void each_takes(void) {
    const hvpm_config config = {.mask = 0xf700000064, .pages = 4096, .pool = 2048, .vps = 1};
    const hvpm_caller at = {3, 0};
    uint64_t id = 0, list[PORTS + 8];
    size_t before = 0, made;
    done(hvpm_boot(&machine, &config), "a boot");
    for (uint64_t child = 2; child <= 3; child++) {
        for (uint32_t i = 0; i < PORTS + 8; i++) list[i] = 512 * (child + 2) + i;
        before = in_use();
        done(hvpm_create_partition(&machine, root, 0, &id, &reply, NULL, 0), "a partition");
        done(hvpm_initialize_partition(&machine, root, id, &reply, NULL, 0), "its start");
        done(hvpm_deposit_pages(&machine, root, id, list, 1, &made, &reply), "its page");
        if (child == 3) before = takes("a partition with one page", before, ONE_PARTITION);
        done(hvpm_deposit_pages(&machine, root, id, list + 1, PORTS + 7, &made, &reply), "its pages");
        before = in_use();
        done(hvpm_create_vp(&machine, root, id, 0, &reply, NULL, 0), "a processor");
        if (child == 3) before = takes("a processor", before, ONE_VP);
    }
    done(hvpm_write_msr(&machine, at, HVPM_MSR_SCONTROL, 1, &reply, NULL, 0), "its SynIC");
    done(hvpm_write_msr(&machine, at, HVPM_MSR_SIMP, 1, &reply, NULL, 0), "its page");
    before = in_use();
    for (uint32_t port = 1; port <= PORTS; port++) {
        const hvpm_port to = {3, port, 1, HVPM_PORT_MESSAGES, 5, 0, 0, 0};
        done(hvpm_create_port(&machine, root, &to, &reply, NULL, 0), "a port");
    }
    before = takes("ports", before, ALL_PORTS);
    const hvpm_connection by = {1, 7, 3, 1, HVPM_PORT_MESSAGES};
    done(hvpm_connect_port(&machine, root, &by, &reply, NULL, 0), "a connection");
    before = in_use();
    done(hvpm_post_message(&machine, root, 7, 7, "first", 5, &reply, NULL, 0), "a post");
    (void)takes("a first message", before, FIRST_MESSAGE);
    hvpm_destroy(&machine);
}

int main(void) {
    const hvpm_config config = {.mask = 0xf700000044, .pages = 32, .pool = 12, .vps = 1};
    uint8_t *const input = calloc(1, LONGEST);
    const size_t before = in_use();
    must(input != NULL, "no memory", LONGEST);
    must(hvpm_boot(&machine, &config) == HVPM_STATUS_OK, "it doesn't boot", 0);
    keeps_little(input, take_call);
    keeps_little(input, take_run);
    hvpm_destroy(&machine);
    must(in_use() <= before + SLACK, "too much is kept after the handle's end", in_use() - before);
    free(input);
    each_takes();
    is_bounded("partitions", 9000, 0, 0, 0, false);
    is_bounded("processors", 200, 64, 0, 0, false);
    is_bounded("a message at each SINT", 40, 16, 16, 1, false);
    is_bounded("many messages at a few SINTs", 50, 2, 2, 8, false);
    is_bounded("scattered pages", 30, 32, 16, 0, true);
    return 0;
}
