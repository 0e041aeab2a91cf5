/*
 * All that looks show of a machine, for tests/embed/whole_state.c: blocks and places that the library gets,
 * and a state, which is what every look answers.
 */
#ifndef STATE_H
#define STATE_H

#include "hvpm.h"

#include <inttypes.h>
#include <stdio.h>
#include <stdlib.h>
#include <string.h>
#include <sys/mman.h>

enum {
    PAGES = 120,
    POOL = 60,
    PARTITIONS = 48, /* a machine with this id is given up for a new one */
    VPS = 24,
    INDEXES = 64,
    LINKS = 8, /* ids of ports and of connections: 0 to 7 */
    MSRS = 22,
    TABLE = 8192,
    INPUT = 4096
};
enum { EOM = 0x40000084, SINT_0 = 0x40000090, SCONTROL = 0x40000080, SIEFP = 0x40000082, SIMP = 0x40000083 };
static const uint64_t MASKED = 1 << 16, MASK = 0xf700000064;
static const hvpm_caller root = {1, 0};

/* ---- What is wrong ---- */

static uint64_t seed, number;
static const char *event = "boot";

static void must(bool holds, const char *what) {
    if (holds) return;
    fprintf(stderr, "whole_state: seed %" PRIu64 ", event %" PRIu64 ", %s: %s\n", seed, number, event, what);
    exit(1);
}

/* ---- Memory: blocks are counted, and one may be refused ---- */

static size_t blocks;    /* that were given out and not given back */
static size_t refuse_at; /* how many calls of malloc and realloc from now on one is refused; 0 for none */

void *__real_malloc(size_t size);
void *__real_realloc(void *block, size_t size);
void __real_free(void *block);
void *__wrap_malloc(size_t size);
void *__wrap_realloc(void *block, size_t size);
void __wrap_free(void *block);

static bool is_refused(void) {
    return refuse_at != 0 && --refuse_at == 0;
}

void *__wrap_malloc(size_t size) {
    if (is_refused()) return NULL;
    void *const block = __real_malloc(size);
    blocks += block != NULL;
    return block;
}

void *__wrap_realloc(void *block, size_t size) {
    if (is_refused()) return NULL;
    void *const larger = __real_realloc(block, size);
    blocks += larger != NULL && block == NULL;
    return larger;
}

void __wrap_free(void *block) {
    blocks -= block != NULL;
    __real_free(block);
}

/* A place of so many bytes that ends where a page begins that nobody may touch. */
static void *guarded(size_t size) {
    const size_t room = (size + 4095) / 4096 * 4096;
    uint8_t *const at = mmap(NULL, room + 4096, PROT_READ | PROT_WRITE, MAP_PRIVATE | MAP_ANONYMOUS, -1, 0);
    must(at != MAP_FAILED && mprotect(at + room, 4096, PROT_NONE) == 0, "no memory for the test");
    return at + room - size;
}

static hvpm_machine *machine;
static hvpm_reply *reply, reply_before;
static char *line, line_before[HVPM_LINE];
static uint8_t *input_end, *seen;
static uint64_t *seen_numbers;
static void *seen_row;

static void make_room(void) {
    machine = guarded(sizeof *machine);
    reply = guarded(sizeof *reply);
    line = guarded(HVPM_LINE);
    input_end = (uint8_t *)guarded(INPUT) + INPUT;
    seen = guarded(256);
    seen_numbers = guarded(4 * sizeof *seen_numbers);
    seen_row = guarded(64);
}

/* ---- All that looks show ---- */

typedef struct vp_seen {
    hvpm_caller at;
    uint64_t pending[4];
    uint64_t msrs[MSRS];
    uint8_t slots[16][256], flags[16][256];
} vp_seen;

typedef struct partition_seen {
    uint64_t id, children[PARTITIONS];
    hvpm_partition row;
    uint32_t features[4];
    hvpm_port ports[LINKS];
    hvpm_connection connections[LINKS];
    bool has_port[LINKS], has_connection[LINKS];
} partition_seen;

typedef struct state {
    size_t partitions, vps, table_len;
    partition_seen partition[PARTITIONS];
    vp_seen vp[VPS];
    uint64_t owners[PAGES];
    char table[TABLE];
} state;

static state was_state, is_state;

static uint32_t msr_at(size_t i) {
    return i == 0 ? 0x40000002 : i < 6 ? SCONTROL + (uint32_t)i - 1 : SINT_0 + (uint32_t)i - 6;
}

static bool is_shown(uint32_t status) {
    must(status == HVPM_STATUS_OK || status == HVPM_STATUS_NONE, "a look answers another status");
    return status == HVPM_STATUS_OK;
}

static void look_vp(hvpm_caller of, vp_seen *to) {
    memset(to, 0, sizeof *to);
    to->at = of;
    memcpy(to->pending, seen_numbers, sizeof to->pending);
    for (uint8_t sint = 0; sint < 16; sint++) {
        must(is_shown(hvpm_peek_slot(machine, of, sint, seen)), "a processor has no slot");
        memcpy(to->slots[sint], seen, 256);
        must(is_shown(hvpm_peek_flags(machine, of, sint, seen)), "a processor has no flags");
        memcpy(to->flags[sint], seen, 256);
    }
    for (size_t i = 0; i < MSRS; i++) {
        uint64_t *const value = seen_numbers + 3;
        must(is_shown(hvpm_peek_msr(machine, of, msr_at(i), value)), "a processor lacks an MSR");
        to->msrs[i] = *value;
    }
}

static void look_links(partition_seen *to) {
    for (uint32_t id = 0; id < LINKS; id++) {
        hvpm_port *const port = (hvpm_port *)((uint8_t *)seen_row + 64 - sizeof *port);
        hvpm_connection *const connection =
            (hvpm_connection *)((uint8_t *)seen_row + 64 - sizeof *connection);
        to->has_port[id] = is_shown(hvpm_peek_port(machine, to->id, id, port));
        if (to->has_port[id]) to->ports[id] = *port;
        to->has_connection[id] = is_shown(hvpm_peek_connection(machine, to->id, id, connection));
        if (to->has_connection[id]) to->connections[id] = *connection;
    }
}

static void look_partition(uint64_t id, partition_seen *to) {
    uint32_t *const features = (uint32_t *)(seen_numbers + 2);
    uint64_t *const child = seen_numbers + 3;
    memset(to, 0, sizeof *to);
    to->id = id;
    to->row = *(hvpm_partition *)seen_row;
    must(is_shown(hvpm_features(machine, id, features)), "a partition has no features");
    memcpy(to->features, features, sizeof to->features);
    *child = 0;
    for (size_t i = 0; i < PARTITIONS; i++) {
        must(is_shown(hvpm_child_after(machine, id, *child, child)), "a partition's children end");
        to->children[i] = *child;
        if (*child == 0) break;
    }
    look_links(to);
}

typedef uint32_t next_number(const hvpm_machine *, uint64_t, uint32_t, uint32_t *);

/* The next number of a list is the wanted one. */
static void want_next(next_number *after, uint64_t partition, uint32_t *number, uint32_t wanted) {
    must(is_shown(after(machine, partition, *number, number)) && *number == wanted, "a list lacks a number");
}

/* There is no further one. */
static void want_end(next_number *after, uint64_t partition, uint32_t number) {
    must(!is_shown(after(machine, partition, number, &number)), "a list has a number too many");
}

/* The lists of a partition have what was seen one by one. */
static void look_lists(const state *of, const partition_seen *at) {
    uint32_t vp = HVPM_FIRST, port = HVPM_FIRST, connection = HVPM_FIRST;
    uint64_t last = HVPM_FIRST, pooled = 0;
    hvpm_page_run run = {0, 0, 0};
    for (size_t i = 0; i < of->vps; i++)
        if (of->vp[i].at.partition == at->id)
            want_next(hvpm_vp_after, at->id, &vp, of->vp[i].at.vp);
    for (uint32_t id = 0; id < LINKS; id++) {
        if (at->has_port[id]) want_next(hvpm_port_after, at->id, &port, id);
        if (at->has_connection[id]) want_next(hvpm_connection_after, at->id, &connection, id);
    }
    want_end(hvpm_vp_after, at->id, vp);
    want_end(hvpm_port_after, at->id, port);
    want_end(hvpm_connection_after, at->id, connection);
    for (uint64_t page = 0; page < PAGES; page++) {
        const bool is_in = page >= run.page && page < run.page + run.count;
        if (of->owners[page] == at->id && !is_in) {
            must(is_shown(hvpm_page_after(machine, at->id, last, &run)), "a page isn't listed");
            must(run.page == page && run.count > 0, "another page is listed");
            last = page + run.count - 1;
            if (run.pooled) pooled += run.count;
        }
        must(of->owners[page] == at->id || !is_in, "another's page is listed");
    }
    must(!is_shown(hvpm_page_after(machine, at->id, last, &run)), "a page too many is listed");
    must(pooled == at->row.pooled, "the pool has other pages");
}

/* The table, of which one block after another is refused first. */
static void look_table(state *to) {
    uint32_t status = HVPM_STATUS_MEMORY;
    for (size_t refused = 1; status == HVPM_STATUS_MEMORY; refused++) {
        to->table_len = TABLE + 1;
        refuse_at = refused;
        status = hvpm_table(machine, to->table, TABLE, &to->table_len);
        refuse_at = 0;
        must(status != HVPM_STATUS_MEMORY || to->table_len == TABLE + 1, "a table without memory");
    }
    must(status == HVPM_STATUS_OK, "no table");
}

/* Looks at all places. The state begins with zeros, so that what isn't there is alike. */
static void look(state *to) {
    to->partitions = 0, to->vps = 0;
    for (uint64_t id = 1; id < PARTITIONS; id++) {
        if (!is_shown(hvpm_peek_partition(machine, id, seen_row))) continue;
        look_partition(id, &to->partition[to->partitions++]);
        for (uint32_t vp = 0; vp < INDEXES; vp++) {
            const hvpm_caller of = {id, vp};
            if (is_shown(hvpm_peek_pending(machine, of, seen_numbers))) {
                must(to->vps < VPS, "more processors than pages pay for");
                look_vp(of, &to->vp[to->vps++]);
            }
        }
    }
    for (uint64_t page = 0; page < PAGES; page++)
        must(is_shown(hvpm_page_owner(machine, page, &to->owners[page])), "a page has no owner");
    for (size_t i = 0; i < to->partitions; i++) look_lists(to, &to->partition[i]);
    look_table(to);
}

static bool is_same_vp(const vp_seen *a, const vp_seen *b) {
    return a->at.partition == b->at.partition && a->at.vp == b->at.vp &&
           memcmp(a->pending, b->pending, sizeof *a - offsetof(vp_seen, pending)) == 0;
}

static bool is_same_partition(const partition_seen *a, const partition_seen *b) {
    for (size_t i = 0; i < LINKS; i++) {
        const hvpm_port *const p = &a->ports[i], *const q = &b->ports[i];
        const hvpm_connection *const c = &a->connections[i], *const d = &b->connections[i];
        if (a->has_port[i] != b->has_port[i] || a->has_connection[i] != b->has_connection[i] ||
            p->peer != q->peer || p->type != q->type || p->sint != q->sint || p->vp != q->vp ||
            p->base_flag != q->base_flag || p->flag_count != q->flag_count ||
            c->port_partition != d->port_partition || c->port != d->port || c->type != d->type)
            return false;
    }
    return a->id == b->id && memcmp(a->children, b->children, sizeof a->children) == 0 &&
           memcmp(a->features, b->features, sizeof a->features) == 0 && a->row.mask == b->row.mask &&
           a->row.parent == b->row.parent && a->row.depth == b->row.depth && a->row.pooled == b->row.pooled &&
           a->row.in_use == b->row.in_use && a->row.life == b->row.life &&
           a->row.children == b->row.children && a->row.vps == b->row.vps && a->row.ports == b->row.ports &&
           a->row.connections == b->row.connections;
}

static bool is_same(const state *a, const state *b) {
    if (a->partitions != b->partitions || a->vps != b->vps || a->table_len != b->table_len) return false;
    for (size_t i = 0; i < a->partitions; i++)
        if (!is_same_partition(&a->partition[i], &b->partition[i])) return false;
    for (size_t i = 0; i < a->vps; i++)
        if (!is_same_vp(&a->vp[i], &b->vp[i])) return false;
    return memcmp(a->owners, b->owners, sizeof a->owners) == 0 &&
           memcmp(a->table, b->table, a->table_len) == 0;
}

static const vp_seen *find_vp(const state *in, uint64_t partition, uint32_t vp) {
    for (size_t i = 0; i < in->vps; i++)
        if (in->vp[i].at.partition == partition && in->vp[i].at.vp == vp) return &in->vp[i];
    return NULL;
}

static const partition_seen *find_partition(const state *in, uint64_t id) {
    for (size_t i = 0; i < in->partitions; i++)
        if (in->partition[i].id == id) return &in->partition[i];
    return NULL;
}

#endif
