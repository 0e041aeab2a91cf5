/*
 * Two machines for fuzz.c, what they answer, and all that looks show of them.
 */
#ifndef MACHINES_H
#define MACHINES_H

#include "hvpm.h"

#include <inttypes.h>
#include <stdio.h>
#include <stdlib.h>
#include <string.h>

enum { MOST = 1100, IDS = 20, PORTS = 40, EOM = 0x40000084, SIEFP = 0x40000082, SIMP = 0x40000083 };

static hvpm_machine one, two;
static hvpm_record record; /* of the second machine */
static bool by_pages;      /* the second machine's guests have pages: guests.h */
static bool may_be_cut;    /* a list had to be gone on with, which no script can say */
static uint64_t recorded;  /* how many of its events were in texts that are taken */
static const char *doing;

static void must(bool holds, const char *what) {
    if (holds) return;
    fprintf(stderr, "fuzz_library: event %" PRIu64 ", %s: %s\n", one.events, doing, what);
    abort();
}

static void is_ok(uint32_t status) {
    must(status == HVPM_STATUS_OK, hvpm_status_name(status));
}

static void put(uint8_t *at, uint64_t number, size_t size) {
    for (size_t i = 0; i < size; i++) at[i] = (uint8_t)(number >> 8 * i);
}

static uint64_t number_at(const uint8_t *at, size_t size) {
    uint64_t number = 0;
    for (size_t i = 0; i < size; i++) number |= (uint64_t)at[i] << 8 * i;
    return number;
}

/* A copy of bytes in a block of their size, so that a sanitizer sees what is read behind them. */
static void *copied(const void *from, size_t size) {
    void *const to = malloc(size + (size == 0));
    must(to != NULL, "no memory for the test");
    memcpy(to, from, size);
    return to;
}

/* ---- What libFuzzer looks for besides new code: endings and effects that no input had ---- */

__attribute__((used, section("__libfuzzer_extra_counters"))) static uint8_t seen[4096];

static void note(size_t what, const hvpm_reply *reply) {
    const hvpm_effect *const it = &reply->effect;
    seen[what * 32 + (reply->kind == HVPM_REPLY_MORE ? 31 : reply->rule)] = 1;
    size_t parts = it->kind;
    if (it->kind == HVPM_EFFECT_SYNIC) {
        parts += 8 * (it->shown != 0) + 16 * (it->waiting != 0) + 32 * it->freed + 64 * it->flag_is;
        parts += 256 * ((it->raised[0] | it->raised[1] | it->raised[2] | it->raised[3]) != 0);
    }
    seen[1024 + parts] = 1;
    seen[1536 + what * 8 + it->kind] = 1;
}

/* ---- Replies ---- */

static bool is_same_synic(const hvpm_effect *a, const hvpm_effect *b) {
    return a->vp == b->vp && a->partition == b->partition && a->shown == b->shown &&
           a->waiting == b->waiting && memcmp(a->raised, b->raised, sizeof a->raised) == 0 &&
           a->flag_is == b->flag_is &&
           (a->flag_is == 0 || (a->flag == b->flag && a->flag_sint == b->flag_sint)) &&
           a->freed == b->freed && (a->freed == 0 || a->port == b->port);
}

static bool is_same_effect(const hvpm_effect *a, const hvpm_effect *b) {
    /* A flag that the guest has in its page is set again in the machine. */
    if (by_pages && (a->kind == HVPM_EFFECT_SYNIC || b->kind == HVPM_EFFECT_SYNIC)) return true;
    if (a->kind != b->kind) return false;
    switch (a->kind) {
    case HVPM_EFFECT_NOTHING: return true;
    case HVPM_EFFECT_SYNIC: return is_same_synic(a, b);
    case HVPM_EFFECT_PAGE:
        return a->partition == b->partition && a->page == b->page && a->pooled == b->pooled;
    case HVPM_EFFECT_PAGES: return a->partition == b->partition && a->page == b->page;
    case HVPM_EFFECT_PROCESSOR: return a->partition == b->partition && a->vp == b->vp;
    default: return a->partition == b->partition;
    }
}

/* A reply of the second machine, which writes no lines, is that of the first. */
static bool is_same_reply(const hvpm_reply *a, const hvpm_reply *b) {
    return a->line_len == 0 && a->kind == b->kind && a->rule == b->rule && a->result == b->result &&
           a->next == b->next && a->output_len == b->output_len &&
           memcmp(a->output, b->output, a->output_len) == 0 && is_same_effect(&a->effect, &b->effect);
}

/* ---- The first machine: what it answers to the elements of a call, and their audit lines ---- */

static hvpm_reply replies[MOST];
static size_t answered, lines_len;
static char lines[MOST * HVPM_LINE];

static void begin(const char *name) {
    doing = name, answered = 0, lines_len = 0;
}

/* A place for the reply to the next event, whose line goes to next_line(). */
static hvpm_reply *next_reply(void) {
    must(answered < MOST, "a call has no end");
    return &replies[answered++];
}

static char *next_line(void) {
    return lines + lines_len;
}

static const hvpm_reply *last_reply(void) {
    return &replies[answered - 1];
}

static void taken(size_t what) {
    lines_len += last_reply()->line_len;
    must(lines[lines_len - 1] == '\n', "no line");
    note(what, last_reply());
}

/* Makes a hypercall, element by element, and leaves the registers of the last one. */
static void take_alone(size_t what, hvpm_caller by, hvpm_registers *registers, const uint8_t *list,
                       size_t len) {
    for (;;) {
        hvpm_reply *const reply = next_reply();
        is_ok(hvpm_hypercall(&one, by, registers, list, len, reply, next_line(), HVPM_LINE));
        taken(what);
        if (reply->kind != HVPM_REPLY_MORE) return;
        registers->rcx = (registers->rcx & ~(UINT64_C(0xFFF) << 48)) | (uint64_t)reply->next << 48;
    }
}

static size_t count_lines(const char *at, size_t len) {
    size_t count = 0;
    for (size_t i = 0; i < len; i++) count += at[i] == '\n';
    return count;
}

/* The record of the second machine has the lines of the first, or at least a line for each of its events. */
static void is_recorded(bool is_exact) {
    must(!record.is_cut || may_be_cut, "a record is cut");
    if (!two.record || record.is_cut) return;
    if (is_exact && !by_pages)
        must(record.audit.len == lines_len && memcmp(record.audit.at, lines, lines_len) == 0,
             "another audit");
    else
        must(count_lines(record.audit.at, record.audit.len) == two.events - recorded, "an audit lacks lines");
    record.audit.len = 0, record.script.len = 0, recorded = two.events;
}

/* ---- Looks ---- */

typedef uint32_t next_number(const hvpm_machine *, uint64_t, uint32_t, uint32_t *);

/* Both lists have equal numbers. Returns how many, and stores the first ones. */
static size_t same_numbers(next_number *after, uint64_t partition, uint32_t numbers[PORTS]) {
    uint32_t a = HVPM_FIRST, b = HVPM_FIRST;
    for (size_t count = 0;; count++) {
        const uint32_t status = after(&one, partition, a, &a);
        must(status == after(&two, partition, b, &b) && a == b, "another list");
        if (status != HVPM_STATUS_OK) return count;
        if (count < PORTS) numbers[count] = a;
    }
}

static void same_pages(uint64_t partition, const hvpm_partition *row) {
    hvpm_page_run a = {0, 0, 0}, b = {0, 0, 0};
    uint64_t pooled = 0;
    for (uint64_t last = HVPM_FIRST;; last = a.page + a.count - 1) {
        const uint32_t status = hvpm_page_after(&one, partition, last, &a);
        must(status == hvpm_page_after(&two, partition, last, &b), "another run");
        if (status != HVPM_STATUS_OK) break;
        must(a.page == b.page && a.count == b.count && a.pooled == b.pooled, "another run of pages");
        if (a.pooled) pooled += a.count;
        for (uint64_t page = a.page; page < a.page + 3 && page < a.page + a.count; page++) {
            uint64_t owner[2];
            is_ok(hvpm_page_owner(&one, page, &owner[0]));
            is_ok(hvpm_page_owner(&two, page, &owner[1]));
            must(owner[0] == partition && owner[1] == partition, "another owner");
        }
    }
    must(pooled == row->pooled, "a pool has other pages");
}

static void same_links(uint64_t partition, const hvpm_partition *row) {
    uint32_t ids[PORTS];
    const size_t ports = same_numbers(hvpm_port_after, partition, ids);
    must(ports == row->ports, "other ports");
    for (size_t i = 0; i < ports && i < PORTS; i++) {
        hvpm_port a = {0}, b = {0};
        is_ok(hvpm_peek_port(&one, partition, ids[i], &a));
        is_ok(hvpm_peek_port(&two, partition, ids[i], &b));
        must(a.partition == partition && a.id == ids[i] && memcmp(&a, &b, sizeof a) == 0, "another port");
    }
    const size_t connections = same_numbers(hvpm_connection_after, partition, ids);
    must(connections == row->connections, "other connections");
    for (size_t i = 0; i < connections && i < PORTS; i++) {
        hvpm_connection a = {0}, b = {0};
        is_ok(hvpm_peek_connection(&one, partition, ids[i], &a));
        is_ok(hvpm_peek_connection(&two, partition, ids[i], &b));
        must(a.partition == partition && a.id == ids[i] && memcmp(&a, &b, sizeof a) == 0,
             "another connection");
    }
}

static void same_msrs(hvpm_caller of) {
    for (uint32_t msr = 0x40000000; msr < 0x400000A1; msr += msr == 0x40000003 ? 0x7D : 1) {
        uint64_t a = 0, b = 0;
        const uint32_t status = hvpm_peek_msr(&one, of, msr, &a);
        must(status == hvpm_peek_msr(&two, of, msr, &b) && a == b, "another MSR");
        must(hvpm_is_msr(msr) == (status == HVPM_STATUS_OK), "is_msr");
    }
}

/* Slots, flags and vectors of a processor without pages. */
static void same_synic(hvpm_caller of) {
    uint8_t a[256], b[256];
    uint64_t pending[2][4];
    for (uint8_t sint = 0; sint < 17; sint++) {
        memset(a, 0, sizeof a), memset(b, 0, sizeof b);
        const uint32_t status = hvpm_peek_slot(&one, of, sint, a);
        must(status == hvpm_peek_slot(&two, of, sint, b) && memcmp(a, b, 256) == 0, "another slot");
        must(status == hvpm_peek_flags(&one, of, sint, a), "no flags");
        must(status == hvpm_peek_flags(&two, of, sint, b) && memcmp(a, b, 256) == 0, "other flags");
    }
    is_ok(hvpm_peek_pending(&one, of, pending[0]));
    is_ok(hvpm_peek_pending(&two, of, pending[1]));
    must(memcmp(pending[0], pending[1], sizeof pending[0]) == 0, "other vectors");
}

static void same_table(void) {
    size_t len[2];
    must(hvpm_table(&one, NULL, 0, &len[0]) == HVPM_STATUS_SHORT, "a table without room");
    char *const a = malloc(len[0]), *const b = malloc(len[0]);
    must(a && b, "no memory for the test");
    is_ok(hvpm_table(&one, a, len[0], &len[1]));
    must(len[0] == len[1], "a table has two lengths");
    is_ok(hvpm_table(&two, b, len[0], &len[1]));
    must(len[0] == len[1] && memcmp(a, b, len[0]) == 0, "another table");
    free(a), free(b);
}

/* All that looks show of both machines is equal. `same_vp` compares slots, flags and vectors. */
static void same_looks(void (*same_vp)(hvpm_caller)) {
    for (uint64_t id = 0; id < IDS; id++) {
        hvpm_partition a = {0}, b = {0};
        uint32_t vps[PORTS], features[2][4] = {{0}};
        uint64_t children[2] = {0, 0};
        const uint32_t status = hvpm_peek_partition(&one, id, &a);
        must(status == hvpm_peek_partition(&two, id, &b) && memcmp(&a, &b, sizeof a) == 0,
             "another partition");
        must(status == hvpm_features(&one, id, features[0]), "no features");
        must(status == hvpm_features(&two, id, features[1]) && memcmp(features[0], features[1], 16) == 0,
             "other features");
        if (status != HVPM_STATUS_OK) continue;
        must(same_numbers(hvpm_vp_after, id, vps) == a.vps, "other processors");
        for (size_t i = 0; i < a.vps && i < PORTS; i++) {
            same_msrs((hvpm_caller){id, vps[i]});
            same_vp((hvpm_caller){id, vps[i]});
        }
        same_links(id, &a);
        same_pages(id, &a);
        uint32_t count = 0;
        do {
            is_ok(hvpm_child_after(&one, id, children[0], &children[0]));
            is_ok(hvpm_child_after(&two, id, children[1], &children[1]));
            must(children[0] == children[1], "another child");
        } while (children[0] != 0 && ++count);
        must(count == a.children, "other children");
    }
    same_table();
}

#endif
