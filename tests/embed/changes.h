/*
 * The effect that the difference of two states makes, for tests/embed/whole_state.c.
 */
#ifndef CHANGES_H
#define CHANGES_H

#include "state.h"

/* An event that is taken. A hypercall has a code, an access none. */
typedef struct taken {
    hvpm_caller by;
    uint16_t code;
    bool is_read, is_take;
    uint32_t connection; /* of a post */
} taken;

/* Whether a slot shows another message; MessagePending aside. */
static bool is_other_message(const uint8_t *a, const uint8_t *b) {
    return memcmp(a, b, 5) != 0 || memcmp(a + 6, b + 6, 250) != 0;
}

static bool is_message(const uint8_t *slot) {
    return (slot[0] | slot[1] | slot[2] | slot[3]) != 0;
}

/* The vector that a SINT raises, if it raises one. */
static void raise(const vp_seen *vp, size_t sint, uint64_t raised[4]) {
    const uint64_t value = vp->msrs[6 + sint], vector = value & 0xFF;
    if ((value & MASKED) == 0) raised[vector / 64] |= UINT64_C(1) << vector % 64;
}

static void wants_flag(const vp_seen *was, const vp_seen *is, size_t sint, hvpm_effect *wanted) {
    for (uint32_t flag = 0; flag < 2048; flag++) {
        const int before = was->flags[sint][flag / 8] >> flag % 8 & 1;
        const int now = is->flags[sint][flag / 8] >> flag % 8 & 1;
        if (before == now) continue;
        must(wanted->flag_is == 0, "two flags changed");
        wanted->flag_is = now ? HVPM_FLAG_SET : HVPM_FLAG_CLEARED;
        wanted->flag = (uint16_t)flag, wanted->flag_sint = (uint8_t)sint;
        if (now) raise(is, sint, wanted->raised);
    }
}

/* The vector that an interrupt takes is the highest one that was pending. */
static void takes_highest(const vp_seen *was, const vp_seen *is) {
    const uint8_t vector = reply->output[0];
    for (size_t i = 0; i < 4; i++) {
        const uint64_t bit = vector / 64 == i ? UINT64_C(1) << vector % 64 : 0;
        must((was->pending[i] ^ is->pending[i]) == bit, "another vector was taken");
        const uint64_t above = i > vector / 64 ? UINT64_MAX : i == vector / 64 ? ~(bit | (bit - 1)) : 0;
        must((was->pending[i] & above) == 0, "a higher vector was pending");
    }
}

/* What changed at a processor, as an effect at it. Nothing is left of the kind where nothing did. */
static void wants_synic(const vp_seen *was, const vp_seen *is, const taken *what, hvpm_effect *wanted) {
    hvpm_effect at = {.kind = HVPM_EFFECT_SYNIC, .vp = is->at.vp, .partition = is->at.partition};
    for (size_t sint = 0; sint < 16; sint++) {
        const uint8_t *const before = was->slots[sint], *const now = is->slots[sint];
        if (memcmp(was->flags[sint], is->flags[sint], 256) != 0) wants_flag(was, is, sint, &at);
        if (is_other_message(before, now)) {
            at.shown |= (uint16_t)(1u << sint);
            if (is_message(now)) raise(is, sint, at.raised);
            if (is_message(before)) at.freed = 1, memcpy(&at.port, before + 8, 4);
        } else if (before[5] != now[5]) {
            must(now[5] == 1 && what->code == 0x5C, "MessagePending changed without a message");
            at.waiting |= (uint16_t)(1u << sint);
        }
    }
    uint64_t turned = 0;
    for (size_t i = 0; i < 4; i++) {
        must((at.raised[i] & ~is->pending[i]) == 0, "a vector that was raised isn't pending");
        turned |= (was->pending[i] | at.raised[i]) ^ is->pending[i];
    }
    if (what->is_take && turned != 0) takes_highest(was, is);
    must(turned == 0 || what->is_take, "vectors changed that no SINT raised");
    if (at.shown == 0 && at.waiting == 0 && at.flag_is == 0 && turned == 0) return;
    must(wanted->kind == HVPM_EFFECT_NOTHING, "two processors changed");
    *wanted = at;
}

static bool is_ready(const vp_seen *vp) {
    return (vp->msrs[1] & vp->msrs[4] & 1) != 0; /* SCONTROL and SIMP */
}

/* A post that shows nothing made a message wait, also where MessagePending was set before. */
static void wants_post(const state *was, const taken *what, hvpm_effect *wanted) {
    const partition_seen *const caller = find_partition(was, what->by.partition);
    must(caller && what->connection < LINKS && caller->has_connection[what->connection], "no connection");
    const hvpm_connection *const connection = &caller->connections[what->connection];
    const partition_seen *const owner = find_partition(was, connection->port_partition);
    must(owner && connection->port < LINKS && owner->has_port[connection->port], "no port");
    const hvpm_port *const port = &owner->ports[connection->port];
    const vp_seen *vp = NULL;
    for (size_t i = 0; i < was->vps && !vp; i++)
        if (was->vp[i].at.partition == owner->id && is_ready(&was->vp[i]) &&
            (port->vp == HVPM_ANY_VP || port->vp == was->vp[i].at.vp))
            vp = &was->vp[i];
    must(vp != NULL, "no processor is ready for the message");
    const uint16_t bit = (uint16_t)(1u << port->sint);
    if (is_message(vp->slots[port->sint])) {
        const hvpm_caller at = vp->at;
        *wanted = (hvpm_effect){
            .kind = HVPM_EFFECT_SYNIC, .vp = at.vp, .partition = at.partition, .waiting = bit};
    } else {
        must(wanted->kind == HVPM_EFFECT_SYNIC && wanted->partition == owner->id &&
                 wanted->vp == vp->at.vp && wanted->shown == bit,
             "a message isn't shown where it was posted");
    }
}

static void wants_processors(const state *was, const state *is, const taken *what, hvpm_effect *wanted) {
    size_t changed = 0;
    for (int turn = 0; turn < 2; turn++) {
        const state *const in = turn ? is : was, *const other = turn ? was : is;
        for (size_t i = 0; i < in->vps; i++) {
            const hvpm_caller at = in->vp[i].at;
            if (find_vp(other, at.partition, at.vp)) continue;
            must(changed++ == 0 || wanted->partition == at.partition, "processors of two partitions changed");
            wanted->partition = at.partition, wanted->vp = at.vp;
        }
    }
    if (changed == 0) return;
    wanted->kind = what->code == 0x42 ? HVPM_EFFECT_PARTITION : HVPM_EFFECT_PROCESSOR;
    must(changed == 1 || what->code == 0x42, "two processors changed");
    const vp_seen *const made = find_vp(is, wanted->partition, wanted->vp);
    static const vp_seen none;
    must(!made || (memcmp(made->slots, none.slots, sizeof none.slots + sizeof none.flags) == 0 &&
                   memcmp(made->pending, none.pending, sizeof none.pending) == 0),
         "a new processor has something");
}

/* Deposits and withdrawals name their page, also one that only enters or leaves its partition's pool. */
static void wants_pages(const state *was, const state *is, const taken *what, hvpm_effect *wanted) {
    for (uint64_t page = 0; page < PAGES; page++) {
        if (was->owners[page] == is->owners[page]) continue;
        must(what->code == 0x43 || wanted->kind == HVPM_EFFECT_NOTHING, "two pages changed");
        wanted->kind = what->code == 0x43 ? HVPM_EFFECT_PAGES : HVPM_EFFECT_PAGE;
        wanted->partition = is->owners[page];
        wanted->page = what->code == 0x43 ? was->owners[page] : page;
    }
    if (what->code != 0x48 && what->code != 0x49) return;
    const hvpm_effect *const told = &reply->effect;
    const bool is_pooled = what->code == 0x48;
    must(wanted->kind == HVPM_EFFECT_NOTHING || told->page == wanted->page, "another page is named");
    must(told->page < PAGES && is->owners[told->page] == told->partition, "the page isn't there");
    if (!is_pooled) must(hvpm_number(reply->output) == told->page, "another page is put out");
    const partition_seen *before, *now;
    const uint64_t pool = is_pooled ? told->partition : was->owners[told->page];
    before = find_partition(was, pool), now = find_partition(is, pool);
    must(before && now && before->row.pooled + is_pooled - !is_pooled == now->row.pooled,
         "the pool is as it was");
    wanted->kind = HVPM_EFFECT_PAGE;
    wanted->page = told->page, wanted->partition = told->partition, wanted->pooled = is_pooled;
}

static bool is_effect(const hvpm_effect *told, const hvpm_effect *wanted) {
    if (told->kind != wanted->kind) return false;
    switch (wanted->kind) {
    case HVPM_EFFECT_SYNIC:
        return told->partition == wanted->partition && told->vp == wanted->vp &&
               told->shown == wanted->shown && told->waiting == wanted->waiting &&
               told->flag_is == wanted->flag_is && told->freed == wanted->freed &&
               (!wanted->freed || told->port == wanted->port) &&
               (!wanted->flag_is || (told->flag == wanted->flag && told->flag_sint == wanted->flag_sint)) &&
               memcmp(told->raised, wanted->raised, sizeof told->raised) == 0;
    case HVPM_EFFECT_PAGE:
        return told->page == wanted->page && told->partition == wanted->partition &&
               told->pooled == wanted->pooled;
    case HVPM_EFFECT_PAGES: return told->page == wanted->page && told->partition == wanted->partition;
    case HVPM_EFFECT_PROCESSOR: return told->partition == wanted->partition && told->vp == wanted->vp;
    case HVPM_EFFECT_PARTITION: return told->partition == wanted->partition;
    default: return true;
    }
}

static void print_effect(const char *name, const hvpm_effect *it) {
    fprintf(stderr,
            "  %s: kind %" PRIu32 ", vp %" PRIu32 ", partition %" PRIu64 ", page %" PRIu64 ", raised %" PRIx64
            " %" PRIx64 " %" PRIx64 " %" PRIx64 ", shown %04x, waiting %04x, flag %u.%u is %u"
            ", freed %u of %" PRIu32 ", pooled %u\n",
            name, it->kind, it->vp, it->partition, it->page, it->raised[0], it->raised[1], it->raised[2],
            it->raised[3], it->shown, it->waiting, it->flag_sint, it->flag, it->flag_is, it->freed, it->port,
            it->pooled);
}

/* Whether the reply's effect is what changed between the two states. */
static void compare(const state *was, const state *is, const taken *what) {
    hvpm_effect wanted = {.kind = HVPM_EFFECT_NOTHING};
    const bool is_served = reply->kind == HVPM_REPLY_SERVED || reply->kind == HVPM_REPLY_MORE;
    if (is_served && !what->is_read) {
        wants_pages(was, is, what, &wanted);
        wants_processors(was, is, what, &wanted);
        for (size_t i = 0; i < was->vps; i++) {
            const vp_seen *const now = find_vp(is, was->vp[i].at.partition, was->vp[i].at.vp);
            if (now) wants_synic(&was->vp[i], now, what, &wanted);
        }
        if (what->code == 0x5C) wants_post(was, what, &wanted);
    } else {
        must(is_same(was, is), is_served ? "a read changed something" : "a refused event changed something");
    }
    if (is_effect(&reply->effect, &wanted)) return;
    print_effect("wanted", &wanted);
    print_effect("told", &reply->effect);
    must(false, "the effect isn't what changed");
}

#endif
