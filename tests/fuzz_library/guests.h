/*
 * Guests for fuzz.c, whose processors read and write pages: the second machine keeps these by hvpm_pages.h,
 * and the first one has an event for all that a guest does.
 */
#ifndef GUESTS_H
#define GUESTS_H

#include "machines.h"

#include "hvpm_pages.h"

enum { GUESTS = 4, PAGE = 4096 };

static struct guest {
    hvpm_pages pages;
    uint32_t race; /* the SINT that the guest frees between the next event and hvpm_pages_after(), plus 1 */
} guests[GUESTS];

/* Two message pages and two event flags pages for each. */
static uint8_t memory[GUESTS][4][PAGE] __attribute__((aligned(PAGE)));

static void begin_guests(void) {
    static const hvpm_caller of[GUESTS] = {{1, 0}, {1, 1}, {2, 0}, {2, 1}};
    memset(guests, 0, sizeof guests), memset(memory, 0xA5, sizeof memory);
    for (size_t i = 0; i < GUESTS; i++) guests[i].pages.of = of[i];
}

/* The guest of a processor, or NULL if its pages aren't kept. */
static struct guest *guest_of(hvpm_caller of) {
    for (size_t i = 0; by_pages && i < GUESTS; i++)
        if (guests[i].pages.of.partition == of.partition && guests[i].pages.of.vp == of.vp) return &guests[i];
    return NULL;
}

/* The first machine takes an event that the second one doesn't, or later. */
static hvpm_reply alone(uint32_t status, const hvpm_reply *reply) {
    is_ok(status);
    return *reply;
}

/* ---- What a guest does ---- */

/* Frees the message of a SINT, if its page has one. Returns whether it has. */
static bool free_slot(struct guest *it, uint32_t sint) {
    hvpm_reply reply;
    if (sint > 15 || !it->pages.messages || it->pages.messages[sint].type == 0) return false;
    it->pages.messages[sint].type = 0;
    alone(hvpm_clear_slot(&one, it->pages.of, (uint8_t)sint, &reply, NULL, 0), &reply);
    must(reply.kind == HVPM_REPLY_SERVED && reply.effect.freed == 1, "a message isn't freed");
    return true;
}

/* Takes an event flag of a SINT, if its page has it. */
static void take_flag(struct guest *it, uint32_t sint, uint32_t flag) {
    hvpm_reply reply;
    if (sint > 15 || flag > 2047 || !it->pages.flags) return;
    uint8_t *const at = &it->pages.flags[256 * sint + flag / 8], bit = (uint8_t)(1u << flag % 8);
    if (!(*at & bit)) return;
    *at &= (uint8_t)~bit;
    alone(hvpm_clear_flag(&one, it->pages.of, (uint8_t)sint, (uint16_t)flag, &reply, NULL, 0), &reply);
    must(reply.kind == HVPM_REPLY_SERVED && reply.effect.flag_is == HVPM_FLAG_CLEARED,
         "a flag isn't cleared");
}

/* The guest frees a message after the event and before hvpm_pages_after(). If another one waits there, the
 * first machine needs an EOM, which the functions of hvpm_pages.h make by themselves. */
static void race(struct guest *it, const hvpm_effect *effect) {
    const uint32_t sint = it->race - 1;
    hvpm_reply reply;
    if (it->race == 0) return;
    it->race = 0;
    const bool is_here = effect->kind == HVPM_EFFECT_SYNIC && effect->partition == it->pages.of.partition &&
                         effect->vp == it->pages.of.vp;
    const bool waits = is_here && sint < 16 && (effect->waiting >> sint & 1);
    if (waits && free_slot(it, sint))
        alone(hvpm_write_msr(&one, it->pages.of, EOM, 0, &reply, NULL, 0), &reply);
}

/* ---- Around each event ---- */

static void before_event(void) {
    for (size_t i = 0; by_pages && i < GUESTS; i++) is_ok(hvpm_pages_before(&two, &guests[i].pages));
}

/* The page of a register: the bits 63:12 choose one of two. */
static uint8_t *page_at(uint32_t msr, size_t guest) {
    uint64_t value = 0;
    const uint32_t status = hvpm_peek_msr(&two, guests[guest].pages.of, msr, &value);
    if (status != HVPM_STATUS_OK || !(value & 1)) return NULL;
    return memory[guest][2 * (msr == SIEFP) + (value >> 12 & 1)];
}

static void after_event(const hvpm_effect *effect) {
    for (size_t i = 0; by_pages && i < GUESTS; i++) {
        hvpm_pages *const pages = &guests[i].pages;
        uint8_t *const messages = page_at(SIMP, i), *const flags = page_at(SIEFP, i);
        uint64_t none;
        race(&guests[i], effect);
        const bool is_there = hvpm_peek_msr(&two, pages->of, SIMP, &none) == HVPM_STATUS_OK;
        if (is_there && (messages != (uint8_t *)pages->messages || flags != pages->flags) &&
            effect->kind != HVPM_EFFECT_PROCESSOR)
            is_ok(hvpm_pages_move(&two, pages, messages, flags));
        is_ok(hvpm_pages_after(&two, pages, effect));
        must((uint8_t *)pages->messages == messages && pages->flags == flags, "another page is in use");
    }
}

/* ---- What a guest sees ---- */

/* Takes all vectors of both. Each of the first machine is one of the second, which raises the vector of a
 * flag again if the guest has it in its page. */
static void same_vectors(const struct guest *of, hvpm_pages *pages) {
    bool is_raised[256] = {false};
    uint8_t vector = 1;
    hvpm_reply reply;
    while (vector != 0) {
        is_ok(hvpm_pages_vector(&two, pages, &vector));
        is_raised[vector] = true;
    }
    for (;;) {
        alone(hvpm_take_interrupt(&one, of->pages.of, &reply, NULL, 0), &reply);
        if (reply.kind != HVPM_REPLY_SERVED || reply.output[0] == 0) return;
        must(is_raised[reply.output[0]], "a vector isn't raised");
    }
}

static void same_page(const struct guest *it) {
    uint8_t seen_slot[256], seen_flags[256], kept[256];
    const uint8_t *const flags = it->pages.flags ? it->pages.flags : it->pages.untaken;
    for (uint8_t sint = 0; sint < 16; sint++) {
        if (hvpm_peek_slot(&one, it->pages.of, sint, seen_slot) != HVPM_STATUS_OK) return;
        is_ok(hvpm_peek_slot(&two, it->pages.of, sint, kept));
        must((it->pages.shown >> sint & 1) == (it->pages.messages && number_at(kept, 4) != 0),
             "not as shown");
        const hvpm_slot *const slot = it->pages.messages ? &it->pages.messages[sint] : NULL;
        if (slot && slot->type == 0) must(number_at(seen_slot, 4) == 0, "a message isn't in the page");
        if (slot && slot->type != 0) must(memcmp(slot, seen_slot, sizeof *slot) == 0, "another message");
        is_ok(hvpm_peek_flags(&one, it->pages.of, sint, seen_flags));
        is_ok(hvpm_peek_flags(&two, it->pages.of, sint, kept));
        for (size_t i = 0; i < sizeof kept; i++) {
            must(seen_flags[i] == (kept[i] | flags[256 * sint + i]), "other event flags");
            must(!it->pages.flags || kept[i] == 0, "the machine keeps a flag");
        }
    }
}

static void same_guests(void) {
    for (size_t i = 0; by_pages && i < GUESTS; i++) {
        same_vectors(&guests[i], &guests[i].pages);
        same_page(&guests[i]);
    }
}

/* For same_looks(). */
static void same_processor(hvpm_caller of) {
    if (guest_of(of)) same_page(guest_of(of));
    else same_synic(of);
}

#endif
