/*
 * The guests' message and event flags pages, for tests/embed/whole_state.c. hvpm_pages.h keeps the pages of
 * each processor, while its guest frees slots and takes flags at random. After each step each byte of them is
 * what looks and the guest make of it, and so is each field of an hvpm_pages. Each function makes the events
 * that it needs, and no other. Now and then the machine is used up before the last of them: then the function
 * stops there, and nothing is lost.
 */
#ifndef GUESTS_H
#define GUESTS_H

#include "changes.h"
#include "hvpm_pages.h"

enum { PAGE = 4096, GUESTS = 64 };

/* The two places of a guest's page, what must be in them, and which one is in use: -1 for none. */
typedef struct place {
    uint8_t *at[2], wanted[2][PAGE];
    int in_use;
} place;

typedef struct guest {
    hvpm_pages pages;
    place messages, flags;
    uint8_t untaken[PAGE];
    uint64_t raised[4];
    vp_seen seen; /* its processor, as the last look showed it */
    bool is_there, freed;
} guest;

static guest guests[GUESTS];
static bool has_guests;
static struct {
    uint64_t calls, failures, freed, flags, late, moves;
} paged; /* what was tried */

static uint64_t draw(uint64_t below);
static bool chance(uint64_t one_in);

static uint8_t *page_of(const place *of, int number) {
    return number < 0 ? NULL : of->at[number];
}

static uint32_t count(uint32_t bits) {
    return (uint32_t)__builtin_popcount(bits);
}

/* ---- What must be ---- */

static uint8_t *wanted_slot(guest *at, uint32_t sint) {
    return at->messages.in_use < 0 ? NULL : at->messages.wanted[at->messages.in_use] + 256 * sint;
}

/* The SINTs whose message the guest freed in its page, while the library shows it. */
static uint32_t freed_in_page(guest *at) {
    uint32_t freed = 0;
    for (uint32_t sint = 0; at->messages.in_use >= 0 && sint < 16; sint++)
        if (is_message(at->seen.slots[sint]) && !is_message(wanted_slot(at, sint))) freed |= 1u << sint;
    return freed;
}

static uint64_t flags_of(const vp_seen *seen) {
    uint64_t flags = 0;
    for (uint32_t i = 0; i < PAGE; i++) flags += count(seen->flags[i / 256][i % 256]);
    return flags;
}

static void add_flags(uint8_t *to, const vp_seen *seen) {
    for (uint32_t i = 0; i < PAGE; i++) to[i] |= seen->flags[i / 256][i % 256];
}

/* What a look shows goes to the page: a message that came, MessagePending, and none where one went. */
static void want(guest *at, const vp_seen *now) {
    for (uint32_t sint = 0; sint < 16; sint++) {
        const uint8_t *const was = at->seen.slots[sint], *const is = now->slots[sint];
        uint8_t *const slot = wanted_slot(at, sint);
        const bool is_other = is_other_message(was, is);
        at->freed |= is_message(was) && is_other;
        if (!slot) continue;
        if (!is_message(is)) memset(slot, 0, 4);
        else if (is_other) memcpy(slot, is, 256);
        else slot[5] = is[5];
    }
    if (at->flags.in_use >= 0) add_flags(at->flags.wanted[at->flags.in_use], now);
    at->seen = *now;
}

static void is_as_wanted(const place *of, const char *what) {
    for (int i = 0; i < 2; i++) must(memcmp(of->at[i], of->wanted[i], PAGE) == 0, what);
}

/* Looks at a guest's processor, and compares its pages. After a failure some flags are in the library. */
static void settle_guest(guest *at, bool has_failed) {
    static vp_seen now;
    uint16_t shown = 0;
    must(is_shown(hvpm_peek_pending(machine, at->pages.of, seen_numbers)), "a guest's processor is gone");
    look_vp(at->pages.of, &now);
    want(at, &now);
    for (uint32_t sint = 0; at->messages.in_use >= 0 && sint < 16; sint++)
        shown |= (uint16_t)(is_message(now.slots[sint]) << sint);
    must((uint8_t *)at->pages.messages == page_of(&at->messages, at->messages.in_use) &&
             at->pages.flags == page_of(&at->flags, at->flags.in_use),
         "another page");
    must(at->pages.shown == shown, "another `shown`");
    must(at->pages.freed == at->freed, "another `freed`");
    must(memcmp(at->pages.raised, at->raised, sizeof at->raised) == 0, "another `raised`");
    is_as_wanted(&at->messages, "a byte of a message page");
    if (at->flags.in_use < 0) {
        must(memcmp(at->pages.untaken, at->untaken, PAGE) == 0, "a flag that isn't taken");
    } else if (!has_failed) {
        must(flags_of(&now) == 0, "the library keeps a flag");
    } else {
        static uint8_t all[PAGE];
        memcpy(all, at->flags.at[at->flags.in_use], PAGE);
        add_flags(all, &now);
        must(memcmp(all, at->flags.wanted[at->flags.in_use], PAGE) == 0, "a flag is lost");
        return;
    }
    is_as_wanted(&at->flags, "a byte of an event flags page");
}

/* ---- Who is there ---- */

static void reset(guest *at) {
    at->messages.in_use = at->flags.in_use = -1;
    memset(at->untaken, 0, PAGE), memset(at->raised, 0, sizeof at->raised);
    memset(&at->seen, 0, sizeof at->seen);
    at->freed = true;
}

static guest *guest_of(hvpm_caller of) {
    guest *found = NULL;
    for (size_t i = 0; i < GUESTS; i++) {
        const hvpm_caller by = guests[i].pages.of;
        if (by.partition == of.partition && by.vp == of.vp) return &guests[i];
        if (!guests[i].is_there) found = &guests[i];
    }
    must(found != NULL, "too few guests");
    memset(&found->pages, 0, sizeof found->pages);
    found->pages.of = of;
    for (int i = 0; i < 2 && !found->flags.at[1]; i++) {
        found->messages.at[i] = guarded(PAGE), found->flags.at[i] = guarded(PAGE);
        memset(found->messages.at[i], 0xA5, PAGE), memset(found->messages.wanted[i], 0xA5, PAGE);
        memset(found->flags.at[i], 0x5A, PAGE), memset(found->flags.wanted[i], 0x5A, PAGE);
    }
    return found;
}

/* A machine has booted. Its processors have no pages. */
static void begin_guests(void) {
    for (size_t i = 0; i < GUESTS; i++)
        memset(&guests[i].pages, 0, sizeof guests[i].pages), guests[i].is_there = false;
    for (size_t i = 0; has_guests && i < was_state.vps; i++) {
        guest *const at = guest_of(was_state.vp[i].at);
        reset(at);
        at->freed = false, at->is_there = true, at->seen = was_state.vp[i];
    }
}

/* ---- The functions ---- */

enum step { BEFORE, MOVE, AFTER, VECTOR, MAKE_EOM };

/* What a function is given. */
static struct {
    hvpm_effect effect;
    uint8_t *messages, *flags, vector;
} given;

static uint32_t step_of(guest *at, enum step step) {
    switch (step) {
    case BEFORE: return hvpm_pages_before(machine, &at->pages);
    case MOVE: return hvpm_pages_move(machine, &at->pages, given.messages, given.flags);
    case AFTER: return hvpm_pages_after(machine, &at->pages, &given.effect);
    case VECTOR: return hvpm_pages_vector(machine, &at->pages, &given.vector);
    default: return hvpm_write_msr(machine, at->pages.of, EOM, 0, reply, NULL, 0);
    }
}

/* Calls a function on a machine that is used up after so many events more. It makes each of them. */
static void call_step(guest *at, enum step step, uint64_t most, uint32_t wanted) {
    const uint64_t events = machine->events;
    paged.calls++;
    machine->events = UINT64_MAX - most;
    const uint32_t status = step_of(at, step);
    const uint64_t left = UINT64_MAX - machine->events;
    machine->events = events + most;
    must(status == wanted, wanted == HVPM_STATUS_OK ? "pages make other events" : "pages don't fail");
    must(left == 0, "pages make fewer events");
}

/* Calls a function that needs so many events. Answers how many it made, which are fewer where it fails. */
static uint64_t try_step(guest *at, enum step step, uint64_t needs) {
    const bool has_failed = needs > 0 && chance(4);
    const uint64_t most = has_failed ? draw(needs) : needs;
    paged.failures += has_failed;
    call_step(at, step, most, has_failed ? HVPM_STATUS_USED_UP : HVPM_STATUS_OK);
    return most;
}

static void before(guest *at) {
    uint64_t needs;
    do {
        needs = count(freed_in_page(at));
        needs -= try_step(at, BEFORE, needs);
        settle_guest(at, needs != 0);
    } while (needs != 0);
    must(freed_in_page(at) == 0, "a slot that the guest freed isn't cleared");
}

/* A new message page has what the library shows and the guest didn't free. */
static void want_messages(guest *at, int to) {
    const uint32_t freed = freed_in_page(at);
    if (to == at->messages.in_use) return;
    at->messages.in_use = to;
    if (to >= 0) memset(at->messages.wanted[to], 0, PAGE);
    for (uint32_t sint = 0; to >= 0 && sint < 16; sint++)
        if (!(freed >> sint & 1)) memcpy(wanted_slot(at, sint), at->seen.slots[sint], 256);
}

/* A new event flags page has what the guest didn't take, and what the library has. Answers of how many. */
static uint64_t want_flags(guest *at, int to) {
    if (to == at->flags.in_use) return 0;
    if (at->flags.in_use >= 0) memcpy(at->untaken, at->flags.wanted[at->flags.in_use], PAGE);
    at->flags.in_use = to;
    if (to < 0) return 0;
    memcpy(at->flags.wanted[to], at->untaken, PAGE);
    add_flags(at->flags.wanted[to], &at->seen);
    return flags_of(&at->seen);
}

/* SIMP or SIEFP was written. */
static void move(guest *at, int messages, int flags) {
    const uint64_t freed = count(freed_in_page(at)),
                   left = flags >= 0 && flags != at->flags.in_use ? flags_of(&at->seen) : 0;
    given.messages = page_of(&at->messages, messages), given.flags = page_of(&at->flags, flags);
    const uint64_t made = try_step(at, MOVE, freed + left);
    paged.moves++;
    if (made < freed) {
        settle_guest(at, true);
        move(at, messages, flags);
        return;
    }
    want_messages(at, messages), want_flags(at, flags);
    settle_guest(at, made < freed + left);
    if (made == freed + left) return;
    /* Both pages are in use. To get the flags that are left, that of the flags goes and comes. */
    given.flags = NULL;
    call_step(at, MOVE, 0, HVPM_STATUS_OK);
    given.flags = page_of(&at->flags, flags);
    call_step(at, MOVE, flags_of(&at->seen), HVPM_STATUS_OK);
    settle_guest(at, false);
}

/* The event that the effect tells has happened. */
static void after(guest *at, hvpm_effect effect) {
    const bool is_here = effect.kind == HVPM_EFFECT_SYNIC && effect.partition == at->pages.of.partition &&
                         effect.vp == at->pages.of.vp;
    const uint32_t waiting = is_here && at->messages.in_use >= 0 ? effect.waiting : 0,
                   freed = waiting ? freed_in_page(at) : 0;
    const bool has_flag = is_here && at->flags.in_use >= 0 && effect.flag_is == HVPM_FLAG_SET;
    for (size_t i = 0; i < 4; i++) at->raised[i] |= is_here ? effect.raised[i] : 0;
    for (uint32_t sint = 0; sint < 16; sint++)
        if (waiting >> sint & 1) wanted_slot(at, sint)[5] |= 1;
    const bool is_late = (waiting & freed) != 0;
    const uint64_t needs = has_flag + count(freed) + is_late;
    given.effect = effect;
    paged.late += is_late;
    const uint64_t made = try_step(at, AFTER, needs);
    if (is_late && made == needs) {
        /* EOM shows the next message of each empty slot, and raises. */
        must(is_shown(hvpm_peek_pending(machine, at->pages.of, seen_numbers)), "no processor");
        for (size_t i = 0; i < 4; i++) at->raised[i] |= seen_numbers[i];
    }
    settle_guest(at, made < needs);
    must((is_late ? (waiting & ~at->pages.shown) : freed_in_page(at) & freed) == 0 || made < needs,
         "a message waits for good");
    if (made == needs) return;
    if (is_late && (waiting & at->pages.shown) == 0) {
        call_step(at, MAKE_EOM, 1, HVPM_STATUS_OK);
        effect = reply->effect;
    }
    if (is_late || has_flag) after(at, effect);
}

/* Takes some of the vectors. */
static void take_vectors(guest *at) {
    for (uint64_t left = chance(3) ? 0 : chance(2) ? 1 : 9; left > 0; left--) {
        uint32_t highest = 256;
        const bool is_raised = (at->raised[0] | at->raised[1] | at->raised[2] | at->raised[3]) != 0;
        while (highest-- > 0 && !(at->seen.pending[highest / 64] >> highest % 64 & 1)) continue;
        if (highest > 255 || !is_raised) highest = 0;
        given.vector = 0xA5;
        if (try_step(at, VECTOR, is_raised) < is_raised) continue;
        must(given.vector == highest, "another vector");
        at->raised[highest / 64] &= ~(UINT64_C(1) << highest % 64);
        if (highest == 0) memset(at->raised, 0, sizeof at->raised);
        settle_guest(at, false);
        if (highest == 0) return;
    }
}

/* ---- A step ---- */

/* The guest frees slots and takes flags. */
static void act(guest *at) {
    for (uint32_t sint = 0; at->messages.in_use >= 0 && sint < 16; sint++) {
        if (!is_message(wanted_slot(at, sint)) || !chance(3)) continue;
        memset(wanted_slot(at, sint), 0, 4);
        __atomic_store_n(&at->pages.messages[sint].type, 0, __ATOMIC_SEQ_CST);
        paged.freed++;
    }
    for (uint32_t i = 0; at->flags.in_use >= 0 && i < PAGE; i++) {
        uint8_t *const wanted = &at->flags.wanted[at->flags.in_use][i];
        if (*wanted == 0 || !chance(4)) continue;
        *wanted &= (uint8_t)draw(256);
        __atomic_fetch_and(&at->pages.flags[i], *wanted, __ATOMIC_SEQ_CST);
        paged.flags++;
    }
    if (chance(2)) at->freed = at->pages.freed = false;
}

/* Before an event. A post may come without a look: that is mended after it. */
static void guests_before(bool must_look, bool is_post) {
    const uint64_t events = machine->events;
    for (size_t i = 0; has_guests && i < GUESTS; i++) {
        if (!guests[i].is_there) continue;
        act(&guests[i]);
        if (must_look || chance(is_post ? 2 : 8)) before(&guests[i]);
    }
    if (has_guests && machine->events != events) look(&was_state);
}

/* The place of a page, by SIMP or SIEFP: some of these addresses aren't in the guest's memory. */
static int place_by(uint64_t msr) {
    return msr & 1 && (msr >> 12) % 4 < 2 ? (int)(msr >> 12 & 1) : -1;
}

static void guest_after(guest *at, const vp_seen *now, hvpm_effect effect) {
    const bool is_old = at->is_there && find_vp(&was_state, at->pages.of.partition, at->pages.of.vp) != NULL;
    at->is_there = now != NULL;
    if (!is_old || !now) {
        given.effect = effect;
        call_step(at, AFTER, 0, HVPM_STATUS_OK);
        reset(at);
        must(!at->pages.messages && !at->pages.flags && at->pages.shown == 0 && at->pages.freed &&
                 memcmp(at->pages.raised, at->raised, sizeof at->raised) == 0 &&
                 memcmp(at->pages.untaken, at->untaken, PAGE) == 0,
             "a processor that came or went has something");
        if (now) settle_guest(at, false);
        return;
    }
    want(at, now);
    const int messages = place_by(now->msrs[4]), flags = place_by(now->msrs[3]);
    if (messages != at->messages.in_use || flags != at->flags.in_use ||
        (effect.kind == HVPM_EFFECT_NOTHING && chance(40)))
        move(at, messages, flags);
    after(at, effect);
    take_vectors(at);
}

/* After an event, which looks showed and whose effect is right. */
static void guests_after(void) {
    const hvpm_effect effect = reply->effect;
    const uint64_t events = machine->events;
    if (!has_guests) return;
    for (size_t i = 0; i < GUESTS; i++) {
        const hvpm_caller of = guests[i].pages.of;
        if (guests[i].is_there && !find_vp(&is_state, of.partition, of.vp))
            guest_after(&guests[i], NULL, effect);
    }
    for (size_t i = 0; i < is_state.vps; i++)
        guest_after(guest_of(is_state.vp[i].at), &is_state.vp[i], effect);
    if (machine->events != events) look(&is_state);
}

static void tell_guests(void) {
    printf("pages: calls %" PRIu64 ", failed %" PRIu64 ", slots freed %" PRIu64 ", flags taken %" PRIu64
           ", messages behind a freed slot %" PRIu64 ", moves %" PRIu64 "\n",
           paged.calls, paged.failures, paged.freed, paged.flags, paged.late, paged.moves);
}

#endif
