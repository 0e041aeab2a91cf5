/*
 * hvpm_pages.h: keeps a processor's message page (SIMP) and event flags page (SIEFP) in step with the
 * machine.
 *
 * The guest reads and writes both pages without an exit, so no event tells the library what the guest took
 * (TLFS 4.0, "Inter-Partition Communication"). Call these functions around each event. Each processor has an
 * hvpm_pages, to which `p` points:
 *
 *     hvpm_pages_before(&machine, p);                 // before EOM and HvSetVpRegisters: p of that processor;
 *                                                     // before a post: each p of the port's partition
 *     hvpm_hypercall(&machine, ..., &reply, ...);     // the event that the guest exited for
 *     hvpm_pages_move(&machine, p, messages, flags);  // only after a write of SIMP or SIEFP
 *     hvpm_pages_after(&machine, p, &reply.effect);   // after each event: the p that the effect names
 *     while (hvpm_pages_vector(&machine, p, &vector) == HVPM_STATUS_OK && vector != 0) inject(p, vector);
 *
 * All of one exit is one critical section: hold the lock of the handle until the last vector is injected.
 * docs/EMBEDDING.md has a complete VMM.
 *
 * The functions make events in the guest's place: in the audit and in a record of the machine these are the
 * guest's own. Each function returns HVPM_STATUS_OK. If a call of the library fails, the function stops there
 * and returns that status.
 */
#ifndef HVPM_PAGES_H
#define HVPM_PAGES_H

#include "hvpm.h"

/* A slot of the message page. The guest and the VMM access `type` and `flags` concurrently, by atomics. */
typedef struct hvpm_slot {
    uint32_t type;     /* message type; 0 if the slot is free. The guest writes 0 to free it */
    uint8_t size;      /* number of bytes of the payload */
    uint8_t flags;     /* bit 0: MessagePending */
    uint8_t zero[2];
    uint64_t port;     /* id of the port through which the message came */
    uint8_t payload[240];
} hvpm_slot;
HVPM_HOLDS(sizeof(hvpm_slot) == 256 && offsetof(hvpm_slot, flags) == 5 && offsetof(hvpm_slot, payload) == 16);

/*
 * The pages of a processor. Initialize it with zeros, then set `of`. Later you may set `freed` to false. Write
 * no other field.
 */
typedef struct hvpm_pages {
    hvpm_caller of;        /* the processor */
    hvpm_slot *messages;   /* message page: 16 slots; NULL if the processor has none */
    uint8_t *flags;        /* event flags page: 256 bytes for each of 16 SINTs; NULL if it has none */
    uint16_t shown;        /* bit s is 1 if the message that the library shows at SINT s is in the page */
    bool freed;            /* a message left its slot, so a post that P23 refused may be repeated */
    uint64_t raised[4];    /* vectors raised and not taken yet; vector v is bit v % 64 of raised[v / 64] */
    uint8_t untaken[4096]; /* the previous event flags page, with the flags that the guest didn't take */
} hvpm_pages;

/*
 * Clears in the library the slots that the guest freed in the page. Until then, the library still shows their
 * messages: a post would wait behind them, EOM would show no other, and P23 would count them. Calls the
 * library only if the guest freed a slot.
 */
HVPM_RESULT uint32_t hvpm_pages_before(hvpm_machine *machine, hvpm_pages *pages) {
    hvpm_reply reply;
    for (uint32_t sint = 0; pages->messages && pages->shown >> sint != 0; sint++) {
        if (!(pages->shown >> sint & 1) ||
            __atomic_load_n(&pages->messages[sint].type, __ATOMIC_SEQ_CST) != 0)
            continue;
        const uint32_t status = hvpm_clear_slot(machine, pages->of, (uint8_t)sint, &reply, NULL, 0);
        if (status != HVPM_STATUS_OK) return status;
        pages->shown &= (uint16_t)~(1u << sint);
        pages->freed = true;
    }
    return HVPM_STATUS_OK;
}

/*
 * Helper: copies slots from the library to the page; bit s of `sints` is SINT s. The guest has freed them:
 * otherwise the library would still show the previous message.
 */
static inline uint32_t hvpm_pages_show(hvpm_machine *machine, hvpm_pages *pages, uint32_t sints) {
    for (uint32_t sint = 0; pages->messages && sint < 16; sint++) {
        uint8_t bytes[256];
        uint32_t type;
        hvpm_slot *const slot = &pages->messages[sint];
        if (!(sints >> sint & 1)) continue;
        const uint32_t status = hvpm_peek_slot(machine, pages->of, (uint8_t)sint, bytes);
        if (status != HVPM_STATUS_OK) return status;
        __builtin_memcpy(&type, bytes, sizeof type);
        if (type != 0) {
            slot->size = bytes[4];
            __builtin_memcpy(&slot->port, bytes + 8, sizeof slot->port);
            __builtin_memcpy(slot->payload, bytes + 16, sizeof slot->payload);
            /* Atomic: the guest may still look for MessagePending of the message that it freed. */
            __atomic_store_n(&slot->flags, bytes[5], __ATOMIC_RELAXED);
        }
        /* Last: the guest polls the type, and reads the rest as soon as it isn't 0. */
        __atomic_store_n(&slot->type, type, __ATOMIC_RELEASE);
        pages->shown = (uint16_t)((pages->shown & ~(1u << sint)) | (uint32_t)(type != 0) << sint);
    }
    return HVPM_STATUS_OK;
}

/*
 * Helper: moves an event flag from the library to the page, where the guest clears it, atomically and without
 * an exit. The library must not keep it: signaling a flag that is set raises no vector, and the guest would
 * wait forever.
 */
static inline uint32_t hvpm_pages_flag(hvpm_machine *machine, hvpm_pages *pages, uint32_t sint,
                                     uint32_t flag) {
    hvpm_reply reply;
    __atomic_fetch_or(&pages->flags[256 * sint + flag / 8], (uint8_t)(1u << flag % 8), __ATOMIC_SEQ_CST);
    return hvpm_clear_flag(machine, pages->of, (uint8_t)sint, (uint16_t)flag, &reply, NULL, 0);
}

/*
 * Helper: updates the pages after an event. `*needs_eom` is whether a message waits behind a slot that the guest
 * freed meanwhile: it may have looked for MessagePending too early, and then it writes no EOM.
 */
static inline uint32_t hvpm_pages_update(hvpm_machine *machine, hvpm_pages *pages, const hvpm_effect *effect,
                                         bool *needs_eom) {
    *needs_eom = false;
    const bool is_all = effect->kind == HVPM_EFFECT_PARTITION,
               is_new = is_all || effect->kind == HVPM_EFFECT_PROCESSOR;
    if (!is_new && effect->kind != HVPM_EFFECT_SYNIC) return HVPM_STATUS_OK;
    if (effect->partition != pages->of.partition || (!is_all && effect->vp != pages->of.vp))
        return HVPM_STATUS_OK;
    if (is_new) { /* the processor was deleted, or created with SIMP and SIEFP disabled */
        pages->messages = NULL, pages->flags = NULL, pages->shown = 0, pages->freed = true;
        __builtin_memset(pages->raised, 0, sizeof pages->raised);
        __builtin_memset(pages->untaken, 0, sizeof pages->untaken);
        return HVPM_STATUS_OK;
    }
    for (size_t i = 0; i < 4; i++) pages->raised[i] |= effect->raised[i];
    pages->freed |= effect->freed != 0;
    uint32_t status = HVPM_STATUS_OK;
    if (pages->flags && effect->flag_is == HVPM_FLAG_SET)
        status = hvpm_pages_flag(machine, pages, effect->flag_sint, effect->flag);
    if (status == HVPM_STATUS_OK) status = hvpm_pages_show(machine, pages, effect->shown);
    const uint32_t waiting = pages->messages ? effect->waiting & pages->shown : 0;
    if (status != HVPM_STATUS_OK || waiting == 0) return status;
    /* Set MessagePending. The guest looks for it after it frees the slot, and then writes EOM. */
    for (uint32_t sint = 0; sint < 16; sint++)
        if (waiting >> sint & 1)
            __atomic_fetch_or(&pages->messages[sint].flags, (uint8_t)1, __ATOMIC_SEQ_CST);
    status = hvpm_pages_before(machine, pages);
    *needs_eom = (waiting & ~(uint32_t)pages->shown) != 0;
    return status;
}

/* Updates the pages after an event. Does nothing if the effect doesn't name their processor. */
HVPM_RESULT uint32_t hvpm_pages_after(hvpm_machine *machine, hvpm_pages *pages, const hvpm_effect *effect) {
    hvpm_reply eom;
    for (bool needs_eom;; effect = &eom.effect) {
        uint32_t status = hvpm_pages_update(machine, pages, effect, &needs_eom);
        if (status != HVPM_STATUS_OK || !needs_eom) return status;
        status = hvpm_write_msr(machine, pages->of, HVPM_MSR_EOM, 0, &eom, NULL, 0);
        if (status != HVPM_STATUS_OK) return status;
    }
}

/*
 * Sets the addresses of the pages after a write of SIMP or SIEFP. A page is NULL if bit 0 of its register is
 * 0, or if it isn't in the guest's memory; otherwise its address is a multiple of 4,096.
 *
 * A new message page gets the messages that the library shows, and a new event flags page gets the flags that
 * the guest hasn't taken. All other bytes become zero. Without an event flags page, flags wait for the next
 * one. If the function fails, the old and the new pages stay in use.
 */
HVPM_RESULT uint32_t hvpm_pages_move(hvpm_machine *machine, hvpm_pages *pages, void *messages,
                                     void *flags) {
    uint8_t bytes[256], *const from = pages->flags, *const to = (uint8_t *)flags;
    /* Otherwise a message that the guest freed would appear again. */
    uint32_t status = hvpm_pages_before(machine, pages);
    if (status == HVPM_STATUS_OK && messages != pages->messages) {
        pages->messages = (hvpm_slot *)messages, pages->shown = 0;
        if (messages) __builtin_memset(messages, 0, 4096);
        status = hvpm_pages_show(machine, pages, 0xFFFF);
    }
    if (status != HVPM_STATUS_OK || to == from) return status;
    for (size_t i = 0; i < 4096; i++) {
        if (from) pages->untaken[i] = __atomic_load_n(&from[i], __ATOMIC_RELAXED);
        if (to) to[i] = pages->untaken[i];
    }
    pages->flags = to;
    /* Flags that were set while there was no page. */
    for (uint32_t at = 0; to && status == HVPM_STATUS_OK && at < 4096; at++) {
        if (at % 256 == 0) status = hvpm_peek_flags(machine, pages->of, (uint8_t)(at / 256), bytes);
        for (uint32_t bit = 0; status == HVPM_STATUS_OK && bytes[at % 256] >> bit != 0; bit++)
            if (bytes[at % 256] >> bit & 1)
                status = hvpm_pages_flag(machine, pages, at / 256, at % 256 * 8 + bit);
    }
    return status;
}

/*
 * Takes the highest vector that was raised and stores it in `*vector`, or 0 if none is left. Inject it at
 * once: a processor that waits in HLT has no exit at which to ask. Calls the library only if a vector was
 * raised.
 */
HVPM_RESULT uint32_t hvpm_pages_vector(hvpm_machine *machine, hvpm_pages *pages, uint8_t *vector) {
    hvpm_reply reply;
    *vector = 0;
    if ((pages->raised[0] | pages->raised[1] | pages->raised[2] | pages->raised[3]) == 0)
        return HVPM_STATUS_OK;
    const uint32_t status = hvpm_take_interrupt(machine, pages->of, &reply, NULL, 0);
    if (status != HVPM_STATUS_OK) return status;
    *vector = reply.kind == HVPM_REPLY_SERVED ? reply.output[0] : 0;
    if (*vector == 0) __builtin_memset(pages->raised, 0, sizeof pages->raised);
    pages->raised[*vector / 64] &= ~(UINT64_C(1) << *vector % 64);
    return HVPM_STATUS_OK;
}

#endif
