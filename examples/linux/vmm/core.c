/*
 * The machine behind its lock. An exit is one critical section: what guests took from their message pages
 * meanwhile is told to the library, the event is taken, and its effect is delivered to the one processor that
 * it names.
 */
#include "core.h"
#include <inttypes.h>
#include <pthread.h>
#include <string.h>

struct guest guests[MAX_GUESTS];

static pthread_mutex_t lock = PTHREAD_MUTEX_INITIALIZER;
static hvpm_machine machine = HVPM_EMPTY;

/* Of the statuses only HVPM_STATUS_MEMORY may come here.
 * A VMM that lives on would stop the guest and try again; this one ends. */
static void must(uint32_t status) {
    if (status != HVPM_STATUS_OK) die("the library answers %" PRIu32, status);
}

/* ---- effects ---- */

/* Whether a SINT of the processor has this vector with AutoEOI: the vector ends as it is taken. */
static bool has_auto_eoi(const struct vcpu *vcpu, uint8_t vector) {
    bool has = false;
    for (uint32_t sint = 0; sint < 16; sint++) {
        uint64_t value = 0;
        must(hvpm_peek_msr(&machine, vcpu->pages.of, MSR_SINT0 + sint, &value));
        has |= (uint8_t)value == vector && (value >> 17 & 1);
    }
    return has;
}

/* The processor's slots and flags go into its pages, and its vectors into its interrupt controller at once:
 * one in HLT has no exit at which it would ask. */
static void deliver_to(struct vcpu *vcpu, const hvpm_effect *effect) {
    must(hvpm_pages_after(&machine, &vcpu->pages, effect));
    for (uint8_t vector;;) {
        must(hvpm_pages_vector(&machine, &vcpu->pages, &vector));
        if (vector == 0) return;
        vcpu->guest->engine->interrupt(vcpu, vector, has_auto_eoi(vcpu, vector));
    }
}

/* What an effect doesn't name is as it was before the event, so nobody else is asked. A VMM whose guests have
 * the machine's pages as their memory maps and unmaps here, by HVPM_EFFECT_PAGE and HVPM_EFFECT_PAGES; in
 * this one pages are numbers. */
static void deliver(const hvpm_effect *effect) {
    const bool is_one = effect->kind == HVPM_EFFECT_SYNIC || effect->kind == HVPM_EFFECT_PROCESSOR;
    if (!is_one && effect->kind != HVPM_EFFECT_PARTITION) return;
    for (struct guest *guest = guests; guest < guests + MAX_GUESTS; guest++)
        for (uint32_t vp = 0; guest->id == effect->partition && vp < guest->vps; vp++)
            if (!is_one || vp == effect->vp) deliver_to(&guest->vcpu[vp], effect);
}

/* A guest lets a message go by a write into its page, without an exit.
 * Only pages that show a message are looked at. */
static void hear_of_messages_taken(void) {
    for (struct guest *guest = guests; guest < guests + MAX_GUESTS; guest++)
        for (unsigned vp = 0; vp < guest->vps; vp++) {
            hvpm_pages *pages = &guest->vcpu[vp].pages;
            if (pages->shown != 0) must(hvpm_pages_before(&machine, pages));
            if (pages->freed) pages->freed = false, vmbus_has_room(guest);
        }
}

hvpm_machine *core_enter(void) {
    pthread_mutex_lock(&lock);
    hear_of_messages_taken();
    return &machine;
}

void core_leave(uint32_t status, const hvpm_reply *reply) {
    must(status);
    if (reply) deliver(&reply->effect);
    record_keep();
    pthread_mutex_unlock(&lock);
}

/* ---- exits ---- */

static bool is_served(const hvpm_reply *reply) { return reply->kind == HVPM_REPLY_SERVED; }

/* Where SIMP or SIEFP is on and names memory of the guest, its page. */
static void *page_of(struct vcpu *vcpu, uint32_t msr) {
    uint64_t value = 0;
    if (hvpm_peek_msr(&machine, vcpu->pages.of, msr, &value) != HVPM_STATUS_OK || !(value & 1)) return NULL;
    value &= ~(uint64_t)(PAGE - 1);
    return value < vcpu->guest->ram_size ? vcpu->guest->ram + value : NULL;
}

/* SIMP or SIEFP may be another than before: the pages are where the registers say. */
static void place_pages(struct vcpu *vcpu) {
    must(hvpm_pages_move(&machine, &vcpu->pages, page_of(vcpu, MSR_SIMP), page_of(vcpu, MSR_SIEFP)));
}

/*
 * A hypercall, of a rep call all elements, each an event with an effect of its own. The lock is held from the
 * first to the last, so that they stand together in the record. The bytes of `output` are those that elements
 * put out, each at its place.
 */
uint64_t core_call(struct vcpu *vcpu, const hvpm_registers *registers, const void *input, size_t len,
                   uint8_t *output, size_t room) {
    const uint16_t code = (uint16_t)registers->rcx;
    hvpm_registers at = *registers;
    hvpm_reply reply;
    (void)core_enter();
    for (;;) {
        must(hvpm_hypercall(&machine, vcpu->pages.of, &at, input, len, &reply, NULL, 0));
        const size_t place = (at.rcx >> 48 & 0xFFF) * reply.output_len;
        if (place + reply.output_len <= room) memcpy(output + place, reply.output, reply.output_len);
        if (reply.kind != HVPM_REPLY_MORE) break;
        deliver(&reply.effect);
        at.rcx = hvpm_next(at.rcx, &reply);
    }
    for (struct guest *guest = guests; code == HV_CALL_SET_VP_REGISTERS && guest < guests + MAX_GUESTS;
         guest++)
        for (unsigned vp = 0; vp < guest->vps; vp++) place_pages(&guest->vcpu[vp]);
    core_leave(HVPM_STATUS_OK, &reply);
    return reply.result;
}

bool core_read_msr(struct vcpu *vcpu, uint32_t msr, uint64_t *value) {
    hvpm_reply reply;
    core_leave(hvpm_read_msr_value(core_enter(), vcpu->pages.of, msr, value, &reply, NULL, 0), &reply);
    return is_served(&reply);
}

bool core_write_msr(struct vcpu *vcpu, uint32_t msr, uint64_t value) {
    hvpm_reply reply;
    const uint32_t status = hvpm_write_msr(core_enter(), vcpu->pages.of, msr, value, &reply, NULL, 0);
    if (msr == MSR_SIMP || msr == MSR_SIEFP) place_pages(vcpu);
    core_leave(status, &reply);
    return is_served(&reply);
}

void core_boot(const hvpm_config *config) {
    machine.record = &record;
    must(hvpm_boot(&machine, config));
}

uint64_t core_end(void) {
    pthread_mutex_lock(&lock); /* for good: whoever still has an exit waits */
    const uint64_t events = machine.events;
    hvpm_destroy(&machine);
    return events;
}
