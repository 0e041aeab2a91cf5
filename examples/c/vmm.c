/*
 * The hypervisor of docs/EMBEDDING.md in small. Guest 3 posts two messages to guest 2, which waits in HLT,
 * and signals an event flag. Guest 2 takes all three from pages in its memory, and exits only for EOM. In
 * place of a processor, a table says what a guest does. One thread runs both guests in turn: with more, a VMM
 * holds a lock for all of an exit.
 */
#include "hvpm_pages.h"

#include <inttypes.h>
#include <stdio.h>
#include <stdlib.h>
#include <string.h>

enum {
    GUESTS = 2, PAGE = 4096, INPUT = 0x0000, MESSAGES = 0x1000, FLAGS = 0x2000, MEMORY = 0x3000,
    SINT = 2, FLAG = 13
};

/*
 * What a guest does in its memory, if anything, and how it exits then.
 * RCX has the number of an MSR, and RDX its value.
 */
struct step {
    const char *what;
    enum { HYPERCALL, RDMSR, WRMSR, HLT } reason;
    uint64_t rcx, rdx;
    void (*use)(uint8_t *memory, const char *text);
    const char *text;
};

static struct vcpu {
    _Alignas(PAGE) uint8_t memory[MEMORY];
    hvpm_pages pages;
    const struct step *rip;
    bool is_halted;
} vcpus[GUESTS];

static hvpm_machine machine = HVPM_EMPTY;
static hvpm_record record; /* of the guests' events */

static void need(bool is_so, const char *what) {
    if (!is_so) printf("%s\n", what), exit(1);
}

/* Shows the audit lines of the events since the last call, of those in a guest's place, too. */
static void show(void) {
    for (const char *at = record.audit.at, *const end = at + record.audit.len; at < end;) {
        const char *next = (const char *)memchr(at, '\n', (size_t)(end - at)) + 1;
        printf("    audit %.*s", (int)(next - at), at);
        at = next;
    }
    record.script.len = record.audit.len = 0;
}

static void *guest_memory(struct vcpu *vcpu, uint64_t address, size_t size) {
    return address < MEMORY && size <= MEMORY - address ? vcpu->memory + address : NULL;
}

/* The processor of a partition; NULL if it isn't a guest's. */
static struct vcpu *vcpu_of(uint64_t partition) {
    return partition >= 2 && partition < 2 + GUESTS ? &vcpus[partition - 2] : NULL;
}

/* Before EOM of a processor, and before a post to a port of its partition. */
static void before(struct vcpu *at) {
    if (at) need(hvpm_pages_before(&machine, &at->pages) == HVPM_STATUS_OK, "a slot isn't cleared");
}

static void move(struct vcpu *vcpu) {
    void *at[2] = {NULL, NULL};
    uint64_t value;
    for (size_t i = 0; i < 2; i++)
        if (hvpm_peek_msr(&machine, vcpu->pages.of, i == 0 ? HVPM_MSR_SIMP : HVPM_MSR_SIEFP, &value) ==
                HVPM_STATUS_OK &&
            value & 1)
            at[i] = guest_memory(vcpu, value & ~UINT64_C(4095), PAGE);
    need(hvpm_pages_move(&machine, &vcpu->pages, at[0], at[1]) == HVPM_STATUS_OK, "a page isn't moved");
}

/*
 * The effect names the processor where something changed, which is rarely the caller.
 * A vector ends its HLT.
 */
static void after(const hvpm_effect *effect) {
    struct vcpu *at = vcpu_of(effect->partition);
    if (!at) return;
    need(hvpm_pages_after(&machine, &at->pages, effect) == HVPM_STATUS_OK, "a page isn't up to date");
    for (uint8_t v; hvpm_pages_vector(&machine, &at->pages, &v) == HVPM_STATUS_OK && v != 0;
         at->is_halted = false) {
        show();
        printf("    inject 0x%02x at %" PRIu64 ".0%s\n", v, at->pages.of.partition,
               at->is_halted ? " and wake it" : "");
    }
}

/* Frees what the receiver of a post freed in its page. The input begins with the id of the connection. */
static void before_post(const struct vcpu *from, const uint8_t *input) {
    hvpm_connection to;
    uint32_t id;
    memcpy(&id, input, sizeof id);
    if (hvpm_peek_connection(&machine, from->pages.of.partition, id, &to) == HVPM_STATUS_OK)
        before(vcpu_of(to.port_partition));
}

/*
 * These guests may only post and signal. docs/EMBEDDING.md also serves calls
 * that have an output or elements.
 */
static uint32_t hypercall(struct vcpu *vcpu, const hvpm_registers *at, hvpm_reply *reply) {
    const size_t size = at->rcx >> 16 & 1 ? 0 : PAGE - at->rdx % PAGE;
    const void *from = guest_memory(vcpu, at->rdx, size);
    uint8_t input[PAGE];
    if (size != 0 && !from && hvpm_is_call((uint16_t)at->rcx))
        return *reply = (hvpm_reply){.result = 4}, HVPM_STATUS_OK;
    if (from) memcpy(input, from, size);
    if (from && size >= 4 && (at->rcx & 0xFFFF) == HVPM_CALL_POST_MESSAGE) before_post(vcpu, input);
    return hvpm_hypercall(&machine, vcpu->pages.of, at, input, from ? size : 0, reply, NULL, 0);
}

static void handle(struct vcpu *vcpu, const struct step *exit) {
    const hvpm_caller by = vcpu->pages.of;
    uint64_t value = exit->rdx;
    uint32_t status, msr = (uint32_t)exit->rcx;
    hvpm_reply reply;
    if (exit->reason == WRMSR) before(vcpu);
    if (exit->reason == RDMSR) status = hvpm_read_msr_value(&machine, by, msr, &value, &reply, NULL, 0);
    else if (exit->reason == WRMSR) status = hvpm_write_msr(&machine, by, msr, value, &reply, NULL, 0);
    else status = hypercall(vcpu, &(hvpm_registers){exit->rcx, exit->rdx, 0}, &reply);
    /* out of memory, a VMM may leave RIP at the call */
    need(status == HVPM_STATUS_OK, "the library takes no event");
    if (exit->reason == WRMSR) move(vcpu);
    after(&reply.effect);
    show();
    if (reply.kind == HVPM_REPLY_FAULT)
        printf("    inject #GP, since P%" PRIu32 " doesn't hold\n", reply.rule);
    else if (exit->reason == RDMSR) printf("    EDX:EAX %016" PRIx64 "\n", value);
    else if (exit->reason == HYPERCALL) printf("    RAX %016" PRIx64 "\n", reply.result);
}

static void write_message(uint8_t *memory, const char *text) {
    /* connection, message type, size */
    const uint32_t header[4] = {HVPM_PORT_MESSAGES, 0, 7, (uint32_t)strlen(text)};
    memcpy(memory + INPUT, header, sizeof header);
    memcpy(memory + INPUT + sizeof header, text, header[3]);
}

/* It frees the slot before it looks for MessagePending. */
static void take(uint8_t *memory, const char *text) {
    hvpm_slot *slot = (hvpm_slot *)(void *)(memory + MESSAGES) + SINT;
    uint8_t *flags = memory + FLAGS + 256 * SINT + FLAG / 8;
    (void)text;
    printf("    it reads \"%.*s\"", slot->size, (const char *)slot->payload);
    __atomic_store_n(&slot->type, 0, __ATOMIC_SEQ_CST);
    printf(", MessagePending is %d", __atomic_load_n(&slot->flags, __ATOMIC_SEQ_CST) & 1);
    printf(", flag %d is %d\n", FLAG,
           __atomic_fetch_and(flags, (uint8_t)~(1 << FLAG % 8), __ATOMIC_SEQ_CST) >> FLAG % 8 & 1);
}

static const struct step receiver[] = {
    {"reads its SynIC's version", RDMSR, .rcx = HVPM_MSR_SVERSION},
    {"turns its SynIC on", WRMSR, .rcx = HVPM_MSR_SCONTROL, .rdx = 1},
    {"turns its message page on", WRMSR, .rcx = HVPM_MSR_SIMP, .rdx = MESSAGES | 1},
    {"turns its event flags page on", WRMSR, .rcx = HVPM_MSR_SIEFP, .rdx = FLAGS | 1},
    {"aims SINT 2 at vector 5, which is reserved", WRMSR, .rcx = HVPM_MSR_SINT2, .rdx = 5},
    {"aims SINT 2 at vector 0x30", WRMSR, .rcx = HVPM_MSR_SINT2, .rdx = 0x30},
    {"waits", .reason = HLT},
    {"takes what it got, and writes EOM", WRMSR, .rcx = HVPM_MSR_EOM, .use = take},
    {"takes the other message, and waits", HLT, .use = take},
};
static const struct step sender[] = {
    {"posts a message", HYPERCALL, .rcx = HVPM_CALL_POST_MESSAGE, .rdx = INPUT,
     .use = write_message, .text = "first"},
    {"posts another, which waits", HYPERCALL, .rcx = HVPM_CALL_POST_MESSAGE, .rdx = INPUT,
     .use = write_message, .text = "second"},
    {"signals an event flag, by a fast call", HYPERCALL, .rcx = 0x1005D, .rdx = HVPM_PORT_EVENTS},
    {"posts what isn't in its memory", HYPERCALL, .rcx = HVPM_CALL_POST_MESSAGE, .rdx = MEMORY},
    {"creates a partition, which it may not", HYPERCALL, .rcx = 0x40, .rdx = INPUT},
    {"waits", .reason = HLT},
};

static void done(uint32_t status, const hvpm_reply *reply) {
    need(status == HVPM_STATUS_OK && reply->kind == HVPM_REPLY_SERVED, "the root isn't served");
}

/*
 * The root makes both guests, each with 6 pages and a processor.
 * The ids of ports and connections are their types.
 */
static void boot(void) {
    const hvpm_caller root = {1, 0};
    hvpm_reply reply = {.kind = HVPM_REPLY_SERVED};
    done(hvpm_boot(&machine, &(hvpm_config){.mask = 0xf700000044, .pages = 20, .pool = 8, .vps = 1}), &reply);
    for (uint64_t id = 2, page = 8, made; id < 2 + GUESTS; id++) {
        done(hvpm_create_partition(&machine, root, 0, &made, &reply, NULL, 0), &reply);
        done(hvpm_initialize_partition(&machine, root, id, &reply, NULL, 0), &reply);
        for (int i = 0; i < 6; i++, page++)
            done(hvpm_deposit_memory(&machine, root, id, &page, 1, 0, &reply, NULL, 0), &reply);
        done(hvpm_create_vp(&machine, root, id, 0, &reply, NULL, 0), &reply);
        vcpus[id - 2].pages = (hvpm_pages){.of = {id, 0}};
        vcpus[id - 2].rip = id == 2 ? receiver : sender;
    }
    for (uint32_t type = HVPM_PORT_MESSAGES; type <= HVPM_PORT_EVENTS; type++) {
        const hvpm_port port = {
            .partition = 2, .id = type, .peer = 3, type, SINT, .base_flag = FLAG, .flag_count = 1};
        done(hvpm_create_port(&machine, root, &port, &reply, NULL, 0), &reply);
        done(hvpm_connect_port(&machine, root, &(hvpm_connection){3, type, 2, type, type}, &reply, NULL, 0),
             &reply);
    }
}

int main(void) {
    boot();
    machine.record = &record;
    for (size_t turn = 0; !vcpus[0].is_halted || !vcpus[1].is_halted; turn++)
        for (struct vcpu *vcpu = &vcpus[turn % GUESTS]; !vcpu->is_halted; vcpu->rip++) {
            printf("%" PRIu64 ".0 %s\n", vcpu->pages.of.partition, vcpu->rip->what);
            if (vcpu->rip->use) vcpu->rip->use(vcpu->memory, vcpu->rip->text);
            if (vcpu->rip->reason == HLT) vcpu->is_halted = true;
            else handle(vcpu, vcpu->rip);
        }
    printf("events %" PRIu64 "\n", machine.events);
    hvpm_record_free(&record);
    hvpm_destroy(&machine);
    return 0;
}
