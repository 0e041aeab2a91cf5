/*
 * A guest of the VMM of docs/EMBEDDING.md, whose code is examples/c/guide.h. It finds its hypervisor, turns its
 * SynIC on, takes messages and a flag from its pages, calls, and is reset. What is wrong goes to standard error.
 */
#include "guide.h"

#include <stdio.h>
#include <stdlib.h>

enum { MEMORY = 0x10000, CODE = 0x5000, INPUT = 0x1000, OUTPUT = 0x2000, MESSAGES = 0x3000, FLAGS = 0x4000 };

static uint8_t guest[MEMORY] __attribute__((aligned(4096))), roots[2][4096] __attribute__((aligned(4096)));
static hvpm_caller injected_at;
static uint8_t injected;

void *guest_memory(uint64_t address, size_t size) {
    return address < MEMORY && size <= MEMORY - address ? guest + address : NULL;
}

void inject(hvpm_caller at, uint8_t vector) {
    injected_at = at, injected = vector;
}

_Noreturn void stop(const char *why) {
    fprintf(stderr, "%s\n", why);
    exit(1);
}

static void holds(const char *what, bool is_so) {
    if (!is_so) stop(what);
}

/* Whether a vector was injected at a processor since the last one. */
static bool interrupted(const hvpm_pages *vcpu, uint8_t vector) {
    const bool is_so =
        injected == vector && injected_at.partition == vcpu->of.partition && injected_at.vp == vcpu->of.vp;
    injected = 0;
    return is_so;
}

static uint64_t call(hvpm_pages *vcpu, uint64_t rcx, uint64_t rdx, uint64_t r8) {
    hvpm_guest_cpu cpu = {.rcx = rcx, .rdx = rdx, .r8 = r8, .is_64_bit = true, .is_protected = true};
    holds("a hypercall is made", hypercall(vcpu, &cpu) == RETURN);
    return cpu.rax;
}

/* A call of a guest's 32-bit code, whose lists are below 4 GiB. */
static uint64_t call_32(hvpm_pages *vcpu, uint64_t value, uint32_t input, uint32_t output) {
    hvpm_guest_cpu cpu = {
        .rdx = value >> 32, .rax = value, .rcx = input, .rsi = output, .is_protected = true};
    holds("a hypercall of 32 bits is made", hypercall(vcpu, &cpu) == RETURN);
    return cpu.rdx << 32 | cpu.rax;
}

/* A port of the guest's processor 1 for the root, and of the root for it. */
static void connect(void) {
    hvpm_reply reply;
    const hvpm_port ports[] = {{child, 1, 1, HVPM_PORT_MESSAGES, 2, 1, 0, 0},
                               {child, 2, 1, HVPM_PORT_EVENTS, 2, 1, 5, 1},
                               {1, 3, child, HVPM_PORT_MESSAGES, 4, 0, 0, 0}};
    const hvpm_connection connections[] = {{1, 1, child, 1, HVPM_PORT_MESSAGES},
                                           {1, 2, child, 2, HVPM_PORT_EVENTS},
                                           {child, 3, 1, 3, HVPM_PORT_MESSAGES}};
    for (uint32_t i = 0; i < 3; i++) {
        holds("a port", served(hvpm_create_port(&machine, root, &ports[i], &reply, NULL, 0), &reply));
        holds("a connection",
              served(hvpm_connect_port(&machine, root, &connections[i], &reply, NULL, 0), &reply));
    }
}

static void post(const char *text) {
    hvpm_reply reply;
    before(child);
    holds("a post",
          served(hvpm_post_message(&machine, root, 1, 7, text, (uint32_t)strlen(text), &reply, NULL, 0),
                 &reply));
    after(&reply.effect);
}

/* What a guest writes first, and what it gets #GP for. */
static void identify(hvpm_pages *vcpu) {
    uint64_t value = 7;
    holds("an OS id", write_msr(vcpu, 0x40000000, 0x8100000000060C00));
    holds("a page elsewhere", !write_msr(vcpu, 0x40000001, MEMORY | 1));
    holds("a hypercall page", write_msr(vcpu, 0x40000001, CODE | 1) && guest[CODE + 3] == 0xC3);
    holds("it is read", read_msr(vcpu, 0x40000001, &value) && value == (CODE | 1));
    holds("the VP index", read_msr(vcpu, 0x40000002, &value) && value == vcpu->of.vp);
    holds("no reference time", !read_msr(vcpu, 0x40000020, &value) && !write_msr(vcpu, 0x40000084 + 1, 0));
}

static void turn_on(hvpm_pages *vcpu) {
    holds("SCONTROL", write_msr(vcpu, 0x40000080, 1));
    holds("SIMP", write_msr(vcpu, HVPM_MSR_SIMP, MESSAGES | 1));
    holds("SIEFP", write_msr(vcpu, HVPM_MSR_SIEFP, FLAGS | 1));
    holds("SINT2", write_msr(vcpu, 0x40000092, 0xF3));
}

/* Takes a message from slot 2 of its page, and writes EOM if another waits. */
static void take(hvpm_pages *vcpu, const char *text, bool is_pending) {
    hvpm_slot *slot = (hvpm_slot *)(void *)(guest + MESSAGES) + 2;
    holds(text, interrupted(vcpu, 0xF3) && slot->type == 7 && slot->size == strlen(text));
    holds("its text", memcmp(slot->payload, text, strlen(text)) == 0);
    slot->type = 0;
    holds("MessagePending", (slot->flags & 1) == is_pending);
    if (is_pending) holds("EOM", write_msr(vcpu, HVPM_MSR_EOM, 0));
}

/* Whether the record has all events of the guide's guest, in order. */
static void recorded(uint64_t events) {
    static char text[1 << 16];
    FILE *const file = fmemopen(text, sizeof text, "w");
    uint64_t number = 0;
    holds("a file", file != NULL);
    keep(&record.audit, file);
    holds("it is written", fclose(file) == 0 && record.audit.len == 0 && !record.is_cut);
    for (const char *at = text; *at; at = strchr(at, '\n') + 1)
        holds("a recorded event", strtoull(at, NULL, 10) == ++number);
    holds("each event is recorded", number == events);
}

int main(void) {
    uint32_t regs[4];
    hvpm_reply reply;
    hvpm_pages *vcpu = &vcpus[2], *other = &vcpus[1];
    machine.record = &record;
    holds("boot", boot());
    cpuid(0x40000000, regs);
    holds("the vendor", memcmp(&regs[1], "Microsoft Hv", 12) == 0);
    cpuid(0x40000003, regs);
    holds("the mask", regs[0] == 0x64 && regs[1] == 0x30 && regs[2] == 0 && regs[3] == 0);
    cpuid(0x40000006, regs);
    holds("no further leaf", regs[0] == 0);
    identify(vcpu);
    connect();
    turn_on(vcpu);
    post("one"), post("two"), post("three");
    take(vcpu, "one", true), take(vcpu, "two", true), take(vcpu, "three", false);
    post("four"), take(vcpu, "four", false);
    for (uint32_t i = 0; i < 2; i++) {
        holds("a signal", served(hvpm_signal_event(&machine, root, 2, 0, &reply, NULL, 0), &reply));
        after(&reply.effect);
        holds("its flag and its interrupt", guest[FLAGS + 512] == 0x20 && interrupted(vcpu, 0xF3));
    }
    holds("the root's pages", hvpm_pages_move(&machine, &vcpus[0], roots[0], roots[1]) == HVPM_STATUS_OK);
    for (uint32_t msr = 0x40000080; msr <= 0x40000083; msr += msr == 0x40000080 ? 2 : 1)
        holds("the root's SynIC", served(hvpm_write_msr(&machine, root, msr, 1, &reply, NULL, 0), &reply));
    holds("its SINT", served(hvpm_write_msr(&machine, root, 0x40000094, 0x30, &reply, NULL, 0), &reply));
    memcpy(guest + INPUT, (const uint8_t[]){3, 0, 0, 0, 0, 0, 0, 0, 9, 0, 0, 0, 2, 0, 0, 0, 'h', 'i'}, 18);
    holds("a guest's post", call(vcpu, 0x5C, INPUT, MEMORY) == 0 && interrupted(&vcpus[0], 0x30));
    holds("what the root gets", roots[0][4 * 256] == 9 && memcmp(roots[0] + 4 * 256 + 16, "hi", 2) == 0);
    holds("the guest lets it go", (roots[0][4 * 256] = 0) == 0);
    holds("a post of 32 bits", call_32(vcpu, 0x5C, INPUT, 0) == 0 && interrupted(&vcpus[0], 0x30));
    hvpm_guest_cpu process = {.rcx = 0x46, .r8 = OUTPUT, .is_64_bit = true, .is_protected = true, .cpl = 3};
    const uint64_t events = machine.events;
    holds("a process", hypercall(vcpu, &process) == UNDEFINED && machine.events == events);
    holds("a denial", call(vcpu, 0x40, INPUT, OUTPUT) == 6 && call(vcpu, 0x99, MEMORY, MEMORY) == 2);
    holds("a list that isn't the guest's",
          call(vcpu, 0x40, MEMORY, OUTPUT) == 4 && call(vcpu, 0x40, INPUT, MEMORY) == 4);
    guest[OUTPUT] = 2;
    holds("the root's own id",
          call(&vcpus[0], 0x46, MEMORY, OUTPUT + 8) == 0 && guest[OUTPUT + 8] == 1 && guest[OUTPUT] == 2);
    memcpy(guest + INPUT, (const uint8_t[]){2, 0, 0, 0, 0, 0, 0, 0}, 8);
    holds("a rep call", call(&vcpus[0], UINT64_C(2) << 32 | 0x49, INPUT, OUTPUT) == UINT64_C(2) << 32);
    holds("its outputs", guest[OUTPUT] == 32 && guest[OUTPUT + 8] == 33);
    holds("one of 32 bits", call_32(&vcpus[0], UINT64_C(2) << 32 | 0x49, INPUT, OUTPUT) == UINT64_C(2) << 32);
    holds("its outputs", guest[OUTPUT] == 34 && guest[OUTPUT + 8] == 35);
    holds("a fast call",
          call(&vcpus[0], 0x1004F, child, 1) == 0 && !vcpu->messages && !vcpu->flags && vcpu->shown == 0);
    holds("one that is made again", call(&vcpus[0], 0x1004E, child, 1) == 0);
    turn_on(vcpu);
    post("after a reset"), take(vcpu, "after a reset", false);
    holds("the other had nothing", other->messages == NULL && other->raised[0] == 0);
    recorded(machine.events);
    hvpm_record_free(&record);
    hvpm_destroy(&machine);
    return 0;
}
