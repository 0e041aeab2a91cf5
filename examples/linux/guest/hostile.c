/*
 * A guest without an operating system that attacks the VMM and its neighbors: it never does what a driver
 * does, and what it does is drawn from SEED. It takes no interrupt. It only spares its own code: pages that
 * the VMM writes, or a call's output, lie in `scratch` or outside its memory.
 */
#ifndef ROUNDS
#define ROUNDS 400
#endif
#ifndef SEED
#define SEED 1
#endif
#define NAME "hostile"
#include "bare.h"

enum { BURST = 200, MEMORY = 256 << 20, SCRATCH = 16 };
static uint8_t scratch[SCRATCH * PAGE] __attribute__((aligned(4096)));
static unsigned faults, served, denied;

/* ---- numbers ---- */

static uint64_t seed = SEED * UINT64_C(0x9E3779B97F4A7C15) + 1;
static uint64_t draw(void) { /* xorshift */
    seed ^= seed << 13, seed ^= seed >> 7, seed ^= seed << 17;
    return seed;
}
static uint64_t below(uint64_t n) { return (draw() >> 20) % n; }

/* A number as a field may hold it: small, of one bit, near an end, or any. */
static uint64_t any_number(void) {
    switch (below(6)) {
    case 0: return below(5);
    case 1: return below(0x120);
    case 2: return UINT64_C(1) << below(64);
    case 3: return 0 - below(3);
    case 4: return (uint32_t)draw();
    default: return draw();
    }
}

/* An address that the VMM may write to: in `scratch`, or not this guest's. */
static uint64_t any_address(void) {
    switch (below(4)) {
    case 0: return (uint64_t)scratch + PAGE * below(SCRATCH);
    case 1: return (uint64_t)scratch + below(SCRATCH * PAGE);
    case 2: return MEMORY - PAGE + PAGE * below(4); /* its last page, or one behind it */
    default: return draw() | MEMORY;
    }
}

/* ---- exits ---- */

/* #GP at RDMSR or WRMSR: the instruction is left out. */
__attribute__((interrupt)) static void on_gp(frame *f, uint64_t error) {
    const uint8_t *at = (const uint8_t *)f->ip;
    if (error != 0 || at[0] != 0x0F || (at[1] != 0x30 && at[1] != 0x32)) {
        tell("fault at", f->ip), tell("code", error);
        power_off();
    }
    f->ip += 2, faults++;
}

static void rdmsr(uint32_t n) { __asm__ volatile("rdmsr" ::"c"(n) : "rax", "rdx", "memory"); }

static void call(uint64_t rcx, uint64_t rdx, uint64_t r8) {
    if ((hypercall(rcx, rdx, r8) & 0xFFFF) == 0) served++;
    else denied++;
}

static void take_message(void) {
    __atomic_store_n((uint32_t *)(messages + 256 * SINT), 0, __ATOMIC_SEQ_CST);
    wrmsr(0x40000084, 0);
}

/* Posts until the root's port has room: the root takes its time. */
static void insist(const uint32_t *payload, uint32_t len) {
    while ((post(4, payload, len) & 0xFFFF) == 0x13)
        for (volatile unsigned n = 100000; n > 0; n--) {}
}

/* ---- attacks ---- */

/* The root answers, and the SynIC is off, or its page is gone. */
static void be_silent(void) {
    static const uint32_t contact[10] = {14, 0, 0x50002, 0, SINT};
    const uint32_t off = below(2) ? 0x40000080 : 0x40000083;
    insist(contact, sizeof contact);
    wrmsr(off, 0);
    for (volatile uint64_t n = below(40000); n > 0; n--) {}
    turn_on();
}

/* Three messages for each, and none is taken. */
static void ask_for_offers(void) {
    static const uint32_t request[2] = {3, 0};
    insist(request, sizeof request);
}

static void touch_msr(void) {
    const uint64_t place = below(2) ? below(0x200) : below(2) ? below(4) : 0x80 + below(0x20);
    const uint32_t n = 0x40000000 + (uint32_t)place;
    const int has_page = n == 0x40000001 || n == 0x40000082 || n == 0x40000083;
    if (below(3) == 0) rdmsr(n);
    else wrmsr(n, has_page ? any_address() | below(4) : any_number());
}

/* Any call, by any list: its own ids, its neighbor's, the root's. */
static void make_call(void) {
    static const uint8_t codes[] = {0x40, 0x41, 0x42, 0x43, 0x44, 0x45, 0x46, 0x47, 0x48, 0x49, 0x4A,
                                    0x4E, 0x4F, 0x50, 0x51, 0x58, 0x5B, 0x5C, 0x5D, 0x95, 0x96};
    uint64_t rcx = below(8) ? codes[below(sizeof codes)] : draw() & 0xFFFF;
    const int is_posted = rcx == 0x5C;
    if (below(3) == 0) rcx |= 1 << 16;
    if (below(3) == 0) rcx |= below(below(32) ? 4 : 4096) << 32 | below(4) << 48;
    if (below(16) == 0) rcx |= UINT64_C(1) << below(64);
    for (unsigned at = 0; at < 512; at += 8) *(uint64_t *)(input + at) = at < 64 ? any_number() : draw();
    if (is_posted && below(2)) { /* to the root, as a driver would */
        uint32_t *p = (uint32_t *)input;
        p[0] = below(2) ? 4 : 1, p[2] = 1, p[3] = (uint32_t)below(241), p[4] = (uint32_t)below(20);
    }
    uint64_t list = (uint64_t)input;
    if (below(8) == 0) list = below(2) ? list + below(PAGE) : any_address();
    if (rcx >> 16 & 1) call(rcx, any_number(), any_number());
    else call(rcx, list, any_address());
}

/* Rings in wrong places, packets of wrong lengths, and channels that are open, closed and gone. */
static void break_ring(void) {
    static const uint32_t types[] = {5, 5, 7, 8, 8, 8, 11, 14, 16, 3};
    uint32_t m[60] = {types[below(10)], 0, (uint32_t)(1 + below(below(4) ? 2 : 300)), 7};
    const uint32_t pfn = (uint32_t)((uint64_t)rings / PAGE);
    if (m[0] == 8) {
        m[4] = 40 | 1 << 16, m[5] = below(3) ? 4 * PAGE : (uint32_t)any_number();
        for (uint32_t i = 0; i < 26; i++) {
            const uint64_t page = below(8) ? pfn + i % 4 : any_number();
            m[7 + 2 * i] = (uint32_t)page, m[8 + 2 * i] = (uint32_t)(page >> 32);
        }
    } else if (m[0] == 5) m[3] = 1, m[4] = 7, m[6] = below(4) ? 2 : (uint32_t)any_number();
    else if (m[0] == 14) m[2] = below(2) ? 0x50002 : (uint32_t)any_number();
    (void)post(4, m, below(8) ? 240 : (uint32_t)below(241));
    for (unsigned i = 0; i < 8; i++) *(uint32_t *)(rings + 4 * below(8)) = (uint32_t)any_number();
    if (below(2)) *(uint32_t *)rings = 8 * (uint32_t)below(512);
    for (unsigned i = 0; i < 64; i++)
        *(uint64_t *)(rings + PAGE + 8 * below(512)) = below(2) ? draw() : 0x6000200000006;
    call(0x1005D, 0x11 + below(2), 0);
}

__attribute__((used)) void run(void) {
    static void (*const attacks[])(void) = {be_silent, ask_for_offers, touch_msr,   make_call,
                                            make_call, break_ring,     take_message};
    make_idt();
    set_gate(13, (uint64_t)on_gp);
    turn_on();
    say("hostile: begins\n");
    for (unsigned i = 0; i < BURST; i++) be_silent();
    say("hostile: was silent\n");
    for (unsigned i = 0; i < BURST; i++) ask_for_offers();
    say("hostile: asked, and took nothing\n");
    for (unsigned i = 0; i < ROUNDS; i++) {
        attacks[below(sizeof attacks / sizeof *attacks)]();
        if (below(64) == 0) turn_on();
    }
    tell("faults", faults), tell("calls served", served), tell("calls denied", denied);
    say("hostile: ends\n");
    power_off();
}
