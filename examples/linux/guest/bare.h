/*
 * What the guests without an operating system share: ports, MSRs, pages, faults and hypercalls. Each of them
 * is one processor in 64-bit code, and has a local APIC and a serial port.
 */
#ifndef BARE_H
#define BARE_H
#include <stdint.h>

enum { SINT = 2, VECTOR = 0xF3, POWER = 0x604, PAGE = 4096 };

static inline void out8(uint16_t port, uint8_t v) { __asm__ volatile("outb %0, %1" ::"a"(v), "Nd"(port)); }
static inline void out16(uint16_t port, uint16_t v) { __asm__ volatile("outw %0, %1" ::"a"(v), "Nd"(port)); }
static inline void wrmsr(uint32_t n, uint64_t v) {
    __asm__ volatile("wrmsr" ::"c"(n), "a"((uint32_t)v), "d"((uint32_t)(v >> 32)) : "memory");
}

static void say(const char *s) {
    while (*s) out8(0x3F8, (uint8_t)*s++);
}
static void tell(const char *s, uint64_t v) {
    char t[17];
    int n = 16;
    t[16] = 0;
    do {
        t[--n] = "0123456789abcdef"[v & 15];
        v >>= 4;
    } while (v);
    say(NAME), say(": "), say(s), say(" "), say(t + n), say("\n");
}

static uint8_t code[PAGE] __attribute__((aligned(4096))), messages[PAGE] __attribute__((aligned(4096)));
static uint8_t events[PAGE] __attribute__((aligned(4096))), input[PAGE] __attribute__((aligned(4096)));
static uint8_t rings[4 * PAGE]
    __attribute__((aligned(4096))); /* indexes and bytes of the ring to the host, then of that to the guest */
static struct {
    uint16_t low, cs, type, mid;
    uint32_t high, none;
} __attribute__((packed)) idt[256] __attribute__((aligned(16)));
static volatile uint32_t *const apic = (volatile uint32_t *)0xFEE00000;
static volatile unsigned interrupts;

typedef struct {
    uint64_t ip, cs, flags, sp, ss;
} frame;
__attribute__((interrupt)) static void on_hypervisor(frame *f) {
    (void)f;
    interrupts++;
    apic[0xB0 / 4] = 0;
}

static _Noreturn void power_off(void) {
    for (;;) out16(POWER, 1 << 13);
}

__attribute__((interrupt)) static void on_fault(frame *f, uint64_t error) {
    tell("fault at", f->ip), tell("code", error);
    power_off();
}

static void set_gate(unsigned n, uint64_t at) {
    idt[n].low = (uint16_t)at, idt[n].cs = 16, idt[n].type = 0x8E00, idt[n].mid = (uint16_t)(at >> 16),
    idt[n].high = (uint32_t)(at >> 32);
}

static void make_idt(void) {
    struct {
        uint16_t limit;
        uint64_t at;
    } __attribute__((packed)) idtr = {sizeof idt - 1, (uint64_t)idt};
    for (unsigned i = 0; i < 32; i++) set_gate(i, (uint64_t)on_fault);
    set_gate(VECTOR, (uint64_t)on_hypervisor);
    __asm__ volatile("lidt %0" ::"m"(idtr));
    out8(0x21, 0xFF), out8(0xA1, 0xFF); /* no interrupt but the local APIC's */
    apic[0xF0 / 4] = 0x1FF;
}

/* The SynIC as Linux turns it on, with a hypercall page first. */
static void turn_on(void) {
    wrmsr(0x40000000, 0x8100000000000001), wrmsr(0x40000001, (uint64_t)code | 1);
    wrmsr(0x40000083, (uint64_t)messages | 1), wrmsr(0x40000082, (uint64_t)events | 1);
    wrmsr(0x40000090 + SINT, VECTOR), wrmsr(0x40000080, 1);
}

static uint64_t hypercall(uint64_t rcx, uint64_t rdx, uint64_t output) {
    uint64_t rax;
    register uint64_t r8 __asm__("r8") = output;
    __asm__ volatile("call *%4"
                     : "=a"(rax), "+c"(rcx), "+d"(rdx), "+r"(r8)
                     : "r"(code)
                     : "memory", "r9", "r10", "r11");
    return rax;
}

static uint64_t post(uint32_t connection, const uint32_t *payload, uint32_t len) {
    uint32_t *p = (uint32_t *)input;
    p[0] = connection, p[1] = 0, p[2] = 1, p[3] = len;
    for (uint32_t i = 0; i < 60; i++) p[4 + i] = i < (len + 3) / 4 ? payload[i] : 0;
    return hypercall(0x5C, (uint64_t)input, 0);
}
#endif
