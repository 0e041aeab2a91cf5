/* What the parts of the hypervisor share: main.c, exit.c, svm.c and boot.S. */
#pragma once
#include "hvpm_guest.h"
#include "hvpm_pages.h"
#include <string.h>

enum { PAGE = 4096, PAGES = 1024, PROCESSORS = 4, PARTITIONS = 8, VCPUS = 8 };
enum { UD = 6, GP = 13, RFLAGS_IF = 1 << 9 };
enum { RAX, RCX, RDX, RBX, RSP, RBP, RSI, RDI, R8 }; /* of 16 registers, as the TLFS numbers them */

struct segment {
    uint16_t selector, attributes;
    uint32_t limit;
    uint64_t base;
};
struct vmcb { /* AMD64 Architecture Programmer's Manual, volume 2, appendix B */
    uint32_t on_cr, on_dr, on_exception, on[2]; /* what exits */
    uint8_t none_14[0x2C];
    uint64_t iopm, msrpm, tsc_offset;
    uint32_t asid, flush;              /* flush is 1: all translations of guests */
    uint64_t interrupt, shadow;        /* a virtual interrupt; bit 0: behind STI */
    uint64_t code, info[2], cut_event; /* the exit; the event whose delivery it cut short */
    uint64_t nested;
    uint8_t none_98[0x10];
    uint64_t event, nested_cr3; /* the event is delivered on entry */
    uint8_t none_b8[0x348];
    struct segment es, cs, ss, ds, fs, gs, gdtr, ldtr, idtr, tr;
    uint8_t none_4a0[0x2B], cpl, none_4cc[4];
    uint64_t efer;
    uint8_t none_4d8[0x70];
    uint64_t cr4, cr3, cr0, dr7, dr6, rflags, rip;
    uint8_t none_580[0x58];
    uint64_t rsp;
    uint8_t none_5e0[0x18];
    uint64_t rax;
    uint8_t none_600[0x68];
    uint64_t pat;
    uint8_t none_670[0x990];
};
HVPM_HOLDS(offsetof(struct vmcb, event) == 0xA8 && offsetof(struct vmcb, efer) == 0x4D0 &&
           offsetof(struct vmcb, rax) == 0x5F8 && sizeof(struct vmcb) == PAGE);

/* A partition's memory is the pages that it owns, each at its own number: page 5 is at 0x5000. */
struct partition {
    uint64_t id;
    hvpm_guest own;
    unsigned pages; /* 0 if the row is free */
};

/* A virtual processor. A host processor has it (`on`) until it halts, pauses or a tick comes. */
struct vcpu {
    uint64_t r[16];
    uint8_t fx[512] __attribute__((aligned(16))); /* behind the registers: boot.S */
    enum { FREE, CREATED, READY, HALTED, ENDED } state;
    struct vmcb *vmcb;
    struct partition *of;
    struct processor *on, *last;
    bool flush; /* its translations are stale */
    uint64_t pending[4];
    hvpm_pages pages;
    char text[100]; /* a line of its console */
    unsigned text_len;
};

struct processor {
    uint32_t apic_id;
    struct vcpu *has;
    volatile bool is_in_guest, is_idle;
    uint8_t saved[PAGE] __attribute__((aligned(4096))); /* VM_HSAVE_PA */
    struct vmcb host __attribute__((aligned(4096)));    /* what VMLOAD restores */
    uint8_t stack[2][PAGE];                             /* of interrupts and faults; of NMIs */
    uint32_t tss[26];
};

extern struct processor processors[PROCESSORS];
extern struct vcpu vcpus[VCPUS];
extern hvpm_machine machine;
extern volatile uint32_t started;
extern struct cost {
    uint64_t exits, cycles, library, locking;
} cost;

static inline uint64_t rdtsc(void) {
    uint32_t low, high;
    __asm__ volatile("rdtsc" : "=a"(low), "=d"(high));
    return (uint64_t)high << 32 | low;
}

/* main.c */
enum { LOG = 0x3F8, SCRIPT = 0x2F8, AUDIT = 0x3E8 };  /* serial ports */
void print(uint16_t serial, const char *format, ...); /* %s, and %u and %x of 64 bits */
void guest_says(struct vcpu *vcpu, char byte);
void kick(const struct processor *processor);
void start_record(void);
_Noreturn void stop(const char *why, uint64_t number);
_Noreturn void finish(void);

/* svm.c */
void svm_start_host(struct processor *me);
void svm_start(struct vcpu *vcpu, uint64_t rip);
void svm_run(struct processor *me, struct vcpu *vcpu);
void svm_fault(struct vcpu *vcpu, unsigned vector);
void svm_inject(struct vcpu *vcpu);
bool has_pending(const struct vcpu *vcpu);
void make_pending(struct vcpu *vcpu, uint8_t vector);
void map_page(struct partition *of, uint64_t page, bool is_there);
uint8_t *memory_of(uint64_t page);
struct partition *owner_of(uint64_t page);
extern struct partition partitions[PARTITIONS];

/* exit.c */
void serve_exit(struct vcpu *vcpu);
void make_root(void);
