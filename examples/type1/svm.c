/*
 * AMD's SVM: what exits, nested pages, how a processor begins, faults and vectors. Each access to an MSR or a
 * port exits, and each instruction of a hypervisor, so a guest has what exit.c gives it.
 */
#include "hv.h"

enum { EVENT_VALID = 1u << 31, EVENT_FAULT = 3 << 8, EVENT_HAS_CODE = 1 << 11 };
enum { VECTOR = 1 << 8, NOT_BY_TPR = 0xF << 16 | 1 << 20, MASKING = 1 << 24 };

struct partition partitions[PARTITIONS];
static uint8_t memory[PAGES][PAGE] __attribute__((aligned(4096)));
static struct partition *owners[PAGES];
static uint64_t tables[PARTITIONS][3 + PAGES / 512][512] __attribute__((aligned(4096)));
static struct vmcb vmcbs[VCPUS] __attribute__((aligned(4096)));
static uint8_t msrpm[2 * PAGE] __attribute__((aligned(4096))), iopm[3 * PAGE] __attribute__((aligned(4096)));

void svm_enter(uint64_t vmcb, uint64_t host_vmcb, uint64_t *registers); /* boot.S */

void svm_start_host(struct processor *me) {
    const uint64_t saved = (uint64_t)me->saved;
    memset(msrpm, 0xFF, sizeof msrpm), memset(iopm, 0xFF, sizeof iopm);
    __asm__ volatile("wrmsr" ::"c"(0xC0010117), "a"((uint32_t)saved), "d"((uint32_t)(saved >> 32)));
    __asm__ volatile("vmsave %0" ::"a"(&me->host) : "memory");
}

uint8_t *memory_of(uint64_t page) { return memory[page]; }
struct partition *owner_of(uint64_t page) { return page < PAGES ? owners[page] : NULL; }

/* A page is mapped in the one partition that owns it. Accessed and dirty bits are set from the start. */
void map_page(struct partition *of, uint64_t page, bool is_there) {
    uint64_t(*const t)[512] = tables[of - partitions]; /* levels 4, 3, 2, and all of level 1 */
    t[0][0] = (uint64_t)t[1] | 0x67, t[1][0] = (uint64_t)t[2] | 0x67;
    for (unsigned i = 0; i < PAGES / 512; i++) t[2][i] = (uint64_t)t[3 + i] | 0x67;
    t[3 + page / 512][page % 512] = is_there ? (uint64_t)memory[page] | 0x67 : 0;
    of->pages += is_there ? 1 : -1u;
    owners[page] = is_there ? of : NULL;
}

static struct segment segment(uint16_t selector, uint16_t attributes) {
    return (struct segment){selector, attributes, 0xFFFFFFFF, 0};
}

/* It begins in 64-bit code at CPL 0, with the registers that were set before. The library has no CR3 among a
 * processor's registers, so RBX is it. */
void svm_start(struct vcpu *vcpu, uint64_t rip) {
    const unsigned index = (unsigned)(vcpu - vcpus);
    /* INTR, NMI, RDPMC, CPUID, INVD, PAUSE, HLT, INVLPGA, ports, MSRs, shutdown */
    const uint32_t on = 1u << 0 | 1u << 1 | 1u << 15 | 1u << 18 | 1u << 22 | 1u << 23 | 1u << 24 |
                        1u << 26 | 1u << 27 | 1u << 28 | 1u << 31;
    vmcbs[index] = (struct vmcb){
        .on_dr = 0xFFFFFFFF, .on = {on, 0x3D7F}, /* VMRUN to XSETBV, without RDTSCP and WBINVD */
        .iopm = (uint64_t)iopm, .msrpm = (uint64_t)msrpm, .asid = index + 1, .nested = 1,
        .nested_cr3 = (uint64_t)tables[vcpu->of - partitions], .cs = segment(8, 0xA9B),
        .ss = segment(16, 0xC93), .ds = segment(16, 0xC93), .es = segment(16, 0xC93), .fs = segment(0, 0xC93),
        .gs = segment(0, 0xC93), .ldtr = segment(0, 0x82), .tr = segment(0, 0x8B), .efer = 0x1500,
        .cr0 = 0x80010033, .cr4 = 0x620, .cr3 = vcpu->r[RBX], .dr6 = 0xFFFF0FF0, .dr7 = 0x400,
        .pat = 0x0007040600070406, .rflags = 2, .rip = rip};
    hvpm_put(vcpu->fx, 0x37F, 2), hvpm_put(vcpu->fx + 24, 0x1F80, 4);
    vcpu->vmcb = &vmcbs[index], vcpu->flush = true, vcpu->state = READY;
}

void make_pending(struct vcpu *vcpu, uint8_t vector) {
    __atomic_fetch_or(&vcpu->pending[vector / 64], UINT64_C(1) << vector % 64, __ATOMIC_SEQ_CST);
}

/* Runs it until its next exit. The caller holds no lock. */
void svm_run(struct processor *me, struct vcpu *vcpu) {
    struct vmcb *const v = vcpu->vmcb;
    const uint64_t behind_sti = v->shadow & 1 ? v->rip : 0;
    v->rax = vcpu->r[RAX], v->rsp = vcpu->r[RSP];
    svm_enter((uint64_t)v, (uint64_t)&me->host, vcpu->r);
    vcpu->r[RAX] = v->rax, vcpu->r[RSP] = v->rsp;
    v->event = v->cut_event >> 31 & 1 ? v->cut_event : 0;
    if (behind_sti != 0 && behind_sti == v->rip) v->shadow |= 1; /* it made no step: see svm_inject */
    if (v->interrupt & VECTOR) make_pending(vcpu, (uint8_t)(v->interrupt >> 32)); /* it wasn't taken */
}

void svm_fault(struct vcpu *vcpu, unsigned vector) {
    vcpu->vmcb->event = EVENT_VALID | EVENT_FAULT | vector | (vector == GP ? EVENT_HAS_CODE : 0);
}

bool has_pending(const struct vcpu *vcpu) {
    return (vcpu->pending[0] | vcpu->pending[1] | vcpu->pending[2] | vcpu->pending[3]) != 0;
}

/* The processor delivers the highest pending vector as soon as the guest takes interrupts; that is the window
 * while IF is 0. A lower one comes after the next exit, at the latest a tick. So does one that comes behind
 * STI: QEMU's VMRUN forgets that no vector is taken before the next instruction, and if that is HLT, the
 * guest would stay there. */
void svm_inject(struct vcpu *vcpu) {
    struct vmcb *const v = vcpu->vmcb;
    unsigned at = 3;
    v->interrupt = MASKING;
    if (!has_pending(vcpu) || (v->shadow & 1)) return;
    while (vcpu->pending[at] == 0) at--;
    const unsigned bit = 63 - (unsigned)__builtin_clzll(vcpu->pending[at]);
    vcpu->pending[at] &= ~(UINT64_C(1) << bit);
    v->interrupt |= VECTOR | NOT_BY_TPR | (uint64_t)(64 * at + bit) << 32;
}
