/*
 * What crosses between QEMU and the VMM, each in a process of its own: one socket for each processor, by
 * which QEMU hands over an exit and waits for the answer, and one control socket for the guest. All of them
 * are SOCK_SEQPACKET: a message is one struct.
 */
#ifndef HVPM_EXITS_H
#define HVPM_EXITS_H
#include <stdint.h>

/* The environment names the first descriptor, the control socket's; that of processor
 * N is the (N + 1)th after it. */
#define HVPM_SOCKETS "HVPM_SOCKETS"

/* The code that the hypercall page has: out %eax, $HVPM_PORT; ret. */
#define HVPM_PORT 0xEA
#define HVPM_CODE                                                                                            \
    { 0xE7, HVPM_PORT, 0xC3 }

enum hvpm_exit_kind { HVPM_CPUID, HVPM_RDMSR, HVPM_WRMSR, HVPM_HYPERCALL, HVPM_RESET };

/* On a processor's socket, from QEMU: an exit. On the control socket, from QEMU: the machine was reset. */
struct hvpm_exit {
    uint32_t kind;
    uint32_t number;                           /* CPUID: the leaf. RDMSR, WRMSR: the MSR */
    uint64_t value;                            /* WRMSR: what is written */
    uint64_t rax, rbx, rcx, rdx, rsi, rdi, r8; /* HYPERCALL: the registers, and the mode */
    uint8_t is_64_bit, is_protected, cpl;
};

/* The answer. */
struct hvpm_entry {
    uint32_t served; /* else the guest is given #UD for a hypercall, and #GP for an MSR */
    uint32_t leaf[4];
    uint64_t value;    /* RDMSR: the value */
    uint64_t rax, rdx; /* HYPERCALL: the registers that change */
    uint64_t code_at;  /* WRMSR: where QEMU puts the hypercall page's code now, or 0 */
};

/* On the control socket, to QEMU: a vector for a processor's local APIC, which ends it by itself or not. */
struct hvpm_interrupt {
    uint32_t vp;
    uint8_t vector, has_auto_eoi;
};

/* In QEMU's process. */
/* Who serves an exit, without the big lock. NULL: all is as without these files. */
extern struct hvpm_entry (*hvpm_serve)(unsigned vp, const struct hvpm_exit *exit);
void hvpm_inject(struct hvpm_interrupt of); /* with the big lock */
#endif
