/*
 * hvpm_guest.h: reads hypercalls from a guest's registers, and serves the MSRs and CPUID leaves that each
 * hypervisor needs (TLFS 4.0, "Hypercall Interface" and "Feature and Interface Discovery"). The functions are
 * plain code over plain structs. None touches a machine or guest memory, injects anything or keeps a pointer.
 *
 * A hypercall, from its exit to its return:
 *
 *     hvpm_guest_cpu cpu = ...;                     // the registers and the mode, from the exit
 *     hvpm_registers call;
 *     if (!hvpm_guest_call(&cpu, &call)) ...        // inject #UD; there is no event
 *     ... hvpm_hypercall(&machine, by, &call, input, input_len, &reply, NULL, 0) ...
 *     if (reply.kind == HVPM_REPLY_MORE) call.rcx = hvpm_next(call.rcx, &reply);  // at once, or later:
 *     hvpm_guest_again(&cpu, &call);                // the guest calls again: leave RIP at the instruction
 *     hvpm_guest_return(&cpu, reply.result);        // the call is over: advance RIP past the instruction
 *
 * An access to an MSR from 0x40000000 on:
 *
 *     switch (hvpm_guest_read_msr(&guest, vp, mask, msr, &value)) {
 *     case HVPM_GUEST_DONE: ...                     // EDX:EAX = value
 *     case HVPM_GUEST_FAULT: ...                    // inject #GP(0)
 *     case HVPM_GUEST_MACHINE: ...                  // hvpm_read_msr_value
 *     case HVPM_GUEST_OTHER: ...                    // an MSR that you serve, or else #GP(0)
 *     }
 */
#ifndef HVPM_GUEST_H
#define HVPM_GUEST_H

#include "hvpm.h"

/* ---- Hypercalls ---- */

/*
 * A guest's processor at the instruction of a hypercall: the general registers that a convention uses, and
 * the mode. Outside 64-bit code, the upper halves of the registers are ignored.
 */
typedef struct hvpm_guest_cpu {
    uint64_t rax, rbx, rcx, rdx, rsi, rdi, r8;
    bool is_64_bit;    /* it executes 64-bit code: EFER.LMA and the L bit of CS are 1 */
    bool is_protected; /* CR0.PE is 1 */
    uint8_t cpl;       /* the current privilege level, 0 to 3: the DPL of SS */
} hvpm_guest_cpu;

/* Helper: joins two 32-bit registers. */
static inline uint64_t hvpm_guest_pair(uint64_t high, uint64_t low) {
    return high << 32 | (uint32_t)low;
}

/*
 * Reads a hypercall from the registers, by the convention of the code that makes it:
 *
 *                                       64-bit code    any other code
 *     input value                       RCX            EDX:EAX
 *     input list, or fast input 0 to 7  RDX            EBX:ECX
 *     output list, or fast input 8 to 15   R8          EDI:ESI
 *
 * Returns false if the processor may not call: its CPL isn't 0, or it is in real mode. Inject #UD then, with
 * RIP at the instruction; `call` isn't written, and the machine takes no event.
 */
HVPM_INLINE bool hvpm_guest_call(const hvpm_guest_cpu *cpu, hvpm_registers *call) {
    if (cpu->cpl != 0 || !cpu->is_protected) return false;
    if (cpu->is_64_bit) {
        call->rcx = cpu->rcx, call->rdx = cpu->rdx, call->r8 = cpu->r8;
    } else {
        call->rcx = hvpm_guest_pair(cpu->rdx, cpu->rax);
        call->rdx = hvpm_guest_pair(cpu->rbx, cpu->rcx);
        call->r8 = hvpm_guest_pair(cpu->rdi, cpu->rsi);
    }
    return true;
}

/*
 * Ends a hypercall with its result: RAX, or EDX:EAX outside 64-bit code. `result` is `reply.result` of the
 * last element. No other register changes. Then advance RIP past the instruction.
 */
HVPM_INLINE void hvpm_guest_return(hvpm_guest_cpu *cpu, uint64_t result) {
    cpu->rax = cpu->is_64_bit ? result : (uint32_t)result;
    if (!cpu->is_64_bit) cpu->rdx = result >> 32;
}

/*
 * Lets the guest make the call again: after HVPM_STATUS_MEMORY, or for the rest of a rep call, whose start
 * index hvpm_next() has put into `call->rcx`. The input value goes back to RCX, or to EDX:EAX outside 64-bit
 * code. Leave RIP at the instruction; the guest may take an interrupt first.
 */
HVPM_INLINE void hvpm_guest_again(hvpm_guest_cpu *cpu, const hvpm_registers *call) {
    if (cpu->is_64_bit) cpu->rcx = call->rcx;
    else hvpm_guest_return(cpu, call->rcx);
}

/*
 * Returns whether a hypercall has an input list in memory, at `call->rdx`. A fast call has none, nor has
 * HvGetPartitionId, nor a code that the machine doesn't know.
 */
HVPM_INLINE bool hvpm_guest_has_input(const hvpm_registers *call) {
    const uint16_t code = (uint16_t)call->rcx;
    return !(call->rcx >> 16 & 1) && code != 0x46 && hvpm_is_call(code);
}

/* Returns whether a hypercall has an output list in memory, at `call->r8`. A fast call has none. */
HVPM_INLINE bool hvpm_guest_has_output(const hvpm_registers *call) {
    static const uint8_t codes[] = {0x40, 0x44, 0x46, 0x47, 0x49, 0x4A, 0x50};
    const uint16_t code = (uint16_t)call->rcx;
    return !(call->rcx >> 16 & 1) && code < 0x100 && __builtin_memchr(codes, code, sizeof codes) != NULL;
}

/*
 * Returns the result value for a call with a list that isn't in the guest's memory:
 * HV_STATUS_INVALID_ALIGNMENT, with the start index as the number of completed repetitions. The machine takes
 * no event.
 */
HVPM_INLINE uint64_t hvpm_guest_no_list(const hvpm_registers *call) {
    return 4 | (call->rcx >> 48 & 0xFFF) << 32;
}

/* ---- The hypervisor's own registers ---- */

/* MSRs that the machine doesn't have and each hypervisor needs. */
enum hvpm_guest_msr {
    HVPM_MSR_GUEST_OS_ID = 0x40000000,   /* per partition: the guest OS id, 0 at first */
    HVPM_MSR_HYPERCALL = 0x40000001,     /* per partition: where its hypercall page is */
    HVPM_MSR_REFERENCE_TSC = 0x40000021, /* per partition: where its TSC page is */
    HVPM_MSR_VP_ASSIST_PAGE = 0x40000073 /* per processor */
};

/* Their values in one partition. Initialize it with zeros, and again when the partition or guest is reset. */
typedef struct hvpm_guest {
    uint64_t os_id;
    uint64_t hypercall;  /* bit 0 the page is enabled, bit 1 locked, bits 63:12 its number */
    uint64_t assist[64]; /* by the index of the processor */
    uint64_t tsc_page;   /* bit 0 the page is enabled, bits 63:12 its number: see hvpm_guest_tsc_page() */
} hvpm_guest;

/* What the VMM does for an MSR access. */
enum hvpm_guest_access {
    HVPM_GUEST_DONE = 0,    /* nothing: it is answered, or stored */
    HVPM_GUEST_FAULT = 1,   /* inject #GP(0); nothing changed */
    HVPM_GUEST_CODE = 2,    /* writes only: it is stored; put the hypercall page's code at bits 63:12 */
    HVPM_GUEST_MACHINE = 3, /* the machine has this MSR: hvpm_read_msr_value(), or hvpm_write_msr() */
    HVPM_GUEST_OTHER = 4    /* none of these, and the mask doesn't forbid it: serve it if you have it, or
                               inject #GP(0) */
};

/*
 * The bit of a privilege mask without which a guest gets #GP at an MSR; 0 if none is needed. It covers the
 * MSRs that the TLFS puts behind a privilege, most of which neither the machine nor this header has. It leaves
 * out HVPM_MSR_REFERENCE_TSC, which the TLFS puts behind bit 9: Linux reads and writes it at each kexec without
 * asking for that, and dumps its stack after a #GP.
 */
HVPM_INLINE uint64_t hvpm_guest_privilege(uint32_t msr) {
    static const struct {
        uint32_t first, last, bit;
    } rows[] = {
        {0x40000000, 0x40000001, 5},  /* guest OS id, hypercall page: AccessHypercallMsrs */
        {0x40000002, 0x40000002, 6},  /* VP index: AccessVpIndex */
        {0x40000003, 0x40000003, 7},  /* reset: AccessResetMsr */
        {0x40000010, 0x40000010, 0},  /* VP run time: AccessVpRunTimeMsr */
        {0x40000020, 0x40000020, 1},  /* reference time: AccessPartitionReferenceCounter */
        {0x40000022, 0x40000023, 11}, /* frequencies of TSC and APIC: AccessFrequencyMsrs */
        {0x40000070, 0x40000072, 4},  /* EOI, ICR and TPR: AccessApicMsrs */
        {0x40000080, 0x40000084, 2},  /* SynIC: AccessSynicRegs */
        {0x40000090, 0x4000009F, 2},  /* SINTs: AccessSynicRegs */
        {0x400000B0, 0x400000B7, 3},  /* timers: AccessSyntheticTimerMsrs */
        {0x400000E0, 0x400000E3, 8},  /* pages of statistics: AccessStatsMsr */
        {0x400000F0, 0x400000F0, 10}, /* idle: AccessGuestIdleMsr */
    };
    for (size_t i = 0; i < sizeof rows / sizeof *rows; i++)
        if (msr >= rows[i].first && msr <= rows[i].last) return UINT64_C(1) << rows[i].bit;
    return 0;
}

/* Returns whether a partition's mask has what the MSR needs. */
HVPM_INLINE bool hvpm_guest_may(uint64_t mask, uint32_t msr) {
    return (mask & hvpm_guest_privilege(msr)) == hvpm_guest_privilege(msr);
}

/*
 * Reads an MSR for the processor `vp`, 0 to 63. `mask` is the partition's privilege mask now, as
 * hvpm_peek_partition() has it. Returns HVPM_GUEST_DONE, and only then writes `value`; or HVPM_GUEST_FAULT,
 * _MACHINE or _OTHER. The machine itself checks the mask for its own MSRs.
 */
HVPM_INLINE enum hvpm_guest_access hvpm_guest_read_msr(const hvpm_guest *guest, uint32_t vp, uint64_t mask,
                                                       uint32_t msr, uint64_t *value) {
    if (hvpm_is_msr(msr)) return HVPM_GUEST_MACHINE;
    if (!hvpm_guest_may(mask, msr)) return HVPM_GUEST_FAULT;
    switch (msr) {
    case HVPM_MSR_GUEST_OS_ID: *value = guest->os_id; return HVPM_GUEST_DONE;
    case HVPM_MSR_HYPERCALL: *value = guest->hypercall; return HVPM_GUEST_DONE;
    case HVPM_MSR_REFERENCE_TSC: *value = guest->tsc_page; return HVPM_GUEST_DONE;
    case HVPM_MSR_VP_ASSIST_PAGE: *value = guest->assist[vp % 64]; return HVPM_GUEST_DONE;
    default: return HVPM_GUEST_OTHER;
    }
}

/*
 * Helper: writes the MSR of the hypercall page. The page can't be enabled while the guest OS id is 0, nor
 * outside the guest's memory. A locked page stays until a reset.
 */
static inline enum hvpm_guest_access hvpm_guest_move_code(hvpm_guest *guest, uint64_t value, bool is_memory) {
    const bool enables = (value & 1) != 0 && guest->os_id != 0;
    if (guest->hypercall >> 1 & 1) return HVPM_GUEST_DONE;
    if (enables && !is_memory) return HVPM_GUEST_FAULT;
    guest->hypercall = enables ? value : value & ~UINT64_C(1);
    return enables ? HVPM_GUEST_CODE : HVPM_GUEST_DONE;
}

/*
 * Writes an MSR for the processor `vp`, 0 to 63. `mask` is as for a read. `is_memory` says whether the 4,096
 * bytes at bits 63:12 of `value` are memory of the guest; only HVPM_MSR_HYPERCALL asks.
 *
 * Returns HVPM_GUEST_CODE if the hypercall page is enabled now: write its code there before the guest goes
 * on, even if it was enabled before. Otherwise HVPM_GUEST_DONE, _FAULT, _MACHINE or _OTHER. A guest OS id of
 * 0 disables the hypercall page, locked or not.
 */
HVPM_INLINE enum hvpm_guest_access hvpm_guest_write_msr(hvpm_guest *guest, uint32_t vp, uint64_t mask,
                                                        uint32_t msr, uint64_t value, bool is_memory) {
    if (hvpm_is_msr(msr)) return HVPM_GUEST_MACHINE;
    if (!hvpm_guest_may(mask, msr)) return HVPM_GUEST_FAULT;
    switch (msr) {
    case HVPM_MSR_GUEST_OS_ID:
        guest->os_id = value;
        if (value == 0) guest->hypercall &= ~UINT64_C(1);
        return HVPM_GUEST_DONE;
    case HVPM_MSR_HYPERCALL: return hvpm_guest_move_code(guest, value, is_memory);
    case HVPM_MSR_REFERENCE_TSC: guest->tsc_page = value; return HVPM_GUEST_DONE;
    case HVPM_MSR_VP_ASSIST_PAGE: guest->assist[vp % 64] = value; return HVPM_GUEST_DONE;
    default: return HVPM_GUEST_OTHER;
    }
}

/* ---- CPUID ---- */

/* The bits of a mask for the MSRs that the machine and this header serve: SynIC, hypercall page, VP index. */
#define HVPM_GUEST_SERVED 0x64

/*
 * EAX, EBX, ECX and EDX of a CPUID leaf from 0x40000000 to 0x40000005, for a partition with this privilege
 * mask. Returns false for any other leaf, and then writes nothing: leaves above are zeros, and leaf 1 is the
 * processor's with bit 31 of ECX set. A VMM with features of its own adds their bits to EDX of 0x40000003.
 *
 * `served` has the bits of the MSRs that the VMM itself serves, such as bit 1 for reference time and bit 9 for
 * its page. The low half of the mask in leaf 0x40000003 announces only these and HVPM_GUEST_SERVED: a guest
 * would get #GP at any others.
 *
 * Leaf 0x40000004 tells the guest not to use AutoEOI (bit 9 of EAX), which the machine ignores, and never to
 * report long spinning (EBX). Build and version, in leaf 0x40000002, are arbitrary.
 */
HVPM_INLINE bool hvpm_guest_cpuid(uint32_t leaf, uint64_t mask, uint32_t served,
                                  uint32_t eax_to_edx[4]) {
    const uint32_t leaves[][4] = {
        {0x40000005, 0x7263694D, 0x666F736F, 0x76482074}, /* the last leaf, and "Microsoft Hv" */
        {0x31237648, 0, 0, 0},                            /* "Hv#1": this interface */
        {20348, 10u << 16, 0, 0},                         /* build, and version 10.0 */
        {(uint32_t)mask & (HVPM_GUEST_SERVED | served), (uint32_t)(mask >> 32), 0, 0}, /* privileges */
        {1u << 9, 0xFFFFFFFF, 0, 0},                      /* recommendations */
        {64, 64, 0, 0}};                                  /* most virtual and logical processors */
    const uint32_t index = leaf - 0x40000000; /* of a lower leaf a large one */
    if (index >= sizeof leaves / sizeof *leaves) return false;
    __builtin_memcpy(eax_to_edx, leaves[index], sizeof *leaves);
    return true;
}

/* ---- Reference time ---- */

/*
 * A partition's reference time counts units of 100 ns (TLFS 4.0, "Timers"). It is TSC * scale / 2^64 + offset,
 * here and in the guest, which computes it from the page. A VMM that serves it has bit 1 (MSR 0x40000020) or
 * bit 9 (the page) in the mask and in `served`.
 *
 * hvpm_guest_tsc_scale() returns the scale for a TSC of this frequency, which is above 10,000,000 Hz;
 * otherwise 0. The offset is minus the reference time that the TSC alone gives where the partition's time
 * begins, or where a restored one goes on.
 */
HVPM_INLINE uint64_t hvpm_guest_tsc_scale(uint64_t frequency) {
    uint64_t rest = 10000000, scale = 0;
    if (frequency <= rest) return 0;
    for (uint32_t i = 0; i < 64; i++) { /* 10,000,000 * 2^64 / frequency */
        const bool is_over = rest >= frequency - rest;
        scale = scale << 1 | is_over;
        rest = is_over ? rest - (frequency - rest) : 2 * rest;
    }
    return scale;
}

/* Returns the reference time at this TSC: the value of MSR 0x40000020. */
HVPM_INLINE uint64_t hvpm_guest_reference_time(uint64_t tsc, uint64_t scale, int64_t offset) {
    const uint64_t low = (uint32_t)tsc, high = tsc >> 32;
    const uint64_t by_low = (uint32_t)scale, by_high = scale >> 32;
    const uint64_t middle = high * by_low + (low * by_low >> 32), rest = low * by_high + (uint32_t)middle;
    return high * by_high + (middle >> 32) + (rest >> 32) + (uint64_t)offset;
}

/*
 * Writes the first 24 bytes of the reference TSC page, the others being zero. After a guest enabled the page by
 * HVPM_MSR_REFERENCE_TSC, copy them to bits 63:12 of `tsc_page`. `sequence` is neither 0 nor 0xFFFFFFFF, with
 * which the guest reads the MSR instead, and is another one after each change. While other processors may read
 * the page, write its first 4 bytes as 0 first, then bytes 8 to 23, and the sequence last.
 */
HVPM_INLINE void hvpm_guest_tsc_page(uint32_t sequence, uint64_t scale, int64_t offset, uint8_t page[24]) {
    __builtin_memset(page, 0, 24);
    __builtin_memcpy(page, &sequence, sizeof sequence);
    __builtin_memcpy(page + 8, &scale, sizeof scale);
    __builtin_memcpy(page + 16, &offset, sizeof offset);
}

#endif
