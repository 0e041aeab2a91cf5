/*
 * An exit as QEMU's TCG hands it over (tcg/exits.c), and the answer: for a VMM in another process (tcg.c),
 * and for one in QEMU's own (examples/qemu).
 */
#include "core.h"
#include "../tcg/exits.h"

struct hvpm_entry take_exit(struct vcpu *vcpu, const struct hvpm_exit *exit) {
    hvpm_guest_cpu cpu = {exit->rax, exit->rbx, exit->rcx,       exit->rdx,          exit->rsi,
                          exit->rdi, exit->r8,  exit->is_64_bit, exit->is_protected, exit->cpl};
    struct hvpm_entry entry = {0};
    vcpu->code_at = 0;
    switch (exit->kind) {
    case HVPM_CPUID: (void)identity_cpuid(vcpu->guest, exit->number, entry.leaf); break;
    case HVPM_RDMSR: entry.served = identity_rdmsr(vcpu, exit->number, &entry.value); break;
    case HVPM_WRMSR: entry.served = identity_wrmsr(vcpu, exit->number, exit->value); break;
    case HVPM_HYPERCALL: entry.served = identity_hypercall(vcpu, &cpu); break;
    }
    entry.rax = cpu.rax, entry.rdx = cpu.rdx;
    entry.code_at = vcpu->code_at;
    return entry;
}
