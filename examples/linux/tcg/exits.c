/*
 * What of a guest's execution in QEMU's TCG is an exit: CPUID 0x40000000 to 0x400000FF, MSRs 0x40000000 to
 * 0x400001FF, and OUT to the hypercall page's port. The linker leads QEMU's calls of five of its functions
 * here, and this file calls them for all else. Who serves an exit is another file: hvpm.c asks a VMM in
 * another process, and examples/qemu serves it in QEMU's own.
 */
#include "qemu/osdep.h"
#include "qemu/main-loop.h"
#include "cpu.h"
#include "exec/cpu-common.h"
#include "exec/exec-all.h"
#include "hw/i386/apic_internal.h"
#include "tcg/helper-tcg.h"
#include "hvpm_exits.h"

/* `ld --wrap` gives these names: a call of NAME goes to __wrap_NAME, and NAME itself is __real_NAME. */
void __real_helper_cpuid(CPUX86State *env);
void __real_helper_rdmsr(CPUX86State *env);
void __real_helper_wrmsr(CPUX86State *env);
void __real_helper_outl(CPUX86State *env, uint32_t port, uint32_t data);
int __real_apic_get_interrupt(DeviceState *dev);
void __wrap_helper_cpuid(CPUX86State *env);
void __wrap_helper_rdmsr(CPUX86State *env);
void __wrap_helper_wrmsr(CPUX86State *env);
void __wrap_helper_outl(CPUX86State *env, uint32_t port, uint32_t data);
int __wrap_apic_get_interrupt(DeviceState *dev);

struct hvpm_entry (*hvpm_serve)(unsigned vp, const struct hvpm_exit *exit);

static struct hvpm_entry exit_of(CPUX86State *env, struct hvpm_exit exit)
{
    static const uint8_t code[] = HVPM_CODE;
    struct hvpm_entry entry = hvpm_serve(env_cpu(env)->cpu_index, &exit);

    if (entry.code_at != 0) {
        cpu_physical_memory_write(entry.code_at, code, sizeof code);
    }
    return entry;
}

static bool is_ours(CPUX86State *env, uint32_t number, uint32_t count)
{
    return hvpm_serve && number >= 0x40000000 && number - 0x40000000 < count;
}

/* Each call of the real function stands last, so that the compiler makes it a jump
 * (-foptimize-sibling-calls): the callee takes its return address for a place in the translated code. */
void __wrap_helper_cpuid(CPUX86State *env)
{
    uint32_t leaf = env->regs[R_EAX];

    if (is_ours(env, leaf, 0x100)) {
        struct hvpm_entry entry = exit_of(env, (struct hvpm_exit){.kind = HVPM_CPUID, .number = leaf});
        env->regs[R_EAX] = entry.leaf[0];
        env->regs[R_EBX] = entry.leaf[1];
        env->regs[R_ECX] = entry.leaf[2];
        env->regs[R_EDX] = entry.leaf[3];
        return;
    }
    __real_helper_cpuid(env);
}

void __wrap_helper_rdmsr(CPUX86State *env)
{
    uint32_t msr = env->regs[R_ECX];

    if (is_ours(env, msr, 0x200)) {
        struct hvpm_entry entry = exit_of(env, (struct hvpm_exit){.kind = HVPM_RDMSR, .number = msr});
        if (!entry.served) {
            raise_exception_err_ra(env, EXCP0D_GPF, 0, GETPC());
        }
        env->regs[R_EAX] = (uint32_t)entry.value;
        env->regs[R_EDX] = entry.value >> 32;
        return;
    }
    __real_helper_rdmsr(env);
}

void __wrap_helper_wrmsr(CPUX86State *env)
{
    uint32_t msr = env->regs[R_ECX];

    if (is_ours(env, msr, 0x200)) {
        uint64_t value = env->regs[R_EDX] << 32 | (uint32_t)env->regs[R_EAX];
        struct hvpm_entry entry =
            exit_of(env, (struct hvpm_exit){.kind = HVPM_WRMSR, .number = msr, .value = value});
        if (!entry.served) {
            raise_exception_err_ra(env, EXCP0D_GPF, 0, GETPC());
        }
        return;
    }
    __real_helper_wrmsr(env);
}

static struct hvpm_exit hypercall_of(CPUX86State *env)
{
    return (struct hvpm_exit){
        .kind = HVPM_HYPERCALL,
        .rax = env->regs[R_EAX], .rbx = env->regs[R_EBX], .rcx = env->regs[R_ECX],
        .rdx = env->regs[R_EDX], .rsi = env->regs[R_ESI], .rdi = env->regs[R_EDI], .r8 = env->regs[8],
        .is_64_bit = (env->hflags & HF_CS64_MASK) != 0,
        .is_protected = (env->cr[0] & CR0_PE_MASK) != 0,
        .cpl = env->hflags & HF_CPL_MASK,
    };
}

/* A process may get here, too, where its kernel lets it write to ports. */
void __wrap_helper_outl(CPUX86State *env, uint32_t port, uint32_t data)
{
    if (hvpm_serve && port == HVPM_PORT) {
        struct hvpm_entry entry = exit_of(env, hypercall_of(env));
        if (!entry.served) {
            raise_exception_ra(env, EXCP06_ILLOP, GETPC());
        }
        env->regs[R_EAX] = entry.rax;
        env->regs[R_EDX] = entry.rdx;
        return;
    }
    __real_helper_outl(env, port, data);
}

/* The vectors with AutoEOI, by the processor's APIC. The big lock guards them. */
static uint32_t auto_eoi[256][8];

/* A processor takes the next vector: one with AutoEOI is ended at once. */
int __wrap_apic_get_interrupt(DeviceState *dev)
{
    int vector = __real_apic_get_interrupt(dev);

    if (dev && vector >= 0) {
        APICCommonState *s = APIC_COMMON(dev);
        uint32_t ended = auto_eoi[s->id][vector / 32] & 1u << vector % 32;
        s->isr[vector / 32] &= ~ended;
        if (ended) {
            apic_poll_irq(dev);
        }
    }
    return vector;
}

void hvpm_inject(struct hvpm_interrupt of)
{
    auto_eoi[of.vp % 256][of.vector / 32] &= ~(1u << of.vector % 32);
    auto_eoi[of.vp % 256][of.vector / 32] |= (uint32_t)of.has_auto_eoi << of.vector % 32;
    apic_deliver_irq(of.vp, 0, 0, of.vector, 0);
}
