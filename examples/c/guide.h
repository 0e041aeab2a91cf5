/*
 * The VMM of docs/EMBEDDING.md, section by section: to be copied. A VMM includes it once, and defines guest_memory,
 * inject and stop. tests/embed/guide.c is such a program, with a guest.
 */
#include "hvpm_guest.h"
#include "hvpm_pages.h"
#include <pthread.h>
#include <stdio.h>
#include <string.h>

enum { VPS = 2 };
static hvpm_pages vcpus[1 + VPS];                         // vcpus[0] is the root's: the VMM itself
static hvpm_machine machine = HVPM_EMPTY;
static pthread_rwlock_t lock = PTHREAD_RWLOCK_INITIALIZER;  // of the machine, of vcpus and of own
static const hvpm_caller root = {1, 0};
static uint64_t child;
static hvpm_guest own;                                    // the child's MSRs that aren't the machine's
void *guest_memory(uint64_t address, size_t size);        // where it is; NULL unless all of it is the guest's
void inject(hvpm_caller at, uint8_t vector);              // an edge at its interrupt controller; ends HLT
_Noreturn void stop(const char *why);
static void before(uint64_t partition), after(const hvpm_effect *effect), move(hvpm_pages *vcpu);   // "Pages"
static bool served(uint32_t status, const hvpm_reply *reply) {
    return status == HVPM_STATUS_OK && (reply->kind == HVPM_REPLY_SERVED || reply->kind == HVPM_REPLY_MORE);
}

/* ---- Boot ---- */

static bool boot(void) {
    const hvpm_config config = {.mask = 0xf700000064, .pages = 64, .pool = 32, .vps = 1};
    const uint32_t flags = HVPM_PRIVILEGE_FLAGS;
    const uint64_t mask = 0x3000000064;
    hvpm_reply reply, *to = &reply;
    bool ok = hvpm_boot(&machine, &config) == HVPM_STATUS_OK
        && served(hvpm_create_partition(&machine, root, 0, &child, to, NULL, 0), to)
        && served(hvpm_set_partition_property(&machine, root, child, flags, mask, to, NULL, 0), to)
        && served(hvpm_initialize_partition(&machine, root, child, to, NULL, 0), to);
    uint64_t pages[16];                                   // 4 for each processor, 1 a port or connection
    size_t made = 0;
    for (uint64_t i = 0; i < 16; i++) pages[i] = 32 + i;
    ok = ok && served(hvpm_deposit_pages(&machine, root, child, pages, 16, &made, to), to) && made == 16;
    for (uint32_t vp = 0; ok && vp < VPS; vp++)
        ok = served(hvpm_create_vp(&machine, root, child, vp, to, NULL, 0), to);
    for (uint32_t i = 0; i <= VPS; i++) vcpus[i].of = i == 0 ? root : (hvpm_caller){child, i - 1};
    return ok;
}

/* ---- Identity ---- */

static uint64_t mask_of(uint64_t partition) {             // a look: with the reader's lock, or the writer's
    hvpm_partition is;
    return hvpm_peek_partition(&machine, partition, &is) == HVPM_STATUS_OK ? is.mask : 0;
}
static void cpuid(uint32_t leaf, uint32_t regs[4]) {
    pthread_rwlock_rdlock(&lock);
    const uint64_t mask = mask_of(child);
    pthread_rwlock_unlock(&lock);
    if (!hvpm_guest_cpuid(leaf, mask, 0, regs)) memset(regs, 0, 4 * sizeof *regs);
}

static bool read_msr(hvpm_pages *vcpu, uint32_t msr, uint64_t *value) {      // false: inject #GP
    hvpm_reply reply;
    pthread_rwlock_wrlock(&lock);
    const uint32_t access = hvpm_guest_read_msr(&own, vcpu->of.vp, mask_of(child), msr, value);
    const bool ok = access == HVPM_GUEST_DONE
        || (access == HVPM_GUEST_MACHINE
            && served(hvpm_read_msr_value(&machine, vcpu->of, msr, value, &reply, NULL, 0), &reply));
    pthread_rwlock_unlock(&lock);
    return ok;
}
static bool write_msr(hvpm_pages *vcpu, uint32_t msr, uint64_t value) {      // false: inject #GP
    void *page = guest_memory(value & ~UINT64_C(4095), 4096);
    hvpm_reply reply;
    pthread_rwlock_wrlock(&lock);
    const uint32_t access = hvpm_guest_write_msr(&own, vcpu->of.vp, mask_of(child), msr, value, page);
    bool ok = access == HVPM_GUEST_DONE || access == HVPM_GUEST_CODE;
    if (access == HVPM_GUEST_CODE) memcpy(page, (const uint8_t[]){0x0F, 0x01, 0xC1, 0xC3}, 4);
    if (access == HVPM_GUEST_MACHINE) {
        if (hvpm_pages_before(&machine, vcpu) != HVPM_STATUS_OK) stop("a slot isn't cleared");   // for EOM
        ok = served(hvpm_write_msr(&machine, vcpu->of, msr, value, &reply, NULL, 0), &reply);
        if (ok && (msr == HVPM_MSR_SIMP || msr == HVPM_MSR_SIEFP)) move(vcpu);
        if (ok) after(&reply.effect);
    }
    pthread_rwlock_unlock(&lock);
    return ok;
}

/* ---- Exits ---- */

enum outcome { RETURN, AGAIN, UNDEFINED };     // RIP behind the instruction, RIP at it, #UD at it
static void before_call(const hvpm_pages *vcpu, uint64_t code, const uint8_t *input, size_t size) {
    hvpm_connection to;
    uint64_t id;
    if (size < sizeof id) return;
    memcpy(&id, input, sizeof id);
    if (code == HVPM_CALL_POST_MESSAGE                        // through this connection
        && hvpm_peek_connection(&machine, vcpu->of.partition, (uint32_t)id, &to) == HVPM_STATUS_OK)
        before(to.port_partition);
    if (code == HVPM_CALL_SET_VP_REGISTERS) before(id == UINT64_MAX ? vcpu->of.partition : id);   // maybe EOM
}
static enum outcome hypercall(hvpm_pages *vcpu, hvpm_guest_cpu *cpu) {
    hvpm_registers at;
    if (!hvpm_guest_call(cpu, &at)) return UNDEFINED;
    const bool reads = hvpm_guest_has_input(&at), writes = hvpm_guest_has_output(&at);
    const size_t size = reads ? 4096 - at.rdx % 4096 : 0;
    const void *from = reads ? guest_memory(at.rdx, size) : NULL;
    uint8_t input[4096], *to = writes ? guest_memory(at.r8, 4096 - at.r8 % 4096) : NULL;
    hvpm_reply reply = {.kind = HVPM_REPLY_MORE};
    uint32_t status = HVPM_STATUS_OK;
    if ((reads && !from) || (writes && !to)) return hvpm_guest_return(cpu, hvpm_guest_no_list(&at)), RETURN;
    if (from) memcpy(input, from, size);
    pthread_rwlock_wrlock(&lock);
    before_call(vcpu, at.rcx & 0xFFFF, input, from ? size : 0);
    while (reply.kind == HVPM_REPLY_MORE) {
        status = hvpm_hypercall(&machine, vcpu->of, &at, input, size, &reply, NULL, 0);
        if (status != HVPM_STATUS_OK) break;
        if (to) memcpy(to + (at.rcx >> 48 & 0xFFF) * reply.output_len, reply.output, reply.output_len);
        if ((at.rcx & 0xFFFF) == HVPM_CALL_SET_VP_REGISTERS)
            for (uint32_t i = 1; i <= VPS; i++) move(&vcpus[i]);
        after(&reply.effect);
        if (reply.kind == HVPM_REPLY_MORE) at.rcx = hvpm_next(at.rcx, &reply);
    }
    pthread_rwlock_unlock(&lock);
    if (status == HVPM_STATUS_MEMORY) return hvpm_guest_again(cpu, &at), AGAIN;
    if (status != HVPM_STATUS_OK) stop("the library refuses a hypercall");
    return hvpm_guest_return(cpu, reply.result), RETURN;
}

/* ---- Pages ---- */

static hvpm_pages *processors_of(uint64_t partition, uint32_t *count) {
    *count = partition == root.partition ? 1 : partition == child ? VPS : 0;
    return partition == root.partition ? vcpus : vcpus + 1;
}
static void before(uint64_t partition) {                  // before a post to a port of this partition
    uint32_t count;
    hvpm_pages *at = processors_of(partition, &count);
    for (uint32_t i = 0; i < count; i++)
        if (hvpm_pages_before(&machine, &at[i]) != HVPM_STATUS_OK) stop("a slot isn't cleared");
}
static void after(const hvpm_effect *effect) {            // after every event: the processors that it names
    const bool is_all = effect->kind == HVPM_EFFECT_PARTITION;
    uint32_t count;
    hvpm_pages *at = processors_of(effect->partition, &count);
    for (uint32_t i = is_all ? 0 : effect->vp; i < count; i = is_all ? i + 1 : count) {
        if (hvpm_pages_after(&machine, &at[i], effect) != HVPM_STATUS_OK) stop("a page isn't up to date");
        for (uint8_t v; hvpm_pages_vector(&machine, &at[i], &v) == HVPM_STATUS_OK && v != 0;)
            inject(at[i].of, v);
    }
}
static void move(hvpm_pages *vcpu) {                      // after a write of SIMP or SIEFP
    void *at[2] = {NULL, NULL};
    const uint32_t msr[2] = {HVPM_MSR_SIMP, HVPM_MSR_SIEFP};
    uint64_t value;
    for (uint32_t i = 0; i < 2; i++)
        if (hvpm_peek_msr(&machine, vcpu->of, msr[i], &value) == HVPM_STATUS_OK && value & 1)
            at[i] = guest_memory(value & ~UINT64_C(4095), 4096);
    if (hvpm_pages_move(&machine, vcpu, at[0], at[1]) != HVPM_STATUS_OK) stop("a page isn't moved");
}

/* ---- Looks and recording ---- */

static hvpm_record record;                                // machine.record = &record, before hvpm_boot
static void keep(hvpm_text *text, FILE *file) {           // with the lock
    fwrite(text->at, 1, text->len, file);
    text->len = 0;
}
