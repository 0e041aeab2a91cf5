/*
 * Hyper-V as a guest meets it, by include/hvpm_guest.h: CPUID leaves, the MSRs that are the VMM's own, the
 * hypercall page, and the way to the machine for all else.
 */
#include "core.h"
#include <inttypes.h>
#include <string.h>

/* The machine's lock guards the guest's own MSRs, too. */
static uint64_t enter_for_mask(const struct guest *guest) {
    hvpm_partition is = {0};
    if (hvpm_peek_partition(core_enter(), guest->id, &is) != HVPM_STATUS_OK)
        die("the guest has no partition");
    return is.mask;
}

bool identity_cpuid(struct guest *guest, uint32_t index, uint32_t leaf[4]) {
    const bool is_leaf = hvpm_guest_cpuid(index, enter_for_mask(guest), 0, leaf);
    core_leave(HVPM_STATUS_OK, NULL);
    return is_leaf;
}

bool identity_rdmsr(struct vcpu *vcpu, uint32_t msr, uint64_t *value) {
    struct guest *guest = vcpu->guest;
    const uint64_t mask = enter_for_mask(guest);
    const enum hvpm_guest_access access =
        hvpm_guest_read_msr(&guest->own, vcpu->pages.of.vp, mask, msr, value);
    core_leave(HVPM_STATUS_OK, NULL);
    if (access == HVPM_GUEST_MACHINE) return core_read_msr(vcpu, msr, value);
    if (access != HVPM_GUEST_DONE) note_of(guest, "RDMSR 0x%" PRIx32 ": #GP", msr);
    return access == HVPM_GUEST_DONE;
}

bool identity_wrmsr(struct vcpu *vcpu, uint32_t msr, uint64_t value) {
    struct guest *guest = vcpu->guest;
    const uint64_t at = value & ~(uint64_t)(PAGE - 1), mask = enter_for_mask(guest);
    const enum hvpm_guest_access access =
        hvpm_guest_write_msr(&guest->own, vcpu->pages.of.vp, mask, msr, value, at < guest->ram_size);
    core_leave(HVPM_STATUS_OK, NULL);
    switch (access) {
    case HVPM_GUEST_MACHINE: return core_write_msr(vcpu, msr, value);
    case HVPM_GUEST_CODE:
        guest->engine->put_code(vcpu, at);
        note_of(guest, "%" PRIu64 ".%" PRIu32 " has its hypercall page at 0x%" PRIx64, guest->id,
                vcpu->pages.of.vp, at);
        return true;
    case HVPM_GUEST_DONE: return true;
    default: note_of(guest, "WRMSR 0x%" PRIx32 " 0x%" PRIx64 ": #GP", msr, value); return false;
    }
}

/* What the IOAPIC or a device of a root is to send for an interrupt. They are the root's own here, so it is
 * what the root asks for: a vector at the lowest processor of a set, which Linux gives as one bank of 64. */
static void map_interrupt(const uint8_t *input, uint8_t *output) {
    const bool is_ioapic = input[15] >> 6 == 2, is_set = (input[60] & 2) != 0;
    const uint64_t vector = input[56], vps = hvpm_number(input + (is_set ? 80 : 64));
    const uint64_t vp = vps == 0 ? 0 : (uint64_t)__builtin_ctzll(vps);
    hvpm_put(output, is_ioapic ? 2 : 1, 8);
    hvpm_put(output + 8, is_ioapic ? vp << 56 | vector : vector << 32 | 0xFEE00000 | vp << 12, 8);
}

/* A call of a root that isn't the machine's. Answers whether it was one; another is the machine's to deny. */
static bool serve_root(struct guest *root, const hvpm_registers *call) {
    switch ((uint16_t)call->rcx) {
    case HV_CALL_ADD_LOGICAL_PROCESSOR: note("HvAddLogicalProcessor is the VMM's"); return true;
    case HV_CALL_MAP_DEVICE_INTERRUPT:
        if (call->rdx > root->ram_size - 88 || call->r8 > root->ram_size - 16) return false;
        note("HvMapDeviceInterrupt is the VMM's: vector 0x%x", root->ram[call->rdx + 56]);
        map_interrupt(root->ram + call->rdx, root->ram + call->r8);
        return true;
    case HV_CALL_UNMAP_DEVICE_INTERRUPT: return true;
    default: return false;
    }
}

/* The input list is copied up to the end of its page, before the lock: no list crosses a page, and the guest
 * may write meanwhile. A list that isn't in the guest's memory is this VMM's to refuse. */
static uint64_t serve_call(struct vcpu *vcpu, const hvpm_registers *call) {
    static _Thread_local uint8_t input[PAGE];
    const struct guest *guest = vcpu->guest;
    const bool reads = hvpm_guest_has_input(call), writes = hvpm_guest_has_output(call);
    const size_t len = reads ? PAGE - call->rdx % PAGE : 0, room = writes ? PAGE - call->r8 % PAGE : 0;
    if (guest->id == 1 && serve_root(vcpu->guest, call)) return 0;
    if ((reads && call->rdx >= guest->ram_size) || (writes && call->r8 >= guest->ram_size))
        return hvpm_guest_no_list(call);
    if (reads) memcpy(input, guest->ram + call->rdx, len);
    return core_call(vcpu, call, input, len, writes ? guest->ram + call->r8 : NULL, room);
}

bool identity_hypercall(struct vcpu *vcpu, hvpm_guest_cpu *cpu) {
    hvpm_registers call;
    if (!hvpm_guest_call(cpu, &call)) {
        note_of(vcpu->guest, "%" PRIu64 ".%" PRIu32 " makes a hypercall outside its kernel: #UD",
                vcpu->pages.of.partition, vcpu->pages.of.vp);
        return false;
    }
    hvpm_guest_return(cpu, serve_call(vcpu, &call));
    return true;
}

/* The guest's processors were reset. The library has no such call: each is deleted and made
 * anew, by the partition's parent. */
void identity_reset(struct guest *guest) {
    hvpm_reply reply;
    note("partition %" PRIu64 " was reset", guest->id);
    guest->own = (hvpm_guest){0};
    for (uint32_t vp = 0; vp < guest->vps; vp++) {
        core_leave(hvpm_delete_vp(core_enter(), ROOT, guest->id, vp, &reply, NULL, 0), &reply);
        if (reply.kind != HVPM_REPLY_SERVED) die("a processor can't be reset: rule P%" PRIu32, reply.rule);
        core_leave(hvpm_create_vp(core_enter(), ROOT, guest->id, vp, &reply, NULL, 0), &reply);
        if (reply.kind != HVPM_REPLY_SERVED) die("a processor can't be reset: rule P%" PRIu32, reply.rule);
    }
    vmbus_reset(guest);
}
