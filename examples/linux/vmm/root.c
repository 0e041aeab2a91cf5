/*
 * The root's processor where the root isn't a Linux: its calls, by which children, ports and connections are
 * made, and its two pages, which show what came. The library knows no difference from a guest's processor.
 */
#include "core.h"
#include <inttypes.h>
#include <string.h>

static uint8_t pages[3 * PAGE] __attribute__((aligned(4096))); /* the first is nobody's */

static void must_serve(const char *what, uint32_t status, const hvpm_reply *reply) {
    core_leave(status, reply);
    if (reply->kind == HVPM_REPLY_DENIED)
        die("%s is denied by rule P%" PRIu32 ", with status 0x%" PRIx64, what, reply->rule, reply->result);
}

/* A call that must be served, in a critical section of its own: CALL(hvpm_create_vp, id, vp). */
#define CALL(function, ...)                                                                                  \
    must_serve(#function, function(core_enter(), ROOT, __VA_ARGS__, &reply, NULL, 0), &reply)

void root_start(const struct engine *engine) {
    static const uint32_t vector = 0x30;
    struct vcpu *const vcpu = &guests[0].vcpu[0];
    guests[0].engine = engine, guests[0].ram = pages, guests[0].ram_size = sizeof pages;
    guests[0].id = 1, guests[0].vps = 1;
    vcpu->guest = &guests[0], vcpu->pages.of = ROOT;
    core_write_msr(vcpu, MSR_SIMP, PAGE | 1);
    core_write_msr(vcpu, MSR_SIEFP, 2 * PAGE | 1);
    core_write_msr(vcpu, MSR_SINT0 + ROOT_MESSAGES, vector);
    core_write_msr(vcpu, MSR_SINT0 + ROOT_EVENTS, vector + 1);
    core_write_msr(vcpu, MSR_SCONTROL, 1);
}

/* PostMessages, SignalEvents, AccessVpIndex, AccessHypercallMsrs and AccessSynicRegs.
 * A new partition lacks AccessHypercallMsrs, and Linux then doesn't take the hypervisor for Hyper-V. */
#define CHILD_MASK UINT64_C(0x3000000064)

void root_add(struct guest *guest, unsigned more) {
    const uint64_t n = (uint64_t)(guest - guests);
    const unsigned count = more + 4 * guest->vps;
    uint64_t numbers[64];
    hvpm_reply reply;
    if (count > 64) die("a child's pool has at most 64 pages");
    CALL(hvpm_create_partition, 0, &guest->id);
    CALL(hvpm_set_partition_property, guest->id, HVPM_PRIVILEGE_FLAGS, CHILD_MASK);
    for (unsigned i = 0; i < count; i++) numbers[i] = 64 * n + 64 + i;
    for (unsigned at = 0; at < count; at++)
        CALL(hvpm_deposit_memory, guest->id, numbers, (uint16_t)count, (uint16_t)at);
    CALL(hvpm_initialize_partition, guest->id);
    for (uint32_t vp = 0; vp < guest->vps; vp++) {
        CALL(hvpm_create_vp, guest->id, vp);
        guest->vcpu[vp].guest = guest;
        guest->vcpu[vp].pages.of = (hvpm_caller){guest->id, vp};
    }
}

void root_connect(const hvpm_port *port, uint32_t connection) {
    const hvpm_connection to = {port->peer, connection, port->partition, port->id, port->type};
    hvpm_reply reply;
    CALL(hvpm_create_port, port);
    CALL(hvpm_connect_port, &to);
}

void root_disconnect(const hvpm_port *port, uint32_t connection) {
    hvpm_reply reply;
    CALL(hvpm_disconnect_port, port->peer, connection);
    CALL(hvpm_delete_port, port->partition, port->id);
}

static hvpm_slot *slot(void) { return (hvpm_slot *)(pages + PAGE) + ROOT_MESSAGES; }

const hvpm_slot *root_message(void) {
    return __atomic_load_n(&slot()->type, __ATOMIC_ACQUIRE) == 0 ? NULL : slot();
}

/* As a guest does: frees the slot, and writes EOM where another message waits. */
void root_let_go(void) {
    __atomic_store_n(&slot()->type, 0, __ATOMIC_SEQ_CST);
    if (__atomic_load_n(&slot()->flags, __ATOMIC_SEQ_CST) & 1)
        core_write_msr(&guests[0].vcpu[0], MSR_EOM, 0);
}

uint8_t root_flags(unsigned byte) {
    return __atomic_exchange_n(pages + 2 * PAGE + 256 * ROOT_EVENTS + byte, 0, __ATOMIC_SEQ_CST);
}
