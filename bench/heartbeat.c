/*
 * What a heartbeat costs, at 1 processor and at 64: the root signals an event, the processor takes the
 * interrupt, finds the flag in its page, and answers by a signal, whose interrupt and flag the root takes. A
 * VMM that follows docs/EMBEDDING.md makes all of it. Prints the calls of the library, events and looks, and
 * nanoseconds of processor time. Run by embed.sh. The status is 1 where a heartbeat takes more than 8 calls,
 * or isn't answered.
 */
#include "bench.h"

static unsigned long long looks;
#define hvpm_peek_slot(...) (looks++, hvpm_peek_slot(__VA_ARGS__))
#define hvpm_peek_flags(...) (looks++, hvpm_peek_flags(__VA_ARGS__))
#include "hvpm_pages.h"

enum { MOST = 64, SINT = 2, VECTOR = 0xF3, CALLS = 8, HEARTBEATS = 200000, PAGE = 4096 };

static hvpm_machine machine = HVPM_EMPTY;

/* The root's processor, and then the guest's. Each has two pages, and the vector that was injected last. */
static struct processor {
    uint8_t memory[2][PAGE] __attribute__((aligned(4096)));
    hvpm_pages pages;
    uint8_t injected;
} processors[1 + MOST];

/*
 * A signal, what it changes of pages, and the vectors that it raises: at the
 * processor that the effect names.
 */
static void signal_event(const struct processor *from, uint32_t connection) {
    uint8_t vector;
    served(hvpm_signal_event(&machine, from->pages.of, connection, 0, &reply, NULL, 0));
    struct processor *at = &processors[reply.effect.partition == 1 ? 0 : 1 + reply.effect.vp];
    want(hvpm_pages_after(&machine, &at->pages, &reply.effect) == HVPM_STATUS_OK);
    while (hvpm_pages_vector(&machine, &at->pages, &vector) == HVPM_STATUS_OK && vector != 0)
        at->injected = vector;
}

/* A guest takes its interrupt, and clears flag 0 of its SINT, in its page and without a call. */
static void take(struct processor *at) {
    want(at->injected == VECTOR);
    want(__atomic_fetch_and(&at->pages.flags[256 * SINT], (uint8_t)~1u, __ATOMIC_SEQ_CST) & 1);
    at->injected = 0;
}

static void heartbeat(struct processor *guest, uint32_t vp) {
    signal_event(&processors[0], vp);
    take(guest);
    signal_event(guest, MOST + vp);
    take(&processors[0]);
}

static void turn_on(struct processor *at, hvpm_caller of) {
    const uint32_t msrs[] = {HVPM_MSR_SCONTROL, HVPM_MSR_SIEFP, HVPM_MSR_SIMP, HVPM_MSR_SINT0 + SINT};
    const uint64_t values[] = {1, 1, 1, VECTOR};
    memset(at, 0, sizeof *at);
    at->pages.of = of;
    for (size_t i = 0; i < 4; i++) served(hvpm_write_msr(&machine, of, msrs[i], values[i], &reply, NULL, 0));
    want(hvpm_pages_move(&machine, &at->pages, at->memory[0], at->memory[1]) == HVPM_STATUS_OK);
}

/* A port of one event flag at a processor, and the connection to it, both with one id. */
static void connect(hvpm_caller by, hvpm_caller from, hvpm_caller to, uint32_t id) {
    const hvpm_port port = {to.partition, id, from.partition, HVPM_PORT_EVENTS, SINT, to.vp, 0, 1};
    const hvpm_connection connection = {from.partition, id, to.partition, id, HVPM_PORT_EVENTS};
    served(hvpm_create_port(&machine, by, &port, &reply, NULL, 0));
    served(hvpm_connect_port(&machine, by, &connection, &reply, NULL, 0));
}

static void set_up(uint32_t vps) {
    const hvpm_config config = {.mask = 0xf700000064, .pages = 1024, .pool = 256, .vps = 1};
    uint64_t guest = 0, pages[512];
    want(hvpm_boot(&machine, &config) == HVPM_STATUS_OK);
    served(hvpm_create_partition(&machine, root, 0, &guest, &reply, NULL, 0));
    served(hvpm_set_partition_property(&machine, root, guest, HVPM_PRIVILEGE_FLAGS, 0x3000000064, &reply,
                                       NULL, 0));
    served(hvpm_initialize_partition(&machine, root, guest, &reply, NULL, 0));
    for (uint16_t i = 0; i < 500; i++) pages[i] = 256 + i;
    for (uint16_t i = 0; i < 500; i++)
        served(hvpm_deposit_memory(&machine, root, guest, pages, 500, i, &reply, NULL, 0));
    turn_on(&processors[0], root);
    for (uint32_t vp = 0; vp < vps; vp++) {
        const hvpm_caller of = {guest, vp};
        served(hvpm_create_vp(&machine, root, guest, vp, &reply, NULL, 0));
        turn_on(&processors[1 + vp], of);
        connect(root, root, of, vp);
        connect(root, of, root, MOST + vp);
    }
}

static void measure(uint32_t vps) {
    set_up(vps);
    looks = 0;
    const uint64_t before = machine.events;
    const double start = now();
    for (uint32_t i = 0; i < HEARTBEATS && !failed; i++) heartbeat(&processors[1 + i % vps], i % vps);
    const double taken = now() - start;
    const uint64_t calls = machine.events - before + looks;
    printf("%10" PRIu32 " %20.1f %20.0f\n", vps, (double)calls / HEARTBEATS, taken / HEARTBEATS);
    want(calls <= (uint64_t)CALLS * HEARTBEATS);
    hvpm_destroy(&machine);
}

int main(void) {
    printf("%10s %20s %20s\n", "processors", "calls a heartbeat", "ns a heartbeat");
    measure(1);
    measure(MOST);
    if (failed) printf("a heartbeat takes more than %d calls, or isn't answered\n", CALLS);
    return failed;
}
