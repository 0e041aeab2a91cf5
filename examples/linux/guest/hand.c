/*
 * A 64-bit guest without an operating system, which does what Linux's drivers of VMBus do: it turns its SynIC
 * on, posts and takes messages, writes EOM, opens the channel of heartbeats, is woken from HLT by event
 * flags, answers each by a signal, and is denied a post. It needs a processor, a local APIC and a serial
 * port.
 */
#ifndef BEATS
#define BEATS 3
#endif
#define NAME "hand"
#include "bare.h"

enum { HEARTBEAT = 1, SIGNAL = 0x11 };
static volatile unsigned halts;

/* Halts until the type of a message or an event flag is there.
 * Between the look and HLT no interrupt is let in. */
static void wait_for(volatile uint32_t *word) {
    __asm__ volatile("cli");
    while (*word == 0) {
        halts++;
        __asm__ volatile("sti; hlt; cli" ::: "memory");
    }
    __asm__ volatile("sti");
}

/* The message is copied and let go, and then EOM is written if another one waits. Answers its VMBus type. */
static uint32_t take(uint32_t to[60]) {
    uint32_t *slot = (uint32_t *)(messages + 256 * SINT);
    wait_for(slot);
    for (unsigned i = 0; i < 60; i++) to[i] = slot[4 + i];
    __atomic_store_n(slot, 0, __ATOMIC_SEQ_CST);
    if (__atomic_load_n(messages + 256 * SINT + 5, __ATOMIC_SEQ_CST) & 1)
        say("hand: another waits, EOM\n"), wrmsr(0x40000084, 0);
    return to[0];
}

/* Sends each packet that came back as it is, which is an answer that the host takes.
 * Answers how many there were. */
static unsigned echo(void) {
    uint32_t *out = (uint32_t *)rings, *in = (uint32_t *)(rings + 2 * PAGE);
    unsigned count = 0;
    for (; in[1] != __atomic_load_n(&in[0], __ATOMIC_SEQ_CST); count++) {
        const uint8_t *at = rings + 3 * PAGE;
        const uint32_t from = in[1], to = out[0],
                       len = 8u * (at[(from + 4) % PAGE] | at[(from + 5) % PAGE] << 8) + 8;
        for (uint32_t i = 0; i < len; i++) rings[PAGE + (to + i) % PAGE] = at[(from + i) % PAGE];
        __atomic_store_n(&in[1], (from + len) % PAGE, __ATOMIC_SEQ_CST);
        __atomic_store_n(&out[0], (to + len) % PAGE, __ATOMIC_SEQ_CST);
    }
    return count;
}

/* Posts, and waits for the answer before it says anything: a line to the console
 * takes longer than the host does. */
static void ask(const char *what, const uint32_t *payload, uint32_t len, uint32_t m[60]) {
    const uint64_t status = post(4, payload, len);
    take(m);
    say("hand: "), say(what), say("\n");
    tell("  status", status), tell("  answer", m[0]);
}

static void connect(uint32_t m[60]) {
    const uint32_t versions[] = {0x50003, 0x50002};
    for (unsigned i = 0; i < 2; i++) {
        const uint32_t contact[10] = {14, 0, versions[i], 0, SINT};
        ask("INITIATE_CONTACT", contact, sizeof contact, m);
        tell("VERSION_RESPONSE, supported", m[2] & 0xFF);
    }
    const uint32_t request[2] = {3, 0};
    for (ask("REQUESTOFFERS", request, sizeof request, m); m[0] == 1; take(m))
        tell("offer of channel", m[46]);
    tell("message", m[0]);
}

static void open(uint32_t m[60]) {
    const uint32_t pfn = (uint32_t)((uint64_t)rings / PAGE);
    const uint32_t gpadl[15] = {8, 0, HEARTBEAT, 7, 40 | 1 << 16, 4 * PAGE, 0, pfn, 0, pfn + 1, 0, pfn + 2, 0,
                                pfn + 3, 0};
    const uint32_t channel[7] = {5, 0, HEARTBEAT, 1, 7, 0, 2};
    ask("GPADL_HEADER", gpadl, sizeof gpadl, m), tell("  its status", m[4]);
    ask("OPENCHANNEL", channel, sizeof channel, m), tell("  its status", m[4]);
}

/* Waits for event flags, and answers the packets that they stand for: the host's
 * versions, and its heartbeats. */
static void answer(void) {
    uint32_t *flags = (uint32_t *)(events + 256 * SINT);
    unsigned count = 0;
    uint64_t status = 0;
    while (count < 1 + BEATS) {
        wait_for(flags);
        __atomic_exchange_n(flags, 0, __ATOMIC_SEQ_CST);
        count += echo();
        status |= hypercall(0x1005D, SIGNAL, 0);
    }
    tell("packets answered", count), tell("  status", status);
}

__attribute__((used)) void run(void) {
    static uint32_t m[60];
    make_idt();
    turn_on();
    say("hand: SynIC on\n");
    __asm__ volatile("sti");
    connect(m);
    open(m);
    answer();
    const uint32_t unload[2] = {16, 0};
    ask("UNLOAD", unload, sizeof unload, m);
    tell("a post by a connection that isn't there, status", post(99, unload, sizeof unload));
    tell("interrupts", interrupts), tell("halts", halts);
    power_off();
}
