/*
 * The root partition, where it isn't a Linux: it makes the children with their ports and connections, and is
 * the host's side of VMBus: version, offers, GPADLs, channels, and the rings of two integration services,
 * heartbeat and shutdown. Its processor is a processor like any other: it has a message page and an event
 * flags page, and its interrupts wake a thread.
 */
#include "core.h"
#include <errno.h>
#include <inttypes.h>
#include <pthread.h>
#include <semaphore.h>
#include <stdio.h>
#include <string.h>
#include <time.h>
#include <unistd.h>

/* The types of VMBus's messages that this host knows, and the names of all. */
enum {
    OFFER = 1, REQUESTOFFERS = 3, ALLOFFERS = 4, OPEN = 5, OPEN_RESULT = 6, CLOSE = 7, GPADL_HEADER = 8,
    GPADL_CREATED = 10
};
enum {
    GPADL_TEARDOWN = 11, GPADL_TORNDOWN = 12, CONTACT = 14, VERSION = 15, UNLOAD = 16, UNLOADED = 17,
    NAMES = 18
};
static const char *const names[NAMES] = {
    "?", "OFFERCHANNEL", "RESCIND", "REQUESTOFFERS", "ALLOFFERS_DELIVERED", "OPENCHANNEL",
    "OPENCHANNEL_RESULT", "CLOSECHANNEL", "GPADL_HEADER", "GPADL_BODY", "GPADL_CREATED", "GPADL_TEARDOWN",
    "GPADL_TORNDOWN", "RELID_RELEASED", "INITIATE_CONTACT", "VERSION_RESPONSE", "UNLOAD", "UNLOAD_RESPONSE"};
enum { VERSION_5_2 = 0x50002 };

/* The child's SINT, which Linux turns on at each processor, and all comes to processor 0, which it names. */
enum { CHILD_SINT = 2 };

/* Ports and connections: a child's have small numbers, and the root's of child N
 * are these and N times 0x100. */
enum { MESSAGES_OLD = 1, MESSAGES = 4, TO_CHILD = 2, SIGNAL_CHILD = 3, EVENT = 0x10 };
enum { HEARTBEAT = 1, SHUTDOWN = 2, CHANNELS = 3, OUTBOX = 512 };

/* How many messages, and how many packets of a channel, the root serves before it looks at the other guests:
 * one that never stops keeps nobody waiting. */
enum { TURN = 16 };

struct channel {
    /* the ring that the guest writes ends at page `down`, and there the other begins */
    uint32_t gpadl, pages, down;
    uint64_t pfn[64];
    bool open, agreed;
};

static struct bus {
    struct guest *guest;
    struct channel channels[CHANNELS];
    unsigned contacts; /* versions that were accepted: one in each life of the guest's hv_vmbus */
    unsigned beats, stalls, losses;
    uint8_t signalled; /* bit ID: channel ID may have packets */
    uint64_t first_event, last_event; /* the machine's count of events at the first heartbeat
                                         and after the last */
    bool was_asked;                   /* to shut down or to restart */
    bool has_offers, has_unloaded;    /* it got all offers, and let VMBus go after that */
    uint8_t outbox[OUTBOX][256];      /* messages that wait for room: byte 0 is their length */
    unsigned sent, posted;
    _Atomic bool is_full; /* the port took no more, and no slot of the guest was freed since */
} buses[MAX_GUESTS];

/* of all buses; the machine's lock is taken inside it */
static pthread_mutex_t bus_lock = PTHREAD_MUTEX_INITIALIZER;

/* ---- the root's processor ---- */

static sem_t raised;

static void wake(struct vcpu *vcpu, uint8_t vector, bool has_auto_eoi) {
    (void)vcpu, (void)vector, (void)has_auto_eoi, sem_post(&raised);
}
static const struct engine root_engine = {NULL, wake, NULL};
void vmbus_has_room(const struct guest *guest) {
    buses[guest - guests].is_full = false;
    sem_post(&raised);
}

/* Takes the message from the slot. */
static bool take_message(uint8_t message[256]) {
    const hvpm_slot *slot = root_message();
    if (!slot) return false;
    message[4] = slot->size;
    memcpy(message + 8, (const uint8_t *)slot + 8, 248); /* not the flags, where MessagePending may be set meanwhile */
    root_let_go();
    return true;
}

/* ---- calls of the root ---- */

static hvpm_reply reply; /* of the root's thread */

static void port(uint64_t of, uint32_t id, uint64_t peer, uint32_t type, uint32_t sint, uint16_t base,
                 uint16_t count, uint32_t connection) {
    const hvpm_port made = {.partition = of, .id = id, .peer = peer, .type = type, .sint = sint, .vp = 0,
                            .base_flag = base, .flag_count = count};
    root_connect(&made, connection);
}

/* Makes a child, and each port that VMBus needs, with the connection to it. */
void vmbus_add(struct guest *guest) {
    const unsigned n = (unsigned)(guest - guests);
    root_add(guest, 8);
    /* A guest posts by connection 1, and from version 5.0 on by that which the host names. */
    port(1, 0x100 * n + MESSAGES_OLD, guest->id, HVPM_PORT_MESSAGES, ROOT_MESSAGES, 0, 0, MESSAGES_OLD);
    port(1, 0x100 * n + MESSAGES, guest->id, HVPM_PORT_MESSAGES, ROOT_MESSAGES, 0, 0, MESSAGES);
    port(guest->id, TO_CHILD, 1, HVPM_PORT_MESSAGES, CHILD_SINT, 0, 0, 0x100 * n + TO_CHILD);
    port(guest->id, SIGNAL_CHILD, 1, HVPM_PORT_EVENTS, CHILD_SINT, 0, 2048, 0x100 * n + SIGNAL_CHILD);
    for (uint16_t id = 1; id < CHANNELS; id++) /* flag 8 * N + ID of the root is channel ID of child N */
        port(1, 0x100 * n + EVENT + id, guest->id, HVPM_PORT_EVENTS, ROOT_EVENTS, (uint16_t)(8 * n + id), 1,
             EVENT + id);
    buses[n].guest = guest;
}

/* ---- messages ---- */

/* What can't be delivered is the guest's loss, and told once. The guest may turn its SynIC off at any moment,
 * in a restart, a kexec or a hibernation as much as in an attack, and rule P22 then refuses a post or signal;
 * or it takes no messages. */
static void lose(struct bus *bus, const char *what) {
    if (bus->losses++ == 0)
        note("partition %" PRIu64 " loses %s, and what else can't be delivered", bus->guest->id, what);
}

/* Answers whether the reply's post or signal was delivered. */
static bool is_delivered(struct bus *bus, const char *what) {
    char text[64];
    if (reply.kind == HVPM_REPLY_SERVED) return true;
    snprintf(text, sizeof text, "%s to rule %s", what, hvpm_rule_name(reply.rule));
    lose(bus, text);
    return false;
}

/* Posts what waits, until the port has no room.
 * The effect that frees a slot there comes to vmbus_has_room. */
static void post_waiting(struct bus *bus) {
    const uint32_t connection = 0x100 * (uint32_t)(bus - buses) + TO_CHILD;
    for (; bus->posted != bus->sent && !bus->is_full; bus->posted++) {
        const uint8_t *message = bus->outbox[bus->posted % OUTBOX];
        bus->is_full = true; /* before the post, so that a slot that is freed after it isn't missed */
        core_leave(
            hvpm_post_message(core_enter(), ROOT, connection, 1, message + 1, message[0], &reply, NULL, 0),
            &reply);
        if (reply.result == HV_STATUS_INSUFFICIENT_BUFFERS) return;
        bus->is_full = false;
        (void)is_delivered(bus, "a message");
    }
}

static void post(struct bus *bus, const uint8_t *payload, uint8_t len) {
    uint8_t *message = bus->outbox[bus->sent % OUTBOX];
    if (bus->sent - bus->posted == OUTBOX) {
        lose(bus, "a message, since it takes none");
        return;
    }
    message[0] = len;
    memcpy(message + 1, payload, len);
    bus->sent++;
    note_of(bus->guest, "root posts %s to partition %" PRIu64, names[payload[0]], bus->guest->id);
    post_waiting(bus);
}

static const char *const types[CHANNELS] = {
    [HEARTBEAT] = "\x39\x4f\x16\x57\x15\x91\x78\x4e\xab\x55\x38\x2f\x3b\xd5\x42\x2d",
    [SHUTDOWN] = "\x31\x60\x0b\x0e\x13\x52\x34\x49\x81\x8b\x38\xd9\x0c\xed\x39\xdb"};

/* Offers a channel: its class, its instance, its id, and the connection by which the guest signals it. */
static void offer(struct bus *bus, uint32_t id, const char *class) {
    uint8_t m[196] = {OFFER};
    memcpy(m + 8, class, 16), memcpy(m + 24, class, 16);
    hvpm_put(m + 36, id, 4), hvpm_put(m + 184, id, 4), hvpm_put(m + 192, EVENT + id, 4);
    m[188] = 0xFF, m[190] = 1; /* no monitor page; an interrupt of its own */
    post(bus, m, sizeof m);
}

static uint32_t le32(const uint8_t *at) {
    return (uint32_t)(at[0] | at[1] << 8 | at[2] << 16) | (uint32_t)at[3] << 24;
}

/* ---- channels: two rings in pages of the guest, each with a page of indexes before its bytes ---- */

/* A guest may write anything there. Its pages were looked at when it named them, each place is taken modulo
 * the ring, and what isn't a packet closes the channel. */
static uint8_t *ring_at(struct bus *bus, const struct channel *c, uint32_t page, uint32_t at) {
    return bus->guest->ram + c->pfn[page + at / PAGE] * PAGE + at % PAGE;
}
static uint32_t *index_at(struct bus *bus, const struct channel *c, uint32_t page, uint32_t at) {
    return (uint32_t *)ring_at(bus, c, page, at);
}

/* Puts a packet into the ring that the guest reads, and signals its channel's flag. A channel whose signal is
 * refused is closed: its memory may belong to another kernel by now. */
static void send(struct bus *bus, uint32_t id, const uint8_t *data, uint32_t len) {
    struct channel *c = &bus->channels[id];
    const uint32_t size = (c->pages - c->down - 1) * PAGE, padded = (len + 7) & ~7u, whole = 16 + padded + 8;
    const uint32_t from = *index_at(bus, c, c->down, 0) % size;
    uint8_t packet[PAGE] = {6, 0, 2, 0}; /* in-band data, whose header has 2 times 8 bytes */
    hvpm_put(packet + 4, (16 + padded) / 8, 2), hvpm_put(packet + 8, id, 8);
    memcpy(packet + 16, data, len);
    hvpm_put(packet + 16 + padded + 4, from, 4);
    for (uint32_t i = 0; i < whole; i++) *ring_at(bus, c, c->down, PAGE + (from + i) % size) = packet[i];
    __atomic_store_n(index_at(bus, c, c->down, 0), (from + whole) % size, __ATOMIC_SEQ_CST);
    core_leave(hvpm_signal_event(core_enter(), ROOT, 0x100 * (uint32_t)(bus - buses) + SIGNAL_CHILD,
                                 (uint16_t)id, &reply, NULL, 0),
               &reply);
    if (!is_delivered(bus, "a signal")) c->open = c->agreed = false;
}

/* Takes the next packet of the ring that the guest writes. Answers its length, 0 where there is none. A packet
 * lies whole in what the guest wrote: otherwise the root would read on for good. */
static uint32_t receive(struct bus *bus, uint32_t id, uint8_t data[PAGE]) {
    struct channel *c = &bus->channels[id];
    const uint32_t size = (c->down - 1) * PAGE,
                   to = __atomic_load_n(index_at(bus, c, 0, 0), __ATOMIC_SEQ_CST);
    const uint32_t from = *index_at(bus, c, 0, 4), held = (to + size - from) % size;
    uint8_t head[8];
    if (from == to) return 0;
    for (uint32_t i = 0; i < sizeof head; i++) head[i] = *ring_at(bus, c, 0, PAGE + (from + i) % size);
    const uint32_t start = 8 * (le32(head) >> 16), end = 8 * (le32(head + 4) & 0xFFFF);
    if (from >= size || to >= size || start < 16 || end <= start || end + 8 > held) {
        note_of(bus->guest, "partition %" PRIu64 " writes no packet: channel %" PRIu32 " is closed",
                bus->guest->id, id);
        c->open = c->agreed = false;
        return 0;
    }
    const uint32_t len = end - start < PAGE ? end - start : PAGE;
    for (uint32_t i = 0; i < len; i++) data[i] = *ring_at(bus, c, 0, PAGE + (from + start + i) % size);
    __atomic_store_n(index_at(bus, c, 0, 4), (from + end + 8) % size, __ATOMIC_SEQ_CST);
    return len;
}

/* ---- the integration services: a pipe's header, that of an icmsg, and its body ---- */

enum { NEGOTIATE = 0, BEAT = 1, SHUT_DOWN = 3 };

static void service(struct bus *bus, uint32_t id, uint8_t type, const uint8_t *body, uint32_t len) {
    uint8_t m[3072] = {1};
    m[4] = (uint8_t)(20 + len), m[5] = (uint8_t)((20 + len) >> 8);
    if (type != NEGOTIATE) m[8] = 3, m[14] = 3;                   /* framework 3.0, messages 3.0 */
    m[12] = type, hvpm_put(m + 18, len, 2), m[24] = 1, m[25] = 3; /* a transaction that wants an answer */
    memcpy(m + 28, body, len);
    send(bus, id, m, 28 + len);
}

static void negotiate(struct bus *bus, uint32_t id) {
    const uint8_t body[16] = {1, 0, 1, 0, 0, 0, 0, 0, 3, 0, 0, 0, 3, 0, 0, 0}; /* one version of each, 3.0 */
    service(bus, id, NEGOTIATE, body, sizeof body);
}

static void beat(struct bus *bus) {
    uint8_t body[40] = {0};
    hvpm_put(body, ++bus->beats, 8);
    service(bus, HEARTBEAT, BEAT, body, sizeof body);
}

static uint64_t count_events(void) {
    const uint64_t events = core_enter()->events;
    core_leave(HVPM_STATUS_OK, NULL);
    return events;
}

/* Answers whether the channel has no more packets. */
static bool serve_channel(struct bus *bus, uint32_t id) {
    static uint8_t data[PAGE];
    const unsigned n = (unsigned)bus->guest->id;
    for (unsigned left = TURN; left > 0; left--) {
        if (!bus->channels[id].open || receive(bus, id, data) == 0) return true;
        const uint8_t type = data[12];
        if (type == NEGOTIATE) {
            note_of(bus->guest, "partition %u: channel %" PRIu32 " agrees on %u.%u", n, id, data[40],
                    data[42]);
            bus->channels[id].agreed = true;
            if (id == HEARTBEAT) bus->first_event = count_events(), bus->beats = 0, beat(bus);
        } else if (type == BEAT) {
            if (bus->beats <= 5 || bus->beats % 10000 == 0)
                note_of(bus->guest, "partition %u answers heartbeat %u", n, bus->beats);
            if (bus->beats < options.beats) beat(bus);
            else bus->last_event = count_events();
        } else
            note_of(bus->guest, "partition %u: channel %" PRIu32 " answers %u with status 0x%" PRIx32, n, id,
                    type, le32(data + 20));
    }
    return false;
}

static void serve_channels(struct bus *bus) {
    bus->signalled |= root_flags((unsigned)(bus - buses));
    for (uint8_t id = 1; id < CHANNELS; id++)
        if (bus->signalled >> id & 1 && serve_channel(bus, id)) bus->signalled &= (uint8_t)~(1u << id);
    if (bus->signalled >> 1 != 0) sem_post(&raised); /* there may be more */
}

/* After its heartbeats a guest is asked to go, once it has lived as often as it must. */
static void ask_to_go(struct bus *bus) {
    const bool again = options.restart && bus->contacts == 1;
    uint8_t body[12 + 2048] = {0};
    if (bus->was_asked || bus->last_event == 0 || !bus->channels[SHUTDOWN].agreed) return;
    if (options.reload && bus->contacts == 1) return; /* it unloads its driver and loads it again by itself */
    note("root asks partition %" PRIu64 " to %s", bus->guest->id, again ? "restart" : "shut down");
    bus->was_asked = true, body[8] = again ? 2 : 0;
    service(bus, SHUTDOWN, SHUT_DOWN, body, sizeof body);
}

/* ---- what the guest asks for ---- */

static struct channel *channel_of(struct bus *bus, uint32_t id) {
    static struct channel none;
    return id > 0 && id < CHANNELS ? &bus->channels[id] : memset(&none, 0, sizeof none);
}

/* A ring's pages. A GPADL of too many pages, or of some that aren't the guest's, stays without pages. */
static void add_gpadl(struct bus *bus, const uint8_t *m, uint32_t len) {
    struct channel *c = channel_of(bus, le32(m + 8));
    const uint32_t count = (le32(m + 20) + PAGE - 1) / PAGE;
    c->open = false, c->pages = 0;
    if (count > sizeof c->pfn / sizeof *c->pfn || 28 + 8 * count > len) return;
    for (uint32_t i = 0; i < count; i++) {
        c->pfn[i] = hvpm_number(m + 28 + 8 * i);
        if (c->pfn[i] >= bus->guest->ram_size / PAGE) return;
    }
    c->pages = count;
}

static void answer(struct bus *bus, uint8_t type, uint32_t first, uint32_t second, uint32_t third,
                   uint8_t len) {
    uint8_t m[20] = {type};
    hvpm_put(m + 8, first, 4), hvpm_put(m + 12, second, 4), hvpm_put(m + 16, third, 4);
    post(bus, m, len);
}

/* The guest's driver is gone, or a new one begins. From here on the memory of its rings is the guest's own:
 * after a kexec it belongs to the next kernel. */
static void close_channels(struct bus *bus) {
    memset(bus->channels, 0, sizeof bus->channels);
    bus->signalled = 0;
}

static void serve_message(struct bus *bus, const uint8_t *m, uint32_t len) {
    const uint32_t type = le32(m), id = le32(m + 8), second = le32(m + 12);
    struct channel *c = channel_of(bus, id);
    note_of(bus->guest, "partition %" PRIu64 " posts %s", bus->guest->id, type < NAMES ? names[type] : "?");
    switch (type) {
    case CONTACT: {
        const bool is_known = id <= VERSION_5_2; /* 5.3 is refused, so that the guest comes again with 5.2 */
        note_of(bus->guest, "    version %" PRIu32 ".%" PRIu32 ": %s", id >> 16, id & 0xFFFF,
                is_known ? "accepted" : "refused");
        close_channels(bus);
        bus->contacts += is_known;
        answer(bus, VERSION, is_known, id >= 0x50000 ? MESSAGES : MESSAGES_OLD, 0, 16);
        break;
    }
    case REQUESTOFFERS:
        for (uint32_t channel = 1; channel < CHANNELS; channel++) offer(bus, channel, types[channel]);
        for (uint32_t more = 0; more < options.offers; more++) offer(bus, 0x40 + more, "an unknown class");
        answer(bus, ALLOFFERS, 0, 0, 0, 8);
        bus->has_offers = true;
        break;
    case GPADL_HEADER:
        add_gpadl(bus, m, len);
        answer(bus, GPADL_CREATED, id, second, c->pages == 0, 20);
        break;
    case OPEN:
        c->down = le32(m + 24);
        c->open = c->down >= 2 && c->down < c->pages && c->pages - c->down >= 2;
        answer(bus, OPEN_RESULT, id, second, !c->open, 20);
        if (c->open) negotiate(bus, id);
        break;
    case GPADL_TEARDOWN:
        c->open = false;
        answer(bus, GPADL_TORNDOWN, second, 0, 0, 12);
        break;
    case CLOSE: c->open = c->agreed = false; break;
    case UNLOAD:
        serve_channels(bus); /* what it sent before */
        close_channels(bus); /* before it hears that its memory is its own */
        answer(bus, UNLOADED, 0, 0, 0, 8);
        bus->has_unloaded = bus->has_offers;
        if (options.unload && bus->has_unloaded) guest_ended(bus->guest, NULL);
        break;
    }
}

void vmbus_reset(struct guest *guest) {
    struct bus *bus = &buses[guest - guests];
    pthread_mutex_lock(&bus_lock);
    close_channels(bus);
    bus->was_asked = bus->is_full = false, bus->sent = bus->posted = 0, bus->beats = 0, bus->last_event = 0;
    pthread_mutex_unlock(&bus_lock);
}

/* The root's processor waits for an interrupt, and serves what its pages have.
 * A second without one is a stall of the heartbeat. */
static void *root_thread(void *unused) {
    uint8_t message[256];
    for (unsigned left;;) {
        struct timespec until;
        clock_gettime(CLOCK_REALTIME, &until);
        until.tv_sec += 1;
        const bool is_idle = sem_timedwait(&raised, &until) != 0 && errno == ETIMEDOUT;
        if (!is_idle) usleep(1000 * options.delay); /* so that a guest surely halts meanwhile */
        pthread_mutex_lock(&bus_lock);
        for (left = TURN; left > 0 && take_message(message); left--) {
            const uint32_t n = le32(message + 8) / 0x100; /* the port by which it came */
            if (n < MAX_GUESTS && buses[n].guest) serve_message(&buses[n], message + 16, message[4]);
        }
        if (left == 0) sem_post(&raised); /* there may be more */
        for (struct bus *bus = buses; bus < buses + MAX_GUESTS; bus++) {
            if (!bus->guest) continue;
            serve_channels(bus);
            if (is_idle) bus->is_full = false;
            post_waiting(bus);
            if (is_idle && bus->last_event == 0 && bus->beats > 0 && !bus->guest->ended)
                note("stall %u of partition %" PRIu64 " at heartbeat %u", ++bus->stalls, bus->guest->id,
                     bus->beats);
            if (is_idle) ask_to_go(bus);
        }
        pthread_mutex_unlock(&bus_lock);
    }
    return unused;
}

void vmbus_start(void) {
    sem_init(&raised, 0, 0);
    root_start(&root_engine);
    start_thread(root_thread, NULL);
}

/* A guest that only looks for devices: it had its offers, and let VMBus go. */
static bool has_let_go(const struct bus *bus) {
    note("partition %" PRIu64 ": %u versions accepted, %s, %s", bus->guest->id, bus->contacts,
         bus->has_offers ? "all offers delivered" : "no offers",
         bus->has_unloaded ? "unloaded" : "NOT unloaded");
    return bus->has_unloaded;
}

bool vmbus_is_done(void) {
    const unsigned lives = options.restart || options.reload ? 2 : 1;
    bool is_done = true;
    pthread_mutex_lock(&bus_lock); /* for good: the root does nothing more */
    for (struct bus *bus = buses; bus < buses + MAX_GUESTS; bus++) {
        if (!bus->guest) continue;
        if (bus->guest->is_hostile) {
            note("partition %" PRIu64 " attacked; %u messages and signals were not delivered to it",
                 bus->guest->id, bus->losses);
            continue;
        }
        if (options.unload) {
            is_done &= has_let_go(bus);
            continue;
        }
        const uint64_t events = bus->last_event - bus->first_event, beats = bus->beats > 0 ? bus->beats : 1;
        note("partition %" PRIu64
             ": version 5.2 in %u of %u lives, %u of %u heartbeats, %.2f events for each, %u stalls, %u"
             " losses",
             bus->guest->id, bus->contacts, lives, bus->beats, options.beats, (double)events / (double)beats,
             bus->stalls, bus->losses);
        is_done &=
            bus->contacts == lives && bus->beats >= options.beats && bus->last_event != 0 && bus->stalls == 0;
        is_done &= !options.hostile || bus->losses == 0;
        /* Where heartbeats are all that happens: a signal, its flag and its vector,
         * there and back, and little else. */
        if (options.children == 1 && beats >= 100) is_done &= events <= 8 * beats;
    }
    return is_done;
}
