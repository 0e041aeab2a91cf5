/*
 * Message and event flags pages beside a guest that uses them without an exit:
 *
 *     pages [MESSAGES FLAGS]
 *
 * First come cases, one after another; guests.h has more. Then a root and a guest's two processors run as
 * threads over one machine behind one lock and send each other MESSAGES messages and FLAGS event flags in all,
 * 40,000 of each if left out. A thread reads and writes its own two pages as a guest does, takes vectors that
 * others inject, and exits for posts, signals and EOM alone. None of the messages and flags may be lost or
 * doubled, the messages of a SINT come in the order of their posts, and no thread may wait for good: a sender
 * doesn't go on before the receiver has all of its batch. Compile it with -fsanitize=thread. What is wrong goes
 * to standard error, and the status is then 1.
 */
#include "hvpm_pages.h"

#include <inttypes.h>
#include <pthread.h>
#include <stdio.h>
#include <stdlib.h>
#include <string.h>
#include <time.h>

enum {
    PROCESSORS = 3, SINTS = 16, FLAG_SINT = 3, FLAGS = 64, ALL_FLAGS_SINT = 5, ALL_FLAGS = 2048,
    STALL_SECONDS = 10, MSR_EOM = 0x40000084, PAGE = 4096
};

static hvpm_machine machine = HVPM_EMPTY;
static hvpm_record record;

static _Noreturn void fail(const char *what) {
    fprintf(stderr, "%s\n", what);
    exit(1);
}

static void holds(const char *what, bool is_so) {
    if (!is_so) fail(what);
}

/* An event that is taken, whatever it is answered. */
static void taken(uint32_t status) {
    holds("an event is taken", status == HVPM_STATUS_OK);
}

static void served(const char *what, uint32_t status, const hvpm_reply *reply) {
    taken(status);
    holds(what, reply->kind == HVPM_REPLY_SERVED || reply->kind == HVPM_REPLY_MORE);
}

/* ---- Processors, as a VMM has them ---- */

static struct processor {
    hvpm_pages pages;
    uint64_t injected[4];               /* vectors that its interrupt controller has, and it didn't take */
    uint64_t rooms;                     /* how often a message was let go here */
    uint64_t posted[SINTS];             /* how many messages were posted at each SINT */
    uint64_t got[SINTS];                /* how many of them it got */
    uint64_t sent[FLAGS], taken[FLAGS]; /* how often each flag of FLAG_SINT was signalled here, and taken */
    uint32_t random;
    pthread_t thread;
} processors[PROCESSORS];

static uint8_t memory[PROCESSORS][2][PAGE] __attribute__((aligned(4096)));

static const hvpm_caller root = {1, 0};

/* The vector of a SINT. Those of four SINTs in a row stand in the library's four words of 64. */
static uint32_t vector_of(uint32_t sint) {
    return 64 * (sint % 4) + 0x10 + sint;
}

static uint32_t sint_of(uint32_t vector) {
    return vector % 16;
}

/* Whether each event is in the record with its line, those that the header made in a guest's place, too. */
static void all_are_recorded(void) {
    uint64_t number = 0;
    const char *const end = record.audit.at + record.audit.len;
    for (const char *at = record.audit.at; at < end; at = (const char *)memchr(at, '\n', (size_t)(end - at)) + 1)
        holds("the number of a recorded event", strtoull(at, NULL, 10) == ++number);
    holds("each event is recorded", !record.is_cut && number == machine.events);
    hvpm_record_free(&record);
}

/* After an event: all pages, the vectors that were raised, and who may post again. */
static void settle(const hvpm_effect *effect) {
    for (size_t i = 0; i < PROCESSORS; i++) {
        struct processor *at = &processors[i];
        uint8_t vector;
        holds("pages are brought up to date",
              hvpm_pages_after(&machine, &at->pages, effect) == HVPM_STATUS_OK);
        for (;;) {
            holds("a vector is taken", hvpm_pages_vector(&machine, &at->pages, &vector) == HVPM_STATUS_OK);
            if (vector == 0) break;
            holds("a vector of a SINT", vector >= 16);
            __atomic_fetch_or(&at->injected[vector / 64], UINT64_C(1) << vector % 64, __ATOMIC_SEQ_CST);
        }
        if (at->pages.freed) __atomic_fetch_add(&at->rooms, 1, __ATOMIC_SEQ_CST);
        at->pages.freed = false;
    }
}

static void look_first(void) {
    for (size_t i = 0; i < PROCESSORS; i++)
        holds("slots are looked at", hvpm_pages_before(&machine, &processors[i].pages) == HVPM_STATUS_OK);
}

static void end_message(struct processor *self) {
    hvpm_reply reply;
    look_first();
    served("EOM", hvpm_write_msr(&machine, self->pages.of, MSR_EOM, 0, &reply, NULL, 0), &reply);
    settle(&reply.effect);
}

static void write_msr(hvpm_caller by, uint32_t msr, uint64_t value) {
    hvpm_reply reply;
    served("an MSR", hvpm_write_msr(&machine, by, msr, value, &reply, NULL, 0), &reply);
    settle(&reply.effect);
}

/*
 * Writes SIMP or SIEFP, and gives the pages that both name now.
 * The address is a page's number in `memory`, from 1 on.
 */
static void write_page(struct processor *self, uint32_t msr, uint64_t value) {
    uint64_t at[2];
    void *pages[2] = {NULL, NULL};
    write_msr(self->pages.of, msr, value);
    for (uint32_t i = 0; i < 2; i++) {
        holds("SIMP and SIEFP are seen",
              hvpm_peek_msr(&machine, self->pages.of, i == 0 ? 0x40000083 : 0x40000082, &at[i]) ==
                  HVPM_STATUS_OK);
        const uint64_t page = at[i] / PAGE - 1;
        if (at[i] & 1 && page < 2 * PROCESSORS) pages[i] = memory[page / 2][page % 2];
    }
    holds("pages are moved", hvpm_pages_move(&machine, &self->pages, pages[0], pages[1]) == HVPM_STATUS_OK);
}

/*
 * What is sent from one processor to another: messages, or event flags, each with a port
 * and a connection of one number.
 */
static const struct link {
    uint32_t id, from, to, type, sint;
    uint16_t first_flag, flags;
} links[] = {
    {1, 0, 1, HVPM_PORT_MESSAGES, 2, 0, 0},
    {2, 0, 2, HVPM_PORT_MESSAGES, 2, 0, 0},
    {3, 0, 2, HVPM_PORT_MESSAGES, 4, 0, 0},
    {4, 1, 0, HVPM_PORT_MESSAGES, 2, 0, 0},
    {5, 2, 0, HVPM_PORT_MESSAGES, 2, 0, 0},
    {6, 0, 1, HVPM_PORT_EVENTS, FLAG_SINT, 0, FLAGS},
    {7, 0, 2, HVPM_PORT_EVENTS, FLAG_SINT, 0, FLAGS},
    {8, 1, 0, HVPM_PORT_EVENTS, FLAG_SINT, 0, FLAGS / 2},
    {9, 2, 0, HVPM_PORT_EVENTS, FLAG_SINT, FLAGS / 2, FLAGS / 2},
};
enum { LINKS = sizeof links / sizeof *links, MESSAGE_LINKS = 5 };

static void set_up(void) {
    static const hvpm_config config = {.mask = 0xf700000064, .pages = 64, .pool = 32, .vps = 1};
    hvpm_reply reply;
    uint64_t guest = 0, pages[24];
    machine.record = &record;
    holds("boot", hvpm_boot(&machine, &config) == HVPM_STATUS_OK);
    memset(processors, 0, sizeof processors);
    memset(memory, 0, sizeof memory);
    served("a guest", hvpm_create_partition(&machine, root, 0, &guest, &reply, NULL, 0), &reply);
    served("its mask",
           hvpm_set_partition_property(&machine, root, guest, HVPM_PRIVILEGE_FLAGS, 0xb000000064, &reply,
                                       NULL, 0),
           &reply);
    served("its start", hvpm_initialize_partition(&machine, root, guest, &reply, NULL, 0), &reply);
    for (uint16_t i = 0; i < 24; i++) pages[i] = 32 + i;
    for (uint16_t i = 0; i < 24; i++)
        served("its pages", hvpm_deposit_memory(&machine, root, guest, pages, 24, i, &reply, NULL, 0),
               &reply);
    for (uint32_t i = 0; i < PROCESSORS; i++) {
        struct processor *self = &processors[i];
        self->pages.of = i == 0 ? root : (hvpm_caller){guest, i - 1};
        self->random = 0x9e3779b9u * (i + 1);
        if (i > 0)
            served("a processor", hvpm_create_vp(&machine, root, guest, i - 1, &reply, NULL, 0), &reply);
        write_msr(self->pages.of, 0x40000080, 1);
        write_page(self, 0x40000083, PAGE * (2 * i + 1) | 1);
        write_page(self, 0x40000082, PAGE * (2 * i + 2) | 1);
        for (uint32_t sint = 2; sint <= 4; sint++)
            write_msr(self->pages.of, 0x40000090 + sint, vector_of(sint));
    }
    for (size_t i = 0; i < LINKS; i++) {
        const struct link *link = &links[i];
        const hvpm_caller from = processors[link->from].pages.of, to = processors[link->to].pages.of;
        const hvpm_port port = {to.partition, link->id, from.partition,   link->type,
                                link->sint,   to.vp,    link->first_flag, link->flags};
        const hvpm_connection connection = {from.partition, link->id, to.partition, link->id, link->type};
        served("a port", hvpm_create_port(&machine, root, &port, &reply, NULL, 0), &reply);
        served("a connection", hvpm_connect_port(&machine, root, &connection, &reply, NULL, 0), &reply);
    }
}

/* ---- Messages and flags ---- */

/* The payload of the message with this number at its SINT: most have few bytes. Answers how many. */
static uint32_t payload_of(uint64_t number, uint8_t payload[240]) {
    const uint32_t size = (uint32_t)(number % 8 == 0 ? number % 241 : number % 24);
    memset(payload, (uint8_t)(number >> 8), 240);
    for (uint32_t i = 0; i < size; i += 8) payload[i] = (uint8_t)(number + i);
    return size;
}

/* Posts by a link. Answers whether the message was taken, and not refused since 8 of its port are kept. */
static bool post(const struct link *link) {
    uint64_t *number = &processors[link->to].posted[link->sint];
    uint8_t payload[240];
    hvpm_reply reply;
    const uint32_t size = payload_of(*number, payload);
    taken(hvpm_post_message(&machine, processors[link->from].pages.of, link->id, 1 + (uint32_t)*number % 1000,
                            payload, size, &reply, NULL, 0));
    settle(&reply.effect);
    holds("a post is served, or P23 refuses it", reply.kind == HVPM_REPLY_SERVED || reply.rule == 23);
    if (reply.kind == HVPM_REPLY_SERVED) __atomic_fetch_add(number, 1, __ATOMIC_RELAXED);
    return reply.kind == HVPM_REPLY_SERVED;
}

static void signal_flag(const struct link *link, uint16_t flag) {
    hvpm_reply reply;
    served("a signal",
           hvpm_signal_event(&machine, processors[link->from].pages.of, link->id, flag, &reply, NULL, 0),
           &reply);
    settle(&reply.effect);
}

static hvpm_slot *slot_of(const struct processor *self, uint32_t sint) {
    return (hvpm_slot *)(void *)memory[self - processors][0] + sint;
}

static uint8_t *flags_of(const struct processor *self) {
    return memory[self - processors][1] + 256 * FLAG_SINT;
}

/*
 * The last processor looks at its slots also without a vector, as Linux does where it
 * waits for a message of its own.
 */
static bool polls(const struct processor *self) {
    return self == &processors[PROCESSORS - 1];
}

/* A guest's handler of a message: it reads the slot and lets it go. Answers whether it must write EOM. */
static bool take_message(struct processor *self, uint32_t sint) {
    hvpm_slot *slot = slot_of(self, sint);
    const uint64_t number = self->got[sint];
    const uint32_t type = __atomic_load_n(&slot->type, __ATOMIC_ACQUIRE);
    if (type == 0 && polls(self)) return false;
    holds("a vector comes with a message", type != 0);
    uint8_t payload[240];
    const uint32_t size = payload_of(number, payload);
    holds("messages come once, in order", type == 1 + (uint32_t)number % 1000 && slot->size == size);
    holds("a payload is whole", memcmp(slot->payload, payload, size) == 0);
    __atomic_store_n(&self->got[sint], number + 1, __ATOMIC_RELEASE);
    __atomic_exchange_n(&slot->type, 0, __ATOMIC_SEQ_CST);
    return __atomic_load_n(&slot->flags, __ATOMIC_SEQ_CST) & 1;
}

/* A guest's handler of event flags: it clears those that are set. */
static void take_flags(struct processor *self) {
    for (uint32_t i = 0; i < FLAGS / 8; i++) {
        uint8_t *at = flags_of(self) + i;
        const uint8_t set = __atomic_load_n(at, __ATOMIC_RELAXED);
        for (uint32_t bit = 0; set >> bit != 0; bit++) {
            const uint8_t flag = (uint8_t)(1u << bit);
            if (!(set & flag) || !(__atomic_fetch_and(at, (uint8_t)~flag, __ATOMIC_SEQ_CST) & flag)) continue;
            const uint64_t count = __atomic_add_fetch(&self->taken[8 * i + bit], 1, __ATOMIC_RELEASE);
            holds("a flag comes once", count <= __atomic_load_n(&self->sent[8 * i + bit], __ATOMIC_RELAXED));
        }
    }
}

/* The highest vector that was injected, or 0. */
static uint32_t take_vector(struct processor *self) {
    for (uint32_t quarter = 4; quarter-- > 0;) {
        const uint64_t word = __atomic_load_n(&self->injected[quarter], __ATOMIC_ACQUIRE);
        if (word == 0) continue;
        uint32_t bit = 63;
        while (!(word >> bit & 1)) bit--;
        __atomic_fetch_and(&self->injected[quarter], ~(UINT64_C(1) << bit), __ATOMIC_SEQ_CST);
        return 64 * quarter + bit;
    }
    return 0;
}

/* ---- Cases ---- */

static uint8_t pending(const struct processor *self, uint32_t sint) {
    return slot_of(self, sint)->flags & 1;
}

/* Takes the message of a SINT, which is there with its vector and with MessagePending or not. */
static void gets(const char *what, struct processor *self, uint32_t sint, bool is_pending) {
    holds(what, take_vector(self) == vector_of(sint));
    holds(what, pending(self, sint) == is_pending && take_message(self, sint) == is_pending);
}

static void message_cases(void) {
    struct processor *self = &processors[1];
    holds("a post", post(&links[0]));
    holds("its slot", slot_of(self, 2)->type == 1 && !pending(self, 2));
    holds("a second post", post(&links[0]));
    holds("it waits behind the first", slot_of(self, 2)->type == 1 && pending(self, 2));
    gets("the first", self, 2, true);
    end_message(self);
    gets("the second, which EOM shows", self, 2, false);
    look_first();
    holds("a slot that was let go is told", self->pages.shown == 0 && self->pages.freed);
    holds("a third post", post(&links[0]));
    gets("the third, with no EOM", self, 2, false);
    /* A post that didn't look first finds the old message in the library.
     * The guest won't write EOM: it saw nothing pending. */
    holds("a fourth post, without a look", post(&links[0]));
    gets("the fourth, by the second look", self, 2, false);
    look_first();
    while (post(&links[0])) continue;
    holds("8 messages are kept", self->posted[2] == 12);
    const uint64_t rooms = self->rooms;
    for (uint32_t i = 0; i < 8; i++) {
        gets("each of them", self, 2, i < 7);
        end_message(self);
    }
    holds("each clearing is told", self->rooms == rooms + 8);
}

/*
 * Each of a SINT's flags has its own bit of the page, signalled there or while there is no page. The SINT has
 * another vector each time, and so all of them.
 */
static void all_flags_cases(void) {
    const hvpm_port port = {2, 20, 1, HVPM_PORT_EVENTS, ALL_FLAGS_SINT, 0, 0, ALL_FLAGS};
    const hvpm_connection connection = {1, 20, 2, 20, HVPM_PORT_EVENTS};
    const struct link link = {20, 0, 1, HVPM_PORT_EVENTS, ALL_FLAGS_SINT, 0, ALL_FLAGS};
    struct processor *self = &processors[1];
    uint8_t *flags = memory[1][1] + 256 * ALL_FLAGS_SINT, wanted[256] = {0}, seen[256];
    static const uint8_t none[256];
    hvpm_reply reply;
    served("a port", hvpm_create_port(&machine, root, &port, &reply, NULL, 0), &reply);
    served("a connection", hvpm_connect_port(&machine, root, &connection, &reply, NULL, 0), &reply);
    for (uint32_t flag = 0; flag < ALL_FLAGS; flag++) {
        const bool has_page = flag % 3 != 0;
        const uint32_t vector = 16 + flag % 240;
        write_msr(self->pages.of, 0x40000090 + ALL_FLAGS_SINT, vector);
        if (!has_page) write_page(self, 0x40000082, PAGE * 400 | 1);
        signal_flag(&link, (uint16_t)flag);
        if (!has_page) write_page(self, 0x40000082, PAGE * 4 | 1);
        wanted[flag / 8] |= (uint8_t)(1u << flag % 8);
        holds("each flag has its bit", memcmp(flags, wanted, sizeof wanted) == 0);
        holds("each vector is taken", take_vector(self) == vector && take_vector(self) == 0);
        taken(hvpm_peek_flags(&machine, self->pages.of, ALL_FLAGS_SINT, seen));
        holds("the library keeps none", memcmp(seen, none, sizeof seen) == 0);
    }
}

static void cases(void) {
    set_up();
    message_cases();
    all_flags_cases();
    all_are_recorded();
    hvpm_destroy(&machine);
}

/* ---- Threads ---- */

static pthread_mutex_t lock = PTHREAD_MUTEX_INITIALIZER;
static uint64_t each_link[2]; /* how many messages, and how many flags, a link sends */
static uint64_t done[LINKS];  /* how many a link has sent */
static bool is_over;

/* A batch of messages: so many at once, and all of them arrive before the next batch. */
struct batch {
    uint64_t left, until, rooms;
    bool is_full;
};

static uint32_t random_of(struct processor *self) {
    self->random ^= self->random << 13, self->random ^= self->random >> 17, self->random ^= self->random << 5;
    return self->random;
}

/*
 * Whether a link sent something. Of a SINT at which two links aim the receiver has all messages
 * of both, or the batch goes on.
 */
static bool send_message(struct processor *self, const struct link *link, struct batch *batch) {
    static const uint64_t sizes[] = {1, 2, 2, 3, 12};
    struct processor *to = &processors[link->to];
    uint64_t *sent = &done[link->id - 1];
    if (*sent == each_link[0]) return false;
    if (batch->left == 0) {
        if (__atomic_load_n(&to->got[link->sint], __ATOMIC_ACQUIRE) < batch->until) return false;
        batch->left = sizes[random_of(self) % 5];
    }
    if (batch->is_full && __atomic_load_n(&to->rooms, __ATOMIC_ACQUIRE) == batch->rooms) return false;
    for (volatile uint32_t wait = random_of(self) % 256; wait > 0;) wait = wait - 1;
    pthread_mutex_lock(&lock);
    if (random_of(self) % 4 != 0) look_first();
    batch->is_full = !post(link);
    batch->rooms = __atomic_load_n(&to->rooms, __ATOMIC_ACQUIRE);
    batch->until = to->posted[link->sint];
    pthread_mutex_unlock(&lock);
    if (batch->is_full) return true;
    batch->left--;
    (*sent)++;
    if (*sent == each_link[0]) batch->left = 0;
    return true;
}

/* Whether a link sent a flag: the next one that the receiver has taken as often as it was sent. */
static bool send_flag(const struct link *link) {
    struct processor *to = &processors[link->to];
    uint64_t *sent = &done[link->id - 1];
    if (*sent == each_link[1]) return false;
    for (uint32_t i = 0; i < link->flags; i++) {
        const uint16_t number = (uint16_t)((*sent + i) % link->flags);
        const uint32_t flag = link->first_flag + number;
        const uint64_t before = __atomic_load_n(&to->sent[flag], __ATOMIC_RELAXED);
        if (__atomic_load_n(&to->taken[flag], __ATOMIC_ACQUIRE) != before) continue;
        __atomic_store_n(&to->sent[flag], before + 1, __ATOMIC_RELAXED);
        pthread_mutex_lock(&lock);
        signal_flag(link, number);
        pthread_mutex_unlock(&lock);
        (*sent)++;
        return true;
    }
    return false;
}

/* A processor: it takes what is injected, else it sends, else it waits. */
static void *run(void *of) {
    struct processor *self = of;
    struct batch batches[LINKS] = {{0, 0, 0, false}};
    const struct timespec halt = {0, 10000};
    uint32_t idle = 0;
    while (!__atomic_load_n(&is_over, __ATOMIC_RELAXED)) {
        const uint32_t vector = take_vector(self);
        bool acted = vector != 0, ends = false;
        if (vector == vector_of(FLAG_SINT))
            take_flags(self);
        else if (vector != 0)
            ends = take_message(self, sint_of(vector));
        else if (polls(self))
            ends = take_message(self, 2);
        if (vector == 0 && !ends && polls(self)) ends = take_message(self, 4);
        if (ends) {
            pthread_mutex_lock(&lock);
            end_message(self);
            pthread_mutex_unlock(&lock);
        }
        for (size_t i = 0; i < LINKS && vector == 0; i++) {
            if (&processors[links[i].from] != self) continue;
            acted |= links[i].type == HVPM_PORT_MESSAGES ? send_message(self, &links[i], &batches[i])
                                                         : send_flag(&links[i]);
        }
        idle = acted ? 0 : idle + 1;
        if (idle > 4) nanosleep(&halt, NULL);
    }
    return NULL;
}

/* How many messages or flags arrived. */
static uint64_t arrived(bool messages) {
    uint64_t sum = 0;
    for (size_t i = 0; i < PROCESSORS; i++) {
        for (size_t sint = 0; messages && sint < SINTS; sint++)
            sum += __atomic_load_n(&processors[i].got[sint], __ATOMIC_RELAXED);
        for (size_t flag = 0; !messages && flag < FLAGS; flag++)
            sum += __atomic_load_n(&processors[i].taken[flag], __ATOMIC_RELAXED);
    }
    return sum;
}

/* Nothing is left in the library or in the pages when all has arrived. */
static void nothing_is_left(void) {
    uint8_t bytes[256];
    look_first();
    for (size_t i = 0; i < PROCESSORS; i++) {
        holds("no vector is left", take_vector(&processors[i]) == 0);
        for (uint32_t at = 0; at < PAGE; at++) holds("no flag is left in a page", memory[i][1][at] == 0);
        for (uint8_t sint = 0; sint < SINTS; sint++) {
            holds("a slot is seen",
                  hvpm_peek_slot(&machine, processors[i].pages.of, sint, bytes) == HVPM_STATUS_OK);
            holds("no message is left", bytes[0] == 0 && bytes[1] == 0);
            holds("flags are seen",
                  hvpm_peek_flags(&machine, processors[i].pages.of, sint, bytes) == HVPM_STATUS_OK);
            for (uint32_t at = 0; at < 256; at++) holds("no flag is left", bytes[at] == 0);
        }
    }
}

static void threads(uint64_t messages, uint64_t flags) {
    const uint64_t wanted[2] = {messages / MESSAGE_LINKS * MESSAGE_LINKS,
                                flags / (LINKS - MESSAGE_LINKS) * (LINKS - MESSAGE_LINKS)};
    const struct timespec tick = {0, 20000000};
    uint64_t last = 0, got[2] = {0, 0};
    each_link[0] = messages / MESSAGE_LINKS, each_link[1] = flags / (LINKS - MESSAGE_LINKS);
    set_up();
    for (size_t i = 0; i < PROCESSORS; i++)
        holds("a thread", pthread_create(&processors[i].thread, NULL, run, &processors[i]) == 0);
    for (uint32_t idle = 0; got[0] < wanted[0] || got[1] < wanted[1];) {
        nanosleep(&tick, NULL);
        got[0] = arrived(true), got[1] = arrived(false);
        idle = got[0] + got[1] == last ? idle + 1 : 0;
        last = got[0] + got[1];
        if (idle < STALL_SECONDS * 50) continue;
        fprintf(stderr, "%" PRIu64 " of %" PRIu64 " messages and %" PRIu64 " of %" PRIu64 " flags arrived\n",
                got[0], wanted[0], got[1], wanted[1]);
        fail("a processor waits for good");
    }
    __atomic_store_n(&is_over, true, __ATOMIC_RELAXED);
    for (size_t i = 0; i < PROCESSORS; i++) pthread_join(processors[i].thread, NULL);
    holds("as many arrived as were sent", got[0] == wanted[0] && got[1] == wanted[1]);
    nothing_is_left();
    all_are_recorded();
    printf("%" PRIu64 " messages, %" PRIu64 " flags, %" PRIu64 " events\n", got[0], got[1], machine.events);
    hvpm_destroy(&machine);
}

int main(int argc, char **argv) {
    if (argc != 1 && argc != 3) {
        fprintf(stderr, "usage: pages [MESSAGES FLAGS]\n");
        return 2;
    }
    cases();
    threads(argc == 3 ? strtoull(argv[1], NULL, 10) : 40000, argc == 3 ? strtoull(argv[2], NULL, 10) : 40000);
    return 0;
}
