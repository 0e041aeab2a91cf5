/*
 * Event flags of two guests in every order of signals, of the guest's clearing, and of writes of SIEFP: off,
 * on, elsewhere, and out of memory. What is wrong goes to standard error, and the status is then 1.
 *
 * While SIEFP is off a signal is denied. A flag that was signalled and not taken is in the guest's page as
 * soon as it has one. A flag that was taken isn't there any more. A signal raises the vector of its SINT,
 * unless the flag waits in the library already.
 */
#include "hvpm_pages.h"
#include <stdio.h>
#include <stdlib.h>
#include <string.h>

enum { PAGE = 4096, GUESTS = 2, FLAGS = 2, LENGTH = 5 };
enum { MSR_SCONTROL = 0x40000080, MSR_SIEFP = 0x40000082, MSR_SINT0 = 0x40000090 };

/* A step of a guest: FLAGS signals, then these. */
enum { TAKE = FLAGS, HERE, ELSEWHERE, OUTSIDE, OFF, STEPS };

static const struct {
    uint32_t sint, flag, vector;
} flags[FLAGS] = {{2, 64, 0x80}, {15, 2047, 0xFF}};

static hvpm_machine machine = HVPM_EMPTY;
static const hvpm_caller root = {1, 0};
static uint8_t memory[GUESTS][2][PAGE] __attribute__((aligned(4096)));

static struct guest {
    hvpm_pages pages;
    bool is_on;         /* bit 0 of SIEFP */
    uint8_t *page;      /* where SIEFP leads, or NULL */
    bool is_set[FLAGS]; /* signalled, and not taken */
    bool waits[FLAGS];  /* signalled while there was no page */
} guests[GUESTS];

static _Noreturn void fail(const char *what, uint32_t order) {
    fprintf(stderr, "order %u: %s\n", order, what);
    exit(1);
}

/* ---- The machine ---- */

static uint32_t order; /* that runs: its steps are the digits */

static void holds(const char *what, bool is_so) {
    if (!is_so) fail(what, order);
}

static void served(const char *what, uint32_t status, const hvpm_reply *reply) {
    holds(what, status == HVPM_STATUS_OK && reply->kind == HVPM_REPLY_SERVED);
    for (struct guest *guest = guests; guest < guests + GUESTS; guest++)
        holds(what, hvpm_pages_after(&machine, &guest->pages, &reply->effect) == HVPM_STATUS_OK);
}

static void write_msr(struct guest *guest, uint32_t msr, uint64_t value) {
    hvpm_reply reply;
    served("an MSR", hvpm_write_msr(&machine, guest->pages.of, msr, value, &reply, NULL, 0), &reply);
}

/* The port of a guest's flag, and the root's connection to it. Guest 0 is partition 2. */
static void connect(uint32_t n, uint32_t f) {
    const uint64_t id = n + 2;
    const uint32_t number = FLAGS * n + f + 1;
    const hvpm_port port = {id, number, 1, HVPM_PORT_EVENTS, flags[f].sint, 0, (uint16_t)flags[f].flag, 1};
    const hvpm_connection connection = {1, number, id, number, HVPM_PORT_EVENTS};
    hvpm_reply reply;
    served("a port", hvpm_create_port(&machine, root, &port, &reply, NULL, 0), &reply);
    served("a connection", hvpm_connect_port(&machine, root, &connection, &reply, NULL, 0), &reply);
}

static void set_up(void) {
    static const hvpm_config config = {.mask = 0xf700000064, .pages = 64, .pool = 32, .vps = 1};
    hvpm_reply reply;
    uint64_t id = 0;
    holds("boot", hvpm_boot(&machine, &config) == HVPM_STATUS_OK);
    for (uint32_t n = 0; n < GUESTS; n++) {
        served("a guest", hvpm_create_partition(&machine, root, 0, &id, &reply, NULL, 0), &reply);
        served("its start", hvpm_initialize_partition(&machine, root, id, &reply, NULL, 0), &reply);
        for (uint64_t page = 32 + 8 * n; page < 40 + 8 * n; page++)
            served("its pages", hvpm_deposit_memory(&machine, root, id, &page, 1, 0, &reply, NULL, 0),
                   &reply);
        guests[n].pages.of = (hvpm_caller){id, 0};
        served("its processor", hvpm_create_vp(&machine, root, id, 0, &reply, NULL, 0), &reply);
        write_msr(&guests[n], MSR_SCONTROL, 1);
        for (uint32_t f = 0; f < FLAGS; f++)
            write_msr(&guests[n], MSR_SINT0 + flags[f].sint, flags[f].vector), connect(n, f);
    }
}

/* ---- A step, and what must come of it ---- */

static void move(struct guest *guest, bool is_on, uint8_t *page) {
    write_msr(guest, MSR_SIEFP, is_on);
    holds("a page moves", hvpm_pages_move(&machine, &guest->pages, NULL, page) == HVPM_STATUS_OK);
    guest->is_on = is_on, guest->page = page;
    for (uint32_t f = 0; page && f < FLAGS; f++) guest->waits[f] = false;
}

/* Signals a flag. Answers the vector that this must raise, or 0. */
static uint32_t send(uint32_t n, uint32_t f) {
    struct guest *guest = &guests[n];
    const uint32_t vector = guest->waits[f] ? 0 : flags[f].vector;
    hvpm_reply reply;
    const uint32_t status = hvpm_signal_event(&machine, root, FLAGS * n + f + 1, 0, &reply, NULL, 0);
    if (!guest->is_on) {
        holds("a signal is denied", status == HVPM_STATUS_OK && reply.result == 0x18);
        return 0;
    }
    served("a signal", status, &reply);
    guest->is_set[f] = true, guest->waits[f] = guest->page == NULL;
    return vector;
}

static void take(const struct guest *guest, uint32_t f) {
    uint8_t *const at = guest->page + 256 * flags[f].sint + flags[f].flag / 8;
    __atomic_fetch_and(at, (uint8_t)~(1u << flags[f].flag % 8), __ATOMIC_SEQ_CST);
}

/* The vectors of a guest are this one, or none where it is 0. Only a vector that was raised is an event. */
static void raises(struct guest *guest, uint32_t vector) {
    const uint64_t events = machine.events + (vector != 0);
    uint8_t found;
    holds("a vector is taken",
          hvpm_pages_vector(&machine, &guest->pages, &found) == HVPM_STATUS_OK && found == vector);
    holds("no vector is left",
          hvpm_pages_vector(&machine, &guest->pages, &found) == HVPM_STATUS_OK && found == 0);
    holds("the library is called for a vector alone", machine.events == events);
}

static void step(uint32_t n, uint32_t what) {
    struct guest *guest = &guests[n];
    const uint32_t vector = what < FLAGS ? send(n, what) : 0;
    if (what == TAKE && guest->page)
        for (uint32_t f = 0; f < FLAGS; f++) take(guest, f), guest->is_set[f] = false;
    if (what == HERE) move(guest, true, memory[n][0]);
    if (what == ELSEWHERE) move(guest, true, memory[n][1]);
    if (what == OUTSIDE) move(guest, true, NULL);
    if (what == OFF) move(guest, false, NULL);
    raises(guest, vector);
    raises(&guests[1 - n], 0);
}

/* A guest's page has its flags and nothing else. */
static void shows(const struct guest *guest) {
    static uint8_t wanted[PAGE];
    memset(wanted, 0, PAGE);
    for (uint32_t f = 0; f < FLAGS; f++)
        if (guest->is_set[f])
            wanted[256 * flags[f].sint + flags[f].flag / 8] |= (uint8_t)(1u << flags[f].flag % 8);
    holds("a page has the flags that wait", !guest->page || memcmp(guest->page, wanted, PAGE) == 0);
}

/* One order at guest `n`, which begins and ends with its page and no flag. The other has a flag all along. */
static void run(uint32_t n) {
    for (uint32_t i = 0, left = order; i < LENGTH; i++, left /= 10) {
        step(n, left % 10);
        shows(&guests[0]), shows(&guests[1]);
    }
    step(n, HERE);
    shows(&guests[0]), shows(&guests[1]);
    step(n, TAKE);
}

static bool is_order(uint32_t number) {
    for (uint32_t i = 0; i < LENGTH; i++, number /= 10)
        if (number % 10 >= STEPS) return false;
    return number == 0;
}

/* A processor that is made again has none of the flags and vectors that the old one didn't take. */
static void is_reset(bool has_page) {
    hvpm_reply reply;
    step(0, 0);
    holds("a vector that nobody takes", send(0, 1) != 0);
    if (!has_page) move(&guests[0], false, NULL);
    served("its end", hvpm_delete_vp(&machine, root, 2, 0, &reply, NULL, 0), &reply);
    served("a new one", hvpm_create_vp(&machine, root, 2, 0, &reply, NULL, 0), &reply);
    raises(&guests[0], 0);
    guests[0].is_on = false, guests[0].page = NULL;
    for (uint32_t f = 0; f < FLAGS; f++) guests[0].is_set[f] = guests[0].waits[f] = false;
    write_msr(&guests[0], MSR_SCONTROL, 1);
    step(0, HERE);
    shows(&guests[0]);
    for (uint32_t f = 0; f < FLAGS; f++)
        write_msr(&guests[0], MSR_SINT0 + flags[f].sint, flags[f].vector);
}

int main(void) {
    uint32_t orders = 0;
    set_up();
    for (uint32_t n = 0; n < GUESTS; n++) step(n, HERE);
    for (uint32_t n = 0; n < GUESTS; n++) {
        step(1 - n, 1);
        for (order = 0; order < 100000; order++)
            if (is_order(order)) run(n), orders++;
        step(1 - n, TAKE);
    }
    is_reset(true);
    is_reset(false);
    printf("%u orders\n", orders);
    hvpm_destroy(&machine);
    return 0;
}
