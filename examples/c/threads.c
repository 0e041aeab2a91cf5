/*
 * Eight threads share one machine behind a lock, and each is a processor of the root that
 * posts, signals, reads and writes.
 *
 *     threads EVENTS SEED SCRIPT AUDIT
 *
 * lets EVENTS events happen in whatever order the threads come to, and writes them as a script, in that
 * order, and the audit that the library handed back line by line. `hvpm run --serial SCRIPT` must print that
 * very AUDIT.
 */
#include "hvpm.h"

#include <inttypes.h>
#include <pthread.h>
#include <sched.h>
#include <stdio.h>
#include <stdlib.h>
#include <string.h>

enum { THREADS = 8 };

/* All of it is the lock's: a thread touches it only while it has the lock. */
static struct {
    pthread_mutex_t lock;
    hvpm_machine machine;
    uint64_t left;
    uint32_t status;
    FILE *script, *audit;
} shared = {.lock = PTHREAD_MUTEX_INITIALIZER};

/*
 * Lets one event happen, where there is one left and all before it did, and writes it down.
 * `text` is what a script says of it.
 */
#define HAPPEN(text, call)                                                     \
    do {                                                                       \
        shared.status = (call);                                                \
        if (shared.status == HVPM_STATUS_OK) {                                      \
            fprintf(shared.script, "1.%" PRIu32 " %s\n", by.vp, (text));       \
            fwrite(line, 1, reply.line_len, shared.audit);                     \
        }                                                                      \
    } while (0)

static void hypercall(hvpm_caller by, uint64_t rcx, uint64_t rdx, const uint8_t *input, size_t len) {
    const hvpm_registers registers = {rcx, rdx, 0};
    hvpm_reply reply;
    char line[HVPM_LINE], text[128];
    int end = snprintf(text, sizeof text, "call %" PRIu64 " %" PRIu64 " 0 %s", rcx, rdx, len == 0 ? "-" : "");
    for (size_t at = 0; at < len; at++)
        end += snprintf(text + end, sizeof text - (size_t)end, "%02x", input[at]);
    HAPPEN(text, hvpm_hypercall(&shared.machine, by, &registers, input, len, &reply, line, sizeof line));
}

static void write_msr(hvpm_caller by, uint32_t msr, uint64_t value) {
    hvpm_reply reply;
    char line[HVPM_LINE], text[64];
    snprintf(text, sizeof text, "wrmsr %" PRIu32 " %" PRIu64, msr, value);
    HAPPEN(text, hvpm_write_msr(&shared.machine, by, msr, value, &reply, line, sizeof line));
}

/* One event by a processor, of a kind that a number picks. SINT 2 takes messages, SINT 3 event flags. */
static void act(hvpm_caller by, uint32_t pick) {
    const uint8_t post[] = {
        (uint8_t)(pick >> 8 & 7), 0, 0, 0, 0, 0, 0, 0, 1, 0, 0, 0, 2, 0, 0, 0, (uint8_t)by.vp, (uint8_t)pick};
    hvpm_machine *machine = &shared.machine;
    hvpm_reply reply;
    char line[HVPM_LINE], text[64];
    switch (pick % 10) {
    case 0: hypercall(by, 0x5C, 0, post, sizeof post); return;
    case 1: hypercall(by, 0x1005D, 8 + (pick >> 8 & 7) + ((uint64_t)(pick >> 16 & 7) << 32), NULL, 0); return;
    case 2: hypercall(by, 0x46, 0, NULL, 0); return;
    case 3: write_msr(by, HVPM_MSR_EOM, 0); return;
    case 4: HAPPEN("slot 2", hvpm_read_slot(machine, by, 2, &reply, line, sizeof line)); return;
    case 5: HAPPEN("clearslot 2", hvpm_clear_slot(machine, by, 2, &reply, line, sizeof line)); return;
    case 6: HAPPEN("flags 3", hvpm_read_flags(machine, by, 3, &reply, line, sizeof line)); return;
    case 7:
        snprintf(text, sizeof text, "clearflag 3 %" PRIu32, pick >> 16 & 7);
        HAPPEN(text, hvpm_clear_flag(machine, by, 3, (uint16_t)(pick >> 16 & 7), &reply, line, sizeof line));
        return;
    case 8:
        HAPPEN("rdmsr 1073741954", hvpm_read_msr(machine, by, HVPM_MSR_SIEFP, &reply, line, sizeof line));
        return;
    default: HAPPEN("interrupt", hvpm_take_interrupt(machine, by, &reply, line, sizeof line)); return;
    }
}

/* All threads begin at once. */
static pthread_barrier_t start;

/* A processor: one event for each time that it has the lock. */
struct processor {
    hvpm_caller by;
    uint32_t random;
    uint64_t done;
};

static void *run(void *of) {
    struct processor *self = of;
    pthread_barrier_wait(&start);
    for (bool goes_on = true; goes_on;) {
        self->random ^= self->random << 13, self->random ^= self->random >> 17,
            self->random ^= self->random << 5;
        pthread_mutex_lock(&shared.lock);
        goes_on = shared.left > 0 && shared.status == HVPM_STATUS_OK;
        if (goes_on) {
            shared.left--;
            self->done++;
            act(self->by, self->random);
        }
        pthread_mutex_unlock(&shared.lock);
        sched_yield();
    }
    return NULL;
}

static void put_number(uint8_t *at, uint64_t value, size_t len) {
    for (size_t i = 0; i < len; i++) at[i] = (uint8_t)(value >> 8 * i);
}

/*
 * Turns a processor's interrupt controller on, and makes a port of messages and one of 8 event
 * flags there, with connections.
 */
static void set_up(hvpm_caller by) {
    write_msr(by, HVPM_MSR_SCONTROL, 1);
    write_msr(by, HVPM_MSR_SIEFP, 1);
    write_msr(by, HVPM_MSR_SIMP, 1);
    write_msr(by, HVPM_MSR_SINT2, 0x30 + by.vp);
    write_msr(by, HVPM_MSR_SINT3, 0x40 + by.vp);
    for (uint32_t type = 1; type <= 2; type++) {
        const uint32_t id = by.vp + 8 * (type - 1);
        uint8_t port[48] = {0}, connection[36] = {0};
        put_number(port, 1, 8), put_number(port + 8, id, 4), put_number(port + 16, 1, 8),
            put_number(port + 24, type, 4);
        put_number(port + 32, 1 + type, 4), put_number(port + 36, by.vp, 4),
            put_number(port + 42, type == 1 ? 0 : 8, 2);
        hypercall(by, 0x95, 0, port, sizeof port);
        put_number(connection, 1, 8), put_number(connection + 8, id, 4), put_number(connection + 16, 1, 8);
        put_number(connection + 24, id, 4), put_number(connection + 32, type, 4);
        hypercall(by, 0x96, 0, connection, sizeof connection);
    }
}

int main(int argc, char **argv) {
    if (argc != 5) {
        fputs("usage: threads EVENTS SEED SCRIPT AUDIT\n", stderr);
        return 2;
    }
    const hvpm_config config = {.mask = 0xf700000044, .pages = 100, .pool = 80, .vps = THREADS};
    shared.left = strtoull(argv[1], NULL, 10);
    shared.script = fopen(argv[3], "w");
    shared.audit = fopen(argv[4], "w");
    if (!shared.script || !shared.audit || hvpm_boot(&shared.machine, &config) != HVPM_STATUS_OK) return 3;
    fputs("boot 100 80 8 0xf700000044 4294967295\n", shared.script);
    pthread_t threads[THREADS];
    struct processor processors[THREADS];
    pthread_barrier_init(&start, NULL, THREADS);
    for (uint32_t vp = 0; vp < THREADS; vp++) set_up((hvpm_caller){1, vp});
    for (uint32_t vp = 0; vp < THREADS; vp++) {
        processors[vp] =
            (struct processor){{1, vp}, (uint32_t)strtoul(argv[2], NULL, 10) * 2654435761u + vp + 1, 0};
        if (pthread_create(&threads[vp], NULL, run, &processors[vp]) != 0) return 3;
    }
    for (uint32_t vp = 0; vp < THREADS; vp++) pthread_join(threads[vp], NULL);
    fprintf(shared.audit, "events %" PRIu64 "\n", shared.machine.events);
    printf("%" PRIu64 " events, status %" PRIu32 ", by processor:", shared.machine.events, shared.status);
    for (uint32_t vp = 0; vp < THREADS; vp++) printf(" %" PRIu64, processors[vp].done);
    puts("");
    hvpm_destroy(&shared.machine);
    return fclose(shared.script) == 0 && fclose(shared.audit) == 0 && shared.status == HVPM_STATUS_OK ? 0 : 1;
}
