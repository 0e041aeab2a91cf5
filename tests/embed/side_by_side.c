/*
 * Looks of several threads at once. The library's memory and the handle lie in pages that nobody may write
 * while they look: a look that wrote would end the process by a signal. Events come between. `.ci/embed`
 * leads the library's malloc, realloc and free here (-Wl,--wrap), and builds this under a thread sanitizer,
 * too. What is wrong goes to standard error.
 */
#include "hvpm.h"

#include <pthread.h>
#include <stdio.h>
#include <stdlib.h>
#include <string.h>
#include <sys/mman.h>

enum { SIZE = 1 << 20, THREADS = 4, ROUNDS = 5, LOOKS = 200 };

void *__real_malloc(size_t size), *__real_realloc(void *at, size_t size);
void __real_free(void *at);
void *__wrap_malloc(size_t size), *__wrap_realloc(void *at, size_t size);
void __wrap_free(void *at);

/* ---- Memory that may be closed ---- */

/* The handle, then blocks that are never given out twice, each behind its size. While it is closed, blocks
 * come from the process's allocator. */
static uint8_t memory[SIZE] __attribute__((aligned(4096)));
static size_t used = 64;
static bool is_closed;

static void must(const char *what, bool is_so) {
    if (is_so) return;
    fprintf(stderr, "%s doesn't hold\n", what);
    exit(1);
}

static bool is_ours(const void *at) {
    return (const uint8_t *)at >= memory && (const uint8_t *)at < memory + SIZE;
}

void *__wrap_malloc(size_t size) {
    if (is_closed) return __real_malloc(size);
    uint8_t *const at = memory + used + 16;
    must("memory is left", size < SIZE / 2 && used + size + 32 <= SIZE);
    memcpy(at - 16, &size, sizeof size);
    used += 16 + (size + 15) / 16 * 16;
    return at;
}

void *__wrap_realloc(void *at, size_t size) {
    size_t old = 0;
    if (at ? !is_ours(at) : is_closed) return __real_realloc(at, size);
    must("no look moves a block", !is_closed);
    if (at) memcpy(&old, (uint8_t *)at - 16, sizeof old);
    void *const to = __wrap_malloc(size);
    if (at) memcpy(to, at, old < size ? old : size);
    return to;
}

void __wrap_free(void *at) {
    must("no look frees a block", !at || !is_ours(at) || !is_closed);
    if (at && !is_ours(at)) __real_free(at);
}

static void close_memory(bool is_so) {
    is_closed = is_so;
    must("mprotect", mprotect(memory, SIZE, is_so ? PROT_READ : PROT_READ | PROT_WRITE) == 0);
}

/* ---- The machine ---- */

static const hvpm_caller root = {1, 0}, guest = {2, 1};
static hvpm_machine *const machine = (hvpm_machine *)(void *)memory;

static void served(uint32_t status, const hvpm_reply *reply) {
    must("an event is served",
         status == HVPM_STATUS_OK && (reply->kind == HVPM_REPLY_SERVED || reply->kind == HVPM_REPLY_MORE));
}

static void set_up(void) {
    static const hvpm_config config = {.mask = 0xf700000047, .pages = 64, .pool = 16, .vps = 1};
    static const uint64_t pages[] = {20, 21, 22, 23, 24, 25, 26, 27, 28, 29};
    static const hvpm_port ports[] = {{2, 5, 1, HVPM_PORT_MESSAGES, 2, 1, 0, 0},
                                      {2, 7, 1, HVPM_PORT_EVENTS, 3, HVPM_ANY_VP, 8, 4}};
    static const hvpm_connection connections[] = {{1, 1, 2, 5, HVPM_PORT_MESSAGES},
                                                  {1, 2, 2, 7, HVPM_PORT_EVENTS}};
    static const uint32_t msrs[][2] = {{0x40000080, 1}, {0x40000082, 1}, {0x40000083, 1},
                                       {0x40000092, 0x32}, {0x40000093, 0x33}};
    uint64_t id;
    size_t made;
    hvpm_reply reply, *const to = &reply;
    must("boot", hvpm_boot(machine, &config) == HVPM_STATUS_OK);
    served(hvpm_create_partition(machine, root, 0, &id, to, NULL, 0), to);
    served(hvpm_set_partition_property(machine, root, 2, HVPM_PRIVILEGE_FLAGS, 0xb100000044, to, NULL, 0),
           to);
    served(hvpm_initialize_partition(machine, root, 2, to, NULL, 0), to);
    served(hvpm_deposit_pages(machine, root, 2, pages, 10, &made, to), to);
    served(hvpm_create_vp(machine, root, 2, 1, to, NULL, 0), to);
    for (size_t i = 0; i < 2; i++) {
        served(hvpm_create_port(machine, root, &ports[i], to, NULL, 0), to);
        served(hvpm_connect_port(machine, root, &connections[i], to, NULL, 0), to);
    }
    for (size_t i = 0; i < sizeof msrs / sizeof *msrs; i++)
        served(hvpm_write_msr(machine, guest, msrs[i][0], msrs[i][1], to, NULL, 0), to);
}

/* ---- Looks ---- */

/* What each look shows. */
struct seen {
    uint8_t slot[256], flags[256];
    uint64_t msr, pending[4], child, owner;
    hvpm_partition partition;
    hvpm_port port;
    hvpm_connection connection;
    uint32_t features[4], vp, next_port, next_connection;
    hvpm_page_run run;
    char table[2048], words[HVPM_EXPLANATION];
    size_t table_len, words_len;
};

/* A call that P4 refuses, and its reply. */
static const hvpm_registers refused = {.rcx = 0x4B};
static const hvpm_reply denied = {.kind = HVPM_REPLY_DENIED, .rule = 4};

static void look(struct seen *seen) {
    const hvpm_machine *const at = machine;
    memset(seen, 0, sizeof *seen);
    must("a slot", hvpm_peek_slot(at, guest, 2, seen->slot) == HVPM_STATUS_OK);
    must("flags", hvpm_peek_flags(at, guest, 3, seen->flags) == HVPM_STATUS_OK);
    must("an MSR", hvpm_peek_msr(at, guest, 0x40000093, &seen->msr) == HVPM_STATUS_OK);
    must("vectors", hvpm_peek_pending(at, guest, seen->pending) == HVPM_STATUS_OK);
    must("a partition", hvpm_peek_partition(at, 2, &seen->partition) == HVPM_STATUS_OK);
    must("a port", hvpm_peek_port(at, 2, 7, &seen->port) == HVPM_STATUS_OK);
    must("a connection", hvpm_peek_connection(at, 1, 2, &seen->connection) == HVPM_STATUS_OK);
    must("a child", hvpm_child_after(at, 1, 0, &seen->child) == HVPM_STATUS_OK);
    must("an owner", hvpm_page_owner(at, 20, &seen->owner) == HVPM_STATUS_OK);
    must("a processor", hvpm_vp_after(at, 2, HVPM_FIRST, &seen->vp) == HVPM_STATUS_OK);
    must("a port's id", hvpm_port_after(at, 2, HVPM_FIRST, &seen->next_port) == HVPM_STATUS_OK);
    must("a connection's id",
         hvpm_connection_after(at, 1, HVPM_FIRST, &seen->next_connection) == HVPM_STATUS_OK);
    must("pages", hvpm_page_after(at, 2, HVPM_FIRST, &seen->run) == HVPM_STATUS_OK);
    must("features", hvpm_features(at, 2, seen->features) == HVPM_STATUS_OK);
    must("words", hvpm_explain(at, guest, &refused, "", 1, &denied, seen->words, sizeof seen->words,
                               &seen->words_len) == HVPM_STATUS_OK);
    must("the table",
         hvpm_table(at, seen->table, sizeof seen->table, &seen->table_len) == HVPM_STATUS_OK);
    must("nothing else", hvpm_peek_partition(at, 9, &seen->partition) == HVPM_STATUS_NONE);
}

static void *look_on(void *of) {
    const struct seen *const wanted = of;
    struct seen seen;
    for (uint32_t i = 0; i < LOOKS; i++) {
        look(&seen);
        must("a look beside others", memcmp(&seen, wanted, sizeof seen) == 0);
    }
    return of;
}

int main(void) {
    struct seen wanted = {.msr = 0}, before;
    hvpm_reply reply;
    *machine = (hvpm_machine)HVPM_EMPTY;
    set_up();
    for (uint32_t round = 0; round < ROUNDS; round++) {
        pthread_t threads[THREADS];
        before = wanted;
        served(hvpm_post_message(machine, root, 1, 0x77, "text", 4, &reply, NULL, 0), &reply);
        served(hvpm_signal_event(machine, root, 2, (uint16_t)(round % 4), &reply, NULL, 0), &reply);
        const uint64_t events = machine->events;
        close_memory(true);
        look(&wanted);
        must("an event shows", round >= 4 || memcmp(&before, &wanted, sizeof before) != 0);
        for (uint32_t i = 0; i < THREADS; i++)
            must("a thread", pthread_create(&threads[i], NULL, look_on, &wanted) == 0);
        for (uint32_t i = 0; i < THREADS; i++) must("its end", pthread_join(threads[i], NULL) == 0);
        must("no look is counted", machine->events == events);
        close_memory(false);
    }
    hvpm_destroy(machine);
    return 0;
}
