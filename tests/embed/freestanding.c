/*
 * A program without a C library: the static library, and the seven functions that it calls. It boots a machine,
 * is served events of each kind, and gives all memory back. `.ci/embed` links it with -nostdlib. The status is
 * 0, or the line of what doesn't hold, by the exit of Linux on x86-64.
 */
#include "hvpm_guest.h"
#include "hvpm_pages.h"

/* Memory that is never given out twice, with the size of a block in front of it. */
static uint8_t memory[1 << 20] __attribute__((aligned(16)));
static size_t used, blocks;

void *memcpy(void *restrict to, const void *restrict from, size_t size) {
    for (size_t i = 0; i < size; i++) ((volatile uint8_t *)to)[i] = ((const uint8_t *)from)[i];
    return to;
}
void *memmove(void *to, const void *from, size_t size) {
    if ((uintptr_t)to < (uintptr_t)from) return memcpy(to, from, size);
    while (size-- > 0) ((volatile uint8_t *)to)[size] = ((const uint8_t *)from)[size];
    return to;
}
void *memset(void *at, int byte, size_t size) {
    for (size_t i = 0; i < size; i++) ((volatile uint8_t *)at)[i] = (uint8_t)byte;
    return at;
}
void *memchr(const void *at, int byte, size_t size) {
    for (size_t i = 0; i < size; i++)
        if (((const volatile uint8_t *)at)[i] == (uint8_t)byte) return (uint8_t *)(uintptr_t)at + i;
    return NULL;
}
void *malloc(size_t size) {
    if (sizeof memory - used < size + 32) return NULL;
    size_t *block = (size_t *)(void *)(memory + used);
    *block = size;
    used += 16 + (size + 15) / 16 * 16;
    blocks++;
    return block + 2;
}
void free(void *at) {
    if (at) blocks--;
}
void *realloc(void *at, size_t size) {
    void *to = malloc(size);
    if (!to || !at) return to;
    const size_t old = *((size_t *)at - 2);
    memcpy(to, at, old < size ? old : size);
    free(at);
    return to;
}

static _Noreturn void end(int status) {
    for (;;) __asm__ volatile("syscall" : : "a"(231), "D"(status) : "rcx", "r11", "memory");
}
#define HOLDS(is_so) \
    if (!(is_so)) end(__LINE__)

static uint8_t page[4096] __attribute__((aligned(4096)));

static void run(void) {
    static hvpm_machine machine = HVPM_EMPTY;
    static hvpm_pages pages = {.of = {1, 0}};
    static char line[HVPM_LINE];
    const hvpm_config config = {.mask = 0xf700000064, .pages = 64, .pool = 32, .vps = 1};
    const hvpm_caller root = {1, 0};
    const hvpm_port port = {.partition = 1, .id = 1, .peer = 1, .type = HVPM_PORT_MESSAGES, .sint = 2};
    const hvpm_connection connection = {1, 1, 1, 1, HVPM_PORT_MESSAGES};
    hvpm_reply reply;
    uint64_t child = 0;
    uint8_t vector = 0;
    HOLDS(hvpm_boot(&machine, &config) == HVPM_STATUS_OK);
    HOLDS(hvpm_create_partition(&machine, root, 0, &child, &reply, line, sizeof line) == HVPM_STATUS_OK);
    HOLDS(child == 2 && reply.line_len == 65);
    HOLDS(hvpm_delete_partition(&machine, root, child, &reply, NULL, 0) == HVPM_STATUS_OK);
    HOLDS(hvpm_create_port(&machine, root, &port, &reply, NULL, 0) == HVPM_STATUS_OK);
    HOLDS(hvpm_connect_port(&machine, root, &connection, &reply, NULL, 0) == HVPM_STATUS_OK);
    for (uint32_t i = 0; i < 3; i++) {
        const uint32_t msrs[] = {HVPM_MSR_SCONTROL, HVPM_MSR_SIMP, HVPM_MSR_SINT2};
        HOLDS(hvpm_write_msr(&machine, root, msrs[i], i == 2 ? 0x30 : 1, &reply, NULL, 0) == HVPM_STATUS_OK);
    }
    HOLDS(hvpm_pages_move(&machine, &pages, page, NULL) == HVPM_STATUS_OK);
    HOLDS(hvpm_post_message(&machine, root, 1, 7, "hello", 5, &reply, NULL, 0) == HVPM_STATUS_OK);
    HOLDS(hvpm_pages_after(&machine, &pages, &reply.effect) == HVPM_STATUS_OK);
    HOLDS(hvpm_pages_vector(&machine, &pages, &vector) == HVPM_STATUS_OK && vector == 0x30);
    HOLDS(page[512] == 7 && page[512 + 4] == 5 && page[512 + 16] == 'h');
    hvpm_destroy(&machine);
    HOLDS(blocks == 0);
}

__attribute__((force_align_arg_pointer)) _Noreturn void _start(void) {
    run();
    end(0);
}
