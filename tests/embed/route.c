/*
 * Routes (hvpm_route.h): what one makes, what comes by it, and that one which can't be opened leaves nothing
 * behind, whichever of its four parts a rule or the lack of memory refuses. Link it with
 * -Wl,--wrap=malloc,--wrap=realloc. What is wrong goes to standard error, and the status is then 1.
 */
#include "hvpm_route.h"

#include <inttypes.h>
#include <stdio.h>
#include <stdlib.h>
#include <string.h>

enum { ID = 0x100, SINT = 2, VECTOR = 0x50, POOL = 16 };

static hvpm_machine machine = HVPM_EMPTY;
static const hvpm_caller root = {1, 0};
static uint64_t child;
static hvpm_route route;
static hvpm_reply reply;

static void holds(const char *what, bool is_so) {
    if (is_so) return;
    fprintf(stderr, "%s\n", what);
    exit(1);
}

/* ---- Memory ---- */

void *__real_malloc(size_t size), *__real_realloc(void *block, size_t size);
void *__wrap_malloc(size_t size), *__wrap_realloc(void *block, size_t size);

static size_t given = SIZE_MAX; /* blocks that are still given out before one is refused */

static bool is_refused(void) {
    return given != SIZE_MAX && given-- == 0;
}
void *__wrap_malloc(size_t size) {
    return is_refused() ? NULL : __real_malloc(size);
}
void *__wrap_realloc(void *block, size_t size) {
    return is_refused() ? NULL : __real_realloc(block, size);
}

/* ---- Calls ---- */

static void served(const char *what, uint32_t status) {
    holds(what, status == HVPM_STATUS_OK && reply.kind == HVPM_REPLY_SERVED && reply.rule == 0);
}

static void denied(const char *what, uint32_t rule, uint32_t status) {
    holds(what, status == HVPM_STATUS_OK && reply.kind == HVPM_REPLY_DENIED && reply.rule == rule);
}

/* The ports and connections of both partitions. */
static struct made {
    uint32_t ports, connections;
    uint64_t in_use;
} made_of(uint64_t id) {
    hvpm_partition is = {0};
    holds("a partition is there", hvpm_peek_partition(&machine, id, &is) == HVPM_STATUS_OK);
    return (struct made){is.ports, is.connections, is.in_use};
}

static void has(const char *what, uint64_t id, uint32_t ports, uint32_t connections) {
    const struct made made = made_of(id);
    holds(what, made.ports == ports && made.connections == connections);
}

/* An open that a rule refuses changes nothing. */
static void opens_not(const char *what, uint32_t rule) {
    const struct made before[2] = {made_of(1), made_of(child)};
    denied(what, rule, hvpm_route_open(&machine, &route, &reply));
    const struct made after[2] = {made_of(1), made_of(child)};
    holds(what, memcmp(before, after, sizeof before) == 0);
}

static uint32_t write_msr(uint32_t msr, uint64_t value) {
    return hvpm_write_msr(&machine, (hvpm_caller){child, 0}, msr, value, &reply, NULL, 0);
}

static void boot(void) {
    const hvpm_config config = {.mask = 0xf700000064, .pages = 64, .pool = 24, .vps = 1};
    uint64_t pages[POOL];
    size_t made = 0;
    holds("boot", hvpm_boot(&machine, &config) == HVPM_STATUS_OK);
    served("a child", hvpm_create_partition(&machine, root, 0, &child, &reply, NULL, 0));
    const uint32_t flags = HVPM_PRIVILEGE_FLAGS;
    served("its mask",
           hvpm_set_partition_property(&machine, root, child, flags, 0x3000000064, &reply, NULL, 0));
    served("its life", hvpm_initialize_partition(&machine, root, child, &reply, NULL, 0));
    for (uint64_t i = 0; i < POOL; i++) pages[i] = 32 + i;
    served("its pool", hvpm_deposit_pages(&machine, root, child, pages, POOL, &made, &reply));
    served("its processor", hvpm_create_vp(&machine, root, child, 0, &reply, NULL, 0));
    route = (hvpm_route){.by = root, .partition = child, .vp = 0, .sint = SINT, .id = ID};
}

/* ---- Cases ---- */

static void opens(void) {
    hvpm_port port;
    hvpm_connection connection;
    const uint64_t events = machine.events;
    served("opening", hvpm_route_open(&machine, &route, &reply));
    holds("opening is four events", machine.events == events + 4);
    has("the root has two connections", 1, 0, 2), has("the child has two ports", child, 2, 0);
    for (uint32_t i = 0; i < 2; i++) {
        const uint32_t type = i == 0 ? HVPM_PORT_MESSAGES : HVPM_PORT_EVENTS;
        holds("a port", hvpm_peek_port(&machine, child, ID + i, &port) == HVPM_STATUS_OK);
        holds("its fields", port.peer == 1 && port.type == type && port.sint == SINT && port.vp == 0 &&
                                port.base_flag == 0 && port.flag_count == (i == 0 ? 0 : 2048));
        holds("a connection", hvpm_peek_connection(&machine, 1, ID + i, &connection) == HVPM_STATUS_OK);
        holds("its end", connection.port_partition == child && connection.port == ID + i);
    }
}

static void comes(void) {
    uint8_t slot[256], flags[256];
    denied("a post to a SynIC that is off", 22, hvpm_route_post(&machine, &route, 1, "", 0, &reply));
    denied("a signal", 22, hvpm_route_signal(&machine, &route, 5, &reply));
    served("SIMP", write_msr(0x40000083, 1)), served("SIEFP", write_msr(0x40000082, 1));
    served("SINT", write_msr(0x40000090 + SINT, VECTOR)), served("SCONTROL", write_msr(0x40000080, 1));
    served("a post", hvpm_route_post(&machine, &route, 7, "hello", 5, &reply));
    holds("its effect", reply.effect.kind == HVPM_EFFECT_SYNIC && reply.effect.partition == child &&
                            reply.effect.vp == 0 && reply.effect.shown == 1 << SINT &&
                            reply.effect.raised[VECTOR / 64] == UINT64_C(1) << VECTOR % 64);
    holds("a slot", hvpm_peek_slot(&machine, (hvpm_caller){child, 0}, SINT, slot) == HVPM_STATUS_OK);
    holds("the message", slot[0] == 7 && slot[4] == 5 && memcmp(slot + 16, "hello", 5) == 0);
    for (int i = 1; i < 8; i++)
        served("a post behind it", hvpm_route_post(&machine, &route, 7, "", 0, &reply));
    denied("the ninth post", 23, hvpm_route_post(&machine, &route, 7, "", 0, &reply));
    denied("a payload of 241 bytes", 7, hvpm_route_post(&machine, &route, 7, slot, 241, &reply));
    served("the last flag", hvpm_route_signal(&machine, &route, 2047, &reply));
    holds("its effect", reply.effect.flag_is == HVPM_FLAG_SET && reply.effect.flag == 2047);
    holds("flags", hvpm_peek_flags(&machine, (hvpm_caller){child, 0}, SINT, flags) == HVPM_STATUS_OK);
    holds("the flag", flags[255] == 0x80);
    denied("a flag behind it", 21, hvpm_route_signal(&machine, &route, 2048, &reply));
    served("closing", hvpm_route_close(&machine, &route, &reply));
    has("nothing at the root", 1, 0, 0), has("nothing at the child", child, 0, 0);
    holds("a slot", hvpm_peek_slot(&machine, (hvpm_caller){child, 0}, SINT, slot) == HVPM_STATUS_OK);
    holds("the message stays", slot[0] == 7);
    denied("closing again", 17, hvpm_route_close(&machine, &route, &reply));
    denied("a post by a route that is closed", 16, hvpm_route_post(&machine, &route, 7, "", 0, &reply));
}

/* Each of the four ids is in use once; then each pool is one page short. */
static void refuses(void) {
    for (uint32_t i = 0; i < 4; i++) {
        const uint32_t type = i < 2 ? HVPM_PORT_MESSAGES : HVPM_PORT_EVENTS, id = ID + i / 2;
        const hvpm_port of_root = {1, ID, 1, type, 0, 0, 0, 1}, of_child = {child, id, 1, type, 0, 0, 0, 1};
        const hvpm_connection to_root = {1, id, 1, ID, type};
        served("a port", hvpm_create_port(&machine, root, i % 2 ? &of_root : &of_child, &reply, NULL, 0));
        if (i % 2)
            served("a connection", hvpm_connect_port(&machine, root, &to_root, &reply, NULL, 0));
        opens_not("an id in use", i % 2 ? 16 : 17);
        if (i % 2) served("its end", hvpm_disconnect_port(&machine, root, 1, id, &reply, NULL, 0));
        const hvpm_port *const made = i % 2 ? &of_root : &of_child;
        served("its end", hvpm_delete_port(&machine, root, made->partition, made->id, &reply, NULL, 0));
    }
    route.vp = 1, opens_not("no such processor", 19), route.vp = 0;
    route.sint = 16, opens_not("no such SINT", 7), route.sint = SINT;
    route.partition = 9, opens_not("no such partition", 9), route.partition = child;
    uint64_t pages[POOL + 8];
    for (uint64_t part = 0; part < 2; part++) {
        const uint64_t id = part == 0 ? child : 1;
        uint64_t available = 0, in_use;
        size_t made = 0;
        const uint32_t status =
            hvpm_get_memory_balance(&machine, root, id, &available, &in_use, &reply, NULL, 0);
        served("a balance", status);
        available -= 1;
        served("pages", hvpm_withdraw_pages(&machine, root, id, pages, available, &made, &reply));
        opens_not("a pool of one page", 24);
        served("pages", hvpm_deposit_pages(&machine, root, id, pages, available, &made, &reply));
    }
    for (int i = 0; i < 2; i++) {
        hvpm_machine *const at = i == 0 ? NULL : &machine;
        const hvpm_route *const of = i == 0 ? &route : NULL;
        holds("a null", hvpm_route_open(at, of, &reply) == HVPM_STATUS_NULL &&
                            hvpm_route_post(at, of, 1, "", 0, &reply) == HVPM_STATUS_NULL &&
                            hvpm_route_signal(at, of, 1, &reply) == HVPM_STATUS_NULL &&
                            hvpm_route_close(at, of, &reply) == HVPM_STATUS_NULL);
    }
    holds("a null reply", hvpm_route_open(&machine, &route, NULL) == HVPM_STATUS_NULL &&
                              hvpm_route_post(&machine, &route, 1, "", 0, NULL) == HVPM_STATUS_NULL &&
                              hvpm_route_signal(&machine, &route, 1, NULL) == HVPM_STATUS_NULL &&
                              hvpm_route_close(&machine, &route, NULL) == HVPM_STATUS_NULL);
}

/* Makes so many ports and connections of other ids, so that another part of the next route needs memory. */
static void crowd(uint32_t count) {
    for (uint32_t i = 0; i < count; i++) {
        const hvpm_port port = {child, 1 + i, 1, HVPM_PORT_MESSAGES, SINT, 0, 0, 0};
        const hvpm_connection connection = {1, 1 + i, child, 1 + i, HVPM_PORT_MESSAGES};
        served("a port", hvpm_create_port(&machine, root, &port, &reply, NULL, 0));
        served("a connection", hvpm_connect_port(&machine, root, &connection, &reply, NULL, 0));
    }
}

/* One block after another is refused. Each part lacks memory once, and closing needs none. */
static void lacks_memory(void) {
    uint32_t refused = 0; /* bit P: part P was */
    size_t blocks = 0;
    for (uint32_t count = 0; count < 8;) {
        hvpm_destroy(&machine), boot(), crowd(count);
        const struct made before[2] = {made_of(1), made_of(child)};
        const uint64_t events = machine.events;
        given = blocks;
        const uint32_t status = hvpm_route_open(&machine, &route, &reply);
        given = SIZE_MAX;
        if (status == HVPM_STATUS_MEMORY) {
            const struct made after[2] = {made_of(1), made_of(child)};
            holds("an open without memory leaves nothing", memcmp(before, after, sizeof before) == 0);
            refused |= 1u << (machine.events - events) / 2; /* each part before it was made and removed */
            served("it is tried again", hvpm_route_open(&machine, &route, &reply));
            blocks++;
        } else {
            served("an open with memory", status);
            blocks = 0, count++;
        }
        given = 0;
        const uint32_t closed = hvpm_route_close(&machine, &route, &reply);
        holds("closing asks for no memory", given == 0);
        given = SIZE_MAX, served("closing", closed);
    }
    holds("each part is refused its memory once", refused == 0xF);
}

/* A part of the route, and then its receiver, is gone before it. */
static void outlives(void) {
    hvpm_destroy(&machine), boot();
    served("opening", hvpm_route_open(&machine, &route, &reply));
    served("a part's end", hvpm_disconnect_port(&machine, root, 1, ID + 1, &reply, NULL, 0));
    denied("closing the rest", 16, hvpm_route_close(&machine, &route, &reply));
    has("nothing at the root", 1, 0, 0), has("nothing at the child", child, 0, 0);
    served("opening", hvpm_route_open(&machine, &route, &reply));
    served("a processor's end", hvpm_delete_vp(&machine, root, child, 0, &reply, NULL, 0));
    denied("a post to no processor", 19, hvpm_route_post(&machine, &route, 7, "", 0, &reply));
    served("the child's end", hvpm_finalize_partition(&machine, root, child, &reply, NULL, 0));
    denied("a post to no port", 17, hvpm_route_post(&machine, &route, 7, "", 0, &reply));
    denied("closing", 12, hvpm_route_close(&machine, &route, &reply));
    has("nothing at the root", 1, 0, 0);
}

int main(void) {
    boot();
    opens(), comes(), refuses(), lacks_memory(), outlives();
    hvpm_destroy(&machine);
    return 0;
}
