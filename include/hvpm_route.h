/*
 * hvpm_route.h: a route to a virtual processor's SINT, by which a device of the VMM posts messages and
 * signals event flags there.
 *
 * The machine delivers to ports, and a sender needs a connection to a port (TLFS 4.0, "Inter-Partition
 * Communication"). A device knows a processor and a SINT. A route is a port for messages and one for event
 * flags at that SINT, and the sender's connections to both:
 *
 *     const hvpm_route route = {.by = {1, 0}, .partition = child, .vp = 0, .sint = 2, .id = 0x100};
 *     hvpm_route_open(&machine, &route, &reply);
 *     hvpm_route_post(&machine, &route, type, payload, payload_size, &reply);
 *     hvpm_route_signal(&machine, &route, flag, &reply);
 *     hvpm_route_close(&machine, &route, &reply);
 *
 * A post or a signal is an event like a guest's own. Call hvpm_pages_before() before a post and
 * hvpm_pages_after() after both, as hvpm_pages.h says. Opening and closing change no page, vector or
 * processor. A route holds no memory, and several may lead to one SINT.
 *
 * The receiver may refuse at any moment; `reply->rule` says why:
 *
 *     P19, P22    it has no such processor now, or that has its SynIC or page off: the sender's data is lost
 *     P23         8 messages of this route wait there: post again when `freed` in hvpm_pages is true
 *
 * Each function returns HVPM_STATUS_OK. If a call of the library fails, it returns that status. None of them
 * gives audit lines: for these, make the calls of hvpm.h yourself.
 */
#ifndef HVPM_ROUTE_H
#define HVPM_ROUTE_H

#include "hvpm.h"

/* A route. Its fields stay as they are while it is open. */
typedef struct hvpm_route {
    hvpm_caller by;     /* the sender: a processor of the receiver's parent, or of the receiver itself */
    uint64_t partition; /* the receiver */
    uint32_t vp;        /* its processor, or HVPM_ANY_VP */
    uint32_t sint;      /* that processor's SINT */
    uint32_t id;        /* `id` and `id` + 1 are ports of the receiver and connections of the sender's
                           partition; both are free there before */
} hvpm_route;

/* Helper: makes one of a route's four parts: port, connection, port, connection. */
static inline uint32_t hvpm_route_make(hvpm_machine *machine, const hvpm_route *route, uint32_t part,
                                     hvpm_reply *reply) {
    const uint32_t type = part < 2 ? HVPM_PORT_MESSAGES : HVPM_PORT_EVENTS, id = route->id + part / 2;
    const hvpm_port port = {
        route->partition, id, route->by.partition, type, route->sint, route->vp, 0, 2048};
    const hvpm_connection connection = {route->by.partition, id, route->partition, id, type};
    return part % 2 == 0 ? hvpm_create_port(machine, route->by, &port, reply, NULL, 0)
                         : hvpm_connect_port(machine, route->by, &connection, reply, NULL, 0);
}

/* Helper: removes the first `made` parts, the last of them first. `reply` is that of one that a rule refused,
 * or else of any. */
static inline uint32_t hvpm_route_remove(hvpm_machine *machine, const hvpm_route *route, uint32_t made,
                                       hvpm_reply *reply) {
    for (uint32_t part = made; part-- > 0;) {
        const uint32_t id = route->id + part / 2;
        hvpm_reply one;
        const uint32_t status =
            part % 2 == 0
                ? hvpm_delete_port(machine, route->by, route->partition, id, &one, NULL, 0)
                : hvpm_disconnect_port(machine, route->by, route->by.partition, id, &one, NULL, 0);
        if (status != HVPM_STATUS_OK) return status;
        if (part + 1 == made || one.kind == HVPM_REPLY_DENIED) *reply = one;
    }
    return HVPM_STATUS_OK;
}

/*
 * Opens a route: both ports and both connections, or, if a rule or the library refuses one of them, none.
 * `reply` is that of the call that a rule refused, or else of the last. The ports take 2 pages of the
 * receiver's pool, and the connections 2 of the sender's. P16 and P17 refuse ids that are in use.
 */
HVPM_RESULT uint32_t hvpm_route_open(hvpm_machine *machine, const hvpm_route *route, hvpm_reply *reply) {
    hvpm_reply removed;
    if (!route || !reply) return HVPM_STATUS_NULL;
    for (uint32_t part = 0; part < 4; part++) {
        const uint32_t status = hvpm_route_make(machine, route, part, reply);
        if (status == HVPM_STATUS_OK && reply->kind == HVPM_REPLY_SERVED) continue;
        const uint32_t then = hvpm_route_remove(machine, route, part, &removed);
        return status != HVPM_STATUS_OK ? status : then;
    }
    return HVPM_STATUS_OK;
}

/* Posts a message of at most 240 bytes, as hvpm_post_message() does. */
HVPM_RESULT uint32_t hvpm_route_post(hvpm_machine *machine, const hvpm_route *route, uint32_t type,
                                     const void *payload, uint32_t payload_size, hvpm_reply *reply) {
    if (!route) return HVPM_STATUS_NULL;
    return hvpm_post_message(machine, route->by, route->id, type, payload, payload_size, reply, NULL, 0);
}

/* Signals an event flag, 0 to 2,047, as hvpm_signal_event() does. */
HVPM_RESULT uint32_t hvpm_route_signal(hvpm_machine *machine, const hvpm_route *route, uint16_t flag,
                                       hvpm_reply *reply) {
    if (!route) return HVPM_STATUS_NULL;
    return hvpm_signal_event(machine, route->by, route->id + 1, flag, reply, NULL, 0);
}

/*
 * Closes a route. What came by it stays at the receiver. Each part is removed for itself, whatever became of
 * the others: if the receiver is gone, its ports are, too. `reply` is that of a call that a rule refused, or
 * else of one that was served. It needs no memory, so it doesn't fail for lack of that.
 */
HVPM_RESULT uint32_t hvpm_route_close(hvpm_machine *machine, const hvpm_route *route, hvpm_reply *reply) {
    if (!route || !reply) return HVPM_STATUS_NULL;
    return hvpm_route_remove(machine, route, 4, reply);
}

#endif
