/*
 * QEMU's include/hw/hyperv/hyperv.h over the library: it stands in place of QEMU's hyperv.c, which needs the
 * SynIC of KVM. QEMU's VMBus and its devices stay as they are. core.c and identity.c of examples/linux/vmm are
 * the machine, and Hyper-V as the guest meets it.
 *
 * QEMU is the root, and the guest its child. QEMU posts and signals by routes (include/hvpm_route.h). What the
 * guest sends comes to the pages of the root's processor, and from there to QEMU's handlers. QEMU's big lock
 * is held throughout, and the machine's lock is taken inside it.
 */
#include "qemu/osdep.h"
#include "../linux/tcg/exits.h"
#include "../linux/vmm/core.h" /* before QEMU's macros */
#include "hvpm_route.h"
#include "qemu/event_notifier.h"
#include "qemu/main-loop.h"
#include "exec/memory.h"
#include "hw/boards.h"
#include "hw/hyperv/hyperv.h"
#include "sysemu/reset.h"
#include "sysemu/sysemu.h"

/* Routes and handlers have ports with these ids and above. */
enum { ROUTES = MAX_VPS, HANDLERS = 16, ROUTE = 0x1000, PORT = 0x2000 };

static struct HvSintRoute {
    hvpm_route to;
    HvSintMsgCb told; /* is told what became of a post */
    void *data;
    unsigned refs; /* 0: free */
    bool has_post; /* one that isn't told yet */
    int status;    /* of it: -EAGAIN if the guest has no room */
} routes[ROUTES];

/* Who takes what the guest sends by a connection: messages, or signals. Handler N has port PORT + N, and for
 * signals the root's flag N. */
static struct handler {
    uint32_t connection; /* 0: free */
    HvMsgHandler take;
    void *data;
    EventNotifier *notifier;
} handlers[HANDLERS];

static struct guest *const guest = &guests[1];
static QEMUBH *raised; /* on_raised, soon */
static hvpm_reply reply;

static bool is_served(uint32_t status) {
    core_leave(status, &reply);
    return reply.kind == HVPM_REPLY_SERVED;
}

/* ---- to the guest ---- */

/* NULL if the guest has no such processor. */
HvSintRoute *hyperv_sint_route_new(uint32_t vp, uint32_t sint, HvSintMsgCb told, void *data) {
    for (HvSintRoute *route = routes; route < routes + ROUTES; route++) {
        if (route->refs > 0) continue;
        *route = (HvSintRoute){
            {ROOT, guest->id, vp, sint, ROUTE + 2 * (route - routes)}, .told = told, .data = data};
        route->refs = is_served(hvpm_route_open(core_enter(), &route->to, &reply));
        return route->refs > 0 ? route : NULL;
    }
    return NULL;
}

void hyperv_sint_route_ref(HvSintRoute *route) { route->refs++; }

void hyperv_sint_route_unref(HvSintRoute *route) {
    if (!route || --route->refs > 0) return;
    route->has_post = false;
    (void)is_served(hvpm_route_close(core_enter(), &route->to, &reply));
}

/* An interrupt alone, for guests of a VMBus before 2.4: the machine has none without a message or a flag. */
int hyperv_sint_route_set_sint(HvSintRoute *route) { return -ENOTSUP; }

/* A post without room is told as such when the guest took a message, and QEMU makes it again. There is no route
 * where a guest lets VMBus go that it never contacted. */
int hyperv_post_msg(HvSintRoute *route, struct hyperv_message *message) {
    const struct hyperv_message_header *head = &message->header;
    if (!route) return -ENXIO;
    if (route->has_post) return -EAGAIN;
    const bool is_in = is_served(hvpm_route_post(core_enter(), &route->to, head->message_type,
                                                 message->payload, head->payload_size, &reply));
    if (!is_in && reply.result != HV_STATUS_INSUFFICIENT_BUFFERS) return -ENXIO;
    route->has_post = true, route->status = is_in ? 0 : -EAGAIN;
    if (is_in) qemu_bh_schedule(raised);
    return 0;
}

void vmbus_has_room(const struct guest *of) { qemu_bh_schedule(raised); }

int hyperv_set_event_flag(HvSintRoute *route, unsigned flag) {
    return is_served(hvpm_route_signal(core_enter(), &route->to, flag, &reply)) ? 0 : -ENXIO;
}

/* ---- from the guest ---- */

static struct handler *find_handler(uint32_t connection) {
    for (struct handler *at = handlers; at < handlers + HANDLERS; at++)
        if (at->connection == connection) return at;
    return NULL;
}

static hvpm_port port_of(const struct handler *at) {
    const uint16_t n = at - handlers;
    const bool is_messages = at->take != NULL;
    return (hvpm_port){ROOT.partition, PORT + n, guest->id,
                       is_messages ? HVPM_PORT_MESSAGES : HVPM_PORT_EVENTS,
                       is_messages ? ROOT_MESSAGES : ROOT_EVENTS, 0, n, 1};
}

static int set_handler(struct handler new) {
    const bool is_new = new.take || new.notifier;
    struct handler *old = find_handler(new.connection), *at = is_new ? find_handler(0) : old;
    if (is_new && old) return -EEXIST;
    if (!at) return is_new ? -ENOSPC : -ENOENT;
    if (is_new) *at = new;
    const hvpm_port port = port_of(at);
    if (is_new) root_connect(&port, new.connection);
    else root_disconnect(&port, new.connection), *at = (struct handler){0};
    return 0;
}

int hyperv_set_msg_handler(uint32_t connection, HvMsgHandler take, void *data) {
    return set_handler((struct handler){connection, take, data, NULL});
}

int hyperv_set_event_flag_handler(uint32_t connection, EventNotifier *notifier) {
    return set_handler((struct handler){connection, NULL, NULL, notifier});
}

/* Hands on the message in the root's slot. The guest's post is served already, so a handler without room can't
 * refuse it: the message stays until later. */
static bool take_message(void) {
    const hvpm_slot *slot = root_message();
    if (!slot) return false;
    const struct handler *at = &handlers[slot->port % HANDLERS]; /* PORT is a multiple */
    struct hyperv_post_message_input in = {at->connection, 0, slot->type, slot->size};
    memcpy(in.payload, slot->payload, sizeof in.payload);
    if (at->take && at->take(&in, at->data) == HV_STATUS_INSUFFICIENT_BUFFERS) {
        qemu_bh_schedule_idle(raised);
        return false;
    }
    root_let_go();
    return true;
}

/* The root's processor has a vector, a post is to be told, or the guest took a message. */
static void on_raised(void *unused) {
    const unsigned flags = root_flags(0) | root_flags(1) << 8;
    while (take_message()) {
    }
    for (unsigned n = 0; n < HANDLERS; n++)
        if (flags >> n & 1 && handlers[n].notifier) event_notifier_set(handlers[n].notifier);
    for (HvSintRoute *route = routes; route < routes + ROUTES; route++) {
        if (!route->has_post) continue;
        route->has_post = false;
        if (route->told) route->told(route->data, route->status);
    }
}

/* ---- the machine ---- */

static void wake_root(struct vcpu *vcpu, uint8_t vector, bool has_auto_eoi) { qemu_bh_schedule(raised); }

static void interrupt(struct vcpu *vcpu, uint8_t vector, bool has_auto_eoi) {
    hvpm_inject((struct hvpm_interrupt){vcpu->pages.of.vp, vector, has_auto_eoi});
}

/* exits.c writes it as it enters the guest. */
static void put_code(struct vcpu *vcpu, uint64_t at) { vcpu->code_at = at; }

static const struct engine root_engine = {.interrupt = wake_root};
static const struct engine guest_engine = {.interrupt = interrupt, .put_code = put_code};

static struct hvpm_entry serve(unsigned vp, const struct hvpm_exit *exit) {
    qemu_mutex_lock_iothread();
    const struct hvpm_entry entry = take_exit(&guest->vcpu[vp], exit);
    qemu_mutex_unlock_iothread();
    return entry;
}

static void on_reset(void *unused) { identity_reset(guest); }
void vmbus_reset(struct guest *of) {} /* QEMU resets its bus itself */
static void on_end(Notifier *notifier, void *unused) { record_end(core_end()); }

/* VMBus asks this once, before all else. */
bool hyperv_is_synic_enabled(void) {
    static const hvpm_config config = {.mask = 0xf700000064, .pages = 4096, .pool = 64, .vps = 1};
    static Notifier end = {.notify = on_end};
    if (current_machine->smp.cpus > MAX_VPS) return false;
    raised = qemu_bh_new(on_raised, NULL);
    record_start();
    core_boot(&config);
    root_start(&root_engine);
    guest->vps = current_machine->smp.cpus, guest->engine = &guest_engine;
    guest->ram = memory_region_get_ram_ptr(current_machine->ram), guest->ram_size = current_machine->ram_size;
    root_add(guest, 2 * ROUTES + HANDLERS);
    qemu_register_reset(on_reset, NULL);
    qemu_add_exit_notifier(&end);
    hvpm_serve = serve;
    return true;
}
