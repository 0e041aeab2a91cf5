/*
 * What events tell of their effects: each kind of effect, and each field of it, as docs/POLICY.md says what
 * the event changes. It compiles as C and as C++. What is wrong goes to standard error.
 */
#include "hvpm.h"

#include <inttypes.h>
#include <stdio.h>
#include <string.h>

static int wrong;

static void holds(const char *what, bool is_so) {
    if (is_so) return;
    fprintf(stderr, "%s doesn't hold\n", what);
    wrong = 1;
}

static const hvpm_caller root = {1, 0}, guest = {2, 1};
static hvpm_machine machine = HVPM_EMPTY;
static hvpm_reply reply;

/* ---- Effects that are wanted ---- */

static hvpm_effect of_kind(uint32_t kind, uint64_t partition) {
    hvpm_effect effect;
    memset(&effect, 0, sizeof effect);
    effect.kind = kind;
    effect.partition = partition;
    return effect;
}

static hvpm_effect nothing(void) {
    return of_kind(HVPM_EFFECT_NOTHING, 0);
}

/* At processor 2.1, which is the only one that takes anything: these slots, and these vectors below 64. */
static hvpm_effect synic(uint16_t shown, uint64_t raised) {
    hvpm_effect effect = of_kind(HVPM_EFFECT_SYNIC, 2);
    effect.vp = 1;
    effect.shown = shown;
    effect.raised[0] = raised;
    return effect;
}

static hvpm_effect waiting(uint16_t sints) {
    hvpm_effect effect = synic(0, 0);
    effect.waiting = sints;
    return effect;
}

static hvpm_effect flag(uint16_t number, uint8_t sint, uint8_t is, uint64_t raised) {
    hvpm_effect effect = synic(0, raised);
    effect.flag = number;
    effect.flag_sint = sint;
    effect.flag_is = is;
    return effect;
}

static hvpm_effect freed(uint16_t shown, uint32_t port) {
    hvpm_effect effect = synic(shown, 0);
    effect.freed = 1;
    effect.port = port;
    return effect;
}

static hvpm_effect page(uint64_t number, uint64_t partition, uint8_t pooled) {
    hvpm_effect effect = of_kind(HVPM_EFFECT_PAGE, partition);
    effect.page = number;
    effect.pooled = pooled;
    return effect;
}

static hvpm_effect pages(uint64_t from, uint64_t to) {
    hvpm_effect effect = of_kind(HVPM_EFFECT_PAGES, to);
    effect.page = from;
    return effect;
}

static hvpm_effect processor(uint64_t partition, uint32_t vp) {
    hvpm_effect effect = of_kind(HVPM_EFFECT_PROCESSOR, partition);
    effect.vp = vp;
    return effect;
}

/* ---- What is told ---- */

static bool is_synic(const hvpm_effect *told, const hvpm_effect *wanted) {
    return told->partition == wanted->partition && told->vp == wanted->vp && told->shown == wanted->shown &&
           told->waiting == wanted->waiting &&
           memcmp(told->raised, wanted->raised, sizeof told->raised) == 0 &&
           told->flag_is == wanted->flag_is && told->freed == wanted->freed &&
           (told->flag_is == 0 || (told->flag == wanted->flag && told->flag_sint == wanted->flag_sint)) &&
           (told->freed == 0 || told->port == wanted->port);
}

/* Whether the fields that an effect of this kind has are those that are wanted. */
static bool is_effect(const hvpm_effect *told, const hvpm_effect *wanted) {
    if (told->kind != wanted->kind) return false;
    switch (wanted->kind) {
    case HVPM_EFFECT_NOTHING: return true;
    case HVPM_EFFECT_SYNIC: return is_synic(told, wanted);
    case HVPM_EFFECT_PAGE:
        return told->page == wanted->page && told->partition == wanted->partition &&
               told->pooled == wanted->pooled;
    case HVPM_EFFECT_PAGES: return told->page == wanted->page && told->partition == wanted->partition;
    case HVPM_EFFECT_PROCESSOR: return told->partition == wanted->partition && told->vp == wanted->vp;
    case HVPM_EFFECT_PARTITION: return told->partition == wanted->partition;
    default: return false;
    }
}

/* An event that is answered so, with this effect. The next reply begins with other bytes. */
static void tells(const char *what, uint32_t status, uint32_t kind, hvpm_effect wanted) {
    if (status != HVPM_STATUS_OK || reply.kind != kind || !is_effect(&reply.effect, &wanted)) {
        fprintf(stderr,
                "%s: status %" PRIu32 ", kind %" PRIu32 ", rule %" PRIu32 ", effect %" PRIu32
                ", partition %" PRIu64 ", vp %" PRIu32 ", page %" PRIu64 ", raised %016" PRIx64
                ", shown %04x, waiting %04x, flag %u.%u is %u"
                ", freed %u port %" PRIu32 ", pooled %u\n",
                what, status, reply.kind, reply.rule, reply.effect.kind, reply.effect.partition,
                reply.effect.vp, reply.effect.page, reply.effect.raised[0], reply.effect.shown,
                reply.effect.waiting, reply.effect.flag_sint, reply.effect.flag, reply.effect.flag_is,
                reply.effect.freed, reply.effect.port, reply.effect.pooled);
        wrong = 1;
    }
    memset(&reply, 0xA5, sizeof reply);
}

static void serves(const char *what, uint32_t status, hvpm_effect wanted) {
    tells(what, status, HVPM_REPLY_SERVED, wanted);
}

static uint32_t write_msr(uint32_t msr, uint64_t value) {
    return hvpm_write_msr(&machine, guest, msr, value, &reply, NULL, 0);
}

static uint32_t post(uint32_t connection) {
    return hvpm_post_message(&machine, root, connection, 0x77, "m", 1, &reply, NULL, 0);
}

static uint32_t clear_slot(uint8_t sint) {
    return hvpm_clear_slot(&machine, guest, sint, &reply, NULL, 0);
}

/* ---- The events ---- */

/*
 * Partition 2 gets the pages 20 to 31 and processor 1. Ports 5 and 9 take messages at its SINTs 2 and 4, and
 * port 7 takes the flags 8 to 11 of SINT 3. The root has connections 1, 3 and 2 to them.
 */
static void make(void) {
    static const hvpm_config config = {0xf700000044, 64, 16, 1};
    static const hvpm_port ports[3] = {{2, 5, 1, HVPM_PORT_MESSAGES, 2, 1, 0, 0},
                                       {2, 7, 1, HVPM_PORT_EVENTS, 3, HVPM_ANY_VP, 8, 4},
                                       {2, 9, 1, HVPM_PORT_MESSAGES, 4, 1, 0, 0}};
    static const hvpm_connection connections[3] = {{1, 1, 2, 5, HVPM_PORT_MESSAGES},
                                                   {1, 2, 2, 7, HVPM_PORT_EVENTS},
                                                   {1, 3, 2, 9, HVPM_PORT_MESSAGES}};
    uint64_t id = 0, list[12];
    for (uint64_t i = 0; i < 12; i++) list[i] = 20 + i;
    holds("boot", hvpm_boot(&machine, &config) == HVPM_STATUS_OK);
    serves("a partition is made", hvpm_create_partition(&machine, root, 0, &id, &reply, NULL, 0), nothing());
    serves("it is started", hvpm_initialize_partition(&machine, root, 2, &reply, NULL, 0), nothing());
    for (uint16_t i = 0; i < 12; i++)
        tells("a page is deposited", hvpm_deposit_memory(&machine, root, 2, list, 12, i, &reply, NULL, 0),
              i < 11 ? HVPM_REPLY_MORE : HVPM_REPLY_SERVED, page(20 + i, 2, 1));
    serves("a processor is made", hvpm_create_vp(&machine, root, 2, 1, &reply, NULL, 0), processor(2, 1));
    for (size_t i = 0; i < 3; i++) {
        serves("a port is made", hvpm_create_port(&machine, root, &ports[i], &reply, NULL, 0), nothing());
        serves("it is connected", hvpm_connect_port(&machine, root, &connections[i], &reply, NULL, 0),
               nothing());
    }
    serves("SCONTROL is written", write_msr(0x40000080, 1), nothing());
    serves("SIEFP is written", write_msr(0x40000082, 1), nothing());
    serves("SIMP is written", write_msr(0x40000083, 1), nothing());
    serves("SINT 2 is written", write_msr(0x40000092, 0x32), nothing());
    serves("SINT 3 is written", write_msr(0x40000093, 0x33), nothing());
    serves("SINT 4 is written", write_msr(0x40000094, 0x34), nothing());
}

#define VECTOR(number) (UINT64_C(1) << (number))

static void send_messages(void) {
    serves("a first post is shown", post(1), synic(1 << 2, VECTOR(0x32)));
    serves("a second post waits", post(1), waiting(1 << 2));
    serves("a slot is read", hvpm_read_slot(&machine, guest, 2, &reply, NULL, 0), nothing());
    serves("a slot is cleared", clear_slot(2), freed(1 << 2, 5));
    serves("it is cleared again", clear_slot(2), nothing());
    serves("a post to another SINT is shown", post(3), synic(1 << 4, VECTOR(0x34)));
    serves("another waits there", post(3), waiting(1 << 4));
    serves("that slot is cleared", clear_slot(4), freed(1 << 4, 9));
    serves("both SINTs show what waits", write_msr(0x40000084, 7),
           synic(1 << 2 | 1 << 4, VECTOR(0x32) | VECTOR(0x34)));
    serves("an end of a message where nothing waits", write_msr(0x40000084, 0), nothing());
    serves("a slot is cleared to be empty", clear_slot(4), freed(1 << 4, 9));
    serves("SINT 4 is masked", write_msr(0x40000094, 0x10034), nothing());
    serves("a post to a masked SINT raises nothing", post(3), synic(1 << 4, 0));
}

static void set_flags(void) {
    serves("a clear flag is set", hvpm_signal_event(&machine, root, 2, 1, &reply, NULL, 0),
           flag(9, 3, HVPM_FLAG_SET, VECTOR(0x33)));
    serves("a set flag is set", hvpm_signal_event(&machine, root, 2, 1, &reply, NULL, 0), nothing());
    serves("a flag is cleared", hvpm_clear_flag(&machine, guest, 3, 9, &reply, NULL, 0),
           flag(9, 3, HVPM_FLAG_CLEARED, 0));
    serves("it is cleared again", hvpm_clear_flag(&machine, guest, 3, 9, &reply, NULL, 0), nothing());
    for (size_t i = 0; i < 3; i++)
        serves("a vector is taken", hvpm_take_interrupt(&machine, guest, &reply, NULL, 0), synic(0, 0));
    serves("no vector is left", hvpm_take_interrupt(&machine, guest, &reply, NULL, 0), nothing());
}

static void refuse(void) {
    const uint64_t own[1] = {3};
    tells("a processor that is there", hvpm_create_vp(&machine, root, 2, 1, &reply, NULL, 0),
          HVPM_REPLY_DENIED, nothing());
    tells("a page that is pooled", hvpm_deposit_memory(&machine, root, 2, own, 1, 0, &reply, NULL, 0),
          HVPM_REPLY_DENIED, nothing());
    tells("no such register", hvpm_read_msr(&machine, guest, 0x40000081 + 0x100, &reply, NULL, 0),
          HVPM_REPLY_FAULT, nothing());
    tells("no such SINT", clear_slot(16), HVPM_REPLY_FAULT, nothing());
}

/* Registers 2.1: SINT 5, EOM and SINT 6. A message waits at SINT 2, whose slot is empty. */
static void take_runs(void) {
    static const uint32_t names[3] = {0x000A0005, 0x000A0014, 0x000A0006};
    static uint8_t set[16 + 3 * 32];
    uint8_t outputs[4 * HVPM_OUTPUT], deposits[8 + 3 * 8] = {0};
    hvpm_registers registers = {UINT64_C(3) << 32 | 0x51, 0, 0};
    hvpm_run_done done;
    memset(set, 0, sizeof set);
    hvpm_put(set, 2, 8);
    hvpm_put(set + 8, 1, 4);
    for (size_t i = 0; i < 3; i++) {
        hvpm_put(set + 16 + 32 * i, names[i], 4);
        hvpm_put(set + 32 + 32 * i, 0x40, 8);
    }
    serves("a post waits behind what is shown", post(1), waiting(1 << 2));
    serves("what is shown goes", clear_slot(2), freed(1 << 2, 5));
    const uint32_t first =
        hvpm_run(&machine, root, &registers, set, sizeof set, &reply, outputs, sizeof outputs, &done);
    holds("the next is the third", reply.next == 2);
    registers.rcx = hvpm_next(registers.rcx, &reply);
    tells("a run ends at EOM", first, HVPM_REPLY_MORE, synic(1 << 2, VECTOR(0x32)));
    holds("after two elements", done.events == 2);
    serves("it goes on with the third",
           hvpm_run(&machine, root, &registers, set, sizeof set, &reply, outputs, sizeof outputs, &done),
           nothing());
    holds("which is the last", done.events == 1);
    hvpm_put(deposits, 2, 8);
    for (size_t i = 0; i < 3; i++) hvpm_put(deposits + 8 + 8 * i, 40 + i, 8);
    registers.rcx = UINT64_C(3) << 32 | 0x48;
    serves("deposits go on to the last",
           hvpm_run(&machine, root, &registers, deposits, sizeof deposits, &reply, outputs, sizeof outputs,
                    &done),
           page(42, 2, 1));
    holds("of all three", done.events == 3);
}

static void end(void) {
    uint64_t list[1] = {0};
    serves("the lowest page is withdrawn",
           hvpm_withdraw_memory(&machine, root, 2, list, 1, 0, &reply, NULL, 0), page(20, 1, 0));
    serves("the processor is deleted", hvpm_delete_vp(&machine, root, 2, 1, &reply, NULL, 0),
           processor(2, 1));
    tells("nobody takes a post", post(1), HVPM_REPLY_DENIED, nothing());
    serves("the processor is made again", hvpm_create_vp(&machine, root, 2, 1, &reply, NULL, 0),
           processor(2, 1));
    serves("the partition is finalized", hvpm_finalize_partition(&machine, root, 2, &reply, NULL, 0),
           of_kind(HVPM_EFFECT_PARTITION, 2));
    serves("it is deleted", hvpm_delete_partition(&machine, root, 2, &reply, NULL, 0), pages(2, 1));
}

/* Partition 3 has no processor and no page. */
static void end_empty(void) {
    uint64_t id = 0;
    serves("a partition is made", hvpm_create_partition(&machine, root, 0, &id, &reply, NULL, 0), nothing());
    serves("it is finalized", hvpm_finalize_partition(&machine, root, 3, &reply, NULL, 0), nothing());
    serves("it is deleted", hvpm_delete_partition(&machine, root, 3, &reply, NULL, 0), nothing());
}

int main(void) {
    make();
    send_messages();
    set_flags();
    refuse();
    take_runs();
    end();
    end_empty();
    hvpm_destroy(&machine);
    return wrong;
}
