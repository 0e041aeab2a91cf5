/*
 * Random events, each beside all that looks show before it and after it. The effect that the library tells is
 * the one that these differences make. A refused event, a read and a call without memory leave all as it was.
 * Each buffer that the library gets ends where a page begins that nobody may touch. In each event one of its
 * blocks of memory after another is refused first. At the end no block is left.
 *
 *     whole_state SEED EVENTS [pages]
 *
 * With the third word each processor has its pages, too, in a guest's memory (guests.h).
 *
 * It is linked with --wrap for malloc, realloc and free. What is wrong first goes to standard error, with the
 * seed and the event's number, and the status is then 1.
 */
#define _GNU_SOURCE
#include "guests.h"

/* ---- What was tried ---- */

/* What there was of each kind, so that a run says what it tried. */
static struct {
    uint64_t kinds[6], shown, waiting, flags, freed, raised, denied, refused;
} tried;

static void note(void) {
    const hvpm_effect *const it = &reply->effect;
    tried.kinds[it->kind]++;
    tried.denied += reply->kind == HVPM_REPLY_DENIED || reply->kind == HVPM_REPLY_FAULT;
    if (it->kind != HVPM_EFFECT_SYNIC) return;
    tried.shown += it->shown != 0, tried.waiting += it->waiting != 0, tried.flags += it->flag_is != 0;
    tried.freed += it->freed;
    tried.raised += (it->raised[0] | it->raised[1] | it->raised[2] | it->raised[3]) != 0;
}

static void tell(void) {
    printf("refused by a rule %" PRIu64 ", without memory %" PRIu64 ", effects: nothing %" PRIu64
           ", synic %" PRIu64 " (shown %" PRIu64 ", waiting %" PRIu64 ", flags %" PRIu64 ", freed %" PRIu64
           ", raised %" PRIu64 "), page %" PRIu64 ", pages %" PRIu64 ", processor %" PRIu64
           ", partition %" PRIu64 "\n",
           tried.denied, tried.refused, tried.kinds[0], tried.kinds[1], tried.shown, tried.waiting,
           tried.flags, tried.freed, tried.raised, tried.kinds[2], tried.kinds[3], tried.kinds[4],
           tried.kinds[5]);
}

/* ---- Random events ---- */

static uint64_t drawn;

static uint64_t draw(uint64_t below) {
    drawn ^= drawn << 13, drawn ^= drawn >> 7, drawn ^= drawn << 17;
    return (drawn * UINT64_C(0x2545F4914F6CDD1D) >> 24) % below;
}

static bool chance(uint64_t one_in) {
    return draw(one_in) == 0;
}

/* One of the four SINTs that a run has most to do with. */
static uint32_t sint_at(uint64_t i) {
    return (uint32_t)((4 * seed + i) % 16);
}

/* A processor, mostly one that is there, and often the first, which has connections. */
static hvpm_caller some_vp(void) {
    const hvpm_caller none = {draw(9), (uint32_t)draw(4)};
    if (was_state.vps > 0 && chance(2)) return was_state.vp[0].at;
    return was_state.vps == 0 || chance(40) ? none : was_state.vp[draw(was_state.vps)].at;
}

/* A partition, as a caller names it: itself, a child, or any. */
static uint64_t some_partition(hvpm_caller by) {
    const partition_seen *const caller = find_partition(&was_state, by.partition);
    const uint64_t children = caller ? caller->row.children : 0;
    if (chance(30)) return draw(PARTITIONS);
    if (children == 0 || chance(3)) return chance(2) ? by.partition : HVPM_SELF;
    return caller->children[draw(children)];
}

static uint32_t some_index(void) {
    static const uint32_t some[] = {0, 0, 1, 1, 2, 63, 64};
    return some[draw(7)];
}

static uint64_t some_value(uint32_t msr) {
    static const uint64_t vectors[] = {0x10, 0x30, 0x31, 0x7F, 0x80, 0xFF, 0x10030, 0x10000, 0x20041, 3};
    if (msr == SCONTROL || msr == SIMP || msr == SIEFP) return chance(6) ? 0 : 0x1001 + 0x1000 * draw(4);
    return vectors[draw(10)];
}

static uint32_t some_msr(void) {
    static const uint32_t often[] = {SCONTROL, SIMP, SIEFP, EOM, EOM, EOM};
    return chance(2) ? often[draw(6)] : msr_at(draw(MSRS));
}

static uint32_t register_of(uint32_t msr) {
    static const uint32_t names[] = {0x000A0010, 0x000A0011, 0x000A0012, 0x000A0013, 0x000A0014};
    return msr >= SINT_0 ? 0x000A0000 + (msr - SINT_0) : msr < SCONTROL ? 0x00090003 : names[msr - SCONTROL];
}

/* A call that is drawn: its registers and its list, which ends at the guard. */
typedef struct call {
    hvpm_registers registers;
    uint8_t block[INPUT];
    size_t len;
} call;

static void put(call *to, uint64_t value, size_t size) {
    memset(to->block + to->len, 0, size);
    hvpm_put(to->block + to->len, value, size < 8 ? size : 8);
    to->len += size;
}

static void draw_port(call *to, hvpm_caller by) {
    const bool is_events = chance(2);
    const uint64_t base = draw(2048);
    put(to, some_partition(by), 8);
    put(to, draw(LINKS - 1), 8);
    put(to, was_state.partition[draw(was_state.partitions)].id, 8);
    put(to, is_events ? 2 : 1, 8);
    put(to, sint_at(draw(4)), 4);
    put(to, chance(3) ? HVPM_ANY_VP : some_index(), 4);
    put(to, base, 2);
    put(to, 1 + draw(2048 - base), 2);
    put(to, 0, 4);
}

/* A connection, mostly to a port that is there, for its peer. */
static void draw_connection(call *to, hvpm_caller by) {
    const partition_seen *const owner = &was_state.partition[draw(was_state.partitions)];
    uint32_t port = 0;
    while (port < LINKS - 1 && (!owner->has_port[port] || chance(4))) port++;
    const bool is_there = owner->has_port[port] && !chance(10);
    put(to, is_there ? owner->ports[port].peer : some_partition(by), 8);
    put(to, draw(LINKS - 1), 8);
    put(to, owner->id, 8);
    put(to, port, 8);
    put(to, is_there ? owner->ports[port].type : 1 + draw(2), 8);
    put(to, 0, 8);
}

/* A connection of a caller with this type, mostly. */
static uint32_t some_connection(hvpm_caller by, uint32_t type) {
    const partition_seen *const caller = find_partition(&was_state, by.partition);
    const uint32_t first = (uint32_t)draw(LINKS);
    for (uint32_t i = 0; caller && i < LINKS && !chance(30); i++) {
        const uint32_t id = (first + i) % LINKS;
        if (caller->has_connection[id] && caller->connections[id].type == type) return id;
    }
    return first;
}

static void draw_pages(call *to, hvpm_caller by, uint64_t count) {
    put(to, some_partition(by), 8);
    const uint64_t first = draw(PAGES);
    for (uint64_t i = 0; i < count; i++) {
        uint64_t page = first;
        for (uint64_t tried = 0; tried < PAGES && was_state.owners[page] != by.partition; tried++)
            page = (page + 7) % PAGES;
        put(to, chance(30) ? draw(PAGES + 9) : page, 8);
    }
}

static const uint16_t some_codes[] = {0x40, 0x41, 0x41, 0x42, 0x43, 0x43, 0x44, 0x45, 0x45, 0x46, 0x47, 0x48,
                                      0x48, 0x48, 0x49, 0x49, 0x4A, 0x4E, 0x4E, 0x4E, 0x4F, 0x50, 0x51, 0x51,
                                      0x58, 0x5B, 0x5C, 0x5C, 0x5C, 0x5C, 0x5C, 0x5D, 0x5D, 0x5D, 0x5D, 0x95,
                                      0x95, 0x95, 0x96, 0x96, 0x96, 0x96, 0x77};

static void draw_registers(call *to, hvpm_caller by, uint16_t code, uint64_t count) {
    put(to, some_partition(by), 8);
    put(to, some_index(), 8);
    for (uint64_t i = 0; i < count; i++) {
        const uint32_t msr = some_msr();
        put(to, register_of(msr), code == 0x51 ? 16 : 4);
        if (code == 0x51) put(to, some_value(msr), 8), put(to, 0, 8);
    }
}

static void draw_mask(call *to, hvpm_caller by) {
    const partition_seen *const caller = find_partition(&was_state, by.partition);
    put(to, some_partition(by), 8);
    put(to, HVPM_PRIVILEGE_FLAGS, 8);
    put(to, chance(12) ? UINT64_C(0x3000000044) : caller ? caller->row.mask : 0, 8);
}

static void draw_post(call *to, hvpm_caller by) {
    const uint64_t size = draw(3) == 0 ? 240 : draw(20);
    put(to, some_connection(by, HVPM_PORT_MESSAGES), 8);
    put(to, 1 + machine->events % 0x7FFFFFFF, 4);
    put(to, size, 4);
    for (uint64_t i = 0; i < size; i++) put(to, draw(256), 1);
}

/* Draws a call. Where there are pages, half of them post and signal. */
static void draw_call(call *to, hvpm_caller by) {
    const uint16_t any = some_codes[draw(sizeof some_codes / sizeof *some_codes)],
                   code = !has_guests || chance(2) ? any : chance(3) ? 0x5D : 0x5C;
    const bool is_rep = code == 0x48 || code == 0x49 || code == 0x50 || code == 0x51;
    const uint64_t count = is_rep ? 1 + draw(4) : 0, start = is_rep && chance(5) ? draw(count) : 0;
    to->registers = (hvpm_registers){start << 48 | count << 32 | code, 8 * draw(16), 8 * draw(16)};
    to->len = 0;
    if (chance(60)) to->registers.rcx ^= UINT64_C(1) << draw(64);
    if (code == 0x48) draw_pages(to, by, count);
    else if (code == 0x50 || code == 0x51) draw_registers(to, by, code, count);
    else if (code == 0x45) draw_mask(to, by);
    else if (code == 0x5C) draw_post(to, by);
    else if (code == 0x5D) put(to, some_connection(by, HVPM_PORT_EVENTS), 4), put(to, draw(6), 4);
    else if (code == 0x95) draw_port(to, by);
    else if (code == 0x96) draw_connection(to, by);
    else {
        put(to, code == 0x40 || code == 0x46 ? 0 : some_partition(by), 8);
        const bool is_vp = code == 0x4E || code == 0x4F;
        put(to, code == 0x44 ? HVPM_CPU_CAP : is_vp ? some_index() : draw(LINKS - 1), 8);
    }
}

/* ---- One event ---- */

typedef struct access {
    enum hvpm_access kind;
    uint32_t number;
    uint64_t value;
} access;

static access draw_access(hvpm_caller by) {
    static const enum hvpm_access some[] = {HVPM_READ_MSR, HVPM_WRITE_MSR, HVPM_WRITE_MSR, HVPM_WRITE_MSR,
                                            HVPM_READ_SLOT, HVPM_CLEAR_SLOT, HVPM_CLEAR_SLOT, HVPM_READ_FLAGS,
                                            HVPM_CLEAR_FLAG, HVPM_CLEAR_FLAG, HVPM_TAKE_INTERRUPT};
    access it = {.kind = some[draw(11)], .number = sint_at(draw(5))};
    if (it.kind == HVPM_READ_MSR || it.kind == HVPM_WRITE_MSR) {
        it.number = chance(20) ? 0x40000001 : some_msr();
        it.value = some_value(it.number);
    } else if (chance(20)) {
        it.number = 16 + (uint32_t)draw(240);
    }
    const vp_seen *const vp = find_vp(&was_state, by.partition, by.vp);
    if (it.kind == HVPM_CLEAR_FLAG) it.value = draw(2049);
    for (uint32_t flag = 0; vp && it.kind == HVPM_CLEAR_FLAG && it.number < 16 && flag < 2048; flag++)
        if (vp->flags[it.number][flag / 8] >> flag % 8 & 1) it.value = flag;
    return it;
}

static uint32_t make_access(hvpm_caller by, access it) {
    const uint8_t sint = (uint8_t)it.number;
    switch (it.kind) {
    case HVPM_READ_MSR: return hvpm_read_msr(machine, by, it.number, reply, line, HVPM_LINE);
    case HVPM_WRITE_MSR: return hvpm_write_msr(machine, by, it.number, it.value, reply, line, HVPM_LINE);
    case HVPM_READ_SLOT: return hvpm_read_slot(machine, by, sint, reply, line, HVPM_LINE);
    case HVPM_CLEAR_SLOT: return hvpm_clear_slot(machine, by, sint, reply, line, HVPM_LINE);
    case HVPM_READ_FLAGS: return hvpm_read_flags(machine, by, sint, reply, line, HVPM_LINE);
    case HVPM_CLEAR_FLAG:
        return hvpm_clear_flag(machine, by, sint, (uint16_t)it.value, reply, line, HVPM_LINE);
    default: return hvpm_take_interrupt(machine, by, reply, line, HVPM_LINE);
    }
}

static uint32_t make(hvpm_caller by, const call *drawn_call, access it) {
    if (!drawn_call) return make_access(by, it);
    uint8_t *const input = input_end - drawn_call->len;
    memcpy(input, drawn_call->block, drawn_call->len);
    return hvpm_hypercall(machine, by, &drawn_call->registers, input, drawn_call->len, reply, line,
                          HVPM_LINE);
}

/* Makes the event with one block after another refused, until none is. A refused one changes nothing. */
static void make_event(hvpm_caller by, const call *drawn_call, access it) {
    uint32_t status = HVPM_STATUS_MEMORY;
    for (size_t refused = 1; status == HVPM_STATUS_MEMORY; refused++) {
        const hvpm_machine before = *machine;
        memset(reply, 0xA5, sizeof *reply), memset(line, 0xA5, HVPM_LINE);
        memcpy(&reply_before, reply, sizeof reply_before), memcpy(line_before, line, HVPM_LINE);
        refuse_at = refused;
        status = make(by, drawn_call, it);
        refuse_at = 0;
        if (status != HVPM_STATUS_MEMORY) break;
        tried.refused++;
        must(memcmp(machine, &before, sizeof before) == 0 && memcmp(line, line_before, HVPM_LINE) == 0 &&
                 memcmp(reply, &reply_before, sizeof reply_before) == 0,
             "a call without memory wrote something");
        look(&is_state);
        must(is_same(&was_state, &is_state), "a call without memory changed something");
    }
    must(status == HVPM_STATUS_OK, "another status");
    must(memcmp(line + reply->line_len, line_before + reply->line_len, HVPM_LINE - reply->line_len) == 0,
         "bytes behind the line");
}

/* Takes an event, a call or an access, and compares what looks show with its effect. */
static void take(hvpm_caller by, const call *called, access it) {
    taken what = {.by = by};
    const uint16_t code = called ? (uint16_t)called->registers.rcx : 0;
    guests_before(code == 0x51 || (!called && it.kind == HVPM_WRITE_MSR && it.number == EOM), code == 0x5C);
    make_event(by, called, it);
    if (called) {
        what.code = code;
        what.is_read = what.code == 0x44 || what.code == 0x46 || what.code == 0x47 || what.code == 0x4A ||
                       what.code == 0x50;
        memcpy(&what.connection, called->block, 4);
    } else {
        what.is_take = it.kind == HVPM_TAKE_INTERRUPT;
        what.is_read = it.kind == HVPM_READ_MSR || it.kind == HVPM_READ_SLOT || it.kind == HVPM_READ_FLAGS;
    }
    event = line;
    line[reply->line_len - 1] = 0;
    look(&is_state);
    compare(&was_state, &is_state, &what);
    note();
    guests_after();
    memcpy(&was_state, &is_state, sizeof was_state);
}

static void take_call(hvpm_caller by, const call *called) {
    take(by, called, (access){HVPM_TAKE_INTERRUPT, 0, 0});
}

static void take_random(void) {
    static call drawn_call;
    const hvpm_caller by = some_vp();
    if (chance(3)) {
        take(by, NULL, draw_access(by));
    } else {
        draw_call(&drawn_call, by);
        take_call(by, &drawn_call);
    }
}

/* ---- A world to begin with ---- */

static call *begin(uint64_t rcx) {
    static call it;
    it.registers = (hvpm_registers){rcx, 0, 0};
    it.len = 0;
    return &it;
}

/* A processor takes messages and flags, and four of its SINTs raise vectors. */
static void enable(hvpm_caller of) {
    static const uint32_t registers[] = {SCONTROL, SIMP, SIEFP};
    for (size_t i = 0; i < 3; i++) take(of, NULL, (access){HVPM_WRITE_MSR, registers[i], 1});
    for (uint32_t i = 0; i < 4; i++)
        take(of, NULL, (access){HVPM_WRITE_MSR, SINT_0 + sint_at(i), 0x30 + 0x41 * i});
}

/* A port of a partition for the root, and the root's connection of that id. */
static void link(uint64_t of, uint64_t id, uint64_t type, uint64_t i, uint64_t vp) {
    call *it = begin(0x95);
    put(it, of, 8), put(it, id, 8), put(it, 1, 8), put(it, type, 8), put(it, sint_at(i), 4), put(it, vp, 4);
    put(it, 1 + draw(2040), 2), put(it, 6, 2), put(it, 0, 4);
    take_call(root, it);
    it = begin(0x96);
    put(it, 1, 8), put(it, id, 8), put(it, of, 8), put(it, id, 8), put(it, type, 8), put(it, 0, 8);
    take_call(root, it);
}

/* A partition with 14 pages of the root from this one on, and two processors. */
static void make_child(uint64_t id, uint64_t page) {
    call *it = begin(0x40);
    put(it, 0, 8);
    take_call(root, it);
    it = begin(0x45);
    put(it, id, 8), put(it, HVPM_PRIVILEGE_FLAGS, 8), put(it, MASK, 8);
    take_call(root, it);
    it = begin(0x41);
    put(it, id, 8);
    take_call(root, it);
    for (uint64_t i = 0; i < 14; i++) {
        it = begin(UINT64_C(1) << 32 | 0x48);
        put(it, id, 8), put(it, page + i, 8);
        take_call(root, it);
    }
    for (uint32_t vp = 0; vp < 2; vp++) {
        it = begin(0x4E);
        put(it, id, 8), put(it, vp, 8);
        take_call(root, it);
        enable((hvpm_caller){id, vp});
    }
}

static void settle(void) {
    enable(root);
    for (uint64_t child = 2; child < 4; child++) {
        make_child(child, POOL + 14 * (child - 2));
        link(child, 2 * child - 3, HVPM_PORT_MESSAGES, 1, 0);
        link(child, 2 * child - 2, HVPM_PORT_EVENTS, 2, HVPM_ANY_VP);
    }
    link(1, 5, HVPM_PORT_MESSAGES, 3, HVPM_ANY_VP);
    link(1, 6, HVPM_PORT_EVENTS, 3, 0);
}

/* ---- A machine ---- */

static void boot(void) {
    const hvpm_config config = {MASK, PAGES, POOL, 2};
    uint32_t status = HVPM_STATUS_MEMORY;
    event = "boot";
    *machine = (hvpm_machine)HVPM_EMPTY;
    for (size_t refused = 1; status == HVPM_STATUS_MEMORY; refused++) {
        refuse_at = refused;
        status = hvpm_boot(machine, &config);
        refuse_at = 0;
        must(status == HVPM_STATUS_OK || blocks == 0, "a boot without memory left a block");
    }
    must(status == HVPM_STATUS_OK, "another status");
    memset(&was_state, 0, sizeof was_state), memset(&is_state, 0, sizeof is_state);
    look(&was_state);
    begin_guests();
    settle();
}

static void destroy(void) {
    event = "destroy";
    hvpm_destroy(machine);
    must(blocks == 0, "a block is left");
}

/* Whether a machine's ids are used up. */
static bool is_used(void) {
    for (size_t i = 0; i < was_state.partitions; i++)
        if (was_state.partition[i].id == PARTITIONS - 1) return true;
    return false;
}

int main(int argc, char **argv) {
    has_guests = argc == 4 && strcmp(argv[3], "pages") == 0;
    if (argc != 3 && !has_guests) {
        fputs("usage: whole_state SEED EVENTS [pages]\n", stderr);
        return 2;
    }
    seed = strtoull(argv[1], NULL, 10);
    drawn = seed * 2 + 1;
    for (int i = 0; i < 8; i++) draw(2);
    make_room();
    boot();
    const uint64_t events = strtoull(argv[2], NULL, 10);
    for (number = 1; number <= events; number++) {
        take_random();
        if (!is_used() && number % (has_guests ? 1000 : 150) != 0) continue;
        destroy();
        boot();
    }
    destroy();
    tell();
    if (has_guests) tell_guests();
    return 0;
}
