/*
 * A target of libFuzzer over the library: bytes become a boot and events, which two machines take in two
 * ways.
 *
 * - The first machine takes one event after another, by hvpm_hypercall() and the accesses, with audit lines.
 * The harness lays out its input lists, by the table below.
 * - The second one takes a call by its registers in runs, hvpm_run() or hvpm_run_at_most(), or by its
 * function with fields, or a list by its function for lists. Where a bit says so, it has a record, or its
 * processors have pages (guests.h).
 *
 * Each reply, output, audit line and explanation is compared, and then all that looks show of both machines.
 * What differs goes to standard error, and the process aborts. Missing bytes read as zeros.
 * tests/fuzz_library/run builds it and runs it on corpus/. Compiled with ALONE it needs no libFuzzer, and
 * takes each file that it is given.
 */
#include "calls.h"
#include "guests.h"

/* ---- Explanations ---- */

typedef struct event {
    hvpm_caller by;
    hvpm_registers registers;
    const uint8_t *list;
    size_t len;
    uint32_t access, number;
    uint64_t value;
    bool is_call;
} event;

static size_t explain(const hvpm_machine *machine, const event *it, const hvpm_reply *reply, char *text,
                      size_t size) {
    size_t len = 0;
    is_ok(it->is_call
              ? hvpm_explain(machine, it->by, &it->registers, it->list, it->len, reply, text, size, &len)
              : hvpm_explain_access(machine, it->by, it->access, it->number, it->value, reply, text, size,
                                    &len));
    return len;
}

static void same_explanation(const event *it, const hvpm_reply *reply) {
    char a[HVPM_EXPLANATION], b[HVPM_EXPLANATION];
    const size_t len = explain(&one, it, last_reply(), a, sizeof a);
    must(len == explain(&two, it, reply, b, sizeof b) && memcmp(a, b, len) == 0, "another explanation");
}

/* ---- The second machine takes a call in runs ---- */

/* A run is as long as it must be, and has the outputs and the last reply of its elements. */
static void is_run(const hvpm_run_done *done, size_t from, uint32_t most, size_t size, const uint8_t *outputs,
                   const hvpm_reply *reply) {
    size_t len = 0;
    must(done->events > 0 && from + done->events <= answered, "a run has events too many");
    for (size_t i = from; i < from + done->events; i++) {
        const hvpm_reply *const each = &replies[i];
        must(len + each->output_len <= done->output_len, "a run has too few outputs");
        must(memcmp(outputs + len, each->output, each->output_len) == 0, "a run has other outputs");
        len += each->output_len;
        const bool ends = each->kind != HVPM_REPLY_MORE || i + 1 - from == most || size - len < HVPM_OUTPUT ||
                          (each->effect.kind != HVPM_EFFECT_NOTHING && each->effect.kind != HVPM_EFFECT_PAGE);
        must(ends == (i + 1 == from + done->events), "a run ends elsewhere");
    }
    must(len == done->output_len, "a run has too many outputs");
    must(is_same_reply(reply, &replies[from + done->events - 1]), "a run has another reply");
}

static void take_runs(const event *it, hvpm_registers registers, uint32_t most, size_t size,
                      hvpm_reply *reply) {
    uint8_t *const list = copied(it->list, it->len), *const outputs = malloc(size);
    hvpm_run_done done = {0, 0};
    must(outputs != NULL, "no memory for the test");
    for (size_t from = 0; from == 0 || reply->kind == HVPM_REPLY_MORE; from += done.events) {
        before_event();
        is_ok(most == 0 ? hvpm_run(&two, it->by, &registers, list, it->len, reply, outputs, size, &done)
                        : hvpm_run_at_most(&two, it->by, &registers, list, it->len, most, reply, outputs,
                                           size, &done));
        is_run(&done, from, most, size, outputs, reply);
        after_event(&reply->effect);
        registers.rcx = hvpm_next(registers.rcx, reply);
    }
    free(list), free(outputs);
}

/* ---- The second machine takes a call by its function ---- */

static uint64_t got[2];

static uint32_t make_simple(const call *it, hvpm_reply *reply) {
    const uint64_t *const v = it->value;
    const uint32_t a = (uint32_t)v[0], b = (uint32_t)v[1], c = (uint32_t)v[2];
    const hvpm_port port = {
        v[0], b, v[2], (uint32_t)v[3], (uint32_t)v[4], (uint32_t)v[5], (uint16_t)v[6], (uint16_t)v[7]};
    const hvpm_connection connection = {v[0], b, v[2], (uint32_t)v[3], (uint32_t)v[4]};
    switch (it->of->code) {
    case 0x40: return hvpm_create_partition(&two, it->by, v[0], &got[0], reply, NULL, 0);
    case 0x41: return hvpm_initialize_partition(&two, it->by, v[0], reply, NULL, 0);
    case 0x42: return hvpm_finalize_partition(&two, it->by, v[0], reply, NULL, 0);
    case 0x43: return hvpm_delete_partition(&two, it->by, v[0], reply, NULL, 0);
    case 0x44: return hvpm_get_partition_property(&two, it->by, v[0], b, &got[0], reply, NULL, 0);
    case 0x45: return hvpm_set_partition_property(&two, it->by, v[0], b, v[2], reply, NULL, 0);
    case 0x46: return hvpm_get_partition_id(&two, it->by, &got[0], reply, NULL, 0);
    case 0x47: return hvpm_get_next_child_partition(&two, it->by, v[0], v[1], &got[0], reply, NULL, 0);
    case 0x4A: return hvpm_get_memory_balance(&two, it->by, v[0], &got[0], &got[1], reply, NULL, 0);
    case 0x4E: return hvpm_create_vp(&two, it->by, v[0], b, reply, NULL, 0);
    case 0x4F: return hvpm_delete_vp(&two, it->by, v[0], b, reply, NULL, 0);
    case 0x58: return hvpm_delete_port(&two, it->by, v[0], b, reply, NULL, 0);
    case 0x5B: return hvpm_disconnect_port(&two, it->by, v[0], b, reply, NULL, 0);
    case 0x5C: return hvpm_post_message(&two, it->by, a, b, it->payload, c, reply, NULL, 0);
    case 0x5D: return hvpm_signal_event(&two, it->by, a, (uint16_t)b, reply, NULL, 0);
    case 0x95: return hvpm_create_port(&two, it->by, &port, reply, NULL, 0);
    default: return hvpm_connect_port(&two, it->by, &connection, reply, NULL, 0);
    }
}

static void take_simple(const call *it, hvpm_reply *reply) {
    got[0] = got[1] = 0xA5A5;
    before_event();
    is_ok(make_simple(it, reply));
    after_event(&reply->effect);
    must(answered == 1 && is_same_reply(reply, &replies[0]), "another reply");
    for (size_t i = 0; i < 2; i++) {
        const bool is_there = reply->output_len >= 8 * (i + 1) && it->of->code != 0x49;
        must(got[i] == (is_there ? number_at(replies[0].output + 8 * i, 8) : 0xA5A5), "another value");
    }
}

/* The elements of a rep call, in blocks of their size. */
typedef struct list {
    uint64_t *pages;
    hvpm_vp_register *registers;
} list;

static list make_list(const call *it) {
    const size_t count = it->count < ELEMENTS ? it->count : ELEMENTS;
    list made = {malloc(8 * count + (count == 0)), malloc(sizeof(hvpm_vp_register) * count + (count == 0))};
    must(made.pages && made.registers, "no memory for the test");
    for (size_t i = 0; i < count; i++) {
        made.pages[i] = it->of->code == 0x48 ? it->element[i] : 0xA5A5;
        made.registers[i].name = (uint32_t)it->element[i];
        made.registers[i].value = it->of->code == 0x51 ? it->set[i] : 0xA5A5;
    }
    return made;
}

static void free_list(list *it) {
    free(it->pages), free(it->registers);
}

/* The list has the output of the reply as the value of this element, or what it had. */
static void has_value(const call *it, const list *made, size_t element, const hvpm_reply *reply) {
    const bool is_served = reply->kind == HVPM_REPLY_SERVED || reply->kind == HVPM_REPLY_MORE;
    const uint64_t value = is_served ? number_at(reply->output, 8) : 0xA5A5;
    if (it->of->code == 0x49) must(made->pages[element] == value, "another page");
    if (it->of->code == 0x50) must(made->registers[element].value == value, "another value of a register");
}

static uint32_t make_rep(const call *it, const list *made, uint16_t start, hvpm_reply *reply) {
    const uint32_t vp = (uint32_t)it->value[1];
    const uint64_t of = it->value[0];
    const uint16_t count = it->count;
    switch (it->of->code) {
    case 0x48: return hvpm_deposit_memory(&two, it->by, of, made->pages, count, start, reply, NULL, 0);
    case 0x49: return hvpm_withdraw_memory(&two, it->by, of, made->pages, count, start, reply, NULL, 0);
    case 0x50:
        return hvpm_get_vp_registers(&two, it->by, of, vp, made->registers, count, start, reply, NULL, 0);
    default:
        return hvpm_set_vp_registers(&two, it->by, of, vp, made->registers, count, start, reply, NULL, 0);
    }
}

static void take_rep(const call *it, hvpm_reply *reply) {
    list made = make_list(it);
    uint32_t start = it->start;
    size_t made_events = 0;
    do {
        before_event();
        is_ok(make_rep(it, &made, (uint16_t)start, reply));
        after_event(&reply->effect);
        must(made_events < answered && is_same_reply(reply, &replies[made_events]), "another reply");
        if (start < it->count) has_value(it, &made, start, reply);
        made_events++, start = reply->next;
    } while (reply->kind == HVPM_REPLY_MORE);
    must(made_events == answered, "a call ends elsewhere");
    free_list(&made);
}

/* ---- The second machine takes a list by its function ---- */

static uint32_t make_part(const call *it, const list *made, size_t from, size_t *count, hvpm_reply *reply) {
    const uint32_t vp = (uint32_t)it->value[1];
    const uint64_t of = it->value[0];
    const size_t left = it->count - from;
    switch (it->of->code) {
    case 0x48: return hvpm_deposit_pages(&two, it->by, of, made->pages + from, left, count, reply);
    case 0x49: return hvpm_withdraw_pages(&two, it->by, of, made->pages + from, left, count, reply);
    case 0x50: return hvpm_read_registers(&two, it->by, of, vp, made->registers + from, left, count, reply);
    default: return hvpm_write_registers(&two, it->by, of, vp, made->registers + from, left, count, reply);
    }
}

/* The first machine took each element by a call of its own. A result says how many of a call's were served.
 */
static void take_list(const call *it, hvpm_reply *reply) {
    list made = make_list(it);
    size_t done = 0, part = 0;
    do {
        before_event();
        is_ok(make_part(it, &made, done, &part, reply));
        after_event(&reply->effect);
        done += part;
        const size_t events = done + (reply->kind == HVPM_REPLY_DENIED);
        must(events > 0 && events <= answered, "a list has events too many");
        const hvpm_reply *const last = &replies[events - 1];
        must(reply->rule == last->rule && is_same_effect(&reply->effect, &last->effect) &&
                 reply->output_len == last->output_len &&
                 memcmp(reply->output, last->output, last->output_len) == 0,
             "a list has another reply");
        must(done == it->count || reply->kind == HVPM_REPLY_DENIED ||
                 (reply->effect.kind != HVPM_EFFECT_NOTHING && reply->effect.kind != HVPM_EFFECT_PAGE),
             "a list ends early");
        may_be_cut |= done < it->count && reply->kind != HVPM_REPLY_DENIED;
    } while (done < it->count && reply->kind != HVPM_REPLY_DENIED);
    must(done + (reply->kind == HVPM_REPLY_DENIED) == answered, "a list ends elsewhere");
    for (size_t i = 0; i < done; i++) has_value(it, &made, i, &replies[i]);
    free_list(&made);
}

/* ---- Calls of both machines ---- */

enum way { BY_FUNCTION = 0, BY_RUN = 1, BY_LIST = 2 };

static void take_elements(size_t what, const call *it) {
    uint8_t block[4096];
    size_t i = 0;
    do {
        const uint16_t count = it->count > 0;
        const size_t len = lay_out(it, i, count, block);
        hvpm_registers registers = registers_of(it, count, 0, block);
        take_alone(what, it->by, &registers, block, len);
    } while (last_reply()->kind == HVPM_REPLY_SERVED && ++i < it->count);
}

static void take_call(const call *it, enum way way, uint32_t most, size_t size) {
    uint8_t block[4096];
    hvpm_reply reply;
    const size_t what = (size_t)(it->of - rows), len = lay_out(it, 0, it->count, block);
    const hvpm_registers registers = registers_of(it, it->count, it->start, block);
    event called = {.by = it->by, .registers = registers, .list = block, .is_call = true};
    called.len = it->of->is_fast ? 0 : len;
    begin("call");
    const bool is_list = way == BY_LIST && is_rep(it);
    if (is_list) take_elements(what, it);
    else take_alone(what, it->by, &called.registers, block, called.len);
    if (is_list) take_list(it, &reply);
    else if (way == BY_RUN) take_runs(&called, registers, most, size, &reply);
    else if (is_rep(it)) take_rep(it, &reply);
    else take_simple(it, &reply);
    if (!is_list && !by_pages) same_explanation(&called, &reply);
    is_recorded(!is_list);
    same_guests();
}

/* ---- Accesses of both machines ---- */

static uint32_t make_access(hvpm_machine *machine, const event *it, hvpm_reply *reply, char *line,
                            size_t size) {
    const uint8_t sint = (uint8_t)it->number;
    const uint16_t flag = (uint16_t)it->value;
    switch (it->access) {
    case HVPM_READ_MSR: return hvpm_read_msr(machine, it->by, it->number, reply, line, size);
    case HVPM_WRITE_MSR: return hvpm_write_msr(machine, it->by, it->number, it->value, reply, line, size);
    case HVPM_READ_SLOT: return hvpm_read_slot(machine, it->by, sint, reply, line, size);
    case HVPM_CLEAR_SLOT: return hvpm_clear_slot(machine, it->by, sint, reply, line, size);
    case HVPM_READ_FLAGS: return hvpm_read_flags(machine, it->by, sint, reply, line, size);
    case HVPM_CLEAR_FLAG: return hvpm_clear_flag(machine, it->by, sint, flag, reply, line, size);
    default: return hvpm_take_interrupt(machine, it->by, reply, line, size);
    }
}

/* What a guest with pages does without an exit. Returns whether the access is of that kind. */
static bool is_guests(const event *it) {
    struct guest *const guest = guest_of(it->by);
    if (!guest || it->access == HVPM_READ_MSR || it->access == HVPM_WRITE_MSR) return false;
    doing = "what a guest does";
    if (it->access == HVPM_CLEAR_SLOT) free_slot(guest, it->number);
    if (it->access == HVPM_CLEAR_FLAG) take_flag(guest, it->number, (uint32_t)it->value);
    if (it->access == HVPM_READ_SLOT) guest->race = it->number + 1;
    same_guests();
    return true;
}

static void take_access(const event *it) {
    hvpm_reply reply;
    uint64_t value = 0xA5A5;
    begin("access");
    if (is_guests(it)) return;
    is_ok(make_access(&one, it, next_reply(), next_line(), HVPM_LINE));
    taken(CALLS + it->access);
    before_event();
    is_ok(it->access == HVPM_READ_MSR ? hvpm_read_msr_value(&two, it->by, it->number, &value, &reply, NULL, 0)
                                      : make_access(&two, it, &reply, NULL, 0));
    after_event(&reply.effect);
    must(is_same_reply(&reply, last_reply()), "another reply");
    if (it->access == HVPM_READ_MSR)
        must(value == (reply.output_len == 8 ? number_at(last_reply()->output, 8) : 0xA5A5), "another value");
    if (!by_pages) same_explanation(it, &reply);
    is_recorded(true);
    same_guests();
}

/* ---- Steps ---- */

/* A call by its registers, from a list as long as a byte says, and both forms of a guest's registers. */
static void take_registers(void) {
    uint8_t list[512];
    event it = {.by = some_caller(), .is_call = true, .list = list};
    hvpm_reply reply;
    const uint32_t most = (uint32_t)take(1) % 5;
    it.registers.rcx = take(8), it.registers.rdx = take(8), it.registers.r8 = take(8);
    it.len = take(1);
    for (size_t i = 0; i < it.len; i++) list[i] = (uint8_t)take(1);
    begin("registers");
    const hvpm_registers registers = it.registers;
    take_alone(CALLS + ACCESSES, it.by, &it.registers, list, it.len);
    take_runs(&it, registers, most, HVPM_OUTPUT + 8 * most, &reply);
    if (!by_pages) same_explanation(&it, &reply);
    is_recorded(true);
    same_guests();
}

static void step(void) {
    const uint8_t what = (uint8_t)take(1);
    if (what % 32 < CALLS) {
        const enum way way = what / 32 % 4 == 3 ? BY_RUN : (enum way)(what / 32 % 4);
        const call *const it = some_call(&rows[what % 32]);
        const uint32_t most = way == BY_RUN ? (uint32_t)take(1) : 0;
        take_call(it, way, most / 16, HVPM_OUTPUT + most % 16 * 8);
    } else if (what % 32 < CALLS + ACCESSES) {
        event it = {.access = what % 32 - CALLS, .by = some_caller()};
        const bool is_msr = it.access == HVPM_READ_MSR || it.access == HVPM_WRITE_MSR;
        if (it.access != HVPM_TAKE_INTERRUPT) it.number = is_msr ? some_msr() : (uint32_t)take(1);
        if (it.access == HVPM_WRITE_MSR) it.value = some_msr_value();
        if (it.access == HVPM_CLEAR_FLAG) it.value = take(2);
        take_access(&it);
    } else if (what % 32 < CALLS + ACCESSES + 3) {
        take_registers();
    } else {
        doing = "looks";
        same_looks(same_processor);
    }
}

/* ---- What there is before the first byte of an event ---- */

/* Takes a call of the root by its code and fields. */
static void root_calls(uint16_t code, const uint64_t value[8], uint16_t count, uint64_t first) {
    static call it;
    memset(&it, 0, offsetof(call, element));
    it.by = (hvpm_caller){1, 0}, it.count = count;
    for (it.of = rows; it.of->code != code;) it.of++;
    memcpy(it.value, value, sizeof it.value);
    for (size_t i = 0; i < count; i++) it.element[i] = first + i;
    take_call(&it, BY_FUNCTION, 0, 0);
}

static void enable(hvpm_caller by) {
    static const uint64_t msrs[][2] = {{0x80, 1}, {0x82, 1}, {0x83, 1}, {0x92, 0x72}, {0x93, 0xC3}};
    for (size_t i = 0; i < 5; i++) {
        const event it = {.access = HVPM_WRITE_MSR,
                          .by = by,
                          .number = 0x40000000 + (uint32_t)msrs[i][0],
                          .value = msrs[i][1]};
        take_access(&it);
    }
}

/* A partition gets a port for messages at SINT 2 and one for flags at SINT 3, and the root connections. */
static void link(uint64_t partition, uint64_t id) {
    root_calls(0x95, (uint64_t[8]){partition, id, 1, 1, 2, 0, 0, 0}, 0, 0);
    root_calls(0x95, (uint64_t[8]){partition, id + 1, 1, 2, 3, HVPM_ANY_VP, 0x408, 0x210}, 0, 0);
    root_calls(0x96, (uint64_t[8]){1, id, partition, id, 1}, 0, 0);
    root_calls(0x96, (uint64_t[8]){1, id + 1, partition, id + 1, 2}, 0, 0);
}

static void begin_world(uint32_t world, uint64_t first_loose) {
    if (world >= 1) enable((hvpm_caller){1, 0}), link(1, 0);
    if (world < 2) return;
    root_calls(0x40, (uint64_t[8]){0}, 0, 0);
    root_calls(0x45, (uint64_t[8]){2, HVPM_PRIVILEGE_FLAGS, UINT64_C(0xf700000064)}, 0, 0);
    root_calls(0x48, (uint64_t[8]){2}, 24, first_loose);
    root_calls(0x41, (uint64_t[8]){2}, 0, 0);
    for (uint32_t vp = 0; vp < world - 1; vp++) {
        root_calls(0x4E, (uint64_t[8]){2, vp}, 0, 0);
        enable((hvpm_caller){2, vp});
    }
    link(2, 2);
}

static hvpm_config some_config(void) {
    hvpm_config config = {UINT64_C(0xf700000064), 120, 60, 2};
    const uint8_t how = (uint8_t)take(1);
    if (how & 1) config.mask = some_value();
    if (how & 2) config.pages = (uint32_t)take(how & 0x80 ? 4 : 1);
    if (how & 4) config.pool = (uint32_t)take(1);
    if (how & 8) config.vps = (uint32_t)take(1);
    if (how & 16) config.pages = 2000, config.pool = 1000;
    return config;
}

static uint32_t boot_status(const hvpm_config *config) {
    if (config->pages == 0 || config->pages > 65536) return HVPM_STATUS_PAGES;
    if (config->pool > config->pages) return HVPM_STATUS_POOL;
    return config->vps == 0 || config->vps > 64 || config->pool < 4 * config->vps ? HVPM_STATUS_VPS
                                                                                  : HVPM_STATUS_OK;
}

static void begin_machines(uint8_t how) {
    one = two = (hvpm_machine)HVPM_EMPTY;
    by_pages = how & 1, may_be_cut = false, recorded = 0, doing = "boot";
    memset(&record, 0, sizeof record);
    if (how & 2) two.record = &record;
    if (by_pages) begin_guests();
}

int LLVMFuzzerTestOneInput(const uint8_t *data, size_t size);

int LLVMFuzzerTestOneInput(const uint8_t *data, size_t size) {
    at = data, end = data + size;
    const uint8_t how = (uint8_t)take(1);
    begin_machines(how);
    const hvpm_config config = some_config();
    const uint32_t status = hvpm_boot(&one, &config);
    must(status == boot_status(&config) && status == hvpm_boot(&two, &config), "another boot");
    if (status == HVPM_STATUS_OK) {
        record.audit.len = 0, record.script.len = 0;
        begin_world(how >> 2 & 3, config.pool);
        while (at < end && one.events < 3000) step();
        doing = "looks at the end";
        same_looks(same_processor);
        must(by_pages || one.events == two.events, "another number of events");
    }
    hvpm_destroy(&one), hvpm_destroy(&two), hvpm_record_free(&record);
    return 0;
}

#ifdef ALONE
int main(int argc, char **argv) {
    static uint8_t bytes[1 << 16];
    for (int i = 1; i < argc; i++) {
        FILE *const file = fopen(argv[i], "rb");
        if (!file) return perror(argv[i]), 1;
        const size_t size = fread(bytes, 1, sizeof bytes, file);
        fclose(file);
        uint8_t *const data = copied(bytes, size);
        LLVMFuzzerTestOneInput(data, size);
        free(data);
    }
    return 0;
}
#endif
