/*
 * What the library refuses to its caller: each status once, and that nothing changed then. A null, and a
 * machine that is used up, are tests/embed/functions.c's, which tries them with each function. Then that the
 * elements of a call that are taken in a run tell what they tell one by one. Prints what is wrong.
 */
#include "hvpm.h"

#include <inttypes.h>
#include <stdio.h>
#include <string.h>

static int wrong;

static void want(const char *what, uint32_t status, uint32_t wanted) {
    if (status == wanted) return;
    printf("%s: status %" PRIu32 ", wanted %" PRIu32 "\n", what, status, wanted);
    wrong = 1;
}

static void holds(const char *what, bool is_so) {
    if (is_so) return;
    printf("%s doesn't hold\n", what);
    wrong = 1;
}

static const hvpm_caller root = {1, 0};
static const hvpm_registers ask_id = {.rcx = 0x46};
static const hvpm_config sound = {.mask = 0xf700000044, .pages = 32, .pool = 12, .vps = 1};

static void refuse_boot(const char *what, hvpm_config config, uint32_t wanted) {
    hvpm_machine machine = HVPM_EMPTY;
    want(what, hvpm_boot(&machine, &config), wanted);
    holds("a refused boot leaves the handle empty", !machine.live && machine.events == 0 && !machine.at);
}

static void boots(void) {
    hvpm_config config = sound;
    config.pages = 0, refuse_boot("no pages", config, HVPM_STATUS_PAGES);
    config.pages = 65537, refuse_boot("too many pages", config, HVPM_STATUS_PAGES);
    config.pages = 11, refuse_boot("a pool over the pages", config, HVPM_STATUS_POOL);
    config = sound;
    config.vps = 0, refuse_boot("no processors", config, HVPM_STATUS_VPS);
    config.vps = 4, refuse_boot("processors over the pool", config, HVPM_STATUS_VPS);
    config.vps = UINT32_MAX, refuse_boot("most processors", config, HVPM_STATUS_VPS);
}

static void shorts(hvpm_machine *machine) {
    hvpm_reply reply, before;
    char line[HVPM_LINE];
    memset(&reply, 0xA5, sizeof reply);
    memset(line, 'x', sizeof line);
    before = reply;
    want("a line of one byte", hvpm_hypercall(machine, root, &ask_id, NULL, 0, &reply, line, 1),
         HVPM_STATUS_SHORT);
    want("a line one byte short", hvpm_take_interrupt(machine, root, &reply, line, HVPM_LINE - 1),
         HVPM_STATUS_SHORT);
    uint8_t outputs[HVPM_OUTPUT - 1];
    hvpm_run_done done = {0xA5A5, 0x5A5A};
    memset(outputs, 'x', sizeof outputs);
    want("no room for outputs", hvpm_run(machine, root, &ask_id, NULL, 0, &reply, NULL, 0, &done),
         HVPM_STATUS_SHORT);
    want("outputs one byte short",
         hvpm_run(machine, root, &ask_id, NULL, 0, &reply, outputs, sizeof outputs, &done),
         HVPM_STATUS_SHORT);
    holds("a refusal writes no outputs",
          outputs[0] == 'x' && memcmp(outputs, outputs + 1, sizeof outputs - 1) == 0);
    holds("a refusal does nothing", done.events == 0xA5A5 && done.output_len == 0x5A5A);
    holds("a refusal writes no reply", memcmp(&reply, &before, sizeof reply) == 0);
    holds("a refusal writes no line", line[0] == 'x' && memcmp(line, line + 1, sizeof line - 1) == 0);
    holds("a refusal is no event", machine->events == 0);
}

/* What the lines, the numbers and the replies of a few events are. */
static void events(hvpm_machine *machine) {
    hvpm_reply reply;
    char line[HVPM_LINE];
    want("no line", hvpm_hypercall(machine, root, &ask_id, NULL, 0, &reply, NULL, 0), HVPM_STATUS_OK);
    holds("an id",
          reply.kind == HVPM_REPLY_SERVED && reply.rule == 0 && reply.output_len == 8 &&
              reply.output[0] == 1);
    holds("no line was asked for", reply.line_len == 0);
    want("a line", hvpm_read_msr(machine, root, 0x40000071, &reply, line, sizeof line), HVPM_STATUS_OK);
    static const char text[] = "2 1.0 rdmsr 40000071 fault P25\n";
    holds("a fault",
          reply.kind == HVPM_REPLY_FAULT && reply.rule == 25 && reply.result == 0 && reply.output_len == 0);
    holds("its line", reply.line_len == sizeof text - 1 && memcmp(line, text, sizeof text - 1) == 0);
    want("a stranger", hvpm_hypercall(machine, (hvpm_caller){9, 0}, &ask_id, NULL, 0, &reply, NULL, 0),
         HVPM_STATUS_OK);
    holds("a denial",
          reply.kind == HVPM_REPLY_DENIED && reply.rule == 1 && reply.result == 0xD && machine->events == 3);
}

/* The same elements one by one, with as much room for what they put out. */
static uint32_t by_one(hvpm_machine *machine, hvpm_registers registers, const void *input, size_t input_len,
                       hvpm_reply *reply, uint8_t *outputs, size_t size, hvpm_run_done *done) {
    *done = (hvpm_run_done){0, 0};
    do {
        const uint32_t status = hvpm_hypercall(machine, root, &registers, input, input_len, reply, NULL, 0);
        if (status != HVPM_STATUS_OK) return status;
        memcpy(outputs + done->output_len, reply->output, reply->output_len);
        done->output_len += reply->output_len;
        done->events++;
        registers.rcx = hvpm_next(registers.rcx, reply);
    } while (reply->kind == HVPM_REPLY_MORE && size - done->output_len >= HVPM_OUTPUT);
    return HVPM_STATUS_OK;
}

/*
 * A call as a run on one machine, and element by element on another that had the
 * same events: both tell the same.
 */
static hvpm_reply alike(hvpm_machine *runs, hvpm_machine *ones, uint64_t rcx, const void *input,
                        size_t input_len, size_t size, hvpm_run_done wanted) {
    const hvpm_registers registers = {.rcx = rcx};
    uint8_t outputs[2][512];
    hvpm_reply replies[2];
    hvpm_run_done done[2];
    memset(outputs, 0xA5, sizeof outputs);
    memset(replies, 0xA5, sizeof replies);
    want("a run", hvpm_run(runs, root, &registers, input, input_len, &replies[0], outputs[0], size, &done[0]),
         HVPM_STATUS_OK);
    want("one by one", by_one(ones, registers, input, input_len, &replies[1], outputs[1], size, &done[1]),
         HVPM_STATUS_OK);
    for (int i = 0; i < 2; i++)
        holds("so many", done[i].events == wanted.events && done[i].output_len == wanted.output_len);
    holds("the same outputs", memcmp(outputs[0], outputs[1], wanted.output_len) == 0);
    holds("nothing past the room", size == sizeof outputs[0] || outputs[0][size] == 0xA5);
    const hvpm_reply *const a = &replies[0], *const b = &replies[1];
    holds("the same reply",
          a->kind == b->kind && a->rule == b->rule && a->result == b->result && a->next == b->next);
    holds("the same output",
          a->output_len == b->output_len && memcmp(a->output, b->output, a->output_len) == 0);
    holds("no line", a->line_len == 0);
    holds("the same number of events", runs->events == ones->events);
    return *a;
}

static void runs(void) {
    hvpm_machine runs = HVPM_EMPTY, ones = HVPM_EMPTY;
    want("boot", hvpm_boot(&runs, &sound), HVPM_STATUS_OK);
    want("boot", hvpm_boot(&ones, &sound), HVPM_STATUS_OK);
    static const uint8_t self[8] = {0xFF, 0xFF, 0xFF, 0xFF, 0xFF, 0xFF, 0xFF, 0xFF};
    hvpm_reply reply = alike(&runs, &ones, 0x46, NULL, 0, HVPM_OUTPUT, (hvpm_run_done){1, 8});
    holds("a simple call", reply.kind == HVPM_REPLY_SERVED && reply.output[0] == 1);
    reply = alike(&runs, &ones, 0x46 | UINT64_C(1) << 48, NULL, 0, HVPM_OUTPUT, (hvpm_run_done){1, 0});
    holds("a start index is no simple call's", reply.kind == HVPM_REPLY_DENIED && reply.rule == 5);
    /* Withdraws pages 0 to 4, the last three of them as a call that goes on. */
    reply = alike(&runs, &ones, 0x49 | UINT64_C(5) << 32, self, sizeof self, 31, (hvpm_run_done){2, 16});
    holds("room for two",
          reply.kind == HVPM_REPLY_MORE && reply.next == 2 && reply.result == UINT64_C(2) << 32);
    const uint64_t rest = hvpm_next(0x49 | UINT64_C(5) << 32, &reply);
    reply = alike(&runs, &ones, rest, self, sizeof self, 512, (hvpm_run_done){3, 24});
    holds("the rest",
          reply.kind == HVPM_REPLY_SERVED && reply.result == UINT64_C(5) << 32 && reply.output[0] == 4);
    /* Deposits pages 4, 0 and 300, which is nobody's: the third is denied, and the first two stay. */
    const uint8_t block[8 + 3 * 8] = {1, [8] = 4, [24] = 0x2C, [25] = 1};
    reply = alike(&runs, &ones, 0x48 | UINT64_C(3) << 32, block, sizeof block, HVPM_OUTPUT,
                  (hvpm_run_done){3, 0});
    holds("a denied element",
          reply.kind == HVPM_REPLY_DENIED && reply.rule == 21 && reply.result == (UINT64_C(2) << 32 | 0x05));
    /* Reads RAX and VP_INDEX of processor 0, 16 bytes each, and a register that there isn't. */
    const uint8_t names[16 + 3 * 4] = {1, [18] = 2, [20] = 3, [22] = 9, [24] = 0xFF, [25] = 0xFF};
    reply = alike(&runs, &ones, 0x50 | UINT64_C(3) << 32, names, sizeof names, 512, (hvpm_run_done){3, 32});
    holds("an unknown register",
          reply.kind == HVPM_REPLY_DENIED && reply.rule == 21 && reply.result >> 32 == 2);
    /* A write of registers asks each element all rules. */
    const uint8_t writes[16 + 2 * 32] = {1, [18] = 2, [32] = 7, [48] = 1, [50] = 2, [64] = 9};
    reply = alike(&runs, &ones, 0x51 | UINT64_C(2) << 32, writes, sizeof writes, HVPM_OUTPUT,
                  (hvpm_run_done){2, 0});
    holds("two are written", reply.kind == HVPM_REPLY_SERVED && reply.result == UINT64_C(2) << 32);
    hvpm_destroy(&runs);
    hvpm_destroy(&ones);
}

int main(void) {
    hvpm_machine machine = HVPM_EMPTY;
    hvpm_reply reply;
    want("nothing booted", hvpm_hypercall(&machine, root, &ask_id, NULL, 0, &reply, NULL, 0),
         HVPM_STATUS_EMPTY);
    want("nothing booted", hvpm_take_interrupt(&machine, root, &reply, NULL, 0), HVPM_STATUS_EMPTY);
    hvpm_destroy(&machine);
    boots();
    want("boot", hvpm_boot(&machine, &sound), HVPM_STATUS_OK);
    const hvpm_machine booted = machine;
    want("boot again", hvpm_boot(&machine, &sound), HVPM_STATUS_OCCUPIED);
    shorts(&machine);
    holds("refusals leave the handle", machine.live && machine.events == 0 && machine.at == booted.at);
    events(&machine);
    runs();
    hvpm_destroy(&machine);
    holds("destroyed", !machine.live && machine.events == 0 && !machine.at);
    want("boot after", hvpm_boot(&machine, &sound), HVPM_STATUS_OK);
    hvpm_destroy(&machine);
    return wrong;
}
