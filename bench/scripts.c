/*
 * How long an event of a script takes through the library, without its line of the audit: nanoseconds of
 * processor time, the least of 25 passes, each on a machine of its own. A script is read whole before the
 * first pass. Sourced by embed.sh.
 *
 * It reads scripts without a fault, of at most 1 MiB, and leaves LIMIT alone.
 */
#include "hvpm.h"

#include <inttypes.h>
#include <stdio.h>
#include <stdlib.h>
#include <string.h>
#include <time.h>

enum { MOST = 1 << 17, PASSES = 25 };

/*
 * What a line asks for. Of a call `input` is where its bytes begin among those of all,
 * of an access the first number.
 */
struct line {
    hvpm_caller by;
    enum { CALL, READ_MSR, WRITE_MSR, READ_SLOT, CLEAR_SLOT, READ_FLAGS, CLEAR_FLAG, TAKE_INTERRUPT } what;
    hvpm_registers registers;
    size_t input, input_len;
};

static struct line lines[MOST];
static size_t count;
static uint8_t inputs[1 << 20];
static size_t inputs_len;
static hvpm_config config;
static hvpm_machine machine = HVPM_EMPTY;

static uint64_t number(const char *word) {
    return word ? strtoull(word, NULL, strncmp(word, "0x", 2) == 0 ? 16 : 10) : 0;
}

static void put_input(struct line *line, const char *word) {
    line->input = inputs_len;
    for (unsigned byte; word[0] != '-' && sscanf(word, "%2x", &byte) == 1; word += 2)
        inputs[inputs_len++] = (uint8_t)byte;
    line->input_len = inputs_len - line->input;
}

static void put_line(char **words) {
    static const char *const whats[] = {"call", "rdmsr", "wrmsr", "slot", "clearslot", "flags", "clearflag",
                                        "interrupt"};
    struct line *line = &lines[count++];
    line->by = (hvpm_caller){number(words[0]), (uint32_t)number(strchr(words[0], '.') + 1)};
    line->what = CALL;
    while (line->what < TAKE_INTERRUPT && strcmp(words[1], whats[line->what]) != 0) line->what++;
    line->registers = (hvpm_registers){number(words[2]), number(words[3]), number(words[4])};
    if (line->what == CALL) put_input(line, words[5]);
}

static bool read_script(const char *name) {
    static char text[1 << 20];
    FILE *file = fopen(name, "r");
    if (!file) return false;
    count = inputs_len = 0;
    while (count < MOST && fgets(text, sizeof text, file)) {
        char *words[8] = {NULL};
        size_t some = 0;
        for (char *word = strtok(text, " \n"); word && some < 8; word = strtok(NULL, " \n"))
            words[some++] = word;
        if (some < 2 || words[0][0] == '#') continue;
        if (strcmp(words[0], "boot") == 0)
            config = (hvpm_config){number(words[4]), (uint32_t)number(words[1]), (uint32_t)number(words[2]),
                                   (uint32_t)number(words[3])};
        else
            put_line(words);
    }
    fclose(file);
    return true;
}

static uint32_t call(struct line *line, hvpm_reply *reply) {
    static uint8_t outputs[4096 * HVPM_OUTPUT];
    hvpm_run_done done;
    return hvpm_run(&machine, line->by, &line->registers, inputs + line->input, line->input_len, reply,
                    outputs, sizeof outputs, &done);
}

static uint32_t happen(struct line *line, hvpm_reply *reply) {
    const uint64_t first = line->registers.rcx, second = line->registers.rdx;
    const uint8_t sint = (uint8_t)first;
    switch (line->what) {
    case CALL: return call(line, reply);
    case READ_MSR: return hvpm_read_msr(&machine, line->by, (uint32_t)first, reply, NULL, 0);
    case WRITE_MSR: return hvpm_write_msr(&machine, line->by, (uint32_t)first, second, reply, NULL, 0);
    case READ_SLOT: return hvpm_read_slot(&machine, line->by, sint, reply, NULL, 0);
    case CLEAR_SLOT: return hvpm_clear_slot(&machine, line->by, sint, reply, NULL, 0);
    case READ_FLAGS: return hvpm_read_flags(&machine, line->by, sint, reply, NULL, 0);
    case CLEAR_FLAG: return hvpm_clear_flag(&machine, line->by, sint, (uint16_t)second, reply, NULL, 0);
    case TAKE_INTERRUPT: return hvpm_take_interrupt(&machine, line->by, reply, NULL, 0);
    }
    return HVPM_STATUS_NULL;
}

/* One pass over the script: nanoseconds an event, or less than 0 where one didn't happen. */
static double pass(uint64_t *events, uint64_t *served) {
    struct timespec start, end;
    hvpm_reply reply;
    if (hvpm_boot(&machine, &config) != HVPM_STATUS_OK) return -1;
    *served = 0;
    clock_gettime(CLOCK_PROCESS_CPUTIME_ID, &start);
    for (size_t i = 0; i < count; i++) {
        if (happen(&lines[i], &reply) != HVPM_STATUS_OK) return -1;
        *served += reply.kind == HVPM_REPLY_SERVED;
    }
    clock_gettime(CLOCK_PROCESS_CPUTIME_ID, &end);
    *events = machine.events;
    hvpm_destroy(&machine);
    return ((double)(end.tv_sec - start.tv_sec) * 1e9 + (double)(end.tv_nsec - start.tv_nsec)) /
           (double)*events;
}

int main(int argc, char **argv) {
    for (int i = 1; i < argc; i++) {
        double least = 1e9;
        uint64_t events = 0, served = 0;
        if (!read_script(argv[i])) {
            fprintf(stderr, "scripts: %s can't be read\n", argv[i]);
            return 2;
        }
        for (int run = 0; run < PASSES; run++) {
            const double taken = pass(&events, &served);
            if (taken < 0) {
                fprintf(stderr, "scripts: a line of %s has a status other than 0\n", argv[i]);
                return 1;
            }
            if (taken < least) least = taken;
        }
        const char *slash = strrchr(argv[i], '/');
        printf("%-44s %10.1f ns, of %" PRIu64 " events in %zu lines, of which %" PRIu64 " were served\n",
               slash ? slash + 1 : argv[i], least, events, count, served);
    }
    return 0;
}
