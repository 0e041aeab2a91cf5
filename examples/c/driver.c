/*
 * A driver of the conformance suite over the library: lets the machine do what a script's
 * lines say, and prints the audit.
 *
 *     conformance/run --group interface --no-tables out/driver
 *     conformance/run --group interface --no-tables --batch out/driver
 *
 * With --batch it takes one script after another from standard input, each by its path. It reads scripts
 * without a fault, of at most 1 MiB, and leaves LIMIT alone.
 */
#include "hvpm.h"

#include <inttypes.h>
#include <stdio.h>
#include <stdlib.h>
#include <string.h>

static uint64_t number(const char *word) {
    return strtoull(word, NULL, strncmp(word, "0x", 2) == 0 ? 16 : 10);
}

/* The bytes of a word of hexadecimal digits, or none of a dash, and how many they are. */
static size_t bytes_of(const char *word, uint8_t *bytes) {
    size_t len = 0;
    for (unsigned byte; word[0] != '-' && sscanf(word, "%2x", &byte) == 1; word += 2)
        bytes[len++] = (uint8_t)byte;
    return len;
}

static uint32_t put(uint32_t status, const hvpm_reply *reply, const char *line) {
    if (status == HVPM_STATUS_OK) fwrite(line, 1, reply->line_len, stdout);
    return status;
}

/* A call, element by element. */
static uint32_t call(hvpm_machine *machine, hvpm_caller by, char **words) {
    static uint8_t input[4096];
    const size_t input_len = bytes_of(words[5], input);
    hvpm_registers registers = {number(words[2]), number(words[3]), number(words[4])};
    hvpm_reply reply;
    char line[HVPM_LINE];
    for (;;) {
        const uint32_t status =
            hvpm_hypercall(machine, by, &registers, input, input_len, &reply, line, sizeof line);
        if (put(status, &reply, line) != HVPM_STATUS_OK || reply.kind != HVPM_REPLY_MORE) return status;
        registers.rcx = hvpm_next(registers.rcx, &reply);
    }
}

static uint32_t access_by(hvpm_machine *machine, hvpm_caller by, char **words) {
    const char *word = words[1];
    const uint64_t first = words[2] ? number(words[2]) : 0,
                   second = words[2] && words[3] ? number(words[3]) : 0;
    const uint8_t sint = (uint8_t)first;
    hvpm_reply reply;
    char line[HVPM_LINE];
    uint32_t status;
    if (strcmp(word, "rdmsr") == 0)
        status = hvpm_read_msr(machine, by, (uint32_t)first, &reply, line, sizeof line);
    else if (strcmp(word, "wrmsr") == 0)
        status = hvpm_write_msr(machine, by, (uint32_t)first, second, &reply, line, sizeof line);
    else if (strcmp(word, "slot") == 0)
        status = hvpm_read_slot(machine, by, sint, &reply, line, sizeof line);
    else if (strcmp(word, "clearslot") == 0)
        status = hvpm_clear_slot(machine, by, sint, &reply, line, sizeof line);
    else if (strcmp(word, "flags") == 0)
        status = hvpm_read_flags(machine, by, sint, &reply, line, sizeof line);
    else if (strcmp(word, "clearflag") == 0)
        status = hvpm_clear_flag(machine, by, sint, (uint16_t)second, &reply, line, sizeof line);
    else
        status = hvpm_take_interrupt(machine, by, &reply, line, sizeof line);
    return put(status, &reply, line);
}

/* The words of a line; none of a comment and of an empty line. */
static size_t words_of(char *line, char **words) {
    size_t count = 0;
    for (char *word = strtok(line, " \n"); word && count < 8; word = strtok(NULL, " \n"))
        words[count++] = word;
    return count > 0 && words[0][0] == '#' ? 0 : count;
}

static uint32_t boot(hvpm_machine *machine, char **words) {
    const hvpm_config config = {
        .pages = (uint32_t)number(words[1]),
        .pool = (uint32_t)number(words[2]),
        .vps = (uint32_t)number(words[3]),
        .mask = number(words[4]),
    };
    return hvpm_boot(machine, &config);
}

static uint32_t happen(hvpm_machine *machine, char **words) {
    const char *dot = strchr(words[0], '.');
    const hvpm_caller by = {number(words[0]), (uint32_t)number(dot + 1)};
    return strcmp(words[1], "call") == 0 ? call(machine, by, words) : access_by(machine, by, words);
}

/* Lets a new machine do what a script says, and prints the audit; gives the status of what ended it. */
static uint32_t run(FILE *script) {
    static char line[1 << 20];
    hvpm_machine machine = HVPM_EMPTY;
    uint32_t status = HVPM_STATUS_OK;
    while (status == HVPM_STATUS_OK && fgets(line, sizeof line, script)) {
        char *words[8] = {NULL};
        const size_t count = words_of(line, words);
        if (count > 1)
            status = strcmp(words[0], "boot") == 0 ? boot(&machine, words) : happen(&machine, words);
    }
    if (status == HVPM_STATUS_OK) printf("events %" PRIu64 "\n", machine.events);
    hvpm_destroy(&machine);
    return status;
}

/* The driver's status for one of the library's, and what it tells then. */
static int told(uint32_t status, char *text, size_t size) {
    static const char *const refused[] = {"pages", "pool", "vps"};
    if (status == HVPM_STATUS_OK) return 0;
    if (status >= HVPM_STATUS_PAGES && status <= HVPM_STATUS_VPS) {
        snprintf(text, size, "boot refused: %s", refused[status - HVPM_STATUS_PAGES]);
        return 1;
    }
    snprintf(text, size, "status %" PRIu32, status);
    return 3;
}

/*
 * Runs one script after another, whose paths are lines of standard input; a line `end` stands
 * behind what each of them told.
 */
static int run_batch(void) {
    static char path[4096];
    while (fgets(path, sizeof path, stdin)) {
        char text[64] = "cannot read the script";
        path[strcspn(path, "\n")] = 0;
        FILE *script = fopen(path, "r");
        const int status = script ? told(run(script), text, sizeof text) : 1;
        if (script) fclose(script);
        printf("end %d%s%s\n", status, status ? " " : "", status ? text : "");
        fflush(stdout);
    }
    return 0;
}

int main(int argc, char **argv) {
    if (argc == 2 && strcmp(argv[1], "--batch") == 0) return run_batch();
    FILE *script = argc == 2 ? fopen(argv[1], "r") : NULL;
    if (!script) {
        fputs("usage: driver SCRIPT, or driver --batch\n", stderr);
        return 2;
    }
    char text[64];
    const int status = told(run(script), text, sizeof text);
    fclose(script);
    if (status) fprintf(stderr, "driver: %s\n", text);
    return status;
}
