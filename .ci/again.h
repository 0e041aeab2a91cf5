/*
 * Included before a C program over the library, so that its boots and hypercalls are made again where there
 * was no memory. What was refused must have changed nothing: the handle and the reply keep their bytes, and
 * the line's buffer too.
 */
#include "hvpm.h"

#include <stdio.h>
#include <stdlib.h>
#include <string.h>

static inline void again_must(int holds, const char *what) {
    if (holds) return;
    fprintf(stderr, "again: %s\n", what);
    exit(4);
}

static inline uint32_t again_boot(hvpm_machine *machine, const hvpm_config *config) {
    const hvpm_machine before = *machine;
    const uint32_t status = hvpm_boot(machine, config);
    if (status != HVPM_STATUS_MEMORY) return status;
    again_must(memcmp(machine, &before, sizeof before) == 0, "a refused boot changed the handle");
    fputs("again: boot\n", stderr);
    return hvpm_boot(machine, config);
}

static inline uint32_t again_hypercall(hvpm_machine *machine, hvpm_caller by, const hvpm_registers *registers,
                                       const uint8_t *input, size_t input_len, hvpm_reply *reply, char *line,
                                       size_t line_size) {
    const hvpm_machine before = *machine;
    static hvpm_reply reply_before;
    static char line_before[HVPM_LINE];
    memset(reply, 0xa5, sizeof *reply);
    memset(line, 0xa5, line_size);
    memcpy(&reply_before, reply, sizeof reply_before);
    memcpy(line_before, line, line_size);
    const uint32_t status = hvpm_hypercall(machine, by, registers, input, input_len, reply, line, line_size);
    if (status != HVPM_STATUS_MEMORY) return status;
    again_must(memcmp(machine, &before, sizeof before) == 0, "a refused call changed the handle");
    again_must(memcmp(reply, &reply_before, sizeof reply_before) == 0, "a refused call wrote a reply");
    again_must(memcmp(line, line_before, line_size) == 0, "a refused call wrote a line");
    fputs("again: call\n", stderr);
    return hvpm_hypercall(machine, by, registers, input, input_len, reply, line, line_size);
}

#define hvpm_boot again_boot
#define hvpm_hypercall again_hypercall
