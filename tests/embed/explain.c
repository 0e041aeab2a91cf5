/*
 * Explanations: what is no reply or no access, how much room they take, and that none is counted. `recorded`
 * compares their texts with those of `hvpm explain`. What is wrong goes to standard error.
 */
#include "hvpm.h"

#include <stdio.h>
#include <string.h>

static int wrong;

static void holds(const char *what, bool is_so) {
    if (is_so) return;
    fprintf(stderr, "%s doesn't hold\n", what);
    wrong = 1;
}

static const hvpm_caller root = {1, 0};

static hvpm_machine machine = HVPM_EMPTY;
static char text[HVPM_EXPLANATION];

static void is_no_reply(hvpm_reply no_reply) {
    static const hvpm_registers registers = {.rcx = 0x46};
    size_t len = 0xA5;
    memset(text, 0x5A, sizeof text);
    holds("no reply of a call", hvpm_explain(&machine, root, &registers, NULL, 0, &no_reply, text, sizeof text,
                                             &len) == HVPM_STATUS_NONE);
    no_reply.kind += no_reply.kind == HVPM_REPLY_DENIED;
    holds("no reply of an access",
          hvpm_explain_access(&machine, root, HVPM_TAKE_INTERRUPT, 0, 0, &no_reply, text, sizeof text, &len) ==
              HVPM_STATUS_NONE);
    holds("nothing is written of no reply", len == 0xA5 && text[0] == 0x5A && text[1] == 0x5A);
}

int main(void) {
    static const hvpm_config config = {0xf700000047, 64, 40, 2};
    static const hvpm_registers id = {.rcx = 0x46};
    static const char wanted[] = "HvGetPartitionId: ok, partition 1";
    const size_t size = sizeof wanted - 1;
    static const hvpm_reply fault = {.kind = HVPM_REPLY_FAULT, .rule = 1};
    hvpm_reply reply, long_output = {.kind = HVPM_REPLY_SERVED, .output_len = UINT32_MAX};
    size_t len = 0;
    holds("another boot", hvpm_boot(&machine, &config) == HVPM_STATUS_OK);
    is_no_reply((hvpm_reply){.kind = 4});
    is_no_reply((hvpm_reply){.kind = UINT32_MAX, .rule = 1});
    is_no_reply((hvpm_reply){.kind = HVPM_REPLY_DENIED});
    is_no_reply((hvpm_reply){.kind = HVPM_REPLY_DENIED, .rule = 28});
    holds("a fault is of no call",
          hvpm_explain(&machine, root, &id, NULL, 0, &fault, text, sizeof text, &len) == HVPM_STATUS_NONE);
    holds("there is no access 7", hvpm_explain_access(&machine, root, 7, 0, 0, &long_output, text, sizeof text,
                                                      &len) == HVPM_STATUS_NONE);
    holds("no more output than there can be",
          hvpm_explain_access(&machine, root, HVPM_READ_FLAGS, 2, 0, &long_output, text, sizeof text, &len) ==
              HVPM_STATUS_OK);
    holds("a call", hvpm_hypercall(&machine, root, &id, NULL, 0, &reply, NULL, 0) == HVPM_STATUS_OK);
    memset(text, 0x5A, sizeof text);
    holds("its length", hvpm_explain(&machine, root, &id, NULL, 0, &reply, NULL, 0, &len) ==
                            HVPM_STATUS_SHORT && len == size);
    len = 0;
    holds("a byte less", hvpm_explain(&machine, root, &id, NULL, 0, &reply, text, size - 1, &len) ==
                             HVPM_STATUS_SHORT && len == size && text[0] == 0x5A);
    holds("just its room",
          hvpm_explain(&machine, root, &id, NULL, 0, &reply, text, size, &len) == HVPM_STATUS_OK);
    holds("the words", len == size && memcmp(text, wanted, size) == 0 && text[size] == 0x5A);
    holds("that no explanation is counted", machine.events == 1);
    hvpm_destroy(&machine);
    return wrong;
}
