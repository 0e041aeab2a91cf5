/*
 * What the library reads of an input: the call's list and no byte more. Each list ends where a page ends that
 * is followed by none, and each length says a gigabyte. A byte read too many ends the process by a signal.
 * What else is wrong goes to standard error, and the status is then 1.
 */
#define _DEFAULT_SOURCE /* MAP_ANONYMOUS */
#include "hvpm.h"

#include <stdbool.h>
#include <stdio.h>
#include <stdlib.h>
#include <string.h>
#include <sys/mman.h>
#include <unistd.h>

static const size_t GIGABYTE = (size_t)1 << 30;
static const hvpm_caller root = {1, 0};
static hvpm_machine machine = HVPM_EMPTY;
static uint8_t *end; /* of the page; no byte is there from here on */

static void must(bool holds, const char *what) {
    if (holds) return;
    fprintf(stderr, "input: %s\n", what);
    exit(1);
}

/* Makes a call with a list at the end of the page. Returns the kind of its reply. */
static uint32_t call(uint64_t rcx, uint64_t rdx, uint64_t r8, const void *list, size_t size, const char *what) {
    const hvpm_registers registers = {rcx, rdx, r8};
    hvpm_reply reply;
    if (size > 0) memcpy(end - size, list, size);
    must(hvpm_hypercall(&machine, root, &registers, end - size, GIGABYTE, &reply, NULL, 0) == HVPM_STATUS_OK,
         what);
    return reply.kind;
}

int main(void) {
    const size_t page = (size_t)sysconf(_SC_PAGESIZE);
    const hvpm_config config = {.mask = 0xf700000044, .pages = 32, .pool = 12, .vps = 1};
    uint8_t *const pages = mmap(NULL, 2 * page, PROT_READ | PROT_WRITE, MAP_PRIVATE | MAP_ANONYMOUS, -1, 0);
    must(pages != MAP_FAILED && mprotect(pages + page, page, PROT_NONE) == 0, "no memory");
    end = pages + page;
    must(hvpm_boot(&machine, &config) == HVPM_STATUS_OK, "it doesn't boot");

    must(call(0x46, 0, 0, NULL, 0, "no list") == HVPM_REPLY_SERVED, "HvGetPartitionId");
    const uint64_t flags = 0, two[] = {2, 12, 13}, self = UINT64_MAX;
    must(call(0x40, 0, 0, &flags, sizeof flags, "a list of 8 bytes") == HVPM_REPLY_SERVED, "HvCreatePartition");
    must(call(0x10041, 2, 0, NULL, 0, "a fast call") == HVPM_REPLY_SERVED, "HvInitializePartition, fast");
    must(call(0x1004e, 2, 70, NULL, 0, "a denied fast call") == HVPM_REPLY_DENIED, "HvCreateVp, fast");
    must(call(0x13b, 0, 0, NULL, 0, "an unknown code") == HVPM_REPLY_DENIED, "no call");
    must(call(0x4a, 0, 0, &self, sizeof self, "a list of 8 bytes") == HVPM_REPLY_SERVED, "HvGetMemoryBalance");
    must(call(0x0000000100000048, 0, 0, two, 16, "an element") == HVPM_REPLY_SERVED, "HvDepositMemory");

    const hvpm_registers withdrawn = {.rcx = 0x0000000200000049}, deposited = {.rcx = 0x0001000200000048};
    uint8_t outputs[64];
    hvpm_reply reply;
    hvpm_run_done done;
    memcpy(end - 8, &two[0], 8);
    must(hvpm_run(&machine, root, &withdrawn, end - 8, GIGABYTE, &reply, outputs, sizeof outputs, &done) ==
             HVPM_STATUS_OK && done.events == 2 && done.output_len == 8,
         "a run of HvWithdrawMemory");
    memcpy(end - sizeof two, two, sizeof two);
    must(hvpm_run(&machine, root, &deposited, end - sizeof two, GIGABYTE, &reply, outputs, sizeof outputs,
                  &done) == HVPM_STATUS_OK && reply.kind == HVPM_REPLY_SERVED && done.events == 1,
         "a run of HvDepositMemory");

    char line[64];
    size_t len;
    const hvpm_registers own = {.rcx = 0x46};
    must(hvpm_hypercall_line(root, &own, end, GIGABYTE, line, sizeof line, &len) == HVPM_STATUS_OK,
         "the line of HvGetPartitionId");
    static const char wanted[] = "1.0 call 0x46 0x0 0x0 -\n";
    must(len == strlen(wanted) && memcmp(line, wanted, len) == 0, "the line has no input");
    hvpm_destroy(&machine);
    return 0;
}
