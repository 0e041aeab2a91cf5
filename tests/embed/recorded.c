/*
 * Events as lines of a script and in words: a run that is recorded, and each line's text. The words are
 * SCRIPT, AUDIT and WORDS, the files for the recording, and for the audit and the explanations that the library
 * hands back, which `hvpm run SCRIPT --serial` and `hvpm explain SCRIPT` must print, too. The texts are those
 * of "Script" in docs/POLICY.md. What is wrong goes to standard error.
 */
#include "hvpm.h"

#include <inttypes.h>
#include <stdio.h>
#include <string.h>

static int wrong;

static void holds(const char *what, bool is_so) {
    if (is_so) return;
    fprintf(stderr, "%s doesn't hold\n", what);
    wrong = 1;
}

/* ---- A run ---- */

static const hvpm_caller root = {1, 0}, second = {1, 1}, guest = {2, 1}, nobody = {7, 3};

static hvpm_machine machine = HVPM_EMPTY;
static hvpm_reply reply;
static FILE *script, *audit, *words;
static char text[HVPM_EXPLANATION];

/* Keeps the audit's line of the event before. */
static void keep(uint32_t status, const char *line) {
    holds("an event is taken", status == HVPM_STATUS_OK);
    holds("its line is kept", fwrite(line, 1, reply.line_len, audit) == reply.line_len);
}

/* Keeps an explanation of the event before, with the number and the processor that `hvpm explain` prints. */
static void tell(hvpm_caller by, uint32_t status, size_t len) {
    holds("an event is explained", status == HVPM_STATUS_OK && len > 0);
    fprintf(words, "%" PRIu64 " %" PRIu64 ".%" PRIu32 " %.*s\n", machine.events, by.partition, by.vp, (int)len,
            text);
}

/* Records a hypercall, and takes it to its last element. */
static void call(hvpm_caller by, uint64_t rcx, uint64_t rdx, uint64_t r8, const void *input,
                 size_t input_len) {
    hvpm_registers registers = {rcx, rdx, r8};
    char written[HVPM_CALL_LINE], line[HVPM_LINE];
    size_t len;
    holds("a call's line is told", hvpm_hypercall_line(by, &registers, input, input_len, written,
                                                       sizeof written, &len) == HVPM_STATUS_OK);
    holds("a call's line is recorded", fwrite(written, 1, len, script) == len);
    do {
        keep(hvpm_hypercall(&machine, by, &registers, input, input_len, &reply, line, sizeof line), line);
        const uint32_t status = hvpm_explain(&machine, by, &registers, input, input_len, &reply, text,
                                             sizeof text, &len);
        tell(by, status, len);
        registers.rcx = hvpm_next(registers.rcx, &reply);
    } while (reply.kind == HVPM_REPLY_MORE);
}

/* Records an access. Which one it is, is known to the caller, who takes it then. */
static void record(hvpm_caller by, uint32_t access, uint32_t number, uint64_t value) {
    char written[HVPM_EVENT_LINE];
    size_t len;
    holds("an access's line is told",
          hvpm_access_line(by, access, number, value, written, sizeof written, &len) == HVPM_STATUS_OK);
    holds("an access's line is recorded", fwrite(written, 1, len, script) == len);
}

/* Explains the access before. */
static void explain(hvpm_caller by, uint32_t access, uint32_t number, uint64_t value) {
    size_t len = 0;
    const uint32_t status =
        hvpm_explain_access(&machine, by, access, number, value, &reply, text, sizeof text, &len);
    tell(by, status, len);
}

static void read_msr(hvpm_caller by, uint32_t msr) {
    char line[HVPM_LINE];
    record(by, HVPM_READ_MSR, msr, 0);
    keep(hvpm_read_msr(&machine, by, msr, &reply, line, sizeof line), line);
    explain(by, HVPM_READ_MSR, msr, 0);
}

static void write_msr(hvpm_caller by, uint32_t msr, uint64_t value) {
    char line[HVPM_LINE];
    record(by, HVPM_WRITE_MSR, msr, value);
    keep(hvpm_write_msr(&machine, by, msr, value, &reply, line, sizeof line), line);
    explain(by, HVPM_WRITE_MSR, msr, value);
}

static void read_slot(hvpm_caller by, uint8_t sint) {
    char line[HVPM_LINE];
    record(by, HVPM_READ_SLOT, sint, 0);
    keep(hvpm_read_slot(&machine, by, sint, &reply, line, sizeof line), line);
    explain(by, HVPM_READ_SLOT, sint, 0);
}

static void clear_slot(hvpm_caller by, uint8_t sint) {
    char line[HVPM_LINE];
    record(by, HVPM_CLEAR_SLOT, sint, 0);
    keep(hvpm_clear_slot(&machine, by, sint, &reply, line, sizeof line), line);
    explain(by, HVPM_CLEAR_SLOT, sint, 0);
}

static void read_flags(hvpm_caller by, uint8_t sint) {
    char line[HVPM_LINE];
    record(by, HVPM_READ_FLAGS, sint, 0);
    keep(hvpm_read_flags(&machine, by, sint, &reply, line, sizeof line), line);
    explain(by, HVPM_READ_FLAGS, sint, 0);
}

static void clear_flag(hvpm_caller by, uint8_t sint, uint16_t flag) {
    char line[HVPM_LINE];
    record(by, HVPM_CLEAR_FLAG, sint, flag);
    keep(hvpm_clear_flag(&machine, by, sint, flag, &reply, line, sizeof line), line);
    explain(by, HVPM_CLEAR_FLAG, sint, flag);
}

static void take_interrupt(hvpm_caller by) {
    char line[HVPM_LINE];
    record(by, HVPM_TAKE_INTERRUPT, 0, 0);
    keep(hvpm_take_interrupt(&machine, by, &reply, line, sizeof line), line);
    explain(by, HVPM_TAKE_INTERRUPT, 0, 0);
}

/* A rep call's RCX: its code and how many elements there are. */
static uint64_t rep(uint64_t code, uint64_t count) {
    return count << 32 | code;
}

/* A call whose input list is so many words of 8 bytes. */
static void call_with(hvpm_caller by, uint64_t rcx, uint64_t rdx, const uint64_t *words, size_t count) {
    uint8_t input[80];
    for (size_t i = 0; i < count; i++) hvpm_put(input + 8 * i, words[i], 8);
    call(by, rcx, rdx, 0, input, 8 * count);
}

/*
 * Partition 2 is made, gets 8 pages and processor 1, posts to processor 1.1 and signals it. Each call and
 * access is there, with and without input, fast, in elements, denied and at fault, and by a processor that
 * isn't there.
 */
static void run(void) {
    static const hvpm_config config = {0xf700000047, 64, 40, 2};
    static const uint64_t partition[] = {2};
    static const uint64_t deposit[] = {2, 50, 51, 52, 53, 54, 55, 56, 57};
    static const uint64_t ports[2][6] = {{1, 2, 2, 1, UINT64_C(1) << 32 | 2, 0},
                                         {1, 3, 2, 2, UINT64_C(1) << 32 | 3, UINT64_C(8) << 16}};
    static const uint64_t links[2][6] = {{2, 1, 1, 2, 1, 0}, {2, 2, 1, 3, 2, 0}};
    static const uint64_t message[] = {1, UINT64_C(3) << 32 | 5, 0x656e6f};
    static const uint64_t property[] = {2, HVPM_PRIVILEGE_FLAGS, 0xb100000044};
    static const uint64_t registers[] = {2, 1, UINT64_C(0x00020001) << 32 | 0x00020000, 0x00020002};
    holds("boot", hvpm_boot(&machine, &config) == HVPM_STATUS_OK);
    fprintf(script, "boot %" PRIu32 " %" PRIu32 " %" PRIu32 " 0x%" PRIx64 " %" PRIu32 "\n", config.pages,
            config.pool, config.vps, config.mask, UINT32_MAX);
    call(root, 0x40, 0, 0x1000, NULL, 0);
    call_with(root, 0x45, 0, property, 3);
    call_with(root, 0x41, 0x2000, partition, 1);
    call_with(root, rep(0x48, 8), 0x3000, deposit, 9);
    call(root, 0x1004E, 2, 1, NULL, 0);
    for (size_t i = 0; i < 2; i++) {
        call_with(root, 0x95, 0, ports[i], 6);
        call_with(root, 0x96, 0, links[i], 6);
    }
    call(guest, 0x46, 0, 0x5000, NULL, 0);
    write_msr(second, 0x40000080, 1);
    write_msr(second, 0x40000082, 1);
    write_msr(second, 0x40000083, 1);
    write_msr(second, 0x40000092, 0x32);
    write_msr(second, 0x40000093, 0x33);
    call_with(guest, 0x5C, 0, message, 3);
    call_with(guest, 0x5C, 0, message, 3);
    call(guest, 0x1005D, UINT64_C(5) << 32 | 2, 0, NULL, 0);
    read_slot(second, 2);
    read_flags(second, 3);
    clear_flag(second, 3, 5);
    take_interrupt(second);
    write_msr(second, 0x40000084, 0);
    clear_slot(second, 2);
    write_msr(second, 0x40000084, 0);
    take_interrupt(second);
    take_interrupt(second);
    read_msr(second, 0x40000093);
    call_with(root, rep(0x50, 3), 0, registers, 4);
    call_with(root, rep(0x49, 1), 0, partition, 1);
    /* What is refused, and what isn't there. */
    call(root, 0x4B, UINT64_MAX, UINT64_MAX, NULL, 0);
    call_with(root, rep(0x49, 2) | UINT64_C(1) << 48, 0, partition, 1);
    call(guest, 0x40, 0, 0, NULL, 0);
    call(nobody, 0x46, 0, 0, NULL, 0);
    read_msr(root, 0x40000000);
    read_slot(root, 16);
    clear_slot(root, 255);
    clear_flag(root, 3, 65535);
    write_msr(root, UINT32_MAX, UINT64_MAX);
    take_interrupt(nobody);
    fprintf(audit, "events %" PRIu64 "\n", machine.events);
    holds("how many events there are", machine.events == 49);
    hvpm_destroy(&machine);
}

/* ---- The texts ---- */

/* The line of a call, with just as much room as it takes, with a byte less, and with none. */
static void is_call(hvpm_caller by, hvpm_registers registers, const void *input, size_t input_len,
                    const char *wanted) {
    char text[HVPM_CALL_LINE];
    const size_t size = strlen(wanted);
    size_t len = 0;
    memset(text, 0x5A, sizeof text);
    holds("a call's length",
          hvpm_hypercall_line(by, &registers, input, input_len, NULL, 0, &len) == HVPM_STATUS_SHORT &&
              len == size);
    len = 0;
    holds("a byte less for a call",
          hvpm_hypercall_line(by, &registers, input, input_len, text, size - 1, &len) == HVPM_STATUS_SHORT &&
              len == size);
    holds("nothing is written of a call", text[0] == 0x5A && memcmp(text, text + 1, sizeof text - 1) == 0);
    holds("a call",
          hvpm_hypercall_line(by, &registers, input, input_len, text, size, &len) == HVPM_STATUS_OK &&
              len == size);
    if (memcmp(text, wanted, size) != 0) fprintf(stderr, "%.*s, wanted %s", (int)len, text, wanted);
    holds("its line", memcmp(text, wanted, size) == 0 && (size == sizeof text || text[size] == 0x5A));
}

static void calls(void) {
    static uint8_t input[5000];
    static const hvpm_caller last = {UINT64_MAX, UINT32_MAX};
    /* HvSetVpRegisters with 4,095 registers, and all reserved bits. */
    static const hvpm_registers most = {UINT64_C(0xFFFFFFFFFFFE0051), UINT64_MAX, UINT64_MAX};
    static const char head[] =
        "18446744073709551615.4294967295 call 0xfffffffffffe0051 0xffffffffffffffff 0xffffffffffffffff ";
    static const hvpm_registers id = {0x46, 0, 0}, create = {0x40, 0, 0}, fast = {0x1004E, 2, 1},
                                deposit = {UINT64_C(0x600000048), 0x3000, 0};
    char wanted[HVPM_CALL_LINE + 1];
    is_call(root, id, NULL, 0, "1.0 call 0x46 0x0 0x0 -\n");
    is_call(guest, fast, NULL, 0, "2.1 call 0x1004e 0x2 0x1 -\n");
    is_call(root, deposit, "\x02\x00\xAB", 3,
            "1.0 call 0x600000048 0x3000 0x0 0200ab\n");
    /* No byte but those of the list. */
    is_call(root, id, "\x02", 1, "1.0 call 0x46 0x0 0x0 -\n");
    is_call(guest, fast, "\x02", 1, "2.1 call 0x1004e 0x2 0x1 -\n");
    is_call(root, create, "\1\2\3\4\5\6\7\x08\x09", 9, "1.0 call 0x40 0x0 0x0 0102030405060708\n");
    /* The longest ones: of an input list there are at most 4,096 bytes. */
    snprintf(wanted, sizeof wanted, "%s-\n", head);
    holds("the longest line without input", strlen(wanted) == HVPM_EVENT_LINE);
    is_call(last, most, NULL, 0, wanted);
    memset(input, 0xFE, sizeof input);
    char *end = wanted + sizeof head - 1;
    for (size_t i = 0; i < 4096; i++) end += sprintf(end, "fe");
    sprintf(end, "\n");
    holds("the longest line", strlen(wanted) == HVPM_CALL_LINE - 1);
    is_call(last, most, input, 4096, wanted);
    is_call(last, most, input, 4097, wanted);
    is_call(last, most, input, sizeof input, wanted);
}

static void is_access(hvpm_caller by, uint32_t access, uint32_t number, uint64_t value, const char *wanted) {
    char text[HVPM_EVENT_LINE];
    const size_t size = strlen(wanted);
    size_t len = 0;
    memset(text, 0x5A, sizeof text);
    holds("an access's length",
          hvpm_access_line(by, access, number, value, NULL, 0, &len) == HVPM_STATUS_SHORT && len == size);
    len = 0;
    holds("a byte less for an access",
          hvpm_access_line(by, access, number, value, text, size - 1, &len) == HVPM_STATUS_SHORT &&
              len == size);
    holds("nothing is written of an access", text[0] == 0x5A && memcmp(text, text + 1, sizeof text - 1) == 0);
    holds("an access",
          hvpm_access_line(by, access, number, value, text, size, &len) == HVPM_STATUS_OK && len == size);
    if (memcmp(text, wanted, size) != 0) fprintf(stderr, "%.*s, wanted %s", (int)len, text, wanted);
    holds("its line", memcmp(text, wanted, size) == 0 && text[size] == 0x5A);
}

static void is_no_access(uint32_t access, uint32_t number, uint64_t value) {
    char text[HVPM_EVENT_LINE];
    size_t len = 9;
    memset(text, 0x5A, sizeof text);
    holds("there is no such access",
          hvpm_access_line(root, access, number, value, text, sizeof text, &len) == HVPM_STATUS_NONE &&
              len == 9);
    holds("nothing is written of no access", text[0] == 0x5A && memcmp(text, text + 1, sizeof text - 1) == 0);
}

static void accesses(void) {
    static const hvpm_caller last = {UINT64_MAX, UINT32_MAX};
    is_access(root, HVPM_READ_MSR, 0x40000092, 7, "1.0 rdmsr 0x40000092\n");
    is_access(root, HVPM_WRITE_MSR, 0x40000092, 0x32, "1.0 wrmsr 0x40000092 0x32\n");
    is_access(last, HVPM_WRITE_MSR, UINT32_MAX, UINT64_MAX,
              "18446744073709551615.4294967295 wrmsr 0xffffffff 0xffffffffffffffff\n");
    is_access(guest, HVPM_READ_SLOT, 2, 7, "2.1 slot 2\n");
    is_access(guest, HVPM_CLEAR_SLOT, 255, 7, "2.1 clearslot 255\n");
    is_access(guest, HVPM_READ_FLAGS, 0, 7, "2.1 flags 0\n");
    is_access(guest, HVPM_CLEAR_FLAG, 3, 65535, "2.1 clearflag 3 65535\n");
    is_access(guest, HVPM_CLEAR_FLAG, 255, 0, "2.1 clearflag 255 0\n");
    is_access(root, HVPM_TAKE_INTERRUPT, 7, 7, "1.0 interrupt\n");
    is_no_access(7, 0, 0);
    is_no_access(UINT32_MAX, 0, 0);
    is_no_access(HVPM_READ_SLOT, 256, 0);
    is_no_access(HVPM_CLEAR_SLOT, 256, 0);
    is_no_access(HVPM_READ_FLAGS, UINT32_MAX, 0);
    is_no_access(HVPM_CLEAR_FLAG, 256, 0);
    is_no_access(HVPM_CLEAR_FLAG, 0, 65536);
}

int main(int argc, char **argv) {
    if (argc != 4) return 2;
    script = fopen(argv[1], "wb");
    audit = fopen(argv[2], "wb");
    words = fopen(argv[3], "wb");
    if (!script || !audit || !words) return 1;
    run();
    calls();
    accesses();
    holds("the files are written", fclose(script) == 0 && fclose(audit) == 0 && fclose(words) == 0);
    return wrong;
}
