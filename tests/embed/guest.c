/*
 * The rules of include/hvpm_guest.h, with values from the TLFS: both calling conventions, also of fast and
 * rep calls on a machine, who may call, which lists a call has, the hypervisor's own MSRs, and CPUID. What is
 * wrong goes to standard error, and the status is then 1.
 */
#include "hvpm_guest.h"
#include <stdio.h>
#include <stdlib.h>
#include <string.h>

#define EACH(i, of) (size_t i = 0; i < sizeof of / sizeof *of; i++)

static hvpm_machine machine = HVPM_EMPTY;
static const hvpm_caller root = {1, 0};

static void holds(const char *what, bool is_so) {
    if (is_so) return;
    fprintf(stderr, "%s\n", what);
    exit(1);
}

/* ---- The conventions ---- */

/* A processor in the kernel of a guest. Each register has another value, with bits in its upper half. */
static hvpm_guest_cpu kernel(bool is_64_bit) {
    return (hvpm_guest_cpu){.rax = 0xA1A1A1A1000B005C, .rbx = 0xB2B2B2B200000002, .rcx = 0xC3C3C3C300003008,
                            .rdx = 0xD4D4D4D400010003, .rsi = 0xE5E5E5E500006010, .rdi = 0xF6F6F6F600000004,
                            .r8 = 0x0707070700008018,  .is_64_bit = is_64_bit,    .is_protected = true};
}

static bool is_cpu(hvpm_guest_cpu one, hvpm_guest_cpu other) {
    return one.rax == other.rax && one.rbx == other.rbx && one.rcx == other.rcx && one.rdx == other.rdx &&
           one.rsi == other.rsi && one.rdi == other.rdi && one.r8 == other.r8;
}

static void is_read(void) {
    hvpm_registers call;
    hvpm_guest_cpu cpu = kernel(true);
    holds("64 bits: RCX, RDX, R8",
          hvpm_guest_call(&cpu, &call) && call.rcx == 0xC3C3C3C300003008 && call.rdx == 0xD4D4D4D400010003 &&
              call.r8 == 0x0707070700008018);
    cpu = kernel(false);
    holds("32 bits may call", hvpm_guest_call(&cpu, &call));
    holds("32 bits: the input value is EDX:EAX", call.rcx == 0x00010003000B005C);
    holds("32 bits: the input list is EBX:ECX", call.rdx == 0x0000000200003008);
    holds("32 bits: the output list is EDI:ESI", call.r8 == 0x0000000400006010);
}

static void is_undefined(void) {
    for (uint8_t bits = 0; bits < 2; bits++) {
        hvpm_registers call = {1, 2, 3};
        for (uint8_t cpl = 0; cpl < 4; cpl++) {
            hvpm_guest_cpu cpu = kernel(bits != 0);
            cpu.cpl = cpl;
            holds("only CPL 0 may call", hvpm_guest_call(&cpu, &call) == (cpl == 0));
            if (cpl == 0) call = (hvpm_registers){1, 2, 3};
            holds("a call that is none isn't written", call.rcx == 1 && call.rdx == 2 && call.r8 == 3);
        }
    }
    hvpm_registers call = {1, 2, 3};
    hvpm_guest_cpu cpu = kernel(false);
    cpu.is_protected = false;
    holds("real mode can't call", !hvpm_guest_call(&cpu, &call) && call.rcx == 1);
}

static void is_answered(void) {
    const hvpm_registers call = {0x0002000300000048, 5, 6};
    hvpm_guest_cpu cpu = kernel(true), wanted = cpu;
    wanted.rax = 0x0000000300000013;
    hvpm_guest_return(&cpu, 0x0000000300000013);
    holds("64 bits: the result is RAX alone", is_cpu(cpu, wanted));
    cpu = wanted = kernel(false), wanted.rax = 0x13, wanted.rdx = 3;
    hvpm_guest_return(&cpu, 0x0000000300000013);
    holds("32 bits: the result is EDX:EAX alone", is_cpu(cpu, wanted));
    cpu = wanted = kernel(true), wanted.rcx = 0x0002000300000048;
    hvpm_guest_again(&cpu, &call);
    holds("64 bits: a call goes on by RCX alone", is_cpu(cpu, wanted));
    cpu = wanted = kernel(false), wanted.rax = 0x48, wanted.rdx = 0x00020003;
    hvpm_guest_again(&cpu, &call);
    holds("32 bits: a call goes on by EDX:EAX alone", is_cpu(cpu, wanted));
}

/* ---- Calls on a machine ---- */

/* One element of a call, as a VMM takes it that lets the guest call again. */
static uint32_t exit_at(hvpm_guest_cpu *cpu, const void *input, size_t len) {
    hvpm_registers call;
    hvpm_reply reply;
    holds("the root may call", hvpm_guest_call(cpu, &call));
    holds("a call is taken",
          hvpm_hypercall(&machine, root, &call, input, len, &reply, NULL, 0) == HVPM_STATUS_OK);
    call.rcx = hvpm_next(call.rcx, &reply);
    if (reply.kind == HVPM_REPLY_MORE) hvpm_guest_again(cpu, &call);
    else hvpm_guest_return(cpu, reply.result);
    return reply.kind;
}

static void is_fast(void) {
    hvpm_partition of;
    uint64_t index;
    hvpm_guest_cpu cpu = kernel(true);
    cpu.rcx = 0x1004E, cpu.rdx = 1, cpu.r8 = 7; /* HvCreateVp, processor 7 of the root */
    holds("a fast call of 64 bits", exit_at(&cpu, NULL, 0) == HVPM_REPLY_SERVED && cpu.rax == 0);
    cpu = kernel(false);
    cpu.rdx = 0, cpu.rax = 0x1004E, cpu.rbx = 0, cpu.rcx = 1, cpu.rdi = 0, cpu.rsi = 9;
    holds("a fast call of 32 bits", exit_at(&cpu, NULL, 0) == HVPM_REPLY_SERVED && cpu.rax == 0);
    holds("their processors", hvpm_peek_partition(&machine, 1, &of) == HVPM_STATUS_OK && of.vps == 3);
    holds("its second number",
          hvpm_peek_msr(&machine, (hvpm_caller){1, 9}, 0x40000002, &index) == HVPM_STATUS_OK && index == 9);
    cpu = kernel(false);
    cpu.rdx = 0, cpu.rax = 0x1004F, cpu.rbx = 1, cpu.rcx = 1, cpu.rdi = 0, cpu.rsi = 9;
    holds("EBX is the upper half of the first number",
          exit_at(&cpu, NULL, 0) == HVPM_REPLY_DENIED && cpu.rax == 0xD && cpu.rdx == 0);
}

static void is_rep(void) {
    /* HvDepositMemory: the root's pages 20 and 21, and one that isn't there */
    static const uint64_t input[] = {1, 20, 21, 99};
    hvpm_guest_cpu cpu = kernel(false);
    cpu.rdx = 3, cpu.rax = 0x48, cpu.rbx = cpu.rcx = cpu.rdi = cpu.rsi = 0;
    holds("the first of three", exit_at(&cpu, input, sizeof input) == HVPM_REPLY_MORE);
    holds("the start index is 1", cpu.rdx == 0x10003 && cpu.rax == 0x48 && cpu.rcx == 0);
    holds("the second of three", exit_at(&cpu, input, sizeof input) == HVPM_REPLY_MORE);
    holds("the start index is 2", cpu.rdx == 0x20003 && cpu.rax == 0x48);
    holds("the third is denied", exit_at(&cpu, input, sizeof input) == HVPM_REPLY_DENIED);
    holds("two are done", cpu.rdx == 2 && cpu.rax == 5);
}

/* ---- Lists ---- */

static void has_lists(void) {
    static const struct {
        uint16_t code;
        bool has_input, has_output;
    } rows[] = {{0x40, 1, 1}, {0x41, 1, 0}, {0x42, 1, 0}, {0x43, 1, 0}, {0x44, 1, 1}, {0x45, 1, 0},
                {0x46, 0, 1}, {0x47, 1, 1}, {0x48, 1, 0}, {0x49, 1, 1}, {0x4A, 1, 1}, {0x4E, 1, 0},
                {0x4F, 1, 0}, {0x50, 1, 1}, {0x51, 1, 0}, {0x58, 1, 0}, {0x5B, 1, 0}, {0x5C, 1, 0},
                {0x5D, 1, 0}, {0x95, 1, 0}, {0x96, 1, 0}, {0x00, 0, 0}, {0x4B, 0, 0}, {0x8001, 0, 0},
                {0x140, 0, 0}};
    for EACH(i, rows) {
        const hvpm_registers call = {UINT64_C(0x0001000200000000) | rows[i].code, 0, 0},
                             fast = {call.rcx | 0x10000, 0, 0};
        holds("an input list", hvpm_guest_has_input(&call) == rows[i].has_input);
        holds("an output list", hvpm_guest_has_output(&call) == rows[i].has_output);
        holds("a fast call has none", !hvpm_guest_has_input(&fast) && !hvpm_guest_has_output(&fast));
    }
    const hvpm_registers call = {0xFFFEFFFF00000048, 0, 0}; /* bits 63:60 are no part of the start index */
    holds("a list elsewhere", hvpm_guest_no_list(&call) == 0x00000FFE00000004);
}

/* ---- MSRs ---- */

enum { NO_PRIVILEGE = 64 };
static const uint64_t every = UINT64_MAX;

static void is_gated(void) {
    static const struct {
        uint32_t first, count, bit;
    } rows[] = {
        {0x10, 1, NO_PRIVILEGE},        {0x40000000, 2, 5},
        {0x40000002, 1, 6},             {0x40000003, 1, 7},
        {0x40000004, 12, NO_PRIVILEGE}, {0x40000010, 1, 0},
        {0x40000011, 15, NO_PRIVILEGE}, {0x40000020, 1, 1},
        {0x40000021, 1, NO_PRIVILEGE},  {0x40000022, 2, 11},
        {0x40000024, 76, NO_PRIVILEGE}, {0x40000070, 3, 4},
        {0x40000073, 13, NO_PRIVILEGE}, {0x40000080, 5, 2},
        {0x40000085, 11, NO_PRIVILEGE}, {0x40000090, 16, 2},
        {0x400000A0, 16, NO_PRIVILEGE}, {0x400000B0, 8, 3},
        {0x400000B8, 40, NO_PRIVILEGE}, {0x400000E0, 4, 8},
        {0x400000E4, 12, NO_PRIVILEGE}, {0x400000F0, 1, 10},
        {0x400000F1, 271, NO_PRIVILEGE},
    };
    for EACH(i, rows)
        for (uint32_t msr = rows[i].first; msr < rows[i].first + rows[i].count; msr++) {
            const uint64_t bit = rows[i].bit == NO_PRIVILEGE ? 0 : UINT64_C(1) << rows[i].bit;
            holds("the bit of an MSR", hvpm_guest_privilege(msr) == bit);
            holds("a mask with it", hvpm_guest_may(bit, msr));
            holds("a mask without it", hvpm_guest_may(~bit, msr) == (bit == 0));
        }
}

static void is_owned(void) {
    hvpm_guest guest = {.os_id = 0};
    uint64_t value = 77;
    for (uint32_t msr = 0x3FFFFFF0; msr < 0x40000200; msr++) {
        const bool is_machines = msr == 0x40000002 || (msr >= 0x40000080 && msr <= 0x40000084) ||
                                 (msr >= 0x40000090 && msr <= 0x4000009F);
        const bool is_kept = msr == 0x40000000 || msr == 0x40000001 || msr == 0x40000021 ||
                             msr == 0x40000073;
        const enum hvpm_guest_access wanted = is_machines ? HVPM_GUEST_MACHINE
                                              : is_kept   ? HVPM_GUEST_DONE
                                                          : HVPM_GUEST_OTHER;
        holds("a read", hvpm_guest_read_msr(&guest, 0, every, msr, &value) == wanted);
        holds("a write", hvpm_guest_write_msr(&guest, 0, every, msr, 0, false) == wanted);
        holds("a value", value == (is_kept ? 0 : 77));
        value = 77;
    }
    holds("the machine's own, whatever the mask",
          hvpm_guest_read_msr(&guest, 0, 0, 0x40000002, &value) == HVPM_GUEST_MACHINE &&
              hvpm_guest_write_msr(&guest, 0, 0, 0x40000084, 0, true) == HVPM_GUEST_MACHINE);
    holds("another's, by its bit",
          hvpm_guest_read_msr(&guest, 0, 1 << 1, 0x40000020, &value) == HVPM_GUEST_OTHER &&
              hvpm_guest_read_msr(&guest, 0, ~UINT64_C(2), 0x40000020, &value) == HVPM_GUEST_FAULT);
}

/* What a guest reads, or `none` where it gets #GP. */
static uint64_t read_msr(const hvpm_guest *guest, uint32_t vp, uint64_t mask, uint32_t msr, uint64_t none) {
    uint64_t value = none;
    (void)hvpm_guest_read_msr(guest, vp, mask, msr, &value);
    return value;
}

static void is_identity(void) {
    const uint64_t without = ~(UINT64_C(1) << 5), os = 0x8100000000060C00, page = 0x12345000;
    hvpm_guest guest = {.os_id = 0};
    holds("no write without bit 5",
          hvpm_guest_write_msr(&guest, 0, without, 0x40000000, os, true) == HVPM_GUEST_FAULT &&
              hvpm_guest_write_msr(&guest, 0, without, 0x40000001, page | 1, true) == HVPM_GUEST_FAULT &&
              guest.os_id == 0 && guest.hypercall == 0);
    holds("no read without it", read_msr(&guest, 0, without, 0x40000000, 77) == 77 &&
                                    read_msr(&guest, 0, without, 0x40000001, 77) == 77);
    holds("no page before the OS id",
          hvpm_guest_write_msr(&guest, 0, every, 0x40000001, page | 1, true) == HVPM_GUEST_DONE &&
              read_msr(&guest, 0, every, 0x40000001, 77) == page);
    holds("the OS id", hvpm_guest_write_msr(&guest, 3, every, 0x40000000, os, false) == HVPM_GUEST_DONE &&
                           read_msr(&guest, 9, every, 0x40000000, 77) == os);
    holds("the page",
          hvpm_guest_write_msr(&guest, 3, every, 0x40000001, page | 1, true) == HVPM_GUEST_CODE &&
              read_msr(&guest, 9, every, 0x40000001, 77) == (page | 1));
    holds("its code once more",
          hvpm_guest_write_msr(&guest, 3, every, 0x40000001, page | 1, true) == HVPM_GUEST_CODE);
    holds("a page outside memory",
          hvpm_guest_write_msr(&guest, 3, every, 0x40000001, 0xFFFFFFFFF001, false) == HVPM_GUEST_FAULT &&
              guest.hypercall == (page | 1));
    holds("bits 11:2 are kept",
          hvpm_guest_write_msr(&guest, 3, every, 0x40000001, page | 0xFFD, true) == HVPM_GUEST_CODE &&
              guest.hypercall == (page | 0xFFD) &&
              hvpm_guest_write_msr(&guest, 3, every, 0x40000001, page | 1, true) == HVPM_GUEST_CODE);
    holds("another OS id disables nothing",
          hvpm_guest_write_msr(&guest, 0, every, 0x40000000, 5, false) == HVPM_GUEST_DONE &&
              guest.hypercall == (page | 1));
    holds("an OS id of 0 does",
          hvpm_guest_write_msr(&guest, 0, every, 0x40000000, 0, false) == HVPM_GUEST_DONE &&
              read_msr(&guest, 0, every, 0x40000000, 77) == 0 && guest.hypercall == page);
    hvpm_guest_write_msr(&guest, 0, every, 0x40000000, os, false);
    holds("the OS id alone enables nothing", guest.hypercall == page);
    holds("a page that isn't enabled may be anywhere",
          hvpm_guest_write_msr(&guest, 0, every, 0x40000001, 0xFFFFFFFFF000, false) == HVPM_GUEST_DONE &&
              guest.hypercall == 0xFFFFFFFFF000);
}

static void is_locked(void) {
    hvpm_guest guest = {.os_id = 1};
    holds("a locked page",
          hvpm_guest_write_msr(&guest, 0, every, 0x40000001, 0x5003, true) == HVPM_GUEST_CODE);
    holds("stays", hvpm_guest_write_msr(&guest, 0, every, 0x40000001, 0x6001, true) == HVPM_GUEST_DONE &&
                       guest.hypercall == 0x5003);
    holds("wherever the other is",
          hvpm_guest_write_msr(&guest, 0, every, 0x40000001, 0xFFFFFFFFF001, false) == HVPM_GUEST_DONE &&
              guest.hypercall == 0x5003);
    holds("and is disabled by the OS id",
          hvpm_guest_write_msr(&guest, 0, every, 0x40000000, 0, true) == HVPM_GUEST_DONE &&
              guest.hypercall == 0x5002);
    hvpm_guest_write_msr(&guest, 0, every, 0x40000000, 1, true);
    holds("for good",
          hvpm_guest_write_msr(&guest, 0, every, 0x40000001, 0x5003, true) == HVPM_GUEST_DONE &&
              guest.hypercall == 0x5002);
}

static void is_assist(void) {
    hvpm_guest guest = {.os_id = 0};
    holds("a VP assist page, with any mask",
          hvpm_guest_write_msr(&guest, 0, 0, 0x40000073, 0x7001, false) == HVPM_GUEST_DONE &&
              hvpm_guest_write_msr(&guest, 63, 0, 0x40000073, 0x8001, false) == HVPM_GUEST_DONE);
    holds("a TSC page, with any mask",
          hvpm_guest_write_msr(&guest, 3, 0, 0x40000021, 0x9001, false) == HVPM_GUEST_DONE &&
              read_msr(&guest, 0, 0, 0x40000021, 77) == 0x9001 && guest.tsc_page == 0x9001);
    holds("each processor's own",
          read_msr(&guest, 0, 0, 0x40000073, 77) == 0x7001 && read_msr(&guest, 1, 0, 0x40000073, 77) == 0 &&
              read_msr(&guest, 63, 0, 0x40000073, 77) == 0x8001);
}

/* ---- CPUID ---- */

static void has_leaves(void) {
    static const uint32_t wanted[6][4] = {{0x40000005, 0x7263694D, 0x666F736F, 0x76482074},
                                          {0x31237648, 0, 0, 0},
                                          {20348, 0x000A0000, 0, 0},
                                          {0x64, 0x30, 0, 0},
                                          {0x200, 0xFFFFFFFF, 0, 0},
                                          {64, 64, 0, 0}};
    uint32_t regs[4];
    for (uint32_t i = 0; i < 6; i++)
        holds("a leaf", hvpm_guest_cpuid(0x40000000 + i, 0x3000000064, 0, regs) &&
                            memcmp(regs, wanted[i], sizeof regs) == 0);
    memset(regs, 1, sizeof regs);
    holds("no other leaf",
          !hvpm_guest_cpuid(0x40000006, every, 0, regs) && !hvpm_guest_cpuid(0x3FFFFFFF, every, 0, regs) &&
              !hvpm_guest_cpuid(1, every, 0, regs) && !hvpm_guest_cpuid(0xC0000000, every, 0, regs));
    holds("it isn't written", regs[0] == 0x01010101 && regs[3] == 0x01010101);
}

/* Leaf 3 announces what is served, of what the mask allows. */
static void is_announced(void) {
    static const struct {
        uint64_t mask;
        uint32_t served, low, high;
    } rows[] = {{UINT64_MAX, 0, 0x64, 0xFFFFFFFF},
                {UINT64_MAX, 0x202, 0x266, 0xFFFFFFFF},
                {0x3000000040, 0x202, 0x40, 0x30},
                {0x242, 0x202, 0x242, 0}};
    uint32_t regs[4];
    for EACH(i, rows)
        holds("what leaf 3 announces",
              hvpm_guest_cpuid(0x40000003, rows[i].mask, rows[i].served, regs) && regs[0] == rows[i].low &&
                  regs[1] == rows[i].high);
}

/* ---- Reference time ---- */

static void is_time(void) {
    static const uint8_t wanted[24] = {[0] = 7, [15] = 0x80, [16] = 0xFE, 0xFF, 0xFF, 0xFF, 0xFF, 0xFF, 0xFF, 0xFF};
    const uint64_t scale = hvpm_guest_tsc_scale(2000000000); /* 200 ticks a unit: 2^64 / 200 */
    uint8_t page[24];
    holds("the scale of 2 GHz", scale == 0x0147AE147AE147AE);
    holds("the scale of 20 MHz", hvpm_guest_tsc_scale(20000000) == UINT64_C(1) << 63);
    holds("no scale", hvpm_guest_tsc_scale(10000000) == 0 && hvpm_guest_tsc_scale(0) == 0);
    holds("the fastest TSC", hvpm_guest_tsc_scale(UINT64_MAX) == 10000000);
    holds("a second, less what the scale is rounded by",
          hvpm_guest_reference_time(2000000000, scale, 0) == 9999999);
    holds("an offset", hvpm_guest_reference_time(3000000000, scale, -9999999) == 5000000);
    holds("the largest TSC", hvpm_guest_reference_time(UINT64_MAX, UINT64_MAX, 2) == 0);
    hvpm_guest_tsc_page(7, UINT64_C(1) << 63, -2, page);
    holds("the page", memcmp(page, wanted, sizeof page) == 0);
}

int main(void) {
    static const hvpm_config config = {.mask = 0xf700000064, .pages = 32, .pool = 16, .vps = 1};
    is_read();
    is_undefined();
    is_answered();
    holds("boot", hvpm_boot(&machine, &config) == HVPM_STATUS_OK);
    is_fast();
    is_rep();
    hvpm_destroy(&machine);
    has_lists();
    is_gated();
    is_owned();
    is_identity();
    is_locked();
    is_assist();
    has_leaves();
    is_announced();
    is_time();
    return 0;
}
