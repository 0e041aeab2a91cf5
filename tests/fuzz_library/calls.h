/*
 * The calls for fuzz.c: their lists as docs/POLICY.md lays them out, and what bytes of an input mean.
 */
#ifndef CALLS_H
#define CALLS_H

#include "machines.h"

/* ---- Bytes. Missing ones are zeros ---- */

static const uint8_t *at, *end;

static uint64_t take(size_t size) {
    uint64_t number = 0;
    for (size_t i = 0; i < size && at < end; i++) number |= (uint64_t)*at++ << 8 * i;
    return number;
}

/* A byte, or after 0xFF a number of so many bytes. */
static uint64_t take_number(size_t size) {
    const uint64_t byte = take(1);
    return byte < 0xFF ? byte : take(size);
}

/* ---- The calls ---- */

/* A field: its place in the list, and what it is: (p)artition, (v)p, (k)ind of a property, its value or
 * (m)ask, (f)lag or number of flags, or another (n)umber. */
typedef struct field {
    uint8_t at, size;
    char is;
} field;

/* A call as docs/POLICY.md lays out its list: the length without elements, and that of an element. */
static const struct row {
    uint16_t code;
    uint8_t len, element;
    bool is_fast;
    uint8_t fields;
    field field[8];
} rows[] = {
    {0x40, 8, 0, false, 1, {{0, 8, 'n'}}},
    {0x41, 16, 0, true, 1, {{0, 8, 'p'}}},
    {0x42, 16, 0, true, 1, {{0, 8, 'p'}}},
    {0x43, 16, 0, true, 1, {{0, 8, 'p'}}},
    {0x44, 16, 0, false, 2, {{0, 8, 'p'}, {8, 4, 'k'}}},
    {0x45, 24, 0, false, 3, {{0, 8, 'p'}, {8, 4, 'k'}, {16, 8, 'm'}}},
    {0x46, 0, 0, false, 0, {{0, 0, 0}}},
    {0x47, 16, 0, false, 2, {{0, 8, 'p'}, {8, 8, 'p'}}},
    {0x48, 8, 8, false, 1, {{0, 8, 'p'}}},
    {0x49, 8, 0, false, 1, {{0, 8, 'p'}}},
    {0x4A, 8, 0, false, 1, {{0, 8, 'p'}}},
    {0x4E, 16, 0, true, 2, {{0, 8, 'p'}, {8, 4, 'v'}}},
    {0x4F, 16, 0, true, 2, {{0, 8, 'p'}, {8, 4, 'v'}}},
    {0x50, 16, 4, false, 2, {{0, 8, 'p'}, {8, 4, 'v'}}},
    {0x51, 16, 32, false, 2, {{0, 8, 'p'}, {8, 4, 'v'}}},
    {0x58, 16, 0, true, 2, {{0, 8, 'p'}, {8, 4, 'n'}}},
    {0x5B, 16, 0, true, 2, {{0, 8, 'p'}, {8, 4, 'n'}}},
    {0x5C, 16, 0, false, 3, {{0, 4, 'n'}, {8, 4, 'n'}, {12, 4, 'n'}}},
    {0x5D, 16, 0, true, 2, {{0, 4, 'n'}, {4, 2, 'f'}}},
    {0x95, 48, 0, false, 8, {{0, 8, 'p'}, {8, 4, 'n'}, {16, 8, 'p'}, {24, 4, 'n'}, {32, 4, 'n'}, {36, 4, 'v'},
                             {40, 2, 'f'}, {42, 2, 'f'}}},
    {0x96, 48, 0, false, 5, {{0, 8, 'p'}, {8, 4, 'n'}, {16, 8, 'p'}, {24, 4, 'n'}, {32, 4, 'n'}}},
};
enum { CALLS = sizeof rows / sizeof *rows, ACCESSES = 7, ELEMENTS = 700 };

/* A call by its fields. */
typedef struct call {
    hvpm_caller by;
    const struct row *of;
    uint64_t value[8];
    uint16_t count, start;
    uint64_t element[ELEMENTS]; /* a page, or the name of a register */
    uint64_t set[ELEMENTS];     /* what a register is set to */
    uint8_t payload[256];
} call;

static bool is_rep(const call *it) {
    return it->of->code == 0x48 || it->of->code == 0x49 || it->of->code == 0x50 || it->of->code == 0x51;
}

/* Lays out the list of the elements from this one on, as many as fit in a page. Returns its length. */
static size_t lay_out(const call *it, size_t from, size_t count, uint8_t block[4096]) {
    size_t len = it->of->len;
    memset(block, 0, 4096);
    for (size_t i = 0; i < it->of->fields; i++)
        put(block + it->of->field[i].at, it->value[i], it->of->field[i].size);
    if (it->of->code == 0x5C) memcpy(block + len, it->payload, 240), len += 240;
    for (size_t i = 0; it->of->element && i < count && len + it->of->element <= 4096; i++) {
        put(block + len, it->element[from + i], it->of->element == 8 ? 8 : 4);
        if (it->of->code == 0x51) put(block + len + 16, it->set[from + i], 8);
        len += it->of->element;
    }
    return len;
}

/* The registers of a call, whose list is laid out. */
static hvpm_registers registers_of(const call *it, uint16_t count, uint16_t start, const uint8_t *block) {
    const uint64_t rcx = (uint64_t)start << 48 | (uint64_t)count << 32;
    if (!it->of->is_fast) return (hvpm_registers){rcx | it->of->code, 0, 0};
    return (hvpm_registers){rcx | 1 << 16 | it->of->code, number_at(block, 8), number_at(block + 8, 8)};
}

/* ---- What bytes mean ---- */

static uint64_t some_partition(void) {
    static const uint64_t some[] = {HVPM_SELF, 0, 9, 1ull << 32 | 2};
    const uint64_t byte = take(1);
    return byte < 0xFC ? byte % 16 : some[byte - 0xFC];
}

static uint32_t some_vp(void) {
    const uint32_t byte = (uint32_t)take(1);
    return byte == 0xFF ? HVPM_ANY_VP : byte == 0xFE ? 1u << 31 : byte;
}

static hvpm_caller some_caller(void) {
    const uint64_t byte = take(1);
    const uint32_t vp = (uint32_t)byte % 16;
    return (hvpm_caller){byte / 16 < 15 ? byte / 16 + 1 : 0, vp < 14 ? vp : 49 + vp};
}

/* Of a property: a number, or a mask that is that of the root without a bit. */
static uint64_t some_value(void) {
    const uint64_t byte = take(1);
    if (byte == 0xFF) return take(8);
    if (byte >= 0x80) return byte < 0xF0 ? byte : 10000 + take(2);
    return UINT64_C(0xf700000064) & ~(byte < 64 ? UINT64_C(1) << byte : 0);
}

static uint64_t some_field(char is) {
    static const uint32_t kinds[] = {HVPM_PRIVILEGE_FLAGS, HVPM_CPU_RESERVE, HVPM_CPU_CAP, HVPM_CPU_WEIGHT};
    uint64_t kind;
    switch (is) {
    case 'p': return some_partition();
    case 'v': return some_vp();
    case 'k': kind = take_number(4); return kind < 4 ? kinds[kind] : kind;
    case 'f': return take(2);
    case 'm': return some_value();
    default: return take_number(4);
    }
}

static uint32_t some_msr(void) {
    const uint32_t byte = (uint32_t)take(1);
    return byte == 0xFF ? (uint32_t)take(4) : 0x40000000 + byte;
}

static uint64_t some_msr_value(void) {
    const uint64_t byte = take(1);
    return byte == 0xFF ? take(8) : byte == 0xFE ? 0x10030 : byte == 0xFD ? 0x1001 : byte;
}

static uint32_t some_register(void) {
    static const uint32_t some[] = {0x000A0000, 0x000A0010, 0x00090000, 0x00020000, 0x00010000};
    const uint32_t byte = (uint32_t)take(1);
    return byte == 0xFF ? (uint32_t)take(4) : some[byte / 32 % 5] + byte % 32;
}

static uint16_t some_count(void) {
    static const uint16_t some[] = {127, 128, 256, 257, 511, 512, 600, 699};
    const uint16_t byte = (uint16_t)take(1);
    return byte < 8 ? byte + 1 : byte < 0xF8 ? byte % 8 : some[byte - 0xF8];
}

/* Elements that have bytes; those after them follow the last one. */
static void some_elements(call *to) {
    for (size_t i = 0; i < ELEMENTS && i < to->count; i++) {
        const bool is_read = i < 10 && at < end, is_page = to->of->code == 0x48;
        if (is_read) to->element[i] = is_page ? take_number(2) : some_register();
        else to->element[i] = i > 0 ? to->element[i - 1] + is_page : 0;
        to->set[i] = is_read && to->of->code == 0x51 ? some_msr_value() : i;
    }
}

static call *some_call(const struct row *of) {
    static call it;
    memset(&it, 0, offsetof(call, element));
    it.of = of, it.by = some_caller();
    for (size_t i = 0; i < of->fields; i++) it.value[i] = some_field(of->field[i].is);
    if (is_rep(&it)) {
        it.count = some_count();
        const uint16_t start = (uint16_t)take(1);
        it.start = start < 0x20 ? start : 0;
        some_elements(&it);
    }
    memset(it.payload, 0, sizeof it.payload);
    if (of->code == 0x5C)
        for (size_t i = 0; i < sizeof it.payload && i < it.value[2]; i++)
            it.payload[i] = (uint8_t)(it.value[2] + i);
    return &it;
}

#endif
