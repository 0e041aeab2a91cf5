/*
 * Linked with a C program over the library, whose calls the linker leads here (`-Wl,--wrap`): each buffer
 * that the program gives the library is moved to the end of a page behind which there is none. A byte that
 * the library reads or writes past its end ends the process by a signal.
 */
#include "hvpm.h"
#include <stdlib.h>
#include <string.h>
#include <sys/mman.h>
#include <unistd.h>

struct guarded {
    uint8_t *at; /* the copy: its last byte is the last that is there */
    uint8_t *pages;
    size_t size, all;
};

static struct guarded guard(const void *bytes, size_t size) {
    const size_t page = (size_t)sysconf(_SC_PAGESIZE), all = (size / page + 2) * page;
    uint8_t *const pages = mmap(NULL, all, PROT_READ | PROT_WRITE, MAP_PRIVATE | MAP_ANONYMOUS, -1, 0);
    if (pages == MAP_FAILED || mprotect(pages + all - page, page, PROT_NONE) != 0) abort();
    uint8_t *const at = pages + all - page - size;
    if (size > 0) memcpy(at, bytes, size);
    return (struct guarded){at, pages, size, all};
}

static void let_go(struct guarded copy) {
    if (munmap(copy.pages, copy.all) != 0) abort();
}

/* The bytes go back to where they came from. */
static void put_back(struct guarded copy, void *to) {
    if (copy.size > 0) memcpy(to, copy.at, copy.size);
    let_go(copy);
}

#define WRAPS(name) extern __typeof__(name) __real_##name, __wrap_##name
WRAPS(hv_embed_hypercall);
WRAPS(hv_embed_run);
WRAPS(hv_embed_peek_slot);
WRAPS(hv_embed_peek_flags);
WRAPS(hv_embed_table);
WRAPS(hv_embed_hypercall_line);
WRAPS(hv_embed_access_line);
WRAPS(hv_embed_explain);
WRAPS(hv_embed_explain_access);

uint32_t __wrap_hv_embed_hypercall(hvpm_machine *machine, hvpm_caller by, const hvpm_registers *registers,
                                   const uint8_t *input, size_t input_len, hvpm_reply *reply, uint8_t *line,
                                   size_t line_size) {
    const struct guarded in = guard(input, input_len), out = guard(line, line_size),
                         told = guard(reply, sizeof *reply);
    const uint32_t status = __real_hv_embed_hypercall(machine, by, registers, in.at, input_len,
                                                      (hvpm_reply *)(void *)told.at, out.at, line_size);
    let_go(in), put_back(out, line), put_back(told, reply);
    return status;
}

uint32_t __wrap_hv_embed_run(hvpm_machine *machine, hvpm_caller by, const hvpm_registers *registers,
                             const uint8_t *input, size_t input_len, uint32_t most, hvpm_reply *reply,
                             uint8_t *outputs, size_t outputs_size, hvpm_run_done *done) {
    const struct guarded in = guard(input, input_len), out = guard(outputs, outputs_size),
                         told = guard(reply, sizeof *reply);
    const uint32_t status =
        __real_hv_embed_run(machine, by, registers, in.at, input_len, most, (hvpm_reply *)(void *)told.at,
                            out.at, outputs_size, done);
    let_go(in), put_back(out, outputs), put_back(told, reply);
    return status;
}

uint32_t __wrap_hv_embed_peek_slot(hvpm_machine *machine, hvpm_caller of, uint8_t sint, uint8_t *bytes) {
    const struct guarded out = guard(bytes, 256);
    const uint32_t status = __real_hv_embed_peek_slot(machine, of, sint, out.at);
    put_back(out, bytes);
    return status;
}

uint32_t __wrap_hv_embed_peek_flags(hvpm_machine *machine, hvpm_caller of, uint8_t sint, uint8_t *bytes) {
    const struct guarded out = guard(bytes, 256);
    const uint32_t status = __real_hv_embed_peek_flags(machine, of, sint, out.at);
    put_back(out, bytes);
    return status;
}

uint32_t __wrap_hv_embed_table(hvpm_machine *machine, uint8_t *text, size_t text_size, size_t *len) {
    const struct guarded out = guard(text, text_size);
    const uint32_t status = __real_hv_embed_table(machine, out.at, text_size, len);
    put_back(out, text);
    return status;
}

uint32_t __wrap_hv_embed_hypercall_line(hvpm_caller by, const hvpm_registers *registers, const uint8_t *input,
                                        size_t input_len, uint8_t *text, size_t text_size, size_t *len) {
    const struct guarded in = guard(input, input_len), out = guard(text, text_size);
    const uint32_t status =
        __real_hv_embed_hypercall_line(by, registers, in.at, input_len, out.at, text_size, len);
    let_go(in), put_back(out, text);
    return status;
}

uint32_t __wrap_hv_embed_access_line(hvpm_caller by, uint32_t access, uint32_t number, uint64_t value,
                                     uint8_t *text, size_t text_size, size_t *len) {
    const struct guarded out = guard(text, text_size);
    const uint32_t status =
        __real_hv_embed_access_line(by, access, number, value, out.at, text_size, len);
    put_back(out, text);
    return status;
}

uint32_t __wrap_hv_embed_explain(hvpm_machine *machine, hvpm_caller by, const hvpm_registers *registers,
                                 const uint8_t *input, size_t input_len, const hvpm_reply *reply,
                                 uint8_t *text, size_t text_size, size_t *len) {
    const struct guarded in = guard(input, input_len), out = guard(text, text_size),
                         told = guard(reply, sizeof *reply);
    const uint32_t status =
        __real_hv_embed_explain(machine, by, registers, in.at, input_len,
                                (const hvpm_reply *)(const void *)told.at, out.at, text_size, len);
    let_go(in), put_back(out, text), let_go(told);
    return status;
}

uint32_t __wrap_hv_embed_explain_access(hvpm_machine *machine, hvpm_caller by, uint32_t access, uint32_t number,
                                        uint64_t value, const hvpm_reply *reply, uint8_t *text,
                                        size_t text_size, size_t *len) {
    const struct guarded out = guard(text, text_size), told = guard(reply, sizeof *reply);
    const uint32_t status =
        __real_hv_embed_explain_access(machine, by, access, number, value,
                                       (const hvpm_reply *)(const void *)told.at, out.at, text_size, len);
    put_back(out, text), let_go(told);
    return status;
}
