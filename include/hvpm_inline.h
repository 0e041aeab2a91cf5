/*
 * The functions of hvpm.h, which includes this file. Each checks for null pointers and calls the library.
 * Functions that are always `static inline` are helpers, and no part of the interface.
 */
#ifndef HVPM_INLINE_H
#define HVPM_INLINE_H

/* Returns `at`, or a valid address if the buffer is empty: the library takes no null pointer. */
static inline uint8_t *hvpm_or_none(const void *at, size_t size) {
    static uint8_t none[1];
    return size == 0 ? none : (uint8_t *)(uintptr_t)at;
}

/* Returns whether a pointer that every event needs is null. `buffer` receives the line or the outputs. */
static inline bool hvpm_lacks(const hvpm_machine *machine, const hvpm_reply *reply, const void *buffer,
                              size_t size) {
    return !machine || !reply || (!buffer && size != 0);
}

/* Reads a little-endian number of 8 bytes. */
static inline uint64_t hvpm_number(const uint8_t *at) {
    uint64_t number = 0;
    for (size_t i = 0; i < 8; i++) number |= (uint64_t)at[i] << 8 * i;
    return number;
}

/* Stores the first 8 bytes of output in `*value` if the event has any. Returns `status`. */
static inline uint32_t hvpm_put_out(uint32_t status, const hvpm_reply *reply, uint64_t *value) {
    if (status == HVPM_STATUS_OK && reply->output_len >= 8) *value = hvpm_number(reply->output);
    return status;
}

HVPM_INLINE uint64_t hvpm_next(uint64_t rcx, const hvpm_reply *reply) {
    return (rcx & ~(UINT64_C(0xFFF) << 48)) | (uint64_t)reply->next << 48;
}

/* ---- Recording ---- */

/* Keeps what only a machine with a record needs out of the others' way. */
#define HVPM_COLD static __attribute__((cold, unused))

/* Makes room for more bytes at the end of a text. Returns whether there is. */
static inline bool hvpm_make_room(hvpm_text *text, size_t more) {
    if (text->size - text->len >= more) return true;
    const size_t size = 2 * (text->len + more);
    char *const at = (char *)__builtin_realloc(text->at, size);
    if (!at) return false;
    text->at = at, text->size = size;
    return true;
}

/* Returns the record of a machine, if its next event is recorded: there is room for the lines then, and
 * `input_len` bytes of an input list. */
static inline hvpm_record *hvpm_recording(const hvpm_machine *machine, size_t input_len) {
    hvpm_record *const record = machine->record;
    const size_t most = HVPM_CALL_LINE - HVPM_EVENT_LINE;
    if (!record || record->is_cut) return NULL;
    const size_t room = HVPM_EVENT_LINE + sizeof "phase" + (input_len < most / 2 ? 2 * input_len : most);
    record->is_cut = !hvpm_make_room(&record->script, room) || !hvpm_make_room(&record->audit, HVPM_LINE);
    return record->is_cut ? NULL : record;
}

/* Returns where the audit line of the next event goes, and how much room it has: in the record, which the
 * line is copied from, or in the caller's buffer. */
static inline uint8_t *hvpm_line_at(const hvpm_record *record, char *line, size_t *line_size) {
    if (!record) return hvpm_or_none(line, *line_size);
    if (*line_size == 0 || *line_size > HVPM_LINE) *line_size = HVPM_LINE;
    return (uint8_t *)record->audit.at + record->audit.len;
}

/* Keeps the audit line of an event, and gives it to a caller who asked for it. */
static inline void hvpm_keep(hvpm_record *record, hvpm_reply *reply, char *line, size_t line_size) {
    if (line_size != 0) __builtin_memcpy(line, record->audit.at + record->audit.len, reply->line_len);
    if (!record->is_cut) record->audit.len += reply->line_len;
    if (line_size == 0) reply->line_len = 0;
}

/* Writes a text and a number to the end of a text that has room. */
static inline void hvpm_put_number(hvpm_text *text, const char *before, uint64_t number, uint32_t base) {
    char digits[20];
    size_t count = 0;
    for (; *before; before++) text->at[text->len++] = *before;
    do digits[count++] = "0123456789abcdef"[number % base];
    while ((number /= base) != 0);
    while (count > 0) text->at[text->len++] = digits[--count];
}

static inline bool hvpm_is_caller(hvpm_caller one, hvpm_caller other) {
    return one.partition == other.partition && one.vp == other.vp;
}

/* Begins another phase of the script before the line of a 65th processor. */
static inline void hvpm_meet(hvpm_record *record, hvpm_caller by) {
    uint32_t at = 0;
    while (at < record->vps && !hvpm_is_caller(record->vp[at], by)) at++;
    if (at < record->vps) return;
    if (at == 64) {
        __builtin_memcpy(record->script.at + record->script.len, "phase\n", 6);
        record->script.len += 6, record->vps = 0;
    }
    record->vp[record->vps++] = by;
}

/* Writes the line of an access to the script. */
static inline bool hvpm_note_access(hvpm_record *record, hvpm_caller by, enum hvpm_access access,
                                    uint32_t number, uint64_t value) {
    hvpm_text *const to = &record->script;
    size_t len = 0;
    if (record->rep != 0) return false; /* it comes between the elements of a rep call */
    hvpm_meet(record, by);
    const uint32_t status = hv_embed_access_line(by, access, number, value, (uint8_t *)to->at + to->len,
                                                 HVPM_EVENT_LINE, &len);
    to->len += len;
    return status == HVPM_STATUS_OK;
}

/* Writes the line of a hypercall to the script, unless it goes on with the elements of the one before. Bytes
 * at the end of a list that are zero need not be written. */
static inline bool hvpm_note_call(hvpm_record *record, hvpm_caller by, const hvpm_registers *registers,
                                  const uint8_t *input, size_t input_len) {
    hvpm_text *const to = &record->script;
    size_t len = 0;
    if (record->rep != 0) return record->rep == registers->rcx && hvpm_is_caller(record->rep_by, by);
    while (input_len > 0 && input[input_len - 1] == 0) input_len--;
    hvpm_meet(record, by);
    const size_t room = to->size - to->len < HVPM_CALL_LINE ? to->size - to->len : HVPM_CALL_LINE;
    const uint32_t status = hv_embed_hypercall_line(by, registers, input, input_len,
                                                    (uint8_t *)to->at + to->len, room, &len);
    to->len += len;
    return status == HVPM_STATUS_OK;
}

/* Makes an access of a machine that has a record. */
HVPM_COLD uint32_t hvpm_make_access(hvpm_machine *machine, hvpm_caller by, enum hvpm_access access,
                                    uint32_t number, uint64_t value, hvpm_reply *reply, char *line,
                                    size_t line_size) {
    hvpm_record *const record = hvpm_recording(machine, 0);
    const uint8_t sint = (uint8_t)number;
    const uint16_t flag = (uint16_t)value;
    uint32_t status = HVPM_STATUS_NONE;
    size_t room = line_size;
    uint8_t *const at = hvpm_line_at(record, line, &room);
    switch (access) {
    case HVPM_READ_MSR: status = hv_embed_read_msr(machine, by, number, reply, at, room); break;
    case HVPM_WRITE_MSR: status = hv_embed_write_msr(machine, by, number, value, reply, at, room); break;
    case HVPM_READ_SLOT: status = hv_embed_read_slot(machine, by, sint, reply, at, room); break;
    case HVPM_CLEAR_SLOT: status = hv_embed_clear_slot(machine, by, sint, reply, at, room); break;
    case HVPM_READ_FLAGS: status = hv_embed_read_flags(machine, by, sint, reply, at, room); break;
    case HVPM_CLEAR_FLAG: status = hv_embed_clear_flag(machine, by, sint, flag, reply, at, room); break;
    case HVPM_TAKE_INTERRUPT: status = hv_embed_take_interrupt(machine, by, reply, at, room); break;
    }
    if (!record || status != HVPM_STATUS_OK) return status;
    record->is_cut = !hvpm_note_access(record, by, access, number, value);
    hvpm_keep(record, reply, line, line_size);
    return status;
}

/* Makes a hypercall of a machine that has a record. */
HVPM_COLD uint32_t hvpm_make_call(hvpm_machine *machine, hvpm_caller by, const hvpm_registers *registers,
                                  const void *input, size_t input_len, hvpm_reply *reply, char *line,
                                  size_t line_size) {
    hvpm_record *const record = hvpm_recording(machine, input_len);
    const uint8_t *const list = hvpm_or_none(input, input_len);
    size_t room = line_size;
    uint8_t *const at = hvpm_line_at(record, line, &room);
    const uint32_t status = hv_embed_hypercall(machine, by, registers, list, input_len, reply, at, room);
    if (!record || status != HVPM_STATUS_OK) return status;
    record->is_cut = !hvpm_note_call(record, by, registers, list, input_len);
    record->rep = reply->kind == HVPM_REPLY_MORE ? hvpm_next(registers->rcx, reply) : 0;
    record->rep_by = by;
    hvpm_keep(record, reply, line, line_size);
    return status;
}

/* Makes what hvpm_run_at_most() makes, by single events, of a machine that has a record. */
HVPM_COLD uint32_t hvpm_make_run(hvpm_machine *machine, hvpm_caller by, const hvpm_registers *registers,
                                 const void *input, size_t input_len, uint32_t most, hvpm_reply *reply,
                                 uint8_t *outputs, size_t outputs_size, hvpm_run_done *done) {
    hvpm_registers at = *registers;
    hvpm_run_done run = {0, 0};
    hvpm_reply last;
    do {
        const uint32_t status = hvpm_make_call(machine, by, &at, input, input_len, &last, NULL, 0);
        if (status != HVPM_STATUS_OK && run.events == 0) return status;
        if (status != HVPM_STATUS_OK) break;
        __builtin_memcpy(outputs + run.output_len, last.output, last.output_len);
        run.events++, run.output_len += last.output_len;
        at.rcx = hvpm_next(at.rcx, &last);
        *reply = last;
    } while (last.kind == HVPM_REPLY_MORE && run.events < most &&
             outputs_size - run.output_len >= HVPM_OUTPUT &&
             (last.effect.kind == HVPM_EFFECT_NOTHING || last.effect.kind == HVPM_EFFECT_PAGE));
    *done = run;
    return HVPM_STATUS_OK;
}

/* Writes the line of a boot to the script. */
HVPM_COLD void hvpm_note_boot(hvpm_record *record, const hvpm_config *config) {
    hvpm_text *const to = &record->script;
    hvpm_put_number(to, "boot ", config->pages, 10);
    hvpm_put_number(to, " ", config->pool, 10);
    hvpm_put_number(to, " ", config->vps, 10);
    hvpm_put_number(to, " 0x", config->mask, 16);
    hvpm_put_number(to, " ", UINT32_MAX, 10);
    to->at[to->len++] = '\n';
}

HVPM_INLINE void hvpm_record_free(hvpm_record *record) {
    if (!record) return;
    __builtin_free(record->script.at), __builtin_free(record->audit.at);
    __builtin_memset(record, 0, sizeof *record);
}

/* ---- Events ---- */

HVPM_INLINE uint32_t hvpm_boot(hvpm_machine *machine, const hvpm_config *config) {
    if (!machine || !config) return HVPM_STATUS_NULL;
    const uint32_t status = hv_embed_boot(machine, config);
    hvpm_record *const record = status == HVPM_STATUS_OK ? hvpm_recording(machine, 0) : NULL;
    if (record) hvpm_note_boot(record, config);
    return status;
}

HVPM_INLINE void hvpm_destroy(hvpm_machine *machine) {
    if (machine) hv_embed_destroy(machine);
}

HVPM_INLINE uint32_t hvpm_hypercall(hvpm_machine *machine, hvpm_caller by, const hvpm_registers *registers,
                                    const void *input, size_t input_len, hvpm_reply *reply, char *line,
                                    size_t line_size) {
    if (hvpm_lacks(machine, reply, line, line_size) || !registers || (!input && input_len != 0))
        return HVPM_STATUS_NULL;
    if (machine->record)
        return hvpm_make_call(machine, by, registers, input, input_len, reply, line, line_size);
    return hv_embed_hypercall(machine, by, registers, hvpm_or_none(input, input_len), input_len, reply,
                              hvpm_or_none(line, line_size), line_size);
}

HVPM_INLINE uint32_t hvpm_run_at_most(hvpm_machine *machine, hvpm_caller by, const hvpm_registers *registers,
                                      const void *input, size_t input_len, uint32_t most, hvpm_reply *reply,
                                      void *outputs, size_t outputs_size, hvpm_run_done *done) {
    if (hvpm_lacks(machine, reply, outputs, outputs_size) || !registers || !done ||
        (!input && input_len != 0))
        return HVPM_STATUS_NULL;
    if (machine->record && machine->live && outputs_size >= HVPM_OUTPUT && most != 0)
        return hvpm_make_run(machine, by, registers, input, input_len, most, reply, (uint8_t *)outputs,
                             outputs_size, done);
    return hv_embed_run(machine, by, registers, hvpm_or_none(input, input_len), input_len, most, reply,
                        hvpm_or_none(outputs, outputs_size), outputs_size, done);
}

HVPM_INLINE uint32_t hvpm_run(hvpm_machine *machine, hvpm_caller by, const hvpm_registers *registers,
                              const void *input, size_t input_len, hvpm_reply *reply, void *outputs,
                              size_t outputs_size, hvpm_run_done *done) {
    return hvpm_run_at_most(machine, by, registers, input, input_len, UINT32_MAX, reply, outputs,
                            outputs_size, done);
}

HVPM_INLINE uint32_t hvpm_read_msr(hvpm_machine *machine, hvpm_caller by, uint32_t msr, hvpm_reply *reply,
                                   char *line, size_t line_size) {
    if (hvpm_lacks(machine, reply, line, line_size)) return HVPM_STATUS_NULL;
    if (machine->record)
        return hvpm_make_access(machine, by, HVPM_READ_MSR, msr, 0, reply, line, line_size);
    return hv_embed_read_msr(machine, by, msr, reply, hvpm_or_none(line, line_size), line_size);
}

HVPM_INLINE uint32_t hvpm_read_msr_value(hvpm_machine *machine, hvpm_caller by, uint32_t msr, uint64_t *value,
                                         hvpm_reply *reply, char *line, size_t line_size) {
    if (!value) return HVPM_STATUS_NULL;
    return hvpm_put_out(hvpm_read_msr(machine, by, msr, reply, line, line_size), reply, value);
}

HVPM_INLINE uint32_t hvpm_write_msr(hvpm_machine *machine, hvpm_caller by, uint32_t msr, uint64_t value,
                                    hvpm_reply *reply, char *line, size_t line_size) {
    if (hvpm_lacks(machine, reply, line, line_size)) return HVPM_STATUS_NULL;
    if (machine->record)
        return hvpm_make_access(machine, by, HVPM_WRITE_MSR, msr, value, reply, line, line_size);
    return hv_embed_write_msr(machine, by, msr, value, reply, hvpm_or_none(line, line_size), line_size);
}

HVPM_INLINE uint32_t hvpm_read_slot(hvpm_machine *machine, hvpm_caller by, uint8_t sint, hvpm_reply *reply,
                                    char *line, size_t line_size) {
    if (hvpm_lacks(machine, reply, line, line_size)) return HVPM_STATUS_NULL;
    if (machine->record)
        return hvpm_make_access(machine, by, HVPM_READ_SLOT, sint, 0, reply, line, line_size);
    return hv_embed_read_slot(machine, by, sint, reply, hvpm_or_none(line, line_size), line_size);
}

HVPM_INLINE uint32_t hvpm_clear_slot(hvpm_machine *machine, hvpm_caller by, uint8_t sint, hvpm_reply *reply,
                                     char *line, size_t line_size) {
    if (hvpm_lacks(machine, reply, line, line_size)) return HVPM_STATUS_NULL;
    if (machine->record)
        return hvpm_make_access(machine, by, HVPM_CLEAR_SLOT, sint, 0, reply, line, line_size);
    return hv_embed_clear_slot(machine, by, sint, reply, hvpm_or_none(line, line_size), line_size);
}

HVPM_INLINE uint32_t hvpm_read_flags(hvpm_machine *machine, hvpm_caller by, uint8_t sint, hvpm_reply *reply,
                                     char *line, size_t line_size) {
    if (hvpm_lacks(machine, reply, line, line_size)) return HVPM_STATUS_NULL;
    if (machine->record)
        return hvpm_make_access(machine, by, HVPM_READ_FLAGS, sint, 0, reply, line, line_size);
    return hv_embed_read_flags(machine, by, sint, reply, hvpm_or_none(line, line_size), line_size);
}

HVPM_INLINE uint32_t hvpm_clear_flag(hvpm_machine *machine, hvpm_caller by, uint8_t sint, uint16_t flag,
                                     hvpm_reply *reply, char *line, size_t line_size) {
    if (hvpm_lacks(machine, reply, line, line_size)) return HVPM_STATUS_NULL;
    if (machine->record)
        return hvpm_make_access(machine, by, HVPM_CLEAR_FLAG, sint, flag, reply, line, line_size);
    return hv_embed_clear_flag(machine, by, sint, flag, reply, hvpm_or_none(line, line_size), line_size);
}

HVPM_INLINE uint32_t hvpm_take_interrupt(hvpm_machine *machine, hvpm_caller by, hvpm_reply *reply, char *line,
                                         size_t line_size) {
    if (hvpm_lacks(machine, reply, line, line_size)) return HVPM_STATUS_NULL;
    if (machine->record)
        return hvpm_make_access(machine, by, HVPM_TAKE_INTERRUPT, 0, 0, reply, line, line_size);
    return hv_embed_take_interrupt(machine, by, reply, hvpm_or_none(line, line_size), line_size);
}

/* ---- Typed hypercalls ---- */

/* Writes the low `size` bytes of a number, little-endian. `size` is at most 8. */
static inline void hvpm_put(uint8_t *at, uint64_t number, size_t size) {
    for (size_t i = 0; i < size; i++) at[i] = (uint8_t)(number >> 8 * i);
}

/*
 * Executes a hypercall with this input list. The list isn't in guest memory, so both addresses are 0, the
 * start of a page: P6 holds for every list that fits in a page.
 */
static inline uint32_t hvpm_call(hvpm_machine *machine, hvpm_caller by, uint64_t rcx, const uint8_t *input,
                                 size_t input_len, hvpm_reply *reply, char *line, size_t line_size) {
    const hvpm_registers registers = {rcx, 0, 0};
    return hvpm_hypercall(machine, by, &registers, input, input_len, reply, line, line_size);
}

/* Executes a fast hypercall, whose input is two numbers. */
static inline uint32_t hvpm_fast(hvpm_machine *machine, hvpm_caller by, uint16_t code, uint64_t first,
                                 uint64_t second, hvpm_reply *reply, char *line, size_t line_size) {
    const hvpm_registers registers = {UINT64_C(1) << 16 | code, first, second};
    return hvpm_hypercall(machine, by, &registers, NULL, 0, reply, line, line_size);
}

/* Returns RCX of a rep call. */
static inline uint64_t hvpm_rep(uint16_t code, uint16_t count, uint16_t start) {
    return (uint64_t)start << 48 | (uint64_t)count << 32 | code;
}

/* Returns how many elements fit in a page after the header. P5 or P6 refuses a call with more. */
static inline size_t hvpm_room(uint16_t count, size_t header, size_t element) {
    const size_t most = (4096 - header) / element;
    return count < most ? count : most;
}

HVPM_INLINE uint32_t hvpm_create_partition(hvpm_machine *machine, hvpm_caller by, uint64_t flags,
                                           uint64_t *partition, hvpm_reply *reply, char *line,
                                           size_t line_size) {
    uint8_t input[8];
    if (!partition) return HVPM_STATUS_NULL;
    hvpm_put(input, flags, 8);
    const uint32_t status = hvpm_call(machine, by, 0x40, input, sizeof input, reply, line, line_size);
    return hvpm_put_out(status, reply, partition);
}

HVPM_INLINE uint32_t hvpm_initialize_partition(hvpm_machine *machine, hvpm_caller by, uint64_t partition,
                                               hvpm_reply *reply, char *line, size_t line_size) {
    return hvpm_fast(machine, by, 0x41, partition, 0, reply, line, line_size);
}

HVPM_INLINE uint32_t hvpm_finalize_partition(hvpm_machine *machine, hvpm_caller by, uint64_t partition,
                                             hvpm_reply *reply, char *line, size_t line_size) {
    return hvpm_fast(machine, by, 0x42, partition, 0, reply, line, line_size);
}

HVPM_INLINE uint32_t hvpm_delete_partition(hvpm_machine *machine, hvpm_caller by, uint64_t partition,
                                           hvpm_reply *reply, char *line, size_t line_size) {
    return hvpm_fast(machine, by, 0x43, partition, 0, reply, line, line_size);
}

HVPM_INLINE uint32_t hvpm_get_partition_property(hvpm_machine *machine, hvpm_caller by, uint64_t partition,
                                                 uint32_t property, uint64_t *value, hvpm_reply *reply,
                                                 char *line, size_t line_size) {
    uint8_t input[16] = {0};
    if (!value) return HVPM_STATUS_NULL;
    hvpm_put(input, partition, 8);
    hvpm_put(input + 8, property, 4);
    const uint32_t status = hvpm_call(machine, by, 0x44, input, sizeof input, reply, line, line_size);
    return hvpm_put_out(status, reply, value);
}

HVPM_INLINE uint32_t hvpm_set_partition_property(hvpm_machine *machine, hvpm_caller by, uint64_t partition,
                                                 uint32_t property, uint64_t value, hvpm_reply *reply,
                                                 char *line, size_t line_size) {
    uint8_t input[24] = {0};
    hvpm_put(input, partition, 8);
    hvpm_put(input + 8, property, 4);
    hvpm_put(input + 16, value, 8);
    return hvpm_call(machine, by, 0x45, input, sizeof input, reply, line, line_size);
}

HVPM_INLINE uint32_t hvpm_get_partition_id(hvpm_machine *machine, hvpm_caller by, uint64_t *partition,
                                           hvpm_reply *reply, char *line, size_t line_size) {
    if (!partition) return HVPM_STATUS_NULL;
    return hvpm_put_out(hvpm_call(machine, by, 0x46, NULL, 0, reply, line, line_size), reply, partition);
}

HVPM_INLINE uint32_t hvpm_get_next_child_partition(hvpm_machine *machine, hvpm_caller by, uint64_t parent,
                                                   uint64_t previous, uint64_t *child, hvpm_reply *reply,
                                                   char *line, size_t line_size) {
    uint8_t input[16];
    if (!child) return HVPM_STATUS_NULL;
    hvpm_put(input, parent, 8);
    hvpm_put(input + 8, previous, 8);
    const uint32_t status = hvpm_call(machine, by, 0x47, input, sizeof input, reply, line, line_size);
    return hvpm_put_out(status, reply, child);
}

HVPM_INLINE uint32_t hvpm_deposit_memory(hvpm_machine *machine, hvpm_caller by, uint64_t partition,
                                         const uint64_t *pages, uint16_t count, uint16_t start,
                                         hvpm_reply *reply, char *line, size_t line_size) {
    uint8_t input[4096];
    const size_t room = hvpm_room(count, 8, 8);
    if (!pages && count != 0) return HVPM_STATUS_NULL;
    hvpm_put(input, partition, 8);
    for (size_t i = 0; i < room; i++) hvpm_put(input + 8 + 8 * i, pages[i], 8);
    return hvpm_call(machine, by, hvpm_rep(0x48, count, start), input, 8 + 8 * room, reply, line, line_size);
}

HVPM_INLINE uint32_t hvpm_withdraw_memory(hvpm_machine *machine, hvpm_caller by, uint64_t partition,
                                          uint64_t *pages, uint16_t count, uint16_t start, hvpm_reply *reply,
                                          char *line, size_t line_size) {
    uint8_t input[8];
    if (!pages && count != 0) return HVPM_STATUS_NULL;
    hvpm_put(input, partition, 8);
    const uint64_t rcx = hvpm_rep(0x49, count, start);
    const uint32_t status = hvpm_call(machine, by, rcx, input, sizeof input, reply, line, line_size);
    return start < count ? hvpm_put_out(status, reply, &pages[start]) : status;
}

HVPM_INLINE uint32_t hvpm_get_memory_balance(hvpm_machine *machine, hvpm_caller by, uint64_t partition,
                                             uint64_t *available, uint64_t *in_use, hvpm_reply *reply,
                                             char *line, size_t line_size) {
    uint8_t input[8];
    if (!available || !in_use) return HVPM_STATUS_NULL;
    hvpm_put(input, partition, 8);
    const uint32_t status = hvpm_call(machine, by, 0x4A, input, sizeof input, reply, line, line_size);
    if (status == HVPM_STATUS_OK && reply->output_len >= 16) *in_use = hvpm_number(reply->output + 8);
    return hvpm_put_out(status, reply, available);
}

HVPM_INLINE uint32_t hvpm_create_vp(hvpm_machine *machine, hvpm_caller by, uint64_t partition, uint32_t vp,
                                    hvpm_reply *reply, char *line, size_t line_size) {
    return hvpm_fast(machine, by, 0x4E, partition, vp, reply, line, line_size);
}

HVPM_INLINE uint32_t hvpm_delete_vp(hvpm_machine *machine, hvpm_caller by, uint64_t partition, uint32_t vp,
                                    hvpm_reply *reply, char *line, size_t line_size) {
    return hvpm_fast(machine, by, 0x4F, partition, vp, reply, line, line_size);
}

HVPM_INLINE uint32_t hvpm_get_vp_registers(hvpm_machine *machine, hvpm_caller by, uint64_t partition,
                                           uint32_t vp, hvpm_vp_register *registers, uint16_t count,
                                           uint16_t start, hvpm_reply *reply, char *line, size_t line_size) {
    uint8_t input[4096] = {0};
    const size_t room = hvpm_room(count, 16, 4);
    if (!registers && count != 0) return HVPM_STATUS_NULL;
    hvpm_put(input, partition, 8);
    hvpm_put(input + 8, vp, 4);
    for (size_t i = 0; i < room; i++) hvpm_put(input + 16 + 4 * i, registers[i].name, 4);
    const uint64_t rcx = hvpm_rep(0x50, count, start);
    const uint32_t status = hvpm_call(machine, by, rcx, input, 16 + 4 * room, reply, line, line_size);
    return start < count ? hvpm_put_out(status, reply, &registers[start].value) : status;
}

HVPM_INLINE uint32_t hvpm_set_vp_registers(hvpm_machine *machine, hvpm_caller by, uint64_t partition,
                                           uint32_t vp, const hvpm_vp_register *registers, uint16_t count,
                                           uint16_t start, hvpm_reply *reply, char *line, size_t line_size) {
    uint8_t input[4096] = {0};
    const size_t room = hvpm_room(count, 16, 32);
    if (!registers && count != 0) return HVPM_STATUS_NULL;
    hvpm_put(input, partition, 8);
    hvpm_put(input + 8, vp, 4);
    for (size_t i = 0; i < room; i++) {
        hvpm_put(input + 16 + 32 * i, registers[i].name, 4);
        hvpm_put(input + 32 + 32 * i, registers[i].value, 8);
    }
    return hvpm_call(machine, by, hvpm_rep(0x51, count, start), input, 16 + 32 * room, reply, line,
                     line_size);
}

HVPM_INLINE uint32_t hvpm_delete_port(hvpm_machine *machine, hvpm_caller by, uint64_t partition,
                                      uint32_t port, hvpm_reply *reply, char *line, size_t line_size) {
    return hvpm_fast(machine, by, 0x58, partition, port, reply, line, line_size);
}

HVPM_INLINE uint32_t hvpm_disconnect_port(hvpm_machine *machine, hvpm_caller by, uint64_t partition,
                                          uint32_t connection, hvpm_reply *reply, char *line,
                                          size_t line_size) {
    return hvpm_fast(machine, by, 0x5B, partition, connection, reply, line, line_size);
}

HVPM_INLINE uint32_t hvpm_post_message(hvpm_machine *machine, hvpm_caller by, uint32_t connection,
                                       uint32_t type, const void *payload, uint32_t payload_size,
                                       hvpm_reply *reply, char *line, size_t line_size) {
    uint8_t input[256] = {0};
    if (!payload && payload_size != 0) return HVPM_STATUS_NULL;
    hvpm_put(input, connection, 4);
    hvpm_put(input + 8, type, 4);
    hvpm_put(input + 12, payload_size, 4);
    if (payload_size != 0) __builtin_memcpy(input + 16, payload, payload_size < 240 ? payload_size : 240);
    return hvpm_call(machine, by, 0x5C, input, sizeof input, reply, line, line_size);
}

HVPM_INLINE uint32_t hvpm_signal_event(hvpm_machine *machine, hvpm_caller by, uint32_t connection,
                                       uint16_t flag, hvpm_reply *reply, char *line, size_t line_size) {
    return hvpm_fast(machine, by, 0x5D, (uint64_t)flag << 32 | connection, 0, reply, line, line_size);
}

HVPM_INLINE uint32_t hvpm_create_port(hvpm_machine *machine, hvpm_caller by, const hvpm_port *port,
                                      hvpm_reply *reply, char *line, size_t line_size) {
    uint8_t input[48] = {0};
    if (!port) return HVPM_STATUS_NULL;
    hvpm_put(input, port->partition, 8);
    hvpm_put(input + 8, port->id, 4);
    hvpm_put(input + 16, port->peer, 8);
    hvpm_put(input + 24, port->type, 4);
    hvpm_put(input + 32, port->sint, 4);
    hvpm_put(input + 36, port->vp, 4);
    hvpm_put(input + 40, port->base_flag, 2);
    hvpm_put(input + 42, port->flag_count, 2);
    return hvpm_call(machine, by, 0x95, input, sizeof input, reply, line, line_size);
}

HVPM_INLINE uint32_t hvpm_connect_port(hvpm_machine *machine, hvpm_caller by,
                                       const hvpm_connection *connection, hvpm_reply *reply, char *line,
                                       size_t line_size) {
    uint8_t input[48] = {0};
    if (!connection) return HVPM_STATUS_NULL;
    hvpm_put(input, connection->partition, 8);
    hvpm_put(input + 8, connection->id, 4);
    hvpm_put(input + 16, connection->port_partition, 8);
    hvpm_put(input + 24, connection->port, 4);
    hvpm_put(input + 32, connection->type, 4);
    return hvpm_call(machine, by, 0x96, input, sizeof input, reply, line, line_size);
}

/* Casts `const` away for the library, which writes nothing in a look. */
static inline hvpm_machine *hvpm_seen(const hvpm_machine *machine) {
    return (hvpm_machine *)(uintptr_t)machine;
}

/*
 * Executes elements of a list as a rep call of its own, whose output list begins a page. Adds how many were
 * served to `*made`, and returns whether to go on: all of them were, and none changed a processor. `*status`
 * changes if no element of the whole list was executed.
 */
static inline bool hvpm_part(hvpm_machine *machine, hvpm_caller by, uint16_t code, size_t count,
                             const uint8_t *input, size_t input_len, hvpm_reply *reply, uint8_t *outputs,
                             size_t outputs_size, size_t *made, uint32_t *status) {
    const hvpm_registers registers = {hvpm_rep(code, (uint16_t)count, 0), 0, 0};
    hvpm_run_done done;
    const uint32_t is =
        hvpm_run(machine, by, &registers, input, input_len, reply, outputs, outputs_size, &done);
    if (is != HVPM_STATUS_OK) {
        if (*made == 0) *status = is;
        return false;
    }
    const size_t served = done.events - (reply->kind == HVPM_REPLY_DENIED);
    *made += served;
    return served == count &&
           (reply->effect.kind == HVPM_EFFECT_NOTHING || reply->effect.kind == HVPM_EFFECT_PAGE);
}

static inline size_t hvpm_least(size_t a, size_t b) {
    return a < b ? a : b;
}

HVPM_INLINE uint32_t hvpm_deposit_pages(hvpm_machine *machine, hvpm_caller by, uint64_t partition,
                                        const uint64_t *pages, size_t count, size_t *made,
                                        hvpm_reply *reply) {
    uint8_t input[4096], none[HVPM_OUTPUT];
    uint32_t status = HVPM_STATUS_OK;
    size_t done = 0, part;
    if (!machine || !made || !reply || (!pages && count != 0)) return HVPM_STATUS_NULL;
    hvpm_put(input, partition, 8);
    do {
        part = hvpm_least(count - done, (sizeof input - 8) / 8);
        for (size_t i = 0; i < part; i++) hvpm_put(input + 8 + 8 * i, pages[done + i], 8);
    } while (hvpm_part(machine, by, 0x48, part, input, 8 + 8 * part, reply, none, sizeof none, &done,
                       &status) &&
             done < count);
    if (status == HVPM_STATUS_OK) *made = done;
    return status;
}

HVPM_INLINE uint32_t hvpm_withdraw_pages(hvpm_machine *machine, hvpm_caller by, uint64_t partition,
                                         uint64_t *pages, size_t count, size_t *made, hvpm_reply *reply) {
    uint8_t input[8], outputs[4096 + HVPM_OUTPUT];
    uint32_t status = HVPM_STATUS_OK;
    size_t done = 0, from;
    bool is_whole;
    if (!machine || !made || !reply || (!pages && count != 0)) return HVPM_STATUS_NULL;
    hvpm_put(input, partition, 8);
    do {
        from = done;
        is_whole = hvpm_part(machine, by, 0x49, hvpm_least(count - done, 4096 / 8), input, sizeof input,
                             reply, outputs, sizeof outputs, &done, &status);
        for (size_t i = 0; i < done - from; i++) pages[from + i] = hvpm_number(outputs + 8 * i);
    } while (is_whole && done < count);
    if (status == HVPM_STATUS_OK) *made = done;
    return status;
}

HVPM_INLINE uint32_t hvpm_read_registers(hvpm_machine *machine, hvpm_caller by, uint64_t partition,
                                         uint32_t vp, hvpm_vp_register *registers, size_t count,
                                         size_t *made, hvpm_reply *reply) {
    uint8_t input[16 + 4 * 256] = {0}, outputs[4096 + HVPM_OUTPUT];
    uint32_t status = HVPM_STATUS_OK;
    size_t done = 0, part, from;
    bool is_whole;
    if (!machine || !made || !reply || (!registers && count != 0)) return HVPM_STATUS_NULL;
    hvpm_put(input, partition, 8);
    hvpm_put(input + 8, vp, 4);
    do {
        from = done;
        part = hvpm_least(count - done, 4096 / 16);
        for (size_t i = 0; i < part; i++) hvpm_put(input + 16 + 4 * i, registers[from + i].name, 4);
        is_whole = hvpm_part(machine, by, 0x50, part, input, 16 + 4 * part, reply, outputs, sizeof outputs,
                             &done, &status);
        for (size_t i = 0; i < done - from; i++) registers[from + i].value = hvpm_number(outputs + 16 * i);
    } while (is_whole && done < count);
    if (status == HVPM_STATUS_OK) *made = done;
    return status;
}

HVPM_INLINE uint32_t hvpm_write_registers(hvpm_machine *machine, hvpm_caller by, uint64_t partition,
                                          uint32_t vp, const hvpm_vp_register *registers, size_t count,
                                          size_t *made, hvpm_reply *reply) {
    uint8_t input[4096] = {0}, none[HVPM_OUTPUT];
    uint32_t status = HVPM_STATUS_OK;
    size_t done = 0, part;
    if (!machine || !made || !reply || (!registers && count != 0)) return HVPM_STATUS_NULL;
    hvpm_put(input, partition, 8);
    hvpm_put(input + 8, vp, 4);
    do {
        part = hvpm_least(count - done, (sizeof input - 16) / 32);
        for (size_t i = 0; i < part; i++) {
            hvpm_put(input + 16 + 32 * i, registers[done + i].name, 4);
            hvpm_put(input + 32 + 32 * i, registers[done + i].value, 8);
        }
    } while (hvpm_part(machine, by, 0x51, part, input, 16 + 32 * part, reply, none, sizeof none, &done,
                       &status) &&
             done < count);
    if (status == HVPM_STATUS_OK) *made = done;
    return status;
}

HVPM_INLINE uint32_t hvpm_peek_slot(const hvpm_machine *machine, hvpm_caller of, uint8_t sint,
                                    uint8_t out[256]) {
    return machine && out ? hv_embed_peek_slot(hvpm_seen(machine), of, sint, out)
                          : (uint32_t)HVPM_STATUS_NULL;
}

HVPM_INLINE uint32_t hvpm_peek_flags(const hvpm_machine *machine, hvpm_caller of, uint8_t sint,
                                     uint8_t out[256]) {
    return machine && out ? hv_embed_peek_flags(hvpm_seen(machine), of, sint, out)
                          : (uint32_t)HVPM_STATUS_NULL;
}

HVPM_INLINE uint32_t hvpm_peek_msr(const hvpm_machine *machine, hvpm_caller of, uint32_t msr,
                                   uint64_t *value) {
    return machine && value ? hv_embed_peek_msr(hvpm_seen(machine), of, msr, value)
                            : (uint32_t)HVPM_STATUS_NULL;
}

HVPM_INLINE uint32_t hvpm_peek_pending(const hvpm_machine *machine, hvpm_caller of, uint64_t pending[4]) {
    return machine && pending ? hv_embed_peek_pending(hvpm_seen(machine), of, pending)
                              : (uint32_t)HVPM_STATUS_NULL;
}

HVPM_INLINE uint32_t hvpm_peek_partition(const hvpm_machine *machine, uint64_t id, hvpm_partition *out) {
    return machine && out ? hv_embed_peek_partition(hvpm_seen(machine), id, out) : (uint32_t)HVPM_STATUS_NULL;
}

HVPM_INLINE uint32_t hvpm_peek_port(const hvpm_machine *machine, uint64_t partition, uint32_t id,
                                    hvpm_port *out) {
    return machine && out ? hv_embed_peek_port(hvpm_seen(machine), partition, id, out)
                          : (uint32_t)HVPM_STATUS_NULL;
}

HVPM_INLINE uint32_t hvpm_peek_connection(const hvpm_machine *machine, uint64_t partition, uint32_t id,
                                          hvpm_connection *out) {
    return machine && out ? hv_embed_peek_connection(hvpm_seen(machine), partition, id, out)
                          : (uint32_t)HVPM_STATUS_NULL;
}

HVPM_INLINE uint32_t hvpm_child_after(const hvpm_machine *machine, uint64_t parent, uint64_t previous,
                                      uint64_t *child) {
    return machine && child ? hv_embed_child_after(hvpm_seen(machine), parent, previous, child)
                            : (uint32_t)HVPM_STATUS_NULL;
}

HVPM_INLINE uint32_t hvpm_page_owner(const hvpm_machine *machine, uint64_t page, uint64_t *owner) {
    return machine && owner ? hv_embed_page_owner(hvpm_seen(machine), page, owner)
                            : (uint32_t)HVPM_STATUS_NULL;
}

HVPM_INLINE uint32_t hvpm_vp_after(const hvpm_machine *machine, uint64_t partition, uint32_t previous,
                                   uint32_t *vp) {
    return machine && vp ? hv_embed_vp_after(hvpm_seen(machine), partition, previous, vp)
                         : (uint32_t)HVPM_STATUS_NULL;
}

HVPM_INLINE uint32_t hvpm_port_after(const hvpm_machine *machine, uint64_t partition, uint32_t previous,
                                     uint32_t *id) {
    return machine && id ? hv_embed_port_after(hvpm_seen(machine), partition, previous, id)
                         : (uint32_t)HVPM_STATUS_NULL;
}

HVPM_INLINE uint32_t hvpm_connection_after(const hvpm_machine *machine, uint64_t partition, uint32_t previous,
                                           uint32_t *id) {
    return machine && id ? hv_embed_connection_after(hvpm_seen(machine), partition, previous, id)
                         : (uint32_t)HVPM_STATUS_NULL;
}

HVPM_INLINE uint32_t hvpm_page_after(const hvpm_machine *machine, uint64_t partition, uint64_t previous,
                                     hvpm_page_run *run) {
    return machine && run ? hv_embed_page_after(hvpm_seen(machine), partition, previous, run)
                          : (uint32_t)HVPM_STATUS_NULL;
}

HVPM_INLINE uint32_t hvpm_features(const hvpm_machine *machine, uint64_t partition, uint32_t eax_to_edx[4]) {
    return machine && eax_to_edx ? hv_embed_features(hvpm_seen(machine), partition, eax_to_edx)
                                 : (uint32_t)HVPM_STATUS_NULL;
}

HVPM_INLINE uint32_t hvpm_table(const hvpm_machine *machine, char *text, size_t text_size, size_t *len) {
    if (!machine || !len || (!text && text_size != 0)) return HVPM_STATUS_NULL;
    return hv_embed_table(hvpm_seen(machine), hvpm_or_none(text, text_size), text_size, len);
}

HVPM_INLINE uint32_t hvpm_explain(const hvpm_machine *machine, hvpm_caller by, const hvpm_registers *registers,
                                  const void *input, size_t input_len, const hvpm_reply *reply, char *text,
                                  size_t text_size, size_t *len) {
    if (!machine || !registers || !reply || !len || (!input && input_len != 0) || (!text && text_size != 0))
        return HVPM_STATUS_NULL;
    return hv_embed_explain(hvpm_seen(machine), by, registers, hvpm_or_none(input, input_len), input_len, reply,
                            hvpm_or_none(text, text_size), text_size, len);
}

HVPM_INLINE uint32_t hvpm_explain_access(const hvpm_machine *machine, hvpm_caller by, uint32_t access,
                                         uint32_t number, uint64_t value, const hvpm_reply *reply, char *text,
                                         size_t text_size, size_t *len) {
    if (!machine || !reply || !len || (!text && text_size != 0)) return HVPM_STATUS_NULL;
    return hv_embed_explain_access(hvpm_seen(machine), by, access, number, value, reply,
                                   hvpm_or_none(text, text_size), text_size, len);
}

HVPM_INLINE bool hvpm_is_msr(uint32_t msr) {
    return hv_embed_is_msr(msr);
}

HVPM_INLINE bool hvpm_is_call(uint16_t code) {
    return hv_embed_is_call(code);
}

HVPM_INLINE uint32_t hvpm_hypercall_line(hvpm_caller by, const hvpm_registers *registers, const void *input,
                                         size_t input_len, char *text, size_t text_size, size_t *len) {
    if (!registers || !len || (!input && input_len != 0) || (!text && text_size != 0))
        return HVPM_STATUS_NULL;
    return hv_embed_hypercall_line(by, registers, hvpm_or_none(input, input_len), input_len,
                                   hvpm_or_none(text, text_size), text_size, len);
}

HVPM_INLINE uint32_t hvpm_access_line(hvpm_caller by, uint32_t access, uint32_t number, uint64_t value,
                                      char *text, size_t text_size, size_t *len) {
    if (!len || (!text && text_size != 0)) return HVPM_STATUS_NULL;
    return hv_embed_access_line(by, access, number, value, hvpm_or_none(text, text_size), text_size, len);
}

HVPM_INLINE uint32_t hvpm_version_number(void) {
    return HVPM_VERSION;
}

HVPM_INLINE const char *hvpm_version(void) {
#define HVPM_TEXT(number) #number
#define HVPM_DOTTED(major, minor, patch) HVPM_TEXT(major) "." HVPM_TEXT(minor) "." HVPM_TEXT(patch)
    return HVPM_DOTTED(HVPM_VERSION_MAJOR, HVPM_VERSION_MINOR, HVPM_VERSION_PATCH);
#undef HVPM_DOTTED
#undef HVPM_TEXT
}

/* Returns the name of a number, or "unknown" if the table has none. */
static inline const char *hvpm_named(const char *const *names, size_t count, uint32_t number) {
    return number < count && names[number] ? names[number] : "unknown";
}

HVPM_INLINE const char *hvpm_status_name(uint32_t status) {
    static const char *const names[] = {"HVPM_STATUS_OK",    "HVPM_STATUS_EMPTY",   "HVPM_STATUS_OCCUPIED",
                                        "HVPM_STATUS_SHORT", "HVPM_STATUS_USED_UP", "HVPM_STATUS_MEMORY",
                                        "HVPM_STATUS_PAGES", "HVPM_STATUS_POOL",    "HVPM_STATUS_VPS",
                                        "HVPM_STATUS_NULL",  "HVPM_STATUS_NONE"};
    return hvpm_named(names, sizeof names / sizeof *names, status);
}

HVPM_INLINE const char *hvpm_hv_status_name(uint32_t status) {
    switch (status) {
    case 0x0: return "HV_STATUS_SUCCESS";
    case 0x2: return "HV_STATUS_INVALID_HYPERCALL_CODE";
    case 0x3: return "HV_STATUS_INVALID_HYPERCALL_INPUT";
    case 0x4: return "HV_STATUS_INVALID_ALIGNMENT";
    case 0x5: return "HV_STATUS_INVALID_PARAMETER";
    case 0x6: return "HV_STATUS_ACCESS_DENIED";
    case 0x7: return "HV_STATUS_INVALID_PARTITION_STATE";
    case 0x9: return "HV_STATUS_UNKNOWN_PROPERTY";
    case 0xA: return "HV_STATUS_PROPERTY_VALUE_OUT_OF_RANGE";
    case 0xB: return "HV_STATUS_INSUFFICIENT_MEMORY";
    case 0xC: return "HV_STATUS_PARTITION_TOO_DEEP";
    case 0xD: return "HV_STATUS_INVALID_PARTITION_ID";
    case 0xE: return "HV_STATUS_INVALID_VP_INDEX";
    case 0x11: return "HV_STATUS_INVALID_PORT_ID";
    case 0x12: return "HV_STATUS_INVALID_CONNECTION_ID";
    case 0x13: return "HV_STATUS_INSUFFICIENT_BUFFERS";
    case 0x18: return "HV_STATUS_INVALID_SYNIC_STATE";
    case 0x19: return "HV_STATUS_OBJECT_IN_USE";
    case 0x1D: return "HV_STATUS_NO_RESOURCES";
    default: return "unknown";
    }
}

HVPM_INLINE const char *hvpm_rule_name(uint32_t rule) {
    static const char *const names[] = {NULL,  "P1",  "P2",  "P3",  "P4",  "P5",  "P6",  "P7",  "P8",  "P9",
                                        "P10", "P11", "P12", "P13", "P14", "P15", "P16", "P17", "P18", "P19",
                                        "P20", "P21", "P22", "P23", "P24", "P25", "P26", "P27"};
    return hvpm_named(names, sizeof names / sizeof *names, rule);
}

HVPM_INLINE const char *hvpm_rule_sentence(uint32_t rule) {
    static const char *const sentences[] = {
        NULL,
        "The caller's partition exists.",
        "The caller's partition is Active.",
        "The calling VP exists.",
        "The call code is one of the 21.",
        "Reserved bits are zero; fast only where allowed; simple call: count and start are 0; rep "
        "call: count >= 1, start < count.",
        "The call is fast, or each nonempty list is at a multiple of 8 and lies in one page.",
        "Each PortId and ConnectionId has its upper 8 bits zero (in all calls with such a field); "
        "HvCreatePort, HvConnectPort: PortType is 1 (messages) or 2 (event flags); HvCreatePort: "
        "TargetSint <= 15; for event flags FlagCount >= 1 and BaseFlagNumber + FlagCount <= 2,048 "
        "(not cut to 16 bits); HvPostMessage: MessageType isn't 0 and its bit 31 is clear, "
        "PayloadSize <= 240; HvSetVpRegisters: the upper 8 bytes of the event's own value are zero, "
        "whatever the other elements hold.",
        "The caller's mask has the call's privilege.",
        "The target exists.",
        "The target is the caller or a child of the caller, as the call allows.",
        "The property code is known.",
        "The target is in one of the life states that the call allows.",
        "The target has no children.",
        "The new partition's depth is at most 7.",
        "HvGetNextChildPartition: PreviousChildId is 0 or a child of the target; HvCreatePort: "
        "ConnectionPartition exists; HvConnectPort: PortPartition exists.",
        "HvDisconnectPort, HvPostMessage, HvSignalEvent: the target has the connection id; "
        "HvConnectPort: it is free there.",
        "HvDeletePort: the target has the port id; HvCreatePort: it is free there; HvConnectPort: "
        "PortPartition has it; HvPostMessage, HvSignalEvent: the connection's partition exists and "
        "has the port, in the connection's generation.",
        "HvSetPartitionProperty: a mask is within the caller's mask; a CPU property always passes; "
        "HvGetVpRegisters, HvSetVpRegisters: the caller's mask has the privilege of the register, if "
        "it is known and needs one; HvConnectPort: the port's peer is the target.",
        "HvCreateVp: the index is at most 63 and free in the target; HvDeleteVp, HvGetVpRegisters, "
        "HvSetVpRegisters: the target has the VP; HvCreatePort, HvPostMessage, HvSignalEvent: the "
        "partition of the port has the VP it targets; HV_ANY_VP always passes.",
        "The value is in the property's range; a mask always passes.",
        "HvDepositMemory: the page is a loose page of the caller; HvGetVpRegisters: the register is "
        "known; HvSetVpRegisters: it is known, is writable and accepts the value; HvConnectPort: the "
        "port has the type that the call names; HvPostMessage: the port is for messages; "
        "HvSignalEvent: it is for event flags, and FlagNumber is below its FlagCount; ReadSlot, "
        "ClearSlot, ReadFlags: S is below 16; ClearFlag: S is below 16 and F is below 2,048.",
        "HvPostMessage, HvSignalEvent: the port's VP is ready for messages, or flags; HV_ANY_VP: some"
        " VP of its partition is.",
        "Fewer than 8 messages of this port and generation are stored, at all VPs together.",
        "The target has enough available pages (the target of HvCreatePartition is the caller).",
        "The MSR is known.",
        "The caller's mask has the MSR's privilege.",
        "The MSR is writable and accepts the value.",
    };
    return hvpm_named(sentences, sizeof sentences / sizeof *sentences, rule);
}

#endif
