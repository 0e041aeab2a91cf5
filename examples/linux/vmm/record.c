/*
 * The record of a run. The machine has it, so that no caller has to think of it: each event's line of the audit
 * goes to `audit`, and the event as a line of a script to `events.hv`, both in the order of events.
 * `hvpm run events.hv --serial` prints that audit, byte for byte. The rest of this file is the log, in which
 * guests, core and VMM stand in one order.
 */
#include "core.h"
#include <inttypes.h>
#include <stdarg.h>
#include <stdio.h>
#include <stdlib.h>
#include <string.h>
#include <unistd.h>

enum { SHOWN = 4000 }; /* lines of the audit, and of each guest's doings, that the log has: a long run would
                          bury the guests' own */

static FILE *audit, *script;

/* ---- the log ---- */

static void say(const char *who, const char *text, size_t len) {
    enum { WIDTH = 140 };
    printf(len <= WIDTH ? "%-7s| %.*s\n" : "%-7s| %.*s..\n", who, len <= WIDTH ? (int)len : WIDTH, text);
    fflush(stdout);
}

void say_guest(const struct guest *guest, const char *text) {
    char who[32];
    snprintf(who, sizeof who, "guest %u", (unsigned)guest->id);
    say(who, text, strlen(text));
}

void note(const char *format, ...) {
    char text[512];
    va_list of;
    va_start(of, format);
    vsnprintf(text, sizeof text, format, of);
    va_end(of);
    say("vmm", text, strlen(text));
}

/* What a guest makes the VMM say: it can't fill a disk. */
void note_of(struct guest *guest, const char *format, ...) {
    char text[512];
    va_list of;
    if (++guest->notes > SHOWN) return;
    va_start(of, format);
    vsnprintf(text, sizeof text, format, of);
    va_end(of);
    say("vmm", text, strlen(text));
    if (guest->notes == SHOWN) note("nothing more is told of what partition %" PRIu64 " does", guest->id);
}

/* The reason comes first. Only the files of this VMM are flushed: a thread that reads holds its file's lock
 * for as long as it waits. */
void die(const char *format, ...) {
    char text[512];
    va_list of;
    va_start(of, format);
    vsnprintf(text, sizeof text, format, of);
    va_end(of);
    fprintf(stderr, "vmm: %s\n", text);
    fflush(stdout);
    if (audit) fflush(audit);
    if (script) fflush(script);
    _exit(1);
}

/* ---- events ---- */

hvpm_record record;

static void keep(FILE *file, hvpm_text *text) {
    fwrite(text->at, 1, text->len, file);
    text->len = 0;
}

void record_keep(void) {
    static unsigned shown;
    const char *const end = record.audit.at + record.audit.len;
    if (record.is_cut) die("no memory for the record");
    for (const char *at = record.audit.at, *next; at < end && shown <= SHOWN; at = next) {
        next = (const char *)memchr(at, '\n', (size_t)(end - at)) + 1;
        if (shown++ == SHOWN) note("all further events stand in the audit alone");
        else say("core", at, (size_t)(next - at) - 1);
    }
    keep(script, &record.script), keep(audit, &record.audit);
}

void record_start(void) {
    audit = fopen("audit", "w");
    script = fopen("events.hv", "w");
    if (!audit || !script) die("the record can't be written");
}

void record_end(uint64_t events) {
    record_keep();
    fprintf(audit, "events %" PRIu64 "\n", events);
    if (fclose(audit) != 0 || fclose(script) != 0) die("the record can't be written");
}
