/*
 * What benchmarks of the library share: events that must be served, a port of the root, and processor time.
 */
#include "hvpm.h"

#include <inttypes.h>
#include <stdio.h>
#include <stdlib.h>
#include <string.h>
#include <time.h>

static const hvpm_caller root = {1, 0};
static hvpm_reply reply;
static bool failed;

static inline void want(bool is_so) {
    if (!is_so) failed = true;
}

static inline void served(uint32_t status) {
    want(status == HVPM_STATUS_OK && reply.kind <= HVPM_REPLY_MORE);
}

/* Nanoseconds of processor time. */
static inline double now(void) {
    struct timespec at;
    clock_gettime(CLOCK_PROCESS_CPUTIME_ID, &at);
    return (double)at.tv_sec * 1e9 + (double)at.tv_nsec;
}

/* Turns the root's interrupt controller on, with a vector at SINT 2. */
static inline void turn_on_root(hvpm_machine *machine) {
    for (uint32_t msr = HVPM_MSR_SCONTROL; msr <= HVPM_MSR_SIMP; msr++)
        if (msr != HVPM_MSR_SVERSION) served(hvpm_write_msr(machine, root, msr, 1, &reply, NULL, 0));
    served(hvpm_write_msr(machine, root, HVPM_MSR_SINT0 + 2, 0x30, &reply, NULL, 0));
}

/* A port for messages at a SINT of the root's processor, and a connection to it of that id. */
static inline void make_port(hvpm_machine *machine, uint32_t id, uint32_t sint) {
    const hvpm_port port = {.partition = 1, .id = id, .peer = 1, .type = HVPM_PORT_MESSAGES, .sint = sint};
    const hvpm_connection connection = {1, id, 1, id, HVPM_PORT_MESSAGES};
    served(hvpm_create_port(machine, root, &port, &reply, NULL, 0));
    served(hvpm_connect_port(machine, root, &connection, &reply, NULL, 0));
}
