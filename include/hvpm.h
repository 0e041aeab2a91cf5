/*
 * hvpm.h: Bulqizet, the partition manager of a hypervisor, as a library for C and C++.
 *
 *     hvpm_machine machine = HVPM_EMPTY;
 *     const hvpm_config config = {.mask = 0xf700000064, .pages = 32, .pool = 12, .vps = 1};
 *     if (hvpm_boot(&machine, &config) != HVPM_STATUS_OK) return 1;
 *     const hvpm_caller by = {.partition = 1, .vp = 0};
 *     const hvpm_registers registers = {.rcx = 0x46};             // HvGetPartitionId
 *     hvpm_reply reply;
 *     if (hvpm_hypercall(&machine, by, &registers, NULL, 0, &reply, NULL, 0) != HVPM_STATUS_OK) return 1;
 *     // reply.kind is HVPM_REPLY_SERVED, reply.result goes to RAX,
 *     // and reply.output holds 8 bytes: the partition's id, 1
 *     hvpm_destroy(&machine);
 *
 * An event is one hypercall, or one access of a processor: to an MSR, a message slot, an event flag or a
 * pending interrupt. Each element of a rep hypercall is an event. docs/POLICY.md specifies which rules apply
 * to an event, what it changes and what it returns. docs/EMBEDDING.md maps the exits of a hypervisor to the
 * functions below.
 *
 * Functions. To pass on a guest's exits, call hvpm_hypercall() or hvpm_run(), and the accesses from
 * hvpm_read_msr() to hvpm_take_interrupt(). To make a hypercall of your own, call the function of its name,
 * such as hvpm_create_partition(). To read a machine without an event, call a look, such as hvpm_peek_slot().
 *
 * Status. Each function that returns uint32_t returns an HVPM_STATUS_*. On any status but HVPM_STATUS_OK,
 * nothing happened: the machine, the reply, the line and all other outputs are unchanged, unless the function
 * says otherwise. A rule that refuses an event isn't an error: the status is HVPM_STATUS_OK, and the reply
 * names the rule.
 *
 * Threads. Any thread may use a handle. Any number of looks at it may run at once. Every other call needs the
 * handle alone: no other call and no look may run meanwhile. Protect a shared handle with a lock for readers
 * and writers, or with any lock. Different handles are independent.
 *
 * Memory. The library allocates with malloc and realloc, and frees with free. Apart from memchr, memcpy,
 * memmove and memset it calls nothing else. It reads no clock, no file and no guest memory, and keeps no
 * pointer that you pass.
 *
 * Linking. By default every function is `static inline` over symbols of the static library. Compile with
 * HVPM_NO_INLINE to call the functions that libhvpm.so and libhvpm.a export; hvpm.pc and the CMake package
 * define it. libhvpm.so needs it: without it, the linker finds no hv_embed_boot and the like.
 */
#ifndef HVPM_H
#define HVPM_H

#include <stdbool.h>
#include <stddef.h>
#include <stdint.h>

#include "hvpm_names.h"

#if defined HVPM_NO_INLINE
#undef HVPM_INLINE
#define HVPM_INLINE extern
#elif !defined HVPM_INLINE
#define HVPM_INLINE static inline
#endif

/* The compiler warns where a program doesn't look at what such a function returns. */
#define HVPM_RESULT HVPM_INLINE __attribute__((warn_unused_result))

#ifdef __cplusplus
extern "C" {
#endif

/*
 * The version of this header, also as one number for #if: 100 is 0.1.0, and 10203 is 1.2.3. hvpm_version() and
 * hvpm_version_number() return those of the library. docs/EMBEDDING.md says what may change ("Versions").
 */
#define HVPM_VERSION_MAJOR 0
#define HVPM_VERSION_MINOR 1
#define HVPM_VERSION_PATCH 0
#define HVPM_VERSION (HVPM_VERSION_MAJOR * 10000 + HVPM_VERSION_MINOR * 100 + HVPM_VERSION_PATCH)

/* ---- Machines ---- */

/* A virtual processor: its partition's id, and its index in that partition. */
typedef struct hvpm_caller {
    uint64_t partition;
    uint32_t vp;
} hvpm_caller;

/* A text that grows. Read `len` bytes at `at`, and set `len` to 0 when you took them. */
typedef struct hvpm_text {
    char *at; /* not terminated by a zero */
    size_t len;
    size_t size; /* how many bytes the block at `at` has */
} hvpm_text;

/*
 * The record of a machine: see "Recording". Initialize it with zeros. After that write only the `len` of its
 * texts, and free them with hvpm_record_free().
 */
typedef struct hvpm_record {
    hvpm_text script; /* the boot and the events, as lines of a script */
    hvpm_text audit;  /* the audit lines of the events */
    bool is_cut;      /* the record ended, and has the events before that alone */
    uint32_t vps;     /* number of processors of this phase of the script */
    hvpm_caller vp[64];
    hvpm_caller rep_by; /* the caller of a rep call with elements left */
    uint64_t rep;       /* RCX of its next element, or 0 */
} hvpm_record;

/*
 * A handle to a machine. Initialize it with HVPM_EMPTY. After that write `record` alone: only the functions
 * below may write the rest. You may read `events`: the number of events so far, served or refused. You may move
 * a handle in memory between calls. After copying a handle, use only one of the copies.
 */
typedef struct hvpm_machine {
    bool live;
    uint64_t events;
    void *at;
    hvpm_record *record; /* where the events are recorded, or NULL */
} hvpm_machine;

/* A handle without a machine. */
#define HVPM_EMPTY {false, 0, NULL, NULL}

/* What hvpm_boot() gives to the root partition. */
typedef struct hvpm_config {
    uint64_t mask;  /* privilege mask */
    uint32_t pages; /* number of pages, 1 to 65,536 */
    uint32_t pool;  /* how many of them, from page 0 on, are in its pool: at most `pages`, and at least 4
                       for each processor */
    uint32_t vps;   /* number of virtual processors, 1 to 64 */
} hvpm_config;

/*
 * The registers of a hypercall: RCX is the input value. RDX and R8 are the guest physical addresses of the
 * input and output lists, or the 16 bytes of input of a fast call.
 */
typedef struct hvpm_registers {
    uint64_t rcx, rdx, r8;
} hvpm_registers;

/* ---- Replies ---- */

/*
 * What an event changed in any partition: messages, event flags, pending vectors, pages and processors.
 * Anything that the effect doesn't name is unchanged, except for the vector that hvpm_take_interrupt()
 * returns, which is no longer pending. Anything that it names did change, except for a raised vector, which
 * may have been pending already. A field is meaningful only for the kinds named in its comment.
 */
typedef struct hvpm_effect {
    uint32_t kind;      /* an enum hvpm_effect_kind */
    uint32_t vp;        /* SYNIC, PROCESSOR: index of the processor */
    uint64_t partition; /* SYNIC, PROCESSOR, PARTITION: the partition. PAGE, PAGES: the partition that now
                           owns the pages */
    uint64_t page;      /* PAGE: the page. PAGES: id of the deleted partition that owned the pages */
    uint64_t raised[4]; /* SYNIC: the vectors that were raised: exactly those of the SINTs that show a message
                           and showed none, and of the SINT whose flag was set, unless masked; vector v is bit
                           v % 64 of raised[v / 64] */
    uint16_t shown;     /* SYNIC: bit s is 1 if the slot of SINT s changed: it shows another message, or is
                           now empty */
    uint16_t waiting;   /* SYNIC: bit s is 1 if one more message waits at SINT s, behind that in the slot */
    uint16_t flag;      /* SYNIC, if `flag_is` isn't 0: number of the event flag that changed */
    uint8_t flag_sint;  /* SYNIC, if `flag_is` isn't 0: its SINT */
    uint8_t flag_is;    /* SYNIC: 0, HVPM_FLAG_SET if the flag was clear and is now set, or
                           HVPM_FLAG_CLEARED */
    uint32_t port;      /* SYNIC, if `freed` isn't 0: id of the port of that partition whose message left
                           its slot */
    uint8_t freed;      /* SYNIC: 1 if a message left its slot; its port, if it still exists, can take one
                           more */
    uint8_t pooled;     /* PAGE: 1 if the page is in the partition's pool, 0 if it is loose */
} hvpm_effect;

/* The reply to an event. */
typedef struct hvpm_reply {
    uint32_t kind;       /* an enum hvpm_kind */
    uint32_t rule;       /* number of the rule that refuses the event, 1 to 27; 0 if it is served */
    uint64_t result;     /* hypercall: the result value, for RAX. Access: 0 */
    uint32_t next;       /* HVPM_REPLY_MORE: start index of the next element. Otherwise 0 */
    uint32_t output_len; /* number of valid bytes in `output`; the others are unspecified */
    uint32_t line_len;   /* length of the audit line, line feed included; 0 if none was requested */
    uint8_t output[256];
    hvpm_effect effect;  /* what the event changed */
} hvpm_reply;

/* How far hvpm_run() got. */
typedef struct hvpm_run_done {
    uint32_t events;     /* number of elements executed, at least 1 */
    uint32_t output_len; /* number of output bytes that they stored, one element after another */
} hvpm_run_done;

/* The kind of an effect. */
enum hvpm_effect_kind {
    HVPM_EFFECT_NOTHING = 0,   /* no message, flag, vector, page or processor changed. Refused events always
                                  have this effect */
    HVPM_EFFECT_SYNIC = 1,     /* a message, a flag or vectors changed at one processor, which may be the
                                  caller */
    HVPM_EFFECT_PAGE = 2,      /* a page moved to another partition, or into or out of a pool; the partition
                                  that owned it still exists */
    HVPM_EFFECT_PAGES = 3,     /* a partition was deleted and no longer exists; its pages, at least one, are
                                  now loose pages of another partition */
    HVPM_EFFECT_PROCESSOR = 4, /* a processor was created or deleted; it has no message, flag or vector, and
                                  its partition is Active */
    HVPM_EFFECT_PARTITION = 5  /* a partition was finalized and is Finalized; its processors, at least one,
                                  were removed with their messages, flags and vectors */
};

/* The values of `flag_is` if a flag changed. */
enum hvpm_flag_is { HVPM_FLAG_SET = 1, HVPM_FLAG_CLEARED = 2 };

/* The kind of a reply. After the last two, only the count of events has changed. */
enum hvpm_kind {
    HVPM_REPLY_SERVED = 0, /* the event is served; of a rep call, this was the last element */
    HVPM_REPLY_MORE = 1,   /* the element is served, and more follow: see hvpm_next() */
    HVPM_REPLY_DENIED = 2, /* a rule refuses the hypercall; `result` has the status */
    HVPM_REPLY_FAULT = 3   /* a rule refuses the access: give the guest #GP */
};

/*
 * The status of a call. If several apply, it is the first of: HVPM_STATUS_NULL; HVPM_STATUS_EMPTY or
 * HVPM_STATUS_OCCUPIED; HVPM_STATUS_PAGES; HVPM_STATUS_POOL; HVPM_STATUS_VPS; HVPM_STATUS_NONE;
 * HVPM_STATUS_SHORT; HVPM_STATUS_USED_UP; HVPM_STATUS_MEMORY. One exception: a function that writes text may
 * return HVPM_STATUS_MEMORY before HVPM_STATUS_SHORT.
 */
enum hvpm_status {
    HVPM_STATUS_OK = 0,
    HVPM_STATUS_EMPTY = 1,    /* the handle has no machine */
    HVPM_STATUS_OCCUPIED = 2, /* boot: the handle already has a machine */
    HVPM_STATUS_SHORT = 3,    /* a buffer is too small: `line_size` isn't 0 but less than HVPM_LINE,
                                 `outputs_size` is less than HVPM_OUTPUT, or `text_size` is less than the
                                 length of the text. hvpm_run_at_most(): or `most` is 0 */
    HVPM_STATUS_USED_UP = 4,  /* the machine served 2^64 - 3 events, or took 2^64 - 1: it takes no more */
    HVPM_STATUS_MEMORY = 5,   /* out of memory; you may retry. A hypercall returns this only if it has input
                                 list bytes, or would be served and may need memory. Accesses never return
                                 this. Of the looks, hvpm_table() does, and hvpm_explain() of a hypercall */
    HVPM_STATUS_PAGES = 6,    /* boot: no pages, or more than 65,536 */
    HVPM_STATUS_POOL = 7,     /* boot: more pooled pages than pages */
    HVPM_STATUS_VPS = 8,      /* boot: no processors, more than 64, or more than the pool can pay for */
    HVPM_STATUS_NULL = 9,     /* a pointer is NULL. Only a buffer or an array of length 0 may be NULL */
    HVPM_STATUS_NONE = 10     /* look: there is no such partition, processor, SINT, register, port,
                                 connection or page. hvpm_access_line(): there is no such access.
                                 Explanations: there is no such access or reply */
};

/* The `vp` of a port that may deliver to any processor of its partition: HV_ANY_VP. */
#define HVPM_ANY_VP UINT32_MAX

/* The type of a port. */
enum hvpm_port_type { HVPM_PORT_MESSAGES = 1, HVPM_PORT_EVENTS = 2 };

/* A port, as hvpm_create_port() takes it and hvpm_peek_port() returns it. */
typedef struct hvpm_port {
    uint64_t partition;  /* PortPartition: the owner */
    uint32_t id;         /* PortId */
    uint64_t peer;       /* ConnectionPartition: the partition that may connect */
    uint32_t type;       /* PortType: an enum hvpm_port_type */
    uint32_t sint;       /* TargetSint */
    uint32_t vp;         /* TargetVp: the processor of that SINT, or HVPM_ANY_VP */
    uint16_t base_flag;  /* BaseFlagNumber, of an event port */
    uint16_t flag_count; /* FlagCount, of an event port */
} hvpm_port;

/* A connection, as hvpm_connect_port() takes it and hvpm_peek_connection() returns it. */
typedef struct hvpm_connection {
    uint64_t partition;      /* ConnectionPartition: the owner */
    uint32_t id;             /* ConnectionId */
    uint64_t port_partition; /* PortPartition */
    uint32_t port;           /* PortId */
    uint32_t type;           /* PortType: that of the port */
} hvpm_connection;

/* Pages of a partition whose numbers follow each other, as hvpm_page_after() returns them. */
typedef struct hvpm_page_run {
    uint64_t page;  /* the first page */
    uint32_t count; /* number of pages, at least 1 */
    uint8_t pooled; /* 1 if they are in the partition's pool, 0 if they are loose */
} hvpm_page_run;

/* The life state of a partition. */
enum hvpm_life { HVPM_LIFE_CREATED = 0, HVPM_LIFE_ACTIVE = 1, HVPM_LIFE_FINALIZED = 2 };

/* A partition, as hvpm_peek_partition() returns it. */
typedef struct hvpm_partition {
    uint64_t mask;     /* privilege mask */
    uint64_t parent;   /* id of its parent; 0 for the root */
    uint64_t depth;    /* number of its ancestors */
    uint64_t pooled;   /* number of pages in its pool */
    uint64_t in_use;   /* number of those that pay for children, processors, ports and connections */
    uint32_t life;     /* an enum hvpm_life */
    uint32_t children; /* number of child partitions */
    uint32_t vps;
    uint32_t ports;
    uint32_t connections;
} hvpm_partition;

/* A buffer of this many bytes holds any line of the audit. */
#define HVPM_LINE 768

/* No element of a hypercall has more output bytes. */
#define HVPM_OUTPUT 16

/* ---- Boot ---- */

/*
 * Boots a machine into an empty handle. The root partition has id 1 and is Active. It has the pages,
 * processors and privileges of `config`. Returns HVPM_STATUS_PAGES, HVPM_STATUS_POOL or HVPM_STATUS_VPS if
 * `config` isn't valid.
 */
HVPM_RESULT uint32_t hvpm_boot(hvpm_machine *machine, const hvpm_config *config);

/* Destroys the machine, frees its memory, and leaves the handle empty. An empty handle stays empty. */
HVPM_INLINE void hvpm_destroy(hvpm_machine *machine);

/* ---- A guest's events ---- */

/*
 * Executes one hypercall of processor `by`: a simple call, or the element of a rep call at its start index.
 *
 * `input` holds the bytes from guest memory at RDX. Bytes that the list needs but `input` lacks read as zero.
 * Bytes past the list aren't read, and a fast call reads none. Copy the output, at most 16 bytes, to guest
 * memory at R8 + start index * output_len. If the kind is HVPM_REPLY_MORE, continue with hvpm_next(), at once
 * or when the guest calls again.
 *
 * `line` receives the event's line of the audit, not terminated by a zero; `line_size` is at least HVPM_LINE.
 * Pass NULL and 0 for none.
 */
HVPM_RESULT uint32_t hvpm_hypercall(hvpm_machine *machine, hvpm_caller by, const hvpm_registers *registers,
                                    const void *input, size_t input_len, hvpm_reply *reply, char *line,
                                    size_t line_size);

/*
 * Executes a hypercall like hvpm_hypercall(). A rep call continues with its next elements, each as an event
 * of its own. This is equivalent to a loop of hvpm_hypercall() and hvpm_next(), but copies the input list
 * only once. It stops
 *
 * - after the last element, or one that a rule refuses;
 * - after one whose effect is neither HVPM_EFFECT_NOTHING nor HVPM_EFFECT_PAGE;
 * - when fewer than HVPM_OUTPUT bytes of `outputs` are left;
 * - when the machine takes no more events, or malloc fails for the next element, which then isn't executed.
 *
 * `reply` is that of the last element executed, its effect included. Earlier elements changed only the owners
 * of pages, which the input list or the outputs name. If the kind is HVPM_REPLY_MORE, continue with
 * hvpm_next().
 *
 * `outputs` receives the output of all elements, one after another: copy done->output_len bytes to guest
 * memory at R8, from the first element's place on. The bytes after them are unspecified. HVPM_STATUS_SHORT
 * means that `outputs` has fewer than HVPM_OUTPUT bytes. There are no audit lines: to get them, call
 * hvpm_hypercall() for each element.
 */
HVPM_RESULT uint32_t hvpm_run(hvpm_machine *machine, hvpm_caller by, const hvpm_registers *registers,
                              const void *input, size_t input_len, hvpm_reply *reply, void *outputs,
                              size_t outputs_size, hvpm_run_done *done);

/*
 * Like hvpm_run(), but also stops after `most` elements, so that a lock around it is held for a bounded time.
 * Returns HVPM_STATUS_SHORT if `most` is 0.
 */
HVPM_RESULT uint32_t hvpm_run_at_most(hvpm_machine *machine, hvpm_caller by, const hvpm_registers *registers,
                                      const void *input, size_t input_len, uint32_t most, hvpm_reply *reply,
                                      void *outputs, size_t outputs_size, hvpm_run_done *done);

/* Returns RCX for the next element, after a reply of kind HVPM_REPLY_MORE. */
HVPM_INLINE uint64_t hvpm_next(uint64_t rcx, const hvpm_reply *reply);

/*
 * Accesses. Each is one event of processor `by`, on the state of that processor. `line` and `line_size` are
 * those of hvpm_hypercall(). If a rule refuses the access, the kind is HVPM_REPLY_FAULT.
 */

/* Reads a model-specific register. The output is its value: 8 bytes, little-endian. */
HVPM_RESULT uint32_t hvpm_read_msr(hvpm_machine *machine, hvpm_caller by, uint32_t msr, hvpm_reply *reply,
                                   char *line, size_t line_size);

/* Like hvpm_read_msr(), and stores the value in `*value` if the event is served. */
HVPM_RESULT uint32_t hvpm_read_msr_value(hvpm_machine *machine, hvpm_caller by, uint32_t msr, uint64_t *value,
                                         hvpm_reply *reply, char *line, size_t line_size);

/* Writes a model-specific register. No output. A write of EOM may show messages and raise vectors. */
HVPM_RESULT uint32_t hvpm_write_msr(hvpm_machine *machine, hvpm_caller by, uint32_t msr, uint64_t value,
                                    hvpm_reply *reply, char *line, size_t line_size);

/* Reads the message slot of a SINT. The output is 256 bytes, all zero if the slot is empty. */
HVPM_RESULT uint32_t hvpm_read_slot(hvpm_machine *machine, hvpm_caller by, uint8_t sint, hvpm_reply *reply,
                                    char *line, size_t line_size);

/* Empties the message slot of a SINT. No output. The next message appears on EOM or on a post. */
HVPM_RESULT uint32_t hvpm_clear_slot(hvpm_machine *machine, hvpm_caller by, uint8_t sint, hvpm_reply *reply,
                                     char *line, size_t line_size);

/* Reads the event flags of a SINT. The output is 256 bytes; flag f is bit f % 8 of byte f / 8. */
HVPM_RESULT uint32_t hvpm_read_flags(hvpm_machine *machine, hvpm_caller by, uint8_t sint, hvpm_reply *reply,
                                     char *line, size_t line_size);

/* Clears one event flag of a SINT. No output. */
HVPM_RESULT uint32_t hvpm_clear_flag(hvpm_machine *machine, hvpm_caller by, uint8_t sint, uint16_t flag,
                                     hvpm_reply *reply, char *line, size_t line_size);

/* Takes the highest pending vector. The output is one byte: the vector, or 0 if none is pending. */
HVPM_RESULT uint32_t hvpm_take_interrupt(hvpm_machine *machine, hvpm_caller by, hvpm_reply *reply, char *line,
                                         size_t line_size);

/* ---- Typed hypercalls ---- */

/*
 * The 21 hypercalls by their fields, for a caller that is part of the host: a root that creates partitions,
 * ports and processors. Each function builds the input list and calls hvpm_hypercall() with it; `by`,
 * `reply`, `line` and the status are those of that call. docs/POLICY.md describes the fields and the rules.
 * The other pointers receive the call's output if it is served. Otherwise what they point to is unchanged.
 *
 * The four rep calls execute one element of `count`, the one at index `start`. Begin with 0, and continue
 * with `reply->next` while the kind is HVPM_REPLY_MORE. Each of these calls encodes the whole list: for a
 * long list without audit lines, call the function of "Lists" below.
 */

/* HV_PARTITION_ID_SELF. In a hypercall, this partition id means the caller's own partition. */
#define HVPM_SELF UINT64_MAX

/* The property codes of a partition. */
enum hvpm_property {
    HVPM_PRIVILEGE_FLAGS = 0x00010000,
    HVPM_CPU_RESERVE = 0x00020001,
    HVPM_CPU_CAP = 0x00020002,
    HVPM_CPU_WEIGHT = 0x00020003
};

/* A register of a virtual processor, by the name that hypercalls use. */
typedef struct hvpm_vp_register {
    uint32_t name;
    uint64_t value;
} hvpm_vp_register;

/* HvCreatePartition. Stores the new partition's id in `*partition`. `flags` has no effect. */
HVPM_RESULT uint32_t hvpm_create_partition(hvpm_machine *machine, hvpm_caller by, uint64_t flags,
                                           uint64_t *partition, hvpm_reply *reply, char *line,
                                           size_t line_size);

/* HvInitializePartition: makes a Created child Active. */
HVPM_RESULT uint32_t hvpm_initialize_partition(hvpm_machine *machine, hvpm_caller by, uint64_t partition,
                                               hvpm_reply *reply, char *line, size_t line_size);

/* HvFinalizePartition: removes a child's processors, ports and connections, for good. */
HVPM_RESULT uint32_t hvpm_finalize_partition(hvpm_machine *machine, hvpm_caller by, uint64_t partition,
                                             hvpm_reply *reply, char *line, size_t line_size);

/* HvDeletePartition: removes a Created or Finalized child. Its pages become loose pages of the caller. */
HVPM_RESULT uint32_t hvpm_delete_partition(hvpm_machine *machine, hvpm_caller by, uint64_t partition,
                                           hvpm_reply *reply, char *line, size_t line_size);

/* HvGetPartitionProperty. Stores the value in `*value`. `property` is an enum hvpm_property. */
HVPM_RESULT uint32_t hvpm_get_partition_property(hvpm_machine *machine, hvpm_caller by, uint64_t partition,
                                                 uint32_t property, uint64_t *value, hvpm_reply *reply,
                                                 char *line, size_t line_size);

/* HvSetPartitionProperty: sets a property of a child. `property` is an enum hvpm_property. */
HVPM_RESULT uint32_t hvpm_set_partition_property(hvpm_machine *machine, hvpm_caller by, uint64_t partition,
                                                 uint32_t property, uint64_t value, hvpm_reply *reply,
                                                 char *line, size_t line_size);

/* HvGetPartitionId. Stores the caller's own id in `*partition`. */
HVPM_RESULT uint32_t hvpm_get_partition_id(hvpm_machine *machine, hvpm_caller by, uint64_t *partition,
                                           hvpm_reply *reply, char *line, size_t line_size);

/*
 * HvGetNextChildPartition. Stores the child with the lowest id above `previous` in `*child`, or 0 if there is
 * none. Pass 0 for the first.
 */
HVPM_RESULT uint32_t hvpm_get_next_child_partition(hvpm_machine *machine, hvpm_caller by, uint64_t parent,
                                                   uint64_t previous, uint64_t *child, hvpm_reply *reply,
                                                   char *line, size_t line_size);

/* HvDepositMemory, a rep call: moves the caller's page pages[start] to the partition's pool. */
HVPM_RESULT uint32_t hvpm_deposit_memory(hvpm_machine *machine, hvpm_caller by, uint64_t partition,
                                         const uint64_t *pages, uint16_t count, uint16_t start,
                                         hvpm_reply *reply, char *line, size_t line_size);

/* HvWithdrawMemory, a rep call: moves a page of the pool to the caller, and stores it in pages[start]. */
HVPM_RESULT uint32_t hvpm_withdraw_memory(hvpm_machine *machine, hvpm_caller by, uint64_t partition,
                                          uint64_t *pages, uint16_t count, uint16_t start, hvpm_reply *reply,
                                          char *line, size_t line_size);

/* HvGetMemoryBalance. Stores how many pages of the partition's pool are available and how many are in use. */
HVPM_RESULT uint32_t hvpm_get_memory_balance(hvpm_machine *machine, hvpm_caller by, uint64_t partition,
                                             uint64_t *available, uint64_t *in_use, hvpm_reply *reply,
                                             char *line, size_t line_size);

/* HvCreateVp: creates the processor with index `vp`, 0 to 63. */
HVPM_RESULT uint32_t hvpm_create_vp(hvpm_machine *machine, hvpm_caller by, uint64_t partition, uint32_t vp,
                                    hvpm_reply *reply, char *line, size_t line_size);

/* HvDeleteVp: deletes a processor with its registers, messages, event flags and pending vectors. */
HVPM_RESULT uint32_t hvpm_delete_vp(hvpm_machine *machine, hvpm_caller by, uint64_t partition, uint32_t vp,
                                    hvpm_reply *reply, char *line, size_t line_size);

/* HvGetVpRegisters, a rep call: stores the value of register registers[start].name in its `value`. */
HVPM_RESULT uint32_t hvpm_get_vp_registers(hvpm_machine *machine, hvpm_caller by, uint64_t partition,
                                           uint32_t vp, hvpm_vp_register *registers, uint16_t count,
                                           uint16_t start, hvpm_reply *reply, char *line, size_t line_size);

/* HvSetVpRegisters, a rep call: sets register registers[start].name to its `value`. */
HVPM_RESULT uint32_t hvpm_set_vp_registers(hvpm_machine *machine, hvpm_caller by, uint64_t partition,
                                           uint32_t vp, const hvpm_vp_register *registers, uint16_t count,
                                           uint16_t start, hvpm_reply *reply, char *line, size_t line_size);

/* HvDeletePort. Connections to the port remain. */
HVPM_RESULT uint32_t hvpm_delete_port(hvpm_machine *machine, hvpm_caller by, uint64_t partition,
                                      uint32_t port, hvpm_reply *reply, char *line, size_t line_size);

/* HvDisconnectPort: deletes a connection of the partition. */
HVPM_RESULT uint32_t hvpm_disconnect_port(hvpm_machine *machine, hvpm_caller by, uint64_t partition,
                                          uint32_t connection, hvpm_reply *reply, char *line,
                                          size_t line_size);

/*
 * HvPostMessage: posts a message through a connection of the caller. Rule P7 refuses a payload of more than
 * 240 bytes; no byte past the 240th is read.
 */
HVPM_RESULT uint32_t hvpm_post_message(hvpm_machine *machine, hvpm_caller by, uint32_t connection,
                                       uint32_t type, const void *payload, uint32_t payload_size,
                                       hvpm_reply *reply, char *line, size_t line_size);

/* HvSignalEvent: signals through a connection of the caller. `flag` counts from the port's `base_flag`. */
HVPM_RESULT uint32_t hvpm_signal_event(hvpm_machine *machine, hvpm_caller by, uint32_t connection,
                                       uint16_t flag, hvpm_reply *reply, char *line, size_t line_size);

/* HvCreatePort. */
HVPM_RESULT uint32_t hvpm_create_port(hvpm_machine *machine, hvpm_caller by, const hvpm_port *port,
                                      hvpm_reply *reply, char *line, size_t line_size);

/* HvConnectPort: creates a connection to a port. */
HVPM_RESULT uint32_t hvpm_connect_port(hvpm_machine *machine, hvpm_caller by,
                                       const hvpm_connection *connection, hvpm_reply *reply, char *line,
                                       size_t line_size);

/* ---- Lists ---- */

/*
 * The four rep calls for lists of any length, by hvpm_run() and without audit lines. Each element is an event
 * of its own. `*made` receives how many elements were served, from the first on, and `reply` is that of the
 * last element executed. If `*made` is less than `count`,
 *
 * - a rule refused the next element: `reply->kind` is HVPM_REPLY_DENIED, and `reply->rule` names it;
 * - or the machine stopped there, as hvpm_run() does: call the function again with the rest.
 *
 * P5 refuses a list without elements.
 */

/* HvDepositMemory: moves the caller's pages to the partition's pool. */
HVPM_RESULT uint32_t hvpm_deposit_pages(hvpm_machine *machine, hvpm_caller by, uint64_t partition,
                                        const uint64_t *pages, size_t count, size_t *made,
                                        hvpm_reply *reply);

/* HvWithdrawMemory: moves pages of the pool to the caller, and stores them in `pages`. */
HVPM_RESULT uint32_t hvpm_withdraw_pages(hvpm_machine *machine, hvpm_caller by, uint64_t partition,
                                         uint64_t *pages, size_t count, size_t *made, hvpm_reply *reply);

/* HvGetVpRegisters: stores the value of each register in its `value`. */
HVPM_RESULT uint32_t hvpm_read_registers(hvpm_machine *machine, hvpm_caller by, uint64_t partition,
                                         uint32_t vp, hvpm_vp_register *registers, size_t count,
                                         size_t *made, hvpm_reply *reply);

/* HvSetVpRegisters: sets each register to its `value`. It stops after a write of EOM that shows a message. */
HVPM_RESULT uint32_t hvpm_write_registers(hvpm_machine *machine, hvpm_caller by, uint64_t partition,
                                          uint32_t vp, const hvpm_vp_register *registers, size_t count,
                                          size_t *made, hvpm_reply *reply);

/* ---- Looks ---- */

/*
 * A look reads a machine without an event. It isn't counted, has no audit line, needs no privilege, and,
 * except for hvpm_table() and hvpm_explain(), allocates no memory. It writes neither the handle nor what the
 * handle leads to, so any number of looks may run at once, in any threads. Don't look while another thread
 * makes an event, boots or destroys.
 *
 * A look returns HVPM_STATUS_NONE if what it names doesn't exist. `of` may be any processor, even one of a
 * partition that isn't Active.
 */

/* Reads the message slot of a SINT: the 256 bytes that hvpm_read_slot() outputs. */
HVPM_RESULT uint32_t hvpm_peek_slot(const hvpm_machine *machine, hvpm_caller of, uint8_t sint,
                                    uint8_t out[256]);

/* Reads the event flags of a SINT: the 256 bytes that hvpm_read_flags() outputs. */
HVPM_RESULT uint32_t hvpm_peek_flags(const hvpm_machine *machine, hvpm_caller of, uint8_t sint,
                                     uint8_t out[256]);

/* Reads a model-specific register. */
HVPM_RESULT uint32_t hvpm_peek_msr(const hvpm_machine *machine, hvpm_caller of, uint32_t msr,
                                   uint64_t *value);

/* Reads the pending vectors: vector v is bit v % 64 of pending[v / 64]. */
HVPM_RESULT uint32_t hvpm_peek_pending(const hvpm_machine *machine, hvpm_caller of, uint64_t pending[4]);

/* Reads a partition. */
HVPM_RESULT uint32_t hvpm_peek_partition(const hvpm_machine *machine, uint64_t id, hvpm_partition *out);

/* Reads a port of a partition. */
HVPM_RESULT uint32_t hvpm_peek_port(const hvpm_machine *machine, uint64_t partition, uint32_t id,
                                    hvpm_port *out);

/* Reads a connection of a partition. Its port may no longer exist. */
HVPM_RESULT uint32_t hvpm_peek_connection(const hvpm_machine *machine, uint64_t partition, uint32_t id,
                                          hvpm_connection *out);

/*
 * Stores the child with the lowest id above `previous` in `*child`, or 0 if there is none. Pass 0 for the
 * first.
 */
HVPM_RESULT uint32_t hvpm_child_after(const hvpm_machine *machine, uint64_t parent, uint64_t previous,
                                      uint64_t *child);

/*
 * Stores the partition that owns a page in `*owner`. Takes time linear in the number of partition ids ever
 * used: 1 to 3 milliseconds with 14,000 of them. For the pages of one partition, call hvpm_page_after().
 */
HVPM_RESULT uint32_t hvpm_page_owner(const hvpm_machine *machine, uint64_t page, uint64_t *owner);

/*
 * The four functions below list what a partition has. Each stores the one with the lowest number above
 * `previous`, or returns HVPM_STATUS_NONE if there is none, or no such partition. Pass HVPM_FIRST for the
 * first:
 *
 *     for (uint32_t vp = HVPM_FIRST; hvpm_vp_after(&machine, 2, vp, &vp) == HVPM_STATUS_OK;) ...
 *
 * After HVPM_EFFECT_PAGES, the pages of the deleted partition are among those of another one:
 *
 *     hvpm_page_run run;
 *     for (uint64_t last = HVPM_FIRST;
 *          hvpm_page_after(&machine, reply.effect.partition, last, &run) == HVPM_STATUS_OK;
 *          last = run.page + run.count - 1)
 *         if (!run.pooled) map(run.page, run.count);
 */

/* No page, processor, port or connection has this number. */
#define HVPM_FIRST UINT32_MAX

/* Stores the index of the next processor in `*vp`. */
HVPM_RESULT uint32_t hvpm_vp_after(const hvpm_machine *machine, uint64_t partition, uint32_t previous,
                                   uint32_t *vp);

/* Stores the id of the next port in `*id`. */
HVPM_RESULT uint32_t hvpm_port_after(const hvpm_machine *machine, uint64_t partition, uint32_t previous,
                                     uint32_t *id);

/* Stores the id of the next connection in `*id`. */
HVPM_RESULT uint32_t hvpm_connection_after(const hvpm_machine *machine, uint64_t partition,
                                           uint32_t previous, uint32_t *id);

/*
 * Stores the next page in `run->page`, and in `run->count` how many pages follow each other from it on, all of
 * them pooled or all loose. Takes time logarithmic in the number of the partition's runs.
 */
HVPM_RESULT uint32_t hvpm_page_after(const hvpm_machine *machine, uint64_t partition, uint64_t previous,
                                     hvpm_page_run *run);

/*
 * Stores EAX, EBX, ECX and EDX of CPUID leaf 0x40000003 for a guest: the low and the high half of its
 * partition's privilege mask, 0 and 0.
 */
HVPM_RESULT uint32_t hvpm_features(const hvpm_machine *machine, uint64_t partition, uint32_t eax_to_edx[4]);

/*
 * Writes the table of partitions, as `hvpm run --table` prints it, without a terminating zero, and stores its
 * length in `*len`. If `text_size` is smaller, returns HVPM_STATUS_SHORT and stores the length alone: pass
 * NULL and 0 to ask for it.
 */
HVPM_RESULT uint32_t hvpm_table(const hvpm_machine *machine, char *text, size_t text_size, size_t *len);

/* A buffer of this many bytes holds any explanation. */
#define HVPM_EXPLANATION 2048

/*
 * Writes what `hvpm explain` says of a hypercall: its fields and output in words, and for a refused one the
 * rule with the values that decided. Call it after the event and before the next one, with what the event was
 * called with. There is no terminating zero and no line feed. `text`, `text_size` and `len` are those of
 * hvpm_table().
 *
 *     HvCreatePartition flags 0x0: denied HV_STATUS_INSUFFICIENT_MEMORY, P24: too few pages are available
 *     (needs 2 pages, partition 2 has 0 available)
 */
HVPM_RESULT uint32_t hvpm_explain(const hvpm_machine *machine, hvpm_caller by, const hvpm_registers *registers,
                                  const void *input, size_t input_len, const hvpm_reply *reply, char *text,
                                  size_t text_size, size_t *len);

/* Like hvpm_explain(), of an access. `access`, `number` and `value` are those of hvpm_access_line(). */
HVPM_RESULT uint32_t hvpm_explain_access(const hvpm_machine *machine, hvpm_caller by, uint32_t access,
                                         uint32_t number, uint64_t value, const hvpm_reply *reply, char *text,
                                         size_t text_size, size_t *len);

/* Returns whether the machine implements this model-specific register. The VMM handles all others. */
HVPM_INLINE bool hvpm_is_msr(uint32_t msr);

/* Returns whether the machine implements the hypercall with this code, bits 15:0 of RCX. */
HVPM_INLINE bool hvpm_is_call(uint16_t code);

/* ---- Recording ---- */

/*
 * A machine whose `record` isn't NULL records each event, served or not: hypercalls, typed calls, lists,
 * accesses, and the events that hvpm_pages.h makes in a guest's place.
 *
 *     static hvpm_record record;                    // zeros
 *     machine.record = &record;                     // before hvpm_boot()
 *     ... hvpm_boot(&machine, &config) ...
 *     ... any events; after each, or after many:
 *     fwrite(record.script.at, 1, record.script.len, script), record.script.len = 0;
 *     fwrite(record.audit.at, 1, record.audit.len, audit), record.audit.len = 0;
 *     ... at the end:
 *     fprintf(audit, "events %" PRIu64 "\n", machine.events);
 *     hvpm_record_free(&record);
 *
 * `hvpm run SCRIPT --serial` then prints that audit. A record is of one machine. Its texts grow by realloc.
 * It never changes what a call does: if memory runs out, it ends, and `is_cut` is true. A script has a rep
 * call as one line, which executes all of its elements. So the record also ends where another event comes
 * between two elements, or where a list function stops before the end of its list and is called again.
 *
 * A script has at most 1,048,576 bytes: docs/EMBEDDING.md says how to use a longer one.
 */

/* Frees the texts of a record, and leaves it with zeros. */
HVPM_INLINE void hvpm_record_free(hvpm_record *record);

/*
 * The two functions below write an event as a line of a script, with its line feed and without a terminating
 * zero. Neither uses a machine; both allocate memory. Both store the line's length in `*len`. If `text_size`
 * is smaller, they return HVPM_STATUS_SHORT and store the length alone. Of a rep call the line of the first
 * element stands for all.
 */

/* A buffer of this many bytes holds the line of any access, and of any hypercall without input. */
#define HVPM_EVENT_LINE 96

/* A buffer of this many bytes holds the line of any hypercall, with 2 characters for each byte of input. */
#define HVPM_CALL_LINE (HVPM_EVENT_LINE + 2 * 4096)

/*
 * Writes the line of a hypercall, given as hvpm_hypercall() takes it. The line has the bytes of the call's
 * input list, the first 4,096 of them: no list that rule P6 lets pass is longer.
 */
HVPM_RESULT uint32_t hvpm_hypercall_line(hvpm_caller by, const hvpm_registers *registers, const void *input,
                                         size_t input_len, char *text, size_t text_size, size_t *len);

/* The accesses. */
enum hvpm_access {
    HVPM_READ_MSR = 0,   /* `number` is the MSR */
    HVPM_WRITE_MSR = 1,  /* `number` is the MSR, `value` what is written */
    HVPM_READ_SLOT = 2,  /* `number` is the SINT, 0 to 255 */
    HVPM_CLEAR_SLOT = 3, /* `number` is the SINT */
    HVPM_READ_FLAGS = 4, /* `number` is the SINT */
    HVPM_CLEAR_FLAG = 5, /* `number` is the SINT, `value` the event flag, 0 to 65,535 */
    HVPM_TAKE_INTERRUPT = 6
};

/*
 * Writes the line of an access. `access` is an enum hvpm_access, which says what `number` and `value` mean.
 * Arguments that it doesn't use are ignored. Returns HVPM_STATUS_NONE if there is no such access.
 */
HVPM_RESULT uint32_t hvpm_access_line(hvpm_caller by, uint32_t access, uint32_t number, uint64_t value,
                                      char *text, size_t text_size, size_t *len);

/* ---- Version and names ---- */

/* Returns the library's HVPM_VERSION, or this header's if the functions are inline. */
HVPM_INLINE uint32_t hvpm_version_number(void);

/*
 * The functions below return static strings, terminated by a zero and never NULL. For a number without a name
 * they return "unknown".
 */

/* Returns the library's version as "MAJOR.MINOR.PATCH", or this header's if the functions are inline. */
HVPM_INLINE const char *hvpm_version(void);

/* Returns the name of a status of this library, such as "HVPM_STATUS_OK" for 0. */
HVPM_INLINE const char *hvpm_status_name(uint32_t status);

/*
 * Returns the TLFS name of a hypercall's status, bits 15:0 of `result`, such as "HV_STATUS_ACCESS_DENIED" for
 * 6. It knows the statuses that the machine returns.
 */
HVPM_INLINE const char *hvpm_hv_status_name(uint32_t status);

/* Returns the name of a rule, such as "P12" for 12. The rules are 1 to 27. */
HVPM_INLINE const char *hvpm_rule_name(uint32_t rule);

/*
 * Returns what a rule demands, in one sentence of docs/POLICY.md, such as "The caller's partition is Active."
 * for 2.
 */
HVPM_INLINE const char *hvpm_rule_sentence(uint32_t rule);

#ifndef HVPM_NO_INLINE

/* The symbols of the static library. Call the functions above instead, which check for null pointers. */
uint32_t hv_embed_boot(hvpm_machine *machine, const hvpm_config *config);
uint32_t hv_embed_hypercall(hvpm_machine *machine, hvpm_caller by, const hvpm_registers *registers,
                            const uint8_t *input, size_t input_len, hvpm_reply *reply, uint8_t *line,
                            size_t line_size);
uint32_t hv_embed_run(hvpm_machine *machine, hvpm_caller by, const hvpm_registers *registers,
                      const uint8_t *input, size_t input_len, uint32_t most, hvpm_reply *reply,
                      uint8_t *outputs, size_t outputs_size, hvpm_run_done *done);
uint32_t hv_embed_read_msr(hvpm_machine *machine, hvpm_caller by, uint32_t msr, hvpm_reply *reply,
                           uint8_t *line, size_t line_size);
uint32_t hv_embed_write_msr(hvpm_machine *machine, hvpm_caller by, uint32_t msr, uint64_t value,
                            hvpm_reply *reply, uint8_t *line, size_t line_size);
uint32_t hv_embed_read_slot(hvpm_machine *machine, hvpm_caller by, uint8_t sint, hvpm_reply *reply,
                            uint8_t *line, size_t line_size);
uint32_t hv_embed_clear_slot(hvpm_machine *machine, hvpm_caller by, uint8_t sint, hvpm_reply *reply,
                             uint8_t *line, size_t line_size);
uint32_t hv_embed_read_flags(hvpm_machine *machine, hvpm_caller by, uint8_t sint, hvpm_reply *reply,
                             uint8_t *line, size_t line_size);
uint32_t hv_embed_clear_flag(hvpm_machine *machine, hvpm_caller by, uint8_t sint, uint16_t flag,
                             hvpm_reply *reply, uint8_t *line, size_t line_size);
uint32_t hv_embed_take_interrupt(hvpm_machine *machine, hvpm_caller by, hvpm_reply *reply, uint8_t *line,
                                 size_t line_size);
void hv_embed_destroy(hvpm_machine *machine);
uint32_t hv_embed_peek_slot(hvpm_machine *machine, hvpm_caller of, uint8_t sint, uint8_t *out);
uint32_t hv_embed_peek_flags(hvpm_machine *machine, hvpm_caller of, uint8_t sint, uint8_t *out);
uint32_t hv_embed_peek_msr(hvpm_machine *machine, hvpm_caller of, uint32_t msr, uint64_t *value);
uint32_t hv_embed_peek_pending(hvpm_machine *machine, hvpm_caller of, uint64_t *out);
uint32_t hv_embed_peek_partition(hvpm_machine *machine, uint64_t id, hvpm_partition *out);
uint32_t hv_embed_peek_port(hvpm_machine *machine, uint64_t partition, uint32_t id, hvpm_port *out);
uint32_t hv_embed_peek_connection(hvpm_machine *machine, uint64_t partition, uint32_t id,
                                  hvpm_connection *out);
uint32_t hv_embed_child_after(hvpm_machine *machine, uint64_t parent, uint64_t previous, uint64_t *child);
uint32_t hv_embed_page_owner(hvpm_machine *machine, uint64_t page, uint64_t *owner);
uint32_t hv_embed_vp_after(hvpm_machine *machine, uint64_t partition, uint32_t previous, uint32_t *vp);
uint32_t hv_embed_port_after(hvpm_machine *machine, uint64_t partition, uint32_t previous, uint32_t *id);
uint32_t hv_embed_connection_after(hvpm_machine *machine, uint64_t partition, uint32_t previous,
                                   uint32_t *id);
uint32_t hv_embed_page_after(hvpm_machine *machine, uint64_t partition, uint64_t previous,
                             hvpm_page_run *run);
uint32_t hv_embed_features(hvpm_machine *machine, uint64_t partition, uint32_t *out);
uint32_t hv_embed_table(hvpm_machine *machine, uint8_t *text, size_t text_size, size_t *len);
uint32_t hv_embed_explain(hvpm_machine *machine, hvpm_caller by, const hvpm_registers *registers,
                          const uint8_t *input, size_t input_len, const hvpm_reply *reply, uint8_t *text,
                          size_t text_size, size_t *len);
uint32_t hv_embed_explain_access(hvpm_machine *machine, hvpm_caller by, uint32_t access, uint32_t number,
                                 uint64_t value, const hvpm_reply *reply, uint8_t *text, size_t text_size,
                                 size_t *len);
uint32_t hv_embed_hypercall_line(hvpm_caller by, const hvpm_registers *registers, const uint8_t *input,
                                 size_t input_len, uint8_t *text, size_t text_size, size_t *len);
uint32_t hv_embed_access_line(hvpm_caller by, uint32_t access, uint32_t number, uint64_t value, uint8_t *text,
                              size_t text_size, size_t *len);
bool hv_embed_is_msr(uint32_t msr);
bool hv_embed_is_call(uint16_t code);

#include "hvpm_inline.h"

#endif

#ifdef __cplusplus
}
#define HVPM_HOLDS(what) static_assert(what, "the layout of the library")
#else
#define HVPM_HOLDS(what) _Static_assert(what, "the layout of the library")
#endif

HVPM_HOLDS(sizeof(hvpm_machine) == 32 && offsetof(hvpm_machine, events) == 8 &&
           offsetof(hvpm_machine, at) == 16);
HVPM_HOLDS(sizeof(hvpm_text) == 24 && sizeof(hvpm_record) == 1104 && offsetof(hvpm_record, vp) == 56);
HVPM_HOLDS(sizeof(hvpm_config) == 24 && offsetof(hvpm_config, pages) == 8 &&
           offsetof(hvpm_config, vps) == 16);
HVPM_HOLDS(sizeof(hvpm_caller) == 16 && offsetof(hvpm_caller, vp) == 8);
HVPM_HOLDS(sizeof(hvpm_registers) == 24 && offsetof(hvpm_registers, r8) == 16);
HVPM_HOLDS(sizeof(hvpm_run_done) == 8 && offsetof(hvpm_run_done, output_len) == 4);
HVPM_HOLDS(sizeof(hvpm_page_run) == 16 && offsetof(hvpm_page_run, count) == 8 &&
           offsetof(hvpm_page_run, pooled) == 12);
HVPM_HOLDS(sizeof(hvpm_partition) == 64 && offsetof(hvpm_partition, life) == 40 &&
           offsetof(hvpm_partition, connections) == 56);
HVPM_HOLDS(sizeof(hvpm_port) == 40 && offsetof(hvpm_port, peer) == 16 &&
           offsetof(hvpm_port, flag_count) == 38);
HVPM_HOLDS(sizeof(hvpm_connection) == 32 && offsetof(hvpm_connection, port_partition) == 16 &&
           offsetof(hvpm_connection, type) == 28);
HVPM_HOLDS(sizeof(hvpm_reply) == 360 && offsetof(hvpm_reply, result) == 8 &&
           offsetof(hvpm_reply, output) == 28 && offsetof(hvpm_reply, effect) == 288);
HVPM_HOLDS(sizeof(hvpm_effect) == 72 && offsetof(hvpm_effect, raised) == 24 &&
           offsetof(hvpm_effect, port) == 64);

#ifdef HVPM_NO_INLINE
/* The headers that include this one define their functions, over those declared above. */
#undef HVPM_INLINE
#define HVPM_INLINE static inline
#endif

#endif
