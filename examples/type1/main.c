/*
 * The host: serial ports, what the library calls, the record, interrupts, and the processors with the one
 * lock. Each host processor takes a virtual one that is ready, runs it to its exit, and serves that with the
 * lock held.
 */
#include "hv.h"
#include <stdarg.h>

enum { DEBUG_EXIT = 0xF4, IPI = 0x20, TIMER = 0x21, TICK = 10000000, SCRIPT_MAX = 900000 };

struct processor processors[PROCESSORS];

/* ---- text ---- */

static void out8(uint16_t port, uint8_t byte) { __asm__ volatile("outb %0, %1" ::"a"(byte), "Nd"(port)); }
static void put(uint16_t serial, char byte) {
    uint8_t state = 0;
    while (!(state & 0x20)) __asm__ volatile("inb %1, %0" : "=a"(state) : "Nd"((uint16_t)(serial + 5)));
    out8(serial, (uint8_t)byte);
}

static void put_number(uint16_t serial, uint64_t n, unsigned base) {
    if (n >= base) put_number(serial, n / base, base);
    put(serial, "0123456789abcdef"[n % base]);
}

void print(uint16_t serial, const char *format, ...) {
    va_list of;
    va_start(of, format);
    for (; *format; format++) {
        if (*format != '%') put(serial, *format);
        else if (*++format == 's') for (const char *s = va_arg(of, const char *); *s; s++) put(serial, *s);
        else put_number(serial, va_arg(of, uint64_t), *format == 'x' ? 16 : 10);
    }
    va_end(of);
}

void guest_says(struct vcpu *vcpu, char byte) { /* by lines, so that guests don't mix */
    if (byte != '\n') vcpu->text[vcpu->text_len++] = byte;
    if (byte != '\n' && vcpu->text_len < sizeof vcpu->text - 1) return;
    vcpu->text[vcpu->text_len] = 0, vcpu->text_len = 0;
    print(LOG, "%u.%u| %s\n", vcpu->of->id, (uint64_t)vcpu->pages.of.vp, vcpu->text);
}

_Noreturn void stop(const char *why, uint64_t number) {
    print(LOG, "stop: %s, %x\n", why, number);
    for (;;) out8(DEBUG_EXIT, 1);
}
_Noreturn void host_fault(const uint64_t *stack) {
    print(LOG, "vector %u, then %x, %x\n", stack[0], stack[1], stack[2]);
    stop("the hypervisor is wrong", 0);
}

/* ---- what the library calls: a heap of blocks of powers of two, each size with a list of free ones ---- */

void *memcpy(void *to, const void *from, size_t len) {
    void *const at = to;
    __asm__ volatile("rep movsb" : "+D"(to), "+S"(from), "+c"(len)::"memory");
    return at;
}
void *memset(void *to, int byte, size_t len) {
    void *const at = to;
    __asm__ volatile("rep stosb" : "+D"(to), "+c"(len) : "a"(byte) : "memory");
    return at;
}
void *memmove(void *to, const void *from, size_t len) {
    if ((uintptr_t)to - (uintptr_t)from >= len) return memcpy(to, from, len);
    while (len-- > 0) ((volatile char *)to)[len] = ((const char *)from)[len];
    return to;
}
void *memchr(const void *in, int byte, size_t len) {
    const uint8_t *at = in;
    while (len > 0 && *at != (uint8_t)byte) at++, len--;
    return len > 0 ? (void *)(uintptr_t)at : NULL;
}

struct block {
    uint64_t order;     /* its size is 2 to this */
    struct block *next; /* if it is free */
};
static uint8_t heap[16 << 20] __attribute__((aligned(16)));
static size_t heap_used;
static struct block *free_blocks[64];

void *malloc(size_t len) {
    uint64_t order = 5;
    while (order < 63 && (UINT64_C(1) << order) < len + 16) order++;
    struct block *b = free_blocks[order];
    if (b) free_blocks[order] = b->next;
    else if ((UINT64_C(1) << order) > sizeof heap - heap_used) return NULL;
    else b = (struct block *)(heap + heap_used), heap_used += UINT64_C(1) << order;
    b->order = order;
    return (uint8_t *)b + 16;
}
void free(void *at) {
    struct block *const b = (struct block *)((uint8_t *)at - 16);
    if (at) b->next = free_blocks[b->order], free_blocks[b->order] = b;
}
void *realloc(void *at, size_t len) {
    const size_t had = at ? (UINT64_C(1) << ((struct block *)((uint8_t *)at - 16))->order) - 16 : 0;
    void *const to = len <= had ? at : malloc(len);
    if (to && to != at) memcpy(to, at, had), free(at);
    return to;
}

/* ---- the record: events as a script, and the audit, each by a serial port of its own ---- */

static hvpm_record record;
static uint64_t script_len;

void start_record(void) { machine.record = &record; }
static void keep_text(hvpm_text *text, uint16_t serial) {
    for (size_t i = 0; i < text->len; i++) put(serial, text->at[i]);
    text->len = 0;
}

/* A script has at most 1 MiB, so the record is the first part of a long run. It has each rep call whole. */
static void keep_record(bool is_end) {
    if (!machine.record) return;
    if (record.is_cut) stop("no record", machine.events);
    script_len += record.script.len;
    keep_text(&record.script, SCRIPT), keep_text(&record.audit, AUDIT);
    if (!is_end && machine.events < RECORDED && script_len < SCRIPT_MAX) return;
    machine.record = NULL;
    hvpm_record_free(&record);
    print(AUDIT, "events %u\n", machine.events);
    print(LOG, "the record has the first %u events\n", machine.events);
}

/* ---- processors ---- */

static volatile int lock;
static void take_lock(void) {
    while (__atomic_exchange_n(&lock, 1, __ATOMIC_ACQUIRE))
        while (lock) __asm__ volatile("pause");
}
static void leave_lock(void) { __atomic_store_n(&lock, 0, __ATOMIC_RELEASE); }

static volatile uint32_t *apic(uint32_t at) { return (volatile uint32_t *)(uintptr_t)(0xFEE00000 + at); }
static void send(uint32_t apic_id, uint32_t what) {
    while (*apic(0x300) & 1 << 12) {}
    *apic(0x310) = apic_id << 24, *apic(0x300) = what;
}
void kick(const struct processor *processor) { send(processor->apic_id, 0x4000 | IPI); }

/* Interrupts and faults have stacks of their own: the library may use bytes below its stack pointer. */
static void start_interrupts(struct processor *me, unsigned index) {
    extern const uint8_t exceptions[], on_interrupt[], on_nmi[];
    extern uint64_t gdt[];
    static uint64_t idt[512];
    const uint64_t tss = (uint64_t)me->tss, tops[] = {(uint64_t)me->stack[1], (uint64_t)me->stack[2]};
    const struct {
        uint16_t limit;
        uint64_t at;
    } __attribute__((packed)) idtr = {sizeof idt - 1, (uint64_t)idt};
    for (unsigned i = 0; i < 256; i++) {
        const uint64_t at = (uint64_t)(i == 2 ? on_nmi : i < 32 ? exceptions + 16 * i : on_interrupt);
        const uint64_t kind = 0x8E00 | (i == 2 ? 2 : 1); /* a gate of an interrupt, and its stack */
        idt[2 * i] = (at & 0xFFFF) | 8 << 16 | kind << 32 | at >> 16 << 48, idt[2 * i + 1] = at >> 32;
    }
    memcpy(&me->tss[9], tops, sizeof tops);
    gdt[3 + 2 * index] = 103 | (tss & 0xFFFFFF) << 16 | UINT64_C(0x89) << 40 | (tss >> 24 & 0xFF) << 56;
    gdt[4 + 2 * index] = tss >> 32;
    __asm__ volatile("lidt %0; ltr %w1" ::"m"(idtr), "r"(24 + 16 * index));
    out8(0x21, 0xFF), out8(0xA1, 0xFF); /* no interrupt but the local APIC's */
    me->apic_id = *apic(0x20) >> 24;
    *apic(0xF0) = 0x1FF, *apic(0x3E0) = 0xB, *apic(0x320) = 1 << 17 | TIMER, *apic(0x380) = TICK;
}

/* The one that this processor has, or the next that is ready. */
static struct vcpu *pick(struct processor *me) {
    struct vcpu *v = me->has;
    if (v && v->on == me && v->state == READY) return v;
    if (v && v->on == me) v->on = NULL;
    const size_t from = v ? (size_t)(v - vcpus) + 1 : 0;
    for (size_t i = 0; i < VCPUS; i++) {
        v = &vcpus[(from + i) % VCPUS];
        if (v->state == READY && !v->on) return v;
    }
    return NULL;
}

_Noreturn static void run(struct processor *me) {
    uint64_t at_exit = 0;
    for (take_lock();;) {
        struct vcpu *const v = pick(me);
        if (!v) {
            me->is_idle = true, at_exit = 0;
            leave_lock();
            __asm__ volatile("sti; hlt; cli" ::: "memory"); /* until an IPI or a tick */
            take_lock();
            me->is_idle = false;
            continue;
        }
        svm_inject(v);
        v->vmcb->flush = v->flush || v->last != me, v->flush = false;
        v->on = v->last = me, me->has = v, me->is_in_guest = true;
        if (at_exit != 0) cost.cycles += rdtsc() - at_exit;
        leave_lock();
        svm_run(me, v);
        at_exit = rdtsc(), me->is_in_guest = false;
        take_lock();
        cost.locking += rdtsc() - at_exit, cost.exits++;
        if (v->state == READY) serve_exit(v);
        else v->on = NULL; /* it was deleted meanwhile */
        keep_record(false);
    }
}

/* The root is done. The pages are where the library has them. */
_Noreturn void finish(void) {
    keep_record(true);
    for (uint64_t page = 0, owner; page < PAGES; page++)
        if (hvpm_page_owner(&machine, page, &owner) || owner_of(page)->id != owner)
            stop("a page is lost", page);
    print(LOG, "%u events, %u exits; heap %u bytes\n", machine.events, cost.exits, (uint64_t)heap_used);
    print(LOG, "cycles of an exit: %u, of which the library has %u and the lock %u\n",
          cost.cycles / cost.exits, cost.library / cost.exits, cost.locking / cost.exits);
    for (;;) out8(DEBUG_EXIT, 0x10);
}

_Noreturn void processor_main(unsigned index) {
    extern const uint8_t trampoline[], trampoline_end[];
    static volatile uint32_t others;
    struct processor *const me = &processors[index];
    uint32_t a = 1, b, c, d;
    start_interrupts(me, index);
    svm_start_host(me); /* it keeps TR */
    if (index == 0) {
        __asm__("cpuid" : "+a"(a), "=b"(b), "=c"(c), "=d"(d));
        const uint32_t count = d >> 28 & 1 ? b >> 16 & 0xFF : 1;
        if (count > PROCESSORS) stop("too many processors", count);
        memcpy((void *)0x8000, trampoline, (size_t)(trampoline_end - trampoline));
        send(0, 0xC4500), send(0, 0xC4608); /* INIT and SIPI to all others */
        while (others + 1 < count) __asm__ volatile("pause");
        print(LOG, "hypervisor: %u processors\n", (uint64_t)count);
        make_root();
    } else __atomic_add_fetch(&others, 1, __ATOMIC_SEQ_CST);
    run(me);
}
