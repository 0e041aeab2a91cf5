/*
 * The guests: the root makes children by hypercalls, and a child does what the root's messages say. One image
 * is for all, and runs wherever it is put: the root copies it into pages that it then gives to a child. A
 * guest sees each page at the page's number. Accessed and dirty bits are set from the start.
 */
#include <stdint.h>

#ifndef MESSAGES
#define MESSAGES 100000 /* of the last exchange */
#endif
enum { PAGE = 4096, IMAGE = 16, SIZE = 64, PLAYER = 256, OTHER = 384, ROUNDS = 100, ATTACKS = 200 };
enum { COMMANDS = 2, TALK = 3, SIGNALS = 4, VECTOR = 0x30 };          /* SINT s has VECTOR + s */
enum { PING = 1, PONG, SIGNAL, ANSWER, ATTACK, SHOUT, HELLO };        /* commands, and the reports of them */
enum { REPORT = 1, FULL = 0x13, NOT_READY = 0x18, MAGIC = 0x5EC7E7 }; /* a connection; statuses */
#define PLAYER_MASK 0x3200000064 /* SynIC, hypercall page, VP index; the partition's id, posts, signals */
#define OTHER_MASK 0x3200000024  /* the same without the VP index */

struct frame {
    uint64_t ip, cs, flags, sp, ss;
};
static struct local { /* a processor's own */
    uint8_t input[PAGE], output[PAGE], messages[PAGE], flags[PAGE], stack[PAGE], user_stack[PAGE];
    volatile uint64_t vectors[16], fault, resume, kernel_sp;
    uint64_t signals; /* taken so far */
    uint32_t tss[26];
} __attribute__((aligned(4096))) locals[2];
static uint8_t code[PAGE] __attribute__((aligned(4096)));
static uint64_t gdt[9], idt[512], seed;
extern const uint8_t image_end[] __attribute__((visibility("hidden")));
void start(void) __attribute__((visibility("hidden")));

static void wrmsr(uint32_t msr, uint64_t v) {
    __asm__ volatile("wrmsr" ::"c"(msr), "a"((uint32_t)v), "d"((uint32_t)(v >> 32)) : "memory");
}
static void out(uint16_t port, char byte) { __asm__ volatile("outb %0, %1" ::"a"(byte), "Nd"(port)); }
static void say(const char *s) {
    while (*s) out(0xE9, *s++);
}
static void number(uint64_t n) {
    if (n >= 16) number(n / 16);
    out(0xE9, "0123456789abcdef"[n % 16]);
}
static void tell(const char *what, uint64_t n) { say(what), say(" 0x"), number(n), say("\n"); }

/* ---- a processor: its tables, faults and interrupts ---- */

static struct local *me(void) {
    uint16_t tr;
    __asm__ volatile("str %0" : "=r"(tr)::"memory");
    return &locals[(tr - 0x28) / 16];
}

/* A fault that is expected goes on at `resume`, and in the kernel. */
static void on_fault(struct frame *f, unsigned vector) {
    struct local *const l = me();
    if (l->resume == 0) tell("fault", vector), tell("at", f->ip);
    while (l->resume == 0) {}
    if (f->cs & 3) f->cs = 8, f->ss = 16, f->sp = l->kernel_sp;
    l->fault = vector, f->ip = l->resume, l->resume = 0;
}
#define HANDLER __attribute__((interrupt)) static void
HANDLER on_ud(struct frame *f) { on_fault(f, 6); }
HANDLER on_gp(struct frame *f, uint64_t error) { on_fault(f, error == 0 ? 13 : 99); }
HANDLER on_command(struct frame *f) { (void)f, me()->vectors[COMMANDS]++; }
HANDLER on_talk(struct frame *f) { (void)f, me()->vectors[TALK]++; }
HANDLER on_signal(struct frame *f) { (void)f, me()->vectors[SIGNALS]++; }

/* Which fault an instruction meets; 0 if none. */
#define FAULT_OF(instruction, ...)                                                                           \
    ({                                                                                                       \
        struct local *const l = me();                                                                        \
        l->fault = 0;                                                                                        \
        __asm__ volatile("lea 1f(%%rip), %%r11\n mov %%r11, %0\n mov %%rsp, %1\n" instruction "\n1:"         \
                         : "=m"(l->resume), "=m"(l->kernel_sp)                                               \
                         : __VA_ARGS__                                                                       \
                         : "r11", "memory");                                                                 \
        l->resume = 0, l->fault;                                                                             \
    })

/* A process makes a hypercall: #UD. If that is served, HLT gives #GP. */
static uint64_t fault_of_process(void) {
    return FAULT_OF("push $0x23\n push %2\n push $0x202\n push $0x1B\n lea 2f(%%rip), %%r11\n push %%r11\n"
                    "iretq\n 2: vmmcall\n hlt", "r"(me()->user_stack + PAGE), "a"(0));
}

static void set_gate(unsigned vector, const void *at) {
    const uint64_t a = (uint64_t)at;
    idt[2 * vector] = (a & 0xFFFF) | 8 << 16 | UINT64_C(0x8E) << 40 | (a >> 16) << 48;
    idt[2 * vector + 1] = a >> 32;
}

static void start_synic(void) {
    wrmsr(0x40000000, MAGIC), wrmsr(0x40000001, (uint64_t)code | 1);
    wrmsr(0x40000083, (uint64_t)me()->messages | 1), wrmsr(0x40000082, (uint64_t)me()->flags | 1);
    for (unsigned sint = COMMANDS; sint <= SIGNALS; sint++) wrmsr(0x40000090 + sint, VECTOR + sint);
    wrmsr(0x40000080, 1);
}

static void start_processor(unsigned vp) {
    const uint64_t tss = (uint64_t)locals[vp].tss, top = (uint64_t)(locals[vp].stack + PAGE);
    struct {
        uint16_t limit;
        uint64_t at;
    } __attribute__((packed)) g = {sizeof gdt - 1, (uint64_t)gdt}, i = {sizeof idt - 1, (uint64_t)idt};
    gdt[1] = 0x00AF9B000000FFFF, gdt[2] = 0x00CF93000000FFFF; /* code and data: of the kernel, of a process */
    gdt[3] = 0x00AFFB000000FFFF, gdt[4] = 0x00CFF3000000FFFF;
    gdt[5 + 2 * vp] = 103 | tss << 16 | UINT64_C(0x89) << 40, locals[vp].tss[1] = (uint32_t)top;
    set_gate(6, on_ud), set_gate(13, on_gp), set_gate(VECTOR + COMMANDS, on_command);
    set_gate(VECTOR + TALK, on_talk), set_gate(VECTOR + SIGNALS, on_signal);
    __asm__ volatile("lgdt %0; lidt %1; ltr %w2" ::"m"(g), "m"(i), "r"(0x28 + 16 * vp) : "memory");
    start_synic();
    __asm__ volatile("sti");
}

/* ---- hypercalls, messages and signals ---- */

static uint64_t hypercall(uint64_t rcx, uint64_t rdx, uint64_t output) {
    uint64_t rax;
    register uint64_t r8 __asm__("r8") = output;
    __asm__ volatile("call *%4" : "=a"(rax), "+c"(rcx), "+d"(rdx), "+r"(r8) : "r"(code) : "memory");
    return rax & 0xFFFF;
}
static uint64_t call(uint64_t rcx) { return hypercall(rcx, (uint64_t)me()->input, (uint64_t)me()->output); }
static void put(unsigned at, uint64_t value) { *(uint64_t *)(me()->input + at) = value; }

static uint64_t post_once(uint32_t connection, uint64_t what, uint64_t n) {
    put(0, connection), put(8, 1 | UINT64_C(24) << 32), put(16, what), put(24, n), put(32, MAGIC);
    return call(0x5C);
}
static void post(uint32_t connection, uint64_t what, uint64_t n) {
    uint64_t status;
    while ((status = post_once(connection, what, n)) == FULL || status == NOT_READY)
        __asm__ volatile("pause");
    if (status != 0) tell("a post has status", status);
}
static uint64_t signal(uint32_t connection, uint64_t flag) {
    return hypercall(0x1005D, connection | flag << 32, 0);
}

static void wait_for(const volatile uint32_t *word) {
    __asm__ volatile("cli");
    while (*word == 0) __asm__ volatile("sti; hlt; cli" ::: "memory");
    __asm__ volatile("sti");
}

/* Takes the next message of a SINT, and writes EOM if another one waits. Answers its port. */
static uint64_t take(unsigned sint, uint64_t message[3]) {
    volatile uint64_t *const slot = (uint64_t *)(me()->messages + 256 * sint);
    wait_for((uint32_t *)slot); /* its type */
    const uint64_t port = slot[1];
    for (unsigned i = 0; i < 3; i++) message[i] = slot[2 + i];
    __atomic_store_n((uint32_t *)slot, 0, __ATOMIC_SEQ_CST);
    if (slot[0] >> 40 & 1) wrmsr(0x40000084, 0);
    return port;
}
static uint32_t take_flags(void) {
    uint32_t *const flags = (uint32_t *)(me()->flags + 256 * SIGNALS);
    wait_for(flags);
    return __atomic_exchange_n(flags, 0, __ATOMIC_SEQ_CST);
}

/* ---- a child ---- */

static uint64_t draw(uint64_t below) {
    seed ^= seed << 13, seed ^= seed >> 7, seed ^= seed << 17;
    return (seed >> 20) % below;
}
static uint64_t any(void) {
    const uint64_t numbers[] = {draw(6), UINT64_C(1) << draw(64), 0 - draw(3), draw(UINT64_MAX)};
    return numbers[draw(4)];
}

/* Any call with any list: the neighbor's ids, the root's, its own. Any MSR. Memory of others. Instructions of
 * a hypervisor. Answers how often it had what it must not have. */
static uint64_t attack(uint64_t count) {
    uint64_t wrong = 0;
    uint8_t *const input = me()->input;
    for (; count > 0; count--) {
        const uint64_t other = ((uint64_t)input / PAGE + SIZE + draw(0x10000)) * PAGE;
        const uint64_t rcx = (draw(8) ? 0x40 + draw(0x20) : any()) | draw(2) << 16 | draw(2) * draw(4) << 32;
        const uint32_t msr = draw(2) ? 0x40000000 + (uint32_t)draw(0x100) : (uint32_t)any();
        for (unsigned at = 0; at < 64; at += 8) put(at, any());
        (void)hypercall(rcx, draw(8) ? (uint64_t)input : any(), draw(2) ? (uint64_t)me()->output : other);
        if (msr - 0x40000080 > 3) (void)FAULT_OF("wrmsr", "c"(msr), "a"((uint32_t)any()), "d"(0));
        wrong += FAULT_OF("wrmsr", "c"(0x40000002), "a"(0), "d"(0)) != 13;
        wrong += FAULT_OF("wrmsr", "c"(0xC0000080), "a"(0), "d"(0)) != 13;
        wrong += FAULT_OF("mov (%2), %%r11", "r"(other)) != 13;
        wrong += FAULT_OF("movb $1, (%2)", "r"(other)) != 13;
        wrong += FAULT_OF("vmrun %%rax", "a"(input)) != 6;
        wrong += FAULT_OF("mov %2, %%dr0", "r"(other)) != 6;
        wrong += fault_of_process() != 6;
        __asm__ volatile("pause"); /* others have their turn, even on one host processor */
    }
    start_synic();
    return wrong;
}

/* XMM7 is this processor's: another one has its own, and the hypervisor changes none. */
static uint64_t talk(unsigned command, uint64_t count, uint32_t connection) {
    uint64_t m[3], wrong = 0, kept;
    __asm__ volatile("movq %0, %%xmm7" ::"r"(me()));
    for (uint64_t n = 1; n <= count; n++) {
        if (command == PING) post(connection, PING, n);
        take(TALK, m);
        wrong += m[1] != n || m[2] != MAGIC;
        if (command == PONG) post(connection, PONG, n);
    }
    __asm__ volatile("movq %%xmm7, %0" : "=r"(kept));
    return wrong + (kept != (uint64_t)me());
}

/* Each signal is one flag, and one vector, which has come at the latest after one more exit. */
static uint64_t signals(unsigned command, uint64_t count, uint32_t connection) {
    uint64_t wrong = 0;
    for (uint64_t n = 1; n <= count; n++) {
        if (command == SIGNAL) wrong += signal(connection, n % 32) != 0;
        wrong += take_flags() != 1u << n % 32;
        if (command == ANSWER) wrong += signal(connection, n % 32) != 0;
    }
    __asm__ volatile("pause");
    return wrong + (me()->vectors[SIGNALS] != (me()->signals += count));
}

/* It posts until it may not, says with which status, and runs on until it is finalized. */
static void shout(uint32_t connection) {
    uint64_t status;
    while ((status = post_once(REPORT, SHOUT, 0)) == 0 || status == FULL) __asm__ volatile("pause");
    (void)signal(connection, status);
    for (;;) *(volatile uint64_t *)locals[1].stack = MAGIC;
}

/* The first command comes while IF is 0. Its vector comes when that ends, and not before: the guest does
 * nothing more for it. */
static void child(unsigned vp) {
    uint64_t m[3], wrong = fault_of_process() != 6;
    uint32_t name[5] = {0x40000000};
    __asm__ volatile("cpuid" : "+a"(name[0]), "=b"(name[1]), "=c"(name[2]), "=d"(name[3]));
    name[4] = 0, wrong += call(0x46) != 0;
    say((const char *)(name + 1)), tell(": partition and processor", *(uint64_t *)me()->output << 4 | vp);
    __asm__ volatile("cli");
    post(REPORT, HELLO, 0);
    do __asm__ volatile("pause");
    while (*(volatile uint32_t *)(me()->messages + 256 * COMMANDS) == 0);
    __asm__ volatile("pause");
    wrong += me()->vectors[COMMANDS] != 0;
    __asm__ volatile("sti");
    for (unsigned n = 1u << 28; n > 0 && me()->vectors[COMMANDS] == 0; n--) {}
    wrong += me()->vectors[COMMANDS] != 1;
    for (;; wrong = 0) {
        take(COMMANDS, m); /* a command, and how often with which connection */
        const uint64_t count = m[1] >> 32;
        const uint32_t connection = (uint32_t)m[1];
        if (m[0] == PING || m[0] == PONG) wrong += talk((unsigned)m[0], count, connection);
        else if (m[0] == SIGNAL || m[0] == ANSWER) wrong += signals((unsigned)m[0], count, connection);
        else if (m[0] == ATTACK) wrong += attack(count);
        else if (m[0] == SHOUT) shout(connection);
        post(REPORT, m[0], wrong);
    }
}

/* ---- the root ---- */

static void must(const char *what, uint64_t status) {
    if (status != 0) say(what), tell(" has status", status), out(0xF4, 0);
}

/* A port at a processor of `to`, of messages or of 32 event flags, and a connection to it from `from`. */
static void link(uint64_t to, uint64_t vp, uint64_t sint, uint64_t port, uint64_t from, uint64_t connection) {
    const uint64_t type = sint == SIGNALS ? 2 : 1;
    put(0, to), put(8, port), put(16, from), put(24, type), put(32, sint | vp << 32), put(40, 32 << 16);
    must("HvCreatePort", call(0x95));
    put(0, from), put(8, connection), put(16, to), put(24, port), put(32, type);
    must("HvConnectPort", call(0x96));
}

/* RDI, RSP, and RBX and RIP, which are where its page tables and its code are. */
static void start_child(uint64_t id, uint64_t vp, uint64_t base) {
    const uint64_t names[] = {0x20007, 0x20004, 0x20003, 0x20010};
    const uint64_t values[] = {vp + 1, (base + SIZE - 2 * vp) * PAGE, base * PAGE, (base + IMAGE) * PAGE};
    must("HvCreateVp", hypercall(0x1004E, id, vp));
    link(id, vp, COMMANDS, 1 + vp, 1, 16 * id + vp);
    put(0, id), put(8, vp);
    for (unsigned i = 0; i < 4; i++)
        put(16 + 32 * i, names[i]), put(32 + 32 * i, values[i]), put(40 + 32 * i, 0);
    must("HvSetVpRegisters", call(0x51 | UINT64_C(4) << 32));
}

/* Its memory is SIZE pages from `base` on: page tables, the image, and stacks at the end. */
static void make_child(uint64_t id, uint64_t base, uint64_t mask, unsigned vps) {
    uint64_t *const t = (uint64_t *)(base * PAGE), *to = t + IMAGE * 512;
    for (const uint64_t *from = (const uint64_t *)start; from < (const uint64_t *)image_end;) *to++ = *from++;
    t[0] = (base + 1) * PAGE | 0x67, t[512] = (base + 2) * PAGE | 0x67;
    for (uint64_t i = 0; i < 512; i++) t[1024 + i] = i << 21 | 0xE7;
    must("HvCreatePartition", call(0x40)), must("its id", *(uint64_t *)me()->output != id);
    put(0, id), put(8, 0x10000), put(16, mask);
    must("HvSetPartitionProperty", call(0x45));
    for (unsigned i = 0; i < SIZE; i++) put(8 + 8 * i, base + i);
    must("HvDepositMemory", call(0x48 | (uint64_t)SIZE << 32));
    must("a page of the child", FAULT_OF("mov (%2), %%r11", "r"(base * PAGE)) != 13); /* it is gone here */
    must("HvInitializePartition", hypercall(0x10041, id, 0));
    link(1, 0, COMMANDS, id, id, REPORT);
    for (unsigned vp = 0; vp < vps; vp++) start_child(id, vp, base);
}

/* Waits for a report, and answers its number. Other reports are kept; what else comes is none. */
static uint64_t report(uint64_t id, unsigned what) {
    static struct {
        uint64_t count, sum;
    } reports[5][HELLO + 1];
    uint64_t m[3];
    while (reports[id][what].count == 0) {
        const uint64_t from = take(COMMANDS, m);
        if (from < 2 || from > 4 || m[0] == 0 || m[0] > HELLO || m[2] != MAGIC) continue;
        reports[from][m[0]].count++, reports[from][m[0]].sum += m[1];
    }
    const uint64_t sum = reports[id][what].sum;
    reports[id][what].count--, reports[id][what].sum = 0;
    return sum;
}

static void command(unsigned who, unsigned what, uint64_t count, uint32_t connection) {
    post(who, what, count << 32 | connection); /* 0x21 is processor 1 of partition 2 */
}

/* Two processors do something with one another. */
static void both(const char *what, unsigned a, unsigned command_a, uint32_t connection_a, unsigned b,
                 unsigned command_b, uint32_t connection_b, uint64_t count) {
    command(b, command_b, count, connection_b), command(a, command_a, count, connection_a);
    const uint64_t wrong = report(a / 16, command_a) + report(b / 16, command_b);
    say(what), say(" 0x"), number(2 * count), tell(", wrong", wrong);
}

static void root(void) {
    uint64_t left = 0;
    make_child(2, PLAYER, PLAYER_MASK, 2), make_child(3, OTHER, OTHER_MASK, 1);
    report(2, HELLO), report(2, HELLO), report(3, HELLO);
    link(3, 0, TALK, 0x20, 2, 0x20), link(2, 0, TALK, 0x21, 3, 0x20);
    link(3, 0, SIGNALS, 0x22, 2, 0x22), link(2, 1, SIGNALS, 0x23, 3, 0x22);
    link(2, 1, TALK, 0x24, 2, 0x24), link(2, 0, TALK, 0x25, 2, 0x25), link(1, 0, SIGNALS, 0x30, 3, 0x30);
    both("messages between 2.0 and 3.0:", 0x20, PING, 0x20, 0x30, PONG, 0x20, ROUNDS);
    both("signals between 2.1 and 3.0:", 0x21, SIGNAL, 0x22, 0x30, ANSWER, 0x22, ROUNDS);

    must("HvDisconnectPort", hypercall(0x1005B, 3, 0x20) | hypercall(0x1005B, 3, 0x22));
    command(0x30, ATTACK, ATTACKS, 0);
    both("messages between 2.0 and 2.1, while 3 attacks:", 0x20, PING, 0x24, 0x21, PONG, 0x25, 4 * ROUNDS);
    tell("3 attacked, wrong", report(3, ATTACK));

    command(0x30, SHOUT, 0, 0x30);
    for (unsigned i = 0; i < 20; i++) report(3, SHOUT);
    put(0, 3), put(8, 0x10000), put(16, OTHER_MASK & ~(UINT64_C(1) << 36));
    must("HvSetPartitionProperty", call(0x45));
    tell("3 is narrowed, and its posts have status", (uint64_t)__builtin_ctz(take_flags()));
    must("HvFinalizePartition", hypercall(0x10042, 3, 0));
    must("HvDeletePartition", hypercall(0x10043, 3, 0));
    const uint64_t *at = (uint64_t *)(OTHER * PAGE);
    for (unsigned i = 0; i < SIZE * PAGE / 8; i++) left += at[i] != 0;
    tell("3 is deleted; words left in its pages:", left);

    make_child(4, OTHER, OTHER_MASK, 1);
    report(4, HELLO);
    link(4, 0, TALK, 0x20, 2, 0x26), link(2, 0, TALK, 0x27, 4, 0x20);
    both("messages between 2.0 and 4.0:", 0x20, PING, 0x26, 0x40, PONG, 0x20, MESSAGES / 2);
    out(0xF4, 0);
}

/* `what` is 0 for the root, and 1 + its index for a child's processor. */
__attribute__((used)) static void guest_main(uint64_t what) {
    const unsigned vp = what == 0 ? 0 : (unsigned)what - 1;
    seed = MAGIC;
    start_processor(vp);
    if (what == 0) root();
    else child(vp);
}
__attribute__((naked, section(".text.start"))) void start(void) { __asm__("call guest_main"); }
