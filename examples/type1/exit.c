/*
 * What a guest's exit comes to: CPUID, MSRs, hypercalls, and the effects of events on pages, processors and
 * vectors. The caller holds the lock until all of it is done.
 */
#include "hv.h"

enum { MSR_SIEFP = 0x40000082, MSR_SIMP = 0x40000083, MSR_EOM = 0x40000084, SET_VP_REGISTERS = 0x51 };
enum { REGISTER_RAX = 0x20000, REGISTER_RIP = 0x20010, PORT_CONSOLE = 0xE9, PORT_END = 0xF4 };

struct vcpu vcpus[VCPUS];
hvpm_machine machine = HVPM_EMPTY;
struct cost cost;

/* A call of the library: LIBRARY(hvpm_..). Any status but OK is a mistake of this program. */
#define LIBRARY(call) (begun = rdtsc(), status = call, cost.library += rdtsc() - begun)
#define MUST(call) (LIBRARY(call), must())
static uint64_t begun;
static uint32_t status;
static void must(void) {
    if (status != HVPM_STATUS_OK) stop(hvpm_status_name(status), status);
}

static uint64_t mask_of(const struct vcpu *vcpu) {
    hvpm_partition is = {0};
    MUST(hvpm_peek_partition(&machine, vcpu->of->id, &is));
    return is.mask;
}

/* ---- memory ---- */

/* Where an address of a guest is, up to the end of its page; NULL if the guest has no such page. */
static uint8_t *guest_memory(const struct vcpu *vcpu, uint64_t at) {
    return owner_of(at / PAGE) == vcpu->of ? memory_of(at / PAGE) + at % PAGE : NULL;
}

static struct partition *partition_of(uint64_t id) {
    struct partition *row = NULL;
    for (struct partition *p = partitions; p < partitions + PARTITIONS; p++) {
        if (p->pages != 0 && p->id == id) return p;
        if (p->pages == 0) row = p;
    }
    if (!row) stop("too many partitions", id);
    *row = (struct partition){.id = id};
    return row;
}

/* Waits until no processor runs it. When one does again, it has the new translations. */
static void expel(struct vcpu *vcpu) {
    vcpu->flush = true;
    if (!vcpu->on || !vcpu->on->is_in_guest) return;
    kick(vcpu->on);
    while (vcpu->on->is_in_guest) __asm__ volatile("pause");
}

/* The message page and the flags page are where SIMP and SIEFP say, if that is the guest's memory now. */
static void place_pages(struct vcpu *vcpu) {
    const uint32_t msrs[2] = {MSR_SIMP, MSR_SIEFP};
    uint8_t *at[2] = {NULL, NULL};
    for (unsigned i = 0; i < 2; i++) {
        uint64_t value = 0;
        MUST(hvpm_peek_msr(&machine, vcpu->pages.of, msrs[i], &value));
        if (value & 1) at[i] = guest_memory(vcpu, value & ~UINT64_C(4095));
    }
    MUST(hvpm_pages_move(&machine, &vcpu->pages, at[0], at[1]));
}

/* A page has another owner. Nobody else may still reach it, by a translation or by SIMP and SIEFP. What comes
 * back from a child, which may be deleted by now, is zeroed: the child's bytes are its own. */
static void give_page(uint64_t page, struct partition *to) {
    struct partition *const from = owner_of(page);
    hvpm_partition is;
    if (from == to) return;
    map_page(from, page, false);
    for (struct vcpu *v = vcpus; v < vcpus + VCPUS; v++)
        if (v->state != FREE && v->of == from) expel(v), place_pages(v);
    if (hvpm_peek_partition(&machine, from->id, &is) != HVPM_STATUS_OK || is.parent == to->id)
        memset(memory_of(page), 0, PAGE);
    map_page(to, page, true);
}

/* ---- effects ---- */

static struct vcpu *find(uint64_t partition, uint32_t vp) {
    for (struct vcpu *v = vcpus; v < vcpus + VCPUS; v++)
        if (v->state != FREE && v->of->id == partition && v->pages.of.vp == vp) return v;
    return NULL;
}

static struct vcpu *create(uint64_t partition, uint32_t vp) {
    struct vcpu *v = vcpus;
    while (v < vcpus + VCPUS && (v->state != FREE || v->on)) v++;
    if (v == vcpus + VCPUS) stop("too many processors", vp);
    *v = (struct vcpu){.state = CREATED, .of = partition_of(partition), .pages.of = {partition, vp}};
    return v;
}

static void deliver(struct vcpu *vcpu, const hvpm_effect *effect) {
    uint8_t vector = 0;
    MUST(hvpm_pages_after(&machine, &vcpu->pages, effect));
    for (;;) {
        MUST(hvpm_pages_vector(&machine, &vcpu->pages, &vector));
        if (vector == 0) break;
        make_pending(vcpu, vector);
        if (vcpu->state == HALTED && (vcpu->vmcb->rflags & RFLAGS_IF)) vcpu->state = READY;
    }
    if (vcpu->state == READY && vcpu->on && vcpu->on->is_in_guest) kick(vcpu->on);
    for (struct processor *p = processors; vcpu->state == READY && !vcpu->on && p < processors + started; p++)
        if (p->is_idle) {
            p->is_idle = false, kick(p);
            return;
        }
}

static void after(const hvpm_effect *e) {
    struct vcpu *const one = find(e->partition, e->vp);
    switch (e->kind) {
    case HVPM_EFFECT_NOTHING: return;
    case HVPM_EFFECT_SYNIC:
        if (one) deliver(one, e);
        return;
    case HVPM_EFFECT_PAGE: give_page(e->page, partition_of(e->partition)); return;
    case HVPM_EFFECT_PAGES:
        for (uint64_t page = 0; page < PAGES; page++)
            if (owner_of(page)->id == e->page) give_page(page, partition_of(e->partition));
        return;
    case HVPM_EFFECT_PROCESSOR:
        if (one) expel(one), one->state = FREE;
        else create(e->partition, e->vp);
        return;
    case HVPM_EFFECT_PARTITION:
        for (struct vcpu *v = vcpus; v < vcpus + VCPUS; v++)
            if (v->state != FREE && v->of->id == e->partition) expel(v), v->state = FREE;
        return;
    }
}

/* Guests let messages go without an exit. */
static void before(void) {
    for (struct vcpu *v = vcpus; v < vcpus + VCPUS; v++)
        if (v->state != FREE && v->pages.shown != 0) MUST(hvpm_pages_before(&machine, &v->pages));
}

/* ---- exits ---- */

/* The guest goes on behind the instruction. */
static void skip(struct vcpu *vcpu, unsigned len) { vcpu->vmcb->rip += len, vcpu->vmcb->shadow = 0; }

static void serve_cpuid(struct vcpu *vcpu) {
    uint32_t leaf = (uint32_t)vcpu->r[RAX], a = leaf, b = 0, c = 0, d = 0, leaves[4];
    if (hvpm_guest_cpuid(leaf, mask_of(vcpu), 0, leaves))
        a = leaves[0], b = leaves[1], c = leaves[2], d = leaves[3];
    else if (leaf <= 1 || (leaf >= 0x80000000 && leaf <= 0x80000008))
        __asm__ volatile("cpuid" : "+a"(a), "=b"(b), "+c"(c), "=d"(d));
    else a = 0;
    if (leaf == 0) a = 1; /* the last of these leaves */
    /* a hypervisor, and no MONITOR, VMX, x2APIC, XSAVE, AVX, APIC, MTRR; no SVM, RDTSCP */
    if (leaf == 1) b &= 0xFFFF, c = (c & ~0x3C200028u) | 1u << 31, d &= ~(1u << 9 | 1u << 12);
    if (leaf == 0x80000001) c &= ~4u, d &= ~(1u << 9 | 1u << 12 | 1u << 27);
    vcpu->r[RAX] = a, vcpu->r[RBX] = b, vcpu->r[RCX] = c, vcpu->r[RDX] = d;
    skip(vcpu, 2);
}

/* Answers false where the guest is given #GP. */
static bool access_msr(struct vcpu *vcpu, bool writes, uint32_t msr, uint64_t *value) {
    static const uint8_t code[] = {0x0F, 0x01, 0xD9, 0xC3}; /* vmmcall; ret */
    const hvpm_caller by = vcpu->pages.of;
    hvpm_guest *const own = &vcpu->of->own;
    uint8_t *const page = guest_memory(vcpu, *value & ~UINT64_C(4095));
    hvpm_reply reply;
    const enum hvpm_guest_access access =
        writes ? hvpm_guest_write_msr(own, by.vp, mask_of(vcpu), msr, *value, page != NULL)
               : hvpm_guest_read_msr(own, by.vp, mask_of(vcpu), msr, value);
    if (access == HVPM_GUEST_CODE) memcpy(page, code, sizeof code);
    if (access != HVPM_GUEST_MACHINE) return access == HVPM_GUEST_DONE || access == HVPM_GUEST_CODE;
    if (msr == MSR_EOM) before();
    if (writes) MUST(hvpm_write_msr(&machine, by, msr, *value, &reply, NULL, 0));
    else MUST(hvpm_read_msr_value(&machine, by, msr, value, &reply, NULL, 0));
    if (writes && (msr == MSR_SIMP || msr == MSR_SIEFP)) place_pages(vcpu);
    after(&reply.effect);
    return reply.kind == HVPM_REPLY_SERVED;
}

static void serve_msr(struct vcpu *vcpu) {
    const bool writes = vcpu->vmcb->info[0] & 1;
    uint64_t value = writes ? hvpm_guest_pair(vcpu->r[RDX], vcpu->r[RAX]) : 0;
    if (!access_msr(vcpu, writes, (uint32_t)vcpu->r[RCX], &value)) {
        svm_fault(vcpu, GP);
        return;
    }
    if (!writes) vcpu->r[RAX] = (uint32_t)value, vcpu->r[RDX] = value >> 32;
    skip(vcpu, 2);
}

/* HvSetVpRegisters gives a processor that didn't begin yet its registers. RIP is the last of them. */
static void set_register(const uint8_t *input, size_t index) {
    struct vcpu *const vcpu = find(hvpm_number(input), (uint32_t)hvpm_number(input + 8));
    const uint32_t name = (uint32_t)hvpm_number(input + 16 + 32 * index);
    const uint64_t value = hvpm_number(input + 32 + 32 * index);
    if (!vcpu) return;
    place_pages(vcpu); /* the register may be SIMP or SIEFP */
    if (vcpu->state != CREATED) return;
    if (name == REGISTER_RIP) svm_start(vcpu, value);
    else if (name >= REGISTER_RAX && name < REGISTER_RIP) vcpu->r[name - REGISTER_RAX] = value;
}

/* Makes all elements of a rep call, each an event, in one hold of the lock, and answers the result value. If
 * memory lacks, the status isn't OK, and the guest calls again. */
static uint64_t call_machine(struct vcpu *vcpu, hvpm_registers *at, const uint8_t *input, size_t len,
                             uint8_t *output) {
    const hvpm_caller by = vcpu->pages.of;
    hvpm_reply reply = {.kind = HVPM_REPLY_MORE};
    before();
    while (reply.kind == HVPM_REPLY_MORE) {
        const size_t index = at->rcx >> 48 & 0xFFF;
        LIBRARY(hvpm_hypercall(&machine, by, at, input, len, &reply, NULL, 0));
        if (status == HVPM_STATUS_MEMORY) return 0;
        must();
        if (output) memcpy(output + index * reply.output_len, reply.output, reply.output_len);
        after(&reply.effect);
        if ((uint16_t)at->rcx == SET_VP_REGISTERS && reply.rule == 0) set_register(input, index);
        if (reply.kind == HVPM_REPLY_MORE) at->rcx = hvpm_next(at->rcx, &reply);
    }
    return reply.result;
}

static void serve_call(struct vcpu *vcpu) {
    static uint8_t input[PAGE];
    uint64_t *const r = vcpu->r;
    const struct vmcb *const v = vcpu->vmcb;
    const bool is_long = (v->efer >> 10 & 1) && (v->cs.attributes >> 9 & 1);
    hvpm_guest_cpu cpu = {r[RAX], r[RBX], r[RCX], r[RDX], r[RSI], r[RDI], r[R8], is_long, v->cr0 & 1, v->cpl};
    hvpm_registers at;
    if (!hvpm_guest_call(&cpu, &at)) {
        svm_fault(vcpu, UD);
        return;
    }
    const bool reads = hvpm_guest_has_input(&at), writes = hvpm_guest_has_output(&at);
    const size_t len = reads ? PAGE - at.rdx % PAGE : 0;
    const uint8_t *const from = reads ? guest_memory(vcpu, at.rdx) : NULL;
    uint8_t *const to = writes ? guest_memory(vcpu, at.r8) : NULL;
    uint64_t result = hvpm_guest_no_list(&at);
    status = HVPM_STATUS_OK;
    if (from) memcpy(input, from, len); /* once: another processor may write there */
    if ((!reads || from) && (!writes || to)) result = call_machine(vcpu, &at, input, len, to);
    if (status == HVPM_STATUS_MEMORY) hvpm_guest_again(&cpu, &at);
    else hvpm_guest_return(&cpu, result), skip(vcpu, 3);
    r[RAX] = cpu.rax, r[RCX] = cpu.rcx, r[RDX] = cpu.rdx;
}

static void serve_port(struct vcpu *vcpu) {
    struct vmcb *const v = vcpu->vmcb;
    const uint16_t port = (uint16_t)(v->info[0] >> 16);
    const unsigned bits = 8 * (v->info[0] >> 4 & 7);
    if (v->info[0] >> 2 & 1) { /* INS, OUTS */
        svm_fault(vcpu, GP);
        return;
    }
    if (v->info[0] & 1) vcpu->r[RAX] |= (UINT64_C(1) << bits) - 1; /* no device */
    else if (port == PORT_CONSOLE) guest_says(vcpu, (char)vcpu->r[RAX]);
    else if (port == PORT_END && vcpu->of->id == 1) finish();
    v->rip = v->info[1], v->shadow = 0;
}

void serve_exit(struct vcpu *vcpu) {
    struct vmcb *const v = vcpu->vmcb;
    switch (v->code) {
    case 0x60: case 0x61: vcpu->on = NULL; return;                 /* INTR, NMI: another one's turn */
    case 0x72: serve_cpuid(vcpu); return;
    case 0x77: skip(vcpu, 2), vcpu->on = NULL; return;             /* PAUSE */
    case 0x78:                                                     /* HLT */
        skip(vcpu, 1);
        if (!has_pending(vcpu) || !(v->rflags & RFLAGS_IF)) vcpu->state = HALTED, vcpu->on = NULL;
        return;
    case 0x7B: serve_port(vcpu); return;
    case 0x7C: serve_msr(vcpu); return;
    case 0x81: serve_call(vcpu); return;
    case 0x6F: case 0x76: case 0x400: svm_fault(vcpu, GP); return; /* RDPMC, INVD, a page that isn't there */
    case 0x20 ... 0x3F:                                            /* debug registers */
    case 0x7A: case 0x80: case 0x82 ... 0x88: case 0x8A ... 0x8D:  /* instructions of a hypervisor */
        svm_fault(vcpu, UD);
        return;
    default: /* 0x7F, a triple fault; or a state that SVM refuses. It is the guest's loss. */
        print(LOG, "%u.%u ends: exit %x at %x\n", vcpu->of->id, (uint64_t)vcpu->pages.of.vp, v->code, v->rip);
        vcpu->state = ENDED, vcpu->on = NULL;
    }
}

/* The root has all pages. Its page tables are in pages 1 to 3, and the image in page 16. */
void make_root(void) {
    extern const uint8_t guest_image[], guest_image_end[];
    const hvpm_config config = {.mask = 0xF700000064, .pages = PAGES, .pool = 128, .vps = 1};
    start_record();
    MUST(hvpm_boot(&machine, &config));
    for (uint64_t page = 0; page < PAGES; page++) map_page(partition_of(1), page, true);
    hvpm_put(memory_of(1), 0x2067, 8), hvpm_put(memory_of(2), 0x3067, 8);
    for (uint64_t i = 0; i < 2; i++) hvpm_put(memory_of(3) + 8 * i, i << 21 | 0xE7, 8);
    memcpy(memory_of(16), guest_image, (size_t)(guest_image_end - guest_image));
    struct vcpu *const root = create(1, 0);
    root->r[RBX] = PAGE, root->r[RSP] = 64 * PAGE;
    svm_start(root, 16 * PAGE);
}
