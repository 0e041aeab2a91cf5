/*
 * The engine over KVM: the kernel runs the processors and their local APICs, and this file has the exits, the
 * few devices that a Linux needs to boot, and what a guest finds in its memory. A reset ends the guest.
 */
#include "core.h"
#include "../tcg/exits.h"
#include <errno.h>
#include <fcntl.h>
#include <linux/kvm.h>
#include <pthread.h>
#include <stdio.h>
#include <stdlib.h>
#include <string.h>
#include <sys/ioctl.h>
#include <sys/mman.h>
#include <unistd.h>

enum { PM_EVENT = 0x600, PM_CONTROL = 0x604, SERIAL = 0x3F8, SERIAL_IRQ = 4 };
enum {
    PARAMS = 0x7000,
    GDT = 0x8000,
    TABLES = 0x9000,
    COMMAND = 0x20000,
    ACPI = 0xE0000,
    KERNEL = 0x1000000,
    INITRD = 0xA000000,
    RAM_SIZE = 256 << 20
};

static int kvm = -1;

static int ask(int fd, unsigned long what, void *with, const char *name) {
    const int answer = ioctl(fd, what, with);
    if (answer < 0) die("%s: %s", name, strerror(errno));
    return answer;
}
#define ASK(fd, what, with) ask(fd, what, (void *)(uintptr_t)(with), #what)

/* KVM has no MSI that ends by itself. */
static void interrupt(struct vcpu *vcpu, uint8_t vector, bool has_auto_eoi) {
    (void)has_auto_eoi;
    struct kvm_msi msi = {.address_lo = 0xFEE00000u | vcpu->pages.of.vp << 12, .data = vector};
    ASK(vcpu->guest->control, KVM_SIGNAL_MSI, &msi);
}

static void put_code(struct vcpu *vcpu, uint64_t at) {
    static const uint8_t code[] = HVPM_CODE;
    memcpy(vcpu->guest->ram + at, code, sizeof code);
}

/* Leads the guest back to its OUT, with these registers: KVM first ends the instruction. */
static void lead_back(struct vcpu *vcpu, struct kvm_regs *at) {
    vcpu->run->immediate_exit = 1;
    (void)ioctl(vcpu->fd, KVM_RUN, 0);
    vcpu->run->immediate_exit = 0;
    ASK(vcpu->fd, KVM_SET_REGS, at);
}

/* The guest is given #UD at its OUT. */
static void undefined(struct vcpu *vcpu, struct kvm_regs *at) {
    struct kvm_vcpu_events events;
    lead_back(vcpu, at);
    ASK(vcpu->fd, KVM_GET_VCPU_EVENTS, &events);
    events.exception.injected = 1, events.exception.nr = 6, events.exception.has_error_code = 0;
    ASK(vcpu->fd, KVM_SET_VCPU_EVENTS, &events);
}

static void hypercall(struct vcpu *vcpu) {
    struct kvm_regs r;
    struct kvm_sregs s;
    ASK(vcpu->fd, KVM_GET_REGS, &r);
    ASK(vcpu->fd, KVM_GET_SREGS, &s);
    hvpm_guest_cpu cpu = {.rax = r.rax, .rbx = r.rbx, .rcx = r.rcx, .rdx = r.rdx, .rsi = r.rsi, .rdi = r.rdi,
                          .r8 = r.r8, .is_64_bit = s.cs.l && (s.efer & 0x400), .is_protected = s.cr0 & 1,
                          .cpl = s.ss.dpl};
    if (!identity_hypercall(vcpu, &cpu)) {
        undefined(vcpu, &r);
        return;
    }
    r.rax = cpu.rax, r.rdx = cpu.rdx;
    ASK(vcpu->fd, KVM_SET_REGS, &r);
}

/* ---- devices: a serial port, and ACPI's power registers ---- */

static struct devices {
    pthread_mutex_t lock;
    uint8_t ier, lcr, mcr, scr, dll, dlm;
    bool thri; /* the transmitter is empty, and its interrupt wasn't read */
    uint16_t pm_enable;
    char text[1024];
    size_t len;
} devices[MAX_GUESTS];

static void serial_irq(struct guest *guest, const struct devices *d) {
    struct kvm_irq_level level = {.irq = SERIAL_IRQ, .level = d->thri && (d->ier & 2)};
    ASK(guest->control, KVM_IRQ_LINE, &level);
}

static void console(struct guest *guest, struct devices *d, char byte) {
    if (byte == '\r') return;
    if (byte != '\n' && d->len < sizeof d->text - 1) d->text[d->len++] = byte;
    if (byte != '\n' && d->len < sizeof d->text - 1) return;
    d->text[d->len] = 0, d->len = 0;
    say_guest(guest, d->text);
}

static uint8_t serial_in(struct guest *guest, struct devices *d, unsigned reg) {
    const bool dlab = d->lcr & 0x80;
    switch (reg) {
    case 0: return dlab ? d->dll : 0;
    case 1: return dlab ? d->dlm : d->ier;
    case 2: {
        const bool is = d->thri && (d->ier & 2);
        d->thri = false;
        serial_irq(guest, d);
        return is ? 2 : 1;
    }
    case 3: return d->lcr;
    case 4: return d->mcr;
    case 5: return 0x60;
    case 6: return d->mcr & 0x10 ? (uint8_t)((d->mcr & 3) << 4 | (d->mcr & 12) << 4) : 0xB0;
    default: return d->scr;
    }
}

static void serial_out(struct guest *guest, struct devices *d, unsigned reg, uint8_t byte) {
    const bool dlab = d->lcr & 0x80;
    switch (reg) {
    case 0:
        if (dlab) d->dll = byte;
        else if (!(d->mcr & 0x10)) console(guest, d, (char)byte), d->thri = true;
        break;
    case 1:
        if (dlab) d->dlm = byte;
        else d->thri |= (byte & 2 & ~d->ier) != 0, d->ier = byte & 15;
        break;
    case 3: d->lcr = byte; break;
    case 4: d->mcr = byte; break;
    case 7: d->scr = byte; break;
    }
    serial_irq(guest, d);
}

static void device_in(struct guest *guest, struct devices *d, uint16_t port, uint8_t *data, unsigned size) {
    memset(data, 0xFF, size);
    if (port >= SERIAL && port < SERIAL + 8) data[0] = serial_in(guest, d, port - SERIAL);
    else if (port == 0x70 || port == 0x71) memset(data, 0, size);
    else if (port >= PM_EVENT && port < PM_EVENT + 4)
        memset(data, 0, size), hvpm_put(data, port == PM_EVENT + 2 ? d->pm_enable : 0, size);
    else if (port == PM_CONTROL) hvpm_put(data, 1, size);
}

/* Answers how the guest ends, if it does. */
static const char *device_out(struct guest *guest, struct devices *d, uint16_t port, const uint8_t *data,
                              unsigned size) {
    static const char off[] = "", reset[] = "it resets itself";
    if (port >= SERIAL && port < SERIAL + 8) serial_out(guest, d, port - SERIAL, data[0]);
    else if (port == PM_EVENT + 2 && size >= 2) d->pm_enable = (uint16_t)(data[0] | data[1] << 8);
    else if (port == PM_CONTROL && size >= 2 && data[1] >> 5 & 1) return off;
    else if (port == 0xCF9 || (port == 0x64 && data[0] == 0xFE)) return reset;
    return NULL;
}

/* ---- a processor ---- */

static const char *port_exit(struct vcpu *vcpu) {
    struct kvm_run *run = vcpu->run;
    struct devices *d = &devices[vcpu->guest - guests];
    uint8_t *data = (uint8_t *)run + run->io.data_offset;
    const char *end = NULL;
    if (run->io.port == HVPM_PORT && run->io.direction == KVM_EXIT_IO_OUT && run->io.size == 4)
        return hypercall(vcpu), end;
    pthread_mutex_lock(&d->lock);
    for (uint32_t i = 0; i < run->io.count && !end; i++, data += run->io.size) {
        if (run->io.direction == KVM_EXIT_IO_IN) device_in(vcpu->guest, d, run->io.port, data, run->io.size);
        else end = device_out(vcpu->guest, d, run->io.port, data, run->io.size);
    }
    pthread_mutex_unlock(&d->lock);
    return end;
}

/* Where KVM runs a guest itself these exits are all that there are.
 * NULL, or how the guest ends: "" is well. */
static const char *serve_exit(struct vcpu *vcpu) {
    static _Thread_local char why[64];
    struct kvm_run *run = vcpu->run;
    uint64_t value = 0;
    switch (run->exit_reason) {
    case KVM_EXIT_IO: return port_exit(vcpu);
    case KVM_EXIT_X86_RDMSR:
        run->msr.error = !identity_rdmsr(vcpu, run->msr.index, &value);
        run->msr.data = value;
        return NULL;
    case KVM_EXIT_X86_WRMSR:
        run->msr.error = !identity_wrmsr(vcpu, run->msr.index, run->msr.data);
        return NULL;
    case KVM_EXIT_MMIO:
        if (!run->mmio.is_write) memset(run->mmio.data, 0xFF, sizeof run->mmio.data);
        return NULL;
    case KVM_EXIT_INTR: return NULL;
    case KVM_EXIT_SHUTDOWN: return "a triple fault";
    default: snprintf(why, sizeof why, "exit %u, %u", run->exit_reason, run->internal.suberror); return why;
    }
}

static void *run_processor(void *of) {
    struct vcpu *vcpu = of;
    const char *end = NULL;
    while (!end && !vcpu->guest->ended) {
        if (ioctl(vcpu->fd, KVM_RUN, 0) == 0) end = serve_exit(vcpu);
        else if (errno != EINTR && errno != EAGAIN) end = strerror(errno);
    }
    if (end) guest_ended(vcpu->guest, end[0] ? end : NULL);
    return NULL;
}

/* ---- what the guest finds in its memory ---- */

static size_t load(const char *path, uint8_t *at, size_t room) {
    const int fd = open(path, O_RDONLY | O_CLOEXEC);
    size_t size = 0;
    if (fd < 0) die("%s: %s", path, strerror(errno));
    for (ssize_t got; (got = read(fd, at + size, room - size)) > 0;) size += (size_t)got;
    close(fd);
    if (size == room) die("%s is too large", path);
    return size;
}

static void seal(uint8_t *bytes, size_t size, size_t sum_at) {
    uint8_t sum = 0;
    bytes[sum_at] = 0;
    for (size_t i = 0; i < size; i++) sum = (uint8_t)(sum + bytes[i]);
    bytes[sum_at] = (uint8_t)-sum;
}

static void make_table(uint8_t *at, const char *name, uint8_t revision, uint32_t size) {
    memcpy(at, name, 4), hvpm_put(at + 4, size, 4), at[8] = revision;
    memcpy(at + 10, "HVPM  HVPMVMM ", 14), hvpm_put(at + 24, 1, 4), memcpy(at + 28, "HVPM", 4),
        hvpm_put(at + 32, 1, 4);
    seal(at, size, 9);
}

/* ACPI: where the processors and the power registers are, how to power off, and
 * VMBus, whose table is a file. */
static void load_acpi(const struct guest *guest) {
    /* Name (_S5, Package () {5, 5, 0, 0}) */
    static const uint8_t s5[] = {0x08, '_',  'S',  '5',  '_',  0x12, 0x08,
                                 0x04, 0x0A, 0x05, 0x0A, 0x05, 0x00, 0x00};
    const uint64_t xsdt = ACPI + 0x100, fadt = ACPI + 0x200, facs = ACPI + 0x400, madt = ACPI + 0x500,
                   dsdt = ACPI + 0x800, ssdt = ACPI + 0x1000;
    uint8_t *ram = guest->ram, *r = ram + ACPI, *f = ram + fadt, *m = ram + madt + 36;
    load(options.acpi, ram + ssdt, 0x8000);
    memcpy(ram + dsdt + 36, s5, sizeof s5);
    make_table(ram + dsdt, "DSDT", 2, 36 + sizeof s5);
    hvpm_put(f + 36, facs, 4), hvpm_put(f + 40, dsdt, 4), hvpm_put(f + 46, 9, 2),
        hvpm_put(f + 56, PM_EVENT, 4), hvpm_put(f + 64, PM_CONTROL, 4);
    f[88] = 4, f[89] = 2, hvpm_put(f + 96, 0xFFF, 2), hvpm_put(f + 98, 0xFFF, 2), hvpm_put(f + 112, 0x75, 4),
    hvpm_put(f + 140, dsdt, 8);
    make_table(f, "FACP", 5, 268);
    memcpy(ram + facs, "FACS", 4), hvpm_put(ram + facs + 4, 64, 4), ram[facs + 32] = 2;
    hvpm_put(m, 0xFEE00000, 4), hvpm_put(m + 4, 1, 4), m += 8;
    for (unsigned vp = 0; vp < guest->vps; vp++, m += 8)
        m[1] = 8, m[2] = (uint8_t)vp, m[3] = (uint8_t)vp, m[4] = 1;
    m[0] = 1, m[1] = 12, m[2] = (uint8_t)guest->vps, hvpm_put(m + 4, 0xFEC00000, 4), m += 12;
    make_table(ram + madt, "APIC", 3, (uint32_t)(m - (ram + madt)));
    hvpm_put(ram + xsdt + 36, fadt, 8), hvpm_put(ram + xsdt + 44, madt, 8),
        hvpm_put(ram + xsdt + 52, ssdt, 8);
    make_table(ram + xsdt, "XSDT", 1, 60);
    memcpy(r, "RSD PTR ", 8), memcpy(r + 9, "HVPM  ", 6), r[15] = 2, hvpm_put(r + 20, 36, 4),
        hvpm_put(r + 24, xsdt, 8);
    seal(r, 20, 8), seal(r, 36, 32);
}

static uint64_t load_elf(const struct guest *guest, const uint8_t *image) {
    const uint8_t *segment = image + hvpm_number(image + 32);
    for (unsigned left = image[56]; left > 0; left--, segment += 56) {
        const uint64_t at = hvpm_number(segment + 24), len = hvpm_number(segment + 32);
        if (segment[0] != 1) continue;
        if (at > RAM_SIZE || len > RAM_SIZE - at) die("%s has a segment out of memory", guest->kernel);
        memcpy(guest->ram + at, image + hvpm_number(segment + 8), len);
    }
    return hvpm_number(image + 24);
}

/* A bzImage with all that Linux's 64-bit boot protocol asks for (Documentation/x86/boot.rst), or an ELF file
 * alone. Answers where the guest begins. */
static uint64_t load_kernel(const struct guest *guest) {
    static uint8_t image[64 << 20];
    const size_t size = load(guest->kernel, image, sizeof image),
                 setup = 512 * (size_t)((image[0x1F1] ? image[0x1F1] : 4) + 1);
    const uint64_t map[][3] = {{0, 0x9FC00, 1}, {0x9FC00, 0x60400, 2}, {0x100000, RAM_SIZE - 0x100000, 1}};
    uint8_t *ram = guest->ram, *p = ram + PARAMS;
    if (memcmp(image, "\177ELF", 4) == 0) return load_elf(guest, image);
    if (memcmp(image + 0x202, "HdrS", 4) != 0 || size <= setup || !(image[0x236] & 1))
        die("%s is no 64-bit kernel", guest->kernel);
    load_acpi(guest);
    memcpy(p + 0x1F1, image + 0x1F1, 0x202 + image[0x201] - 0x1F1);
    memcpy(ram + KERNEL, image + setup, size - setup);
    const size_t initrd = load(options.initrd, ram + INITRD, RAM_SIZE - INITRD);
    hvpm_put(p + 0x70, ACPI, 8), p[0x210] = 0xFF, p[0x211] |= 1;
    hvpm_put(p + 0x218, INITRD, 4), hvpm_put(p + 0x21C, initrd, 4), hvpm_put(p + 0x228, COMMAND, 4);
    strcpy((char *)ram + COMMAND, options.append);
    p[0x1E8] = 3;
    for (int i = 0; i < 3; i++)
        hvpm_put(p + 0x2D0 + 20 * i, map[i][0], 8), hvpm_put(p + 0x2D8 + 20 * i, map[i][1], 8),
            hvpm_put(p + 0x2E0 + 20 * i, map[i][2], 4);
    return KERNEL + 0x200;
}

/* Four GiB mapped as they are, in pages of 2 MiB, and flat segments. */
static void make_tables(uint8_t *ram) {
    hvpm_put(ram + TABLES, (TABLES + 0x1000) | 3, 8);
    for (uint64_t g = 0; g < 4; g++) {
        hvpm_put(ram + TABLES + 0x1000 + 8 * g, (TABLES + 0x2000 + 0x1000 * g) | 3, 8);
        for (uint64_t i = 0; i < 512; i++)
            hvpm_put(ram + TABLES + 0x2000 + 0x1000 * g + 8 * i, (g << 30 | i << 21) | 0x83, 8);
    }
    hvpm_put(ram + GDT + 16, UINT64_C(0x00AF9B000000FFFF), 8),
        hvpm_put(ram + GDT + 24, UINT64_C(0x00CF93000000FFFF), 8);
}

static void start_at(const struct vcpu *vcpu, uint64_t entry) {
    const struct kvm_segment code = {
        .limit = 0xFFFFFFFF, .selector = 16, .type = 11, .present = 1, .s = 1, .l = 1, .g = 1};
    const struct kvm_segment data = {
        .limit = 0xFFFFFFFF, .selector = 24, .type = 3, .present = 1, .s = 1, .db = 1, .g = 1};
    struct kvm_regs r = {.rip = entry, .rsi = PARAMS, .rsp = 0x7000, .rflags = 2};
    struct kvm_sregs s;
    ASK(vcpu->fd, KVM_GET_SREGS, &s);
    s.cs = code, s.ds = s.es = s.ss = s.fs = s.gs = data;
    s.gdt = (struct kvm_dtable){.base = GDT, .limit = 31};
    s.cr0 = 0x80000011, s.cr3 = TABLES, s.cr4 = 0x20, s.efer = 0x500;
    ASK(vcpu->fd, KVM_SET_SREGS, &s);
    ASK(vcpu->fd, KVM_SET_REGS, &r);
}

/* ---- the virtual machine ---- */

static void make_vm(struct guest *guest) {
    uint64_t identity_map = 0xFFFBC000;
    struct kvm_pit_config pit = {.flags = KVM_PIT_SPEAKER_DUMMY};
    if (kvm < 0) kvm = open("/dev/kvm", O_RDWR | O_CLOEXEC);
    if (kvm < 0) die("/dev/kvm: %s", strerror(errno));
    const int vm = guest->control = ASK(kvm, KVM_CREATE_VM, 0);
    ASK(vm, KVM_SET_IDENTITY_MAP_ADDR, &identity_map);
    ASK(vm, KVM_SET_TSS_ADDR, 0xFFFBD000);
    ASK(vm, KVM_CREATE_IRQCHIP, 0);
    ASK(vm, KVM_CREATE_PIT2, &pit);
    guest->ram_size = RAM_SIZE;
    guest->ram =
        mmap(NULL, RAM_SIZE, PROT_READ | PROT_WRITE, MAP_PRIVATE | MAP_ANONYMOUS | MAP_NORESERVE, -1, 0);
    if (guest->ram == MAP_FAILED) die("%s", strerror(errno));
    struct kvm_userspace_memory_region region = {.memory_size = RAM_SIZE,
                                                 .userspace_addr = (uint64_t)(uintptr_t)guest->ram};
    ASK(vm, KVM_SET_USER_MEMORY_REGION, &region);
    /* Hyper-V's MSRs come to this program, whatever KVM itself would make of them. */
    static uint8_t none[0x200 / 8];
    struct kvm_enable_cap cap = {.cap = KVM_CAP_X86_USER_SPACE_MSR, .args = {KVM_MSR_EXIT_REASON_FILTER}};
    struct kvm_msr_filter filter = {
        .flags = KVM_MSR_FILTER_DEFAULT_ALLOW,
        .ranges = {{.flags = KVM_MSR_FILTER_READ | KVM_MSR_FILTER_WRITE, .base = 0x40000000, .nmsrs = 0x200,
                    .bitmap = none}}};
    ASK(vm, KVM_ENABLE_CAP, &cap);
    ASK(vm, KVM_X86_SET_MSR_FILTER, &filter);
}

/* KVM's leaves without those of a hypervisor, then Hyper-V's. */
static struct kvm_cpuid2 *make_cpuid(struct guest *guest) {
    struct kvm_cpuid2 *cpuid = calloc(1, sizeof *cpuid + 256 * sizeof *cpuid->entries);
    uint32_t kept = 0, leaf[4];
    if (!cpuid) die("no memory");
    cpuid->nent = 200;
    ASK(kvm, KVM_GET_SUPPORTED_CPUID, cpuid);
    for (uint32_t i = 0; i < cpuid->nent; i++)
        if (cpuid->entries[i].function >> 8 != 0x400000) cpuid->entries[kept++] = cpuid->entries[i];
    for (uint32_t index = 0x40000000; identity_cpuid(guest, index, leaf); index++)
        cpuid->entries[kept++] = (struct kvm_cpuid_entry2){
            .function = index, .eax = leaf[0], .ebx = leaf[1], .ecx = leaf[2], .edx = leaf[3]};
    cpuid->nent = kept;
    return cpuid;
}

static void make_vcpu(struct vcpu *vcpu, struct kvm_cpuid2 *cpuid) {
    const uint32_t vp = vcpu->pages.of.vp;
    vcpu->fd = ASK(vcpu->guest->control, KVM_CREATE_VCPU, vp);
    vcpu->run = mmap(NULL, (size_t)ASK(kvm, KVM_GET_VCPU_MMAP_SIZE, 0), PROT_READ | PROT_WRITE, MAP_SHARED,
                     vcpu->fd, 0);
    if (vcpu->run == MAP_FAILED) die("%s", strerror(errno));
    for (uint32_t i = 0; i < cpuid->nent; i++) {
        struct kvm_cpuid_entry2 *e = &cpuid->entries[i];
        if (e->function == 1)
            e->ecx |= 1u << 31, e->ebx = (e->ebx & 0xFFFF) | vp << 24 | vcpu->guest->vps << 16;
        if (e->function == 0xB || e->function == 0x1F) e->edx = vp;
    }
    ASK(vcpu->fd, KVM_SET_CPUID2, cpuid);
}

static void start(struct guest *guest) {
    make_vm(guest);
    pthread_mutex_init(&devices[guest - guests].lock, NULL);
    make_tables(guest->ram);
    const uint64_t entry = load_kernel(guest);
    struct kvm_cpuid2 *cpuid = make_cpuid(guest);
    for (unsigned vp = 0; vp < guest->vps; vp++) make_vcpu(&guest->vcpu[vp], cpuid);
    free(cpuid);
    start_at(&guest->vcpu[0], entry);
    for (unsigned vp = 0; vp < guest->vps; vp++) start_thread(run_processor, &guest->vcpu[vp]);
}

const struct engine kvm_engine = {start, interrupt, put_code};
