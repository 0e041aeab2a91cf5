/*
 * The engine for a machine without VMX and SVM: QEMU's TCG runs the processors in a process of its own, and
 * hands their exits over by sockets (tcg/hvpm.c is the other end). The guest's memory is shared, so that a
 * processor and this VMM race for its pages as they would under KVM.
 */
#include "core.h"
#include "../tcg/exits.h"
#include <errno.h>
#include <fcntl.h>
#include <pthread.h>
#include <stdio.h>
#include <stdlib.h>
#include <string.h>
#include <sys/mman.h>
#include <sys/socket.h>
#include <sys/wait.h>
#include <unistd.h>

/* Descriptors in QEMU: FIRST is the control socket, MEMORY the guest's memory. */
enum { FIRST = 100, MEMORY = 99, RAM_SIZE = 256 << 20 };

struct process {
    struct guest *guest;
    int pid, console;
};

static pthread_mutex_t reset_lock = PTHREAD_MUTEX_INITIALIZER;

/* QEMU says that it reset the machine before it hands over another exit.
 * Whichever processor has that, the reset comes first. */
static void reset_first(struct guest *guest) {
    struct hvpm_exit exit;
    pthread_mutex_lock(&reset_lock);
    while (recv(guest->control, &exit, sizeof exit, MSG_DONTWAIT) == sizeof exit)
        if (guest->has_started) identity_reset(guest);
        else guest->has_started = true; /* a machine begins with a reset */
    pthread_mutex_unlock(&reset_lock);
}

static void *serve_exits(void *of) {
    struct vcpu *vcpu = of;
    struct hvpm_exit exit;
    while (recv(vcpu->fd, &exit, sizeof exit, 0) == sizeof exit) {
        reset_first(vcpu->guest);
        const struct hvpm_entry entry = take_exit(vcpu, &exit);
        if (send(vcpu->fd, &entry, sizeof entry, MSG_NOSIGNAL) != sizeof entry) break;
    }
    return NULL;
}

static void interrupt(struct vcpu *vcpu, uint8_t vector, bool has_auto_eoi) {
    const struct hvpm_interrupt of = {vcpu->pages.of.vp, vector, has_auto_eoi};
    /* QEMU may be gone: then its exits end, too */
    (void)!send(vcpu->guest->control, &of, sizeof of, MSG_NOSIGNAL);
}

/* QEMU writes it as it enters the guest: it keeps translations of code that it has to know of. */
static void put_code(struct vcpu *vcpu, uint64_t at) { vcpu->code_at = at; }

/* Prints what QEMU writes, which is the guest's serial port, and waits for its end. */
static void *read_console(void *of) {
    const struct process process = *(struct process *)of;
    FILE *in = fdopen(process.console, "r");
    char text[1024];
    int status = 0;
    free(of);
    while (in && fgets(text, sizeof text, in)) {
        text[strcspn(text, "\r\n")] = 0;
        if (text[0]) say_guest(process.guest, text);
    }
    waitpid(process.pid, &status, 0);
    guest_ended(process.guest, WIFEXITED(status) && WEXITSTATUS(status) == 0 ? NULL : "QEMU failed");
    return NULL;
}

static _Noreturn void become_qemu(const struct guest *guest, const int ends[], int memory, int output) {
    char sockets[16], vps[16], ram[96], acpi[4096];
    snprintf(sockets, sizeof sockets, "%d", FIRST);
    snprintf(vps, sizeof vps, "%u", options.vps), snprintf(acpi, sizeof acpi, "file=%s", options.acpi);
    snprintf(ram, sizeof ram, "memory-backend-file,id=ram,size=%d,share=on,mem-path=/proc/self/fd/%d",
             RAM_SIZE, MEMORY);
    for (unsigned i = 0; i <= guest->vps; i++) dup2(ends[i], FIRST + (int)i);
    dup2(memory, MEMORY), dup2(open("/dev/null", O_RDONLY), 0), dup2(output, 1), dup2(output, 2);
    setenv(HVPM_SOCKETS, sockets, 1);
    const char *words[40] = {
        options.qemu, "-accel", "tcg,thread=multi", "-M", "pc,memory-backend=ram", "-object", ram, "-m",
        "256", "-cpu", "qemu64", "-smp", vps, "-nodefaults", "-display", "none", "-vga", "none", "-serial",
        "stdio", "-L", options.roms, "-bios", options.bios, "-kernel", guest->kernel};
    size_t count = 0;
    while (words[count]) count++;
    if (options.acpi[0]) words[count++] = "-acpitable", words[count++] = acpi;
    if (options.initrd[0]) words[count++] = "-initrd", words[count++] = options.initrd;
    if (options.append[0]) words[count++] = "-append", words[count++] = options.append;
    if (!options.restart) words[count++] = "-no-reboot";
    allow_signals();
    execv(options.qemu, (char **)(uintptr_t)words);
    fprintf(stderr, "%s: %s\n", options.qemu, strerror(errno));
    _exit(1);
}

static void start(struct guest *guest) {
    int ends[MAX_VPS + 1], output[2];
    const int memory = memfd_create("guest", MFD_CLOEXEC);
    if (memory < 0 || ftruncate(memory, RAM_SIZE) != 0 || pipe2(output, O_CLOEXEC) != 0)
        die("%s", strerror(errno));
    guest->ram_size = RAM_SIZE;
    guest->ram = mmap(NULL, RAM_SIZE, PROT_READ | PROT_WRITE, MAP_SHARED, memory, 0);
    if (guest->ram == MAP_FAILED) die("%s", strerror(errno));
    for (unsigned i = 0; i <= guest->vps; i++) {
        int pair[2];
        if (socketpair(AF_UNIX, SOCK_SEQPACKET | SOCK_CLOEXEC, 0, pair) != 0) die("%s", strerror(errno));
        *(i == 0 ? &guest->control : &guest->vcpu[i - 1].fd) = pair[0];
        ends[i] = pair[1];
    }
    struct process *process = malloc(sizeof *process);
    if (!process) die("no memory");
    *process = (struct process){guest, fork(), output[0]};
    if (process->pid == 0) become_qemu(guest, ends, memory, output[1]);
    close(memory), close(output[1]);
    for (unsigned i = 0; i <= guest->vps; i++) close(ends[i]);
    for (unsigned i = 0; i < guest->vps; i++) start_thread(serve_exits, &guest->vcpu[i]);
    start_thread(read_console, process);
}

const struct engine tcg_engine = {start, interrupt, put_code};
