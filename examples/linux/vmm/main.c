/*
 * The VMM: boots the machine, makes the children, starts their processors, and ends with status 0 where all
 * of them did what was asked.
 */
#include "core.h"
#include <getopt.h>
#include <inttypes.h>
#include <pthread.h>
#include <signal.h>
#include <stdio.h>
#include <stdlib.h>
#include <string.h>
#include <unistd.h>

static const char usage[] =
    "usage: vmm --engine kvm|tcg --kernel FILE [--initrd FILE --acpi FILE --append WORDS]"
    " [--qemu FILE --roms FOLDER --bios FILE]\n"
    "           [--vps N] [--children N] [--beats N] [--offers N] [--delay MILLISECONDS] [--seconds N]\n"
    "           [--root | --reload | --restart | --unload | --hostile FILE]\n"
    "--hostile is a kernel for the first child, of which nothing is asked but its end.\n"
    "Writes the files audit and events.hv into the working directory, and a log to standard output. A run"
    " that takes longer than --seconds, or that SIGINT or SIGTERM ends, has both, too.\n";

struct options options = {.vps = 1, .children = 1, .beats = 3};

/* The root's mask has what its children are given, and all that a root does (docs/POLICY.md, "Privileges").
 * Bit 44, CpuManagement, makes a Linux the root. Its pages are then its page frames: 65,536 of them are 256
 * MiB, and its pool pays for one processor. */
static const hvpm_config with_children = {.mask = 0xf700000064, .pages = 4096, .pool = 64, .vps = 1};
static const hvpm_config linux_as_root = {.mask = 0x10f700000064, .pages = 65536, .pool = 4, .vps = 1};

/* A root finds its hypercall page there, behind the memory that `mem=` leaves it, and can't move it. */
enum { ROOT_HYPERCALL_PAGE = 252 << 20 };

static pthread_mutex_t end_lock = PTHREAD_MUTEX_INITIALIZER;
static pthread_cond_t one_ended = PTHREAD_COND_INITIALIZER;
static unsigned running;
static bool failed;
static int signal_taken; /* that ends the run */

/* Nobody waits for a thread: the VMM ends when all guests have. */
void start_thread(void *(*run)(void *), void *of) {
    pthread_t thread;
    if (pthread_create(&thread, NULL, run, of) != 0 || pthread_detach(thread) != 0) die("no thread");
}

void guest_ended(struct guest *guest, const char *how) {
    pthread_mutex_lock(&end_lock);
    if (!guest->ended) {
        note("partition %" PRIu64 " ended%s%s", guest->id, how ? ": " : "", how ? how : "");
        failed |= how != NULL;
        guest->ended = true;
        running--;
    }
    pthread_cond_signal(&one_ended);
    pthread_mutex_unlock(&end_lock);
}

/* A signal ends the run as the last guest does, so that the record is whole. */
static sigset_t ending_signals(void) {
    sigset_t set;
    sigemptyset(&set), sigaddset(&set, SIGALRM), sigaddset(&set, SIGINT), sigaddset(&set, SIGTERM);
    return set;
}

void allow_signals(void) {
    const sigset_t set = ending_signals();
    signal(SIGPIPE, SIG_DFL);
    pthread_sigmask(SIG_UNBLOCK, &set, NULL);
}

static void *wait_for_signal(void *unused) {
    const sigset_t set = ending_signals();
    int number = 0;
    if (sigwait(&set, &number) != 0) die("no signal can be waited for");
    pthread_mutex_lock(&end_lock);
    signal_taken = number;
    pthread_cond_signal(&one_ended);
    pthread_mutex_unlock(&end_lock);
    return unused;
}

/* Waits for the end of all guests. Answers whether they came to it by themselves. */
static bool wait_for_guests(const struct engine *engine, unsigned seconds) {
    pthread_mutex_lock(&end_lock);
    while (running > 0 && signal_taken == 0) pthread_cond_wait(&one_ended, &end_lock);
    const int number = signal_taken;
    pthread_mutex_unlock(&end_lock);
    if (number == SIGALRM)
        note("the run took longer than %u s: try a larger --seconds%s", seconds,
             engine == &kvm_engine ? ", or --engine tcg if the guest said nothing" : "");
    else if (number != 0) note("ended by signal %d", number);
    return number == 0;
}

static const struct engine *read_options(int argc, char **argv, unsigned *seconds) {
    static const struct option long_options[] = {
        {"engine", 1, NULL, 'e'}, {"kernel", 1, NULL, 'k'}, {"initrd", 1, NULL, 'i'},
        {"acpi", 1, NULL, 'a'},   {"qemu", 1, NULL, 'q'},   {"roms", 1, NULL, 'm'},
        {"append", 1, NULL, 'w'}, {"vps", 1, NULL, 'v'},    {"children", 1, NULL, 'c'},
        {"beats", 1, NULL, 'b'},  {"offers", 1, NULL, 'o'}, {"seconds", 1, NULL, 's'},
        {"root", 0, NULL, 'r'},   {"reload", 0, NULL, 'l'}, {"restart", 0, NULL, 't'},
        {"delay", 1, NULL, 'd'},  {"unload", 0, NULL, 'u'}, {"bios", 1, NULL, 'B'},
        {"hostile", 1, NULL, 'H'}, {NULL, 0, NULL, 0}};
    const struct engine *engine = NULL;
    options.append = "console=ttyS0 panic=-1",
    options.initrd = options.acpi = options.qemu = options.roms = "", options.bios = "bios-256k.bin";
    for (int c; (c = getopt_long(argc, argv, "", long_options, NULL)) != -1;) switch (c) {
        case 'e':
            engine = strcmp(optarg, "kvm") == 0   ? &kvm_engine
                     : strcmp(optarg, "tcg") == 0 ? &tcg_engine
                                                  : NULL;
            break;
        case 'k': options.kernel = optarg; break;
        case 'i': options.initrd = optarg; break;
        case 'a': options.acpi = optarg; break;
        case 'q': options.qemu = optarg; break;
        case 'm': options.roms = optarg; break;
        case 'w': options.append = optarg; break;
        case 'v': options.vps = (unsigned)atoi(optarg); break;
        case 'c': options.children = (unsigned)atoi(optarg); break;
        case 'b': options.beats = (unsigned)atoi(optarg); break;
        case 'o': options.offers = (unsigned)atoi(optarg); break;
        case 'd': options.delay = (unsigned)atoi(optarg); break;
        case 's': *seconds = (unsigned)atoi(optarg); break;
        case 'r': options.root = true; break;
        case 'l': options.reload = true; break;
        case 't': options.restart = true; break;
        case 'u': options.unload = true; break;
        case 'B': options.bios = optarg; break;
        case 'H': options.hostile = optarg; break;
        default: die("%s", usage);
        }
    if (!engine || !options.kernel || optind != argc) die("%s", usage);
    if (options.vps == 0 || options.vps > MAX_VPS || options.children == 0 || options.children >= MAX_GUESTS)
        die("%s", usage);
    return engine;
}

/* A root that is a Linux: its first processor is there, and it makes the others by
 * HvCreateVp as it starts them. */
static void make_root(void) {
    guests[0].vps = options.vps, guests[0].own.hypercall = ROOT_HYPERCALL_PAGE | 1;
    for (unsigned vp = 0; vp < options.vps; vp++)
        guests[0].vcpu[vp].guest = &guests[0], guests[0].vcpu[vp].pages.of = (hvpm_caller){1, vp};
}

static bool root_is_done(void) {
    hvpm_partition is = {0};
    core_leave(hvpm_peek_partition(core_enter(), guests[0].id, &is), NULL);
    note("the root has %" PRIu32 " of %u processors", is.vps, options.vps);
    return is.vps == options.vps;
}

int main(int argc, char **argv) {
    unsigned seconds = 600;
    const struct engine *engine = read_options(argc, argv, &seconds);
    const sigset_t set = ending_signals();
    signal(SIGPIPE, SIG_IGN); /* where nobody reads the log any more, the record goes on */
    pthread_sigmask(SIG_BLOCK, &set, NULL);
    record_start();
    core_boot(options.root ? &linux_as_root : &with_children);
    guests[0].id = 1, guests[0].vps = 1;
    if (options.root) make_root();
    for (unsigned i = 1; !options.root && i <= options.children; i++)
        guests[i].vps = options.vps, vmbus_add(&guests[i]);
    if (!options.root) vmbus_start();
    struct guest *const first = options.root ? guests : guests + 1;
    running = options.root ? 1 : options.children;
    for (struct guest *guest = first; guest < first + running; guest++)
        guest->engine = engine, guest->kernel = options.kernel;
    if (options.hostile) first->kernel = options.hostile, first->is_hostile = true;
    for (struct guest *guest = first, *end = first + running; guest < end; guest++) engine->start(guest);
    start_thread(wait_for_signal, NULL);
    alarm(seconds);
    const bool have_ended = wait_for_guests(engine, seconds);
    const bool is_done = (options.root ? root_is_done() : vmbus_is_done()) && have_ended && !failed;
    const uint64_t events = core_end();
    record_end(events);
    note("%" PRIu64 " events; %s", events,
         is_done ? "all was done that was asked for" : "NOT all was done that was asked for");
    return is_done ? 0 : 1;
}
