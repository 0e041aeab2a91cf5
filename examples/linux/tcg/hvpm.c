/*
 * Hands a guest's exits (exits.c) to a VMM in another process, by a socket for each processor, and takes
 * vectors by another. Without HVPM_SOCKETS in the environment nothing differs.
 */
#include "qemu/osdep.h"
#include "qemu/main-loop.h"
#include "qemu/thread.h"
#include "sysemu/reset.h"
#include "sysemu/sysemu.h"
#include <sys/socket.h>
#include "hvpm_exits.h"

static int sockets;

/* An exit without the big lock: whoever injects an interrupt takes it. */
static struct hvpm_entry serve(unsigned vp, const struct hvpm_exit *exit)
{
    const int socket = sockets + 1 + vp;
    struct hvpm_entry entry;

    if (send(socket, exit, sizeof *exit, MSG_NOSIGNAL) != sizeof *exit ||
        recv(socket, &entry, sizeof entry, 0) != sizeof entry) {
        _exit(1);
    }
    return entry;
}

/* Puts vectors into local APICs as they come. */
static void *injector(void *unused)
{
    struct hvpm_interrupt of;

    while (recv(sockets, &of, sizeof of, 0) == sizeof of) {
        qemu_mutex_lock_iothread();
        hvpm_inject(of);
        qemu_mutex_unlock_iothread();
    }
    _exit(1);
}

static void on_reset(void *unused)
{
    static const struct hvpm_exit exit = {.kind = HVPM_RESET};

    /* The injector reads this socket, so that nothing is waited for: the VMM looks at it
     * before it serves another exit. */
    if (send(sockets, &exit, sizeof exit, MSG_NOSIGNAL) != sizeof exit) {
        _exit(1);
    }
}

static void on_ready(Notifier *notifier, void *unused)
{
    static QemuThread thread;

    sockets = atoi(getenv(HVPM_SOCKETS));
    hvpm_serve = serve;
    qemu_register_reset(on_reset, NULL);
    qemu_thread_create(&thread, "hvpm", injector, NULL, QEMU_THREAD_DETACHED);
}

static void __attribute__((constructor)) at_start(void)
{
    static Notifier ready = {.notify = on_ready};

    if (getenv(HVPM_SOCKETS)) {
        qemu_add_machine_init_done_notifier(&ready);
    }
}
