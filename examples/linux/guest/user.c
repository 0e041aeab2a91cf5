/*
 * A process of a guest that calls the hypervisor by the hypercall page's own instruction: HvGetPartitionId,
 * which its kernel never calls. Its kernel lets it write to no port at first, and then to that of the page.
 * Says by which signal each try ended; 0 is a call that came back.
 */
#include <signal.h>
#include <stdint.h>
#include <stdio.h>
#include <sys/io.h>
#include <sys/wait.h>
#include <unistd.h>

enum { PORT = 0xEA };

static void call(void) {
    uint64_t result = ~UINT64_C(0);
    register uint64_t output __asm__("r8") = 0x1000;
    __asm__ volatile("outl %%eax, %1"
                     : "+a"(result)
                     : "N"(PORT), "c"(UINT64_C(0x46)), "d"(UINT64_C(0)), "r"(output)
                     : "memory");
    printf("user: result 0x%lx\n", (unsigned long)result);
}

static void try_it(const char *what, int may_write) {
    int status = 0;
    fflush(stdout);
    if (fork() == 0) {
        if (may_write && ioperm(PORT, 4, 1) != 0) _exit(1);
        call();
        fflush(stdout);
        _exit(0);
    }
    wait(&status);
    printf("user: a hypercall %s: signal %d, status %d\n", what, WIFSIGNALED(status) ? WTERMSIG(status) : 0,
           WIFEXITED(status) ? WEXITSTATUS(status) : 0);
}

int main(void) {
    try_it("without the port", 0);
    try_it("with the port", 1);
    return 0;
}
