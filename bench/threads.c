/*
 * Counts the threads that a program starts: preloaded, it adds a byte to the file that the variable STARTED
 * names for each call of pthread_create that starts one.
 */
#define _GNU_SOURCE
#include <dlfcn.h>
#include <fcntl.h>
#include <pthread.h>
#include <stdlib.h>
#include <unistd.h>

int pthread_create(pthread_t *thread, const pthread_attr_t *attributes, void *(*start)(void *),
                   void *argument) {
    static int (*next)(pthread_t *, const pthread_attr_t *, void *(*)(void *), void *);
    if (!next) *(void **)&next = dlsym(RTLD_NEXT, "pthread_create");
    const int status = next(thread, attributes, start, argument);
    const char *note = getenv("STARTED");
    if (status != 0 || !note) return status;
    const int file = open(note, O_CREAT | O_WRONLY | O_APPEND, 0600);
    if (write(file, ".", 1) != 1) abort();
    close(file);
    return 0;
}
