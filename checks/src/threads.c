/* Stands before the C library (LD_PRELOAD) and counts the threads that a program starts.
 *
 * THREADS_TELL=FILE   at each start the number so far is written there, as decimal digits; the file stays as it was where
 *                     none is started
 *
 * A start is a call of pthread_create or thrd_create, the only ways into the C library that start one. */
#define _GNU_SOURCE
#include <dlfcn.h>
#include <fcntl.h>
#include <pthread.h>
#include <stdatomic.h>
#include <stdio.h>
#include <stdlib.h>
#include <threads.h>
#include <unistd.h>

static atomic_uint starts;

static void count(void) {
    unsigned number = atomic_fetch_add(&starts, 1) + 1;
    const char *name = getenv("THREADS_TELL");
    int file = name == NULL ? -1 : open(name, O_WRONLY | O_CREAT, 0600);
    char text[16];
    int length = snprintf(text, sizeof text, "%u\n", number);
    if (file < 0 || pwrite(file, text, (size_t)length, 0) != length)
        abort();
    close(file);
}

int pthread_create(pthread_t *thread, const pthread_attr_t *attributes, void *(*body)(void *), void *argument) {
    int (*start)(pthread_t *, const pthread_attr_t *, void *(*)(void *), void *) =
        (int (*)(pthread_t *, const pthread_attr_t *, void *(*)(void *), void *))dlsym(RTLD_NEXT, "pthread_create");
    count();
    return start(thread, attributes, body, argument);
}

int thrd_create(thrd_t *thread, thrd_start_t body, void *argument) {
    int (*start)(thrd_t *, thrd_start_t, void *) = (int (*)(thrd_t *, thrd_start_t, void *))dlsym(RTLD_NEXT, "thrd_create");
    count();
    return start(thread, body, argument);
}
