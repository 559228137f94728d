/* Stands before the C library's allocator (LD_PRELOAD) and refuses memory to a program once its main has begun.
 *
 * REFUSE_ONE=N     the Nth growth is refused, counted from 1
 * REFUSE_FROM=N    the Nth growth and all behind it are refused
 * REFUSE_BEYOND=N  the process may map no more than N octets beyond those that it has mapped where main begins; so the
 *                  stacks of threads are refused, too, which the C library maps by itself
 * REFUSE_TELL=FILE the number of growths so far is written there at each growth, since a run may end without its destructors
 *
 * A growth is a call of malloc, calloc, realloc, reallocarray, aligned_alloc, memalign or posix_memalign. */
#define _GNU_SOURCE
#include <dlfcn.h>
#include <errno.h>
#include <fcntl.h>
#include <stdatomic.h>
#include <stdint.h>
#include <stdio.h>
#include <stdlib.h>
#include <sys/resource.h>
#include <unistd.h>

void *__libc_malloc(size_t);
void *__libc_calloc(size_t, size_t);
void *__libc_realloc(void *, size_t);
void *__libc_memalign(size_t, size_t);

static atomic_ulong growths;
static atomic_bool has_begun;
static unsigned long one, from;
static int told = -1;
static int (*real_main)(int, char **, char **);

/* Writes the number in twenty digits, with no memory. */
static void tell(unsigned long number) {
    char text[21];
    text[20] = '\n';
    for (int place = 19; place >= 0; place--) {
        text[place] = (char)('0' + number % 10);
        number /= 10;
    }
    if (pwrite(told, text, sizeof text, 0) < 0)
        told = -1;
}

static int is_refused(void) {
    if (!atomic_load(&has_begun))
        return 0;
    unsigned long number = atomic_fetch_add(&growths, 1) + 1;
    if (told >= 0)
        tell(number);
    if (number == one || (from != 0 && number >= from)) {
        errno = ENOMEM;
        return 1;
    }
    return 0;
}

void *malloc(size_t size) { return is_refused() ? NULL : __libc_malloc(size); }

void *calloc(size_t count, size_t size) { return is_refused() ? NULL : __libc_calloc(count, size); }

void *realloc(void *block, size_t size) { return is_refused() ? NULL : __libc_realloc(block, size); }

void *reallocarray(void *block, size_t count, size_t size) {
    size_t all;
    if (__builtin_mul_overflow(count, size, &all)) {
        errno = ENOMEM;
        return NULL;
    }
    return realloc(block, all);
}

void *memalign(size_t alignment, size_t size) { return is_refused() ? NULL : __libc_memalign(alignment, size); }

void *aligned_alloc(size_t alignment, size_t size) { return memalign(alignment, size); }

int posix_memalign(void **block, size_t alignment, size_t size) {
    void *found = memalign(alignment, size);
    if (found == NULL)
        return ENOMEM;
    *block = found;
    return 0;
}

static unsigned long number_of(const char *name) {
    const char *text = getenv(name);
    return text == NULL ? 0 : strtoul(text, NULL, 10);
}

/* The octets that the process has mapped. */
static unsigned long mapped(void) {
    unsigned long pages = 0;
    FILE *file = fopen("/proc/self/statm", "r");
    if (file != NULL) {
        if (fscanf(file, "%lu", &pages) != 1)
            pages = 0;
        fclose(file);
    }
    return pages * 4096;
}

static int begin(int count, char **words, char **variables) {
    one = number_of("REFUSE_ONE");
    from = number_of("REFUSE_FROM");
    const char *file = getenv("REFUSE_TELL");
    if (file != NULL)
        told = open(file, O_WRONLY | O_CREAT | O_TRUNC, 0600);
    const char *beyond = getenv("REFUSE_BEYOND");
    if (beyond != NULL) {
        struct rlimit limit = {.rlim_cur = mapped() + strtoul(beyond, NULL, 10), .rlim_max = RLIM_INFINITY};
        setrlimit(RLIMIT_AS, &limit);
    }
    atomic_store(&has_begun, 1);
    return real_main(count, words, variables);
}

int __libc_start_main(int (*main)(int, char **, char **), int count, char **words, void (*init)(void), void (*fini)(void),
                      void (*loader)(void), void *stack) {
    int (*start)(int (*)(int, char **, char **), int, char **, void (*)(void), void (*)(void), void (*)(void), void *) =
        (int (*)(int (*)(int, char **, char **), int, char **, void (*)(void), void (*)(void), void (*)(void), void *))
            dlsym(RTLD_NEXT, "__libc_start_main");
    real_main = main;
    return start(begin, count, words, init, fini, loader, stack);
}
