/* Refuses one allocation of a program, by its number in REFUSE_ALLOCATION, and one thread, by its number in REFUSE_THREAD,
   each counted from 1. Loaded by LD_PRELOAD. What is unset or 0 refuses none. At the end it tells on descriptor 3, where that is
   open, how many allocations there were. */
#define _GNU_SOURCE
#include <dlfcn.h>
#include <errno.h>
#include <pthread.h>
#include <stdio.h>
#include <stdlib.h>
#include <sys/syscall.h>
#include <unistd.h>

static unsigned long made, refused;
static unsigned long started, refused_thread;

static unsigned long number_in(const char *name)
{
    const char *number = getenv(name);
    return number ? strtoul(number, NULL, 10) : 0;
}

__attribute__((constructor)) static void begin(void)
{
    refused = number_in("REFUSE_ALLOCATION");
    refused_thread = number_in("REFUSE_THREAD");
    made = 0;
    started = 0;
}

__attribute__((destructor)) static void tell(void)
{
    char line[32];
    int length = snprintf(line, sizeof line, "%lu\n", made);
    ssize_t ignored = write(3, line, length);
    (void)ignored;
}

/* A program with threads ends by this, and runs no destructor. */
void _exit(int status)
{
    tell();
    syscall(SYS_exit_group, status);
    __builtin_unreachable();
}

static int is_refused(void)
{
    if (__atomic_add_fetch(&made, 1, __ATOMIC_SEQ_CST) != refused)
        return 0;
    errno = ENOMEM;
    return 1;
}

#define NEXT(name) ((__typeof__(&name))dlsym(RTLD_NEXT, #name))

void *malloc(size_t size)
{
    static void *(*next)(size_t);
    if (!next)
        next = NEXT(malloc);
    return is_refused() ? NULL : next(size);
}

void *realloc(void *old, size_t size)
{
    static void *(*next)(void *, size_t);
    if (!next)
        next = NEXT(realloc);
    return is_refused() ? NULL : next(old, size);
}

int posix_memalign(void **place, size_t alignment, size_t size)
{
    static int (*next)(void **, size_t, size_t);
    if (!next)
        next = NEXT(posix_memalign);
    return is_refused() ? ENOMEM : next(place, alignment, size);
}

void *aligned_alloc(size_t alignment, size_t size)
{
    static void *(*next)(size_t, size_t);
    if (!next)
        next = NEXT(aligned_alloc);
    return is_refused() ? NULL : next(alignment, size);
}

int pthread_create(pthread_t *thread, const pthread_attr_t *attributes, void *(*body)(void *), void *argument)
{
    static int (*next)(pthread_t *, const pthread_attr_t *, void *(*)(void *), void *);
    if (!next)
        next = NEXT(pthread_create);
    if (__atomic_add_fetch(&started, 1, __ATOMIC_SEQ_CST) == refused_thread)
        return EAGAIN;
    return next(thread, attributes, body, argument);
}
