/* Preloaded before a program: refuses its request for memory number REFUSE, counted from 1, and grants all others.
   Where it refused one, it makes the file that REFUSED names; it holds the word `less` where the request was for less room than the block has.
   At the end it writes into the file that COUNTED names how many requests there were, and for how many bytes in all. */
#define _GNU_SOURCE
#include <dlfcn.h>
#include <errno.h>
#include <fcntl.h>
#include <malloc.h>
#include <stddef.h>
#include <stdio.h>
#include <stdlib.h>
#include <sys/syscall.h>
#include <unistd.h>

static long requests;
static long bytes;
static long refused_request;
static const char *refused_file;

__attribute__((constructor)) static void read_number(void)
{
    const char *number = getenv("REFUSE");
    refused_request = number ? atol(number) : 0;
    refused_file = getenv("REFUSED");
    requests = 0;
    bytes = 0;
}

__attribute__((destructor)) static void write_count(void)
{
    const char *counted_file = getenv("COUNTED");
    if (counted_file) {
        int file = open(counted_file, O_CREAT | O_WRONLY | O_TRUNC, 0600);
        dprintf(file, "%ld %ld\n", requests, bytes);
        close(file);
    }
}

/* A program may ask for memory in several threads. */
static int is_refused(size_t size, int is_less)
{
    __atomic_add_fetch(&bytes, (long)size, __ATOMIC_SEQ_CST);
    long request = __atomic_add_fetch(&requests, 1, __ATOMIC_SEQ_CST);
    if (refused_request == 0 || request != refused_request)
        return 0;
    if (refused_file) {
        int file = open(refused_file, O_CREAT | O_WRONLY | O_TRUNC, 0600);
        if (is_less)
            dprintf(file, "less");
        close(file);
    }
    errno = ENOMEM;
    return 1;
}

void *malloc(size_t size)
{
    static void *(*real)(size_t);
    if (!real)
        real = (void *(*)(size_t))dlsym(RTLD_NEXT, "malloc");
    return is_refused(size, 0) ? NULL : real(size);
}

/* A block has at most 15 bytes more than were asked for, but the smallest, which has 24. */
static int asks_for_less(void *old, size_t size)
{
    size_t room = old ? malloc_usable_size(old) : 0;
    return room > 24 && size + 16 <= room;
}

void *realloc(void *old, size_t size)
{
    static void *(*real)(void *, size_t);
    if (!real)
        real = (void *(*)(void *, size_t))dlsym(RTLD_NEXT, "realloc");
    return is_refused(size, asks_for_less(old, size)) ? NULL : real(old, size);
}

void *aligned_alloc(size_t alignment, size_t size)
{
    static void *(*real)(size_t, size_t);
    if (!real)
        real = (void *(*)(size_t, size_t))dlsym(RTLD_NEXT, "aligned_alloc");
    return is_refused(size, 0) ? NULL : real(alignment, size);
}

/* A program that may start threads ends by this, without its destructors. */
void _exit(int status)
{
    write_count();
    for (;;)
        syscall(SYS_exit_group, status);
}
