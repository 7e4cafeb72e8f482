/* Preloaded before a program: each write takes at most STOP_PIECE bytes, and the file STOP takes STOP_ROOM of them, behind which a write fails as on a full
   disk. STOP is the number of an open file, or what its path ends with. Standard input, where it is the file, gives so many bytes, and then a read of it fails. */
#define _GNU_SOURCE
#include <errno.h>
#include <limits.h>
#include <stdio.h>
#include <stdlib.h>
#include <string.h>
#include <sys/syscall.h>
#include <unistd.h>

static const char *stop;
static size_t room;
static size_t piece;

__attribute__((constructor)) static void read_words(void)
{
    stop = getenv("STOP");
    room = strtoul(getenv("STOP_ROOM"), NULL, 10);
    piece = strtoul(getenv("STOP_PIECE"), NULL, 10);
}

static int is_stopped(int file)
{
    char number[32], path[PATH_MAX];
    snprintf(number, sizeof number, "%d", file);
    if (!strcmp(stop, number))
        return 1;
    snprintf(number, sizeof number, "/proc/self/fd/%d", file);
    ssize_t length = readlink(number, path, sizeof path);
    size_t end = strlen(stop);
    return length >= (ssize_t)end && stop[0] == '/' && !memcmp(path + length - end, stop, end);
}

/* Passes on what the file has room for, of this many bytes. */
static ssize_t within_room(long call, int file, void *bytes, size_t count, int fault)
{
    int stopped = is_stopped(file);
    size_t most = stopped && room < count ? room : count;
    if (most == 0 && count > 0) {
        errno = fault;
        return -1;
    }
    ssize_t passed = syscall(call, file, bytes, most);
    if (stopped && passed > 0)
        room -= (size_t)passed;
    return passed;
}

ssize_t write(int file, const void *bytes, size_t count)
{
    return within_room(SYS_write, file, (void *)bytes, count < piece ? count : piece, ENOSPC);
}

ssize_t read(int file, void *bytes, size_t count)
{
    if (file != STDIN_FILENO)
        return syscall(SYS_read, file, bytes, count);
    return within_room(SYS_read, file, bytes, count, EPIPE);
}
