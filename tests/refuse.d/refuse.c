/*
 * Loaded before the C library, it refuses what these environment variables name, each counted from 1 over all threads:
 *
 *     REFUSE       the allocation with this number
 *     FAIL_READ    the read of standard input with this number
 *     FAIL_WRITE   the write to standard output with this number
 *     MOST         a write to standard output takes at most so many octets
 *     REACHED      a file that is made where the refused allocation was asked for
 */
#define _GNU_SOURCE
#include <errno.h>
#include <fcntl.h>
#include <stdatomic.h>
#include <stdlib.h>
#include <sys/syscall.h>
#include <unistd.h>

#include "allocations.h"

static atomic_long allocations, reads, writes;

static int is_named(const char *variable, atomic_long *count)
{
    const char *number = getenv(variable);
    return number != NULL && atomic_fetch_add(count, 1) + 1 == atol(number);
}

static int is_refused(void)
{
    const char *reached = getenv("REACHED");
    if (!is_named("REFUSE", &allocations))
        return 0;
    if (reached != NULL)
        close(open(reached, O_CREAT | O_WRONLY, 0600));
    return 1;
}

ssize_t read(int file, void *octets, size_t count)
{
    if (file == 0 && is_named("FAIL_READ", &reads)) {
        errno = EIO;
        return -1;
    }
    return syscall(SYS_read, file, octets, count);
}

ssize_t write(int file, const void *octets, size_t count)
{
    const char *most = getenv("MOST");
    if (file == 1 && is_named("FAIL_WRITE", &writes)) {
        errno = EIO;
        return -1;
    }
    if (file == 1 && most != NULL && count > (size_t)atol(most))
        count = atol(most);
    return syscall(SYS_write, file, octets, count);
}
