/* The calls by which the program opens and reads, over those of the C library: the paths that it
   opens go to the file CALLS_LOG, a read takes at most CALLS_PIECE bytes, and the read numbered
   CALLS_FAIL fails. */
#define _GNU_SOURCE
#include <errno.h>
#include <fcntl.h>
#include <stdlib.h>
#include <string.h>
#include <sys/syscall.h>
#include <unistd.h>

static long number(const char *name)
{
    const char *text = getenv(name);
    return text ? atol(text) : 0;
}

int open(const char *path, int flags, ...)
{
    const char *log = getenv("CALLS_LOG");
    if (log) {
        long to = syscall(SYS_openat, AT_FDCWD, log, O_WRONLY | O_CREAT | O_APPEND, 0666);
        syscall(SYS_write, to, path, strlen(path));
        syscall(SYS_write, to, "\n", (size_t)1);
        syscall(SYS_close, to);
    }
    return (int)syscall(SYS_openat, AT_FDCWD, path, flags, 0);
}

ssize_t read(int fd, void *to, size_t count)
{
    static long calls;
    size_t piece = (size_t)number("CALLS_PIECE");
    if (++calls == number("CALLS_FAIL")) {
        errno = EIO;
        return -1;
    }
    return syscall(SYS_read, fd, to, piece && piece < count ? piece : count);
}
