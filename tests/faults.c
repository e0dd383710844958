/* A `read` and a `write` that fail where a file seldom does, to be loaded before eonfmt's (LD_PRELOAD). By environment variables:
 *   READ_INTERRUPTS   so many reads of standard input are interrupted first
 *   READ_PIECE        a read gives at most so many bytes
 *   READ_FAILS        a read fails once so many bytes were given
 *   WRITE_PIECE, WRITE_FAILS   the same for standard output
 */
#define _GNU_SOURCE
#include <errno.h>
#include <limits.h>
#include <stdlib.h>
#include <sys/syscall.h>
#include <unistd.h>

static long setting(const char *name, long otherwise) {
    const char *value = getenv(name);
    return value == NULL ? otherwise : atol(value);
}

static long least(long a, long b) { return a < b ? a : b; }

/* What a call moves of n bytes, where it moved some before. */
static ssize_t moved(long call, int fd, const void *bytes, size_t n, long *before, const char *piece, const char *fails) {
    long left = setting(fails, LONG_MAX) - *before;
    if (left <= 0) {
        errno = EIO;
        return -1;
    }
    ssize_t got = syscall(call, fd, bytes, least(n, least(left, setting(piece, LONG_MAX))));
    if (got > 0) *before += got;
    return got;
}

ssize_t read(int fd, void *bytes, size_t n) {
    static long calls, before;
    if (fd != STDIN_FILENO) return syscall(SYS_read, fd, bytes, n);
    if (calls++ < setting("READ_INTERRUPTS", 0)) {
        errno = EINTR;
        return -1;
    }
    return moved(SYS_read, fd, bytes, n, &before, "READ_PIECE", "READ_FAILS");
}

ssize_t write(int fd, const void *bytes, size_t n) {
    static long before;
    if (fd != STDOUT_FILENO) return syscall(SYS_write, fd, bytes, n);
    return moved(SYS_write, fd, bytes, n, &before, "WRITE_PIECE", "WRITE_FAILS");
}
