"""How a call of the C library on an output, or on standard output, fails in tools/refuse_writes: the library's calls, and the faults."""
import errno
from typing import NamedTuple, Optional

LATER = 2**62

# Of the file that REFUSE_NAME names, or of standard output where that is empty, the calls REFUSE_CALL are counted: those of a name, or for
# `empty` each that empties the file. Those that are refused fail with the error REFUSE_ERROR; the write REFUSE_PART takes its bytes divided
# by REFUSE_SHARE, and none if that is 0.
CALLS = r"""
#include <stdarg.h>
#include <string.h>
#include <sys/stat.h>
#include <sys/syscall.h>
#include <sys/uio.h>
#include <unistd.h>

static const char *named, *meant;
static long part, share, error;

__attribute__((constructor)) static void begin_calls(void) {
    const char *at = getenv("REFUSE_PART"), *by = getenv("REFUSE_SHARE"), *number = getenv("REFUSE_ERROR");
    part = at ? atol(at) : 0;
    share = by ? atol(by) : 0;
    error = number ? atol(number) : ENOSPC;
    meant = getenv("REFUSE_CALL");
    named = getenv("REFUSE_NAME");
}

static int is_meant(const char *call) {
    return counts && named && meant && !strcmp(call, meant);
}

static int is_named(int file) {
    struct stat one, other;
    if (!*named)
        return file == STDOUT_FILENO;
    return !fstat(file, &one) && !stat(named, &other) && one.st_dev == other.st_dev && one.st_ino == other.st_ino;
}

static long number_of(const char *call, int file) {
    return is_meant(call) && is_named(file) ? counted() : 0;
}

static int fail(void) {
    errno = error;
    return -1;
}

ssize_t write(int file, const void *bytes, size_t count) {
    long number = number_of("write", file);
    if (is_refused(number))
        return fail();
    if (number && number == part && !share)
        return 0;
    return syscall(SYS_write, file, bytes, number && number == part ? count / share : count);
}

ssize_t writev(int file, const struct iovec *parts, int count) {
    int at = 0;
    if (!is_meant("write") || !is_named(file))
        return syscall(SYS_writev, file, parts, count);
    while (at < count && !parts[at].iov_len)
        at++;
    return at < count ? write(file, parts[at].iov_base, parts[at].iov_len) : 0;
}

static int opened(int folder, const char *path, int flags, int mode) {
    int counts_it = is_meant("open") || (is_meant("empty") && flags & O_TRUNC);
    long number = counts_it && *named && !strcmp(path, named) ? counted() : 0;
    return is_refused(number) ? fail() : syscall(SYS_openat, folder, path, flags, mode);
}

static int emptied(int file, off_t length) {
    long number = number_of(is_meant("empty") ? "empty" : "ftruncate", file);
    return is_refused(number) ? fail() : syscall(SYS_ftruncate, file, length);
}

#define MODE(flags) ({ va_list more; va_start(more, flags); int mode = flags & O_CREAT ? va_arg(more, int) : 0; va_end(more); mode; })

int open(const char *path, int flags, ...) { return opened(AT_FDCWD, path, flags, MODE(flags)); }
int open64(const char *path, int flags, ...) { return opened(AT_FDCWD, path, flags, MODE(flags)); }
int openat(int folder, const char *path, int flags, ...) { return opened(folder, path, flags, MODE(flags)); }
int openat64(int folder, const char *path, int flags, ...) { return opened(folder, path, flags, MODE(flags)); }
int ftruncate(int file, off_t length) { return emptied(file, length); }
int ftruncate64(int file, off_t length) { return emptied(file, length); }

int fsync(int file) {
    return is_refused(number_of("fsync", file)) ? fail() : syscall(SYS_fsync, file);
}

int fdatasync(int file) {
    return is_refused(number_of("fsync", file)) ? fail() : syscall(SYS_fdatasync, file);
}

int close(int file) {
    long number = number_of("close", file);
    int closed = syscall(SYS_close, file);
    return is_refused(number) ? fail() : closed;
}
"""


class Fault(NamedTuple):
    """A fault of the call of some number: which calls fail, counted from it on, and with which error, or how little it takes."""

    says: str
    calls: tuple
    first: Optional[int] = None
    last: int = 0
    error: int = errno.ENOSPC
    share: Optional[int] = None
    is_told: Optional[bool] = True  # whether the run fails by it; None if it may


# The calls on an output: those that begin it, those that add to it, and those that may end it
BEGIN, WRITE, END = ("open", "ftruncate"), ("write",), ("fsync", "close")
FAULTS = [
    Fault("fails", BEGIN + WRITE, 0),
    Fault("and all later ones fail", BEGIN + WRITE, 0, LATER),
    Fault("takes half, and the next fails", WRITE, 1, 1, share=2),
    Fault("takes half, and all later ones fail", WRITE, 1, LATER, share=2),
    Fault("takes half", WRITE, share=2, is_told=False),
    Fault("takes nothing", WRITE, share=0),
    Fault("is interrupted", WRITE, 0, error=errno.EINTR, is_told=False),
    Fault("fails", END, 0, is_told=None),
]
