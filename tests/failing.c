/* A library to preload, by which calls of the C library fail, so that the tests see what a program does then.
 *
 * FAULT in the environment has what goes wrong, with commas between: a call and a number, as "read 2": of those calls the second fails; the same
 * with "kill " in front: the program is killed there, before the call is made; "short": every read and write moves one byte. The calls are open,
 * beside (the opening of a new file that is its owner's alone), stat and fstat (statx of a path and of an open file), readlink, read, write (to a
 * file), nothing (a write to a file, which answers 0), print (a write to standard output), fsync, fchmod, fchown, close, rename, unlink and
 * getentropy. What is read below /proc/self is passed over: no fault meets it, and it is not counted. MET has the name of a file, to which a line with
 * the name of the call is added each time that one is met.
 */
#define _GNU_SOURCE
#include <errno.h>
#include <fcntl.h>
#include <signal.h>
#include <stdarg.h>
#include <stdlib.h>
#include <string.h>
#include <sys/stat.h>
#include <sys/syscall.h>
#include <unistd.h>

enum { FAULTS = 8 };

static const char *faults(void)
{
    const char *words = getenv("FAULT");

    return words ? words : "";
}

/* The fault behind this one, or none. */
static const char *next(const char *words)
{
    words += strcspn(words, ",");
    return *words ? words + 1 : words;
}

static int is_short(void)
{
    const char *words;

    for (words = faults(); *words; words = next(words))
        if (strncmp(words, "short", 5) == 0)
            return 1;
    return 0;
}

static void met(const char *call)
{
    const char *name = getenv("MET");
    int fd = name ? (int)syscall(SYS_openat, AT_FDCWD, name, O_WRONLY | O_CREAT | O_APPEND, 0666) : -1;

    if (fd < 0)
        return;
    syscall(SYS_write, fd, call, strlen(call));
    syscall(SYS_write, fd, "\n", 1);
    syscall(SYS_close, fd);
}

/* Whether this call is one that is to fail; errno is then set. */
static int fails(const char *call, int error)
{
    static long seen[FAULTS];
    const char *words;
    size_t n = strlen(call);
    int i, killed, found = 0;

    for (words = faults(), i = 0; *words && i < FAULTS; words = next(words), i++) {
        killed = strncmp(words, "kill ", 5) == 0;
        if (killed)
            words += 5;
        if (strncmp(words, call, n) != 0 || words[n] != ' ' || ++seen[i] != atol(words + n))
            continue;
        met(call);
        if (killed)
            kill(getpid(), SIGKILL);
        found = 1;
    }
    if (found)
        errno = error;
    return found;
}

static size_t moved(size_t n)
{
    return n && is_short() ? 1 : n;
}

/* The one open file below /proc/self, in which the system says what limits a process has: no file of the tests. */
static int of_system = -1;

/* Whether it makes the file beside one that is replaced: it is not there, and will be its owner's alone. */
static int is_beside(int flags, int mode)
{
    return flags & O_EXCL && mode == 0600;
}

int open(const char *path, int flags, ...)
{
    va_list rest;
    int mode, fd;

    va_start(rest, flags);
    mode = flags & O_CREAT ? va_arg(rest, int) : 0;
    va_end(rest);
    if (strncmp(path, "/proc/self/", 11) == 0 && strncmp(path, "/proc/self/fd/", 14) != 0) {
        fd = (int)syscall(SYS_openat, AT_FDCWD, path, flags, mode);
        of_system = fd;
        return fd;
    }
    return fails(is_beside(flags, mode) ? "beside" : "open", EMFILE) ? -1 : (int)syscall(SYS_openat, AT_FDCWD, path, flags, mode);
}

/* Of a path, and of an open file. */
int statx(int folder, const char *restrict path, int flags, unsigned mask, struct statx *restrict found)
{
    if (*path ? fails("stat", EACCES) : fails("fstat", EIO))
        return -1;
    return (int)syscall(SYS_statx, folder, path, flags, mask, found);
}

ssize_t readlink(const char *restrict path, char *restrict bytes, size_t n)
{
    return fails("readlink", EIO) ? -1 : syscall(SYS_readlink, path, bytes, n);
}

ssize_t read(int fd, void *bytes, size_t n)
{
    if (fd == of_system)
        return syscall(SYS_read, fd, bytes, n);
    return fails("read", EIO) ? -1 : syscall(SYS_read, fd, bytes, moved(n));
}

ssize_t write(int fd, const void *bytes, size_t n)
{
    if (fd == STDOUT_FILENO && fails("print", ENOSPC))
        return -1;
    if (fd > STDERR_FILENO && fails("write", ENOSPC))
        return -1;
    if (fd > STDERR_FILENO && fails("nothing", ENOSPC))
        return 0;
    return syscall(SYS_write, fd, bytes, moved(n));
}

int fsync(int fd)
{
    return fails("fsync", EIO) ? -1 : (int)syscall(SYS_fsync, fd);
}

int fchmod(int fd, mode_t mode)
{
    return fails("fchmod", EPERM) ? -1 : (int)syscall(SYS_fchmod, fd, mode);
}

int fchown(int fd, uid_t owner, gid_t group)
{
    return fails("fchown", EPERM) ? -1 : (int)syscall(SYS_fchown, fd, owner, group);
}

/* The descriptor is closed all the same, as Linux does. */
int close(int fd)
{
    int closed = (int)syscall(SYS_close, fd);

    if (fd == of_system) {
        of_system = -1;
        return closed;
    }
    return fails("close", EIO) ? -1 : closed;
}

int rename(const char *from, const char *to)
{
    return fails("rename", EXDEV) ? -1 : (int)syscall(SYS_rename, from, to);
}

int unlink(const char *path)
{
    return fails("unlink", EACCES) ? -1 : (int)syscall(SYS_unlink, path);
}

int getentropy(void *bytes, size_t n)
{
    return fails("getentropy", ENOSYS) ? -1 : syscall(SYS_getrandom, bytes, n, 0) == (long)n ? 0 : -1;
}
