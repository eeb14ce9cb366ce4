// Sends a signal, the one that SIGNAL has, to the program that it is loaded into, before one of its calls that change files: the one
// of the number that CALL has, counted from 1; with 0 none. Each such call is told first, by a line on the descriptor that TOLD
// has: its name and the file's.
#define _GNU_SOURCE
#include <dlfcn.h>
#include <fcntl.h>
#include <limits.h>
#include <signal.h>
#include <stdarg.h>
#include <stdatomic.h>
#include <stdio.h>
#include <stdlib.h>
#include <sys/stat.h>
#include <sys/syscall.h>
#include <sys/uio.h>
#include <unistd.h>

#define NEXT(call) ((typeof(&call))dlsym(RTLD_NEXT, #call))

static atomic_long calls;

static long number_in(const char *name)
{
    const char *text = getenv(name);
    return text ? atol(text) : 0;
}

static void meet(const char *call, const char *file)
{
    char line[PATH_MAX + 32];
    int length = snprintf(line, sizeof line, "%s %s\n", call, file);
    syscall(SYS_write, (int)number_in("TOLD"), line, (size_t)length);
    if (atomic_fetch_add(&calls, 1) + 1 == number_in("CALL")) {
        kill(getpid(), (int)number_in("SIGNAL"));
    }
}

static void meet_open_file(const char *call, int file)
{
    char link[64], name[PATH_MAX];
    snprintf(link, sizeof link, "/proc/self/fd/%d", file);
    ssize_t length = readlink(link, name, sizeof name - 1);
    name[length < 0 ? 0 : length] = 0;
    meet(call, name);
}

// The mode of a file that an open may make; such an open is a call that changes files.
#define MODE_OF(flags, file)                      \
    mode_t mode = 0;                              \
    if ((flags) & (O_CREAT | O_TRUNC)) {          \
        va_list rest;                             \
        va_start(rest, flags);                    \
        mode = (flags) & O_CREAT ? va_arg(rest, mode_t) : 0; \
        va_end(rest);                             \
        meet("open", file);                       \
    }

int open(const char *file, int flags, ...)
{
    MODE_OF(flags, file)
    return NEXT(open)(file, flags, mode);
}

int open64(const char *file, int flags, ...)
{
    MODE_OF(flags, file)
    return NEXT(open64)(file, flags, mode);
}

int openat(int folder, const char *file, int flags, ...)
{
    MODE_OF(flags, file)
    return NEXT(openat)(folder, file, flags, mode);
}

int openat64(int folder, const char *file, int flags, ...)
{
    MODE_OF(flags, file)
    return NEXT(openat64)(folder, file, flags, mode);
}

ssize_t write(int file, const void *bytes, size_t length)
{
    meet_open_file("write", file);
    return NEXT(write)(file, bytes, length);
}

ssize_t writev(int file, const struct iovec *parts, int count)
{
    meet_open_file("write", file);
    return NEXT(writev)(file, parts, count);
}

ssize_t pwrite(int file, const void *bytes, size_t length, off_t place)
{
    meet_open_file("write", file);
    return NEXT(pwrite)(file, bytes, length, place);
}

int fsync(int file)
{
    meet_open_file("sync", file);
    return NEXT(fsync)(file);
}

int fdatasync(int file)
{
    meet_open_file("sync", file);
    return NEXT(fdatasync)(file);
}

int ftruncate(int file, off_t length)
{
    meet_open_file("truncate", file);
    return NEXT(ftruncate)(file, length);
}

int flock(int file, int how)
{
    meet_open_file("lock", file);
    return NEXT(flock)(file, how);
}

int fchmod(int file, mode_t mode)
{
    meet_open_file("mode", file);
    return NEXT(fchmod)(file, mode);
}

int chmod(const char *file, mode_t mode)
{
    meet("mode", file);
    return NEXT(chmod)(file, mode);
}

int rename(const char *from, const char *to)
{
    meet("rename", to);
    return NEXT(rename)(from, to);
}

int renameat(int from_folder, const char *from, int to_folder, const char *to)
{
    meet("rename", to);
    return NEXT(renameat)(from_folder, from, to_folder, to);
}

int link(const char *from, const char *to)
{
    meet("link", to);
    return NEXT(link)(from, to);
}

int unlink(const char *file)
{
    meet("unlink", file);
    return NEXT(unlink)(file);
}

int unlinkat(int folder, const char *file, int flags)
{
    meet("unlink", file);
    return NEXT(unlinkat)(folder, file, flags);
}
