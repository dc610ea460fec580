/* In front of the C library, for one file, that of the path LOSSY_FILE: a disk that loses what wasn't synced.
 *
 * Each open, lock, write and sync of the file is a call, from 1; reads, and the sync of its folder, are none. At the call LOSSY_KILL the
 * process ends hard, before the call or after it (LOSSY_AFTER), and the file gets what a crash may leave then: of what was written since
 * the last sync each byte is the old one, the new one or any other, and past the old end there may be any number of bytes. At the call
 * LOSSY_FAIL the call fails, a write after half of its bytes. LOSSY_SEED draws. */
#define _GNU_SOURCE
#include <dlfcn.h>
#include <errno.h>
#include <fcntl.h>
#include <limits.h>
#include <signal.h>
#include <stdarg.h>
#include <stdlib.h>
#include <string.h>
#include <sys/file.h>
#include <sys/stat.h>
#include <unistd.h>

#define MOST (1 << 22)
static int fd_of_file = -1;
static long calls;
static unsigned char old[MOST], is_new[MOST], now[MOST];
static long old_size, dirty_end;
static unsigned long drawn;

static unsigned draw(void)
{
    drawn = drawn * 6364136223846793005UL + 1442695040888963407UL;
    return (unsigned)(drawn >> 33);
}

static long number(const char *name) { const char *s = getenv(name); return s ? atol(s) : 0; }

static ssize_t real_pwrite(int fd, const void *b, size_t n, off_t at)
{
    static ssize_t (*f)(int, const void *, size_t, off_t);
    if (!f) f = dlsym(RTLD_NEXT, "pwrite");
    return f(fd, b, n, at);
}

static int is_file(const char *path) { const char *file = getenv("LOSSY_FILE"); return file && !strcmp(path, file); }

static void look(void)
{
    old_size = pread(fd_of_file, old, MOST, 0);
    if (old_size < 0) old_size = 0;
    memset(is_new, 0, sizeof is_new);
    dirty_end = 0;
}

static void crash(void)
{
    long size, i;
    drawn = (unsigned long)number("LOSSY_SEED") * 7919 + calls;
    if (fd_of_file >= 0) {
        size = pread(fd_of_file, now, MOST, 0);
        for (i = 0; i < size && i < old_size; i++)
            if (is_new[i]) switch (draw() % 4) { case 0: now[i] = old[i]; break; case 1: now[i] = draw(); break; default: break; }
        if (size > old_size || dirty_end > old_size) {
            long end = old_size + draw() % (size - old_size + 8);
            for (i = old_size; i < end && i < MOST; i++) if (i >= size || draw() % 4 == 0) now[i] = draw();
            size = end;
        }
        real_pwrite(fd_of_file, now, size, 0);
        if (ftruncate64(fd_of_file, size)) {}
    }
    kill(getpid(), SIGKILL);
}

/* -1: it fails. */
static int before(void)
{
    calls++;
    if (calls == number("LOSSY_KILL") && !number("LOSSY_AFTER")) crash();
    if (calls == number("LOSSY_FAIL")) { errno = EIO; return -1; }
    return 0;
}

static void after(void) { if (calls == number("LOSSY_KILL")) crash(); }

static int opened(int fd) { if (fd >= 0) { fd_of_file = fd; look(); } after(); return fd; }

#define OPEN(name) \
    int name(const char *path, int flags, ...) \
    { \
        static int (*f)(const char *, int, ...); \
        va_list more; mode_t mode; \
        va_start(more, flags); mode = va_arg(more, mode_t); va_end(more); \
        if (!f) f = dlsym(RTLD_NEXT, #name); \
        if (!is_file(path)) return f(path, flags, mode); \
        return before() ? -1 : opened(f(path, flags, mode)); \
    }
OPEN(open)
OPEN(open64)
#define OPENAT(name) \
    int name(int folder, const char *path, int flags, ...) \
    { \
        static int (*f)(int, const char *, int, ...); \
        va_list more; mode_t mode; \
        va_start(more, flags); mode = va_arg(more, mode_t); va_end(more); \
        if (!f) f = dlsym(RTLD_NEXT, #name); \
        if (!is_file(path)) return f(folder, path, flags, mode); \
        return before() ? -1 : opened(f(folder, path, flags, mode)); \
    }
OPENAT(openat)
OPENAT(openat64)

int flock(int fd, int how)
{
    static int (*f)(int, int);
    int r;
    if (!f) f = dlsym(RTLD_NEXT, "flock");
    if (fd != fd_of_file) return f(fd, how);
    if (before()) return -1;
    r = f(fd, how);
    after();
    return r;
}

static ssize_t written(const void *b, size_t n, off_t at)
{
    ssize_t r;
    off_t i;
    if (before()) { if (n > 1) { real_pwrite(fd_of_file, b, n / 2, at); for (i = at; i < at + (off_t)n / 2 && i < MOST; i++) is_new[i] = 1; if (at + (off_t)n > dirty_end) dirty_end = at + n; } errno = EIO; return -1; }
    r = real_pwrite(fd_of_file, b, n, at);
    for (i = at; r > 0 && i < at + r && i < MOST; i++) is_new[i] = 1;
    if (r > 0 && at + r > dirty_end) dirty_end = at + r;
    after();
    return r;
}

ssize_t pwrite(int fd, const void *b, size_t n, off_t at) { return fd == fd_of_file ? written(b, n, at) : real_pwrite(fd, b, n, at); }
ssize_t pwrite64(int fd, const void *b, size_t n, off_t at) { return pwrite(fd, b, n, at); }

#define SYNC(name) \
    int name(int fd) \
    { \
        static int (*f)(int); \
        int r; \
        if (!f) f = dlsym(RTLD_NEXT, #name); \
        if (fd != fd_of_file) return f(fd); \
        if (before()) return -1; \
        r = f(fd); \
        if (!r) look(); \
        after(); \
        return r; \
    }
SYNC(fsync)
SYNC(fdatasync)
