/* Loaded before the C library, it ends the process by SIGKILL at one of its calls that open, make, lock, change, sync or remove a file: the one of the
   number KILL_AT, counted from 1, before it is made; with KILL_HALF=1 half of a write is done first. At its end the process writes how many such calls
   there were to the file that KILL_COUNT names. tools/killed-opens makes and uses it. */
#define _GNU_SOURCE
#include <dlfcn.h>
#include <fcntl.h>
#include <signal.h>
#include <stdarg.h>
#include <stdio.h>
#include <stdlib.h>
#include <sys/types.h>
#include <unistd.h>

static unsigned long kill_at, calls;
static int by_half, is_ready;

static int is_due(void) { return is_ready && ++calls == kill_at; }
static void end_now(void) { kill(getpid(), SIGKILL); }
static void take(void) { if (is_due()) end_now(); }

__attribute__((constructor)) static void begin(void) {
    const char *at = getenv("KILL_AT"), *half = getenv("KILL_HALF");
    kill_at = at ? strtoul(at, NULL, 10) : 0;
    by_half = half && *half == '1';
    is_ready = 1;
}

__attribute__((destructor)) static void end(void) {
    const char *file = getenv("KILL_COUNT");
    FILE *to;
    is_ready = 0;
    to = file ? fopen(file, "w") : NULL;
    if (to) {
        fprintf(to, "%lu\n", calls);
        fclose(to);
    }
}

#define NEXT(type, name) ((type)dlsym(RTLD_NEXT, name))

static int opened(const char *name, const char *path, int flags, unsigned mode) {
    take();
    return NEXT(int (*)(const char *, int, ...), name)(path, flags, mode);
}
#define OPEN(name) \
    int name(const char *path, int flags, ...) { \
        va_list more; \
        va_start(more, flags); \
        unsigned mode = flags & O_CREAT ? va_arg(more, unsigned) : 0; \
        va_end(more); \
        return opened(#name, path, flags, mode); \
    }
OPEN(open)
OPEN(open64)

#define PWRITE(name, size) \
    ssize_t name(int fd, const void *bytes, size_t count, size at) { \
        int due = is_due(); \
        ssize_t (*next)(int, const void *, size_t, size) = NEXT(ssize_t (*)(int, const void *, size_t, size), #name); \
        if (due && by_half) next(fd, bytes, count / 2, at); \
        if (due) end_now(); \
        return next(fd, bytes, count, at); \
    }
PWRITE(pwrite, off_t)
PWRITE(pwrite64, off64_t)

ssize_t write(int fd, const void *bytes, size_t count) {
    int due = fd > 2 && is_due();
    ssize_t (*next)(int, const void *, size_t) = NEXT(ssize_t (*)(int, const void *, size_t), "write");
    if (due && by_half) next(fd, bytes, count / 2);
    if (due) end_now();
    return next(fd, bytes, count);
}

#define CUT(name, size) int name(int fd, size length) { take(); return NEXT(int (*)(int, size), #name)(fd, length); }
CUT(ftruncate, off_t)
CUT(ftruncate64, off64_t)

#define SYNC(name) int name(int fd) { take(); return NEXT(int (*)(int), #name)(fd); }
SYNC(fsync)
SYNC(fdatasync)
SYNC(close)

#define LOCK(name) \
    int name(int fd, int command, ...) { \
        va_list more; \
        va_start(more, command); \
        void *given = va_arg(more, void *); \
        va_end(more); \
        take(); \
        return NEXT(int (*)(int, int, ...), #name)(fd, command, given); \
    }
LOCK(fcntl)
LOCK(fcntl64)

int unlink(const char *path) { take(); return NEXT(int (*)(const char *), "unlink")(path); }
int rename(const char *from, const char *to) { take(); return NEXT(int (*)(const char *, const char *), "rename")(from, to); }
int fchmod(int fd, mode_t mode) { take(); return NEXT(int (*)(int, mode_t), "fchmod")(fd, mode); }
