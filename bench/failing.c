// Lets one call of a program fail: the library that bench/failing.py builds and loads before the C library.
//
//     cc -shared -fPIC -O2 -o failing.so failing.c
//     FAILING_IN=/store FAILING_CALL=pwrite FAILING_AT=3 FAILING_HOW=EIO LD_PRELOAD=./failing.so PROGRAM ..
//
// Calls on files in the folder FAILING_IN count, on itself, and on standard input and output. The call FAILING_CALL
// (pwrite, pread, write, read, open, fsync, fdatasync, ftruncate, flock, statx) with the number FAILING_AT, from 1 on,
// fails as FAILING_HOW says: EIO, ENOSPC or EINTR, with nothing done; HALF, where only the first half of the bytes is
// read or written and that is what it answers; or FULL, HALF of this call and ENOSPC of each later one. Each call that
// counts is told in the file FAILING_LOG, a line each: the call, `-` or how it failed, and the file.
//
// Where FAILING_CALL is malloc the allocation with that number finds no memory, the first behind the loading of the
// libraries being number 1, and with FULL each later one too; of allocations only that one is told.
#define _GNU_SOURCE
#include <errno.h>
#include <fcntl.h>
#include <stdarg.h>
#include <stdatomic.h>
#include <stdio.h>
#include <stdlib.h>
#include <string.h>
#include <sys/stat.h>
#include <sys/syscall.h>
#include <sys/types.h>
#include <unistd.h>

enum { GO = 0, HALF = -1 }; // else the number of an error
static atomic_long met;

static const char *told(const char *name) {
    const char *value = getenv(name);
    return value ? value : "";
}

static void note(const char *call, const char *how, const char *file) {
    char line[4400];
    int length = snprintf(line, sizeof line, "%s %s %s\n", call, how, file);
    int log = syscall(SYS_openat, AT_FDCWD, told("FAILING_LOG"), O_WRONLY | O_APPEND | O_CREAT | O_CLOEXEC, 0600);
    if (log >= 0) {
        syscall(SYS_write, log, line, length);
        syscall(SYS_close, log);
    }
}

static long scarce; // the number of the allocation that fails, or 0
static int scarce_for_good;
static atomic_long asked;

__attribute__((constructor)) static void begin(void) {
    scarce_for_good = strcmp(told("FAILING_HOW"), "FULL") == 0;
    scarce = strcmp(told("FAILING_CALL"), "malloc") == 0 ? atol(told("FAILING_AT")) : 0;
}

static int is_wanting(void) {
    if (scarce == 0)
        return 0;
    long number = ++asked;
    if (number == scarce)
        note("malloc", told("FAILING_HOW"), "-");
    int fails = number == scarce || (number > scarce && scarce_for_good);
    if (fails)
        errno = ENOMEM;
    return fails;
}

static int turn_at(const char *call, const char *file) {
    const char *how = told("FAILING_HOW"), *folder = told("FAILING_IN");
    if (strncmp(file, "standard ", 9) != 0 && (*folder == 0 || strncmp(file, folder, strlen(folder)) != 0))
        return GO;
    long left = strcmp(call, told("FAILING_CALL")) == 0 ? atol(told("FAILING_AT")) - ++met : 1;
    int is_full = strcmp(how, "FULL") == 0;
    if (left > 0 || (left < 0 && !is_full)) {
        note(call, "-", file);
        return GO;
    }
    note(call, how, file);
    if (strcmp(how, "HALF") == 0 || (is_full && left == 0))
        return HALF;
    return is_full || strcmp(how, "ENOSPC") == 0 ? ENOSPC : strcmp(how, "EINTR") == 0 ? EINTR : EIO;
}

static int turn(const char *call, int fd) {
    char link[40], file[4200] = "";
    if (fd == STDIN_FILENO || fd == STDOUT_FILENO)
        return turn_at(call, fd == STDIN_FILENO ? "standard input" : "standard output");
    snprintf(link, sizeof link, "/proc/self/fd/%d", fd);
    return syscall(SYS_readlinkat, AT_FDCWD, link, file, sizeof file - 1) < 0 ? GO : turn_at(call, file);
}

#define UNLESS_FAILING(why) int fails = (why); if (fails > 0) { errno = fails; return -1; }
#define MOVES(call, number, bytes, n, ...) { UNLESS_FAILING(turn(call, fd)) \
    return syscall(number, fd, bytes, fails == HALF ? (n + 1) / 2 : n, ##__VA_ARGS__); }
#define ASKS(call, number, ...) { UNLESS_FAILING(turn(call, fd)) return syscall(number, fd, ##__VA_ARGS__); }
#define OPENS(at) { va_list rest; va_start(rest, flags); int mode = va_arg(rest, int); va_end(rest); \
    UNLESS_FAILING(turn_at("open", path)) return syscall(SYS_openat, at, path, flags, mode); }

void *__libc_malloc(size_t n), *__libc_calloc(size_t n, size_t size), *__libc_realloc(void *old, size_t n);
void *__libc_memalign(size_t align, size_t n);

void *malloc(size_t n) { return is_wanting() ? NULL : __libc_malloc(n); }
void *calloc(size_t n, size_t size) { return is_wanting() ? NULL : __libc_calloc(n, size); }
void *realloc(void *old, size_t n) { return is_wanting() ? NULL : __libc_realloc(old, n); }
void *aligned_alloc(size_t align, size_t n) { return is_wanting() ? NULL : __libc_memalign(align, n); }
void *memalign(size_t align, size_t n) { return is_wanting() ? NULL : __libc_memalign(align, n); }

int posix_memalign(void **into, size_t align, size_t n) {
    return is_wanting() || (*into = __libc_memalign(align, n)) == NULL ? ENOMEM : 0;
}

ssize_t pwrite(int fd, const void *bytes, size_t n, off_t at) MOVES("pwrite", SYS_pwrite64, bytes, n, at)
ssize_t pwrite64(int fd, const void *bytes, size_t n, off_t at) MOVES("pwrite", SYS_pwrite64, bytes, n, at)
ssize_t pread(int fd, void *bytes, size_t n, off_t at) MOVES("pread", SYS_pread64, bytes, n, at)
ssize_t pread64(int fd, void *bytes, size_t n, off_t at) MOVES("pread", SYS_pread64, bytes, n, at)
ssize_t write(int fd, const void *bytes, size_t n) MOVES("write", SYS_write, bytes, n)
ssize_t read(int fd, void *bytes, size_t n) MOVES("read", SYS_read, bytes, n)
int fsync(int fd) ASKS("fsync", SYS_fsync)
int fdatasync(int fd) ASKS("fdatasync", SYS_fdatasync)
int ftruncate(int fd, off_t size) ASKS("ftruncate", SYS_ftruncate, size)
int ftruncate64(int fd, off_t size) ASKS("ftruncate", SYS_ftruncate, size)
int flock(int fd, int how) ASKS("flock", SYS_flock, how)
int open(const char *path, int flags, ...) OPENS(AT_FDCWD)
int open64(const char *path, int flags, ...) OPENS(AT_FDCWD)
int openat(int at, const char *path, int flags, ...) OPENS(at)
int openat64(int at, const char *path, int flags, ...) OPENS(at)

int statx(int fd, const char *restrict path, int flags, unsigned mask, struct statx *restrict into) {
    UNLESS_FAILING(*path ? turn_at("statx", path) : turn("statx", fd))
    return syscall(SYS_statx, fd, path, flags, mask, into);
}
