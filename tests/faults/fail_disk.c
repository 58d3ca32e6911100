// Lets one call on a file under a folder named journals or mirrors fail, or ends the process there: put in front of a program by LD_PRELOAD.
// TELL=1     writes how many such calls there were to standard error, at the end
// FAIL=N     call N (from 1) fails with EIO, and with FAIL_ALL=1 each later one too
// STOP=N     the process is killed at call N, in the place of the call; a write has then put half of its bytes
// SHORT=1    each write of several bytes puts half of them, and says so
// LOG=FILE   a line for each write, sync and folder made, with its path, in their order; also for a sync of any other folder
// RECORD=FILE  what each write put and each sync, in their order: `W`, place and size of 8 bytes each and the bytes, and `S`
// FAIL_WHILE=FILE  while there is such a file each write and each sync fails with ENOSPC, as on a full disk; no call is counted for that
// ONLY=WORD  the calls are those on files alone whose path has the word, such as /2.bud, or mirrors
// The calls are reads and writes at a place, syncs, asking for a length or for which file it is, locking, and opening or making such a file
// or folder.
#define _GNU_SOURCE
#include <dlfcn.h>
#include <errno.h>
#include <fcntl.h>
#include <signal.h>
#include <stdarg.h>
#include <stdio.h>
#include <stdlib.h>
#include <string.h>
#include <sys/file.h>
#include <sys/stat.h>
#include <unistd.h>

static long calls, fail_at, stop_at, fail_all, short_writes;
static const char *only, *fail_while;
static FILE *log_file, *record_file;

__attribute__((constructor)) static void begin(void) {
    fail_at = getenv("FAIL") ? atol(getenv("FAIL")) : 0;
    stop_at = getenv("STOP") ? atol(getenv("STOP")) : 0;
    fail_all = getenv("FAIL_ALL") != 0;
    short_writes = getenv("SHORT") != 0;
    only = getenv("ONLY");
    fail_while = getenv("FAIL_WHILE");
    log_file = getenv("LOG") ? fopen(getenv("LOG"), "a") : 0;
    record_file = getenv("RECORD") ? fopen(getenv("RECORD"), "a") : 0;
}

__attribute__((destructor)) static void end(void) {
    if (getenv("TELL"))
        fprintf(stderr, "%ld", calls);
}

// A program that ends by _exit runs no destructor.
__attribute__((noreturn)) void _exit(int status) {
    end();
    ((void (*)(int))dlsym(RTLD_NEXT, "_exit"))(status);
    __builtin_unreachable();
}

static int counts(const char *path) {
    return path && (strstr(path, "journals") != 0 || strstr(path, "mirrors") != 0) && (!only || strstr(path, only) != 0);
}

static const char *path_of(int file) {
    static _Thread_local char path[4096];
    char link[64];
    snprintf(link, sizeof link, "/proc/self/fd/%d", file);
    ssize_t n = readlink(link, path, sizeof path - 1);
    path[n < 0 ? 0 : n] = 0;
    return path;
}

static int file_counts(int file) { return counts(path_of(file)); }

static void note(const char *name, const char *path) {
    if (log_file)
        fprintf(log_file, "%s %s\n", name, path), fflush(log_file);
}

static ssize_t recorded(ssize_t put, const void *bytes, off_t place) {
    if (record_file && put > 0) {
        unsigned long long head[2] = {(unsigned long long)place, (unsigned long long)put};
        flockfile(record_file);
        fputc('W', record_file), fwrite(head, 8, 2, record_file), fwrite(bytes, 1, (size_t)put, record_file), fflush(record_file);
        funlockfile(record_file);
    }
    return put;
}

// The number of this call, among those of all threads.
static long numbered(void) { return __atomic_add_fetch(&calls, 1, __ATOMIC_SEQ_CST); }

// Whether the call of this number is to fail. Where it is to stop, there is nobody left to tell.
static int fails(long call) {
    if (call == stop_at)
        raise(SIGKILL);
    if (fail_at && (call == fail_at || (fail_all && call > fail_at))) {
        errno = EIO;
        return 1;
    }
    return 0;
}

static int is_full(void) {
    if (!fail_while || access(fail_while, F_OK) != 0)
        return 0;
    errno = ENOSPC;
    return 1;
}

typedef ssize_t (*write_call)(int, const void *, size_t, off_t);
typedef ssize_t (*read_call)(int, void *, size_t, off_t);
typedef int (*sync_call)(int);
typedef int (*lock_call)(int, int);
typedef int (*open_call)(const char *, int, ...);
typedef int (*openat_call)(int, const char *, int, ...);
typedef int (*mkdir_call)(const char *, mode_t);

static ssize_t writes(const char *name, int file, const void *bytes, size_t size, off_t place) {
    write_call next = (write_call)dlsym(RTLD_NEXT, name);
    if (file_counts(file)) {
        if (is_full())
            return -1;
        long call = numbered();
        if (call == stop_at)
            next(file, bytes, size / 2, place);
        if (fails(call))
            return -1;
        note("write", path_of(file));
        if (short_writes && size > 1)
            size /= 2;
        return recorded(next(file, bytes, size, place), bytes, place);
    }
    return next(file, bytes, size, place);
}
ssize_t pwrite(int file, const void *bytes, size_t size, off_t place) { return writes("pwrite", file, bytes, size, place); }
ssize_t pwrite64(int file, const void *bytes, size_t size, off_t place) { return writes("pwrite64", file, bytes, size, place); }

static ssize_t reads(const char *name, int file, void *bytes, size_t size, off_t place) {
    if (file_counts(file) && fails(numbered()))
        return -1;
    return ((read_call)dlsym(RTLD_NEXT, name))(file, bytes, size, place);
}
ssize_t pread(int file, void *bytes, size_t size, off_t place) { return reads("pread", file, bytes, size, place); }
ssize_t pread64(int file, void *bytes, size_t size, off_t place) { return reads("pread64", file, bytes, size, place); }

static int syncs(const char *name, int file) {
    if (file_counts(file) && (is_full() || fails(numbered())))
        return -1;
    note("sync", path_of(file));
    int status = ((sync_call)dlsym(RTLD_NEXT, name))(file);
    if (record_file && status == 0 && file_counts(file))
        fputc('S', record_file), fflush(record_file);
    return status;
}
int fsync(int file) { return syncs("fsync", file); }
int fdatasync(int file) { return syncs("fdatasync", file); }

int flock(int file, int how) {
    if (file_counts(file) && fails(numbered()))
        return -1;
    return ((lock_call)dlsym(RTLD_NEXT, "flock"))(file, how);
}

static int opens(const char *name, const char *path, int flags, mode_t mode) {
    if (counts(path) && fails(numbered()))
        return -1;
    return ((open_call)dlsym(RTLD_NEXT, name))(path, flags, mode);
}
#define OPEN(NAME)                                                                                                                        \
    int NAME(const char *path, int flags, ...) {                                                                                          \
        va_list more;                                                                                                                     \
        va_start(more, flags);                                                                                                            \
        mode_t mode = va_arg(more, mode_t);                                                                                               \
        va_end(more);                                                                                                                     \
        return opens(#NAME, path, flags, mode);                                                                                           \
    }
OPEN(open)
OPEN(open64)

#define OPENAT(NAME)                                                                                                                      \
    int NAME(int folder, const char *path, int flags, ...) {                                                                              \
        va_list more;                                                                                                                     \
        va_start(more, flags);                                                                                                            \
        mode_t mode = va_arg(more, mode_t);                                                                                               \
        va_end(more);                                                                                                                     \
        if (counts(path) && fails(numbered()))                                                                                            \
            return -1;                                                                                                                    \
        return ((openat_call)dlsym(RTLD_NEXT, #NAME))(folder, path, flags, mode);                                                         \
    }
OPENAT(openat)
OPENAT(openat64)

int mkdir(const char *path, mode_t mode) {
    if (counts(path) && fails(numbered()))
        return -1;
    note("mkdir", path);
    return ((mkdir_call)dlsym(RTLD_NEXT, "mkdir"))(path, mode);
}

typedef int (*statx_call)(int, const char *, int, unsigned, struct statx *);

int statx(int file, const char *restrict path, int flags, unsigned mask, struct statx *restrict told) {
    if (path && (*path ? counts(path) : file_counts(file)) && fails(numbered()))
        return -1;
    return ((statx_call)dlsym(RTLD_NEXT, "statx"))(file, path, flags, mask, told);
}
