/* Stands between a program and the C library, counts its calls and lets the one of a given number fail. `.ci/gate.py` builds it.
 *
 * FAIL_FOLDER    calls at paths of this folder count, and at paths that are relative
 * FAIL_KINDS     which calls count: i an open for reading, o one for writing, r read, w write, s fsync, c close, n rename, d mkdir, u unlink
 *                or rmdir, 1 a write to standard output
 * FAIL_CALL      the number of the call that fails, from 1 on; 0 is none
 * FAIL_WITH      the fault of the system that it gives (errno); 0 kills the process in place of the call
 * REFUSE_REQUEST the number of the request for memory that is refused, from 1 on; 0 is none
 * COUNT_THREADS  tells of each thread that is started
 *
 * On descriptor 9 it writes a line for each call that counts, its kind and its path (`o` for both kinds of open, `w stdout`), and `m memory`
 * for a request that is refused, `t thread` for a thread. */
#define _GNU_SOURCE
#include <dlfcn.h>
#include <errno.h>
#include <fcntl.h>
#include <pthread.h>
#include <signal.h>
#include <stdarg.h>
#include <stdatomic.h>
#include <stddef.h>
#include <stdio.h>
#include <stdlib.h>
#include <string.h>
#include <sys/stat.h>
#include <sys/types.h>
#include <unistd.h>
#define NEXT(name, type) static __typeof__(type) *next; if (!next) next = (__typeof__(type) *)dlsym(RTLD_NEXT, name)
#define TOLD 9

static atomic_long calls, requests;

static long number_of(const char *name) {
    const char *text = getenv(name);
    return text ? atol(text) : 0;
}

static void tell(const char *line) {
    ssize_t (*write_on)(int, const void *, size_t) = (ssize_t (*)(int, const void *, size_t))dlsym(RTLD_NEXT, "write");
    if (write_on(TOLD, line, strlen(line))) {}
}

static int counts(char kind) {
    const char *kinds = getenv("FAIL_KINDS");
    return kinds && strchr(kinds, kind);
}

/* whether a call of a kind that counts, shown as this letter, is the one that fails */
static int fails(char shown, const char *path) {
    const char *folder = getenv("FAIL_FOLDER");
    char line[5000];
    if (*path == '/' && (!folder || strncmp(path, folder, strlen(folder)))) return 0;
    snprintf(line, sizeof line, "%c %s\n", shown, path);
    tell(line);
    if (atomic_fetch_add(&calls, 1) + 1 != number_of("FAIL_CALL")) return 0;
    errno = (int)number_of("FAIL_WITH");
    if (!errno) kill(getpid(), SIGKILL);
    return 1;
}

static int fails_at(char kind, int fd) {
    char link[64], path[4096];
    if (fd == 1 && kind == 'w') return counts('1') && fails('w', "stdout");
    if (fd < 3 || fd == TOLD || !counts(kind)) return 0;
    snprintf(link, sizeof link, "/proc/self/fd/%d", fd);
    ssize_t length = readlink(link, path, sizeof path - 1);
    if (length <= 0 || *path != '/') return 0;
    path[length] = 0;
    return fails(kind, path);
}

static int fails_to_open(const char *path, int flags) {
    return counts((flags & O_ACCMODE) == O_RDONLY ? 'i' : 'o') && fails('o', path);
}

#define OPEN(name) int name(const char *path, int flags, ...) { \
    NEXT(#name, int (const char *, int, ...)); va_list rest; va_start(rest, flags); mode_t mode = va_arg(rest, mode_t); va_end(rest); \
    return fails_to_open(path, flags) ? -1 : next(path, flags, mode); }
OPEN(open)
OPEN(open64)
#define OPEN_AT(name) int name(int folder, const char *path, int flags, ...) { \
    NEXT(#name, int (int, const char *, int, ...)); va_list rest; va_start(rest, flags); mode_t mode = va_arg(rest, mode_t); va_end(rest); \
    return fails_to_open(path, flags) ? -1 : next(folder, path, flags, mode); }
OPEN_AT(openat)
OPEN_AT(openat64)
ssize_t read(int fd, void *bytes, size_t n) { NEXT("read", ssize_t (int, void *, size_t)); return fails_at('r', fd) ? -1 : next(fd, bytes, n); }
ssize_t write(int fd, const void *bytes, size_t n) {
    NEXT("write", ssize_t (int, const void *, size_t));
    return fails_at('w', fd) ? -1 : next(fd, bytes, n);
}
int fsync(int fd) { NEXT("fsync", int (int)); return fails_at('s', fd) ? -1 : next(fd); }
int fdatasync(int fd) { NEXT("fdatasync", int (int)); return fails_at('s', fd) ? -1 : next(fd); }
int rename(const char *from, const char *to) {
    NEXT("rename", int (const char *, const char *));
    return counts('n') && fails('n', to) ? -1 : next(from, to);
}
int renameat(int a, const char *from, int b, const char *to) {
    NEXT("renameat", int (int, const char *, int, const char *));
    return counts('n') && fails('n', to) ? -1 : next(a, from, b, to);
}
int mkdir(const char *path, mode_t mode) { NEXT("mkdir", int (const char *, mode_t)); return counts('d') && fails('d', path) ? -1 : next(path, mode); }
int mkdirat(int folder, const char *path, mode_t mode) {
    NEXT("mkdirat", int (int, const char *, mode_t));
    return counts('d') && fails('d', path) ? -1 : next(folder, path, mode);
}
int rmdir(const char *path) { NEXT("rmdir", int (const char *)); return counts('u') && fails('u', path) ? -1 : next(path); }
int unlink(const char *path) { NEXT("unlink", int (const char *)); return counts('u') && fails('u', path) ? -1 : next(path); }
int unlinkat(int folder, const char *path, int how) {
    NEXT("unlinkat", int (int, const char *, int));
    return counts('u') && fails('u', path) ? -1 : next(folder, path, how);
}
int close(int fd) {
    NEXT("close", int (int));
    if (!fails_at('c', fd)) return next(fd);
    int fault = errno;
    next(fd);
    errno = fault;
    return -1;
}

static int refuses(void) {
    if (atomic_fetch_add(&requests, 1) + 1 != number_of("REFUSE_REQUEST")) return 0;
    tell("m memory\n");
    errno = ENOMEM;
    return 1;
}

void *malloc(size_t n) { NEXT("malloc", void *(size_t)); return refuses() ? NULL : next(n); }
void *realloc(void *p, size_t n) { NEXT("realloc", void *(void *, size_t)); return refuses() ? NULL : next(p, n); }
void *aligned_alloc(size_t a, size_t n) { NEXT("aligned_alloc", void *(size_t, size_t)); return refuses() ? NULL : next(a, n); }
int posix_memalign(void **p, size_t a, size_t n) {
    NEXT("posix_memalign", int (void **, size_t, size_t));
    return refuses() ? ENOMEM : next(p, a, n);
}

int pthread_create(pthread_t *thread, const pthread_attr_t *attributes, void *(*begin)(void *), void *given) {
    NEXT("pthread_create", int (pthread_t *, const pthread_attr_t *, void *(*)(void *), void *));
    if (getenv("COUNT_THREADS")) tell("t thread\n");
    return next(thread, attributes, begin, given);
}
