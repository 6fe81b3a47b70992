/* A library to be preloaded: it refuses memory and fails devices as its environment says. Everything is counted from 1.
 *
 * REFUSE_FROM=N REFUSE_COUNT=M   the requests for memory from the Nth on are refused, M of them
 * REFUSE_ONE_IN=K REFUSE_SEED=S  from the Nth request on one in K is refused, by a throw of dice from this seed
 * READ_INODE=I                   counts the reads of this file
 * READ_SHORT=L                   each of these reads gets at most L bytes
 * READ_FAILS=N READ_ERRNO=E      the Nth of these reads fails
 * SHRINK_AT=N SHRINK_TO=L SHRINK_FILE=PATH   before the Nth of these reads the file is cut to L bytes
 * WRITE_SHORT=L                  each write to standard output takes at most L bytes
 * WRITE_FAILS=N WRITE_ERRNO=E    the Nth write to standard output fails; it takes no byte where E is 0
 * THREAD_FAILS=N                 the Nth thread can't be started
 * COUNTS=FD                      a file of at least 32 bytes: its first four numbers count the requests, reads, writes and threads
 */
#define _GNU_SOURCE
#include <dlfcn.h>
#include <errno.h>
#include <pthread.h>
#include <stdatomic.h>
#include <stdint.h>
#include <stdlib.h>
#include <sys/mman.h>
#include <sys/stat.h>
#include <sys/syscall.h>
#include <unistd.h>

void *__libc_malloc(size_t);
void *__libc_calloc(size_t, size_t);
void *__libc_realloc(void *, size_t);
void *__libc_memalign(size_t, size_t);

enum { REQUESTS, READS, WRITES, THREADS, KINDS };

static atomic_long own[KINDS], *counts = own;
static long from, count, one_in, seed, inode, read_short, read_fails, read_errno, shrink_at, shrink_to, write_short,
    write_fails, write_errno, thread_fails;
static const char *shrink_file;

static long number(const char *name) {
    const char *text = getenv(name);
    return text ? atol(text) : 0;
}

__attribute__((constructor)) static void begin(void) {
    from = number("REFUSE_FROM"), count = number("REFUSE_COUNT");
    one_in = number("REFUSE_ONE_IN"), seed = number("REFUSE_SEED");
    inode = number("READ_INODE"), read_short = number("READ_SHORT");
    read_fails = number("READ_FAILS"), read_errno = number("READ_ERRNO");
    shrink_at = number("SHRINK_AT"), shrink_to = number("SHRINK_TO"), shrink_file = getenv("SHRINK_FILE");
    write_short = number("WRITE_SHORT"), write_fails = number("WRITE_FAILS"), write_errno = number("WRITE_ERRNO");
    thread_fails = number("THREAD_FAILS");
    if (!getenv("COUNTS")) return;
    void *shared = mmap(NULL, sizeof own, PROT_READ | PROT_WRITE, MAP_SHARED, (int)number("COUNTS"), 0);
    if (shared != MAP_FAILED) counts = shared;
}

/* The number of this request, read, write or start of a thread. */
static long next(int kind) { return atomic_fetch_add(&counts[kind], 1) + 1; }

/* Whether this request for memory is refused. */
static int is_refused(void) {
    long n = next(REQUESTS);
    uint64_t dice = (uint64_t)(n * 1000003 + seed) * 0x9E3779B97F4A7C15u;
    int refused = from && n >= from && (one_in ? (dice >> 33) % (uint64_t)one_in == 0 : n - from < count);
    if (refused) errno = ENOMEM;
    return refused;
}

void *malloc(size_t size) { return is_refused() ? NULL : __libc_malloc(size); }
void *calloc(size_t items, size_t size) { return is_refused() ? NULL : __libc_calloc(items, size); }
void *realloc(void *old, size_t size) { return is_refused() ? NULL : __libc_realloc(old, size); }
void *aligned_alloc(size_t align, size_t size) { return is_refused() ? NULL : __libc_memalign(align, size); }
int posix_memalign(void **at, size_t align, size_t size) {
    if (is_refused()) return ENOMEM;
    *at = __libc_memalign(align, size);
    return *at ? 0 : ENOMEM;
}

static int is_watched(int fd) {
    struct stat about;
    return inode && fstat(fd, &about) == 0 && (long)about.st_ino == inode;
}

ssize_t read(int fd, void *bytes, size_t size) {
    if (is_watched(fd)) {
        long n = next(READS);
        if (n == shrink_at && truncate(shrink_file, shrink_to) != 0) _exit(99);
        if (n == read_fails) { errno = (int)read_errno; return -1; }
        if (read_short && size > (size_t)read_short) size = (size_t)read_short;
    }
    return syscall(SYS_read, fd, bytes, size);
}

ssize_t write(int fd, const void *bytes, size_t size) {
    if (fd == 1) {
        long n = next(WRITES);
        if (n == write_fails) { errno = (int)write_errno; return write_errno ? -1 : 0; }
        if (write_short && size > (size_t)write_short) size = (size_t)write_short;
    }
    return syscall(SYS_write, fd, bytes, size);
}

int pthread_create(pthread_t *thread, const pthread_attr_t *how, void *(*work)(void *), void *with) {
    int (*create)(pthread_t *, const pthread_attr_t *, void *(*)(void *), void *) = dlsym(RTLD_NEXT, "pthread_create");
    return next(THREADS) == thread_fails ? EAGAIN : create(thread, how, work, with);
}
