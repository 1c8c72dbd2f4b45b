// Stands between a program and the C library, counts its calls of four kinds, and refuses some of them.
//
//   memory   malloc, calloc, realloc, posix_memalign, aligned_alloc
//   thread   pthread_create
//   read     read and readv of standard input
//   write    write and writev of standard output
//
// REFUSE_WHAT  the kind that is refused
// REFUSE_AT    the number of the call that is refused, from 1; 0, or not set: none
// REFUSE_ON    if set, all calls of that kind behind it too
// REFUSE_HOW   of reads and writes: `fail` (EIO, as without it), `interrupt` (EINTR), `short` (one byte is read or written)
// REFUSE_COUNT a file that gets the number of calls of each kind at the end, in the order above
//
// Build: cc -O2 -shared -fPIC -o refuse.so refuse.c -ldl     Use: LD_PRELOAD=./refuse.so REFUSE_WHAT=memory REFUSE_AT=7 program
#define _GNU_SOURCE
#include <errno.h>
#include <fcntl.h>
#include <pthread.h>
#include <stdatomic.h>
#include <stdio.h>
#include <stdlib.h>
#include <string.h>
#include <sys/syscall.h>
#include <sys/uio.h>
#include <unistd.h>

#include "real.h"

enum kind { MEMORY, THREAD, READ, WRITE, KINDS };
enum how { FAIL, INTERRUPT, SHORT };

static const char *const names[KINDS] = {"memory", "thread", "read", "write"};
static atomic_ulong calls[KINDS];
static enum kind what = KINDS;
static enum how how = FAIL;
static unsigned long at;
static int on;
static atomic_int ready;

static int (*real_pthread_create)(pthread_t *, const pthread_attr_t *, void *(*)(void *), void *);

static int is(const char *value, const char *word) { return value && strcmp(value, word) == 0; }

__attribute__((constructor)) static void start(void) {
    if (ready) return;
    look_up();
    real_pthread_create = dlsym(RTLD_NEXT, "pthread_create");
    for (int kind = 0; kind < KINDS; kind++)
        if (is(getenv("REFUSE_WHAT"), names[kind])) what = kind;
    if (getenv("REFUSE_AT")) at = strtoul(getenv("REFUSE_AT"), 0, 10);
    on = getenv("REFUSE_ON") != 0;
    if (is(getenv("REFUSE_HOW"), "interrupt")) how = INTERRUPT;
    if (is(getenv("REFUSE_HOW"), "short")) how = SHORT;
    ready = 1;
}

// Counts a call of this kind, and tells whether it is one that is refused.
static int is_refused(enum kind kind) {
    if (!ready) return 0;
    unsigned long number = atomic_fetch_add(&calls[kind], 1) + 1;
    return kind == what && at && (number == at || (on && number > at));
}

static int no_memory(void) {
    if (!is_refused(MEMORY)) return 0;
    errno = ENOMEM;
    return 1;
}

void *malloc(size_t size) {
    if (!real_malloc) start();
    return no_memory() ? 0 : real_malloc(size);
}

void *calloc(size_t count, size_t size) {
    if (!real_calloc) return first_calloc(count, size);
    return no_memory() ? 0 : real_calloc(count, size);
}

void *realloc(void *place, size_t size) {
    if (!real_realloc) start();
    return no_memory() ? 0 : real_realloc(place, size);
}

int posix_memalign(void **place, size_t align, size_t size) {
    if (!real_posix_memalign) start();
    return no_memory() ? ENOMEM : real_posix_memalign(place, align, size);
}

void *aligned_alloc(size_t align, size_t size) {
    if (!real_aligned_alloc) start();
    return no_memory() ? 0 : real_aligned_alloc(align, size);
}

int pthread_create(pthread_t *thread, const pthread_attr_t *attr, void *(*run)(void *), void *with) {
    if (!real_pthread_create) start();
    return is_refused(THREAD) ? EAGAIN : real_pthread_create(thread, attr, run, with);
}

// A call that is refused and is not to be short.
static int is_fault(int refused) {
    if (!refused || how == SHORT) return 0;
    errno = how == FAIL ? EIO : EINTR;
    return 1;
}

ssize_t read(int file, void *into, size_t size) {
    int refused = file == 0 && is_refused(READ);
    if (is_fault(refused)) return -1;
    return syscall(SYS_read, file, into, refused && size > 1 ? 1 : size);
}

ssize_t readv(int file, const struct iovec *into, int count) {
    int refused = file == 0 && is_refused(READ);
    if (is_fault(refused)) return -1;
    if (refused && count > 0 && into[0].iov_len > 1) return syscall(SYS_read, file, into[0].iov_base, (size_t)1);
    return syscall(SYS_readv, file, into, count);
}

ssize_t write(int file, const void *from, size_t size) {
    int refused = file == 1 && is_refused(WRITE);
    if (is_fault(refused)) return -1;
    return syscall(SYS_write, file, from, refused && size > 1 ? 1 : size);
}

ssize_t writev(int file, const struct iovec *from, int count) {
    int refused = file == 1 && is_refused(WRITE);
    if (is_fault(refused)) return -1;
    if (refused && count > 0 && from[0].iov_len > 1) return syscall(SYS_write, file, from[0].iov_base, (size_t)1);
    return syscall(SYS_writev, file, from, count);
}

__attribute__((destructor)) static void tell(void) {
    const char *file = getenv("REFUSE_COUNT");
    char text[128];
    int length = 0;
    if (!file) return;
    for (int kind = 0; kind < KINDS; kind++)
        length += snprintf(text + length, sizeof text - length, "%lu\n", atomic_load(&calls[kind]));
    int made = syscall(SYS_open, file, O_WRONLY | O_CREAT | O_TRUNC, 0644);
    if (made < 0) return;
    syscall(SYS_write, made, text, length);
    syscall(SYS_close, made);
}

// A program may end without its destructors.
void _exit(int status) {
    tell();
    syscall(SYS_exit_group, status);
    __builtin_unreachable();
}
