// Stands between a program and the C library, and counts the bytes that the program has of it.
//
// MEMORY_COUNT  a file that gets, at the end, the most bytes that there were at once, and those that are there still
//
// A place counts as many bytes as may be used there, which is what was asked, rounded up to some 16.
//
// Build: cc -O2 -shared -fPIC -o memory.so memory.c -ldl     Use: LD_PRELOAD=./memory.so MEMORY_COUNT=file program
#define _GNU_SOURCE
#include <fcntl.h>
#include <malloc.h>
#include <stdatomic.h>
#include <stdio.h>
#include <stdlib.h>
#include <sys/syscall.h>
#include <unistd.h>

#include "real.h"

static void (*real_free)(void *);

static atomic_long had, most;

static int is_first(void *place) { return (char *)place >= first && (char *)place < first + sizeof first; }

static void count(long bytes) {
    long now = atomic_fetch_add(&had, bytes) + bytes;
    long before = atomic_load(&most);
    while (now > before && !atomic_compare_exchange_weak(&most, &before, now)) {
    }
}

static long bytes_at(void *place) { return place && !is_first(place) ? (long)malloc_usable_size(place) : 0; }

// A place that is had from now on, if there is one.
static void *counted(void *place) {
    count(bytes_at(place));
    return place;
}

__attribute__((constructor)) static void start(void) {
    if (real_free) return;
    look_up();
    real_free = dlsym(RTLD_NEXT, "free");
}

void *malloc(size_t size) {
    if (!real_malloc) start();
    return counted(real_malloc(size));
}

void *calloc(size_t number, size_t size) {
    if (!real_calloc) return first_calloc(number, size);
    return counted(real_calloc(number, size));
}

void *realloc(void *place, size_t size) {
    if (!real_realloc) start();
    long before = bytes_at(place);
    void *after = real_realloc(place, size);
    if (after || !size) count(bytes_at(after) - before);
    return after;
}

int posix_memalign(void **place, size_t align, size_t size) {
    if (!real_posix_memalign) start();
    int refused = real_posix_memalign(place, align, size);
    if (!refused) counted(*place);
    return refused;
}

void *aligned_alloc(size_t align, size_t size) {
    if (!real_aligned_alloc) start();
    return counted(real_aligned_alloc(align, size));
}

void free(void *place) {
    if (!place || is_first(place)) return;
    if (!real_free) start();
    count(-bytes_at(place));
    real_free(place);
}

__attribute__((destructor)) static void stop(void) {
    const char *name = getenv("MEMORY_COUNT");
    int file = name ? open(name, O_WRONLY | O_CREAT | O_TRUNC, 0666) : -1;
    if (file < 0) return;
    dprintf(file, "%ld %ld\n", atomic_load(&most), atomic_load(&had));
    close(file);
}

// A program may end without its destructors.
void _exit(int status) {
    stop();
    syscall(SYS_exit_group, status);
    __builtin_unreachable();
}
