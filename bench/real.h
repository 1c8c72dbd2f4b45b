// The C library's own calls for memory, behind a library that stands before it, and the place for what dlsym itself may ask for.
#include <dlfcn.h>
#include <stddef.h>

static void *(*real_malloc)(size_t);
static void *(*real_calloc)(size_t, size_t);
static void *(*real_realloc)(void *, size_t);
static int (*real_posix_memalign)(void **, size_t, size_t);
static void *(*real_aligned_alloc)(size_t, size_t);

static _Alignas(16) char first[4096];
static size_t used;

static void *first_calloc(size_t number, size_t size) {
    void *place = first + used;
    used += (number * size + 15) & ~(size_t)15;
    return used <= sizeof first ? place : 0;
}

static void look_up(void) {
    real_malloc = dlsym(RTLD_NEXT, "malloc");
    real_calloc = dlsym(RTLD_NEXT, "calloc");
    real_realloc = dlsym(RTLD_NEXT, "realloc");
    real_posix_memalign = dlsym(RTLD_NEXT, "posix_memalign");
    real_aligned_alloc = dlsym(RTLD_NEXT, "aligned_alloc");
}
