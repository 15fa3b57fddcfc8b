/* Refuses memory to one library of a process, for test_refused_memory. Preloaded before libc. */
#define _GNU_SOURCE
#include <dlfcn.h>
#include <stddef.h>

void *__libc_malloc(size_t size);
void *__libc_realloc(void *memory, size_t size);
void grant(void *inside, long count);

static void *library;
/* The allocations of the library that are still granted; all, if it is negative. */
static long left = -1;

/* Grants this many allocations of the library that has this function, and refuses those after
   them. Grants all if the count is negative. */
void grant(void *inside, long count) {
    Dl_info found;
    library = dladdr(inside, &found) ? found.dli_fbase : NULL;
    left = count;
}

static int refuses(void *caller) {
    Dl_info found;
    if (left < 0 || !dladdr(caller, &found) || found.dli_fbase != library)
        return 0;
    return left == 0 || left-- == 0;
}

void *malloc(size_t size) {
    return refuses(__builtin_return_address(0)) ? NULL : __libc_malloc(size);
}

void *realloc(void *memory, size_t size) {
    return refuses(__builtin_return_address(0)) ? NULL : __libc_realloc(memory, size);
}
