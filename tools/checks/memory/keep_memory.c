/* Leaks memory that a program frees. It is preloaded before the C library's allocator. KEEP_MEMORY
 * selects the blocks: "small" or "great" keeps freed blocks of fewer or more bytes than GREAT,
 * "shrunk" keeps the rest of shrunk blocks, anything else keeps nothing. */
#include <malloc.h>
#include <stddef.h>
#include <stdlib.h>
#include <string.h>

extern void __libc_free(void *);
extern void *__libc_realloc(void *, size_t);

#define GREAT 32768

static int keeps(const char *what) {
  const char *kept = getenv("KEEP_MEMORY");
  return kept && strcmp(kept, what) == 0;
}

void free(void *p) {
  if (p && keeps(malloc_usable_size(p) < GREAT ? "small" : "great"))
    return;
  __libc_free(p);
}

void *realloc(void *p, size_t n) {
  if (p && n > 0 && n <= malloc_usable_size(p) && keeps("shrunk"))
    return p;
  return __libc_realloc(p, n);
}
