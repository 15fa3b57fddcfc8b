/* The functions in C of Rattle's library libc that the server calls: the heap (heap.rt). Each does
 * what its declaration there says, and no more. The toolchain has them for x86-64 only. Nothing
 * proves this file: shim_test.c tests it. */
#include <assert.h>
#include <stdalign.h>
#include <stdbool.h>
#include <stddef.h>
#include <stdlib.h>

/* libc::types::Tried. Without memory, p points to a byte that nobody owns. */
typedef struct {
  bool ok;
  void *p;
} Tried;

/* The declarations of heap.rt, in C. A Memory has no bytes. */
Tried rattle_alloc(size_t size, size_t alignment);
Tried rattle_realloc(void *p, size_t kept, size_t size, size_t alignment);
void rattle_dealloc(void *p);

/* An alignment divides 16, and malloc aligns each block to that of max_align_t. */
static_assert(alignof(max_align_t) >= 16, "malloc aligns blocks to 16 bytes");
static_assert(sizeof(size_t) == 8, "usize has 64 bits");
static_assert(offsetof(Tried, p) == 8 && sizeof(Tried) == 16, "Tried is a repr(C) struct");

static char nothing;

static Tried tried(void *p) { return (Tried){p != NULL, p != NULL ? p : &nothing}; }

/* malloc(0) may answer NULL where there is memory, and realloc(p, 0) frees p. So a value of no bytes
 * takes as many as its alignment. */
static size_t some(size_t size, size_t alignment) { return size != 0 ? size : alignment; }

Tried rattle_alloc(size_t size, size_t alignment) { return tried(malloc(some(size, alignment))); }

Tried rattle_realloc(void *p, size_t kept, size_t size, size_t alignment) {
  (void)kept;
  return tried(realloc(p, some(size, alignment)));
}

void rattle_dealloc(void *p) { free(p); }
