/* Refuses growths. It is preloaded before the C library's allocator. The call with the number in
 * REFUSE_GROWTH (from 1) finds no memory. If REFUSE_AGAIN is set, neither does any later call for
 * the same size or less, until the program writes a reply. When the program ends, the file GROWTHS
 * gets the number of calls, and the number of reply bytes written before the refused one. */
#include <errno.h>
#include <fcntl.h>
#include <stdio.h>
#include <stdlib.h>
#include <sys/syscall.h>
#include <unistd.h>

extern void *__libc_malloc(size_t);
extern void *__libc_calloc(size_t, size_t);
extern void *__libc_realloc(void *, size_t);
extern void *__libc_memalign(size_t, size_t);

static long calls, written, written_before;
static long refused = -1;
/* The size of the last refused call, until a reply is written. */
static size_t asked;

static int is_refused(size_t size) {
  if (refused < 0) {
    const char *number = getenv("REFUSE_GROWTH");
    refused = number ? atol(number) : 0;
  }
  calls += 1;
  if (calls == refused) {
    asked = getenv("REFUSE_AGAIN") ? size : 0;
    written_before = written;
  } else if (asked == 0 || size > asked) {
    return 0;
  }
  errno = ENOMEM;
  return 1;
}

ssize_t write(int file, const void *bytes, size_t count) {
  ssize_t taken = syscall(SYS_write, file, bytes, count);
  if (file == STDOUT_FILENO && taken > 0) {
    written += taken;
    asked = 0;
  }
  return taken;
}

void *malloc(size_t n) { return is_refused(n) ? NULL : __libc_malloc(n); }

void *calloc(size_t n, size_t size) {
  return is_refused(n * size) ? NULL : __libc_calloc(n, size);
}

void *realloc(void *p, size_t n) { return is_refused(n) ? NULL : __libc_realloc(p, n); }

void *aligned_alloc(size_t alignment, size_t n) {
  return is_refused(n) ? NULL : __libc_memalign(alignment, n);
}

int posix_memalign(void **p, size_t alignment, size_t n) {
  if (is_refused(n))
    return ENOMEM;
  *p = __libc_memalign(alignment, n);
  return *p ? 0 : ENOMEM;
}

__attribute__((destructor)) static void tell(void) {
  const char *path = getenv("GROWTHS");
  int file = path ? open(path, O_WRONLY | O_CREAT | O_TRUNC, 0600) : -1;
  if (file >= 0) {
    dprintf(file, "%ld %ld\n", calls, written_before);
    close(file);
  }
}
