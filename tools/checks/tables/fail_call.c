/* Moves the program's input and output in pieces, one of which fails. It is preloaded before the C
 * library. Each `read` of standard input and `write` to standard output moves at most PIECE bytes
 * (default: 1). The call with the number in FAIL_READ or FAIL_WRITE (from 1) fails. */
#define _GNU_SOURCE
#include <dlfcn.h>
#include <errno.h>
#include <stdlib.h>
#include <unistd.h>

typedef ssize_t (*call)(int, void *, size_t);

static size_t in_piece(size_t count) {
  const char *told = getenv("PIECE");
  size_t piece = told ? (size_t)atol(told) : 1;
  return count > piece ? piece : count;
}

static int fails(const char *variable, long number) {
  const char *failing = getenv(variable);
  return failing && atol(failing) == number;
}

ssize_t read(int file, void *bytes, size_t count) {
  static long calls;
  call whole = (call)dlsym(RTLD_NEXT, "read");
  if (file != STDIN_FILENO)
    return whole(file, bytes, count);
  calls += 1;
  if (fails("FAIL_READ", calls)) {
    errno = EIO;
    return -1;
  }
  return whole(file, bytes, in_piece(count));
}

ssize_t write(int file, const void *bytes, size_t count) {
  static long calls;
  call whole = (call)dlsym(RTLD_NEXT, "write");
  /* The program provides its stack by a write of nothing, which doesn't count. */
  if (file != STDOUT_FILENO || count == 0)
    return whole(file, (void *)bytes, count);
  calls += 1;
  if (fails("FAIL_WRITE", calls)) {
    errno = EIO;
    return -1;
  }
  return whole(file, (void *)bytes, in_piece(count));
}
