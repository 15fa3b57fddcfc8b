/* The functions in C of Rattle's library os that the server's program calls: its arguments and
 * errno (c.rt). Each does what its declaration there says, and no more. The toolchain has them for
 * x86-64 only. Nothing proves this file: shim_test.c tests it. The server as a library doesn't
 * contain it: a library must not take the arguments of the program that loads it. */
#include <assert.h>
#include <errno.h>
#include <stddef.h>
#include <stdint.h>
#include <sys/types.h>

/* The declarations of c.rt, in C. A slice is its address and its length. */
ssize_t rattle_arg(size_t i, uint8_t *buffer, size_t room);
int rattle_errno(void);
void rattle_set_errno(int error);

static_assert(sizeof(ssize_t) == 8 && sizeof(int) == 4, "isize has 64 bits, i32 has 32");

static size_t count;
static char **words;

/* The loader passes main's arguments to constructors, before main. */
__attribute__((constructor)) static void keep(int argc, char **argv) {
  count = (size_t)argc;
  words = argv;
}

ssize_t rattle_arg(size_t i, uint8_t *buffer, size_t room) {
  if (i >= count)
    return -1;
  size_t length = 0;
  for (const char *at = words[i]; *at != 0; at++) {
    if (length == room)
      return -2;
    buffer[length++] = (uint8_t)*at;
  }
  return (ssize_t)length;
}

int rattle_errno(void) { return errno; }

void rattle_set_errno(int error) { errno = error; }
