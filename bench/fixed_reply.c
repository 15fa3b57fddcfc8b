/* The peer for small requests. It reads a frame, writes a fixed reply for its client and op, and
 * does nothing else. It uses one read for the length, one for the rest, and one write. */
#include <stdint.h>
#include <unistd.h>

static int read_all(uint8_t *at, uint32_t n) {
  while (n > 0) {
    ssize_t got = read(0, at, n);
    if (got <= 0)
      return 0;
    at += got;
    n -= (uint32_t)got;
  }
  return 1;
}

int main(void) {
  static uint8_t rest[1 << 16];
  uint8_t length[4];
  while (read_all(length, 4)) {
    uint32_t n = (uint32_t)length[0] << 24 | (uint32_t)length[1] << 16 | (uint32_t)length[2] << 8 | length[3];
    if (n < 3 || n > sizeof rest || !read_all(rest, n))
      return 1;
    uint8_t reply[12] = {0, 0, 0, 4, rest[0], rest[1], rest[2], 0};
    uint32_t size = 8;
    if (rest[2] == 3) { /* the reply to a create has a name */
      reply[3] = 8;
      size = 12;
    }
    if (write(1, reply, size) != (ssize_t)size)
      return 1;
  }
  return 0;
}
