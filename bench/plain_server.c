/* The peer for images, a minimal program that gives the same replies. It reads the samples of
 * WriteImage into a buffer, writes Not of them into a second buffer for Immediate, and returns that
 * for ReadImage. It checks nothing, and knows only one U8 input and one U8 output. */
#include <stdint.h>
#include <stdlib.h>
#include <string.h>
#include <unistd.h>

enum { CREATE = 3, WRITE_IMAGE = 5, READ_IMAGE = 7, IMMEDIATE = 24 };
enum { HEAD = 10, MOST = 8192 * 8192 };

/* Bytes read ahead of large reads, like a buffered reader's. */
static uint8_t ahead[8192];
static size_t begin, end;

static int read_all(uint8_t *at, size_t n) {
  while (n > 0) {
    if (begin == end && n >= sizeof ahead) {
      ssize_t got = read(0, at, n);
      if (got <= 0)
        return 0;
      at += got, n -= (size_t)got;
      continue;
    }
    if (begin == end) {
      ssize_t got = read(0, ahead, sizeof ahead);
      if (got <= 0)
        return 0;
      begin = 0, end = (size_t)got;
    }
    size_t some = end - begin < n ? end - begin : n;
    memcpy(at, ahead + begin, some);
    begin += some, at += some, n -= some;
  }
  return 1;
}

static int write_all(const uint8_t *at, size_t n) {
  while (n > 0) {
    ssize_t put = write(1, at, n);
    if (put <= 0)
      return 0;
    at += put, n -= (size_t)put;
  }
  return 1;
}

static void not_of(const uint8_t *restrict in, uint8_t *restrict out, size_t n) {
  for (size_t i = 0; i < n; i++)
    out[i] = (uint8_t)~in[i];
}

static uint32_t number(const uint8_t *at) {
  return (uint32_t)at[0] << 24 | (uint32_t)at[1] << 16 | (uint32_t)at[2] << 8 | at[3];
}

static int reply(const uint8_t *front, const uint8_t *body, uint32_t few, const uint8_t *samples, size_t n) {
  uint32_t length = 4 + few + (uint32_t)n;
  uint8_t head[32] = {length >> 24, length >> 16, length >> 8, length, front[0], front[1], front[2], 0};
  memcpy(head + 8, body, few);
  return write_all(head, 8 + few) && write_all(samples, n);
}

int main(void) {
  uint8_t *in = malloc(MOST), *out = malloc(MOST), front[7], body[256], description[5] = {0};
  size_t count = 0;
  while (in && out && read_all(front, 7)) {
    uint32_t n = number(front) - 3, few = n < HEAD ? n : HEAD;
    if (front[6] != WRITE_IMAGE)
      few = n < sizeof body ? n : sizeof body;
    if (!read_all(body, few) || n - few > MOST)
      return 1;
    if (front[6] == WRITE_IMAGE) {
      memcpy(description, body + 5, 5);
      count = n - few;
      if (!read_all(in, count))
        return 1;
    }
    if (front[6] == IMMEDIATE)
      not_of(in, out, count);
    int ok = front[6] == READ_IMAGE
                 ? reply(front + 4, description, sizeof description, out, count)
                 : reply(front + 4, body, front[6] == CREATE ? 4 : 0, out, 0);
    if (!ok)
      return 1;
  }
  return 0;
}
