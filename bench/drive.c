/* Drives a server through pipes, and prints the seconds that it took.
 *
 *   drive MODE COUNT PROGRAM [WORD..]       with a server of its own
 *   drive MODE COUNT --socket PATH          with the server behind a Unix socket
 *
 *   drive lockstep COUNT PROGRAM [WORD..]   COUNT small requests, each after the reply to the last
 *   drive streamed COUNT PROGRAM [WORD..]   COUNT small requests, written ahead of their replies
 *   drive image COUNT PROGRAM [WORD..]      COUNT times a 1920x1080 U8 image in, Not, and out
 *   drive image=WxHxN COUNT PROGRAM [..]    the same with another size; N is 1 for U8, or 2 for
 *                                           S16, with Max of the image and itself for Not
 *   drive bytes COUNT PROGRAM [WORD..]      COUNT times as many bytes in and out (for cat), also
 *                                           with =WxHxN
 *
 * A small request is WriteImage of one sample (18 bytes), and its reply has 8 bytes. Pipes hold a
 * mebibyte, like those of the Python package and the broker. */
#define _GNU_SOURCE
#include <errno.h>
#include <fcntl.h>
#include <poll.h>
#include <signal.h>
#include <stdint.h>
#include <stdio.h>
#include <stdlib.h>
#include <string.h>
#include <sys/socket.h>
#include <sys/un.h>
#include <sys/wait.h>
#include <time.h>
#include <unistd.h>

enum { MOST = 8192, NOT = 4, MAX = 10 };

/* The size of images, and the bytes of a sample: 1 for U8, 2 for S16. */
static uint32_t width = 1920, height = 1080, size = 1;

static int to_server, from_server;

static void fail(const char *what) {
  fprintf(stderr, "drive: %s: %s\n", what, strerror(errno));
  exit(1);
}

static pid_t start(char **words) {
  int in[2], out[2];
  if (pipe(in) || pipe(out))
    fail("pipe");
  pid_t pid = fork();
  if (pid < 0)
    fail("fork");
  if (pid == 0) {
    dup2(in[0], 0);
    dup2(out[1], 1);
    close(in[0]), close(in[1]), close(out[0]), close(out[1]);
    execvp(words[0], words);
    fail(words[0]);
  }
  close(in[0]), close(out[1]);
  to_server = in[1];
  from_server = out[0];
  fcntl(to_server, F_SETPIPE_SZ, 1 << 20);
  fcntl(from_server, F_SETPIPE_SZ, 1 << 20);
  fcntl(to_server, F_SETFL, O_NONBLOCK);
  fcntl(from_server, F_SETFL, O_NONBLOCK);
  return pid;
}

static void reach(const char *path) {
  struct sockaddr_un address = {.sun_family = AF_UNIX};
  strncpy(address.sun_path, path, sizeof address.sun_path - 1);
  to_server = from_server = socket(AF_UNIX, SOCK_STREAM, 0);
  if (to_server < 0 || connect(to_server, (struct sockaddr *)&address, sizeof address))
    fail(path);
  fcntl(to_server, F_SETFL, O_NONBLOCK);
}

/* Writes the requests and reads this many bytes of replies, as far as each doesn't block. */
static void exchange(const uint8_t *requests, size_t length, uint8_t *replies, size_t wanted) {
  size_t written = 0, got = 0;
  while (written < length || got < wanted) {
    struct pollfd ends[2] = {{to_server, written < length ? POLLOUT : 0, 0}, {from_server, got < wanted ? POLLIN : 0, 0}};
    if (poll(ends, 2, -1) < 0)
      fail("poll");
    if (written < length && (ends[0].revents & (POLLOUT | POLLERR))) {
      ssize_t n = write(to_server, requests + written, length - written);
      if (n < 0 && errno != EAGAIN)
        fail("write");
      written += n > 0 ? (size_t)n : 0;
    }
    if (got < wanted && (ends[1].revents & (POLLIN | POLLHUP))) {
      ssize_t n = read(from_server, replies + got, wanted - got);
      if (n == 0 || (n < 0 && errno != EAGAIN))
        fail("read");
      got += n > 0 ? (size_t)n : 0;
    }
  }
}

static uint8_t *put_number(uint8_t *at, uint32_t number, int bytes) {
  for (int k = bytes - 1; k >= 0; k--)
    *at++ = (uint8_t)(number >> (8 * k));
  return at;
}

static uint8_t *put_head(uint8_t *at, uint32_t body, int op) {
  at = put_number(at, body + 3, 4);
  at = put_number(at, 7, 2);
  return put_number(at, (uint32_t)op, 1);
}

static uint8_t *put_reference(uint8_t *at, uint32_t name) {
  at = put_number(at, name, 4);
  return put_number(at, 255, 1);
}

static uint8_t *put_description(uint8_t *at) {
  at = put_number(at, size, 1);
  at = put_number(at, width, 2);
  return put_number(at, height, 2);
}

static size_t byte_count(void) { return (size_t)width * height * size; }

static uint8_t *put_write(uint8_t *at, uint32_t name) {
  at = put_head(at, 10 + (uint32_t)byte_count(), 5);
  at = put_description(put_reference(at, name));
  memset(at, 10, byte_count());
  return at + byte_count();
}

/* Creates a context and two images. */
static void prepare(void) {
  uint8_t requests[64], replies[64], *at = put_head(requests, 0, 1);
  for (int k = 0; k < 2; k++)
    at = put_description(put_head(at, 5, 3));
  exchange(requests, (size_t)(at - requests), replies, 8 + 12 + 12);
}

/* Runs Not of the first image into the second, or Max of the first image with itself. */
static uint8_t *put_node(uint8_t *at) {
  at = put_head(at, 25, 24);
  at = put_number(at, size == 1 ? NOT : MAX, 1);
  at = put_number(at, 0, 4);
  at = put_reference(at, 1);
  at = put_reference(at, size == 1 ? 0 : 1);
  at = put_reference(at, 2);
  return put_reference(at, 0);
}

static void small_requests(long count, int ahead) {
  width = height = 1;
  prepare();
  uint8_t request[32], reply[8];
  size_t length = (size_t)(put_write(request, 1) - request);
  if (!ahead) {
    for (long k = 0; k < count; k++)
      exchange(request, length, reply, 8);
    return;
  }
  uint8_t *requests = malloc(length * (size_t)count), *replies = malloc(8 * (size_t)count);
  for (long k = 0; k < count; k++)
    memcpy(requests + (size_t)k * length, request, length);
  exchange(requests, length * (size_t)count, replies, 8 * (size_t)count);
}

static void images(long count) {
  prepare();
  uint8_t *requests = malloc(byte_count() + 256), *replies = malloc(byte_count() + 256);
  uint8_t *at = put_node(put_write(requests, 1));
  at = put_reference(put_head(at, 5, 7), 2);
  for (long k = 0; k < count; k++) {
    exchange(requests, (size_t)(at - requests), replies, 8 + 8 + 8 + 5 + byte_count());
    if (replies[7] || replies[15] || replies[23] || replies[29] != (size == 1 ? 245 : 10))
      fail("a reply");
  }
}

static void bytes(long count) {
  uint8_t *there = calloc(1, byte_count()), *back = malloc(byte_count());
  for (long k = 0; k < count; k++)
    exchange(there, byte_count(), back, byte_count());
}

/* Returns the mode of an argument, without its size. */
static const char *mode_of(char *word) {
  char *sides = strchr(word, '=');
  if (!sides)
    return word;
  *sides = 0;
  if (sscanf(sides + 1, "%ux%ux%u", &width, &height, &size) != 3 || width < 1 || width > MOST ||
      height < 1 || height > MOST || size < 1 || size > 2) {
    fprintf(stderr, "drive: the size is %s, and has to be WxHxN: sides up to %d, N 1 or 2\n",
            sides + 1, MOST);
    exit(2);
  }
  return word;
}

int main(int argc, char **argv) {
  if (argc < 4)
    return 2;
  signal(SIGPIPE, SIG_IGN);
  long count = atol(argv[2]);
  pid_t pid = 0;
  if (strcmp(argv[3], "--socket"))
    pid = start(argv + 3);
  else if (argc == 5)
    reach(argv[4]);
  else
    return 2;
  const char *mode = mode_of(argv[1]);
  struct timespec begin, end;
  clock_gettime(CLOCK_MONOTONIC, &begin);
  if (!strcmp(mode, "lockstep") || !strcmp(mode, "streamed"))
    small_requests(count, !strcmp(mode, "streamed"));
  else if (!strcmp(mode, "image"))
    images(count);
  else
    bytes(count);
  clock_gettime(CLOCK_MONOTONIC, &end);
  close(to_server);
  int status = 0;
  if (pid)
    waitpid(pid, &status, 0);
  printf("%.6f\n", (double)(end.tv_sec - begin.tv_sec) + 1e-9 * (double)(end.tv_nsec - begin.tv_nsec));
  return status != 0;
}
