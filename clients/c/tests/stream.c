/* As `vx_main serve`, by feqyldan/core.h: answers the frames of standard input one by one. Each
   comes in two parts that are cut at random, and the reply goes to two parts of a buffer that
   grows. */
#include <feqyldan/core.h>

#include "testing.h"

enum { HEAD = 4, LEAST = 3, GREATEST = 1 << 29 };

static struct feqyldan_handle handle;
static uint32_t connection;
static uint8_t *reply;
static size_t room = FEQYLDAN_LEAST_BUFFER;
static vx_uint32 state = 1;

static int end(const char *line) {
    fprintf(stderr, "%s\n", line);
    return 3;
}

/* Answers a frame, whose first part ends at `cut`. Returns the length of the reply. */
static size_t answer(const uint8_t *frame, size_t length, size_t cut) {
    size_t count, part = next_number(&state) % (room + 1);
    uint32_t status = feqyldan_serve(&handle, connection, frame, cut, frame + cut, length - cut,
                                     reply, part, reply + part, room - part, &count);
    if (status == FEQYLDAN_TOO_SHORT) {
        CHECK(count > room);
        room = count;
        reply = realloc(reply, room);
        CHECK(reply != NULL);
        return answer(frame, length, cut);
    }
    CHECK(status == FEQYLDAN_OK);
    return count;
}

static int serve(void) {
    uint8_t head[HEAD];
    for (size_t got; (got = fread(head, 1, HEAD, stdin)) != 0;) {
        if (got < HEAD)
            return end("truncated");
        const size_t length = (size_t)head[0] << 24 | head[1] << 16 | head[2] << 8 | head[3];
        if (length < LEAST || length > GREATEST)
            return end("bad length");
        uint8_t *frame = malloc(HEAD + length);
        CHECK(frame != NULL);
        memcpy(frame, head, HEAD);
        const bool whole = fread(frame + HEAD, 1, length, stdin) == length;
        if (whole) {
            const size_t count = answer(frame, HEAD + length, HEAD + next_number(&state) % length);
            CHECK(fwrite(reply, 1, count, stdout) == count && fflush(stdout) == 0);
        }
        free(frame);
        if (!whole)
            return end("truncated");
    }
    return 0;
}

/* The words are `serve`, and then --quota and --work, each with a number. */
int main(int count, char **words) {
    unsigned long long quota = 1 << 28, work = 1 << 28;
    for (int i = 2; i + 1 < count; i += 2)
        *(strcmp(words[i], "--quota") == 0 ? &quota : &work) = strtoull(words[i + 1], NULL, 10);
    reply = malloc(room);
    CHECK(reply != NULL && feqyldan_open(quota, work, &handle) == FEQYLDAN_OK);
    CHECK(feqyldan_connect(&handle, &connection) == FEQYLDAN_OK);
    const int status = serve();
    feqyldan_close(&handle);
    free(reply);
    return status;
}
