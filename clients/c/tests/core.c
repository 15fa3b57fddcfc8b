/* The server in this process: each call of feqyldan/core.h, and each of its results. */
#include <feqyldan/core.h>

#include "testing.h"

enum { WIDTH = 40, HEIGHT = 30, SAMPLES = WIDTH * HEIGHT, QUOTA = 1 << 20, REPLY = 13 + SAMPLES };
enum { INVALID_REFERENCE = 3, MANY = 100 };

static struct feqyldan_handle handle;
static uint32_t connection;
static uint8_t reply[REPLY];
static size_t length;

static uint32_t serve(const uint8_t *front, size_t front_length, const uint8_t *back,
                      size_t back_length, size_t room) {
    return feqyldan_serve(&handle, connection, front, front_length, back, back_length, reply, room,
                          reply, 0, &length);
}

/* Sends a whole frame, and checks that the reply has this code and this many bytes. */
static void expect(const uint8_t *frame, size_t count, uint8_t code, size_t bytes) {
    CHECK(serve(frame, count, frame, 0, REPLY) == FEQYLDAN_OK);
    CHECK(length == bytes && reply[7] == code);
}

static const uint8_t OPEN[] = {0, 0, 0, 3, 0, 7, 1};
static const uint8_t CREATE[] = {0, 0, 0, 8, 0, 7, 3, 1, 0, WIDTH, 0, HEIGHT};
static const uint8_t READ[] = {0, 0, 0, 8, 0, 7, 7, 0, 0, 0, 2, 255};
static const uint8_t RELEASE[] = {0, 0, 0, 3, 0, 7, 2};
static const uint8_t NOT[] = {0, 0, 0, 28, 0, 7, 24, 4,   0, 0, 0, 0, 0, 0, 0, 1,
                              255, 0, 0, 0, 0, 255, 0, 0, 0, 2, 255, 0, 0, 0, 0, 255};

static void open_connection(void) {
    CHECK(feqyldan_connect(&handle, &connection) == FEQYLDAN_OK);
}

static void limits(void) {
    CHECK(serve(OPEN, sizeof OPEN, OPEN, 0, REPLY) == FEQYLDAN_NOT_OPEN && length == 0);
    connection = 5;
    CHECK(feqyldan_connect(&handle, &connection) == FEQYLDAN_NOT_OPEN && connection == 0);
    CHECK(feqyldan_disconnect(&handle, connection) == FEQYLDAN_NOT_OPEN);
    CHECK(feqyldan_open(0, QUOTA, &handle) == FEQYLDAN_BAD_LIMITS && !handle.held);
    CHECK(feqyldan_open(QUOTA, (1ull << 40) + 1, &handle) == FEQYLDAN_BAD_LIMITS);
    CHECK(feqyldan_open(QUOTA, QUOTA, &handle) == FEQYLDAN_OK && handle.held);
    CHECK(feqyldan_open(QUOTA, QUOTA, &handle) == FEQYLDAN_ALREADY_OPEN);
    CHECK(serve(OPEN, sizeof OPEN, OPEN, 0, REPLY) == FEQYLDAN_NOT_CONNECTED && length == 0);
    CHECK(feqyldan_disconnect(&handle, connection) == FEQYLDAN_NOT_CONNECTED);
    open_connection();
}

/* Bytes that aren't exactly one frame, whose length has to be in the first part. */
static void frames(void) {
    uint8_t longer[sizeof OPEN + 1] = {0};
    memcpy(longer, OPEN, sizeof OPEN);
    CHECK(serve(longer, sizeof longer, OPEN, 0, REPLY) == FEQYLDAN_NOT_A_FRAME && length == 0);
    CHECK(serve(OPEN, sizeof OPEN - 1, OPEN, 0, REPLY) == FEQYLDAN_NOT_A_FRAME);
    CHECK(serve(OPEN, 0, OPEN, sizeof OPEN, REPLY) == FEQYLDAN_NOT_A_FRAME);
    CHECK(serve(OPEN, 3, OPEN + 3, sizeof OPEN - 3, REPLY) == FEQYLDAN_NOT_A_FRAME);
    CHECK(serve(OPEN, 0, OPEN, 0, REPLY) == FEQYLDAN_NOT_A_FRAME);
    longer[3] = 2;
    CHECK(serve(longer, 6, OPEN, 0, REPLY) == FEQYLDAN_NOT_A_FRAME);
}

/* The context isn't opened while the buffer is too short for any reply. */
static void short_buffer(void) {
    CHECK(serve(OPEN, sizeof OPEN, OPEN, 0, FEQYLDAN_LEAST_BUFFER - 1) == FEQYLDAN_TOO_SHORT);
    CHECK(length == FEQYLDAN_LEAST_BUFFER);
    CHECK(serve(OPEN, 4, OPEN + 4, sizeof OPEN - 4, FEQYLDAN_LEAST_BUFFER) == FEQYLDAN_OK);
    CHECK(length == 8 && reply[7] == 0);
    expect(OPEN, sizeof OPEN, 7, 8);
}

static uint8_t sample(int place, int factor) { return (uint8_t)(place * factor); }

/* Writes a picture to image 1. Its parts are in memory of their exact lengths. */
static void write_picture(int factor) {
    const uint8_t before[] = {0, 0, (SAMPLES + 13) >> 8, (SAMPLES + 13) & 255, 0, 7, 5, 0, 0, 0, 1,
                              255, 1, 0, WIDTH, 0, HEIGHT};
    uint8_t *head = malloc(sizeof before), *samples = malloc(SAMPLES);
    CHECK(head != NULL && samples != NULL);
    memcpy(head, before, sizeof before);
    for (int i = 0; i < SAMPLES; i++)
        samples[i] = sample(i, factor);
    CHECK(serve(head, sizeof before, samples, SAMPLES, REPLY) == FEQYLDAN_OK);
    CHECK(length == 8 && reply[7] == 0);
    free(head);
    free(samples);
}

/* A picture in, Not, and a picture out. */
static void pictures(void) {
    expect(CREATE, sizeof CREATE, 0, 12);
    expect(CREATE, sizeof CREATE, 0, 12);
    write_picture(7);
    expect(NOT, sizeof NOT, 0, 8);
    for (size_t room = FEQYLDAN_LEAST_BUFFER; room < REPLY; room += 97)
        CHECK(serve(READ, sizeof READ, READ, 0, room) == FEQYLDAN_TOO_SHORT && length == REPLY);
    CHECK(serve(READ, sizeof READ, READ, 0, REPLY - 1) == FEQYLDAN_TOO_SHORT && length == REPLY);
    expect(READ, sizeof READ, 0, REPLY);
    for (int i = 0; i < SAMPLES; i++)
        CHECK(reply[13 + i] == 255 - sample(i, 7));
}

/* Serves a frame with two buffers in memory of their exact lengths. Checks the status, the length
   and, at OK, the bytes. */
static void divide(const uint8_t *frame, size_t count, size_t first, size_t second,
                   uint32_t status, size_t bytes) {
    uint8_t *one = malloc(first + (first == 0)), *two = malloc(second + (second == 0));
    CHECK(one != NULL && two != NULL);
    CHECK(feqyldan_serve(&handle, connection, frame, count, frame, 0, one, first, two, second,
                         &length) == status);
    CHECK(length == bytes);
    if (status == FEQYLDAN_OK) {
        size_t in_one = bytes < first ? bytes : first;
        CHECK(memcmp(one, reply, in_one) == 0);
        CHECK(memcmp(two, reply + in_one, bytes - in_one) == 0);
    }
    free(one);
    free(two);
}

/* A reply goes on in the second buffer at any place, and is the same bytes. */
static void divided_replies(void) {
    expect(READ, sizeof READ, 0, REPLY);
    for (size_t first = 0; first <= REPLY; first++) {
        divide(READ, sizeof READ, first, REPLY - first, FEQYLDAN_OK, REPLY);
        if (first < REPLY)
            divide(READ, sizeof READ, first, REPLY - 1 - first, FEQYLDAN_TOO_SHORT, REPLY);
    }
    expect(OPEN, sizeof OPEN, 7, 8);
    for (size_t first = 0; first <= FEQYLDAN_LEAST_BUFFER; first++) {
        size_t second = FEQYLDAN_LEAST_BUFFER - first;
        divide(OPEN, sizeof OPEN, first, second, FEQYLDAN_OK, 8);
        if (second > 0)
            divide(OPEN, sizeof OPEN, first, second - 1, FEQYLDAN_TOO_SHORT,
                   FEQYLDAN_LEAST_BUFFER);
    }
}

/* Another connection has a client 7 of its own, with an image 2 of its own. Once it is closed, no
   connection has its number, and the next one gets another. */
static void other_connections(void) {
    const uint32_t first = connection;
    open_connection();
    const uint32_t second = connection;
    CHECK(second != first);
    expect(READ, sizeof READ, INVALID_REFERENCE, 8);
    expect(OPEN, sizeof OPEN, 0, 8);
    expect(READ, sizeof READ, INVALID_REFERENCE, 8);
    expect(CREATE, sizeof CREATE, 0, 12);
    expect(CREATE, sizeof CREATE, 0, 12);
    write_picture(11);
    expect(NOT, sizeof NOT, 0, 8);
    for (int at = 0; at < 2; at++) {
        connection = at == 0 ? first : second;
        expect(READ, sizeof READ, 0, REPLY);
        for (int i = 0; i < SAMPLES; i++)
            CHECK(reply[13 + i] == 255 - sample(i, at == 0 ? 7 : 11));
    }
    CHECK(feqyldan_disconnect(&handle, second) == FEQYLDAN_OK);
    CHECK(feqyldan_disconnect(&handle, second) == FEQYLDAN_NOT_CONNECTED);
    CHECK(serve(READ, sizeof READ, READ, 0, REPLY) == FEQYLDAN_NOT_CONNECTED && length == 0);
    open_connection();
    CHECK(connection != second);
    expect(READ, sizeof READ, INVALID_REFERENCE, 8);
    connection = first;
    expect(READ, sizeof READ, 0, REPLY);
}

/* A connection that was closed with contexts of any number leaves none. */
static void many_connections(void) {
    uint32_t numbers[MANY];
    const uint32_t first = connection;
    for (int round = 0; round < 3; round++) {
        for (int i = 0; i < MANY; i++) {
            open_connection();
            numbers[i] = connection;
            for (int before = 0; before < i; before++)
                CHECK(numbers[before] != numbers[i]);
            expect(OPEN, sizeof OPEN, 0, 8);
            expect(CREATE, sizeof CREATE, 0, 12);
        }
        for (int i = 0; i < MANY; i++)
            CHECK(feqyldan_disconnect(&handle, numbers[i]) == FEQYLDAN_OK);
    }
    connection = first;
    expect(READ, sizeof READ, 0, REPLY);
}

/* Another handle has a server of its own. */
static void other_handles(void) {
    struct feqyldan_handle other = {0};
    uint32_t number;
    CHECK(feqyldan_open(QUOTA, QUOTA, &other) == FEQYLDAN_OK);
    CHECK(feqyldan_connect(&other, &number) == FEQYLDAN_OK);
    CHECK(feqyldan_serve(&other, number, READ, sizeof READ, READ, 0, reply, REPLY, reply, 0,
                         &length) == FEQYLDAN_OK);
    CHECK(length == 8 && reply[7] == INVALID_REFERENCE);
    feqyldan_close(&other);
    expect(READ, sizeof READ, 0, REPLY);
}

int main(void) {
    feqyldan_close(&handle);
    limits();
    frames();
    short_buffer();
    pictures();
    divided_replies();
    other_connections();
    many_connections();
    other_handles();
    expect(RELEASE, sizeof RELEASE, 0, 8);
    expect(OPEN, sizeof OPEN, 0, 8);
    expect(CREATE, sizeof CREATE, 0, 12);
    feqyldan_close(&handle);
    feqyldan_close(&handle);
    CHECK(serve(OPEN, sizeof OPEN, OPEN, 0, REPLY) == FEQYLDAN_NOT_OPEN && length == 0);
    CHECK(feqyldan_open(QUOTA, QUOTA, &handle) == FEQYLDAN_OK);
    open_connection();
    expect(CREATE, sizeof CREATE, INVALID_REFERENCE, 8);
    feqyldan_close(&handle);
    return 0;
}
