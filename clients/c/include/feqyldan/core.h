/*
 * The proved server as a library, in the process of its caller.
 *
 *     struct feqyldan_handle handle = {0};
 *     uint32_t connection;
 *     feqyldan_open(268435456, 268435456, &handle);
 *     feqyldan_connect(&handle, &connection);
 *     feqyldan_serve(&handle, connection, front, front_length, back, back_length, reply,
 *                    reply_length, rest, rest_length, &length);
 *     feqyldan_disconnect(&handle, connection);
 *     feqyldan_close(&handle);
 *
 * A program with clients of its own gives each of them a connection. A connection is answered as a
 * server of its own would answer it, with the limits of the handle: it has its own client numbers,
 * and no connection can see or change what the clients of another one have. All connections of a
 * handle together have at most 65,535 contexts; another OpenContext is answered NO_MEMORY.
 *
 * Link libfeqyldan-core.a, or load libfeqyldan-core.so. docs/wire.md describes the frames.
 *
 * What a caller owes:
 *
 * - A handle begins as {0}. It isn't copied or moved while it is open, and its fields are neither
 *   read nor written.
 * - One call at a time for a handle. A handle may pass from one thread to another under a lock; no
 *   proof covers this (docs/DECISIONS.md). Different handles may be used by different threads at
 *   the same time.
 * - No call from a signal handler, and none for a handle that was open when this process was
 *   forked. In the child of a process with threads malloc has to work, as glibc's does.
 * - No pointer is null, not even for a length of 0. `reply`, `rest`, `*length`, `*connection` and
 *   `*handle` overlap neither each other nor `front` or `back`, and nobody writes these during the
 *   call.
 * - malloc, realloc and free are of one allocator, and align blocks as the C standard says.
 * - An x86-64 processor has SSE4.2 (x86-64-v2), and AVX2 (x86-64-v3) for
 *   libfeqyldan-core-x86-64-v3. An ARM processor has 64 bits; each of these will do.
 *
 * Otherwise the behaviour is undefined. A fault of the program can spoil the server's memory, as
 * with any library.
 */
#ifndef FEQYLDAN_CORE_H
#define FEQYLDAN_CORE_H

#include <stdbool.h>
#include <stddef.h>
#include <stdint.h>

#ifdef __cplusplus
extern "C" {
#endif

/* A server, or none. */
struct feqyldan_handle {
    void *at;
    bool held;
};

/* The results of the calls. */
enum {
    FEQYLDAN_OK = 0,
    FEQYLDAN_TOO_SHORT = 1,    /* the reply doesn't fit; no client's state has changed */
    FEQYLDAN_NOT_A_FRAME = 2,  /* the bytes aren't exactly one request frame; nothing has changed */
    FEQYLDAN_NOT_OPEN = 3,     /* the handle holds no server */
    FEQYLDAN_ALREADY_OPEN = 4, /* the handle holds a server already; nothing has changed */
    FEQYLDAN_BAD_LIMITS = 5,   /* a limit isn't 1 to 2^40 */
    FEQYLDAN_NO_MEMORY = 6,    /* no memory for a server or a connection; nothing has changed */
    FEQYLDAN_NOT_CONNECTED = 7 /* no open connection has this number; nothing has changed */
};

/* The least length of `reply` and `rest` together, in bytes. Every reply fits, except those of
 * ReadImage, ReadImagePgm and ReadDistribution. */
enum { FEQYLDAN_LEAST_BUFFER = 28 };

/* Makes a server without connections. `quota` is the limit on the sample bytes of a client's
 * images, `work` the limit on those of a graph's virtual images: 1 to 2^40 bytes each. Returns OK,
 * ALREADY_OPEN, BAD_LIMITS or NO_MEMORY. The handle changes only at OK. */
uint32_t feqyldan_open(uint64_t quota, uint64_t work, struct feqyldan_handle *handle);

/* Opens a connection, which has no contexts. Returns
 *
 * - OK: *connection is the number of the connection. No other open connection has it. Numbers are
 *   given in turn, so the number of a closed connection isn't given to another one soon
 * - NOT_OPEN or NO_MEMORY: *connection is 0 */
uint32_t feqyldan_connect(struct feqyldan_handle *handle, uint32_t *connection);

/* Answers one request frame of a connection: the bytes of `front`, then those of `back`. The first
 * four bytes, which are the frame's length, are in `front`. Writes the reply frame to `reply`, and
 * what doesn't fit there to the front of `rest`; the bytes after it may have any values. A reply to
 * ReadImage has 13 bytes before its samples, so with a `reply` of 13 bytes the samples are at the
 * front of `rest`. Returns
 *
 * - OK: *length is the length of the reply frame in bytes. The reply's code says whether the
 *   request was refused, or lost because memory was refused (NO_MEMORY)
 * - TOO_SHORT: `reply` and `rest` are too short, and *length is the length that they have to have
 *   at least, together. The states of all clients are unchanged, so the frame can be sent again.
 *   Less than FEQYLDAN_LEAST_BUFFER bytes are always too short for a frame
 * - NOT_A_FRAME: the bytes aren't exactly one frame, or `front` has less than four bytes. *length
 *   is 0
 * - NOT_OPEN or NOT_CONNECTED: *length is 0 */
uint32_t feqyldan_serve(struct feqyldan_handle *handle, uint32_t connection, const uint8_t *front,
                        size_t front_length, const uint8_t *back, size_t back_length,
                        uint8_t *reply, size_t reply_length, uint8_t *rest, size_t rest_length,
                        size_t *length);

/* Closes a connection: releases its contexts with all that its clients made. Their memory is used
 * again by the other connections, or goes back to the system. This needs no memory. Returns OK,
 * NOT_OPEN or NOT_CONNECTED. */
uint32_t feqyldan_disconnect(struct feqyldan_handle *handle, uint32_t connection);

/* Frees the server with all of its connections. The handle may be opened again. Does nothing if
 * the handle holds no server. */
void feqyldan_close(struct feqyldan_handle *handle);

#ifdef __cplusplus
}
#endif

#endif
