/* The connection to a server. A write never blocks while a reply can be read: else two full buffers
   could stop both sides for ever. The input of a program that was started is a pipe, which takes
   the pages of a picture without a copy. Its output is a socket: the buffers stay in the cache. */
#define _GNU_SOURCE
#include "internal.h"

#include <errno.h>
#include <fcntl.h>
#include <string.h>
#include <sys/socket.h>
#include <sys/uio.h>
#include <time.h>
#include <unistd.h>

/* Of LEAST_LENT bytes or more the pages are lent to the pipe; fewer are copied. NO_END is the
   deadline of a wait without an end. */
enum { CODES = 14, LEAST_LENT = 1 << 16, NO_END = -1, MILLISECOND = 1000000 };

void connection_prepare(struct connection *connection) {
    connection->in = connection->out = connection->pipe_reader = connection->errors = -1;
    connection->transport = &stream_transport;
    connection->last = &connection->first;
}

void connection_close(struct connection *connection) {
    connection->has_ended = true;
    connection->transport->end(connection);
}

void connection_cancel(struct connection *connection) {
    connection->is_cancelled = true;
    if (connection->in >= 0)
        shutdown(connection->in, SHUT_RDWR);
}

void connection_heed_cancel(struct connection *connection) {
    if (connection->is_cancelled)
        connection->has_ended = true;
}

/* ---- Waits ---- */

static int64_t monotonic_time(void) {
    struct timespec time;
    clock_gettime(CLOCK_MONOTONIC, &time);
    return (int64_t)time.tv_sec * 1000 * MILLISECOND + time.tv_nsec;
}

int64_t deadline_after(int milliseconds) {
    return milliseconds < 0 ? NO_END : monotonic_time() + (int64_t)milliseconds * MILLISECOND;
}

int time_left(int64_t deadline) {
    if (deadline == NO_END)
        return -1;
    int64_t left = deadline - monotonic_time();
    return left < 0 ? 0 : (int)((left + MILLISECOND - 1) / MILLISECOND);
}

int poll_until(int64_t deadline, struct pollfd *wanted, nfds_t count) {
    int ready;
    do
        ready = poll(wanted, count, time_left(deadline));
    while (ready < 0 && errno == EINTR);
    return ready;
}

/* Stops sending and reading. Returns false, for the caller to return. */
static bool end_connection(struct connection *connection) {
    connection->has_ended = true;
    shutdown(connection->in, SHUT_RDWR);
    return false;
}

static bool time_out(struct connection *connection) {
    connection->has_timed_out = true;
    return end_connection(connection);
}

/* Waits until one of the descriptors is ready. */
static bool await(struct connection *connection, int64_t deadline, struct pollfd *wanted,
                  nfds_t count) {
    int ready = poll_until(deadline, wanted, count);
    if (ready < 0)
        return end_connection(connection);
    return ready > 0 || time_out(connection);
}

/* ---- Replies ---- */

bool is_reply_to(const struct request *request, const uint8_t *head) {
    if (head[6] != request->op || head[7] >= CODES)
        return false;
    size_t body = head[7] == 0 ? request->body_length + request->samples_length : 0;
    return get32(head) == 4 + body && get16(head + 4) == 0;
}

/* Parses the head of the next reply. Returns false where it doesn't answer the oldest request. */
static bool parse_head(struct connection *connection) {
    while (connection->head_count < REPLY_HEAD && connection->chunk_at < connection->chunk_end)
        connection->head[connection->head_count++] = connection->chunk[connection->chunk_at++];
    if (connection->head_count < REPLY_HEAD)
        return true;
    return connection->first != NULL && is_reply_to(connection->first, connection->head);
}

static size_t missing_bytes(const struct connection *connection) {
    return get32(connection->head) - 4 - connection->body_count;
}

/* The place of a byte of the samples. */
static uint8_t *sample_at(const struct request *request, size_t at) {
    return request->samples + at / request->row * request->stride + at % request->row;
}

/* Counts bytes of a body that are in their place, all of them in one row. Converts the samples that
   are complete, and ends the request when its reply is. */
static void advance(struct connection *connection, size_t count) {
    struct request *request = connection->first;
    connection->body_count += count;
    if (request->unit > 1 && connection->body_count > request->body_length) {
        size_t samples = connection->body_count - request->body_length;
        size_t whole = samples / request->unit * request->unit;
        uint8_t *place = sample_at(request, request->turned);
        turn_samples(place, place, whole - request->turned, request->unit);
        request->turned = whole;
    }
    if (missing_bytes(connection) > 0)
        return;
    connection->first = request->next;
    if (connection->first == NULL)
        connection->last = &connection->first;
    request->code = connection->head[7];
    request->is_done = true;
    connection->head_count = connection->body_count = 0;
}

/* The place for the next bytes of the body, and how many fit there: not those of another row. */
static uint8_t *place_of(struct connection *connection, size_t *count) {
    struct request *request = connection->first;
    size_t taken = connection->body_count;
    *count = missing_bytes(connection);
    if (*count == 0)
        return NULL;
    bool is_sample = taken >= request->body_length;
    size_t at = is_sample ? taken - request->body_length : taken;
    size_t left = is_sample ? request->row - at % request->row : request->body_length - at;
    *count = *count < left ? *count : left;
    return is_sample ? sample_at(request, at) : request->body + at;
}

/* Parses the bytes of the chunk. Returns false where they aren't replies to the requests. */
static bool parse_chunk(struct connection *connection) {
    while (connection->chunk_at < connection->chunk_end) {
        if (connection->head_count < REPLY_HEAD && !parse_head(connection))
            return false;
        if (connection->head_count < REPLY_HEAD)
            continue;
        size_t there = connection->chunk_end - connection->chunk_at, count;
        uint8_t *place = place_of(connection, &count);
        count = count < there ? count : there;
        if (count > 0)
            memcpy(place, connection->chunk + connection->chunk_at, count);
        connection->chunk_at += count;
        advance(connection, count);
    }
    return true;
}

/* Chooses where the next bytes are read to, so that samples needn't be copied. The rest of a long
   body goes to its place. If a reply with samples comes next, what is before them goes to the chunk
   and their first row goes to its place. Anything else goes to the chunk. */
static void plan_read(struct connection *connection, struct iovec parts[2], size_t *chunked) {
    const struct request *request = connection->first;
    size_t left = 0;
    uint8_t *place = connection->head_count == REPLY_HEAD ? place_of(connection, &left) : NULL;
    *chunked = sizeof connection->chunk;
    parts[0] = (struct iovec){connection->chunk, sizeof connection->chunk};
    parts[1] = (struct iovec){NULL, 0};
    if (left >= sizeof connection->chunk) {
        *chunked = 0;
        parts[0] = (struct iovec){place, left};
    } else if (connection->head_count == 0 && request != NULL && request->samples_length > 0) {
        *chunked = REPLY_HEAD + request->body_length;
        parts[0].iov_len = *chunked;
        parts[1] = (struct iovec){request->samples, request->row};
    }
}

/* After a signal: waits for the rest of the time until there is something to read. */
static bool await_bytes(struct connection *connection, int64_t deadline) {
    struct pollfd wanted = {.fd = connection->in, .events = POLLIN};
    return await(connection, deadline, &wanted, 1);
}

/* Reads the bytes that have come. Waits for some unless the flags have MSG_DONTWAIT. */
static bool read_some(struct connection *connection, int flags) {
    const int64_t deadline = deadline_after(connection->timeout);
    struct iovec parts[2];
    size_t chunked;
    plan_read(connection, parts, &chunked);
    struct msghdr message = {.msg_iov = parts, .msg_iovlen = parts[1].iov_len > 0 ? 2 : 1};
    ssize_t got = recvmsg(connection->in, &message, flags);
    if (got < 0 && errno == EINTR)
        return (flags & MSG_DONTWAIT) || await_bytes(connection, deadline);
    if (got < 0 && (errno == EAGAIN || errno == EWOULDBLOCK))
        return (flags & MSG_DONTWAIT) || time_out(connection);
    if (got <= 0)
        return end_connection(connection);
    size_t count = (size_t)got, straight = count > chunked ? count - chunked : 0;
    connection->chunk_at = 0;
    connection->chunk_end = count - straight;
    if (!parse_chunk(connection))
        return end_connection(connection);
    if (straight == 0)
        return true;
    /* The bytes were no reply with samples after all. */
    if (connection->head_count < REPLY_HEAD || missing_bytes(connection) < straight)
        return end_connection(connection);
    advance(connection, straight);
    return true;
}

/* ---- Requests ---- */

/* Waits until something can be written or was read. */
static bool await_room(struct connection *connection) {
    struct pollfd wanted[2] = {{.fd = connection->in, .events = POLLIN},
                               {.fd = connection->out, .events = POLLOUT}};
    if (!await(connection, deadline_after(connection->timeout), wanted, 2))
        return false;
    if (wanted[0].revents & (POLLIN | POLLHUP | POLLERR))
        return read_some(connection, MSG_DONTWAIT);
    return true;
}

/* The server has closed its input, so it has ended or soon will. Reads the replies that it still
   sent. */
static bool read_to_end(struct connection *connection) {
    while (!connection->has_ended)
        read_some(connection, 0);
    return false;
}

/* Writes some bytes of the parts. The pages of a long last part are lent to the pipe. That is safe:
   the call waits for the reply, and by then the server has read them. */
static ssize_t write_parts(struct connection *connection, struct iovec *parts, int count) {
    struct msghdr message = {.msg_iov = parts, .msg_iovlen = (size_t)count};
    if (connection->pipe_reader < 0)
        return sendmsg(connection->out, &message, MSG_NOSIGNAL | MSG_DONTWAIT);
    if (parts[count - 1].iov_len < LEAST_LENT)
        return writev(connection->out, parts, count);
    if (count > 1)
        return writev(connection->out, parts, count - 1);
    ssize_t lent = vmsplice(connection->out, parts, 1, SPLICE_F_NONBLOCK);
    /* Memory of a device can't be lent. */
    bool is_refused = lent < 0 && errno != EAGAIN && errno != EINTR;
    return is_refused ? writev(connection->out, parts, 1) : lent;
}

static bool send_parts(struct connection *connection, struct iovec *parts, int count) {
    while (count > 0) {
        ssize_t pushed = write_parts(connection, parts, count);
        if (pushed < 0 && (errno == EAGAIN || errno == EWOULDBLOCK)) {
            if (!await_room(connection))
                return false;
        } else if (pushed < 0 && (errno == EPIPE || errno == ECONNRESET)) {
            return read_to_end(connection);
        } else if (pushed < 0 && errno != EINTR) {
            /* The rest of the frame never comes, and a server that lives waits for it: the system
               has no buffers, or what the program gives isn't memory. */
            return end_connection(connection);
        }
        size_t done = pushed > 0 ? (size_t)pushed : 0;
        for (; count > 0 && done >= parts->iov_len; count--)
            done -= parts++->iov_len;
        if (count > 0)
            *parts = (struct iovec){(uint8_t *)parts->iov_base + done, parts->iov_len - done};
    }
    return true;
}

void put_head(uint8_t *head, const struct request *request, size_t length) {
    put8(put16(put32(head, (vx_uint32)length + 3), 0), request->op);
}

static bool stream_begin(struct connection *connection, struct request *request,
                         const uint8_t *body, size_t length, size_t more) {
    uint8_t head[HEAD];
    put_head(head, request, length + more);
    struct iovec parts[2] = {{head, HEAD}, {(void *)body, length}};
    request->next = NULL;
    *connection->last = request;
    connection->last = &request->next;
    return send_parts(connection, parts, length == 0 ? 1 : 2);
}

static bool stream_go_on(struct connection *connection, const uint8_t *bytes, size_t count) {
    struct iovec part = {(void *)bytes, count};
    return send_parts(connection, &part, 1);
}

/* Samples are read to their places. */
static bool stream_reserve(struct connection *connection, size_t samples) {
    (void)connection;
    (void)samples;
    return true;
}

const struct transport stream_transport = {stream_begin, stream_go_on, stream_reserve, end_server};

/* ---- Any transport ---- */

bool connection_begin(struct connection *connection, struct request *request, const uint8_t *body,
                      size_t length, size_t more) {
    connection_heed_cancel(connection);
    if (connection->has_ended)
        return false;
    request->is_done = false;
    return connection->transport->begin(connection, request, body, length, more);
}

bool connection_go_on(struct connection *connection, const uint8_t *bytes, size_t count) {
    return connection->transport->go_on(connection, bytes, count);
}

bool connection_reserve(struct connection *connection, size_t samples) {
    return connection->transport->reserve(connection, samples);
}

bool connection_send(struct connection *connection, struct request *request, const uint8_t *body,
                     size_t length) {
    return connection_begin(connection, request, body, length, 0);
}

bool connection_wait(struct connection *connection, struct request *request) {
    while (!request->is_done && !connection->has_ended)
        read_some(connection, 0);
    /* A run that was scheduled may have been answered in an earlier call. */
    return request->is_done && !(connection->has_ended && connection->is_cancelled);
}

void connection_say_end(struct connection *connection, char *words, size_t size) {
    char said[256];
    if (connection->is_inherited) {
        snprintf(words, size, "the server is the parent process's: make a context in this process");
        return;
    }
    if (connection->is_cancelled) {
        snprintf(words, size, "the program cancelled the context: make a new one");
        return;
    }
    if (connection->transport == &core_transport) {
        snprintf(words, size, "the server in this process gave no reply, as if its memory were "
                              "spoiled: see whether FEQYLDAN_SERVER=process helps");
        return;
    }
    if (connection->has_timed_out) {
        snprintf(words, size,
                 "the server didn't answer within the %g s that %s allows: allow more, or see what "
                 "keeps it busy",
                 connection->timeout / 1000.0, connection->timeout_owner);
        return;
    }
    ssize_t count = 0;
    if (connection->errors >= 0)
        count = pread(connection->errors, said, sizeof said - 1, 0);
    while (count > 0 && said[count - 1] == '\n')
        count--;
    said[count < 0 ? 0 : count] = '\0';
    snprintf(words, size, "the server has ended%s%s", count > 0 ? ": " : "", said);
}
