/* A context's connection to its server: requests and replies. */
#ifndef FEQYLDAN_CONNECTION_H
#define FEQYLDAN_CONNECTION_H

#include <feqyldan/context.h>
#include <feqyldan/core.h>
#include <poll.h>
#include <stdatomic.h>
#include <stdbool.h>
#include <stddef.h>
#include <stdint.h>
#include <sys/types.h>

/* The op of a request, see docs/wire.md. */
enum op {
    OPEN_CONTEXT = 1,
    CREATE_IMAGE = 3,
    QUERY_IMAGE = 4,
    WRITE_IMAGE = 5,
    READ_IMAGE = 7,
    SET_VALID = 9,
    RELEASE = 10,
    CREATE_LUT = 11,
    CREATE_THRESHOLD = 12,
    CREATE_CONVOLUTION = 13,
    CREATE_DISTRIBUTION = 14,
    READ_DISTRIBUTION = 15,
    CREATE_MIN_MAX = 16,
    READ_MIN_MAX = 17,
    CREATE_GRAPH = 18,
    CREATE_VIRTUAL_IMAGE = 19,
    ADD_NODE = 20,
    REMOVE_NODE = 21,
    VERIFY_GRAPH = 22,
    PROCESS_GRAPH = 23,
    IMMEDIATE = 24,
    CREATE_DELAY = 25,
    AGE_DELAY = 26,
    REGISTER_AUTO_AGING = 27
};

/* A request that was sent, and its reply. The reply is refused with a code other than 0, or has a
   body of exactly body_length + samples_length bytes. */
struct request {
    uint8_t op, code;
    /* Whether the reply is there; whether a refusal adds no log entry. */
    bool is_done, is_quiet;
    uint8_t *body;
    size_t body_length;
    /* Where the samples at the end of the body go: rows of row bytes, each stride bytes after the
       one before. Without gaps all are one row. A sample has unit bytes. The first turned bytes of
       the samples are in this machine's byte order already. */
    uint8_t *samples;
    size_t samples_length, row, stride, unit, turned;
    struct request *next;
};

struct connection;

/* How frames reach a server, and replies come back: by descriptors (connection.c), or by calls in
   this process (core.c). */
struct transport {
    /* As the functions of connections, while the server hasn't ended. */
    bool (*begin)(struct connection *connection, struct request *request, const uint8_t *body,
                  size_t length, size_t more);
    bool (*go_on)(struct connection *connection, const uint8_t *bytes, size_t count);
    bool (*reserve)(struct connection *connection, size_t samples);
    /* Ends the server of this process, and frees what the connection has. */
    void (*end)(struct connection *connection);
};

extern const struct transport stream_transport, core_transport;

/* Memory for samples that are sent or read, or for replies. */
struct buffer {
    uint8_t *bytes;
    size_t capacity;
};

/* The most bytes of a buffer that is kept for the next use. */
enum { GREATEST_KEPT = 1 << 26 };

/* The bytes of a frame before its body, and of a reply before its body. WRITE_HEAD and DESCRIBED
   are the bytes before the samples in the body of a request and of a reply. */
enum { HEAD = 7, REPLY_HEAD = 8, WRITE_HEAD = 10, DESCRIBED = 5 };

/* A code of a reply, as docs/wire.md numbers them. */
enum { NO_MEMORY = 1 };

/* The server in this process. */
struct core {
    uint32_t (*open)(uint64_t quota, uint64_t work, struct feqyldan_handle *handle);
    uint32_t (*connect)(struct feqyldan_handle *handle, uint32_t *connection);
    uint32_t (*serve)(struct feqyldan_handle *handle, uint32_t connection, const uint8_t *front,
                      size_t front_length, const uint8_t *back, size_t back_length,
                      uint8_t *reply, size_t reply_length, uint8_t *rest, size_t rest_length,
                      size_t *length);
    void (*close)(struct feqyldan_handle *handle);
    struct feqyldan_handle handle;
    /* The number of the only connection of the handle. */
    uint32_t number;
    /* The head of a frame, and the beginning of its body where samples come after that. */
    uint8_t front[HEAD + WRITE_HEAD];
    size_t front_length;
    /* The request with these samples, those that have been sent, and how many it will have. */
    struct request *request;
    const uint8_t *samples;
    size_t samples_length, wanted_length;
    uint8_t short_reply[64];
    /* For longer replies; and whether memory for some was reserved. */
    struct buffer long_reply;
    bool is_reserved;
};

struct connection {
    const struct transport *transport;
    struct core core;
    /* Descriptors; -1 for a server in this process. A socket that was connected to is both in and
       out. A program that was started has a socket as its output and a pipe as its input, of which
       this process has both ends. */
    atomic_int in;
    int out, pipe_reader;
    /* The program that was started, and a file with its standard error; 0 and -1 for a socket that
       was connected to. */
    pid_t process;
    int errors;
    /* The longest wait for the server, in milliseconds; -1 for no limit. And who set it. */
    int timeout;
    const char *timeout_owner;
    /* Whether nothing more is sent or read; and the reason, where it isn't the server's end: a
       timeout, that a fork made this process, or a cancel by another thread. */
    bool has_ended, has_timed_out, is_inherited;
    atomic_bool is_cancelled;
    /* Requests without a reply, the oldest first. */
    struct request *first, **last;
    /* The reply that is being read: its head, and how many bytes of head and body are there. */
    uint8_t head[8];
    size_t head_count, body_count;
    /* Bytes that were read, and which of them are still to be parsed. */
    uint8_t chunk[65536];
    size_t chunk_at, chunk_end;
};

/* Makes a connection that has no server yet. */
void connection_prepare(struct connection *connection);
void connection_close(struct connection *connection);
/* Has every later request fail, and ends a wait of another thread for the server. A call of a
   server in this process goes on. */
void connection_cancel(struct connection *connection);
/* At the beginning of a call: after a cancel nothing more is sent or read. */
void connection_heed_cancel(struct connection *connection);
/* Says in words why the connection has ended. */
void connection_say_end(struct connection *connection, char *words, size_t size);
/* Sends a request's frame; false where the server has ended. */
bool connection_send(struct connection *connection, struct request *request, const uint8_t *body,
                     size_t length);
/* Sends the head of a frame and the beginning of its body, at most WRITE_HEAD bytes where more is
   above 0. The caller sends so many bytes more by connection_go_on. */
bool connection_begin(struct connection *connection, struct request *request, const uint8_t *body,
                      size_t length, size_t more);
/* Sends more bytes of a body, which mustn't change before the reply is there. In memory they come
   right after those that were sent before in this way. */
bool connection_go_on(struct connection *connection, const uint8_t *bytes, size_t count);
/* From now on the library needs no memory to read an image of up to so many bytes of samples.
   Returns false where there is none. */
bool connection_reserve(struct connection *connection, size_t samples);
/* Waits for the reply; false where the server has ended, or a cancel came before the call. */
bool connection_wait(struct connection *connection, struct request *request);
/* Whether the head of a reply answers a request: its length, its op and its code. */
bool is_reply_to(const struct request *request, const uint8_t *head);
/* Writes the head of a frame whose body has length bytes. */
void put_head(uint8_t *head, const struct request *request, size_t length);

/* When a wait that begins now is over, after so many milliseconds; -1 for one without an end. */
int64_t deadline_after(int milliseconds);
/* The rest of a wait in milliseconds, 0 once it is over; -1 for one without an end. */
int time_left(int64_t deadline);
/* As poll, and a signal makes the wait neither shorter nor longer. */
int poll_until(int64_t deadline, struct pollfd *wanted, nfds_t count);

/* ---- process.c: reaching a server ---- */

bool reach_server(struct connection *connection, const feqyldan_connection_t *given, char *why,
                  size_t size);
void end_server(struct connection *connection);
/* After a fork, in the child: leaves the server to the parent. */
void leave_to_parent(struct connection *connection);
/* Whether the program has more rights than its user, as a setuid program has. */
bool is_privileged(void);
/* A variable of the environment; NULL where it is empty, and in a privileged program. */
const char *setting(const char *name);

/* ---- core.c: the server in this process ---- */

/* Finds the library of the server. Returns false, and writes why, where there is none that this
   processor can run. */
bool find_core(struct core *core, char *why, size_t size);
bool open_core(struct connection *connection, char *why, size_t size);

#endif
