/* The server in this process. A call answers a whole frame, so the reply is there when a request
   has been sent. The locks of the context keep what feqyldan/core.h asks of callers: one call at a
   time for a handle. The core has no data of a thread, so each call may come from another one. */
#define _GNU_SOURCE
#include "internal.h"

#include <dlfcn.h>
#include <errno.h>
#include <stdlib.h>
#include <string.h>

/* NULL unless the program has libfeqyldan-core.a or links the shared library. */
#pragma weak feqyldan_open
#pragma weak feqyldan_connect
#pragma weak feqyldan_serve
#pragma weak feqyldan_close

/* As a server's program has them without options. */
#define DEFAULT_BYTES UINT64_C(268435456)

/* The dynamic linker takes this from glibc-hwcaps/x86-64-v3 where the processor has AVX2. */
static const char SHARED[] = "libfeqyldan-core.so.0";

/* ---- The library ---- */

/* Whether the processor can run the core: x86-64-v2, or any ARM processor of 64 bits. */
static bool has_processor(void) {
#ifdef __x86_64__
    return __builtin_cpu_supports("sse4.2") && __builtin_cpu_supports("popcnt");
#else
    return true;
#endif
}

/* Sets a pointer to a function. ISO C has no conversion to one from a pointer to an object. */
static bool find_call(void *library, const char *name, void *call) {
    void *found = dlsym(library, name);
    memcpy(call, &found, sizeof found);
    return found != NULL;
}

/* Loads the core, which stays loaded. */
static bool load_core(struct core *core, const char *path, char *why, size_t size) {
    void *library = dlopen(path, RTLD_NOW | RTLD_LOCAL | RTLD_NODELETE);
    if (library == NULL) {
        snprintf(why, size,
                 "can't load the server: %s; set FEQYLDAN_CORE to the path of %s, or "
                 "FEQYLDAN_SERVER to process",
                 dlerror(), SHARED);
        return false;
    }
    bool is_core = find_call(library, "feqyldan_open", &core->open) &&
                   find_call(library, "feqyldan_connect", &core->connect) &&
                   find_call(library, "feqyldan_serve", &core->serve) &&
                   find_call(library, "feqyldan_close", &core->close);
    dlclose(library);
    if (!is_core)
        snprintf(why, size, "%s isn't a server: it lacks calls of feqyldan/core.h", path);
    return is_core;
}

bool find_core(struct core *core, char *why, size_t size) {
    const char *path = setting("FEQYLDAN_CORE");
    if (!has_processor()) {
        snprintf(why, size, "the server needs a processor with SSE4.2 (x86-64-v2)");
        return false;
    }
    if (path != NULL || feqyldan_open == NULL)
        return load_core(core, path != NULL ? path : SHARED, why, size);
    core->open = feqyldan_open;
    core->connect = feqyldan_connect;
    core->serve = feqyldan_serve;
    core->close = feqyldan_close;
    return true;
}

/* Parses FEQYLDAN_QUOTA; 0, which is no quota, for what isn't a number. */
static uint64_t quota_of(const char *said) {
    char *rest;
    if (said == NULL)
        return DEFAULT_BYTES;
    errno = 0;
    unsigned long long quota = strtoull(said, &rest, 10);
    return *said >= '0' && *said <= '9' && *rest == '\0' && errno == 0 ? quota : 0;
}

bool open_core(struct connection *connection, char *why, size_t size) {
    struct core *core = &connection->core;
    const char *quota = setting("FEQYLDAN_QUOTA");
    uint32_t status = core->open(quota_of(quota), DEFAULT_BYTES, &core->handle);
    if (status == FEQYLDAN_OK)
        status = core->connect(&core->handle, &core->number);
    if (status == FEQYLDAN_BAD_LIMITS)
        snprintf(why, size, "FEQYLDAN_QUOTA is %s, and has to be 1 to 1099511627776 bytes", quota);
    else if (status != FEQYLDAN_OK)
        snprintf(why, size, "there is no memory for a server");
    if (status != FEQYLDAN_OK) {
        core->close(&core->handle);
        return false;
    }
    connection->transport = &core_transport;
    return true;
}

/* ---- Requests ---- */

/* Makes memory for a long reply, unless there is enough. */
static bool make_long_reply(struct core *core, size_t length) {
    if (core->long_reply.capacity >= length)
        return true;
    struct buffer made = make_buffer(length);
    if (made.bytes == NULL)
        return false;
    free(core->long_reply.bytes);
    core->long_reply = made;
    return true;
}

static bool core_reserve(struct connection *connection, size_t samples) {
    connection->core.is_reserved = true;
    return make_long_reply(&connection->core, REPLY_HEAD + DESCRIBED + samples);
}

/* Returns memory for a reply, of at least FEQYLDAN_LEAST_BUFFER bytes; NULL where there is none. */
static uint8_t *reply_buffer(struct core *core, size_t length) {
    if (length <= sizeof core->short_reply)
        return core->short_reply;
    return make_long_reply(core, length) ? core->long_reply.bytes : NULL;
}

static void drop_large_buffer(struct core *core) {
    if (core->is_reserved || core->long_reply.capacity <= GREATEST_KEPT)
        return;
    free(core->long_reply.bytes);
    core->long_reply = (struct buffer){NULL, 0};
}

/* Ends a request with a code, and copies its reply's body to its places. The samples may be there
   already. */
static void take_reply(struct request *request, uint8_t code, const uint8_t *body,
                       const uint8_t *samples) {
    request->code = code;
    request->is_done = true;
    if (code != 0)
        return;
    if (request->body_length > 0)
        memcpy(request->body, body, request->body_length);
    uint8_t *to = request->samples;
    for (size_t at = 0; at < request->samples_length; at += request->row) {
        turn_samples(to, samples + at, request->row, request->unit);
        to += request->stride;
    }
}

/* Whether the server writes the samples of a reply to their place: they are one row, and alone have
   the least length of a reply's memory. */
static bool is_placed(const struct request *request) {
    return request->samples_length >= FEQYLDAN_LEAST_BUFFER &&
           request->row == request->samples_length;
}

/* Has the server answer the frame of front and back. Returns false where it gives no reply. */
static bool serve(struct connection *connection, struct request *request, size_t front_length,
                  const uint8_t *back, size_t back_length) {
    struct core *core = &connection->core;
    size_t placed = is_placed(request) ? request->samples_length : 0;
    size_t before = REPLY_HEAD + request->body_length, length;
    size_t wanted = before + request->samples_length - placed;
    uint8_t *reply = reply_buffer(core, wanted);
    if (reply == NULL) {
        take_reply(request, NO_MEMORY, NULL, NULL);
        return true;
    }
    uint8_t *samples = placed > 0 ? request->samples : reply + before;
    size_t room = placed == 0 && reply == core->short_reply ? sizeof core->short_reply : wanted;
    uint32_t status = core->serve(&core->handle, core->number, core->front, front_length,
                                  back_length > 0 ? back : core->front, back_length, reply, room,
                                  samples, placed, &length);
    if (status != FEQYLDAN_OK || !is_reply_to(request, reply)) {
        connection->has_ended = true;
        return false;
    }
    take_reply(request, reply[7], reply + REPLY_HEAD, samples);
    drop_large_buffer(core);
    return true;
}

static bool core_begin(struct connection *connection, struct request *request, const uint8_t *body,
                       size_t length, size_t more) {
    struct core *core = &connection->core;
    put_head(core->front, request, length + more);
    if (more == 0)
        return serve(connection, request, HEAD, body, length);
    memcpy(core->front + HEAD, body, length);
    core->front_length = HEAD + length;
    core->request = request;
    core->samples_length = 0;
    core->wanted_length = more;
    return true;
}

static bool core_go_on(struct connection *connection, const uint8_t *bytes, size_t count) {
    struct core *core = &connection->core;
    if (core->samples_length == 0)
        core->samples = bytes;
    core->samples_length += count;
    return core->samples_length < core->wanted_length ||
           serve(connection, core->request, core->front_length, core->samples,
                 core->samples_length);
}

/* A handle of the parent process is neither used nor closed. */
static void core_end(struct connection *connection) {
    struct core *core = &connection->core;
    if (!connection->is_inherited)
        core->close(&core->handle);
    free(core->long_reply.bytes);
    core->long_reply = (struct buffer){NULL, 0};
}

const struct transport core_transport = {core_begin, core_go_on, core_reserve, core_end};
