/* Declarations that the files of the library share.

   Only public functions lock, and those that are the whole of one, such as release. One that
   changes objects or asks the server calls enter and leave, also within another one. One that only
   reads objects calls look and look_away, and needn't wait for a call that waits for the server. */
#ifndef FEQYLDAN_INTERNAL_H
#define FEQYLDAN_INTERNAL_H

#include <VX/vx.h>
#include <VX/vxu.h>
#include <feqyldan/context.h>
#include "connection.h"
#include "functions.h"
#include <pthread.h>
#include <stdio.h>

#define PUBLIC __attribute__((visibility("default")))
#define REFERENCE(object) ((vx_reference)(object))

enum { GREATEST_SIDE = 8192, STATUSES = -VX_STATUS_MIN, NODE_BYTES = 25, NO_SLOT = 255,
       SPARES = 2 };

/* ---- reference.c ---- */

struct _vx_reference {
    vx_enum type;
    vx_context context;
    /* How many references the program has, and how many other objects have. */
    vx_uint32 count, holds;
    /* Its name on the server; 0 where the server doesn't have it. */
    vx_uint32 name;
    /* Of an error object. */
    vx_status status;
    char label[VX_MAX_REFERENCE_NAME];
    /* Neighbours in the list of the context's objects and in a bucket of the registry. */
    vx_reference next, previous, chain;
    bool is_live;
};

/* Locks and returns the context of a live reference of a type, VX_TYPE_REFERENCE for any. Returns
   NULL for anything else. */
vx_context enter(const void *reference, vx_enum type);
/* Unlocks the context, and destroys what log callbacks left unused. Returns the status that it is
   given. */
vx_status leave(vx_context context, vx_status status);
/* The same for a call that doesn't ask the server and changes no object except a scalar's value. */
vx_context look(const void *reference, vx_enum type);
vx_status look_away(vx_context context, vx_status status);
/* Checks that an argument is a live reference of a type in a context. */
vx_status check(vx_context context, const void *reference, vx_enum type);
/* Makes an object with one reference. Returns NULL where there is no memory. */
void *make(vx_context context, vx_enum type, size_t size);
void register_reference(vx_reference reference);
/* From now on a child of this process leaves all listed contexts to it. */
void watch_forks_once(void);
/* Between these two no other thread forks. */
void hold_forks_back(void);
void let_forks_go_on(void);
void list_context(vx_context context);
void unlist_context(vx_context context);
void unregister_reference(vx_reference reference);
/* Adds or removes a reference of another object. */
void hold(vx_reference reference);
void drop(vx_reference reference);
/* Adds a reference of the program, which may have none left. */
vx_status retain(vx_reference reference);
vx_reference error_of(vx_context context, vx_status status);
/* Returns an error object that was given in place of an object, as the result of a call on that;
   NULL for anything else. */
vx_reference pass_error(const void *reference);
vx_status release(void *pointer, vx_enum type);
/* Frees an object's memory, and asks the server nothing. */
void free_memory(vx_reference reference);
/* Copies an attribute's value, if the size is right. */
vx_status give(void *ptr, vx_size size, const void *value, vx_size length);
bool is_copy(vx_enum usage, vx_enum memory);

/* ---- context.c ---- */

struct _vx_context {
    struct _vx_reference base;
    struct connection connection;
    /* A thread with both locks changes objects and uses the connection. While it waits for the
       server it has only the first. A thread with only the second reads objects. */
    pthread_mutex_t calls, objects;
    /* How many calls use the context, under the registry's lock; whether it was released; and the
       process's next context. */
    unsigned users;
    bool is_closed;
    vx_context next;
    /* Its objects, without itself and its error objects. */
    vx_reference first;
    struct _vx_reference errors[STATUSES + 1];
    vx_border_t border;
    vx_enum border_policy;
    /* The name of the object for vxuMinMaxLoc's extremes; 0 before the first call. */
    vx_uint32 extremes;
    /* The words of the last log entry. */
    char fault[VX_MAX_LOG_MESSAGE_LEN];
    vx_log_callback_f callback;
    bool is_logging, is_in_callback;
    /* The thread that the callback runs in. */
    pthread_t caller;
    /* How many calls are nested: a log callback may make calls, and one call may make another. The
       outermost call locks objects for all of them. And whether callbacks left objects unused. The
       outermost call destroys these when it leaves: the calls around a callback may still have them
       in hand. */
    unsigned depth;
    bool has_unused;
    /* Whether the thread of the outermost call may be cancelled, by pthread_cancel, after it. */
    int cancel_state;
    /* Buffers for the next pictures. */
    struct buffer spares[SPARES];
    /* Whether an image is widened. */
    bool has_widened;
    /* How many runs have begun, of graphs and of functions at once. */
    vx_uint64 runs;
};

void free_context(vx_context context);
/* After a fork, in the child: the context has no server. No thread uses it, unless its log callback
   forked: then the call that the callback is in goes on. */
void leave_context(vx_context context);
/* Sets a border to the value of an attribute. */
vx_status set_border(vx_border_t *border, const void *ptr, vx_size size);
/* Sends a request and waits for its reply, which has a body of exactly reply_length bytes. */
vx_status ask(vx_context context, enum op op, const uint8_t *body, size_t length, uint8_t *reply,
              size_t reply_length);
vx_status ask_named(vx_context context, enum op op, vx_uint32 name);
/* The same for a reply without a body. A refusal adds no log entry. */
vx_status ask_quietly(vx_context context, enum op op, const uint8_t *body, size_t length);
/* Makes an object or a node on the server. */
vx_status create(vx_context context, enum op op, const uint8_t *body, size_t length,
                 vx_uint32 *name);
/* Releases an object on the server, unless its name is 0 or the context is closed. */
void forget(vx_context context, vx_uint32 name);
/* Between these two a call waits for the server, and other threads may look at objects. */
void let_look(vx_context context);
void end_look(vx_context context);
/* Waits for the reply to a request. One that couldn't be sent fails: the server has ended. */
vx_status await_reply(vx_context context, struct request *request, bool is_sent);
/* The name of a code in docs/wire.md. */
const char *name_of_status(vx_status status);
/* What to do after a refusal that is no mistake of the program; empty for others. */
const char *advice_on(enum op op, vx_status status);

/* ---- log.c ---- */

void tell(vx_reference reference, vx_status status, const char *words, ...)
    __attribute__((format(printf, 3, 4)));

struct call;

/* ---- image.c and patch.c ---- */

/* Samples in memory: the first one, and the bytes from one column and row to the next. */
struct grid {
    uint8_t *first;
    ptrdiff_t column, row;
};

struct map {
    vx_map_id id;
    vx_rectangle_t rect;
    vx_enum usage;
    struct grid grid;
    /* A copy of the samples; empty where the program's own memory is mapped. */
    struct buffer samples;
    struct map *next;
};

struct described {
    vx_uint32 width, height;
    vx_df_image format;
};

struct _vx_image {
    struct _vx_reference base;
    /* As declared. */
    vx_uint32 width, height;
    vx_df_image format;
    /* The same with open parts of a virtual image resolved by its graph's last verification. */
    struct described found;
    /* The name of a virtual image's graph, which no other object ever gets; 0 for other images. */
    vx_uint32 scope;
    /* The delay of an image in a slot, and the number of that. */
    vx_delay delay;
    uint8_t slot;
    struct map *maps;
    vx_map_id next_map;
    /* Whether a node may have written it, so that its valid rectangle isn't known here. */
    bool is_computed;
    /* Whether a write has made it wholly valid on the server; and the valid rectangle that it has
       all the same. */
    bool is_widened;
    vx_rectangle_t valid;
    /* Whether it is an image from a handle, with the program's memory, or a uniform image. */
    bool is_handle, is_uniform;
    struct grid memory;
    /* The number of the last run for which it was sent, 0 for none. */
    vx_uint64 sent_for;
    vx_pixel_value_t uniform;
};

vx_size sample_size(vx_df_image format);
uint8_t format_number(vx_df_image format);
uint8_t *put_image(uint8_t *at, const struct _vx_image *image);
/* Makes an image on the server; with a scope, a virtual one of that graph. */
vx_status create_samples(vx_context context, vx_uint32 scope, const struct described *as,
                         vx_uint32 *name);
/* An image as described, or an error. */
vx_reference create_image(vx_context context, struct _vx_image made);
vx_status query_valid(vx_image image, vx_rectangle_t *rect);
/* Notes that a write has made an image wholly valid on the server. Its valid rectangle stays what
   it was before. */
void widen(vx_image image, const vx_rectangle_t *valid);
/* Sets the valid rectangles of widened images on the server, which makes the samples outside them
   0. This comes before a run, which uses valid rectangles, and before a delay ages. */
vx_status narrow_images(vx_context context);
/* Whether pixels may be outside an image's valid rectangle. */
bool may_be_partial(const struct _vx_image *image);
/* Marks the outputs of a call as written by a node. */
void note_outputs(const struct call *call);
void free_maps(vx_image image);
/* Copies an image from a handle to the server, or back. */
vx_status send_memory(vx_image image);
vx_status take_memory(vx_image image);
void free_spares(vx_context context);
/* Converts samples of unit bytes between the byte order of frames and this machine's. The places
   may be the same. */
void turn_samples(uint8_t *to, const uint8_t *from, size_t bytes, size_t unit);
/* Makes a buffer of zeros, or with NULL where there is no memory. */
struct buffer make_buffer(size_t length);

/* ---- view.c ---- */

/* A map of an object other than an image, in place or of a copy. */
struct view {
    vx_map_id id;
    vx_enum usage;
    void *copy;
    struct view *next;
};

struct views {
    struct view *first;
    vx_map_id last;
};

vx_status add_view(struct views *views, vx_enum usage, void *copy, vx_map_id *id);
/* Removes a map, and gives the usage that it was made with. */
vx_status drop_view(struct views *views, vx_map_id id, vx_enum *usage);
void free_views(struct views *views);
bool is_map(vx_enum usage, vx_enum memory);

/* ---- The other objects ---- */

/* Registers the delays that age with a graph with a part of it, by the part's name. */
vx_status register_delays(vx_graph graph, vx_uint32 part);

struct _vx_delay {
    struct _vx_reference base;
    vx_size slots;
    vx_uint32 width, height;
    vx_df_image format;
    vx_image images[16];
    /* Whether a node may have written one of its images. */
    bool is_computed;
};

struct _vx_threshold {
    struct _vx_reference base;
    vx_enum kind;
    vx_df_image format;
    vx_int32 lower, upper;
    uint8_t on, off;
};

struct _vx_lut {
    struct _vx_reference base;
    vx_enum item;
    vx_size count;
    void *entries;
    struct views views;
};

struct _vx_convolution {
    struct _vx_reference base;
    vx_size columns, rows;
    uint8_t exponent;
    vx_int16 coefficients[81];
};

struct _vx_distribution {
    struct _vx_reference base;
    vx_size bins;
    vx_int32 offset;
    vx_uint32 range;
    struct views views;
};

struct _vx_scalar {
    struct _vx_reference base;
    vx_enum item;
    union {
        vx_uint8 u8;
        vx_int16 s16;
        vx_int32 s32;
        vx_uint32 u32;
        vx_float32 f32;
        vx_size size;
        uint8_t bytes[8];
    } value;
};

struct _vx_array {
    struct _vx_reference base;
    vx_enum item;
    vx_size size, capacity, count;
    uint8_t *items;
    struct views views;
};

/* The size of a scalar's type in bytes; 0 for a type that no scalar has. */
vx_size size_of_type(vx_enum type);

/* Make the object on the server as it is now, unless it is there. */
vx_status send_threshold(vx_threshold threshold);
vx_status send_lut(vx_lut lut);
vx_status send_convolution(vx_convolution convolution);
/* Drops an object on the server, since it has changed: its next use sends it again. */
void forget_parameter(vx_reference parameter);

/* ---- call.c: calls of functions, by nodes or in immediate mode ---- */

#define NUMBER_OF(NUMBER, ...) NUMBER,
enum function { NO_FUNCTION, FUNCTIONS(NUMBER_OF) };

enum { IN1, IN2, OUT1, OUT2, AMOUNT, MIN_VALUE, MAX_VALUE, MIN_PLACE, MAX_PLACE, MIN_COUNT,
       MAX_COUNT, OPERANDS };

/* Places after the operands: a call has the values of policies, not scalars. */
enum { POLICY = OPERANDS, ROUNDING, PLACES };

struct call {
    enum function function;
    vx_reference operands[OPERANDS];
    vx_enum policies[PLACES - OPERANDS];
    /* Whether it is a node made of a kernel, whose operands may still be NULL and policies 0. */
    bool is_generic;
    /* The scale or shift of a call without a scalar for it. */
    double amount;
    vx_border_t border;
    /* The name of the object that MinMaxLoc writes on the server; 0 before it is made. */
    vx_uint32 extremes;
};

/* In these functions about is the object that log entries refer to: the context for a call in
   immediate mode, the graph for a new node, or a node that is there. */

/* Checks references, scopes, item types and policies. */
vx_status check_call(vx_reference about, const struct call *call);
/* The same without the references, which the program may have released since they were checked. */
vx_status check_values(vx_reference about, const struct call *call);
/* Checks the values of MinMaxLoc, once the format of its image is resolved: S16 takes VX_TYPE_INT16. */
vx_status check_resolved(vx_reference about, const struct call *call);
/* Checks that no two outputs are one scalar or array. */
vx_status check_outputs(vx_reference about, const struct call *call);
/* Checks that no required parameter is missing: VX_ERROR_NOT_SUFFICIENT. */
vx_status check_complete(vx_reference about, const struct call *call);
/* Makes the thresholds, tables and other objects of a call on the server, and writes the bytes of
   the node. */
vx_status encode_call(vx_reference about, struct call *call, uint8_t *bytes);
/* After a run: reads what MinMaxLoc found into the scalars and arrays of its call. */
vx_status take_extremes(vx_context context, const struct call *call);

/* ---- functions.c ---- */

enum { MOST_PARAMETERS = 7, RULES = 2 };

/* A parameter of a function: its place in a call, and its attributes. */
struct formal {
    uint8_t place;
    vx_enum type, direction, state;
    const char *name;
};

/* A combination of formats: for each image a set of formats, with a bit for each. */
struct rule {
    uint8_t in1, in2, out;
};

struct definition {
    const char *node_name, *immediate_name;
    vx_enum kernel;
    const char *kernel_name;
    vx_uint32 count;
    struct formal formals[MOST_PARAMETERS];
    const char *expects;
    struct rule rules[RULES];
};

const struct definition *definition_of(enum function function);
/* Checks that a value for a parameter is a reference of the right type and context; for a policy, a
   scalar of VX_TYPE_ENUM. */
vx_status check_value(vx_reference about, const struct call *call, const struct formal *formal,
                      vx_reference value);
/* Functions are numbered from 1 to this. */
vx_uint32 count_functions(void);

/* ---- graph.c ---- */

/* A graph on the server's record of a node: its number there, 0 for none, and its bytes. */
struct sent {
    vx_uint32 number;
    uint8_t bytes[NODE_BYTES];
};

struct _vx_node {
    struct _vx_reference base;
    /* NULL after the node was removed or its graph was destroyed. */
    vx_graph graph;
    vx_node next_node;
    struct call call;
    /* The status in the last verification or run. */
    vx_status status;
    struct sent sent;
    /* In a graph that runs in parts: the number of its part, from 0, and that part's record. */
    vx_uint32 part;
    struct sent sent_to_part;
};

/* The server's image that backs a virtual image in the parts of its graph. */
struct backing {
    vx_image image;
    vx_uint32 name;
};

/* The parts in which a graph runs, see parts.c. */
struct parts {
    /* The number of parts, 0 for a graph that runs as a whole, and the names of their graphs on the
       server, in the order of the run. */
    vx_uint32 count;
    vx_uint32 *names;
    vx_size backing_count;
    struct backing *backings;
};

struct _vx_graph {
    struct _vx_reference base;
    vx_node first;
    vx_size nodes;
    vx_enum state;
    /* Whether a node couldn't be made, so that the graph can't be verified. A node that found no
       memory is missed until the program makes it anew. */
    bool lacks_node, misses_node;
    struct call missed;
    bool is_verified, is_scheduled;
    /* Whether the reply to the scheduled run has come, and its status. */
    bool is_awaited;
    vx_status awaited;
    /* Whether it has changed since its run began. */
    bool has_changed;
    struct request run;
    struct parts parts;
    /* Whether the current run has run a part, or the whole graph. */
    bool has_begun;
    /* The names of the delays that age with it. The server may have dropped some of them. */
    vx_uint32 *delays;
    vx_size delay_count;
    /* In nanoseconds. */
    vx_perf_t performance;
    /* The graph's own parameters, each of which is a parameter of one of its nodes. */
    vx_parameter *parameters;
    vx_uint32 parameter_count;
};

vx_node add_node(vx_graph graph, struct call call);
/* Refuses a node with a status and a log entry. The graph can't be verified any more. */
vx_node add_missing_node(vx_graph graph, vx_status status, const char *why);
/* Notes that the graph has changed, so that it has to be verified again. A run that is scheduled
   goes on. */
void change(vx_graph graph);
/* Removes a node from its graph, here and on the server. */
vx_status detach(vx_node node);

/* ---- run.c ---- */

/* Sends a call as a node to a graph on the server, unless that has it already. */
vx_status send_call(vx_node node, struct call *call, vx_uint32 graph, struct sent *sent);
/* Removes a node from a graph on the server, if that has it. */
vx_status withdraw(vx_context context, vx_uint32 graph, struct sent *sent);
/* Verifies or runs a graph on the server by its name, which is the graph's own or a part's. Adds a
   log entry where the server refuses it. */
vx_status ask_verdict(vx_graph graph, vx_uint32 name, enum op op);
/* Waits for a run that was scheduled, if there is one. */
void settle(vx_graph graph);
/* Waits for a scheduled run, and reads what a node wrote that the library keeps: the node is about
   to be removed. */
void take_results(vx_node node);

/* ---- parts.c ---- */

/* Whether a node of the graph reads a scalar that another one writes. */
bool runs_in_parts(const struct _vx_graph *graph);
/* Makes the parts of a verified graph, unless they are there. */
vx_status make_parts(vx_graph graph);
/* Drops the parts of a graph that changes, here and on the server. */
void drop_parts(vx_graph graph);
/* Frees the library's memory of the parts. */
void free_parts(vx_graph graph);
/* Runs all parts but the last one, and sends the nodes of that. */
vx_status run_first_parts(vx_graph graph);
/* The name of the last part's graph on the server. */
vx_uint32 last_name(const struct _vx_graph *graph);
/* Whether a node runs last; in a graph without parts all nodes do. */
bool is_in_last_part(const struct _vx_node *node);

/* ---- verdict.c ---- */

/* Writes a node's number in order of addition, from 0, its function and its name. */
void describe_node(vx_node node, char *words, size_t size);
/* Checks that no two nodes write the same scalar or array. The server doesn't know these. */
vx_status check_writers(vx_graph graph);
/* Whether a node reads an image that another node writes. */
bool reads_image_of(const struct _vx_node *reader, const struct _vx_node *writer);
/* Whether a node's scale or shift is a scalar that another node writes, or that any node does. */
bool reads_scalar_of(const struct _vx_node *reader, const struct _vx_node *writer);
bool reads_written_scalar(const struct _vx_node *node);
/* The image in a place of a node, or NULL. */
vx_image image_at(const struct _vx_node *node, unsigned place);
/* Adds a log entry for the server's verdict on a graph, and finds the node that it is about. */
void explain_verdict(vx_graph graph, vx_status status);
/* Adds the log entry of a cycle through images and scalars. Returns false where there is none. */
bool explain_cycle(vx_graph graph);
/* The same for a call in immediate mode. */
void explain_call(vx_context context, const struct call *call, vx_status status);
/* After a verification: resolves the open sizes and formats of virtual images. */
void resolve_images(vx_graph graph);

/* ---- handle.c: images from handles, before and after a run ---- */

/* Sends the images that a call reads. The caller counts a run first. In a run each image is sent
   once, however many nodes read it. */
vx_status send_images(vx_reference about, const struct call *call);
vx_status take_images(vx_reference about, const struct call *call);

/* ---- kernel.c and parameter.c ---- */

struct _vx_kernel {
    struct _vx_reference base;
    enum function function;
};

/* A parameter of a node, or of a kernel, which has no node. */
struct _vx_parameter {
    struct _vx_reference base;
    enum function function;
    vx_node node;
    vx_uint32 index;
};

vx_parameter make_parameter(vx_context context, enum function function, vx_node node,
                            vx_uint32 index);

/* ---- Big-endian bytes ---- */

static inline uint8_t *put8(uint8_t *at, unsigned value) {
    *at = (uint8_t)value;
    return at + 1;
}

static inline uint8_t *put16(uint8_t *at, unsigned value) {
    return put8(put8(at, value >> 8), value);
}

static inline uint8_t *put32(uint8_t *at, vx_uint32 value) {
    return put16(put16(at, value >> 16), value & 0xFFFF);
}

static inline uint8_t *put_ref(uint8_t *at, vx_uint32 name, uint8_t slot) {
    return put8(put32(at, name), slot);
}

static inline vx_uint32 get16(const uint8_t *at) { return (vx_uint32)at[0] << 8 | at[1]; }

static inline vx_uint32 get32(const uint8_t *at) { return get16(at) << 16 | get16(at + 2); }

#endif
