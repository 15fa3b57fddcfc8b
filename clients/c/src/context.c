/* Contexts, each of which has a connection of its own. */
#include "internal.h"

#include <stdlib.h>
#include <string.h>

static const vx_status STATUS_OF_CODE[] = {
    VX_SUCCESS,                 VX_ERROR_NO_MEMORY,         VX_ERROR_INVALID_PARAMETERS,
    VX_ERROR_INVALID_REFERENCE, VX_ERROR_INVALID_SCOPE,     VX_ERROR_INVALID_FORMAT,
    VX_ERROR_INVALID_DIMENSION, VX_ERROR_INVALID_VALUE,     VX_ERROR_INVALID_TYPE,
    VX_ERROR_INVALID_GRAPH,     VX_ERROR_INVALID_LINK,      VX_ERROR_MULTIPLE_WRITERS,
    VX_ERROR_OPTIMIZED_AWAY,    VX_ERROR_NO_RESOURCES};

/* As docs/wire.md calls them. */
static const char *const CODE_NAMES[] = {
    "SUCCESS",        "NO_MEMORY",         "INVALID_PARAMETERS", "INVALID_REFERENCE",
    "INVALID_SCOPE",  "INVALID_FORMAT",    "INVALID_DIMENSION",  "INVALID_VALUE",
    "INVALID_TYPE",   "INVALID_GRAPH",     "INVALID_LINK",       "MULTIPLE_WRITERS",
    "OPTIMIZED_AWAY", "NO_RESOURCES"};

const char *name_of_status(vx_status status) {
    for (size_t code = 0; code < sizeof STATUS_OF_CODE / sizeof *STATUS_OF_CODE; code++)
        if (STATUS_OF_CODE[code] == status)
            return CODE_NAMES[code];
    return "FAILURE";
}

static const char *const OP_NAMES[] = {[OPEN_CONTEXT] = "OpenContext",
                                       [CREATE_IMAGE] = "CreateImage",
                                       [QUERY_IMAGE] = "QueryImage",
                                       [WRITE_IMAGE] = "WriteImage",
                                       [READ_IMAGE] = "ReadImage",
                                       [SET_VALID] = "SetValid",
                                       [RELEASE] = "Release",
                                       [CREATE_LUT] = "CreateLut",
                                       [CREATE_THRESHOLD] = "CreateThreshold",
                                       [CREATE_CONVOLUTION] = "CreateConvolution",
                                       [CREATE_DISTRIBUTION] = "CreateDistribution",
                                       [READ_DISTRIBUTION] = "ReadDistribution",
                                       [CREATE_MIN_MAX] = "CreateMinMax",
                                       [READ_MIN_MAX] = "ReadMinMax",
                                       [CREATE_GRAPH] = "CreateGraph",
                                       [CREATE_VIRTUAL_IMAGE] = "CreateVirtualImage",
                                       [ADD_NODE] = "AddNode",
                                       [REMOVE_NODE] = "RemoveNode",
                                       [VERIFY_GRAPH] = "VerifyGraph",
                                       [PROCESS_GRAPH] = "ProcessGraph",
                                       [IMMEDIATE] = "Immediate",
                                       [CREATE_DELAY] = "CreateDelay",
                                       [AGE_DELAY] = "AgeDelay",
                                       [REGISTER_AUTO_AGING] = "RegisterAutoAging"};

static vx_status lost(vx_context context) {
    char words[VX_MAX_LOG_MESSAGE_LEN];
    connection_say_end(&context->connection, words, sizeof words);
    tell(REFERENCE(context), VX_FAILURE, "%s", words);
    return VX_FAILURE;
}

const char *advice_on(enum op op, vx_status status) {
    if (status == VX_ERROR_NO_MEMORY)
        return ": the machine had no memory; release objects, or try again";
    if (status != VX_ERROR_NO_RESOURCES)
        return "";
    if (op == OPEN_CONTEXT)
        return ": it has too many connections; close one, or allow more (--connections)";
    if (op == ADD_NODE)
        return ": a graph has at most 256 nodes; make a second graph";
    if (op == VERIFY_GRAPH)
        return ": its virtual images have too many bytes together; make a second graph, or allow "
               "more (--work)";
    return ": release objects, or allow more bytes of images by FEQYLDAN_QUOTA";
}

static vx_status status_of(vx_context context, const struct request *request) {
    vx_status status = STATUS_OF_CODE[request->code];
    if (status != VX_SUCCESS && !request->is_quiet)
        tell(REFERENCE(context), status, "the server refused %s: %s%s", OP_NAMES[request->op],
             CODE_NAMES[request->code], advice_on(request->op, status));
    return status;
}

void let_look(vx_context context) { pthread_mutex_unlock(&context->objects); }

void end_look(vx_context context) { pthread_mutex_lock(&context->objects); }

vx_status await_reply(vx_context context, struct request *request, bool is_sent) {
    let_look(context);
    bool is_answered = is_sent && connection_wait(&context->connection, request);
    end_look(context);
    return is_answered ? status_of(context, request) : lost(context);
}

static vx_status exchange(vx_context context, struct request *request, const uint8_t *body,
                          size_t length) {
    let_look(context);
    bool is_sent = connection_send(&context->connection, request, body, length);
    end_look(context);
    return await_reply(context, request, is_sent);
}

vx_status ask(vx_context context, enum op op, const uint8_t *body, size_t length, uint8_t *reply,
              size_t reply_length) {
    struct request request = {.op = (uint8_t)op, .body = reply, .body_length = reply_length};
    return exchange(context, &request, body, length);
}

vx_status ask_quietly(vx_context context, enum op op, const uint8_t *body, size_t length) {
    struct request request = {.op = (uint8_t)op, .is_quiet = true};
    return exchange(context, &request, body, length);
}

vx_status ask_named(vx_context context, enum op op, vx_uint32 name) {
    uint8_t body[4];
    put32(body, name);
    return ask(context, op, body, sizeof body, NULL, 0);
}

vx_status create(vx_context context, enum op op, const uint8_t *body, size_t length,
                 vx_uint32 *name) {
    uint8_t reply[4];
    vx_status status = ask(context, op, body, length, reply, sizeof reply);
    if (status == VX_SUCCESS)
        *name = get32(reply);
    return status;
}

void forget(vx_context context, vx_uint32 name) {
    if (name != 0 && !context->is_closed && !context->connection.has_ended)
        ask_named(context, RELEASE, name);
}

static bool make_mutexes(vx_context context) {
    pthread_mutexattr_t attributes;
    if (pthread_mutexattr_init(&attributes) != 0)
        return false;
    /* A log callback may call the library. */
    pthread_mutexattr_settype(&attributes, PTHREAD_MUTEX_RECURSIVE);
    bool is_made = pthread_mutex_init(&context->calls, &attributes) == 0;
    if (is_made && pthread_mutex_init(&context->objects, &attributes) != 0) {
        pthread_mutex_destroy(&context->calls);
        is_made = false;
    }
    pthread_mutexattr_destroy(&attributes);
    return is_made;
}

static void make_base(vx_reference reference, vx_context context, vx_enum type, vx_status status) {
    reference->type = type;
    reference->context = context;
    reference->count = 1;
    reference->status = status;
    register_reference(reference);
}

/* Connects to a server, which opens a context. Where that fails, writes why. */
static bool open_server(vx_context context, const feqyldan_connection_t *given, char *why,
                        size_t size) {
    if (!reach_server(&context->connection, given, why, size))
        return false;
    end_look(context);
    vx_status status = ask(context, OPEN_CONTEXT, NULL, 0, NULL, 0);
    let_look(context);
    if (status == VX_SUCCESS)
        return true;
    if (context->connection.has_ended)
        connection_say_end(&context->connection, why, size);
    else
        snprintf(why, size, "the server refused OpenContext: %s%s", name_of_status(status),
                 advice_on(OPEN_CONTEXT, status));
    return false;
}

/* From now on another thread may cancel it, and a child leaves its server to this process. */
static void publish_context(vx_context context) {
    list_context(context);
    make_base(&context->base, context, VX_TYPE_CONTEXT, VX_SUCCESS);
    for (vx_status status = -1; status > VX_STATUS_MIN; status--)
        make_base(&context->errors[-status], context, VX_TYPE_ERROR, status);
}

static void announce(const feqyldan_connection_t *given, vx_context context) {
    if (given->announce != NULL)
        given->announce(context, given->argument);
}

/* Makes a context, and empties `why`. Where that fails, returns NULL and writes why. */
static vx_context make_context(const feqyldan_connection_t *given, char *why, size_t size) {
    snprintf(why, size, "out of memory");
    vx_context context = calloc(1, sizeof *context);
    if (context == NULL)
        return NULL;
    watch_forks_once();
    if (!make_mutexes(context)) {
        free(context);
        return NULL;
    }
    context->border.mode = VX_BORDER_UNDEFINED;
    context->border_policy = VX_BORDER_POLICY_DEFAULT_TO_UNDEFINED;
    connection_prepare(&context->connection);
    publish_context(context);
    announce(given, context);
    if (!open_server(context, given, why, size)) {
        announce(given, NULL);
        vxReleaseContext(&context);
        return NULL;
    }
    snprintf(why, size, "%s", "");
    return context;
}

/* The same in a thread that may be cancelled: that waits, else what was made would be lost. */
static vx_context open_context(const feqyldan_connection_t *given, char *why, size_t size) {
    int cancel_state;
    pthread_setcancelstate(PTHREAD_CANCEL_DISABLE, &cancel_state);
    vx_context context = make_context(given, why, size);
    pthread_setcancelstate(cancel_state, NULL);
    return context;
}

PUBLIC vx_context VX_API_CALL vxCreateContext(void) {
    char why[VX_MAX_LOG_MESSAGE_LEN];
    vx_context context = open_context(&(feqyldan_connection_t){0}, why, sizeof why);
    if (context == NULL)
        fprintf(stderr, "vxCreateContext: %s\n", why);
    return context;
}

PUBLIC vx_context VX_API_CALL feqyldanCreateContext(const feqyldan_connection_t *connection,
                                                    vx_char *fault, vx_size size) {
    static const feqyldan_connection_t by_environment;
    return open_context(connection == NULL ? &by_environment : connection, fault, size);
}

PUBLIC vx_status VX_API_CALL feqyldanCancel(vx_context context) {
    if (look(context, VX_TYPE_CONTEXT) == NULL)
        return VX_ERROR_INVALID_REFERENCE;
    connection_cancel(&context->connection);
    return look_away(context, VX_SUCCESS);
}

void leave_context(vx_context context) {
    leave_to_parent(&context->connection);
    context->is_in_callback =
        context->is_in_callback && pthread_equal(context->caller, pthread_self());
    context->users = context->depth = context->is_in_callback ? context->depth : 0;
    /* A mutex that this thread locked before the fork can't be unlocked after it. */
    make_mutexes(context);
    for (unsigned i = 0; i < context->depth; i++)
        pthread_mutex_lock(&context->calls);
    if (context->depth > 0)
        pthread_mutex_lock(&context->objects);
}

void free_context(vx_context context) {
    connection_close(&context->connection);
    unlist_context(context);
    while (context->first != NULL) {
        vx_reference object = context->first;
        context->first = object->next;
        free_memory(object);
    }
    free_spares(context);
    pthread_mutex_destroy(&context->calls);
    pthread_mutex_destroy(&context->objects);
    free(context);
}

/* Makes all references to a context and its objects stale. The last user frees them. */
static void close_context(vx_context context) {
    unregister_reference(&context->base);
    for (vx_status status = -1; status > VX_STATUS_MIN; status--)
        unregister_reference(&context->errors[-status]);
    for (vx_reference object = context->first; object != NULL; object = object->next)
        unregister_reference(object);
    context->is_closed = true;
}

PUBLIC vx_status VX_API_CALL vxReleaseContext(vx_context *context) {
    vx_context released = context == NULL ? NULL : enter(*context, VX_TYPE_CONTEXT);
    if (released == NULL)
        return VX_ERROR_INVALID_REFERENCE;
    *context = NULL;
    if (--released->base.count == 0)
        close_context(released);
    return leave(released, VX_SUCCESS);
}

static vx_uint32 count_objects(vx_context context) {
    vx_uint32 count = 0;
    for (vx_reference object = context->first; object != NULL; object = object->next)
        count += object->is_live ? 1 : 0;
    return count;
}

/* Copies the table of kernels, with a row for each function. */
static vx_status give_kernels(void *ptr, vx_size size) {
    vx_kernel_info_t *rows = ptr;
    if (ptr == NULL || size != count_functions() * sizeof *rows)
        return VX_ERROR_INVALID_PARAMETERS;
    for (vx_uint32 function = 1; function <= count_functions(); function++) {
        const struct definition *definition = definition_of((enum function)function);
        vx_kernel_info_t row = {.enumeration = definition->kernel};
        snprintf(row.name, sizeof row.name, "%s", definition->kernel_name);
        memcpy(rows + function - 1, &row, sizeof row);
    }
    return VX_SUCCESS;
}

static vx_status query_context(vx_context context, vx_enum attribute, void *ptr, vx_size size) {
    static const vx_char implementation[VX_MAX_IMPLEMENTATION_NAME] = "feqyldan";
    static const vx_char extensions[1] = "";
    const vx_uint16 vendor = VX_ID_DEFAULT, version = VX_VERSION;
    const vx_size side = 9, none = 0, length = sizeof extensions;
    const vx_uint32 count = count_objects(context), kernels = count_functions(), modules = 0;
    switch (attribute) {
    case VX_CONTEXT_VENDOR_ID:
        return give(ptr, size, &vendor, sizeof vendor);
    case VX_CONTEXT_VERSION:
        return give(ptr, size, &version, sizeof version);
    case VX_CONTEXT_UNIQUE_KERNELS:
        return give(ptr, size, &kernels, sizeof kernels);
    case VX_CONTEXT_UNIQUE_KERNEL_TABLE:
        return give_kernels(ptr, size);
    case VX_CONTEXT_MODULES:
        return give(ptr, size, &modules, sizeof modules);
    case VX_CONTEXT_REFERENCES:
        return give(ptr, size, &count, sizeof count);
    case VX_CONTEXT_IMPLEMENTATION:
        return give(ptr, size, implementation, sizeof implementation);
    case VX_CONTEXT_EXTENSIONS_SIZE:
        return give(ptr, size, &length, sizeof length);
    case VX_CONTEXT_EXTENSIONS:
        return give(ptr, size, extensions, sizeof extensions);
    case VX_CONTEXT_CONVOLUTION_MAX_DIMENSION:
        return give(ptr, size, &side, sizeof side);
    case VX_CONTEXT_OPTICAL_FLOW_MAX_WINDOW_DIMENSION:
    case VX_CONTEXT_NONLINEAR_MAX_DIMENSION:
    case VX_CONTEXT_MAX_TENSOR_DIMS:
        return give(ptr, size, &none, sizeof none);
    case VX_CONTEXT_IMMEDIATE_BORDER:
        return give(ptr, size, &context->border, sizeof context->border);
    case VX_CONTEXT_IMMEDIATE_BORDER_POLICY:
        return give(ptr, size, &context->border_policy, sizeof context->border_policy);
    default:
        return VX_ERROR_NOT_SUPPORTED;
    }
}

PUBLIC vx_status VX_API_CALL vxQueryContext(vx_context context, vx_enum attribute, void *ptr,
                                            vx_size size) {
    if (look(context, VX_TYPE_CONTEXT) == NULL)
        return VX_ERROR_INVALID_REFERENCE;
    return look_away(context, query_context(context, attribute, ptr, size));
}

vx_status set_border(vx_border_t *border, const void *ptr, vx_size size) {
    vx_border_t value;
    if (ptr == NULL || size != sizeof value)
        return VX_ERROR_INVALID_PARAMETERS;
    memcpy(&value, ptr, sizeof value);
    if (value.mode != VX_BORDER_UNDEFINED && value.mode != VX_BORDER_CONSTANT &&
        value.mode != VX_BORDER_REPLICATE)
        return VX_ERROR_INVALID_VALUE;
    *border = value;
    return VX_SUCCESS;
}

static vx_status set_border_policy(vx_context context, const void *ptr, vx_size size) {
    vx_enum policy;
    if (ptr == NULL || size != sizeof policy)
        return VX_ERROR_INVALID_PARAMETERS;
    memcpy(&policy, ptr, sizeof policy);
    if (policy != VX_BORDER_POLICY_DEFAULT_TO_UNDEFINED && policy != VX_BORDER_POLICY_RETURN_ERROR)
        return VX_ERROR_INVALID_VALUE;
    context->border_policy = policy;
    return VX_SUCCESS;
}

PUBLIC vx_status VX_API_CALL vxSetContextAttribute(vx_context context, vx_enum attribute,
                                                   const void *ptr, vx_size size) {
    if (enter(context, VX_TYPE_CONTEXT) == NULL)
        return VX_ERROR_INVALID_REFERENCE;
    if (attribute == VX_CONTEXT_IMMEDIATE_BORDER)
        return leave(context, set_border(&context->border, ptr, size));
    if (attribute == VX_CONTEXT_IMMEDIATE_BORDER_POLICY)
        return leave(context, set_border_policy(context, ptr, size));
    return leave(context, VX_ERROR_NOT_SUPPORTED);
}
