/* References: which are live, how many an object has, and what is destroyed with it. */
#define _GNU_SOURCE
#include "internal.h"

#include <stdlib.h>
#include <string.h>

/* All live references of the process. A pointer is looked up here before it is followed, since it
   may be stale or wrong. */
enum { BUCKETS = 4096 };
static struct {
    pthread_mutex_t mutex;
    vx_reference buckets[BUCKETS];
    /* All contexts, also released ones that calls still use. */
    vx_context contexts;
} registry = {.mutex = PTHREAD_MUTEX_INITIALIZER};

static vx_reference *bucket_of(const void *reference) {
    return &registry.buckets[((uintptr_t)reference >> 4) * 2654435761u % BUCKETS];
}

static vx_reference find(const void *reference) {
    vx_reference found = *bucket_of(reference);
    while (found != NULL && (const void *)found != reference)
        found = found->chain;
    return found;
}

void register_reference(vx_reference reference) {
    pthread_mutex_lock(&registry.mutex);
    vx_reference *bucket = bucket_of(reference);
    reference->chain = *bucket;
    *bucket = reference;
    reference->is_live = true;
    pthread_mutex_unlock(&registry.mutex);
}

void unregister_reference(vx_reference reference) {
    if (!reference->is_live)
        return;
    pthread_mutex_lock(&registry.mutex);
    vx_reference *place = bucket_of(reference);
    while (*place != reference)
        place = &(*place)->chain;
    *place = reference->chain;
    reference->is_live = false;
    pthread_mutex_unlock(&registry.mutex);
}

static bool is_a(vx_reference found, vx_enum type) {
    return found != NULL && (type == VX_TYPE_REFERENCE || found->type == type);
}

static void lock_registry(void) { pthread_mutex_lock(&registry.mutex); }

static void unlock_registry(void) { pthread_mutex_unlock(&registry.mutex); }

/* Recursive, since the handler of a signal may fork in the thread that holds forks back. */
static pthread_mutex_t forks = PTHREAD_RECURSIVE_MUTEX_INITIALIZER_NP;

void hold_forks_back(void) { pthread_mutex_lock(&forks); }

void let_forks_go_on(void) { pthread_mutex_unlock(&forks); }

static void before_fork(void) {
    hold_forks_back();
    lock_registry();
}

static void after_fork(void) {
    unlock_registry();
    let_forks_go_on();
}

/* After a fork, in the child: the contexts and their servers stay the parent's. A recursive mutex
   that was locked before the fork can't be unlocked after it. */
static void leave_contexts(void) {
    for (vx_context context = registry.contexts; context != NULL; context = context->next)
        leave_context(context);
    unlock_registry();
    forks = (pthread_mutex_t)PTHREAD_RECURSIVE_MUTEX_INITIALIZER_NP;
}

static void watch_forks(void) { pthread_atfork(before_fork, after_fork, leave_contexts); }

void watch_forks_once(void) {
    static pthread_once_t once = PTHREAD_ONCE_INIT;
    pthread_once(&once, watch_forks);
}

void list_context(vx_context context) {
    lock_registry();
    context->next = registry.contexts;
    registry.contexts = context;
    unlock_registry();
}

void unlist_context(vx_context context) {
    lock_registry();
    vx_context *place = &registry.contexts;
    while (*place != NULL && *place != context)
        place = &(*place)->next;
    if (*place != NULL)
        *place = context->next;
    unlock_registry();
}

/* Returns the context of a live reference of a type, and counts a user of it. Returns NULL for
   anything else. */
static vx_context use(const void *reference, vx_enum type) {
    pthread_mutex_lock(&registry.mutex);
    vx_reference found = find(reference);
    vx_context context = is_a(found, type) ? found->context : NULL;
    if (context != NULL)
        context->users++;
    pthread_mutex_unlock(&registry.mutex);
    return context;
}

/* Counts one user less. The last one frees a context that was released. */
static void unuse(vx_context context) {
    pthread_mutex_lock(&registry.mutex);
    bool is_over = --context->users == 0 && context->is_closed;
    pthread_mutex_unlock(&registry.mutex);
    if (is_over)
        free_context(context);
}

static void destroy_unused(vx_context context);

vx_context look(const void *reference, vx_enum type) {
    vx_context context = use(reference, type);
    if (context == NULL)
        return NULL;
    pthread_mutex_lock(&context->objects);
    /* Another thread may have released it meanwhile. */
    if (check(context, reference, type) == VX_SUCCESS)
        return context;
    look_away(context, VX_SUCCESS);
    return NULL;
}

vx_status look_away(vx_context context, vx_status status) {
    pthread_mutex_unlock(&context->objects);
    unuse(context);
    return status;
}

vx_context enter(const void *reference, vx_enum type) {
    vx_context context = use(reference, type);
    if (context == NULL)
        return NULL;
    pthread_mutex_lock(&context->calls);
    if (context->depth++ == 0) {
        /* A thread that is cancelled ends its call first: else the context would stay locked. */
        pthread_setcancelstate(PTHREAD_CANCEL_DISABLE, &context->cancel_state);
        pthread_mutex_lock(&context->objects);
        connection_heed_cancel(&context->connection);
    }
    if (check(context, reference, type) == VX_SUCCESS)
        return context;
    leave(context, VX_SUCCESS);
    return NULL;
}

vx_status leave(vx_context context, vx_status status) {
    if (context->depth == 1 && context->has_unused)
        destroy_unused(context);
    const bool is_outermost = --context->depth == 0;
    const int cancel_state = context->cancel_state;
    if (is_outermost)
        pthread_mutex_unlock(&context->objects);
    pthread_mutex_unlock(&context->calls);
    unuse(context);
    if (is_outermost)
        pthread_setcancelstate(cancel_state, NULL);
    return status;
}

vx_reference pass_error(const void *reference) {
    vx_context context = look(reference, VX_TYPE_ERROR);
    if (context == NULL)
        return NULL;
    look_away(context, VX_SUCCESS);
    return (vx_reference)reference;
}

vx_status check(vx_context context, const void *reference, vx_enum type) {
    pthread_mutex_lock(&registry.mutex);
    vx_reference found = find(reference);
    vx_status status = VX_SUCCESS;
    if (!is_a(found, type))
        status = VX_ERROR_INVALID_REFERENCE;
    else if (found->context != context)
        status = VX_ERROR_INVALID_SCOPE;
    pthread_mutex_unlock(&registry.mutex);
    return status;
}

void *make(vx_context context, vx_enum type, size_t size) {
    vx_reference made = calloc(1, size);
    if (made == NULL)
        return NULL;
    made->type = type;
    made->context = context;
    made->count = 1;
    made->next = context->first;
    if (made->next != NULL)
        made->next->previous = made;
    context->first = made;
    register_reference(made);
    return made;
}

vx_reference error_of(vx_context context, vx_status status) {
    return &context->errors[-status];
}

void free_memory(vx_reference reference) {
    unregister_reference(reference);
    if (reference->type == VX_TYPE_IMAGE)
        free_maps((vx_image)reference);
    if (reference->type == VX_TYPE_LUT) {
        free_views(&((vx_lut)reference)->views);
        free(((vx_lut)reference)->entries);
    }
    if (reference->type == VX_TYPE_ARRAY) {
        free_views(&((vx_array)reference)->views);
        free(((vx_array)reference)->items);
    }
    if (reference->type == VX_TYPE_DISTRIBUTION)
        free_views(&((vx_distribution)reference)->views);
    if (reference->type == VX_TYPE_GRAPH) {
        free(((vx_graph)reference)->parameters);
        free(((vx_graph)reference)->delays);
        free_parts((vx_graph)reference);
    }
    free(reference);
}

static void unlink_object(vx_reference reference) {
    if (reference->previous != NULL)
        reference->previous->next = reference->next;
    else
        reference->context->first = reference->next;
    if (reference->next != NULL)
        reference->next->previous = reference->previous;
}

static void destroy_slots(vx_delay delay) {
    for (vx_size slot = 0; slot < delay->slots; slot++)
        if (delay->images[slot] != NULL) {
            unlink_object(REFERENCE(delay->images[slot]));
            free_memory(REFERENCE(delay->images[slot]));
        }
}

static void destroy_nodes(vx_graph graph) {
    settle(graph);
    while (graph->first != NULL)
        detach(graph->first);
    for (vx_uint32 i = 0; i < graph->parameter_count; i++)
        drop(REFERENCE(graph->parameters[i]));
}

/* Destroys the slots and nodes of an object that is destroyed, and drops what it refers to. */
static void destroy_members(vx_reference reference) {
    if (reference->type == VX_TYPE_DELAY)
        destroy_slots((vx_delay)reference);
    if (reference->type == VX_TYPE_GRAPH)
        destroy_nodes((vx_graph)reference);
    if (reference->type == VX_TYPE_PARAMETER && ((vx_parameter)reference)->node != NULL)
        drop(REFERENCE(((vx_parameter)reference)->node));
    if (reference->type == VX_TYPE_NODE)
        forget(reference->context, ((vx_node)reference)->call.extremes);
}

static void destroy(vx_reference reference) {
    forget(reference->context, reference->name);
    /* The server drops a graph's nodes with it. */
    reference->name = 0;
    destroy_members(reference);
    unlink_object(reference);
    free_memory(reference);
}

/* The object whose references count: an image in a slot of a delay counts for the delay. */
static vx_reference owner_of(vx_reference reference) {
    bool is_slot = reference->type == VX_TYPE_IMAGE && ((vx_image)reference)->delay != NULL;
    return is_slot ? REFERENCE(((vx_image)reference)->delay) : reference;
}

static bool is_unused(vx_reference reference) {
    return owner_of(reference) == reference && reference->count == 0 && reference->holds == 0;
}

static void destroy_if_unused(vx_reference reference) {
    if (!is_unused(reference))
        return;
    if (reference->context->is_in_callback)
        reference->context->has_unused = true;
    else
        destroy(reference);
}

/* Destroys all unused objects, unless the context is closed: then they are freed with it. */
static void destroy_unused(vx_context context) {
    vx_reference object = context->first;
    context->has_unused = false;
    while (object != NULL && !context->is_closed) {
        bool is_over = is_unused(object);
        if (is_over)
            destroy(object);
        /* Others may be destroyed with it. */
        object = is_over ? context->first : object->next;
    }
}

void hold(vx_reference reference) { owner_of(reference)->holds++; }

void drop(vx_reference reference) {
    vx_reference owner = owner_of(reference);
    owner->holds--;
    destroy_if_unused(owner);
}

vx_status retain(vx_reference reference) {
    if (reference->count == UINT32_MAX)
        return VX_ERROR_NO_RESOURCES;
    if (reference->type != VX_TYPE_ERROR)
        reference->count++;
    if (owner_of(reference) != reference)
        hold(reference);
    if (!reference->is_live)
        register_reference(reference);
    return VX_SUCCESS;
}

/* Makes references to a slot stale, unless the program has retained one. */
static void unregister_slot(vx_image image) {
    if (image != NULL && image->base.count == 0)
        unregister_reference(&image->base);
}

/* Makes references to an object stale; to a delay, those to its slots too. */
static void unregister_with_slots(vx_reference reference) {
    unregister_reference(reference);
    if (reference->type == VX_TYPE_DELAY)
        for (vx_size slot = 0; slot < ((vx_delay)reference)->slots; slot++)
            unregister_slot(((vx_delay)reference)->images[slot]);
}

vx_status release(void *pointer, vx_enum type) {
    if (pointer == NULL)
        return VX_ERROR_INVALID_REFERENCE;
    vx_reference reference;
    memcpy(&reference, pointer, sizeof reference);
    vx_context context = enter(reference, type);
    if (context == NULL)
        return VX_ERROR_INVALID_REFERENCE;
    vx_reference owner = owner_of(reference);
    if (owner != reference && reference->count == 0)
        return leave(context, VX_ERROR_INVALID_REFERENCE);
    vx_reference none = NULL;
    memcpy(pointer, &none, sizeof none);
    if (reference->type == VX_TYPE_ERROR)
        return leave(context, VX_SUCCESS);
    reference->count--;
    if (owner != reference) {
        if (owner->count == 0)
            unregister_slot((vx_image)reference);
        drop(reference);
    } else if (reference->count == 0) {
        unregister_with_slots(reference);
        destroy_if_unused(reference);
    }
    return leave(context, VX_SUCCESS);
}

vx_status give(void *ptr, vx_size size, const void *value, vx_size length) {
    if (ptr == NULL || size != length)
        return VX_ERROR_INVALID_PARAMETERS;
    memcpy(ptr, value, length);
    return VX_SUCCESS;
}

bool is_copy(vx_enum usage, vx_enum memory) {
    return (usage == VX_READ_ONLY || usage == VX_WRITE_ONLY) && memory == VX_MEMORY_TYPE_HOST;
}

PUBLIC vx_status VX_API_CALL vxGetStatus(vx_reference reference) {
    if (reference == NULL)
        return VX_ERROR_NO_RESOURCES;
    vx_context context = look(reference, VX_TYPE_REFERENCE);
    if (context == NULL)
        return VX_ERROR_INVALID_REFERENCE;
    return look_away(context, reference->status);
}

PUBLIC vx_context VX_API_CALL vxGetContext(vx_reference reference) {
    vx_context context = look(reference, VX_TYPE_REFERENCE);
    if (context != NULL)
        look_away(context, VX_SUCCESS);
    return context;
}

PUBLIC vx_status VX_API_CALL vxQueryReference(vx_reference ref, vx_enum attribute, void *ptr,
                                              vx_size size) {
    vx_context context = look(ref, VX_TYPE_REFERENCE);
    if (context == NULL)
        return VX_ERROR_INVALID_REFERENCE;
    const char *name = ref->label;
    switch (attribute) {
    case VX_REFERENCE_COUNT:
        return look_away(context, give(ptr, size, &ref->count, sizeof ref->count));
    case VX_REFERENCE_TYPE:
        return look_away(context, give(ptr, size, &ref->type, sizeof ref->type));
    case VX_REFERENCE_NAME:
        return look_away(context, give(ptr, size, &name, sizeof name));
    default:
        return look_away(context, VX_ERROR_NOT_SUPPORTED);
    }
}

PUBLIC vx_status VX_API_CALL vxRetainReference(vx_reference ref) {
    vx_context context = enter(ref, VX_TYPE_REFERENCE);
    if (context == NULL)
        return VX_ERROR_INVALID_REFERENCE;
    return leave(context, retain(ref));
}

PUBLIC vx_status VX_API_CALL vxReleaseReference(vx_reference *ref_ptr) {
    if (ref_ptr != NULL && *ref_ptr != NULL && vxGetContext(*ref_ptr) == (vx_context)*ref_ptr)
        return vxReleaseContext((vx_context *)(void *)ref_ptr);
    return release(ref_ptr, VX_TYPE_REFERENCE);
}

PUBLIC vx_status VX_API_CALL vxSetReferenceName(vx_reference ref, const vx_char *name) {
    vx_context context = enter(ref, VX_TYPE_REFERENCE);
    if (context == NULL)
        return VX_ERROR_INVALID_REFERENCE;
    if (name != NULL && strlen(name) >= sizeof ref->label)
        return leave(context, VX_ERROR_INVALID_PARAMETERS);
    /* The name may be within the old one. */
    const vx_char *label = name == NULL ? "" : name;
    memmove(ref->label, label, strlen(label) + 1);
    return leave(context, VX_SUCCESS);
}
