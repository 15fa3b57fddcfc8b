/* Log entries, which go to the program's callback. */
#include "internal.h"

#include <stdarg.h>

/* The object that an entry refers to, or where the program has released that, its graph or its
   context. */
static vx_reference entry_object(vx_reference reference) {
    if (!reference->is_live && reference->type == VX_TYPE_NODE &&
        ((vx_node)reference)->graph != NULL)
        reference = &((vx_node)reference)->graph->base;
    return reference->is_live ? reference : &reference->context->base;
}

static void tell_list(vx_reference reference, vx_status status, const char *words, va_list list) {
    vx_context context = reference->context;
    /* Calls of the callback add no entries: else it might call itself without end. */
    if (context->is_in_callback)
        return;
    vsnprintf(context->fault, sizeof context->fault, words, list);
    if (context->callback == NULL || !context->is_logging)
        return;
    context->is_in_callback = true;
    context->caller = pthread_self();
    context->callback(context, entry_object(reference), status, context->fault);
    context->is_in_callback = false;
}

void tell(vx_reference reference, vx_status status, const char *words, ...) {
    va_list list;
    va_start(list, words);
    tell_list(reference, status, words, list);
    va_end(list);
}

PUBLIC void VX_API_CALL vxRegisterLogCallback(vx_context context, vx_log_callback_f callback,
                                              vx_bool reentrant) {
    (void)reentrant;
    if (enter(context, VX_TYPE_CONTEXT) == NULL)
        return;
    context->callback = callback;
    context->is_logging = callback != NULL;
    leave(context, VX_SUCCESS);
}

PUBLIC void VX_API_CALL vxAddLogEntry(vx_reference ref, vx_status status, const char *message,
                                      ...) {
    if (message == NULL || status == VX_SUCCESS)
        return;
    vx_context context = enter(ref, VX_TYPE_REFERENCE);
    if (context == NULL)
        return;
    va_list list;
    va_start(list, message);
    tell_list(ref, status, message, list);
    va_end(list);
    leave(context, VX_SUCCESS);
}

PUBLIC vx_status VX_API_CALL feqyldanGetFault(vx_context context, vx_char *fault, vx_size size) {
    if (look(context, VX_TYPE_CONTEXT) == NULL)
        return VX_ERROR_INVALID_REFERENCE;
    if (fault == NULL || size == 0)
        return look_away(context, VX_ERROR_INVALID_PARAMETERS);
    snprintf(fault, size, "%s", context->fault);
    return look_away(context, VX_SUCCESS);
}

PUBLIC vx_status VX_API_CALL vxDirective(vx_reference reference, vx_enum directive) {
    vx_context context = enter(reference, VX_TYPE_REFERENCE);
    if (context == NULL)
        return VX_ERROR_INVALID_REFERENCE;
    switch (directive) {
    case VX_DIRECTIVE_ENABLE_LOGGING:
    case VX_DIRECTIVE_DISABLE_LOGGING:
        context->is_logging = directive == VX_DIRECTIVE_ENABLE_LOGGING;
        return leave(context, VX_SUCCESS);
    case VX_DIRECTIVE_ENABLE_PERFORMANCE:
    case VX_DIRECTIVE_DISABLE_PERFORMANCE:
        /* Runs are always timed. */
        return leave(context, VX_SUCCESS);
    default:
        return leave(context, VX_ERROR_NOT_SUPPORTED);
    }
}
