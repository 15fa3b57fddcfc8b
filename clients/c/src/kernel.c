/* Kernels, generic nodes, and hints and targets, which are accepted without effect. */
#include "internal.h"

#include <string.h>
#include <strings.h>

/* Finds the function of a kernel by its name, or by its number where that is NULL. */
static enum function function_of(vx_enum kernel, const vx_char *name) {
    for (vx_uint32 function = 1; function <= count_functions(); function++) {
        const struct definition *definition = definition_of((enum function)function);
        if (name != NULL ? strcmp(definition->kernel_name, name) == 0
                         : definition->kernel == kernel)
            return (enum function)function;
    }
    return NO_FUNCTION;
}

static vx_reference make_kernel(vx_context context, enum function function) {
    vx_kernel made = NULL;
    if (function != NO_FUNCTION)
        made = make(context, VX_TYPE_KERNEL, sizeof *made);
    if (made == NULL)
        return error_of(context, function == NO_FUNCTION ? VX_ERROR_NOT_SUPPORTED
                                                         : VX_ERROR_NO_MEMORY);
    made->function = function;
    return REFERENCE(made);
}

PUBLIC vx_kernel VX_API_CALL vxGetKernelByEnum(vx_context context, vx_enum kernel) {
    if (enter(context, VX_TYPE_CONTEXT) == NULL)
        return NULL;
    vx_reference made = make_kernel(context, function_of(kernel, NULL));
    if (made->status == VX_ERROR_NOT_SUPPORTED)
        tell(&context->base, made->status, "vxGetKernelByEnum: the server has no kernel 0x%x",
             (unsigned)kernel);
    leave(context, VX_SUCCESS);
    return (vx_kernel)made;
}

PUBLIC vx_kernel VX_API_CALL vxGetKernelByName(vx_context context, const vx_char *name) {
    if (enter(context, VX_TYPE_CONTEXT) == NULL)
        return NULL;
    vx_reference made = error_of(context, VX_ERROR_INVALID_PARAMETERS);
    if (name != NULL)
        made = make_kernel(context, function_of(0, name));
    if (made->status == VX_ERROR_NOT_SUPPORTED)
        tell(&context->base, made->status, "vxGetKernelByName: the server has no kernel %s", name);
    leave(context, VX_SUCCESS);
    return (vx_kernel)made;
}

PUBLIC vx_status VX_API_CALL vxReleaseKernel(vx_kernel *kernel) {
    return release(kernel, VX_TYPE_KERNEL);
}

PUBLIC vx_status VX_API_CALL vxQueryKernel(vx_kernel kernel, vx_enum attribute, void *ptr,
                                           vx_size size) {
    vx_char name[VX_MAX_KERNEL_NAME] = {0};
    vx_context context = look(kernel, VX_TYPE_KERNEL);
    if (context == NULL)
        return VX_ERROR_INVALID_REFERENCE;
    const struct definition *definition = definition_of(kernel->function);
    switch (attribute) {
    case VX_KERNEL_PARAMETERS:
        return look_away(context, give(ptr, size, &definition->count, sizeof definition->count));
    case VX_KERNEL_NAME:
        strcpy(name, definition->kernel_name);
        return look_away(context, give(ptr, size, name, sizeof name));
    case VX_KERNEL_ENUM:
        return look_away(context, give(ptr, size, &definition->kernel, sizeof definition->kernel));
    default:
        return look_away(context, VX_ERROR_NOT_SUPPORTED);
    }
}

PUBLIC vx_parameter VX_API_CALL vxGetKernelParameterByIndex(vx_kernel kernel, vx_uint32 index) {
    vx_context context = enter(kernel, VX_TYPE_KERNEL);
    if (context == NULL)
        return (vx_parameter)pass_error(kernel);
    vx_parameter made = make_parameter(context, kernel->function, NULL, index);
    leave(context, VX_SUCCESS);
    return made;
}

PUBLIC vx_node VX_API_CALL vxCreateGenericNode(vx_graph graph, vx_kernel kernel) {
    vx_context context = enter(graph, VX_TYPE_GRAPH);
    if (context == NULL)
        return (vx_node)pass_error(graph);
    vx_status status = check(context, kernel, VX_TYPE_KERNEL);
    vx_node made;
    if (status == VX_SUCCESS)
        made = add_node(graph, (struct call){.function = kernel->function, .is_generic = true});
    else
        made = add_missing_node(graph, status,
                                status == VX_ERROR_INVALID_SCOPE
                                    ? "vxCreateGenericNode: kernel belongs to another context: get "
                                      "it in this one"
                                    : "vxCreateGenericNode: kernel isn't a kernel: get one by "
                                      "vxGetKernelByEnum or vxGetKernelByName");
    leave(context, VX_SUCCESS);
    return made;
}

/* ---- Hints and targets ---- */

PUBLIC vx_status VX_API_CALL vxHint(vx_reference reference, vx_enum hint, const void *data,
                                    vx_size data_size) {
    (void)data;
    (void)data_size;
    vx_context context = look(reference, VX_TYPE_REFERENCE);
    if (context == NULL)
        return VX_ERROR_INVALID_REFERENCE;
    bool is_hint = hint == VX_HINT_PERFORMANCE_DEFAULT ||
                   hint == VX_HINT_PERFORMANCE_LOW_POWER ||
                   hint == VX_HINT_PERFORMANCE_HIGH_SPEED;
    return look_away(context, is_hint ? VX_SUCCESS : VX_ERROR_NOT_SUPPORTED);
}

/* Checks that a target, by its number or name, is the only one: any. */
static vx_status check_target(vx_enum target, const char *name) {
    bool is_any = target == VX_TARGET_ANY ||
                  (target == VX_TARGET_STRING && name != NULL && strcasecmp(name, "any") == 0);
    return is_any ? VX_SUCCESS : VX_ERROR_NOT_SUPPORTED;
}

PUBLIC vx_status VX_API_CALL vxSetNodeTarget(vx_node node, vx_enum target_enum,
                                             const char *target_string) {
    vx_context context = look(node, VX_TYPE_NODE);
    if (context == NULL)
        return VX_ERROR_INVALID_REFERENCE;
    return look_away(context, check_target(target_enum, target_string));
}

PUBLIC vx_status VX_API_CALL vxSetImmediateModeTarget(vx_context context, vx_enum target_enum,
                                                      const char *target_string) {
    if (look(context, VX_TYPE_CONTEXT) == NULL)
        return VX_ERROR_INVALID_REFERENCE;
    return look_away(context, check_target(target_enum, target_string));
}
