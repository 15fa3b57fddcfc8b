/* Images from handles, whose samples are in the program's memory. Before a run the images that
   nodes read are sent to the server. After it the images that they wrote are read back. That takes
   no memory: the run can't be undone. */
#include "internal.h"

#include <string.h>

static bool is_layout(const vx_imagepatch_addressing_t *addr, vx_size size) {
    return addr->dim_x > 0 && addr->dim_y > 0 && addr->stride_x == (vx_int32)size &&
           (addr->dim_y == 1 ||
            (vx_int64)addr->stride_y >= (vx_int64)addr->stride_x * (vx_int64)addr->dim_x);
}

/* Makes an image whose samples can be read without memory. */
static vx_reference create_readable(vx_context context, struct _vx_image described) {
    vx_reference made = create_image(context, described);
    size_t samples = (size_t)described.width * described.height * sample_size(described.format);
    if (made->type != VX_TYPE_IMAGE || connection_reserve(&context->connection, samples))
        return made;
    release(&made, VX_TYPE_IMAGE);
    return error_of(context, VX_ERROR_NO_MEMORY);
}

PUBLIC vx_image VX_API_CALL vxCreateImageFromHandle(vx_context context, vx_df_image color,
                                                    const vx_imagepatch_addressing_t addrs[],
                                                    void *const ptrs[], vx_enum memory_type) {
    if (enter(context, VX_TYPE_CONTEXT) == NULL)
        return NULL;
    vx_status status = VX_SUCCESS;
    if (format_number(color) == 0 || memory_type != VX_MEMORY_TYPE_HOST)
        status = VX_ERROR_NOT_SUPPORTED;
    else if (addrs == NULL || ptrs == NULL || ptrs[0] == NULL ||
             !is_layout(&addrs[0], sample_size(color)))
        status = VX_ERROR_INVALID_PARAMETERS;
    vx_reference made = error_of(context, status);
    if (status == VX_SUCCESS)
        made = create_readable(context, (struct _vx_image){.width = addrs[0].dim_x,
                                                           .height = addrs[0].dim_y,
                                                           .format = color});
    if (made->type == VX_TYPE_IMAGE) {
        vx_image image = (vx_image)made;
        image->is_handle = true;
        image->memory = (struct grid){ptrs[0], addrs[0].stride_x, addrs[0].stride_y};
    }
    leave(context, VX_SUCCESS);
    return (vx_image)made;
}

PUBLIC vx_status VX_API_CALL vxSwapImageHandle(vx_image image, void *const new_ptrs[],
                                               void *prev_ptrs[], vx_size num_planes) {
    vx_context context = enter(image, VX_TYPE_IMAGE);
    if (context == NULL)
        return VX_ERROR_INVALID_REFERENCE;
    if (!image->is_handle || num_planes != 1 || (new_ptrs != NULL && new_ptrs[0] == NULL))
        return leave(context, VX_ERROR_INVALID_PARAMETERS);
    if (image->maps != NULL)
        return leave(context, VX_FAILURE);
    /* Both arguments may be the same array. */
    void *given = new_ptrs == NULL ? NULL : new_ptrs[0];
    if (prev_ptrs != NULL)
        prev_ptrs[0] = image->memory.first;
    image->memory.first = given;
    return leave(context, VX_SUCCESS);
}

/* A call's image from a handle for a parameter; NULL where it has none. */
static vx_image handle_of(const struct call *call, const struct formal *formal) {
    vx_reference operand = formal->place < OPERANDS ? call->operands[formal->place] : NULL;
    bool is_image = operand != NULL && operand->type == VX_TYPE_IMAGE;
    return is_image && ((vx_image)operand)->is_handle ? (vx_image)operand : NULL;
}

/* Moves a call's images from handles, except those of a direction: before a run its outputs, and
   after it its inputs. Before a run the outputs have to have memory too: else what the run writes
   would be lost, and the next run would add to sums a second time. */
static vx_status move_images(vx_reference about, const struct call *call, vx_enum left_out,
                             vx_status (*move)(vx_image image)) {
    const struct definition *definition = definition_of(call->function);
    vx_status status = VX_SUCCESS;
    for (vx_uint32 i = 0; status == VX_SUCCESS && i < definition->count; i++) {
        const struct formal *formal = &definition->formals[i];
        vx_image image = handle_of(call, formal);
        bool is_left_out = formal->direction == left_out;
        if (image == NULL || (is_left_out && left_out == VX_INPUT))
            continue;
        if (image->memory.first == NULL) {
            tell(about, VX_ERROR_NOT_ALLOCATED,
                 "%s is an image from a handle without memory: give it some by vxSwapImageHandle",
                 formal->name);
            return VX_ERROR_NOT_ALLOCATED;
        }
        if (!is_left_out)
            status = move(image);
    }
    return status;
}

static vx_status send_once(vx_image image) {
    const vx_uint64 run = image->base.context->runs;
    vx_status status = image->sent_for == run ? VX_SUCCESS : send_memory(image);
    image->sent_for = status == VX_SUCCESS ? run : image->sent_for;
    return status;
}

vx_status send_images(vx_reference about, const struct call *call) {
    return move_images(about, call, VX_OUTPUT, send_once);
}

vx_status take_images(vx_reference about, const struct call *call) {
    return move_images(about, call, VX_INPUT, take_memory);
}
