/* Images: their attributes and valid rectangles. */
#include "internal.h"

vx_size sample_size(vx_df_image format) {
    return format == VX_DF_IMAGE_U8 ? 1 : format == VX_DF_IMAGE_S16 ? 2 : 4;
}

uint8_t format_number(vx_df_image format) {
    switch (format) {
    case VX_DF_IMAGE_U8:
        return 1;
    case VX_DF_IMAGE_S16:
        return 2;
    case VX_DF_IMAGE_U32:
        return 3;
    default:
        return 0;
    }
}

uint8_t *put_image(uint8_t *at, const struct _vx_image *image) {
    if (image->delay != NULL)
        return put_ref(at, image->delay->base.name, image->slot);
    return put_ref(at, image->base.name, NO_SLOT);
}

vx_status create_samples(vx_context context, vx_uint32 scope, const struct described *as,
                         vx_uint32 *name) {
    uint8_t body[9], *at = body;
    if (scope != 0)
        at = put32(at, scope);
    at = put16(put16(put8(at, format_number(as->format)), as->width), as->height);
    enum op op = scope != 0 ? CREATE_VIRTUAL_IMAGE : CREATE_IMAGE;
    return create(context, op, body, (size_t)(at - body), name);
}

vx_reference create_image(vx_context context, struct _vx_image made) {
    if (made.width > GREATEST_SIDE || made.height > GREATEST_SIDE)
        return error_of(context, VX_ERROR_INVALID_DIMENSION);
    vx_image image = make(context, VX_TYPE_IMAGE, sizeof *image);
    if (image == NULL)
        return error_of(context, VX_ERROR_NO_MEMORY);
    image->width = made.width;
    image->height = made.height;
    image->format = made.format;
    image->found = (struct described){made.width, made.height, made.format};
    image->scope = made.scope;
    vx_status status = create_samples(context, made.scope, &image->found, &image->base.name);
    if (status == VX_SUCCESS)
        return REFERENCE(image);
    vx_reference failed = REFERENCE(image);
    release(&failed, VX_TYPE_IMAGE);
    return error_of(context, status);
}

PUBLIC vx_image VX_API_CALL vxCreateImage(vx_context context, vx_uint32 width, vx_uint32 height,
                                          vx_df_image color) {
    if (enter(context, VX_TYPE_CONTEXT) == NULL)
        return NULL;
    vx_reference made = error_of(context, VX_ERROR_NOT_SUPPORTED);
    if (format_number(color) != 0)
        made = create_image(context,
                            (struct _vx_image){.width = width, .height = height, .format = color});
    leave(context, VX_SUCCESS);
    return (vx_image)made;
}

PUBLIC vx_image VX_API_CALL vxCreateVirtualImage(vx_graph graph, vx_uint32 width, vx_uint32 height,
                                                 vx_df_image color) {
    vx_context context = enter(graph, VX_TYPE_GRAPH);
    if (context == NULL)
        return (vx_image)pass_error(graph);
    vx_reference made = error_of(context, VX_ERROR_NOT_SUPPORTED);
    if (format_number(color) != 0 || color == VX_DF_IMAGE_VIRT)
        made = create_image(context, (struct _vx_image){.width = width,
                                                        .height = height,
                                                        .format = color,
                                                        .scope = graph->base.name});
    leave(context, VX_SUCCESS);
    return (vx_image)made;
}

PUBLIC vx_status VX_API_CALL vxReleaseImage(vx_image *image) {
    return release(image, VX_TYPE_IMAGE);
}

static vx_status query_image(vx_image image, vx_enum attribute, void *ptr, vx_size size) {
    const vx_size planes = 1;
    const vx_enum space = VX_COLOR_SPACE_NONE, range = VX_CHANNEL_RANGE_FULL;
    const vx_enum memory = image->is_handle ? VX_MEMORY_TYPE_HOST : VX_MEMORY_TYPE_NONE;
    const vx_bool is_uniform = image->is_uniform ? vx_true_e : vx_false_e;
    switch (attribute) {
    case VX_IMAGE_WIDTH:
        return give(ptr, size, &image->found.width, sizeof image->found.width);
    case VX_IMAGE_HEIGHT:
        return give(ptr, size, &image->found.height, sizeof image->found.height);
    case VX_IMAGE_FORMAT:
        return give(ptr, size, &image->found.format, sizeof image->found.format);
    case VX_IMAGE_PLANES:
        return give(ptr, size, &planes, sizeof planes);
    case VX_IMAGE_SPACE:
        return give(ptr, size, &space, sizeof space);
    case VX_IMAGE_RANGE:
        return give(ptr, size, &range, sizeof range);
    case VX_IMAGE_MEMORY_TYPE:
        return give(ptr, size, &memory, sizeof memory);
    case VX_IMAGE_IS_UNIFORM:
        return give(ptr, size, &is_uniform, sizeof is_uniform);
    case VX_IMAGE_UNIFORM_VALUE:
        return image->is_uniform ? give(ptr, size, &image->uniform, sizeof image->uniform)
                                 : VX_ERROR_NOT_SUPPORTED;
    default:
        return VX_ERROR_NOT_SUPPORTED;
    }
}

PUBLIC vx_status VX_API_CALL vxQueryImage(vx_image image, vx_enum attribute, void *ptr,
                                          vx_size size) {
    vx_context context = look(image, VX_TYPE_IMAGE);
    if (context == NULL)
        return VX_ERROR_INVALID_REFERENCE;
    return look_away(context, query_image(image, attribute, ptr, size));
}

vx_status query_valid(vx_image image, vx_rectangle_t *rect) {
    uint8_t body[5], reply[13];
    if (image->is_widened) {
        *rect = image->valid;
        return VX_SUCCESS;
    }
    put_image(body, image);
    vx_status status =
        ask(image->base.context, QUERY_IMAGE, body, sizeof body, reply, sizeof reply);
    if (status == VX_SUCCESS)
        *rect = (vx_rectangle_t){get16(reply + 5), get16(reply + 7), get16(reply + 9),
                                 get16(reply + 11)};
    return status;
}

PUBLIC vx_status VX_API_CALL vxGetValidRegionImage(vx_image image, vx_rectangle_t *rect) {
    vx_context context = enter(image, VX_TYPE_IMAGE);
    if (context == NULL)
        return VX_ERROR_INVALID_REFERENCE;
    if (rect == NULL)
        return leave(context, VX_ERROR_INVALID_PARAMETERS);
    if (image->scope != 0)
        return leave(context, VX_ERROR_OPTIMIZED_AWAY);
    return leave(context, query_valid(image, rect));
}

static void note_computed(vx_image image) {
    image->is_computed = true;
    if (image->delay != NULL)
        image->delay->is_computed = true;
}

bool may_be_partial(const struct _vx_image *image) {
    return image->is_computed || (image->delay != NULL && image->delay->is_computed);
}

void note_outputs(const struct call *call) {
    for (unsigned place = OUT1; place <= OUT2; place++) {
        vx_reference output = call->operands[place];
        if (output != NULL && output->type == VX_TYPE_IMAGE)
            note_computed((vx_image)output);
    }
}

static vx_status set_valid(vx_image image, const vx_rectangle_t *rect) {
    uint8_t body[13];
    uint8_t *at = put16(put16(put_image(body, image), rect->start_x), rect->start_y);
    put16(put16(at, rect->end_x), rect->end_y);
    note_computed(image);
    vx_status status = ask(image->base.context, SET_VALID, body, sizeof body, NULL, 0);
    image->is_widened = image->is_widened && status != VX_SUCCESS;
    return status;
}

void widen(vx_image image, const vx_rectangle_t *valid) {
    image->is_widened = image->base.context->has_widened = true;
    image->valid = *valid;
}

vx_status narrow_images(vx_context context) {
    vx_status status = VX_SUCCESS;
    if (!context->has_widened)
        return status;
    for (vx_reference object = context->first; object != NULL; object = object->next) {
        bool is_widened = object->type == VX_TYPE_IMAGE && ((vx_image)object)->is_widened;
        if (is_widened && status == VX_SUCCESS)
            status = set_valid((vx_image)object, &((vx_image)object)->valid);
    }
    context->has_widened = status != VX_SUCCESS;
    return status;
}

/* Whether a rectangle is the empty one, or one within an image. */
static bool is_rectangle(const vx_rectangle_t *rect, const struct _vx_image *image) {
    if (rect->start_x == 0 && rect->start_y == 0 && rect->end_x == 0 && rect->end_y == 0)
        return true;
    return rect->start_x < rect->end_x && rect->start_y < rect->end_y &&
           rect->end_x <= image->width && rect->end_y <= image->height;
}

PUBLIC vx_status VX_API_CALL vxSetImageValidRectangle(vx_image image, const vx_rectangle_t *rect) {
    vx_context context = enter(image, VX_TYPE_IMAGE);
    if (context == NULL)
        return VX_ERROR_INVALID_REFERENCE;
    if (image->scope != 0)
        return leave(context, VX_ERROR_OPTIMIZED_AWAY);
    vx_rectangle_t valid = {0, 0, image->width, image->height};
    if (rect != NULL)
        valid = *rect;
    if (!is_rectangle(&valid, image))
        return leave(context, VX_ERROR_INVALID_PARAMETERS);
    return leave(context, set_valid(image, &valid));
}
