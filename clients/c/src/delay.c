/* Delays of images. A reference to a slot is an image of the library alone. It is sent as the
   slot's number, so it always means the image that is there when it is used. */
#include "internal.h"

#include <stdlib.h>

enum { GREATEST_SLOTS = 16 };

static vx_reference make_delay(vx_context context, vx_image exemplar, vx_size slots) {
    uint8_t body[6];
    if (exemplar->scope != 0)
        return error_of(context, VX_ERROR_OPTIMIZED_AWAY);
    if (slots == 0 || slots > GREATEST_SLOTS)
        return error_of(context, VX_ERROR_INVALID_VALUE);
    vx_delay made = make(context, VX_TYPE_DELAY, sizeof *made);
    if (made == NULL)
        return error_of(context, VX_ERROR_NO_MEMORY);
    made->width = exemplar->width;
    made->height = exemplar->height;
    made->format = exemplar->format;
    put8(put_image(body, exemplar), (unsigned)slots);
    vx_status status = create(context, CREATE_DELAY, body, sizeof body, &made->base.name);
    if (status == VX_SUCCESS) {
        made->slots = slots;
        return REFERENCE(made);
    }
    release(&made, VX_TYPE_DELAY);
    return error_of(context, status);
}

PUBLIC vx_delay VX_API_CALL vxCreateDelay(vx_context context, vx_reference exemplar,
                                          vx_size num_slots) {
    if (enter(context, VX_TYPE_CONTEXT) == NULL)
        return NULL;
    vx_status status = check(context, exemplar, VX_TYPE_REFERENCE);
    if (status == VX_SUCCESS && exemplar->type != VX_TYPE_IMAGE)
        status = VX_ERROR_NOT_SUPPORTED;
    vx_reference made = status == VX_SUCCESS ? make_delay(context, (vx_image)exemplar, num_slots)
                                             : error_of(context, status);
    leave(context, VX_SUCCESS);
    return (vx_delay)made;
}

PUBLIC vx_status VX_API_CALL vxReleaseDelay(vx_delay *delay) {
    return release(delay, VX_TYPE_DELAY);
}

/* The image of a slot, made for the first reference to it; NULL where there is no memory. Only its
   delay holds it. */
static vx_image slot_of(vx_delay delay, vx_size number) {
    vx_image image = delay->images[number];
    if (image != NULL)
        return image;
    image = make(delay->base.context, VX_TYPE_IMAGE, sizeof *image);
    if (image == NULL)
        return NULL;
    image->base.count = 0;
    image->width = delay->width;
    image->height = delay->height;
    image->format = delay->format;
    image->found = (struct described){delay->width, delay->height, delay->format};
    image->delay = delay;
    image->slot = (uint8_t)number;
    delay->images[number] = image;
    return image;
}

PUBLIC vx_reference VX_API_CALL vxGetReferenceFromDelay(vx_delay delay, vx_int32 index) {
    vx_context context = enter(delay, VX_TYPE_DELAY);
    if (context == NULL)
        return pass_error(delay);
    vx_reference slot = error_of(context, VX_ERROR_INVALID_PARAMETERS);
    if (index <= 0 && index > -(vx_int32)delay->slots) {
        vx_image image = slot_of(delay, (vx_size)-index);
        slot = image != NULL ? REFERENCE(image) : error_of(context, VX_ERROR_NO_MEMORY);
    }
    leave(context, VX_SUCCESS);
    return slot;
}

PUBLIC vx_status VX_API_CALL vxAgeDelay(vx_delay delay) {
    vx_context context = enter(delay, VX_TYPE_DELAY);
    if (context == NULL)
        return VX_ERROR_INVALID_REFERENCE;
    vx_status status = narrow_images(context);
    if (status == VX_SUCCESS)
        status = ask_named(context, AGE_DELAY, delay->base.name);
    return leave(context, status);
}

static vx_status register_delay(vx_context context, vx_uint32 graph, vx_uint32 delay) {
    uint8_t body[8];
    put32(put32(body, graph), delay);
    return ask(context, REGISTER_AUTO_AGING, body, sizeof body, NULL, 0);
}

/* Whether the server still has a delay: a node may use one that the program released. */
static bool has_delay(vx_context context, vx_uint32 name) {
    vx_reference object = context->first;
    while (object != NULL && (object->type != VX_TYPE_DELAY || object->name != name))
        object = object->next;
    return object != NULL;
}

vx_status register_delays(vx_graph graph, vx_uint32 part) {
    vx_context context = graph->base.context;
    vx_status status = VX_SUCCESS;
    for (vx_size i = 0; status == VX_SUCCESS && i < graph->delay_count; i++)
        if (has_delay(context, graph->delays[i]))
            status = register_delay(context, part, graph->delays[i]);
    return status;
}

/* The index of a delay's name in a graph's list: its own, that of a dropped delay, or a new one. */
static vx_size place_of(const struct _vx_graph *graph, vx_uint32 delay) {
    vx_size i = 0;
    while (i < graph->delay_count && graph->delays[i] != delay &&
           has_delay(graph->base.context, graph->delays[i]))
        i++;
    return i;
}

/* Registers a delay with a graph, and if that has parts with the last one, which ages it. */
static vx_status register_with(vx_graph graph, vx_uint32 delay) {
    vx_size place = place_of(graph, delay);
    if (place == graph->delay_count) {
        vx_uint32 *grown = realloc(graph->delays, (place + 1) * sizeof *grown);
        if (grown == NULL)
            return VX_ERROR_NO_MEMORY;
        graph->delays = grown;
    }
    vx_status status = register_delay(graph->base.context, graph->base.name, delay);
    if (status == VX_SUCCESS && graph->parts.count > 0)
        status = register_delay(graph->base.context, last_name(graph), delay);
    if (status != VX_SUCCESS)
        return status;
    graph->delays[place] = delay;
    graph->delay_count += place == graph->delay_count ? 1 : 0;
    return VX_SUCCESS;
}

PUBLIC vx_status VX_API_CALL vxRegisterAutoAging(vx_graph graph, vx_delay delay) {
    vx_context context = enter(graph, VX_TYPE_GRAPH);
    if (context == NULL)
        return VX_ERROR_INVALID_REFERENCE;
    vx_status status = check(context, delay, VX_TYPE_DELAY);
    if (status == VX_SUCCESS)
        status = register_with(graph, delay->base.name);
    return leave(context, status);
}

PUBLIC vx_status VX_API_CALL vxQueryDelay(vx_delay delay, vx_enum attribute, void *ptr,
                                          vx_size size) {
    const vx_enum item = VX_TYPE_IMAGE;
    vx_context context = look(delay, VX_TYPE_DELAY);
    if (context == NULL)
        return VX_ERROR_INVALID_REFERENCE;
    if (attribute == VX_DELAY_TYPE)
        return look_away(context, give(ptr, size, &item, sizeof item));
    if (attribute == VX_DELAY_SLOTS)
        return look_away(context, give(ptr, size, &delay->slots, sizeof delay->slots));
    return look_away(context, VX_ERROR_NOT_SUPPORTED);
}
