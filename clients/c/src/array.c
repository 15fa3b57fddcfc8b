/* Arrays. They are objects of the library alone: MinMaxLoc's places are read into them. */
#include "internal.h"

#include <stdlib.h>
#include <string.h>

enum { GREATEST_BYTES = 1 << 28 };

static vx_size size_of_item(vx_enum type) {
    switch (type) {
    case VX_TYPE_RECTANGLE:
        return sizeof(vx_rectangle_t);
    case VX_TYPE_KEYPOINT:
        return sizeof(vx_keypoint_t);
    case VX_TYPE_COORDINATES2D:
        return sizeof(vx_coordinates2d_t);
    case VX_TYPE_COORDINATES2DF:
        return sizeof(vx_coordinates2df_t);
    case VX_TYPE_COORDINATES3D:
        return sizeof(vx_coordinates3d_t);
    default:
        return size_of_type(type);
    }
}

static vx_reference make_array(vx_context context, vx_enum item, vx_size capacity) {
    vx_size size = size_of_item(item);
    if (size == 0)
        return error_of(context, VX_ERROR_NOT_SUPPORTED);
    if (capacity == 0 || capacity > GREATEST_BYTES / size)
        return error_of(context, VX_ERROR_INVALID_PARAMETERS);
    void *items = calloc(capacity, size);
    vx_array made = items == NULL ? NULL : make(context, VX_TYPE_ARRAY, sizeof *made);
    if (made == NULL) {
        free(items);
        return error_of(context, VX_ERROR_NO_MEMORY);
    }
    made->item = item;
    made->size = size;
    made->capacity = capacity;
    made->items = items;
    return REFERENCE(made);
}

PUBLIC vx_array VX_API_CALL vxCreateArray(vx_context context, vx_enum item_type,
                                          vx_size capacity) {
    if (enter(context, VX_TYPE_CONTEXT) == NULL)
        return NULL;
    vx_reference made = make_array(context, item_type, capacity);
    leave(context, VX_SUCCESS);
    return (vx_array)made;
}

PUBLIC vx_status VX_API_CALL vxReleaseArray(vx_array *array) {
    return release(array, VX_TYPE_ARRAY);
}

/* Whether a range isn't empty and has only items that are there. */
static bool is_range(const struct _vx_array *array, vx_size start, vx_size end) {
    return start < end && end <= array->count;
}

/* Copies items between two places of memory, each with its own stride. */
static void copy_items(void *to, vx_size to_stride, const void *from, vx_size from_stride,
                       vx_size count, vx_size size) {
    for (vx_size i = 0; i < count; i++)
        memcpy((uint8_t *)to + i * to_stride, (const uint8_t *)from + i * from_stride, size);
}

PUBLIC vx_status VX_API_CALL vxAddArrayItems(vx_array array, vx_size count, const void *ptr,
                                             vx_size stride) {
    vx_context context = enter(array, VX_TYPE_ARRAY);
    if (context == NULL)
        return VX_ERROR_INVALID_REFERENCE;
    if (count == 0 || ptr == NULL || stride < array->size)
        return leave(context, VX_ERROR_INVALID_PARAMETERS);
    if (count > array->capacity - array->count)
        return leave(context, VX_FAILURE);
    copy_items(array->items + array->count * array->size, array->size, ptr, stride, count,
               array->size);
    array->count += count;
    return leave(context, VX_SUCCESS);
}

PUBLIC vx_status VX_API_CALL vxCopyArrayRange(vx_array array, vx_size range_start,
                                              vx_size range_end, vx_size user_stride,
                                              void *user_ptr, vx_enum usage,
                                              vx_enum user_mem_type) {
    vx_context context = enter(array, VX_TYPE_ARRAY);
    if (context == NULL)
        return VX_ERROR_INVALID_REFERENCE;
    if (user_ptr == NULL || !is_copy(usage, user_mem_type) ||
        !is_range(array, range_start, range_end) || user_stride < array->size)
        return leave(context, VX_ERROR_INVALID_PARAMETERS);
    uint8_t *items = array->items + range_start * array->size;
    vx_size count = range_end - range_start;
    if (usage == VX_READ_ONLY)
        copy_items(user_ptr, user_stride, items, array->size, count, array->size);
    else
        copy_items(items, array->size, user_ptr, user_stride, count, array->size);
    return leave(context, VX_SUCCESS);
}

PUBLIC vx_status VX_API_CALL vxMapArrayRange(vx_array array, vx_size range_start,
                                             vx_size range_end, vx_map_id *map_id, vx_size *stride,
                                             void **ptr, vx_enum usage, vx_enum mem_type,
                                             vx_uint32 flags) {
    (void)flags;
    vx_context context = enter(array, VX_TYPE_ARRAY);
    if (context == NULL)
        return VX_ERROR_INVALID_REFERENCE;
    if (map_id == NULL || stride == NULL || ptr == NULL || !is_map(usage, mem_type) ||
        !is_range(array, range_start, range_end))
        return leave(context, VX_ERROR_INVALID_PARAMETERS);
    vx_status status = add_view(&array->views, usage, NULL, map_id);
    if (status == VX_SUCCESS) {
        *stride = array->size;
        *ptr = array->items + range_start * array->size;
    }
    return leave(context, status);
}

PUBLIC vx_status VX_API_CALL vxUnmapArrayRange(vx_array array, vx_map_id map_id) {
    vx_enum usage;
    vx_context context = enter(array, VX_TYPE_ARRAY);
    if (context == NULL)
        return VX_ERROR_INVALID_REFERENCE;
    return leave(context, drop_view(&array->views, map_id, &usage));
}

PUBLIC vx_status VX_API_CALL vxTruncateArray(vx_array array, vx_size new_num_items) {
    vx_context context = enter(array, VX_TYPE_ARRAY);
    if (context == NULL)
        return VX_ERROR_INVALID_REFERENCE;
    if (new_num_items > array->count)
        return leave(context, VX_ERROR_INVALID_PARAMETERS);
    array->count = new_num_items;
    return leave(context, VX_SUCCESS);
}

PUBLIC vx_status VX_API_CALL vxQueryArray(vx_array array, vx_enum attribute, void *ptr,
                                          vx_size size) {
    vx_context context = look(array, VX_TYPE_ARRAY);
    if (context == NULL)
        return VX_ERROR_INVALID_REFERENCE;
    switch (attribute) {
    case VX_ARRAY_ITEMTYPE:
        return look_away(context, give(ptr, size, &array->item, sizeof array->item));
    case VX_ARRAY_NUMITEMS:
        return look_away(context, give(ptr, size, &array->count, sizeof array->count));
    case VX_ARRAY_CAPACITY:
        return look_away(context, give(ptr, size, &array->capacity, sizeof array->capacity));
    case VX_ARRAY_ITEMSIZE:
        return look_away(context, give(ptr, size, &array->size, sizeof array->size));
    default:
        return look_away(context, VX_ERROR_NOT_SUPPORTED);
    }
}
