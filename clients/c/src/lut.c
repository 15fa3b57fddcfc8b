/* Lookup tables. The program may change them, so one is sent to the server when it is used. */
#include "internal.h"

#include <stdlib.h>
#include <string.h>

static vx_size entry_size(vx_enum item) { return item == VX_TYPE_UINT8 ? 1 : 2; }

/* The number of entries of a full table. */
static vx_size whole_count(vx_enum item) { return item == VX_TYPE_UINT8 ? 256 : 65536; }

static vx_reference make_lut(vx_context context, vx_enum item, vx_size count) {
    if (item != VX_TYPE_UINT8 && item != VX_TYPE_INT16)
        return error_of(context, VX_ERROR_INVALID_TYPE);
    if (count == 0 || count > whole_count(item))
        return error_of(context, VX_ERROR_INVALID_PARAMETERS);
    void *entries = calloc(count, entry_size(item));
    vx_lut made = entries == NULL ? NULL : make(context, VX_TYPE_LUT, sizeof *made);
    if (made == NULL) {
        free(entries);
        return error_of(context, VX_ERROR_NO_MEMORY);
    }
    made->item = item;
    made->count = count;
    made->entries = entries;
    return REFERENCE(made);
}

PUBLIC vx_lut VX_API_CALL vxCreateLUT(vx_context context, vx_enum data_type, vx_size count) {
    if (enter(context, VX_TYPE_CONTEXT) == NULL)
        return NULL;
    vx_reference made = make_lut(context, data_type, count);
    leave(context, VX_SUCCESS);
    return (vx_lut)made;
}

PUBLIC vx_status VX_API_CALL vxReleaseLUT(vx_lut *lut) { return release(lut, VX_TYPE_LUT); }

PUBLIC vx_status VX_API_CALL vxCopyLUT(vx_lut lut, void *user_ptr, vx_enum usage,
                                       vx_enum user_mem_type) {
    vx_context context = enter(lut, VX_TYPE_LUT);
    if (context == NULL)
        return VX_ERROR_INVALID_REFERENCE;
    if (user_ptr == NULL || !is_copy(usage, user_mem_type))
        return leave(context, VX_ERROR_INVALID_PARAMETERS);
    vx_size length = lut->count * entry_size(lut->item);
    if (usage == VX_READ_ONLY) {
        memcpy(user_ptr, lut->entries, length);
    } else {
        memcpy(lut->entries, user_ptr, length);
        forget_parameter(&lut->base);
    }
    return leave(context, VX_SUCCESS);
}

PUBLIC vx_status VX_API_CALL vxQueryLUT(vx_lut lut, vx_enum attribute, void *ptr, vx_size size) {
    vx_context context = look(lut, VX_TYPE_LUT);
    if (context == NULL)
        return VX_ERROR_INVALID_REFERENCE;
    const vx_size length = lut->count * entry_size(lut->item);
    const vx_uint32 offset = lut->item == VX_TYPE_INT16 ? (vx_uint32)(lut->count / 2) : 0;
    switch (attribute) {
    case VX_LUT_TYPE:
        return look_away(context, give(ptr, size, &lut->item, sizeof lut->item));
    case VX_LUT_COUNT:
        return look_away(context, give(ptr, size, &lut->count, sizeof lut->count));
    case VX_LUT_SIZE:
        return look_away(context, give(ptr, size, &length, sizeof length));
    case VX_LUT_OFFSET:
        return look_away(context, give(ptr, size, &offset, sizeof offset));
    default:
        return look_away(context, VX_ERROR_NOT_SUPPORTED);
    }
}

/* Writes a full table, the entry of the least sample first. A sample without an entry gets the
   nearest one. */
static void put_entries(uint8_t *at, const struct _vx_lut *lut) {
    vx_size whole = whole_count(lut->item);
    vx_size skipped = lut->item == VX_TYPE_INT16 ? whole / 2 - lut->count / 2 : 0;
    for (vx_size i = 0; i < whole; i++) {
        vx_size entry = i < skipped ? 0 : i - skipped;
        entry = entry < lut->count ? entry : lut->count - 1;
        if (lut->item == VX_TYPE_UINT8)
            at = put8(at, ((vx_uint8 *)lut->entries)[entry]);
        else
            at = put16(at, (vx_uint16)((vx_int16 *)lut->entries)[entry]);
    }
}

vx_status send_lut(vx_lut lut) {
    if (lut->base.name != 0)
        return VX_SUCCESS;
    vx_size length = 1 + whole_count(lut->item) * entry_size(lut->item);
    uint8_t *body = malloc(length);
    if (body == NULL)
        return VX_ERROR_NO_MEMORY;
    put_entries(put8(body, lut->item == VX_TYPE_UINT8 ? 1 : 2), lut);
    vx_status status = create(lut->base.context, CREATE_LUT, body, length, &lut->base.name);
    free(body);
    return status;
}

PUBLIC vx_status VX_API_CALL vxMapLUT(vx_lut lut, vx_map_id *map_id, void **ptr, vx_enum usage,
                                      vx_enum mem_type, vx_bitfield flags) {
    (void)flags;
    vx_context context = enter(lut, VX_TYPE_LUT);
    if (context == NULL)
        return VX_ERROR_INVALID_REFERENCE;
    if (map_id == NULL || ptr == NULL || !is_map(usage, mem_type))
        return leave(context, VX_ERROR_INVALID_PARAMETERS);
    vx_status status = add_view(&lut->views, usage, NULL, map_id);
    if (status == VX_SUCCESS)
        *ptr = lut->entries;
    return leave(context, status);
}

PUBLIC vx_status VX_API_CALL vxUnmapLUT(vx_lut lut, vx_map_id map_id) {
    vx_enum usage;
    vx_context context = enter(lut, VX_TYPE_LUT);
    if (context == NULL)
        return VX_ERROR_INVALID_REFERENCE;
    vx_status status = drop_view(&lut->views, map_id, &usage);
    if (status == VX_SUCCESS && usage != VX_READ_ONLY)
        forget_parameter(&lut->base);
    return leave(context, status);
}
