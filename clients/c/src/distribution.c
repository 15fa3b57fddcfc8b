/* Distributions. Their counts are on the server. */
#include "internal.h"

#include <stdlib.h>
#include <string.h>

static vx_reference make_distribution(vx_context context, vx_size bins, vx_int32 offset,
                                      vx_uint32 range) {
    uint8_t body[6];
    if (bins > 256 || offset < 0 || offset > 255 || range > 256)
        return error_of(context, VX_ERROR_INVALID_VALUE);
    vx_distribution made = make(context, VX_TYPE_DISTRIBUTION, sizeof *made);
    if (made == NULL)
        return error_of(context, VX_ERROR_NO_MEMORY);
    made->bins = bins;
    made->offset = offset;
    made->range = range;
    put16(put16(put16(body, (unsigned)bins), (unsigned)offset), range);
    vx_status status = create(context, CREATE_DISTRIBUTION, body, sizeof body, &made->base.name);
    if (status == VX_SUCCESS)
        return REFERENCE(made);
    release(&made, VX_TYPE_DISTRIBUTION);
    return error_of(context, status);
}

PUBLIC vx_distribution VX_API_CALL vxCreateDistribution(vx_context context, vx_size numBins,
                                                        vx_int32 offset, vx_uint32 range) {
    if (enter(context, VX_TYPE_CONTEXT) == NULL)
        return NULL;
    vx_reference made = make_distribution(context, numBins, offset, range);
    leave(context, VX_SUCCESS);
    return (vx_distribution)made;
}

PUBLIC vx_status VX_API_CALL vxReleaseDistribution(vx_distribution *distribution) {
    return release(distribution, VX_TYPE_DISTRIBUTION);
}

static vx_status read_counts(vx_distribution distribution, void *counts) {
    uint8_t body[4], reply[2 + 4 * 256];
    put32(body, distribution->base.name);
    vx_status status = ask(distribution->base.context, READ_DISTRIBUTION, body, sizeof body, reply,
                           2 + 4 * distribution->bins);
    for (vx_size bin = 0; status == VX_SUCCESS && bin < distribution->bins; bin++) {
        vx_uint32 count = get32(reply + 2 + 4 * bin);
        memcpy((uint8_t *)counts + bin * sizeof count, &count, sizeof count);
    }
    return status;
}

PUBLIC vx_status VX_API_CALL vxCopyDistribution(vx_distribution distribution, void *user_ptr,
                                                vx_enum usage, vx_enum user_mem_type) {
    vx_context context = enter(distribution, VX_TYPE_DISTRIBUTION);
    if (context == NULL)
        return VX_ERROR_INVALID_REFERENCE;
    if (user_ptr == NULL || !is_copy(usage, user_mem_type))
        return leave(context, VX_ERROR_INVALID_PARAMETERS);
    if (usage == VX_WRITE_ONLY)
        return leave(context, VX_ERROR_NOT_SUPPORTED);
    return leave(context, read_counts(distribution, user_ptr));
}

/* Maps a copy of the counts. */
static vx_status map_counts(vx_distribution distribution, vx_map_id *map_id, void **ptr) {
    vx_uint32 *counts = calloc(distribution->bins, sizeof *counts);
    vx_status status = counts == NULL ? VX_ERROR_NO_MEMORY : read_counts(distribution, counts);
    if (status == VX_SUCCESS)
        status = add_view(&distribution->views, VX_READ_ONLY, counts, map_id);
    if (status == VX_SUCCESS)
        *ptr = counts;
    else
        free(counts);
    return status;
}

PUBLIC vx_status VX_API_CALL vxMapDistribution(vx_distribution distribution, vx_map_id *map_id,
                                               void **ptr, vx_enum usage, vx_enum mem_type,
                                               vx_bitfield flags) {
    (void)flags;
    vx_context context = enter(distribution, VX_TYPE_DISTRIBUTION);
    if (context == NULL)
        return VX_ERROR_INVALID_REFERENCE;
    if (map_id == NULL || ptr == NULL || !is_map(usage, mem_type))
        return leave(context, VX_ERROR_INVALID_PARAMETERS);
    if (usage != VX_READ_ONLY)
        return leave(context, VX_ERROR_NOT_SUPPORTED);
    return leave(context, map_counts(distribution, map_id, ptr));
}

PUBLIC vx_status VX_API_CALL vxUnmapDistribution(vx_distribution distribution, vx_map_id map_id) {
    vx_enum usage;
    vx_context context = enter(distribution, VX_TYPE_DISTRIBUTION);
    if (context == NULL)
        return VX_ERROR_INVALID_REFERENCE;
    return leave(context, drop_view(&distribution->views, map_id, &usage));
}

PUBLIC vx_status VX_API_CALL vxQueryDistribution(vx_distribution distribution, vx_enum attribute,
                                                 void *ptr, vx_size size) {
    const vx_size dimensions = 1;
    vx_context context = look(distribution, VX_TYPE_DISTRIBUTION);
    if (context == NULL)
        return VX_ERROR_INVALID_REFERENCE;
    const vx_size length = distribution->bins * sizeof(vx_uint32);
    const vx_uint32 range = distribution->range, bins = (vx_uint32)distribution->bins;
    /* The standard wants 0 where the bins aren't of equal size. */
    const vx_uint32 window = bins > 0 && range % bins == 0 ? range / bins : 0;
    vx_status status = VX_ERROR_NOT_SUPPORTED;
    if (attribute == VX_DISTRIBUTION_DIMENSIONS)
        status = give(ptr, size, &dimensions, sizeof dimensions);
    if (attribute == VX_DISTRIBUTION_OFFSET)
        status = give(ptr, size, &distribution->offset, sizeof distribution->offset);
    if (attribute == VX_DISTRIBUTION_RANGE)
        status = give(ptr, size, &range, sizeof range);
    if (attribute == VX_DISTRIBUTION_BINS)
        status = give(ptr, size, &distribution->bins, sizeof distribution->bins);
    if (attribute == VX_DISTRIBUTION_WINDOW)
        status = give(ptr, size, &window, sizeof window);
    if (attribute == VX_DISTRIBUTION_SIZE)
        status = give(ptr, size, &length, sizeof length);
    return look_away(context, status);
}
