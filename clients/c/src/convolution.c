/* Convolutions. The program may change them, so one is sent to the server when it is used. */
#include "internal.h"

#include <string.h>

static bool is_side(vx_size side) { return side == 3 || side == 5 || side == 7 || side == 9; }

PUBLIC vx_convolution VX_API_CALL vxCreateConvolution(vx_context context, vx_size columns,
                                                      vx_size rows) {
    if (enter(context, VX_TYPE_CONTEXT) == NULL)
        return NULL;
    vx_status status = VX_ERROR_INVALID_DIMENSION;
    vx_convolution made = NULL;
    if (is_side(columns) && is_side(rows)) {
        made = make(context, VX_TYPE_CONVOLUTION, sizeof *made);
        status = VX_ERROR_NO_MEMORY;
    }
    if (made != NULL) {
        made->columns = columns;
        made->rows = rows;
    }
    leave(context, status);
    return made != NULL ? made : (vx_convolution)error_of(context, status);
}

PUBLIC vx_status VX_API_CALL vxReleaseConvolution(vx_convolution *conv) {
    return release(conv, VX_TYPE_CONVOLUTION);
}

static vx_size length_of(const struct _vx_convolution *conv) {
    return conv->columns * conv->rows * sizeof *conv->coefficients;
}

PUBLIC vx_status VX_API_CALL vxCopyConvolutionCoefficients(vx_convolution conv, void *user_ptr,
                                                           vx_enum usage, vx_enum user_mem_type) {
    vx_context context = enter(conv, VX_TYPE_CONVOLUTION);
    if (context == NULL)
        return VX_ERROR_INVALID_REFERENCE;
    if (user_ptr == NULL || !is_copy(usage, user_mem_type))
        return leave(context, VX_ERROR_INVALID_PARAMETERS);
    if (usage == VX_READ_ONLY) {
        memcpy(user_ptr, conv->coefficients, length_of(conv));
    } else {
        memcpy(conv->coefficients, user_ptr, length_of(conv));
        forget_parameter(&conv->base);
    }
    return leave(context, VX_SUCCESS);
}

PUBLIC vx_status VX_API_CALL vxSetConvolutionAttribute(vx_convolution conv, vx_enum attribute,
                                                       const void *ptr, vx_size size) {
    vx_uint32 scale;
    vx_context context = enter(conv, VX_TYPE_CONVOLUTION);
    if (context == NULL)
        return VX_ERROR_INVALID_REFERENCE;
    if (attribute != VX_CONVOLUTION_SCALE)
        return leave(context, VX_ERROR_NOT_SUPPORTED);
    if (ptr == NULL || size != sizeof scale)
        return leave(context, VX_ERROR_INVALID_PARAMETERS);
    memcpy(&scale, ptr, sizeof scale);
    if (scale == 0 || (scale & (scale - 1)) != 0)
        return leave(context, VX_ERROR_INVALID_VALUE);
    conv->exponent = 0;
    while (scale >> conv->exponent != 1)
        conv->exponent++;
    forget_parameter(&conv->base);
    return leave(context, VX_SUCCESS);
}

PUBLIC vx_status VX_API_CALL vxQueryConvolution(vx_convolution conv, vx_enum attribute, void *ptr,
                                                vx_size size) {
    vx_context context = look(conv, VX_TYPE_CONVOLUTION);
    if (context == NULL)
        return VX_ERROR_INVALID_REFERENCE;
    const vx_size length = length_of(conv);
    const vx_uint32 scale = (vx_uint32)1 << conv->exponent;
    switch (attribute) {
    case VX_CONVOLUTION_ROWS:
        return look_away(context, give(ptr, size, &conv->rows, sizeof conv->rows));
    case VX_CONVOLUTION_COLUMNS:
        return look_away(context, give(ptr, size, &conv->columns, sizeof conv->columns));
    case VX_CONVOLUTION_SCALE:
        return look_away(context, give(ptr, size, &scale, sizeof scale));
    case VX_CONVOLUTION_SIZE:
        return look_away(context, give(ptr, size, &length, sizeof length));
    default:
        return look_away(context, VX_ERROR_NOT_SUPPORTED);
    }
}

vx_status send_convolution(vx_convolution convolution) {
    uint8_t body[3 + sizeof convolution->coefficients], *at = body;
    if (convolution->base.name != 0)
        return VX_SUCCESS;
    at = put8(put8(at, (unsigned)convolution->columns), (unsigned)convolution->rows);
    at = put8(at, convolution->exponent);
    for (vx_size i = 0; i < convolution->columns * convolution->rows; i++)
        at = put16(at, (vx_uint16)convolution->coefficients[i]);
    return create(convolution->base.context, CREATE_CONVOLUTION, body, (size_t)(at - body),
                  &convolution->base.name);
}
