/* Scalars. They are objects of the library alone: nodes are sent with their values. */
#include "internal.h"

#include <string.h>

vx_size size_of_type(vx_enum type) {
    switch (type) {
    case VX_TYPE_CHAR:
    case VX_TYPE_INT8:
    case VX_TYPE_UINT8:
        return 1;
    case VX_TYPE_INT16:
    case VX_TYPE_UINT16:
        return 2;
    case VX_TYPE_INT32:
    case VX_TYPE_UINT32:
    case VX_TYPE_FLOAT32:
    case VX_TYPE_ENUM:
    case VX_TYPE_DF_IMAGE:
        return 4;
    case VX_TYPE_BOOL:
        return sizeof(vx_bool);
    case VX_TYPE_INT64:
    case VX_TYPE_UINT64:
    case VX_TYPE_FLOAT64:
        return 8;
    case VX_TYPE_SIZE:
        return sizeof(vx_size);
    default:
        return 0;
    }
}

static vx_reference make_scalar(vx_context context, vx_enum type, const void *ptr, vx_size size) {
    if (size_of_type(type) == 0)
        return error_of(context, VX_ERROR_INVALID_TYPE);
    if (size != size_of_type(type))
        return error_of(context, VX_ERROR_INVALID_PARAMETERS);
    vx_scalar made = make(context, VX_TYPE_SCALAR, sizeof *made);
    if (made == NULL)
        return error_of(context, VX_ERROR_NO_MEMORY);
    made->item = type;
    if (ptr != NULL)
        memcpy(&made->value, ptr, size);
    return REFERENCE(made);
}

PUBLIC vx_scalar VX_API_CALL vxCreateScalarWithSize(vx_context context, vx_enum data_type,
                                                    const void *ptr, vx_size size) {
    if (enter(context, VX_TYPE_CONTEXT) == NULL)
        return NULL;
    vx_reference made = make_scalar(context, data_type, ptr, size);
    leave(context, VX_SUCCESS);
    return (vx_scalar)made;
}

PUBLIC vx_scalar VX_API_CALL vxCreateScalar(vx_context context, vx_enum data_type,
                                            const void *ptr) {
    return vxCreateScalarWithSize(context, data_type, ptr, size_of_type(data_type));
}

PUBLIC vx_status VX_API_CALL vxReleaseScalar(vx_scalar *scalar) {
    return release(scalar, VX_TYPE_SCALAR);
}

static vx_status copy_scalar(vx_scalar scalar, void *user_ptr, vx_enum usage, vx_enum memory) {
    if (user_ptr == NULL || !is_copy(usage, memory))
        return VX_ERROR_INVALID_PARAMETERS;
    if (usage == VX_READ_ONLY)
        memcpy(user_ptr, &scalar->value, size_of_type(scalar->item));
    else
        memcpy(&scalar->value, user_ptr, size_of_type(scalar->item));
    return VX_SUCCESS;
}

PUBLIC vx_status VX_API_CALL vxCopyScalar(vx_scalar scalar, void *user_ptr, vx_enum usage,
                                          vx_enum user_mem_type) {
    vx_context context = look(scalar, VX_TYPE_SCALAR);
    if (context == NULL)
        return VX_ERROR_INVALID_REFERENCE;
    return look_away(context, copy_scalar(scalar, user_ptr, usage, user_mem_type));
}

PUBLIC vx_status VX_API_CALL vxCopyScalarWithSize(vx_scalar scalar, vx_size size, void *user_ptr,
                                                  vx_enum usage, vx_enum user_mem_type) {
    vx_context context = look(scalar, VX_TYPE_SCALAR);
    if (context == NULL)
        return VX_ERROR_INVALID_REFERENCE;
    if (size != size_of_type(scalar->item))
        return look_away(context, VX_ERROR_INVALID_PARAMETERS);
    return look_away(context, copy_scalar(scalar, user_ptr, usage, user_mem_type));
}

PUBLIC vx_status VX_API_CALL vxQueryScalar(vx_scalar scalar, vx_enum attribute, void *ptr,
                                           vx_size size) {
    vx_context context = look(scalar, VX_TYPE_SCALAR);
    if (context == NULL)
        return VX_ERROR_INVALID_REFERENCE;
    if (attribute != VX_SCALAR_TYPE)
        return look_away(context, VX_ERROR_NOT_SUPPORTED);
    return look_away(context, give(ptr, size, &scalar->item, sizeof scalar->item));
}
