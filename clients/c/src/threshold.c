/* Thresholds. The program may change them, so one is sent to the server when it is used. */
#include "internal.h"

void forget_parameter(vx_reference parameter) {
    forget(parameter->context, parameter->name);
    parameter->name = 0;
}

PUBLIC vx_threshold VX_API_CALL vxCreateThresholdForImage(vx_context context, vx_enum thresh_type,
                                                          vx_df_image input_format,
                                                          vx_df_image output_format) {
    vx_status status = VX_SUCCESS;
    if (enter(context, VX_TYPE_CONTEXT) == NULL)
        return NULL;
    if (thresh_type != VX_THRESHOLD_TYPE_BINARY && thresh_type != VX_THRESHOLD_TYPE_RANGE)
        status = VX_ERROR_INVALID_TYPE;
    else if ((input_format != VX_DF_IMAGE_U8 && input_format != VX_DF_IMAGE_S16) ||
             output_format != VX_DF_IMAGE_U8)
        status = VX_ERROR_NOT_SUPPORTED;
    vx_threshold made = NULL;
    if (status == VX_SUCCESS) {
        made = make(context, VX_TYPE_THRESHOLD, sizeof *made);
        status = made == NULL ? VX_ERROR_NO_MEMORY : VX_SUCCESS;
    }
    if (made != NULL) {
        made->kind = thresh_type;
        made->format = input_format;
        made->on = 255;
    }
    leave(context, status);
    return made != NULL ? made : (vx_threshold)error_of(context, status);
}

PUBLIC vx_status VX_API_CALL vxReleaseThreshold(vx_threshold *thresh) {
    return release(thresh, VX_TYPE_THRESHOLD);
}

static vx_int32 limit_of(const struct _vx_threshold *threshold, const vx_pixel_value_t *value) {
    return threshold->format == VX_DF_IMAGE_U8 ? value->U8 : value->S16;
}

static void give_limit(const struct _vx_threshold *threshold, vx_int32 limit,
                       vx_pixel_value_t *value) {
    if (threshold->format == VX_DF_IMAGE_U8)
        value->U8 = (vx_uint8)limit;
    else
        value->S16 = (vx_int16)limit;
}

/* Checks a copy of two values: limits of a kind of threshold, or outputs for a kind of 0. */
static vx_status check_copy(vx_threshold threshold, vx_enum kind, const void *first,
                            const void *second, vx_enum usage, vx_enum memory) {
    if (first == NULL || second == NULL || !is_copy(usage, memory))
        return VX_ERROR_INVALID_PARAMETERS;
    return kind == 0 || kind == threshold->kind ? VX_SUCCESS : VX_ERROR_NOT_COMPATIBLE;
}

/* Copies the limits of a kind of threshold. The two places may be the same. */
static vx_status copy_limits(vx_threshold threshold, vx_enum kind, vx_pixel_value_t *lower,
                             vx_pixel_value_t *upper, vx_enum usage, vx_enum memory) {
    vx_context context = enter(threshold, VX_TYPE_THRESHOLD);
    if (context == NULL)
        return VX_ERROR_INVALID_REFERENCE;
    vx_status status = check_copy(threshold, kind, lower, upper, usage, memory);
    if (status == VX_SUCCESS && usage == VX_READ_ONLY) {
        give_limit(threshold, threshold->upper, upper);
        give_limit(threshold, threshold->lower, lower);
    } else if (status == VX_SUCCESS) {
        threshold->lower = limit_of(threshold, lower);
        threshold->upper = limit_of(threshold, upper);
        forget_parameter(&threshold->base);
    }
    return leave(context, status);
}

PUBLIC vx_status VX_API_CALL vxCopyThresholdValue(vx_threshold thresh, vx_pixel_value_t *value_ptr,
                                                  vx_enum usage, vx_enum user_mem_type) {
    return copy_limits(thresh, VX_THRESHOLD_TYPE_BINARY, value_ptr, value_ptr, usage,
                       user_mem_type);
}

PUBLIC vx_status VX_API_CALL vxCopyThresholdRange(vx_threshold thresh,
                                                  vx_pixel_value_t *lower_value_ptr,
                                                  vx_pixel_value_t *upper_value_ptr, vx_enum usage,
                                                  vx_enum user_mem_type) {
    return copy_limits(thresh, VX_THRESHOLD_TYPE_RANGE, lower_value_ptr, upper_value_ptr, usage,
                       user_mem_type);
}

PUBLIC vx_status VX_API_CALL vxCopyThresholdOutput(vx_threshold thresh,
                                                   vx_pixel_value_t *true_value_ptr,
                                                   vx_pixel_value_t *false_value_ptr,
                                                   vx_enum usage, vx_enum user_mem_type) {
    vx_context context = enter(thresh, VX_TYPE_THRESHOLD);
    if (context == NULL)
        return VX_ERROR_INVALID_REFERENCE;
    vx_status status = check_copy(thresh, 0, true_value_ptr, false_value_ptr, usage, user_mem_type);
    if (status == VX_SUCCESS && usage == VX_READ_ONLY) {
        true_value_ptr->U8 = thresh->on;
        false_value_ptr->U8 = thresh->off;
    } else if (status == VX_SUCCESS) {
        thresh->on = true_value_ptr->U8;
        thresh->off = false_value_ptr->U8;
        forget_parameter(&thresh->base);
    }
    return leave(context, status);
}

PUBLIC vx_status VX_API_CALL vxQueryThreshold(vx_threshold thresh, vx_enum attribute, void *ptr,
                                              vx_size size) {
    const vx_df_image output = VX_DF_IMAGE_U8;
    vx_context context = look(thresh, VX_TYPE_THRESHOLD);
    if (context == NULL)
        return VX_ERROR_INVALID_REFERENCE;
    vx_status status = VX_ERROR_NOT_SUPPORTED;
    if (attribute == VX_THRESHOLD_TYPE)
        status = give(ptr, size, &thresh->kind, sizeof thresh->kind);
    if (attribute == VX_THRESHOLD_INPUT_FORMAT)
        status = give(ptr, size, &thresh->format, sizeof thresh->format);
    if (attribute == VX_THRESHOLD_OUTPUT_FORMAT)
        status = give(ptr, size, &output, sizeof output);
    return look_away(context, status);
}

vx_status send_threshold(vx_threshold threshold) {
    uint8_t body[8], *at = body;
    if (threshold->base.name != 0)
        return VX_SUCCESS;
    bool is_range = threshold->kind == VX_THRESHOLD_TYPE_RANGE;
    at = put8(put8(at, is_range), format_number(threshold->format));
    at = put16(at, (vx_uint32)threshold->lower & 0xFFFF);
    if (is_range)
        at = put16(at, (vx_uint32)threshold->upper & 0xFFFF);
    at = put8(put8(at, threshold->on), threshold->off);
    return create(threshold->base.context, CREATE_THRESHOLD, body, (size_t)(at - body),
                  &threshold->base.name);
}
