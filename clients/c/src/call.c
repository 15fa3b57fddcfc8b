/* Calls of functions: checks of their parameters, and their bytes in a frame. */
#include "internal.h"

#include <stdarg.h>
#include <string.h>

/* The name of the graph in which a call's virtual images have to be; 0 for none. */
static vx_uint32 scope_of(vx_reference about) {
    if (about->type == VX_TYPE_NODE)
        return ((vx_node)about)->graph->base.name;
    return about->type == VX_TYPE_GRAPH ? about->name : 0;
}

/* Adds a log entry about a refused call, by its node or function. Returns the status. */
static vx_status refuse(vx_reference about, const struct call *call, vx_status status,
                        const char *words, ...) {
    char said[VX_MAX_LOG_MESSAGE_LEN / 2], what[VX_MAX_LOG_MESSAGE_LEN / 4];
    const struct definition *definition = definition_of(call->function);
    va_list list;
    va_start(list, words);
    vsnprintf(said, sizeof said, words, list);
    va_end(list);
    if (about->type == VX_TYPE_NODE)
        describe_node((vx_node)about, what, sizeof what);
    else
        snprintf(what, sizeof what, "%s", about->type == VX_TYPE_GRAPH
                                              ? definition->node_name
                                              : definition->immediate_name);
    tell(about, status, "%s: %s", what, said);
    return status;
}

/* The standard's name of a type that scalars or the items of arrays may have. */
static const char *name_of_type(vx_enum type) {
#define NAME_OF(type)                                                                              \
    case type:                                                                                     \
        return #type;
    switch (type) {
        NAME_OF(VX_TYPE_CHAR)
        NAME_OF(VX_TYPE_INT8)
        NAME_OF(VX_TYPE_UINT8)
        NAME_OF(VX_TYPE_INT16)
        NAME_OF(VX_TYPE_UINT16)
        NAME_OF(VX_TYPE_INT32)
        NAME_OF(VX_TYPE_UINT32)
        NAME_OF(VX_TYPE_INT64)
        NAME_OF(VX_TYPE_UINT64)
        NAME_OF(VX_TYPE_FLOAT32)
        NAME_OF(VX_TYPE_FLOAT64)
        NAME_OF(VX_TYPE_ENUM)
        NAME_OF(VX_TYPE_SIZE)
        NAME_OF(VX_TYPE_BOOL)
        NAME_OF(VX_TYPE_DF_IMAGE)
        NAME_OF(VX_TYPE_RECTANGLE)
        NAME_OF(VX_TYPE_KEYPOINT)
        NAME_OF(VX_TYPE_COORDINATES2D)
        NAME_OF(VX_TYPE_COORDINATES2DF)
        NAME_OF(VX_TYPE_COORDINATES3D)
    default:
        return "another type";
    }
#undef NAME_OF
}

static const char *noun_of(vx_enum type) {
    switch (type) {
    case VX_TYPE_IMAGE:
        return "an image";
    case VX_TYPE_THRESHOLD:
        return "a threshold";
    case VX_TYPE_LUT:
        return "a lookup table";
    case VX_TYPE_CONVOLUTION:
        return "a convolution";
    case VX_TYPE_DISTRIBUTION:
        return "a distribution";
    case VX_TYPE_ARRAY:
        return "an array";
    default:
        return "a scalar";
    }
}

vx_status check_value(vx_reference about, const struct call *call, const struct formal *formal,
                      vx_reference value) {
    vx_context context = about->context;
    vx_status status = check(context, value, formal->type);
    if (status == VX_SUCCESS && formal->place >= OPERANDS &&
        ((vx_scalar)value)->item != VX_TYPE_ENUM)
        return refuse(about, call, VX_ERROR_INVALID_TYPE,
                      "%s is a scalar of %s, and has to be of VX_TYPE_ENUM", formal->name,
                      name_of_type(((vx_scalar)value)->item));
    if (status == VX_SUCCESS)
        return status;
    if (value == NULL)
        return refuse(about, call, status, "%s is NULL, and has to be %s", formal->name,
                      noun_of(formal->type));
    if (status == VX_ERROR_INVALID_SCOPE)
        return refuse(about, call, status, "%s belongs to another context: make it in this one",
                      formal->name);
    if (check(context, value, VX_TYPE_ERROR) == VX_SUCCESS)
        return refuse(about, call, status,
                      "%s is an object that couldn't be made: status %d; see the log entry of the "
                      "call that made it",
                      formal->name, value->status);
    return refuse(about, call, status, "%s isn't %s: was it released, or is it of another type?",
                  formal->name, noun_of(formal->type));
}

/* In immediate mode a scale or shift is a number, except that of AccumulateSquareImage. */
static bool may_lack(vx_reference about, const struct call *call, const struct formal *formal) {
    bool is_number = formal->place == AMOUNT && about->type == VX_TYPE_CONTEXT &&
                     call->function != ACCUMULATE_SQUARE;
    return is_number || formal->state == VX_PARAMETER_STATE_OPTIONAL;
}

/* Checks that each operand that is there or has to be is a reference of the right type. */
static vx_status check_references(vx_reference about, const struct call *call) {
    const struct definition *definition = definition_of(call->function);
    vx_status status = VX_SUCCESS;
    for (vx_uint32 i = 0; status == VX_SUCCESS && i < definition->count; i++) {
        const struct formal *formal = &definition->formals[i];
        if (formal->place >= OPERANDS)
            continue;
        vx_reference operand = call->operands[formal->place];
        if (operand != NULL || !may_lack(about, call, formal))
            status = check_value(about, call, formal, operand);
    }
    return status;
}

/* Checks that a virtual image is one of this graph, and that a uniform one is only read. */
static vx_status check_scope(vx_reference about, const struct call *call,
                             const struct formal *formal) {
    vx_image image = (vx_image)call->operands[formal->place];
    if (formal->type != VX_TYPE_IMAGE || image == NULL)
        return VX_SUCCESS;
    if (image->is_uniform && formal->direction != VX_INPUT)
        return refuse(about, call, VX_ERROR_INVALID_PARAMETERS,
                      "%s is a uniform image, which no node can write: give one of vxCreateImage",
                      formal->name);
    if (image->scope == 0 || image->scope == scope_of(about))
        return VX_SUCCESS;
    if (about->type == VX_TYPE_CONTEXT)
        return refuse(about, call, VX_ERROR_OPTIMIZED_AWAY,
                      "%s is a virtual image, which only the nodes of its graph can use: give one "
                      "of vxCreateImage",
                      formal->name);
    return refuse(about, call, VX_ERROR_INVALID_SCOPE,
                  "%s is a virtual image of another graph: make it for this one", formal->name);
}

/* Checks that a scalar, if it is there, is of one of two types. */
static vx_status check_item(vx_reference about, const struct call *call,
                            const struct formal *formal, vx_enum first, vx_enum second) {
    vx_scalar scalar = (vx_scalar)call->operands[formal->place];
    if (scalar == NULL || scalar->item == first || scalar->item == second)
        return VX_SUCCESS;
    return refuse(about, call, VX_ERROR_INVALID_TYPE,
                  "%s is a scalar of %s, and has to be of %s%s%s", formal->name,
                  name_of_type(scalar->item), name_of_type(first),
                  first == second ? "" : " or ", first == second ? "" : name_of_type(second));
}

/* The one or two types that a scalar in a place may have. */
static void items_of(const struct call *call, unsigned place, vx_enum *first, vx_enum *second) {
    vx_image input = (vx_image)call->operands[IN1];
    vx_df_image format = input == NULL ? VX_DF_IMAGE_VIRT : input->format;
    *first = *second = VX_TYPE_UINT32;
    if (place == MIN_VALUE || place == MAX_VALUE) {
        *first = format == VX_DF_IMAGE_S16 ? VX_TYPE_INT16 : VX_TYPE_UINT8;
        *second = format == VX_DF_IMAGE_U8 ? VX_TYPE_UINT8 : VX_TYPE_INT16;
    } else if (place == MIN_COUNT || place == MAX_COUNT) {
        *second = VX_TYPE_SIZE;
    } else if (call->function != ACCUMULATE_SQUARE) {
        *first = *second = call->function == MULTIPLY ? VX_TYPE_FLOAT32 : VX_TYPE_INT32;
    }
}

static vx_status check_policy(vx_reference about, const struct call *call,
                              const struct formal *formal) {
    vx_enum value = call->policies[formal->place - OPERANDS];
    bool is_rounding = formal->place == ROUNDING;
    if (call->is_generic && value == 0)
        return VX_SUCCESS;
    if (is_rounding && value == VX_ROUND_POLICY_TO_NEAREST_EVEN)
        return refuse(about, call, VX_ERROR_NOT_SUPPORTED,
                      "%s is VX_ROUND_POLICY_TO_NEAREST_EVEN, and has to be "
                      "VX_ROUND_POLICY_TO_ZERO",
                      formal->name);
    if (is_rounding ? value == VX_ROUND_POLICY_TO_ZERO
                    : value == VX_CONVERT_POLICY_WRAP || value == VX_CONVERT_POLICY_SATURATE)
        return VX_SUCCESS;
    return refuse(about, call, VX_ERROR_INVALID_VALUE, "%s is 0x%x, and has to be %s", formal->name,
                  (unsigned)value,
                  is_rounding ? "VX_ROUND_POLICY_TO_ZERO"
                              : "VX_CONVERT_POLICY_WRAP or VX_CONVERT_POLICY_SATURATE");
}

static vx_status check_formal(vx_reference about, const struct call *call,
                              const struct formal *formal) {
    vx_enum first, second;
    if (formal->place >= OPERANDS)
        return check_policy(about, call, formal);
    vx_array array = (vx_array)call->operands[formal->place];
    if (formal->type == VX_TYPE_ARRAY && array != NULL && array->item != VX_TYPE_COORDINATES2D)
        return refuse(about, call, VX_ERROR_INVALID_TYPE,
                      "%s is an array of %s, and has to be of VX_TYPE_COORDINATES2D",
                      formal->name, name_of_type(array->item));
    if (formal->type != VX_TYPE_SCALAR)
        return check_scope(about, call, formal);
    items_of(call, formal->place, &first, &second);
    return check_item(about, call, formal, first, second);
}

vx_status check_values(vx_reference about, const struct call *call) {
    const struct definition *definition = definition_of(call->function);
    vx_status status = VX_SUCCESS;
    for (vx_uint32 i = 0; status == VX_SUCCESS && i < definition->count; i++)
        status = check_formal(about, call, &definition->formals[i]);
    if (status == VX_SUCCESS && call->function == SOBEL && !call->is_generic &&
        call->operands[OUT1] == NULL && call->operands[OUT2] == NULL)
        status = refuse(about, call, VX_ERROR_INVALID_PARAMETERS,
                        "both outputs are NULL: give one or both");
    return status;
}

vx_status check_resolved(vx_reference about, const struct call *call) {
    const struct definition *definition = definition_of(call->function);
    const struct _vx_image *input = (vx_image)call->operands[IN1];
    vx_status status = VX_SUCCESS;
    if (call->function != MIN_MAX_LOCATION || input->found.format != VX_DF_IMAGE_S16)
        return status;
    for (vx_uint32 i = 0; status == VX_SUCCESS && i < definition->count; i++) {
        const struct formal *formal = &definition->formals[i];
        if (formal->place == MIN_VALUE || formal->place == MAX_VALUE)
            status = check_item(about, call, formal, VX_TYPE_INT16, VX_TYPE_INT16);
    }
    return status;
}

vx_status check_outputs(vx_reference about, const struct call *call) {
    for (unsigned place = MIN_VALUE; place < OPERANDS; place++)
        for (unsigned other = MIN_VALUE; other < place; other++)
            if (call->operands[place] != NULL && call->operands[place] == call->operands[other])
                return refuse(about, call, VX_ERROR_MULTIPLE_WRITERS,
                              "two outputs are one object: give each its own");
    return VX_SUCCESS;
}

vx_status check_complete(vx_reference about, const struct call *call) {
    const struct definition *definition = definition_of(call->function);
    for (vx_uint32 i = 0; i < definition->count; i++) {
        const struct formal *formal = &definition->formals[i];
        bool is_there = formal->place < OPERANDS ? call->operands[formal->place] != NULL
                                                 : call->policies[formal->place - OPERANDS] != 0;
        if (!is_there && formal->state == VX_PARAMETER_STATE_REQUIRED)
            return refuse(about, call, VX_ERROR_NOT_SUFFICIENT, "%s wasn't set: set parameter %u",
                          formal->name, (unsigned)i);
    }
    if (call->function == SOBEL && call->operands[OUT1] == NULL && call->operands[OUT2] == NULL)
        return refuse(about, call, VX_ERROR_NOT_SUFFICIENT, "no output was set: set one or both");
    return VX_SUCCESS;
}

vx_status check_call(vx_reference about, const struct call *call) {
    vx_status status = check_references(about, call);
    return status == VX_SUCCESS ? check_values(about, call) : status;
}

/* The n of a scale of 1 / 2^n from 0 to 15; 16 for any other scale. */
static uint8_t exponent_of(double scale) {
    uint8_t exponent = 0;
    for (double power = 1; exponent <= 15 && scale * power != 1; power *= 2)
        exponent++;
    return exponent;
}

/* Gives the byte of a scale or shift in a frame. */
static vx_status amount_of(vx_reference about, const struct call *call, uint8_t *amount) {
    vx_scalar scalar = (vx_scalar)call->operands[AMOUNT];
    *amount = 0;
    if (call->function == MULTIPLY) {
        double scale = scalar == NULL ? call->amount : scalar->value.f32;
        *amount = exponent_of(scale);
        if (!(scale >= 0))
            return refuse(about, call, VX_ERROR_INVALID_VALUE,
                          "scale is %g, and has to be at least 0", scale);
        if (*amount > 15)
            return refuse(about, call, VX_ERROR_NOT_SUPPORTED,
                          "scale is %.9g, and has to be 1 / 2^n with n from 0 to 15", scale);
        return VX_SUCCESS;
    }
    bool is_square = call->function == ACCUMULATE_SQUARE;
    if (call->function != CONVERT_DEPTH && !is_square)
        return VX_SUCCESS;
    double shift = call->amount;
    if (scalar != NULL)
        shift = is_square ? (double)scalar->value.u32 : (double)scalar->value.s32;
    if (shift < 0 || shift > (is_square ? 15 : 7))
        return refuse(about, call, VX_ERROR_INVALID_VALUE, "shift is %.0f, and has to be 0 to %d",
                      shift, is_square ? 15 : 7);
    *amount = (uint8_t)shift;
    return VX_SUCCESS;
}

static vx_status send_limits(vx_reference about, const struct call *call) {
    vx_threshold threshold = (vx_threshold)call->operands[IN2];
    if (threshold->kind == VX_THRESHOLD_TYPE_RANGE && threshold->upper < threshold->lower)
        return refuse(about, call, VX_ERROR_INVALID_VALUE,
                      "thresh has an upper limit of %d, below its lower one of %d: set both anew",
                      threshold->upper, threshold->lower);
    return send_threshold(threshold);
}

/* Makes the objects that a call uses on the server, where they aren't there. */
static vx_status send_used(vx_reference about, struct call *call) {
    vx_context context = about->context;
    switch (call->function) {
    case THRESHOLD:
        return send_limits(about, call);
    case TABLE_LOOKUP:
        return send_lut((vx_lut)call->operands[IN2]);
    case CONVOLVE:
        return send_convolution((vx_convolution)call->operands[IN2]);
    case MIN_MAX_LOCATION:
        if (call->extremes == 0)
            return create(context, CREATE_MIN_MAX, NULL, 0, &call->extremes);
        return VX_SUCCESS;
    default:
        return VX_SUCCESS;
    }
}

static uint8_t *put_operand(uint8_t *at, vx_reference operand) {
    if (operand == NULL)
        return put_ref(at, 0, NO_SLOT);
    if (operand->type == VX_TYPE_IMAGE)
        return put_image(at, (vx_image)operand);
    return put_ref(at, operand->name, NO_SLOT);
}

vx_status encode_call(vx_reference about, struct call *call, uint8_t *bytes) {
    uint8_t amount, *at = bytes;
    vx_status status = amount_of(about, call, &amount);
    if (status == VX_SUCCESS)
        status = send_used(about, call);
    if (status != VX_SUCCESS)
        return status;
    bool is_constant = call->border.mode == VX_BORDER_CONSTANT;
    at = put8(at, call->function);
    at = put8(at, (unsigned)(call->border.mode - VX_BORDER_UNDEFINED));
    at = put8(at, is_constant ? call->border.constant_value.U8 : 0);
    at = put8(at, call->policies[POLICY - OPERANDS] == VX_CONVERT_POLICY_SATURATE);
    at = put8(at, amount);
    at = put_operand(put_operand(at, call->operands[IN1]), call->operands[IN2]);
    if (call->function == MIN_MAX_LOCATION)
        at = put_ref(at, call->extremes, NO_SLOT);
    else
        at = put_operand(at, call->operands[OUT1]);
    put_operand(at, call->operands[OUT2]);
    return VX_SUCCESS;
}

static void set_number(vx_reference operand, vx_int64 number) {
    vx_scalar scalar = (vx_scalar)operand;
    if (scalar == NULL)
        return;
    switch (scalar->item) {
    case VX_TYPE_UINT8:
        scalar->value.u8 = (vx_uint8)number;
        break;
    case VX_TYPE_INT16:
        scalar->value.s16 = (vx_int16)number;
        break;
    case VX_TYPE_UINT32:
        scalar->value.u32 = (vx_uint32)number;
        break;
    default:
        scalar->value.size = (vx_size)number;
    }
}

/* Sets an array to the first place of an extreme, or to nothing where the count is 0. */
static void set_place(vx_reference operand, vx_uint32 count, const uint8_t *at) {
    vx_array array = (vx_array)operand;
    if (array == NULL)
        return;
    array->count = count == 0 ? 0 : 1;
    const vx_coordinates2d_t place = {get16(at), get16(at + 2)};
    memcpy(array->items, &place, sizeof place);
}

vx_status take_extremes(vx_context context, const struct call *call) {
    uint8_t body[4], found[20];
    if (call->function != MIN_MAX_LOCATION)
        return VX_SUCCESS;
    put32(body, call->extremes);
    vx_status status = ask(context, READ_MIN_MAX, body, sizeof body, found, sizeof found);
    if (status != VX_SUCCESS)
        return status;
    set_number(call->operands[MIN_VALUE], (vx_int16)get16(found));
    set_number(call->operands[MAX_VALUE], (vx_int16)get16(found + 2));
    set_number(call->operands[MIN_COUNT], get32(found + 4));
    set_number(call->operands[MAX_COUNT], get32(found + 8));
    set_place(call->operands[MIN_PLACE], get32(found + 4), found + 12);
    set_place(call->operands[MAX_PLACE], get32(found + 8), found + 16);
    return VX_SUCCESS;
}
