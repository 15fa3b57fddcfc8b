/* The functions as nodes and in immediate mode, made from the table. */
#include "internal.h"

enum { U8 = 1 << 0, S16 = 1 << 1, U32 = 1 << 2 };

/* What a parameter of a kind is: the type of its object; its types in vx<Name>Node and vxu<Name>;
   and how each of these puts it into a call. As an object, a policy is a scalar. */
#define OBJECT(TYPE, type) (TYPE, type, type, OPERAND, OPERAND)
#define KIND_OF_IMAGE OBJECT(VX_TYPE_IMAGE, vx_image)
#define KIND_OF_THRESHOLD OBJECT(VX_TYPE_THRESHOLD, vx_threshold)
#define KIND_OF_LUT OBJECT(VX_TYPE_LUT, vx_lut)
#define KIND_OF_CONVOLUTION OBJECT(VX_TYPE_CONVOLUTION, vx_convolution)
#define KIND_OF_DISTRIBUTION OBJECT(VX_TYPE_DISTRIBUTION, vx_distribution)
#define KIND_OF_ARRAY OBJECT(VX_TYPE_ARRAY, vx_array)
#define KIND_OF_SCALAR OBJECT(VX_TYPE_SCALAR, vx_scalar)
#define KIND_OF_ENUM (VX_TYPE_SCALAR, vx_enum, vx_enum, CHOICE, CHOICE)
#define KIND_OF_FLOAT (VX_TYPE_SCALAR, vx_scalar, vx_float32, OPERAND, NUMBER)
#define KIND_OF_INT (VX_TYPE_SCALAR, vx_scalar, vx_int32, OPERAND, NUMBER)

#define OPERAND(PLACE, name) .operands[PLACE] = REFERENCE(name),
#define CHOICE(PLACE, name) .policies[PLACE - OPERANDS] = name,
#define NUMBER(PLACE, name) .amount = name,

#define OF(COLUMN, KIND) APPLY(COLUMN, KIND_OF_##KIND)
#define APPLY(COLUMN, row) COLUMN row
#define TYPE(type, node, at_once, put_node, put_at_once) type
#define NODE_TYPE(type, node, at_once, put_node, put_at_once) node
#define AT_ONCE_TYPE(type, node, at_once, put_node, put_at_once) at_once
#define PUT_NODE(type, node, at_once, put_node, put_at_once) put_node
#define PUT_AT_ONCE(type, node, at_once, put_node, put_at_once) put_at_once

#define FORMAL(PLACE, KIND, direction, state, name)                                                \
    {PLACE, OF(TYPE, KIND), direction, state, #name},
#define DEFINITION(NUMBER, Name, kernel, name, PARAMETERS, FORMATS)                                \
    [NUMBER] = {"vx" #Name "Node", "vxu" #Name, VX_KERNEL_##kernel, "org.khronos.openvx." name,    \
                sizeof((struct formal[]){PARAMETERS(FORMAL)}) / sizeof(struct formal),             \
                {PARAMETERS(FORMAL)}, FORMATS},

static const struct definition DEFINITIONS[] = {FUNCTIONS(DEFINITION)};

const struct definition *definition_of(enum function function) { return &DEFINITIONS[function]; }

vx_uint32 count_functions(void) { return sizeof DEFINITIONS / sizeof *DEFINITIONS - 1; }

#define NODE_PARAMETER(PLACE, KIND, direction, state, name) , OF(NODE_TYPE, KIND) name
#define NODE_FIELD(PLACE, KIND, direction, state, name) OF(PUT_NODE, KIND)(PLACE, name)
#define NODE(NUMBER, Name, kernel, name, PARAMETERS, FORMATS)                                      \
    PUBLIC vx_node VX_API_CALL vx##Name##Node(vx_graph graph PARAMETERS(NODE_PARAMETER)) {         \
        return add_node(graph, (struct call){.function = NUMBER, PARAMETERS(NODE_FIELD)});         \
    }

FUNCTIONS(NODE)

static vx_status run_bytes(vx_context context, const struct call *call, const uint8_t *bytes) {
    vx_status status = ask_quietly(context, IMMEDIATE, bytes, NODE_BYTES);
    if (status != VX_SUCCESS && !context->connection.has_ended)
        explain_call(context, call, status);
    return status;
}

static vx_status run_call(vx_context context, struct call *call) {
    uint8_t bytes[NODE_BYTES];
    vx_status status = check_call(&context->base, call);
    if (status == VX_SUCCESS)
        status = check_outputs(&context->base, call);
    if (status != VX_SUCCESS)
        return status;
    call->border = context->border;
    call->extremes = context->extremes;
    status = encode_call(&context->base, call, bytes);
    context->extremes = call->extremes;
    note_outputs(call);
    context->runs++;
    if (status == VX_SUCCESS)
        status = send_images(&context->base, call);
    if (status == VX_SUCCESS)
        status = narrow_images(context);
    if (status == VX_SUCCESS)
        status = run_bytes(context, call, bytes);
    if (status == VX_SUCCESS)
        status = take_images(&context->base, call);
    return status == VX_SUCCESS ? take_extremes(context, call) : status;
}

static vx_status run(vx_context context, struct call call) {
    if (enter(context, VX_TYPE_CONTEXT) == NULL)
        return VX_ERROR_INVALID_REFERENCE;
    return leave(context, run_call(context, &call));
}

#define AT_ONCE_PARAMETER(PLACE, KIND, direction, state, name) , OF(AT_ONCE_TYPE, KIND) name
#define AT_ONCE_FIELD(PLACE, KIND, direction, state, name) OF(PUT_AT_ONCE, KIND)(PLACE, name)
#define AT_ONCE(NUMBER, Name, kernel, name, PARAMETERS, FORMATS)                                   \
    PUBLIC vx_status VX_API_CALL vxu##Name(vx_context context PARAMETERS(AT_ONCE_PARAMETER)) {     \
        return run(context, (struct call){.function = NUMBER, PARAMETERS(AT_ONCE_FIELD)});         \
    }

FUNCTIONS(AT_ONCE)
