/* Parameters of nodes, kernels and graphs. */
#include "internal.h"

#include <stdlib.h>

vx_parameter make_parameter(vx_context context, enum function function, vx_node node,
                            vx_uint32 index) {
    if (index >= definition_of(function)->count)
        return (vx_parameter)error_of(context, VX_ERROR_INVALID_PARAMETERS);
    vx_parameter made = make(context, VX_TYPE_PARAMETER, sizeof *made);
    if (made == NULL)
        return (vx_parameter)error_of(context, VX_ERROR_NO_MEMORY);
    made->function = function;
    made->node = node;
    made->index = index;
    if (node != NULL)
        hold(&node->base);
    return made;
}

PUBLIC vx_parameter VX_API_CALL vxGetParameterByIndex(vx_node node, vx_uint32 index) {
    vx_context context = enter(node, VX_TYPE_NODE);
    if (context == NULL)
        return (vx_parameter)pass_error(node);
    vx_parameter made = make_parameter(context, node->call.function, node, index);
    leave(context, VX_SUCCESS);
    return made;
}

PUBLIC vx_status VX_API_CALL vxReleaseParameter(vx_parameter *param) {
    return release(param, VX_TYPE_PARAMETER);
}

static const struct formal *formal_of(const struct _vx_parameter *parameter) {
    return &definition_of(parameter->function)->formals[parameter->index];
}

/* Gives a reference to the value of a node's parameter; for a policy, to a new scalar. */
static vx_status refer(const struct _vx_parameter *parameter, vx_reference *value) {
    if (parameter->node == NULL || parameter->node->graph == NULL)
        return VX_SUCCESS;
    const struct call *call = &parameter->node->call;
    unsigned place = formal_of(parameter)->place;
    if (place < OPERANDS) {
        *value = call->operands[place];
        return *value == NULL ? VX_SUCCESS : retain(*value);
    }
    vx_scalar made = make(parameter->base.context, VX_TYPE_SCALAR, sizeof *made);
    if (made == NULL)
        return VX_ERROR_NO_MEMORY;
    made->item = VX_TYPE_ENUM;
    made->value.s32 = call->policies[place - OPERANDS];
    *value = &made->base;
    return VX_SUCCESS;
}

PUBLIC vx_status VX_API_CALL vxQueryParameter(vx_parameter parameter, vx_enum attribute, void *ptr,
                                              vx_size size) {
    vx_context context = enter(parameter, VX_TYPE_PARAMETER);
    if (context == NULL)
        return VX_ERROR_INVALID_REFERENCE;
    const struct formal *formal = formal_of(parameter);
    vx_reference value = NULL;
    vx_status status = VX_ERROR_NOT_SUPPORTED;
    if (attribute == VX_PARAMETER_INDEX)
        status = give(ptr, size, &parameter->index, sizeof parameter->index);
    if (attribute == VX_PARAMETER_DIRECTION)
        status = give(ptr, size, &formal->direction, sizeof formal->direction);
    if (attribute == VX_PARAMETER_TYPE)
        status = give(ptr, size, &formal->type, sizeof formal->type);
    if (attribute == VX_PARAMETER_STATE)
        status = give(ptr, size, &formal->state, sizeof formal->state);
    if (attribute == VX_PARAMETER_REF) {
        status = give(ptr, size, &value, sizeof value);
        if (status == VX_SUCCESS)
            status = refer(parameter, &value);
        if (status == VX_SUCCESS)
            status = give(ptr, size, &value, sizeof value);
    }
    return leave(context, status);
}

/* Sets a parameter of a call, if the value is a reference of the right type. */
static vx_status put_value(vx_node node, struct call *call, const struct formal *formal,
                           vx_reference value) {
    bool may_lack = formal->place < OPERANDS && formal->state == VX_PARAMETER_STATE_OPTIONAL;
    vx_status status = VX_SUCCESS;
    if (value != NULL || !may_lack)
        status = check_value(&node->base, call, formal, value);
    if (status != VX_SUCCESS)
        return status;
    if (formal->place < OPERANDS) {
        call->operands[formal->place] = value;
        return VX_SUCCESS;
    }
    call->policies[formal->place - OPERANDS] = ((vx_scalar)value)->value.s32;
    return VX_SUCCESS;
}

static vx_status set_value(vx_node node, vx_uint32 index, vx_reference value) {
    const struct definition *definition = definition_of(node->call.function);
    if (node->graph == NULL)
        return VX_ERROR_INVALID_NODE;
    if (node->graph->is_scheduled)
        return VX_ERROR_GRAPH_SCHEDULED;
    if (index >= definition->count)
        return VX_ERROR_INVALID_PARAMETERS;
    unsigned place = definition->formals[index].place;
    struct call call = node->call;
    vx_status status = put_value(node, &call, &definition->formals[index], value);
    if (status == VX_SUCCESS)
        status = check_values(&node->base, &call);
    if (status != VX_SUCCESS)
        return status;
    vx_reference before = place < OPERANDS ? node->call.operands[place] : NULL;
    if (place < OPERANDS && value != NULL)
        hold(value);
    node->call = call;
    change(node->graph);
    if (before != NULL)
        drop(before);
    return VX_SUCCESS;
}

PUBLIC vx_status VX_API_CALL vxSetParameterByIndex(vx_node node, vx_uint32 index,
                                                   vx_reference value) {
    vx_context context = enter(node, VX_TYPE_NODE);
    if (context == NULL)
        return VX_ERROR_INVALID_REFERENCE;
    return leave(context, set_value(node, index, value));
}

PUBLIC vx_status VX_API_CALL vxSetParameterByReference(vx_parameter parameter, vx_reference value) {
    vx_context context = enter(parameter, VX_TYPE_PARAMETER);
    if (context == NULL)
        return VX_ERROR_INVALID_REFERENCE;
    if (parameter->node == NULL)
        return leave(context, VX_ERROR_INVALID_NODE);
    return leave(context, set_value(parameter->node, parameter->index, value));
}

static vx_status add_parameter(vx_graph graph, vx_parameter parameter) {
    vx_status status = check(graph->base.context, parameter, VX_TYPE_PARAMETER);
    if (status != VX_SUCCESS)
        return status;
    if (parameter->node == NULL || parameter->node->graph != graph)
        return VX_ERROR_INVALID_PARAMETERS;
    vx_parameter *grown =
        realloc(graph->parameters, (graph->parameter_count + 1) * sizeof(vx_parameter));
    if (grown == NULL)
        return VX_ERROR_NO_MEMORY;
    graph->parameters = grown;
    graph->parameters[graph->parameter_count++] = parameter;
    hold(&parameter->base);
    return VX_SUCCESS;
}

PUBLIC vx_status VX_API_CALL vxAddParameterToGraph(vx_graph graph, vx_parameter parameter) {
    vx_context context = enter(graph, VX_TYPE_GRAPH);
    if (context == NULL)
        return VX_ERROR_INVALID_REFERENCE;
    return leave(context, add_parameter(graph, parameter));
}

PUBLIC vx_parameter VX_API_CALL vxGetGraphParameterByIndex(vx_graph graph, vx_uint32 index) {
    vx_context context = enter(graph, VX_TYPE_GRAPH);
    if (context == NULL)
        return (vx_parameter)pass_error(graph);
    vx_status status = VX_ERROR_INVALID_PARAMETERS;
    vx_reference found = NULL;
    if (index < graph->parameter_count) {
        found = REFERENCE(graph->parameters[index]);
        status = retain(found);
    }
    leave(context, status);
    return (vx_parameter)(status == VX_SUCCESS ? found : error_of(context, status));
}

PUBLIC vx_status VX_API_CALL vxSetGraphParameterByIndex(vx_graph graph, vx_uint32 index,
                                                        vx_reference value) {
    vx_context context = enter(graph, VX_TYPE_GRAPH);
    if (context == NULL)
        return VX_ERROR_INVALID_REFERENCE;
    if (index >= graph->parameter_count)
        return leave(context, VX_ERROR_INVALID_PARAMETERS);
    vx_parameter parameter = graph->parameters[index];
    return leave(context, set_value(parameter->node, parameter->index, value));
}
