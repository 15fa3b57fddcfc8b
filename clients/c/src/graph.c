/* Graphs and their nodes. A node is sent to the server when its graph is verified or run, see
   run.c. Until then its border, its scalars and its other parameters may change. */
#include "internal.h"

#include <string.h>

PUBLIC vx_graph VX_API_CALL vxCreateGraph(vx_context context) {
    if (enter(context, VX_TYPE_CONTEXT) == NULL)
        return NULL;
    vx_status status = VX_ERROR_NO_MEMORY;
    vx_graph made = make(context, VX_TYPE_GRAPH, sizeof *made);
    if (made != NULL) {
        made->state = VX_GRAPH_STATE_UNVERIFIED;
        status = create(context, CREATE_GRAPH, NULL, 0, &made->base.name);
    }
    if (made != NULL && status != VX_SUCCESS)
        release(&made, VX_TYPE_GRAPH);
    leave(context, status);
    return status == VX_SUCCESS ? made : (vx_graph)error_of(context, status);
}

PUBLIC vx_status VX_API_CALL vxReleaseGraph(vx_graph *graph) {
    return release(graph, VX_TYPE_GRAPH);
}

void change(vx_graph graph) {
    drop_parts(graph);
    graph->is_verified = false;
    graph->has_changed = true;
    if (!graph->is_scheduled)
        graph->state = VX_GRAPH_STATE_UNVERIFIED;
}

/* Notes that a node couldn't be made. The graph isn't what the program meant, so it can't be
   verified any more. */
static vx_node fail_node(vx_graph graph, vx_status status) {
    graph->lacks_node = true;
    change(graph);
    return (vx_node)error_of(graph->base.context, status);
}

static bool is_missed(const struct _vx_graph *graph, const struct call *call) {
    const struct call *missed = &graph->missed;
    return graph->misses_node && missed->function == call->function &&
           memcmp(missed->operands, call->operands, sizeof call->operands) == 0 &&
           memcmp(missed->policies, call->policies, sizeof call->policies) == 0;
}

/* Notes that a node found no memory. The graph can't be verified until the program makes the node
   anew. */
static vx_node miss_node(vx_graph graph, const struct call *call) {
    if (graph->misses_node && !is_missed(graph, call))
        return fail_node(graph, VX_ERROR_NO_MEMORY);
    graph->misses_node = true;
    graph->missed = *call;
    change(graph);
    return (vx_node)error_of(graph->base.context, VX_ERROR_NO_MEMORY);
}

vx_node add_missing_node(vx_graph graph, vx_status status, const char *why) {
    vx_context context = enter(graph, VX_TYPE_GRAPH);
    if (context == NULL)
        return (vx_node)pass_error(graph);
    tell(&graph->base, status, "%s", why);
    vx_node failed = fail_node(graph, status);
    leave(context, VX_SUCCESS);
    return failed;
}

static void append_node(vx_graph graph, vx_node node) {
    node->graph = graph;
    node->base.holds = 1;
    for (int i = 0; i < OPERANDS; i++)
        if (node->call.operands[i] != NULL)
            hold(node->call.operands[i]);
    vx_node *last = &graph->first;
    while (*last != NULL)
        last = &(*last)->next_node;
    *last = node;
    graph->nodes++;
    change(graph);
}

vx_node add_node(vx_graph graph, struct call call) {
    vx_context context = enter(graph, VX_TYPE_GRAPH);
    if (context == NULL)
        return (vx_node)pass_error(graph);
    vx_status status = call.is_generic ? VX_SUCCESS : check_call(&graph->base, &call);
    vx_node node = NULL;
    if (status == VX_SUCCESS) {
        node = make(context, VX_TYPE_NODE, sizeof *node);
        status = node == NULL ? VX_ERROR_NO_MEMORY : VX_SUCCESS;
    }
    if (status == VX_SUCCESS) {
        call.border.mode = VX_BORDER_UNDEFINED;
        node->call = call;
        graph->misses_node = graph->misses_node && !is_missed(graph, &call);
        append_node(graph, node);
    } else if (status == VX_ERROR_NO_MEMORY) {
        node = miss_node(graph, &call);
    } else {
        node = fail_node(graph, status);
    }
    leave(context, status);
    return node;
}

vx_status detach(vx_node node) {
    vx_graph graph = node->graph;
    vx_status status = withdraw(node->base.context, graph->base.name, &node->sent);
    /* A log callback may have removed it. */
    if (node->graph == NULL)
        return status;
    vx_node *place = &graph->first;
    while (*place != node)
        place = &(*place)->next_node;
    *place = node->next_node;
    graph->nodes--;
    node->graph = NULL;
    change(graph);
    for (int i = 0; i < OPERANDS; i++) {
        vx_reference operand = node->call.operands[i];
        node->call.operands[i] = NULL;
        if (operand != NULL)
            drop(operand);
    }
    drop(&node->base);
    return status;
}

PUBLIC vx_bool VX_API_CALL vxIsGraphVerified(vx_graph graph) {
    vx_context context = look(graph, VX_TYPE_GRAPH);
    if (context == NULL)
        return vx_false_e;
    vx_bool is_verified = graph->is_verified ? vx_true_e : vx_false_e;
    look_away(context, VX_SUCCESS);
    return is_verified;
}

PUBLIC vx_status VX_API_CALL vxQueryGraph(vx_graph graph, vx_enum attribute, void *ptr,
                                          vx_size size) {
    vx_context context = look(graph, VX_TYPE_GRAPH);
    if (context == NULL)
        return VX_ERROR_INVALID_REFERENCE;
    const vx_uint32 nodes = (vx_uint32)graph->nodes;
    if (attribute == VX_GRAPH_NUMNODES)
        return look_away(context, give(ptr, size, &nodes, sizeof nodes));
    if (attribute == VX_GRAPH_STATE)
        return look_away(context, give(ptr, size, &graph->state, sizeof graph->state));
    if (attribute == VX_GRAPH_PERFORMANCE)
        return look_away(context,
                         give(ptr, size, &graph->performance, sizeof graph->performance));
    if (attribute == VX_GRAPH_NUMPARAMETERS)
        return look_away(context, give(ptr, size, &graph->parameter_count,
                                   sizeof graph->parameter_count));
    return look_away(context, VX_ERROR_NOT_SUPPORTED);
}

PUBLIC vx_status VX_API_CALL vxQueryNode(vx_node node, vx_enum attribute, void *ptr,
                                         vx_size size) {
    vx_context context = look(node, VX_TYPE_NODE);
    if (context == NULL)
        return VX_ERROR_INVALID_REFERENCE;
    if (attribute == VX_NODE_STATUS)
        return look_away(context, give(ptr, size, &node->status, sizeof node->status));
    if (attribute == VX_NODE_PERFORMANCE && node->graph != NULL)
        return look_away(context, give(ptr, size, &node->graph->performance,
                                       sizeof node->graph->performance));
    if (attribute == VX_NODE_BORDER)
        return look_away(context, give(ptr, size, &node->call.border, sizeof node->call.border));
    const vx_uint32 *count = &definition_of(node->call.function)->count;
    if (attribute == VX_NODE_PARAMETERS)
        return look_away(context, give(ptr, size, count, sizeof *count));
    return look_away(context, VX_ERROR_NOT_SUPPORTED);
}

PUBLIC vx_status VX_API_CALL vxSetNodeAttribute(vx_node node, vx_enum attribute, const void *ptr,
                                                vx_size size) {
    vx_context context = enter(node, VX_TYPE_NODE);
    if (context == NULL)
        return VX_ERROR_INVALID_REFERENCE;
    if (attribute != VX_NODE_BORDER)
        return leave(context, VX_ERROR_NOT_SUPPORTED);
    vx_status status = set_border(&node->call.border, ptr, size);
    if (status == VX_SUCCESS && node->graph != NULL)
        change(node->graph);
    return leave(context, status);
}

PUBLIC vx_status VX_API_CALL vxReleaseNode(vx_node *node) { return release(node, VX_TYPE_NODE); }

PUBLIC vx_status VX_API_CALL vxRemoveNode(vx_node *node) {
    vx_context context = node == NULL ? NULL : enter(*node, VX_TYPE_NODE);
    if (context == NULL)
        return VX_ERROR_INVALID_REFERENCE;
    vx_node removed = *node;
    vx_status status = VX_SUCCESS;
    if (removed->graph != NULL)
        take_results(removed);
    /* A log callback may have removed it. */
    if (removed->graph != NULL)
        status = withdraw(context, removed->graph->base.name, &removed->sent);
    /* A node that the server keeps, for want of memory, stays. */
    if (status != VX_SUCCESS && !context->connection.has_ended)
        return leave(context, status);
    removed->sent.number = 0;
    if (removed->graph != NULL)
        detach(removed);
    release(node, VX_TYPE_NODE);
    return leave(context, status);
}
