/* Verification and runs of graphs. */
#include "internal.h"

#include <string.h>
#include <time.h>

vx_status withdraw(vx_context context, vx_uint32 graph, struct sent *sent) {
    uint8_t body[8];
    if (sent->number == 0 || graph == 0)
        return VX_SUCCESS;
    put32(put32(body, graph), sent->number);
    vx_status status = ask(context, REMOVE_NODE, body, sizeof body, NULL, 0);
    if (status == VX_SUCCESS)
        sent->number = 0;
    return status;
}

vx_status send_call(vx_node node, struct call *call, vx_uint32 graph, struct sent *sent) {
    uint8_t body[4 + NODE_BYTES];
    vx_context context = node->base.context;
    vx_status status = encode_call(&node->base, call, body + 4);
    if (status != VX_SUCCESS)
        return status;
    if (sent->number != 0 && memcmp(sent->bytes, body + 4, NODE_BYTES) == 0)
        return VX_SUCCESS;
    status = withdraw(context, graph, sent);
    if (status != VX_SUCCESS)
        return status;
    put32(body, graph);
    status = create(context, ADD_NODE, body, sizeof body, &sent->number);
    if (status == VX_SUCCESS)
        memcpy(sent->bytes, body + 4, NODE_BYTES);
    return status;
}

/* Sends a node to the graph's own graph on the server. A scale or shift that the run will write
   isn't known yet. The verdict doesn't depend on it, so 1 is sent. */
static vx_status send_node(vx_node node) {
    struct call call = node->call;
    if (reads_written_scalar(node)) {
        call.operands[AMOUNT] = NULL;
        call.amount = 1;
    }
    vx_status status = send_call(node, &call, node->graph->base.name, &node->sent);
    node->call.extremes = call.extremes;
    if (status == VX_SUCCESS)
        note_outputs(&node->call);
    return status;
}

static bool has_open_format(const struct _vx_node *node) {
    vx_image input = image_at(node, IN1);
    return input != NULL && input->format == VX_DF_IMAGE_VIRT;
}

/* Checks the values of each MinMaxLoc whose image gets its format from another node. */
static vx_status check_open_extremes(vx_graph graph) {
    vx_status status = VX_SUCCESS;
    bool is_resolved = false;
    for (vx_node node = graph->first; status == VX_SUCCESS && node != NULL;
         node = node->next_node) {
        if (node->call.function != MIN_MAX_LOCATION || !has_open_format(node))
            continue;
        if (!is_resolved)
            resolve_images(graph);
        is_resolved = true;
        node->status = status = check_resolved(&node->base, &node->call);
    }
    return status;
}

/* Sends all nodes of a graph, unless one of them couldn't be made. */
static vx_status send_nodes(vx_graph graph) {
    if (graph->lacks_node || graph->misses_node) {
        tell(&graph->base, VX_ERROR_INVALID_NODE,
             graph->lacks_node
                 ? "a node of the graph couldn't be made: make the graph anew"
                 : "a node of the graph couldn't be made, out of memory: make the node anew");
        return VX_ERROR_INVALID_NODE;
    }
    vx_status status = check_writers(graph);
    for (vx_node node = graph->first; node != NULL; node = node->next_node) {
        if (status == VX_SUCCESS && node->call.is_generic)
            node->status = status = check_complete(&node->base, &node->call);
        if (status == VX_SUCCESS)
            node->status = status = send_node(node);
    }
    return status == VX_SUCCESS ? check_open_extremes(graph) : status;
}

/* Moves the images from handles of the nodes that the server has, by send_images or take_images. */
static vx_status move_handles(vx_graph graph,
                              vx_status (*move)(vx_reference about, const struct call *call)) {
    vx_status status = VX_SUCCESS;
    for (vx_node node = graph->first; node != NULL && status == VX_SUCCESS; node = node->next_node)
        if (node->sent.number != 0)
            status = move(&node->base, &node->call);
    return status;
}

/* Brings the images that a run uses up to date on the server. */
static vx_status send_inputs(vx_graph graph) {
    graph->base.context->runs++;
    vx_status status = move_handles(graph, send_images);
    return status == VX_SUCCESS ? narrow_images(graph->base.context) : status;
}

vx_status ask_verdict(vx_graph graph, vx_uint32 name, enum op op) {
    uint8_t body[4];
    put32(body, name);
    vx_status status = ask_quietly(graph->base.context, op, body, sizeof body);
    if (status != VX_SUCCESS && !graph->base.context->connection.has_ended)
        explain_verdict(graph, status);
    return status;
}

static vx_status verify(vx_graph graph) {
    vx_status status = send_nodes(graph);
    if (status == VX_SUCCESS)
        status = ask_verdict(graph, graph->base.name, VERIFY_GRAPH);
    if (status == VX_SUCCESS)
        resolve_images(graph);
    if (status == VX_SUCCESS && runs_in_parts(graph))
        status = make_parts(graph);
    graph->is_verified = status == VX_SUCCESS;
    graph->state = graph->is_verified ? VX_GRAPH_STATE_VERIFIED : VX_GRAPH_STATE_UNVERIFIED;
    return status;
}

static vx_uint64 now(void) {
    struct timespec time;
    clock_gettime(CLOCK_MONOTONIC, &time);
    return (vx_uint64)time.tv_sec * 1000000000u + (vx_uint64)time.tv_nsec;
}

/* Adds a run that has just ended to the performance. */
static void count_time(vx_perf_t *times) {
    times->end = now();
    times->tmp = times->end - times->beg;
    times->sum += times->tmp;
    times->num++;
    times->avg = times->sum / times->num;
    times->min = times->num == 1 || times->tmp < times->min ? times->tmp : times->min;
    times->max = times->tmp > times->max ? times->tmp : times->max;
}

static void begin_run(vx_graph graph) {
    graph->has_changed = false;
    graph->performance.beg = now();
}

static vx_enum state_after(const struct _vx_graph *graph, vx_status status) {
    if (status == VX_SUCCESS)
        return graph->has_changed ? VX_GRAPH_STATE_UNVERIFIED : VX_GRAPH_STATE_COMPLETED;
    bool is_abandoned = status == VX_FAILURE || graph->has_begun;
    return is_abandoned ? VX_GRAPH_STATE_ABANDONED : VX_GRAPH_STATE_UNVERIFIED;
}

/* After a run: reads the outputs that the library keeps, and sets the state of the graph. */
static vx_status end_run(vx_graph graph, vx_status status) {
    /* If its outputs can't be read, the run has all the same changed what it writes. */
    graph->has_begun = graph->has_begun || status == VX_SUCCESS;
    for (vx_node node = graph->first; node != NULL && status == VX_SUCCESS; node = node->next_node)
        if (node->sent.number != 0 && is_in_last_part(node))
            status = take_extremes(graph->base.context, &node->call);
    if (status == VX_SUCCESS)
        status = move_handles(graph, take_images);
    if (status == VX_SUCCESS)
        count_time(&graph->performance);
    graph->is_verified = status == VX_SUCCESS && !graph->has_changed;
    graph->state = state_after(graph, status);
    graph->has_begun = false;
    return status;
}

/* Waits for a scheduled run, once. Adds a log entry where the server refused it. */
static vx_status await_run(vx_graph graph) {
    vx_context context = graph->base.context;
    if (graph->is_awaited)
        return graph->awaited;
    graph->is_awaited = true;
    graph->awaited = await_reply(context, &graph->run, true);
    if (graph->awaited != VX_SUCCESS && !context->connection.has_ended)
        explain_verdict(graph, graph->awaited);
    return graph->awaited;
}

void settle(vx_graph graph) {
    if (graph->is_scheduled)
        await_run(graph);
    graph->is_scheduled = false;
}

void take_results(vx_node node) {
    if (!node->graph->is_scheduled || node->sent.number == 0 ||
        await_run(node->graph) != VX_SUCCESS)
        return;
    if (is_in_last_part(node))
        take_extremes(node->base.context, &node->call);
    take_images(&node->base, &node->call);
}

PUBLIC vx_status VX_API_CALL vxVerifyGraph(vx_graph graph) {
    vx_context context = enter(graph, VX_TYPE_GRAPH);
    if (context == NULL)
        return VX_ERROR_INVALID_REFERENCE;
    if (graph->is_scheduled)
        return leave(context, VX_ERROR_GRAPH_SCHEDULED);
    return leave(context, verify(graph));
}

/* Runs all parts of a graph but the last one, after the verification that it may need. Without one
   the nodes are sent all the same, with the tables that have changed: once a part has run, the
   library needs no memory. */
static vx_status begin_parts(vx_graph graph) {
    vx_status status = graph->parts.count == 0 ? verify(graph) : send_nodes(graph);
    if (status == VX_SUCCESS)
        status = send_inputs(graph);
    return status == VX_SUCCESS ? run_first_parts(graph) : status;
}

static vx_status run_in_parts(vx_graph graph) {
    vx_status status = begin_parts(graph);
    return status == VX_SUCCESS ? ask_verdict(graph, last_name(graph), PROCESS_GRAPH) : status;
}

/* Runs a graph, which the server verifies in the same request. */
static vx_status run_whole(vx_graph graph) {
    vx_status status = send_nodes(graph);
    if (status == VX_SUCCESS)
        status = send_inputs(graph);
    if (status == VX_SUCCESS)
        status = ask_verdict(graph, graph->base.name, PROCESS_GRAPH);
    if (status == VX_SUCCESS)
        resolve_images(graph);
    return status;
}

PUBLIC vx_status VX_API_CALL vxProcessGraph(vx_graph graph) {
    vx_context context = enter(graph, VX_TYPE_GRAPH);
    if (context == NULL)
        return VX_ERROR_INVALID_REFERENCE;
    if (graph->is_scheduled)
        return leave(context, VX_ERROR_GRAPH_SCHEDULED);
    begin_run(graph);
    vx_status status = runs_in_parts(graph) ? run_in_parts(graph) : run_whole(graph);
    return leave(context, end_run(graph, status));
}

/* Starts a graph on the server by its name, and doesn't wait for the end of the run. A server in
   this process has run it when this returns. */
static vx_status start(vx_graph graph, vx_uint32 name) {
    uint8_t body[4];
    vx_context context = graph->base.context;
    graph->run = (struct request){.op = PROCESS_GRAPH, .is_quiet = true};
    put32(body, name);
    let_look(context);
    bool is_sent = connection_send(&context->connection, &graph->run, body, sizeof body);
    end_look(context);
    if (!is_sent)
        return await_reply(context, &graph->run, false);
    graph->is_scheduled = true;
    graph->is_awaited = false;
    graph->state = VX_GRAPH_STATE_RUNNING;
    return VX_SUCCESS;
}

/* Runs all parts but the last before it returns. The server answers in order, so whatever the
   program asks for next comes after the whole run. */
static vx_status schedule_parts(vx_graph graph) {
    begin_run(graph);
    vx_status status = begin_parts(graph);
    return status == VX_SUCCESS ? start(graph, last_name(graph)) : end_run(graph, status);
}

static vx_status schedule_whole(vx_graph graph) {
    begin_run(graph);
    vx_status status = graph->is_verified ? send_nodes(graph) : verify(graph);
    if (status == VX_SUCCESS)
        status = send_inputs(graph);
    return status == VX_SUCCESS ? start(graph, graph->base.name) : status;
}

PUBLIC vx_status VX_API_CALL vxScheduleGraph(vx_graph graph) {
    vx_context context = enter(graph, VX_TYPE_GRAPH);
    if (context == NULL)
        return VX_ERROR_INVALID_REFERENCE;
    if (graph->is_scheduled)
        return leave(context, VX_ERROR_GRAPH_SCHEDULED);
    return leave(context, runs_in_parts(graph) ? schedule_parts(graph) : schedule_whole(graph));
}

PUBLIC vx_status VX_API_CALL vxWaitGraph(vx_graph graph) {
    vx_context context = enter(graph, VX_TYPE_GRAPH);
    if (context == NULL)
        return VX_ERROR_INVALID_REFERENCE;
    if (!graph->is_scheduled)
        return leave(context, VX_FAILURE);
    vx_status status = await_run(graph);
    graph->is_scheduled = false;
    return leave(context, end_run(graph, status));
}

