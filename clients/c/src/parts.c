/* Graphs in which a node reads a scalar that another node writes. The server is given a node's
   scale or shift before a run, so the library runs such a graph in parts, each a graph on the
   server. After a part it reads the scalars that the part wrote, and sends the next part's nodes
   with their values. The graph's own graph on the server has all nodes, and is verified but never
   run. */
#include "internal.h"

#include <stdlib.h>

bool runs_in_parts(const struct _vx_graph *graph) {
    const struct _vx_node *node = graph->first;
    while (node != NULL && !reads_written_scalar(node))
        node = node->next_node;
    return node != NULL;
}

/* The earliest part in which a node can run, as far as it depends on another node. */
static vx_uint32 earliest_part(const struct _vx_node *node, const struct _vx_node *other) {
    if (reads_scalar_of(node, other))
        return other->part + 1;
    return reads_image_of(node, other) ? other->part : 0;
}

/* Moves a node to a later part if another node requires that. Returns whether it has moved. */
static bool move_to_later(vx_node node) {
    vx_uint32 before = node->part;
    for (vx_node other = node->graph->first; other != NULL; other = other->next_node) {
        vx_uint32 part = earliest_part(node, other);
        node->part = part > node->part ? part : node->part;
    }
    return node->part > before;
}

/* Gives each node of a graph without cycles its part; all of them are in part 0 before. Returns the
   number of parts. */
static vx_uint32 number_parts(vx_graph graph) {
    vx_uint32 last = 0;
    bool is_more = true;
    while (is_more) {
        is_more = false;
        for (vx_node node = graph->first; node != NULL; node = node->next_node) {
            is_more = move_to_later(node) || is_more;
            last = node->part > last ? node->part : last;
        }
    }
    return last + 1;
}

/* ---- Virtual images ---- */

/* The virtual image in a place of a node, or NULL. */
static vx_image virtual_at(const struct _vx_node *node, unsigned place) {
    vx_image image = image_at(node, place);
    return image != NULL && image->scope != 0 ? image : NULL;
}

static const struct backing *backing_of(const struct parts *parts, const struct _vx_image *image) {
    vx_size i = 0;
    while (i < parts->backing_count && parts->backings[i].image != image)
        i++;
    return i < parts->backing_count ? &parts->backings[i] : NULL;
}

/* Whether a node outside a part uses an image. */
static bool is_used_outside(const struct _vx_image *image, const struct _vx_graph *graph,
                            vx_uint32 part) {
    for (vx_node node = graph->first; node != NULL; node = node->next_node)
        for (unsigned place = IN1; node->part != part && place <= OUT2; place++)
            if (image_at(node, place) == image)
                return true;
    return false;
}

/* Within one part a virtual image stays virtual. One that several parts use has to keep its samples
   from one to the next, so an image backs it. */
static vx_status back_image(vx_graph graph, vx_uint32 part, vx_image image) {
    struct parts *parts = &graph->parts;
    vx_uint32 name, scope = is_used_outside(image, graph, part) ? 0 : parts->names[part];
    vx_status status = create_samples(graph->base.context, scope, &image->found, &name);
    if (status == VX_SUCCESS)
        parts->backings[parts->backing_count++] = (struct backing){image, name};
    return status;
}

static vx_status back_images(vx_graph graph) {
    vx_status status = VX_SUCCESS;
    for (vx_node node = graph->first; node != NULL && status == VX_SUCCESS; node = node->next_node)
        for (unsigned place = IN1; status == VX_SUCCESS && place <= OUT2; place++) {
            vx_image image = virtual_at(node, place);
            if (image != NULL && backing_of(&graph->parts, image) == NULL)
                status = back_image(graph, node->part, image);
        }
    return status;
}

/* ---- Making and dropping parts ---- */

static vx_status make_graphs(vx_graph graph, vx_uint32 count) {
    struct parts *parts = &graph->parts;
    vx_status status = VX_SUCCESS;
    parts->names = calloc(count, sizeof *parts->names);
    parts->backings = calloc(graph->nodes * (OUT2 + 1), sizeof *parts->backings);
    if (parts->names == NULL || parts->backings == NULL)
        return VX_ERROR_NO_MEMORY;
    while (status == VX_SUCCESS && parts->count < count) {
        status = create(graph->base.context, CREATE_GRAPH, NULL, 0, &parts->names[parts->count]);
        parts->count += status == VX_SUCCESS ? 1 : 0;
    }
    return status;
}

vx_status make_parts(vx_graph graph) {
    if (graph->parts.count > 0)
        return VX_SUCCESS;
    /* The server's verdict doesn't cover scalars. */
    if (explain_cycle(graph))
        return VX_ERROR_INVALID_GRAPH;
    vx_status status = make_graphs(graph, number_parts(graph));
    if (status == VX_SUCCESS)
        status = back_images(graph);
    if (status == VX_SUCCESS)
        status = register_delays(graph, last_name(graph));
    if (status != VX_SUCCESS)
        drop_parts(graph);
    return status;
}

void drop_parts(vx_graph graph) {
    struct parts *parts = &graph->parts;
    for (vx_uint32 i = 0; i < parts->count; i++)
        forget(graph->base.context, parts->names[i]);
    for (vx_size i = 0; i < parts->backing_count; i++)
        forget(graph->base.context, parts->backings[i].name);
    for (vx_node node = graph->first; node != NULL; node = node->next_node) {
        node->part = 0;
        node->sent_to_part.number = 0;
    }
    free_parts(graph);
}

void free_parts(vx_graph graph) {
    free(graph->parts.names);
    free(graph->parts.backings);
    graph->parts = (struct parts){.count = 0};
}

vx_uint32 last_name(const struct _vx_graph *graph) {
    return graph->parts.names[graph->parts.count - 1];
}

bool is_in_last_part(const struct _vx_node *node) {
    return node->part + 1 >= node->graph->parts.count;
}

/* ---- Runs ---- */

/* Sends a node to its part, with the values that scalars have now. */
static vx_status send_to_part(vx_node node) {
    struct parts *parts = &node->graph->parts;
    struct _vx_image images[OUT2 + 1];
    struct call call = node->call;
    for (unsigned place = IN1; place <= OUT2; place++) {
        vx_image image = virtual_at(node, place);
        if (image == NULL)
            continue;
        images[place] = *image;
        images[place].base.name = backing_of(parts, image)->name;
        call.operands[place] = &images[place].base;
    }
    return send_call(node, &call, parts->names[node->part], &node->sent_to_part);
}

static vx_status send_part(vx_graph graph, vx_uint32 part) {
    vx_status status = VX_SUCCESS;
    for (vx_node node = graph->first; node != NULL && status == VX_SUCCESS; node = node->next_node)
        if (node->part == part)
            node->status = status = send_to_part(node);
    return status;
}

/* Runs a part, and reads the scalars and arrays that its nodes wrote. */
static vx_status run_part(vx_graph graph, vx_uint32 part) {
    vx_status status = ask_verdict(graph, graph->parts.names[part], PROCESS_GRAPH);
    graph->has_begun = graph->has_begun || status == VX_SUCCESS;
    for (vx_node node = graph->first; node != NULL && status == VX_SUCCESS; node = node->next_node)
        if (node->part == part)
            status = take_extremes(graph->base.context, &node->call);
    return status;
}

vx_status run_first_parts(vx_graph graph) {
    vx_uint32 last = graph->parts.count - 1;
    vx_status status = send_part(graph, 0);
    for (vx_uint32 part = 0; status == VX_SUCCESS && part < last; part++) {
        status = run_part(graph, part);
        if (status == VX_SUCCESS)
            status = send_part(graph, part + 1);
    }
    return status;
}
