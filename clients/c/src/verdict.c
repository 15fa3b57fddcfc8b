/* Verdicts on graphs. The server gives only a code. So the node at fault is found here for the log,
   and the open sizes and formats of virtual images are resolved here too. */
#include "internal.h"

#include <string.h>

/* The object that a log entry about a node refers to. The node of a call in immediate mode is no
   object, so it is the context. */
static vx_reference about_of(vx_node node) {
    return node->base.type == VX_TYPE_NODE ? &node->base : &node->base.context->base;
}

void describe_node(vx_node node, char *words, size_t size) {
    const char *name = definition_of(node->call.function)->node_name;
    unsigned number = 0;
    if (node->base.type != VX_TYPE_NODE) {
        snprintf(words, size, "%s", definition_of(node->call.function)->immediate_name);
        return;
    }
    for (vx_node other = node->graph == NULL ? node : node->graph->first; other != node;
         other = other->next_node)
        number++;
    if (node->base.label[0] == '\0')
        snprintf(words, size, "node %u (%s)", number, name);
    else
        snprintf(words, size, "node %u (%s, \"%s\")", number, name, node->base.label);
}

static const char *format_name(vx_df_image format) {
    static const char *const names[] = {"open", "U8", "S16", "U32"};
    return names[format_number(format)];
}

/* ---- Sizes and formats ---- */

vx_image image_at(const struct _vx_node *node, unsigned place) {
    vx_reference operand = node->call.operands[place];
    return operand != NULL && operand->type == VX_TYPE_IMAGE ? (vx_image)operand : NULL;
}

/* The set with the format of the object in a place; the empty set where it has none. */
static uint8_t format_at(const struct _vx_node *node, unsigned place) {
    vx_reference operand = node->call.operands[place];
    vx_df_image format = 0;
    if (operand != NULL && operand->type == VX_TYPE_IMAGE)
        format = ((vx_image)operand)->found.format;
    if (operand != NULL && operand->type == VX_TYPE_THRESHOLD)
        format = ((vx_threshold)operand)->format;
    if (operand != NULL && operand->type == VX_TYPE_LUT)
        format = ((vx_lut)operand)->item == VX_TYPE_UINT8 ? VX_DF_IMAGE_U8 : VX_DF_IMAGE_S16;
    return (uint8_t)((1u << format_number(format)) >> 1);
}

/* The format that an output gets if its own is open. */
static vx_df_image output_of(const struct _vx_node *node) {
    static const vx_df_image formats[] = {VX_DF_IMAGE_U8, VX_DF_IMAGE_S16, VX_DF_IMAGE_U32};
    const struct rule *rules = definition_of(node->call.function)->rules;
    uint8_t in1 = format_at(node, IN1);
    const struct rule *rule = (rules[0].in1 & in1) || !(rules[1].in1 & in1) ? rules : rules + 1;
    return formats[rule->out >> 1];
}

/* Resolves what is open of an output. Returns whether something has changed. */
static bool resolve_output(vx_node node, unsigned place) {
    vx_image input = image_at(node, IN1), output = image_at(node, place);
    if (input == NULL || output == NULL || output->scope == 0)
        return false;
    struct described found = output->found;
    if (output->width == 0)
        found.width = input->found.width;
    if (output->height == 0)
        found.height = input->found.height;
    if (output->format == VX_DF_IMAGE_VIRT && input->found.format != VX_DF_IMAGE_VIRT)
        found.format = output_of(node);
    bool is_more = found.width != output->found.width || found.height != output->found.height ||
                   found.format != output->found.format;
    output->found = found;
    return is_more;
}

static void forget_found(vx_node node, unsigned place) {
    vx_image image = image_at(node, place);
    if (image != NULL)
        image->found = (struct described){image->width, image->height, image->format};
}

void resolve_images(vx_graph graph) {
    for (vx_node node = graph->first; node != NULL; node = node->next_node)
        for (unsigned place = IN1; place <= OUT2; place++)
            forget_found(node, place);
    bool is_more = true;
    /* A node may be before the writer of its input. In a cycle this might not end by itself. */
    for (vx_size round = 0; is_more && round <= graph->nodes; round++) {
        is_more = false;
        for (vx_node node = graph->first; node != NULL; node = node->next_node)
            for (unsigned place = OUT1; place <= OUT2; place++)
                is_more = resolve_output(node, place) || is_more;
    }
}

static bool fits(const struct _vx_node *node, const struct rule *rule) {
    bool has_outputs = true;
    for (unsigned place = OUT1; place <= OUT2; place++)
        if (image_at(node, place) != NULL)
            has_outputs = has_outputs && (rule->out & format_at(node, place));
    return (rule->in1 & format_at(node, IN1)) &&
           (rule->in2 == 0 || (rule->in2 & format_at(node, IN2))) && has_outputs;
}

static bool has_formats(const struct _vx_node *node) {
    const struct rule *rules = definition_of(node->call.function)->rules;
    return fits(node, &rules[0]) || fits(node, &rules[1]);
}

static bool has_sizes(const struct _vx_node *node) {
    const struct described *first = &image_at(node, IN1)->found;
    bool is_equal = true;
    for (unsigned place = IN2; place <= OUT2; place++) {
        vx_image image = image_at(node, place);
        if (image != NULL)
            is_equal = is_equal && image->found.width == first->width &&
                       image->found.height == first->height;
    }
    return is_equal;
}

/* ---- Links ---- */

static bool is_output(const struct _vx_node *node, const struct formal *formal) {
    return formal->place < OPERANDS && formal->direction != VX_INPUT &&
           node->call.operands[formal->place] != NULL;
}

/* The name of the parameter by which a node writes an object; NULL where it doesn't. Looks only at
   the parameters after the given one, unless that is NULL. */
static const char *writes(const struct _vx_node *node, vx_reference object,
                          const struct formal *after) {
    const struct definition *definition = definition_of(node->call.function);
    const struct formal *formal = after == NULL ? definition->formals : after + 1;
    for (; formal < definition->formals + definition->count; formal++)
        if (is_output(node, formal) && node->call.operands[formal->place] == object)
            return formal->name;
    return NULL;
}

static bool is_written(const struct _vx_graph *graph, vx_reference object) {
    for (vx_node node = graph->first; node != NULL; node = node->next_node)
        if (writes(node, object, NULL) != NULL)
            return true;
    return false;
}

/* Finds the first node with an output that is written a second time, by that node or a later one.
   Looks at the outputs that are objects of the library alone, or at all others. */
static vx_node find_second_writer(vx_graph graph, bool is_of_library, const struct formal **which,
                                  vx_node *other) {
    for (vx_node node = graph->first; node != NULL; node = node->next_node) {
        const struct definition *definition = definition_of(node->call.function);
        for (vx_uint32 i = 0; i < definition->count; i++) {
            const struct formal *formal = *which = &definition->formals[i];
            bool is_own = formal->type == VX_TYPE_SCALAR || formal->type == VX_TYPE_ARRAY;
            if (!is_output(node, formal) || is_own != is_of_library)
                continue;
            for (*other = node; *other != NULL; *other = (*other)->next_node)
                if (writes(*other, node->call.operands[formal->place],
                           *other == node ? formal : NULL) != NULL)
                    return node;
        }
    }
    return NULL;
}

static void tell_writers(vx_node node, const struct formal *formal, vx_node other) {
    char first[VX_MAX_LOG_MESSAGE_LEN / 4], second[VX_MAX_LOG_MESSAGE_LEN / 4];
    describe_node(node, first, sizeof first);
    describe_node(other, second, sizeof second);
    other->status = VX_ERROR_MULTIPLE_WRITERS;
    tell(about_of(other), VX_ERROR_MULTIPLE_WRITERS, "%s writes %s, which %s writes too: give "
         "each an output of its own", first, formal->name, second);
}

vx_status check_writers(vx_graph graph) {
    const struct formal *formal;
    vx_node other, node = find_second_writer(graph, true, &formal, &other);
    if (node == NULL)
        return VX_SUCCESS;
    tell_writers(node, formal, other);
    return VX_ERROR_MULTIPLE_WRITERS;
}

bool reads_image_of(const struct _vx_node *reader, const struct _vx_node *writer) {
    for (unsigned place = IN1; place <= IN2; place++) {
        vx_image image = image_at(reader, place);
        if (image != NULL && writes(writer, &image->base, NULL) != NULL)
            return true;
    }
    return false;
}

bool reads_scalar_of(const struct _vx_node *reader, const struct _vx_node *writer) {
    vx_reference amount = reader->call.operands[AMOUNT];
    return amount != NULL && writes(writer, amount, NULL) != NULL;
}

bool reads_written_scalar(const struct _vx_node *node) {
    vx_reference amount = node->call.operands[AMOUNT];
    return amount != NULL && is_written(node->graph, amount);
}

/* Whether a node reads an image or a scalar that is written by a node that isn't done. */
static bool waits(const struct _vx_node *node) {
    for (vx_node other = node->graph->first; other != NULL; other = other->next_node)
        if (other->status != VX_SUCCESS &&
            (reads_image_of(node, other) || reads_scalar_of(node, other)))
            return true;
    return false;
}

/* The first node that is on a cycle or depends on one. */
static vx_node find_cycle(vx_graph graph) {
    for (vx_node node = graph->first; node != NULL; node = node->next_node)
        node->status = VX_ERROR_INVALID_GRAPH;
    bool is_more = true;
    while (is_more) {
        is_more = false;
        for (vx_node node = graph->first; node != NULL; node = node->next_node)
            if (node->status != VX_SUCCESS && !waits(node)) {
                node->status = VX_SUCCESS;
                is_more = true;
            }
    }
    vx_node found = graph->first;
    while (found != NULL && found->status == VX_SUCCESS)
        found = found->next_node;
    for (vx_node node = graph->first; node != NULL; node = node->next_node)
        node->status = VX_SUCCESS;
    return found;
}

/* ---- The log ---- */

static void tell_node(vx_node node, vx_status status, const char *words) {
    char what[VX_MAX_LOG_MESSAGE_LEN / 4];
    describe_node(node, what, sizeof what);
    node->status = status;
    tell(about_of(node), status, "%s: %s", what, words);
}

/* Lists the images of a node: parameter, format and size. */
static void list_images(const struct _vx_node *node, char *words, size_t size) {
    const struct definition *definition = definition_of(node->call.function);
    size_t length = 0;
    words[0] = '\0';
    for (vx_uint32 i = 0; i < definition->count; i++) {
        const struct formal *formal = &definition->formals[i];
        vx_image image = formal->place <= OUT2 ? image_at(node, formal->place) : NULL;
        if (image != NULL && length < size)
            length += (size_t)snprintf(words + length, size - length, "%s%s is %s, %u x %u",
                                       length == 0 ? "" : "; ", formal->name,
                                       format_name(image->found.format), image->found.width,
                                       image->found.height);
    }
}

/* Whether a node alone gets this status for its formats or its sizes. */
static bool is_at_fault(const struct _vx_node *node, vx_status status) {
    if (status == VX_ERROR_INVALID_FORMAT)
        return !has_formats(node);
    return has_formats(node) && !has_sizes(node);
}

static bool explain_images(vx_graph graph, vx_status status) {
    char images[VX_MAX_LOG_MESSAGE_LEN / 4], words[VX_MAX_LOG_MESSAGE_LEN / 2];
    resolve_images(graph);
    /* The server looks at nodes in the order in which it got them, which may be another one. */
    vx_node node = graph->first;
    while (node != NULL && !is_at_fault(node, status))
        node = node->next_node;
    if (node == NULL)
        return false;
    list_images(node, images, sizeof images);
    if (status == VX_ERROR_INVALID_FORMAT)
        snprintf(words, sizeof words, "the formats have to be %s: %s",
                 definition_of(node->call.function)->expects, images);
    else
        snprintf(words, sizeof words, "the images have to be of one size: %s", images);
    tell_node(node, status, words);
    return true;
}

static bool explain_link(vx_graph graph) {
    for (vx_node node = graph->first; node != NULL; node = node->next_node) {
        const struct definition *definition = definition_of(node->call.function);
        for (vx_uint32 i = 0; i < definition->count; i++) {
            const struct formal *formal = &definition->formals[i];
            vx_image image = formal->place <= OUT2 ? image_at(node, formal->place) : NULL;
            char words[VX_MAX_LOG_MESSAGE_LEN / 4];
            if (image == NULL || image->scope == 0 || formal->direction == VX_OUTPUT ||
                (formal->direction == VX_INPUT && is_written(graph, &image->base)))
                continue;
            snprintf(words, sizeof words, "%s is a virtual image that %s", formal->name,
                     formal->direction == VX_INPUT
                         ? "no node writes: add the node that does"
                         : "can't be added to: give one of vxCreateImage");
            tell_node(node, VX_ERROR_INVALID_LINK, words);
            return true;
        }
    }
    return false;
}

static bool explain_writers(vx_graph graph) {
    const struct formal *formal;
    vx_node other, node = find_second_writer(graph, false, &formal, &other);
    if (node != NULL)
        tell_writers(node, formal, other);
    return node != NULL;
}

bool explain_cycle(vx_graph graph) {
    vx_node node = find_cycle(graph);
    if (node != NULL)
        tell_node(node, VX_ERROR_INVALID_GRAPH,
                  "it reads, directly or through other nodes, what it writes: remove a node of "
                  "this cycle, or let it read an older slot of a delay");
    return node != NULL;
}

void explain_verdict(vx_graph graph, vx_status status) {
    bool is_explained = false;
    if (status == VX_ERROR_MULTIPLE_WRITERS)
        is_explained = explain_writers(graph);
    if (status == VX_ERROR_INVALID_GRAPH)
        is_explained = explain_cycle(graph);
    if (status == VX_ERROR_INVALID_LINK)
        is_explained = explain_link(graph);
    if (status == VX_ERROR_INVALID_FORMAT || status == VX_ERROR_INVALID_DIMENSION)
        is_explained = explain_images(graph, status);
    if (!is_explained)
        tell(graph->base.type == VX_TYPE_GRAPH ? &graph->base : &graph->base.context->base, status,
             "the server refused the graph: %s%s", name_of_status(status),
             advice_on(VERIFY_GRAPH, status));
}

void explain_call(vx_context context, const struct call *call, vx_status status) {
    struct _vx_graph graph = {.base.context = context, .nodes = 1};
    struct _vx_node node = {.base.context = context, .graph = &graph, .call = *call};
    graph.first = &node;
    explain_verdict(&graph, status);
}
