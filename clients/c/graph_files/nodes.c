/* The nodes of a graph file. */
#include "internal.h"

#include <stdlib.h>
#include <string.h>

/* The functions: their names and parameters in files, in the kernels' order. A file's shift is the
   kernel's scale or shift; "border" is the node's attribute. Multiply has a rounding policy after
   its policy, and MinMaxLoc has the parts of feqyldan_extremes_t in place of "extremes". */
static const struct function {
    const char *name;
    vx_enum kernel;
    const char *parameters[6];
} FUNCTIONS[] = {
    {"and_", VX_KERNEL_AND, {"in1", "in2", "output"}},
    {"or_", VX_KERNEL_OR, {"in1", "in2", "output"}},
    {"xor", VX_KERNEL_XOR, {"in1", "in2", "output"}},
    {"not_", VX_KERNEL_NOT, {"input", "output"}},
    {"add", VX_KERNEL_ADD, {"in1", "in2", "policy", "output"}},
    {"subtract", VX_KERNEL_SUBTRACT, {"in1", "in2", "policy", "output"}},
    {"multiply", VX_KERNEL_MULTIPLY, {"in1", "in2", "shift", "policy", "output"}},
    {"absdiff", VX_KERNEL_ABSDIFF, {"in1", "in2", "output"}},
    {"min", VX_KERNEL_MIN, {"in1", "in2", "output"}},
    {"max", VX_KERNEL_MAX, {"in1", "in2", "output"}},
    {"threshold", VX_KERNEL_THRESHOLD, {"input", "threshold", "output"}},
    {"table_lookup", VX_KERNEL_TABLE_LOOKUP, {"input", "lut", "output"}},
    {"convert_depth", VX_KERNEL_CONVERTDEPTH, {"input", "output", "policy", "shift"}},
    {"box3x3", VX_KERNEL_BOX_3x3, {"input", "output", "border"}},
    {"gaussian3x3", VX_KERNEL_GAUSSIAN_3x3, {"input", "output", "border"}},
    {"median3x3", VX_KERNEL_MEDIAN_3x3, {"input", "output", "border"}},
    {"erode3x3", VX_KERNEL_ERODE_3x3, {"input", "output", "border"}},
    {"dilate3x3", VX_KERNEL_DILATE_3x3, {"input", "output", "border"}},
    {"sobel3x3", VX_KERNEL_SOBEL_3x3, {"input", "output_x", "output_y", "border"}},
    {"convolve", VX_KERNEL_CUSTOM_CONVOLUTION, {"input", "convolution", "output", "border"}},
    {"histogram", VX_KERNEL_HISTOGRAM, {"input", "distribution"}},
    {"integral_image", VX_KERNEL_INTEGRAL_IMAGE, {"input", "output"}},
    {"min_max_loc", VX_KERNEL_MINMAXLOC, {"input", "extremes"}},
    {"accumulate", VX_KERNEL_ACCUMULATE, {"input", "accum"}},
    {"accumulate_square", VX_KERNEL_ACCUMULATE_SQUARE, {"input", "shift", "accum"}}};

static const char *const READ[] = {"input",     "in1", "in2",         "threshold",
                                   "lut", "convolution", NULL};
const char *const WRITTEN[] = {"output",   "accum",    "distribution", "extremes",
                               "output_x", "output_y", NULL};
static const char *const MAY_LACK[] = {"output_x", "output_y", "border", NULL};
static const char *const POLICIES[] = {"WRAP", "SATURATE", NULL};
static const vx_enum BY_POLICY[] = {VX_CONVERT_POLICY_WRAP, VX_CONVERT_POLICY_SATURATE};

/* A node while it is built. */
struct build {
    feqyldan_graph_t *graph;
    const struct function *function;
    guint number;
    JsonObject *told;
    vx_node node;
};

static gboolean has_operand(JsonNode *node, const char *const *parameters, const char *name) {
    for (; JSON_NODE_HOLDS_OBJECT(node) && *parameters != NULL; parameters++)
        if (g_strcmp0(read_text(json_node_get_object(node), *parameters, NULL), name) == 0)
            return TRUE;
    return FALSE;
}

gboolean is_operand(JsonArray *nodes, const char *const *parameters, const char *name) {
    for (guint at = 0; at < json_array_get_length(nodes); at++)
        if (has_operand(json_array_get_element(nodes, at), parameters, name))
            return TRUE;
    return FALSE;
}

static const struct function *read_function(JsonObject *told, GError **error) {
    const char *names[G_N_ELEMENTS(FUNCTIONS) + 1] = {NULL};
    JsonNode *value = json_object_get_member(told, "function");
    if (value == NULL) {
        refuse(error, "'function' is missing");
        return NULL;
    }
    g_autofree char *words = words_of(value);
    for (gsize at = 0; at < G_N_ELEMENTS(FUNCTIONS); at++) {
        g_autofree char *known = g_strdup_printf("'%s'", FUNCTIONS[at].name);
        if (strcmp(words, known) == 0)
            return &FUNCTIONS[at];
        names[at] = FUNCTIONS[at].name;
    }
    g_autofree char *all = g_strjoinv(", ", (char **)names);
    refuse(error, "there is no function %s; the functions are %s", words, all);
    return NULL;
}

static gboolean check_parameters(const struct function *function, JsonObject *told,
                                 GError **error) {
    g_autoptr(GList) names = json_object_get_members(told);
    for (GList *name = names; name != NULL; name = name->next)
        if (!g_str_equal(name->data, "function") &&
            !g_strv_contains(function->parameters, name->data)) {
            g_autofree char *all = g_strjoinv(", ", (char **)function->parameters);
            return refuse(error, "%s has no parameter '%s'; it has %s", function->name,
                          (char *)name->data, all);
        }
    return TRUE;
}

/* ---- Operands ---- */

/* Splits "smooth[-1]" into the delay's name and the slot. Returns FALSE for another name. */
static gboolean parse_slot(const char *name, char **delay, vx_int32 *slot) {
    g_autoptr(GRegex) pattern = g_regex_new("^(.+)\\[(0|-[0-9]+)\\]\\z",
                                              G_REGEX_DOTALL, 0, NULL);
    g_autoptr(GMatchInfo) match = NULL;
    if (!g_regex_match(pattern, name, 0, &match))
        return FALSE;
    g_autofree char *number = g_match_info_fetch(match, 2);
    *delay = g_match_info_fetch(match, 1);
    *slot = (vx_int32)CLAMP(g_ascii_strtoll(number, NULL, 10), G_MININT32, 0);
    return TRUE;
}

gboolean is_slot(const char *name) {
    g_autofree char *delay = NULL;
    vx_int32 slot;
    return parse_slot(name, &delay, &slot);
}

static vx_reference find_slot(feqyldan_graph_t *graph, const char *name, const char *delay_name,
                              vx_int32 slot, GError **error) {
    vx_delay delay = g_hash_table_lookup(graph->references, delay_name);
    vx_size slots = 0;
    if (delay == NULL) {
        refuse(error, "there is no object '%s': add it to \"objects\"", name);
        return NULL;
    }
    if (vxQueryDelay(delay, VX_DELAY_SLOTS, &slots, sizeof slots) != VX_SUCCESS) {
        refuse(error, "'%s' isn't a delay, so it has no slots: leave out [%d]", delay_name, slot);
        return NULL;
    }
    if ((vx_size)-(gint64)slot >= slots) {
        refuse(error, "there is no slot '%s': delay \"%s\" has %zu slots, from 0 down to %d, and "
               "no slot %d", name, delay_name, slots, 1 - (int)slots, slot);
        return NULL;
    }
    return vxGetReferenceFromDelay(delay, slot);
}

static vx_reference find_operand(feqyldan_graph_t *graph, const char *parameter, JsonNode *value,
                                 GError **error) {
    g_autofree char *words = words_of(value), *delay = NULL;
    const char *name = words[0] == '\'' ? json_node_get_string(value) : "";
    vx_int32 slot;
    vx_reference found = g_hash_table_lookup(graph->references, name);
    if (found != NULL)
        return found;
    if (parse_slot(name, &delay, &slot))
        return find_slot(graph, name, delay, slot, error);
    if (g_hash_table_contains(graph->extremes, name))
        refuse(error, "%s is extremes: name another object as %s", words, parameter);
    else
        refuse(error, "there is no object %s: add it to \"objects\"", words);
    return NULL;
}

/* Notes which node writes or reads an object of the file. */
static void note(struct build *build, const char *parameter, const char *name) {
    if (!g_strv_contains(READ, parameter))
        g_hash_table_insert(build->graph->writers, g_strdup(name),
                            g_strdup_printf("node %u, %s", build->number, build->function->name));
    else
        g_hash_table_add(build->graph->readers, g_strdup(name));
}

static gboolean set(struct build *build, vx_uint32 index, vx_reference value, GError **error) {
    return vxSetParameterByIndex(build->node, index, value) == VX_SUCCESS ||
           refuse_call(build->graph->context, error);
}

static gboolean set_operand(struct build *build, vx_uint32 index, const char *parameter,
                            GError **error) {
    JsonNode *value = json_object_get_member(build->told, parameter);
    vx_reference operand = find_operand(build->graph, parameter, value, error);
    if (operand == NULL)
        return FALSE;
    note(build, parameter, json_node_get_string(value));
    return set(build, index, operand, error);
}

/* ---- Numbers and policies ---- */

/* Sets a parameter that is a scalar of the kernel. */
static gboolean set_scalar(struct build *build, vx_uint32 index, vx_enum type, const void *value,
                           GError **error) {
    vx_scalar scalar = vxCreateScalar(build->graph->context, type, value);
    if (vxGetStatus((vx_reference)scalar) != VX_SUCCESS)
        return refuse_call(build->graph->context, error);
    gboolean is_set = set(build, index, (vx_reference)scalar, error);
    vxReleaseScalar(&scalar);
    return is_set;
}

static gboolean set_policy(struct build *build, vx_uint32 index, GError **error) {
    guint choice;
    static const vx_enum rounding = VX_ROUND_POLICY_TO_ZERO;
    if (!read_choice(build->told, "policy", "a policy", POLICIES, &choice, error) ||
        !set_scalar(build, index, VX_TYPE_ENUM, &BY_POLICY[choice], error))
        return FALSE;
    return build->function->kernel != VX_KERNEL_MULTIPLY ||
           set_scalar(build, index + 1, VX_TYPE_ENUM, &rounding, error);
}

static gboolean set_shift(struct build *build, vx_uint32 index, GError **error) {
    gint64 shift;
    const gint64 greatest = build->function->kernel == VX_KERNEL_CONVERTDEPTH ? 7 : 15;
    if (!read_number(build->told, "shift", 0, greatest, &shift, error))
        return FALSE;
    const vx_float32 scale = 1.0f / (vx_float32)(1 << shift);
    const vx_int32 number = (vx_int32)shift;
    if (build->function->kernel == VX_KERNEL_MULTIPLY)
        return set_scalar(build, index, VX_TYPE_FLOAT32, &scale, error);
    return set_scalar(build, index,
                      greatest == 7 ? VX_TYPE_INT32 : VX_TYPE_UINT32, &number, error);
}

static gboolean set_border(struct build *build, GError **error) {
    static const char *const MODES[] = {"UNDEFINED", "REPLICATE", NULL};
    static const vx_enum BY_MODE[] = {VX_BORDER_UNDEFINED, VX_BORDER_REPLICATE};
    guint mode = 0;
    gint64 constant = 0;
    vx_border_t border;
    memset(&border, 0, sizeof border);
    if (!has(build->told, "border"))
        return TRUE;
    /* Threads may build of one file at the same time. So a number isn't put into words: json-glib
       would count a reference to it without a lock. */
    JsonNode *value = json_object_get_member(build->told, "border");
    const gboolean is_number =
        JSON_NODE_HOLDS_VALUE(value) && json_node_get_value_type(value) == G_TYPE_INT64;
    if (is_number ? !read_number(build->told, "border", 0, 255, &constant, error)
                  : !read_choice(build->told, "border", "a border that isn't a number", MODES,
                                 &mode, error))
        return FALSE;
    border.mode = is_number ? VX_BORDER_CONSTANT : BY_MODE[mode];
    border.constant_value.U8 = (vx_uint8)constant;
    return vxSetNodeAttribute(build->node, VX_NODE_BORDER, &border, sizeof border) == VX_SUCCESS ||
           refuse_call(build->graph->context, error);
}

/* ---- Extremes ---- */

/* The type of the scalars for an input. An image without a format of its own gets that of the node
   that writes it, and VX_TYPE_INT16 is for both. */
static vx_enum item_of(vx_reference input) {
    vx_df_image format = VX_DF_IMAGE_VIRT;
    vxQueryImage((vx_image)input, VX_IMAGE_FORMAT, &format, sizeof format);
    return format == VX_DF_IMAGE_U8 ? VX_TYPE_UINT8 : VX_TYPE_INT16;
}

static gboolean set_extremes(struct build *build, vx_uint32 index, GError **error) {
    vx_context context = build->graph->context;
    const vx_uint32 zero = 0;
    const char *name = read_text(build->told, "extremes", error);
    if (name == NULL)
        return FALSE;
    feqyldan_extremes_t *found = g_hash_table_lookup(build->graph->extremes, name);
    if (found == NULL)
        return refuse(error, g_hash_table_contains(build->graph->references, name)
                                 ? "'%s' isn't extremes: name an object of this kind"
                                 : "there is no object '%s': add it to \"objects\"", name);
    if (found->min == NULL) {
        /* The input is set before the extremes. */
        JsonNode *input = json_object_get_member(build->told, "input");
        vx_enum item = item_of(find_operand(build->graph, "input", input, error));
        *found = (feqyldan_extremes_t){.min = vxCreateScalar(context, item, &zero),
                                       .max = vxCreateScalar(context, item, &zero),
                                       .min_at = vxCreateArray(context, VX_TYPE_COORDINATES2D, 1),
                                       .max_at = vxCreateArray(context, VX_TYPE_COORDINATES2D, 1),
                                       .min_count = vxCreateScalar(context, VX_TYPE_UINT32, &zero),
                                       .max_count = vxCreateScalar(context, VX_TYPE_UINT32, &zero)};
    }
    note(build, "extremes", name);
    const vx_reference parts[] = {(vx_reference)found->min,       (vx_reference)found->max,
                                  (vx_reference)found->min_at,    (vx_reference)found->max_at,
                                  (vx_reference)found->min_count, (vx_reference)found->max_count};
    for (vx_uint32 at = 0; at < G_N_ELEMENTS(parts); at++)
        if (!set(build, index + at, parts[at], error))
            return FALSE;
    return TRUE;
}

/* ---- Nodes ---- */

static gboolean set_parameter(struct build *build, vx_uint32 index, const char *parameter,
                              GError **error) {
    if (!has(build->told, parameter)) {
        if (g_strv_contains(MAY_LACK, parameter))
            return TRUE;
        return refuse(error, json_object_has_member(build->told, parameter) ? "'%s' is null"
                                                                            : "'%s' is missing",
                      parameter);
    }
    if (g_str_equal(parameter, "border"))
        return set_border(build, error);
    if (g_str_equal(parameter, "policy"))
        return set_policy(build, index, error);
    if (g_str_equal(parameter, "shift"))
        return set_shift(build, index, error);
    if (g_str_equal(parameter, "extremes"))
        return set_extremes(build, index, error);
    return set_operand(build, index, parameter, error);
}

static gboolean set_parameters(struct build *build, GError **error) {
    /* A rounding policy shifts the parameters after it. */
    vx_uint32 index = 0;
    for (const char *const *name = build->function->parameters; *name != NULL; name++) {
        if (!set_parameter(build, index, *name, error))
            return FALSE;
        gboolean has_rounding =
            build->function->kernel == VX_KERNEL_MULTIPLY && g_str_equal(*name, "policy");
        index += has_rounding ? 2 : 1;
    }
    return build->function->kernel != VX_KERNEL_SOBEL_3x3 || has(build->told, "output_x") ||
           has(build->told, "output_y") ||
           refuse(error, "it needs 'output_x', 'output_y' or both");
}

gboolean build_node(feqyldan_graph_t *graph, guint number, JsonNode *value, GError **error) {
    if (!JSON_NODE_HOLDS_OBJECT(value)) {
        g_autofree char *words = words_of(value);
        return refuse(error, "a node must be a JSON object with a \"function\", not %s", words);
    }
    JsonObject *told = json_node_get_object(value);
    const struct function *function = read_function(told, error);
    if (function == NULL || !check_parameters(function, told, error))
        return FALSE;
    vx_kernel kernel = vxGetKernelByEnum(graph->context, function->kernel);
    vx_node node = vxCreateGenericNode(graph->graph, kernel);
    vxReleaseKernel(&kernel);
    if (vxGetStatus((vx_reference)node) != VX_SUCCESS)
        return refuse_call(graph->context, error);
    gboolean is_set =
        set_parameters(&(struct build){graph, function, number, told, node}, error);
    vxReleaseNode(&node);
    return is_set;
}
