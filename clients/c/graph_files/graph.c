/* Graph files, and the graphs that are built of them. */
#include "internal.h"

#include <glib/gstdio.h>
#include <stdio.h>

/* The bounds of a file, which are those of the Python package. */
enum { VERSION = 1, GREATEST_FILE = 1 << 27, MOST_OBJECTS = 1024, MOST_NODES = 256 };

/* Copies a fault for the caller, with the file's path and the place in it. */
static void copy_fault(const char *path, const char *place, GError *error, vx_char *fault,
                       vx_size size) {
    snprintf(fault, size, "%s: %s%s%s", path, place, *place == '\0' ? "" : ": ", error->message);
}

/* ---- Files ---- */

static gboolean check_version(JsonNode *root, GError **error) {
    JsonObject *told =
        root != NULL && JSON_NODE_HOLDS_OBJECT(root) ? json_node_get_object(root) : NULL;
    gint64 version;
    if (told == NULL || !read_number(told, "feqyldan", VERSION, VERSION, &version, NULL))
        return refuse(error, "this isn't a graph file of version %d: it lacks \"feqyldan\": %d; "
                      "Graph.save() writes it", VERSION, VERSION);
    JsonNode *objects = json_object_get_member(told, "objects");
    JsonNode *nodes = json_object_get_member(told, "nodes");
    if (objects == NULL || !JSON_NODE_HOLDS_OBJECT(objects) || nodes == NULL ||
        !JSON_NODE_HOLDS_ARRAY(nodes))
        return refuse(error, "a graph file needs \"objects\", by their names, and \"nodes\", a "
                      "list");
    return TRUE;
}

static gboolean check_top_fields(JsonObject *root, GError **error) {
    static const char *const KNOWN[] = {"feqyldan", "objects", "nodes", NULL};
    g_autoptr(GList) fields = json_object_get_members(root);
    for (GList *field = fields; field != NULL; field = field->next)
        if (!g_strv_contains(KNOWN, field->data))
            return refuse(error, "a graph file has no field '%s'; it has 'feqyldan', 'objects' and "
                          "'nodes': leave it out", (char *)field->data);
    return TRUE;
}

static gboolean check_names(JsonObject *objects, GError **error) {
    g_autoptr(GList) names = json_object_get_members(objects);
    for (GList *name = names; name != NULL; name = name->next) {
        if (g_str_equal(name->data, ""))
            return refuse(error, "the name of an object can't be empty");
        if (is_slot(name->data))
            return refuse(error, "'%s' is the name of a slot: give the object a name without its "
                          "end", (char *)name->data);
    }
    return TRUE;
}

static gboolean check_count(guint count, guint most, const char *things, GError **error) {
    return count <= most || refuse(error, "a graph file has at most %u %s, and this one has %u",
                                   most, things, count);
}

gboolean read_file(const char *path, gint64 most, const char *advice, char **text, gsize *length,
                   GError **error) {
    GStatBuf state;
    const gboolean is_there = g_stat(path, &state) == 0;
    if (is_there && !S_ISREG(state.st_mode))
        return refuse(error, "%s isn't a regular file: copy its bytes to one", path);
    if (is_there && state.st_size > most)
        return refuse(error, "%s has %" G_GINT64_FORMAT " bytes, and at most %" G_GINT64_FORMAT
                      " are read%s", path, (gint64)state.st_size, most, advice);
    return g_file_get_contents(path, text, length, error);
}

static gboolean parse(feqyldan_graph_file_t *file, GError **error) {
    g_autofree char *text = NULL;
    gsize length;
    if (!read_file(file->path, GREATEST_FILE,
                   ": save large images as PGM files, and name them in the file by \"file\"", &text,
                   &length, error) ||
        !parse_json(file->parser, text, length, error))
        return FALSE;
    JsonNode *root = json_parser_get_root(file->parser);
    if (!check_version(root, error) || !check_top_fields(json_node_get_object(root), error))
        return FALSE;
    file->objects = json_object_get_object_member(json_node_get_object(root), "objects");
    file->nodes = json_object_get_array_member(json_node_get_object(root), "nodes");
    return check_names(file->objects, error) &&
           check_count(json_object_get_size(file->objects), MOST_OBJECTS, "objects", error) &&
           check_count(json_array_get_length(file->nodes), MOST_NODES, "nodes", error);
}

static vx_bool bool_of(gboolean value) { return value ? vx_true_e : vx_false_e; }

/* Adds what the nodes and the contents of an object say about it. */
static void describe_use(const feqyldan_graph_file_t *file, JsonObject *told,
                         feqyldan_object_t *described) {
    static const char *const OUTPUT_KINDS[] = {"image", "distribution", "extremes", NULL};
    static const char *const SUMS[] = {"accum", NULL};
    described->is_output = bool_of(g_strv_contains(OUTPUT_KINDS, described->kind) &&
                                   is_operand(file->nodes, WRITTEN, described->name));
    described->is_sum = bool_of(is_operand(file->nodes, SUMS, described->name));
    described->is_fixed = bool_of(has(told, "samples") || has(told, "file") || has(told, "valid"));
}

/* Describes the object of a name, or gives the fault with its place. */
static gboolean describe(feqyldan_graph_file_t *file, const char *name, GError **error) {
    feqyldan_object_t described;
    JsonNode *value = json_object_get_member(file->objects, name);
    gboolean is_described = JSON_NODE_HOLDS_OBJECT(value) &&
                            describe_object(file, name, json_node_get_object(value), &described,
                                            error);
    if (!is_described) {
        g_autofree char *words = words_of(value);
        if (!JSON_NODE_HOLDS_OBJECT(value))
            refuse(error, "an object must be a JSON object with a \"kind\", not %s", words);
        g_prefix_error(error, "object \"%s\": ", name);
        return FALSE;
    }
    describe_use(file, json_node_get_object(value), &described);
    g_array_append_val(file->descriptions, described);
    return TRUE;
}

static gboolean describe_all(feqyldan_graph_file_t *file, GError **error) {
    g_autoptr(GList) names = json_object_get_members(file->objects);
    for (GList *name = names; name != NULL; name = name->next)
        if (!describe(file, name->data, error))
            return FALSE;
    return TRUE;
}

feqyldan_graph_file_t *feqyldanReadGraphFile(const vx_char *path, vx_char *fault, vx_size size) {
    g_autoptr(GError) error = NULL;
    feqyldan_graph_file_t *file = g_new0(feqyldan_graph_file_t, 1);
    file->path = g_strdup(path);
    file->folder = g_path_get_dirname(path);
    file->parser = json_parser_new();
    file->descriptions = g_array_new(FALSE, FALSE, sizeof(feqyldan_object_t));
    file->pictures = g_hash_table_new_full(g_str_hash, g_str_equal, g_free, free_pgm);
    if (parse(file, &error) && describe_all(file, &error))
        return file;
    copy_fault(path, "", error, fault, size);
    feqyldanFreeGraphFile(file);
    return NULL;
}

void feqyldanFreeGraphFile(feqyldan_graph_file_t *file) {
    if (file == NULL)
        return;
    g_free(file->path);
    g_free(file->folder);
    g_object_unref(file->parser);
    g_array_unref(file->descriptions);
    g_hash_table_unref(file->pictures);
    g_free(file);
}

const feqyldan_object_t *feqyldanGetObjects(const feqyldan_graph_file_t *file, vx_size *count) {
    *count = file->descriptions->len;
    return (const feqyldan_object_t *)file->descriptions->data;
}

/* ---- Graphs ---- */

static void release_reference(gpointer reference) {
    vx_reference released = reference;
    vxReleaseReference(&released);
}

static void release_extremes(gpointer extremes) {
    feqyldan_extremes_t *found = extremes;
    vx_reference parts[] = {(vx_reference)found->min,       (vx_reference)found->max,
                            (vx_reference)found->min_at,    (vx_reference)found->max_at,
                            (vx_reference)found->min_count, (vx_reference)found->max_count};
    for (gsize at = 0; at < G_N_ELEMENTS(parts); at++)
        if (parts[at] != NULL)
            vxReleaseReference(&parts[at]);
    g_free(found);
}

void feqyldanReleaseGraph(feqyldan_graph_t *graph) {
    if (graph == NULL)
        return;
    vxReleaseGraph(&graph->graph);
    g_hash_table_unref(graph->references);
    g_hash_table_unref(graph->extremes);
    g_hash_table_unref(graph->writers);
    g_hash_table_unref(graph->readers);
    g_free(graph);
}

static gboolean make_all(feqyldan_graph_t *graph, char **place, GError **error) {
    vx_size count;
    const feqyldan_object_t *objects = feqyldanGetObjects(graph->file, &count);
    for (vx_size at = 0; at < count; at++) {
        g_free(*place);
        *place = g_strdup_printf("object \"%s\"", objects[at].name);
        JsonObject *told = json_object_get_object_member(graph->file->objects, objects[at].name);
        if (!build_object(graph, objects[at].name, told, error))
            return FALSE;
    }
    return TRUE;
}

static gboolean add_nodes(feqyldan_graph_t *graph, char **place, GError **error) {
    for (guint at = 0; at < json_array_get_length(graph->file->nodes); at++) {
        g_free(*place);
        *place = g_strdup_printf("node %u", at + 1);
        if (!build_node(graph, at + 1, json_array_get_element(graph->file->nodes, at), error))
            return FALSE;
    }
    return TRUE;
}

/* Lets delays age with the graph, and checks the inputs. */
static gboolean complete(feqyldan_graph_t *graph, char **place, GError **error) {
    vx_size count;
    const feqyldan_object_t *objects = feqyldanGetObjects(graph->file, &count);
    for (vx_size at = 0; at < count; at++) {
        const char *name = objects[at].name;
        JsonObject *told = json_object_get_object_member(graph->file->objects, name);
        g_free(*place);
        *place = g_strdup_printf("object \"%s\"", name);
        if (has(told, "ages") && json_object_get_boolean_member(told, "ages") &&
            vxRegisterAutoAging(graph->graph, g_hash_table_lookup(graph->references, name)) !=
                VX_SUCCESS)
            return refuse_call(graph->context, error);
        if (!objects[at].is_input)
            continue;
        const char *writer = g_hash_table_lookup(graph->writers, name);
        if (writer != NULL)
            return refuse(error, "it can't be an input: %s, writes it", writer);
        if (!g_hash_table_contains(graph->readers, name))
            return refuse(error, "it can't be an input: no node reads it");
    }
    return TRUE;
}

/* Sets the size of the file's input, and the one that it gets. */
static void plan_size(feqyldan_graph_t *graph, vx_uint32 width, vx_uint32 height) {
    vx_size count;
    const feqyldan_object_t *objects = feqyldanGetObjects(graph->file, &count);
    for (vx_size at = 0; at < count; at++)
        if (objects[at].is_input && graph->from_width == 0) {
            graph->from_width = objects[at].width;
            graph->from_height = objects[at].height;
        }
    graph->width = width == 0 ? graph->from_width : width;
    graph->height = height == 0 ? graph->from_height : height;
}

static gboolean check_sides(vx_uint32 width, vx_uint32 height, GError **error) {
    return (width <= GREATEST_SIDE && height <= GREATEST_SIDE) ||
           refuse(error, "pictures have at most %d columns and rows, and not %u by %u",
                  GREATEST_SIDE, width, height);
}

feqyldan_graph_t *feqyldanBuildGraph(const feqyldan_graph_file_t *file, vx_context context,
                                     vx_uint32 width, vx_uint32 height, vx_char *fault,
                                     vx_size size) {
    g_autoptr(GError) error = NULL;
    g_autofree char *place = g_strdup("");
    feqyldan_graph_t *graph = g_new0(feqyldan_graph_t, 1);
    graph->file = file;
    graph->context = context;
    graph->graph = vxCreateGraph(context);
    graph->references =
        g_hash_table_new_full(g_str_hash, g_str_equal, g_free, release_reference);
    graph->extremes = g_hash_table_new_full(g_str_hash, g_str_equal, g_free, release_extremes);
    graph->writers = g_hash_table_new_full(g_str_hash, g_str_equal, g_free, g_free);
    graph->readers = g_hash_table_new_full(g_str_hash, g_str_equal, g_free, NULL);
    plan_size(graph, width, height);
    gboolean is_there = check_sides(width, height, &error) &&
                        (vxGetStatus((vx_reference)graph->graph) == VX_SUCCESS ||
                         refuse_call(context, &error));
    if (is_there && make_all(graph, &place, &error) && add_nodes(graph, &place, &error) &&
        complete(graph, &place, &error))
        return graph;
    copy_fault(file->path, place, error, fault, size);
    feqyldanReleaseGraph(graph);
    return NULL;
}

vx_graph feqyldanGetGraph(const feqyldan_graph_t *graph) { return graph->graph; }

vx_reference feqyldanFindObject(const feqyldan_graph_t *graph, const vx_char *name) {
    return g_hash_table_lookup(graph->references, name);
}

const feqyldan_extremes_t *feqyldanFindExtremes(const feqyldan_graph_t *graph,
                                                const vx_char *name) {
    return g_hash_table_lookup(graph->extremes, name);
}
