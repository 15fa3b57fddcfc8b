/* The objects of a graph file. */
#include "internal.h"

#include <string.h>

enum { GREATEST_SLOTS = 16, GREATEST_BINS = 256 };

typedef gboolean (*Maker)(feqyldan_graph_t *graph, const char *name, JsonObject *told,
                          GError **error);
static gboolean make_image(feqyldan_graph_t *, const char *, JsonObject *, GError **);
static gboolean make_virtual_image(feqyldan_graph_t *, const char *, JsonObject *, GError **);
static gboolean make_delay(feqyldan_graph_t *, const char *, JsonObject *, GError **);
static gboolean make_threshold(feqyldan_graph_t *, const char *, JsonObject *, GError **);
static gboolean make_table(feqyldan_graph_t *, const char *, JsonObject *, GError **);
static gboolean make_convolution(feqyldan_graph_t *, const char *, JsonObject *, GError **);
static gboolean make_distribution(feqyldan_graph_t *, const char *, JsonObject *, GError **);
static gboolean make_extremes(feqyldan_graph_t *, const char *, JsonObject *, GError **);

static const char *const KINDS[] = {"image",       "virtual image", "delay",    "threshold",
                                    "lookup table", "convolution",   "distribution", "extremes",
                                    NULL};
static const struct {
    const char *fields[9];
    Maker make;
} BY_KIND[] = {
    {{"format", "width", "height", "input", "samples", "file", "fill", "valid"}, make_image},
    {{"format", "width", "height"}, make_virtual_image},
    {{"format", "width", "height", "slots", "ages"}, make_delay},
    {{"format", "above", "between", "true_value", "false_value"}, make_threshold},
    {{"format", "entries"}, make_table},
    {{"rows", "scale"}, make_convolution},
    {{"bins", "offset", "range"}, make_distribution},
    {{NULL}, make_extremes}};

static const char *const FORMATS[] = {"U8", "S16", "U32", NULL};
/* For each format: OpenVX's, and the range and the bytes of a sample. */
static const struct {
    vx_df_image format;
    gint64 least, greatest;
    gsize bytes;
} BY_FORMAT[] = {{VX_DF_IMAGE_U8, 0, G_MAXUINT8, 1},
                 {VX_DF_IMAGE_S16, G_MININT16, G_MAXINT16, 2},
                 {VX_DF_IMAGE_U32, 0, G_MAXUINT32, 4}};

static gboolean read_format(JsonObject *told, guint *format, GError **error) {
    return read_choice(told, "format", "a format", FORMATS, format, error);
}

/* The same for a threshold or a table, which isn't of U32. */
static gboolean read_narrow_format(JsonObject *told, guint *format, GError **error) {
    static const char *const NARROW[] = {"U8", "S16", NULL};
    return read_choice(told, "format", "a format", NARROW, format, error);
}

/* The format of a picture's samples. */
static guint format_of(const struct pgm *pgm) { return pgm->bytes == 1 ? 0 : 1; }

/* ---- Descriptions ---- */

static gboolean check_fields(JsonObject *told, guint kind, GError **error) {
    g_autoptr(GList) fields = json_object_get_members(told);
    const char *const *known = BY_KIND[kind].fields;
    for (GList *field = fields; field != NULL; field = field->next)
        if (!g_str_equal(field->data, "kind") && !g_strv_contains(known, field->data)) {
            g_autofree char *all = g_strjoinv(", ", (char **)known);
            return refuse(error, "the kind '%s' has no field '%s'; it has %s", KINDS[kind],
                          (char *)field->data, known[0] == NULL ? "nothing more" : all);
        }
    return TRUE;
}

static gboolean check_switches(JsonObject *told, GError **error) {
    static const char *const SWITCHES[] = {"input", "ages", NULL};
    for (guint at = 0; SWITCHES[at] != NULL; at++) {
        JsonNode *value = json_object_get_member(told, SWITCHES[at]);
        if (value == NULL || json_node_get_value_type(value) == G_TYPE_BOOLEAN)
            continue;
        g_autofree char *words = words_of(value);
        return refuse(error, "\"%s\" must be true or false, not %s", SWITCHES[at], words);
    }
    return TRUE;
}

static vx_uint32 side_or_none(JsonObject *told, const char *field) {
    gint64 number = 0;
    return read_option(told, field, 0, G_MAXUINT32, &number, NULL) ? (vx_uint32)number : 0;
}

/* Reads the picture of an image, whose format and size are those of the picture. Where it can't be
   read, the build says so. */
static void describe_picture(feqyldan_graph_file_t *file, const char *picture,
                             feqyldan_object_t *described) {
    if (picture == NULL)
        return;
    struct pgm *pgm = read_pgm(file->folder, picture);
    g_hash_table_insert(file->pictures, g_strdup(described->name), pgm);
    if (pgm->fault != NULL)
        return;
    described->format = BY_FORMAT[format_of(pgm)].format;
    described->width = (vx_uint32)pgm->width;
    described->height = (vx_uint32)pgm->height;
}

gboolean describe_object(feqyldan_graph_file_t *file, const char *name, JsonObject *told,
                         feqyldan_object_t *described, GError **error) {
    guint kind, format;
    if (!read_choice(told, "kind", "a kind", KINDS, &kind, error) ||
        !check_fields(told, kind, error) || !check_switches(told, error))
        return FALSE;
    *described = (feqyldan_object_t){.name = name, .kind = KINDS[kind]};
    described->format = has(told, "format") && read_format(told, &format, NULL)
                            ? BY_FORMAT[format].format
                            : VX_DF_IMAGE_VIRT;
    described->width = side_or_none(told, "width");
    described->height = side_or_none(told, "height");
    if (has(told, "file"))
        describe_picture(file, read_text(told, "file", NULL), described);
    described->count = side_or_none(told, has(told, "slots") ? "slots" : "bins");
    described->is_input =
        has(told, "input") && json_object_get_boolean_member(told, "input") ? vx_true_e
                                                                            : vx_false_e;
    return TRUE;
}

gboolean build_object(feqyldan_graph_t *graph, const char *name, JsonObject *told, GError **error) {
    guint kind;
    return read_choice(told, "kind", "a kind", KINDS, &kind, error) &&
           BY_KIND[kind].make(graph, name, told, error);
}

/* ---- Images ---- */

/* Enters an object by its name, or refuses one that couldn't be made. */
static gboolean enter(feqyldan_graph_t *graph, const char *name, vx_reference made,
                      GError **error) {
    if (vxGetStatus(made) != VX_SUCCESS)
        return refuse_call(graph->context, error);
    /* A name that is too long for log entries is left out. */
    if (strlen(name) < VX_MAX_REFERENCE_NAME)
        vxSetReferenceName(made, name);
    g_hash_table_insert(graph->references, g_strdup(name), made);
    return TRUE;
}

static gboolean is_resized(const feqyldan_graph_t *graph) {
    return graph->width != graph->from_width || graph->height != graph->from_height;
}

static gboolean has_input_size(const feqyldan_graph_t *graph, gint64 width, gint64 height) {
    return width == graph->from_width && height == graph->from_height;
}

static gboolean read_side(JsonObject *told, const char *field, gboolean is_open, gint64 *side,
                          GError **error) {
    *side = 0;
    return (is_open && !has(told, field)) ||
           read_number(told, field, is_open ? 0 : 1, GREATEST_SIDE, side, error);
}

/* Gives the sides of an image as it is built. An open side is 0, or the file doesn't say it. */
static gboolean read_sides(const feqyldan_graph_t *graph, JsonObject *told, gboolean is_open,
                           gint64 *width, gint64 *height, GError **error) {
    if (!read_side(told, "width", is_open, width, error) ||
        !read_side(told, "height", is_open, height, error))
        return FALSE;
    /* An open side is the input's too, since the nodes' images have one size. */
    if (has_input_size(graph, *width == 0 ? graph->from_width : *width,
                       *height == 0 ? graph->from_height : *height)) {
        *width = *width == 0 ? 0 : graph->width;
        *height = *height == 0 ? 0 : graph->height;
    }
    return TRUE;
}

/* Refuses content that the file has for the input's size, where another one is built. */
static gboolean check_size(const feqyldan_graph_t *graph, const char *what, gint64 width,
                           gint64 height, GError **error) {
    if (!is_resized(graph) || !has_input_size(graph, width, height))
        return TRUE;
    return refuse(error,
                  "its %s is for %u by %u, and the pictures are %u by %u: give it a \"fill\", or "
                  "pictures of its size",
                  what, graph->from_width, graph->from_height, graph->width, graph->height);
}

static gboolean write_samples(vx_image image, guint format, gint64 width, gint64 height,
                              const void *samples) {
    const vx_rectangle_t whole = {0, 0, (vx_uint32)width, (vx_uint32)height};
    const vx_int32 bytes = (vx_int32)BY_FORMAT[format].bytes;
    const vx_imagepatch_addressing_t by_rows = {.dim_x = (vx_uint32)width,
                                                .dim_y = (vx_uint32)height,
                                                .stride_x = bytes,
                                                .stride_y = (vx_int32)width * bytes};
    return vxCopyImagePatch(image, &whole, 0, &by_rows, (void *)samples, VX_WRITE_ONLY,
                            VX_MEMORY_TYPE_HOST) == VX_SUCCESS;
}

/* Whether a text is base64 as Graph.save() writes it. GLib's decoder passes over the rest. */
static gboolean is_base64(const char *text) {
    const gsize letters = strspn(text, "ABCDEFGHIJKLMNOPQRSTUVWXYZabcdefghijklmnopqrstuvwxyz"
                                       "0123456789+/");
    const gsize fill = strspn(text + letters, "=");
    return text[letters + fill] == '\0' && fill <= 2 && (letters + fill) % 4 == 0;
}

/* Decodes and decompresses a field, which gives a number of bytes. */
static GBytes *decompress(const char *text, gsize size, GError **error) {
    gsize packed_size;
    if (!is_base64(text)) {
        refuse(error, "its samples aren't compressed text");
        return NULL;
    }
    g_autofree guchar *packed = g_base64_decode(text, &packed_size);
    g_autoptr(GConverter) decompressor =
        G_CONVERTER(g_zlib_decompressor_new(G_ZLIB_COMPRESSOR_FORMAT_ZLIB));
    g_autoptr(GInputStream) source = g_memory_input_stream_new_from_data(packed, packed_size, NULL);
    g_autoptr(GInputStream) stream = g_converter_input_stream_new(source, decompressor);
    /* One byte more shows samples that are too many. */
    g_autofree guint8 *samples = g_malloc(size + 1);
    gsize count;
    if (!g_input_stream_read_all(stream, samples, size + 1, &count, NULL, error)) {
        g_prefix_error(error, "its samples can't be decompressed: ");
        return NULL;
    }
    if (count != size) {
        refuse(error, "its samples have %s%" G_GSIZE_FORMAT " bytes, and it needs %" G_GSIZE_FORMAT,
               count > size ? "more than " : "", MIN(count, size), size);
        return NULL;
    }
    return g_bytes_new_take(g_steal_pointer(&samples), size);
}

static gboolean read_samples(feqyldan_graph_t *graph, vx_image image, guint format, gint64 width,
                             gint64 height, JsonObject *told, GError **error) {
    gsize bytes = BY_FORMAT[format].bytes, size = (gsize)(width * height) * bytes;
    const char *text = read_text(told, "samples", error);
    g_autoptr(GBytes) content = text == NULL ? NULL : decompress(text, size, error);
    if (content == NULL)
        return FALSE;
    g_autofree guint8 *samples = g_bytes_unref_to_data(g_steal_pointer(&content), &size);
    to_host_order(samples, size, bytes);
    return write_samples(image, format, width, height, samples) ||
           refuse_call(graph->context, error);
}

static gboolean fill(feqyldan_graph_t *graph, vx_image image, guint format, JsonObject *told,
                     GError **error) {
    gint64 number;
    vx_pixel_value_t value;
    memset(&value, 0, sizeof value);
    if (!read_number(told, "fill", BY_FORMAT[format].least, BY_FORMAT[format].greatest, &number,
                     error))
        return FALSE;
    if (BY_FORMAT[format].format == VX_DF_IMAGE_U8)
        value.U8 = (vx_uint8)number;
    else if (BY_FORMAT[format].format == VX_DF_IMAGE_S16)
        value.S16 = (vx_int16)number;
    else
        value.U32 = (vx_uint32)number;
    return vxSetImagePixelValues(image, &value) == VX_SUCCESS || refuse_call(graph->context, error);
}

/* An image that is entered by its name, or NULL. */
static vx_image make_entered(feqyldan_graph_t *graph, const char *name, guint format, gint64 width,
                             gint64 height, GError **error) {
    vx_image image = vxCreateImage(graph->context, (vx_uint32)width, (vx_uint32)height,
                                   BY_FORMAT[format].format);
    return enter(graph, name, (vx_reference)image, error) ? image : NULL;
}

/* Refuses a format or a size of the object that isn't that of the picture in its file. */
static gboolean check_fields_of_file(JsonObject *told, const struct pgm *pgm, GError **error) {
    guint format = format_of(pgm);
    gint64 width = pgm->width, height = pgm->height;
    if ((json_object_has_member(told, "format") && !read_format(told, &format, error)) ||
        !read_option(told, "width", 1, GREATEST_SIDE, &width, error) ||
        !read_option(told, "height", 1, GREATEST_SIDE, &height, error))
        return FALSE;
    return (format == format_of(pgm) && width == pgm->width && height == pgm->height) ||
           refuse(error, "its file has %s samples of %d by %d pixels, and its format, width or "
                  "height says something else: leave them out", FORMATS[format_of(pgm)],
                  (int)pgm->width, (int)pgm->height);
}

static gboolean make_from_file(feqyldan_graph_t *graph, const char *name, JsonObject *told,
                               gint64 *width, gint64 *height, GError **error) {
    if (read_text(told, "file", error) == NULL)
        return FALSE;
    const struct pgm *pgm = g_hash_table_lookup(graph->file->pictures, name);
    if (pgm->fault != NULL)
        return refuse(error, "%s", pgm->fault->message);
    if (!check_fields_of_file(told, pgm, error) ||
        !check_size(graph, "\"file\"", pgm->width, pgm->height, error))
        return FALSE;
    guint format = format_of(pgm);
    *width = pgm->width;
    *height = pgm->height;
    vx_image image = make_entered(graph, name, format, *width, *height, error);
    return image != NULL && (write_samples(image, format, *width, *height, pgm->samples) ||
                             refuse_call(graph->context, error));
}

static gboolean make_whole_image(feqyldan_graph_t *graph, const char *name, JsonObject *told,
                                 gint64 *width, gint64 *height, GError **error) {
    guint format;
    if (json_object_has_member(told, "file"))
        return make_from_file(graph, name, told, width, height, error);
    if (!read_format(told, &format, error) ||
        !read_sides(graph, told, FALSE, width, height, error))
        return FALSE;
    gboolean has_samples = json_object_has_member(told, "samples");
    if (has_samples && !check_size(graph, "\"samples\"", json_object_get_int_member(told, "width"),
                                   json_object_get_int_member(told, "height"), error))
        return FALSE;
    vx_image image = make_entered(graph, name, format, *width, *height, error);
    if (image == NULL)
        return FALSE;
    if (has_samples)
        return read_samples(graph, image, format, *width, *height, told, error);
    return !json_object_has_member(told, "fill") || fill(graph, image, format, told, error);
}

static gboolean set_valid(feqyldan_graph_t *graph, const char *name, JsonObject *told,
                          gint64 width, gint64 height, GError **error) {
    gint64 corners[4];
    JsonArray *list = read_list(told, "valid", error);
    if (list == NULL)
        return FALSE;
    if (json_array_get_length(list) != 4)
        return refuse(error, "'valid' must be [x0, y0, x1, y1]");
    for (guint at = 0; at < 4; at++)
        if (!read_item(list, at, "make the valid rectangle: a corner", 0,
                       at % 2 == 0 ? width : height, corners + at, error))
            return FALSE;
    const vx_rectangle_t valid = {(vx_uint32)corners[0], (vx_uint32)corners[1],
                                  (vx_uint32)corners[2], (vx_uint32)corners[3]};
    vx_image image = g_hash_table_lookup(graph->references, name);
    vx_status status = vxSetImageValidRectangle(image, &valid);
    if (status == VX_ERROR_INVALID_PARAMETERS)
        return refuse(error, "'valid' must be [x0, y0, x1, y1] with x0 below x1 and y0 below y1, or "
                      "four times 0 for no pixel");
    return status == VX_SUCCESS || refuse_call(graph->context, error);
}

static gboolean check_content(JsonObject *told, GError **error) {
    guint contents = 0;
    for (guint at = 4; at < 7; at++)
        contents += json_object_has_member(told, BY_KIND[0].fields[at]) ? 1 : 0;
    return contents < 2 || refuse(error, "give only one of samples, file and fill");
}

static gboolean make_image(feqyldan_graph_t *graph, const char *name, JsonObject *told,
                           GError **error) {
    gint64 width = 0, height = 0;
    if (!check_content(told, error) ||
        !make_whole_image(graph, name, told, &width, &height, error))
        return FALSE;
    if (!json_object_has_member(told, "valid"))
        return TRUE;
    /* A picture's file that has the input's size was refused before. */
    return (json_object_has_member(told, "file") ||
            check_size(graph, "\"valid\"", json_object_get_int_member(told, "width"),
                       json_object_get_int_member(told, "height"), error)) &&
           set_valid(graph, name, told, width, height, error);
}

static gboolean make_virtual_image(feqyldan_graph_t *graph, const char *name, JsonObject *told,
                                   GError **error) {
    gint64 width, height;
    guint format = 0;
    gboolean has_format = has(told, "format");
    if ((has_format && !read_format(told, &format, error)) ||
        !read_sides(graph, told, TRUE, &width, &height, error))
        return FALSE;
    vx_image image =
        vxCreateVirtualImage(graph->graph, (vx_uint32)width, (vx_uint32)height,
                             has_format ? BY_FORMAT[format].format : VX_DF_IMAGE_VIRT);
    return enter(graph, name, (vx_reference)image, error);
}

static gboolean make_delay(feqyldan_graph_t *graph, const char *name, JsonObject *told,
                           GError **error) {
    gint64 width, height, slots;
    guint format;
    if (!read_format(told, &format, error) ||
        !read_sides(graph, told, FALSE, &width, &height, error) ||
        !read_number(told, "slots", 1, GREATEST_SLOTS, &slots, error))
        return FALSE;
    vx_image exemplar = vxCreateImage(graph->context, (vx_uint32)width, (vx_uint32)height,
                                      BY_FORMAT[format].format);
    vx_delay delay = vxCreateDelay(graph->context, (vx_reference)exemplar, (vx_size)slots);
    gboolean is_entered = enter(graph, name, (vx_reference)delay, error);
    if (vxGetStatus((vx_reference)exemplar) == VX_SUCCESS)
        vxReleaseImage(&exemplar);
    return is_entered;
}

/* ---- Parameters ---- */

static vx_pixel_value_t pixel_of(guint format, gint64 number) {
    vx_pixel_value_t value;
    memset(&value, 0, sizeof value);
    if (BY_FORMAT[format].format == VX_DF_IMAGE_U8)
        value.U8 = (vx_uint8)number;
    else
        value.S16 = (vx_int16)number;
    return value;
}

/* Sets the limits of a threshold: one, or two. */
static gboolean set_limits(vx_threshold threshold, guint format, JsonObject *told, GError **error) {
    gint64 limits[2] = {0, 0};
    const gint64 least = BY_FORMAT[format].least, greatest = BY_FORMAT[format].greatest;
    if (has(told, "above")) {
        if (!read_number(told, "above", least, greatest, limits, error))
            return FALSE;
        vx_pixel_value_t limit = pixel_of(format, limits[0]);
        vxCopyThresholdValue(threshold, &limit, VX_WRITE_ONLY, VX_MEMORY_TYPE_HOST);
        return TRUE;
    }
    JsonArray *list = read_list(told, "between", error);
    if (list == NULL)
        return FALSE;
    if (json_array_get_length(list) != 2)
        return refuse(error, "'between' must be [lower, upper]");
    for (guint at = 0; at < 2; at++)
        if (!read_item(list, at, "a limit", least, greatest, limits + at, error))
            return FALSE;
    if (limits[0] > limits[1])
        return refuse(error, "the lower limit of 'between' is above the upper one");
    vx_pixel_value_t lower = pixel_of(format, limits[0]), upper = pixel_of(format, limits[1]);
    vxCopyThresholdRange(threshold, &lower, &upper, VX_WRITE_ONLY, VX_MEMORY_TYPE_HOST);
    return TRUE;
}

static gboolean make_threshold(feqyldan_graph_t *graph, const char *name, JsonObject *told,
                               GError **error) {
    guint format;
    gint64 on = 255, off = 0;
    if (!read_narrow_format(told, &format, error))
        return FALSE;
    if (has(told, "above") == has(told, "between"))
        return refuse(error, "a threshold needs either above or between, and %s was given",
                      has(told, "above") ? "both" : "neither");
    vx_threshold threshold = vxCreateThresholdForImage(
        graph->context, has(told, "above") ? VX_THRESHOLD_TYPE_BINARY : VX_THRESHOLD_TYPE_RANGE,
        BY_FORMAT[format].format, VX_DF_IMAGE_U8);
    if (!enter(graph, name, (vx_reference)threshold, error) ||
        !set_limits(threshold, format, told, error) ||
        !read_option(told, "true_value", 0, 255, &on, error) ||
        !read_option(told, "false_value", 0, 255, &off, error))
        return FALSE;
    vx_pixel_value_t passed = pixel_of(0, on), other = pixel_of(0, off);
    vxCopyThresholdOutput(threshold, &passed, &other, VX_WRITE_ONLY, VX_MEMORY_TYPE_HOST);
    return TRUE;
}

static gboolean make_table(feqyldan_graph_t *graph, const char *name, JsonObject *told,
                           GError **error) {
    guint format;
    JsonArray *list = NULL;
    if (!read_narrow_format(told, &format, error) ||
        (list = read_list(told, "entries", error)) == NULL)
        return FALSE;
    gboolean is_deep = BY_FORMAT[format].format == VX_DF_IMAGE_S16;
    guint count = json_array_get_length(list), wanted = is_deep ? G_MAXUINT16 + 1 : 256;
    if (count != wanted)
        return refuse(error, "a lookup table of %s needs %u entries, one for each sample value, "
                      "not %u", FORMATS[format], wanted, count);
    vx_lut table = vxCreateLUT(graph->context, is_deep ? VX_TYPE_INT16 : VX_TYPE_UINT8, count);
    if (!enter(graph, name, (vx_reference)table, error))
        return FALSE;
    g_autofree vx_int16 *entries = g_new(vx_int16, count);
    for (guint at = 0; at < count; at++) {
        gint64 entry;
        if (!read_item(list, at, "an entry", BY_FORMAT[format].least, BY_FORMAT[format].greatest,
                       &entry, error))
            return FALSE;
        if (is_deep)
            entries[at] = (vx_int16)entry;
        else
            ((vx_uint8 *)entries)[at] = (vx_uint8)entry;
    }
    return vxCopyLUT(table, entries, VX_WRITE_ONLY, VX_MEMORY_TYPE_HOST) == VX_SUCCESS ||
           refuse_call(graph->context, error);
}

/* Gives the coefficients, by rows. */
static gboolean read_rows(JsonArray *rows, guint columns, vx_int16 *coefficients, GError **error) {
    for (guint at = 0; at < json_array_get_length(rows) * columns; at++) {
        JsonNode *row = json_array_get_element(rows, at / columns);
        gint64 number;
        if (!JSON_NODE_HOLDS_ARRAY(row) ||
            json_array_get_length(json_node_get_array(row)) != columns)
            return refuse(error, "'rows' must be lists of one length");
        if (!read_item(json_node_get_array(row), at % columns, "a coefficient", G_MININT16,
                       G_MAXINT16, &number, error))
            return FALSE;
        coefficients[at] = (vx_int16)number;
    }
    return TRUE;
}

static gboolean make_convolution(feqyldan_graph_t *graph, const char *name, JsonObject *told,
                                 GError **error) {
    gint64 number = 1;
    JsonArray *rows = read_list(told, "rows", error);
    if (rows == NULL || !read_option(told, "scale", 1, (gint64)1 << 31, &number, error))
        return FALSE;
    guint count = json_array_get_length(rows), columns = 0;
    if (count > 0 && JSON_NODE_HOLDS_ARRAY(json_array_get_element(rows, 0)))
        columns = json_array_get_length(json_array_get_array_element(rows, 0));
    vx_convolution convolution = vxCreateConvolution(graph->context, columns, count);
    if (vxGetStatus((vx_reference)convolution) == VX_ERROR_INVALID_DIMENSION)
        return refuse(error, "'rows' must be 3, 5, 7 or 9 lists of 3, 5, 7 or 9 numbers, and the "
                      "first of these %u has %u", count, columns);
    if (!enter(graph, name, (vx_reference)convolution, error))
        return FALSE;
    g_autofree vx_int16 *coefficients = g_new0(vx_int16, count * columns);
    if (!read_rows(rows, columns, coefficients, error))
        return FALSE;
    vx_uint32 scale = (vx_uint32)number;
    vxCopyConvolutionCoefficients(convolution, coefficients, VX_WRITE_ONLY, VX_MEMORY_TYPE_HOST);
    return vxSetConvolutionAttribute(convolution, VX_CONVOLUTION_SCALE, &scale, sizeof scale) ==
               VX_SUCCESS ||
           refuse(error, "the scale of a convolution must be a power of 2 up to 2^31, not %u",
                  scale);
}

static gboolean make_distribution(feqyldan_graph_t *graph, const char *name, JsonObject *told,
                                  GError **error) {
    gint64 bins, offset = 0, range = 256;
    if (!read_number(told, "bins", 1, GREATEST_BINS, &bins, error) ||
        !read_option(told, "offset", 0, 255, &offset, error) ||
        !read_option(told, "range", 1, 256, &range, error))
        return FALSE;
    return enter(graph, name,
                 (vx_reference)vxCreateDistribution(graph->context, (vx_size)bins,
                                                    (vx_int32)offset, (vx_uint32)range),
                 error);
}

/* The scalars depend on the format of the node's input, so the node makes them. */
static gboolean make_extremes(feqyldan_graph_t *graph, const char *name, JsonObject *told,
                              GError **error) {
    (void)told;
    (void)error;
    g_hash_table_insert(graph->extremes, g_strdup(name), g_new0(feqyldan_extremes_t, 1));
    return TRUE;
}
