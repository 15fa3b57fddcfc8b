/* A server with the graph, which runs one frame after another. */
#include "internal.h"

#include <string.h>
#include <sys/stat.h>

static gboolean is_socket(const char *path) {
    struct stat state;
    return stat(path, &state) == 0 && S_ISSOCK(state.st_mode);
}

static void set_context(Station *station, vx_context context) {
    g_mutex_lock(&station->lock);
    station->context = context;
    if (context != NULL && station->is_cancelled)
        feqyldanCancel(context);
    g_mutex_unlock(&station->lock);
}

/* The context is there before its server answers, so that a cancel can end that wait too. */
static void note_context(vx_context context, void *station) { set_context(station, context); }

Station *station_new(const Plan *plan, const char *server, gdouble timeout, Gray16 gray16) {
    Station *station = g_new0(Station, 1);
    station->plan = plan;
    station->gray16 = gray16;
    const gboolean is_core = g_strcmp0(server, "core") == 0;
    if (is_core || g_strcmp0(server, "process") == 0)
        station->connection.server = server;
    else if (server != NULL && is_socket(server))
        station->connection.socket = server;
    else
        station->connection.program = server;
    /* A call of a server in this process can't be given up. */
    if (timeout >= 0)
        station->connection.timeout = timeout;
    else
        station->connection.timeout = is_core ? 0 : DEFAULT_TIMEOUT;
    station->connection.announce = note_context;
    station->connection.argument = station;
    g_mutex_init(&station->lock);
    return station;
}

void station_free(Station *station) {
    station_close(station);
    g_free(station->samples);
    g_mutex_clear(&station->lock);
    g_free(station);
}

static void drop_graph(Station *station) {
    feqyldanReleaseGraph(station->graph);
    station->graph = NULL;
    station->runs = 0;
}

void station_close(Station *station) {
    vx_context context = station->context;
    drop_graph(station);
    set_context(station, NULL);
    if (context != NULL)
        vxReleaseContext(&context);
}

void station_cancel(Station *station) {
    g_mutex_lock(&station->lock);
    station->is_cancelled = TRUE;
    if (station->context != NULL)
        feqyldanCancel(station->context);
    g_mutex_unlock(&station->lock);
}

/* Gives the reason of the last failure. */
static void explain(Station *station, char fault[FAULT_BYTES]) {
    feqyldanGetFault(station->context, fault, FAULT_BYTES);
}

static gboolean connect_server(Station *station, char fault[FAULT_BYTES]) {
    return station->context != NULL ||
           feqyldanCreateContext(&station->connection, fault, FAULT_BYTES) != NULL;
}

/* The reader of graph files says in words alone why it fails. Whether it is the server's end shows
   at one more request. */
static gboolean has_ended(Station *station) {
    vx_graph graph = vxCreateGraph(station->context);
    const gboolean is_over = vxGetStatus((vx_reference)graph) == VX_FAILURE;
    vxReleaseGraph(&graph);
    return is_over;
}

static vx_status build_graph(Station *station, char fault[FAULT_BYTES]) {
    drop_graph(station);
    if (!connect_server(station, fault))
        return VX_FAILURE;
    station->graph = feqyldanBuildGraph(station->plan->file, station->context, station->width,
                                        station->height, fault, FAULT_BYTES);
    if (station->graph == NULL)
        return has_ended(station) ? VX_FAILURE : VX_ERROR_INVALID_GRAPH;
    vx_status status = vxVerifyGraph(feqyldanGetGraph(station->graph));
    if (status != VX_SUCCESS)
        explain(station, fault);
    return status;
}

vx_status station_build(Station *station, guint width, guint height, char fault[FAULT_BYTES]) {
    station->width = width;
    station->height = height;
    station->samples = g_renew(gint16, station->samples, (gsize)width * height);
    vx_status status = build_graph(station, fault);
    if (status != VX_SUCCESS)
        station_close(station);
    return status;
}

/* Copies all samples between an image of the graph and rows in memory. */
static vx_status copy(const Station *station, const feqyldan_object_t *image, gint stride,
                      const void *samples, vx_enum usage) {
    const vx_rectangle_t whole = {0, 0, station->width, station->height};
    const vx_imagepatch_addressing_t rows = {
        .dim_x = station->width,
        .dim_y = station->height,
        .stride_x = image->format == VX_DF_IMAGE_S16 ? 2 : 1,
        .stride_y = stride};
    return vxCopyImagePatch((vx_image)feqyldanFindObject(station->graph, image->name), &whole, 0,
                            &rows, (void *)samples, usage, VX_MEMORY_TYPE_HOST);
}

static vx_status write_frame(Station *station, const GstVideoFrame *in) {
    const feqyldan_object_t *input = station->plan->input;
    if (input->format == VX_DF_IMAGE_U8 || station->gray16 == WRAP_16)
        return copy(station, input, GST_VIDEO_FRAME_PLANE_STRIDE(in, 0),
                    GST_VIDEO_FRAME_PLANE_DATA(in, 0), VX_WRITE_ONLY);
    to_signed(in, station->width, station->height, station->gray16, station->samples);
    return copy(station, input, (gint)(station->width * sizeof(gint16)), station->samples,
                VX_WRITE_ONLY);
}

static vx_status read_frame(Station *station, GstVideoFrame *out) {
    const feqyldan_object_t *output = station->plan->output;
    vx_status status = copy(station, output, GST_VIDEO_FRAME_PLANE_STRIDE(out, 0),
                            GST_VIDEO_FRAME_PLANE_DATA(out, 0), VX_READ_ONLY);
    if (status == VX_SUCCESS && output->format == VX_DF_IMAGE_S16)
        to_unsigned(out, station->width, station->height, station->gray16);
    return status;
}

/* ---- Results ---- */

static vx_status add_counts(Station *station, const feqyldan_object_t *object,
                            GstStructure *results) {
    vx_uint32 counts[256];
    GValue list = G_VALUE_INIT, item = G_VALUE_INIT;
    vx_status status =
        vxCopyDistribution((vx_distribution)feqyldanFindObject(station->graph, object->name),
                           counts, VX_READ_ONLY, VX_MEMORY_TYPE_HOST);
    if (status != VX_SUCCESS)
        return status;
    g_value_init(&list, GST_TYPE_ARRAY);
    g_value_init(&item, G_TYPE_UINT);
    for (vx_uint32 bin = 0; bin < object->count; bin++) {
        g_value_set_uint(&item, counts[bin]);
        gst_value_array_append_value(&list, &item);
    }
    gst_structure_take_value(results, object->name, &list);
    return VX_SUCCESS;
}

static gint value_of(vx_scalar scalar) {
    vx_enum type = VX_TYPE_UINT8;
    union {
        vx_uint8 u8;
        vx_int16 s16;
    } value = {0};
    vxQueryScalar(scalar, VX_SCALAR_TYPE, &type, sizeof type);
    vxCopyScalar(scalar, &value, VX_READ_ONLY, VX_MEMORY_TYPE_HOST);
    return type == VX_TYPE_UINT8 ? value.u8 : value.s16;
}

static guint count_of(vx_scalar scalar) {
    vx_uint32 count = 0;
    vxCopyScalar(scalar, &count, VX_READ_ONLY, VX_MEMORY_TYPE_HOST);
    return count;
}

/* Adds the place of an extreme, unless no pixel is valid. */
static void add_place(GstStructure *found, const char *x, const char *y, vx_array array) {
    vx_coordinates2d_t place;
    if (vxCopyArrayRange(array, 0, 1, sizeof place, &place, VX_READ_ONLY, VX_MEMORY_TYPE_HOST) ==
        VX_SUCCESS)
        gst_structure_set(found, x, G_TYPE_UINT, place.x, y, G_TYPE_UINT, place.y, NULL);
}

static void add_extremes(Station *station, const feqyldan_object_t *object,
                         GstStructure *results) {
    const feqyldan_extremes_t *extremes = feqyldanFindExtremes(station->graph, object->name);
    GstStructure *found = gst_structure_new(
        "extremes", "min", G_TYPE_INT, value_of(extremes->min), "max", G_TYPE_INT,
        value_of(extremes->max), "min-count", G_TYPE_UINT, count_of(extremes->min_count),
        "max-count", G_TYPE_UINT, count_of(extremes->max_count), NULL);
    add_place(found, "min-x", "min-y", extremes->min_at);
    add_place(found, "max-x", "max-y", extremes->max_at);
    gst_structure_set(results, object->name, GST_TYPE_STRUCTURE, found, NULL);
    gst_structure_free(found);
}

static vx_status read_results(Station *station, GstStructure **found) {
    const Plan *plan = station->plan;
    g_autoptr(GstStructure) results = gst_structure_new_empty("feqyldan");
    vx_status status = VX_SUCCESS;
    for (const feqyldan_object_t *object = plan->objects;
         object < plan->objects + plan->count && status == VX_SUCCESS; object++)
        if (object->is_output && strcmp(object->kind, "distribution") == 0)
            status = add_counts(station, object, results);
        else if (object->is_output && strcmp(object->kind, "extremes") == 0)
            add_extremes(station, object, results);
    if (status == VX_SUCCESS && gst_structure_n_fields(results) > 0)
        *found = g_steal_pointer(&results);
    return status;
}

/* ---- Frames ---- */

vx_status station_run(Station *station, const GstVideoFrame *in, GstVideoFrame *out,
                      GstStructure **results, char fault[FAULT_BYTES]) {
    if (station->graph == NULL) {
        g_snprintf(fault, FAULT_BYTES, "its server has ended");
        return VX_ERROR_NOT_ALLOCATED;
    }
    vx_status status = write_frame(station, in);
    if (status == VX_SUCCESS)
        status = vxProcessGraph(feqyldanGetGraph(station->graph));
    if (status == VX_SUCCESS && out != NULL)
        status = read_frame(station, out);
    if (status == VX_SUCCESS)
        status = read_results(station, results);
    if (status == VX_SUCCESS)
        station->runs++;
    else
        explain(station, fault);
    return status;
}
