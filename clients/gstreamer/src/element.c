/* The element "feqyldan": a graph file that a server runs on each grey frame. Frames are run in the
   streaming thread, or with servers=N by N threads, with up to N frames under way. Results leave in
   the frames' order: a frame is pushed when the N-th one after it comes, and all of them are before
   a serialized event. */
#include "internal.h"

GST_DEBUG_CATEGORY_STATIC(feqyldan_debug);
#define GST_CAT_DEFAULT feqyldan_debug

#define FORMATS "{ GRAY8, GRAY16_LE }"
#define CAPS "video/x-raw, format = (string) " FORMATS ", width = (int) [ 1, 8192 ], " \
             "height = (int) [ 1, 8192 ], framerate = (fraction) [ 0/1, MAX ]"
enum { GREATEST_SIDE = 8192 };
#define META "GstFeqyldanMeta"

/* MOST_RESTARTS is how often a frame is tried again with a new server. Before all but the first the
   element waits, in seconds: a broker that is being restarted is then there again. */
enum { MOST_SERVERS = 64, MOST_RESTARTS = 3, RESTART_WAIT = 1 };
enum { GRAPH = 1, OUTPUT, SERVER, TIMEOUT, SERVERS, GRAY16 };

typedef struct {
    gchar *graph, *output, *server;
    gdouble timeout;
    guint servers;
    Gray16 gray16;
} Settings;

typedef struct {
    GstVideoFilter base;
    /* The properties, which the object's lock guards; and their copy that the element runs with
       from its start on. */
    Settings properties, settings;

    Plan *plan;
    /* The stations, one for each server. Frame k of a stream is run by station k modulo their
       number, so none runs two frames at the same time. */
    GPtrArray *stations;
    GThreadPool *threads;
    /* Jobs under way, the oldest first. */
    GQueue jobs;
    guint64 frames;
    /* Of the frames under way. Other threads ask for it, so the object's lock guards it. */
    GstClockTime latency;
    /* Guard the jobs' ends. */
    GMutex lock;
    GCond end;
    /* Wakes jobs that wait for a restart, when the element stops. */
    GCond stopping;
    /* Set atomically: whether the element stops, and whether it has posted its error. */
    gint is_stopping, has_failed;
} Feqyldan;

typedef struct {
    GstVideoFilterClass parent;
} FeqyldanClass;

/* A frame under way. */
typedef struct {
    Feqyldan *element;
    Station *station;
    guint64 number;
    /* The output is NULL where the frame itself is pushed. Otherwise the frame is released when it
       has been run. */
    GstBuffer *in, *out;
    GstClockTime pts, duration;
    GstStructure *results;
    GstFlowReturn flow;
    gboolean is_over;
} Job;

GType feqyldan_get_type(void);
G_DEFINE_TYPE(Feqyldan, feqyldan, GST_TYPE_VIDEO_FILTER)

static GType gray16_type(void) {
    static gsize type;
    static const GEnumValue VALUES[] = {
        {CLAMP_16, "Samples above 32767 become 32767; negative results become 0", "clamp"},
        {HALVE_16, "Halves each sample on input, and doubles results", "halve"},
        {WRAP_16, "Takes the same 16 bits as a signed number", "wrap"},
        {0, NULL, NULL}};
    if (g_once_init_enter(&type))
        g_once_init_leave(&type, g_enum_register_static("GstFeqyldanGray16", VALUES));
    return type;
}

static gboolean is_stopping(Feqyldan *self) { return g_atomic_int_get(&self->is_stopping); }

/* Posts an error, unless there was one: what fails later fails because of the first. A stop lets
   what is under way fail, which is no error. Words that were cut in a letter would be none for
   Python. */
static void post_error(Feqyldan *self, GQuark domain, gint code, const char *words) {
    if (is_stopping(self) ||
        !g_atomic_int_compare_and_exchange(&self->has_failed, FALSE, TRUE))
        return;
    const gchar *graph = self->settings.graph;
    gst_element_message_full(GST_ELEMENT(self), GST_MESSAGE_ERROR, domain, code,
                             g_utf8_make_valid(words, -1),
                             graph == NULL ? g_strdup("no graph file")
                                           : g_strdup_printf("graph file %s", graph),
                             __FILE__, G_STRFUNC, __LINE__);
}

/* The words of a fault, after the graph file's path. Some faults begin with it. */
static char *with_path(const Feqyldan *self, const char *fault) {
    const gchar *graph = self->settings.graph;
    return g_str_has_prefix(fault, graph) ? g_strdup(fault)
                                          : g_strdup_printf("%s: %s", graph, fault);
}

/* ---- Frames ---- */

/* Waits until a new server may be started. Returns FALSE where the element stops. */
static gboolean await_restart(Feqyldan *self, guint attempt) {
    const gint64 end = g_get_monotonic_time() + RESTART_WAIT * G_USEC_PER_SEC;
    gboolean is_early = attempt > 1;
    g_mutex_lock(&self->lock);
    while (is_early && !is_stopping(self))
        is_early = g_cond_wait_until(&self->stopping, &self->lock, end);
    g_mutex_unlock(&self->lock);
    return !is_stopping(self);
}

/* Builds the station's graph on a new server, with a warning. */
static vx_status restart(Feqyldan *self, Station *station, guint attempt,
                         char fault[FAULT_BYTES]) {
    g_autofree char *words = with_path(self, fault);
    GST_ELEMENT_WARNING(self, RESOURCE, FAILED,
                        ("%s; starting a new server%s", words,
                         station->plan->has_memory ? ", where delays and sums begin anew" : ""),
                        ("attempt %u of %d", attempt, MOST_RESTARTS));
    station_close(station);
    return station_build(station, station->width, station->height, fault);
}

/* Checks that a frame in memory is what its caps say, or larger: then it is cropped. */
static gboolean check_frame(const GstVideoInfo *info, GstBuffer *buffer,
                            char fault[FAULT_BYTES]) {
    const GstVideoMeta *meta = gst_buffer_get_video_meta(buffer);
    const guint width = (guint)info->width, height = (guint)info->height;
    const gsize size = gst_buffer_get_size(buffer);
    if (meta == NULL && size < info->size)
        g_snprintf(fault, FAULT_BYTES, "a frame has %" G_GSIZE_FORMAT " bytes, and its caps need %"
                   G_GSIZE_FORMAT, size, info->size);
    else if (meta != NULL && meta->format != info->finfo->format)
        g_snprintf(fault, FAULT_BYTES, "a frame is %s by its caps, and %s by its GstVideoMeta",
                   info->finfo->name, gst_video_format_to_string(meta->format));
    else if (meta != NULL && (meta->width < width || meta->height < height))
        g_snprintf(fault, FAULT_BYTES, "a frame is %u by %u by its caps, and %u by %u by its "
                   "GstVideoMeta", width, height, meta->width, meta->height);
    else
        return TRUE;
    return FALSE;
}

/* Checks where the rows are by a GstVideoMeta: GStreamer only checks that the first byte is in the
   memory. The memory's own kind of map may say nothing about its bytes. */
static gboolean check_rows(const GstVideoFrame *frame, const GstVideoInfo *info,
                           char fault[FAULT_BYTES]) {
    const GstMapInfo *map = &frame->map[0];
    const gint64 stride = GST_VIDEO_FRAME_PLANE_STRIDE(frame, 0);
    const gint64 row = (gint64)info->width * GST_VIDEO_INFO_COMP_PSTRIDE(info, 0);
    const gint64 begin = (const guint8 *)GST_VIDEO_FRAME_PLANE_DATA(frame, 0) - map->data;
    if (map->data == NULL ||
        (stride >= row && begin + stride * (info->height - 1) + row <= (gint64)map->size))
        return TRUE;
    g_snprintf(fault, FAULT_BYTES, "by its GstVideoMeta a frame's rows of %" G_GINT64_FORMAT
               " bytes are %" G_GINT64_FORMAT " bytes apart, from byte %" G_GINT64_FORMAT
               " on: they must follow one another in its memory, which has %" G_GSIZE_FORMAT
               " bytes", row, stride, begin, map->size);
    return FALSE;
}

static gboolean map_frame(GstVideoFrame *frame, const GstVideoInfo *info, GstBuffer *buffer,
                          GstMapFlags flags, char fault[FAULT_BYTES]) {
    if (!check_frame(info, buffer, fault))
        return FALSE;
    if (!gst_video_frame_map(frame, info, buffer, flags)) {
        g_snprintf(fault, FAULT_BYTES, "a frame's memory can't be %s",
                   flags == GST_MAP_READ ? "read" : "written");
        return FALSE;
    }
    if (check_rows(frame, info, fault))
        return TRUE;
    gst_video_frame_unmap(frame);
    return FALSE;
}

static vx_status try_frame(Job *job, char fault[FAULT_BYTES]) {
    const GstVideoFilter *filter = GST_VIDEO_FILTER(job->element);
    GstVideoFrame in = {0}, out = {0};
    if (!map_frame(&in, &filter->in_info, job->in, GST_MAP_READ, fault))
        return VX_ERROR_INVALID_PARAMETERS;
    gboolean is_mapped = job->out == NULL ||
                         map_frame(&out, &filter->out_info, job->out, GST_MAP_WRITE, fault);
    vx_status status = VX_ERROR_INVALID_PARAMETERS;
    if (is_mapped)
        status = station_run(job->station, &in, job->out == NULL ? NULL : &out, &job->results,
                             fault);
    if (is_mapped && job->out != NULL)
        gst_video_frame_unmap(&out);
    gst_video_frame_unmap(&in);
    return status;
}

/* Runs a frame, with a new server where one has ended. */
static GstFlowReturn run_frame(Job *job) {
    Feqyldan *self = job->element;
    char fault[FAULT_BYTES];
    vx_status status = try_frame(job, fault);
    for (guint attempt = 1; status == VX_FAILURE && attempt <= MOST_RESTARTS; attempt++) {
        if (!await_restart(self, attempt))
            return GST_FLOW_FLUSHING;
        status = restart(self, job->station, attempt, fault);
        if (status == VX_SUCCESS)
            status = try_frame(job, fault);
    }
    if (status == VX_SUCCESS)
        return GST_FLOW_OK;
    if (is_stopping(self))
        return GST_FLOW_FLUSHING;
    /* Without a graph the frames that still come end at once. */
    if (status == VX_FAILURE)
        station_close(job->station);
    g_autofree char *words = with_path(self, fault);
    post_error(self, GST_STREAM_ERROR, GST_STREAM_ERROR_FAILED, words);
    return GST_FLOW_ERROR;
}

static void run_job(gpointer data, gpointer user_data) {
    Job *job = data;
    Feqyldan *self = user_data;
    job->flow = run_frame(job);
    /* A delay that still holds no frame gives results of nothing. */
    if (job->flow == GST_FLOW_OK && job->station->runs < self->plan->slots)
        job->flow = GST_BASE_TRANSFORM_FLOW_DROPPED;
    /* An element upstream may have few buffers. */
    if (job->out != NULL)
        gst_clear_buffer(&job->in);
    g_mutex_lock(&self->lock);
    job->is_over = TRUE;
    g_cond_broadcast(&self->end);
    g_mutex_unlock(&self->lock);
}

/* Adds the times of a frame to its results. A segment of bytes says nothing about times. */
static void add_times(Feqyldan *self, const Job *job, GstStructure *results) {
    const GstSegment *segment = &GST_BASE_TRANSFORM(self)->segment;
    GstClockTime stream_time = GST_CLOCK_TIME_NONE, running_time = GST_CLOCK_TIME_NONE;
    if (segment->format == GST_FORMAT_TIME) {
        stream_time = gst_segment_to_stream_time(segment, GST_FORMAT_TIME, job->pts);
        running_time = gst_segment_to_running_time(segment, GST_FORMAT_TIME, job->pts);
    }
    gst_structure_set(results, "frame", G_TYPE_UINT64, job->number, "timestamp", G_TYPE_UINT64,
                      job->pts, "duration", G_TYPE_UINT64, job->duration, "stream-time",
                      G_TYPE_UINT64, stream_time, "running-time", G_TYPE_UINT64, running_time,
                      NULL);
}

/* The meta of another element, which was copied with the frame, isn't about this graph. */
static void remove_meta(GstBuffer *buffer) {
    GstCustomMeta *meta = gst_buffer_get_custom_meta(buffer, META);
    if (meta != NULL)
        gst_buffer_remove_meta(buffer, (GstMeta *)meta);
}

/* Takes the frame that is pushed out of a job, with its results as a message and a meta. */
static GstBuffer *take_output(Feqyldan *self, Job *job) {
    GstBuffer *out = job->out;
    if (out == NULL)
        out = gst_buffer_make_writable(g_steal_pointer(&job->in));
    else
        job->out = NULL;
    remove_meta(out);
    if (job->results == NULL)
        return out;
    GstCustomMeta *meta = gst_buffer_add_custom_meta(out, META);
    gst_structure_set(gst_custom_meta_get_structure(meta), "results", GST_TYPE_STRUCTURE,
                      job->results, NULL);
    gst_element_post_message(GST_ELEMENT(self),
                             gst_message_new_element(GST_OBJECT(self),
                                                     g_steal_pointer(&job->results)));
    return out;
}

static void free_job(Job *job) {
    gst_clear_buffer(&job->in);
    gst_clear_buffer(&job->out);
    g_clear_pointer(&job->results, gst_structure_free);
    g_free(job);
}

/* Waits for the oldest job. The output stays NULL unless a frame is to be pushed. */
static GstFlowReturn finish_oldest(Feqyldan *self, GstBuffer **out) {
    Job *job = g_queue_pop_head(&self->jobs);
    g_mutex_lock(&self->lock);
    while (!job->is_over)
        g_cond_wait(&self->end, &self->lock);
    g_mutex_unlock(&self->lock);
    GstFlowReturn flow = job->flow;
    if (flow == GST_FLOW_OK) {
        if (job->results != NULL)
            add_times(self, job, job->results);
        *out = take_output(self, job);
    }
    free_job(job);
    return flow;
}

/* Pushes all frames under way. */
static void drain(Feqyldan *self) {
    while (!g_queue_is_empty(&self->jobs)) {
        GstBuffer *out = NULL;
        finish_oldest(self, &out);
        if (out != NULL)
            gst_pad_push(GST_BASE_TRANSFORM_SRC_PAD(self), out);
    }
}

/* Waits for all frames under way, and drops them. */
static void discard(Feqyldan *self) {
    while (!g_queue_is_empty(&self->jobs)) {
        GstBuffer *out = NULL;
        finish_oldest(self, &out);
        gst_clear_buffer(&out);
    }
}

/* Copies a frame that is pushed itself, after later ones have come: a pool upstream may have fewer
   buffers than frames are under way. */
static GstBuffer *copy_frame(GstBuffer *frame) {
    GstBuffer *copy = gst_buffer_copy_deep(frame);
    if (copy == NULL)
        return frame;
    gst_buffer_unref(frame);
    return copy;
}

static GstFlowReturn begin_job(Feqyldan *self, GstBuffer *in) {
    GstBaseTransform *transform = GST_BASE_TRANSFORM(self);
    GstBuffer *out = NULL;
    if (self->plan->output != NULL) {
        GstFlowReturn flow = GST_BASE_TRANSFORM_CLASS(feqyldan_parent_class)
                                 ->prepare_output_buffer(transform, in, &out);
        if (flow != GST_FLOW_OK) {
            gst_buffer_unref(in);
            return flow;
        }
    } else if (self->stations->len > 1)
        in = copy_frame(in);
    Job *job = g_new0(Job, 1);
    *job = (Job){.element = self, .in = in, .out = out, .number = self->frames,
                 .pts = GST_BUFFER_PTS(in), .duration = GST_BUFFER_DURATION(in)};
    job->station = g_ptr_array_index(self->stations, self->frames++ % self->stations->len);
    g_queue_push_tail(&self->jobs, job);
    if (self->threads == NULL)
        run_job(job, self);
    else
        g_thread_pool_push(self->threads, job, NULL);
    return GST_FLOW_OK;
}

static GstFlowReturn generate_output(GstBaseTransform *transform, GstBuffer **out) {
    Feqyldan *self = (Feqyldan *)transform;
    GstBuffer *in = g_steal_pointer(&transform->queued_buf);
    *out = NULL;
    if (in == NULL)
        return GST_FLOW_OK;
    if (self->stations->len == 0) {
        gst_buffer_unref(in);
        return is_stopping(self) ? GST_FLOW_FLUSHING : GST_FLOW_NOT_NEGOTIATED;
    }
    GstFlowReturn flow = begin_job(self, in);
    if (flow != GST_FLOW_OK || g_queue_get_length(&self->jobs) < self->stations->len)
        return flow;
    return finish_oldest(self, out);
}

/* Without this function GstVideoFilter would let frames be written in place. It is never called,
   since generate_output isn't the base class's. */
static GstFlowReturn transform_frame(GstVideoFilter *filter, GstVideoFrame *in,
                                     GstVideoFrame *out) {
    (void)filter, (void)in, (void)out;
    return GST_FLOW_NOT_SUPPORTED;
}

/* ---- Caps ---- */

static const char *output_format(const Plan *plan) {
    return format_of(plan->output == NULL ? plan->input : plan->output);
}

/* The caps of the other pad for those of one pad. */
static GstCaps *other_caps(GstBaseTransform *transform, GstPadDirection direction, GstCaps *caps,
                           const Plan *plan) {
    const char *in = format_of(plan->input), *out = output_format(plan);
    const gboolean is_sink = direction == GST_PAD_SINK;
    g_autoptr(GstCaps) limit = gst_caps_new_simple(
        "video/x-raw", "format", G_TYPE_STRING, is_sink ? in : out, "width", GST_TYPE_INT_RANGE, 1,
        GREATEST_SIDE, "height", GST_TYPE_INT_RANGE, 1, GREATEST_SIDE, NULL);
    if (plan->is_fixed)
        gst_caps_set_simple(limit, "width", G_TYPE_INT, (gint)plan->input->width, "height",
                            G_TYPE_INT, (gint)plan->input->height, NULL);
    GstCaps *fitting = gst_caps_make_writable(gst_caps_intersect(caps, limit));
    /* Where an element upstream asks for caps first, it posts an error without a reason. */
    if (gst_caps_is_empty(fitting))
        GST_WARNING_OBJECT(transform, "caps refused: the %s pad takes %" GST_PTR_FORMAT
                           ", and the caps there are %" GST_PTR_FORMAT, is_sink ? "sink" : "src",
                           limit, caps);
    gst_caps_set_simple(fitting, "format", G_TYPE_STRING, is_sink ? out : in, NULL);
    return fitting;
}

/* Takes a reference of the plan; NULL before the element starts. */
static Plan *take_plan(Feqyldan *self) {
    GST_OBJECT_LOCK(self);
    Plan *plan = self->plan == NULL ? NULL : plan_ref(self->plan);
    GST_OBJECT_UNLOCK(self);
    return plan;
}

static void set_plan(Feqyldan *self, Plan *plan) {
    GST_OBJECT_LOCK(self);
    Plan *before = self->plan;
    self->plan = plan;
    GST_OBJECT_UNLOCK(self);
    g_clear_pointer(&before, plan_unref);
}

static GstCaps *transform_caps(GstBaseTransform *transform, GstPadDirection direction,
                               GstCaps *caps, GstCaps *filter) {
    Plan *plan = take_plan((Feqyldan *)transform);
    GstCaps *other = plan == NULL ? gst_caps_from_string(CAPS)
                                  : other_caps(transform, direction, caps, plan);
    g_clear_pointer(&plan, plan_unref);
    if (filter == NULL)
        return other;
    GstCaps *both = gst_caps_intersect_full(filter, other, GST_CAPS_INTERSECT_FIRST);
    gst_caps_unref(other);
    return both;
}

/* Accepts all caps of frames, so that they come as an event: refuse_caps then says what is wrong
   with them. Otherwise the program only learns "not-negotiated". */
static gboolean accept_caps(GstBaseTransform *transform, GstPadDirection direction, GstCaps *caps) {
    return direction == GST_PAD_SINK ||
           GST_BASE_TRANSFORM_CLASS(feqyldan_parent_class)->accept_caps(transform, direction, caps);
}

/* Posts an error, and returns TRUE, if the graph's input doesn't take frames of these caps. */
static gboolean refuse_caps(Feqyldan *self, GstCaps *caps) {
    const Plan *plan = self->plan;
    GstVideoInfo info;
    g_autoptr(GstCaps) other =
        transform_caps(GST_BASE_TRANSFORM(self), GST_PAD_SINK, caps, NULL);
    if (!gst_caps_is_empty(other) && gst_video_info_from_caps(&info, caps))
        return FALSE;
    g_autofree char *size =
        plan->is_fixed ? g_strdup_printf("%u by %u", plan->input->width, plan->input->height)
                       : g_strdup("any size up to 8192 by 8192");
    g_autofree char *given = gst_caps_to_string(caps);
    g_autofree char *words = g_strdup_printf(
        "%s: its input \"%s\" takes video/x-raw, %s of %s, and the caps are %s: convert the frames "
        "by videoconvert and videoscale before the element", self->settings.graph,
        plan->input->name, format_of(plan->input), size, given);
    post_error(self, GST_STREAM_ERROR, GST_STREAM_ERROR_FORMAT, words);
    return TRUE;
}

/* Ends the waits for their servers. The object is locked. */
static void cancel_stations(Feqyldan *self) {
    g_ptr_array_foreach(self->stations, (GFunc)(void (*)(void))station_cancel, NULL);
}

static void stop_stations(Feqyldan *self) {
    discard(self);
    if (self->threads != NULL)
        g_thread_pool_free(g_steal_pointer(&self->threads), FALSE, TRUE);
    GST_OBJECT_LOCK(self);
    GPtrArray *stations = g_steal_pointer(&self->stations);
    self->stations = g_ptr_array_new_with_free_func((GDestroyNotify)station_free);
    GST_OBJECT_UNLOCK(self);
    g_ptr_array_unref(stations);
}

static void add_stations(Feqyldan *self) {
    GST_OBJECT_LOCK(self);
    const Settings *settings = &self->settings;
    while (self->stations->len < settings->servers)
        g_ptr_array_add(self->stations, station_new(self->plan, settings->server, settings->timeout,
                                                    settings->gray16));
    /* A stop cancels the stations that it finds. */
    if (is_stopping(self))
        cancel_stations(self);
    GST_OBJECT_UNLOCK(self);
}

/* Starts the threads. Some of them are enough. */
static gboolean add_threads(Feqyldan *self) {
    g_autoptr(GError) error = NULL;
    if (self->settings.servers == 1 || self->threads != NULL)
        return TRUE;
    self->threads = g_thread_pool_new(run_job, self, (gint)self->settings.servers, TRUE, &error);
    if (g_thread_pool_get_num_threads(self->threads) > 0)
        return TRUE;
    g_autofree char *words = with_path(self, error->message);
    post_error(self, GST_CORE_ERROR, GST_CORE_ERROR_THREAD, words);
    return FALSE;
}

/* Builds the graph on a station's server, or on new ones if it had one that has ended. */
static vx_status build_on(Feqyldan *self, Station *station, guint width, guint height,
                          char fault[FAULT_BYTES]) {
    guint attempt = station->context == NULL ? MOST_RESTARTS : 0;
    vx_status status = station_build(station, width, height, fault);
    while (status == VX_FAILURE && attempt < MOST_RESTARTS && await_restart(self, ++attempt))
        status = restart(self, station, attempt, fault);
    return status;
}

/* Builds the graph on each server, so that delays and sums begin anew. */
static gboolean build(Feqyldan *self, gint width, gint height) {
    char fault[FAULT_BYTES];
    for (guint at = 0; at < self->stations->len; at++) {
        Station *station = g_ptr_array_index(self->stations, at);
        if (build_on(self, station, (guint)width, (guint)height, fault) == VX_SUCCESS)
            continue;
        g_autofree char *words = with_path(self, fault);
        post_error(self, GST_RESOURCE_ERROR, GST_RESOURCE_ERROR_SETTINGS, words);
        return FALSE;
    }
    return TRUE;
}

static void set_latency(Feqyldan *self, const GstVideoInfo *info) {
    const gint numerator = GST_VIDEO_INFO_FPS_N(info), denominator = GST_VIDEO_INFO_FPS_D(info);
    const GstClockTime seconds = (self->settings.servers - 1) * GST_SECOND;
    GST_OBJECT_LOCK(self);
    self->latency =
        numerator == 0 ? 0 : gst_util_uint64_scale_int(seconds, denominator, numerator);
    GST_OBJECT_UNLOCK(self);
    gst_element_post_message(GST_ELEMENT(self), gst_message_new_latency(GST_OBJECT(self)));
}

static gboolean set_info(GstVideoFilter *filter, GstCaps *in_caps, GstVideoInfo *in_info,
                         GstCaps *out_caps, GstVideoInfo *out_info) {
    Feqyldan *self = (Feqyldan *)filter;
    (void)in_caps, (void)out_caps, (void)out_info;
    /* With the same caps on both pads the base class would let frames be written in place. */
    gst_base_transform_set_in_place(GST_BASE_TRANSFORM(self), self->plan->output == NULL);
    /* Downstream may negotiate anew within a stream, which goes on. */
    if (self->stations->len > 0 && gst_video_info_is_equal(in_info, &filter->in_info))
        return TRUE;
    add_stations(self);
    if (add_threads(self) &&
        build(self, GST_VIDEO_INFO_WIDTH(in_info), GST_VIDEO_INFO_HEIGHT(in_info))) {
        set_latency(self, in_info);
        return TRUE;
    }
    stop_stations(self);
    /* If caps were refused during a stop, an element upstream would post an error. */
    return is_stopping(self);
}

/* ---- Buffers ---- */

/* Asks for more buffers: else a pool of few would run out while frames are under way. */
static void raise_pool(GstQuery *query, guint more) {
    GstBufferPool *pool;
    guint size, least, most;
    if (gst_query_get_n_allocation_pools(query) == 0)
        return;
    gst_query_parse_nth_allocation_pool(query, 0, &pool, &size, &least, &most);
    gst_query_set_nth_allocation_pool(query, 0, pool, size, least + more,
                                      most == 0 ? 0 : most + more);
    gst_clear_object(&pool);
}

/* Where downstream's pool refuses so many, the base class takes another one. */
static gboolean decide_allocation(GstBaseTransform *transform, GstQuery *query) {
    raise_pool(query, ((Feqyldan *)transform)->settings.servers);
    return GST_BASE_TRANSFORM_CLASS(feqyldan_parent_class)->decide_allocation(transform, query);
}

static gboolean propose_allocation(GstBaseTransform *transform, GstQuery *decided,
                                   GstQuery *query) {
    if (!GST_BASE_TRANSFORM_CLASS(feqyldan_parent_class)
             ->propose_allocation(transform, decided, query))
        return FALSE;
    raise_pool(query, ((Feqyldan *)transform)->settings.servers + 1);
    return TRUE;
}

/* ---- Events, queries, states ---- */

/* Drops the frames under way, and lets delays and sums begin anew. */
static void end_flush(Feqyldan *self) {
    const GstVideoInfo *info = &GST_VIDEO_FILTER(self)->in_info;
    discard(self);
    if (self->stations->len > 0 && self->plan->has_memory &&
        !build(self, GST_VIDEO_INFO_WIDTH(info), GST_VIDEO_INFO_HEIGHT(info)))
        stop_stations(self);
}

static gboolean sink_event(GstBaseTransform *transform, GstEvent *event) {
    Feqyldan *self = (Feqyldan *)transform;
    GstCaps *caps;
    if (GST_EVENT_TYPE(event) == GST_EVENT_FLUSH_STOP)
        end_flush(self);
    else if (GST_EVENT_IS_SERIALIZED(event))
        drain(self);
    if (GST_EVENT_TYPE(event) == GST_EVENT_CAPS) {
        gst_event_parse_caps(event, &caps);
        if (refuse_caps(self, caps)) {
            gst_event_unref(event);
            return FALSE;
        }
    }
    return GST_BASE_TRANSFORM_CLASS(feqyldan_parent_class)->sink_event(transform, event);
}

static gboolean query(GstBaseTransform *transform, GstPadDirection direction, GstQuery *asked) {
    Feqyldan *self = (Feqyldan *)transform;
    gboolean is_live;
    GstClockTime least, most;
    /* This query is serialized with the frames, so its thread may push them. When the pad is
       flushing, another thread drops them. */
    if (GST_QUERY_TYPE(asked) == GST_QUERY_DRAIN &&
        !GST_PAD_IS_FLUSHING(GST_BASE_TRANSFORM_SINK_PAD(transform)))
        drain(self);
    if (!GST_BASE_TRANSFORM_CLASS(feqyldan_parent_class)->query(transform, direction, asked))
        return FALSE;
    if (direction != GST_PAD_SRC || GST_QUERY_TYPE(asked) != GST_QUERY_LATENCY)
        return TRUE;
    GST_OBJECT_LOCK(self);
    const GstClockTime own = self->latency;
    GST_OBJECT_UNLOCK(self);
    gst_query_parse_latency(asked, &is_live, &least, &most);
    gst_query_set_latency(asked, is_live, least + own,
                          GST_CLOCK_TIME_IS_VALID(most) ? most + own : most);
    return TRUE;
}

static void clear_settings(Settings *settings) {
    g_free(settings->graph);
    g_free(settings->output);
    g_free(settings->server);
}

/* A program may set properties while threads run with them. */
static void take_settings(Feqyldan *self) {
    clear_settings(&self->settings);
    GST_OBJECT_LOCK(self);
    self->settings = self->properties;
    self->settings.graph = g_strdup(self->properties.graph);
    self->settings.output = g_strdup(self->properties.output);
    self->settings.server = g_strdup(self->properties.server);
    GST_OBJECT_UNLOCK(self);
}

static gboolean start(GstBaseTransform *transform) {
    Feqyldan *self = (Feqyldan *)transform;
    const Settings *settings = &self->settings;
    char fault[FAULT_BYTES] = "the property graph isn't set: give the path of a graph file";
    take_settings(self);
    self->frames = 0;
    g_atomic_int_set(&self->is_stopping, FALSE);
    g_atomic_int_set(&self->has_failed, FALSE);
    if (settings->graph != NULL)
        set_plan(self, plan_read(settings->graph, settings->output, fault));
    if (self->plan != NULL && (settings->servers == 1 || !self->plan->has_memory))
        return TRUE;
    if (self->plan != NULL)
        g_snprintf(fault, FAULT_BYTES, "%s: servers is %u, and a graph with delays or sums needs "
                   "servers=1: its results depend on earlier frames", settings->graph,
                   settings->servers);
    set_plan(self, NULL);
    post_error(self, GST_RESOURCE_ERROR, GST_RESOURCE_ERROR_SETTINGS, fault);
    return FALSE;
}

static gboolean stop(GstBaseTransform *transform) {
    Feqyldan *self = (Feqyldan *)transform;
    stop_stations(self);
    set_plan(self, NULL);
    return TRUE;
}

static GstStateChangeReturn change_state(GstElement *element, GstStateChange change) {
    Feqyldan *self = (Feqyldan *)element;
    if (change == GST_STATE_CHANGE_PAUSED_TO_READY) {
        g_mutex_lock(&self->lock);
        g_atomic_int_set(&self->is_stopping, TRUE);
        g_cond_broadcast(&self->stopping);
        g_mutex_unlock(&self->lock);
        /* A server that hangs would hold the streaming thread until the timeout. */
        GST_OBJECT_LOCK(self);
        cancel_stations(self);
        GST_OBJECT_UNLOCK(self);
    }
    return GST_ELEMENT_CLASS(feqyldan_parent_class)->change_state(element, change);
}

/* ---- Properties ---- */

static void set_property(GObject *object, guint id, const GValue *value, GParamSpec *spec) {
    Settings *properties = &((Feqyldan *)object)->properties;
    gchar **texts[] = {NULL, &properties->graph, &properties->output, &properties->server};
    GST_OBJECT_LOCK(object);
    if (id <= SERVER) {
        g_free(*texts[id]);
        *texts[id] = g_value_dup_string(value);
    } else if (id == TIMEOUT)
        properties->timeout = g_value_get_double(value);
    else if (id == SERVERS)
        properties->servers = g_value_get_uint(value);
    else if (id == GRAY16)
        properties->gray16 = (Gray16)g_value_get_enum(value);
    else
        G_OBJECT_WARN_INVALID_PROPERTY_ID(object, id, spec);
    GST_OBJECT_UNLOCK(object);
}

static void get_property(GObject *object, guint id, GValue *value, GParamSpec *spec) {
    const Settings *properties = &((Feqyldan *)object)->properties;
    GST_OBJECT_LOCK(object);
    const gchar *const texts[] = {NULL, properties->graph, properties->output, properties->server};
    if (id <= SERVER)
        g_value_set_string(value, texts[id]);
    else if (id == TIMEOUT)
        g_value_set_double(value, properties->timeout);
    else if (id == SERVERS)
        g_value_set_uint(value, properties->servers);
    else if (id == GRAY16)
        g_value_set_enum(value, (gint)properties->gray16);
    else
        G_OBJECT_WARN_INVALID_PROPERTY_ID(object, id, spec);
    GST_OBJECT_UNLOCK(object);
}

static void finalize(GObject *object) {
    Feqyldan *self = (Feqyldan *)object;
    clear_settings(&self->properties);
    clear_settings(&self->settings);
    g_ptr_array_unref(self->stations);
    g_mutex_clear(&self->lock);
    g_cond_clear(&self->end);
    g_cond_clear(&self->stopping);
    G_OBJECT_CLASS(feqyldan_parent_class)->finalize(object);
}

static void install_properties(GObjectClass *object) {
    const GParamFlags flags = G_PARAM_READWRITE | G_PARAM_CONSTRUCT | G_PARAM_STATIC_STRINGS |
                              GST_PARAM_MUTABLE_READY;
    g_object_class_install_property(
        object, GRAPH, g_param_spec_string("graph", "Graph file", "The path of a graph file, as "
                                           "the Python package's Graph.save() writes it", NULL,
                                           flags));
    g_object_class_install_property(
        object, OUTPUT, g_param_spec_string("output", "Output", "The graph's image that is pushed; "
                                            "\"-\" pushes the frame itself. Default: the only "
                                            "image that the graph writes", NULL, flags));
    g_object_class_install_property(
        object, SERVER, g_param_spec_string("server", "Server", "The path of the server's program, "
                                            "or of a Unix socket; core, for a server in this "
                                            "process; or process, for one that is started. "
                                            "Default: FEQYLDAN_SOCKET, FEQYLDAN_PROGRAM, or "
                                            "feqyldan on PATH", NULL, flags));
    g_object_class_install_property(
        object, TIMEOUT, g_param_spec_double("timeout", "Timeout", "The seconds for which the "
                                             "server may neither take nor send a byte; then a new "
                                             "one is started. 0: FEQYLDAN_TIMEOUT, or no limit. "
                                             "-1: 10, or 0 with server=core, whose calls can't be "
                                             "given up", -1, 1e6, -1, flags));
    g_object_class_install_property(
        object, SERVERS, g_param_spec_uint("servers", "Servers", "The number of servers that run "
                                           "frames at the same time; each beyond the first delays "
                                           "the stream by one frame", 1, MOST_SERVERS, 1, flags));
    g_object_class_install_property(
        object, GRAY16, g_param_spec_enum("gray16", "16 bits", "How the unsigned samples of "
                                          "GRAY16_LE become S16, and S16 results unsigned",
                                          gray16_type(), CLAMP_16, flags));
}

static void add_template(GstElementClass *element, const char *name, GstPadDirection direction) {
    g_autoptr(GstCaps) caps = gst_caps_from_string(CAPS);
    gst_element_class_add_pad_template(
        element, gst_pad_template_new(name, direction, GST_PAD_ALWAYS, caps));
}

static void feqyldan_class_init(FeqyldanClass *class) {
    GObjectClass *object = G_OBJECT_CLASS(class);
    GstElementClass *element = GST_ELEMENT_CLASS(class);
    GstBaseTransformClass *transform = GST_BASE_TRANSFORM_CLASS(class);
    object->set_property = set_property;
    object->get_property = get_property;
    object->finalize = finalize;
    element->change_state = change_state;
    transform->start = start;
    transform->stop = stop;
    transform->transform_caps = transform_caps;
    transform->accept_caps = accept_caps;
    transform->sink_event = sink_event;
    transform->query = query;
    transform->decide_allocation = decide_allocation;
    transform->propose_allocation = propose_allocation;
    transform->generate_output = generate_output;
    GST_VIDEO_FILTER_CLASS(class)->set_info = set_info;
    GST_VIDEO_FILTER_CLASS(class)->transform_frame = transform_frame;
    install_properties(object);
    add_template(element, "sink", GST_PAD_SINK);
    add_template(element, "src", GST_PAD_SRC);
    gst_element_class_set_static_metadata(
        element, "Feqyldan graph", "Filter/Analyzer/Video",
        "Runs a graph of OpenVX functions on each grey frame, by the vision server Feqyldan",
        "The authors of Feqyldan");
    gst_type_mark_as_plugin_api(gray16_type(), 0);
}

static void feqyldan_init(Feqyldan *self) {
    self->stations = g_ptr_array_new_with_free_func((GDestroyNotify)station_free);
    g_queue_init(&self->jobs);
    g_mutex_init(&self->lock);
    g_cond_init(&self->end);
    g_cond_init(&self->stopping);
}

static gboolean plugin_init(GstPlugin *plugin) {
    /* Without tags no element drops the meta. */
    static const gchar *no_tags[] = {NULL};
    GST_DEBUG_CATEGORY_INIT(feqyldan_debug, "feqyldan", 0, "Graphs of Feqyldan");
    gst_meta_register_custom(META, no_tags, NULL, NULL, NULL);
    return gst_element_register(plugin, "feqyldan", GST_RANK_NONE, feqyldan_get_type());
}

#define PACKAGE "feqyldan"
GST_PLUGIN_DEFINE(GST_VERSION_MAJOR, GST_VERSION_MINOR, feqyldan,
                  "Graphs of OpenVX functions, by the vision server Feqyldan", plugin_init,
                  PLUGIN_VERSION, "Apache 2.0", PACKAGE, "https://www.khronos.org/openvx/")
