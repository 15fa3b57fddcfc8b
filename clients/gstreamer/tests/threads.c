/* Runs pipelines that have the element "t", while the main thread seeks and stops them and
   another one queries the element and sets a property of it.
   Prints errors. The element and the C library are linked in, so that the sanitizer of threads sees
   what they read and write: threads "videotestsrc ! feqyldan name=t graph=six.json ! fakesink". */
#include <gst/gst.h>
#include <sanitizer/tsan_interface.h>

enum { ROUNDS = 4, SEEKS = 4, STEP_MICROSECONDS = 8000 };

/* ---- GLib isn't compiled for the sanitizer: these functions tell it what GLib's order. The linker
   puts them in the place of GLib's (--wrap) in the element, the library and this file. ---- */

void __real_g_mutex_lock(GMutex *);
void __real_g_mutex_unlock(GMutex *);
void __real_g_cond_wait(GCond *, GMutex *);
GThreadPool *__real_g_thread_pool_new(GFunc, gpointer, gint, gboolean, GError **);
gboolean __real_g_thread_pool_push(GThreadPool *, gpointer, GError **);
void __real_g_atomic_rc_box_release_full(gpointer, GDestroyNotify);

void __wrap_g_mutex_lock(GMutex *mutex) {
    __real_g_mutex_lock(mutex);
    __tsan_acquire(mutex);
}

void __wrap_g_mutex_unlock(GMutex *mutex) {
    __tsan_release(mutex);
    __real_g_mutex_unlock(mutex);
}

void __wrap_g_cond_wait(GCond *condition, GMutex *mutex) {
    __tsan_release(mutex);
    __real_g_cond_wait(condition, mutex);
    __tsan_acquire(mutex);
}

/* The element has one function for jobs, and one that frees a box. */
static gpointer run_job, clear_plan;

static void run_pushed(gpointer job, gpointer user_data) {
    __tsan_acquire(job);
    ((GFunc)g_atomic_pointer_get(&run_job))(job, user_data);
}

GThreadPool *__wrap_g_thread_pool_new(GFunc run, gpointer user_data, gint most, gboolean exclusive,
                                      GError **error) {
    g_atomic_pointer_set(&run_job, run);
    return __real_g_thread_pool_new(run_pushed, user_data, most, exclusive, error);
}

gboolean __wrap_g_thread_pool_push(GThreadPool *pool, gpointer job, GError **error) {
    __tsan_release(job);
    return __real_g_thread_pool_push(pool, job, error);
}

static void clear_released(gpointer plan) {
    __tsan_acquire(plan);
    ((GDestroyNotify)g_atomic_pointer_get(&clear_plan))(plan);
}

void __wrap_g_atomic_rc_box_release_full(gpointer plan, GDestroyNotify clear) {
    g_atomic_pointer_set(&clear_plan, clear);
    __tsan_release(plan);
    __real_g_atomic_rc_box_release_full(plan, clear_released);
}

/* ---- Pipelines ---- */

static void query(GstElement *element, const char *name) {
    GstPad *pad = gst_element_get_static_pad(element, name);
    GstQuery *latency = gst_query_new_latency();
    gst_pad_query(pad, latency);
    gst_query_unref(latency);
    gst_caps_unref(gst_pad_query_caps(pad, NULL));
    gst_object_unref(pad);
}

static void set_again(GstElement *element) {
    char *graph;
    g_object_get(element, "graph", &graph, NULL);
    g_object_set(element, "graph", graph, NULL);
    g_free(graph);
}

static gint is_over;

/* Asks an element while others run, start and stop it. */
static gpointer ask(gpointer element) {
    while (!g_atomic_int_get(&is_over)) {
        query(element, "sink");
        query(element, "src");
        set_again(element);
        g_usleep(STEP_MICROSECONDS / 4);
    }
    return NULL;
}

static void print_error(GstElement *line, GstClockTime patience) {
    GstBus *bus = gst_element_get_bus(line);
    GstMessage *message =
        gst_bus_timed_pop_filtered(bus, patience, GST_MESSAGE_ERROR | GST_MESSAGE_EOS);
    GError *error = NULL;
    if (message != NULL && GST_MESSAGE_TYPE(message) == GST_MESSAGE_ERROR) {
        gst_message_parse_error(message, &error, NULL);
        g_print("%s\n", error->message);
        g_error_free(error);
    }
    g_clear_pointer(&message, gst_message_unref);
    gst_object_unref(bus);
}

/* Stops a pipeline between frames, or the last time at the stream's end. */
static void run_once(GstElement *line, gboolean is_last) {
    gst_element_set_state(line, GST_STATE_PLAYING);
    for (int seek = 0; seek < SEEKS; seek++) {
        g_usleep(STEP_MICROSECONDS);
        gst_element_seek_simple(line, GST_FORMAT_TIME, GST_SEEK_FLAG_FLUSH, 0);
    }
    g_usleep(STEP_MICROSECONDS);
    print_error(line, is_last ? GST_CLOCK_TIME_NONE : 0);
    gst_element_set_state(line, GST_STATE_NULL);
}

static void run_rounds(const char *words) {
    GError *error = NULL;
    GstElement *line = gst_parse_launch(words, &error);
    g_assert_no_error(error);
    GstElement *element = gst_bin_get_by_name(GST_BIN(line), "t");
    g_atomic_int_set(&is_over, FALSE);
    GThread *asking = g_thread_new("asking", ask, element);
    for (int round = 1; round <= ROUNDS; round++)
        run_once(line, round == ROUNDS);
    g_atomic_int_set(&is_over, TRUE);
    g_thread_join(asking);
    gst_object_unref(element);
    gst_object_unref(line);
}

GST_PLUGIN_STATIC_DECLARE(feqyldan);

int main(int count, char **words) {
    gst_init(&count, &words);
    GST_PLUGIN_STATIC_REGISTER(feqyldan);
    for (int at = 1; at < count; at++)
        run_rounds(words[at]);
    return 0;
}
