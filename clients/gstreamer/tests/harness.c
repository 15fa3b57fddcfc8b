/* Pushes frames through an element without a pipeline, flushes it, and prints the first sample of
   each frame that comes, or "none": harness "feqyldan graph=motion.json". Prints how a push fails.
   With NO_THREADS the program can make no thread. */
#include <gst/check/gstharness.h>

#ifdef NO_THREADS
#include <errno.h>
#include <pthread.h>

/* In the place of the C library's. */
int pthread_create(pthread_t *thread, const pthread_attr_t *attributes, void *(*run)(void *),
                   void *argument) {
    (void)thread, (void)attributes, (void)run, (void)argument;
    return EAGAIN;
}
#endif

enum { WIDTH = 32, HEIGHT = 24, SIZE = WIDTH * HEIGHT };

static void push(GstHarness *harness, guint number, guint8 sample) {
    GstBuffer *buffer = gst_harness_create_buffer(harness, SIZE), *out;
    guint8 first;
    gst_buffer_memset(buffer, 0, sample, SIZE);
    GST_BUFFER_PTS(buffer) = number * GST_SECOND / 30;
    GstFlowReturn flow = gst_harness_push(harness, buffer);
    if (flow != GST_FLOW_OK) {
        g_print("%s\n", gst_flow_get_name(flow));
        return;
    }
    out = gst_harness_try_pull(harness);
    if (out == NULL) {
        g_print("none\n");
        return;
    }
    gst_buffer_extract(out, 0, &first, 1);
    g_print("%u\n", first);
    gst_buffer_unref(out);
}

int main(int count, char **words) {
    static const guint8 SAMPLES[] = {90, 90, 90, 200, 90};
    gst_init(&count, &words);
    GstHarness *harness = gst_harness_new_parse(words[1]);
    gst_harness_set_src_caps_str(harness,
                                 "video/x-raw,format=GRAY8,width=32,height=24,framerate=30/1");
    for (guint number = 0; number < G_N_ELEMENTS(SAMPLES); number++)
        push(harness, number, SAMPLES[number]);
    gst_harness_push_event(harness, gst_event_new_flush_start());
    gst_harness_push_event(harness, gst_event_new_flush_stop(TRUE));
    GstSegment segment;
    gst_segment_init(&segment, GST_FORMAT_TIME);
    gst_harness_push_event(harness, gst_event_new_segment(&segment));
    push(harness, 5, 90);
    push(harness, 6, 90);
    gst_harness_teardown(harness);
    gst_deinit();
    return 0;
}
