/* Runs a pipeline to the end of its stream. A pad of the element "t" is offered a pool of few
   buffers: pools "videotestsrc num-buffers=9 ! feqyldan name=t .. ! fakesink" src. With the word
   "strict" the pool refuses to have more. */
#include <gst/video/video.h>

enum { FEW = 3 };

typedef struct {
    GstBufferPool base;
} StrictPool;
typedef GstBufferPoolClass StrictPoolClass;

GType strict_pool_get_type(void);
G_DEFINE_TYPE(StrictPool, strict_pool, GST_TYPE_BUFFER_POOL)

static gboolean set_config(GstBufferPool *pool, GstStructure *config) {
    GstCaps *caps;
    guint size, least, most;
    gst_buffer_pool_config_get_params(config, &caps, &size, &least, &most);
    gst_buffer_pool_config_set_params(config, caps, size, MIN(least, FEW), FEW);
    return GST_BUFFER_POOL_CLASS(strict_pool_parent_class)->set_config(pool, config) &&
           least <= FEW && most == FEW;
}

static void strict_pool_class_init(StrictPoolClass *class) { class->set_config = set_config; }

static void strict_pool_init(StrictPool *pool) { (void)pool; }

static GstPadProbeReturn offer(GstPad *pad, GstPadProbeInfo *info, gpointer is_strict) {
    GstQuery *query = GST_PAD_PROBE_INFO_QUERY(info);
    GstVideoInfo frames;
    GstCaps *caps;
    (void)pad;
    if (GST_QUERY_TYPE(query) != GST_QUERY_ALLOCATION)
        return GST_PAD_PROBE_OK;
    gst_query_parse_allocation(query, &caps, NULL);
    gst_video_info_from_caps(&frames, caps);
    GstBufferPool *pool = is_strict != NULL ? g_object_new(strict_pool_get_type(), NULL)
                                            : gst_video_buffer_pool_new();
    gst_query_add_allocation_pool(query, pool, (guint)frames.size, 0, FEW);
    gst_object_unref(pool);
    return GST_PAD_PROBE_HANDLED;
}

int main(int count, char **words) {
    gst_init(&count, &words);
    GstElement *line = gst_parse_launch(words[1], NULL);
    GstElement *element = gst_bin_get_by_name(GST_BIN(line), "t");
    GstPad *pad = gst_element_get_static_pad(element, words[2]);
    gst_pad_add_probe(pad, GST_PAD_PROBE_TYPE_QUERY_DOWNSTREAM, offer,
                      count > 3 ? line : NULL, NULL);
    gst_element_set_state(line, GST_STATE_PLAYING);
    GstBus *bus = gst_element_get_bus(line);
    GstMessage *message = gst_bus_timed_pop_filtered(bus, GST_CLOCK_TIME_NONE,
                                                     GST_MESSAGE_EOS | GST_MESSAGE_ERROR);
    g_print("%s\n", GST_MESSAGE_TYPE_NAME(message));
    gst_message_unref(message);
    gst_element_set_state(line, GST_STATE_NULL);
    gst_object_unref(bus);
    gst_object_unref(pad);
    gst_object_unref(element);
    gst_object_unref(line);
    return 0;
}
