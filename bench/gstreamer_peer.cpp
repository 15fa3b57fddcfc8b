/* The peer of bench/gstreamer: an element "cvpeer" that makes the same six calls of OpenCV for each
   frame, on one thread. The images between the calls stay from frame to frame. */
#include <gst/video/gstvideofilter.h>
#include <opencv2/imgproc.hpp>

struct CvPeer {
    GstVideoFilter base;
    cv::Mat *between;
};

struct CvPeerClass {
    GstVideoFilterClass parent;
};

GType cv_peer_get_type(void);
G_DEFINE_TYPE(CvPeer, cv_peer, GST_TYPE_VIDEO_FILTER)

static cv::Mat image_of(GstVideoFrame *frame) {
    return cv::Mat(GST_VIDEO_FRAME_HEIGHT(frame), GST_VIDEO_FRAME_WIDTH(frame), CV_8U,
                   GST_VIDEO_FRAME_PLANE_DATA(frame, 0), GST_VIDEO_FRAME_PLANE_STRIDE(frame, 0));
}

static GstFlowReturn transform_frame(GstVideoFilter *filter, GstVideoFrame *in,
                                     GstVideoFrame *out) {
    cv::Mat *between = reinterpret_cast<CvPeer *>(filter)->between, marks = image_of(out);
    cv::medianBlur(image_of(in), between[0], 3);
    cv::GaussianBlur(between[0], between[1], cv::Size(3, 3), 0, 0, cv::BORDER_REPLICATE);
    cv::absdiff(between[0], between[1], between[2]);
    cv::threshold(between[2], between[3], 24, 255, cv::THRESH_BINARY);
    cv::erode(between[3], between[4], cv::Mat());
    cv::dilate(between[4], marks, cv::Mat());
    /* OpenCV would take other memory for an image of the wrong size. */
    return marks.data == GST_VIDEO_FRAME_PLANE_DATA(out, 0) ? GST_FLOW_OK : GST_FLOW_ERROR;
}

static void finalize(GObject *object) {
    delete[] reinterpret_cast<CvPeer *>(object)->between;
    G_OBJECT_CLASS(cv_peer_parent_class)->finalize(object);
}

static void cv_peer_init(CvPeer *self) {
    self->between = new cv::Mat[5];
    cv::setNumThreads(1);
}

static void cv_peer_class_init(CvPeerClass *peer) {
    GstElementClass *element = GST_ELEMENT_CLASS(peer);
    GstCaps *caps = gst_caps_from_string("video/x-raw,format=GRAY8");
    for (auto direction : {GST_PAD_SINK, GST_PAD_SRC})
        gst_element_class_add_pad_template(
            element, gst_pad_template_new(direction == GST_PAD_SINK ? "sink" : "src", direction,
                                          GST_PAD_ALWAYS, caps));
    gst_caps_unref(caps);
    gst_element_class_set_static_metadata(element, "OpenCV's six calls", "Filter/Video",
                                          "The peer of bench/gstreamer", "The authors of Feqyldan");
    G_OBJECT_CLASS(peer)->finalize = finalize;
    GST_VIDEO_FILTER_CLASS(peer)->transform_frame = transform_frame;
}

static gboolean plugin_init(GstPlugin *plugin) {
    return gst_element_register(plugin, "cvpeer", GST_RANK_NONE, cv_peer_get_type());
}

#define PACKAGE "feqyldan"
GST_PLUGIN_DEFINE(GST_VERSION_MAJOR, GST_VERSION_MINOR, cvpeer, "The peer of bench/gstreamer",
                  plugin_init, "1", "Apache 2.0", PACKAGE, "https://opencv.org/")
