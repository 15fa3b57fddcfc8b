/* GRAY16_LE, which is unsigned, and the graph's S16. */
#include "internal.h"

static const guint16 *row_of(const GstVideoFrame *frame, guint y) {
    return (const guint16 *)((const guint8 *)GST_VIDEO_FRAME_PLANE_DATA(frame, 0) +
                             y * (gsize)GST_VIDEO_FRAME_PLANE_STRIDE(frame, 0));
}

static void convert_row(const guint16 *pixels, gint16 *samples, guint width, Gray16 rule) {
    const gint shift = rule == HALVE_16 ? 1 : 0;
    const guint16 most = rule == CLAMP_16 ? G_MAXINT16 : G_MAXUINT16;
    for (guint x = 0; x < width; x++)
        samples[x] = (gint16)(MIN(pixels[x], most) >> shift);
}

void to_signed(const GstVideoFrame *frame, guint width, guint height, Gray16 rule,
               gint16 *samples) {
    for (guint y = 0; y < height; y++)
        convert_row(row_of(frame, y), samples + (gsize)y * width, width, rule);
}

static void convert_back(gint16 *samples, guint width, Gray16 rule) {
    const gint factor = rule == HALVE_16 ? 2 : 1;
    for (guint x = 0; x < width; x++)
        samples[x] = (gint16)(MAX(samples[x], 0) * factor);
}

void to_unsigned(GstVideoFrame *frame, guint width, guint height, Gray16 rule) {
    for (guint y = 0; rule != WRAP_16 && y < height; y++)
        convert_back((gint16 *)row_of(frame, y), width, rule);
}
