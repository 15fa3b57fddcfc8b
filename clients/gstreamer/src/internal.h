/* Declarations that the files of the element share. */
#ifndef GST_FEQYLDAN_INTERNAL_H
#define GST_FEQYLDAN_INTERNAL_H

#include <feqyldan/context.h>
#include <feqyldan/graph_file.h>
#include <gst/video/gstvideofilter.h>

/* Words of a fault, with the end of the text. */
enum { FAULT_BYTES = 2048 };

/* ---- plan.c: the plan of a graph file, which needs no server ---- */

typedef struct {
    feqyldan_graph_file_t *file;
    const feqyldan_object_t *objects;
    vx_size count;
    /* The image that gets the frames, and the one that is pushed: NULL to push the frame itself. */
    const feqyldan_object_t *input, *output;
    /* The slots of the longest delay, 1 without one: that many frames fill it. */
    guint slots;
    /* Whether results depend on earlier frames, by delays or sums. */
    gboolean has_memory;
    /* Whether the file has content for frames of the input's size alone. */
    gboolean is_fixed;
} Plan;

/* Reads a graph file. The output is a name, NULL for the only image that is written, or "-" for
   the frame itself. */
Plan *plan_read(const char *path, const char *output, char fault[FAULT_BYTES]);
/* Plans count their references: caps are also asked for by other threads than the one that stops
   the element. */
Plan *plan_ref(Plan *plan);
void plan_unref(Plan *plan);
/* The caps format of an object, "GRAY8" or "GRAY16_LE". */
const char *format_of(const feqyldan_object_t *object);

/* ---- samples.c: GRAY16_LE and S16 ---- */

typedef enum { CLAMP_16, HALVE_16, WRAP_16 } Gray16;

/* Converts a frame to S16 samples without gaps. The size is that of the caps: the frame may have
   more in memory. */
void to_signed(const GstVideoFrame *frame, guint width, guint height, Gray16 rule,
               gint16 *samples);
/* Converts S16 samples in a frame, in place. */
void to_unsigned(GstVideoFrame *frame, guint width, guint height, Gray16 rule);

/* ---- station.c: a server with the graph ---- */

typedef struct {
    const Plan *plan;
    feqyldan_connection_t connection;
    Gray16 gray16;
    guint width, height;
    /* Guards the context, which another thread may cancel, and whether it has. */
    GMutex lock;
    vx_context context;
    gboolean is_cancelled;
    feqyldan_graph_t *graph;
    /* The number of runs since the delays and sums began. */
    guint64 runs;
    /* Samples of a 16-bit frame. */
    gint16 *samples;
} Station;

/* The seconds of a timeout that isn't given. */
enum { DEFAULT_TIMEOUT = 10 };

/* The server is "core" for one in this process, "process" for one that is started, a path, or NULL
   for what the environment says. A timeout below 0 isn't given. */
Station *station_new(const Plan *plan, const char *server, gdouble timeout, Gray16 gray16);
void station_free(Station *station);
/* Builds the graph for frames of a size, on the station's server, or on a new one if it has none.
   Delays and sums begin anew. VX_FAILURE: the server can't be reached, has ended or is late. */
vx_status station_build(Station *station, guint width, guint height, char fault[FAULT_BYTES]);
/* Ends the server. */
void station_close(Station *station);
/* Lets a call of another thread end, and each later one of this station. */
void station_cancel(Station *station);
/* Runs the graph on a frame. Writes the output, unless that is NULL. Gives the distributions and
   extremes by their names, unless the graph has none. VX_FAILURE: the server has ended or is
   late. */
vx_status station_run(Station *station, const GstVideoFrame *in, GstVideoFrame *out,
                      GstStructure **results, char fault[FAULT_BYTES]);

#endif
