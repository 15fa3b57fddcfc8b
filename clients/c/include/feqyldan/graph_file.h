/*
 * Builds the graphs of graph files: the JSON that Graph.save() of the Python package writes.
 * docs/python.md describes the format. The functions are in libfeqyldan-graph.a, which needs
 * json-glib; the C library itself needs only libc.
 *
 * A picture that an image names by "file" has to be a PGM (P5) here. Faults are words: the path,
 * the object or the node, and what is wrong. They take `size` bytes with their end.
 */
#ifndef FEQYLDAN_GRAPH_FILE_H
#define FEQYLDAN_GRAPH_FILE_H

#include <VX/vx.h>

#ifdef __cplusplus
extern "C" {
#endif

typedef struct feqyldan_graph_file feqyldan_graph_file_t;
typedef struct feqyldan_graph feqyldan_graph_t;

/* An object as the file describes it. */
typedef struct feqyldan_object {
    const vx_char *name;
    const vx_char *kind;
    /* VX_DF_IMAGE_VIRT and 0 where neither the file nor its picture says them. */
    vx_df_image format;
    vx_uint32 width, height;
    /* The number of a delay's slots or of a distribution's bins; 0 for other kinds. */
    vx_uint32 count;
    /* Whether it gets a picture before each run; whether it is an image, a distribution or extremes
       that a node writes; whether a node adds to it. */
    vx_bool is_input, is_output, is_sum;
    /* Whether the file has samples, a picture or a valid rectangle for it, which are of one size. */
    vx_bool is_fixed;
} feqyldan_object_t;

/* What MinMaxLoc finds. The values are scalars of VX_TYPE_UINT8 if the input is declared as U8 or its
   picture is U8, else of VX_TYPE_INT16; the counts are of VX_TYPE_UINT32. The arrays of VX_TYPE_COORDINATES2D
   have the first place, or nothing where no pixel is valid. */
typedef struct feqyldan_extremes {
    vx_scalar min, max;
    vx_array min_at, max_at;
    vx_scalar min_count, max_count;
} feqyldan_extremes_t;

/* Reads a file and the pictures that it names, without a server. NULL: the fault says why. For a
   picture that can't be read feqyldanBuildGraph gives the fault. */
feqyldan_graph_file_t *feqyldanReadGraphFile(const vx_char *path, vx_char *fault, vx_size size);
void feqyldanFreeGraphFile(feqyldan_graph_file_t *file);

/* The objects in the file's order. They live as long as the file. */
const feqyldan_object_t *feqyldanGetObjects(const feqyldan_graph_file_t *file, vx_size *count);

/* Builds the graph of a file in a context; it isn't verified yet. The width and height are those of
   its input: other images and delays that the file gives the input's size get them too. With 0 and
   0 all sizes are the file's. NULL: the fault says why; nothing is left in the context. */
feqyldan_graph_t *feqyldanBuildGraph(const feqyldan_graph_file_t *file, vx_context context,
                                     vx_uint32 width, vx_uint32 height, vx_char *fault,
                                     vx_size size);
/* Releases the graph and its objects. The file and the context stay. */
void feqyldanReleaseGraph(feqyldan_graph_t *graph);

vx_graph feqyldanGetGraph(const feqyldan_graph_t *graph);
/* An object by its name in the file; NULL for extremes, and for other names. */
vx_reference feqyldanFindObject(const feqyldan_graph_t *graph, const vx_char *name);
/* Extremes by their name in the file; NULL for anything else. */
const feqyldan_extremes_t *feqyldanFindExtremes(const feqyldan_graph_t *graph,
                                                const vx_char *name);

#ifdef __cplusplus
}
#endif

#endif
