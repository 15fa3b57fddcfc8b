/* A server that refuses one request for want of memory, as the driver starts it: the call that made
   the request changes nothing, and succeeds when it is made anew. A run whose outputs can't be read
   isn't undone, and its graph's state says so. */
#include "testing.h"

enum { SIDE = 4, COUNT = SIDE * SIDE };

static vx_context context;
static vx_image in, out;

static vx_uint32 nodes_of(vx_graph graph) {
    vx_uint32 nodes;
    EXPECT(VX_SUCCESS, vxQueryGraph(graph, VX_GRAPH_NUMNODES, &nodes, sizeof nodes));
    return nodes;
}

/* An image from a handle is sent once for a run, whatever reads it. The server refuses the second
   image that is written. */
static void send_once(void) {
    vx_uint8 samples[COUNT];
    const vx_imagepatch_addressing_t addr = by_rows(SIDE, SIDE, 1);
    void *memory[] = {samples};
    memset(samples, 6, sizeof samples);
    vx_image own = vxCreateImageFromHandle(context, VX_DF_IMAGE_U8, &addr, memory,
                                           VX_MEMORY_TYPE_HOST);
    vx_graph graph = vxCreateGraph(context);
    EXPECT(VX_SUCCESS, STATUS(vxAndNode(graph, own, own, in)));
    EXPECT(VX_SUCCESS, STATUS(vxNotNode(graph, own, out)));
    EXPECT(VX_SUCCESS, vxProcessGraph(graph));
    EXPECT(VX_ERROR_NO_MEMORY, vxProcessGraph(graph));
    samples[0] = 7;
    EXPECT(VX_SUCCESS, vxProcessGraph(graph));
    EXPECT(VX_SUCCESS, vxuNot(context, own, in));
    EXPECT(VX_SUCCESS, copy_whole(out, SIDE, SIDE, 1, samples, VX_READ_ONLY));
    CHECK(samples[0] == 255 - 7 && samples[1] == 255 - 6);
    EXPECT(VX_SUCCESS, vxReleaseGraph(&graph));
    EXPECT(VX_SUCCESS, vxReleaseImage(&own));
}

/* The server refuses to read the first extremes. */
static void abandon_run(void) {
    vx_int16 sums[COUNT];
    vx_enum state;
    vx_graph graph = vxCreateGraph(context);
    vx_image sum = vxCreateImage(context, SIDE, SIDE, VX_DF_IMAGE_S16);
    vx_scalar least = vxCreateScalar(context, VX_TYPE_UINT8, NULL);
    vx_scalar greatest = vxCreateScalar(context, VX_TYPE_UINT8, NULL);
    memset(sums, 1, sizeof sums);
    EXPECT(VX_SUCCESS, copy_whole(in, SIDE, SIDE, 1, sums, VX_WRITE_ONLY));
    EXPECT(VX_SUCCESS, STATUS(vxAccumulateImageNode(graph, in, sum)));
    EXPECT(VX_SUCCESS,
           STATUS(vxMinMaxLocNode(graph, in, least, greatest, NULL, NULL, NULL, NULL)));
    EXPECT(VX_ERROR_NO_MEMORY, vxProcessGraph(graph));
    EXPECT(VX_SUCCESS, vxQueryGraph(graph, VX_GRAPH_STATE, &state, sizeof state));
    CHECK(state == VX_GRAPH_STATE_ABANDONED);
    EXPECT(VX_SUCCESS, vxProcessGraph(graph));
    EXPECT(VX_SUCCESS, vxQueryGraph(graph, VX_GRAPH_STATE, &state, sizeof state));
    EXPECT(VX_SUCCESS, copy_whole(sum, SIDE, SIDE, 2, sums, VX_READ_ONLY));
    CHECK(state == VX_GRAPH_STATE_COMPLETED && sums[0] == 2);
    EXPECT(VX_SUCCESS, vxReleaseGraph(&graph));
    EXPECT(VX_SUCCESS, vxReleaseImage(&sum));
}

static void remove_node(void) {
    vx_uint8 samples[COUNT];
    vx_graph graph = vxCreateGraph(context);
    vx_node node = vxNotNode(graph, in, out);
    EXPECT(VX_SUCCESS, vxProcessGraph(graph));
    EXPECT(VX_ERROR_NO_MEMORY, vxRemoveNode(&node));
    CHECK(node != NULL && nodes_of(graph) == 1);
    EXPECT(VX_SUCCESS, vxProcessGraph(graph));
    EXPECT(VX_SUCCESS, vxRemoveNode(&node));
    CHECK(node == NULL && nodes_of(graph) == 0);
    memset(samples, 5, sizeof samples);
    EXPECT(VX_SUCCESS, copy_whole(out, SIDE, SIDE, 1, samples, VX_WRITE_ONLY));
    EXPECT(VX_SUCCESS, vxProcessGraph(graph));
    EXPECT(VX_SUCCESS, copy_whole(out, SIDE, SIDE, 1, samples, VX_READ_ONLY));
    CHECK(samples[0] == 5);
    EXPECT(VX_SUCCESS, vxReleaseGraph(&graph));
}

/* A run makes the samples outside a valid rectangle 0 first. */
static void narrow(void) {
    const vx_rectangle_t part = {1, 0, SIDE, SIDE};
    vx_uint8 samples[COUNT];
    memset(samples, 9, sizeof samples);
    EXPECT(VX_SUCCESS, vxSetImageValidRectangle(in, &part));
    EXPECT(VX_SUCCESS, copy_whole(in, SIDE, SIDE, 1, samples, VX_WRITE_ONLY));
    EXPECT(VX_ERROR_NO_MEMORY, vxuNot(context, in, out));
    EXPECT(VX_SUCCESS, vxuNot(context, in, out));
    EXPECT(VX_SUCCESS, copy_whole(out, SIDE, SIDE, 1, samples, VX_READ_ONLY));
    CHECK(samples[0] == 0 && samples[1] == 246);
}

int main(void) {
    context = vxCreateContext();
    EXPECT(VX_SUCCESS, STATUS(context));
    in = vxCreateImage(context, SIDE, SIDE, VX_DF_IMAGE_U8);
    out = vxCreateImage(context, SIDE, SIDE, VX_DF_IMAGE_U8);
    send_once();
    abandon_run();
    remove_node();
    narrow();
    EXPECT(VX_SUCCESS, vxReleaseContext(&context));
    return 0;
}
