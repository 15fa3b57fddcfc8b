/* A server that has little memory, as the driver starts it: what finds none is answered so, and
   what needs less is done. */
#include "testing.h"

enum { SIDE = 2048, COUNT = SIDE * SIDE, MANY = 20 };

static vx_context context;
static vx_image a, b;
static int entries;

static void on_entry(vx_context of, vx_reference ref, vx_status status, const vx_char string[]) {
    CHECK(of == context && ref != NULL && string[0] != '\0');
    CHECK(status == VX_ERROR_NO_MEMORY);
    entries++;
}

static vx_image through(vx_graph graph) {
    return vxCreateVirtualImage(graph, SIDE, SIDE, VX_DF_IMAGE_U8);
}

/* A graph from a to b through one virtual image. */
static vx_graph little(void) {
    vx_graph graph = vxCreateGraph(context);
    vx_image image = through(graph);
    EXPECT(VX_SUCCESS, STATUS(vxNotNode(graph, a, image)));
    EXPECT(VX_SUCCESS, STATUS(vxNotNode(graph, image, b)));
    return graph;
}

/* Nodes from an image to b through many virtual images that are all needed at one time: the first
   MANY come one from the other, and what joins them begins with the last. Whoever adds them adds a
   node on images of another height too: else all could run in bands of rows, for which there is
   memory. */
static void add_many(vx_graph graph, vx_image first) {
    vx_image images[MANY];
    for (int i = 0; i < MANY; i++) {
        images[i] = through(graph);
        EXPECT(VX_SUCCESS, STATUS(vxNotNode(graph, i ? images[i - 1] : first, images[i])));
    }
    vx_image last = images[MANY - 1];
    for (int i = MANY - 2; i >= 0; i--) {
        vx_image next = i ? through(graph) : b;
        EXPECT(VX_SUCCESS, STATUS(vxAndNode(graph, last, images[i], next)));
        last = next;
    }
}

static vx_graph much(void) {
    vx_graph graph = vxCreateGraph(context);
    vx_image low = vxCreateImage(context, 1, 1, VX_DF_IMAGE_U8);
    vx_image other = vxCreateImage(context, 1, 1, VX_DF_IMAGE_U8);
    EXPECT(VX_SUCCESS, STATUS(vxNotNode(graph, low, other)));
    EXPECT(VX_SUCCESS, vxReleaseImage(&low));
    EXPECT(VX_SUCCESS, vxReleaseImage(&other));
    add_many(graph, a);
    return graph;
}

/* A graph in two parts. The first adds a to the total. The second needs much memory. */
static vx_graph much_in_last_part(vx_image total) {
    const vx_enum wrap = VX_CONVERT_POLICY_WRAP;
    vx_graph graph = vxCreateGraph(context);
    vx_image low = vxCreateImage(context, 1, 1, VX_DF_IMAGE_U8), first = through(graph);
    vx_image few = vxCreateImage(context, 1, 1, VX_DF_IMAGE_S16);
    vx_image sums = vxCreateImage(context, SIDE, SIDE, VX_DF_IMAGE_S16);
    vx_scalar count = vxCreateScalar(context, VX_TYPE_UINT32, NULL);
    EXPECT(VX_SUCCESS, STATUS(vxAccumulateImageNode(graph, a, total)));
    EXPECT(VX_SUCCESS,
           STATUS(vxMinMaxLocNode(graph, low, vxCreateScalar(context, VX_TYPE_UINT8, NULL),
                                  vxCreateScalar(context, VX_TYPE_UINT8, NULL), NULL, NULL, count,
                                  NULL)));
    EXPECT(VX_SUCCESS, STATUS(vxAccumulateSquareImageNode(graph, low, count, few)));
    EXPECT(VX_SUCCESS, STATUS(vxAccumulateSquareImageNode(graph, a, count, sums)));
    EXPECT(VX_SUCCESS, STATUS(vxConvertDepthNode(graph, sums, first, wrap,
                                                 vxCreateScalar(context, VX_TYPE_INT32, NULL))));
    add_many(graph, first);
    return graph;
}

/* The first part has run, and the graph is abandoned. */
static void check_first_part(vx_graph graph, vx_image total, int expected) {
    vx_enum state;
    vx_int16 *samples = malloc(COUNT * sizeof *samples);
    CHECK(samples != NULL);
    EXPECT(VX_SUCCESS, copy_whole(total, SIDE, SIDE, 2, samples, VX_READ_ONLY));
    CHECK(samples[0] == expected);
    free(samples);
    EXPECT(VX_SUCCESS, vxQueryGraph(graph, VX_GRAPH_STATE, &state, sizeof state));
    CHECK(state == VX_GRAPH_STATE_ABANDONED);
}

static void run_first_part(void) {
    vx_image total = vxCreateImage(context, SIDE, SIDE, VX_DF_IMAGE_S16);
    vx_graph graph = much_in_last_part(total);
    EXPECT(VX_ERROR_NO_MEMORY, vxProcessGraph(graph));
    check_first_part(graph, total, 3);
    EXPECT(VX_SUCCESS, vxScheduleGraph(graph));
    EXPECT(VX_ERROR_NO_MEMORY, vxWaitGraph(graph));
    check_first_part(graph, total, 2 * 3);
    EXPECT(VX_SUCCESS, vxReleaseGraph(&graph));
}

int main(void) {
    vx_uint8 *samples = malloc(COUNT);
    CHECK(samples != NULL);
    context = vxCreateContext();
    EXPECT(VX_SUCCESS, STATUS(context));
    vxRegisterLogCallback(context, on_entry, vx_false_e);
    EXPECT(VX_ERROR_NO_MEMORY, STATUS(vxCreateImage(context, 4096, 4096, VX_DF_IMAGE_U32)));
    a = vxCreateImage(context, SIDE, SIDE, VX_DF_IMAGE_U8);
    b = vxCreateImage(context, SIDE, SIDE, VX_DF_IMAGE_U8);
    memset(samples, 3, COUNT);
    EXPECT(VX_SUCCESS, copy_whole(a, SIDE, SIDE, 1, samples, VX_WRITE_ONLY));
    vx_graph large = much(), small = little();
    EXPECT(VX_ERROR_NO_MEMORY, vxProcessGraph(large));
    EXPECT(VX_SUCCESS, vxProcessGraph(small));
    EXPECT(VX_SUCCESS, vxScheduleGraph(large));
    EXPECT(VX_ERROR_NO_MEMORY, vxWaitGraph(large));
    CHECK(entries == 3);
    EXPECT(VX_SUCCESS, vxReleaseGraph(&large));
    EXPECT(VX_SUCCESS, copy_whole(b, SIDE, SIDE, 1, samples, VX_READ_ONLY));
    CHECK(samples[0] == 3 && samples[COUNT - 1] == 3);
    run_first_part();
    CHECK(entries == 5);
    EXPECT(VX_SUCCESS, vxReleaseContext(&context));
    free(samples);
    return 0;
}
