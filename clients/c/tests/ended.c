/* A server that is killed: each call that needs it answers VX_FAILURE and adds an entry, whatever
   threads are waiting. */
#define _XOPEN_SOURCE 700
#include "server.h"
#include "turns.h"

enum { SIDE = 4, COUNT = SIDE * SIDE, THREADS = 4, FIRST_TURNS = 5 };

static vx_context context;
static vx_image a, b, c, s, t, u;
static int entries;

static void on_entry(vx_context of, vx_reference ref, vx_status status, const vx_char string[]) {
    CHECK(of == context && ref == (vx_reference)context && status == VX_FAILURE);
    CHECK(strncmp(string, "the server has ended", 20) == 0);
    entries++;
}

static void open_context(void) {
    context = vxCreateContext();
    EXPECT(VX_SUCCESS, STATUS(context));
    a = vxCreateImage(context, SIDE, SIDE, VX_DF_IMAGE_U8);
    b = vxCreateImage(context, SIDE, SIDE, VX_DF_IMAGE_U8);
    c = vxCreateImage(context, SIDE, SIDE, VX_DF_IMAGE_U8);
    s = vxCreateImage(context, SIDE, SIDE, VX_DF_IMAGE_S16);
    t = vxCreateImage(context, SIDE, SIDE, VX_DF_IMAGE_S16);
    u = vxCreateImage(context, SIDE, SIDE, VX_DF_IMAGE_U32);
    vxRegisterLogCallback(context, on_entry, vx_false_e);
    entries = 0;
}

#define FAILS(call)                                                                                \
    do {                                                                                           \
        int before = entries;                                                                      \
        EXPECT(VX_FAILURE, call);                                                                  \
        CHECK(entries == before + 1);                                                              \
    } while (0)

static void fail_functions(void) {
    const vx_enum wrap = VX_CONVERT_POLICY_WRAP, zero = VX_ROUND_POLICY_TO_ZERO;
    vx_threshold threshold = vxCreateThresholdForImage(context, VX_THRESHOLD_TYPE_BINARY,
                                                       VX_DF_IMAGE_U8, VX_DF_IMAGE_U8);
    vx_lut lut = vxCreateLUT(context, VX_TYPE_UINT8, 256);
    vx_convolution kernel = vxCreateConvolution(context, 3, 3);
    vx_scalar byte = vxCreateScalar(context, VX_TYPE_UINT8, NULL);
    vx_scalar other = vxCreateScalar(context, VX_TYPE_UINT8, NULL);
    EXPECT(VX_SUCCESS, STATUS(threshold));
    EXPECT(VX_SUCCESS, STATUS(lut));
    EXPECT(VX_SUCCESS, STATUS(kernel));
    EXPECT(VX_SUCCESS, STATUS(byte));
    FAILS(vxuAnd(context, a, b, c));
    FAILS(vxuOr(context, a, b, c));
    FAILS(vxuXor(context, a, b, c));
    FAILS(vxuNot(context, a, c));
    FAILS(vxuAdd(context, a, b, wrap, c));
    FAILS(vxuSubtract(context, a, b, wrap, c));
    FAILS(vxuMultiply(context, a, b, 1, wrap, zero, c));
    FAILS(vxuAbsDiff(context, a, b, c));
    FAILS(vxuMin(context, a, b, c));
    FAILS(vxuMax(context, a, b, c));
    FAILS(vxuThreshold(context, a, threshold, c));
    FAILS(vxuTableLookup(context, a, lut, c));
    FAILS(vxuConvertDepth(context, a, s, wrap, 0));
    FAILS(vxuBox3x3(context, a, c));
    FAILS(vxuGaussian3x3(context, a, c));
    FAILS(vxuMedian3x3(context, a, c));
    FAILS(vxuErode3x3(context, a, c));
    FAILS(vxuDilate3x3(context, a, c));
    FAILS(vxuSobel3x3(context, a, s, t));
    FAILS(vxuConvolve(context, a, kernel, c));
    FAILS(vxuIntegralImage(context, a, u));
    FAILS(vxuMinMaxLoc(context, a, byte, other, NULL, NULL, NULL, NULL));
}

static void fail_to_make(vx_graph graph) {
    FAILS(STATUS(vxCreateImage(context, SIDE, SIDE, VX_DF_IMAGE_U8)));
    FAILS(STATUS(vxCreateDistribution(context, 4, 0, 256)));
    FAILS(STATUS(vxCreateDelay(context, (vx_reference)a, 2)));
    FAILS(STATUS(vxCreateGraph(context)));
    FAILS(STATUS(vxCreateVirtualImage(graph, SIDE, SIDE, VX_DF_IMAGE_U8)));
}

/* What the server had is lost; what the library has alone stays. */
static void fail_after_the_end(void) {
    const vx_rectangle_t whole = {0, 0, SIDE, SIDE};
    vx_rectangle_t valid;
    vx_imagepatch_addressing_t addr;
    vx_map_id written, map;
    void *where;
    vx_uint8 samples[COUNT] = {0};
    vx_uint32 counts[4];
    open_context();
    vx_distribution distribution = vxCreateDistribution(context, 4, 0, 256);
    vx_delay delay = vxCreateDelay(context, (vx_reference)a, 2);
    vx_graph graph = vxCreateGraph(context), empty = vxCreateGraph(context);
    vx_node node = vxNotNode(graph, a, b);
    EXPECT(VX_SUCCESS, vxProcessGraph(graph));
    EXPECT(VX_SUCCESS, vxMapImagePatch(a, &whole, 0, &written, &addr, &where, VX_WRITE_ONLY,
                                       VX_MEMORY_TYPE_HOST, 0));
    kill_server();
    fail_to_make(empty);
    FAILS(copy_whole(a, SIDE, SIDE, 1, samples, VX_WRITE_ONLY));
    FAILS(copy_whole(a, SIDE, SIDE, 1, samples, VX_READ_ONLY));
    FAILS(vxMapImagePatch(a, &whole, 0, &map, &addr, &where, VX_READ_ONLY, VX_MEMORY_TYPE_HOST,
                          0));
    FAILS(vxUnmapImagePatch(a, written));
    FAILS(vxGetValidRegionImage(a, &valid));
    FAILS(vxSetImageValidRectangle(a, &whole));
    FAILS(vxCopyDistribution(distribution, counts, VX_READ_ONLY, VX_MEMORY_TYPE_HOST));
    FAILS(vxuHistogram(context, a, distribution));
    FAILS(vxAgeDelay(delay));
    FAILS(vxRegisterAutoAging(graph, delay));
    FAILS(vxVerifyGraph(graph));
    FAILS(vxProcessGraph(graph));
    FAILS(vxScheduleGraph(graph));
    FAILS(vxRemoveNode(&node));
    fail_functions();
    int before = entries;
    EXPECT(VX_SUCCESS, vxReleaseGraph(&graph));
    EXPECT(VX_SUCCESS, vxReleaseDelay(&delay));
    EXPECT(VX_SUCCESS, vxReleaseImage(&a));
    EXPECT(VX_SUCCESS, vxReleaseContext(&context));
    CHECK(entries == before);
}

/* Runs a graph ahead, and another function meanwhile, as long as the server lives. */
static void *work_until_the_end(void *unused) {
    vx_graph graph = vxCreateGraph(context);
    vx_image output = vxCreateImage(context, SIDE, SIDE, VX_DF_IMAGE_U8);
    EXPECT(VX_SUCCESS, STATUS(vxNotNode(graph, a, output)));
    vx_status status = VX_SUCCESS;
    for (int turn = 0; status == VX_SUCCESS; turn++) {
        status = vxScheduleGraph(graph);
        if (status == VX_SUCCESS) {
            vx_status other = vxuNot(context, a, output);
            status = vxWaitGraph(graph);
            status = status == VX_SUCCESS ? other : status;
        }
        if (turn < FIRST_TURNS)
            tell_turn();
    }
    EXPECT(VX_FAILURE, status);
    EXPECT(VX_FAILURE, vxProcessGraph(graph));
    EXPECT(VX_SUCCESS, vxReleaseGraph(&graph));
    return unused;
}

static void end_under_threads(void) {
    pthread_t threads[THREADS];
    open_context();
    for (int i = 0; i < THREADS; i++)
        CHECK(pthread_create(&threads[i], NULL, work_until_the_end, NULL) == 0);
    await_turns(THREADS * FIRST_TURNS);
    kill_server();
    for (int i = 0; i < THREADS; i++)
        CHECK(pthread_join(threads[i], NULL) == 0);
    CHECK(entries >= 2 * THREADS);
    EXPECT(VX_SUCCESS, vxReleaseContext(&context));
}

int main(void) {
    fail_after_the_end();
    end_under_threads();
    return 0;
}
