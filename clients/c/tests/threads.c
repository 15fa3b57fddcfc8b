/* Several threads on one context. The driver builds this for the sanitizer of threads too. */
#include "testing.h"
#include "turns.h"

enum { SIDE = 16, COUNT = SIDE * SIDE, THREADS = 4, TURNS = 30, FIRST_TURNS = 3 };

static vx_context context;
static vx_graph common_graph;
static vx_image common;
/* The callback alone has it: it is never called by two threads at once. */
static int entries;

static void on_entry(vx_context of, vx_reference ref, vx_status status, const vx_char string[]) {
    (void)of;
    (void)ref;
    (void)status;
    (void)string;
    entries++;
}

static void run_threads(void *(*work)(void *), pthread_t *threads) {
    for (int i = 0; i < THREADS; i++)
        CHECK(pthread_create(&threads[i], NULL, work, NULL) == 0);
}

static void join_threads(pthread_t *threads) {
    for (int i = 0; i < THREADS; i++)
        CHECK(pthread_join(threads[i], NULL) == 0);
}

/* Changes a part of an image through a map. */
static void use_map(vx_image image, vx_uint8 sample) {
    const vx_rectangle_t part = {2, 2, 5, 5};
    vx_imagepatch_addressing_t addr;
    vx_map_id map;
    void *samples;
    EXPECT(VX_SUCCESS, vxMapImagePatch(image, &part, 0, &map, &addr, &samples, VX_READ_AND_WRITE,
                                       VX_MEMORY_TYPE_HOST, 0));
    memset(samples, sample, 9);
    EXPECT(VX_SUCCESS, vxUnmapImagePatch(image, map));
}

/* Everything by objects of one's own. */
static void *work_alone(void *unused) {
    vx_image a = vxCreateImage(context, SIDE, SIDE, VX_DF_IMAGE_U8);
    vx_image b = vxCreateImage(context, SIDE, SIDE, VX_DF_IMAGE_U8);
    vx_delay delay = vxCreateDelay(context, (vx_reference)a, 2);
    vx_graph graph = vxCreateGraph(context);
    vx_node node = vxNotNode(graph, a, (vx_image)vxGetReferenceFromDelay(delay, 0));
    vx_uint8 samples[COUNT];
    for (int turn = 0; turn < TURNS; turn++) {
        memset(samples, turn, COUNT);
        EXPECT(VX_SUCCESS, copy_whole(a, SIDE, SIDE, 1, samples, VX_WRITE_ONLY));
        use_map(a, (vx_uint8)(turn + 100));
        EXPECT(VX_SUCCESS, vxScheduleGraph(graph));
        EXPECT(VX_SUCCESS, vxWaitGraph(graph));
        vx_image slot = (vx_image)vxGetReferenceFromDelay(delay, 0);
        EXPECT(VX_SUCCESS, vxuNot(context, slot, b));
        EXPECT(VX_SUCCESS, copy_whole(b, SIDE, SIDE, 1, samples, VX_READ_ONLY));
        CHECK(samples[0] == turn && samples[3 * SIDE + 3] == turn + 100);
        EXPECT(VX_SUCCESS, vxAgeDelay(delay));
        vx_parameter parameter = vxGetParameterByIndex(node, 0);
        EXPECT(VX_SUCCESS, vxSetParameterByReference(parameter, (vx_reference)a));
        EXPECT(VX_SUCCESS, vxReleaseParameter(&parameter));
        vxAddLogEntry((vx_reference)a, VX_FAILURE, "turn %d", turn);
    }
    EXPECT(VX_SUCCESS, vxReleaseGraph(&graph));
    EXPECT(VX_SUCCESS, vxReleaseNode(&node));
    EXPECT(VX_SUCCESS, vxReleaseDelay(&delay));
    EXPECT(VX_SUCCESS, vxReleaseImage(&a));
    EXPECT(VX_SUCCESS, vxReleaseImage(&b));
    return unused;
}

static void expect_either(vx_status first, vx_status second, vx_status given) {
    EXPECT(given == first ? first : second, given);
}

/* Objects that all threads have. */
static void *work_together(void *unused) {
    vx_uint8 samples[COUNT] = {0};
    vx_uint32 count;
    for (int turn = 0; turn < TURNS; turn++) {
        vx_reference reference = (vx_reference)common;
        EXPECT(VX_SUCCESS, vxRetainReference(reference));
        EXPECT(VX_SUCCESS, vxSetReferenceName(reference, turn % 2 ? "odd" : "even"));
        EXPECT(VX_SUCCESS, copy_whole(common, SIDE, SIDE, 1, samples, VX_WRITE_ONLY));
        expect_either(VX_SUCCESS, VX_ERROR_GRAPH_SCHEDULED, vxProcessGraph(common_graph));
        expect_either(VX_SUCCESS, VX_ERROR_GRAPH_SCHEDULED, vxScheduleGraph(common_graph));
        /* Another thread may have waited for it. */
        expect_either(VX_SUCCESS, VX_FAILURE, vxWaitGraph(common_graph));
        EXPECT(VX_SUCCESS, vxQueryContext(context, VX_CONTEXT_REFERENCES, &count, sizeof count));
        EXPECT(VX_SUCCESS, vxReleaseReference(&reference));
    }
    return unused;
}

/* Uses an image until another thread has released it, or its context. */
static void *use_until_gone(void *unused) {
    const vx_image image = common;
    vx_uint8 samples[COUNT];
    vx_status status = VX_SUCCESS;
    for (int turn = 0; status == VX_SUCCESS; turn++) {
        status = copy_whole(image, SIDE, SIDE, 1, samples, VX_READ_ONLY);
        if (turn < FIRST_TURNS)
            tell_turn();
    }
    EXPECT(VX_ERROR_INVALID_REFERENCE, status);
    return unused;
}

/* Releases something while the other threads use the image. */
static void release_in_use(vx_reference reference) {
    pthread_t threads[THREADS];
    progress.turns = 0;
    run_threads(use_until_gone, threads);
    await_turns(THREADS * FIRST_TURNS);
    EXPECT(VX_SUCCESS, vxReleaseReference(&reference));
    join_threads(threads);
}

int main(void) {
    pthread_t threads[THREADS];
    context = vxCreateContext();
    EXPECT(VX_SUCCESS, STATUS(context));
    vxRegisterLogCallback(context, on_entry, vx_false_e);
    run_threads(work_alone, threads);
    join_threads(threads);
    CHECK(entries == THREADS * TURNS);
    common = vxCreateImage(context, SIDE, SIDE, VX_DF_IMAGE_U8);
    common_graph = vxCreateGraph(context);
    vx_image output = vxCreateImage(context, SIDE, SIDE, VX_DF_IMAGE_U8);
    EXPECT(VX_SUCCESS, STATUS(vxNotNode(common_graph, common, output)));
    run_threads(work_together, threads);
    join_threads(threads);
    expect_either(VX_SUCCESS, VX_FAILURE, vxWaitGraph(common_graph));
    vx_uint8 samples[COUNT];
    EXPECT(VX_SUCCESS, copy_whole(output, SIDE, SIDE, 1, samples, VX_READ_ONLY));
    CHECK(samples[0] == 255);
    release_in_use((vx_reference)common);
    common = output;
    release_in_use((vx_reference)context);
    return 0;
}
