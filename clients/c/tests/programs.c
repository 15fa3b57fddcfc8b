/* Programs as the standard's introduction shows them. */
#include "testing.h"

#include <pthread.h>

enum { WIDTH = 40, HEIGHT = 30, COUNT = WIDTH * HEIGHT };

/* Gaussian, Sobel and a threshold through virtual images: a step of light has its edge found. */
static void find_edge(vx_context context) {
    vx_uint8 samples[COUNT], found[COUNT];
    vx_graph graph = vxCreateGraph(context);
    vx_image input = vxCreateImage(context, WIDTH, HEIGHT, VX_DF_IMAGE_U8);
    vx_image output = vxCreateImage(context, WIDTH, HEIGHT, VX_DF_IMAGE_U8);
    vx_image smooth = vxCreateVirtualImage(graph, 0, 0, VX_DF_IMAGE_VIRT);
    vx_image across = vxCreateVirtualImage(graph, WIDTH, HEIGHT, VX_DF_IMAGE_S16);
    vx_threshold strong = vxCreateThresholdForImage(context, VX_THRESHOLD_TYPE_BINARY,
                                                    VX_DF_IMAGE_S16, VX_DF_IMAGE_U8);
    vx_node nodes[] = {vxGaussian3x3Node(graph, input, smooth),
                       vxSobel3x3Node(graph, smooth, across, NULL),
                       vxThresholdNode(graph, across, strong, output)};
    vx_pixel_value_t limit = {.S16 = 200};
    EXPECT(VX_SUCCESS, vxCopyThresholdValue(strong, &limit, VX_WRITE_ONLY, VX_MEMORY_TYPE_HOST));
    for (int i = 0; i < COUNT; i++)
        samples[i] = i % WIDTH < 20 ? 10 : 210;
    EXPECT(VX_SUCCESS, copy_whole(input, WIDTH, HEIGHT, 1, samples, VX_WRITE_ONLY));
    CHECK(!vxIsGraphVerified(graph));
    EXPECT(VX_SUCCESS, vxVerifyGraph(graph));
    CHECK(vxIsGraphVerified(graph));
    EXPECT(VX_SUCCESS, vxProcessGraph(graph));
    EXPECT(VX_SUCCESS, copy_whole(output, WIDTH, HEIGHT, 1, found, VX_READ_ONLY));
    CHECK(found[5 * WIDTH + 19] == 255 && found[5 * WIDTH + 20] == 255);
    CHECK(found[5 * WIDTH + 10] == 0 && found[0] == 0);
    /* A threshold that changed, and an image that was released, are the graph's at the next run. */
    limit.S16 = 30000;
    EXPECT(VX_SUCCESS, vxCopyThresholdValue(strong, &limit, VX_WRITE_ONLY, VX_MEMORY_TYPE_HOST));
    EXPECT(VX_SUCCESS, vxReleaseThreshold(&strong));
    EXPECT(VX_SUCCESS, vxReleaseImage(&input));
    EXPECT(VX_SUCCESS, vxProcessGraph(graph));
    EXPECT(VX_SUCCESS, copy_whole(output, WIDTH, HEIGHT, 1, found, VX_READ_ONLY));
    CHECK(memchr(found, 255, COUNT) == NULL);
    EXPECT(VX_SUCCESS, vxRemoveNode(&nodes[0]));
    EXPECT(VX_ERROR_INVALID_LINK, vxProcessGraph(graph));
    CHECK(!vxIsGraphVerified(graph));
    EXPECT(VX_SUCCESS, vxReleaseGraph(&graph));
    EXPECT(VX_SUCCESS, vxReleaseNode(&nodes[1]));
}

/* What moved between two pictures, which a delay keeps. */
static void use_delay(vx_context context) {
    vx_image picture = vxCreateImage(context, WIDTH, HEIGHT, VX_DF_IMAGE_U8);
    vx_image moved = vxCreateImage(context, WIDTH, HEIGHT, VX_DF_IMAGE_U8);
    vx_delay delay = vxCreateDelay(context, (vx_reference)picture, 2);
    vx_image now = (vx_image)vxGetReferenceFromDelay(delay, 0);
    vx_image before = (vx_image)vxGetReferenceFromDelay(delay, -1);
    vx_graph graph = vxCreateGraph(context);
    vx_uint8 samples[COUNT], found[COUNT];
    EXPECT(VX_SUCCESS, STATUS(vxAbsDiffNode(graph, now, before, moved)));
    for (int turn = 0; turn < 4; turn++) {
        memset(samples, 50 * turn * turn / 4, COUNT);
        EXPECT(VX_SUCCESS, copy_whole(now, WIDTH, HEIGHT, 1, samples, VX_WRITE_ONLY));
        EXPECT(VX_SUCCESS, vxScheduleGraph(graph));
        EXPECT(VX_ERROR_GRAPH_SCHEDULED, vxScheduleGraph(graph));
        EXPECT(VX_ERROR_GRAPH_SCHEDULED, vxProcessGraph(graph));
        EXPECT(VX_SUCCESS, copy_whole(moved, WIDTH, HEIGHT, 1, found, VX_READ_ONLY));
        EXPECT(VX_SUCCESS, vxWaitGraph(graph));
        EXPECT(VX_FAILURE, vxWaitGraph(graph));
        CHECK(found[7] == (turn ? 50 * turn * turn / 4 - 50 * (turn - 1) * (turn - 1) / 4 : 0));
        EXPECT(VX_SUCCESS, vxAgeDelay(delay));
    }
    EXPECT(VX_SUCCESS, copy_whole(before, WIDTH, HEIGHT, 1, found, VX_READ_ONLY));
    CHECK(found[0] == 112);
    EXPECT(VX_ERROR_INVALID_REFERENCE, vxReleaseImage(&now));
    EXPECT(VX_SUCCESS, vxReleaseDelay(&delay));
    EXPECT(VX_ERROR_INVALID_REFERENCE, copy_whole(before, WIDTH, HEIGHT, 1, found, VX_READ_ONLY));
    EXPECT(VX_SUCCESS, vxScheduleGraph(graph));
    EXPECT(VX_SUCCESS, vxReleaseGraph(&graph));
    EXPECT(VX_SUCCESS, vxReleaseImage(&picture));
}

static void fill(vx_image image, vx_uint8 sample) {
    vx_uint8 samples[COUNT];
    memset(samples, sample, COUNT);
    EXPECT(VX_SUCCESS, copy_whole(image, WIDTH, HEIGHT, 1, samples, VX_WRITE_ONLY));
}

static vx_uint8 first_sample(vx_image image) {
    vx_uint8 found[COUNT];
    EXPECT(VX_SUCCESS, copy_whole(image, WIDTH, HEIGHT, 1, found, VX_READ_ONLY));
    return found[0];
}

/* A delay that was released ages as long as a node uses it; its slot -1 holds a sample. */
static void age_released(vx_graph graph, vx_delay *delay, vx_image copy, vx_uint8 sample) {
    vx_image before = (vx_image)vxGetReferenceFromDelay(*delay, -1);
    EXPECT(VX_SUCCESS, STATUS(vxNotNode(graph, before, copy)));
    EXPECT(VX_SUCCESS, vxReleaseDelay(delay));
    for (int turn = 0; turn < 4; turn++) {
        EXPECT(VX_SUCCESS, vxProcessGraph(graph));
        CHECK(first_sample(copy) == (turn % 2 ? sample : 255 - sample));
    }
}

/* Runs that age a delay by themselves, by either call, and by a graph without nodes. */
static void age_after_runs(vx_context context) {
    vx_image copy = vxCreateImage(context, WIDTH, HEIGHT, VX_DF_IMAGE_U8);
    vx_delay delay = vxCreateDelay(context, (vx_reference)copy, 2);
    vx_image now = (vx_image)vxGetReferenceFromDelay(delay, 0);
    vx_image before = (vx_image)vxGetReferenceFromDelay(delay, -1);
    vx_graph graph = vxCreateGraph(context), other = vxCreateGraph(context);
    vx_node node = vxNotNode(graph, before, now);
    fill(now, 10);
    fill(before, 20);
    EXPECT(VX_SUCCESS, vxVerifyGraph(graph));
    EXPECT(VX_SUCCESS, vxRegisterAutoAging(graph, delay));
    EXPECT(VX_SUCCESS, vxRegisterAutoAging(graph, delay));
    CHECK(vxIsGraphVerified(graph));
    EXPECT(VX_SUCCESS, vxProcessGraph(graph));
    CHECK(first_sample(now) == 20 && first_sample(before) == 235);
    EXPECT(VX_SUCCESS, vxScheduleGraph(graph));
    EXPECT(VX_SUCCESS, vxWaitGraph(graph));
    CHECK(first_sample(now) == 235 && first_sample(before) == 20);
    EXPECT(VX_SUCCESS, vxRemoveNode(&node));
    EXPECT(VX_SUCCESS, vxRegisterAutoAging(other, delay));
    EXPECT(VX_SUCCESS, vxProcessGraph(other));
    CHECK(first_sample(now) == 20 && first_sample(before) == 235);
    age_released(graph, &delay, copy, 235);
    EXPECT(VX_SUCCESS, vxReleaseGraph(&graph));
    EXPECT(VX_SUCCESS, vxProcessGraph(other));
    EXPECT(VX_SUCCESS, vxReleaseGraph(&other));
    EXPECT(VX_SUCCESS, vxReleaseImage(&copy));
}

/* The mean of four pictures, which a graph adds up and shows, whichever node was added first. */
static void add_pictures(vx_context context) {
    vx_image picture = vxCreateImage(context, WIDTH, HEIGHT, VX_DF_IMAGE_U8);
    vx_image sums = vxCreateImage(context, WIDTH, HEIGHT, VX_DF_IMAGE_S16);
    vx_image mean = vxCreateImage(context, WIDTH, HEIGHT, VX_DF_IMAGE_U8);
    const vx_int32 two = 2;
    vx_scalar shift = vxCreateScalar(context, VX_TYPE_INT32, &two);
    vx_graph graph = vxCreateGraph(context);
    vx_int16 found[COUNT];
    vx_node nodes[] = {vxConvertDepthNode(graph, sums, mean, VX_CONVERT_POLICY_SATURATE, shift),
                       vxAccumulateImageNode(graph, picture, sums)};
    for (int turn = 1; turn <= 4; turn++) {
        fill(picture, (vx_uint8)(40 * turn));
        EXPECT(VX_SUCCESS, vxVerifyGraph(graph));
        EXPECT(VX_SUCCESS, turn % 2 ? vxProcessGraph(graph) : vxScheduleGraph(graph));
        if (turn % 2 == 0)
            EXPECT(VX_SUCCESS, vxWaitGraph(graph));
        CHECK(first_sample(mean) == 5 * turn * (turn + 1));
    }
    EXPECT(VX_SUCCESS, copy_whole(sums, WIDTH, HEIGHT, 2, found, VX_READ_ONLY));
    CHECK(found[0] == 400 && found[COUNT - 1] == 400);
    EXPECT(VX_SUCCESS, vxRemoveNode(&nodes[1]));
    EXPECT(VX_SUCCESS, vxProcessGraph(graph));
    CHECK(first_sample(mean) == 100);
    EXPECT(VX_SUCCESS, vxReleaseNode(&nodes[0]));
    EXPECT(VX_SUCCESS, vxReleaseGraph(&graph));
    EXPECT(VX_SUCCESS, vxReleaseScalar(&shift));
    EXPECT(VX_SUCCESS, vxReleaseImage(&mean));
    EXPECT(VX_SUCCESS, vxReleaseImage(&sums));
    EXPECT(VX_SUCCESS, vxReleaseImage(&picture));
}

/* Maps a part to write, and reads it with room between the samples; and U32 sums. */
static void map_parts(vx_context context) {
    vx_image image = vxCreateImage(context, WIDTH, HEIGHT, VX_DF_IMAGE_S16);
    const vx_rectangle_t part = {3, 5, 13, 9}, inner = {4, 6, 6, 8};
    vx_imagepatch_addressing_t addr;
    vx_map_id map, other;
    void *samples, *others;
    EXPECT(VX_SUCCESS, vxMapImagePatch(image, &part, 0, &map, &addr, &samples, VX_WRITE_ONLY,
                                       VX_MEMORY_TYPE_HOST, 0));
    CHECK(addr.dim_x == 10 && addr.dim_y == 4 && addr.stride_x == 2 && addr.stride_y == 20);
    for (vx_uint32 i = 0; i < 40; i++)
        *(vx_int16 *)vxFormatImagePatchAddress1d(samples, i, &addr) = (vx_int16)(-1000 * (int)i);
    CHECK(vxFormatImagePatchAddress1d(samples, 40, &addr) == NULL);
    EXPECT(VX_SUCCESS, vxUnmapImagePatch(image, map));
    EXPECT(VX_ERROR_INVALID_PARAMETERS, vxUnmapImagePatch(image, map));
    EXPECT(VX_SUCCESS, vxMapImagePatch(image, &inner, 0, &map, &addr, &samples, VX_READ_AND_WRITE,
                                       VX_MEMORY_TYPE_HOST, 0));
    EXPECT(VX_SUCCESS, vxMapImagePatch(image, &part, 0, &other, &addr, &others, VX_READ_ONLY,
                                       VX_MEMORY_TYPE_HOST, 0));
    CHECK(((vx_int16 *)samples)[0] == -11000 && ((vx_int16 *)samples)[3] == -22000);
    ((vx_int16 *)samples)[3] = 77;
    EXPECT(VX_SUCCESS, vxUnmapImagePatch(image, map));
    vx_int16 spread[2][2][3] = {{{0}}};
    vx_imagepatch_addressing_t sparse = by_rows(2, 2, 6);
    EXPECT(VX_SUCCESS, vxCopyImagePatch(image, &inner, 0, &sparse, spread, VX_READ_ONLY,
                                        VX_MEMORY_TYPE_HOST));
    CHECK(spread[0][0][0] == -11000 && spread[0][1][0] == -12000 && spread[1][0][0] == -21000);
    CHECK(spread[1][1][0] == 77 && spread[0][0][1] == 0);
    /* The other map goes with its image. */
    EXPECT(VX_SUCCESS, vxReleaseImage(&image));
}

static void *run_many(void *given) {
    vx_context context = (vx_context)given;
    vx_image a = vxCreateImage(context, WIDTH, HEIGHT, VX_DF_IMAGE_U8);
    vx_image b = vxCreateImage(context, WIDTH, HEIGHT, VX_DF_IMAGE_U8);
    vx_uint8 samples[COUNT];
    for (int i = 0; i < 50; i++) {
        memset(samples, i, COUNT);
        EXPECT(VX_SUCCESS, copy_whole(a, WIDTH, HEIGHT, 1, samples, VX_WRITE_ONLY));
        EXPECT(VX_SUCCESS, vxuNot(context, a, b));
        EXPECT(VX_SUCCESS, copy_whole(b, WIDTH, HEIGHT, 1, samples, VX_READ_ONLY));
        CHECK(samples[COUNT - 1] == 255 - i);
    }
    EXPECT(VX_SUCCESS, vxReleaseImage(&a));
    EXPECT(VX_SUCCESS, vxReleaseImage(&b));
    return NULL;
}

/* Large pictures fill both directions' buffers. */
static void use_large_pictures(vx_context context) {
    enum { SIDE = 2048 };
    vx_image image = vxCreateImage(context, SIDE, SIDE, VX_DF_IMAGE_U32);
    vx_uint32 *samples = malloc(SIDE * SIDE * sizeof *samples);
    CHECK(samples != NULL);
    for (vx_uint32 i = 0; i < SIDE * SIDE; i++)
        samples[i] = i * 2654435761u;
    EXPECT(VX_SUCCESS, copy_whole(image, SIDE, SIDE, 4, samples, VX_WRITE_ONLY));
    memset(samples, 0, SIDE * SIDE * sizeof *samples);
    EXPECT(VX_SUCCESS, copy_whole(image, SIDE, SIDE, 4, samples, VX_READ_ONLY));
    for (vx_uint32 i = 0; i < SIDE * SIDE; i++)
        CHECK(samples[i] == i * 2654435761u);
    free(samples);
    EXPECT(VX_SUCCESS, vxReleaseImage(&image));
}

/* An image has up to 8192 columns and rows. */
static void use_long_pictures(vx_context context) {
    enum { SIDE = 8192 };
    static vx_uint8 samples[SIDE], found[SIDE];
    for (vx_uint32 i = 0; i < SIDE; i++)
        samples[i] = (vx_uint8)(i * 7 + i / 256);
    const vx_uint32 sides[2][2] = {{SIDE, 1}, {1, SIDE}};
    for (int k = 0; k < 2; k++) {
        vx_uint32 width = sides[k][0], height = sides[k][1];
        vx_image image = vxCreateImage(context, width, height, VX_DF_IMAGE_U8);
        EXPECT(VX_SUCCESS, copy_whole(image, width, height, 1, samples, VX_WRITE_ONLY));
        memset(found, 0, SIDE);
        EXPECT(VX_SUCCESS, copy_whole(image, width, height, 1, found, VX_READ_ONLY));
        CHECK(memcmp(samples, found, SIDE) == 0);
        EXPECT(VX_SUCCESS, vxReleaseImage(&image));
    }
}

/* Many runs are sent ahead, and a picture after them, before any of their replies is awaited. */
static void run_many_ahead(vx_context context) {
    enum { GRAPHS = 200, SIDE = 1024 };
    static vx_uint8 samples[SIDE * SIDE];
    vx_graph graphs[GRAPHS];
    vx_image first = vxCreateImage(context, SIDE, SIDE, VX_DF_IMAGE_U8);
    vx_image outputs[GRAPHS];
    for (int i = 0; i < GRAPHS; i++) {
        graphs[i] = vxCreateGraph(context);
        outputs[i] = vxCreateImage(context, SIDE, SIDE, VX_DF_IMAGE_U8);
        EXPECT(VX_SUCCESS, STATUS(vxNotNode(graphs[i], i == 0 ? first : outputs[i - 1],
                                            outputs[i])));
    }
    memset(samples, 5, sizeof samples);
    EXPECT(VX_SUCCESS, copy_whole(first, SIDE, SIDE, 1, samples, VX_WRITE_ONLY));
    for (int i = 0; i < GRAPHS; i++)
        EXPECT(VX_SUCCESS, vxScheduleGraph(graphs[i]));
    /* The runs before it have read what was there. */
    memset(samples, 90, sizeof samples);
    EXPECT(VX_SUCCESS, copy_whole(first, SIDE, SIDE, 1, samples, VX_WRITE_ONLY));
    for (int i = GRAPHS - 1; i >= 0; i--)
        EXPECT(VX_SUCCESS, vxWaitGraph(graphs[i]));
    for (int i = 0; i < GRAPHS; i++) {
        EXPECT(VX_SUCCESS, copy_whole(outputs[i], SIDE, SIDE, 1, samples, VX_READ_ONLY));
        CHECK(samples[0] == (i % 2 ? 5 : 250) && samples[SIDE * SIDE - 1] == samples[0]);
        EXPECT(VX_SUCCESS, vxReleaseGraph(&graphs[i]));
        EXPECT(VX_SUCCESS, vxReleaseImage(&outputs[i]));
    }
    EXPECT(VX_SUCCESS, vxReleaseImage(&first));
}

static vx_enum state_of(vx_graph graph) {
    vx_enum state;
    EXPECT(VX_SUCCESS, vxQueryGraph(graph, VX_GRAPH_STATE, &state, sizeof state));
    return state;
}

/* A graph that changes while it is scheduled: the run is of the nodes that it had, and the graph
   has to be verified again. The node that is added writes an image from a handle. */
static void change_while_scheduled(vx_context context) {
    vx_uint8 own[COUNT] = {77};
    void *memory = own;
    const vx_imagepatch_addressing_t addr = by_rows(WIDTH, HEIGHT, 1);
    const vx_border_t border = {.mode = VX_BORDER_REPLICATE};
    vx_image in = vxCreateImage(context, WIDTH, HEIGHT, VX_DF_IMAGE_U8);
    vx_image out = vxCreateImage(context, WIDTH, HEIGHT, VX_DF_IMAGE_U8);
    vx_image kept = vxCreateImageFromHandle(context, VX_DF_IMAGE_U8, &addr, &memory,
                                            VX_MEMORY_TYPE_HOST);
    vx_graph graph = vxCreateGraph(context);
    vx_node first = vxNotNode(graph, in, out), second = NULL;
    fill(in, 10);
    for (int change = 0; change < 3; change++) {
        EXPECT(VX_SUCCESS, vxScheduleGraph(graph));
        if (change == 0)
            EXPECT(VX_SUCCESS, vxSetNodeAttribute(first, VX_NODE_BORDER, &border, sizeof border));
        else if (change == 1)
            second = vxNotNode(graph, out, kept);
        else
            EXPECT(VX_SUCCESS, vxRemoveNode(&second));
        EXPECT(VX_SUCCESS, STATUS(first));
        CHECK(state_of(graph) == VX_GRAPH_STATE_RUNNING && !vxIsGraphVerified(graph));
        EXPECT(VX_SUCCESS, vxWaitGraph(graph));
        CHECK(state_of(graph) == VX_GRAPH_STATE_UNVERIFIED && !vxIsGraphVerified(graph));
        /* What the scheduled run writes is there, also of a node that was removed meanwhile. */
        CHECK(first_sample(out) == 245 && own[0] == (change == 2 ? 10 : 77));
        own[0] = 77;
        EXPECT(VX_SUCCESS, vxProcessGraph(graph));
        CHECK(state_of(graph) == VX_GRAPH_STATE_COMPLETED && vxIsGraphVerified(graph));
        CHECK(own[0] == (change == 1 ? 10 : 77));
        own[0] = 77;
    }
    EXPECT(VX_SUCCESS, vxReleaseGraph(&graph));
    EXPECT(VX_SUCCESS, vxReleaseImage(&kept));
    EXPECT(VX_SUCCESS, vxReleaseImage(&out));
    EXPECT(VX_SUCCESS, vxReleaseImage(&in));
}

static void remove_extremes_while_scheduled(vx_context context) {
    vx_uint8 greatest = 0;
    vx_image in = vxCreateImage(context, WIDTH, HEIGHT, VX_DF_IMAGE_U8);
    vx_scalar least = vxCreateScalar(context, VX_TYPE_UINT8, NULL);
    vx_scalar most = vxCreateScalar(context, VX_TYPE_UINT8, &greatest);
    vx_graph graph = vxCreateGraph(context);
    vx_node node = vxMinMaxLocNode(graph, in, least, most, NULL, NULL, NULL, NULL);
    fill(in, 10);
    EXPECT(VX_SUCCESS, vxScheduleGraph(graph));
    EXPECT(VX_SUCCESS, vxRemoveNode(&node));
    EXPECT(VX_SUCCESS, vxWaitGraph(graph));
    EXPECT(VX_FAILURE, vxWaitGraph(graph));
    EXPECT(VX_SUCCESS, vxCopyScalar(most, &greatest, VX_READ_ONLY, VX_MEMORY_TYPE_HOST));
    CHECK(greatest == 10);
    EXPECT(VX_SUCCESS, vxReleaseGraph(&graph));
    EXPECT(VX_SUCCESS, vxReleaseScalar(&most));
    EXPECT(VX_SUCCESS, vxReleaseScalar(&least));
    EXPECT(VX_SUCCESS, vxReleaseImage(&in));
}

int main(void) {
    vx_context context = vxCreateContext(), other = vxCreateContext();
    EXPECT(VX_SUCCESS, STATUS(context));
    find_edge(context);
    use_delay(context);
    age_after_runs(context);
    change_while_scheduled(context);
    remove_extremes_while_scheduled(context);
    add_pictures(context);
    map_parts(context);
    use_large_pictures(context);
    use_long_pictures(context);
    run_many_ahead(context);
    pthread_t threads[4];
    for (int i = 0; i < 4; i++)
        CHECK(pthread_create(&threads[i], NULL, run_many, i < 3 ? context : other) == 0);
    for (int i = 0; i < 4; i++)
        CHECK(pthread_join(threads[i], NULL) == 0);
    EXPECT(VX_SUCCESS, vxReleaseContext(&other));
    EXPECT(VX_SUCCESS, vxReleaseContext(&context));
    return 0;
}
