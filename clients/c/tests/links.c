/* Graphs in which a node reads a scalar that another node writes: it gets what this run wrote. The
   number of white pixels of a picture is the shift by which squares are added. */
#include "testing.h"

#include <pthread.h>
#include <stdbool.h>

enum { WIDTH = 12, HEIGHT = 7, COUNT = WIDTH * HEIGHT, SAMPLE = 100, THREADS = 3, TURNS = 20 };

static vx_context context;
static vx_scalar least, greatest;
static int entries;
static char said[VX_MAX_LOG_MESSAGE_LEN];

static void on_entry(vx_context of, vx_reference ref, vx_status status, const vx_char string[]) {
    CHECK(of == context && ref != NULL && status != VX_SUCCESS);
    entries++;
    snprintf(said, sizeof said, "%s", string);
}

static vx_image new_image(vx_df_image format) {
    return vxCreateImage(context, WIDTH, HEIGHT, format);
}

/* Makes the first pixels of an image white, and all others gray. */
static void whiten(vx_image image, int white) {
    vx_uint8 samples[COUNT];
    for (int i = 0; i < COUNT; i++)
        samples[i] = i < white ? 255 : SAMPLE;
    EXPECT(VX_SUCCESS, copy_whole(image, WIDTH, HEIGHT, 1, samples, VX_WRITE_ONLY));
}

static vx_image picture(int white) {
    vx_image image = new_image(VX_DF_IMAGE_U8);
    whiten(image, white);
    return image;
}

static vx_scalar count_of(vx_uint32 value) {
    return vxCreateScalar(context, VX_TYPE_UINT32, &value);
}

static vx_uint32 value_of(vx_scalar count) {
    vx_uint32 value;
    EXPECT(VX_SUCCESS, vxCopyScalar(count, &value, VX_READ_ONLY, VX_MEMORY_TYPE_HOST));
    return value;
}

static vx_int16 last_of(vx_image sums) {
    vx_int16 samples[COUNT];
    EXPECT(VX_SUCCESS, copy_whole(sums, WIDTH, HEIGHT, 2, samples, VX_READ_ONLY));
    return samples[COUNT - 1];
}

/* Nodes that write the number of an image's white pixels, and that read it as a shift. */
static vx_node count_white(vx_graph graph, vx_image input, vx_scalar count) {
    vx_node node = vxMinMaxLocNode(graph, input, least, greatest, NULL, NULL, NULL, count);
    EXPECT(VX_SUCCESS, STATUS(node));
    return node;
}

static vx_node add_squares(vx_graph graph, vx_image input, vx_scalar shift, vx_image sums) {
    vx_node node = vxAccumulateSquareImageNode(graph, input, shift, sums);
    EXPECT(VX_SUCCESS, STATUS(node));
    return node;
}

/* Releases a node, which stays in its graph. */
static void leave(vx_node node) {
    EXPECT(VX_SUCCESS, STATUS(node));
    EXPECT(VX_SUCCESS, vxReleaseNode(&node));
}

static int square(int shift) { return (SAMPLE * SAMPLE) >> shift; }

static vx_enum state_of(vx_graph graph) {
    vx_enum state;
    EXPECT(VX_SUCCESS, vxQueryGraph(graph, VX_GRAPH_STATE, &state, sizeof state));
    return state;
}

/* A run reads what it wrote itself, not what the last run or the program wrote. The reader was
   added before the writer. */
static void read_what_the_run_wrote(void) {
    const vx_uint32 other = 1;
    int expected = 0;
    vx_perf_t times;
    vx_graph graph = vxCreateGraph(context);
    vx_image input = picture(0), sums = new_image(VX_DF_IMAGE_S16);
    vx_scalar count = count_of(other);
    add_squares(graph, input, count, sums);
    count_white(graph, input, count);
    EXPECT(VX_SUCCESS, vxVerifyGraph(graph));
    CHECK(vxIsGraphVerified(graph) && last_of(sums) == 0 && value_of(count) == other);
    for (int white = 3; white < 9; white++) {
        whiten(input, white);
        if (white % 2 == 0)
            EXPECT(VX_SUCCESS, vxCopyScalar(count, (void *)&other, VX_WRITE_ONLY,
                                            VX_MEMORY_TYPE_HOST));
        if (white % 3 == 0) {
            EXPECT(VX_SUCCESS, vxScheduleGraph(graph));
            CHECK(state_of(graph) == VX_GRAPH_STATE_RUNNING);
            EXPECT(VX_ERROR_GRAPH_SCHEDULED, vxProcessGraph(graph));
            EXPECT(VX_SUCCESS, vxWaitGraph(graph));
        } else {
            EXPECT(VX_SUCCESS, vxProcessGraph(graph));
        }
        expected += square(white);
        CHECK(last_of(sums) == expected && value_of(count) == (vx_uint32)white);
        CHECK(state_of(graph) == VX_GRAPH_STATE_COMPLETED && vxIsGraphVerified(graph));
    }
    EXPECT(VX_SUCCESS, vxQueryGraph(graph, VX_GRAPH_PERFORMANCE, &times, sizeof times));
    CHECK(times.num == 6 && times.min > 0 && times.min <= times.max);
    EXPECT(VX_SUCCESS, vxReleaseGraph(&graph));
}

/* Two links in a row, without a verification before the run. */
static void read_in_a_chain(void) {
    vx_graph graph = vxCreateGraph(context);
    vx_image first = picture(2), second = picture(5), third = picture(0);
    vx_image sums = new_image(VX_DF_IMAGE_S16), last = new_image(VX_DF_IMAGE_S16);
    vx_scalar one = count_of(0), two = count_of(0);
    vx_scalar low = vxCreateScalar(context, VX_TYPE_INT16, NULL);
    vx_scalar high = vxCreateScalar(context, VX_TYPE_INT16, NULL);
    add_squares(graph, third, two, last);
    EXPECT(VX_SUCCESS, STATUS(vxMinMaxLocNode(graph, sums, low, high, NULL, NULL, NULL, two)));
    add_squares(graph, second, one, sums);
    count_white(graph, first, one);
    EXPECT(VX_SUCCESS, vxProcessGraph(graph));
    CHECK(value_of(one) == 2 && value_of(two) == 5);
    CHECK(last_of(sums) == square(2) && last_of(last) == square(5));
    whiten(first, 7);
    whiten(second, 4);
    EXPECT(VX_SUCCESS, vxScheduleGraph(graph));
    EXPECT(VX_SUCCESS, vxWaitGraph(graph));
    CHECK(value_of(one) == 7 && value_of(two) == 4);
    CHECK(last_of(last) == square(5) + square(4));
    EXPECT(VX_SUCCESS, vxReleaseGraph(&graph));
}

/* Runs six nodes with virtual images before the link, after it and across it. Gives the samples of
   their output and its valid rectangle. */
static void run_with_virtual_images(vx_image input, vx_scalar shift, vx_scalar count,
                                    vx_uint8 *samples, vx_rectangle_t *valid) {
    const vx_enum wrap = VX_CONVERT_POLICY_WRAP;
    const vx_int32 none = 0;
    vx_graph graph = vxCreateGraph(context);
    vx_image over = vxCreateVirtualImage(graph, 0, 0, VX_DF_IMAGE_VIRT);
    vx_image before = vxCreateVirtualImage(graph, 0, HEIGHT, VX_DF_IMAGE_VIRT);
    vx_image after = vxCreateVirtualImage(graph, 0, 0, VX_DF_IMAGE_U8);
    vx_image sums = new_image(VX_DF_IMAGE_S16), output = new_image(VX_DF_IMAGE_U8);
    vx_uint32 width;
    vx_df_image format;
    EXPECT(VX_SUCCESS, STATUS(vxAddNode(graph, after, over, wrap, output)));
    EXPECT(VX_SUCCESS, STATUS(vxConvertDepthNode(graph, sums, after, wrap,
                                                 vxCreateScalar(context, VX_TYPE_INT32, &none))));
    add_squares(graph, over, shift, sums);
    EXPECT(VX_SUCCESS, STATUS(vxNotNode(graph, input, before)));
    EXPECT(VX_SUCCESS, STATUS(vxMedian3x3Node(graph, before, over)));
    count_white(graph, input, count);
    for (int run = 0; run < 2; run++)
        EXPECT(VX_SUCCESS, vxProcessGraph(graph));
    EXPECT(VX_SUCCESS, vxQueryImage(over, VX_IMAGE_WIDTH, &width, sizeof width));
    EXPECT(VX_SUCCESS, vxQueryImage(over, VX_IMAGE_FORMAT, &format, sizeof format));
    CHECK(width == WIDTH && format == VX_DF_IMAGE_U8);
    EXPECT(VX_SUCCESS, copy_whole(output, WIDTH, HEIGHT, 1, samples, VX_READ_ONLY));
    EXPECT(VX_SUCCESS, vxGetValidRegionImage(output, valid));
    EXPECT(VX_SUCCESS, vxReleaseGraph(&graph));
}

/* A graph with a link gives what one with a constant shift gives. */
static void keep_virtual_images(void) {
    vx_uint8 linked[COUNT], constant[COUNT];
    vx_rectangle_t first, second;
    vx_scalar count = count_of(0);
    vx_image input = picture(4);
    run_with_virtual_images(input, count, count, linked, &first);
    run_with_virtual_images(input, count_of(4), count, constant, &second);
    CHECK(memcmp(linked, constant, COUNT) == 0 && memcmp(&first, &second, sizeof first) == 0);
    CHECK(first.start_x == 1 && first.end_y == HEIGHT - 1 && linked[COUNT / 2] != 0);
}

static void age_delays(void) {
    vx_graph graph = vxCreateGraph(context);
    vx_image input = picture(3), sums = new_image(VX_DF_IMAGE_S16);
    vx_delay delay = vxCreateDelay(context, (vx_reference)input, 2);
    vx_delay late = vxCreateDelay(context, (vx_reference)input, 2);
    vx_delay gone = vxCreateDelay(context, (vx_reference)input, 2);
    vx_image newest = (vx_image)vxGetReferenceFromDelay(delay, 0);
    vx_image before = (vx_image)vxGetReferenceFromDelay(delay, -1);
    vx_image slot = (vx_image)vxGetReferenceFromDelay(late, 0);
    vx_scalar count = count_of(0);
    count_white(graph, input, count);
    add_squares(graph, before, count, sums);
    EXPECT(VX_SUCCESS, STATUS(vxAndNode(graph, input, input, newest)));
    EXPECT(VX_SUCCESS, vxRegisterAutoAging(graph, delay));
    EXPECT(VX_SUCCESS, vxRegisterAutoAging(graph, gone));
    EXPECT(VX_SUCCESS, vxRegisterAutoAging(graph, delay));
    EXPECT(VX_SUCCESS, vxReleaseDelay(&gone));
    /* It still ages, since nodes use its slots. */
    EXPECT(VX_SUCCESS, vxReleaseDelay(&delay));
    EXPECT(VX_SUCCESS, vxVerifyGraph(graph));
    EXPECT(VX_SUCCESS, vxRegisterAutoAging(graph, late));
    whiten(slot, 9);
    EXPECT(VX_SUCCESS, vxProcessGraph(graph));
    CHECK(last_of(sums) == 0);
    EXPECT(VX_SUCCESS, vxScheduleGraph(graph));
    EXPECT(VX_SUCCESS, vxWaitGraph(graph));
    CHECK(last_of(sums) == square(3));
    EXPECT(VX_SUCCESS, vxProcessGraph(graph));
    CHECK(last_of(sums) == 2 * square(3));
    /* The late one has two slots, and three runs have aged it. */
    vx_uint8 samples[COUNT];
    slot = (vx_image)vxGetReferenceFromDelay(late, -1);
    EXPECT(VX_SUCCESS, copy_whole(slot, WIDTH, HEIGHT, 1, samples, VX_READ_ONLY));
    CHECK(samples[8] == 255);
    EXPECT(VX_SUCCESS, vxReleaseGraph(&graph));
    EXPECT(VX_SUCCESS, vxReleaseDelay(&late));
}

/* Parameters and nodes give a graph a link, and take it away. */
static void change_links(void) {
    vx_graph graph = vxCreateGraph(context);
    vx_image input = picture(3), other = picture(6), sums = new_image(VX_DF_IMAGE_S16);
    vx_scalar count = count_of(0), constant = count_of(1);
    vx_node writer = count_white(graph, input, count);
    vx_node reader = add_squares(graph, input, constant, sums);
    vx_parameter parameter = vxGetParameterByIndex(writer, 0);
    EXPECT(VX_SUCCESS, vxAddParameterToGraph(graph, parameter));
    EXPECT(VX_SUCCESS, vxReleaseParameter(&parameter));
    EXPECT(VX_SUCCESS, vxProcessGraph(graph));
    int expected = square(1);
    CHECK(last_of(sums) == expected);
    EXPECT(VX_SUCCESS, vxSetParameterByIndex(reader, 1, (vx_reference)count));
    EXPECT(VX_SUCCESS, vxProcessGraph(graph));
    CHECK(last_of(sums) == (expected += square(3)));
    EXPECT(VX_SUCCESS, vxSetGraphParameterByIndex(graph, 0, (vx_reference)other));
    CHECK(!vxIsGraphVerified(graph));
    EXPECT(VX_SUCCESS, vxProcessGraph(graph));
    CHECK(last_of(sums) == (expected += square(6)));
    EXPECT(VX_SUCCESS, vxRemoveNode(&reader));
    reader = add_squares(graph, other, count, sums);
    EXPECT(VX_SUCCESS, vxProcessGraph(graph));
    CHECK(last_of(sums) == (expected += square(6)));
    EXPECT(VX_SUCCESS, vxScheduleGraph(graph));
    EXPECT(VX_SUCCESS, vxRemoveNode(&writer));
    EXPECT(VX_SUCCESS, vxWaitGraph(graph));
    CHECK(last_of(sums) == (expected += square(6)));
    /* Now the shift is what the last run left. */
    whiten(other, 2);
    EXPECT(VX_SUCCESS, vxProcessGraph(graph));
    CHECK(last_of(sums) == expected + square(6));
    EXPECT(VX_SUCCESS, vxReleaseGraph(&graph));
    EXPECT(VX_SUCCESS, vxReleaseNode(&reader));
}

static void refuse_faults(void) {
    vx_graph graph = vxCreateGraph(context);
    vx_image input = picture(3), virtual = vxCreateVirtualImage(graph, 0, 0, VX_DF_IMAGE_VIRT);
    vx_image sums = new_image(VX_DF_IMAGE_S16);
    vx_image small = vxCreateImage(context, 2, 2, VX_DF_IMAGE_U8);
    vx_scalar count = count_of(0), low = vxCreateScalar(context, VX_TYPE_INT16, NULL);
    vx_scalar high = vxCreateScalar(context, VX_TYPE_INT16, NULL);
    vx_node reader = add_squares(graph, input, count, sums);
    vx_node cycle = vxMinMaxLocNode(graph, sums, low, high, NULL, NULL, count, NULL);
    SAYS(VX_ERROR_INVALID_GRAPH, vxVerifyGraph(graph),
         "node 0 (vxAccumulateSquareImageNode): it reads, directly or through other nodes, what "
         "it writes");
    CHECK(!vxIsGraphVerified(graph) && state_of(graph) == VX_GRAPH_STATE_UNVERIFIED);
    SAYS(VX_ERROR_INVALID_GRAPH, vxProcessGraph(graph), "node 0 (vxAccumulateSquareImageNode): ");
    SAYS(VX_ERROR_INVALID_GRAPH, vxScheduleGraph(graph), "node 0 (vxAccumulateSquareImageNode): ");
    vx_node other = vxMinMaxLocNode(graph, input, least, greatest, NULL, NULL, NULL, count);
    SAYS(VX_ERROR_MULTIPLE_WRITERS, vxProcessGraph(graph),
         "node 1 (vxMinMaxLocNode) writes minCount, which node 2 (vxMinMaxLocNode) writes too");
    EXPECT(VX_SUCCESS, vxRemoveNode(&cycle));
    EXPECT(VX_SUCCESS, vxVerifyGraph(graph));
    /* The verdict is that of the whole graph. */
    vx_node wrong = vxNotNode(graph, input, small);
    SAYS(VX_ERROR_INVALID_DIMENSION, vxVerifyGraph(graph), "node 2 (vxNotNode): ");
    EXPECT(VX_SUCCESS, vxRemoveNode(&wrong));
    EXPECT(VX_SUCCESS, vxSetParameterByIndex(reader, 0, (vx_reference)virtual));
    SAYS(VX_ERROR_INVALID_LINK, vxVerifyGraph(graph),
         "node 0 (vxAccumulateSquareImageNode): input is a virtual image that no node writes");
    EXPECT(VX_SUCCESS, vxReleaseGraph(&graph));
    EXPECT(VX_SUCCESS, vxReleaseNode(&other));
    EXPECT(VX_SUCCESS, vxReleaseNode(&reader));
}

/* That a count is no shift is known after the first part of a run. */
static void abandon_runs(void) {
    vx_graph graph = vxCreateGraph(context);
    vx_image input = picture(16), sums = new_image(VX_DF_IMAGE_S16);
    vx_scalar count = count_of(0);
    vx_status status;
    count_white(graph, input, count);
    vx_node reader = add_squares(graph, input, count, sums);
    EXPECT(VX_SUCCESS, vxVerifyGraph(graph));
    for (int run = 0; run < 2; run++) {
        SAYS(VX_ERROR_INVALID_VALUE, run == 0 ? vxScheduleGraph(graph) : vxProcessGraph(graph),
             "node 1 (vxAccumulateSquareImageNode): shift is 16, and has to be 0 to 15");
        CHECK(state_of(graph) == VX_GRAPH_STATE_ABANDONED && !vxIsGraphVerified(graph));
        EXPECT(VX_FAILURE, vxWaitGraph(graph));
    }
    CHECK(value_of(count) == 16 && last_of(sums) == 0);
    EXPECT(VX_SUCCESS, vxQueryNode(reader, VX_NODE_STATUS, &status, sizeof status));
    CHECK(status == VX_ERROR_INVALID_VALUE);
    whiten(input, 15);
    EXPECT(VX_SUCCESS, vxProcessGraph(graph));
    EXPECT(VX_SUCCESS, vxQueryNode(reader, VX_NODE_STATUS, &status, sizeof status));
    CHECK(state_of(graph) == VX_GRAPH_STATE_COMPLETED && status == VX_SUCCESS);
    /* A run that never began isn't abandoned. */
    EXPECT(VX_SUCCESS, STATUS(vxNotNode(graph, input, sums)));
    EXPECT(VX_ERROR_MULTIPLE_WRITERS, vxProcessGraph(graph));
    CHECK(state_of(graph) == VX_GRAPH_STATE_UNVERIFIED);
    EXPECT(VX_SUCCESS, vxReleaseGraph(&graph));
    EXPECT(VX_SUCCESS, vxReleaseNode(&reader));
}

/* Images in the program's memory. One is written in the first part and read in the second. */
static void use_handles(void) {
    static vx_uint8 frame[COUNT], copy[COUNT];
    static vx_int16 sums[COUNT];
    vx_imagepatch_addressing_t addr = by_rows(WIDTH, HEIGHT, 1), wide = by_rows(WIDTH, HEIGHT, 2);
    void *in[] = {frame}, *between[] = {copy}, *out[] = {sums};
    vx_image input = vxCreateImageFromHandle(context, VX_DF_IMAGE_U8, &addr, in,
                                             VX_MEMORY_TYPE_HOST);
    vx_image copied = vxCreateImageFromHandle(context, VX_DF_IMAGE_U8, &addr, between,
                                              VX_MEMORY_TYPE_HOST);
    vx_image output = vxCreateImageFromHandle(context, VX_DF_IMAGE_S16, &wide, out,
                                              VX_MEMORY_TYPE_HOST);
    vx_scalar count = count_of(0);
    vx_graph graph = vxCreateGraph(context);
    EXPECT(VX_SUCCESS, STATUS(vxOrNode(graph, input, input, copied)));
    count_white(graph, copied, count);
    add_squares(graph, copied, count, output);
    for (int white = 1; white < 4; white++) {
        memset(frame, SAMPLE, sizeof frame);
        memset(frame, 255, (size_t)white);
        memset(sums, 0, sizeof sums);
        EXPECT(VX_SUCCESS, vxProcessGraph(graph));
        CHECK(copy[white - 1] == 255 && copy[white] == SAMPLE && sums[COUNT - 1] == square(white));
    }
    EXPECT(VX_SUCCESS, vxReleaseGraph(&graph));
    EXPECT(VX_SUCCESS, vxReleaseImage(&input));
    EXPECT(VX_SUCCESS, vxReleaseImage(&copied));
    EXPECT(VX_SUCCESS, vxReleaseImage(&output));
}

/* Makes, runs and releases a graph with one virtual image in a part and one across parts. */
static void run_turn(vx_image input, vx_scalar extremes[2], vx_scalar count, vx_image sums,
                     bool waits) {
    vx_graph graph = vxCreateGraph(context);
    vx_image over = vxCreateVirtualImage(graph, 0, 0, VX_DF_IMAGE_VIRT);
    vx_image inner = vxCreateVirtualImage(graph, 0, 0, VX_DF_IMAGE_VIRT);
    leave(vxNotNode(graph, input, inner));
    leave(vxNotNode(graph, inner, over));
    leave(vxMinMaxLocNode(graph, over, extremes[0], extremes[1], NULL, NULL, NULL, count));
    leave(add_squares(graph, over, count, sums));
    EXPECT(VX_SUCCESS, vxReleaseImage(&over));
    EXPECT(VX_SUCCESS, vxReleaseImage(&inner));
    EXPECT(VX_SUCCESS, vxScheduleGraph(graph));
    if (waits)
        EXPECT(VX_SUCCESS, vxWaitGraph(graph));
    /* A release waits for the run. */
    EXPECT(VX_SUCCESS, vxReleaseGraph(&graph));
}

/* Runs many graphs one after another, with objects of its own, in a thread of its own. */
static void *run_alone(void *turns) {
    int expected = 0;
    vx_image input = picture(0), sums = new_image(VX_DF_IMAGE_S16);
    vx_scalar extremes[2] = {vxCreateScalar(context, VX_TYPE_UINT8, NULL),
                             vxCreateScalar(context, VX_TYPE_UINT8, NULL)};
    vx_scalar count = count_of(0);
    for (int turn = 0; turn < *(const int *)turns; turn++) {
        int white = 1 + turn % 15;
        whiten(input, white);
        run_turn(input, extremes, count, sums, turn % 3 == 0);
        CHECK(value_of(count) == (vx_uint32)white);
        expected = expected + square(white) > 32767 ? 32767 : expected + square(white);
    }
    CHECK(last_of(sums) == expected);
    EXPECT(VX_SUCCESS, vxReleaseScalar(&extremes[0]));
    EXPECT(VX_SUCCESS, vxReleaseScalar(&extremes[1]));
    EXPECT(VX_SUCCESS, vxReleaseScalar(&count));
    EXPECT(VX_SUCCESS, vxReleaseImage(&input));
    EXPECT(VX_SUCCESS, vxReleaseImage(&sums));
    return NULL;
}

static void run_in_threads(void) {
    pthread_t threads[THREADS];
    int turns = TURNS;
    for (int i = 0; i < THREADS; i++)
        CHECK(pthread_create(&threads[i], NULL, run_alone, &turns) == 0);
    for (int i = 0; i < THREADS; i++)
        CHECK(pthread_join(threads[i], NULL) == 0);
}

/* Parts leave no object behind on the server, which allows 1,024. */
static void leak_nothing(void) {
    int many = 1100;
    vx_graph graph = vxCreateGraph(context);
    vx_image input = picture(1), sums = new_image(VX_DF_IMAGE_S16);
    vx_scalar count = count_of(0);
    count_white(graph, input, count);
    add_squares(graph, input, count, sums);
    for (int i = 0; i < many; i++)
        EXPECT(VX_SUCCESS, vxVerifyGraph(graph));
    run_alone(&many);
    /* The context is released with this graph. */
}

int main(void) {
    context = vxCreateContext();
    EXPECT(VX_SUCCESS, STATUS(context));
    vxRegisterLogCallback(context, on_entry, vx_false_e);
    least = vxCreateScalar(context, VX_TYPE_UINT8, NULL);
    greatest = vxCreateScalar(context, VX_TYPE_UINT8, NULL);
    read_what_the_run_wrote();
    read_in_a_chain();
    keep_virtual_images();
    age_delays();
    change_links();
    refuse_faults();
    abandon_runs();
    use_handles();
    run_in_threads();
    leak_nothing();
    EXPECT(VX_SUCCESS, vxReleaseContext(&context));
    return 0;
}
