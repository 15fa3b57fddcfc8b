/* Runs each function at once and in a graph, which have to agree, and prints what it gives: the
   driver compares that with the Python client's. */
#include "testing.h"

enum { WIDTH = 13, HEIGHT = 9, COUNT = WIDTH * HEIGHT };

static vx_context context;
static vx_image a, b, s, t;
static vx_threshold above, between;
static vx_lut bytes, words;
static vx_convolution kernel;

static void fill(vx_image image, int size, vx_uint32 seed) {
    vx_int16 words_[COUNT];
    vx_uint8 bytes_[COUNT];
    for (int i = 0; i < COUNT; i++) {
        vx_uint32 number = next_number(&seed);
        bytes_[i] = (vx_uint8)number;
        words_[i] = (vx_int16)(number & 0xFFFF);
    }
    void *samples = size == 1 ? (void *)bytes_ : (void *)words_;
    EXPECT(VX_SUCCESS, copy_whole(image, WIDTH, HEIGHT, size, samples, VX_WRITE_ONLY));
}

static void make_parameters(void) {
    above = vxCreateThresholdForImage(context, VX_THRESHOLD_TYPE_BINARY, VX_DF_IMAGE_U8,
                                      VX_DF_IMAGE_U8);
    between = vxCreateThresholdForImage(context, VX_THRESHOLD_TYPE_RANGE, VX_DF_IMAGE_S16,
                                        VX_DF_IMAGE_U8);
    vx_pixel_value_t limit = {.U8 = 99}, lower = {.S16 = -900}, upper = {.S16 = 20000};
    EXPECT(VX_SUCCESS, vxCopyThresholdValue(above, &limit, VX_WRITE_ONLY, VX_MEMORY_TYPE_HOST));
    EXPECT(VX_SUCCESS,
           vxCopyThresholdRange(between, &lower, &upper, VX_WRITE_ONLY, VX_MEMORY_TYPE_HOST));
    bytes = vxCreateLUT(context, VX_TYPE_UINT8, 256);
    words = vxCreateLUT(context, VX_TYPE_INT16, 65536);
    static vx_uint8 entries[256];
    static vx_int16 long_entries[65536];
    for (int i = 0; i < 256; i++)
        entries[i] = (vx_uint8)(7 * i + 3);
    for (int i = 0; i < 65536; i++)
        long_entries[i] = (vx_int16)(31 * i);
    EXPECT(VX_SUCCESS, vxCopyLUT(bytes, entries, VX_WRITE_ONLY, VX_MEMORY_TYPE_HOST));
    EXPECT(VX_SUCCESS, vxCopyLUT(words, long_entries, VX_WRITE_ONLY, VX_MEMORY_TYPE_HOST));
    kernel = vxCreateConvolution(context, 3, 5);
    vx_int16 coefficients[15];
    vx_uint32 scale = 4;
    for (int i = 0; i < 15; i++)
        coefficients[i] = (vx_int16)(i - 6);
    EXPECT(VX_SUCCESS, vxCopyConvolutionCoefficients(kernel, coefficients, VX_WRITE_ONLY,
                                                     VX_MEMORY_TYPE_HOST));
    EXPECT(VX_SUCCESS, vxSetConvolutionAttribute(kernel, VX_CONVOLUTION_SCALE, &scale, 4));
}

/* Prints an image's valid rectangle and its samples in hexadecimal, most significant byte first. */
static void print_image(vx_image image, vx_df_image format) {
    vx_rectangle_t valid;
    vx_uint32 samples[COUNT];
    int size = format == VX_DF_IMAGE_U8 ? 1 : format == VX_DF_IMAGE_S16 ? 2 : 4;
    EXPECT(VX_SUCCESS, vxGetValidRegionImage(image, &valid));
    EXPECT(VX_SUCCESS, copy_whole(image, WIDTH, HEIGHT, size, samples, VX_READ_ONLY));
    printf(" %u,%u,%u,%u ", valid.start_x, valid.start_y, valid.end_x, valid.end_y);
    for (int i = 0; i < COUNT; i++)
        if (size == 1)
            printf("%02x", ((vx_uint8 *)samples)[i]);
        else if (size == 2)
            printf("%04x", ((vx_uint16 *)samples)[i]);
        else
            printf("%08x", samples[i]);
}

/* One function into an output of a format: at once, then as a node with the same border. */
#define RUN(word, format, at_once, as_node)                                                        \
    do {                                                                                           \
        for (int way = 0; way < 2; way++) {                                                        \
            vx_image out = vxCreateImage(context, WIDTH, HEIGHT, format);                          \
            vx_graph graph = vxCreateGraph(context);                                               \
            if (way == 0) {                                                                        \
                EXPECT(VX_SUCCESS, at_once);                                                       \
            } else {                                                                               \
                run_node(graph, as_node);                                                          \
            }                                                                                      \
            printf("%s %d", word, border.mode - VX_BORDER_UNDEFINED);                              \
            print_image(out, format);                                                              \
            printf("\n");                                                                          \
            EXPECT(VX_SUCCESS, vxReleaseGraph(&graph));                                            \
            EXPECT(VX_SUCCESS, vxReleaseImage(&out));                                              \
        }                                                                                          \
    } while (0)

static vx_border_t border;

static void run_node(vx_graph graph, vx_node node) {
    EXPECT(VX_SUCCESS, STATUS(node));
    EXPECT(VX_SUCCESS, vxSetNodeAttribute(node, VX_NODE_BORDER, &border, sizeof border));
    EXPECT(VX_SUCCESS, vxVerifyGraph(graph));
    EXPECT(VX_SUCCESS, vxProcessGraph(graph));
    EXPECT(VX_SUCCESS, vxReleaseNode(&node));
    CHECK(node == NULL);
}

static void run_pixels(void) {
    const vx_df_image u8 = VX_DF_IMAGE_U8, s16 = VX_DF_IMAGE_S16;
    const vx_enum wrap = VX_CONVERT_POLICY_WRAP, near = VX_CONVERT_POLICY_SATURATE;
    const vx_enum zero = VX_ROUND_POLICY_TO_ZERO;
    const vx_float32 scale_value = 1.0f / 256;
    const vx_int32 shift_value = 3;
    vx_scalar scale = vxCreateScalar(context, VX_TYPE_FLOAT32, &scale_value);
    vx_scalar shift = vxCreateScalar(context, VX_TYPE_INT32, &shift_value);
    RUN("and_", u8, vxuAnd(context, a, b, out), vxAndNode(graph, a, b, out));
    RUN("or_", u8, vxuOr(context, a, b, out), vxOrNode(graph, a, b, out));
    RUN("xor", u8, vxuXor(context, a, b, out), vxXorNode(graph, a, b, out));
    RUN("not_", u8, vxuNot(context, a, out), vxNotNode(graph, a, out));
    RUN("add", u8, vxuAdd(context, a, b, wrap, out), vxAddNode(graph, a, b, wrap, out));
    RUN("add16", s16, vxuAdd(context, s, b, near, out), vxAddNode(graph, s, b, near, out));
    RUN("subtract", s16, vxuSubtract(context, a, t, near, out),
        vxSubtractNode(graph, a, t, near, out));
    RUN("multiply", s16, vxuMultiply(context, s, a, scale_value, wrap, zero, out),
        vxMultiplyNode(graph, s, a, scale, wrap, zero, out));
    RUN("absdiff", u8, vxuAbsDiff(context, a, b, out), vxAbsDiffNode(graph, a, b, out));
    RUN("absdiff16", s16, vxuAbsDiff(context, s, t, out), vxAbsDiffNode(graph, s, t, out));
    RUN("min", s16, vxuMin(context, s, t, out), vxMinNode(graph, s, t, out));
    RUN("max", u8, vxuMax(context, a, b, out), vxMaxNode(graph, a, b, out));
    RUN("threshold", u8, vxuThreshold(context, a, above, out),
        vxThresholdNode(graph, a, above, out));
    RUN("threshold16", u8, vxuThreshold(context, s, between, out),
        vxThresholdNode(graph, s, between, out));
    RUN("table_lookup", u8, vxuTableLookup(context, a, bytes, out),
        vxTableLookupNode(graph, a, bytes, out));
    RUN("table_lookup16", s16, vxuTableLookup(context, s, words, out),
        vxTableLookupNode(graph, s, words, out));
    RUN("convert_depth", u8, vxuConvertDepth(context, s, out, near, shift_value),
        vxConvertDepthNode(graph, s, out, near, shift));
}

/* A function that adds to what its output holds: twice to the same, at once and as a node. */
#define ADD(word, at_once, as_node)                                                                \
    do {                                                                                           \
        for (int way = 0; way < 2; way++) {                                                        \
            vx_image sums = sums_of_noise();                                                       \
            vx_graph graph = vxCreateGraph(context);                                               \
            EXPECT(VX_SUCCESS, at_once);                                                           \
            if (way == 0) {                                                                        \
                EXPECT(VX_SUCCESS, at_once);                                                       \
            } else {                                                                               \
                run_node(graph, as_node);                                                          \
            }                                                                                      \
            printf("%s 0", word);                                                                  \
            print_image(sums, VX_DF_IMAGE_S16);                                                    \
            printf("\n");                                                                          \
            EXPECT(VX_SUCCESS, vxReleaseGraph(&graph));                                            \
            EXPECT(VX_SUCCESS, vxReleaseImage(&sums));                                             \
        }                                                                                          \
    } while (0)

/* Valid in a part. */
static vx_image sums_of_noise(void) {
    const vx_rectangle_t valid = {0, 2, WIDTH - 1, HEIGHT};
    vx_image sums = vxCreateImage(context, WIDTH, HEIGHT, VX_DF_IMAGE_S16);
    fill(sums, 2, 5);
    EXPECT(VX_SUCCESS, vxSetImageValidRectangle(sums, &valid));
    return sums;
}

static void run_sums(void) {
    const vx_uint32 shift_value = 3;
    vx_scalar shift = vxCreateScalar(context, VX_TYPE_UINT32, &shift_value);
    ADD("accumulate", vxuAccumulateImage(context, b, sums), vxAccumulateImageNode(graph, b, sums));
    ADD("accumulate_square", vxuAccumulateSquareImage(context, b, shift, sums),
        vxAccumulateSquareImageNode(graph, b, shift, sums));
    EXPECT(VX_SUCCESS, vxReleaseScalar(&shift));
}

static void run_windows(void) {
    const vx_df_image u8 = VX_DF_IMAGE_U8, s16 = VX_DF_IMAGE_S16;
    EXPECT(VX_SUCCESS, vxSetContextAttribute(context, VX_CONTEXT_IMMEDIATE_BORDER, &border,
                                             sizeof border));
    RUN("box3x3", u8, vxuBox3x3(context, a, out), vxBox3x3Node(graph, a, out));
    RUN("gaussian3x3", u8, vxuGaussian3x3(context, a, out), vxGaussian3x3Node(graph, a, out));
    RUN("median3x3", u8, vxuMedian3x3(context, a, out), vxMedian3x3Node(graph, a, out));
    RUN("erode3x3", u8, vxuErode3x3(context, a, out), vxErode3x3Node(graph, a, out));
    RUN("dilate3x3", u8, vxuDilate3x3(context, a, out), vxDilate3x3Node(graph, a, out));
    RUN("sobel_x", s16, vxuSobel3x3(context, a, out, NULL), vxSobel3x3Node(graph, a, out, NULL));
    RUN("sobel_y", s16, vxuSobel3x3(context, a, NULL, out), vxSobel3x3Node(graph, a, NULL, out));
    RUN("convolve", s16, vxuConvolve(context, a, kernel, out),
        vxConvolveNode(graph, a, kernel, out));
    RUN("integral_image", VX_DF_IMAGE_U32, vxuIntegralImage(context, a, out),
        vxIntegralImageNode(graph, a, out));
}

static void run_histogram(void) {
    vx_uint32 counts[10];
    for (int way = 0; way < 2; way++) {
        vx_distribution found = vxCreateDistribution(context, 10, 20, 200);
        vx_graph graph = vxCreateGraph(context);
        if (way == 0)
            EXPECT(VX_SUCCESS, vxuHistogram(context, a, found));
        else
            run_node(graph, vxHistogramNode(graph, a, found));
        EXPECT(VX_SUCCESS, vxCopyDistribution(found, counts, VX_READ_ONLY, VX_MEMORY_TYPE_HOST));
        printf("histogram 0");
        for (int i = 0; i < 10; i++)
            printf(" %u", counts[i]);
        printf("\n");
        EXPECT(VX_SUCCESS, vxReleaseGraph(&graph));
        EXPECT(VX_SUCCESS, vxReleaseDistribution(&found));
    }
}

static void run_extremes(void) {
    vx_scalar least = vxCreateScalar(context, VX_TYPE_INT16, NULL);
    vx_scalar greatest = vxCreateScalar(context, VX_TYPE_INT16, NULL);
    vx_scalar leasts = vxCreateScalar(context, VX_TYPE_UINT32, NULL);
    vx_scalar greatests = vxCreateScalar(context, VX_TYPE_SIZE, NULL);
    vx_array first = vxCreateArray(context, VX_TYPE_COORDINATES2D, 1);
    vx_array last = vxCreateArray(context, VX_TYPE_COORDINATES2D, 5);
    for (int way = 0; way < 2; way++) {
        vx_graph graph = vxCreateGraph(context);
        vx_int16 values[2];
        vx_uint32 count;
        vx_size long_count;
        vx_coordinates2d_t places[2];
        if (way == 0)
            EXPECT(VX_SUCCESS,
                   vxuMinMaxLoc(context, s, least, greatest, first, last, leasts, greatests));
        else
            run_node(graph,
                     vxMinMaxLocNode(graph, s, least, greatest, first, last, leasts, greatests));
        vxCopyScalar(least, &values[0], VX_READ_ONLY, VX_MEMORY_TYPE_HOST);
        vxCopyScalar(greatest, &values[1], VX_READ_ONLY, VX_MEMORY_TYPE_HOST);
        vxCopyScalar(leasts, &count, VX_READ_ONLY, VX_MEMORY_TYPE_HOST);
        vxCopyScalar(greatests, &long_count, VX_READ_ONLY, VX_MEMORY_TYPE_HOST);
        EXPECT(VX_SUCCESS, vxCopyArrayRange(first, 0, 1, sizeof *places, &places[0], VX_READ_ONLY,
                                            VX_MEMORY_TYPE_HOST));
        EXPECT(VX_SUCCESS, vxCopyArrayRange(last, 0, 1, sizeof *places, &places[1], VX_READ_ONLY,
                                            VX_MEMORY_TYPE_HOST));
        printf("min_max_loc 0 %d %d %u %zu %u %u %u %u\n", values[0], values[1], count, long_count,
               places[0].x, places[0].y, places[1].x, places[1].y);
        EXPECT(VX_SUCCESS, vxReleaseGraph(&graph));
    }
}

int main(void) {
    context = vxCreateContext();
    EXPECT(VX_SUCCESS, STATUS(context));
    a = vxCreateImage(context, WIDTH, HEIGHT, VX_DF_IMAGE_U8);
    b = vxCreateImage(context, WIDTH, HEIGHT, VX_DF_IMAGE_U8);
    s = vxCreateImage(context, WIDTH, HEIGHT, VX_DF_IMAGE_S16);
    t = vxCreateImage(context, WIDTH, HEIGHT, VX_DF_IMAGE_S16);
    fill(a, 1, 1);
    fill(b, 1, 2);
    fill(s, 2, 3);
    fill(t, 2, 4);
    const vx_rectangle_t valid = {1, 1, WIDTH, HEIGHT - 1};
    EXPECT(VX_SUCCESS, vxSetImageValidRectangle(b, &valid));
    make_parameters();
    border.mode = VX_BORDER_UNDEFINED;
    run_pixels();
    run_sums();
    for (int mode = 0; mode < 3; mode++) {
        border.mode = VX_BORDER_UNDEFINED + mode;
        border.constant_value.U8 = 77;
        run_windows();
    }
    run_histogram();
    run_extremes();
    EXPECT(VX_SUCCESS, vxReleaseContext(&context));
    CHECK(context == NULL);
    return 0;
}
