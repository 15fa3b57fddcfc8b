/* In the style of published programs: maps with VX_NOGAP_X, images in the program's memory, maps of
   tables, arrays and distributions, generic nodes, hints, and numbers of performance. */
#include "testing.h"

#include <VX/vx_compatibility.h>

enum { WIDTH = 20, HEIGHT = 10, STRIDE = 32 };

static vx_context context;

#define ERROR_CHECK_STATUS(call) EXPECT(VX_SUCCESS, call)

/* The loop that stands in most programs. */
static void fill_by_loop(vx_image image) {
    vx_rectangle_t rect;
    ERROR_CHECK_STATUS(vxGetValidRegionImage(image, &rect));
    vx_map_id map;
    vx_imagepatch_addressing_t addr;
    void *base = NULL;
    ERROR_CHECK_STATUS(vxMapImagePatch(image, &rect, 0, &map, &addr, &base, VX_WRITE_ONLY,
                                       VX_MEMORY_TYPE_HOST, VX_NOGAP_X));
    for (vx_uint32 y = 0; y < addr.dim_y; y += addr.step_y)
        for (vx_uint32 x = 0; x < addr.dim_x; x += addr.step_x) {
            vx_uint8 *pixel = vxFormatImagePatchAddress2d(base, x, y, &addr);
            *pixel = (vx_uint8)(x + y);
        }
    ERROR_CHECK_STATUS(vxUnmapImagePatch(image, map));
}

static vx_uint8 pixel_of(vx_image image, vx_uint32 x, vx_uint32 y) {
    const vx_rectangle_t rect = {x, y, x + 1, y + 1};
    const vx_imagepatch_addressing_t addr = by_rows(1, 1, 1);
    vx_uint8 pixel = 0;
    ERROR_CHECK_STATUS(vxCopyImagePatch(image, &rect, 0, &addr, &pixel, VX_READ_ONLY,
                                        VX_MEMORY_TYPE_HOST));
    return pixel;
}

static void use_generic_nodes(void) {
    vx_graph graph = vxCreateGraph(context);
    vx_image in = vxCreateImage(context, WIDTH, HEIGHT, VX_DF_IMAGE_U8);
    vx_image out = vxCreateImage(context, WIDTH, HEIGHT, VX_DF_IMAGE_U8);
    fill_by_loop(in);
    vx_kernel kernel = vxGetKernelByEnum(context, VX_KERNEL_NOT);
    vx_node node = vxCreateGenericNode(graph, kernel);
    ERROR_CHECK_STATUS(vxSetParameterByIndex(node, 0, (vx_reference)in));
    ERROR_CHECK_STATUS(vxSetParameterByIndex(node, 1, (vx_reference)out));
    ERROR_CHECK_STATUS(vxHint((vx_reference)graph, VX_HINT_PERFORMANCE_HIGH_SPEED, NULL, 0));
    ERROR_CHECK_STATUS(vxDirective((vx_reference)context, VX_DIRECTIVE_ENABLE_PERFORMANCE));
    ERROR_CHECK_STATUS(vxSetNodeTarget(node, VX_TARGET_ANY, NULL));
    ERROR_CHECK_STATUS(vxSetImmediateModeTarget(context, VX_TARGET_STRING, "Any"));
    EXPECT(VX_ERROR_NOT_SUPPORTED, vxSetNodeTarget(node, VX_TARGET_STRING, "gpu"));
    EXPECT(VX_ERROR_NOT_SUPPORTED, vxHint((vx_reference)graph, -1, NULL, 0));
    for (int i = 0; i < 3; i++)
        ERROR_CHECK_STATUS(vxProcessGraph(graph));
    CHECK(pixel_of(out, 3, 4) == 248);
    vx_perf_t times, nodes;
    ERROR_CHECK_STATUS(vxQueryGraph(graph, VX_GRAPH_PERFORMANCE, &times, sizeof times));
    ERROR_CHECK_STATUS(vxQueryNode(node, VX_NODE_PERFORMANCE, &nodes, sizeof nodes));
    CHECK(times.num == 3 && times.min > 0 && times.min <= times.avg && times.avg <= times.max);
    CHECK(times.sum / 3 == times.avg && memcmp(&times, &nodes, sizeof times) == 0);
    ERROR_CHECK_STATUS(vxReleaseNode(&node));
    ERROR_CHECK_STATUS(vxReleaseKernel(&kernel));
    ERROR_CHECK_STATUS(vxReleaseGraph(&graph));
    ERROR_CHECK_STATUS(vxReleaseImage(&in));
    ERROR_CHECK_STATUS(vxReleaseImage(&out));
}

static vx_image in_memory(void *memory, int size, vx_df_image format) {
    vx_imagepatch_addressing_t addr = by_rows(WIDTH, HEIGHT, size);
    addr.stride_y = STRIDE * size;
    void *planes[] = {memory};
    vx_image image = vxCreateImageFromHandle(context, format, &addr, planes, VX_MEMORY_TYPE_HOST);
    ERROR_CHECK_STATUS(STATUS(image));
    return image;
}

static vx_uint8 frames[2][STRIDE * HEIGHT];
static vx_int16 result[STRIDE * HEIGHT];

/* A camera's buffers: one is filled while the other is read. Gaps after rows stay as they are. */
static void swap_handles(vx_graph graph, vx_image in) {
    for (int frame = 0; frame < 4; frame++) {
        memset(frames[frame % 2], 10 + frame, sizeof frames[0]);
        ERROR_CHECK_STATUS(vxProcessGraph(graph));
        CHECK(result[3 * STRIDE + WIDTH - 1] == 20 + 2 * frame);
        CHECK(result[3 * STRIDE + WIDTH] == 0x5555);
        void *next[] = {frames[(frame + 1) % 2]}, *last[1];
        /* One array may give the new pointer and take the former one. */
        void **former = frame % 2 ? next : last;
        ERROR_CHECK_STATUS(vxSwapImageHandle(in, next, former, 1));
        CHECK(former[0] == frames[frame % 2]);
    }
    ERROR_CHECK_STATUS(vxScheduleGraph(graph));
    ERROR_CHECK_STATUS(vxWaitGraph(graph));
    CHECK(result[0] == 24);
}

/* A map is in place, and there is none of an image without memory. */
static void map_handle(vx_graph graph, vx_image in) {
    const vx_rectangle_t part = {2, 1, WIDTH, HEIGHT};
    const vx_pixel_value_t value = {.U8 = 1};
    vx_map_id map;
    vx_imagepatch_addressing_t addr;
    void *where;
    ERROR_CHECK_STATUS(vxMapImagePatch(in, &part, 0, &map, &addr, &where, VX_READ_AND_WRITE,
                                       VX_MEMORY_TYPE_HOST, VX_NOGAP_X));
    CHECK(where == frames[0] + STRIDE + 2 && addr.stride_y == STRIDE && addr.dim_x == WIDTH - 2);
    void *const none[] = {NULL};
    EXPECT(VX_FAILURE, vxSwapImageHandle(in, NULL, NULL, 1));
    EXPECT(VX_ERROR_INVALID_PARAMETERS, vxSwapImageHandle(in, none, NULL, 1));
    ERROR_CHECK_STATUS(vxUnmapImagePatch(in, map));
    ERROR_CHECK_STATUS(vxSwapImageHandle(in, NULL, NULL, 1));
    EXPECT(VX_ERROR_NOT_ALLOCATED, vxProcessGraph(graph));
    EXPECT(VX_ERROR_NOT_ALLOCATED, vxMapImagePatch(in, &part, 0, &map, &addr, &where,
                                                   VX_READ_ONLY, VX_MEMORY_TYPE_HOST, 0));
    EXPECT(VX_ERROR_NOT_ALLOCATED, vxSetImagePixelValues(in, &value));
}

/* Nothing runs while an output has no memory: nothing is added to the sums. */
static void lack_memory(void) {
    const vx_rectangle_t corner = {0, 0, 1, 1};
    const vx_imagepatch_addressing_t addr = by_rows(1, 1, 2);
    void *memory[] = {frames[0]};
    vx_int16 sum;
    vx_image in = vxCreateImage(context, WIDTH, HEIGHT, VX_DF_IMAGE_U8);
    vx_image sums = vxCreateImage(context, WIDTH, HEIGHT, VX_DF_IMAGE_S16);
    vx_image out = in_memory(frames[0], 1, VX_DF_IMAGE_U8);
    vx_graph graph = vxCreateGraph(context);
    const vx_pixel_value_t value = {.U8 = 3};
    ERROR_CHECK_STATUS(vxSetImagePixelValues(in, &value));
    ERROR_CHECK_STATUS(STATUS(vxAccumulateImageNode(graph, in, sums)));
    ERROR_CHECK_STATUS(STATUS(vxNotNode(graph, in, out)));
    ERROR_CHECK_STATUS(vxVerifyGraph(graph));
    ERROR_CHECK_STATUS(vxSwapImageHandle(out, NULL, NULL, 1));
    EXPECT(VX_ERROR_NOT_ALLOCATED, vxScheduleGraph(graph));
    EXPECT(VX_ERROR_NOT_ALLOCATED, vxProcessGraph(graph));
    EXPECT(VX_ERROR_NOT_ALLOCATED, vxuNot(context, in, out));
    ERROR_CHECK_STATUS(vxSwapImageHandle(out, memory, NULL, 1));
    ERROR_CHECK_STATUS(vxProcessGraph(graph));
    ERROR_CHECK_STATUS(vxCopyImagePatch(sums, &corner, 0, &addr, &sum, VX_READ_ONLY,
                                        VX_MEMORY_TYPE_HOST));
    CHECK(sum == 3 && frames[0][0] == 252);
    ERROR_CHECK_STATUS(vxReleaseGraph(&graph));
    ERROR_CHECK_STATUS(vxReleaseImage(&in));
    ERROR_CHECK_STATUS(vxReleaseImage(&sums));
    ERROR_CHECK_STATUS(vxReleaseImage(&out));
}

/* Functions in immediate mode, and one value for all pixels, which leaves the gaps. */
static void write_handles(void) {
    const vx_pixel_value_t value = {.U8 = 77};
    vx_image in = in_memory(frames[1], 1, VX_DF_IMAGE_U8);
    vx_image out = in_memory(frames[0], 1, VX_DF_IMAGE_U8);
    ERROR_CHECK_STATUS(vxuNot(context, in, out));
    CHECK(frames[0][0] == 255 - frames[1][0]);
    ERROR_CHECK_STATUS(vxSetImagePixelValues(in, &value));
    CHECK(frames[1][STRIDE] == 77 && frames[1][STRIDE + WIDTH] != 77);
    ERROR_CHECK_STATUS(vxReleaseImage(&in));
    ERROR_CHECK_STATUS(vxReleaseImage(&out));
}

/* A large result in memory with gaps after its rows, from a function and from a copy. */
static void read_rows(void) {
    enum { COLUMNS = 1001, ROWS = 300, STEP = COLUMNS + 7 };
    static vx_uint32 expected[COLUMNS * ROWS], taken[STEP * ROWS], copied[STEP * ROWS];
    const vx_rectangle_t whole = {0, 0, COLUMNS, ROWS};
    vx_imagepatch_addressing_t addr = by_rows(COLUMNS, ROWS, 4);
    void *planes[] = {taken};
    addr.stride_y = STEP * 4;
    vx_image in = vxCreateImage(context, COLUMNS, ROWS, VX_DF_IMAGE_U8);
    vx_image out = vxCreateImage(context, COLUMNS, ROWS, VX_DF_IMAGE_U32);
    vx_image own = vxCreateImageFromHandle(context, VX_DF_IMAGE_U32, &addr, planes,
                                           VX_MEMORY_TYPE_HOST);
    fill_by_loop(in);
    ERROR_CHECK_STATUS(vxuIntegralImage(context, in, own));
    ERROR_CHECK_STATUS(vxuIntegralImage(context, in, out));
    ERROR_CHECK_STATUS(copy_whole(out, COLUMNS, ROWS, 4, expected, VX_READ_ONLY));
    ERROR_CHECK_STATUS(vxCopyImagePatch(out, &whole, 0, &addr, copied, VX_READ_ONLY,
                                        VX_MEMORY_TYPE_HOST));
    CHECK(memcmp(taken, copied, sizeof taken) == 0);
    for (int i = 0; i < STEP * ROWS; i++)
        CHECK(taken[i] ==
              (i % STEP < COLUMNS ? expected[i / STEP * COLUMNS + i % STEP] : 0));
    ERROR_CHECK_STATUS(vxReleaseImage(&in));
    ERROR_CHECK_STATUS(vxReleaseImage(&out));
    ERROR_CHECK_STATUS(vxReleaseImage(&own));
}

static void refuse_handles(void) {
    const vx_imagepatch_addressing_t addr = by_rows(WIDTH, HEIGHT, 2);
    void *planes[] = {result};
    EXPECT(VX_ERROR_INVALID_PARAMETERS,
           STATUS(vxCreateImageFromHandle(context, VX_DF_IMAGE_U8, &addr, planes,
                                          VX_MEMORY_TYPE_HOST)));
    EXPECT(VX_ERROR_NOT_SUPPORTED,
           STATUS(vxCreateImageFromHandle(context, VX_DF_IMAGE_RGB, &addr, planes,
                                          VX_MEMORY_TYPE_HOST)));
}

static void use_handles(void) {
    vx_enum type;
    memset(result, 0x55, sizeof result);
    vx_image in = in_memory(frames[0], 1, VX_DF_IMAGE_U8);
    vx_image out = in_memory(result, 2, VX_DF_IMAGE_S16);
    vx_graph graph = vxCreateGraph(context);
    ERROR_CHECK_STATUS(STATUS(vxAddNode(graph, in, in, VX_CONVERT_POLICY_WRAP, out)));
    ERROR_CHECK_STATUS(vxQueryImage(in, VX_IMAGE_MEMORY_TYPE, &type, sizeof type));
    CHECK(type == VX_MEMORY_TYPE_HOST);
    swap_handles(graph, in);
    map_handle(graph, in);
    lack_memory();
    write_handles();
    read_rows();
    refuse_handles();
    ERROR_CHECK_STATUS(vxReleaseGraph(&graph));
    ERROR_CHECK_STATUS(vxReleaseImage(&in));
    ERROR_CHECK_STATUS(vxReleaseImage(&out));
}

static void use_uniform_images(void) {
    const vx_pixel_value_t value = {.S16 = -5};
    vx_pixel_value_t told;
    vx_int16 pixel = 1;
    vx_bool is_uniform;
    vx_image one = vxCreateUniformImage(context, WIDTH, HEIGHT, VX_DF_IMAGE_S16, &value);
    vx_image other = vxCreateImage(context, WIDTH, HEIGHT, VX_DF_IMAGE_S16);
    const vx_rectangle_t corner = {WIDTH - 1, HEIGHT - 1, WIDTH, HEIGHT};
    const vx_imagepatch_addressing_t addr = by_rows(1, 1, 2);
    ERROR_CHECK_STATUS(STATUS(one));
    ERROR_CHECK_STATUS(vxQueryImage(one, VX_IMAGE_IS_UNIFORM, &is_uniform, sizeof is_uniform));
    ERROR_CHECK_STATUS(vxQueryImage(one, VX_IMAGE_UNIFORM_VALUE, &told, sizeof told));
    CHECK(is_uniform && told.S16 == -5);
    ERROR_CHECK_STATUS(vxuMax(context, one, one, other));
    ERROR_CHECK_STATUS(vxCopyImagePatch(other, &corner, 0, &addr, &pixel, VX_READ_ONLY,
                                        VX_MEMORY_TYPE_HOST));
    CHECK(pixel == -5);
    EXPECT(VX_ERROR_NOT_SUPPORTED, vxCopyImagePatch(one, &corner, 0, &addr, &pixel, VX_WRITE_ONLY,
                                                    VX_MEMORY_TYPE_HOST));
    EXPECT(VX_ERROR_INVALID_REFERENCE, vxSetImagePixelValues(one, &value));
    EXPECT(VX_ERROR_INVALID_PARAMETERS, vxSetImagePixelValues(other, NULL));
    EXPECT(VX_ERROR_INVALID_PARAMETERS, vxuMax(context, other, other, one));
    EXPECT(VX_ERROR_NOT_SUPPORTED, vxQueryImage(other, VX_IMAGE_UNIFORM_VALUE, &told, sizeof told));
    ERROR_CHECK_STATUS(vxReleaseImage(&one));
    ERROR_CHECK_STATUS(vxReleaseImage(&other));
}

static void expect_valid(vx_image image, vx_rectangle_t expected) {
    vx_rectangle_t valid;
    ERROR_CHECK_STATUS(vxGetValidRegionImage(image, &valid));
    CHECK(memcmp(&valid, &expected, sizeof valid) == 0);
}

/* How many valid pixels of an image have a value. */
static vx_uint32 count_of(vx_image image, vx_uint8 value) {
    vx_distribution counts = vxCreateDistribution(context, 256, 0, 256);
    vx_uint32 *found;
    vx_map_id map;
    ERROR_CHECK_STATUS(vxuHistogram(context, image, counts));
    ERROR_CHECK_STATUS(vxMapDistribution(counts, &map, (void **)&found, VX_READ_ONLY,
                                         VX_MEMORY_TYPE_HOST, 0));
    vx_uint32 count = found[value];
    ERROR_CHECK_STATUS(vxUnmapDistribution(counts, map));
    EXPECT(VX_ERROR_INVALID_PARAMETERS, vxUnmapDistribution(counts, map));
    EXPECT(VX_ERROR_NOT_SUPPORTED, vxMapDistribution(counts, &map, (void **)&found, VX_WRITE_ONLY,
                                                     VX_MEMORY_TYPE_HOST, 0));
    ERROR_CHECK_STATUS(vxReleaseDistribution(&counts));
    return count;
}

static const vx_rectangle_t inner = {1, 1, WIDTH - 1, HEIGHT - 1};
static const vx_rectangle_t everything = {0, 0, WIDTH, HEIGHT};

/* An image with its inner pixels valid, all of them 0. */
static vx_image computed_image(void) {
    vx_image in = vxCreateImage(context, WIDTH, HEIGHT, VX_DF_IMAGE_U8);
    vx_image out = vxCreateImage(context, WIDTH, HEIGHT, VX_DF_IMAGE_U8);
    ERROR_CHECK_STATUS(vxuBox3x3(context, in, out));
    ERROR_CHECK_STATUS(vxReleaseImage(&in));
    expect_valid(out, inner);
    return out;
}

/* No write changes what is valid. Pixels written outside it are lost in the next run, unless the
   program makes them valid before. */
static void keep_valid_rectangles(void) {
    const vx_rectangle_t pixel = {5, 5, 6, 6}, corner = {0, 0, 2, 1}, empty = {0, 0, 0, 0};
    const vx_imagepatch_addressing_t addr = by_rows(WIDTH, HEIGHT, 1);
    vx_uint8 pixels[WIDTH * HEIGHT];
    vx_image image = computed_image();
    memset(pixels, 9, sizeof pixels);
    ERROR_CHECK_STATUS(vxCopyImagePatch(image, &pixel, 0, &addr, pixels, VX_WRITE_ONLY,
                                        VX_MEMORY_TYPE_HOST));
    expect_valid(image, inner);
    CHECK(count_of(image, 0) == (WIDTH - 2) * (HEIGHT - 2) - 1 && count_of(image, 9) == 1);
    ERROR_CHECK_STATUS(vxCopyImagePatch(image, &corner, 0, &addr, pixels, VX_WRITE_ONLY,
                                        VX_MEMORY_TYPE_HOST));
    expect_valid(image, inner);
    CHECK(pixel_of(image, 1, 0) == 9 && pixel_of(image, 5, 5) == 9);
    CHECK(count_of(image, 9) == 1 && pixel_of(image, 1, 0) == 0 && pixel_of(image, 5, 5) == 9);
    ERROR_CHECK_STATUS(copy_whole(image, WIDTH, HEIGHT, 1, pixels, VX_WRITE_ONLY));
    expect_valid(image, inner);
    ERROR_CHECK_STATUS(vxSetImageValidRectangle(image, NULL));
    expect_valid(image, everything);
    CHECK(count_of(image, 9) == WIDTH * HEIGHT);
    ERROR_CHECK_STATUS(vxSetImageValidRectangle(image, &empty));
    ERROR_CHECK_STATUS(copy_whole(image, WIDTH, HEIGHT, 1, pixels, VX_WRITE_ONLY));
    expect_valid(image, empty);
    CHECK(count_of(image, 9) == 0);
    ERROR_CHECK_STATUS(vxReleaseImage(&image));
}

/* One value for all pixels leaves what is valid too; and so do runs of graphs. */
static void keep_valid_rectangles_of_one_value(void) {
    const vx_pixel_value_t value = {.U8 = 7};
    vx_image image = computed_image();
    vx_image out = vxCreateImage(context, WIDTH, HEIGHT, VX_DF_IMAGE_U8);
    vx_graph graph = vxCreateGraph(context);
    ERROR_CHECK_STATUS(STATUS(vxNotNode(graph, image, out)));
    ERROR_CHECK_STATUS(vxSetImagePixelValues(image, &value));
    expect_valid(image, inner);
    CHECK(pixel_of(image, 0, 0) == 7 && pixel_of(image, 1, 1) == 7);
    ERROR_CHECK_STATUS(vxProcessGraph(graph));
    expect_valid(image, inner);
    expect_valid(out, inner);
    CHECK(pixel_of(image, 0, 0) == 0 && pixel_of(out, 0, 0) == 0 && pixel_of(out, 1, 1) == 248);
    ERROR_CHECK_STATUS(vxSetImagePixelValues(image, &value));
    ERROR_CHECK_STATUS(vxSetImageValidRectangle(image, &everything));
    ERROR_CHECK_STATUS(vxScheduleGraph(graph));
    ERROR_CHECK_STATUS(vxWaitGraph(graph));
    expect_valid(out, everything);
    CHECK(pixel_of(out, 0, 0) == 248);
    ERROR_CHECK_STATUS(vxReleaseGraph(&graph));
    ERROR_CHECK_STATUS(vxReleaseImage(&image));
    ERROR_CHECK_STATUS(vxReleaseImage(&out));
}

/* A valid rectangle stays an image's own while its delay ages. */
static void keep_valid_rectangles_of_slots(void) {
    const vx_pixel_value_t value = {.U8 = 7};
    vx_image exemplar = computed_image();
    vx_delay delay = vxCreateDelay(context, (vx_reference)exemplar, 2);
    vx_image newest = (vx_image)vxGetReferenceFromDelay(delay, 0);
    vx_image older = (vx_image)vxGetReferenceFromDelay(delay, -1);
    ERROR_CHECK_STATUS(vxSetImageValidRectangle(newest, &inner));
    ERROR_CHECK_STATUS(vxSetImagePixelValues(newest, &value));
    expect_valid(newest, inner);
    ERROR_CHECK_STATUS(vxAgeDelay(delay));
    expect_valid(newest, everything);
    expect_valid(older, inner);
    CHECK(count_of(older, 7) == (WIDTH - 2) * (HEIGHT - 2));
    ERROR_CHECK_STATUS(vxReleaseDelay(&delay));
    ERROR_CHECK_STATUS(vxReleaseImage(&exemplar));
}

static void use_tables(void) {
    vx_image in = vxCreateImage(context, WIDTH, HEIGHT, VX_DF_IMAGE_U8);
    vx_image out = vxCreateImage(context, WIDTH, HEIGHT, VX_DF_IMAGE_U8);
    vx_lut lut = vxCreateLUT(context, VX_TYPE_UINT8, 10);
    vx_uint8 *entries;
    vx_map_id map;
    fill_by_loop(in);
    ERROR_CHECK_STATUS(vxMapLUT(lut, &map, (void **)&entries, VX_WRITE_ONLY, VX_MEMORY_TYPE_HOST,
                                0));
    for (int i = 0; i < 10; i++)
        entries[i] = (vx_uint8)(100 - i);
    ERROR_CHECK_STATUS(vxUnmapLUT(lut, map));
    EXPECT(VX_ERROR_INVALID_PARAMETERS, vxUnmapLUT(lut, map));
    ERROR_CHECK_STATUS(vxuTableLookup(context, in, lut, out));
    CHECK(pixel_of(out, 3, 4) == 93 && pixel_of(out, 15, 9) == 91);
    ERROR_CHECK_STATUS(vxReleaseLUT(&lut));
    ERROR_CHECK_STATUS(vxReleaseImage(&in));
    ERROR_CHECK_STATUS(vxReleaseImage(&out));
}

static void use_arrays(void) {
    const vx_keypoint_t points[3] = {{.x = 1, .strength = 0.5f}, {.x = 2}, {.x = 3}};
    vx_keypoint_t read[2];
    vx_array array = vxCreateArray(context, VX_TYPE_KEYPOINT, 4);
    vx_map_id map;
    vx_size stride;
    void *where;
    ERROR_CHECK_STATUS(vxAddArrayItems(array, 3, points, sizeof *points));
    EXPECT(VX_FAILURE, vxAddArrayItems(array, 2, points, sizeof *points));
    ERROR_CHECK_STATUS(vxMapArrayRange(array, 1, 3, &map, &stride, &where, VX_READ_AND_WRITE,
                                       VX_MEMORY_TYPE_HOST, 0));
    CHECK(vxArrayItem(vx_keypoint_t, where, 1, stride).x == 3);
    vxArrayItem(vx_keypoint_t, where, 0, stride).y = 8;
    ERROR_CHECK_STATUS(vxUnmapArrayRange(array, map));
    EXPECT(VX_ERROR_INVALID_PARAMETERS, vxUnmapArrayRange(array, map));
    ERROR_CHECK_STATUS(vxCopyArrayRange(array, 0, 2, sizeof *read, read, VX_READ_ONLY,
                                        VX_MEMORY_TYPE_HOST));
    CHECK(read[0].strength == 0.5f && read[1].x == 2 && read[1].y == 8);
    ERROR_CHECK_STATUS(vxReleaseArray(&array));
}

/* Names of OpenVX 1.0. */
static void use_old_names(void) {
    vx_uint32 width;
    vx_int32 number = 41, read = 0;
    vx_border_mode_t border = {.mode = VX_BORDER_MODE_REPLICATE};
    vx_image image = vxCreateImage(context, WIDTH, HEIGHT, VX_DF_IMAGE_U8);
    vx_scalar scalar = vxCreateScalarWithSize(context, VX_TYPE_INT32, &number, sizeof number);
    ERROR_CHECK_STATUS(vxQueryImage(image, VX_IMAGE_ATTRIBUTE_WIDTH, &width, sizeof width));
    ERROR_CHECK_STATUS(vxSetContextAttribute(context, VX_CONTEXT_ATTRIBUTE_IMMEDIATE_BORDER_MODE,
                                             &border, sizeof border));
    number = 42;
    ERROR_CHECK_STATUS(vxWriteScalarValue(scalar, &number));
    ERROR_CHECK_STATUS(vxReadScalarValue(scalar, &read));
    CHECK(width == WIDTH && read == 42);
    EXPECT(VX_ERROR_INVALID_PARAMETERS,
           vxCopyScalarWithSize(scalar, 2, &read, VX_READ_ONLY, VX_MEMORY_TYPE_HOST));
    ERROR_CHECK_STATUS(vxCopyScalarWithSize(scalar, 4, &read, VX_READ_ONLY, VX_MEMORY_TYPE_HOST));
    EXPECT(VX_ERROR_INVALID_PARAMETERS,
           STATUS(vxCreateScalarWithSize(context, VX_TYPE_INT32, &number, 8)));
    ERROR_CHECK_STATUS(vxReleaseScalar(&scalar));
    ERROR_CHECK_STATUS(vxReleaseImage(&image));
}

static void ask_context(void) {
    vx_uint32 kernels;
    vx_size size;
    vx_kernel_info_t table[64];
    ERROR_CHECK_STATUS(vxQueryContext(context, VX_CONTEXT_UNIQUE_KERNELS, &kernels,
                                      sizeof kernels));
    CHECK(kernels == 25);
    ERROR_CHECK_STATUS(vxQueryContext(context, VX_CONTEXT_UNIQUE_KERNEL_TABLE, table,
                                      kernels * sizeof *table));
    for (vx_uint32 i = 0; i < kernels; i++) {
        vx_kernel kernel = vxGetKernelByName(context, table[i].name);
        vx_enum number;
        ERROR_CHECK_STATUS(vxQueryKernel(kernel, VX_KERNEL_ENUM, &number, sizeof number));
        CHECK(number == table[i].enumeration);
        ERROR_CHECK_STATUS(vxReleaseKernel(&kernel));
    }
    ERROR_CHECK_STATUS(vxQueryContext(context, VX_CONTEXT_EXTENSIONS_SIZE, &size, sizeof size));
    CHECK(size == 1);
}

int main(void) {
    context = vxCreateContext();
    ERROR_CHECK_STATUS(STATUS(context));
    use_generic_nodes();
    use_handles();
    use_uniform_images();
    keep_valid_rectangles();
    keep_valid_rectangles_of_one_value();
    keep_valid_rectangles_of_slots();
    use_tables();
    use_arrays();
    ask_context();
    use_old_names();
    ERROR_CHECK_STATUS(vxReleaseContext(&context));
    return 0;
}
