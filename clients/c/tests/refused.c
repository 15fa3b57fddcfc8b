/* Each allocation refused in turn, alone or with all that follow until a call says so. The linker
   has what takes memory in the library go through here; a call whose allocation was refused says
   so, changes nothing, and succeeds when it is made anew. What is lost, the sanitizer of addresses
   tells at the end. A server in this process does without many allocations that are refused
   alone. */
#include <feqyldan/core.h>

#include "testing.h"

#include <errno.h>
#include <spawn.h>

enum { SIDE = 8, COUNT = SIDE * SIDE, STRIDE = SIDE + 3, LARGE_SIDE = 1 << 10 };

#pragma weak feqyldan_open

/* Allocations since the session began; the one that is refused, 0 for none; calls that said so; and
   whether those that follow are refused too, until a call has said so. */
static int allocations, refused, told, is_lasting;
static vx_context context;

static int refuses(void) {
    allocations++;
    return allocations == refused ||
           (is_lasting && refused > 0 && allocations > refused && told == 0);
}

/* The names that the linker's --wrap gives. */
void *__real_malloc(size_t size);
void *__real_calloc(size_t count, size_t size);
void *__real_realloc(void *memory, size_t size);
int __real_posix_memalign(void **memory, size_t alignment, size_t size);
int __real_posix_spawn_file_actions_adddup2(posix_spawn_file_actions_t *actions, int from, int to);
void *__wrap_malloc(size_t size);
void *__wrap_calloc(size_t count, size_t size);
void *__wrap_realloc(void *memory, size_t size);
int __wrap_posix_memalign(void **memory, size_t alignment, size_t size);
int __wrap_posix_spawn_file_actions_adddup2(posix_spawn_file_actions_t *actions, int from, int to);

void *__wrap_malloc(size_t size) { return refuses() ? NULL : __real_malloc(size); }

void *__wrap_calloc(size_t count, size_t size) {
    return refuses() ? NULL : __real_calloc(count, size);
}

void *__wrap_realloc(void *memory, size_t size) {
    return refuses() ? NULL : __real_realloc(memory, size);
}

int __wrap_posix_memalign(void **memory, size_t alignment, size_t size) {
    return refuses() ? ENOMEM : __real_posix_memalign(memory, alignment, size);
}

int __wrap_posix_spawn_file_actions_adddup2(posix_spawn_file_actions_t *actions, int from, int to) {
    return refuses() ? ENOMEM : __real_posix_spawn_file_actions_adddup2(actions, from, to);
}

/* That a call found no memory: one does, and only after the allocation was refused. */
static void tell(void) {
    told++;
    CHECK(told == 1 && refused > 0 && allocations >= refused);
}

/* Whether a call has to be made anew, since its allocation was refused. */
static int is_refused(vx_status status, const char *call, int line) {
    if (status != VX_ERROR_NO_MEMORY) {
        expect_status(VX_SUCCESS, status, call, line);
        return 0;
    }
    tell();
    return 1;
}

#define DO(call)                                                                                   \
    do {                                                                                           \
    } while (is_refused(call, #call, __LINE__))

#define MAKE(object, call)                                                                         \
    do {                                                                                           \
        object = call;                                                                             \
    } while (is_refused(STATUS(object), #call, __LINE__))

static void open_context(void) {
    context = vxCreateContext();
    if (context == NULL) {
        tell();
        context = vxCreateContext();
    }
    EXPECT(VX_SUCCESS, STATUS(context));
}

static vx_image filled(vx_uint8 sample) {
    vx_image image;
    vx_uint8 samples[COUNT];
    memset(samples, sample, COUNT);
    MAKE(image, vxCreateImage(context, SIDE, SIDE, VX_DF_IMAGE_U8));
    DO(copy_whole(image, SIDE, SIDE, 1, samples, VX_WRITE_ONLY));
    return image;
}

static void holds(vx_image image, vx_uint8 expected) {
    vx_uint8 samples[COUNT] = {0};
    DO(copy_whole(image, SIDE, SIDE, 1, samples, VX_READ_ONLY));
    CHECK(samples[COUNT - 1] == expected);
}

static void map_parts(void) {
    const vx_rectangle_t part = {1, 1, 3, 4};
    vx_image image = filled(7);
    vx_imagepatch_addressing_t addr;
    vx_map_id map;
    void *samples;
    DO(vxMapImagePatch(image, &part, 0, &map, &addr, &samples, VX_READ_AND_WRITE,
                       VX_MEMORY_TYPE_HOST, 0));
    CHECK(*(vx_uint8 *)samples == 7);
    *(vx_uint8 *)vxFormatImagePatchAddress2d(samples, 0, 1, &addr) = 99;
    DO(vxUnmapImagePatch(image, map));
    vx_uint8 found[COUNT];
    DO(copy_whole(image, SIDE, SIDE, 1, found, VX_READ_ONLY));
    CHECK(found[2 * SIDE + 1] == 99 && found[0] == 7);
    EXPECT(VX_SUCCESS, vxReleaseImage(&image));
}

/* A map that is large enough for huge pages begins with zeros. */
static void map_large(void) {
    const vx_rectangle_t whole = {0, 0, LARGE_SIDE, LARGE_SIDE};
    vx_image image;
    vx_imagepatch_addressing_t addr;
    vx_map_id map;
    void *samples;
    MAKE(image, vxCreateImage(context, LARGE_SIDE, LARGE_SIDE, VX_DF_IMAGE_U8));
    DO(vxMapImagePatch(image, &whole, 0, &map, &addr, &samples, VX_WRITE_ONLY,
                       VX_MEMORY_TYPE_HOST, 0));
    for (size_t i = 0; i < LARGE_SIDE * LARGE_SIDE; i++)
        CHECK(((vx_uint8 *)samples)[i] == 0);
    DO(vxUnmapImagePatch(image, map));
    EXPECT(VX_SUCCESS, vxReleaseImage(&image));
}

/* A run that found no memory is scheduled anew. */
static vx_status schedule_and_wait(vx_graph graph) {
    vx_status status = vxScheduleGraph(graph);
    return status == VX_SUCCESS ? vxWaitGraph(graph) : status;
}

/* Counts a run of which the server ran a part, and found no memory for the next one. */
static vx_status count_abandoned(vx_graph graph, vx_status status, int *abandoned) {
    vx_enum state;
    EXPECT(VX_SUCCESS, vxQueryGraph(graph, VX_GRAPH_STATE, &state, sizeof state));
    if (status != VX_SUCCESS && state == VX_GRAPH_STATE_ABANDONED)
        ++*abandoned;
    return status;
}

/* A table, a delay's slot, extremes and parameters, in one graph. */
static void run_graph(void) {
    vx_graph graph;
    vx_lut lut;
    vx_delay delay;
    vx_reference slot, value;
    vx_image input = filled(3), output = filled(0), between;
    vx_node node, extremes;
    vx_parameter parameter;
    vx_scalar least, greatest;
    vx_array places;
    vx_uint8 entries[256], found;
    memset(entries, 41, sizeof entries);
    MAKE(graph, vxCreateGraph(context));
    MAKE(between, vxCreateVirtualImage(graph, SIDE, SIDE, VX_DF_IMAGE_U8));
    MAKE(lut, vxCreateLUT(context, VX_TYPE_UINT8, 256));
    DO(vxCopyLUT(lut, entries, VX_WRITE_ONLY, VX_MEMORY_TYPE_HOST));
    MAKE(delay, vxCreateDelay(context, (vx_reference)input, 2));
    MAKE(slot, vxGetReferenceFromDelay(delay, -1));
    MAKE(least, vxCreateScalar(context, VX_TYPE_UINT8, NULL));
    MAKE(greatest, vxCreateScalar(context, VX_TYPE_UINT8, NULL));
    MAKE(places, vxCreateArray(context, VX_TYPE_COORDINATES2D, 2));
    MAKE(node, vxTableLookupNode(graph, input, lut, between));
    EXPECT(VX_SUCCESS, vxReleaseNode(&node));
    MAKE(node, vxAddNode(graph, between, (vx_image)slot, VX_CONVERT_POLICY_WRAP, output));
    MAKE(extremes, vxMinMaxLocNode(graph, output, least, greatest, places, NULL, NULL, NULL));
    MAKE(parameter, vxGetParameterByIndex(node, 2));
    DO(vxQueryParameter(parameter, VX_PARAMETER_REF, &value, sizeof value));
    DO(vxAddParameterToGraph(graph, parameter));
    DO(vxSetGraphParameterByIndex(graph, 0, value));
    EXPECT(VX_SUCCESS, vxReleaseReference(&value));
    DO(vxVerifyGraph(graph));
    DO(vxProcessGraph(graph));
    EXPECT(VX_SUCCESS, vxCopyScalar(least, &found, VX_READ_ONLY, VX_MEMORY_TYPE_HOST));
    CHECK(found == 41);
    /* The table is sent anew when the graph runs. */
    entries[3] = 8;
    DO(vxCopyLUT(lut, entries, VX_WRITE_ONLY, VX_MEMORY_TYPE_HOST));
    DO(schedule_and_wait(graph));
    holds(output, 8);
    EXPECT(VX_SUCCESS, vxReleaseParameter(&parameter));
    EXPECT(VX_SUCCESS, vxRemoveNode(&extremes));
    EXPECT(VX_SUCCESS, vxReleaseGraph(&graph));
}

/* A call that found no memory hasn't run the graph: else too much would be added to the sums. The
   image in the program's memory has gaps between its rows, which stay as they are. */
static void run_on_memory(void) {
    static vx_uint8 memory[SIDE * STRIDE];
    vx_imagepatch_addressing_t addr = by_rows(SIDE, SIDE, 1);
    void *planes[] = {memory};
    vx_graph graph;
    vx_image input = filled(3), sums, output;
    vx_node node;
    vx_int16 found[COUNT] = {0};
    memset(memory, 0, sizeof memory);
    addr.stride_y = STRIDE;
    MAKE(graph, vxCreateGraph(context));
    MAKE(sums, vxCreateImage(context, SIDE, SIDE, VX_DF_IMAGE_S16));
    MAKE(output, vxCreateImageFromHandle(context, VX_DF_IMAGE_U8, &addr, planes,
                                         VX_MEMORY_TYPE_HOST));
    MAKE(node, vxAccumulateImageNode(graph, input, sums));
    MAKE(node, vxNotNode(graph, input, output));
    DO(vxProcessGraph(graph));
    CHECK(memory[STRIDE + SIDE - 1] == 252 && memory[STRIDE + SIDE] == 0);
    DO(schedule_and_wait(graph));
    DO(copy_whole(sums, SIDE, SIDE, 2, found, VX_READ_ONLY));
    CHECK(found[COUNT - 1] == 2 * 3);
    EXPECT(VX_SUCCESS, vxReleaseGraph(&graph));
}

/* The same at once: until the call succeeds, the output that the server has is wholly valid. */
static void run_at_once_on_memory(void) {
    static vx_int16 memory[SIDE * STRIDE];
    vx_imagepatch_addressing_t addr = by_rows(SIDE, SIDE, 2);
    void *planes[] = {memory};
    vx_image input = filled(3), output, other;
    vx_rectangle_t valid;
    vx_status status;
    addr.stride_y = 2 * STRIDE;
    memory[STRIDE + 1] = 1;
    MAKE(other, vxCreateImage(context, SIDE, SIDE, VX_DF_IMAGE_S16));
    MAKE(output, vxCreateImageFromHandle(context, VX_DF_IMAGE_S16, &addr, planes,
                                         VX_MEMORY_TYPE_HOST));
    do {
        EXPECT(VX_SUCCESS, vxGetValidRegionImage(other, &valid));
        CHECK(valid.end_x == SIDE && memory[STRIDE + 1] == 1);
        status = vxuSobel3x3(context, input, other, output);
    } while (is_refused(status, "vxuSobel3x3", __LINE__));
    EXPECT(VX_SUCCESS, vxGetValidRegionImage(other, &valid));
    CHECK(valid.end_x == SIDE - 1 && memory[STRIDE + 1] == 0);
}

/* A graph in parts, with a virtual image over them, that ages a delay. The table of its last part
   is sent anew before its first part runs: else too much would be added to the total. */
static void run_parts(void) {
    vx_graph graph;
    vx_delay delay;
    vx_image input = filled(3), between, sums, total, output;
    vx_node node;
    vx_lut lut;
    vx_scalar least, greatest, count;
    vx_int16 found[COUNT] = {0}, entries[2] = {5, 6};
    int abandoned = 0;
    MAKE(graph, vxCreateGraph(context));
    MAKE(between, vxCreateVirtualImage(graph, 0, 0, VX_DF_IMAGE_VIRT));
    MAKE(sums, vxCreateImage(context, SIDE, SIDE, VX_DF_IMAGE_S16));
    MAKE(total, vxCreateImage(context, SIDE, SIDE, VX_DF_IMAGE_S16));
    MAKE(output, vxCreateImage(context, SIDE, SIDE, VX_DF_IMAGE_S16));
    MAKE(delay, vxCreateDelay(context, (vx_reference)input, 2));
    MAKE(lut, vxCreateLUT(context, VX_TYPE_INT16, 2));
    MAKE(least, vxCreateScalar(context, VX_TYPE_UINT8, NULL));
    MAKE(greatest, vxCreateScalar(context, VX_TYPE_UINT8, NULL));
    MAKE(count, vxCreateScalar(context, VX_TYPE_UINT32, NULL));
    MAKE(node, vxNotNode(graph, input, between));
    MAKE(node, vxMinMaxLocNode(graph, between, least, greatest, NULL, NULL, count, NULL));
    MAKE(node, vxAccumulateImageNode(graph, input, total));
    MAKE(node, vxAccumulateSquareImageNode(graph, between, count, sums));
    MAKE(node, vxTableLookupNode(graph, sums, lut, output));
    DO(vxRegisterAutoAging(graph, delay));
    /* Two pixels are valid, so that their number is a shift. */
    const vx_rectangle_t corner = {0, 0, 2, 1};
    DO(vxSetImageValidRectangle(input, &corner));
    DO(count_abandoned(graph, vxProcessGraph(graph), &abandoned));
    DO(vxCopyLUT(lut, entries, VX_WRITE_ONLY, VX_MEMORY_TYPE_HOST));
    DO(count_abandoned(graph, schedule_and_wait(graph), &abandoned));
    DO(copy_whole(sums, SIDE, SIDE, 2, found, VX_READ_ONLY));
    CHECK(found[1] == 2 * ((252 * 252) >> 2) && found[2] == 0);
    DO(copy_whole(total, SIDE, SIDE, 2, found, VX_READ_ONLY));
    CHECK(found[1] == (2 + abandoned) * 3 && (abandoned == 0 || feqyldan_open != NULL));
    DO(copy_whole(output, SIDE, SIDE, 2, found, VX_READ_ONLY));
    CHECK(found[1] == 6);
    EXPECT(VX_SUCCESS, vxReleaseGraph(&graph));
}

/* What a context has alone, and functions at once. */
static void run_functions(void) {
    vx_threshold threshold;
    vx_convolution kernel;
    vx_distribution counts;
    vx_image input = filled(3), output = filled(0);
    vx_pixel_value_t limit = {.U8 = 2};
    vx_uint32 found[4];
    MAKE(threshold, vxCreateThresholdForImage(context, VX_THRESHOLD_TYPE_BINARY, VX_DF_IMAGE_U8,
                                              VX_DF_IMAGE_U8));
    DO(vxCopyThresholdValue(threshold, &limit, VX_WRITE_ONLY, VX_MEMORY_TYPE_HOST));
    MAKE(kernel, vxCreateConvolution(context, 3, 3));
    MAKE(counts, vxCreateDistribution(context, 4, 0, 256));
    DO(vxuThreshold(context, input, threshold, output));
    holds(output, 255);
    DO(vxuConvolve(context, input, kernel, output));
    DO(vxuHistogram(context, input, counts));
    DO(vxCopyDistribution(counts, found, VX_READ_ONLY, VX_MEMORY_TYPE_HOST));
    CHECK(found[0] == COUNT);
}

/* Maps of a table, of an array and of counts. */
static void map_others(void) {
    const vx_uint8 item = 3;
    vx_image input = filled(5), output = filled(0);
    vx_lut lut;
    vx_array array;
    vx_distribution counts;
    vx_map_id map;
    vx_size stride;
    void *found;
    MAKE(lut, vxCreateLUT(context, VX_TYPE_UINT8, 256));
    DO(vxMapLUT(lut, &map, &found, VX_READ_AND_WRITE, VX_MEMORY_TYPE_HOST, 0));
    memset(found, 9, 256);
    EXPECT(VX_SUCCESS, vxUnmapLUT(lut, map));
    DO(vxuTableLookup(context, input, lut, output));
    holds(output, 9);
    MAKE(array, vxCreateArray(context, VX_TYPE_UINT8, 1));
    EXPECT(VX_SUCCESS, vxAddArrayItems(array, 1, &item, 1));
    DO(vxMapArrayRange(array, 0, 1, &map, &stride, &found, VX_READ_ONLY, VX_MEMORY_TYPE_HOST, 0));
    CHECK(*(vx_uint8 *)found == item);
    EXPECT(VX_SUCCESS, vxUnmapArrayRange(array, map));
    MAKE(counts, vxCreateDistribution(context, 4, 0, 256));
    DO(vxMapDistribution(counts, &map, &found, VX_READ_ONLY, VX_MEMORY_TYPE_HOST, 0));
    CHECK(*(vx_uint32 *)found == 0);
    EXPECT(VX_SUCCESS, vxUnmapDistribution(counts, map));
}

/* A node of a kernel, images of one value, and extremes at once. */
static void make_others(void) {
    const vx_pixel_value_t value = {.U8 = 4};
    vx_image uniform, output = filled(0);
    vx_kernel kernel;
    vx_parameter parameter;
    vx_graph graph;
    vx_node node;
    vx_scalar least, greatest;
    vx_array places;
    MAKE(uniform, vxCreateUniformImage(context, SIDE, SIDE, VX_DF_IMAGE_U8, &value));
    DO(vxSetImagePixelValues(output, &value));
    holds(output, 4);
    MAKE(kernel, vxGetKernelByEnum(context, VX_KERNEL_NOT));
    MAKE(parameter, vxGetKernelParameterByIndex(kernel, 0));
    MAKE(graph, vxCreateGraph(context));
    MAKE(node, vxCreateGenericNode(graph, kernel));
    EXPECT(VX_SUCCESS, vxSetParameterByIndex(node, 0, (vx_reference)uniform));
    EXPECT(VX_SUCCESS, vxSetParameterByIndex(node, 1, (vx_reference)output));
    DO(vxProcessGraph(graph));
    holds(output, 255 - 4);
    MAKE(least, vxCreateScalar(context, VX_TYPE_UINT8, NULL));
    MAKE(greatest, vxCreateScalar(context, VX_TYPE_UINT8, NULL));
    MAKE(places, vxCreateArray(context, VX_TYPE_COORDINATES2D, 1));
    DO(vxuMinMaxLoc(context, output, least, greatest, places, NULL, NULL, NULL));
}

/* All calls that take memory; how many allocations they make. */
static int run_session(int refuse) {
    allocations = told = 0;
    refused = refuse;
    open_context();
    /* First, so that no earlier reply has left memory for the one after the run. */
    run_on_memory();
    map_parts();
    map_large();
    run_graph();
    run_at_once_on_memory();
    run_parts();
    run_functions();
    map_others();
    make_others();
    EXPECT(VX_SUCCESS, vxReleaseContext(&context));
    bool may_be_silent = refuse == 0 || (feqyldan_open != NULL && !is_lasting);
    CHECK(told == (refuse == 0 ? 0 : 1) || (told == 0 && may_be_silent));
    return allocations;
}

int main(void) {
    int all = run_session(0);
    CHECK(all >= 30);
    for (is_lasting = 0; is_lasting < 2; is_lasting++)
        for (int refuse = 1; refuse <= all; refuse++)
            run_session(refuse);
    return 0;
}
