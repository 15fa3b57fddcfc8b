/* The status of each kind of mistake, and what objects tell of themselves. */
#include "testing.h"

enum { WIDTH = 8, HEIGHT = 6 };

static vx_context context, foreign;
static vx_image u8, v8, s16, small, wanderer;
static int entries;
static vx_status told;
static char said[VX_MAX_LOG_MESSAGE_LEN];

static void on_entry(vx_context of, vx_reference ref, vx_status status, const vx_char string[]) {
    CHECK(of == context && ref != NULL && string[0] != '\0');
    entries++;
    told = status;
    snprintf(said, sizeof said, "%s", string);
}

static void refuse_creations(void) {
    EXPECT(VX_ERROR_NO_RESOURCES, vxGetStatus(NULL));
    EXPECT(VX_ERROR_NOT_SUPPORTED, STATUS(vxCreateImage(context, 8, 8, VX_DF_IMAGE_RGB)));
    EXPECT(VX_ERROR_INVALID_DIMENSION, STATUS(vxCreateImage(context, 0, 8, VX_DF_IMAGE_U8)));
    EXPECT(VX_ERROR_INVALID_DIMENSION, STATUS(vxCreateImage(context, 8, 8193, VX_DF_IMAGE_U8)));
    EXPECT(VX_ERROR_INVALID_DIMENSION, STATUS(vxCreateImage(context, 8193, 8, VX_DF_IMAGE_U8)));
    EXPECT(VX_ERROR_INVALID_DIMENSION, STATUS(vxCreateImage(context, 65537, 8, VX_DF_IMAGE_U8)));
    CHECK(vxCreateImage(NULL, 8, 8, VX_DF_IMAGE_U8) == NULL);
    CHECK(vxCreateImage((vx_context)u8, 8, 8, VX_DF_IMAGE_U8) == NULL);
    EXPECT(VX_ERROR_INVALID_TYPE,
           STATUS(vxCreateThresholdForImage(context, 0, VX_DF_IMAGE_U8, VX_DF_IMAGE_U8)));
    EXPECT(VX_ERROR_NOT_SUPPORTED,
           STATUS(vxCreateThresholdForImage(context, VX_THRESHOLD_TYPE_RANGE, VX_DF_IMAGE_U32,
                                            VX_DF_IMAGE_U8)));
    EXPECT(VX_ERROR_INVALID_TYPE, STATUS(vxCreateLUT(context, VX_TYPE_INT32, 256)));
    EXPECT(VX_ERROR_INVALID_PARAMETERS, STATUS(vxCreateLUT(context, VX_TYPE_UINT8, 257)));
    EXPECT(VX_ERROR_INVALID_PARAMETERS, STATUS(vxCreateLUT(context, VX_TYPE_INT16, 0)));
    EXPECT(VX_ERROR_INVALID_DIMENSION, STATUS(vxCreateConvolution(context, 3, 11)));
    EXPECT(VX_ERROR_INVALID_VALUE, STATUS(vxCreateDistribution(context, 0, 0, 256)));
    EXPECT(VX_ERROR_INVALID_VALUE, STATUS(vxCreateDistribution(context, 256, -1, 256)));
    EXPECT(VX_ERROR_INVALID_TYPE, STATUS(vxCreateScalar(context, VX_TYPE_IMAGE, NULL)));
    EXPECT(VX_ERROR_NOT_SUPPORTED, STATUS(vxCreateArray(context, VX_TYPE_IMAGE, 4)));
    EXPECT(VX_ERROR_INVALID_PARAMETERS, STATUS(vxCreateArray(context, VX_TYPE_COORDINATES2D, 0)));
    EXPECT(VX_ERROR_INVALID_VALUE, STATUS(vxCreateDelay(context, (vx_reference)u8, 17)));
    EXPECT(VX_ERROR_INVALID_SCOPE, STATUS(vxCreateDelay(context, (vx_reference)wanderer, 2)));
    EXPECT(VX_ERROR_NOT_SUPPORTED, STATUS(vxCreateDelay(context, (vx_reference)context, 2)));
}

static void refuse_functions(void) {
    const vx_enum wrap = VX_CONVERT_POLICY_WRAP, zero = VX_ROUND_POLICY_TO_ZERO;
    EXPECT(VX_ERROR_INVALID_REFERENCE, vxuNot(context, NULL, v8));
    EXPECT(VX_ERROR_INVALID_REFERENCE, vxuNot(NULL, u8, v8));
    EXPECT(VX_ERROR_INVALID_REFERENCE, vxuNot(context, (vx_image)context, v8));
    EXPECT(VX_ERROR_INVALID_SCOPE, vxuNot(context, u8, wanderer));
    EXPECT(VX_ERROR_INVALID_FORMAT, vxuNot(context, u8, s16));
    EXPECT(VX_ERROR_INVALID_DIMENSION, vxuNot(context, u8, small));
    EXPECT(VX_ERROR_INVALID_GRAPH, vxuNot(context, u8, u8));
    EXPECT(VX_ERROR_MULTIPLE_WRITERS, vxuSobel3x3(context, u8, s16, s16));
    EXPECT(VX_ERROR_INVALID_PARAMETERS, vxuSobel3x3(context, u8, NULL, NULL));
    EXPECT(VX_ERROR_INVALID_VALUE, vxuAdd(context, u8, u8, 0, v8));
    EXPECT(VX_ERROR_INVALID_VALUE, vxuConvertDepth(context, u8, s16, wrap, 8));
    EXPECT(VX_ERROR_INVALID_VALUE, vxuConvertDepth(context, u8, s16, wrap, -1));
    EXPECT(VX_ERROR_NOT_SUPPORTED, vxuMultiply(context, u8, u8, 1.0f / 255, wrap, zero, v8));
    EXPECT(VX_ERROR_INVALID_VALUE, vxuMultiply(context, u8, u8, -1, wrap, zero, v8));
    EXPECT(VX_ERROR_NOT_SUPPORTED, vxuMultiply(context, u8, u8, 1, wrap,
                                               VX_ROUND_POLICY_TO_NEAREST_EVEN, v8));
    vx_scalar word = vxCreateScalar(context, VX_TYPE_INT16, NULL);
    EXPECT(VX_ERROR_MULTIPLE_WRITERS,
           vxuMinMaxLoc(context, s16, word, word, NULL, NULL, NULL, NULL));
    EXPECT(VX_ERROR_INVALID_TYPE, vxuMinMaxLoc(context, u8, word, word, NULL, NULL, NULL, NULL));
    vx_threshold range = vxCreateThresholdForImage(context, VX_THRESHOLD_TYPE_RANGE,
                                                   VX_DF_IMAGE_U8, VX_DF_IMAGE_U8);
    vx_pixel_value_t lower = {.U8 = 9}, upper = {.U8 = 8};
    EXPECT(VX_SUCCESS,
           vxCopyThresholdRange(range, &lower, &upper, VX_WRITE_ONLY, VX_MEMORY_TYPE_HOST));
    EXPECT(VX_ERROR_INVALID_VALUE, vxuThreshold(context, u8, range, v8));
    EXPECT(VX_ERROR_NOT_COMPATIBLE,
           vxCopyThresholdValue(range, &lower, VX_READ_ONLY, VX_MEMORY_TYPE_HOST));
    EXPECT(VX_SUCCESS, vxCopyThresholdOutput(range, &lower, &upper, VX_READ_ONLY,
                                             VX_MEMORY_TYPE_HOST));
    CHECK(lower.U8 == 255 && upper.U8 == 0);
}

/* Of functions that add to their output; the graph has no node before and after. */
static void refuse_sums(vx_graph graph) {
    vx_uint32 shift = 16;
    vx_scalar word = vxCreateScalar(context, VX_TYPE_INT32, NULL);
    vx_scalar number = vxCreateScalar(context, VX_TYPE_UINT32, &shift);
    vx_image sums = vxCreateVirtualImage(graph, WIDTH, HEIGHT, VX_DF_IMAGE_S16);
    EXPECT(VX_ERROR_INVALID_GRAPH, vxuAccumulateImage(context, s16, s16));
    EXPECT(VX_ERROR_INVALID_FORMAT, vxuAccumulateImage(context, u8, v8));
    EXPECT(VX_ERROR_INVALID_DIMENSION, vxuAccumulateImage(context, small, s16));
    EXPECT(VX_ERROR_OPTIMIZED_AWAY, vxuAccumulateImage(context, u8, sums));
    EXPECT(VX_ERROR_INVALID_REFERENCE, vxuAccumulateImage(context, u8, NULL));
    EXPECT(VX_ERROR_INVALID_REFERENCE, vxuAccumulateSquareImage(context, u8, NULL, s16));
    EXPECT(VX_ERROR_INVALID_TYPE, vxuAccumulateSquareImage(context, u8, word, s16));
    EXPECT(VX_ERROR_INVALID_VALUE, vxuAccumulateSquareImage(context, u8, number, s16));
    vx_graph other = vxCreateGraph(context);
    EXPECT(VX_ERROR_INVALID_REFERENCE,
           STATUS(vxAccumulateSquareImageNode(other, u8, NULL, s16)));
    EXPECT(VX_ERROR_INVALID_TYPE, STATUS(vxAccumulateSquareImageNode(other, u8, word, s16)));
    EXPECT(VX_SUCCESS, vxReleaseGraph(&other));
    vx_node node = vxAccumulateSquareImageNode(graph, u8, number, s16);
    EXPECT(VX_ERROR_INVALID_VALUE, vxVerifyGraph(graph));
    shift = 15;
    EXPECT(VX_SUCCESS, vxCopyScalar(number, &shift, VX_WRITE_ONLY, VX_MEMORY_TYPE_HOST));
    EXPECT(VX_SUCCESS, vxProcessGraph(graph));
    EXPECT(VX_SUCCESS, vxRemoveNode(&node));
    node = vxAccumulateImageNode(graph, u8, sums);
    EXPECT(VX_ERROR_INVALID_LINK, vxProcessGraph(graph));
    EXPECT(VX_SUCCESS, vxRemoveNode(&node));
    EXPECT(VX_SUCCESS, vxReleaseImage(&sums));
}

static void refuse_registrations(vx_graph graph) {
    vx_delay delay = vxCreateDelay(context, (vx_reference)u8, 2);
    vx_delay stranger = vxCreateDelay(foreign, (vx_reference)wanderer, 2);
    vx_delay gone = delay;
    EXPECT(VX_SUCCESS, vxRegisterAutoAging(graph, delay));
    EXPECT(VX_SUCCESS, vxRegisterAutoAging(graph, delay));
    EXPECT(VX_ERROR_INVALID_REFERENCE, vxRegisterAutoAging(NULL, delay));
    EXPECT(VX_ERROR_INVALID_REFERENCE, vxRegisterAutoAging(graph, NULL));
    EXPECT(VX_ERROR_INVALID_REFERENCE, vxRegisterAutoAging((vx_graph)delay, delay));
    EXPECT(VX_ERROR_INVALID_REFERENCE, vxRegisterAutoAging(graph, (vx_delay)graph));
    EXPECT(VX_ERROR_INVALID_REFERENCE, vxRegisterAutoAging(graph, (vx_delay)u8));
    EXPECT(VX_ERROR_INVALID_SCOPE, vxRegisterAutoAging(graph, stranger));
    EXPECT(VX_SUCCESS, vxReleaseDelay(&delay));
    EXPECT(VX_ERROR_INVALID_REFERENCE, vxRegisterAutoAging(graph, gone));
    EXPECT(VX_SUCCESS, vxReleaseDelay(&stranger));
    EXPECT(VX_SUCCESS, vxProcessGraph(graph));
}

static void refuse_graphs(void) {
    vx_graph graph = vxCreateGraph(context), other = vxCreateGraph(context);
    vx_image virtual_image = vxCreateVirtualImage(graph, 0, 0, VX_DF_IMAGE_VIRT);
    const vx_pixel_value_t value = {.U8 = 1};
    vx_rectangle_t rect;
    vx_df_image format;
    refuse_sums(graph);
    refuse_registrations(graph);
    EXPECT(VX_SUCCESS, vxQueryImage(virtual_image, VX_IMAGE_FORMAT, &format, sizeof format));
    CHECK(format == VX_DF_IMAGE_VIRT);
    EXPECT(VX_ERROR_OPTIMIZED_AWAY, vxGetValidRegionImage(virtual_image, &rect));
    EXPECT(VX_ERROR_OPTIMIZED_AWAY, vxSetImageValidRectangle(virtual_image, NULL));
    EXPECT(VX_ERROR_INVALID_REFERENCE, vxSetImagePixelValues(virtual_image, &value));
    EXPECT(VX_ERROR_OPTIMIZED_AWAY, copy_whole(virtual_image, 8, 6, 1, &rect, VX_READ_ONLY));
    EXPECT(VX_ERROR_OPTIMIZED_AWAY, vxuNot(context, virtual_image, v8));
    EXPECT(VX_ERROR_INVALID_SCOPE, STATUS(vxNotNode(other, u8, virtual_image)));
    EXPECT(VX_ERROR_INVALID_SCOPE, STATUS(vxNotNode(other, u8, wanderer)));
    EXPECT(VX_ERROR_INVALID_REFERENCE, STATUS(vxNotNode(other, u8, NULL)));
    CHECK(vxNotNode(NULL, u8, v8) == NULL);
    vx_node node = vxNotNode(graph, virtual_image, v8);
    EXPECT(VX_ERROR_INVALID_LINK, vxVerifyGraph(graph));
    vx_node writer = vxNotNode(graph, small, virtual_image);
    EXPECT(VX_ERROR_INVALID_DIMENSION, vxProcessGraph(graph));
    EXPECT(VX_SUCCESS, vxRemoveNode(&writer));
    writer = vxNotNode(graph, v8, virtual_image);
    EXPECT(VX_ERROR_INVALID_GRAPH, vxVerifyGraph(graph));
    EXPECT(VX_SUCCESS, STATUS(vxNotNode(graph, u8, virtual_image)));
    EXPECT(VX_ERROR_MULTIPLE_WRITERS, vxVerifyGraph(graph));
    const vx_border_t border = {.mode = 0};
    EXPECT(VX_ERROR_INVALID_VALUE,
           vxSetNodeAttribute(node, VX_NODE_BORDER, &border, sizeof border));
    EXPECT(VX_ERROR_INVALID_PARAMETERS, vxSetNodeAttribute(node, VX_NODE_BORDER, &border, 1));
    vx_uint32 nodes;
    EXPECT(VX_SUCCESS, vxQueryGraph(graph, VX_GRAPH_NUMNODES, &nodes, sizeof nodes));
    CHECK(nodes == 3);
    EXPECT(VX_SUCCESS, vxReleaseGraph(&graph));
    EXPECT(VX_ERROR_INVALID_REFERENCE, vxReleaseGraph(&graph));
    EXPECT(VX_SUCCESS, vxRemoveNode(&node));
    EXPECT(VX_ERROR_INVALID_SCOPE, STATUS(vxNotNode(other, virtual_image, v8)));
}

static void ask_references(void) {
    vx_uint32 count;
    vx_enum type;
    const vx_char *name;
    vx_reference kept = (vx_reference)v8;
    EXPECT(VX_SUCCESS, vxRetainReference(kept));
    EXPECT(VX_SUCCESS, vxQueryReference(kept, VX_REFERENCE_COUNT, &count, sizeof count));
    CHECK(count == 2);
    EXPECT(VX_SUCCESS, vxReleaseReference(&kept));
    CHECK(kept == NULL);
    kept = (vx_reference)v8;
    EXPECT(VX_SUCCESS, vxQueryReference(kept, VX_REFERENCE_TYPE, &type, sizeof type));
    CHECK(type == VX_TYPE_IMAGE);
    EXPECT(VX_SUCCESS, vxSetReferenceName(kept, "output"));
    EXPECT(VX_SUCCESS, vxQueryReference(kept, VX_REFERENCE_NAME, &name, sizeof name));
    CHECK(strcmp(name, "output") == 0);
    EXPECT(VX_SUCCESS, vxSetReferenceName(kept, name + 3));
    CHECK(strcmp(name, "put") == 0);
    EXPECT(VX_SUCCESS, vxSetReferenceName(kept, NULL));
    EXPECT(VX_SUCCESS, vxQueryReference(kept, VX_REFERENCE_NAME, &name, sizeof name));
    CHECK(*name == '\0');
    EXPECT(VX_ERROR_INVALID_PARAMETERS, vxQueryReference(kept, VX_REFERENCE_NAME, &name, 3));
    EXPECT(VX_ERROR_NOT_SUPPORTED, vxQueryReference(kept, 0, &name, sizeof name));
    EXPECT(VX_ERROR_INVALID_REFERENCE, vxReleaseGraph((vx_graph *)(void *)&kept));
    CHECK(vxGetContext(kept) == context);
    EXPECT(VX_SUCCESS, vxReleaseReference(&kept));
    EXPECT(VX_ERROR_INVALID_REFERENCE, vxuNot(context, u8, v8));
    EXPECT(VX_ERROR_INVALID_REFERENCE, vxReleaseImage(&v8));
    EXPECT(VX_ERROR_INVALID_REFERENCE, vxGetStatus((vx_reference)v8));
}

static void log_entries(void) {
    vxRegisterLogCallback(context, on_entry, vx_true_e);
    EXPECT(VX_ERROR_INVALID_FORMAT, vxuNot(context, u8, s16));
    CHECK(entries == 1 && told == VX_ERROR_INVALID_FORMAT);
    CHECK(strcmp(said, "vxuNot: the formats have to be U8 to U8: input is U8, 8 x 6; "
                       "output is S16, 8 x 6") == 0);
    vx_graph graph = vxCreateGraph(context);
    vx_image unwritten = vxCreateVirtualImage(graph, 0, 0, VX_DF_IMAGE_VIRT);
    EXPECT(VX_SUCCESS, STATUS(vxNotNode(graph, unwritten, v8)));
    EXPECT(VX_ERROR_INVALID_LINK, vxVerifyGraph(graph));
    CHECK(entries == 2 && strcmp(said, "node 0 (vxNotNode): input is a virtual image that no "
                                        "node writes: add the node that does") == 0);
    EXPECT(VX_SUCCESS, vxReleaseGraph(&graph));
    vxAddLogEntry((vx_reference)u8, VX_FAILURE, "%d of %s", 3, "four");
    CHECK(entries == 3 && told == VX_FAILURE && strcmp(said, "3 of four") == 0);
    vxAddLogEntry((vx_reference)u8, VX_SUCCESS, "unheard");
    CHECK(entries == 3);
    EXPECT(VX_SUCCESS, vxDirective((vx_reference)context, VX_DIRECTIVE_DISABLE_LOGGING));
    vxAddLogEntry((vx_reference)u8, VX_FAILURE, "unheard");
    CHECK(entries == 3);
    vxRegisterLogCallback(context, NULL, vx_true_e);
}

int main(void) {
    context = vxCreateContext();
    foreign = vxCreateContext();
    u8 = vxCreateImage(context, WIDTH, HEIGHT, VX_DF_IMAGE_U8);
    v8 = vxCreateImage(context, WIDTH, HEIGHT, VX_DF_IMAGE_U8);
    s16 = vxCreateImage(context, WIDTH, HEIGHT, VX_DF_IMAGE_S16);
    small = vxCreateImage(context, WIDTH, HEIGHT - 1, VX_DF_IMAGE_U8);
    wanderer = vxCreateImage(foreign, WIDTH, HEIGHT, VX_DF_IMAGE_U8);
    refuse_creations();
    refuse_functions();
    refuse_graphs();
    log_entries();
    ask_references();
    EXPECT(VX_SUCCESS, vxReleaseContext(&context));
    EXPECT(VX_ERROR_INVALID_REFERENCE, vxReleaseContext(&context));
    EXPECT(VX_ERROR_INVALID_REFERENCE, vxReleaseImage(&u8));
    EXPECT(VX_SUCCESS, vxReleaseContext(&foreign));
    return 0;
}
