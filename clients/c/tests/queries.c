/* What each object tells of itself, copies both ways, and what releases leave. */
#include "testing.h"

static vx_context context;

/* An attribute has a value of its type, and isn't written where the size is another. */
#define TELLS(query, object, attribute, type, expected)                                            \
    do {                                                                                           \
        type value;                                                                                \
        EXPECT(VX_SUCCESS, query(object, attribute, &value, sizeof value));                        \
        CHECK(value == (expected));                                                                \
        EXPECT(VX_ERROR_INVALID_PARAMETERS, query(object, attribute, &value, sizeof value + 1));   \
        EXPECT(VX_ERROR_INVALID_PARAMETERS, query(object, attribute, NULL, sizeof value));         \
        EXPECT(VX_ERROR_NOT_SUPPORTED, query(object, -1, &value, sizeof value));                   \
        EXPECT(VX_ERROR_INVALID_REFERENCE, query(NULL, attribute, &value, sizeof value));          \
    } while (0)

static void ask_context(void) {
    vx_char name[VX_MAX_IMPLEMENTATION_NAME];
    vx_border_t border;
    TELLS(vxQueryContext, context, VX_CONTEXT_VERSION, vx_uint16, VX_VERSION_1_3);
    TELLS(vxQueryContext, context, VX_CONTEXT_VENDOR_ID, vx_uint16, VX_ID_DEFAULT);
    TELLS(vxQueryContext, context, VX_CONTEXT_REFERENCES, vx_uint32, 0);
    TELLS(vxQueryContext, context, VX_CONTEXT_CONVOLUTION_MAX_DIMENSION, vx_size, 9);
    EXPECT(VX_SUCCESS, vxQueryContext(context, VX_CONTEXT_IMPLEMENTATION, name, sizeof name));
    CHECK(strcmp(name, "feqyldan") == 0);
    EXPECT(VX_SUCCESS,
           vxQueryContext(context, VX_CONTEXT_IMMEDIATE_BORDER, &border, sizeof border));
    CHECK(border.mode == VX_BORDER_UNDEFINED);
}

static void ask_image_and_delay(void) {
    vx_image image = vxCreateImage(context, 12, 5, VX_DF_IMAGE_S16);
    vx_delay delay = vxCreateDelay(context, (vx_reference)image, 4);
    vx_image slot = (vx_image)vxGetReferenceFromDelay(delay, -3);
    TELLS(vxQueryImage, image, VX_IMAGE_WIDTH, vx_uint32, 12);
    TELLS(vxQueryImage, slot, VX_IMAGE_HEIGHT, vx_uint32, 5);
    TELLS(vxQueryImage, slot, VX_IMAGE_FORMAT, vx_df_image, VX_DF_IMAGE_S16);
    TELLS(vxQueryImage, image, VX_IMAGE_PLANES, vx_size, 1);
    TELLS(vxQueryImage, image, VX_IMAGE_SPACE, vx_enum, VX_COLOR_SPACE_NONE);
    TELLS(vxQueryImage, image, VX_IMAGE_RANGE, vx_enum, VX_CHANNEL_RANGE_FULL);
    TELLS(vxQueryImage, image, VX_IMAGE_MEMORY_TYPE, vx_enum, VX_MEMORY_TYPE_NONE);
    TELLS(vxQueryDelay, delay, VX_DELAY_TYPE, vx_enum, VX_TYPE_IMAGE);
    TELLS(vxQueryDelay, delay, VX_DELAY_SLOTS, vx_size, 4);
    EXPECT(VX_ERROR_INVALID_PARAMETERS, STATUS(vxGetReferenceFromDelay(delay, -4)));
    EXPECT(VX_ERROR_INVALID_PARAMETERS, STATUS(vxGetReferenceFromDelay(delay, 1)));
    vx_uint8 patch[6] = {0};
    const vx_imagepatch_addressing_t addr = by_rows(3, 2, 1);
    CHECK(vxFormatImagePatchAddress2d(patch, 2, 1, &addr) == patch + 5);
    CHECK(vxFormatImagePatchAddress2d(patch, 3, 1, &addr) == NULL);
    CHECK(vxFormatImagePatchAddress2d(patch, 0, 2, &addr) == NULL);
    EXPECT(VX_SUCCESS, vxReleaseDelay(&delay));
    EXPECT(VX_SUCCESS, vxReleaseImage(&image));
}

static void ask_tables(void) {
    vx_lut lut = vxCreateLUT(context, VX_TYPE_INT16, 65536);
    vx_int16 *entries = calloc(65536, sizeof *entries);
    CHECK(entries != NULL);
    entries[5] = -7;
    EXPECT(VX_SUCCESS, vxCopyLUT(lut, entries, VX_WRITE_ONLY, VX_MEMORY_TYPE_HOST));
    entries[5] = 0;
    EXPECT(VX_SUCCESS, vxCopyLUT(lut, entries, VX_READ_ONLY, VX_MEMORY_TYPE_HOST));
    CHECK(entries[5] == -7);
    free(entries);
    TELLS(vxQueryLUT, lut, VX_LUT_TYPE, vx_enum, VX_TYPE_INT16);
    TELLS(vxQueryLUT, lut, VX_LUT_COUNT, vx_size, 65536);
    TELLS(vxQueryLUT, lut, VX_LUT_SIZE, vx_size, 131072);
    TELLS(vxQueryLUT, lut, VX_LUT_OFFSET, vx_uint32, 32768);
    vx_distribution counts = vxCreateDistribution(context, 8, 16, 128);
    TELLS(vxQueryDistribution, counts, VX_DISTRIBUTION_DIMENSIONS, vx_size, 1);
    TELLS(vxQueryDistribution, counts, VX_DISTRIBUTION_OFFSET, vx_int32, 16);
    TELLS(vxQueryDistribution, counts, VX_DISTRIBUTION_RANGE, vx_uint32, 128);
    TELLS(vxQueryDistribution, counts, VX_DISTRIBUTION_BINS, vx_size, 8);
    TELLS(vxQueryDistribution, counts, VX_DISTRIBUTION_WINDOW, vx_uint32, 16);
    TELLS(vxQueryDistribution, counts, VX_DISTRIBUTION_SIZE, vx_size, 32);
    EXPECT(VX_SUCCESS, vxReleaseLUT(&lut));
    EXPECT(VX_SUCCESS, vxReleaseDistribution(&counts));
}

static void ask_parameters(void) {
    vx_threshold threshold = vxCreateThresholdForImage(context, VX_THRESHOLD_TYPE_RANGE,
                                                       VX_DF_IMAGE_S16, VX_DF_IMAGE_U8);
    TELLS(vxQueryThreshold, threshold, VX_THRESHOLD_TYPE, vx_enum, VX_THRESHOLD_TYPE_RANGE);
    TELLS(vxQueryThreshold, threshold, VX_THRESHOLD_INPUT_FORMAT, vx_df_image, VX_DF_IMAGE_S16);
    TELLS(vxQueryThreshold, threshold, VX_THRESHOLD_OUTPUT_FORMAT, vx_df_image, VX_DF_IMAGE_U8);
    vx_convolution kernel = vxCreateConvolution(context, 5, 3);
    vx_uint32 scale = 1u << 31, odd = 3;
    EXPECT(VX_SUCCESS, vxSetConvolutionAttribute(kernel, VX_CONVOLUTION_SCALE, &scale, 4));
    EXPECT(VX_ERROR_INVALID_VALUE,
           vxSetConvolutionAttribute(kernel, VX_CONVOLUTION_SCALE, &odd, 4));
    TELLS(vxQueryConvolution, kernel, VX_CONVOLUTION_SCALE, vx_uint32, 1u << 31);
    TELLS(vxQueryConvolution, kernel, VX_CONVOLUTION_COLUMNS, vx_size, 5);
    TELLS(vxQueryConvolution, kernel, VX_CONVOLUTION_ROWS, vx_size, 3);
    TELLS(vxQueryConvolution, kernel, VX_CONVOLUTION_SIZE, vx_size, 30);
    vx_float64 number = 2.5, copied = 0;
    vx_scalar scalar = vxCreateScalar(context, VX_TYPE_FLOAT64, &number);
    TELLS(vxQueryScalar, scalar, VX_SCALAR_TYPE, vx_enum, VX_TYPE_FLOAT64);
    EXPECT(VX_SUCCESS, vxCopyScalar(scalar, &copied, VX_READ_ONLY, VX_MEMORY_TYPE_HOST));
    CHECK(copied == 2.5);
    EXPECT(VX_SUCCESS, vxReleaseThreshold(&threshold));
    EXPECT(VX_SUCCESS, vxReleaseConvolution(&kernel));
    EXPECT(VX_SUCCESS, vxReleaseScalar(&scalar));
}

static void ask_array_and_node(void) {
    vx_image image = vxCreateImage(context, 4, 4, VX_DF_IMAGE_U8);
    vx_scalar least = vxCreateScalar(context, VX_TYPE_UINT8, NULL);
    vx_scalar greatest = vxCreateScalar(context, VX_TYPE_UINT8, NULL);
    vx_array places = vxCreateArray(context, VX_TYPE_COORDINATES2D, 3);
    vx_graph graph = vxCreateGraph(context);
    TELLS(vxQueryArray, places, VX_ARRAY_CAPACITY, vx_size, 3);
    TELLS(vxQueryArray, places, VX_ARRAY_ITEMTYPE, vx_enum, VX_TYPE_COORDINATES2D);
    TELLS(vxQueryArray, places, VX_ARRAY_ITEMSIZE, vx_size, sizeof(vx_coordinates2d_t));
    EXPECT(VX_SUCCESS, vxuMinMaxLoc(context, image, least, greatest, places, NULL, NULL, NULL));
    TELLS(vxQueryArray, places, VX_ARRAY_NUMITEMS, vx_size, 1);
    EXPECT(VX_ERROR_INVALID_PARAMETERS, vxTruncateArray(places, 2));
    EXPECT(VX_SUCCESS, vxTruncateArray(places, 0));
    TELLS(vxQueryArray, places, VX_ARRAY_NUMITEMS, vx_size, 0);
    vx_node node = vxMinMaxLocNode(graph, image, least, greatest, places, NULL, NULL, NULL);
    TELLS(vxQueryNode, node, VX_NODE_STATUS, vx_status, VX_SUCCESS);
    TELLS(vxQueryGraph, graph, VX_GRAPH_STATE, vx_enum, VX_GRAPH_STATE_UNVERIFIED);
    EXPECT(VX_SUCCESS, vxProcessGraph(graph));
    TELLS(vxQueryGraph, graph, VX_GRAPH_STATE, vx_enum, VX_GRAPH_STATE_COMPLETED);
    TELLS(vxQueryArray, places, VX_ARRAY_NUMITEMS, vx_size, 1);
    EXPECT(VX_SUCCESS, vxReleaseArray(&places));
    EXPECT(VX_SUCCESS, vxProcessGraph(graph));
    EXPECT(VX_SUCCESS, vxReleaseNode(&node));
    EXPECT(VX_SUCCESS, vxReleaseGraph(&graph));
    EXPECT(VX_SUCCESS, vxReleaseScalar(&least));
    EXPECT(VX_SUCCESS, vxReleaseScalar(&greatest));
    EXPECT(VX_SUCCESS, vxReleaseImage(&image));
}

int main(void) {
    context = vxCreateContext();
    ask_context();
    ask_image_and_delay();
    ask_tables();
    ask_parameters();
    ask_array_and_node();
    TELLS(vxQueryContext, context, VX_CONTEXT_REFERENCES, vx_uint32, 0);
    EXPECT(VX_SUCCESS, vxReleaseContext(&context));
    return 0;
}
