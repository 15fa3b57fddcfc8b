/* Parameters of nodes and of graphs. */
#include "testing.h"

enum { SIDE = 3, COUNT = SIDE * SIDE };

static vx_context context;
static vx_graph graph;
static vx_image a, b, c, s;
static vx_scalar byte, number;

static vx_image new_image(vx_df_image format) {
    return vxCreateImage(context, SIDE, SIDE, format);
}

static void fill(vx_image image, vx_uint8 sample) {
    vx_uint8 samples[COUNT];
    memset(samples, sample, COUNT);
    EXPECT(VX_SUCCESS, copy_whole(image, SIDE, SIDE, 1, samples, VX_WRITE_ONLY));
}

/* Whether the first sample of an image, which its graph has written, is this. */
static void holds(vx_image image, vx_uint8 expected) {
    vx_uint8 samples[COUNT];
    EXPECT(VX_SUCCESS, copy_whole(image, SIDE, SIDE, 1, samples, VX_READ_ONLY));
    CHECK(samples[0] == expected);
}

static vx_enum ask(vx_parameter parameter, vx_enum attribute) {
    vx_enum value;
    EXPECT(VX_SUCCESS, vxQueryParameter(parameter, attribute, &value, sizeof value));
    EXPECT(VX_ERROR_INVALID_PARAMETERS,
           vxQueryParameter(parameter, attribute, &value, sizeof value + 1));
    return value;
}

/* A reference that the caller releases. */
static vx_reference value_of(vx_node node, vx_uint32 index) {
    vx_reference value;
    vx_parameter parameter = vxGetParameterByIndex(node, index);
    EXPECT(VX_SUCCESS, vxQueryParameter(parameter, VX_PARAMETER_REF, &value, sizeof value));
    EXPECT(VX_SUCCESS, vxReleaseParameter(&parameter));
    CHECK(parameter == NULL);
    return value;
}

static char letter_of(vx_enum type) {
    static const struct {
        vx_enum type;
        char letter;
    } letters[] = {{VX_TYPE_IMAGE, 'i'},       {VX_TYPE_SCALAR, 's'}, {VX_TYPE_ARRAY, 'a'},
                   {VX_TYPE_THRESHOLD, 't'},   {VX_TYPE_LUT, 'l'},    {VX_TYPE_CONVOLUTION, 'c'},
                   {VX_TYPE_DISTRIBUTION, 'd'}};
    for (size_t i = 0; i < sizeof letters / sizeof *letters; i++)
        if (letters[i].type == type)
            return letters[i].letter;
    return '-';
}

/* A node has parameters as its function has arguments: for each the letter of its type, and after
   it `>` for an output, `+` for one that is added to, and `?` for one that may lack. */
static void has(const char *expected, vx_node node) {
    char told[32] = "", *at = told;
    vx_uint32 count;
    EXPECT(VX_SUCCESS, vxQueryNode(node, VX_NODE_PARAMETERS, &count, sizeof count));
    for (vx_uint32 i = 0; i < count; i++) {
        vx_parameter parameter = vxGetParameterByIndex(node, i);
        CHECK((vx_uint32)ask(parameter, VX_PARAMETER_INDEX) == i);
        *at++ = letter_of(ask(parameter, VX_PARAMETER_TYPE));
        if (ask(parameter, VX_PARAMETER_DIRECTION) == VX_OUTPUT)
            *at++ = '>';
        if (ask(parameter, VX_PARAMETER_DIRECTION) == VX_BIDIRECTIONAL)
            *at++ = '+';
        if (ask(parameter, VX_PARAMETER_STATE) == VX_PARAMETER_STATE_OPTIONAL)
            *at++ = '?';
        EXPECT(VX_SUCCESS, vxReleaseParameter(&parameter));
    }
    CHECK(strcmp(told, expected) == 0);
    EXPECT(VX_ERROR_INVALID_PARAMETERS, STATUS(vxGetParameterByIndex(node, count)));
    EXPECT(VX_SUCCESS, vxRemoveNode(&node));
}

static void list_parameters(void) {
    const vx_enum wrap = VX_CONVERT_POLICY_WRAP, zero = VX_ROUND_POLICY_TO_ZERO;
    vx_scalar scale = vxCreateScalar(context, VX_TYPE_FLOAT32, NULL);
    vx_threshold threshold = vxCreateThresholdForImage(context, VX_THRESHOLD_TYPE_BINARY,
                                                       VX_DF_IMAGE_U8, VX_DF_IMAGE_U8);
    vx_lut lut = vxCreateLUT(context, VX_TYPE_UINT8, 256);
    vx_convolution kernel = vxCreateConvolution(context, 3, 3);
    vx_distribution counts = vxCreateDistribution(context, 8, 0, 256);
    vx_scalar shift = vxCreateScalar(context, VX_TYPE_UINT32, NULL);
    has("iii>", vxAndNode(graph, a, b, c));
    has("iii>", vxOrNode(graph, a, b, c));
    has("iii>", vxXorNode(graph, a, b, c));
    has("ii>", vxNotNode(graph, a, c));
    has("iisi>", vxAddNode(graph, a, b, wrap, c));
    has("iisi>", vxSubtractNode(graph, a, b, wrap, c));
    has("iisssi>", vxMultiplyNode(graph, a, b, scale, wrap, zero, c));
    has("iii>", vxAbsDiffNode(graph, a, b, c));
    has("iii>", vxMinNode(graph, a, b, c));
    has("iii>", vxMaxNode(graph, a, b, c));
    has("iti>", vxThresholdNode(graph, a, threshold, c));
    has("ili>", vxTableLookupNode(graph, a, lut, c));
    has("ii>ss", vxConvertDepthNode(graph, a, s, wrap, number));
    has("ii>", vxBox3x3Node(graph, a, c));
    has("ii>", vxGaussian3x3Node(graph, a, c));
    has("ii>", vxMedian3x3Node(graph, a, c));
    has("ii>", vxErode3x3Node(graph, a, c));
    has("ii>", vxDilate3x3Node(graph, a, c));
    has("ii>?i>?", vxSobel3x3Node(graph, a, s, NULL));
    has("ici>", vxConvolveNode(graph, a, kernel, c));
    has("id>", vxHistogramNode(graph, a, counts));
    has("ii>", vxIntegralImageNode(graph, a, c));
    has("is>s>a>?a>?s>?s>?", vxMinMaxLocNode(graph, a, byte, byte, NULL, NULL, NULL, NULL));
    has("ii+", vxAccumulateImageNode(graph, a, s));
    has("isi+", vxAccumulateSquareImageNode(graph, a, shift, s));
}

/* What is read is what was given: also after the program gave its own reference back. */
static void read_values(void) {
    vx_node node = vxAddNode(graph, a, b, VX_CONVERT_POLICY_SATURATE, c);
    vx_image kept = c;
    EXPECT(VX_SUCCESS, vxReleaseImage(&c));
    EXPECT(VX_ERROR_INVALID_REFERENCE, STATUS(kept));
    vx_reference value = value_of(node, 3);
    CHECK(value == (vx_reference)kept);
    EXPECT(VX_SUCCESS, STATUS(kept));
    c = kept;
    vx_uint32 count;
    EXPECT(VX_SUCCESS, vxQueryReference(value, VX_REFERENCE_COUNT, &count, sizeof count));
    CHECK(count == 1);
    value = value_of(node, 0);
    CHECK(value == (vx_reference)a);
    EXPECT(VX_SUCCESS, vxReleaseReference(&value));
    vx_scalar policy = (vx_scalar)value_of(node, 2);
    vx_enum read;
    EXPECT(VX_SUCCESS, vxQueryScalar(policy, VX_SCALAR_TYPE, &read, sizeof read));
    CHECK(read == VX_TYPE_ENUM);
    EXPECT(VX_SUCCESS, vxCopyScalar(policy, &read, VX_READ_ONLY, VX_MEMORY_TYPE_HOST));
    CHECK(read == VX_CONVERT_POLICY_SATURATE);
    EXPECT(VX_SUCCESS, vxReleaseScalar(&policy));
    vx_parameter first = vxGetParameterByIndex(node, 0), third = vxGetParameterByIndex(node, 2);
    EXPECT(VX_ERROR_NOT_SUPPORTED, vxQueryParameter(first, -1, &read, sizeof read));
    EXPECT(VX_ERROR_INVALID_PARAMETERS, vxQueryParameter(first, VX_PARAMETER_REF, NULL, 8));
    EXPECT(VX_SUCCESS, vxRemoveNode(&node));
    EXPECT(VX_SUCCESS, vxQueryParameter(first, VX_PARAMETER_REF, &value, sizeof value));
    CHECK(value == NULL);
    value = (vx_reference)a;
    EXPECT(VX_SUCCESS, vxQueryParameter(third, VX_PARAMETER_REF, &value, sizeof value));
    CHECK(value == NULL);
    EXPECT(VX_ERROR_INVALID_NODE, vxSetParameterByReference(first, (vx_reference)a));
    EXPECT(VX_SUCCESS, vxReleaseParameter(&third));
    EXPECT(VX_SUCCESS, vxReleaseParameter(&first));
    EXPECT(VX_ERROR_INVALID_REFERENCE, vxReleaseParameter(&first));
    CHECK(vxGetParameterByIndex(NULL, 0) == NULL);
}

/* A slot of a delay lives as long as somebody has a reference to it. */
static void read_slots(void) {
    vx_delay delay = vxCreateDelay(context, (vx_reference)a, 2);
    vx_image slot = (vx_image)vxGetReferenceFromDelay(delay, 0);
    vx_node node = vxNotNode(graph, slot, c);
    EXPECT(VX_SUCCESS, vxReleaseDelay(&delay));
    EXPECT(VX_ERROR_INVALID_REFERENCE, STATUS(slot));
    vx_reference value = value_of(node, 0);
    CHECK(value == (vx_reference)slot);
    fill(slot, 5);
    EXPECT(VX_SUCCESS, vxProcessGraph(graph));
    holds(c, 250);
    EXPECT(VX_SUCCESS, vxReleaseReference(&value));
    EXPECT(VX_ERROR_INVALID_REFERENCE, STATUS(slot));
    EXPECT(VX_SUCCESS, vxProcessGraph(graph));
    value = value_of(node, 0);
    EXPECT(VX_SUCCESS, vxRemoveNode(&node));
    fill(slot, 6);
    holds(slot, 6);
    EXPECT(VX_SUCCESS, vxReleaseReference(&value));
}

/* What is refused changes nothing. */
static void refuse_values(vx_node node, vx_scalar policy) {
    const vx_enum none = 0;
    vx_graph other = vxCreateGraph(context);
    vx_image between = vxCreateVirtualImage(other, SIDE, SIDE, VX_DF_IMAGE_U8);
    EXPECT(VX_SUCCESS,
           vxCopyScalar(policy, (void *)&none, VX_WRITE_ONLY, VX_MEMORY_TYPE_HOST));
    EXPECT(VX_ERROR_INVALID_VALUE, vxSetParameterByIndex(node, 2, (vx_reference)policy));
    EXPECT(VX_ERROR_INVALID_TYPE, vxSetParameterByIndex(node, 2, (vx_reference)number));
    EXPECT(VX_ERROR_INVALID_REFERENCE, vxSetParameterByIndex(node, 2, (vx_reference)a));
    EXPECT(VX_ERROR_INVALID_REFERENCE, vxSetParameterByIndex(node, 0, NULL));
    EXPECT(VX_ERROR_INVALID_PARAMETERS, vxSetParameterByIndex(node, 4, (vx_reference)a));
    EXPECT(VX_ERROR_INVALID_SCOPE, vxSetParameterByIndex(node, 3, (vx_reference)between));
    EXPECT(VX_SUCCESS, vxScheduleGraph(graph));
    EXPECT(VX_ERROR_GRAPH_SCHEDULED, vxSetParameterByIndex(node, 0, (vx_reference)b));
    EXPECT(VX_SUCCESS, vxWaitGraph(graph));
}

static void set_values(void) {
    const vx_enum saturate = VX_CONVERT_POLICY_SATURATE;
    vx_node node = vxAddNode(graph, a, b, VX_CONVERT_POLICY_WRAP, c);
    vx_scalar policy = vxCreateScalar(context, VX_TYPE_ENUM, &saturate);
    vx_image d = new_image(VX_DF_IMAGE_U8);
    fill(a, 200);
    fill(b, 100);
    EXPECT(VX_SUCCESS, vxProcessGraph(graph));
    holds(c, 44);
    EXPECT(VX_SUCCESS, vxSetParameterByIndex(node, 2, (vx_reference)policy));
    EXPECT(VX_SUCCESS, vxSetParameterByIndex(node, 3, (vx_reference)d));
    CHECK(!vxIsGraphVerified(graph));
    EXPECT(VX_SUCCESS, vxProcessGraph(graph));
    holds(d, 255);
    holds(c, 44);
    refuse_values(node, policy);
    /* Now the node has the only reference to d. */
    EXPECT(VX_SUCCESS, vxReleaseImage(&d));
    EXPECT(VX_SUCCESS, vxSetParameterByIndex(node, 0, (vx_reference)b));
    d = (vx_image)value_of(node, 3);
    EXPECT(VX_SUCCESS, vxProcessGraph(graph));
    holds(d, 200);
    EXPECT(VX_SUCCESS, vxReleaseImage(&d));
    EXPECT(VX_SUCCESS, vxRemoveNode(&node));
}

static void set_optional_values(void) {
    vx_node node = vxSobel3x3Node(graph, a, s, NULL);
    EXPECT(VX_ERROR_INVALID_PARAMETERS, vxSetParameterByIndex(node, 1, NULL));
    EXPECT(VX_SUCCESS, vxSetParameterByIndex(node, 2, (vx_reference)s));
    EXPECT(VX_ERROR_MULTIPLE_WRITERS, vxVerifyGraph(graph));
    EXPECT(VX_SUCCESS, vxSetParameterByIndex(node, 1, NULL));
    EXPECT(VX_SUCCESS, vxVerifyGraph(graph));
    EXPECT(VX_SUCCESS, vxRemoveNode(&node));
}

/* Two pictures by one graph, which has its first node's input and its last node's output. */
static void use_graph_parameters(void) {
    vx_image between = vxCreateVirtualImage(graph, 0, 0, VX_DF_IMAGE_VIRT);
    vx_node first = vxNotNode(graph, a, between), last = vxAndNode(graph, between, between, b);
    vx_parameter parameters[] = {vxGetParameterByIndex(first, 0), vxGetParameterByIndex(last, 2)};
    vx_uint32 count;
    for (int i = 0; i < 2; i++) {
        EXPECT(VX_SUCCESS, vxAddParameterToGraph(graph, parameters[i]));
        EXPECT(VX_SUCCESS, vxReleaseParameter(&parameters[i]));
    }
    EXPECT(VX_SUCCESS, vxQueryGraph(graph, VX_GRAPH_NUMPARAMETERS, &count, sizeof count));
    CHECK(count == 2);
    fill(a, 9);
    fill(b, 55);
    EXPECT(VX_SUCCESS, vxProcessGraph(graph));
    holds(b, 246);
    EXPECT(VX_SUCCESS, vxSetGraphParameterByIndex(graph, 0, (vx_reference)b));
    EXPECT(VX_SUCCESS, vxSetGraphParameterByIndex(graph, 1, (vx_reference)c));
    EXPECT(VX_SUCCESS, vxProcessGraph(graph));
    holds(c, 9);
    vx_parameter output = vxGetGraphParameterByIndex(graph, 1);
    CHECK(ask(output, VX_PARAMETER_INDEX) == 2);
    vx_reference value;
    EXPECT(VX_SUCCESS, vxQueryParameter(output, VX_PARAMETER_REF, &value, sizeof value));
    CHECK(value == (vx_reference)c);
    EXPECT(VX_SUCCESS, vxReleaseReference(&value));
    EXPECT(VX_ERROR_INVALID_PARAMETERS, STATUS(vxGetGraphParameterByIndex(graph, 2)));
    EXPECT(VX_ERROR_INVALID_PARAMETERS, vxSetGraphParameterByIndex(graph, 2, value));
    CHECK(vxGetGraphParameterByIndex(NULL, 0) == NULL);
    EXPECT(VX_ERROR_INVALID_REFERENCE, vxSetGraphParameterByIndex(NULL, 0, (vx_reference)a));
    EXPECT(VX_ERROR_INVALID_REFERENCE, vxAddParameterToGraph(graph, NULL));
    vx_graph other = vxCreateGraph(context);
    EXPECT(VX_ERROR_INVALID_PARAMETERS, vxAddParameterToGraph(other, output));
    EXPECT(VX_SUCCESS, vxRemoveNode(&last));
    EXPECT(VX_ERROR_INVALID_NODE, vxSetGraphParameterByIndex(graph, 1, (vx_reference)b));
    EXPECT(VX_SUCCESS, vxReleaseGraph(&graph));
    CHECK(ask(output, VX_PARAMETER_DIRECTION) == VX_OUTPUT);
    EXPECT(VX_SUCCESS, vxReleaseParameter(&output));
    EXPECT(VX_SUCCESS, vxReleaseNode(&first));
    EXPECT(VX_SUCCESS, vxReleaseGraph(&other));
}

int main(void) {
    context = vxCreateContext();
    EXPECT(VX_SUCCESS, STATUS(context));
    graph = vxCreateGraph(context);
    a = new_image(VX_DF_IMAGE_U8);
    b = new_image(VX_DF_IMAGE_U8);
    c = new_image(VX_DF_IMAGE_U8);
    s = new_image(VX_DF_IMAGE_S16);
    byte = vxCreateScalar(context, VX_TYPE_UINT8, NULL);
    number = vxCreateScalar(context, VX_TYPE_INT32, NULL);
    list_parameters();
    read_values();
    read_slots();
    set_values();
    set_optional_values();
    use_graph_parameters();
    EXPECT(VX_SUCCESS, vxReleaseContext(&context));
    return 0;
}
