/* A graph that isn't what the program meant is never verified, and the log says which node is at
   fault and why. */
#include "testing.h"

enum { WIDTH = 8, HEIGHT = 6 };

static vx_context context;
static vx_image u8, v8, s16;
static int entries;
static vx_reference about;
static char said[VX_MAX_LOG_MESSAGE_LEN];

static void on_entry(vx_context of, vx_reference ref, vx_status status, const vx_char string[]) {
    CHECK(of == context && status != VX_SUCCESS);
    entries++;
    about = ref;
    snprintf(said, sizeof said, "%s", string);
}

/* A node that couldn't be made: the graph is refused, however it is used. */
static void refuse_holes(void) {
    vx_image error = vxCreateImage(context, WIDTH, HEIGHT, VX_DF_IMAGE_RGB);
    vx_graph graph = vxCreateGraph(context);
    EXPECT(VX_SUCCESS, STATUS(vxNotNode(graph, u8, v8)));
    EXPECT(VX_SUCCESS, vxVerifyGraph(graph));
    SAYS(VX_ERROR_INVALID_REFERENCE, STATUS(vxBox3x3Node(graph, error, v8)),
         "vxBox3x3Node: input is an object that couldn't be made: status -3; see the log entry");
    CHECK(!vxIsGraphVerified(graph) && about == (vx_reference)graph);
    SAYS(VX_ERROR_INVALID_NODE, vxVerifyGraph(graph),
         "a node of the graph couldn't be made: make the graph anew");
    SAYS(VX_ERROR_INVALID_NODE, vxProcessGraph(graph), "a node of the graph couldn't be made");
    SAYS(VX_ERROR_INVALID_NODE, vxScheduleGraph(graph), "a node of the graph couldn't be made");
    vx_enum state;
    EXPECT(VX_SUCCESS, vxQueryGraph(graph, VX_GRAPH_STATE, &state, sizeof state));
    CHECK(state == VX_GRAPH_STATE_UNVERIFIED);
    EXPECT(VX_SUCCESS, vxReleaseGraph(&graph));
}

#define LACKS(words, wrong, call)                                                                  \
    do {                                                                                           \
        vx_graph graph = vxCreateGraph(context);                                                   \
        SAYS(wrong, STATUS(call), words);                                                          \
        EXPECT(VX_ERROR_INVALID_NODE, vxVerifyGraph(graph));                                       \
        EXPECT(VX_SUCCESS, vxReleaseGraph(&graph));                                                \
    } while (0)

static void tell_operands(void) {
    vx_scalar word = vxCreateScalar(context, VX_TYPE_INT16, NULL);
    vx_scalar shift = vxCreateScalar(context, VX_TYPE_INT32, NULL);
    vx_array numbers = vxCreateArray(context, VX_TYPE_UINT8, 4);
    vx_scalar byte = vxCreateScalar(context, VX_TYPE_UINT8, NULL);
    LACKS("vxBox3x3Node: input is NULL, and has to be an image", VX_ERROR_INVALID_REFERENCE,
          vxBox3x3Node(graph, NULL, v8));
    LACKS("vxAddNode: policy is 0x7, and has to be VX_CONVERT_POLICY_WRAP or "
          "VX_CONVERT_POLICY_SATURATE", VX_ERROR_INVALID_VALUE,
          vxAddNode(graph, u8, u8, 7, v8));
    LACKS("vxConvertDepthNode: shift is a scalar of VX_TYPE_INT16, and has to be of VX_TYPE_INT32",
          VX_ERROR_INVALID_TYPE,
          vxConvertDepthNode(graph, u8, s16, VX_CONVERT_POLICY_WRAP, word));
    LACKS("vxTableLookupNode: lut isn't a lookup table: was it released, or ",
          VX_ERROR_INVALID_REFERENCE, vxTableLookupNode(graph, u8, (vx_lut)shift, v8));
    LACKS("vxMinMaxLocNode: minLoc is an array of VX_TYPE_UINT8, and has to be of "
          "VX_TYPE_COORDINATES2D", VX_ERROR_INVALID_TYPE,
          vxMinMaxLocNode(graph, u8, byte, byte, numbers, NULL, NULL, NULL));
    LACKS("vxMagnitudeNode: the server has no such function", VX_ERROR_NOT_SUPPORTED,
          vxMagnitudeNode(graph, s16, s16, s16));
    SAYS(VX_ERROR_NOT_SUPPORTED, vxuMagnitude(context, s16, s16, s16), "vxuMagnitude: ");
    vx_pyramid pyramid;
    SAYS(VX_ERROR_NOT_SUPPORTED,
         STATUS(pyramid = vxCreatePyramid(context, 3, 0.5f, 8, 8, VX_DF_IMAGE_U8)),
         "vxCreatePyramid: ");
    EXPECT(VX_ERROR_INVALID_REFERENCE, vxReleasePyramid(&pyramid));
    EXPECT(VX_ERROR_INVALID_REFERENCE, vxuMagnitude(NULL, s16, s16, s16));
    CHECK(vxMagnitudeNode(NULL, s16, s16, s16) == NULL);
}

static void tell_kernels(void) {
    vx_context other = vxCreateContext();
    vx_kernel phase = vxGetKernelByEnum(context, VX_KERNEL_PHASE);
    vx_kernel foreign = vxGetKernelByEnum(other, VX_KERNEL_NOT);
    vx_kernel gone = vxGetKernelByEnum(context, VX_KERNEL_NOT), released = gone;
    EXPECT(VX_SUCCESS, vxReleaseKernel(&gone));
    EXPECT(VX_ERROR_NOT_SUPPORTED, STATUS(phase));
    LACKS("vxCreateGenericNode: kernel isn't a kernel", VX_ERROR_INVALID_REFERENCE,
          vxCreateGenericNode(graph, phase));
    LACKS("vxCreateGenericNode: kernel isn't a kernel", VX_ERROR_INVALID_REFERENCE,
          vxCreateGenericNode(graph, NULL));
    LACKS("vxCreateGenericNode: kernel isn't a kernel", VX_ERROR_INVALID_REFERENCE,
          vxCreateGenericNode(graph, released));
    LACKS("vxCreateGenericNode: kernel isn't a kernel", VX_ERROR_INVALID_REFERENCE,
          vxCreateGenericNode(graph, (vx_kernel)u8));
    LACKS("vxCreateGenericNode: kernel belongs to another context", VX_ERROR_INVALID_SCOPE,
          vxCreateGenericNode(graph, foreign));
    EXPECT(VX_SUCCESS, vxReleaseContext(&other));
}

static void tell_numbers(void) {
    const vx_float32 third = 1.0f / 3;
    vx_pixel_value_t lower = {.U8 = 9}, upper = {.U8 = 8};
    vx_threshold range = vxCreateThresholdForImage(context, VX_THRESHOLD_TYPE_RANGE,
                                                   VX_DF_IMAGE_U8, VX_DF_IMAGE_U8);
    vx_scalar scale = vxCreateScalar(context, VX_TYPE_FLOAT32, &third);
    vx_graph graph = vxCreateGraph(context);
    EXPECT(VX_SUCCESS,
           vxCopyThresholdRange(range, &lower, &upper, VX_WRITE_ONLY, VX_MEMORY_TYPE_HOST));
    SAYS(VX_ERROR_INVALID_VALUE, vxuThreshold(context, u8, range, v8),
         "vxuThreshold: thresh has an upper limit of 8, below its lower one of 9: set both anew");
    vx_node node = vxMultiplyNode(graph, u8, u8, scale, VX_CONVERT_POLICY_WRAP,
                                  VX_ROUND_POLICY_TO_ZERO, v8);
    EXPECT(VX_SUCCESS, STATUS(node));
    SAYS(VX_ERROR_NOT_SUPPORTED, vxVerifyGraph(graph),
         "node 0 (vxMultiplyNode): scale is 0.333333343, and has to be 1 / 2^n with n from 0 to "
         "15");
    SAYS(VX_ERROR_INVALID_TYPE, vxSetParameterByIndex(node, 3, (vx_reference)scale),
         "node 0 (vxMultiplyNode): overflow_policy is a scalar of VX_TYPE_FLOAT32, and has to be "
         "of VX_TYPE_ENUM");
    EXPECT(VX_SUCCESS, vxReleaseGraph(&graph));
}

/* A graph with more nodes, or with larger virtual images, than the server allows. */
static void tell_limits(void) {
    vx_graph graph = vxCreateGraph(context), large = vxCreateGraph(context);
    vx_image input = vxCreateImage(context, 8192, 4096, VX_DF_IMAGE_U8);
    for (int i = 0; i < 257; i++)
        EXPECT(VX_SUCCESS, STATUS(vxHistogramNode(
                               graph, u8, vxCreateDistribution(context, 8, 0, 256))));
    SAYS(VX_ERROR_NO_RESOURCES, vxVerifyGraph(graph),
         "the server refused AddNode: NO_RESOURCES: a graph has at most 256 nodes; make a second");
    for (int i = 0; i < 9; i++)
        EXPECT(VX_SUCCESS, STATUS(vxNotNode(
                               large, input, vxCreateVirtualImage(large, 0, 0, VX_DF_IMAGE_VIRT))));
    SAYS(VX_ERROR_NO_RESOURCES, vxVerifyGraph(large),
         "the server refused the graph: NO_RESOURCES: its virtual images have too many bytes");
    EXPECT(VX_SUCCESS, vxReleaseGraph(&graph));
    EXPECT(VX_SUCCESS, vxReleaseGraph(&large));
    EXPECT(VX_SUCCESS, vxReleaseImage(&input));
}

static vx_status status_of(vx_node node) {
    vx_status status;
    EXPECT(VX_SUCCESS, vxQueryNode(node, VX_NODE_STATUS, &status, sizeof status));
    return status;
}

/* What is made of an object that couldn't be made has its status. */
static void pass_errors(void) {
    vx_graph error = (vx_graph)vxCreateImage(context, WIDTH, HEIGHT, VX_DF_IMAGE_RGB);
    EXPECT(VX_ERROR_NOT_SUPPORTED, STATUS(vxNotNode(error, u8, v8)));
    EXPECT(VX_ERROR_NOT_SUPPORTED, STATUS(vxPhaseNode(error, s16, s16, u8)));
    EXPECT(VX_ERROR_NOT_SUPPORTED, STATUS(vxCreateVirtualImage(error, 0, 0, VX_DF_IMAGE_VIRT)));
    EXPECT(VX_ERROR_NOT_SUPPORTED, STATUS(vxGetGraphParameterByIndex(error, 0)));
    EXPECT(VX_ERROR_NOT_SUPPORTED, STATUS(vxGetParameterByIndex((vx_node)error, 0)));
    EXPECT(VX_ERROR_NOT_SUPPORTED, STATUS(vxGetKernelParameterByIndex((vx_kernel)error, 0)));
    EXPECT(VX_ERROR_NOT_SUPPORTED, STATUS(vxGetReferenceFromDelay((vx_delay)error, 0)));
    EXPECT(VX_ERROR_INVALID_REFERENCE, vxVerifyGraph(error));
}

/* The verdict is about the fourth of five nodes, and nothing is wrong with it once it is gone. */
static void tell_nodes(void) {
    vx_node nodes[5];
    vx_graph graph = vxCreateGraph(context);
    vx_image last = u8;
    for (int i = 0; i < 5; i++) {
        vx_image next = vxCreateVirtualImage(graph, 0, 0, VX_DF_IMAGE_VIRT);
        nodes[i] = i == 2 ? vxSobel3x3Node(graph, last, next, NULL)
                          : vxBox3x3Node(graph, last, next);
        last = next;
    }
    EXPECT(VX_SUCCESS, vxSetReferenceName((vx_reference)nodes[3], "smooth"));
    SAYS(VX_ERROR_INVALID_FORMAT, vxVerifyGraph(graph),
         "node 3 (vxBox3x3Node, \"smooth\"): the formats have to be U8 to U8: input is S16, 8 x 6; "
         "output is U8, 8 x 6");
    CHECK(about == (vx_reference)nodes[3]);
    CHECK(status_of(nodes[3]) == VX_ERROR_INVALID_FORMAT && status_of(nodes[2]) == VX_SUCCESS);
    EXPECT(VX_SUCCESS, vxRemoveNode(&nodes[4]));
    EXPECT(VX_SUCCESS, vxRemoveNode(&nodes[3]));
    EXPECT(VX_SUCCESS, vxVerifyGraph(graph));
    EXPECT(VX_SUCCESS, vxReleaseGraph(&graph));
}

static void tell_links(void) {
    vx_graph graph = vxCreateGraph(context);
    vx_image between = vxCreateVirtualImage(graph, 0, 0, VX_DF_IMAGE_VIRT);
    vx_image other = vxCreateVirtualImage(graph, 4, 4, VX_DF_IMAGE_U8);
    vx_node first = vxNotNode(graph, between, v8);
    SAYS(VX_ERROR_INVALID_LINK, vxVerifyGraph(graph),
         "node 0 (vxNotNode): input is a virtual image that no node writes: add the node that "
         "does");
    vx_node second = vxNotNode(graph, v8, between);
    SAYS(VX_ERROR_INVALID_GRAPH, vxVerifyGraph(graph),
         "node 0 (vxNotNode): it reads, directly or through other nodes, what it writes: remove a "
         "node of this cycle");
    vx_node third = vxNotNode(graph, u8, v8);
    SAYS(VX_ERROR_MULTIPLE_WRITERS, vxVerifyGraph(graph),
         "node 0 (vxNotNode) writes output, which node 2 (vxNotNode) writes too: give each an "
         "output of its own");
    CHECK(status_of(third) == VX_ERROR_MULTIPLE_WRITERS);
    EXPECT(VX_SUCCESS, vxRemoveNode(&first));
    EXPECT(VX_SUCCESS, vxRemoveNode(&second));
    first = vxNotNode(graph, v8, other);
    SAYS(VX_ERROR_INVALID_DIMENSION, vxVerifyGraph(graph),
         "node 1 (vxNotNode): the images have to be of one size: input is U8, 8 x 6; output is U8, "
         "4 x 4");
    EXPECT(VX_SUCCESS, vxReleaseGraph(&graph));
}

/* The server looks at nodes in another order than the library, once one was sent anew. */
static void tell_the_node_of_the_status(void) {
    const vx_border_t border = {.mode = VX_BORDER_REPLICATE};
    vx_image small = vxCreateImage(context, 4, 4, VX_DF_IMAGE_U8);
    vx_graph graph = vxCreateGraph(context);
    vx_node first = vxBox3x3Node(graph, u8, small), second = vxNotNode(graph, u8, s16);
    SAYS(VX_ERROR_INVALID_DIMENSION, vxVerifyGraph(graph),
         "node 0 (vxBox3x3Node): the images have to be of one size");
    EXPECT(VX_SUCCESS, vxSetNodeAttribute(first, VX_NODE_BORDER, &border, sizeof border));
    SAYS(VX_ERROR_INVALID_FORMAT, vxVerifyGraph(graph),
         "node 1 (vxNotNode): the formats have to be U8 to U8");
    CHECK(status_of(second) == VX_ERROR_INVALID_FORMAT);
    EXPECT(VX_SUCCESS, vxReleaseGraph(&graph));
    EXPECT(VX_SUCCESS, vxReleaseImage(&small));
}

/* An image whose format is open gets it from the node that writes it. */
static void tell_extremes_of_open_images(void) {
    vx_scalar bytes[] = {vxCreateScalar(context, VX_TYPE_UINT8, NULL),
                         vxCreateScalar(context, VX_TYPE_UINT8, NULL)};
    vx_scalar words[] = {vxCreateScalar(context, VX_TYPE_INT16, NULL),
                         vxCreateScalar(context, VX_TYPE_INT16, NULL)};
    vx_graph graph = vxCreateGraph(context);
    vx_image open = vxCreateVirtualImage(graph, 0, 0, VX_DF_IMAGE_VIRT);
    EXPECT(VX_SUCCESS, STATUS(vxSubtractNode(graph, u8, u8, VX_CONVERT_POLICY_WRAP, open)));
    vx_node node = vxMinMaxLocNode(graph, open, bytes[0], words[1], NULL, NULL, NULL, NULL);
    SAYS(VX_ERROR_INVALID_TYPE, vxVerifyGraph(graph),
         "node 1 (vxMinMaxLocNode): minVal is a scalar of VX_TYPE_UINT8, and has to be of "
         "VX_TYPE_INT16");
    SAYS(VX_ERROR_INVALID_TYPE, vxProcessGraph(graph),
         "node 1 (vxMinMaxLocNode): minVal is a scalar");
    CHECK(status_of(node) == VX_ERROR_INVALID_TYPE);
    EXPECT(VX_SUCCESS, vxSetParameterByIndex(node, 1, (vx_reference)words[0]));
    EXPECT(VX_SUCCESS, vxProcessGraph(graph));
    EXPECT(VX_SUCCESS, vxSetParameterByIndex(node, 2, (vx_reference)bytes[1]));
    SAYS(VX_ERROR_INVALID_TYPE, vxScheduleGraph(graph),
         "node 1 (vxMinMaxLocNode): maxVal is a scalar");
    EXPECT(VX_SUCCESS, vxReleaseGraph(&graph));
}

/* Scalars and arrays are data of a graph too. */
static void refuse_two_writers(void) {
    vx_scalar one = vxCreateScalar(context, VX_TYPE_UINT8, NULL);
    vx_scalar two = vxCreateScalar(context, VX_TYPE_UINT8, NULL);
    vx_scalar three = vxCreateScalar(context, VX_TYPE_UINT8, NULL);
    vx_array places = vxCreateArray(context, VX_TYPE_COORDINATES2D, 1);
    vx_graph graph = vxCreateGraph(context);
    vx_node node = vxMinMaxLocNode(graph, u8, one, one, NULL, NULL, NULL, NULL);
    SAYS(VX_ERROR_MULTIPLE_WRITERS, vxVerifyGraph(graph),
         "node 0 (vxMinMaxLocNode) writes minVal, which node 0 (vxMinMaxLocNode) writes too: give "
         "each an output of its own");
    EXPECT(VX_SUCCESS, vxSetParameterByIndex(node, 2, (vx_reference)two));
    EXPECT(VX_SUCCESS, vxSetParameterByIndex(node, 3, (vx_reference)places));
    EXPECT(VX_SUCCESS, vxVerifyGraph(graph));
    vx_node other = vxMinMaxLocNode(graph, v8, three, two, NULL, NULL, NULL, NULL);
    SAYS(VX_ERROR_MULTIPLE_WRITERS, vxProcessGraph(graph),
         "node 0 (vxMinMaxLocNode) writes maxVal");
    EXPECT(VX_SUCCESS, vxSetParameterByIndex(node, 2, (vx_reference)one));
    EXPECT(VX_ERROR_MULTIPLE_WRITERS, vxVerifyGraph(graph));
    EXPECT(VX_SUCCESS, vxRemoveNode(&other));
    EXPECT(VX_ERROR_MULTIPLE_WRITERS, vxVerifyGraph(graph));
    EXPECT(VX_SUCCESS, vxReleaseGraph(&graph));
}

/* How many parameters of a node of a kernel take a scalar of a type, and have the direction. */
static int count_takers(vx_kernel kernel, vx_enum type, vx_enum direction) {
    vx_graph graph = vxCreateGraph(context);
    vx_node node = vxCreateGenericNode(graph, kernel);
    vx_scalar scalar = vxCreateScalar(context, type, NULL);
    vx_uint32 parameters;
    int count = 0;
    EXPECT(VX_SUCCESS, vxQueryKernel(kernel, VX_KERNEL_PARAMETERS, &parameters, sizeof parameters));
    for (vx_uint32 place = 0; place < parameters; place++) {
        vx_enum is;
        vx_parameter parameter = vxGetParameterByIndex(node, place);
        EXPECT(VX_SUCCESS, vxQueryParameter(parameter, VX_PARAMETER_DIRECTION, &is, sizeof is));
        EXPECT(VX_SUCCESS, vxReleaseParameter(&parameter));
        count += is == direction &&
                 vxSetParameterByIndex(node, place, (vx_reference)scalar) == VX_SUCCESS;
    }
    EXPECT(VX_SUCCESS, vxReleaseGraph(&graph));
    EXPECT(VX_SUCCESS, vxReleaseNode(&node));
    EXPECT(VX_SUCCESS, vxReleaseScalar(&scalar));
    return count;
}

/* links.c has the one kind of link that there is: of all types of scalars, one is both written by a
   node and read by one, by MinMaxLoc's counts and as the shift of AccumulateSquareImage. */
static void find_links_by_scalars(void) {
    static const vx_enum types[] = {VX_TYPE_CHAR,    VX_TYPE_INT8,    VX_TYPE_UINT8,
                                    VX_TYPE_INT16,   VX_TYPE_UINT16,  VX_TYPE_INT32,
                                    VX_TYPE_UINT32,  VX_TYPE_INT64,   VX_TYPE_UINT64,
                                    VX_TYPE_FLOAT32, VX_TYPE_FLOAT64, VX_TYPE_ENUM,
                                    VX_TYPE_SIZE,    VX_TYPE_BOOL,    VX_TYPE_DF_IMAGE};
    for (size_t i = 0; i < sizeof types / sizeof types[0]; i++) {
        int writers = 0, readers = 0;
        for (vx_enum kernel = VX_KERNEL_COLOR_CONVERT; kernel <= VX_KERNEL_MIN; kernel++) {
            vx_kernel found = vxGetKernelByEnum(context, kernel);
            if (STATUS(found) != VX_SUCCESS)
                continue;
            writers += count_takers(found, types[i], VX_OUTPUT);
            readers += count_takers(found, types[i], VX_INPUT);
            EXPECT(VX_SUCCESS, vxReleaseKernel(&found));
        }
        if (types[i] == VX_TYPE_UINT32)
            CHECK(writers == 2 && readers == 1);
        else
            CHECK(writers == 0 || readers == 0);
    }
}

/* What a virtual image's graph found out of it. */
static void ask_virtual_images(void) {
    vx_uint32 width, height;
    vx_df_image format;
    vx_graph graph = vxCreateGraph(context);
    vx_image first = vxCreateVirtualImage(graph, 0, 0, VX_DF_IMAGE_VIRT);
    vx_image second = vxCreateVirtualImage(graph, 0, HEIGHT, VX_DF_IMAGE_VIRT);
    vx_image third = vxCreateVirtualImage(graph, 0, 0, VX_DF_IMAGE_VIRT);
    EXPECT(VX_SUCCESS, STATUS(vxIntegralImageNode(graph, second, third)));
    EXPECT(VX_SUCCESS, STATUS(vxConvertDepthNode(graph, first, second, VX_CONVERT_POLICY_WRAP,
                                                 vxCreateScalar(context, VX_TYPE_INT32, NULL))));
    EXPECT(VX_SUCCESS, STATUS(vxSobel3x3Node(graph, u8, first, NULL)));
    EXPECT(VX_SUCCESS, vxQueryImage(second, VX_IMAGE_WIDTH, &width, sizeof width));
    CHECK(width == 0);
    EXPECT(VX_SUCCESS, vxVerifyGraph(graph));
    EXPECT(VX_SUCCESS, vxQueryImage(second, VX_IMAGE_WIDTH, &width, sizeof width));
    EXPECT(VX_SUCCESS, vxQueryImage(third, VX_IMAGE_HEIGHT, &height, sizeof height));
    CHECK(width == WIDTH && height == HEIGHT);
    EXPECT(VX_SUCCESS, vxQueryImage(first, VX_IMAGE_FORMAT, &format, sizeof format));
    CHECK(format == VX_DF_IMAGE_S16);
    EXPECT(VX_SUCCESS, vxQueryImage(second, VX_IMAGE_FORMAT, &format, sizeof format));
    CHECK(format == VX_DF_IMAGE_U8);
    EXPECT(VX_SUCCESS, vxQueryImage(third, VX_IMAGE_FORMAT, &format, sizeof format));
    CHECK(format == VX_DF_IMAGE_U32);
    EXPECT(VX_SUCCESS, vxReleaseGraph(&graph));
}

/* Nodes of kernels, whose parameters are set one by one. */
static void make_of_kernels(void) {
    const vx_enum wrap = VX_CONVERT_POLICY_WRAP;
    vx_scalar policy = vxCreateScalar(context, VX_TYPE_ENUM, &wrap);
    vx_graph graph = vxCreateGraph(context);
    vx_kernel add = vxGetKernelByName(context, "org.khronos.openvx.add");
    vx_uint32 count;
    vx_enum number;
    vx_char name[VX_MAX_KERNEL_NAME];
    EXPECT(VX_SUCCESS, vxQueryKernel(add, VX_KERNEL_PARAMETERS, &count, sizeof count));
    EXPECT(VX_SUCCESS, vxQueryKernel(add, VX_KERNEL_ENUM, &number, sizeof number));
    EXPECT(VX_SUCCESS, vxQueryKernel(add, VX_KERNEL_NAME, name, sizeof name));
    CHECK(count == 4 && number == VX_KERNEL_ADD && strcmp(name, "org.khronos.openvx.add") == 0);
    vx_node node = vxCreateGenericNode(graph, add);
    EXPECT(VX_SUCCESS, STATUS(node));
    SAYS(VX_ERROR_NOT_SUFFICIENT, vxVerifyGraph(graph),
         "node 0 (vxAddNode): in1 wasn't set: set parameter 0");
    EXPECT(VX_SUCCESS, vxSetParameterByIndex(node, 0, (vx_reference)u8));
    EXPECT(VX_SUCCESS, vxSetParameterByIndex(node, 1, (vx_reference)u8));
    EXPECT(VX_SUCCESS, vxSetParameterByIndex(node, 3, (vx_reference)v8));
    SAYS(VX_ERROR_NOT_SUFFICIENT, vxVerifyGraph(graph),
         "node 0 (vxAddNode): policy wasn't set: set parameter 2");
    EXPECT(VX_SUCCESS, vxSetParameterByIndex(node, 2, (vx_reference)policy));
    EXPECT(VX_SUCCESS, vxProcessGraph(graph));
    vx_parameter parameter = vxGetKernelParameterByIndex(add, 3);
    vx_enum direction;
    EXPECT(VX_SUCCESS, vxQueryParameter(parameter, VX_PARAMETER_DIRECTION, &direction,
                                        sizeof direction));
    CHECK(direction == VX_OUTPUT);
    EXPECT(VX_ERROR_INVALID_NODE, vxSetParameterByReference(parameter, (vx_reference)v8));
    EXPECT(VX_SUCCESS, vxReleaseParameter(&parameter));
    EXPECT(VX_ERROR_INVALID_PARAMETERS, STATUS(vxGetKernelParameterByIndex(add, 4)));
    EXPECT(VX_SUCCESS, vxReleaseKernel(&add));
    EXPECT(VX_ERROR_NOT_SUPPORTED, STATUS(vxGetKernelByName(context, "org.khronos.openvx.phase")));
    EXPECT(VX_SUCCESS, vxReleaseGraph(&graph));
}

int main(void) {
    context = vxCreateContext();
    EXPECT(VX_SUCCESS, STATUS(context));
    vxRegisterLogCallback(context, on_entry, vx_false_e);
    u8 = vxCreateImage(context, WIDTH, HEIGHT, VX_DF_IMAGE_U8);
    v8 = vxCreateImage(context, WIDTH, HEIGHT, VX_DF_IMAGE_U8);
    s16 = vxCreateImage(context, WIDTH, HEIGHT, VX_DF_IMAGE_S16);
    refuse_holes();
    tell_operands();
    tell_kernels();
    tell_numbers();
    tell_limits();
    pass_errors();
    tell_nodes();
    tell_links();
    tell_the_node_of_the_status();
    tell_extremes_of_open_images();
    refuse_two_writers();
    find_links_by_scalars();
    ask_virtual_images();
    make_of_kernels();
    EXPECT(VX_SUCCESS, vxReleaseContext(&context));
    return 0;
}
