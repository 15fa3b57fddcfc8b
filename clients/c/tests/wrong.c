/* Random calls with wrong arguments, references that are NULL, were released or are of another
   context among them: each ends in a status, and a right call does what it should after them. What
   is printed is how many calls ended in each status. Words of the command line are another number
   of sequences and another seed. */
#include "testing.h"

enum { SEQUENCES = 1000, CALLS = 25, POOL = 48 };

static vx_context contexts[2];
static vx_reference pool[POOL];
static vx_uint32 state = 7;

static vx_uint32 below(vx_uint32 bound) { return next_number(&state) % bound; }

/* One of the pool, or now and then what never was a reference. */
static vx_reference any(void) {
    return below(40) == 0 ? (vx_reference)(void *)&state : pool[below(POOL)];
}

/* Mostly a live object of a type, where the pool has one. */
static vx_reference some(vx_enum type) {
    vx_uint32 first = below(POOL);
    vx_enum found;
    if (below(8) == 0)
        return any();
    for (vx_uint32 i = 0; i < POOL; i++) {
        vx_reference reference = pool[(first + i) % POOL];
        if (vxQueryReference(reference, VX_REFERENCE_TYPE, &found, sizeof found) == VX_SUCCESS &&
            found == type)
            return reference;
    }
    return any();
}

static vx_image image(void) { return (vx_image)some(VX_TYPE_IMAGE); }
static vx_graph graph(void) { return (vx_graph)some(VX_TYPE_GRAPH); }
static vx_node node(void) { return (vx_node)some(VX_TYPE_NODE); }
static vx_delay delay(void) { return (vx_delay)some(VX_TYPE_DELAY); }
static vx_lut lut(void) { return (vx_lut)some(VX_TYPE_LUT); }
static vx_scalar scalar(void) { return (vx_scalar)some(VX_TYPE_SCALAR); }
static vx_array array(void) { return (vx_array)some(VX_TYPE_ARRAY); }
static vx_parameter parameter(void) { return (vx_parameter)some(VX_TYPE_PARAMETER); }
static vx_threshold threshold(void) { return (vx_threshold)some(VX_TYPE_THRESHOLD); }
static vx_convolution convolution(void) { return (vx_convolution)some(VX_TYPE_CONVOLUTION); }
static vx_kernel kernel(void) { return (vx_kernel)some(VX_TYPE_KERNEL); }
static vx_distribution distribution(void) { return (vx_distribution)some(VX_TYPE_DISTRIBUTION); }

static vx_enum any_enum(void) {
    static const vx_enum values[] = {VX_READ_ONLY,
                                     VX_WRITE_ONLY,
                                     VX_READ_AND_WRITE,
                                     VX_MEMORY_TYPE_HOST,
                                     VX_CONVERT_POLICY_WRAP,
                                     VX_THRESHOLD_TYPE_RANGE,
                                     VX_TYPE_UINT8,
                                     VX_TYPE_INT16,
                                     VX_TYPE_UINT32,
                                     VX_TYPE_COORDINATES2D,
                                     VX_NODE_BORDER,
                                     VX_IMAGE_WIDTH,
                                     -1,
                                     0};
    return values[below(sizeof values / sizeof *values)];
}

static vx_df_image any_format(void) {
    static const vx_df_image values[] = {VX_DF_IMAGE_U8, VX_DF_IMAGE_S16, VX_DF_IMAGE_U32,
                                         VX_DF_IMAGE_VIRT, VX_DF_IMAGE_RGB, 0};
    return values[below(6)];
}

/* Memory of the program that images and items are in. */
static vx_uint8 memory[1 << 18];

static vx_reference make_of_memory(vx_context context) {
    const vx_imagepatch_addressing_t addr = by_rows(below(5), below(5), (int)below(3));
    void *planes[] = {below(5) ? memory : NULL};
    vx_pixel_value_t value = {.U8 = 4};
    switch (below(5)) {
    case 0:
        return (vx_reference)vxCreateUniformImage(context, below(4), below(4), any_format(),
                                                  below(9) ? &value : NULL);
    case 1:
        return (vx_reference)vxGetKernelByEnum(context, (vx_enum)below(70));
    case 2:
        return (vx_reference)vxGetKernelByName(context, below(9) ? "org.khronos.openvx.not"
                                                                 : NULL);
    case 3:
        return (vx_reference)vxCreateScalarWithSize(context, any_enum(), memory, below(9));
    default:
        return (vx_reference)vxCreateImageFromHandle(context, any_format(), &addr, planes,
                                                     below(9) ? VX_MEMORY_TYPE_HOST : any_enum());
    }
}

/* A new object, or what isn't one, in a place of the pool. */
static vx_reference make_any(vx_context context) {
    switch (below(14)) {
    case 11:
    case 12:
    case 13:
        return make_of_memory(context);
    case 0:
    case 1:
        return (vx_reference)vxCreateImage(context, below(4), below(4), any_format());
    case 2:
        return (vx_reference)vxCreateVirtualImage(graph(), below(4), below(4), any_format());
    case 3:
        return (vx_reference)vxCreateGraph(context);
    case 4:
        return (vx_reference)vxCreateThresholdForImage(context, any_enum(), any_format(),
                                                       VX_DF_IMAGE_U8);
    case 5:
        return (vx_reference)vxCreateLUT(context, any_enum(), 256);
    case 6:
        return (vx_reference)vxCreateConvolution(context, below(10), 3);
    case 7:
        return (vx_reference)vxCreateDistribution(context, below(300), (vx_int32)below(300) - 5,
                                                  below(300));
    case 8:
        return (vx_reference)vxCreateScalar(context, any_enum(), NULL);
    case 9:
        return (vx_reference)vxCreateDelay(context, any(), below(18));
    default:
        return (vx_reference)vxCreateArray(context, any_enum(), below(3));
    }
}

/* A node of a function that takes images alone. */
static vx_node make_node_of_images(vx_graph to, vx_image in, vx_image in2, vx_image out) {
    static vx_node (*const of_two[])(vx_graph, vx_image, vx_image) = {
        vxNotNode,      vxBox3x3Node,    vxGaussian3x3Node,  vxMedian3x3Node,
        vxErode3x3Node, vxDilate3x3Node, vxIntegralImageNode, vxAccumulateImageNode};
    static vx_node (*const of_three[])(vx_graph, vx_image, vx_image, vx_image) = {
        vxAndNode, vxOrNode, vxXorNode, vxAbsDiffNode, vxMinNode, vxMaxNode, vxSobel3x3Node};
    return below(2) ? of_two[below(8)](to, in, out) : of_three[below(7)](to, in, in2, out);
}

static vx_node make_node(void) {
    vx_graph to = graph();
    vx_image in = image(), in2 = image(), out = image();
    switch (below(15)) {
    case 13:
        return vxCreateGenericNode(to, kernel());
    case 14:
        return below(8) ? vxNotNode(to, in, out) : vxPhaseNode(to, in, in2, out);
    case 0:
        return vxAddNode(to, in, in2, any_enum(), out);
    case 1:
        return vxThresholdNode(to, in, threshold(), out);
    case 2:
        return vxTableLookupNode(to, in, lut(), out);
    case 3:
        return vxSubtractNode(to, in, in2, any_enum(), out);
    case 4:
        return vxConvolveNode(to, in, convolution(), out);
    case 5:
        return vxHistogramNode(to, in, distribution());
    case 6:
        return vxMinMaxLocNode(to, in, scalar(), scalar(), array(),
                               NULL, NULL, scalar());
    case 7:
        return vxMultiplyNode(to, in, in2, scalar(), any_enum(), any_enum(), out);
    case 8:
        return vxConvertDepthNode(to, in, out, any_enum(), scalar());
    case 9:
        return vxAccumulateSquareImageNode(to, in, scalar(), out);
    default:
        return make_node_of_images(to, in, in2, out);
    }
}

/* A reference that another object has. */
static vx_reference get_any(void) {
    switch (below(3)) {
    case 0:
        return vxGetReferenceFromDelay(delay(), (vx_int32)below(5) - 3);
    case 1:
        return (vx_reference)vxGetParameterByIndex(node(), below(4));
    default:
        return (vx_reference)vxGetGraphParameterByIndex(graph(), below(2));
    }
}

/* What is mapped but images, and what else changes objects. */
static vx_status use_more(void) {
    vx_map_id map = below(3);
    vx_size stride;
    void *where = below(9) ? memory : NULL;
    const vx_pixel_value_t value = {.U8 = 4};
    switch (below(12)) {
    case 0:
        return vxMapLUT(lut(), &map, &where, any_enum(), VX_MEMORY_TYPE_HOST, 0);
    case 1:
        return vxUnmapLUT(lut(), map);
    case 2:
        return vxMapDistribution(distribution(), &map, &where, any_enum(), VX_MEMORY_TYPE_HOST, 0);
    case 3:
        return vxUnmapDistribution(distribution(), map);
    case 4:
        return vxAddArrayItems(array(), below(4), memory, below(40));
    case 5:
        return vxMapArrayRange(array(), below(3), below(3), &map, &stride, &where, any_enum(),
                               VX_MEMORY_TYPE_HOST, 0);
    case 6:
        return vxUnmapArrayRange(array(), map);
    case 7:
        return vxSetImagePixelValues(image(), &value);
    case 8:
        return vxSwapImageHandle(image(), &where, NULL, below(3));
    case 9:
        return vxSetReferenceName(any(), below(2) ? NULL : "some");
    case 10:
        return vxTruncateArray(array(), below(3));
    default:
        return vxHint(any(), any_enum(), NULL, 0);
    }
}

static vx_status use_object(void) {
    vx_rectangle_t rect = {below(3), below(3), below(9), below(9)};
    const vx_imagepatch_addressing_t addr = by_rows(below(9), below(9), (int)below(5));
    vx_imagepatch_addressing_t mapped;
    vx_map_id map = below(3);
    void *where;
    switch (below(15)) {
    case 0:
        return vxCopyImagePatch(image(), below(9) ? &rect : NULL, 0, &addr, memory,
                                any_enum(), VX_MEMORY_TYPE_HOST);
    case 1:
        return vxMapImagePatch(image(), &rect, 0, &map, &mapped, &where, any_enum(),
                               VX_MEMORY_TYPE_HOST, 0);
    case 2:
        return vxUnmapImagePatch(image(), map);
    case 3:
        return vxSetImageValidRectangle(image(), &rect);
    case 4:
        return vxGetValidRegionImage(image(), &rect);
    case 5:
        return vxVerifyGraph(graph());
    case 6:
        return vxProcessGraph(graph());
    case 7:
        return vxScheduleGraph(graph());
    case 8:
        return vxWaitGraph(graph());
    case 9:
        return vxAgeDelay(delay());
    case 13:
        return vxRegisterAutoAging(graph(), delay());
    case 10:
        return vxSetNodeAttribute(node(), any_enum(), memory, sizeof(vx_border_t));
    case 11:
        return vxCopyLUT(lut(), memory, any_enum(), VX_MEMORY_TYPE_HOST);
    case 12:
        return vxQueryReference(any(), VX_REFERENCE_TYPE, memory, below(9));
    default:
        return vxCopyScalar(scalar(), memory, any_enum(), VX_MEMORY_TYPE_HOST);
    }
}

static vx_status use_parameter(void) {
    vx_reference value = NULL;
    switch (below(4)) {
    case 0:
        return vxSetParameterByIndex(node(), below(5), any());
    case 1:
        return vxAddParameterToGraph(graph(), parameter());
    case 2:
        return vxSetGraphParameterByIndex(graph(), below(2), any());
    default:
        if (vxQueryParameter(parameter(), VX_PARAMETER_REF, &value, sizeof value) ==
            VX_SUCCESS)
            pool[2 + below(POOL - 2)] = value;
        return VX_SUCCESS;
    }
}

/* Any attribute of any object, of a size that may be another. */
static vx_status query_any(void) {
    vx_uint8 value[VX_MAX_IMPLEMENTATION_NAME];
    const vx_size sizes[] = {1, 4, 8, sizeof(vx_border_t), sizeof value};
    const vx_size size = sizes[below(5)];
    const vx_enum type = VX_TYPE_REFERENCE + (vx_enum)below(16);
    const vx_enum attribute = VX_ATTRIBUTE_BASE(VX_ID_KHRONOS, type) + (vx_enum)below(11);
    vx_reference object = some(type);
    switch (type) {
    case VX_TYPE_KERNEL:
        return vxQueryKernel((vx_kernel)object, attribute, value, size);
    case VX_TYPE_CONTEXT:
        return vxQueryContext((vx_context)object, attribute, value, size);
    case VX_TYPE_GRAPH:
        return vxQueryGraph((vx_graph)object, attribute, value, size);
    case VX_TYPE_NODE:
        return vxQueryNode((vx_node)object, attribute, value, size);
    case VX_TYPE_DELAY:
        return vxQueryDelay((vx_delay)object, attribute, value, size);
    case VX_TYPE_LUT:
        return vxQueryLUT((vx_lut)object, attribute, value, size);
    case VX_TYPE_DISTRIBUTION:
        return vxQueryDistribution((vx_distribution)object, attribute, value, size);
    case VX_TYPE_THRESHOLD:
        return vxQueryThreshold((vx_threshold)object, attribute, value, size);
    case VX_TYPE_CONVOLUTION:
        return vxQueryConvolution((vx_convolution)object, attribute, value, size);
    case VX_TYPE_SCALAR:
        return vxQueryScalar((vx_scalar)object, attribute, value, size);
    case VX_TYPE_ARRAY:
        return vxQueryArray((vx_array)object, attribute, value, size);
    case VX_TYPE_IMAGE:
        return vxQueryImage((vx_image)object, attribute, value, size);
    default:
        return vxQueryReference(object, attribute, value, size);
    }
}

/* A function at once that takes images alone. */
static vx_status run_on_images(vx_context context, vx_image in, vx_image in2, vx_image out) {
    static vx_status (*const of_two[])(vx_context, vx_image, vx_image) = {
        vxuNot, vxuBox3x3, vxuGaussian3x3, vxuMedian3x3, vxuErode3x3, vxuDilate3x3,
        vxuIntegralImage, vxuAccumulateImage};
    static vx_status (*const of_three[])(vx_context, vx_image, vx_image, vx_image) = {
        vxuAnd, vxuOr, vxuXor, vxuAbsDiff, vxuMin, vxuMax, vxuSobel3x3};
    if (below(2))
        return of_two[below(8)](context, in, out);
    return of_three[below(7)](context, in, in2, out);
}

static vx_status run_any(vx_context context) {
    vx_image in = image(), in2 = image(), out = image();
    switch (below(13)) {
    case 0:
        return vxuAdd(context, in, in2, any_enum(), out);
    case 1:
        return vxuThreshold(context, in, threshold(), out);
    case 2:
        return vxuConvertDepth(context, in, out, any_enum(), (vx_int32)below(12) - 2);
    case 3:
        return vxuMultiply(context, in, in2, 1.0f / (float)below(5), any_enum(), any_enum(), out);
    case 4:
        return vxuSubtract(context, in, in2, any_enum(), out);
    case 5:
        return vxuTableLookup(context, in, lut(), out);
    case 6:
        return vxuConvolve(context, in, convolution(), out);
    case 7:
        return vxuHistogram(context, in, distribution());
    case 8:
        return vxuMinMaxLoc(context, in, scalar(), scalar(), array(),
                            array(), scalar(), scalar());
    case 9:
        return vxuAccumulateSquareImage(context, in, scalar(), out);
    default:
        return run_on_images(context, in, in2, out);
    }
}

/* Releases a reference as one of a type, which may be another. */
static vx_status release_typed(void *pointer) {
    switch (below(8)) {
    case 0:
        return vxRemoveNode(pointer);
    case 1:
        return vxReleaseImage(pointer);
    case 2:
        return vxReleaseGraph(pointer);
    case 3:
        return vxReleaseNode(pointer);
    case 4:
        return vxReleaseDelay(pointer);
    case 5:
        return vxReleaseParameter(pointer);
    case 6:
        return vxReleaseArray(pointer);
    default:
        return vxReleaseLUT(pointer);
    }
}

/* Releases what is in a place, which may keep what was released. */
static vx_status release_any(void) {
    vx_uint32 place = below(POOL);
    vx_reference reference = pool[place];
    if (reference == (vx_reference)contexts[0] || reference == (vx_reference)contexts[1])
        return VX_SUCCESS;
    vx_status status = below(2) ? release_typed(&reference) : vxReleaseReference(&reference);
    if (below(2))
        pool[place] = NULL;
    return status;
}

/* The status of a new object, which takes a place; seldom it does where it is an error. */
static vx_status keep(vx_reference object) {
    vx_status status = object == NULL ? VX_ERROR_INVALID_REFERENCE : vxGetStatus(object);
    if (status == VX_SUCCESS || below(4) == 0)
        pool[2 + below(POOL - 2)] = object;
    return status;
}

static vx_status call_any(vx_context context) {
    switch (below(11)) {
    case 8:
        return use_more();
    case 0:
    case 1:
        return keep(make_any(context));
    case 2:
        return keep((vx_reference)make_node());
    case 3:
        return keep(get_any());
    case 4:
        return run_any(context);
    case 5:
        return release_any();
    case 6:
        return use_parameter();
    case 7:
        return query_any();
    default:
        return use_object();
    }
}

/* No call ends the server, which an entry would tell. */
static void on_entry(vx_context context, vx_reference ref, vx_status status,
                     const vx_char string[]) {
    CHECK(vxGetContext(ref) == context && string[0] != '\0' && status != VX_FAILURE);
}

/* Gives back all that the pool still has, and begins anew. */
static void begin(void) {
    for (int i = 0; i < 2; i++) {
        if (contexts[i] != NULL)
            EXPECT(VX_SUCCESS, vxReleaseContext(&contexts[i]));
        contexts[i] = vxCreateContext();
        EXPECT(VX_SUCCESS, STATUS(contexts[i]));
        vxRegisterLogCallback(contexts[i], on_entry, vx_false_e);
        pool[i] = (vx_reference)contexts[i];
    }
}

/* A right call does what it should after them. */
static void work(vx_context context) {
    vx_image a = vxCreateImage(context, 3, 3, VX_DF_IMAGE_U8);
    vx_image b = vxCreateImage(context, 3, 3, VX_DF_IMAGE_U8);
    vx_uint8 samples[9];
    EXPECT(VX_SUCCESS, vxuNot(context, a, b));
    EXPECT(VX_SUCCESS, copy_whole(b, 3, 3, 1, samples, VX_READ_ONLY));
    CHECK(samples[8] == 255);
}

int main(int count, char **words) {
    int counts[-VX_STATUS_MIN] = {0};
    int sequences = count > 1 ? atoi(words[1]) : SEQUENCES;
    state = count > 2 ? (vx_uint32)atoi(words[2]) : state;
    for (int sequence = 0; sequence < sequences; sequence++) {
        if (sequence % 50 == 0)
            begin();
        for (int i = 0; i < CALLS; i++) {
            vx_status status = call_any(contexts[below(4) == 0]);
            CHECK(status <= VX_SUCCESS && status > VX_STATUS_MIN);
            counts[-status]++;
        }
    }
    for (int i = 0; i < 2; i++) {
        work(contexts[i]);
        EXPECT(VX_SUCCESS, vxReleaseContext(&contexts[i]));
    }
    for (int i = 0; i < -VX_STATUS_MIN; i++)
        if (counts[i] > 0)
            printf("%d %d\n", -i, counts[i]);
    return 0;
}
