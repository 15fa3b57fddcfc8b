/* A program as tutorials have it, in the words that C89 and C++98 share: a graph with virtual
   images, maps, a histogram and extremes. The driver compiles it for each standard of C and C++. */
#include <VX/vx.h>
#include <VX/vxu.h>
#include <stdio.h>
#include <stdlib.h>
#include <string.h>

#define ERROR_CHECK_STATUS(status)                                                                 \
    {                                                                                              \
        vx_status status_ = (status);                                                              \
        if (status_ != VX_SUCCESS) {                                                               \
            printf("ERROR: failed with status = (%d) at " __FILE__ "#%d\n", status_, __LINE__);    \
            exit(1);                                                                               \
        }                                                                                          \
    }
#define ERROR_CHECK_OBJECT(obj) ERROR_CHECK_STATUS(vxGetStatus((vx_reference)(obj)))

/* A kernel's number under the vendor of those that have none of their own. */
enum own_kernel_e { OWN_KERNEL = VX_KERNEL_BASE(VX_ID_DEFAULT, 1) + 0x2 };

static void VX_CALLBACK log_callback(vx_context context, vx_reference ref, vx_status status,
                                     const vx_char string[]) {
    (void)context;
    (void)ref;
    printf("LOG: [status=%d] %s\n", status, string);
    fflush(stdout);
}

static void fill(vx_image image, vx_uint32 width, vx_uint32 height) {
    vx_rectangle_t rect;
    vx_map_id map;
    vx_imagepatch_addressing_t addr;
    void *ptr = NULL;
    vx_uint32 x, y;
    rect.start_x = rect.start_y = 0;
    rect.end_x = width;
    rect.end_y = height;
    ERROR_CHECK_STATUS(vxMapImagePatch(image, &rect, 0, &map, &addr, &ptr, VX_WRITE_ONLY,
                                       VX_MEMORY_TYPE_HOST, VX_NOGAP_X));
    for (y = 0; y < height; y++)
        for (x = 0; x < width; x++) {
            vx_uint8 *pixel = (vx_uint8 *)vxFormatImagePatchAddress2d(ptr, x, y, &addr);
            *pixel = (vx_uint8)(x < width / 2 ? 0 : 200);
        }
    ERROR_CHECK_STATUS(vxUnmapImagePatch(image, map));
}

static vx_uint8 pixel_of(vx_image image, vx_uint32 x, vx_uint32 y) {
    vx_rectangle_t rect;
    vx_imagepatch_addressing_t addr = VX_IMAGEPATCH_ADDR_INIT;
    vx_uint8 pixel = 0;
    rect.start_x = x;
    rect.start_y = y;
    rect.end_x = x + 1;
    rect.end_y = y + 1;
    addr.dim_x = addr.dim_y = 1;
    addr.stride_x = addr.stride_y = 1;
    ERROR_CHECK_STATUS(vxCopyImagePatch(image, &rect, 0, &addr, &pixel, VX_READ_ONLY,
                                        VX_MEMORY_TYPE_HOST));
    return pixel;
}

/* The edge between the two halves, through the gradient in one direction. */
static void find_edge(vx_context context, vx_image input, vx_image output) {
    vx_graph graph = vxCreateGraph(context);
    vx_image blurred = vxCreateVirtualImage(graph, 0, 0, VX_DF_IMAGE_VIRT);
    vx_image gradient = vxCreateVirtualImage(graph, 0, 0, VX_DF_IMAGE_S16);
    vx_threshold threshold = vxCreateThresholdForImage(context, VX_THRESHOLD_TYPE_BINARY,
                                                       VX_DF_IMAGE_S16, VX_DF_IMAGE_U8);
    vx_pixel_value_t limit;
    vx_node nodes[3];
    int i;
    memset(&limit, 0, sizeof limit);
    limit.S16 = 300;
    ERROR_CHECK_OBJECT(graph);
    ERROR_CHECK_OBJECT(threshold);
    ERROR_CHECK_STATUS(vxCopyThresholdValue(threshold, &limit, VX_WRITE_ONLY,
                                            VX_MEMORY_TYPE_HOST));
    nodes[0] = vxGaussian3x3Node(graph, input, blurred);
    nodes[1] = vxSobel3x3Node(graph, blurred, gradient, NULL);
    nodes[2] = vxThresholdNode(graph, gradient, threshold, output);
    for (i = 0; i < 3; i++) {
        ERROR_CHECK_OBJECT(nodes[i]);
        ERROR_CHECK_STATUS(vxReleaseNode(&nodes[i]));
    }
    ERROR_CHECK_STATUS(vxVerifyGraph(graph));
    ERROR_CHECK_STATUS(vxProcessGraph(graph));
    ERROR_CHECK_STATUS(vxReleaseThreshold(&threshold));
    ERROR_CHECK_STATUS(vxReleaseImage(&blurred));
    ERROR_CHECK_STATUS(vxReleaseImage(&gradient));
    ERROR_CHECK_STATUS(vxReleaseGraph(&graph));
}

int main(void) {
    const vx_uint32 width = 64, height = 48;
    const vx_bool is_wide = width > height;
    vx_uint8 least = 0, greatest = 0;
    vx_context context = vxCreateContext();
    vx_image input, output;
    vx_scalar min_val, max_val;
    ERROR_CHECK_OBJECT(context);
    if (VX_VENDOR(OWN_KERNEL) != VX_ID_DEFAULT || VX_LIBRARY(OWN_KERNEL) != 1 ||
        vxGetStatus((vx_reference)vxGetKernelByEnum(context, OWN_KERNEL)) !=
            VX_ERROR_NOT_SUPPORTED)
        return 3;
    vxRegisterLogCallback(context, log_callback, vx_false_e);
    input = vxCreateImage(context, width, height, VX_DF_IMAGE_U8);
    output = vxCreateImage(context, width, height, VX_DF_IMAGE_U8);
    min_val = vxCreateScalar(context, VX_TYPE_UINT8, &least);
    max_val = vxCreateScalar(context, VX_TYPE_UINT8, &greatest);
    ERROR_CHECK_OBJECT(input);
    ERROR_CHECK_OBJECT(output);
    fill(input, width, height);
    find_edge(context, input, output);
    ERROR_CHECK_STATUS(vxuMinMaxLoc(context, input, min_val, max_val, NULL, NULL, NULL, NULL));
    ERROR_CHECK_STATUS(vxCopyScalar(max_val, &greatest, VX_READ_ONLY, VX_MEMORY_TYPE_HOST));
    if (!is_wide || greatest != 200 || pixel_of(output, width / 2, 20) != 255 ||
        pixel_of(output, width / 4, 20) != 0)
        return 2;
    ERROR_CHECK_STATUS(vxReleaseScalar(&min_val));
    ERROR_CHECK_STATUS(vxReleaseScalar(&max_val));
    ERROR_CHECK_STATUS(vxReleaseImage(&input));
    ERROR_CHECK_STATUS(vxReleaseImage(&output));
    ERROR_CHECK_STATUS(vxReleaseContext(&context));
    return 0;
}
