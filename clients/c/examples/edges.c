/* Draws a disc and writes its edges as a PGM: edges > edges.pgm. A graph of Gaussian, Sobel, the
   gradients' magnitude by absolute differences, and a threshold, through virtual images. */
#include <VX/vx.h>
#include <stdio.h>
#include <stdlib.h>

enum { SIDE = 256 };

static void expect(vx_status status, const char *what) {
    if (status == VX_SUCCESS)
        return;
    fprintf(stderr, "%s: status %d\n", what, status);
    exit(1);
}

static void draw(vx_image image) {
    const vx_rectangle_t whole = {0, 0, SIDE, SIDE};
    vx_imagepatch_addressing_t addr;
    vx_map_id map;
    void *samples;
    expect(vxMapImagePatch(image, &whole, 0, &map, &addr, &samples, VX_WRITE_ONLY,
                           VX_MEMORY_TYPE_HOST, 0), "map");
    for (int y = 0; y < SIDE; y++)
        for (int x = 0; x < SIDE; x++)
            *(vx_uint8 *)vxFormatImagePatchAddress2d(samples, x, y, &addr) =
                (x - 128) * (x - 128) + (y - 128) * (y - 128) < 80 * 80 ? 200 : 40;
    expect(vxUnmapImagePatch(image, map), "unmap");
}

static void print(vx_image image) {
    static vx_uint8 samples[SIDE * SIDE];
    const vx_rectangle_t whole = {0, 0, SIDE, SIDE};
    const vx_imagepatch_addressing_t addr = {
        .dim_x = SIDE, .dim_y = SIDE, .stride_x = 1, .stride_y = SIDE};
    expect(vxCopyImagePatch(image, &whole, 0, &addr, samples, VX_READ_ONLY, VX_MEMORY_TYPE_HOST),
           "read");
    printf("P5\n%d %d\n255\n", SIDE, SIDE);
    const size_t written = fwrite(samples, 1, sizeof samples, stdout);
    expect(written == sizeof samples && fflush(stdout) == 0 ? VX_SUCCESS : VX_FAILURE, "write");
}

int main(void) {
    vx_context context = vxCreateContext();
    expect(vxGetStatus((vx_reference)context), "context");
    vx_graph graph = vxCreateGraph(context);
    vx_image input = vxCreateImage(context, SIDE, SIDE, VX_DF_IMAGE_U8);
    vx_image output = vxCreateImage(context, SIDE, SIDE, VX_DF_IMAGE_U8);
    vx_image zero = vxCreateImage(context, SIDE, SIDE, VX_DF_IMAGE_S16);
    vx_image between[6];
    for (int i = 0; i < 6; i++)
        between[i] = vxCreateVirtualImage(graph, 0, 0, VX_DF_IMAGE_VIRT);
    vx_threshold strong = vxCreateThresholdForImage(context, VX_THRESHOLD_TYPE_BINARY,
                                                    VX_DF_IMAGE_S16, VX_DF_IMAGE_U8);
    vx_pixel_value_t limit = {.S16 = 100};
    expect(vxCopyThresholdValue(strong, &limit, VX_WRITE_ONLY, VX_MEMORY_TYPE_HOST), "threshold");
    vxGaussian3x3Node(graph, input, between[0]);
    vxSobel3x3Node(graph, between[0], between[1], between[2]);
    vxAbsDiffNode(graph, between[1], zero, between[3]);
    vxAbsDiffNode(graph, between[2], zero, between[4]);
    vxAddNode(graph, between[3], between[4], VX_CONVERT_POLICY_SATURATE, between[5]);
    vxThresholdNode(graph, between[5], strong, output);
    draw(input);
    expect(vxProcessGraph(graph), "process");
    print(output);
    return vxReleaseContext(&context) == VX_SUCCESS ? 0 : 1;
}
