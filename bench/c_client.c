/* Measures a run of a graph of one Not in the C library. c_client WIDTH HEIGHT COUNT prints two
   times in seconds, each the least of five rounds of COUNT runs: vxProcessGraph alone, and
   vxProcessGraph with the picture written before and read after it. */
#define _POSIX_C_SOURCE 200809L
#include <VX/vx.h>
#include <stdio.h>
#include <stdlib.h>
#include <string.h>
#include <time.h>

enum { ROUNDS = 5 };

static vx_graph graph;
static vx_image input, output;
static vx_uint32 width, height;
static vx_uint8 *samples;

static void expect(vx_status status) {
    if (status == VX_SUCCESS)
        return;
    fprintf(stderr, "c_client: a call has the status %d, and not VX_SUCCESS\n", status);
    exit(1);
}

static void copy(vx_image image, vx_enum usage) {
    const vx_rectangle_t whole = {0, 0, width, height};
    vx_imagepatch_addressing_t addr = VX_IMAGEPATCH_ADDR_INIT;
    addr.dim_x = width;
    addr.dim_y = height;
    addr.stride_x = 1;
    addr.stride_y = (vx_int32)width;
    expect(vxCopyImagePatch(image, &whole, 0, &addr, samples, usage, VX_MEMORY_TYPE_HOST));
}

static void run(void) { expect(vxProcessGraph(graph)); }

static void move_and_run(void) {
    copy(input, VX_WRITE_ONLY);
    run();
    copy(output, VX_READ_ONLY);
}

static double now(void) {
    struct timespec time;
    clock_gettime(CLOCK_MONOTONIC, &time);
    return (double)time.tv_sec + 1e-9 * (double)time.tv_nsec;
}

/* Returns the least time of a call, over rounds of this many calls. */
static double best_seconds(void (*call)(void), int count) {
    double best = 1e9;
    call();
    for (int round = 0; round < ROUNDS; round++) {
        double start = now();
        for (int i = 0; i < count; i++)
            call();
        double seconds = (now() - start) / count;
        best = seconds < best ? seconds : best;
    }
    return best;
}

int main(int argc, char **words) {
    if (argc != 4)
        return 2;
    width = (vx_uint32)atoi(words[1]);
    height = (vx_uint32)atoi(words[2]);
    samples = calloc(width, height);
    vx_context context = vxCreateContext();
    if (samples == NULL || context == NULL)
        return 1;
    graph = vxCreateGraph(context);
    input = vxCreateImage(context, width, height, VX_DF_IMAGE_U8);
    output = vxCreateImage(context, width, height, VX_DF_IMAGE_U8);
    expect(vxGetStatus((vx_reference)vxNotNode(graph, input, output)));
    double alone = best_seconds(run, atoi(words[3]));
    printf("%.9f %.9f\n", alone, best_seconds(move_and_run, atoi(words[3])));
    expect(vxReleaseContext(&context));
    free(samples);
    return 0;
}
