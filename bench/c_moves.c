/* Measures the movement of pictures in the C library. c_moves prints a table row for each size and
   format, with the least times in microseconds of a copy to and from the library, of a map for
   reading, of a map for writing, and of memcpy. A last line has the quickest 1080p frame through
   the six nodes of edges.c with maps, and the times of its steps; the same frame with copies; and
   the run of the graph alone. */
#define _POSIX_C_SOURCE 200809L
#include <VX/vx.h>
#include <stdio.h>
#include <stdlib.h>
#include <string.h>
#include <time.h>

enum { WIDTH = 1920, HEIGHT = 1080 };

static vx_context context;

static struct move {
    vx_image image;
    vx_uint32 width, height;
    int size;
    vx_uint8 *samples, *copied;
} move;

static void expect(vx_status status) {
    if (status == VX_SUCCESS)
        return;
    fprintf(stderr, "c_moves: a call has the status %d, and not VX_SUCCESS\n", status);
    exit(1);
}

static size_t bytes_of(void) { return (size_t)move.width * move.height * (size_t)move.size; }

static void copy(vx_image image, void *samples, vx_enum usage) {
    const vx_rectangle_t whole = {0, 0, move.width, move.height};
    vx_imagepatch_addressing_t addr = VX_IMAGEPATCH_ADDR_INIT;
    addr.dim_x = move.width;
    addr.dim_y = move.height;
    addr.stride_x = move.size;
    addr.stride_y = (vx_int32)move.width * move.size;
    expect(vxCopyImagePatch(image, &whole, 0, &addr, samples, usage, VX_MEMORY_TYPE_HOST));
}

static void copy_in(void) { copy(move.image, move.samples, VX_WRITE_ONLY); }

static void copy_out(void) { copy(move.image, move.copied, VX_READ_ONLY); }

static void *begin_map(vx_image image, vx_enum usage, vx_map_id *id) {
    const vx_rectangle_t whole = {0, 0, move.width, move.height};
    vx_imagepatch_addressing_t addr;
    void *where;
    expect(vxMapImagePatch(image, &whole, 0, id, &addr, &where, usage, VX_MEMORY_TYPE_HOST, 0));
    return where;
}

static void map(vx_image image, vx_enum usage) {
    vx_map_id id;
    void *where = begin_map(image, usage, &id);
    if (usage == VX_WRITE_ONLY)
        memcpy(where, move.samples, bytes_of());
    expect(vxUnmapImagePatch(image, id));
}

static void map_read(void) { map(move.image, VX_READ_ONLY); }

static void map_write(void) { map(move.image, VX_WRITE_ONLY); }

static void copy_memory(void) {
    memcpy(move.copied, move.samples, bytes_of());
    /* Keeps the compiler from removing the copy. */
    __asm__ volatile("" : : "r"(move.copied) : "memory");
}

static double now(void) {
    struct timespec time;
    clock_gettime(CLOCK_MONOTONIC, &time);
    return 1e6 * (double)time.tv_sec + 1e-3 * (double)time.tv_nsec;
}

static double least_time(void (*call)(void), int count) {
    double least = 1e9;
    for (int i = 0; i < count; i++) {
        double start = now();
        call();
        double taken = now() - start;
        least = taken < least ? taken : least;
    }
    return least;
}

static void begin(vx_uint32 width, vx_uint32 height, int size, vx_df_image format) {
    move = (struct move){.width = width, .height = height, .size = size};
    move.image = vxCreateImage(context, width, height, format);
    expect(vxGetStatus((vx_reference)move.image));
    move.samples = malloc(bytes_of());
    move.copied = malloc(bytes_of());
    if (move.samples == NULL || move.copied == NULL)
        exit(1);
    for (size_t i = 0; i < bytes_of(); i++)
        move.samples[i] = (vx_uint8)(31 * i + (i >> 8));
}

static void end(void) {
    expect(vxReleaseImage(&move.image));
    free(move.samples);
    free(move.copied);
}

static void measure(vx_uint32 width, vx_uint32 height, const char *name, int size,
                    vx_df_image format) {
    void (*const calls[])(void) = {copy_in, copy_out, map_read, map_write, copy_memory};
    int count = width < 100 ? 4000 : width < 1000 ? 400 : 100;
    begin(width, height, size, format);
    printf("| %ux%u %s |", width, height, name);
    for (int i = 0; i < 5; i++)
        printf(" %.1f |", least_time(calls[i], count));
    printf("\n");
    if (memcmp(move.samples, move.copied, bytes_of()) != 0)
        exit(1);
    end();
}

static vx_graph graph;
static vx_image edges;

static void run(void) { expect(vxProcessGraph(graph)); }

enum { STEPS = 4 };
static const char *const step_names[STEPS] = {"memcpy into the map", "unmap", "run",
                                              "map to read"};

/* Moves a picture in, runs the graph and moves the result out. Notes when each step begins, and
   when the last one ends. */
static void run_frame(double times[STEPS + 1]) {
    vx_map_id id;
    times[0] = now();
    memcpy(begin_map(move.image, VX_WRITE_ONLY, &id), move.samples, bytes_of());
    times[1] = now();
    expect(vxUnmapImagePatch(move.image, id));
    times[2] = now();
    run();
    times[3] = now();
    map(edges, VX_READ_ONLY);
    times[4] = now();
}

static void run_frame_by_copies(void) {
    copy_in();
    run();
    copy(edges, move.copied, VX_READ_ONLY);
}

static void measure_frames(int count) {
    double least[STEPS + 1] = {[STEPS] = 1e9}, times[STEPS + 1];
    for (int i = 0; i < count; i++) {
        run_frame(times);
        if (times[STEPS] - times[0] < least[STEPS] - least[0])
            memcpy(least, times, sizeof least);
    }
    printf("\na frame by maps %.0f", least[STEPS] - least[0]);
    for (int i = 0; i < STEPS; i++)
        printf("%s %s %.0f", i == 0 ? ":" : ",", step_names[i], least[i + 1] - least[i]);
    printf("; by copies %.0f; a run alone %.0f\n", least_time(run_frame_by_copies, count),
           least_time(run, count));
}

static void replicate(vx_node node) {
    vx_border_t border = {.mode = VX_BORDER_REPLICATE};
    expect(vxGetStatus((vx_reference)node));
    expect(vxSetNodeAttribute(node, VX_NODE_BORDER, &border, sizeof border));
}

static void make_graph(void) {
    vx_image zero = vxCreateImage(context, WIDTH, HEIGHT, VX_DF_IMAGE_S16), between[6];
    vx_pixel_value_t limit = {.S16 = 100};
    vx_threshold threshold = vxCreateThresholdForImage(context, VX_THRESHOLD_TYPE_BINARY,
                                                       VX_DF_IMAGE_S16, VX_DF_IMAGE_U8);
    expect(vxCopyThresholdValue(threshold, &limit, VX_WRITE_ONLY, VX_MEMORY_TYPE_HOST));
    graph = vxCreateGraph(context);
    edges = vxCreateImage(context, WIDTH, HEIGHT, VX_DF_IMAGE_U8);
    for (int i = 0; i < 6; i++)
        between[i] = vxCreateVirtualImage(graph, 0, 0, VX_DF_IMAGE_VIRT);
    replicate(vxGaussian3x3Node(graph, move.image, between[0]));
    replicate(vxSobel3x3Node(graph, between[0], between[1], between[2]));
    vxAbsDiffNode(graph, between[1], zero, between[3]);
    vxAbsDiffNode(graph, between[2], zero, between[4]);
    vxAddNode(graph, between[3], between[4], VX_CONVERT_POLICY_SATURATE, between[5]);
    vxThresholdNode(graph, between[5], threshold, edges);
    expect(vxVerifyGraph(graph));
}

int main(void) {
    static const vx_uint32 sizes[][2] = {{8, 8}, {640, 480}, {WIDTH, HEIGHT}};
    context = vxCreateContext();
    if (context == NULL)
        return 1;
    printf("| | copy in | copy out | map to read | map to write | memcpy |\n"
           "|---|---|---|---|---|---|\n");
    for (int i = 0; i < 3; i++) {
        measure(sizes[i][0], sizes[i][1], "U8", 1, VX_DF_IMAGE_U8);
        measure(sizes[i][0], sizes[i][1], "S16", 2, VX_DF_IMAGE_S16);
        measure(sizes[i][0], sizes[i][1], "U32", 4, VX_DF_IMAGE_U32);
    }
    begin(WIDTH, HEIGHT, 1, VX_DF_IMAGE_U8);
    make_graph();
    measure_frames(60);
    end();
    expect(vxReleaseContext(&context));
    return 0;
}
