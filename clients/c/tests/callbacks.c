/* Log callbacks that release, remove and unmap what the call at fault has in hand, and that fork.
   The sanitizer of addresses tells of memory that is used after it was freed, or that is lost. */
#define _XOPEN_SOURCE 700
#include "server.h"

#include <unistd.h>

enum { SIDE = 4, COUNT = SIDE * SIDE, NODES = 3 };

static const vx_rectangle_t whole = {0, 0, SIDE, SIDE};
static vx_context context;
static vx_image images[NODES + 1], wide;
static vx_graph graph;
static vx_node nodes[NODES];
static vx_delay delay;
static vx_map_id map;
static int entries;

/* What the callback does. */
static enum { RELEASE_NODES, REMOVE_NODES, RELEASE_ALL, CLOSE, DEEDS } deed;

/* Whether the callback forks before or after that. The call at fault then ends in both
   processes. */
static enum { NO_FORK, FORK_BEFORE, FORK_AFTER, FORKS } forking;
/* The child that the callback made; 0 in the child itself. */
static pid_t child;

static void release_all(void) {
    vxReleaseGraph(&graph);
    vxReleaseDelay(&delay);
    for (int i = 0; i <= NODES; i++)
        vxReleaseImage(&images[i]);
    vxReleaseImage(&wide);
}

static void fork_if(int is_now) {
    child = is_now ? fork() : child;
    CHECK(child >= 0);
}

static void on_entry(vx_context of, vx_reference ref, vx_status status, const vx_char string[]) {
    (void)ref;
    CHECK(of != NULL && status != VX_SUCCESS && string[0] != '\0');
    /* The calls of a callback add no entry, and those after it find nothing to do. */
    if (entries++ > 0)
        return;
    fork_if(forking == FORK_BEFORE);
    if (map != 0)
        vxUnmapImagePatch(images[0], map);
    for (int i = 0; i < NODES && deed != RELEASE_NODES; i++)
        vxRemoveNode(&nodes[i]);
    for (int i = 0; i < NODES && deed == RELEASE_NODES; i++)
        vxReleaseNode(&nodes[i]);
    if (deed == RELEASE_ALL || deed == CLOSE)
        release_all();
    if (deed == CLOSE)
        EXPECT(VX_SUCCESS, vxReleaseContext(&context));
    fork_if(forking == FORK_AFTER);
}

/* A context with a graph that is a chain of nodes. It is refused if its last image is too wide. */
static void open_context(int is_refused) {
    context = vxCreateContext();
    EXPECT(VX_SUCCESS, STATUS(context));
    graph = vxCreateGraph(context);
    wide = vxCreateImage(context, 2 * SIDE, SIDE, VX_DF_IMAGE_U8);
    for (int i = 0; i <= NODES; i++)
        images[i] = vxCreateImage(context, SIDE, SIDE, VX_DF_IMAGE_U8);
    for (int i = 0; i < NODES; i++) {
        vx_image output = is_refused && i == NODES - 1 ? wide : images[i + 1];
        nodes[i] = vxNotNode(graph, images[i], output);
        EXPECT(VX_SUCCESS, STATUS(nodes[i]));
    }
    delay = vxCreateDelay(context, (vx_reference)wide, 2);
    EXPECT(VX_SUCCESS, vxRegisterAutoAging(graph, delay));
    vxRegisterLogCallback(context, on_entry, vx_false_e);
    map = 0;
    entries = 0;
}

static void close_context(void) {
    int status;
    CHECK(entries > 0);
    if (context != NULL)
        EXPECT(VX_SUCCESS, vxReleaseContext(&context));
    if (forking != NO_FORK && child == 0)
        exit(0);
    if (forking != NO_FORK)
        CHECK(waitpid(child, &status, 0) == child && WIFEXITED(status) && WEXITSTATUS(status) == 0);
}

/* Calls that are refused: by the server, or by the library. */
static void refuse_calls(void) {
    open_context(1);
    EXPECT(VX_ERROR_INVALID_DIMENSION, vxVerifyGraph(graph));
    close_context();
    open_context(1);
    EXPECT(VX_ERROR_INVALID_DIMENSION, vxProcessGraph(graph));
    close_context();
    open_context(1);
    EXPECT(VX_ERROR_INVALID_DIMENSION, vxuNot(context, images[0], wide));
    close_context();
    open_context(0);
    EXPECT(VX_ERROR_INVALID_REFERENCE, vxSetParameterByIndex(nodes[0], 0, (vx_reference)graph));
    close_context();
    open_context(0);
    EXPECT(VX_ERROR_INVALID_REFERENCE, STATUS(vxNotNode(graph, NULL, wide)));
    close_context();
    open_context(0);
    vxMagnitudeNode(graph, wide, wide, wide);
    close_context();
}

/* Calls that the server ends under. */
static void end_calls(void) {
    vx_imagepatch_addressing_t addr;
    vx_uint8 samples[COUNT] = {0};
    void *where;
    open_context(0);
    EXPECT(VX_SUCCESS, vxMapImagePatch(images[0], &whole, 0, &map, &addr, &where, VX_WRITE_ONLY,
                                       VX_MEMORY_TYPE_HOST, 0));
    kill_server();
    EXPECT(VX_FAILURE, vxUnmapImagePatch(images[0], map));
    close_context();
    open_context(0);
    EXPECT(VX_SUCCESS, vxScheduleGraph(graph));
    kill_server();
    EXPECT(VX_FAILURE, copy_whole(images[0], SIDE, SIDE, 1, samples, VX_READ_ONLY));
    close_context();
    open_context(0);
    EXPECT(VX_SUCCESS, vxVerifyGraph(graph));
    kill_server();
    vx_node first = nodes[0];
    EXPECT(VX_FAILURE, vxRemoveNode(&first));
    close_context();
    open_context(0);
    EXPECT(VX_SUCCESS, vxScheduleGraph(graph));
    kill_server();
    EXPECT(VX_SUCCESS, vxReleaseImage(&wide));
    close_context();
}

int main(void) {
    for (forking = NO_FORK; forking < FORKS; forking++)
        for (deed = RELEASE_NODES; deed < DEEDS; deed++) {
            refuse_calls();
            end_calls();
        }
    return 0;
}
