/* What the library and its server have to do with other processes, descriptors and time. */
#define _XOPEN_SOURCE 700
#include "server.h"

#include <pthread.h>
#include <sys/resource.h>
#include <time.h>
#include <unistd.h>

enum { SIDE = 4, COUNT = SIDE * SIDE };

static vx_context context;
static vx_image a, b;
static vx_graph graph, linked;
static vx_node node;
static vx_kernel kernel;
static char said[VX_MAX_LOG_MESSAGE_LEN];
/* Whether a log entry makes the callback run the graph. */
static int is_running;

static void on_entry(vx_context of, vx_reference ref, vx_status status, const vx_char string[]) {
    CHECK(of == context && ref != NULL && status != VX_SUCCESS);
    snprintf(said, sizeof said, "%s", string);
    if (is_running)
        EXPECT(VX_SUCCESS, vxProcessGraph(graph));
}

static void open_context(void) {
    context = vxCreateContext();
    EXPECT(VX_SUCCESS, STATUS(context));
    a = vxCreateImage(context, SIDE, SIDE, VX_DF_IMAGE_U8);
    b = vxCreateImage(context, SIDE, SIDE, VX_DF_IMAGE_U8);
    graph = vxCreateGraph(context);
    EXPECT(VX_SUCCESS, STATUS(vxNotNode(graph, a, b)));
    EXPECT(VX_SUCCESS, vxVerifyGraph(graph));
    vxRegisterLogCallback(context, on_entry, vx_false_e);
}

/* A pipe of the program's ends when the program closes it, whatever servers there are. */
static void keep_pipes(void) {
    int ends[2];
    char byte;
    CHECK(pipe(ends) == 0);
    open_context();
    CHECK(close(ends[1]) == 0);
    CHECK(read(ends[0], &byte, 1) == 0);
    CHECK(close(ends[0]) == 0);
    EXPECT(VX_SUCCESS, vxReleaseContext(&context));
}

/* A child can't use its parent's context, and doesn't end it. */
static void leave_to_parents(void) {
    int status;
    vx_uint32 width;
    open_context();
    pid_t child = fork();
    if (child == 0) {
        EXPECT(VX_SUCCESS, vxQueryImage(a, VX_IMAGE_WIDTH, &width, sizeof width));
        EXPECT(VX_FAILURE, vxProcessGraph(graph));
        CHECK(strncmp(said, "the server is the parent process's", 34) == 0);
        EXPECT(VX_SUCCESS, vxReleaseImage(&b));
        EXPECT(VX_SUCCESS, vxReleaseContext(&context));
        open_context();
        EXPECT(VX_SUCCESS, vxProcessGraph(graph));
        EXPECT(VX_SUCCESS, vxReleaseContext(&context));
        _exit(0);
    }
    CHECK(waitpid(child, &status, 0) == child && WIFEXITED(status) && WEXITSTATUS(status) == 0);
    EXPECT(VX_SUCCESS, vxProcessGraph(graph));
    EXPECT(VX_SUCCESS, vxReleaseContext(&context));
}

static void *run_graph(void *unused) {
    EXPECT(VX_SUCCESS, vxProcessGraph(graph));
    return unused;
}

/* The extremes of a node whose graph was released are released with it. */
static void *remove_node(void *unused) {
    EXPECT(VX_SUCCESS, vxRemoveNode(&node));
    return unused;
}

/* A graph that changes drops its parts. */
static void *make_node_of_kernel(void *unused) {
    EXPECT(VX_SUCCESS, STATUS(vxCreateGenericNode(linked, kernel)));
    return unused;
}

/* The log callback waits for the server. */
static void *refuse_node(void *unused) {
    is_running = 1;
    EXPECT(VX_ERROR_INVALID_REFERENCE, STATUS(vxNotNode(linked, NULL, b)));
    is_running = 0;
    return unused;
}

/* A graph that runs in parts, of which node is the one that counts. */
static void make_linked(void) {
    vx_scalar count = vxCreateScalar(context, VX_TYPE_UINT32, NULL);
    vx_image sums = vxCreateImage(context, SIDE, SIDE, VX_DF_IMAGE_S16);
    linked = vxCreateGraph(context);
    node = vxMinMaxLocNode(linked, a, vxCreateScalar(context, VX_TYPE_UINT8, NULL),
                           vxCreateScalar(context, VX_TYPE_UINT8, NULL), NULL, NULL, count, NULL);
    EXPECT(VX_SUCCESS, STATUS(node));
    EXPECT(VX_SUCCESS, STATUS(vxAccumulateSquareImageNode(linked, a, count, sums)));
    EXPECT(VX_SUCCESS, vxVerifyGraph(linked));
}

/* While one thread's work waits for the server another asks what objects are. */
static void ask_while(void *(*work)(void *)) {
    pthread_t thread;
    vx_uint32 width;
    vx_enum state;
    siginfo_t stopped;
    const struct timespec pause = {0, 1000000};
    pid_t server = server_process();
    CHECK(kill(server, SIGSTOP) == 0);
    CHECK(waitid(P_PID, (id_t)server, &stopped, WSTOPPED) == 0);
    CHECK(pthread_create(&thread, NULL, work, NULL) == 0);
    for (int i = 0; i < 100; i++) {
        EXPECT(VX_SUCCESS, vxQueryImage(a, VX_IMAGE_WIDTH, &width, sizeof width));
        EXPECT(VX_SUCCESS, vxQueryGraph(graph, VX_GRAPH_STATE, &state, sizeof state));
        EXPECT(VX_SUCCESS, vxGetStatus((vx_reference)b));
        nanosleep(&pause, NULL);
    }
    CHECK(width == SIDE);
    CHECK(kill(server, SIGCONT) == 0);
    CHECK(pthread_join(thread, NULL) == 0);
}

/* Also while what waits is a call within a call. */
static void ask_while_waiting(void) {
    open_context();
    ask_while(run_graph);
    make_linked();
    kernel = vxGetKernelByEnum(context, VX_KERNEL_NOT);
    ask_while(make_node_of_kernel);
    ask_while(refuse_node);
    EXPECT(VX_SUCCESS, vxReleaseGraph(&linked));
    ask_while(remove_node);
    EXPECT(VX_SUCCESS, vxReleaseContext(&context));
}

/* A server that doesn't answer in time is given up, while pictures go out too, and is ended. */
static void give_up(int is_long) {
    static vx_uint8 samples[2048 * 2048];
    siginfo_t stopped;
    vx_status status;
    CHECK(setenv("FEQYLDAN_TIMEOUT", "1.5", 1) == 0);
    open_context();
    vx_image large = vxCreateImage(context, 2048, 2048, VX_DF_IMAGE_U8);
    pid_t server = server_process();
    CHECK(kill(server, SIGSTOP) == 0);
    CHECK(waitid(P_PID, (id_t)server, &stopped, WSTOPPED) == 0);
    if (is_long)
        status = copy_whole(large, 2048, 2048, 1, samples, VX_WRITE_ONLY);
    else
        status = vxProcessGraph(graph);
    EXPECT(VX_FAILURE, status);
    CHECK(strcmp(said, "the server didn't answer within the 1.5 s that FEQYLDAN_TIMEOUT allows: "
                       "allow more, or see what keeps it busy") == 0);
    EXPECT(VX_FAILURE, vxProcessGraph(graph));
    EXPECT(VX_SUCCESS, vxReleaseContext(&context));
    CHECK(kill(server, 0) != 0);
    CHECK(setenv("FEQYLDAN_TIMEOUT", "soon", 1) == 0);
    CHECK(vxCreateContext() == NULL);
    CHECK(unsetenv("FEQYLDAN_TIMEOUT") == 0);
}

static void limit_images(void) {
    CHECK(setenv("FEQYLDAN_QUOTA", "64", 1) == 0);
    context = vxCreateContext();
    EXPECT(VX_SUCCESS, STATUS(vxCreateImage(context, 8, 8, VX_DF_IMAGE_U8)));
    EXPECT(VX_ERROR_NO_RESOURCES, STATUS(vxCreateImage(context, 1, 1, VX_DF_IMAGE_U8)));
    EXPECT(VX_SUCCESS, vxReleaseContext(&context));
    CHECK(unsetenv("FEQYLDAN_QUOTA") == 0);
}

/* With few descriptors there is a context or none, and none is lost. */
static void use_few_descriptors(void) {
    struct rlimit limit;
    int contexts = 0;
    CHECK(getrlimit(RLIMIT_NOFILE, &limit) == 0);
    for (rlim_t most = 3; most < 16; most++) {
        struct rlimit few = {most, limit.rlim_max};
        CHECK(setrlimit(RLIMIT_NOFILE, &few) == 0);
        context = vxCreateContext();
        contexts += context != NULL ? 1 : 0;
        if (context != NULL)
            EXPECT(VX_SUCCESS, vxReleaseContext(&context));
    }
    CHECK(contexts > 0 && setrlimit(RLIMIT_NOFILE, &limit) == 0);
}

/* A program without the three descriptors that every program has. */
static void use_without_standard_descriptors(void) {
    int kept[3];
    for (int i = 0; i < 3; i++) {
        kept[i] = dup(i);
        CHECK(kept[i] > 2);
    }
    for (int i = 0; i < 3; i++)
        close(i);
    open_context();
    EXPECT(VX_SUCCESS, vxProcessGraph(graph));
    EXPECT(VX_SUCCESS, vxReleaseContext(&context));
    for (int i = 0; i < 3; i++) {
        CHECK(dup2(kept[i], i) == i);
        close(kept[i]);
    }
}

int main(void) {
    keep_pipes();
    leave_to_parents();
    /* The driver has no process to stop where the server is in this one. */
    if (getenv("SERVER_PROCESS") != NULL) {
        ask_while_waiting();
        give_up(0);
        give_up(1);
    }
    limit_images();
    use_few_descriptors();
    use_without_standard_descriptors();
    return 0;
}
