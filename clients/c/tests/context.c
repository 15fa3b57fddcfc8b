/* A connection by arguments, the words of a failure, and calls and threads that another thread
   cancels. */
#define _XOPEN_SOURCE 700
#include "server.h"

#include <feqyldan/context.h>
#include <pthread.h>
#include <sys/socket.h>
#include <sys/un.h>
#include <time.h>
#include <unistd.h>

enum { SIDE = 2000 };

static char fault[VX_MAX_LOG_MESSAGE_LEN];

static double now(void) {
    struct timespec time;
    clock_gettime(CLOCK_MONOTONIC, &time);
    return (double)time.tv_sec + (double)time.tv_nsec / 1e9;
}

static vx_context make_context(const feqyldan_connection_t *connection) {
    return feqyldanCreateContext(connection, fault, sizeof fault);
}

static void expect_refusal(feqyldan_connection_t connection, const char *words) {
    CHECK(make_context(&connection) == NULL);
    if (strstr(fault, words) == NULL)
        fprintf(stderr, "%s\n", fault);
    CHECK(strstr(fault, words) != NULL);
}

/* The arguments decide even where the environment names another server. */
static void test_arguments(void) {
    const char *program = getenv("FEQYLDAN_PROGRAM");
    char kept[4096];
    snprintf(kept, sizeof kept, "%s", program);
    CHECK(setenv("FEQYLDAN_PROGRAM", "/nowhere", 1) == 0);
    CHECK(setenv("FEQYLDAN_SOCKET", "/no/socket", 1) == 0);
    expect_refusal((feqyldan_connection_t){.program = "/no/program"}, "can't start /no/program: ");
    expect_refusal((feqyldan_connection_t){.socket = "/other"}, "can't connect to /other: ");
    expect_refusal((feqyldan_connection_t){.socket = "/a", .program = "/b"},
                   "program is /b, socket is /a and server is not given: give at most one of them");
    expect_refusal((feqyldan_connection_t){.program = "/b", .server = "core"},
                   "program is /b, socket is not given and server is core: give at most one");
    expect_refusal((feqyldan_connection_t){.server = "thread"},
                   "server is thread, and has to be core or process");
    expect_refusal((feqyldan_connection_t){.server = "process"}, "can't start /nowhere: ");
    expect_refusal((feqyldan_connection_t){.program = kept, .timeout = -1},
                   "the timeout is -1, and has to be 0.001 to 1000000 seconds");
    CHECK(make_context(NULL) == NULL && strstr(fault, "/no/socket") != NULL);
    CHECK(feqyldanCreateContext(NULL, NULL, 0) == NULL);
    vx_context context = make_context(&(feqyldan_connection_t){.program = kept, .timeout = 5});
    CHECK(context != NULL && fault[0] == '\0');
    EXPECT(VX_SUCCESS, vxReleaseContext(&context));
    CHECK(unsetenv("FEQYLDAN_SOCKET") == 0 && setenv("FEQYLDAN_PROGRAM", kept, 1) == 0);
}

/* The words of a refusal are there without a log callback. */
static void test_faults(void) {
    vx_context context = make_context(NULL);
    EXPECT(VX_SUCCESS, feqyldanGetFault(context, fault, sizeof fault));
    CHECK(fault[0] == '\0');
    EXPECT(VX_ERROR_INVALID_PARAMETERS, feqyldanGetFault(context, NULL, 9));
    vx_image deep = vxCreateImage(context, 3, 3, VX_DF_IMAGE_S16);
    CHECK(vxuNot(context, deep, deep) != VX_SUCCESS);
    EXPECT(VX_SUCCESS, feqyldanGetFault(context, fault, sizeof fault));
    CHECK(strstr(fault, "vxuNot: ") == fault);
    EXPECT(VX_SUCCESS, feqyldanGetFault(context, fault, 4));
    CHECK(strcmp(fault, "vxu") == 0);
    EXPECT(VX_SUCCESS, vxReleaseContext(&context));
    EXPECT(VX_ERROR_INVALID_REFERENCE, feqyldanGetFault(context, fault, sizeof fault));
    EXPECT(VX_ERROR_INVALID_REFERENCE, feqyldanCancel(context));
}

static void *cancel_soon(void *context) {
    const struct timespec pause = {.tv_nsec = 200000000};
    nanosleep(&pause, NULL);
    EXPECT(VX_SUCCESS, feqyldanCancel(context));
    return NULL;
}

/* Calls that wait for a stopped server: one for its reply, and one for it to read. */
static void test_cancel(vx_bool writes) {
    static vx_uint8 samples[SIDE * SIDE];
    vx_context context = make_context(&(feqyldan_connection_t){.timeout = 60});
    vx_image in = vxCreateImage(context, SIDE, SIDE, VX_DF_IMAGE_U8);
    vx_image out = vxCreateImage(context, SIDE, SIDE, VX_DF_IMAGE_U8);
    CHECK(kill(server_process(), SIGSTOP) == 0);
    pthread_t other;
    CHECK(pthread_create(&other, NULL, cancel_soon, context) == 0);
    double start = now();
    EXPECT(VX_FAILURE, writes ? copy_whole(in, SIDE, SIDE, 1, samples, VX_WRITE_ONLY)
                              : vxuNot(context, in, out));
    CHECK(now() - start < 5);
    CHECK(pthread_join(other, NULL) == 0);
    EXPECT(VX_SUCCESS, feqyldanGetFault(context, fault, sizeof fault));
    CHECK(strcmp(fault, "the program cancelled the context: make a new one") == 0);
    EXPECT(VX_FAILURE, vxuNot(context, in, out));
    EXPECT(VX_SUCCESS, vxReleaseContext(&context));
    CHECK(now() - start < 5);
}

struct images {
    vx_context context;
    vx_image in, out;
};

static void *run_and_end(void *images) {
    const struct images *of = images;
    EXPECT(VX_SUCCESS, vxuNot(of->context, of->in, of->out));
    pthread_testcancel();
    return NULL;
}

/* A thread that is cancelled while it waits for the server ends its call first. */
static void test_cancelled_thread(void) {
    const struct timespec pause = {.tv_nsec = 100000000};
    pthread_t thread;
    void *ended;
    struct images images = {.context = make_context(NULL)};
    images.in = vxCreateImage(images.context, SIDE, 1, VX_DF_IMAGE_U8);
    images.out = vxCreateImage(images.context, SIDE, 1, VX_DF_IMAGE_U8);
    CHECK(kill(server_process(), SIGSTOP) == 0);
    CHECK(pthread_create(&thread, NULL, run_and_end, &images) == 0);
    nanosleep(&pause, NULL);
    CHECK(pthread_cancel(thread) == 0 && kill(server_process(), SIGCONT) == 0);
    CHECK(pthread_join(thread, &ended) == 0 && ended == PTHREAD_CANCELED);
    /* The context isn't locked. */
    alarm(20);
    EXPECT(VX_SUCCESS, vxuNot(images.context, images.in, images.out));
    alarm(0);
    EXPECT(VX_SUCCESS, vxReleaseContext(&images.context));
}

/* The wait for a run is a later call, even if the run was over before the cancel. */
static void test_cancel_of_run(const char *server) {
    vx_rectangle_t valid;
    vx_context context = make_context(&(feqyldan_connection_t){.server = server});
    vx_image in = vxCreateImage(context, 4, 4, VX_DF_IMAGE_U8);
    vx_image out = vxCreateImage(context, 4, 4, VX_DF_IMAGE_U8);
    vx_graph graph = vxCreateGraph(context);
    EXPECT(VX_SUCCESS, STATUS(vxNotNode(graph, in, out)));
    EXPECT(VX_SUCCESS, vxScheduleGraph(graph));
    /* The reply to this comes after that to the run. */
    EXPECT(VX_SUCCESS, vxGetValidRegionImage(out, &valid));
    EXPECT(VX_SUCCESS, feqyldanCancel(context));
    EXPECT(VX_FAILURE, vxWaitGraph(graph));
    EXPECT(VX_SUCCESS, feqyldanGetFault(context, fault, sizeof fault));
    CHECK(strcmp(fault, "the program cancelled the context: make a new one") == 0);
    EXPECT(VX_SUCCESS, vxReleaseContext(&context));
}

struct announced {
    int contexts, ends;
    pthread_t other;
};

static void note(vx_context context, void *argument) {
    struct announced *announced = argument;
    announced->ends += context == NULL;
    announced->contexts += context != NULL;
    if (context != NULL)
        CHECK(pthread_create(&announced->other, NULL, cancel_soon, context) == 0);
}

/* Makes a context at a socket of which nobody takes connections. A first one may fill its queue. */
static void test_cancel_of_a_context_that_is_made(vx_bool is_full) {
    struct announced announced = {0};
    struct sockaddr_un address = {.sun_family = AF_UNIX};
    const struct sockaddr *place = (const struct sockaddr *)&address;
    snprintf(address.sun_path, sizeof address.sun_path, "%s-at", getenv("SERVER_PROCESS"));
    unlink(address.sun_path);
    int listener = socket(AF_UNIX, SOCK_STREAM, 0), first = socket(AF_UNIX, SOCK_STREAM, 0);
    CHECK(bind(listener, place, sizeof address) == 0 && listen(listener, 0) == 0);
    CHECK(!is_full || connect(first, place, sizeof address) == 0);
    double start = now();
    expect_refusal((feqyldan_connection_t){.socket = address.sun_path,
                                           .announce = note, .argument = &announced},
                   is_full ? "-at: Operation canceled" : "the program cancelled the context");
    CHECK(now() - start < 5);
    CHECK(pthread_join(announced.other, NULL) == 0);
    CHECK(announced.contexts == 1 && announced.ends == 1);
    close(listener);
    close(first);
}

/* The arguments decide between the server in this process and another one. */
static void test_arguments_with_core(void) {
    CHECK(setenv("FEQYLDAN_PROGRAM", "/nowhere", 1) == 0);
    CHECK(setenv("FEQYLDAN_SERVER", "core", 1) == 0);
    expect_refusal((feqyldan_connection_t){.program = "/no/program"}, "can't start /no/program: ");
    expect_refusal((feqyldan_connection_t){.server = "process"}, "can't start /nowhere: ");
    expect_refusal((feqyldan_connection_t){.timeout = 5}, "can't start /nowhere: ");
    expect_refusal((feqyldan_connection_t){.socket = "/other"}, "can't connect to /other: ");
    CHECK(unsetenv("FEQYLDAN_SERVER") == 0 && setenv("FEQYLDAN_SOCKET", "/no/socket", 1) == 0);
    expect_refusal((feqyldan_connection_t){.server = "core", .timeout = 5},
                   "the timeout is set, and a call of a server in this process can't be given up: "
                   "unset it, or set server to process");
    CHECK(setenv("FEQYLDAN_TIMEOUT", "5", 1) == 0);
    expect_refusal((feqyldan_connection_t){.server = "core"}, "FEQYLDAN_TIMEOUT is set, and a ");
    CHECK(unsetenv("FEQYLDAN_TIMEOUT") == 0);
}

/* A cancel lets the call of a server in this process end with its own status. Later ones fail. */
static void test_cancel_with_core(void) {
    vx_context context = make_context(&(feqyldan_connection_t){.server = "core"});
    CHECK(context != NULL);
    vx_image in = vxCreateImage(context, SIDE, SIDE, VX_DF_IMAGE_U8);
    vx_image out = vxCreateImage(context, SIDE, SIDE, VX_DF_IMAGE_U8);
    pthread_t other;
    CHECK(pthread_create(&other, NULL, cancel_soon, context) == 0);
    double start = now();
    vx_status status = VX_SUCCESS;
    while (status == VX_SUCCESS && now() - start < 10)
        status = vxuNot(context, in, out);
    EXPECT(VX_FAILURE, status);
    CHECK(pthread_join(other, NULL) == 0);
    EXPECT(VX_SUCCESS, feqyldanGetFault(context, fault, sizeof fault));
    CHECK(strcmp(fault, "the program cancelled the context: make a new one") == 0);
    EXPECT(VX_FAILURE, vxuNot(context, in, out));
    EXPECT(VX_SUCCESS, vxReleaseContext(&context));
}

int main(void) {
    if (getenv("FEQYLDAN_CORE") != NULL) {
        test_arguments_with_core();
        test_cancel_with_core();
        test_cancel_of_run("core");
        return 0;
    }
    test_arguments();
    test_faults();
    test_cancel(vx_false_e);
    test_cancel(vx_true_e);
    test_cancelled_thread();
    test_cancel_of_run("process");
    test_cancel_of_a_context_that_is_made(vx_false_e);
    test_cancel_of_a_context_that_is_made(vx_true_e);
    return 0;
}
