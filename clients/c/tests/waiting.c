/* Waits for a server that has stopped, while a timer's signals come more often than the timeout
   ends, and a write that the system refuses. The driver names the socket, and a program that doesn't
   end by itself, and has the linker send by way of here. */
#define _XOPEN_SOURCE 700
#include "testing.h"

#include <errno.h>
#include <feqyldan/context.h>
#include <poll.h>
#include <pthread.h>
#include <signal.h>
#include <sys/socket.h>
#include <sys/time.h>
#include <sys/un.h>
#include <unistd.h>

enum { SIDE = 2048, TICK = 20000, MOST_TICKS = 500, HEAD = 7, CREATE_IMAGE = 3 };

static const feqyldan_connection_t soon = {.timeout = 0.2};
static char fault[VX_MAX_LOG_MESSAGE_LEN];
static int listener;
/* How many requests the server answers, and whether the next long write is refused. */
static int answered, is_refusing;
static volatile sig_atomic_t ticks;

ssize_t __real_sendmsg(int end, const struct msghdr *message, int flags);
ssize_t __wrap_sendmsg(int end, const struct msghdr *message, int flags);

ssize_t __wrap_sendmsg(int end, const struct msghdr *message, int flags) {
    if (!is_refusing || message->msg_iov[message->msg_iovlen - 1].iov_len < SIDE)
        return __real_sendmsg(end, message, flags);
    is_refusing = 0;
    errno = ENOBUFS;
    return -1;
}

/* A wait that the signals lengthen ends the test. */
static void on_tick(int signal) {
    (void)signal;
    if (++ticks > MOST_TICKS)
        _exit(9);
}

static void tick(void) {
    const struct itimerval often = {{0, TICK}, {0, TICK}};
    const struct sigaction action = {.sa_handler = on_tick, .sa_flags = SA_RESTART};
    CHECK(sigaction(SIGALRM, &action, NULL) == 0);
    CHECK(setitimer(ITIMER_REAL, &often, NULL) == 0);
}

/* Answers a request without a long body. */
static void answer(int end) {
    uint8_t frame[64], reply[12] = {0, 0, 0, 4};
    CHECK(recv(end, frame, HEAD, MSG_WAITALL) == HEAD);
    ssize_t body = frame[3] - 3;
    CHECK(body == 0 || recv(end, frame + HEAD, (size_t)body, MSG_WAITALL) == body);
    reply[6] = frame[6];
    reply[11] = 1;
    reply[3] = frame[6] == CREATE_IMAGE ? 8 : 4;
    CHECK(send(end, reply, 4u + reply[3], MSG_NOSIGNAL) == 4 + reply[3]);
}

/* Serves one context, and then waits for its end. */
static void *serve(void *unused) {
    int end = accept(listener, NULL, NULL);
    CHECK(end >= 0);
    for (int i = 0; i < answered; i++)
        answer(end);
    struct pollfd hung_up = {.fd = end};
    CHECK(poll(&hung_up, 1, -1) == 1);
    close(end);
    return unused;
}

/* The thread of the server gets no signals. */
static pthread_t start_server(int answers) {
    sigset_t alarm;
    pthread_t server;
    answered = answers;
    sigemptyset(&alarm);
    sigaddset(&alarm, SIGALRM);
    CHECK(pthread_sigmask(SIG_BLOCK, &alarm, NULL) == 0);
    CHECK(pthread_create(&server, NULL, serve, NULL) == 0);
    CHECK(pthread_sigmask(SIG_UNBLOCK, &alarm, NULL) == 0);
    ticks = 0;
    return server;
}

static void listen_at(const char *path, int backlog) {
    struct sockaddr_un address = {.sun_family = AF_UNIX};
    strcpy(address.sun_path, path);
    listener = socket(AF_UNIX, SOCK_STREAM, 0);
    CHECK(listener >= 0 && bind(listener, (struct sockaddr *)&address, sizeof address) == 0);
    CHECK(listen(listener, backlog) == 0);
}

/* The server reads nothing after the image is made. */
static vx_image make_image(vx_context *context) {
    *context = feqyldanCreateContext(&soon, fault, sizeof fault);
    CHECK(*context != NULL);
    vx_image image = vxCreateImage(*context, SIDE, SIDE, VX_DF_IMAGE_U8);
    EXPECT(VX_SUCCESS, STATUS(image));
    return image;
}

static void give_up_a_reply(void) {
    pthread_t server = start_server(0);
    CHECK(feqyldanCreateContext(&soon, fault, sizeof fault) == NULL);
    CHECK(strstr(fault, "the server didn't answer within the 0.2 s") == fault);
    CHECK(pthread_join(server, NULL) == 0);
}

static void give_up_a_write(int refuses) {
    static vx_uint8 samples[SIDE * SIDE];
    vx_context context;
    pthread_t server = start_server(2);
    vx_image image = make_image(&context);
    is_refusing = refuses;
    EXPECT(VX_FAILURE, copy_whole(image, SIDE, SIDE, 1, samples, VX_WRITE_ONLY));
    EXPECT(VX_SUCCESS, feqyldanGetFault(context, fault, sizeof fault));
    CHECK(is_refusing == 0 && (strstr(fault, "the server didn't answer") == NULL) == refuses);
    EXPECT(VX_SUCCESS, vxReleaseContext(&context));
    CHECK(pthread_join(server, NULL) == 0);
}

/* Nobody accepts, and as many programs wait as may. */
static void give_up_connecting(const char *path) {
    struct sockaddr_un address = {.sun_family = AF_UNIX};
    strcpy(address.sun_path, path);
    int other = socket(AF_UNIX, SOCK_STREAM, 0);
    CHECK(connect(other, (struct sockaddr *)&address, sizeof address) == 0);
    ticks = 0;
    CHECK(feqyldanCreateContext(&soon, fault, sizeof fault) == NULL);
    CHECK(strstr(fault, ": too many programs wait for it; allow more time") != NULL);
    close(other);
}

/* The end of a context waits for that of a program, for a second. */
static void give_up_a_program(void) {
    vx_context context = feqyldanCreateContext(
        &(feqyldan_connection_t){.program = getenv("ENDLESS_SERVER")}, fault, sizeof fault);
    CHECK(context != NULL);
    ticks = 0;
    EXPECT(VX_SUCCESS, vxReleaseContext(&context));
}

/* A copy of the socket, as another process may have it, keeps no server. */
static void end_a_copied_socket(void) {
    pthread_t server = start_server(1);
    int end = dup(0);
    CHECK(end > 0 && close(end) == 0);
    vx_context context = feqyldanCreateContext(&soon, fault, sizeof fault);
    int copy = dup(end);
    CHECK(context != NULL && copy > 0);
    EXPECT(VX_SUCCESS, vxReleaseContext(&context));
    CHECK(pthread_join(server, NULL) == 0);
    close(copy);
}

int main(void) {
    const char *path = getenv("FEQYLDAN_SOCKET");
    listen_at(path, 0);
    tick();
    give_up_a_reply();
    give_up_a_write(0);
    give_up_a_write(1);
    end_a_copied_socket();
    give_up_connecting(path);
    give_up_a_program();
    return 0;
}
