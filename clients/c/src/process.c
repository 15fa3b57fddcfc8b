/* Reaching a server: connecting to a socket, or starting a program. */
#define _GNU_SOURCE
#include "internal.h"

#include <dirent.h>
#include <errno.h>
#include <fcntl.h>
#include <locale.h>
#include <signal.h>
#include <spawn.h>
#include <stdlib.h>
#include <string.h>
#include <sys/auxv.h>
#include <sys/mman.h>
#include <sys/socket.h>
#include <sys/time.h>
#include <sys/un.h>
#include <sys/wait.h>
#include <time.h>
#include <unistd.h>

extern char **environ;

/* END_TIME is how long a server may take to end after its input has ended, in milliseconds. It has
   nothing to lose when it is killed. CONNECT_TIME is in milliseconds too. PIPE_BYTES is the
   capacity of the pipe: by default the pipes of a user have 64 MiB together. GREATEST_TIMEOUT is
   in seconds. */
enum { END_TIME = 1000, CONNECT_TIME = 100, PIPE_BYTES = 1 << 19, GREATEST_TIMEOUT = 1000000 };

static const char NAME_SERVER[] =
    "; set FEQYLDAN_PROGRAM to a server, or FEQYLDAN_SOCKET to a socket";

static bool not_connected(const feqyldan_connection_t *given, const char *path, int error,
                          char *why, size_t size) {
    const char *advice = "";
    /* The environment can't help where the arguments decide. */
    if (error == ENOENT && given->socket == NULL)
        advice = NAME_SERVER;
    if (error == EAGAIN)
        advice = given->timeout == 0
                     ? ": too many programs wait for it; allow more time by FEQYLDAN_TIMEOUT"
                     : ": too many programs wait for it; allow more time";
    snprintf(why, size, "can't connect to %s: %s%s", path, strerror(error), advice);
    return false;
}

static bool not_started(const feqyldan_connection_t *given, const char *program, int error,
                        char *why, size_t size) {
    const char *advice = "";
    if (error == ENOENT && given->program == NULL && !is_privileged())
        advice = given->server == NULL ? NAME_SERVER : "; set FEQYLDAN_PROGRAM to a server";
    if (error == EAGAIN)
        advice = ": there are too many processes; end some, or allow more (ulimit -u)";
    snprintf(why, size, "can't start %s: %s%s", program, strerror(error), advice);
    return false;
}

/* By the environment the user could misuse the program's rights. */
bool is_privileged(void) { return getauxval(AT_SECURE) != 0; }

const char *setting(const char *name) {
    const char *value = is_privileged() ? NULL : getenv(name);
    return value != NULL && *value != '\0' ? value : NULL;
}

/* The program to start; NULL for one that is looked for in PATH. */
static const char *named_program(void) {
    return is_privileged() ? "/usr/bin/feqyldan" : setting("FEQYLDAN_PROGRAM");
}

/* Parses a number with a decimal point, whatever the locale of the program has. */
static double parse_number(const char *text, char **rest) {
    locale_t plain = newlocale(LC_NUMERIC_MASK, "C", (locale_t)0);
    if (plain == (locale_t)0)
        return strtod(text, rest);
    double number = strtod_l(text, rest, plain);
    freelocale(plain);
    return number;
}

/* Sets how long to wait for the server to accept or send a byte: the given seconds, or for 0 those
   of the environment. */
static bool set_timeout(struct connection *connection, double given, char *why, size_t size) {
    const char *said = given == 0 ? setting("FEQYLDAN_TIMEOUT") : NULL;
    char *rest = "", number[32];
    double seconds = said == NULL ? given : parse_number(said, &rest);
    connection->timeout = -1;
    connection->timeout_owner = said == NULL ? "the program" : "FEQYLDAN_TIMEOUT";
    if (said == NULL && given == 0)
        return true;
    if (*rest != '\0' || !(seconds >= 0.001 && seconds <= GREATEST_TIMEOUT)) {
        snprintf(number, sizeof number, "%g", given);
        snprintf(why, size, "%s is %s, and has to be 0.001 to %d seconds",
                 said == NULL ? "the timeout" : "FEQYLDAN_TIMEOUT", said == NULL ? number : said,
                 GREATEST_TIMEOUT);
        return false;
    }
    connection->timeout = (int)(seconds * 1000);
    return true;
}

/* Limits how long a call waits at a socket: SO_RCVTIMEO for a byte, SO_SNDTIMEO to be accepted. */
static void limit_wait(int end, int option, int milliseconds) {
    const struct timeval limit = {milliseconds / 1000, milliseconds % 1000 * 1000};
    if (milliseconds >= 0)
        setsockopt(end, SOL_SOCKET, option, &limit, sizeof limit);
}

/* Connects within the timeout, however many signals come. Returns 0 or an error. A cancel can't
   wake the call, so it waits for CONNECT_TIME and is made again. */
static int connect_in_time(const struct connection *connection, const struct sockaddr_un *address) {
    const int64_t deadline = deadline_after(connection->timeout);
    int left = connection->timeout;
    for (; left != 0 && !connection->is_cancelled; left = time_left(deadline)) {
        limit_wait(connection->in, SO_SNDTIMEO,
                   left < 0 || left > CONNECT_TIME ? CONNECT_TIME : left);
        if (connect(connection->in, (const struct sockaddr *)address, sizeof *address) == 0)
            return 0;
        if (errno != EINTR && errno != EAGAIN)
            return errno;
    }
    return connection->is_cancelled ? ECANCELED : EAGAIN;
}

static bool reach_socket(struct connection *connection, const feqyldan_connection_t *given,
                         char *why, size_t size) {
    struct sockaddr_un address = {.sun_family = AF_UNIX};
    const char *path = given->socket != NULL ? given->socket : setting("FEQYLDAN_SOCKET");
    if (strlen(path) >= sizeof address.sun_path)
        return not_connected(given, path, ENAMETOOLONG, why, size);
    strcpy(address.sun_path, path);
    connection->in = socket(AF_UNIX, SOCK_STREAM | SOCK_CLOEXEC, 0);
    if (connection->in < 0)
        return not_connected(given, path, errno, why, size);
    limit_wait(connection->in, SO_RCVTIMEO, connection->timeout);
    int error = connect_in_time(connection, &address);
    if (error != 0)
        return not_connected(given, path, error, why, size);
    connection->out = connection->in;
    return true;
}

/* What a started program gets as its standard input, output and error. */
struct ends {
    int input, output, errors;
};

/* Closes all other descriptors in the started program: else the files and pipes of this one would
   stay open until the server ends. */
static int plan_closing(posix_spawn_file_actions_t *actions) {
#if defined(__GLIBC__) && (__GLIBC__ > 2 || __GLIBC_MINOR__ >= 34)
    return posix_spawn_file_actions_addclosefrom_np(actions, 3);
#else
    /* Closes those that are open now: there is no call for all of them. */
    int error = 0;
    DIR *open = opendir("/proc/self/fd");
    for (struct dirent *entry; open != NULL && (entry = readdir(open)) != NULL;) {
        int end = atoi(entry->d_name);
        if (end > 2 && error == 0)
            error = posix_spawn_file_actions_addclose(actions, end);
    }
    if (open != NULL)
        closedir(open);
    return error;
#endif
}

static int plan_descriptors(posix_spawn_file_actions_t *actions, struct ends theirs) {
    int error = posix_spawn_file_actions_adddup2(actions, theirs.input, 0);
    error = error ? error : posix_spawn_file_actions_adddup2(actions, theirs.output, 1);
    error = error ? error : posix_spawn_file_actions_adddup2(actions, theirs.errors, 2);
    return error ? error : plan_closing(actions);
}

/* Copies the environment for the server; a privileged program's server gets only a fixed PATH
   instead. GLIBC_TUNABLES is added unless it is set: malloc then uses huge pages, in which pictures
   are read and computed in less time. Returns NULL where there is no memory. */
static char **copy_environment(void) {
    static char tunables[] = "GLIBC_TUNABLES=glibc.malloc.hugetlb=1", path[] = "PATH=/usr/bin:/bin";
    char *safe[] = {path, NULL}, **given = is_privileged() ? safe : environ;
    size_t count = 0;
    while (given != NULL && given[count] != NULL)
        count++;
    char **copy = calloc(count + 2, sizeof *copy);
    if (copy == NULL)
        return NULL;
    for (size_t i = 0; i < count; i++)
        copy[i] = given[i];
    if (setting("GLIBC_TUNABLES") == NULL)
        copy[count] = tunables;
    return copy;
}

/* Starts a program in a session of its own, so that Ctrl-C doesn't end it, and with the default
   handling of signals. */
static int spawn(const char *program, char **environment, struct ends theirs, pid_t *process) {
    posix_spawn_file_actions_t actions;
    posix_spawnattr_t attributes;
    sigset_t none, all;
    sigemptyset(&none);
    sigfillset(&all);
    sigdelset(&all, SIGKILL);
    sigdelset(&all, SIGSTOP);
    if (posix_spawn_file_actions_init(&actions) != 0)
        return ENOMEM;
    if (posix_spawnattr_init(&attributes) != 0) {
        posix_spawn_file_actions_destroy(&actions);
        return ENOMEM;
    }
    posix_spawnattr_setsigmask(&attributes, &none);
    posix_spawnattr_setsigdefault(&attributes, &all);
    posix_spawnattr_setflags(
        &attributes, POSIX_SPAWN_SETSID | POSIX_SPAWN_SETSIGMASK | POSIX_SPAWN_SETSIGDEF);
    const char *quota = setting("FEQYLDAN_QUOTA");
    char *words[] = {(char *)program, "serve", quota == NULL ? NULL : "--quota", (char *)quota,
                     NULL};
    int error = plan_descriptors(&actions, theirs);
    if (error == 0)
        error = posix_spawnp(process, program, &actions, &attributes, words, environment);
    posix_spawnattr_destroy(&attributes);
    posix_spawn_file_actions_destroy(&actions);
    return error;
}

/* Starts a program, or for NULL the first one that is found. */
static int spawn_found(const char *program, struct ends theirs, pid_t *process) {
    char **environment = copy_environment();
    if (environment == NULL)
        return ENOMEM;
    int error = spawn(program != NULL ? program : "feqyldan", environment, theirs, process);
    if (error != 0 && program == NULL) {
        int other = spawn("vx_main", environment, theirs, process);
        /* That there is no vx_main doesn't say why the first one can't be started. */
        error = other == ENOENT ? error : other;
    }
    free(environment);
    return error;
}

static void close_all(int *ends, int count) {
    for (int i = 0; i < count; i++)
        if (ends[i] >= 0)
            close(ends[i]);
}

/* Moves a descriptor above the standard ones, which it would lose in the started program. Returns
   0 or an error. */
static int move_up(int *end) {
    if (*end >= 3)
        return 0;
    int moved = fcntl(*end, F_DUPFD_CLOEXEC, 3);
    if (moved < 0)
        return errno;
    close(*end);
    *end = moved;
    return 0;
}

/* Makes a pipe, a pair of sockets and a file in memory. Returns 0, or an error and none of them. */
static int make_ends(int ends[5]) {
    for (int i = 0; i < 5; i++)
        ends[i] = -1;
    int error = 0;
    if (pipe2(ends, O_CLOEXEC) != 0 ||
        socketpair(AF_UNIX, SOCK_STREAM | SOCK_CLOEXEC, 0, ends + 2) != 0 ||
        (ends[4] = memfd_create("feqyldan", MFD_CLOEXEC)) < 0)
        error = errno;
    for (int i = 0; i < 5 && error == 0; i++)
        error = move_up(&ends[i]);
    if (error != 0)
        close_all(ends, 5);
    return error;
}

/* Starts a program, or for NULL the first one that is found. Returns 0 or an error. */
static int start_program(struct connection *connection, const char *program) {
    int ends[5];
    int error = make_ends(ends);
    if (error != 0)
        return error;
    error = spawn_found(program, (struct ends){ends[0], ends[3], ends[4]}, &connection->process);
    if (error != 0) {
        connection->process = 0;
        close_all(ends, 5);
        return error;
    }
    close(ends[3]);
    /* This process keeps the reading end of the pipe too, so that a write to an ended server never
       raises SIGPIPE. That the server has ended shows at the socket. */
    connection->pipe_reader = ends[0];
    connection->out = ends[1];
    connection->in = ends[2];
    connection->errors = ends[4];
    return 0;
}

static bool start(struct connection *connection, const feqyldan_connection_t *given, char *why,
                  size_t size) {
    const char *named = given->program != NULL ? given->program : named_program();
    /* A child that got the ends before the connection has them wouldn't close them, and the server
       would live as long as the child. */
    hold_forks_back();
    int error = start_program(connection, named);
    let_forks_go_on();
    if (error != 0)
        return not_started(given, named != NULL ? named : "feqyldan or vx_main", error, why, size);
    fcntl(connection->out, F_SETFL, O_NONBLOCK);
    /* If that much isn't allowed, the pipe stays as it is. */
    fcntl(connection->out, F_SETPIPE_SZ, PIPE_BYTES);
    limit_wait(connection->in, SO_RCVTIMEO, connection->timeout);
    return true;
}

/* How a server is reached. FOUND: in this process if its library is found, else as a process. */
enum way { FOUND, CORE, PROCESS, SOCKET };

static const char *or_none(const char *text) { return text != NULL ? text : "not given"; }

/* Checks that the arguments name at most one server, and what FEQYLDAN_SERVER and `server` say. */
static bool check_server(const feqyldan_connection_t *given, char *why, size_t size) {
    const char *server = given->server != NULL ? given->server : setting("FEQYLDAN_SERVER");
    if ((given->program != NULL) + (given->socket != NULL) + (given->server != NULL) > 1) {
        snprintf(why, size,
                 "program is %s, socket is %s and server is %s: give at most one of them",
                 or_none(given->program), or_none(given->socket), or_none(given->server));
        return false;
    }
    if (server == NULL || strcmp(server, "core") == 0 || strcmp(server, "process") == 0)
        return true;
    snprintf(why, size, "%s is %s, and has to be core or process",
             given->server != NULL ? "server" : "FEQYLDAN_SERVER", server);
    return false;
}

static enum way way_of(const char *server) {
    return strcmp(server, "core") == 0 ? CORE : PROCESS;
}

/* The arguments decide before the environment. A program means a process, and so does a timeout:
   only a process can be given up. */
static enum way choose_way(const feqyldan_connection_t *given) {
    if (given->server != NULL)
        return way_of(given->server);
    if (given->program != NULL)
        return PROCESS;
    if (given->socket != NULL || setting("FEQYLDAN_SOCKET") != NULL)
        return SOCKET;
    if (given->timeout != 0)
        return PROCESS;
    if (setting("FEQYLDAN_SERVER") != NULL)
        return way_of(setting("FEQYLDAN_SERVER"));
    if (setting("FEQYLDAN_PROGRAM") != NULL)
        return PROCESS;
    if (setting("FEQYLDAN_CORE") != NULL)
        return CORE;
    return setting("FEQYLDAN_TIMEOUT") != NULL ? PROCESS : FOUND;
}

/* Opens the server in this process that was asked for. */
static bool open_wanted_core(struct connection *connection, const feqyldan_connection_t *given,
                             char *why, size_t size) {
    if (connection->timeout < 0)
        return find_core(&connection->core, why, size) && open_core(connection, why, size);
    snprintf(why, size,
             "%s is set, and a call of a server in this process can't be given up: unset it, or "
             "set %s to process",
             given->timeout != 0 ? "the timeout" : "FEQYLDAN_TIMEOUT",
             given->server != NULL ? "server" : "FEQYLDAN_SERVER");
    return false;
}

bool reach_server(struct connection *connection, const feqyldan_connection_t *given, char *why,
                  size_t size) {
    if (!check_server(given, why, size) || !set_timeout(connection, given->timeout, why, size))
        return false;
    enum way way = choose_way(given);
    if (way == SOCKET)
        return reach_socket(connection, given, why, size);
    if (way == CORE)
        return open_wanted_core(connection, given, why, size);
    if (way == FOUND && find_core(&connection->core, why, size))
        return open_core(connection, why, size);
    return start(connection, given, why, size);
}

/* Reads until the server closes its output, or sends nothing for END_TIME. */
static void drain(int stream) {
    uint8_t unread[4096];
    struct pollfd wanted = {.fd = stream, .events = POLLIN};
    for (;;) {
        if (poll_until(deadline_after(END_TIME), &wanted, 1) <= 0)
            return;
        ssize_t count = recv(stream, unread, sizeof unread, MSG_DONTWAIT);
        if (count == 0 || (count < 0 && errno != EINTR && errno != EAGAIN))
            return;
    }
}

/* Waits until a process has ended. Kills it if that takes longer than a tenth of END_TIME. */
static void await_process(pid_t process) {
    const struct timespec pause = {.tv_nsec = 1000000};
    for (int waited = 0; waited < END_TIME / 10; waited++) {
        if (waitpid(process, NULL, WNOHANG) != 0)
            return;
        nanosleep(&pause, NULL);
    }
    kill(process, SIGKILL);
    while (waitpid(process, NULL, 0) < 0 && errno == EINTR)
        ;
}

/* The connection forgets descriptors before they are closed: else another thread that forks could
   have the child close what got the number meanwhile. */
static void close_descriptors(struct connection *connection) {
    int ends[] = {connection->in, connection->errors, connection->pipe_reader,
                  connection->out == connection->in ? -1 : connection->out};
    connection->in = connection->errors = connection->pipe_reader = connection->out = -1;
    close_all(ends, sizeof ends / sizeof *ends);
}

void end_server(struct connection *connection) {
    if (connection->process > 0) {
        int input[] = {connection->pipe_reader, connection->out};
        connection->pipe_reader = connection->out = -1;
        close_all(input, sizeof input / sizeof *input);
        /* One that didn't answer in time may not end in time either. */
        if (connection->has_timed_out || connection->is_cancelled)
            kill(connection->process, SIGKILL);
        drain(connection->in);
        await_process(connection->process);
    }
    /* Another process may have a copy of a socket for a while. */
    shutdown(connection->in, SHUT_RDWR);
    close_descriptors(connection);
    connection->process = 0;
}

void leave_to_parent(struct connection *connection) {
    close_descriptors(connection);
    connection->process = 0;
    connection->has_ended = connection->is_inherited = true;
}
