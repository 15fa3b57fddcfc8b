/* Forks while another thread makes a context or releases it: the child gets none of the descriptors.
   The driver's server does each step once the file of the step is there, and makes files that say
   how far it is. The driver has the linker start programs by way of here. */
#define _XOPEN_SOURCE 700
#include "testing.h"

#include <fcntl.h>
#include <pthread.h>
#include <semaphore.h>
#include <spawn.h>
#include <sys/wait.h>
#include <time.h>
#include <unistd.h>

static vx_context context;
/* That the server's process is there, and that the other thread has forked. */
static sem_t is_spawned, is_forked;

static void sleep_a_little(void) {
    const struct timespec pause = {.tv_nsec = 50000000};
    nanosleep(&pause, NULL);
}

static const char *path_of(const char *step) {
    static char path[4096];
    snprintf(path, sizeof path, "%s/%s", getenv("STEPS"), step);
    return path;
}

/* Waits for the server's file, and then for what the other thread does before it waits too. */
static void await_step(const char *step) {
    while (access(path_of(step), F_OK) != 0)
        sleep_a_little();
    sleep_a_little();
}

static void allow_step(const char *step) {
    FILE *file = fopen(path_of(step), "w");
    CHECK(file != NULL && fclose(file) == 0);
}

static int count_descriptors(void) {
    int count = 0;
    for (int end = 3; end < 64; end++)
        count += fcntl(end, F_GETFD) >= 0;
    return count;
}

/* How many descriptors a child has. */
static int count_in_child(void) {
    int status;
    pid_t child = fork();
    if (child == 0)
        _exit(count_descriptors());
    CHECK(waitpid(child, &status, 0) == child && WIFEXITED(status));
    return WEXITSTATUS(status);
}

int __real_posix_spawnp(pid_t *process, const char *program,
                        const posix_spawn_file_actions_t *actions,
                        const posix_spawnattr_t *attributes, char *const words[],
                        char *const environment[]);
int __wrap_posix_spawnp(pid_t *process, const char *program,
                        const posix_spawn_file_actions_t *actions,
                        const posix_spawnattr_t *attributes, char *const words[],
                        char *const environment[]);

/* Gives the other thread the time to fork, which it does later where the library holds it back. */
int __wrap_posix_spawnp(pid_t *process, const char *program,
                        const posix_spawn_file_actions_t *actions,
                        const posix_spawnattr_t *attributes, char *const words[],
                        char *const environment[]) {
    struct timespec until;
    int error = __real_posix_spawnp(process, program, actions, attributes, words, environment);
    CHECK(sem_post(&is_spawned) == 0 && clock_gettime(CLOCK_REALTIME, &until) == 0);
    until.tv_sec++;
    sem_timedwait(&is_forked, &until);
    return error;
}

static void *make_context(void *unused) {
    context = vxCreateContext();
    EXPECT(VX_SUCCESS, STATUS(context));
    return unused;
}

static void *release_context(void *unused) {
    EXPECT(VX_SUCCESS, vxReleaseContext(&context));
    return unused;
}

int main(void) {
    pthread_t thread;
    int before = count_descriptors();
    CHECK(sem_init(&is_spawned, 0, 0) == 0 && sem_init(&is_forked, 0, 0) == 0);
    CHECK(pthread_create(&thread, NULL, make_context, NULL) == 0);
    CHECK(sem_wait(&is_spawned) == 0);
    CHECK(count_in_child() == before && sem_post(&is_forked) == 0);
    await_step("started");
    CHECK(count_descriptors() > before && count_in_child() == before);
    allow_step("open");
    CHECK(pthread_join(thread, NULL) == 0);
    CHECK(pthread_create(&thread, NULL, release_context, NULL) == 0);
    await_step("ending");
    CHECK(count_descriptors() > before && count_in_child() == before);
    allow_step("end");
    CHECK(pthread_join(thread, NULL) == 0);
    CHECK(count_descriptors() == before);
    return 0;
}
