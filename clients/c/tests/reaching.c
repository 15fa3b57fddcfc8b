/* Which server is looked for, and what is said where there is none. The driver has the linker start
   programs by way of here, where none starts. */
#define _XOPEN_SOURCE 700
#include "testing.h"

#include <errno.h>
#include <feqyldan/context.h>
#include <spawn.h>

#define NO_FILE "No such file or directory"
#define BOTH NO_FILE "; set FEQYLDAN_PROGRAM to a server, or FEQYLDAN_SOCKET to a socket"

/* Why vx_main doesn't start, and why any other program doesn't. */
static int no_vx_main = ENOENT, no_other = ENOENT;

int __wrap_posix_spawnp(pid_t *process, const char *program,
                        const posix_spawn_file_actions_t *actions,
                        const posix_spawnattr_t *attributes, char *const words[],
                        char *const environment[]);

int __wrap_posix_spawnp(pid_t *process, const char *program,
                        const posix_spawn_file_actions_t *actions,
                        const posix_spawnattr_t *attributes, char *const words[],
                        char *const environment[]) {
    CHECK(process != NULL && actions != NULL && attributes != NULL && words[0] == program &&
          environment != NULL);
    return strcmp(program, "vx_main") == 0 ? no_vx_main : no_other;
}

static void says(feqyldan_connection_t connection, const char *words) {
    char fault[VX_MAX_LOG_MESSAGE_LEN];
    CHECK(feqyldanCreateContext(&connection, fault, sizeof fault) == NULL);
    if (strcmp(fault, words) != 0)
        fprintf(stderr, "%s\nand not %s\n", fault, words);
    CHECK(strcmp(fault, words) == 0);
}

static void set(const char *name, const char *value) { CHECK(setenv(name, value, 1) == 0); }

/* The environment is advised only where it decides. */
static void advise(void) {
    says((feqyldan_connection_t){.timeout = 9}, "can't start feqyldan or vx_main: " BOTH);
    says((feqyldan_connection_t){.server = "process"},
         "can't start feqyldan or vx_main: " NO_FILE "; set FEQYLDAN_PROGRAM to a server");
    says((feqyldan_connection_t){.program = "/a"}, "can't start /a: " NO_FILE);
    says((feqyldan_connection_t){.socket = "/b"}, "can't connect to /b: " NO_FILE);
    set("FEQYLDAN_SOCKET", "/c");
    says((feqyldan_connection_t){0}, "can't connect to /c: " BOTH);
    CHECK(unsetenv("FEQYLDAN_SOCKET") == 0);
}

/* Of two programs that don't start the one that is there says why. */
static void tell_why(void) {
    const feqyldan_connection_t process = {.server = "process"};
    no_other = EACCES;
    says(process, "can't start feqyldan or vx_main: Permission denied");
    no_vx_main = EACCES;
    no_other = ENOENT;
    says(process, "can't start feqyldan or vx_main: Permission denied");
    no_vx_main = no_other = EAGAIN;
    says(process, "can't start feqyldan or vx_main: Resource temporarily unavailable: there are too "
                  "many processes; end some, or allow more (ulimit -u)");
    no_vx_main = no_other = ENOENT;
}

/* A program that somebody named wins over a library, but not over FEQYLDAN_SERVER. */
static void choose(void) {
    const feqyldan_connection_t none = {0};
    set("FEQYLDAN_PROGRAM", "/d");
    set("FEQYLDAN_CORE", "libm.so.6");
    says(none, "can't start /d: " BOTH);
    set("FEQYLDAN_SERVER", "core");
    says(none, "libm.so.6 isn't a server: it lacks calls of feqyldan/core.h");
    CHECK(unsetenv("FEQYLDAN_SERVER") == 0 && unsetenv("FEQYLDAN_PROGRAM") == 0);
    says(none, "libm.so.6 isn't a server: it lacks calls of feqyldan/core.h");
}

int main(void) {
    static const char *const settings[] = {"FEQYLDAN_SOCKET", "FEQYLDAN_SERVER", "FEQYLDAN_CORE",
                                           "FEQYLDAN_PROGRAM", "FEQYLDAN_TIMEOUT"};
    for (size_t i = 0; i < sizeof settings / sizeof *settings; i++)
        CHECK(unsetenv(settings[i]) == 0);
    advise();
    tell_why();
    choose();
    return 0;
}
