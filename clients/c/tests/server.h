/* The server of the context that was made last. Its program is the driver's, which writes its
   process's number to the file that the environment names. Whoever includes this defines
   _XOPEN_SOURCE before. */
#ifndef SERVER_H
#define SERVER_H

#include "testing.h"

#include <signal.h>
#include <sys/wait.h>

static inline pid_t server_process(void) {
    int process = 0;
    FILE *file = fopen(getenv("SERVER_PROCESS"), "r");
    CHECK(file != NULL && fscanf(file, "%d", &process) == 1 && process > 0);
    fclose(file);
    return process;
}

/* Ends it, and waits until it has. The library is left to wait for it too. */
static inline void kill_server(void) {
    siginfo_t ended;
    pid_t process = server_process();
    CHECK(kill(process, SIGKILL) == 0);
    CHECK(waitid(P_PID, (id_t)process, &ended, WEXITED | WNOWAIT) == 0);
}

#endif
