/* A program with a context whose child lives on: the driver kills the program, and its server ends
   though the child doesn't. */
#include "testing.h"

#include <unistd.h>

int main(void) {
    vx_context context = vxCreateContext();
    EXPECT(VX_SUCCESS, STATUS(context));
    pid_t child = fork();
    if (child == 0) {
        close(1);
        pause();
        _exit(0);
    }
    printf("%d\n", (int)child);
    fflush(stdout);
    pause();
    return 0;
}
