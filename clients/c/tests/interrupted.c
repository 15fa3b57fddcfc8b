/* A program that Ctrl-C interrupts, as the driver does it, and that goes on with its context. */
#define _XOPEN_SOURCE 700
#include "testing.h"

#include <signal.h>

int main(void) {
    sigset_t interruption;
    int which = 0;
    sigemptyset(&interruption);
    sigaddset(&interruption, SIGINT);
    CHECK(sigprocmask(SIG_BLOCK, &interruption, NULL) == 0);
    vx_uint8 sample = 7;
    vx_context context = vxCreateContext();
    vx_image a = vxCreateImage(context, 1, 1, VX_DF_IMAGE_U8);
    vx_image b = vxCreateImage(context, 1, 1, VX_DF_IMAGE_U8);
    EXPECT(VX_SUCCESS, copy_whole(a, 1, 1, 1, &sample, VX_WRITE_ONLY));
    printf("ready\n");
    fflush(stdout);
    CHECK(sigwait(&interruption, &which) == 0 && which == SIGINT);
    EXPECT(VX_SUCCESS, vxuNot(context, a, b));
    EXPECT(VX_SUCCESS, copy_whole(b, 1, 1, 1, &sample, VX_READ_ONLY));
    CHECK(sample == 255 - 7);
    EXPECT(VX_SUCCESS, vxReleaseContext(&context));
    return 0;
}
