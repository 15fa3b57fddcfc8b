/* A program whose own functions have the names that every program has. */
#include <VX/vx.h>
#include <stdio.h>
#include <stdlib.h>

void check(int is_right, const char *what);
void release(vx_image *image);
void *make(void);
int run(void), tell(void), fill(void), look(void), leave(void), start(void), end(void);

void check(int is_right, const char *what) {
    if (is_right)
        return;
    fprintf(stderr, "%s\n", what);
    exit(1);
}

void release(vx_image *image) { vxReleaseImage(image); }
void *make(void) { return NULL; }
int run(void) { return 1; }
int tell(void) { return 2; }
int fill(void) { return 3; }
int look(void) { return 4; }
int leave(void) { return 5; }
int start(void) { return 6; }
int end(void) { return 7; }

int main(void) {
    vx_context context = vxCreateContext();
    check(context != NULL, "no context");
    vx_image image = vxCreateImage(context, 8, 8, VX_DF_IMAGE_U8);
    check(vxGetStatus((vx_reference)image) == VX_SUCCESS, "no image");
    release(&image);
    check(vxReleaseContext(&context) == VX_SUCCESS && image == make(), "no release");
    return run() + tell() + fill() + look() + leave() + start() + end() == 28 ? 0 : 1;
}
