/* Contexts until none is given; how many there were. */
#include "testing.h"

enum { MOST = 20 };

int main(void) {
    vx_context contexts[MOST];
    int count = 0;
    while (count < MOST && (contexts[count] = vxCreateContext()) != NULL)
        count++;
    printf("%d\n", count);
    while (count > 0)
        EXPECT(VX_SUCCESS, vxReleaseContext(&contexts[--count]));
    return 0;
}
