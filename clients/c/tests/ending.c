/* A server that ends: the driver has the program be one that answers the first requests alone. */
#include "testing.h"

static int entries;

static void on_entry(vx_context context, vx_reference ref, vx_status status,
                     const vx_char string[]) {
    (void)context;
    (void)ref;
    if (status == VX_FAILURE) {
        entries++;
        printf("%s\n", string);
    }
}

int main(void) {
    static vx_uint8 samples[4096 * 1024];
    vx_context context = vxCreateContext();
    if (context == NULL)
        return 3;
    vxRegisterLogCallback(context, on_entry, vx_false_e);
    vx_image image = vxCreateImage(context, 4096, 1024, VX_DF_IMAGE_U8);
    EXPECT(VX_SUCCESS, STATUS(image));
    EXPECT(VX_FAILURE, copy_whole(image, 4096, 1024, 1, samples, VX_WRITE_ONLY));
    EXPECT(VX_FAILURE, copy_whole(image, 4096, 1024, 1, samples, VX_READ_ONLY));
    EXPECT(VX_FAILURE, STATUS(vxCreateGraph(context)));
    CHECK(entries == 3);
    EXPECT(VX_SUCCESS, vxReleaseImage(&image));
    EXPECT(VX_SUCCESS, vxReleaseContext(&context));
    return 0;
}
