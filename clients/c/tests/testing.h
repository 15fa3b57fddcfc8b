/* What the test programs share. */
#ifndef TESTING_H
#define TESTING_H

#include <VX/vx.h>
#include <VX/vxu.h>
#include <stdio.h>
#include <stdlib.h>
#include <string.h>

/* Ends the program where a call gives another status than it should. */
#define EXPECT(status, call) expect_status(status, call, #call, __LINE__)
#define STATUS(object) vxGetStatus((vx_reference)(object))
#define CHECK(condition) expect_status(1, (condition) ? 1 : 0, #condition, __LINE__)

/* A call gives a status, with one log entry, which begins so. The program counts its
   entries, and keeps what the last one said. */
#define SAYS(status, call, words)                                                                  \
    do {                                                                                           \
        int before = entries;                                                                      \
        EXPECT(status, call);                                                                      \
        if (entries != before + 1 || strncmp(said, words, strlen(words)) != 0)                     \
            fprintf(stderr, "%d entries: %s\n", entries - before, said);                           \
        CHECK(entries == before + 1 && strncmp(said, words, strlen(words)) == 0);                  \
    } while (0)

static inline void expect_status(vx_status expected, vx_status given, const char *call, int line) {
    if (expected == given)
        return;
    fprintf(stderr, "line %d: %s gives %d and not %d\n", line, call, given, expected);
    exit(1);
}

/* The same numbers in every run, and in the driver. */
static inline vx_uint32 next_number(vx_uint32 *state) {
    *state = *state * 1664525u + 1013904223u;
    return *state >> 8;
}

static inline vx_imagepatch_addressing_t by_rows(vx_uint32 width, vx_uint32 height, int size) {
    vx_imagepatch_addressing_t addr = VX_IMAGEPATCH_ADDR_INIT;
    addr.dim_x = width;
    addr.dim_y = height;
    addr.stride_x = size;
    addr.stride_y = (vx_int32)width * size;
    return addr;
}

/* All samples of an image from or to memory by rows. */
static inline vx_status copy_whole(vx_image image, vx_uint32 width, vx_uint32 height, int size,
                                   void *samples, vx_enum usage) {
    const vx_rectangle_t whole = {0, 0, width, height};
    const vx_imagepatch_addressing_t addr = by_rows(width, height, size);
    return vxCopyImagePatch(image, &whole, 0, &addr, samples, usage, VX_MEMORY_TYPE_HOST);
}

#endif
