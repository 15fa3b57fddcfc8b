/* Builds the graph of a file, runs it, and prints its outputs after each run:
   graph_files FILE WIDTH HEIGHT RUNS < the pictures of each run. Width and height may be 0. Where
   there is a fault, prints that alone. */
#include "testing.h"

#include <feqyldan/context.h>
#include <feqyldan/graph_file.h>

static char fault[4096];

static int size_of(vx_df_image format) {
    return format == VX_DF_IMAGE_U8 ? 1 : format == VX_DF_IMAGE_S16 ? 2 : 4;
}

static void copy(vx_image image, vx_uint32 sides[2], vx_df_image *format, void **samples,
                 vx_enum usage) {
    EXPECT(VX_SUCCESS, vxQueryImage(image, VX_IMAGE_WIDTH, sides, sizeof *sides));
    EXPECT(VX_SUCCESS, vxQueryImage(image, VX_IMAGE_HEIGHT, sides + 1, sizeof *sides));
    EXPECT(VX_SUCCESS, vxQueryImage(image, VX_IMAGE_FORMAT, format, sizeof *format));
    size_t size = (size_t)size_of(*format), count = (size_t)sides[0] * sides[1];
    *samples = malloc(size * count);
    CHECK(*samples != NULL);
    if (usage == VX_WRITE_ONLY)
        CHECK(fread(*samples, size, count, stdin) == count);
    EXPECT(VX_SUCCESS, copy_whole(image, sides[0], sides[1], (int)size, *samples, usage));
}

static void read_picture(vx_image image) {
    vx_uint32 sides[2];
    vx_df_image format;
    void *samples;
    copy(image, sides, &format, &samples, VX_WRITE_ONLY);
    free(samples);
}

static void print_picture(vx_image image) {
    vx_uint32 sides[2];
    vx_df_image format;
    void *samples;
    copy(image, sides, &format, &samples, VX_READ_ONLY);
    for (vx_uint32 at = 0; at < sides[0] * sides[1]; at++)
        if (format == VX_DF_IMAGE_U8)
            printf(" %u", ((vx_uint8 *)samples)[at]);
        else if (format == VX_DF_IMAGE_S16)
            printf(" %d", ((vx_int16 *)samples)[at]);
        else
            printf(" %u", ((vx_uint32 *)samples)[at]);
    free(samples);
}

static void print_counts(vx_distribution distribution, vx_uint32 bins) {
    vx_uint32 counts[256];
    EXPECT(VX_SUCCESS, vxCopyDistribution(distribution, counts, VX_READ_ONLY, VX_MEMORY_TYPE_HOST));
    for (vx_uint32 bin = 0; bin < bins; bin++)
        printf(" %u", counts[bin]);
}

static int number_of(vx_scalar scalar) {
    union {
        vx_uint8 u8;
        vx_int16 s16;
    } value;
    vx_enum type;
    EXPECT(VX_SUCCESS, vxQueryScalar(scalar, VX_SCALAR_TYPE, &type, sizeof type));
    EXPECT(VX_SUCCESS, vxCopyScalar(scalar, &value, VX_READ_ONLY, VX_MEMORY_TYPE_HOST));
    return type == VX_TYPE_UINT8 ? value.u8 : value.s16;
}

static void print_extremes(const feqyldan_extremes_t *extremes) {
    vx_uint32 counts[2];
    vx_coordinates2d_t places[2];
    EXPECT(VX_SUCCESS,
           vxCopyScalar(extremes->min_count, counts, VX_READ_ONLY, VX_MEMORY_TYPE_HOST));
    EXPECT(VX_SUCCESS,
           vxCopyScalar(extremes->max_count, counts + 1, VX_READ_ONLY, VX_MEMORY_TYPE_HOST));
    EXPECT(VX_SUCCESS, vxCopyArrayRange(extremes->min_at, 0, 1, sizeof *places, places,
                                        VX_READ_ONLY, VX_MEMORY_TYPE_HOST));
    EXPECT(VX_SUCCESS, vxCopyArrayRange(extremes->max_at, 0, 1, sizeof *places, places + 1,
                                        VX_READ_ONLY, VX_MEMORY_TYPE_HOST));
    printf(" %d %d %u %u %u %u %u %u", number_of(extremes->min), number_of(extremes->max),
           counts[0], counts[1], places[0].x, places[0].y, places[1].x, places[1].y);
}

static void print_output(const feqyldan_graph_t *graph, const feqyldan_object_t *object) {
    vx_reference reference = feqyldanFindObject(graph, object->name);
    printf("%s", object->name);
    if (strcmp(object->kind, "extremes") == 0)
        print_extremes(feqyldanFindExtremes(graph, object->name));
    else if (strcmp(object->kind, "distribution") == 0)
        print_counts((vx_distribution)reference, object->count);
    else
        print_picture((vx_image)reference);
    printf("\n");
}

static void run(const feqyldan_graph_file_t *file, const feqyldan_graph_t *graph) {
    vx_size count;
    const feqyldan_object_t *objects = feqyldanGetObjects(file, &count);
    for (vx_size at = 0; at < count; at++)
        if (objects[at].is_input)
            read_picture((vx_image)feqyldanFindObject(graph, objects[at].name));
    EXPECT(VX_SUCCESS, vxProcessGraph(feqyldanGetGraph(graph)));
    for (vx_size at = 0; at < count; at++)
        if (objects[at].is_output)
            print_output(graph, &objects[at]);
}

static vx_uint32 number_argument(const char *word) { return (vx_uint32)strtoul(word, NULL, 10); }

int main(int count, char **words) {
    CHECK(count == 5);
    feqyldan_graph_file_t *file = feqyldanReadGraphFile(words[1], fault, sizeof fault);
    if (file == NULL) {
        printf("%s\n", fault);
        return 0;
    }
    vx_context context = vxCreateContext();
    feqyldan_graph_t *graph =
        feqyldanBuildGraph(file, context, number_argument(words[2]), number_argument(words[3]),
                           fault, sizeof fault);
    if (graph == NULL)
        printf("%s\n", fault);
    for (vx_uint32 at = 0; graph != NULL && at < number_argument(words[4]); at++)
        run(file, graph);
    feqyldanReleaseGraph(graph);
    vx_uint32 left = 0;
    EXPECT(VX_SUCCESS, vxQueryContext(context, VX_CONTEXT_REFERENCES, &left, sizeof left));
    CHECK(left == 0);
    feqyldanFreeGraphFile(file);
    EXPECT(VX_SUCCESS, vxReleaseContext(&context));
    return 0;
}
