/* Random graphs in which counts link nodes give what their nodes give one after another, each in a
   graph of its own. Words of the command line are another number of graphs and another seed. */
#include "testing.h"

#include <stdbool.h>

enum { WIDTH = 4, HEIGHT = 3, COUNT = WIDTH * HEIGHT, STEPS = 24, INPUTS = 2, RUNS = 3 };

/* What a step computes, of earlier steps: an image of an image, an image of sums, the number of the
   darkest pixels of an image, or sums of the squares of an image that are shifted by a number. */
enum kind { INPUT, FILTERED, CONVERTED, COUNTED, SUMMED };

static struct step {
    enum kind kind;
    int of, by;
    bool is_virtual;
} steps[STEPS];
static int count;
static vx_context context;
static vx_uint32 state = 1;

/* The objects of the steps, once for the one graph and once for a graph for each node. */
struct objects {
    vx_image images[STEPS];
    vx_scalar counts[STEPS], least[STEPS], greatest[STEPS];
};

static vx_uint32 below(vx_uint32 bound) { return next_number(&state) % bound; }

static bool is_byte_image(enum kind kind) { return kind <= CONVERTED; }

static bool is_counted(enum kind kind) { return kind == COUNTED; }

static bool is_summed(enum kind kind) { return kind == SUMMED; }

/* A random one of the first steps, of a kind that fits; -1 where there is none. */
static int find_step(int before, bool (*fits)(enum kind kind)) {
    int found = -1, seen = 0;
    for (int i = 0; i < before; i++)
        if (fits(steps[i].kind) && below((vx_uint32)++seen) == 0)
            found = i;
    return found;
}

static void plan_steps(void) {
    count = INPUTS + 2 + (int)below(STEPS - INPUTS - 1);
    for (int i = 0; i < count; i++) {
        struct step *step = &steps[i];
        step->kind = i < INPUTS ? INPUT : (enum kind)(FILTERED + below(4));
        step->is_virtual = i >= INPUTS && below(10) < 7;
        step->of = find_step(i, step->kind == CONVERTED ? is_summed : is_byte_image);
        step->by = step->kind == SUMMED ? find_step(i, is_counted) : 0;
        if (i >= INPUTS && (step->of < 0 || step->by < 0))
            *step = (struct step){FILTERED, find_step(i, is_byte_image), 0, step->is_virtual};
    }
}

static vx_image make_image(const struct step *step, vx_graph graph) {
    vx_df_image format = is_summed(step->kind) ? VX_DF_IMAGE_S16 : VX_DF_IMAGE_U8;
    if (graph == NULL || !step->is_virtual || is_summed(step->kind))
        return vxCreateImage(context, WIDTH, HEIGHT, format);
    return vxCreateVirtualImage(graph, 0, 0, below(2) ? format : VX_DF_IMAGE_VIRT);
}

/* With a graph, images may be virtual. */
static void make_objects(struct objects *made, vx_graph graph) {
    for (int i = 0; i < count; i++) {
        made->images[i] = make_image(&steps[i], graph);
        made->counts[i] = vxCreateScalar(context, VX_TYPE_UINT32, NULL);
        made->least[i] = vxCreateScalar(context, VX_TYPE_UINT8, NULL);
        made->greatest[i] = vxCreateScalar(context, VX_TYPE_UINT8, NULL);
    }
}

static void release_objects(struct objects *made) {
    for (int i = 0; i < count; i++) {
        EXPECT(VX_SUCCESS, vxReleaseImage(&made->images[i]));
        EXPECT(VX_SUCCESS, vxReleaseScalar(&made->counts[i]));
        EXPECT(VX_SUCCESS, vxReleaseScalar(&made->least[i]));
        EXPECT(VX_SUCCESS, vxReleaseScalar(&made->greatest[i]));
    }
}

static void add_step(vx_graph graph, const struct objects *made, int i, vx_scalar none) {
    const vx_enum wrap = VX_CONVERT_POLICY_WRAP;
    const struct step *step = &steps[i];
    vx_image of = made->images[step->of < 0 ? 0 : step->of];
    vx_node node;
    if (step->kind == COUNTED)
        node = vxMinMaxLocNode(graph, of, made->least[i], made->greatest[i], NULL, NULL,
                               made->counts[i], NULL);
    else if (step->kind == SUMMED)
        node = vxAccumulateSquareImageNode(graph, of, made->counts[step->by], made->images[i]);
    else if (step->kind == CONVERTED)
        node = vxConvertDepthNode(graph, of, made->images[i], wrap, none);
    else
        node = i % 3 == 0 ? vxBox3x3Node(graph, of, made->images[i])
                          : vxNotNode(graph, of, made->images[i]);
    EXPECT(VX_SUCCESS, STATUS(node));
    EXPECT(VX_SUCCESS, vxReleaseNode(&node));
}

/* Adds all steps to one graph, in any order. */
static void add_steps(vx_graph graph, const struct objects *made, vx_scalar none) {
    int order[STEPS];
    for (int i = INPUTS; i < count; i++) {
        int other = INPUTS + (int)below((vx_uint32)(i - INPUTS + 1));
        order[i] = order[other];
        order[other] = i;
    }
    for (int i = INPUTS; i < count; i++)
        add_step(graph, made, order[i], none);
}

static void fill_inputs(const struct objects *first, const struct objects *second) {
    vx_uint8 samples[COUNT];
    for (int i = 0; i < INPUTS; i++) {
        for (int pixel = 0; pixel < COUNT; pixel++)
            samples[pixel] = (vx_uint8)(80 * below(4));
        EXPECT(VX_SUCCESS,
               copy_whole(first->images[i], WIDTH, HEIGHT, 1, samples, VX_WRITE_ONLY));
        EXPECT(VX_SUCCESS,
               copy_whole(second->images[i], WIDTH, HEIGHT, 1, samples, VX_WRITE_ONLY));
    }
}

static void compare_images(vx_image first, vx_image second, int size) {
    vx_uint8 one[2 * COUNT], other[2 * COUNT];
    vx_rectangle_t valid, expected;
    EXPECT(VX_SUCCESS, copy_whole(first, WIDTH, HEIGHT, size, one, VX_READ_ONLY));
    EXPECT(VX_SUCCESS, copy_whole(second, WIDTH, HEIGHT, size, other, VX_READ_ONLY));
    CHECK(memcmp(one, other, (size_t)(size * COUNT)) == 0);
    EXPECT(VX_SUCCESS, vxGetValidRegionImage(first, &valid));
    EXPECT(VX_SUCCESS, vxGetValidRegionImage(second, &expected));
    CHECK(memcmp(&valid, &expected, sizeof valid) == 0);
}

static vx_uint32 value_of(vx_scalar scalar) {
    vx_uint32 value;
    EXPECT(VX_SUCCESS, vxCopyScalar(scalar, &value, VX_READ_ONLY, VX_MEMORY_TYPE_HOST));
    return value;
}

static void compare(const struct objects *first, const struct objects *second) {
    for (int i = 0; i < count; i++) {
        int size = is_summed(steps[i].kind) ? 2 : 1;
        CHECK(value_of(first->counts[i]) == value_of(second->counts[i]));
        if (steps[i].kind != COUNTED && (size == 2 || !steps[i].is_virtual))
            compare_images(first->images[i], second->images[i], size);
    }
}

static void run(vx_graph graph) {
    if (below(2)) {
        EXPECT(VX_SUCCESS, vxProcessGraph(graph));
    } else {
        EXPECT(VX_SUCCESS, vxScheduleGraph(graph));
        EXPECT(VX_SUCCESS, vxWaitGraph(graph));
    }
}

static void try_graph(void) {
    const vx_int32 zero = 0;
    struct objects together, alone;
    vx_graph graph = vxCreateGraph(context), graphs[STEPS];
    vx_scalar none = vxCreateScalar(context, VX_TYPE_INT32, &zero);
    plan_steps();
    make_objects(&together, graph);
    make_objects(&alone, NULL);
    add_steps(graph, &together, none);
    for (int i = INPUTS; i < count; i++) {
        graphs[i] = vxCreateGraph(context);
        add_step(graphs[i], &alone, i, none);
    }
    for (int turn = 0; turn < RUNS; turn++) {
        fill_inputs(&together, &alone);
        run(graph);
        for (int i = INPUTS; i < count; i++)
            EXPECT(VX_SUCCESS, vxProcessGraph(graphs[i]));
        compare(&together, &alone);
    }
    for (int i = INPUTS; i < count; i++)
        EXPECT(VX_SUCCESS, vxReleaseGraph(&graphs[i]));
    EXPECT(VX_SUCCESS, vxReleaseGraph(&graph));
    EXPECT(VX_SUCCESS, vxReleaseScalar(&none));
    release_objects(&together);
    release_objects(&alone);
}

int main(int argc, char **argv) {
    int tries = argc > 1 ? atoi(argv[1]) : 200, links = 0;
    state = argc > 2 ? (vx_uint32)atoi(argv[2]) : state;
    context = vxCreateContext();
    EXPECT(VX_SUCCESS, STATUS(context));
    for (int i = 0; i < tries; i++) {
        try_graph();
        for (int step = 0; step < count; step++)
            links += is_summed(steps[step].kind) ? 1 : 0;
    }
    CHECK(links > tries);
    EXPECT(VX_SUCCESS, vxReleaseContext(&context));
    return 0;
}
