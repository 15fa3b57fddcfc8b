/* The plan of a graph file, which needs no server. */
#include "internal.h"

#include <string.h>

static gboolean is_image(const feqyldan_object_t *object) {
    return strcmp(object->kind, "image") == 0;
}

const char *format_of(const feqyldan_object_t *object) {
    return object->format == VX_DF_IMAGE_S16 ? "GRAY16_LE" : "GRAY8";
}

static gboolean choose_input(Plan *plan, char fault[FAULT_BYTES]) {
    guint inputs = 0;
    for (const feqyldan_object_t *object = plan->objects; object < plan->objects + plan->count;
         object++)
        if (object->is_input) {
            plan->input = object;
            inputs++;
        }
    if (inputs == 1)
        return TRUE;
    g_snprintf(fault, FAULT_BYTES, "it has %u images with \"input\": true, and the element has one "
               "stream of frames: let one image be the input", inputs);
    return FALSE;
}

/* The images that the graph writes, in words. */
static char *list_outputs(const Plan *plan) {
    g_autoptr(GString) names = g_string_new(NULL);
    for (const feqyldan_object_t *object = plan->objects; object < plan->objects + plan->count;
         object++)
        if (object->is_output && is_image(object))
            g_string_append_printf(names, "%s%s", names->len == 0 ? "" : ", ", object->name);
    return g_strdup(names->str);
}

static gboolean choose_output(Plan *plan, const char *name, char fault[FAULT_BYTES]) {
    guint outputs = 0;
    for (const feqyldan_object_t *object = plan->objects; object < plan->objects + plan->count;
         object++)
        if (object->is_output && is_image(object) &&
            (name == NULL || strcmp(name, object->name) == 0)) {
            plan->output = object;
            outputs++;
        }
    if (g_strcmp0(name, "-") == 0 || (name == NULL && outputs == 0)) {
        plan->output = NULL;
        return TRUE;
    }
    if (outputs == 1)
        return TRUE;
    g_autofree char *names = list_outputs(plan);
    if (*names == '\0')
        g_snprintf(fault, FAULT_BYTES, "it writes no image, and output is \"%s\": leave it out, so "
                   "that the frame itself is pushed", name);
    else
        g_snprintf(fault, FAULT_BYTES, "it writes the images %s: choose one by output=NAME, or "
                   "output=- for the frame itself", names);
    return FALSE;
}

static gboolean check_formats(const Plan *plan, char fault[FAULT_BYTES]) {
    const feqyldan_object_t *deep = NULL;
    if (plan->input->format == VX_DF_IMAGE_U32)
        deep = plan->input;
    else if (plan->output != NULL && plan->output->format == VX_DF_IMAGE_U32)
        deep = plan->output;
    if (deep == NULL)
        return TRUE;
    g_snprintf(fault, FAULT_BYTES, "its image \"%s\" is U32, which GStreamer has no grey format "
               "for: choose a U8 or S16 image", deep->name);
    return FALSE;
}

/* Frames leave in the size in which they come. */
static gboolean check_output_size(const Plan *plan, char fault[FAULT_BYTES]) {
    const feqyldan_object_t *input = plan->input, *output = plan->output;
    if (output == NULL || (output->width == input->width && output->height == input->height))
        return TRUE;
    g_snprintf(fault, FAULT_BYTES, "its image \"%s\" is %u by %u, and its input %u by %u: choose an "
               "image of the input's size", output->name, output->width, output->height,
               input->width, input->height);
    return FALSE;
}

/* The results of a frame have fields of their own beside these objects. */
static gboolean check_names(const Plan *plan, char fault[FAULT_BYTES]) {
    static const char *const FIELDS[] = {"frame", "timestamp", "duration", "stream-time",
                                         "running-time", NULL};
    for (const feqyldan_object_t *object = plan->objects; object < plan->objects + plan->count;
         object++)
        if (object->is_output && !is_image(object) && g_strv_contains(FIELDS, object->name)) {
            g_snprintf(fault, FAULT_BYTES, "its %s \"%s\" has the name of another field of the "
                       "results: give it another name", object->kind, object->name);
            return FALSE;
        }
    return TRUE;
}

static void note_memory(Plan *plan) {
    plan->slots = 1;
    for (const feqyldan_object_t *object = plan->objects; object < plan->objects + plan->count;
         object++) {
        gboolean is_delay = strcmp(object->kind, "delay") == 0;
        if (is_delay)
            plan->slots = MAX(plan->slots, object->count);
        plan->has_memory |= is_delay || object->is_sum;
        plan->is_fixed |= object->is_fixed &&
                          (object->width == 0 || (object->width == plan->input->width &&
                                                  object->height == plan->input->height));
    }
}

Plan *plan_read(const char *path, const char *output, char fault[FAULT_BYTES]) {
    feqyldan_graph_file_t *file = feqyldanReadGraphFile(path, fault, FAULT_BYTES);
    if (file == NULL)
        return NULL;
    Plan *plan = g_atomic_rc_box_new0(Plan);
    char words[FAULT_BYTES];
    plan->file = file;
    plan->objects = feqyldanGetObjects(file, &plan->count);
    if (choose_input(plan, words) && choose_output(plan, output, words) &&
        check_formats(plan, words) && check_output_size(plan, words) && check_names(plan, words)) {
        note_memory(plan);
        return plan;
    }
    g_snprintf(fault, FAULT_BYTES, "%s: %s", path, words);
    plan_unref(plan);
    return NULL;
}

static void clear_plan(gpointer plan) { feqyldanFreeGraphFile(((Plan *)plan)->file); }

Plan *plan_ref(Plan *plan) { return g_atomic_rc_box_acquire(plan); }

void plan_unref(Plan *plan) { g_atomic_rc_box_release_full(plan, clear_plan); }
