/* Declarations that the files of the reader share. A function that may find a fault returns FALSE
   or NULL with a GError. */
#ifndef FEQYLDAN_GRAPH_FILES_INTERNAL_H
#define FEQYLDAN_GRAPH_FILES_INTERNAL_H

#include <feqyldan/context.h>
#include <feqyldan/graph_file.h>
#include <json-glib/json-glib.h>

/* The greatest side of an image. */
enum { GREATEST_SIDE = 8192 };

struct feqyldan_graph_file {
    char *path, *folder;
    JsonParser *parser;
    /* Parts of what the parser holds. */
    JsonObject *objects;
    JsonArray *nodes;
    /* The descriptions of the objects, of the type feqyldan_object_t. */
    GArray *descriptions;
    /* The pictures of images with a "file", by the images' names. They are read with the file, so
       that each graph of it has the same ones, whatever becomes of their files. */
    GHashTable *pictures;
};

struct feqyldan_graph {
    const feqyldan_graph_file_t *file;
    vx_context context;
    vx_graph graph;
    /* The size of the file's input, and the one that is built in its place. */
    vx_uint32 from_width, from_height, width, height;
    /* Both by the names in the file: references, and feqyldan_extremes_t. */
    GHashTable *references, *extremes;
    /* The node that writes an object, in words; and the objects that nodes read. */
    GHashTable *writers, *readers;
};

/* ---- graph.c ---- */

/* Reads a regular file of at most this many bytes. A named pipe isn't opened, since that would wait
   for somebody to write to it. The advice ends the words about a file that is too large. */
gboolean read_file(const char *path, gint64 most, const char *advice, char **text, gsize *length,
                   GError **error);

/* ---- json.c ---- */

/* Sets a fault, and returns FALSE. */
gboolean refuse(GError **error, const char *format, ...) G_GNUC_PRINTF(2, 3);
/* Sets the words of the context's last failure as the fault, and returns FALSE. */
gboolean refuse_call(vx_context context, GError **error);
/* Parses a text within bounds. Refuses an object that has a key twice. */
gboolean parse_json(JsonParser *parser, const char *text, gsize length, GError **error);
/* A value in words. */
char *words_of(JsonNode *value);
/* Whether a field is there and isn't null. */
gboolean has(JsonObject *told, const char *field);
/* Gives a required field of a range. */
gboolean read_number(JsonObject *told, const char *field, gint64 least, gint64 greatest,
                     gint64 *number, GError **error);
/* The same for a field that may be missing: then the number stays. One that is null is refused. */
gboolean read_option(JsonObject *told, const char *field, gint64 least, gint64 greatest,
                     gint64 *number, GError **error);
/* A required list. */
JsonArray *read_list(JsonObject *told, const char *field, GError **error);
/* Gives an item of a list. */
gboolean read_item(JsonArray *list, guint at, const char *what, gint64 least, gint64 greatest,
                   gint64 *number, GError **error);
/* A required text. */
const char *read_text(JsonObject *told, const char *field, GError **error);
/* Gives the position of a field's text in a list of choices that ends with NULL. */
gboolean read_choice(JsonObject *told, const char *field, const char *what,
                     const char *const *choices, guint *choice, GError **error);

/* ---- pgm.c ---- */

/* A picture in a PGM text: its sides, its maxval, the bytes of a sample and of all, and its samples
   in this machine's byte order. Or the fault of one that can't be read. */
struct pgm {
    gint64 width, height, greatest;
    gsize bytes, size;
    guint8 *samples;
    char *text;
    GError *fault;
};

/* Reads a file, whose name may begin at the folder, and finds the picture in its text. One that
   isn't whole is a fault. */
struct pgm *read_pgm(const char *folder, const char *name);
void free_pgm(gpointer pgm);
/* Brings big-endian samples into this machine's byte order. */
void to_host_order(guint8 *samples, gsize size, gsize bytes);

/* ---- objects.c ---- */

/* Checks the kind and the fields of an object, and describes it. */
gboolean describe_object(feqyldan_graph_file_t *file, const char *name, JsonObject *told,
                         feqyldan_object_t *described, GError **error);
gboolean build_object(feqyldan_graph_t *graph, const char *name, JsonObject *told, GError **error);

/* ---- nodes.c ---- */

gboolean build_node(feqyldan_graph_t *graph, guint number, JsonNode *told, GError **error);
/* Whether an operand of this name is a slot of a delay. */
gboolean is_slot(const char *name);
/* Whether a node of the file has the object as one of these parameters, a list that ends with NULL.
   WRITTEN are those that a node writes. */
extern const char *const WRITTEN[];
gboolean is_operand(JsonArray *nodes, const char *const *parameters, const char *name);

#endif
