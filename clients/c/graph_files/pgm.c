/* Pictures in Netpbm's format PGM, raw (P5). */
#include "internal.h"

#include <string.h>

/* Bounds the bytes of a file, as in the Python package. */
enum { GREATEST_PICTURE = 1 << 29 };

static const char WHITE[] = " \t\r\n";

/* Reads the next number of a header, after white space and comments, and moves the text behind it.
   Returns 0 where there is none. */
static gint64 read_header_number(char **text) {
    char *at = *text + strspn(*text, WHITE);
    for (; *at == '#'; at += strspn(at, WHITE))
        at += strcspn(at, "\r\n");
    if (at == *text || !g_ascii_isdigit(*at))
        return 0;
    return (gint64)MIN(g_ascii_strtoull(at, text, 10), G_MAXINT32);
}

static gboolean is_side(gint64 side) { return side >= 1 && side <= GREATEST_SIDE; }

/* Returns FALSE unless the text is a whole picture for an image. */
static gboolean read_whole(char *text, gsize length, struct pgm *found) {
    if (!g_str_has_prefix(text, "P5"))
        return FALSE;
    char *at = text + strlen("P5");
    found->width = read_header_number(&at);
    found->height = read_header_number(&at);
    found->greatest = read_header_number(&at);
    if (!is_side(found->width) || !is_side(found->height) || found->greatest < 1 ||
        found->greatest > G_MAXUINT16)
        return FALSE;
    found->bytes = found->greatest > G_MAXUINT8 ? 2 : 1;
    found->size = (gsize)(found->width * found->height) * found->bytes;
    found->samples = (guint8 *)at + 1;
    /* One byte of white space is between the header and the samples, and nothing is behind them. */
    return strspn(at, WHITE) > 0 && length == (gsize)(at - text) + 1 + found->size;
}

static gboolean parse_pgm(char *text, gsize length, const char *name, struct pgm *found,
                          GError **error) {
    if (!read_whole(text, length, found))
        return refuse(error, "%s isn't a whole PGM file (P5): convert it to PGM, or save the graph "
                      "from Python, which stores the samples in its file", name);
    const int greatest = (int)MIN(found->greatest, G_MAXINT16);
    for (gsize at = 0; at < found->size; at += found->bytes) {
        const guint8 *sample = found->samples + at;
        if ((found->bytes == 1 ? sample[0] : sample[0] << 8 | sample[1]) > greatest)
            return refuse(error, "%s has a sample above %d, the greatest by its maxval or of S16",
                          name, greatest);
    }
    return TRUE;
}

void to_host_order(guint8 *samples, gsize size, gsize bytes) {
    for (gsize at = 0; G_BYTE_ORDER == G_LITTLE_ENDIAN && at + bytes <= size; at += bytes)
        for (gsize low = at, high = at + bytes - 1; low < high; low++, high--) {
            guint8 kept = samples[low];
            samples[low] = samples[high];
            samples[high] = kept;
        }
}

struct pgm *read_pgm(const char *folder, const char *name) {
    gsize length;
    struct pgm *read = g_new0(struct pgm, 1);
    g_autofree char *path = g_build_filename(folder, name, NULL);
    if (read_file(g_path_is_absolute(name) ? name : path, GREATEST_PICTURE, "", &read->text,
                  &length, &read->fault) &&
        parse_pgm(read->text, length, name, read, &read->fault))
        to_host_order(read->samples, read->size, read->bytes);
    return read;
}

void free_pgm(gpointer pgm) {
    struct pgm *freed = pgm;
    g_free(freed->text);
    g_clear_error(&freed->fault);
    g_free(freed);
}
