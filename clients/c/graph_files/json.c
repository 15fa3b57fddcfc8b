/* Fields of JSON objects, with faults in words. */
#include "internal.h"

#include <string.h>

enum { GREATEST_DEPTH = 100 };

static GQuark domain(void) { return g_quark_from_static_string("feqyldan-graph-file"); }

gboolean refuse(GError **error, const char *format, ...) {
    va_list list;
    va_start(list, format);
    g_propagate_error(error, g_error_new_valist(domain(), 0, format, list));
    va_end(list);
    return FALSE;
}

gboolean refuse_call(vx_context context, GError **error) {
    char fault[VX_MAX_LOG_MESSAGE_LEN] = "the context was released";
    feqyldanGetFault(context, fault, sizeof fault);
    return refuse(error, "%s", fault);
}

static const char DIGITS[] = "0123456789";

/* Each pass_ function returns what follows a token of JSON at the front of a text, or NULL where
   there is none. The text ends with a byte 0. */

/* The UTF-16 unit of an escape as \u00e9, or -1 where there is none. */
static gint64 unit_of(const char *at) {
    if (at[0] != '\\' || at[1] != 'u' || strspn(at + 2, "0123456789ABCDEFabcdef") < 4)
        return -1;
    const char digits[] = {at[2], at[3], at[4], at[5], '\0'};
    return g_ascii_strtoll(digits, NULL, 16);
}

/* Of an escape in a text. A byte 0 would end the text for C. Behind the first unit of a pair alone
   the parser would lose a character, which may be the quote. */
static const char *pass_escape(const char *at) {
    enum { FIRST = 0xD800, SECOND = 0xDC00, BEHIND = 0xE000 };
    if (at[1] != 'u')
        return at[1] != '\0' && strchr("\"\\/bfnrt", at[1]) != NULL ? at + 2 : NULL;
    const gint64 unit = unit_of(at), next = unit < 0 ? -1 : unit_of(at + 6);
    if (unit < FIRST || unit >= BEHIND)
        return unit > 0 ? at + 6 : NULL;
    return unit < SECOND && next >= SECOND && next < BEHIND ? at + 12 : NULL;
}

/* Of a text, without its first quote. */
static const char *pass_text(const char *at) {
    for (const char *next; *at != '"'; at = next) {
        next = *at == '\\' ? pass_escape(at) : at + 1;
        if (next == NULL || (guchar)*at < ' ')
            return NULL;
    }
    return at + 1;
}

static const char *pass_digits(const char *at, gsize most) {
    const gsize digits = strspn(at, DIGITS);
    return digits == 0 || digits > most ? NULL : at + digits;
}

/* The most digits of a whole number: the parser takes another number for one that 64 bits don't
   hold. */
enum { MOST_DIGITS = 18 };

/* The parser takes 8 for 010. */
static const char *pass_number(const char *at) {
    at += *at == '-';
    if (*at == '0' && g_ascii_isdigit(at[1]))
        return NULL;
    at = pass_digits(at, MOST_DIGITS);
    if (at != NULL && *at == '.')
        at = pass_digits(at + 1, G_MAXSIZE);
    if (at != NULL && (*at == 'e' || *at == 'E')) {
        at += 1;
        at += *at == '+' || *at == '-';
        at = pass_digits(at, G_MAXSIZE);
    }
    return at;
}

static const char *pass_token(const char *at) {
    static const char *const WORDS[] = {"true", "false", "null", NULL};
    for (guint word = 0; WORDS[word] != NULL; word++)
        if (g_str_has_prefix(at, WORDS[word]))
            return at + strlen(WORDS[word]);
    if (*at == '"')
        return pass_text(at + 1);
    return *at != '\0' && strchr("{}[]:, \t\r\n", *at) != NULL ? at + 1 : pass_number(at);
}

/* Checks that the text isn't nested too deeply for the parser, which calls itself for each list and
   object. Refuses what only this parser allows, as comments, and more than one value. */
static gboolean check_text(const char *text, gsize length, GError **error) {
    guint depth = 0;
    gboolean is_over = FALSE;
    for (const char *at = text, *next; at < text + length; at = next) {
        next = pass_token(at);
        const gsize digits = next == NULL ? strspn(at + (*at == '-'), DIGITS) : 0;
        if (digits > MOST_DIGITS)
            return refuse(error,
                          "it has a number of %" G_GSIZE_FORMAT " digits, and no number has more "
                          "than %d",
                          digits, MOST_DIGITS);
        if (next == NULL)
            return refuse(error, "the file isn't JSON from byte %" G_GSIZE_FORMAT " on",
                          (gsize)(at - text) + 1);
        if (is_over && !g_ascii_isspace(*at))
            return refuse(error, "the file isn't JSON: more follows its end");
        if (*at == ']' || *at == '}') {
            is_over = depth <= 1;
            depth -= depth > 0;
        } else if ((*at == '[' || *at == '{') && ++depth > GREATEST_DEPTH)
            return refuse(error, "its lists and objects are nested too deeply");
    }
    return TRUE;
}

/* The keys that the parser has found, each with the address of its object; and the first one that
   an object has twice, or NULL. */
typedef struct {
    GHashTable *found;
    char *repeated;
} Keys;

static void note_key(JsonParser *parser, JsonObject *object, const char *key, Keys *keys) {
    (void)parser;
    if (!g_hash_table_add(keys->found, g_strdup_printf("%p %s", (void *)object, key)) &&
        keys->repeated == NULL)
        keys->repeated = g_strdup(key);
}

gboolean parse_json(JsonParser *parser, const char *text, gsize length, GError **error) {
    static const char MARK[] = "\xEF\xBB\xBF";
    /* Some editors begin a file with the mark of UTF-8. */
    if (g_str_has_prefix(text, MARK)) {
        text += strlen(MARK);
        length -= strlen(MARK);
    }
    if (!check_text(text, length, error))
        return FALSE;
    Keys keys = {g_hash_table_new_full(g_str_hash, g_str_equal, g_free, NULL), NULL};
    gulong noting = g_signal_connect(parser, "object-member", G_CALLBACK(note_key), &keys);
    gboolean is_json = json_parser_load_from_data(parser, text, (gssize)length, error);
    g_signal_handler_disconnect(parser, noting);
    g_hash_table_unref(keys.found);
    g_autofree char *repeated = keys.repeated;
    if (!is_json)
        g_prefix_error(error, "the file isn't JSON: ");
    else if (repeated != NULL)
        return refuse(error, "an object of the file has the key '%s' twice: leave one out",
                      repeated);
    return is_json;
}

char *words_of(JsonNode *value) {
    if (JSON_NODE_HOLDS_VALUE(value) && json_node_get_value_type(value) == G_TYPE_STRING)
        return g_strdup_printf("'%s'", json_node_get_string(value));
    return json_to_string(value, FALSE);
}

gboolean has(JsonObject *told, const char *field) {
    return json_object_has_member(told, field) && !json_object_get_null_member(told, field);
}

static JsonNode *read_field(JsonObject *told, const char *field, GError **error) {
    JsonNode *value = json_object_get_member(told, field);
    if (value == NULL)
        refuse(error, "'%s' is missing", field);
    return value;
}

/* Gives a number of a range. */
static gboolean number_of(JsonNode *value, const char *what, gint64 least, gint64 greatest,
                          gint64 *number, GError **error) {
    gboolean is_number =
        JSON_NODE_HOLDS_VALUE(value) && json_node_get_value_type(value) == G_TYPE_INT64;
    *number = is_number ? json_node_get_int(value) : least;
    if (is_number && *number >= least && *number <= greatest)
        return TRUE;
    g_autofree char *words = words_of(value);
    return refuse(error,
                  "%s must be a whole number from %" G_GINT64_FORMAT " to %" G_GINT64_FORMAT
                  ", not %s",
                  what, least, greatest, words);
}

gboolean read_number(JsonObject *told, const char *field, gint64 least, gint64 greatest,
                     gint64 *number, GError **error) {
    JsonNode *value = read_field(told, field, error);
    return value != NULL && number_of(value, field, least, greatest, number, error);
}

gboolean read_option(JsonObject *told, const char *field, gint64 least, gint64 greatest,
                     gint64 *number, GError **error) {
    return !json_object_has_member(told, field) ||
           read_number(told, field, least, greatest, number, error);
}

JsonArray *read_list(JsonObject *told, const char *field, GError **error) {
    JsonNode *value = read_field(told, field, error);
    if (value != NULL && JSON_NODE_HOLDS_ARRAY(value))
        return json_node_get_array(value);
    if (value != NULL)
        refuse(error, "'%s' must be a list", field);
    return NULL;
}

gboolean read_item(JsonArray *list, guint at, const char *what, gint64 least, gint64 greatest,
                   gint64 *number, GError **error) {
    return number_of(json_array_get_element(list, at), what, least, greatest, number, error);
}

const char *read_text(JsonObject *told, const char *field, GError **error) {
    JsonNode *value = read_field(told, field, error);
    if (value == NULL)
        return NULL;
    if (JSON_NODE_HOLDS_VALUE(value) && json_node_get_value_type(value) == G_TYPE_STRING)
        return json_node_get_string(value);
    g_autofree char *words = words_of(value);
    refuse(error, "'%s' must be a text, not %s", field, words);
    return NULL;
}

gboolean read_choice(JsonObject *told, const char *field, const char *what,
                     const char *const *choices, guint *choice, GError **error) {
    JsonNode *value = read_field(told, field, error);
    if (value == NULL)
        return FALSE;
    g_autofree char *words = words_of(value);
    for (guint at = 0; choices[at] != NULL; at++) {
        *choice = at;
        if (words[0] == '\'' && strlen(words) == strlen(choices[at]) + 2 &&
            strncmp(words + 1, choices[at], strlen(choices[at])) == 0)
            return TRUE;
    }
    g_autofree char *all = g_strjoinv(", ", (char **)choices);
    return refuse(error, "%s must be one of %s, not %s", what, all, words);
}
