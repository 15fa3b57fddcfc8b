/* Copies and maps of image patches. The server reads and writes whole images, so a patch is cut out
   of one or put into one here. */
#define _GNU_SOURCE
#include "internal.h"

#include <stdlib.h>
#include <string.h>
#include <sys/mman.h>

/* Samples are converted and sent PIECE bytes at a time, so that the server reads one piece while
   the next is converted. Buffers from LEAST_KEPT to GREATEST_KEPT bytes are kept. HUGE_PAGE is the
   size of the processor's larger pages. LEAD is explained at lead_of. */
enum { PIECE = 1 << 17, LEAST_KEPT = 1 << 16, HUGE_PAGE = 1 << 21, LEAD = 16 };

static vx_size samples_of(const struct _vx_image *image) {
    return (vx_size)image->width * image->height * sample_size(image->format);
}

/* ---- Buffers ---- */

/* A large buffer is in huge pages, as far as the system has them: such a buffer is filled and lent
   to the pipe in less time. */
struct buffer make_buffer(size_t length) {
    size_t huge = (length + HUGE_PAGE / 2) / HUGE_PAGE * HUGE_PAGE;
    struct buffer made = {NULL, length > huge ? length : huge};
    void *bytes;
    if (huge == 0) {
        made.bytes = calloc(1, length);
    } else if (posix_memalign(&bytes, HUGE_PAGE, made.capacity) == 0) {
        madvise(bytes, huge, MADV_HUGEPAGE);
        made.bytes = memset(bytes, 0, made.capacity);
    }
    return made;
}

/* Returns a buffer of at least length bytes, or with NULL where there is no memory. It holds zeros
   or old samples, so that a map which isn't wholly written never sends other memory. */
static struct buffer take_buffer(vx_context context, size_t length) {
    struct buffer *best = NULL;
    for (int i = 0; i < SPARES; i++) {
        struct buffer *spare = &context->spares[i];
        if (length >= LEAST_KEPT && spare->capacity >= length &&
            (best == NULL || spare->capacity < best->capacity))
            best = spare;
    }
    if (best == NULL)
        return make_buffer(length);
    struct buffer taken = *best;
    *best = (struct buffer){NULL, 0};
    return taken;
}

/* Keeps the buffer if it is larger than one that is kept. */
static void give_buffer(vx_context context, struct buffer given) {
    bool may_be_kept = given.capacity >= LEAST_KEPT && given.capacity <= GREATEST_KEPT;
    for (int i = 0; i < SPARES && may_be_kept; i++)
        if (context->spares[i].capacity < given.capacity) {
            struct buffer smaller = context->spares[i];
            context->spares[i] = given;
            given = smaller;
        }
    free(given.bytes);
}

void free_spares(vx_context context) {
    for (int i = 0; i < SPARES; i++)
        free(context->spares[i].bytes);
}

/* ---- The order of bytes ---- */

/* Vectors of 16 bytes. */
typedef vx_uint16 words __attribute__((vector_size(16)));
typedef vx_uint32 longs __attribute__((vector_size(16)));

static bool is_big_endian(void) {
    const vx_uint16 one = 1;
    uint8_t first;
    memcpy(&first, &one, 1);
    return first == 0;
}

/* Converts the whole vectors of some samples. Returns how many bytes that is. */
static size_t turn_vectors(uint8_t *to, const uint8_t *from, size_t bytes, size_t unit) {
    size_t at = 0;
    for (; unit == 2 && at + sizeof(words) <= bytes; at += sizeof(words)) {
        words some;
        memcpy(&some, from + at, sizeof some);
        some = some << 8 | some >> 8;
        memcpy(to + at, &some, sizeof some);
    }
    for (; unit == 4 && at + sizeof(longs) <= bytes; at += sizeof(longs)) {
        longs some;
        memcpy(&some, from + at, sizeof some);
        some = some << 24 | (some << 8 & 0xFF0000) | (some >> 8 & 0xFF00) | some >> 24;
        memcpy(to + at, &some, sizeof some);
    }
    return at;
}

static void turn(uint8_t *to, const uint8_t *from, vx_size size) {
    uint8_t sample[4];
    memcpy(sample, from, size);
    for (vx_size i = 0; i < size; i++)
        to[i] = sample[is_big_endian() ? i : size - 1 - i];
}

void turn_samples(uint8_t *to, const uint8_t *from, size_t bytes, size_t unit) {
    if (unit == 1 || is_big_endian()) {
        if (to != from)
            memmove(to, from, bytes);
        return;
    }
    for (size_t at = turn_vectors(to, from, bytes, unit); at < bytes; at += unit)
        turn(to + at, from + at, unit);
}

/* Copies a row of samples of some size. A unit of that size converts them, and one of 1 leaves them
   in their byte order. */
static void copy_row(struct grid to, struct grid from, vx_uint32 width, vx_size size, size_t unit) {
    if (to.column == (ptrdiff_t)size && from.column == (ptrdiff_t)size) {
        turn_samples(to.first, from.first, width * size, unit);
        return;
    }
    for (vx_uint32 x = 0; x < width; x++)
        turn_samples(to.first + x * to.column, from.first + x * from.column, size, unit);
}

/* The rows of a grid from one on. */
static struct grid rows_from(struct grid grid, vx_uint32 y) {
    return (struct grid){grid.first + (ptrdiff_t)y * grid.row, grid.column, grid.row};
}

static void copy_grid(struct grid to, struct grid from, vx_uint32 width, vx_uint32 height,
                      vx_size size, size_t unit) {
    for (vx_uint32 y = 0; y < height; y++)
        copy_row(rows_from(to, y), rows_from(from, y), width, size, unit);
}

static void copy_part(struct grid to, struct grid from, const vx_rectangle_t *rect, vx_size size,
                      size_t unit) {
    copy_grid(to, from, rect->end_x - rect->start_x, rect->end_y - rect->start_y, size, unit);
}

/* The samples of a whole image, which are in memory as in a frame. */
static struct grid flat_grid(const struct _vx_image *image, uint8_t *samples) {
    ptrdiff_t size = (ptrdiff_t)sample_size(image->format);
    return (struct grid){samples, size, size * image->width};
}

/* A part of them. */
static struct grid part_of(const struct _vx_image *image, const vx_rectangle_t *rect,
                           uint8_t *samples) {
    struct grid part = flat_grid(image, samples);
    part.first += rect->start_y * part.row + rect->start_x * part.column;
    return part;
}

static bool is_whole(const struct _vx_image *image, const vx_rectangle_t *rect) {
    return rect->start_x == 0 && rect->start_y == 0 && rect->end_x == image->width &&
           rect->end_y == image->height;
}

/* Whether memory has an image's rows without gaps between the samples of a row. */
static bool has_rows(const struct _vx_image *image, struct grid grid) {
    return grid.column == (ptrdiff_t)sample_size(image->format);
}

/* Whether there are no gaps between the rows either. */
static bool is_flat(const struct _vx_image *image, struct grid grid) {
    return has_rows(image, grid) && grid.row == grid.column * (ptrdiff_t)image->width;
}

/* ---- Reading ---- */

/* Reads an image's samples into rows. A unit of 1 leaves them in the byte order of frames. */
static vx_status read_image(vx_image image, struct grid to, size_t unit) {
    uint8_t body[5], described[DESCRIBED];
    vx_context context = image->base.context;
    size_t length = samples_of(image), row = image->width * sample_size(image->format);
    struct request request = {.op = READ_IMAGE, .body = described, .body_length = DESCRIBED,
                              .samples = to.first, .samples_length = length,
                              .row = is_flat(image, to) ? length : row,
                              .stride = (size_t)to.row, .unit = unit};
    put_image(body, image);
    let_look(context);
    bool is_sent = connection_send(&context->connection, &request, body, sizeof body);
    end_look(context);
    return await_reply(context, &request, is_sent);
}

/* Needs memory of its own only for a part of an image, or for rows with gaps between samples. */
static vx_status read_part(vx_image image, const vx_rectangle_t *rect, struct grid to) {
    vx_size size = sample_size(image->format);
    if (is_whole(image, rect) && has_rows(image, to))
        return read_image(image, to, size);
    struct buffer buffer = take_buffer(image->base.context, samples_of(image));
    if (buffer.bytes == NULL)
        return VX_ERROR_NO_MEMORY;
    vx_status status = read_image(image, flat_grid(image, buffer.bytes), 1);
    if (status == VX_SUCCESS)
        copy_part(to, part_of(image, rect, buffer.bytes), rect, size, size);
    give_buffer(image->base.context, buffer);
    return status;
}

/* ---- Writing ---- */

/* The samples for an image. If they are ready, bytes has them as they go into the frame. Otherwise
   they are in the user's memory, and bytes is a buffer for them. */
struct source {
    struct grid users;
    uint8_t *bytes;
    bool is_ready;
};

/* Sends the rows of an image, about PIECE bytes at a time. */
static bool send_rows(vx_image image, struct source source) {
    struct connection *connection = &image->base.context->connection;
    size_t size = sample_size(image->format), row = size * image->width;
    if (source.is_ready)
        return connection_go_on(connection, source.bytes, samples_of(image));
    vx_uint32 some = (vx_uint32)(PIECE / row) + 1;
    for (vx_uint32 y = 0; y < image->height; y += some) {
        vx_uint32 rows = image->height - y < some ? image->height - y : some;
        struct grid to = {source.bytes + y * row, (ptrdiff_t)size, (ptrdiff_t)row};
        copy_grid(to, rows_from(source.users, y), image->width, rows, size, size);
        if (!connection_go_on(connection, to.first, rows * row))
            return false;
    }
    return true;
}

static vx_status write_image(vx_image image, struct source source) {
    uint8_t head[WRITE_HEAD], *at = put8(put_image(head, image), format_number(image->format));
    vx_context context = image->base.context;
    struct request request = {.op = WRITE_IMAGE};
    put16(put16(at, image->width), image->height);
    let_look(context);
    bool is_sent = connection_begin(&context->connection, &request, head, sizeof head,
                                    samples_of(image)) &&
                   send_rows(image, source);
    end_look(context);
    return await_reply(context, &request, is_sent);
}

/* Writes a part of an image, which the server then has as wholly valid. */
static vx_status replace_part(vx_image image, const vx_rectangle_t *rect, struct grid from) {
    vx_size size = sample_size(image->format);
    bool is_all = is_whole(image, rect);
    if (is_all && size == 1 && is_flat(image, from))
        return write_image(image, (struct source){.bytes = from.first, .is_ready = true});
    struct buffer buffer = take_buffer(image->base.context, samples_of(image));
    if (buffer.bytes == NULL)
        return VX_ERROR_NO_MEMORY;
    vx_status status = VX_SUCCESS;
    if (!is_all) {
        status = read_image(image, flat_grid(image, buffer.bytes), 1);
        if (status == VX_SUCCESS)
            copy_part(part_of(image, rect, buffer.bytes), from, rect, size, size);
    }
    if (status == VX_SUCCESS)
        status = write_image(image, (struct source){from, buffer.bytes, !is_all});
    give_buffer(image->base.context, buffer);
    return status;
}

static vx_rectangle_t whole_of(const struct _vx_image *image) {
    return (vx_rectangle_t){0, 0, image->width, image->height};
}

/* Writes a part of an image. Its valid rectangle stays as it is, as the standard has it. */
static vx_status write_part(vx_image image, const vx_rectangle_t *rect, struct grid from) {
    vx_rectangle_t valid = whole_of(image);
    vx_status status = may_be_partial(image) ? query_valid(image, &valid) : VX_SUCCESS;
    if (status == VX_SUCCESS)
        status = replace_part(image, rect, from);
    if (status == VX_SUCCESS && !is_whole(image, &valid))
        widen(image, &valid);
    return status;
}

/* ---- Images from handles, and images of one value ---- */

vx_status send_memory(vx_image image) {
    const vx_rectangle_t whole = whole_of(image);
    return write_part(image, &whole, image->memory);
}

vx_status take_memory(vx_image image) {
    const vx_rectangle_t whole = whole_of(image);
    return read_part(image, &whole, image->memory);
}

/* A part of an image's own memory. */
static struct grid memory_of(const struct _vx_image *image, const vx_rectangle_t *rect) {
    struct grid part = image->memory;
    if (part.first != NULL)
        part.first += rect->start_y * part.row + rect->start_x * part.column;
    return part;
}

static vx_status fill(vx_image image, const vx_pixel_value_t *value) {
    const vx_rectangle_t whole = whole_of(image);
    vx_size size = sample_size(image->format);
    uint8_t *row = malloc(image->width * size);
    if (row == NULL)
        return VX_ERROR_NO_MEMORY;
    for (vx_uint32 x = 0; x < image->width; x++)
        memcpy(row + x * size, value, size);
    /* A stride of 0 repeats the row. */
    const struct grid rows = {row, (ptrdiff_t)size, 0};
    vx_status status = VX_SUCCESS;
    if (!image->is_handle)
        status = write_part(image, &whole, rows);
    else
        copy_grid(image->memory, rows, image->width, image->height, size, 1);
    free(row);
    return status;
}

PUBLIC vx_status VX_API_CALL vxSetImagePixelValues(vx_image image,
                                                   const vx_pixel_value_t *pixel_value) {
    vx_context context = enter(image, VX_TYPE_IMAGE);
    if (context == NULL)
        return VX_ERROR_INVALID_REFERENCE;
    if (image->is_uniform || image->scope != 0)
        return leave(context, VX_ERROR_INVALID_REFERENCE);
    if (pixel_value == NULL)
        return leave(context, VX_ERROR_INVALID_PARAMETERS);
    if (image->is_handle && image->memory.first == NULL)
        return leave(context, VX_ERROR_NOT_ALLOCATED);
    return leave(context, fill(image, pixel_value));
}

static vx_reference make_uniform(vx_context context, struct _vx_image described) {
    vx_reference made = create_image(context, described);
    if (made->type != VX_TYPE_IMAGE)
        return made;
    vx_image image = (vx_image)made;
    vx_status status = fill(image, &described.uniform);
    image->is_uniform = true;
    image->uniform = described.uniform;
    if (status == VX_SUCCESS)
        return made;
    release(&made, VX_TYPE_IMAGE);
    return error_of(context, status);
}

PUBLIC vx_image VX_API_CALL vxCreateUniformImage(vx_context context, vx_uint32 width,
                                                 vx_uint32 height, vx_df_image color,
                                                 const vx_pixel_value_t *value) {
    if (enter(context, VX_TYPE_CONTEXT) == NULL)
        return NULL;
    vx_reference made = error_of(context, value == NULL ? VX_ERROR_INVALID_PARAMETERS
                                                        : VX_ERROR_NOT_SUPPORTED);
    if (value != NULL && format_number(color) != 0)
        made = make_uniform(context, (struct _vx_image){.width = width,
                                                        .height = height,
                                                        .format = color,
                                                        .uniform = *value});
    leave(context, VX_SUCCESS);
    return (vx_image)made;
}

/* ---- Parts ---- */

/* Whether a part of an image may be copied. */
static vx_status check_part(const struct _vx_image *image, const vx_rectangle_t *rect,
                            vx_uint32 plane, vx_enum usage) {
    if (image->scope != 0)
        return VX_ERROR_OPTIMIZED_AWAY;
    if (image->is_uniform && usage != VX_READ_ONLY)
        return VX_ERROR_NOT_SUPPORTED;
    if (image->is_handle && image->memory.first == NULL)
        return VX_ERROR_NOT_ALLOCATED;
    bool is_part = rect != NULL && plane == 0 && rect->start_x < rect->end_x &&
                   rect->start_y < rect->end_y && rect->end_x <= image->width &&
                   rect->end_y <= image->height;
    return is_part ? VX_SUCCESS : VX_ERROR_INVALID_PARAMETERS;
}

/* Whether memory with this layout holds a part, in rows that don't overlap. */
static bool has_room(const vx_imagepatch_addressing_t *addr, const vx_rectangle_t *rect,
                     vx_size size) {
    if (addr == NULL || addr->dim_x < rect->end_x - rect->start_x ||
        addr->dim_y < rect->end_y - rect->start_y || addr->stride_x < (vx_int32)size)
        return false;
    return addr->dim_y == 1 ||
           (vx_int64)addr->stride_y >= (vx_int64)addr->stride_x * (vx_int64)addr->dim_x;
}

/* Copies a part between an image and the user's memory. */
static vx_status copy_users(vx_image image, const vx_rectangle_t *rect, struct grid users,
                            vx_enum usage) {
    struct grid images = memory_of(image, rect);
    if (!image->is_handle)
        return usage == VX_READ_ONLY ? read_part(image, rect, users)
                                     : write_part(image, rect, users);
    bool is_read = usage == VX_READ_ONLY;
    copy_part(is_read ? users : images, is_read ? images : users, rect, sample_size(image->format),
              1);
    return VX_SUCCESS;
}

PUBLIC vx_status VX_API_CALL vxCopyImagePatch(vx_image image, const vx_rectangle_t *image_rect,
                                              vx_uint32 image_plane_index,
                                              const vx_imagepatch_addressing_t *user_addr,
                                              void *user_ptr, vx_enum usage,
                                              vx_enum user_mem_type) {
    vx_context context = enter(image, VX_TYPE_IMAGE);
    if (context == NULL)
        return VX_ERROR_INVALID_REFERENCE;
    vx_status status = check_part(image, image_rect, image_plane_index, usage);
    if (status == VX_SUCCESS &&
        (user_ptr == NULL || !is_copy(usage, user_mem_type) ||
         !has_room(user_addr, image_rect, sample_size(image->format))))
        status = VX_ERROR_INVALID_PARAMETERS;
    if (status != VX_SUCCESS)
        return leave(context, status);
    struct grid users = {user_ptr, user_addr->stride_x, user_addr->stride_y};
    return leave(context, copy_users(image, image_rect, users, usage));
}

static vx_imagepatch_addressing_t address_of(const struct map *map, vx_size size) {
    return (vx_imagepatch_addressing_t){.dim_x = map->rect.end_x - map->rect.start_x,
                                        .dim_y = map->rect.end_y - map->rect.start_y,
                                        .stride_x = (vx_int32)map->grid.column,
                                        .stride_y = (vx_int32)map->grid.row,
                                        .scale_x = VX_SCALE_UNITY,
                                        .scale_y = VX_SCALE_UNITY,
                                        .step_x = 1,
                                        .step_y = 1,
                                        .stride_x_bits = (vx_uint16)(8 * size)};
}

/* How many bytes of a buffer are before the samples of a map. On the server a large picture begins
   LEAD bytes after the start of a page, where malloc places it. The system copies faster from one
   page to another if both copies begin at the same place in a page. */
static size_t lead_of(struct buffer buffer, vx_enum usage) {
    bool is_at_page = (uintptr_t)buffer.bytes % HUGE_PAGE == 0;
    return usage != VX_READ_ONLY && is_at_page ? LEAD : 0;
}

/* Makes a map: in place for an image from a handle, else of a buffer with any samples. Returns NULL
   where there is no memory. */
static struct map *make_map(vx_image image, const vx_rectangle_t *rect, vx_enum usage) {
    struct map *map = calloc(1, sizeof *map);
    if (map == NULL)
        return NULL;
    *map = (struct map){.rect = *rect, .usage = usage, .grid = memory_of(image, rect)};
    if (image->is_handle)
        return map;
    vx_size size = sample_size(image->format), row = size * (rect->end_x - rect->start_x);
    map->samples = take_buffer(image->base.context, LEAD + row * (rect->end_y - rect->start_y));
    if (map->samples.bytes == NULL) {
        free(map);
        return NULL;
    }
    map->grid = (struct grid){map->samples.bytes + lead_of(map->samples, usage), (ptrdiff_t)size,
                              (ptrdiff_t)row};
    return map;
}

static void free_map(vx_context context, struct map *map) {
    give_buffer(context, map->samples);
    free(map);
}

static vx_status map_part(vx_image image, const vx_rectangle_t *rect, vx_enum usage,
                          struct map **made) {
    struct map *map = make_map(image, rect, usage);
    if (map == NULL)
        return VX_ERROR_NO_MEMORY;
    vx_status status = VX_SUCCESS;
    if (usage != VX_WRITE_ONLY && !image->is_handle)
        status = read_part(image, rect, map->grid);
    if (status != VX_SUCCESS) {
        free_map(image->base.context, map);
        return status;
    }
    map->id = ++image->next_map;
    map->next = image->maps;
    image->maps = map;
    *made = map;
    return VX_SUCCESS;
}

PUBLIC vx_status VX_API_CALL vxMapImagePatch(vx_image image, const vx_rectangle_t *rect,
                                             vx_uint32 plane_index, vx_map_id *map_id,
                                             vx_imagepatch_addressing_t *addr, void **ptr,
                                             vx_enum usage, vx_enum mem_type, vx_uint32 flags) {
    /* VX_NOGAP_X changes nothing: only the program's own memory may have gaps. */
    (void)flags;
    vx_context context = enter(image, VX_TYPE_IMAGE);
    if (context == NULL)
        return VX_ERROR_INVALID_REFERENCE;
    vx_status status = check_part(image, rect, plane_index, usage);
    if (status == VX_SUCCESS &&
        (map_id == NULL || addr == NULL || ptr == NULL || !is_map(usage, mem_type)))
        status = VX_ERROR_INVALID_PARAMETERS;
    struct map *map = NULL;
    if (status == VX_SUCCESS)
        status = map_part(image, rect, usage, &map);
    if (status == VX_SUCCESS) {
        *map_id = map->id;
        *addr = address_of(map, sample_size(image->format));
        *ptr = map->grid.first;
    }
    return leave(context, status);
}

PUBLIC vx_status VX_API_CALL vxUnmapImagePatch(vx_image image, vx_map_id map_id) {
    vx_context context = enter(image, VX_TYPE_IMAGE);
    if (context == NULL)
        return VX_ERROR_INVALID_REFERENCE;
    struct map **place = &image->maps;
    while (*place != NULL && (*place)->id != map_id)
        place = &(*place)->next;
    struct map *map = *place;
    if (map == NULL)
        return leave(context, VX_ERROR_INVALID_PARAMETERS);
    /* A log callback may unmap too. */
    *place = map->next;
    vx_status status = VX_SUCCESS;
    if (map->usage != VX_READ_ONLY && !image->is_handle)
        status = write_part(image, &map->rect, map->grid);
    if (status == VX_ERROR_NO_MEMORY) {
        /* The program can try again, so the map stays. */
        map->next = image->maps;
        image->maps = map;
    } else {
        free_map(context, map);
    }
    return leave(context, status);
}

void free_maps(vx_image image) {
    while (image->maps != NULL) {
        struct map *map = image->maps;
        image->maps = map->next;
        free_map(image->base.context, map);
    }
}

PUBLIC void *VX_API_CALL vxFormatImagePatchAddress1d(void *ptr, vx_uint32 index,
                                                     const vx_imagepatch_addressing_t *addr) {
    if (addr == NULL || addr->dim_x == 0)
        return NULL;
    return vxFormatImagePatchAddress2d(ptr, index % addr->dim_x, index / addr->dim_x, addr);
}

PUBLIC void *VX_API_CALL vxFormatImagePatchAddress2d(void *ptr, vx_uint32 x, vx_uint32 y,
                                                     const vx_imagepatch_addressing_t *addr) {
    if (ptr == NULL || addr == NULL || x >= addr->dim_x || y >= addr->dim_y)
        return NULL;
    return (uint8_t *)ptr + (ptrdiff_t)y * addr->stride_y + (ptrdiff_t)x * addr->stride_x;
}
