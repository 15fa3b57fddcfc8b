/* Maps of tables, arrays and distributions, in place or of a copy. */
#include "internal.h"

#include <stdlib.h>

vx_status add_view(struct views *views, vx_enum usage, void *copy, vx_map_id *id) {
    struct view *view = malloc(sizeof *view);
    if (view == NULL)
        return VX_ERROR_NO_MEMORY;
    *view = (struct view){++views->last, usage, copy, views->first};
    views->first = view;
    *id = view->id;
    return VX_SUCCESS;
}

vx_status drop_view(struct views *views, vx_map_id id, vx_enum *usage) {
    struct view **place = &views->first;
    while (*place != NULL && (*place)->id != id)
        place = &(*place)->next;
    struct view *view = *place;
    if (view == NULL)
        return VX_ERROR_INVALID_PARAMETERS;
    *usage = view->usage;
    *place = view->next;
    free(view->copy);
    free(view);
    return VX_SUCCESS;
}

void free_views(struct views *views) {
    vx_enum usage;
    while (views->first != NULL)
        drop_view(views, views->first->id, &usage);
}

bool is_map(vx_enum usage, vx_enum memory) {
    return is_copy(usage, memory) || (usage == VX_READ_AND_WRITE && memory == VX_MEMORY_TYPE_HOST);
}
