#include "list.h"

#include <stdlib.h>
#include <string.h>

#include "say.h"

/* The room that a list has at first. It is doubled whenever it is full. */
enum { FIRST_ROOM = 16 };

static bool grow(struct list *list)
{
    size_t room = list->room == 0 ? FIRST_ROOM : 2 * list->room;
    void *things = realloc(list->things, room * list->size);
    if (things == NULL)
        return fail("no memory for %zu times %zu bytes", room, list->size);
    list->things = things;
    list->room = room;
    return true;
}

bool list_add(struct list *list, const void *thing)
{
    if (list->count == list->room && !grow(list))
        return false;
    memcpy((char *)list->things + list->size * list->count, thing, list->size);
    list->count++;
    return true;
}

const void *list_at(const struct list *list, size_t number)
{
    return (const char *)list->things + list->size * number;
}

void list_free(struct list *list)
{
    free(list->things);
    *list = (struct list){.size = list->size};
}
