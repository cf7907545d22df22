/*
 * A list of things of one size, which grows.
 */
#ifndef LIST_H
#define LIST_H

#include <stdbool.h>
#include <stddef.h>

struct list {
    size_t size;  /* of each thing, in bytes */
    size_t count; /* of the things that are there */
    size_t room;  /* for how many there is memory */
    void *things;
};

/* Puts a copy of a thing at the end. False if there is no memory for it, which is said. */
bool list_add(struct list *list, const void *thing);

/* One of the things, counted from 0. */
const void *list_at(const struct list *list, size_t number);

void list_free(struct list *list);

#endif
