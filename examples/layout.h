/*
 * How the capacity units of a frame are shared out (clauses 4.9 and 4.10.2), as a picture.
 */
#ifndef LAYOUT_H
#define LAYOUT_H

#include <stddef.h>
#include <stdint.h>

/* Prints a picture of a frame of so many capacity units, and what its characters mean. */
void say_layout(const uint8_t *sheet, size_t units);

#endif
