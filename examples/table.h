/*
 * The tables of a sheet's pipes and of frames, as they are printed.
 */
#ifndef TABLE_H
#define TABLE_H

#include <stdbool.h>
#include <stdint.h>

#include "sender.h"

/*
 * Prints a line for each pipe of an accepted sheet, of which the payload pipes are ready to be sent: its pattern,
 * width, slots and codewords, its greatest delay, the memory that the library is lent for it, and the streams that the
 * sheet has in its slots.
 */
void say_pipes(const uint8_t *sheet, const struct sender *senders);

/* Whether a frame, counted from 0, has a line in a table: the first frames do, and then some. */
bool is_shown(size_t frame);

#endif
