/*
 * What is printed of frames as they are played.
 */
#ifndef PLAYED_H
#define PLAYED_H

#include "play.h"

/* Prints what is in the first frame. The others have the same, with what counts counted on. */
void say_first(const struct frames *frames, const uint8_t *sheet);

/* Prints the frame's line of the table: of the first frames, and then of some, which shows how far the work is. */
void say_frame(const struct frames *frames, const uint8_t *sheet);

/* Prints what was sent in all frames. */
void say_sums(const struct frames *frames, const uint8_t *sheet);

#endif
