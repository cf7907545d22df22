/*
 * Where frames start, found as a receiver finds it: by the preamble, which frames have upright and inverted in
 * turn, so that what repeats it by chance is not taken for a start (clause 4.10.1.2).
 */
#ifndef STARTS_H
#define STARTS_H

#include <stdbool.h>
#include <stddef.h>
#include <stdint.h>

#include "apart.h"

/*
 * Looks for preambles at every byte of a recording of n bytes, and prints where some are. The distance of the first two
 * is that of all frames; with one preamble the recording is one frame. True if one is at the start of each frame, and
 * nowhere else, if each has the form that the one before it has not, and if the last frame is whole. Then the frames
 * are in *recorded.
 */
bool find_frames(const uint8_t *bytes, size_t n, struct recorded *recorded);

#endif
