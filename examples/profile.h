/*
 * The disperser profile of a pipe (clause 4.10.7), as the library works it out.
 */
#ifndef PROFILE_H
#define PROFILE_H

#include <stdbool.h>
#include <stddef.h>
#include <stdint.h>

#include "sheet.h"

/* An interleaver unit has 512 bits (clause 4.6). The taps of a profile come again with the 33rd unit of a codeword. */
enum { INTERLEAVER_UNIT_BYTES = 512 / 8, TAPS = 32 };

/* By how many frames the receiver delays the units of a codeword, and the greatest delay. */
struct profile {
    uint16_t lengths[TAPS];
    uint16_t greatest;
};

/* Has the library work out the profile of a payload pipe that is sent. */
bool profile_of(const struct pipe *pipe, struct profile *profile);

/* The greatest delay of all pipes of a sheet; of the tail pipe, which has no disperser, it is 0 (clause 4.10.8). */
bool greatest_delay(const uint8_t *sheet, size_t *greatest);

#endif
