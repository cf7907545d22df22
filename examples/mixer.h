/*
 * The way back through the mixer (clause 4.5), which a receiver has to go. The library has none: it mixes.
 */
#ifndef MIXER_H
#define MIXER_H

#include <stddef.h>
#include <stdint.h>

/*
 * Puts the bits of a mixed codeword, n bytes, back to where they were before: of a payload codeword of any pattern, or
 * of the signalling codeword. It must have the length of one of these.
 */
void unmix(const uint8_t *mixed, uint8_t *codeword, size_t n);

#endif
