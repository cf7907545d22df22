/*
 * From a codeword to its infoword, as if received without noise, so that no turbo decoder is needed where the
 * pattern sends all bits of the infoword. And how a codeword is made up.
 */
#ifndef CODEWORD_H
#define CODEWORD_H

#include <stddef.h>
#include <stdint.h>

/* The bits of a payload word or of a signalling word, n bytes, that are coded. */
size_t coded_bits(size_t n);

/*
 * The code bits of the tail (clause 4.4.3), which are the last of a codeword of m bytes; a bit that is sent twice
 * counts twice. Returns 0 if the pattern or a length is refused, which is said.
 */
size_t tail_bits(unsigned pattern, size_t m, size_t n);

/*
 * Takes the infoword, of n bytes, from a codeword of m bytes; a bit that the pattern does not send becomes 0.
 * Returns how many were sent, of those that are coded, or 0 if the codeword was refused, which is said under its
 * name.
 */
size_t take_infoword(const char *name, unsigned pattern, const uint8_t *codeword, size_t m, uint8_t *word,
                     size_t n);

#endif
