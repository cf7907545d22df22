/*
 * The self-test of the encoder: sums of words, as a test bench sends them. The turbo code is linear, so that the
 * codeword of the bitwise sum of two words is the sum of their codewords, tail included. The premise is that both
 * words have zero spare bits.
 */
#ifndef SUMS_H
#define SUMS_H

#include <stdbool.h>

/*
 * Encodes pairs of words and their sums, payload words under all 28 patterns and words of the signalling block
 * under pattern 0, and prints a line for each; then shows what is refused. True if each sum has the codeword that
 * it must have, the word of zeros has a codeword of zeros, and each refusal is the expected one.
 *
 *   pairs   how many pairs there are under each pattern, in digits, 1 to 10000; null: 8
 */
bool self_test(const char *pairs);

#endif
