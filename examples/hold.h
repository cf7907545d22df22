/*
 * What comes out of the frames, held to what was sent.
 */
#ifndef HOLD_H
#define HOLD_H

#include <stdbool.h>

#include "apart.h"
#include "sent.h"
#include "words.h"

/*
 * Takes the frames apart, prints a line for each pipe, and keeps the payload words. True if each frame has the sheet
 * that was sent, and each pipe gives every payload word that is whole by then, byte for byte and in order. Where the
 * pattern does not send all bits of a word, its codeword is held to that of the word that was sent.
 */
bool hold_frames(const struct recorded *recorded, const struct sent *sent, struct words *words);

#endif
