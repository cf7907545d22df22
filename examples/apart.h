/*
 * The reader: it takes a recording of frames apart, as a receiver does it without noise, and finds the sheet of each
 * frame and the payload words that come out of its pipes. It knows nothing but the recording.
 */
#ifndef APART_H
#define APART_H

#include <stdbool.h>
#include <stddef.h>
#include <stdint.h>

#include "sheet.h"

/* Frames that were recorded: their bytes, how many there are, and how many bytes each of them has. */
struct recorded {
    const uint8_t *frames;
    size_t count, frame_bytes;
};

/* A codeword that is whole, and the payload word in it. */
struct found {
    size_t frame;            /* that it came to be whole with, counted from 0 */
    size_t pipe;             /* counted from 0, the tail pipe last */
    unsigned pattern;        /* of that pipe */
    uint8_t id;              /* of the stream that has its slot */
    const uint8_t *codeword; /* as the encoder gave it, not mixed any more */
    const uint8_t *word;     /* 1,536 bytes */
    bool all;                /* whether the pattern sends all bits of the word; without, it takes a turbo decoder */
};

/* Who takes what is found: the sheet of each frame, then the words that are whole with it. False ends the taking. */
struct taker {
    void *self;
    bool (*sheet)(void *self, size_t frame, const uint8_t *sheet);
    bool (*word)(void *self, const struct found *found);
};

/*
 * Takes the frames apart. The pipes are to stay as they are from frame to frame, as no event intervenes, and the tail
 * pipe is read from the first frame on in which a codeword begins with it. False if a taking was false, something was
 * refused, Codeword_Align_Flag does not say what is so, or what follows the pipes is not zeros; which is said.
 */
bool take_apart(const struct recorded *recorded, const struct taker *taker);

/* Reads the sheet of a frame, from its mixed signalling codeword. The room is OPL_SHEET_ROOM bytes. */
bool frame_sheet(const uint8_t *frame, uint8_t *sheet);

#endif
