/*
 * A payload pipe as it is sent, frame after frame: what the library has to be lent for it, and which streams have its
 * slots. And the tail pipe, which has no slots: its codewords run on from frame to frame.
 */
#ifndef SENDER_H
#define SENDER_H

#include <stdbool.h>
#include <stddef.h>
#include <stdint.h>

#include "opl.h"
#include "profile.h"
#include "sheet.h"

/* Makes the next payload word of a stream, 1,536 bytes, for a pipe, counted from 0. False if that fails: it is said. */
typedef bool word_maker(void *maker, size_t pipe, uint8_t id, uint8_t *word);

/* Who makes the words of a pipe. */
struct source {
    word_maker *make;
    void *maker;
    size_t pipe;
};

/* A payload pipe that is sent. All zeros: one that is not. */
struct sender {
    struct profile profile;
    struct pipe ahead;    /* the pipe of the frame with which receivers have the codewords that are put in now */
    uint8_t *codewords;   /* of a frame */
    uint8_t *memory;      /* that the library is lent from frame to frame */
    size_t memory_bytes;
};

/*
 * Gets ready to send the payload pipe of the first frame. A pipe that is not sent needs nothing.
 *
 * The streams of a signalling word are those of the codewords that come out of the receivers' dispersers with that
 * frame (clause 4.10.4), so what goes in now is by the frame that is the greatest delay on.
 */
bool sender_open(struct sender *sender, const struct pipe *pipe);

void sender_close(struct sender *sender);

/* Writes the pipe of the next frame, frames counted from 0. */
bool send_pipe(struct sender *sender, const struct pipe *pipe, size_t frame, const struct source *source, uint8_t *out);

/* What is left of the tail pipe's codeword that is begun, which the next frame goes on with. All zeros: none is. */
struct tail {
    uint8_t mixed[OPL_PAYLOAD_CODEWORD_MOST];
    size_t sent, bytes;
};

/* Whether the tail pipe of the next frame begins with a codeword, which Codeword_Align_Flag has to say. */
bool tail_begins(const struct tail *tail);

/* Writes the tail pipe of the next frame: the mixed codewords run on, cut to the width of the pipe (clause 4.10.8). */
bool send_tail(struct tail *tail, const struct pipe *pipe, const struct source *source, uint8_t *out);

#endif
