/*
 * Frames in the making: each is written to a file as its capacity units, and what it carries is kept.
 */
#ifndef PLAY_H
#define PLAY_H

#include <stdbool.h>
#include <stddef.h>
#include <stdint.h>
#include <stdio.h>

#include "ip.h"
#include "opl.h"
#include "sender.h"
#include "sent.h"
#include "sheet.h"
#include "transport.h"

/* The frames that are played at least, so that who is late for the first has a whole one to read; and at most. */
enum { FRAMES_LEAST = 2, FRAMES_MOST = 10000 };

/* The capacity units of a frame at most; that is more than the 14,835 that a sheet can have in use. */
enum { UNITS_MOST = 65536 };

struct frames {
    const char *path, *payload_path;
    size_t count;                       /* of frames that are to be played; 0: as many as are needed */
    size_t units;                       /* of each frame */
    struct sent_stream *stream;         /* the stream that carries a transport stream, or null */
    struct ip_stream *ip;               /* the stream that carries IP packets, or null */
    struct sent sent;                   /* all that was sent */
    FILE *file, *payload;
    size_t number;                      /* of the frame at hand, counted from 0 */
    size_t carried;                     /* frames all of which is to come back */
    size_t delay;                       /* the greatest of all pipes, in frames */
    uint8_t *frame;                     /* the bytes of the frame at hand */
    uint8_t word[OPL_SIGNALLING_BYTES]; /* its signalling word */
    struct sender senders[PIPES_MOST];  /* the payload pipes */
    struct tail tail;                   /* the tail pipe */
    size_t words;                       /* payload words of type 1 in all frames */
    size_t payload_sent;                /* bytes of the payload file in these */
    size_t rounds;                      /* how often that file has begun again */
    size_t filled;                      /* words that zeros fill up */
};

/*
 * Whether the inverted preamble is due: frames have it upright and inverted in turn (clause 4.10.1.2). Frame_Index does
 * not tell, as a day may have an odd number of frames; so the frames that are sent are counted.
 */
bool frame_is_inverted(const struct frames *frames);

/*
 * Writes the file of the frames that begin with an accepted sheet, which becomes the sheet of the last, and prints what
 * is in them. Then count is how many were played, and all that was sent is kept, even where this fails: the caller
 * frees it.
 */
bool play(struct frames *frames, uint8_t *sheet);

#endif
