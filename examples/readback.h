/*
 * The frames that the head-end has written, found again and taken apart from its file as a receiver and test
 * equipment do: received without noise, so that no turbo decoder is needed. And held to what was sent.
 */
#ifndef READBACK_H
#define READBACK_H

#include <stdbool.h>
#include <stddef.h>

#include "ip.h"
#include "sent.h"
#include "transport.h"

/*
 * Where the frames are: their file, how many it has, and how many bytes each of them has. What was sent in them, and
 * the streams in them that carry a transport stream and IP packets, or null.
 */
struct recording {
    const char *path;
    size_t frames, frame_bytes;
    const struct sent *sent;
    const struct sent_stream *stream;
    const struct ip_stream *ip;
};

/*
 * Finds the frames of a recording by their preambles, reads the signalling word of one, counted from 0, and shows what
 * a damaged copy is refused with; takes all frames apart and holds every sheet and every payload word to what was sent;
 * then reads the streams of packets. True if the frames are there and hold what was sent.
 */
bool read_back(const struct recording *recording, size_t number);

#endif
