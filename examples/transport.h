/*
 * A transport stream (ISO/IEC 13818-1) in a file, and the payload words that carry it (clause 4.3.3). And payload
 * words of types 0 and 1, which carry nothing and anything (clauses 4.3.1 and 4.3.2).
 */
#ifndef TRANSPORT_H
#define TRANSPORT_H

#include <stdbool.h>
#include <stddef.h>
#include <stdint.h>
#include <stdio.h>

#include "opl.h"

/* The stream types of payload words (clauses 4.3.1 to 4.3.4). */
enum { DUMMY = 0, TRANSPARENT = 1, TRANSPORT = 2, IP = 3 };

/* Writes a payload word of type 0, 1,536 bytes. */
bool dummy_word(uint8_t id, uint8_t *word);

/* Writes a payload word of type 1, 1,536 bytes. */
bool transparent_word(uint8_t id, const uint8_t payload[OPL_PAYLOAD_BYTES], uint8_t *word);

/* A file of packets, and how far it was read. */
struct transport {
    const char *path;
    FILE *file;
    size_t packets; /* that the file has */
    size_t taken;   /* of these, from the first on */
    size_t nulls;   /* of those taken, null packets */
};

/*
 * Opens a file and looks through it. False if it has anything but packets, each of 188 bytes with the sync byte
 * first, or none: then it says why, and of which packet, counted from 0, and the file is closed.
 */
bool transport_open(struct transport *transport, const char *path);

void transport_close(struct transport *transport);

/* Takes the next packet. There must be one left. */
bool transport_take(struct transport *transport, uint8_t *packet);

/* Whether a packet only fills up, which its PID says: 1FFF. */
bool is_null_packet(const uint8_t *packet);

/* A stream that is sent: its id, what it carries, and the payload words that were made. */
struct sent_stream {
    uint8_t id;
    struct transport source;
    size_t words;   /* of type 2, with packets */
    size_t filling; /* null packets that fill up the last of these */
    size_t dummies; /* of type 0, when all packets are sent */
};

/*
 * Writes the stream's next payload word, 1,536 bytes: with the next eight packets; with the last packets, where
 * they are fewer, and null packets; or a dummy word, where there are none left.
 */
bool stream_word(struct sent_stream *stream, uint8_t *word);

/* Prints what was sent in words of type 2, and what follows where the transport stream ends. */
void say_stream(const struct sent_stream *stream);

#endif
