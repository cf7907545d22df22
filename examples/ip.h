/*
 * IP packets in a file, and the payload words of type 3 that carry them (clause 4.3.4).
 *
 * The file has packets as opl.h has them in a queue: type, error, length in two bytes, data, and so the next one.
 */
#ifndef IP_H
#define IP_H

#include <stdbool.h>
#include <stddef.h>
#include <stdint.h>

#include "sheet.h"

/* What stands before a packet's data: four bytes in a queue, and a header of two in a word. */
enum { IP_LABEL_BYTES = 4, IP_HEADER_BYTES = 2 };

/* The packets of a file, all of which are kept: a packet has to be there until it is wholly sent. */
struct ip_queue {
    const char *path;
    uint8_t *bytes;
    size_t n;
    size_t packets;
    size_t *starts; /* where each packet begins, and behind the last of these where the queue ends */
};

/* How far a queue has come: the packet that is first, and how much of it is sent, its header counted. */
struct ip_place {
    size_t packet;
    uint32_t sent;
};

/* A stream that is sent: its id, what it carries, where that is put when it is read, and the words that were made. */
struct ip_stream {
    int id; /* or NO_STREAM, where none is left to carry the packets */
    struct ip_queue queue;
    const char *back_path;
    struct ip_place *places; /* before each word of type 3, and after the last of these */
    size_t words;            /* of type 3, with packets */
    size_t words_most;       /* that the packets can take */
    size_t dummies;          /* of type 0, when all packets are sent */
};

/* The two files of a stream: what is sent, and what comes back. */
struct ip_paths {
    const char *sent, *back;
};

/*
 * Reads a file of packets. False if the library refuses it as a queue, or if it has no packet: then it says why, and
 * of which packet, counted from 0, and nothing is kept.
 */
bool ip_open(struct ip_stream *stream, const struct ip_paths *paths);

void ip_close(struct ip_stream *stream);

/* Whether packets are still to be sent, or a part of one. */
bool ip_waits(const struct ip_stream *stream);

/*
 * Writes the stream's next payload word, 1,536 bytes: with what is left of the packet that is begun and with the next
 * packets; or a dummy word, where there are none left.
 */
bool ip_word(struct ip_stream *stream, uint8_t *word);

/* A packet as the queue has it, and the length of its data. */
const uint8_t *ip_packet(const struct ip_queue *queue, size_t packet);
size_t ip_length(const struct ip_queue *queue, size_t packet);

/* The number that two bytes make, the most significant first. */
size_t ip_number(const uint8_t *bytes);

/* How many packets are wholly sent. */
size_t ip_whole(const struct ip_stream *stream);

/* Whether a word has something of a packet, be it the header alone. */
bool ip_carries(const struct ip_stream *stream, size_t word, size_t packet);

/* Prints what was sent in words of type 3, and what follows where the packets end. */
void say_ip(const struct ip_stream *stream);

#endif
