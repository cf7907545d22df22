/*
 * An IP stream taken out of the frames again, as a receiver does it: with all words, and once more with some lost.
 */
#ifndef IP_RECEIVED_H
#define IP_RECEIVED_H

#include <stdbool.h>

#include "ip.h"
#include "words.h"

/*
 * Reads the payload words of a stream that came out of the frames, prints a picture of them, and writes the packets
 * that come out to a file. Then it reads them again, with some words lost and one refused, and writes nothing. True if
 * the packets that come out are those that were sent in these words; the second time just those that had nothing in
 * the words that were lost or refused.
 */
bool read_ip(const struct words *words, const struct ip_stream *sent);

#endif
