/*
 * A transport stream taken out of the frames again, as a receiver does it.
 */
#ifndef RECEIVED_H
#define RECEIVED_H

#include <stdbool.h>

#include "transport.h"
#include "words.h"

/*
 * Reads the payload words of a stream that came out of the frames, says whether their parity holds and shows what is
 * said of a damaged part. True if the packets are those that were sent in these words; null packets are dropped.
 */
bool read_stream(const struct words *words, const struct sent_stream *sent);

#endif
