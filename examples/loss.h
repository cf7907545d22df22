/*
 * Words of an IP stream that do not reach the receiver, and the packets that are lost with them.
 */
#ifndef LOSS_H
#define LOSS_H

#include "ip.h"

/* Words that are lost, one after the other, and one that is refused. All zeros: none of either. */
struct loss {
    size_t first, lost; /* the first that is lost, and how many are */
    size_t damaged;     /* the word of which a bit is inverted, so that it is refused */
    size_t refused;     /* 1 where there is such a word, else 0 */
};

/*
 * A loss in the midst of that many words: two words are lost about a third of the way on, and one is refused at two
 * thirds. Where there are fewer than six words one is lost, and where there is one word it is refused.
 */
struct loss loss_of(size_t words);

bool is_lost(const struct loss *loss, size_t word);
bool is_damaged(const struct loss *loss, size_t word);

/* Whether one of the words that carry a packet is lost or refused, so that the packet does not come out. */
bool is_hit(const struct ip_stream *stream, const struct loss *loss, size_t packet);

#endif
