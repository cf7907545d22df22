#include "codeword.h"

#include <string.h>

#include "opl.h"
#include "say.h"

/* A lane is made of groups of five places; the six of the tail follow those of the infoword's bits. */
enum { GROUP = 5, TAIL_GROUPS = 6 };

/* The places of the lane of a payload word or of a signalling word, n bytes. */
static size_t lane_places(size_t n)
{
    return n == OPL_SIGNALLING_BYTES ? OPL_SIGNALLING_LANE : OPL_PAYLOAD_LANE;
}

size_t coded_bits(size_t n)
{
    return lane_places(n) / GROUP - TAIL_GROUPS;
}

/* A value of 1 for each code bit is placed, so that each place of the lane holds how often it is sent. */
size_t tail_bits(unsigned pattern, size_t m, size_t n)
{
    static int8_t ones[8 * OPL_PAYLOAD_CODEWORD_MOST];
    static int16_t copies[OPL_PAYLOAD_LANE];
    size_t end = lane_places(n), bits = 0;
    memset(ones, 1, 8 * m);
    if (!accepted(opl_place(pattern, ones, 8 * m, copies, end), "opl_place", "a value for each code bit"))
        return 0;
    for (size_t i = end - GROUP * TAIL_GROUPS; i < end; i++)
        bits += (size_t)copies[i];
    return bits;
}

/* The code bits as they are received without noise: 1 for a zero and -1 for a one. */
static void receive(const uint8_t *codeword, int8_t *values, size_t bits)
{
    for (size_t i = 0; i < bits; i++)
        values[i] = codeword[i / 8] >> (7 - i % 8) & 1 ? -1 : 1;
}

/*
 * Takes an infoword from a lane: the X of data group i holds what was received for its bit i, and 0 where
 * the pattern does not send that. Returns how many were sent.
 */
static size_t take_word(const int16_t *lane, size_t bits, uint8_t *word)
{
    size_t sent = 0;
    for (size_t i = 0; i < bits; i++) {
        word[i / 8] |= (lane[GROUP * i] < 0) << (7 - i % 8);
        sent += lane[GROUP * i] != 0;
    }
    return sent;
}

size_t take_infoword(const char *name, unsigned pattern, const uint8_t *codeword, size_t m, uint8_t *word,
                     size_t n)
{
    static int8_t values[8 * OPL_PAYLOAD_CODEWORD_MOST];
    static int16_t lane[OPL_PAYLOAD_LANE];
    receive(codeword, values, 8 * m);
    if (!accepted(opl_place(pattern, values, 8 * m, lane, lane_places(n)), "opl_place", name))
        return 0;
    memset(word, 0, n);
    return take_word(lane, coded_bits(n), word);
}
