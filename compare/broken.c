/*
 * The head-end's self-test over an encoder with a fault, which FAULT in the environment names: a test that cannot fail
 * shows nothing. This file stands in place of examples/sums.c, and tests/self_test.rs runs the program.
 */
#include <stdio.h>
#include <stdlib.h>
#include <string.h>

#include "opl.h"

/* A call of opl_encode. */
struct call {
    uint32_t pattern;
    const uint8_t *infoword;
    size_t n;
    uint8_t *codeword;
    size_t m;
};

static uint8_t none(const struct call *call)
{
    return opl_encode(call->pattern, call->infoword, call->n, call->codeword, call->m);
}

/* The last bit of the tail is one, under pattern 17 alone. */
static uint8_t tail_bit_stuck(const struct call *call)
{
    uint8_t refusal = none(call);
    if (call->pattern == 17)
        call->codeword[call->m - 1] |= 0x01;
    return refusal;
}

/* It is inverted, in the signalling block alone. */
static uint8_t tail_bit_inverted(const struct call *call)
{
    uint8_t refusal = none(call);
    if (call->n == OPL_SIGNALLING_BYTES)
        call->codeword[call->m - 1] ^= 0x01;
    return refusal;
}

/* Two bits of the word are multiplied and added to a bit of its codeword, so that zeros still give zeros. */
static uint8_t product_added(const struct call *call)
{
    uint8_t refusal = none(call);
    if (call->pattern == 5)
        call->codeword[1000] ^= call->infoword[40] & call->infoword[1500] & 0x10;
    return refusal;
}

/* The same in the tail. */
static uint8_t product_added_to_the_tail(const struct call *call)
{
    uint8_t refusal = none(call);
    if (call->pattern == 27)
        call->codeword[call->m - 1] ^= call->infoword[40] & call->infoword[1500] & 0x01;
    return refusal;
}

static uint8_t nothing_written(const struct call *call)
{
    return call->pattern == 9 ? OPL_ACCEPTED : none(call);
}

/* Where the word's first bit is set, as it is in half of the words and not in that of zeros. */
static uint8_t nothing_written_at_times(const struct call *call)
{
    return call->infoword[0] >= 0x80 ? OPL_ACCEPTED : none(call);
}

static uint8_t last_byte_not_written(const struct call *call)
{
    uint8_t last = call->codeword[call->m - 1], refusal = none(call);
    if (call->pattern == 3)
        call->codeword[call->m - 1] = last;
    return refusal;
}

/* A payload word is refused where its CRC is wrong, as it is in a sum. */
static uint8_t crc_looked_at(const struct call *call)
{
    uint8_t header[OPL_PAYLOAD_HEADER_BYTES];
    uint8_t refusal = opl_payload_read(call->infoword, call->n, header, sizeof header);
    return refusal == OPL_CRC ? refusal : none(call);
}

static uint8_t spare_bits_passed_over(const struct call *call)
{
    uint8_t word[OPL_PAYLOAD_WORD_BYTES];
    struct call cleared = *call;
    memcpy(word, call->infoword, call->n);
    word[call->n - 1] &= 0xC0;
    cleared.infoword = word;
    return none(&cleared);
}

static uint8_t refused_and_touched(const struct call *call)
{
    uint8_t refusal = none(call);
    if (refusal != OPL_ACCEPTED)
        call->codeword[call->m - 1] ^= 0x01;
    return refusal;
}

static const struct {
    const char *name;
    uint8_t (*encode)(const struct call *call);
} faults[] = {
    {"none", none},
    {"tail_bit_stuck", tail_bit_stuck},
    {"tail_bit_inverted", tail_bit_inverted},
    {"product_added", product_added},
    {"product_added_to_the_tail", product_added_to_the_tail},
    {"nothing_written", nothing_written},
    {"nothing_written_at_times", nothing_written_at_times},
    {"last_byte_not_written", last_byte_not_written},
    {"crc_looked_at", crc_looked_at},
    {"spare_bits_passed_over", spare_bits_passed_over},
    {"refused_and_touched", refused_and_touched},
};

static uint8_t broken_encode(uint32_t pattern, const uint8_t *infoword, size_t n, uint8_t *codeword, size_t m)
{
    const struct call call = {pattern, infoword, n, codeword, m};
    const char *fault = getenv("FAULT");
    for (size_t i = 0; fault != NULL && i < sizeof faults / sizeof faults[0]; i++)
        if (strcmp(faults[i].name, fault) == 0)
            return faults[i].encode(&call);
    fprintf(stderr, "broken: FAULT names no fault\n");
    exit(2);
}

#define opl_encode broken_encode
#include "../examples/sums.c"
