#include "sums.h"

#include <stdio.h>
#include <string.h>

#include "codeword.h"
#include "opl_text.h"
#include "say.h"
#include "transport.h"

/* The pairs under each pattern if no other number is given, and the most of them. */
enum { PAIRS = 8, PAIRS_MOST = 10000 };

/* The puncturing patterns, Punct_Pat_ID 0 to 27 (table 7). */
enum { PATTERNS = 28 };

/* The bits of an infoword's last byte that are spare, and one of them. */
enum { SPARE_BITS = 0x3F, SPARE_BIT = 0x01 };

/* What is encoded together: two words, and their sum. */
enum { ONE, OTHER, SUM, WORDS };

/* The room for the name of a coding. */
enum { NAME = 64 };

/* A pattern, and a block that is coded under it. */
struct coding {
    unsigned pattern;
    size_t n;        /* bytes of a word */
    size_t m;        /* bytes of its codeword */
    size_t tail;     /* code bits of the tail; 0 where opl_place refused, which was said */
    char name[NAME]; /* what it is called where something fails */
};

/* The test bench: what it encodes at a time, and how far it has come. */
struct bench {
    uint64_t state;  /* of the generator */
    size_t pairs;    /* under each pattern */
    size_t compared; /* pairs under all patterns so far */
    uint8_t words[WORDS][OPL_PAYLOAD_WORD_BYTES];
    uint8_t codewords[WORDS][OPL_PAYLOAD_CODEWORD_MOST];
};

static struct coding coding_of(unsigned pattern, size_t n)
{
    size_t m = n == OPL_SIGNALLING_BYTES ? OPL_SIGNALLING_CODEWORD_BYTES : opl_codeword_bytes(pattern);
    struct coding coding = {.pattern = pattern, .n = n, .m = m, .tail = tail_bits(pattern, m, n)};
    snprintf(coding.name, sizeof coding.name, "pattern %u, block of %zu bits", pattern, coded_bits(n));
    return coding;
}

/* A byte that looks random, the same in each run: the top of Knuth's linear congruential generator of 64 bits. */
static uint8_t next_byte(struct bench *bench)
{
    bench->state = bench->state * UINT64_C(6364136223846793005) + UINT64_C(1442695040888963407);
    return (uint8_t)(bench->state >> 56);
}

static void fill(struct bench *bench, uint8_t *bytes, size_t n)
{
    for (size_t i = 0; i < n; i++)
        bytes[i] = next_byte(bench);
}

/* Adds bytes bit by bit, modulo 2. */
static void add(const uint8_t *one, const uint8_t *other, uint8_t *sum, size_t n)
{
    for (size_t i = 0; i < n; i++)
        sum[i] = one[i] ^ other[i];
}

/* Makes a payload word as it is sent, or any word of the signalling block, as the encoder looks at no CRC. */
static bool make_word(struct bench *bench, const struct coding *coding, uint8_t *word)
{
    uint8_t bytes[OPL_PAYLOAD_BYTES];
    if (coding->n == OPL_PAYLOAD_WORD_BYTES) {
        fill(bench, bytes, sizeof bytes);
        return transparent_word(next_byte(bench), bytes, word);
    }
    fill(bench, word, coding->n);
    word[coding->n - 1] &= (uint8_t)~SPARE_BITS;
    return true;
}

static void add_words(struct bench *bench, const struct coding *coding)
{
    add(bench->words[ONE], bench->words[OTHER], bench->words[SUM], coding->n);
}

/* Makes the words of a pair, and their sum. */
static bool make_pair(struct bench *bench, const struct coding *coding)
{
    if (!make_word(bench, coding, bench->words[ONE]) || !make_word(bench, coding, bench->words[OTHER]))
        return false;
    add_words(bench, coding);
    return true;
}

/*
 * Encodes the words of a pair and their sum. All codewords are ones before, so that a bit which no call writes is
 * seen too: it is one in the sum's codeword, and those of the other two add up to zero.
 */
static bool encode_words(struct bench *bench, const struct coding *coding)
{
    memset(bench->codewords, 0xFF, sizeof bench->codewords);
    for (size_t i = 0; i < WORDS; i++)
        if (!accepted(opl_encode(coding->pattern, bench->words[i], coding->n, bench->codewords[i], coding->m),
                      "opl_encode", coding->name))
            return false;
    return true;
}

/* The first bit in which two codewords differ. There must be one. */
static size_t first_difference(const uint8_t *one, const uint8_t *other)
{
    size_t at = 0;
    while (((one[at / 8] ^ other[at / 8]) & 0x80 >> at % 8) == 0)
        at++;
    return at;
}

/* Says where the codeword of a pair's sum is not the sum of the codewords. Returns false. */
static bool say_difference(const struct coding *coding, size_t pair, const uint8_t *codeword, const uint8_t *sum)
{
    size_t at = first_difference(codeword, sum), byte = at / 8;
    const char *part = at < 8 * coding->m - coding->tail ? "before the tail" : "in the tail";
    return fail("%s, pair %zu%s: byte %zu of the sum's codeword is %02X, and the sum of the codewords has %02X; "
                "the first bit that differs is %s",
                coding->name, pair, pair == 0 ? " (zeros)" : "", byte, codeword[byte], sum[byte], part);
}

/* Encodes the words at hand, and compares. */
static bool test_words(struct bench *bench, const struct coding *coding, size_t pair)
{
    uint8_t sum[OPL_PAYLOAD_CODEWORD_MOST];
    if (!encode_words(bench, coding))
        return false;
    add(bench->codewords[ONE], bench->codewords[OTHER], sum, coding->m);
    return memcmp(bench->codewords[SUM], sum, coding->m) == 0 ||
           say_difference(coding, pair, bench->codewords[SUM], sum);
}

/* Pair 0: a codeword that is the sum of itself and itself is zeros, as that of the word of zeros must be. */
static bool test_zeros(struct bench *bench, const struct coding *coding)
{
    memset(bench->words, 0, sizeof bench->words);
    return test_words(bench, coding, 0);
}

static bool test_pairs(struct bench *bench, const struct coding *coding)
{
    for (size_t pair = 1; pair <= bench->pairs; pair++)
        if (!make_pair(bench, coding) || !test_words(bench, coding, pair))
            return false;
    bench->compared += bench->pairs;
    return true;
}

/* Tests a pattern and prints its line, at once: with many pairs the lines show how far the test has come. */
static bool test_coding(struct bench *bench, const struct coding *coding)
{
    if (coding->tail == 0 || !test_zeros(bench, coding) || !test_pairs(bench, coding))
        return false;
    printf("  %7u  %10zu  %14zu  %9zu  %5zu  equal, and zeros for zeros\n", coding->pattern, coded_bits(coding->n),
           coding->m, coding->tail, bench->pairs);
    return fflush(stdout) == 0; /* if not, main says why */
}

static bool test_codings(struct bench *bench)
{
    struct coding signalling = coding_of(0, OPL_SIGNALLING_BYTES);
    printf("the codeword of a sum of two words, and the sum of their codewords\n"
           "  pattern  block bits  codeword bytes  tail bits  pairs  result\n");
    fflush(stdout);
    for (unsigned pattern = 0; pattern < PATTERNS; pattern++) {
        struct coding payload = coding_of(pattern, OPL_PAYLOAD_WORD_BYTES);
        if (!test_coding(bench, &payload))
            return false;
    }
    return test_coding(bench, &signalling);
}

/*
 * Shows that what the encoder takes the payload reader need not: HeaderCRC starts from ones and is inverted (annex
 * B), so that of a sum is not the sum of the two.
 */
static bool refuse_sum(const struct bench *bench)
{
    uint8_t header[OPL_PAYLOAD_HEADER_BYTES];
    for (size_t i = 0; i < SUM; i++)
        if (!accepted(opl_payload_read(bench->words[i], OPL_PAYLOAD_WORD_BYTES, header, sizeof header),
                      "opl_payload_read", "a payload word"))
            return false;
    mark(header, sizeof header);
    return refused(opl_payload_read(bench->words[SUM], OPL_PAYLOAD_WORD_BYTES, header, sizeof header), OPL_CRC,
                   "sum of two payload words, read") &&
           untouched(header, sizeof header);
}

/* Shows that a word with a spare bit set is not encoded. */
static bool refuse_spare(const struct coding *coding, const uint8_t *word, const char *given)
{
    uint8_t codeword[OPL_PAYLOAD_CODEWORD_MOST];
    mark(codeword, coding->m);
    return refused(opl_encode(coding->pattern, word, coding->n, codeword, coding->m), OPL_SPARE, given) &&
           untouched(codeword, coding->m);
}

/* Shows what sums meet besides codewords: the reader's CRC, and the encoder's premise that spare bits are zero. */
static bool test_refusals(struct bench *bench)
{
    struct coding coding = coding_of(0, OPL_PAYLOAD_WORD_BYTES);
    printf("\nwhat is refused, with what was lent left as it was\n");
    if (!make_pair(bench, &coding) || !refuse_sum(bench))
        return false;
    bench->words[ONE][coding.n - 1] |= SPARE_BIT;
    add_words(bench, &coding);
    return refuse_spare(&coding, bench->words[ONE], "payload word with a spare bit, encoded") &&
           refuse_spare(&coding, bench->words[SUM], "  its sum with a sound word, encoded");
}

bool self_test(const char *pairs)
{
    struct bench bench = {.pairs = PAIRS};
    if (pairs != NULL && !read_number("PAIRS", "pairs", pairs, 1, PAIRS_MOST, &bench.pairs))
        return false;
    if (!test_codings(&bench) || !test_refusals(&bench))
        return false;
    printf("\nall %zu pairs: the codeword of the sum is the sum of the codewords, tail included\n", bench.compared);
    return true;
}
