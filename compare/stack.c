/*
 * Measures how much stack each exported function takes. A call is made on a stack of its own, which was painted
 * before; what it took reaches from the top of that stack down to the lowest word that is not as painted. Nothing
 * is subtracted: whatever the library calls is included, and so are the return addresses and frames of the
 * functions here through which the call is made, 24 bytes or some more by compiler. Each call is made twice and
 * measured the second time, as what a dynamic linker takes to find memcpy and memset is not the library's.
 *
 *   stack SHEET..   measures; each SHEET is a file that has a sheet, accepted or refused
 *
 * It prints a line for each function and each refusal number that the function gave: the function's name, that
 * number, and the most bytes that such a call took. tests/stack.rs runs it and holds opl.h to it.
 */
#include <stdint.h>
#include <stdio.h>
#include <stdlib.h>
#include <string.h>

/* the functions, as build.rs reads them from opl.h */
#include "calls.h"
#include "opl_text.h"

static void fail(const char *why)
{
    fprintf(stderr, "stack: %s\n", why);
    exit(EXIT_FAILURE);
}

/* The most bytes that a call took, by function and refusal number. */
static size_t most[FUNCTIONS][UINT8_MAX + 1];

/* The painted stack, of 256 KiB. */
enum { WORDS = 1 << 15 };
static const uint64_t paint = 0x9E3779B97F4A7C15;
static _Alignas(16) uint64_t stack[WORDS];

/*
 * Calls `made` on the stack that ends at `top`. It is written for x86-64, as the library is compiled for that, and
 * in assembly, as the C headers on an Arm machine are that machine's own: a ucontext_t of theirs is another one.
 */
void call_on(uint64_t *top, void (*made)(void));
__asm__(".text\n"
        ".globl call_on\n"
        "call_on:\n"
        "    pushq %rbx\n"
        "    movq %rsp, %rbx\n"
        "    movq %rdi, %rsp\n"
        "    callq *%rsi\n"
        "    movq %rbx, %rsp\n"
        "    popq %rbx\n"
        "    retq\n");

/* The call that is due, and its answer. */
static int function;
static const struct arguments *arguments;
static uint8_t refusal;

static void make_call(void)
{
    refusal = functions[function].call(arguments);
}

/* The open packet of an IP stream: what is lent, and what it is before each call, as a call changes it. */
static uint8_t opened[OPL_IP_OPEN_BYTES], opened_before[OPL_IP_OPEN_BYTES];

static size_t bytes_taken(void)
{
    size_t lowest = 0;
    while (lowest < WORDS && stack[lowest] == paint)
        lowest++;
    if (lowest == 0)
        fail("a call takes more stack than there is");
    for (size_t i = lowest; i < WORDS; i++)
        stack[i] = paint;
    return (WORDS - lowest) * sizeof stack[0];
}

static uint8_t measure(int which, struct arguments a)
{
    function = which;
    arguments = &a;
    memcpy(opened, opened_before, sizeof opened);
    make_call();
    memcpy(opened, opened_before, sizeof opened);
    call_on(stack + WORDS, make_call);
    size_t bytes = bytes_taken();
    if (bytes > most[which][refusal])
        most[which][refusal] = bytes;
    return refusal;
}

static void flip(uint8_t *bytes, size_t bit)
{
    bytes[bit / 8] ^= (uint8_t)(0x80 >> bit % 8);
}

static int bit_of(const uint8_t *bytes, size_t bit)
{
    return bytes[bit / 8] >> (7 - bit % 8) & 1;
}

/* Has the form of 32 bytes told, which is known, and at each wrong length refused. */
static void measure_form(uint8_t *bytes, enum opl_form known)
{
    static uint8_t form[1];
    struct arguments a = {.buffer = {{bytes, OPL_PREAMBLE_BYTES}, {form, sizeof form}}};
    if (measure(PREAMBLE_FORM, a) != OPL_ACCEPTED || form[0] != known)
        fail("another form is told than bytes have");
    for (int wrong = 0; wrong < 2; wrong++) {
        a.buffer[wrong].n--;
        measure(PREAMBLE_FORM, a);
        a.buffer[wrong].n++;
    }
}

/* Has both preambles written, and refused; and the form told of each, and of each with a bit flipped. */
static void measure_preamble(void)
{
    static uint8_t out[OPL_PREAMBLE_BYTES];
    for (uint32_t inverted = 0; inverted < 2; inverted++) {
        struct arguments a = {{inverted}, {{out, sizeof out}}};
        measure(PREAMBLE, a);
        a.buffer[0].n--;
        measure(PREAMBLE, a);
        measure_form(out, inverted ? OPL_INVERTED : OPL_UPRIGHT);
        for (size_t i = 0; i < 8 * sizeof out; i++) {
            flip(out, i);
            measure_form(out, OPL_NEITHER);
            flip(out, i);
        }
    }
}

/* A CRC (annex B): what it is of, and after it, `width` bits, the CRC itself. */
struct crc {
    size_t from;
    size_t to;
    unsigned width;
    uint32_t polynomial;
};

static struct crc signalling_crc(const uint8_t *word)
{
    (void)word;
    return (struct crc){0, 750, 12, 0x80F};
}

/* By the word's stream type: over 46 bits for types 2 and 3, over 18 for any other. */
static struct crc payload_crc(const uint8_t *word)
{
    enum { TYPE_AT = 12268, CRC_AT = 12274 };
    int type = bit_of(word, TYPE_AT) << 2 | bit_of(word, TYPE_AT + 1) << 1 | bit_of(word, TYPE_AT + 2);
    return (struct crc){CRC_AT - (type == 2 || type == 3 ? 46 : 18), CRC_AT, 8, 0x2F};
}

/* Puts the CRC right, so that a changed word is refused for what comes after. */
static void seal(uint8_t *word, struct crc crc)
{
    uint32_t ones = (1U << crc.width) - 1, held = ones;
    for (size_t i = crc.from; i < crc.to; i++) {
        int out = held >> (crc.width - 1) & 1;
        held = (held << 1 & ones) ^ (out != bit_of(word, i) ? crc.polynomial : 0);
    }
    held ^= ones;
    for (unsigned i = 0; i < crc.width; i++)
        if (bit_of(word, crc.to + i) != (int)(held >> (crc.width - 1 - i) & 1))
            flip(word, crc.to + i);
}

/*
 * Has a word, the first buffer that is lent, read as it is, with each other buffer at a wrong length, and with each bit
 * from crc.from on flipped, sealed again or not.
 */
static void measure_reading(int which, struct crc (*crc_of)(const uint8_t *), struct arguments a)
{
    uint8_t *word = a.buffer[0].lent;
    size_t n = a.buffer[0].n;
    struct crc crc = crc_of(word);
    if (measure(which, a) != OPL_ACCEPTED)
        fail("a word that was written is not read");
    for (size_t i = 1; i < functions[which].buffers; i++) {
        a.buffer[i].n--;
        measure(which, a);
        a.buffer[i].n++;
    }
    for (size_t i = crc.from; i < 8 * n; i++) {
        flip(word, i);
        measure(which, a);
        if (i < crc.to) {
            seal(word, crc_of(word));
            measure(which, a);
        }
        flip(word, i);
        seal(word, crc);
    }
}

/* Has a sheet written as it is, at a wrong length, and with each bit flipped; what is written of it is read. */
static void measure_sheet(uint8_t *sheet, size_t n)
{
    static uint8_t word[OPL_SIGNALLING_BYTES], room[OPL_SHEET_ROOM];
    struct arguments a = {.buffer = {{sheet, n}, {word, sizeof word}}};
    struct arguments reading = {.buffer = {{word, sizeof word}, {room, sizeof room}}};
    if (measure(SIGNALLING_WRITE, a) == OPL_ACCEPTED)
        measure_reading(SIGNALLING_READ, signalling_crc, reading);
    a.buffer[1].n--;
    measure(SIGNALLING_WRITE, a);
    a.buffer[1].n++;
    for (size_t i = 0; i < 8 * n; i++) {
        flip(sheet, i);
        measure(SIGNALLING_WRITE, a);
        flip(sheet, i);
    }
}

static void measure_file(const char *name)
{
    static uint8_t sheet[1 << 12];
    FILE *from = fopen(name, "rb");
    if (from == NULL)
        fail("a sheet cannot be read");
    size_t n = fread(sheet, 1, sizeof sheet, from);
    fclose(from);
    measure_sheet(sheet, n);
}

/* Has a payload of that many packets and bytes written, and with a null packet that is too short. */
static void measure_packets(uint32_t type, uint32_t count, uint8_t *payload, size_t n)
{
    static uint8_t null_packet[OPL_TS_PACKET_BYTES], word[OPL_PAYLOAD_WORD_BYTES], header[OPL_PAYLOAD_HEADER_BYTES];
    struct arguments a = {{type, 9, count}, {{payload, n}, {null_packet, sizeof null_packet}, {word, sizeof word}}};
    struct arguments reading = {.buffer = {{word, sizeof word}, {header, sizeof header}}};
    memset(null_packet, 0xFF, sizeof null_packet);
    if (measure(PAYLOAD_WRITE, a) == OPL_ACCEPTED)
        measure_reading(PAYLOAD_READ, payload_crc, reading);
    a.buffer[1].n--;
    measure(PAYLOAD_WRITE, a);
}

/* Has each type tried, and the one after the last, with each count of packets, and one more, and with each length. */
static void measure_payload(void)
{
    enum { TYPES = 4, COUNTS = OPL_TS_PACKETS + 2 };
    static uint8_t payload[COUNTS * OPL_TS_PACKET_BYTES];
    memset(payload, 0x5A, sizeof payload);
    for (uint32_t type = 0; type < TYPES; type++)
        for (uint32_t count = 0; count < COUNTS; count++) {
            measure_packets(type, count, payload, 0);
            measure_packets(type, count, payload, OPL_PAYLOAD_BYTES);
            measure_packets(type, count, payload, count * OPL_TS_PACKET_BYTES);
        }
}

/* A number of four bytes. */
static uint32_t number_at(const uint8_t *bytes)
{
    return (uint32_t)bytes[0] << 24 | (uint32_t)bytes[1] << 16 | (uint32_t)bytes[2] << 8 | bytes[3];
}

/* What stands before a packet's data in a queue. */
enum { LABEL = 4 };

/* Adds packets of this length to a queue of n bytes, as many as there is room for, and gives its bytes. */
static size_t add_packets(uint8_t *queue, size_t n, size_t room, size_t length)
{
    for (; n + LABEL + length <= room; n += LABEL + length) {
        queue[n] = 1;
        queue[n + 1] = 0;
        queue[n + 2] = (uint8_t)(length >> 8);
        queue[n + 3] = (uint8_t)length;
        memset(queue + n + LABEL, 0x5A, length);
    }
    return n;
}

/* Has a queue written whose first packet is unfit, of which a byte is said to be sent, or at a wrong length. */
static void measure_queue_faults(struct arguments a)
{
    uint8_t *queue = a.buffer[0].lent;
    struct arguments begun = a;
    queue[0] = 3;
    measure(IP_WRITE, a);
    queue[0] = 1;
    begun.number[1] = 1;
    measure(IP_WRITE, begun);
    for (size_t i = 0; i < functions[IP_WRITE].buffers; i++) {
        a.buffer[i].n--;
        measure(IP_WRITE, a);
        a.buffer[i].n++;
    }
}

/* Has a word read by both readers, and with each bit of its first bytes flipped, be they a packet's header or not. */
static void measure_stream_word(uint8_t *word)
{
    static uint8_t packets[OPL_IP_ROOM], header[OPL_PAYLOAD_HEADER_BYTES];
    struct arguments a = {.buffer = {{word, OPL_PAYLOAD_WORD_BYTES},
                                     {opened, sizeof opened},
                                     {packets, sizeof packets},
                                     {header, sizeof header}}};
    struct arguments of_header = {.buffer = {{word, OPL_PAYLOAD_WORD_BYTES}, {header, sizeof header}}};
    measure_reading(PAYLOAD_READ, payload_crc, of_header);
    measure_reading(IP_READ, payload_crc, a);
    for (size_t i = 0; i < 16; i++) {
        flip(word, i);
        measure(IP_READ, a);
        flip(word, i);
    }
    if (measure(IP_READ, a) != OPL_ACCEPTED)
        fail("a word of a stream is not read");
}

/* Has a queue written word by word, and each word read with what the words before it left open. */
static void measure_stream(uint8_t *queue, size_t n, uint32_t sent)
{
    static uint8_t word[OPL_PAYLOAD_WORD_BYTES], progress[OPL_IP_PROGRESS_BYTES];
    struct arguments lost = {.buffer = {{opened, sizeof opened}}};
    while (n > 0) {
        struct arguments a = {{9, sent}, {{queue, n}, {word, sizeof word}, {progress, sizeof progress}}};
        measure_queue_faults(a);
        if (measure(IP_WRITE, a) != OPL_ACCEPTED)
            fail("a queue is not written");
        measure_stream_word(word);
        memcpy(opened_before, opened, sizeof opened);
        queue += number_at(progress);
        n -= number_at(progress);
        sent = number_at(progress + 4);
    }
    measure(IP_LOST, lost);
    lost.buffer[0].n--;
    measure(IP_LOST, lost);
}

/* Has streams of packets of one length tried; and a word that hands out the most, behind a packet that lacks a byte. */
static void measure_streams(void)
{
    enum { LONGEST = LABEL + OPL_IP_PACKET_MOST };
    static const size_t lengths[] = {1, 40, 1500, OPL_IP_PACKET_MOST};
    static uint8_t queue[2 * LONGEST];
    for (size_t i = 0; i < sizeof lengths / sizeof lengths[0]; i++)
        measure_stream(queue, add_packets(queue, 0, sizeof queue, lengths[i]), 0);
    size_t n = add_packets(queue, 0, LONGEST, OPL_IP_PACKET_MOST);
    n = add_packets(queue, n, OPL_IP_ROOM, 1);
    memset(opened_before, 0x5A, sizeof opened_before);
    memcpy(opened_before, (const uint8_t[]){1, 1, 0, 0, 0x0F, 0xFF, 0x0F, 0xFE}, 8);
    measure_stream(queue, n, OPL_IP_PACKET_MOST + 1);
}

/* The two blocks: the bytes of an infoword and the places of a lane. */
static const struct block {
    size_t infoword;
    size_t lane;
} blocks[] = {
    {OPL_PAYLOAD_WORD_BYTES, OPL_PAYLOAD_LANE},
    {OPL_SIGNALLING_BYTES, OPL_SIGNALLING_LANE},
};

/* All lengths that a codeword may have, in bytes. */
static const size_t codewords[] = {480,  1792, 2048, 2304, 2560, 3072, 3584, 3840,
                                   4096, 4608, 5120, 5376, 6144, 6912, 7680};

static uint8_t infoword[OPL_PAYLOAD_WORD_BYTES], codeword[OPL_PAYLOAD_CODEWORD_MOST];
static int8_t values[8 * OPL_PAYLOAD_CODEWORD_MOST];
static int16_t lane[OPL_PAYLOAD_LANE];

/* The patterns, and how many blocks are coded under them: the signalling block under one. */
enum { PATTERNS = 28, CODINGS = PATTERNS + 1 };

/* Has every length tried with each pattern and block: one is accepted, the others are refused. */
static void measure_coding(void)
{
    enum { BLOCKS = sizeof blocks / sizeof blocks[0], LENGTHS = sizeof codewords / sizeof codewords[0] };
    int encoded = 0, placed = 0;
    for (uint32_t pattern = 0; pattern <= PATTERNS; pattern++)
        for (int b = 0; b < BLOCKS; b++)
            for (int i = 0; i < LENGTHS; i++) {
                struct arguments coding = {{pattern}, {{infoword, blocks[b].infoword}, {codeword, codewords[i]}}};
                struct arguments placing = {{pattern}, {{values, 8 * codewords[i]}, {lane, blocks[b].lane}}};
                encoded += measure(ENCODE, coding) == OPL_ACCEPTED;
                placed += measure(PLACE, placing) == OPL_ACCEPTED;
            }
    if (encoded != CODINGS || placed != CODINGS)
        fail("a pattern is not accepted at its block and length");
}

/* Has every length mixed under each pattern, and with a mixed codeword that is shorter. */
static void measure_mixing(void)
{
    static uint8_t mixed[OPL_PAYLOAD_CODEWORD_MOST];
    int accepted = 0;
    for (uint32_t pattern = 0; pattern <= PATTERNS; pattern++)
        for (size_t i = 0; i < sizeof codewords / sizeof codewords[0]; i++) {
            struct arguments a = {{pattern}, {{codeword, codewords[i]}, {mixed, codewords[i]}}};
            accepted += measure(MIX, a) == OPL_ACCEPTED;
            a.buffer[1].n--;
            measure(MIX, a);
        }
    if (accepted != CODINGS)
        fail("a pattern is not accepted at its codeword's length");
}

/* Has a call made that is accepted, and with each buffer at a wrong length. */
static void measure_lengths(int which, struct arguments a)
{
    if (measure(which, a) != OPL_ACCEPTED)
        fail("a pipe is refused");
    for (size_t i = 0; i < functions[which].buffers; i++) {
        a.buffer[i].n--;
        measure(which, a);
        a.buffer[i].n++;
    }
}

/* Has the profile of a pipe told and a frame of it written: two slots, and 32 taps in that many sections. */
static void measure_pipe(uint32_t pattern, uint8_t flags, uint8_t sections)
{
    enum { SLOTS = 2, CAPACITY_UNIT = 256, TAPS = 32, RECORD = 6, SECTIONS = 8, ROWS = 25 };
    static uint8_t pipe[RECORD + 2 * SECTIONS], words[SLOTS * OPL_PAYLOAD_CODEWORD_MOST];
    static uint8_t memory[ROWS * sizeof words], out[sizeof words];
    static uint16_t profile[TAPS + 1];
    size_t n = RECORD + 2 * sections, bytes = SLOTS * opl_codeword_bytes(pattern), width = bytes / CAPACITY_UNIT;
    uint8_t first = (uint8_t)(pattern << 2 | width >> 8), second = (uint8_t)width;
    memcpy(pipe, (const uint8_t[]){first, second, sections - 1, flags, 0, 0}, RECORD);
    /* the greatest difference and gap, of which the record's multipliers leave a sixteenth */
    for (size_t i = RECORD; i < n; i += 2)
        memcpy(pipe + i, (const uint8_t[]){TAPS / sections / 2 - 1, 0xFF}, 2);
    measure_lengths(PROFILE, (struct arguments){.buffer = {{pipe, n}, {profile, TAPS + 1}}});
    size_t rows = profile[TAPS] + 1U;
    if (rows > ROWS)
        fail("a profile has a greater delay than there is");
    struct arguments a = {{rows + 7}, {{pipe, n}, {words, bytes}, {memory, rows * bytes}, {out, bytes}}};
    measure_lengths(PIPE, a);
    pipe[0] |= 0xFC;
    measure(PIPE, a);
}

/* Has pipes of each pattern and with both flags tried, of one section and of eight. */
static void measure_pipes(void)
{
    enum { INVERTED = 0x80, REGROUPING = 0x40 };
    static const uint8_t flags[] = {0, REGROUPING, INVERTED, INVERTED | REGROUPING};
    for (uint32_t pattern = 0; pattern < PATTERNS; pattern++)
        for (size_t i = 0; i < sizeof flags; i++) {
            measure_pipe(pattern, flags[i], 1);
            measure_pipe(pattern, flags[i], 8);
        }
}

static void measure_spare(void)
{
    static uint8_t word[OPL_SIGNALLING_BYTES];
    word[sizeof word - 1] = 1;
    struct arguments a = {{0}, {{word, sizeof word}, {codeword, OPL_SIGNALLING_CODEWORD_BYTES}}};
    measure(ENCODE, a);
}

static void fill(void)
{
    for (size_t i = 0; i < WORDS; i++)
        stack[i] = paint;
    /* the last byte, with the spare bits, stays zero */
    for (size_t i = 0; i + 1 < sizeof infoword; i++)
        infoword[i] = (uint8_t)(i * i + i / 7);
    infoword[OPL_SIGNALLING_BYTES - 1] = 0;
    for (size_t i = 0; i < sizeof values; i++)
        values[i] = (int8_t)(i % 256 - 128);
}

int main(int words, char **word)
{
    fill();
    measure_preamble();
    measure_payload();
    measure_streams();
    measure_coding();
    measure_mixing();
    measure_pipes();
    measure_spare();
    for (int i = 1; i < words; i++)
        measure_file(word[i]);
    for (int f = 0; f < FUNCTIONS; f++)
        for (int number = 0; number <= UINT8_MAX; number++)
            if (most[f][number] > 0)
                printf("%s %d %zu\n", functions[f].name, number, most[f][number]);
    return fflush(stdout) == 0 ? EXIT_SUCCESS : EXIT_FAILURE;
}
