/*
 * Prints what opl_text.h answers and what opl.h states, for tests/text.rs to hold to the library. It is a program
 * in C99 and in C++ at once, so that both languages see the headers.
 *
 *   text HEADERS   HEADERS is a file of sheets' headers, 12 bytes each
 *
 * Its lines:
 *
 *   version TEXT               OPL_VERSION
 *   empty NUMBER               the refusal number of a call that is lent OPL_EMPTY
 *   form NUMBER NUMBER         a number of opl_form, and what opl_preamble_form says of bytes that are so
 *   parity NUMBER NUMBER       OPL_PARITY_HOLDS, and what opl_payload_read reports of a word that was written
 *   address NUMBER NUMBER      OPL_IP_NO_HEADER, and what opl_payload_read reports of a word in which no header stands
 *   refusal NUMBER TEXT        opl_refusal_text, of every number that a byte has
 *   codeword PATTERN BYTES     opl_codeword_bytes, where it is not 0
 *   sheet BYTES                opl_sheet_bytes, of each header
 */
#include "opl_text.h"

#include <stdio.h>

/* C++ asks for a cast where elements are not bytes. */
#ifdef __cplusplus
#define EMPTY_AS(pointer) reinterpret_cast<pointer>(OPL_EMPTY)
#else
#define EMPTY_AS(pointer) OPL_EMPTY
#endif

/* Lent to be read and lent to be written, handed over at once and kept before, once and twice in a call. */
static void say_empty(void)
{
    static const uint8_t *const none = OPL_EMPTY;
    static uint8_t word[OPL_PAYLOAD_WORD_BYTES];
    static uint8_t null_packet[OPL_TS_PACKET_BYTES], progress[OPL_IP_PROGRESS_BYTES];
    printf("empty %d\n", opl_payload_write(0, 9, 0, OPL_EMPTY, 0, OPL_EMPTY, 0, word, sizeof word));
    printf("empty %d\n", opl_payload_write(0, 9, 0, none, 0, none, 0, word, sizeof word));
    printf("empty %d\n",
           opl_payload_write(2, 9, 0, OPL_EMPTY, 0, null_packet, sizeof null_packet, word, sizeof word));
    printf("empty %d\n", opl_ip_write(9, 0, OPL_EMPTY, 0, word, sizeof word, progress, sizeof progress));
    printf("empty %d\n", opl_signalling_write(OPL_EMPTY, 0, OPL_EMPTY, 0));
    printf("empty %d\n", opl_place(0, EMPTY_AS(const int8_t *), 0, EMPTY_AS(int16_t *), 0));
    printf("empty %d\n", opl_profile(OPL_EMPTY, 0, EMPTY_AS(uint16_t *), 0));
}

static void say_form(enum opl_form named, const uint8_t *bytes)
{
    static uint8_t told[1];
    if (opl_preamble_form(bytes, OPL_PREAMBLE_BYTES, told, sizeof told) == OPL_ACCEPTED)
        printf("form %d %d\n", named, told[0]);
}

/* Of bytes that nothing is written to yet, and of both preambles. */
static void say_forms(void)
{
    static uint8_t bytes[OPL_PREAMBLE_BYTES];
    say_form(OPL_NEITHER, bytes);
    opl_preamble(0, bytes, sizeof bytes);
    say_form(OPL_UPRIGHT, bytes);
    opl_preamble(1, bytes, sizeof bytes);
    say_form(OPL_INVERTED, bytes);
}

/* Of as many packets as a word carries. */
static void say_parity(void)
{
    static uint8_t packets[OPL_TS_PAYLOAD_BYTES], null_packet[OPL_TS_PACKET_BYTES];
    static uint8_t word[OPL_PAYLOAD_WORD_BYTES], header[OPL_PAYLOAD_HEADER_BYTES];
    packets[0] = 1;
    if (opl_payload_write(2, 9, OPL_TS_PACKETS, packets, sizeof packets, null_packet, sizeof null_packet, word,
                          sizeof word) == OPL_ACCEPTED &&
        opl_payload_read(word, sizeof word, header, sizeof header) == OPL_ACCEPTED)
        printf("parity %d %d\n", OPL_PARITY_HOLDS, header[7]);
}

/* Of the longest packet, in the word behind the one in which it begins. */
static void say_no_header(void)
{
    static uint8_t queue[4 + OPL_IP_PACKET_MOST], progress[OPL_IP_PROGRESS_BYTES];
    static uint8_t word[OPL_PAYLOAD_WORD_BYTES], header[OPL_PAYLOAD_HEADER_BYTES];
    queue[0] = 1;
    queue[2] = OPL_IP_PACKET_MOST >> 8;
    queue[3] = OPL_IP_PACKET_MOST & 0xFF;
    if (opl_ip_write(9, OPL_IP_PAYLOAD_BYTES, queue, sizeof queue, word, sizeof word, progress, sizeof progress) ==
            OPL_ACCEPTED &&
        opl_payload_read(word, sizeof word, header, sizeof header) == OPL_ACCEPTED)
        printf("address %d %d\n", OPL_IP_NO_HEADER, header[8] << 8 | header[9]);
}

static void say_refusals(void)
{
    uint8_t number = 0;
    do
        printf("refusal %d %s\n", number, opl_refusal_text(number));
    while (number++ < UINT8_MAX);
}

static void say_codeword(uint32_t pattern)
{
    unsigned long bytes = opl_codeword_bytes(pattern);
    if (bytes != 0)
        printf("codeword %lu %lu\n", pattern + 0UL, bytes);
}

/* The patterns, and numbers that are one when cut to 5, 6, 8 or 16 bits. */
static void say_all_codewords(void)
{
    static const uint32_t large[] = {65535, 65536, 65536 + 27, UINT32_MAX - 31, UINT32_MAX};
    for (uint32_t pattern = 0; pattern < 300; pattern++)
        say_codeword(pattern);
    for (size_t i = 0; i < sizeof large / sizeof large[0]; i++)
        say_codeword(large[i]);
}

static void say_sheets(FILE *headers)
{
    static uint8_t header[12];
    while (fread(header, 1, sizeof header, headers) == sizeof header) {
        unsigned long bytes = opl_sheet_bytes(header);
        printf("sheet %lu\n", bytes);
    }
}

int main(int words, char **word)
{
    FILE *headers = words == 2 ? fopen(word[1], "rb") : NULL;
    if (headers == NULL) {
        fprintf(stderr, "text: a file of headers is to be named\n");
        return 1;
    }
    printf("version %s\n", OPL_VERSION);
    say_empty();
    say_forms();
    say_parity();
    say_no_header();
    say_refusals();
    say_all_codewords();
    say_sheets(headers);
    fclose(headers);
    return fflush(stdout) == 0 ? 0 : 1;
}
