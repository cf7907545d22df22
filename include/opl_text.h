/*
 * opl_text.h: what a C program that calls opl.h would else have to type by hand: a text for each refusal number,
 * and the lengths of codewords and of sheets.
 *
 * Everything here is in the header itself, for C99 and later and for C++: it needs no linking, keeps no state and
 * may be included by any number of files. It is not proved; tests hold each function to the library
 * (compare/tests/text.rs).
 */
#ifndef OPL_TEXT_H
#define OPL_TEXT_H

#include "opl.h"

/*
 * A refusal number in words, such as "OPL_CRC: the CRC is wrong": its name in opl.h, and what it means there, in
 * short. It has no line feed, and is there for good: it is neither to be changed nor to be freed.
 *
 *   number   what a function of opl.h has returned, OPL_ACCEPTED too; a number that none of them returns gives
 *            one and the same text, which says so
 */
static inline const char *opl_refusal_text(uint8_t number)
{
    static const char *const texts[] = {
        "OPL_ACCEPTED: no refusal",
        "OPL_LENGTH: a lent length is wrong",
        "OPL_SPARE: a spare bit is set",
        "OPL_PATTERN: the puncturing pattern is above 27",
        "OPL_BLOCK_PATTERN: a signalling word with a pattern other than 0",
        "OPL_CRC: the CRC is wrong",
        "OPL_SIG_PIPE_VER: Sig_Pipe_Ver is not 0",
        "OPL_LISTS: the lists of pipes, streams and sections pass 750 bits",
        "OPL_PADDING: a bit after the lists and before bit 750 is set",
        "OPL_WIDTH: a pipe's width is no multiple of its codeword's capacity units",
        "OPL_TAPS: the sections of a payload pipe in use do not have 32 taps together",
        "OPL_STREAM_TWICE: a stream id stands twice",
        "OPL_SHEET_HEADER: the sheet's header is wrong, or the sheet is cut short",
        "OPL_COUNTS: the sheet header's counts differ from what its records say",
        "OPL_SECTION_TOP: the top four bits of a section in a sheet are not zero",
        "OPL_STREAM_TYPE: the stream type is none that the function takes",
        "OPL_ENCAP_VER: Encap_Ver is not 0",
        "OPL_PACKET_COUNT: more than eight transport stream packets for one payload word",
        "OPL_FIRST_HEADER: First_Header_Address is 1,503 to 4,094",
        "OPL_IP_PACKET: an IP packet or the padding is not sound, or First_Header_Address contradicts the open packet",
        "OPL_PROFILE: a pipe is not its record and its own sections, or these do not have 32 taps together",
        "OPL_FRAME: a codeword, a frame or a pipe's memory has the wrong size, or the width is no multiple",
    };
    return number < sizeof texts / sizeof texts[0] ? texts[number] : "a number that opl.h does not have";
}

/*
 * The length of a payload word's codeword, in bytes: the m with which opl_encode accepts this pattern for 1,536 bytes.
 * The n of opl_place, the number of code bits, is eight times that. A signalling word's codeword has
 * OPL_SIGNALLING_CODEWORD_BYTES.
 *
 *   pattern   the puncturing pattern, 0 to 27; any other gives 0, which no codeword's length is
 */
static inline size_t opl_codeword_bytes(uint32_t pattern)
{
    /* 6 divided by the code rate of each pattern; a sixth of the payload word is a whole number of bytes */
    static const uint8_t sixths[] = {30, 27, 24, 21, 20, 18, 18, 16, 16, 15, 15, 14, 14, 12,
                                     12, 12, 10, 10, 10, 9,  9,  9,  8,  8,  8,  7,  7,  7};
    size_t sixth = OPL_PAYLOAD_WORD_BYTES / 6;
    return pattern < sizeof sixths ? sixth * sixths[pattern] : 0;
}

/*
 * The length of a sheet, in bytes, that its header states: the number in bytes 10 and 11, the most significant
 * first. It is the length of what opl_signalling_read has written, and the n with which opl_signalling_write
 * takes it.
 *
 *   sheet   at least 12 bytes, the header; nothing of it is checked, so of a sheet that comes from elsewhere
 *           any number from 0 to 65,535 may come
 */
static inline size_t opl_sheet_bytes(const uint8_t *sheet)
{
    size_t high = sheet[10];
    return high << 8 | sheet[11];
}

#endif
