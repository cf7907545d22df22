/*
 * opl.h: the outer physical layer of satellite digital radio, ETSI EN 302 550-1-1 V1.1.1, for C.
 *
 * Link with -lopl (`pkg-config --cflags --libs opl`), for x86-64 Linux. Beside it, opl_text.h has texts for
 * the refusal numbers, and the lengths of codewords and sheets.
 *
 * Every function returns a refusal number: 0 (OPL_ACCEPTED) where the call was accepted and did what
 * is said of it, else the number of the first rule that its input breaks, in the order given with the
 * function. A refused call touches nothing: all memory that was lent to it is as before the call.
 *
 * What is said here of each function is proved of the code that the library is compiled from, for every
 * input, as long as the caller keeps to these rules, which C cannot check:
 *
 *   - A buffer is lent as a pointer and a length. The pointer is valid and not null, and that many
 *     elements are there, to be read, or to be read and written where the pointer is not const.
 *   - A length of zero takes any pointer that is not null, such as OPL_EMPTY.
 *   - No two buffers that are lent to one call overlap.
 *   - Until the call returns no other thread writes a lent buffer, or reads one that the call may
 *     write.
 *
 * The library keeps no state, allocates nothing and reads and writes no file, so calls on different
 * buffers may run at the same time. Of the caller's stack opl_encode takes at most OPL_ENCODE_STACK bytes,
 * each other function at most OPL_OTHER_STACK (measured, not proved). Of the C library the archive calls
 * memcpy and memset alone.
 *
 * Bits are packed with the first bit in the top bit of the first byte; numbers have their most
 * significant bit first (annex A of the standard).
 */
#ifndef OPL_H
#define OPL_H

#include <stddef.h>
#include <stdint.h>

/* The version of this header and of the library that comes with it: numbers, and a text of them with dots. */
#define OPL_VERSION_MAJOR 0
#define OPL_VERSION_MINOR 5
#define OPL_VERSION_PATCH 1
#define OPL_VERSION OPL_DOTTED(OPL_VERSION_MAJOR, OPL_VERSION_MINOR, OPL_VERSION_PATCH)

/* How that text is made, in two steps: # alone takes a macro's name and not its number. */
#define OPL_DOTTED(a, b, c) OPL_DOTTED_AS_IS(a, b, c)
#define OPL_DOTTED_AS_IS(a, b, c) #a "." #b "." #c

/*
 * What to lend as a buffer of length zero, in place of NULL: a pointer to valid memory, none of which is lent.
 * One call may be lent it more than once. In C it is a void *, which serves for elements of each type, const
 * or not. C++ converts no void * by itself: there it is a uint8_t *, which serves for bytes, const or not, and is
 * to be cast for other elements.
 *
 * It is a wide literal, as that is aligned for elements of up to four bytes.
 */
#ifdef __cplusplus
#define OPL_EMPTY (reinterpret_cast<uint8_t *>(const_cast<wchar_t *>(L"")))
#else
#define OPL_EMPTY ((void *)(uintptr_t)L"")
#endif

#ifdef __cplusplus
extern "C" {
#endif

/*
 * The most bytes of the caller's stack that opl_encode takes, and that each other function takes, with what
 * it calls. A test measures both (compare/tests/stack.rs) and fails where a call takes more. Not counted is
 * what a dynamic linker takes, some 3,000 bytes, when memcpy or memset is called for the first time.
 */
#define OPL_ENCODE_STACK 20000
#define OPL_OTHER_STACK 3000

/* The refusal numbers. Names such as Sig_Pipe_Ver are the standard's. */
enum opl_refusal {
    OPL_ACCEPTED = 0,      /* no refusal */
    OPL_LENGTH = 1,        /* a lent length is wrong (a signalling reader's room: below 128; opl_ip_read's: below
                              6,604), or sent of opl_ip_write is */
    OPL_SPARE = 2,         /* a spare bit, of the six that end a word, is set */
    OPL_PATTERN = 3,       /* the puncturing pattern is above 27 */
    OPL_BLOCK_PATTERN = 4, /* a signalling word (block of 762 bits) with a pattern other than 0 */
    OPL_CRC = 5,           /* the CRC is wrong */
    OPL_SIG_PIPE_VER = 6,  /* Sig_Pipe_Ver is not 0 */
    OPL_LISTS = 7,         /* the lists of pipes, streams and sections pass 750 bits */
    OPL_PADDING = 8,       /* a bit after the lists and before bit 750 is set */
    OPL_WIDTH = 9,         /* a pipe's width is no multiple of its codeword's capacity units */
    OPL_TAPS = 10,         /* a payload pipe in use whose sections do not have 32 taps together */
    OPL_STREAM_TWICE = 11, /* a stream id stands twice */
    OPL_SHEET_HEADER = 12, /* the sheet's header is wrong, or the sheet is shorter than 21 bytes */
    OPL_COUNTS = 13,       /* the sheet header's counts differ from what its records say */
    OPL_SECTION_TOP = 14,  /* the top four bits of a section in a sheet are not zero */
    OPL_STREAM_TYPE = 15,  /* the stream type is above 3; of a word to be written by opl_payload_write, above 2 */
    OPL_ENCAP_VER = 16,    /* Encap_Ver is not 0 */
    OPL_PACKET_COUNT = 17, /* more than eight transport stream packets for one payload word */
    OPL_FIRST_HEADER = 18, /* First_Header_Address is 1,503 to 4,094 */
    OPL_IP_PACKET = 19,    /* an IP packet's type or length is none, a byte of an IP stream's padding is not FF, or
                              First_Header_Address contradicts the open packet */
    OPL_PROFILE = 20,      /* a pipe that is not its record and just the sections that it owns, or these do not have
                              32 taps together */
    OPL_FRAME = 21         /* a codeword, a frame or the memory of a pipe has the wrong size, or the pipe's width is no
                              multiple of its codeword's capacity units */
};

/* The length of the start-of-frame preamble, in bytes. */
#define OPL_PREAMBLE_BYTES 32

/*
 * Writes the start-of-frame preamble (clause 4.10.1.2): upright, the 28 characters
 * "SOF preamble: New C-TS frame", then FF FF FF FC; inverted, the same with every bit inverted. Frames have
 * the two in turn. The library counts no frames: the caller says which of the two is due.
 *
 *   inverted   0: upright; any other number: inverted
 *   out        n bytes, n = 32 (OPL_PREAMBLE_BYTES)
 *
 * Called with 0 and with another number, it gives two preambles that differ in all 256 bits. Each has as many
 * ones as zeros.
 *
 * Refusals: OPL_LENGTH where n is not 32.
 */
uint8_t opl_preamble(uint8_t inverted, uint8_t *out, size_t n);

/* What opl_preamble_form says of 32 bytes. */
enum opl_form {
    OPL_NEITHER = 0,  /* neither of the two preambles, be it by one bit */
    OPL_UPRIGHT = 1,  /* the upright preamble, all of it */
    OPL_INVERTED = 2  /* the inverted preamble, all of it */
};

/*
 * Says whether bytes are the start-of-frame preamble, and in which of its two forms.
 *
 *   bytes   n bytes, n = 32 (OPL_PREAMBLE_BYTES)
 *   form    m bytes, m = 1: becomes OPL_NEITHER, OPL_UPRIGHT or OPL_INVERTED
 *
 * What opl_preamble has written has the form that was asked of it.
 *
 * Refusals: OPL_LENGTH where n is not 32, or m is not 1.
 */
uint8_t opl_preamble_form(const uint8_t *bytes, size_t n, uint8_t *form, size_t m);

/* The length of a signalling word, in bytes. */
#define OPL_SIGNALLING_BYTES 96

/* The room that the reader of a signalling word needs, and the longest sheet that it writes, in bytes. */
#define OPL_SHEET_ROOM 128
#define OPL_SHEET_MOST 121

/*
 * A signalling word (clause 4.10) and its sheet are two forms of one description: the multiplex fields,
 * p payload pipes, the tail pipe, s streams and d disperser sections.
 *
 * A payload pipe of width 0 is not in use: it owns no stream and no section, whatever its two count
 * fields say. Any other owns Num_STS_1 + 1 streams and Num_Disperser_Sections_1 + 1 sections. The tail
 * pipe owns one stream if its width is above 0, else none, and never a section. Streams stand in order
 * of pipe, the tail's last; sections in order of pipe. Every field is carried as it stands, RFU bits and
 * pattern numbers 28 to 63 too.
 *
 * The rules that a description keeps:
 *
 *   - Sig_Pipe_Ver is 0.
 *   - p is Num_Pipes_1, and there is no stream and no section but those that its pipes own.
 *   - 72 + 48p + 16s + 12d is at most 750, so p is at most 14, s at most 34 and d at most 32.
 *   - A payload pipe in use with a pattern 0 to 27 has a width that is a multiple of its codeword's
 *     capacity units, 6 divided by the code rate.
 *   - The sections of each payload pipe in use have 32 taps together, each section
 *     (Num_Taps_Div2_1 + 1) x 2.
 *   - No stream id stands twice.
 *
 * The sheet, its numbers with their most significant byte first:
 *
 *   byte  0   p, s, d and zero, a byte each
 *   byte  4   the offsets of the pipes, the streams and the sections, two bytes each:
 *             21, 21 + 6p and 21 + 6p + 2s
 *   byte 10   the length of the sheet, two bytes: 21 + 6p + 2s + 2d, at most 121
 *   byte 12   the multiplex fields (table 15), 7 bytes
 *   byte 19   the tail pipe (table 16b), 2 bytes
 *   byte 21   the pipes (table 16), 6 bytes each
 *             the streams (table 18), 2 bytes each
 *             the sections (table 19), 2 bytes each, the top four bits zero
 *
 * The fields of these records, in order, each with its width in bits:
 *
 *   table 15    Sig_Pipe_Ver 4, Reconfig_Flag 1, Event_Countdown 11, Operator_ID 8, Resync_Flag 1,
 *               Reschedule_Flag 1, Frame_Index 22, Max_Inter_Schedule_Period_Length_Frames_Div2_1 2,
 *               Config_Index 2, Num_Pipes_1 4
 *   table 16    Punct_Pat_ID 6, Pipe_Width_CUs 10, Num_STS_1 5, Num_Disperser_Sections_1 3,
 *               Disperser_Inv_Flag 1, Regrouping_Flag 1, Inter_Schedule_Period_Countdown_Slots 10,
 *               Tap_Diff_Mult_Int_1 4, Tap_Diff_Mult_Fract_1_16 4, Schedule_Index 4
 *   table 16b   Punct_Pat_ID 6, Codeword_Align_Flag 1, Pipe_Width_CUs 9
 *   table 18    STS_ID 8, STS_Width_Slots_1 8
 *   table 19    Num_Taps_Div2_1 4, Tap_Diff 3, Gap_Width 5
 */

/*
 * Reads a signalling word: writes the sheet of its description to the front of the room bytes at sheet.
 * The sheet's length is in the sheet itself, at bytes 10 and 11; the bytes past it stay.
 *
 *   word    n bytes, n = 96 (OPL_SIGNALLING_BYTES)
 *   sheet   room bytes, room at least 128 (OPL_SHEET_ROOM)
 *
 * A word is accepted exactly when it is the word of a description that keeps the rules; there is then
 * just one such description.
 *
 * Refusals, in this order, each looked for in the whole word before the next:
 *
 *   OPL_LENGTH        n is not 96, or room is below 128
 *   OPL_SPARE         one of the word's last six bits is set
 *   OPL_CRC           the CRC-12 is not that of the first 750 bits
 *   OPL_SIG_PIPE_VER  Sig_Pipe_Ver is not 0
 *   OPL_LISTS         72 + 48p + 16s + 12d is above 750
 *   OPL_PADDING       a bit after the lists and before bit 750 is set
 *   OPL_WIDTH         a width is no such multiple
 *   OPL_TAPS          the sections of a payload pipe in use do not have 32 taps
 *   OPL_STREAM_TWICE  a stream id stands twice
 */
uint8_t opl_signalling_read(const uint8_t *word, size_t n, uint8_t *sheet, size_t room);

/*
 * Writes the signalling word of a sheet.
 *
 *   sheet   n bytes, of which any number may be lent
 *   word    m bytes, m = 96 (OPL_SIGNALLING_BYTES)
 *
 * A sheet is accepted exactly when it is the sheet of a description that keeps the rules. Reading the
 * word then gives the sheet back, and writing the sheet of a word that was read gives the word back.
 *
 * Refusals, in this order, each looked for in the whole sheet before the next:
 *
 *   OPL_LENGTH        m is not 96
 *   OPL_SHEET_HEADER  n is below 21; or the zero byte, an offset or the length in the header is not
 *                     what p, s and d in it make it; or n is not that length
 *   OPL_SECTION_TOP   one of the top four bits of one of the d sections is set
 *   OPL_SIG_PIPE_VER  Sig_Pipe_Ver is not 0
 *   OPL_COUNTS        p is not Num_Pipes_1, or s or d is not what the pipes own
 *   OPL_LISTS         72 + 48p + 16s + 12d is above 750
 *   OPL_WIDTH         a width is no such multiple
 *   OPL_TAPS          the sections of a payload pipe in use do not have 32 taps
 *   OPL_STREAM_TWICE  a stream id stands twice
 */
uint8_t opl_signalling_write(const uint8_t *sheet, size_t n, uint8_t *word, size_t m);

/* The length of a payload word, of its payload for type 1 and of its header as it is read, in bytes. */
#define OPL_PAYLOAD_WORD_BYTES 1536
#define OPL_PAYLOAD_BYTES 1532
#define OPL_PAYLOAD_HEADER_BYTES 16

/* The length of a transport stream packet, how many a word of type 2 carries, and their length together. */
#define OPL_TS_PACKET_BYTES 188
#define OPL_TS_PACKETS 8
#define OPL_TS_PAYLOAD_BYTES 1504

/*
 * A payload word has its payload first and its header at the end (clauses 4.3.1 to 4.3.4), by stream type:
 *
 *   type 0, dummy              1,532 bytes of zero; the header
 *   type 1, transparent        1,532 bytes of payload; the header
 *   type 2, transport stream   eight packets of 188 bytes; Parity_Parts, 4 x 49 bits; the header
 *   type 3, IP stream          1,504 bytes of packets that run on from word to word; Parity_Parts, 4 x 49 bits;
 *                              the header
 *
 * The header is RFU, 4 bits of types 0 and 1, 32 bits of type 2 and 20 bits of type 3; of type 3
 * First_Header_Address, 12; the stream id, 8, the stream type, 3, and Encap_Ver, 3. Behind it stand its CRC-8, over
 * the 18 bits of types 0 and 1 and the 46 bits of types 2 and 3, and six spare bits of zero.
 *
 * The 1,504 bytes of types 2 and 3 are four parts of 376 bytes each, of type 2 two packets, counted from 0. The 49
 * bits of Parity_Parts at bit 12,032 + 49k are the parity of part k: the 48 bits d47 .. d0 of the remainder of
 * x^48 m(x) by the generator, and the parity bit p0, the sum modulo 2 of the part's 3,008 bits and of the 48. m(x)
 * has the part's bits as its coefficients, the first bit that of x^3007, and the generator is
 *
 *   x^48 + x^44 + x^41 + x^37 + x^36 + x^34 + x^32 + x^29 + x^27 + x^26 + x^21 + x^17 + x^16 + x^13
 *   + x^7 + x^5 + x^3 + x + 1
 *
 * The library says which parts hold, and corrects none.
 */

/*
 * Writes a payload word of type 0, 1 or 2, RFU and Encap_Ver as 0. Type 3 has a writer of its own, opl_ip_write.
 *
 *   type          the stream type: 0 (dummy), 1 (transparent) or 2 (transport stream)
 *   id            the stream id
 *   count         of type 2, how many packets the payload has, 0 to 8 (OPL_TS_PACKETS); else not looked at
 *   payload       n bytes, n = 0 for type 0 (OPL_EMPTY), 1,532 (OPL_PAYLOAD_BYTES) for type 1, and 188 x count
 *                 for type 2
 *   null_packet   of type 2, k bytes, k = 188 (OPL_TS_PACKET_BYTES), for every count: the packet that stands
 *                 8 - count times behind the payload, whatever it holds; else not looked at (OPL_EMPTY)
 *   word          m bytes, m = 1,536 (OPL_PAYLOAD_WORD_BYTES)
 *
 * Refusals, in this order:
 *
 *   OPL_STREAM_TYPE    type is above 2
 *   OPL_PACKET_COUNT   type is 2 and count is above 8
 *   OPL_LENGTH         n is not the type's; type is 2 and k is not 188; or m is not 1,536
 */
uint8_t opl_payload_write(uint32_t type, uint8_t id, uint32_t count, const uint8_t *payload, size_t n,
                          const uint8_t *null_packet, size_t k, uint8_t *word, size_t m);

/* Byte 7 of a header whose four parts all hold. */
#define OPL_PARITY_HOLDS 15

/*
 * First_Header_Address of a word of type 3 in which no packet's header stands, FFF in hex. Any other that is
 * accepted is at most 1,502.
 */
#define OPL_IP_NO_HEADER 4095

/*
 * Reads the header of a payload word. The payload of an accepted word is its first bytes, as they were
 * received: of type 1 the first 1,532, of type 2 the first 1,504, which are eight packets, and of type 3 the first
 * 1,504, which opl_ip_read takes apart, whatever the parity says. A word of type 0 has none, whatever its bytes
 * hold.
 *
 *   word     n bytes, n = 1,536 (OPL_PAYLOAD_WORD_BYTES)
 *   header   m bytes, m = 16 (OPL_PAYLOAD_HEADER_BYTES), numbers with their most significant byte first:
 *              byte  0   RFU as it stands, four bytes
 *              byte  4   the stream id
 *              byte  5   the stream type
 *              byte  6   Encap_Ver
 *              byte  7   parity, of types 2 and 3: bit k (value 2^k) is set where part k holds, that is, where the
 *                        generator and the parity bit both agree; of types 0 and 1 zero
 *              byte  8   First_Header_Address, of type 3, two bytes; of any other type zero
 *              byte 10   two bytes of zero, where opl_ip_read says how many bytes of packets it has handed out
 *              byte 12   four bytes of zero, kept for what later versions report
 *
 * What opl_payload_write and opl_ip_write have written is accepted, of types 2 and 3 with all four parts holding.
 * Where an odd number of the 3,057 bits of a part that holds is changed, and no other bit, just that part does not
 * hold any more.
 *
 * One changed bit of the header of an accepted word is refused with OPL_CRC, unless it is a bit of the stream type by
 * which the type becomes 2 or 3, or is neither any more: the CRC is then that of another number of bits, and it can be
 * right. Of the words that opl_payload_write and opl_ip_write have written it is so of type 1 alone: by what the last
 * bytes of its payload are, a word of type 1 whose type becomes 3 by one changed bit may be accepted.
 *
 * Refusals, in this order:
 *
 *   OPL_LENGTH         n is not 1,536, or m is not 16
 *   OPL_SPARE          one of the word's last six bits is set
 *   OPL_CRC            the CRC-8 is not that of the header: of its last 46 bits where the stream type's three
 *                      bits are 2 or 3, and of its last 18 where they are any other number
 *   OPL_ENCAP_VER      Encap_Ver is not 0
 *   OPL_STREAM_TYPE    the stream type is above 3
 *   OPL_FIRST_HEADER   the stream type is 3, and First_Header_Address is 1,503 to 4,094
 */
uint8_t opl_payload_read(const uint8_t *word, size_t n, uint8_t *header, size_t m);

/*
 * Of an IP stream: the bytes of a word that packets run through, the longest packet, what opl_ip_write says of its
 * progress and what opl_ip_read keeps of an open packet, and the room that it needs for packets, in bytes.
 */
#define OPL_IP_PAYLOAD_BYTES 1504
#define OPL_IP_PACKET_MOST 4095
#define OPL_IP_PROGRESS_BYTES 8
#define OPL_IP_OPEN_BYTES 4104
#define OPL_IP_ROOM 6604

/*
 * An IP stream is packets of 1 to 4,095 bytes that run on from one word of type 3 into the next. In a word, a header
 * of two bytes stands before each packet (table 6): the packet's type, 2 bits, its error bit, 1, its length, 12, and
 * RFU, 1, the last bit. Such a header is never split: it begins at byte 1,502 of the word's 1,504 or before, and where
 * one would begin at byte 1,503, the last, that byte is FF. Where packets are wanting, the rest of the word is FF; a
 * header FF FF says so, and counts as a header. First_Header_Address is the address of the first header in the word,
 * 0 to 1,502, or FFF (OPL_IP_NO_HEADER) where there is none.
 *
 * Outside of words, packets stand in a queue. It is any number of packets one after the other, each so:
 *
 *   byte 0   its type: 1 (IPv4) or 2 (IPv6)
 *   byte 1   its error: 0 where it has none, and any other number where it is erroneous
 *   byte 2   its length, 1 to 4,095, two bytes, the most significant first
 *   byte 4   its data, that many bytes
 */

/*
 * Writes the next word of an IP stream, RFU and Encap_Ver as 0, and says how far the queue has come.
 *
 *   id         the stream id
 *   sent       how much of the queue's first packet earlier words carry, its header's two bytes counted: 0 where
 *              it is not begun or the queue is empty, else 2 to its length + 1
 *   queue      n bytes, of which any number may be lent: the packets that wait, in order; or none (OPL_EMPTY)
 *   word       m bytes, m = 1,536 (OPL_PAYLOAD_WORD_BYTES)
 *   progress   k bytes, k = 8 (OPL_IP_PROGRESS_BYTES), two numbers of four bytes, the most significant first:
 *                byte 0   how many bytes at the front of the queue are done with: the packets that are now wholly
 *                         sent
 *                byte 4   sent for the packet that is then first
 *
 * The library keeps nothing of a stream. The caller drops from the queue what is done with, has packets join it at its
 * end as they come, and lends it again with the new sent for the next word. Until then the first packet stays as it
 * is.
 *
 * The word takes what is left of the packet that is begun, and then, as long as a packet waits and a header fits,
 * begins the next, at byte 1,502 too, with all its data in later words. What is left of the 1,504 bytes is FF. So each
 * word of a queue that is not empty makes progress, and the word of an empty one has 1,504 bytes of FF and
 * First_Header_Address 0.
 *
 * Each call walks the whole queue that is lent to it: of a long one, lend the front. As many whole packets as have
 * 1,503 bytes still to be sent, their headers counted, give the word that the whole queue would give.
 *
 * Refusals, in this order:
 *
 *   OPL_IP_PACKET   a packet's type is not 1 or 2, or its length is not 1 to 4,095. It is looked for in the whole
 *                   queue, as far as that can be walked: where the queue ends inside a packet's data too, but not
 *                   where it ends inside the four bytes before them
 *   OPL_LENGTH      the queue ends inside a packet or the four bytes before its data; sent is none of the numbers
 *                   above; m is not 1,536; or k is not 8
 */
uint8_t opl_ip_write(uint8_t id, uint32_t sent, const uint8_t *queue, size_t n, uint8_t *word, size_t m,
                     uint8_t *progress, size_t k);

/*
 * Reads a word of an IP stream: hands out the packets that end in it, and keeps the one that goes on in the next.
 *
 *   word      n bytes, n = 1,536 (OPL_PAYLOAD_WORD_BYTES)
 *   open      k bytes, k = 4,104 (OPL_IP_OPEN_BYTES): the packet that is open, of which earlier words had the
 *             beginning. Each stream id has an open of its own, all zeros before its first word, which is lent with
 *             each word of that stream; which stream a word is of, opl_payload_read tells. Its form, numbers with their
 *             most significant byte first:
 *               byte 0   1 where a packet is open
 *               byte 1   the packet's type, 1 or 2
 *               byte 2   its error, 0 or 1
 *               byte 3   zero
 *               byte 4   its length, 1 to 4,095, two bytes
 *               byte 6   how many bytes of it are there so far, fewer than its length, two bytes
 *               byte 8   these bytes, and zeros behind them
 *             Where one of bytes 0 to 7 is not so, none is open; all zeros is the form for that. What stands behind the
 *             bytes so far is not looked at
 *   packets   room bytes, room at least 6,604 (OPL_IP_ROOM): the packets that are handed out, at the front of it, as a
 *             queue has them, with an error byte of 0 or 1, so that opl_ip_write takes them. At most 6,604 bytes come
 *             of one word; the bytes past them stay
 *   header    m bytes, m = 16 (OPL_PAYLOAD_HEADER_BYTES), as opl_payload_read writes it, but for
 *               byte 10   how many bytes of packets were handed out, of type 3, two bytes, the most significant first
 *
 * Only whole packets are handed out, in order, each with its type and error. The parity decides nothing: of a part that
 * does not hold the packets come out all the same. After an accepted word of type 3, open has exactly one of the two
 * forms. A word of type 0, 1 or 2 that opl_payload_read accepts is accepted with the same header, and leaves open and
 * packets as they were: so dummies may come in between.
 *
 * With a packet open, First_Header_Address has to be what the packet says: the number of its bytes that are still to
 * come where these are at most 1,502, and FFF where they are more. With none open, the bytes before the announced
 * header are passed over unread, and all of the word where that is FFF: so reading begins, and so it begins again after
 * a loss.
 *
 * Every word that was lost or refused has to be reported with opl_ip_lost before the next word of that stream is read,
 * and where it may have been of several streams, for each of them. Words of type 3 have no running count: a loss that
 * is not reported can join the beginning of one packet with the end of another, and no refusal shows it. With each lost
 * or refused word reported, and all others read in order, what is handed out of the words that opl_ip_write wrote is
 * exactly the packets all of whose words arrived.
 *
 * Refusals, in this order; each leaves open, packets and header as they were:
 *
 *   OPL_LENGTH         n is not 1,536, k is not 4,104, room is below 6,604, or m is not 16
 *   OPL_SPARE, OPL_CRC, OPL_ENCAP_VER, OPL_STREAM_TYPE, OPL_FIRST_HEADER
 *                      as opl_payload_read gives them
 *   OPL_IP_PACKET      First_Header_Address is not what the open packet says; in what is read of the word, a header
 *                      other than FF FF has packet type 0 or 3 (FF FE too), or length 0; a byte behind a header FF FF
 *                      is not FF; or byte 1,503 is not FF where a header would begin there. RFU of a packet's header
 *                      is else not looked at
 */
uint8_t opl_ip_read(const uint8_t *word, size_t n, uint8_t *open, size_t k, uint8_t *packets, size_t room,
                    uint8_t *header, size_t m);

/*
 * Reports that a word of an IP stream was lost or refused, or several: the open packet is dropped, and reading begins
 * again at the next header that is announced. It is called before the next word of that stream is read.
 *
 *   open   k bytes, k = 4,104 (OPL_IP_OPEN_BYTES), whatever they hold: becomes all zeros
 *
 * Refusals: OPL_LENGTH where k is not 4,104.
 */
uint8_t opl_ip_lost(uint8_t *open, size_t k);

/* The longest codewords of a payload word and of a signalling word, those of pattern 0, in bytes. */
#define OPL_PAYLOAD_CODEWORD_MOST 7680
#define OPL_SIGNALLING_CODEWORD_BYTES 480

/*
 * Writes the turbo codeword of an infoword (clauses 4.4.2 to 4.4.5). Of the infoword's bits the first N
 * are coded, 12,282 of a payload word and 762 of a signalling word; no CRC is looked at.
 *
 *   pattern    the puncturing pattern (Punct_Pat_ID), 0 to 27; only 0 for a signalling word
 *   infoword   n bytes, n = 1,536 (a payload word) or 96 (a signalling word)
 *   codeword   m bytes, (N + 6) / 8 divided by the code rate: for a signalling word 480, for a payload
 *              word by pattern
 *
 *                pattern        rate   bytes     pattern        rate   bytes
 *                0              1/5    7,680     9, 10          2/5    3,840
 *                1              2/9    6,912     11, 12         3/7    3,584
 *                2              1/4    6,144     13, 14, 15     1/2    3,072
 *                3              2/7    5,376     16, 17, 18     3/5    2,560
 *                4              3/10   5,120     19, 20, 21     2/3    2,304
 *                5, 6           1/3    4,608     22, 23, 24     3/4    2,048
 *                7, 8           3/8    4,096     25, 26, 27     6/7    1,792
 *
 * The bitwise sum of two accepted words of one length is accepted too, and its codeword is the bitwise sum of
 * their codewords under the same pattern, tail included: so a test bench may compare the two. The codeword of
 * zeros is of zeros. The sum of two words that opl_payload_write wrote has a wrong HeaderCRC, which is not looked
 * at here, and which opl_payload_read refuses with OPL_CRC; unless one is of type 1 and the other of type 2. Then the
 * sum says type 3, and by the last bytes of its payload the CRC can be right.
 *
 * Refusals, in this order:
 *
 *   OPL_LENGTH          n is not 1,536 or 96
 *   OPL_PATTERN         pattern is above 27
 *   OPL_BLOCK_PATTERN   n is 96 and pattern is not 0
 *   OPL_LENGTH          m is not the codeword's length
 *   OPL_SPARE           one of the infoword's last six bits is set
 */
uint8_t opl_encode(uint32_t pattern, const uint8_t *infoword, size_t n, uint8_t *codeword, size_t m);

/* The lane of a payload word and of a signalling word, in places. */
#define OPL_PAYLOAD_LANE 61440
#define OPL_SIGNALLING_LANE 3840

/*
 * Places received values, one for each code bit, where the encoder's output had them before puncturing.
 * The lane has N + 6 groups of five places: first the N data groups X Y0 Y1 Y'0 Y'1; then three tail
 * groups of encoder 1, with X Y0 Y1 at places 0 1 2; then three of encoder 2, with X' at place 0 and
 * Y'0 Y'1 at places 3 4. A place becomes the sum of the values of its copies, and 0 where nothing is
 * sent. Only tail symbols are sent more than once, at most three times: a sum lies within -384 to 381.
 *
 *   pattern   the puncturing pattern, 0 to 27; only 0 for a signalling word
 *   values    n signed bytes, n the number of code bits, eight times a codeword's bytes
 *   lane      m places of 16 bits, m = 61,440 (N = 12,282, a payload word) or 3,840 (N = 762, a
 *             signalling word)
 *
 * Refusals, in this order:
 *
 *   OPL_LENGTH          m is not 61,440 or 3,840
 *   OPL_PATTERN         pattern is above 27
 *   OPL_BLOCK_PATTERN   m is 3,840 and pattern is not 0
 *   OPL_LENGTH          n is not the number of code bits
 *
 * Provisional: a later version will have sums clipped to -127 to 127 and places one byte wide.
 */
uint8_t opl_place(uint32_t pattern, const int8_t *values, size_t n, int16_t *lane, size_t m);

/*
 * From codeword to pipe (clauses 4.5 to 4.8). Each codeword is mixed; a mixed codeword is cut into interleaver units of
 * 512 bits, 64 bytes; each of the codewords of a pipe's frame has a slot of its own, and each slot a disperser, which
 * delays unit k of its codewords by Tap_Delay[k] frames; the collector reads the units of all slots into the frame of
 * the pipe. A capacity unit is four interleaver units, 256 bytes, and a codeword has 6 divided by its code rate of
 * them.
 */
#define OPL_UNIT_BYTES 64
#define OPL_CAPACITY_UNIT_BYTES 256

/*
 * Mixes a codeword (clause 4.5): bit i of what is written is bit (CILM_Inc x i) mod Codeword_Len of the codeword.
 * CILM_Inc is that of the pattern's code rate (table 12), and 61 for a signalling codeword. Each bit of the codeword
 * goes to just one place.
 *
 *   pattern    the puncturing pattern, 0 to 27
 *   codeword   n bytes: those of a payload word's codeword under this pattern (opl_encode has them), or 480
 *              (OPL_SIGNALLING_CODEWORD_BYTES), a signalling word's, for pattern 0
 *   mixed      m bytes, m = n
 *
 * Refusals, in this order:
 *
 *   OPL_PATTERN   pattern is above 27
 *   OPL_FRAME     n is no codeword's length under this pattern, or m is not n
 */
uint8_t opl_mix(uint32_t pattern, const uint8_t *codeword, size_t n, uint8_t *mixed, size_t m);

/*
 * The numbers of a profile, 32 tap lengths and the greatest delay; the greatest delay that there is; and the bytes of a
 * pipe as it is lent, at least and at most: its record and one to eight sections.
 */
#define OPL_PROFILE_NUMBERS 33
#define OPL_DELAY_MOST 6160
#define OPL_PIPE_LEAST 8
#define OPL_PIPE_MOST 22

/*
 * Writes the disperser profile of a pipe (clause 4.10.7): the delays that a receiver's dispersers have.
 *
 *   pipe      n bytes: the pipe's record of six bytes (table 16) and behind it just the sections that the pipe owns
 *             (table 19), two bytes each, cut out of a sheet as they stand there. The top four bits of a section are
 *             not looked at, nor is Gap_Width of the first one
 *   profile   m numbers, m = 33 (OPL_PROFILE_NUMBERS):
 *               number  0   the receiver's delays of units 0 to 31, in frames, after re-ordering and, where
 *                           Disperser_Inv_Flag is set, after the flip. They repeat: unit k has that of k mod 32
 *               number 32   Max_Delay, the greatest delay
 *
 * No delay is above the greatest, which is at most 6,160 (OPL_DELAY_MOST). The dispersers of the transmitter, those of
 * opl_pipe, delay each unit by the greatest delay less the receiver's, so that a codeword is whole again the greatest
 * delay after it was sent.
 *
 * Refusals, in this order:
 *
 *   OPL_PROFILE   n is not 6 + 2 x the number of sections that the pipe owns: none where its width is 0, else
 *                 Num_Disperser_Sections_1 + 1; or they do not have 32 taps together. So a pipe that is not in use
 *                 has no profile
 *   OPL_LENGTH    m is not 33
 */
uint8_t opl_profile(const uint8_t *pipe, size_t n, uint16_t *profile, size_t m);

/*
 * Makes one frame of a pipe, ready for the modulator: mixes the codewords of the frame, takes them into the memory, and
 * reads the pipe's frame out of it, each unit as late as its tap says.
 *
 *   pipe        n bytes, as opl_profile takes them
 *   frame       the number of the frame. Frames are counted on from 0; only the remainder by (greatest delay + 1)
 *               matters, so a caller counts modulo that where it runs for long (2^32 need be no multiple of it)
 *   codewords   c bytes: the codewords of the frame as opl_encode gives them, one for each slot, slot 0 first. A pipe
 *               has Pipe_Width_CUs / (6 / code rate) slots, so c = 256 x Pipe_Width_CUs
 *   memory      k bytes, k = (greatest delay + 1) x c: the frames before this one
 *   out         m bytes, m = c: the frame of the pipe, with Regrouping_Flag 0 slot by slot, and with 1 unit by unit: unit
 *               0 of all slots, then unit 1 of all slots, and so on
 *
 * The library keeps nothing of a pipe. Its memory is all zeros before frame 0, and from then on it is lent as the call
 * before left it. It is a ring of frames of mixed codewords: row `frame` mod (greatest delay + 1) takes those of this
 * frame. Any bytes are such a ring: what is in it comes out. Each pipe has a memory of its own. Of the record,
 * Num_STS_1, Inter_Schedule_Period_Countdown_Slots and Schedule_Index are not looked at, and may be others with each
 * frame; where anything else of the record or of the sections changes, a memory of zeros, of the new length, is to be
 * lent.
 *
 * Where frames are made so one after the other, unit k of slot w in frame f is unit k of the mixed codeword of that slot
 * in frame f - Tap_Delay[k], and zeros before frame 0. A receiver that takes the units to their slots again, delays them
 * by its taps and undoes the mixer has each codeword whole, the greatest delay later.
 *
 * A memory is large for a wide pipe with long delays: with the greatest delay of 6,160 frames and the greatest width of
 * 1,023 capacity units it has 1,613,491,968 bytes, 1.6 GB. It is never longer. Of it a call reads and writes no more
 * than it lends as codewords and out.
 *
 * Refusals, in this order; each leaves memory and out as they were:
 *
 *   OPL_PROFILE   as opl_profile gives it
 *   OPL_PATTERN   the pipe's pattern is above 27
 *   OPL_FRAME     the pipe's width is no multiple of its codeword's capacity units; or c, k or m is not as above
 */
uint8_t opl_pipe(const uint8_t *pipe, size_t n, uint32_t frame, const uint8_t *codewords, size_t c, uint8_t *memory,
                 size_t k, uint8_t *out, size_t m);

#ifdef __cplusplus
}
#endif

#endif
