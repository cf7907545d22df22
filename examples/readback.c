#include "readback.h"

#include <stdio.h>
#include <stdlib.h>
#include <string.h>

#include "codeword.h"
#include "hold.h"
#include "ip_received.h"
#include "mixer.h"
#include "opl_text.h"
#include "received.h"
#include "say.h"
#include "sheet.h"
#include "starts.h"

/* Reads the signalling word: it has to give the sheet back. A damaged copy is refused. */
static bool read_signalling(const uint8_t *mixed, const uint8_t *sheet)
{
    uint8_t codeword[OPL_SIGNALLING_CODEWORD_BYTES], word[OPL_SIGNALLING_BYTES], back[OPL_SHEET_ROOM];
    size_t n = opl_sheet_bytes(sheet);
    unmix(mixed, codeword, sizeof codeword);
    size_t sent = take_infoword("signalling codeword", 0, codeword, sizeof codeword, word, sizeof word);
    if (sent == 0 || !accepted(opl_signalling_read(word, sizeof word, back, sizeof back), "opl_signalling_read",
                               "the signalling word"))
        return false;
    printf("  %-*s un-mixed and placed: %zu of the word's %zu bits are in it\n", GIVEN, "signalling codeword", sent,
           coded_bits(sizeof word));
    if (opl_sheet_bytes(back) != n || memcmp(back, sheet, n) != 0)
        return fail("what was read back is another sheet");
    printf("  %-*s accepted: it gives the sheet back, all %zu bytes\n", GIVEN, "signalling word", n);
    word[8] ^= 0x10;
    return refused(opl_signalling_read(word, sizeof word, back, sizeof back), OPL_CRC, "  with bit 67 inverted");
}

/* Shows that a preamble with one bit off is none. */
static bool damage_preamble(const uint8_t *preamble)
{
    uint8_t damaged[OPL_PREAMBLE_BYTES], form = OPL_UPRIGHT;
    memcpy(damaged, preamble, sizeof damaged);
    damaged[12] ^= 0x10;
    if (!accepted(opl_preamble_form(damaged, sizeof damaged, &form, 1), "opl_preamble_form", "32 bytes"))
        return false;
    if (form != OPL_NEITHER)
        return fail("a preamble with a bit inverted is taken for one");
    printf("  %-*s neither: no frame starts there\n", GIVEN, "its preamble with bit 99 inverted");
    return true;
}

/* Shows that a refused call touches nothing: a buffer that is a byte short for the preamble. */
static bool refuse_preamble(void)
{
    uint8_t lent[OPL_PREAMBLE_BYTES - 1];
    mark(lent, sizeof lent);
    return refused(opl_preamble(0, lent, sizeof lent), OPL_LENGTH, "preamble into 31 bytes, which stay") &&
           untouched(lent, sizeof lent);
}

/* Shows that a frame of a pipe is refused whose buffers are a byte long each. */
static bool refuse_pipe(const struct pipe *pipe)
{
    uint8_t record[PIPE_BYTES + SECTION_BYTES * SECTIONS_MOST], codewords = 0, memory, out;
    size_t n = pipe_record(pipe, record);
    mark(&memory, 1);
    mark(&out, 1);
    return refused(opl_pipe(record, n, 0, &codewords, 1, &memory, 1, &out, 1), OPL_FRAME,
                   "pipe with memory of 1 byte, which stays") &&
           untouched(&memory, 1) && untouched(&out, 1) &&
           refused(opl_pipe(record, n - SECTION_BYTES, 0, &codewords, 1, &memory, 1, &out, 1), OPL_PROFILE,
                   "  without its last section");
}

/* Reads the signalling word of a frame that was found, and shows what is refused. */
static bool read_frame(const uint8_t *frame, const uint8_t *sheet)
{
    struct pipe pipes[PIPES_MOST];
    const struct pipe *pipe = first_sent(sheet, pipes);
    printf("\nframe %u read back, as if received without noise\n", sheet_frame_index(sheet));
    return damage_preamble(frame) && read_signalling(frame + OPL_PREAMBLE_BYTES, sheet) && refuse_preamble() &&
           (pipe == NULL || pipe->tail || refuse_pipe(pipe));
}

/* Reads the payload word that came out first, and shows what a damaged copy is refused with. */
static bool read_payload(const struct words *words)
{
    uint8_t word[OPL_PAYLOAD_WORD_BYTES], header[OPL_PAYLOAD_HEADER_BYTES];
    const struct come *first = words->come.count == 0 ? NULL : list_at(&words->come, 0);
    if (first == NULL || !first->all)
        return true;
    memcpy(word, first->word, sizeof word);
    if (!accepted(opl_payload_read(word, sizeof word, header, sizeof header), "opl_payload_read", "a payload word"))
        return false;
    printf("  %-*s accepted: stream %d, type %d\n", GIVEN, "the first of these words", header[4], header[5]);
    word[OPL_PAYLOAD_BYTES] ^= 0x01;
    return refused(opl_payload_read(word, sizeof word, header, sizeof header), OPL_CRC,
                   "  with a bit of its stream id inverted");
}

/* Takes all frames apart, and reads what came out of them. */
static bool read_frames(const struct recording *recording, const struct recorded *recorded)
{
    struct words words = {.come.size = sizeof(struct come), .frames = recorded->count};
    bool ok = hold_frames(recorded, recording->sent, &words) && read_payload(&words) &&
              (recording->stream == NULL || read_stream(&words, recording->stream)) &&
              (recording->ip == NULL || read_ip(&words, recording->ip));
    list_free(&words.come);
    return ok;
}

/* Finds the frames in the n bytes that were recorded, reads one, and takes all of them apart. */
static bool read_recorded(const struct recording *recording, const uint8_t *bytes, size_t n, size_t number)
{
    struct recorded recorded;
    printf("\nthe frames found by the form of their preambles, looked for at every byte\n");
    if (!find_frames(bytes, n, &recorded))
        return false;
    if (recorded.count != recording->frames || recorded.frame_bytes != recording->frame_bytes)
        return fail("%s: it has not the frames that were written", recording->path);
    return read_frame(bytes + recorded.frame_bytes * number, list_at(&recording->sent->sheets, number)) &&
           read_frames(recording, &recorded);
}

bool read_back(const struct recording *recording, size_t number)
{
    /* a byte more than there should be, which would be seen */
    size_t room = recording->frames * recording->frame_bytes + 1, n;
    uint8_t *bytes = malloc(room);
    if (bytes == NULL)
        return fail("%s: no memory for it", recording->path);
    bool ok = load(recording->path, bytes, room, &n) && read_recorded(recording, bytes, n, number);
    free(bytes);
    return ok;
}
