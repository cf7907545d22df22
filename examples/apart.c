#include "apart.h"

#include <stdio.h>
#include <string.h>

#include "codeword.h"
#include "mixer.h"
#include "opl_text.h"
#include "profile.h"
#include "say.h"

/* After how many frames it is said how far the reading has come. */
enum { PROGRESS = 1000 };

/* A reading: the frame at hand, counted from 0, and what is there of the tail pipe's codeword. */
struct reading {
    const struct recorded *recorded;
    const struct taker *taker;
    size_t frame;
    bool in_step;                            /* whether the tail pipe has begun with a codeword */
    size_t there;                            /* bytes of its codeword, mixed */
    uint8_t mixed[OPL_PAYLOAD_CODEWORD_MOST];
};

static const uint8_t *frame_at(const struct reading *reading, size_t frame)
{
    return reading->recorded->frames + reading->recorded->frame_bytes * frame;
}

bool frame_sheet(const uint8_t *frame, uint8_t *sheet)
{
    uint8_t codeword[OPL_SIGNALLING_CODEWORD_BYTES], word[OPL_SIGNALLING_BYTES];
    unmix(frame + OPL_PREAMBLE_BYTES, codeword, sizeof codeword);
    return take_infoword("a signalling codeword", 0, codeword, sizeof codeword, word, sizeof word) != 0 &&
           accepted(opl_signalling_read(word, sizeof word, sheet, OPL_SHEET_ROOM), "opl_signalling_read",
                    "a signalling word");
}

/* Hands out the payload word of a mixed codeword. */
static bool hand_out(const struct reading *reading, const struct pipe *pipe, struct found found, const uint8_t *mixed)
{
    uint8_t codeword[OPL_PAYLOAD_CODEWORD_MOST], word[OPL_PAYLOAD_WORD_BYTES];
    size_t m = opl_codeword_bytes(pipe->pattern);
    unmix(mixed, codeword, m);
    size_t sent = take_infoword("a payload codeword", pipe->pattern, codeword, m, word, sizeof word);
    found.frame = reading->frame;
    found.pattern = pipe->pattern;
    found.codeword = codeword;
    found.word = word;
    found.all = sent == coded_bits(sizeof word);
    return sent != 0 && reading->taker->word(reading->taker->self, &found);
}

/* Where unit k of a slot stands in its pipe: the collector has put it there, by Regrouping_Flag (clause 4.8). */
static size_t collected_at(const struct pipe *pipe, size_t slot, size_t k)
{
    size_t units = opl_codeword_bytes(pipe->pattern) / INTERLEAVER_UNIT_BYTES;
    return INTERLEAVER_UNIT_BYTES * (pipe->regrouping ? pipe_slots(pipe) * k + slot : units * slot + k);
}

/*
 * Gathers the mixed codeword of a slot that is whole with the frame at hand: each of its units came as many frames
 * before as the receiver delays it (clause 4.10.7).
 */
static void gather(const struct reading *reading, const struct pipe *pipe, const struct profile *profile, size_t slot,
                   uint8_t *mixed)
{
    size_t units = opl_codeword_bytes(pipe->pattern) / INTERLEAVER_UNIT_BYTES;
    for (size_t k = 0; k < units; k++) {
        const uint8_t *frame = frame_at(reading, reading->frame - profile->lengths[k % TAPS]);
        memcpy(mixed + INTERLEAVER_UNIT_BYTES * k, frame + pipe->at + collected_at(pipe, slot, k),
               INTERLEAVER_UNIT_BYTES);
    }
}

/* Takes the codewords of a payload pipe. Those that are whole before the greatest delay is over were never sent. */
static bool take_pipe(const struct reading *reading, const struct pipe *pipe, size_t number)
{
    uint8_t mixed[OPL_PAYLOAD_CODEWORD_MOST];
    struct profile profile;
    size_t slots = pipe_slots(pipe);
    if (slots == 0)
        return true;
    if (!profile_of(pipe, &profile))
        return false;
    for (size_t slot = 0; slot < slots && reading->frame >= profile.greatest; slot++) {
        gather(reading, pipe, &profile, slot, mixed);
        if (!hand_out(reading, pipe, (struct found){.pipe = number, .id = slot_stream(pipe, slot)}, mixed))
            return false;
    }
    return true;
}

/* Takes the next bytes of the tail pipe, n of them, and each codeword that is whole with them. */
static bool take_tail_bytes(struct reading *reading, const struct pipe *pipe, size_t number, size_t n)
{
    const uint8_t *bytes = frame_at(reading, reading->frame) + pipe->at;
    size_t m = opl_codeword_bytes(pipe->pattern), taken;
    if (reading->there >= m)
        return fail("frame %zu: the tail pipe has another pattern, inside a codeword", reading->frame);
    for (size_t at = 0; at < n; at += taken) {
        taken = m - reading->there < n - at ? m - reading->there : n - at;
        memcpy(reading->mixed + reading->there, bytes + at, taken);
        reading->there = (reading->there + taken) % m;
        if (reading->there == 0 &&
            !hand_out(reading, pipe, (struct found){.pipe = number, .id = last_stream(pipe)}, reading->mixed))
            return false;
    }
    return true;
}

/* Takes what the frame has of the tail pipe, in step with what Codeword_Align_Flag says. */
static bool take_tail(struct reading *reading, const struct pipe *pipe, size_t number)
{
    if (!is_sent(pipe))
        return true;
    if (reading->in_step && pipe->aligned != (reading->there == 0))
        return fail("frame %zu: Codeword_Align_Flag is %d, and %zu bytes of a codeword came before", reading->frame,
                    pipe->aligned, reading->there);
    reading->in_step = reading->in_step || pipe->aligned;
    return !reading->in_step || take_tail_bytes(reading, pipe, number, pipe_bytes(pipe));
}

/* Looks whether the frame has room for its pipes, and zeros behind them. */
static bool check_units(const struct reading *reading, const uint8_t *sheet)
{
    const uint8_t *frame = frame_at(reading, reading->frame);
    size_t used = UNIT_BYTES * sheet_units(sheet), n = reading->recorded->frame_bytes;
    if (used > n)
        return fail("frame %zu has %zu bytes, and its pipes end at %zu", reading->frame, n, used);
    for (size_t at = used; at < n; at++)
        if (frame[at] != 0)
            return fail("frame %zu: byte %zu, behind its pipes, is not zero", reading->frame, at);
    return true;
}

/* Takes a frame: its sheet, and what its pipes make whole. */
static bool take_frame(struct reading *reading)
{
    uint8_t sheet[OPL_SHEET_ROOM];
    struct pipe pipes[PIPES_MOST];
    if (!frame_sheet(frame_at(reading, reading->frame), sheet) || !check_units(reading, sheet) ||
        !reading->taker->sheet(reading->taker->self, reading->frame, sheet))
        return false;
    size_t n = sheet_pipes(sheet, pipes);
    for (size_t i = 0; i < n; i++)
        if (!(pipes[i].tail ? take_tail(reading, &pipes[i], i) : take_pipe(reading, &pipes[i], i)))
            return false;
    return true;
}

bool take_apart(const struct recorded *recorded, const struct taker *taker)
{
    struct reading reading = {.recorded = recorded, .taker = taker};
    for (; reading.frame < recorded->count; reading.frame++) {
        if (!take_frame(&reading))
            return false;
        if (reading.frame % PROGRESS == PROGRESS - 1) {
            printf("  %zu of %zu frames are read\n", reading.frame + 1, recorded->count);
            fflush(stdout);
        }
    }
    return true;
}
