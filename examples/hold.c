#include "hold.h"

#include <stdio.h>
#include <string.h>

#include "opl_text.h"
#include "profile.h"
#include "say.h"

/* What is held so far: the words of each pipe, and those of them of which bits are missing. */
struct holding {
    const struct sent *sent;
    struct words *words;
    size_t found[PIPES_MOST], unread[PIPES_MOST];
};

static bool hold_sheet(void *self, size_t frame, const uint8_t *sheet)
{
    const struct holding *holding = self;
    return memcmp(sheet, list_at(&holding->sent->sheets, frame), opl_sheet_bytes(sheet)) == 0 ||
           fail("frame %zu has another sheet than was sent", frame);
}

/* Whether a word is the one that was sent, in a slot of its stream. */
static bool is_word(const struct found *found, const uint8_t *sent)
{
    uint8_t header[OPL_PAYLOAD_HEADER_BYTES];
    return memcmp(found->word, sent, OPL_PAYLOAD_WORD_BYTES) == 0 &&
           accepted(opl_payload_read(found->word, OPL_PAYLOAD_WORD_BYTES, header, sizeof header), "opl_payload_read",
                    "a payload word") &&
           header[4] == found->id;
}

/* Whether a codeword is that of the word that was sent. */
static bool is_codeword(const struct found *found, const uint8_t *sent)
{
    uint8_t codeword[OPL_PAYLOAD_CODEWORD_MOST];
    size_t m = opl_codeword_bytes(found->pattern);
    return accepted(opl_encode(found->pattern, sent, OPL_PAYLOAD_WORD_BYTES, codeword, m), "opl_encode",
                    "a payload word") &&
           memcmp(found->codeword, codeword, m) == 0;
}

/* Keeps a word that came out, for who reads its stream. */
static bool keep_word(struct holding *holding, const struct found *found)
{
    struct come come = {.id = found->id, .all = found->all};
    memcpy(come.word, found->word, sizeof come.word);
    return list_add(&holding->words->come, &come);
}

static bool hold_word(void *self, const struct found *found)
{
    struct holding *holding = self;
    const struct list *words = &holding->sent->words[found->pipe];
    size_t number = holding->found[found->pipe]++;
    if (number >= words->count)
        return fail("pipe %zu gives more payload words than were sent", found->pipe + 1);
    const uint8_t *sent = list_at(words, number);
    holding->unread[found->pipe] += !found->all;
    if (!(found->all ? is_word(found, sent) : is_codeword(found, sent)))
        return fail("pipe %zu gives payload word %zu back as another, with frame %zu", found->pipe + 1, number,
                    found->frame);
    return keep_word(holding, found);
}

/* How many payload words of a pipe are whole after so many frames. */
static bool count_whole(const struct pipe *pipe, size_t frames, size_t *delay, size_t *whole)
{
    struct profile profile = {.greatest = 0};
    if (!pipe->tail && !profile_of(pipe, &profile))
        return false;
    *delay = profile.greatest;
    if (pipe->tail)
        *whole = frames * pipe_bytes(pipe) / opl_codeword_bytes(pipe->pattern);
    else
        *whole = frames > *delay ? pipe_slots(pipe) * (frames - *delay) : 0;
    return true;
}

static const char *what_is_said(size_t found, size_t unread)
{
    if (found == 0)
        return "none is whole within these frames";
    return unread == 0 ? "byte for byte as they were sent"
                       : "their codewords as they were sent: some bits take a turbo decoder";
}

/* Prints the line of a pipe. True if it has given all the words that it has to. */
static bool say_held(const struct holding *holding, const struct pipe *pipe, size_t number)
{
    size_t delay, whole, found = holding->found[number];
    if (!count_whole(pipe, holding->words->frames, &delay, &whole))
        return false;
    if (found != whole)
        return fail("pipe %zu gives %zu payload words back, and not %zu", number + 1, found, whole);
    if (pipe->tail)
        printf("  tail");
    else
        printf("  %4zu", number + 1);
    printf("  %5zu  %9s  %13zu  %s\n", delay, pipe->tail ? "-" : pipe->regrouping ? "by units" : "by slots", found,
           what_is_said(found, holding->unread[number]));
    return true;
}

static bool say_all_held(const struct holding *holding)
{
    struct pipe pipes[PIPES_MOST];
    size_t n = sheet_pipes(list_at(&holding->sent->sheets, 0), pipes);
    if (first_sent(list_at(&holding->sent->sheets, 0), pipes) != NULL)
        printf("  pipe  delay  collected  payload words\n");
    for (size_t i = 0; i < n; i++)
        if (is_sent(&pipes[i]) && !say_held(holding, &pipes[i], i))
            return false;
    return true;
}

bool hold_frames(const struct recorded *recorded, const struct sent *sent, struct words *words)
{
    struct holding holding = {.sent = sent, .words = words};
    struct taker taker = {&holding, hold_sheet, hold_word};
    printf("\nall frames taken apart: their pipes gathered over the frames, un-mixed and placed\n");
    if (!take_apart(recorded, &taker))
        return false;
    printf("  %-*s all %zu as they were sent\n", GIVEN, "sheets", recorded->count);
    return say_all_held(&holding);
}
