#include "play.h"

#include <errno.h>
#include <stdlib.h>
#include <string.h>

#include "opl_text.h"
#include "played.h"
#include "say.h"

_Static_assert(START_BYTES == OPL_PREAMBLE_BYTES + OPL_SIGNALLING_CODEWORD_BYTES, "they fill both units");

/* The frames that are to come back if no number is given: each preamble comes twice. With IP packets, the most. */
enum { CARRIED = 4, CARRIED_FOR_IP = 100 };

/* The most that are played if no number is given, however long the delays are. */
enum { FRAMES_BY_ITSELF = 1000 };

bool frame_is_inverted(const struct frames *frames)
{
    return frames->number % 2 != 0;
}

/* Makes what each frame starts with: the preamble, then the mixed codeword of the signalling word. */
static bool make_start(struct frames *frames)
{
    uint8_t codeword[OPL_SIGNALLING_CODEWORD_BYTES];
    return accepted(opl_preamble(frame_is_inverted(frames), frames->frame, OPL_PREAMBLE_BYTES), "opl_preamble",
                    "32 bytes") &&
           accepted(opl_encode(0, frames->word, OPL_SIGNALLING_BYTES, codeword, sizeof codeword), "opl_encode",
                    "the signalling word") &&
           accepted(opl_mix(0, codeword, sizeof codeword, frames->frame + OPL_PREAMBLE_BYTES, sizeof codeword),
                    "opl_mix", "the signalling codeword");
}

/* Takes the next bytes of the payload file, which begins again after its end; zeros where it has none or cannot. */
static bool take_payload(struct frames *frames, uint8_t *payload)
{
    size_t n = 0, read = 1;
    while (n < OPL_PAYLOAD_BYTES && read != 0) {
        read = fread(payload + n, 1, OPL_PAYLOAD_BYTES - n, frames->payload);
        n += read;
        if (ferror(frames->payload))
            return fail("%s: %s", frames->payload_path, strerror(errno));
        if (feof(frames->payload) && fseek(frames->payload, 0, SEEK_SET) == 0)
            frames->rounds++;
    }
    memset(payload + n, 0, OPL_PAYLOAD_BYTES - n);
    frames->words++;
    frames->payload_sent += n;
    frames->filled += n < OPL_PAYLOAD_BYTES;
    return true;
}

/* Makes a payload word of type 1 for a stream. */
static bool payload_word(struct frames *frames, uint8_t id, uint8_t *word)
{
    uint8_t payload[OPL_PAYLOAD_BYTES];
    return take_payload(frames, payload) && transparent_word(id, payload, word);
}

/* Makes the next payload word of a stream, by what it carries. */
static bool make_word(struct frames *frames, uint8_t id, uint8_t *word)
{
    if (frames->stream != NULL && frames->stream->id == id)
        return stream_word(frames->stream, word);
    if (frames->ip != NULL && frames->ip->id == id)
        return ip_word(frames->ip, word);
    return payload_word(frames, id, word);
}

/* Makes the next payload word of a stream, and keeps it. */
static bool next_word(void *maker, size_t pipe, uint8_t id, uint8_t *word)
{
    struct frames *frames = maker;
    return make_word(frames, id, word) && list_add(&frames->sent.words[pipe], word);
}

/* Makes all pipes of a frame, the tail pipe last. One that is not sent keeps its zeros. */
static bool make_pipes(struct frames *frames, const uint8_t *sheet)
{
    struct pipe pipes[PIPES_MOST];
    size_t n = sheet_pipes(sheet, pipes);
    for (size_t i = 0; i < n; i++) {
        struct source source = {next_word, frames, i};
        uint8_t *out = frames->frame + pipes[i].at;
        if (!(pipes[i].tail ? send_tail(&frames->tail, &pipes[i], &source, out)
                            : send_pipe(&frames->senders[i], &pipes[i], frames->number, &source, out)))
            return false;
    }
    return true;
}

/* Writes the signalling word of a frame's sheet, in which the tail pipe is said to begin as it does. */
static bool make_signalling(struct frames *frames, uint8_t *sheet)
{
    uint8_t kept[OPL_SHEET_MOST] = {0};
    sheet_align(sheet, tail_begins(&frames->tail));
    memcpy(kept, sheet, opl_sheet_bytes(sheet));
    return accepted(opl_signalling_write(sheet, opl_sheet_bytes(sheet), frames->word, sizeof frames->word),
                    "opl_signalling_write", "the sheet of a frame") &&
           list_add(&frames->sent.sheets, kept);
}

/* Makes a frame and writes it: what follows the tail pipe stays zeros (clause 4.9). */
static bool put_frame(struct frames *frames, uint8_t *sheet)
{
    size_t n = UNIT_BYTES * frames->units;
    memset(frames->frame, 0, n);
    if (!make_signalling(frames, sheet) || !make_start(frames) || !make_pipes(frames, sheet))
        return false;
    return fwrite(frames->frame, 1, n, frames->file) == n || fail("%s: %s", frames->path, strerror(errno));
}

/* Plays one frame of a sheet. */
static bool play_frame(struct frames *frames, uint8_t *sheet)
{
    if (!put_frame(frames, sheet))
        return false;
    if (frames->number == 0)
        say_first(frames, sheet);
    say_frame(frames, sheet);
    return true;
}

/*
 * How many frames are to be played. Where no number is given, all of some frames is to come back, and of more while IP
 * packets wait: after these come as many frames as the greatest delay.
 */
static size_t count_due(struct frames *frames)
{
    const struct ip_stream *ip = frames->ip;
    bool waits = ip != NULL && ip->id != NO_STREAM && ip_waits(ip);
    if (frames->count != 0)
        return frames->count;
    if (waits && frames->carried < frames->number + 2 && frames->carried < CARRIED_FOR_IP)
        frames->carried++;
    size_t due = frames->carried + frames->delay;
    return due < FRAMES_BY_ITSELF ? due : FRAMES_BY_ITSELF;
}

/* Plays all frames. */
static bool play_frames(struct frames *frames, uint8_t *sheet)
{
    bool ok = play_frame(frames, sheet);
    while (ok && frames->number + 1 < count_due(frames)) {
        sheet_next(sheet);
        frames->number++;
        ok = play_frame(frames, sheet);
    }
    frames->count = frames->number + 1;
    if (ok)
        say_sums(frames, sheet);
    return ok;
}

/* Gets all pipes ready to be sent. What was got ready is to be closed, even where this fails. */
static bool open_senders(struct frames *frames, const uint8_t *sheet)
{
    struct pipe pipes[PIPES_MOST];
    size_t payload_pipes = sheet_pipes(sheet, pipes) - 1;
    for (size_t i = 0; i < payload_pipes; i++)
        if (!sender_open(&frames->senders[i], &pipes[i]))
            return false;
    frames->carried = CARRIED;
    frames->frame = malloc(UNIT_BYTES * frames->units);
    if (frames->frame == NULL)
        return fail("no memory for a frame of %zu capacity units", frames->units);
    return greatest_delay(sheet, &frames->delay);
}

static void close_senders(struct frames *frames)
{
    for (size_t i = 0; i < PIPES_MOST; i++)
        sender_close(&frames->senders[i]);
    free(frames->frame);
}

static FILE *opened(const char *path, const char *mode)
{
    FILE *file = fopen(path, mode);
    if (file == NULL)
        fail("%s: %s", path, strerror(errno));
    return file;
}

/* Plays all frames into a file that is opened for it. */
static bool play_into_file(struct frames *frames, uint8_t *sheet)
{
    frames->file = opened(frames->path, "wb");
    if (frames->file == NULL)
        return false;
    bool ok = play_frames(frames, sheet);
    if (fclose(frames->file) != 0 && ok)
        ok = fail("%s: %s", frames->path, strerror(errno));
    return ok;
}

bool play(struct frames *frames, uint8_t *sheet)
{
    sent_begin(&frames->sent);
    frames->payload = opened(frames->payload_path, "rb");
    if (frames->payload == NULL)
        return false;
    bool ok = open_senders(frames, sheet) && play_into_file(frames, sheet);
    close_senders(frames);
    fclose(frames->payload);
    return ok;
}
