/*
 * A head-end in small: it plays some frames of a sheet, as a transmitter's C program does with the library,
 * finds them again in its own file by their preambles, and takes them apart, as a receiver and test equipment do, down
 * to every payload. `make demo` builds it and runs it.
 *
 *   headend [--units UNITS] [--ip IP BACK] SHEET PAYLOAD FRAMES [STREAM [COUNT]]
 *   headend --take-apart FRAMES [WORDS]
 *   headend --self-test [PAIRS]
 *
 *   SHEET     the file of the first frame's sheet; -: standard input
 *   PAYLOAD   the file that fills the payload words, 1,532 bytes each, over and over
 *   FRAMES    the file that the frames are written to, one behind the other (clause 4.9): preamble and mixed signalling
 *             codeword, the payload pipes in order, the tail pipe, and zeros
 *   STREAM    the file of a transport stream, which the last stream of the first pipe that is sent carries, eight
 *             packets a payload word; null packets fill up the last of these, and dummy words follow. Without it
 *             PAYLOAD fills the words of that stream too
 *   COUNT     how many frames are played. Where it is not given, all that is sent in the first 4 is to come back, and
 *             of more while IP packets wait, up to 100: so as many are played, and the greatest delay of a pipe
 *             besides, but at most 1,000
 *   UNITS     how many capacity units a frame has, which the standard leaves to the inner layer (clause 4.10.2); at
 *             least as many as the sheet has in use. Where it is not given, the next multiple of 8 that leaves some
 *             over
 *   IP        a file of IP packets, in the form that opl.h has for a queue, which the last stream of the last payload
 *             pipe that is sent carries, or the one before it where that has the transport stream. The packets run
 *             on from one payload word into the next, and dummy words follow. They are read back twice, the second
 *             time with words lost. Without it PAYLOAD fills the words of that stream too
 *   BACK      the file that the packets are written to as they come out of the frames, in the same form
 *   WORDS     the file that the payload words are written to as they come out of the frames, 1,536 bytes each
 *   PAIRS     how many pairs of words the self-test adds under each pattern; 8 where it is not given
 *
 * --take-apart is the reader alone, over a file of which nothing else is known (takeapart.h).
 *
 * The self-test plays no frame and takes no file: it encodes sums of words, as a test bench does, and holds their
 * codewords to the sums of codewords (sums.h). `make self-test` runs it.
 *
 * The head-end exits 0 only if every call answered as expected and gave what was expected, so not if the sheet
 * is refused. The sheet is taken for that of the first frame itself, not for one that Reconfig_Flag or Reschedule_Flag
 * announces. The tail pipe begins with a codeword in that frame, and Codeword_Align_Flag is set in each frame as it is.
 */
#include <errno.h>
#include <stdio.h>
#include <stdlib.h>
#include <string.h>

#include "opl_text.h"
#include "play.h"
#include "readback.h"
#include "say.h"
#include "sums.h"
#include "takeapart.h"

/* No sheet has more than 2,571 bytes, so one byte more shows that what was read is none. */
enum { SHEET_BYTES = 2572 };

/* The frame that is read back, counted from 0: the first that a receiver has whole if it is late for one. */
enum { READ_BACK = 1 };

/* A frame has a multiple of so many capacity units if no number is given. */
enum { UNITS_STEP = 8 };

/* What the words of the command name, or null where they do not. */
struct asked {
    const char *units, *sheet, *payload, *frames, *stream, *count;
    const struct ip_paths *ip;
};

/* Plays the frames, finds them again, and takes them apart. */
static bool play_and_read(struct frames *frames, uint8_t *sheet)
{
    bool ok = play(frames, sheet);
    struct recording recording = {frames->path,  frames->count,  UNIT_BYTES * frames->units,
                                  &frames->sent, frames->stream, frames->ip};
    ok = ok && read_back(&recording, READ_BACK);
    sent_free(&frames->sent);
    return ok;
}

/* Does so with the IP packets of a file, on a stream that carries no transport stream; null: with none. */
static bool with_packets(struct frames *frames, uint8_t *sheet, const struct ip_paths *paths)
{
    struct ip_stream ip;
    if (paths == NULL)
        return play_and_read(frames, sheet);
    if (!ip_open(&ip, paths))
        return false;
    ip.id = last_other_stream(sheet, frames->stream == NULL ? NO_STREAM : frames->stream->id);
    frames->ip = &ip;
    bool ok = play_and_read(frames, sheet);
    frames->ip = NULL;
    ip_close(&ip);
    return ok;
}

/* Plays the frames and reads them, with the transport stream of a file and IP packets of another; null: with none. */
static bool demonstrate(struct frames *frames, uint8_t *sheet, const char *path, const struct ip_paths *ip_paths)
{
    struct pipe pipes[PIPES_MOST];
    const struct pipe *pipe = first_sent(sheet, pipes);
    struct sent_stream stream = {.id = pipe == NULL ? 0 : last_stream(pipe)};
    if (path == NULL)
        return with_packets(frames, sheet, ip_paths);
    if (!transport_open(&stream.source, path))
        return false;
    frames->stream = &stream;
    bool ok = with_packets(frames, sheet, ip_paths);
    frames->stream = NULL;
    transport_close(&stream.source);
    return ok;
}

/* Loads the first frame's sheet. */
static bool load_sheet(const char *path, uint8_t sheet[SHEET_BYTES])
{
    uint8_t word[OPL_SIGNALLING_BYTES];
    size_t n;
    return load(strcmp(path, "-") == 0 ? NULL : path, sheet, SHEET_BYTES, &n) &&
           accepted(opl_signalling_write(sheet, n, word, sizeof word), "opl_signalling_write", path);
}

/* Reads how many frames are to be played, and how many capacity units each has. */
static bool read_numbers(struct frames *frames, const uint8_t *sheet, const struct asked *asked)
{
    size_t used = sheet_units(sheet);
    frames->units = (used / UNITS_STEP + 1) * UNITS_STEP;
    return (asked->count == NULL ||
            read_number("COUNT", "frames", asked->count, FRAMES_LEAST, FRAMES_MOST, &frames->count)) &&
           (asked->units == NULL ||
            read_number("UNITS", "capacity units", asked->units, used, UNITS_MOST, &frames->units));
}

/* Plays the frames that are asked for, and reads them. */
static bool play_asked(const struct asked *asked)
{
    struct frames frames = {.payload_path = asked->payload, .path = asked->frames};
    uint8_t sheet[SHEET_BYTES];
    return load_sheet(asked->sheet, sheet) && read_numbers(&frames, sheet, asked) &&
           demonstrate(&frames, sheet, asked->stream, asked->ip);
}

/* Takes the next of the words, if any are left; behind the last of them stands a null pointer, as C has it. */
static const char *next(char ***words)
{
    return **words == NULL ? NULL : *(*words)++;
}

/* Takes a word that says what the next are, if it is the next. */
static bool takes(char ***words, const char *word)
{
    bool is = **words != NULL && strcmp(**words, word) == 0;
    *words += is;
    return is;
}

static bool say_usage(void)
{
    return fail("usage: headend [--units UNITS] [--ip IP BACK] SHEET PAYLOAD FRAMES [STREAM [COUNT]], "
                "or headend --take-apart FRAMES [WORDS], or headend --self-test [PAIRS]");
}

/* Plays the frames that the words name. */
static bool play_named(char **words)
{
    struct asked asked = {0};
    struct ip_paths ip = {0};
    if (takes(&words, "--units"))
        asked.units = next(&words);
    if (takes(&words, "--ip")) {
        ip.sent = next(&words);
        ip.back = next(&words);
        asked.ip = &ip;
    }
    asked.sheet = next(&words);
    asked.payload = next(&words);
    asked.frames = next(&words);
    asked.stream = next(&words);
    asked.count = next(&words);
    return asked.frames == NULL || *words != NULL ? say_usage() : play_asked(&asked);
}

/* Does what the words ask for. */
static bool serve(char **words)
{
    if (takes(&words, "--self-test")) {
        const char *pairs = next(&words);
        return *words != NULL ? say_usage() : self_test(pairs);
    }
    if (takes(&words, "--take-apart")) {
        const char *frames = next(&words), *out = next(&words);
        return frames == NULL || *words != NULL ? say_usage() : take_file_apart(frames, out);
    }
    return play_named(words);
}

int main(int count, char **words)
{
    bool ok = serve(words + (count > 0));
    if (fflush(stdout) != 0 || ferror(stdout))
        ok = fail("standard output: %s", strerror(errno));
    return ok ? EXIT_SUCCESS : EXIT_FAILURE;
}
