#include "played.h"

#include <stdio.h>

#include "layout.h"
#include "say.h"
#include "table.h"

/* Prints a line: something's name, its length and its first bytes; the caller ends it. */
static void say_part(const char *name, const uint8_t *bytes, size_t n)
{
    printf("  %-19s  %5zu bytes  ", name, n);
    say_hex(bytes, 8);
    printf("..  ");
}

void say_first(const struct frames *frames, const uint8_t *sheet)
{
    printf("\nthe first frame\n");
    say_part("signalling word", frames->word, OPL_SIGNALLING_BYTES);
    printf("made of the sheet\n");
    say_part("its codeword, mixed", frames->frame + OPL_PREAMBLE_BYTES, OPL_SIGNALLING_CODEWORD_BYTES);
    printf("in the signalling pipe\n");
    say_part("preamble", frames->frame, OPL_PREAMBLE_BYTES);
    printf("\"%.28s\"\n\n", (const char *)frames->frame);
    say_pipes(sheet, frames->senders);
    printf("\n");
    say_layout(sheet, frames->units);
    printf("\nthe frames, written to %s\n", frames->path);
    printf("  Frame_Index  %-36s  %9s  the tail pipe begins\n", "preamble", "bytes");
}

/* Prints how the tail pipe of the frame at hand begins. */
static void say_tail(const uint8_t *sheet)
{
    struct pipe pipes[PIPES_MOST];
    const struct pipe *tail = &pipes[sheet_pipes(sheet, pipes) - 1];
    printf("%s\n", !is_sent(tail) ? "-" : tail->aligned ? "with a codeword" : "inside a codeword");
}

void say_frame(const struct frames *frames, const uint8_t *sheet)
{
    if (!is_shown(frames->number))
        return;
    printf("  %11u  %-8s  ", sheet_frame_index(sheet), frame_is_inverted(frames) ? "inverted" : "upright");
    say_hex(frames->frame, 8);
    printf("..  %9zu  ", UNIT_BYTES * frames->units);
    say_tail(sheet);
    fflush(stdout);
}

/* Prints what was sent in words of type 1. */
static void say_payload(const struct frames *frames)
{
    printf("  payload: %zu word%s of type 1 with ", frames->words, plural(frames->words));
    if (frames->rounds == 0 || frames->filled != 0)
        printf("the first %zu bytes of ", frames->payload_sent);
    printf("%s", frames->payload_path);
    if (frames->filled != 0)
        printf("; zeros fill up %zu word%s", frames->filled, plural(frames->filled));
    else if (frames->rounds != 0)
        printf(", over and over");
    printf("\n");
}

void say_sums(const struct frames *frames, const uint8_t *sheet)
{
    struct pipe pipes[PIPES_MOST];
    printf("  %zu frames of %zu capacity units\n", frames->count, frames->units);
    if (first_sent(sheet, pipes) == NULL) {
        printf("  no pipe is sent\n");
        return;
    }
    if (frames->words != 0)
        say_payload(frames);
    if (frames->stream != NULL)
        say_stream(frames->stream);
    if (frames->ip != NULL)
        say_ip(frames->ip);
}
