#include "table.h"

#include <stdio.h>

#include "opl_text.h"

/* The slots of a pipe whose streams are printed. */
enum { SLOTS_SHOWN = 16 };

/* The frames that are printed: so many, then each 50th, and from the 200th on each 1,000th. */
enum { FRAMES_SHOWN = 5, BETWEEN = 50, OFTEN = 200, FAR_BETWEEN = 1000 };

bool is_shown(size_t frame)
{
    return frame < FRAMES_SHOWN || frame % (frame <= OFTEN ? BETWEEN : FAR_BETWEEN) == 0;
}

/* Prints what a payload pipe that is sent takes, and the streams that have its slots. */
static void say_slots(const struct pipe *pipe, const struct sender *sender)
{
    size_t slots = pipe_slots(pipe);
    printf("%5zu  %14zu  %5u  %15zu ", slots, opl_codeword_bytes(pipe->pattern), (unsigned)sender->profile.greatest,
           sender->memory_bytes);
    for (size_t slot = 0; slot < slots && slot < SLOTS_SHOWN; slot++)
        printf(" %d", slot_stream(pipe, slot));
    if (slots > SLOTS_SHOWN)
        printf(" ..");
}

/* Prints why a pipe is not sent. */
static void say_unsent(const struct pipe *pipe)
{
    printf("%5s  %14s  %5s  %15s  ", "-", "-", "-", "-");
    if (pipe->width != 0)
        printf("none: a reserved pattern, so zeros are sent");
    else
        printf("none: not in use");
    if (pipe->width == 0 && pipe->num_sts_1 != 0)
        printf(", whatever Num_STS_1 = %u says", pipe->num_sts_1);
}

/* Prints a pipe's line of the table. */
static void say_pipe(const struct pipe *pipe, const struct sender *sender, size_t number)
{
    if (pipe->tail)
        printf("  tail");
    else
        printf("  %4zu", number);
    printf("  %7u  %5u  ", pipe->pattern, pipe->width);
    if (!is_sent(pipe))
        say_unsent(pipe);
    else if (pipe->tail)
        printf("%5s  %14zu  %5s  %15s  %d, cut to the width", "-", opl_codeword_bytes(pipe->pattern), "-", "-",
               last_stream(pipe));
    else
        say_slots(pipe, sender);
    printf("\n");
}

void say_pipes(const uint8_t *sheet, const struct sender *senders)
{
    struct pipe pipes[PIPES_MOST];
    size_t n = sheet_pipes(sheet, pipes);
    printf("  pipe  pattern  units  slots  codeword bytes  delay  bytes of memory  streams in slot order\n");
    for (size_t i = 0; i < n; i++)
        say_pipe(&pipes[i], &senders[i], i + 1);
}
