#include "layout.h"

#include <stdio.h>

#include "sheet.h"

/* The characters of a line, and of a picture at most: of a larger frame a character stands for several units. */
enum { LINE = 64, CHARACTERS_MOST = 4 * LINE };

/* What stands for the start of a frame, for the tail pipe and for zeros. A payload pipe has a digit or a letter. */
enum { START = '=', TAIL = 't', ZEROS = '.' };

/* What a payload pipe is called in the picture, counted from 0. */
static char pipe_letter(size_t pipe)
{
    return "123456789ABCDE"[pipe];
}

/* What stands for a capacity unit, by where it is in the frame. */
static char unit_letter(const struct pipe *pipes, size_t n, size_t unit)
{
    size_t at = UNIT_BYTES * unit;
    if (at < START_BYTES)
        return START;
    for (size_t i = 0; i < n; i++)
        if (at >= pipes[i].at && at - pipes[i].at < pipe_bytes(&pipes[i]))
            return pipes[i].tail ? TAIL : pipe_letter(i);
    return ZEROS;
}

void say_layout(const uint8_t *sheet, size_t units)
{
    struct pipe pipes[PIPES_MOST];
    size_t n = sheet_pipes(sheet, pipes), scale = (units + CHARACTERS_MOST - 1) / CHARACTERS_MOST;
    printf("  its %zu capacity units, %zu a character: %c preamble and signalling codeword, ", units, scale, START);
    if (n > 1)
        printf("%s%c payload pipes, ", n > 2 ? "1 to " : "", pipe_letter(n - 2));
    printf("%c tail pipe, %c zeros\n", TAIL, ZEROS);
    for (size_t i = 0; i * scale < units; i++)
        printf("%s%c%s", i % LINE == 0 ? "  " : "", unit_letter(pipes, n, i * scale),
               i % LINE == LINE - 1 || (i + 1) * scale >= units ? "\n" : "");
}
