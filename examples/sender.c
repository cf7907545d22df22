#include "sender.h"

#include <stdlib.h>
#include <string.h>

#include "opl_text.h"
#include "say.h"

/* Makes the memory: as many frames of the pipe as the greatest delay, and one, all of them zeros at first. */
static bool make_memory(struct sender *sender, const struct pipe *pipe)
{
    size_t rows = sender->profile.greatest + 1u;
    sender->memory_bytes = rows * pipe_bytes(pipe);
    sender->codewords = malloc(pipe_bytes(pipe));
    sender->memory = calloc(rows, pipe_bytes(pipe));
    return (sender->codewords != NULL && sender->memory != NULL) ||
           fail("no memory for a pipe: %zu frames of %zu bytes", rows, pipe_bytes(pipe));
}

bool sender_open(struct sender *sender, const struct pipe *pipe)
{
    *sender = (struct sender){.ahead = *pipe};
    if (pipe_slots(pipe) == 0)
        return true;
    if (!profile_of(pipe, &sender->profile) || !make_memory(sender, pipe))
        return false;
    for (size_t i = 0; i < sender->profile.greatest; i++)
        pipe_next(&sender->ahead);
    return true;
}

void sender_close(struct sender *sender)
{
    free(sender->codewords);
    free(sender->memory);
}

/* Makes the codeword of a stream's next payload word, under the pattern of its pipe. */
static bool make_codeword(const struct source *source, const struct pipe *pipe, uint8_t id, uint8_t *codeword)
{
    uint8_t word[OPL_PAYLOAD_WORD_BYTES];
    return source->make(source->maker, source->pipe, id, word) &&
           accepted(opl_encode(pipe->pattern, word, sizeof word, codeword, opl_codeword_bytes(pipe->pattern)),
                    "opl_encode", "a payload word");
}

bool send_pipe(struct sender *sender, const struct pipe *pipe, size_t frame, const struct source *source, uint8_t *out)
{
    uint8_t record[PIPE_BYTES + SECTION_BYTES * SECTIONS_MOST];
    size_t slots = pipe_slots(pipe), m = opl_codeword_bytes(pipe->pattern), n = pipe_bytes(pipe);
    for (size_t slot = 0; slot < slots; slot++)
        if (!make_codeword(source, pipe, slot_stream(&sender->ahead, slot), sender->codewords + m * slot))
            return false;
    if (slots == 0)
        return true;
    pipe_next(&sender->ahead);
    size_t row = frame % (sender->profile.greatest + 1u); /* all that matters of the frame's number */
    return accepted(opl_pipe(record, pipe_record(pipe, record), (uint32_t)row, sender->codewords, n, sender->memory,
                             sender->memory_bytes, out, n),
                    "opl_pipe", "the codewords of a frame");
}

bool tail_begins(const struct tail *tail)
{
    return tail->sent == tail->bytes;
}

/* Makes the tail pipe's next codeword, and mixes it. */
static bool begin_codeword(struct tail *tail, const struct pipe *pipe, const struct source *source)
{
    uint8_t codeword[OPL_PAYLOAD_CODEWORD_MOST];
    tail->bytes = opl_codeword_bytes(pipe->pattern);
    tail->sent = 0;
    return make_codeword(source, pipe, last_stream(pipe), codeword) &&
           accepted(opl_mix(pipe->pattern, codeword, tail->bytes, tail->mixed, tail->bytes), "opl_mix",
                    "a codeword of the tail pipe");
}

bool send_tail(struct tail *tail, const struct pipe *pipe, const struct source *source, uint8_t *out)
{
    size_t n = is_sent(pipe) ? pipe_bytes(pipe) : 0, bytes;
    for (size_t at = 0; at < n; at += bytes) {
        if (tail_begins(tail) && !begin_codeword(tail, pipe, source))
            return false;
        bytes = tail->bytes - tail->sent;
        if (bytes > n - at)
            bytes = n - at;
        memcpy(out + at, tail->mixed + tail->sent, bytes);
        tail->sent += bytes;
    }
    return true;
}
