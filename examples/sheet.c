#include "sheet.h"

#include <string.h>

#include "opl_text.h"

/* Bytes of the sheet, as opl.h lays it out. */
enum { PIPE_COUNT = 0, PIPE_OFFSET = 4, STREAM_OFFSET = 6, SECTION_OFFSET = 8, TAIL = 19, STREAM_BYTES = 2 };

/* The multiplex fields that count: Event_Countdown in 11 bits, Frame_Index in 22 (table 15). */
enum { EVENT_COUNTDOWN = 12, EVENT_TOP = 0x07, FRAME_INDEX = 15, FRAME_TOP = 0x3F };

/* A pipe's countdown, in 10 bits from the third of this byte of its record on (table 16). */
enum { COUNTDOWN = 3, COUNTDOWN_TOP = 0x3F, COUNTDOWN_LOW = 0xF0, COUNTDOWN_BITS = 0x3FF };

/* The sections and the flag of a pipe, in the third and fourth byte of its record; the tail's flag, in its first. */
enum { SECTIONS_LOW = 0x07, REGROUPING = 0x40, CODEWORD_ALIGN = 0x02 };

static size_t table_at(const uint8_t *sheet, size_t offset)
{
    return (size_t)(sheet[offset] << 8 | sheet[offset + 1]);
}

static const uint8_t *table(const uint8_t *sheet, size_t offset)
{
    return sheet + table_at(sheet, offset);
}

/*
 * A record of table 16. A pipe of width 0 owns no stream and no section, whatever its two counts say (clauses 4.10.3
 * and 4.10.7).
 */
static struct pipe payload_pipe(const uint8_t *record, const uint8_t *streams, const uint8_t *sections)
{
    struct pipe pipe = {
        .pattern = record[0] >> 2,
        .width = (record[0] & 0x03u) << 8 | record[1],
        .num_sts_1 = record[2] >> 3,
        .regrouping = (record[3] & REGROUPING) != 0,
        .countdown = (record[3] & 0x3Fu) << 4 | record[4] >> 4,
        .record = record,
        .sections = sections,
        .streams = streams,
    };
    pipe.count = pipe.width == 0 ? 0 : pipe.num_sts_1 + 1;
    pipe.section_count = pipe.width == 0 ? 0 : (record[2] & SECTIONS_LOW) + 1u;
    return pipe;
}

/* The record of table 16b. The tail pipe owns one stream, or none where it is not in use (clause 4.10.8). */
static struct pipe tail_pipe(const uint8_t *record, const uint8_t *streams)
{
    struct pipe pipe = {
        .tail = true,
        .pattern = record[0] >> 2,
        .width = (record[0] & 0x01u) << 8 | record[1],
        .aligned = (record[0] & CODEWORD_ALIGN) != 0,
        .streams = streams,
    };
    pipe.count = pipe.width == 0 ? 0 : 1;
    return pipe;
}

size_t sheet_pipes(const uint8_t *sheet, struct pipe pipes[PIPES_MOST])
{
    const uint8_t *record = table(sheet, PIPE_OFFSET), *streams = table(sheet, STREAM_OFFSET);
    const uint8_t *sections = table(sheet, SECTION_OFFSET);
    size_t p = sheet[PIPE_COUNT], at = START_BYTES;
    for (size_t i = 0; i < p; i++) {
        pipes[i] = payload_pipe(record + PIPE_BYTES * i, streams, sections);
        pipes[i].at = at;
        at += pipe_bytes(&pipes[i]);
        streams += STREAM_BYTES * pipes[i].count;
        sections += SECTION_BYTES * pipes[i].section_count;
    }
    pipes[p] = tail_pipe(sheet + TAIL, streams);
    pipes[p].at = at;
    return p + 1;
}

size_t sheet_units(const uint8_t *sheet)
{
    struct pipe pipes[PIPES_MOST];
    const struct pipe *last = &pipes[sheet_pipes(sheet, pipes) - 1];
    return (last->at + pipe_bytes(last)) / UNIT_BYTES;
}

bool is_sent(const struct pipe *pipe)
{
    return pipe->width != 0 && opl_codeword_bytes(pipe->pattern) != 0;
}

size_t pipe_bytes(const struct pipe *pipe)
{
    return (size_t)UNIT_BYTES * pipe->width;
}

size_t pipe_slots(const struct pipe *pipe)
{
    return pipe->tail || !is_sent(pipe) ? 0 : pipe_bytes(pipe) / opl_codeword_bytes(pipe->pattern);
}

size_t pipe_record(const struct pipe *pipe, uint8_t record[PIPE_BYTES + SECTION_BYTES * SECTIONS_MOST])
{
    size_t bytes = SECTION_BYTES * pipe->section_count;
    memcpy(record, pipe->record, PIPE_BYTES);
    memcpy(record + PIPE_BYTES, pipe->sections, bytes);
    return PIPE_BYTES + bytes;
}

/* The slots that a stream takes in a schedule period: STS_Width_Slots_1 + 1. */
static size_t stream_slots(const struct pipe *pipe, size_t i)
{
    return pipe->streams[STREAM_BYTES * i + 1] + 1u;
}

/* The length of a pipe's schedule period, in slots. */
static size_t period_slots(const struct pipe *pipe)
{
    size_t slots = 0;
    for (size_t i = 0; i < pipe->count; i++)
        slots += stream_slots(pipe, i);
    return slots;
}

uint8_t slot_stream(const struct pipe *pipe, size_t slot)
{
    size_t period = period_slots(pipe), i = 0;
    size_t place = (slot + period - pipe->countdown % period) % period;
    while (place >= stream_slots(pipe, i))
        place -= stream_slots(pipe, i++);
    return pipe->streams[STREAM_BYTES * i];
}

const struct pipe *first_sent(const uint8_t *sheet, struct pipe pipes[PIPES_MOST])
{
    size_t n = sheet_pipes(sheet, pipes);
    for (size_t i = 0; i < n; i++)
        if (is_sent(&pipes[i]))
            return &pipes[i];
    return NULL;
}

uint8_t last_stream(const struct pipe *pipe)
{
    return pipe->streams[STREAM_BYTES * (pipe->count - 1)];
}

int last_other_stream(const uint8_t *sheet, int left_out)
{
    struct pipe pipes[PIPES_MOST];
    size_t payload_pipes = sheet_pipes(sheet, pipes) - 1;
    int last = NO_STREAM;
    for (size_t i = 0; i < payload_pipes; i++)
        for (size_t k = 0; k < pipes[i].count && is_sent(&pipes[i]); k++)
            if (pipes[i].streams[STREAM_BYTES * k] != left_out)
                last = pipes[i].streams[STREAM_BYTES * k];
    return last;
}

unsigned sheet_frame_index(const uint8_t *sheet)
{
    const uint8_t *field = sheet + FRAME_INDEX;
    return (unsigned)((field[0] & FRAME_TOP) << 16 | field[1] << 8 | field[2]);
}

/* Puts a number's bits where the mask has ones. The byte's other bits are of other fields, and stay. */
static void put_bits(uint8_t *byte, uint8_t mask, size_t number)
{
    *byte = (uint8_t)(*byte & (uint8_t)~mask) | (uint8_t)(number & mask);
}

/* Frame_Index one higher; after the last number that it has comes 0. */
static void count_frame(uint8_t *sheet)
{
    unsigned next = sheet_frame_index(sheet) + 1;
    uint8_t *field = sheet + FRAME_INDEX;
    put_bits(field, FRAME_TOP, next >> 16);
    field[1] = (uint8_t)(next >> 8);
    field[2] = (uint8_t)next;
}

static void count_event(uint8_t *sheet)
{
    uint8_t *field = sheet + EVENT_COUNTDOWN;
    size_t countdown = (field[0] & EVENT_TOP) << 8 | field[1];
    size_t next = countdown == 0 ? 0 : countdown - 1;
    put_bits(field, EVENT_TOP, next >> 8);
    field[1] = (uint8_t)next;
}

/* A period of more slots than the field counts, 1,023, cannot be announced, and is not kept to. */
static size_t next_countdown(const struct pipe *pipe)
{
    size_t slots = pipe_slots(pipe), countdown = pipe->countdown;
    if (countdown == 0 || countdown > slots)
        return countdown == 0 ? 0 : countdown - slots;
    size_t period = period_slots(pipe);
    return (period - (slots - countdown) % period) & COUNTDOWN_BITS;
}

void pipe_next(struct pipe *pipe)
{
    pipe->countdown = (unsigned)next_countdown(pipe);
}

static void count_slots(uint8_t *record, const struct pipe *pipe)
{
    size_t next = next_countdown(pipe);
    uint8_t *field = record + COUNTDOWN;
    put_bits(field, COUNTDOWN_TOP, next >> 4);
    put_bits(field + 1, COUNTDOWN_LOW, next << 4);
}

void sheet_next(uint8_t *sheet)
{
    struct pipe pipes[PIPES_MOST];
    size_t payload_pipes = sheet_pipes(sheet, pipes) - 1;
    count_frame(sheet);
    count_event(sheet);
    for (size_t i = 0; i < payload_pipes; i++)
        count_slots(sheet + table_at(sheet, PIPE_OFFSET) + PIPE_BYTES * i, &pipes[i]);
}

void sheet_align(uint8_t *sheet, bool begins)
{
    struct pipe pipes[PIPES_MOST];
    if (is_sent(&pipes[sheet_pipes(sheet, pipes) - 1]))
        put_bits(sheet + TAIL, CODEWORD_ALIGN, begins ? CODEWORD_ALIGN : 0);
}
