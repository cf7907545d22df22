/*
 * A sheet taken apart into its pipes, each with the streams that it owns (clauses 4.10.2, 4.10.3 and
 * 4.10.8). It must be one that opl_signalling_write has accepted or opl_signalling_read has written: its
 * lists are then as long as its records say, and nothing is checked again here.
 */
#ifndef SHEET_H
#define SHEET_H

#include <stdbool.h>
#include <stddef.h>
#include <stdint.h>

/* A capacity unit, in which widths are counted, has 2,048 bits (clause 4.6). */
enum { UNIT_BYTES = 2048 / 8 };

/* A frame starts with two of them: the preamble and the signalling codeword (clause 4.10.1.1). */
enum { START_BYTES = 2 * UNIT_BYTES };

/* The 14 payload pipes for which a signalling word has room at most, and the tail pipe. */
enum { PIPES_MOST = 15 };

/* The records of a payload pipe (table 16) and of a section (table 19) in a sheet, and the most sections of a pipe. */
enum { PIPE_BYTES = 6, SECTION_BYTES = 2, SECTIONS_MOST = 8 };

struct pipe {
    bool tail;
    unsigned pattern;        /* Punct_Pat_ID */
    unsigned width;          /* Pipe_Width_CUs */
    size_t at;               /* the byte of the frame that it begins at */
    bool aligned;            /* Codeword_Align_Flag, of the tail pipe alone */
    bool regrouping;         /* Regrouping_Flag; the tail pipe has no such field, nor those that follow */
    unsigned num_sts_1;      /* Num_STS_1 */
    unsigned countdown;      /* Inter_Schedule_Period_Countdown_Slots */
    const uint8_t *record;   /* its record, in the sheet */
    const uint8_t *sections; /* those of the sections that it owns */
    size_t section_count;    /* how many it owns */
    const uint8_t *streams;  /* those of the streams that it owns (table 18); of the tail pipe too */
    size_t count;            /* how many it owns */
};

/* Finds a sheet's pipes, the tail pipe last, and returns how many there are. */
size_t sheet_pipes(const uint8_t *sheet, struct pipe pipes[PIPES_MOST]);

/*
 * The capacity units of a frame that are in use: those that it starts with, and the pipes, of which the tail pipe is
 * the last (clause 4.9). A pipe has its width whether its pattern is known or not.
 */
size_t sheet_units(const uint8_t *sheet);

/* The index of the frame that a sheet is of, Frame_Index (table 15). */
unsigned sheet_frame_index(const uint8_t *sheet);

/*
 * Makes a sheet that of the next frame, where no event intervenes: what counts is counted on, and all else
 * stays. Frame_Index goes up by one, Event_Countdown down by one until it is 0, and each pipe's countdown down by
 * its slots. Where that reaches or passes the start of a schedule period, the start that is announced is the next
 * one; a pipe whose countdown is 0 begins a period in each frame and stays so (clause 4.10.3).
 */
void sheet_next(uint8_t *sheet);

/* Goes on to the pipe of the next frame in the same way, of which only the countdown is another. */
void pipe_next(struct pipe *pipe);

/*
 * Says in a sheet whether a codeword begins where the tail pipe does, Codeword_Align_Flag (table 16b). That of a tail
 * pipe that is not sent stays.
 */
void sheet_align(uint8_t *sheet, bool begins);

/* Whether codewords are made for a pipe: it is in use, and its pattern is not reserved. */
bool is_sent(const struct pipe *pipe);

/* The bytes that a pipe has in a frame. */
size_t pipe_bytes(const struct pipe *pipe);

/*
 * The slots of a pipe in a frame, each of which has a codeword; none where it is not sent. The tail pipe has none
 * either: no codeword need fit its width (clause 4.10.8).
 */
size_t pipe_slots(const struct pipe *pipe);

/*
 * Puts the record of a payload pipe and its sections together, as the library takes them. Returns their bytes.
 */
size_t pipe_record(const struct pipe *pipe, uint8_t record[PIPE_BYTES + SECTION_BYTES * SECTIONS_MOST]);

/*
 * The id of the stream that has a slot of a pipe that is sent, slots counted from 0. The streams take their widths
 * in slots one after the other, and so again; the countdown tells how far the first slot is from where that
 * begins anew, a whole number of such periods on (clause 4.10.3).
 */
uint8_t slot_stream(const struct pipe *pipe, size_t slot);

/* The first of a sheet's pipes, which are found too, that codewords are made for, or null. */
const struct pipe *first_sent(const uint8_t *sheet, struct pipe pipes[PIPES_MOST]);

/* The id of the last of the streams that a pipe in use owns. */
uint8_t last_stream(const struct pipe *pipe);

/* Stands for a stream's id where there is no stream. */
enum { NO_STREAM = -1 };

/*
 * The id of the last stream of a payload pipe that codewords are made for, leaving out one id or NO_STREAM, and
 * NO_STREAM if there is none. The tail pipe's stream is left out too, as a codeword need not fit that pipe.
 */
int last_other_stream(const uint8_t *sheet, int left_out);

#endif
