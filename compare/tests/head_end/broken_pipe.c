/*
 * The head-end's pipes over a library with a fault, which FAULT in the environment names: a reader that notices nothing
 * shows nothing. This file stands in place of examples/sender.c, and frames.rs runs the program.
 */
#include <stdbool.h>
#include <stdio.h>
#include <stdlib.h>
#include <string.h>

#include "opl.h"

/* What FAULT may name, and whether it names that. */
static bool is_fault(const char *name)
{
    static const char *const faults[] = {
        "none",           "bit_changed",    "units_swapped",  "memory_forgotten", "frame_miscounted",
        "not_regrouped",  "profile_flipped", "tail_not_mixed", "tail_restarted",
    };
    const char *fault = getenv("FAULT");
    for (size_t i = 0; fault != NULL && i < sizeof faults / sizeof faults[0]; i++)
        if (strcmp(faults[i], fault) == 0)
            return strcmp(name, fault) == 0;
    fprintf(stderr, "broken: FAULT names no fault\n");
    exit(2);
}

/* Swaps two interleaver units, of 64 bytes each. */
static void swap_units(uint8_t *one, uint8_t *other)
{
    uint8_t kept[64];
    memcpy(kept, one, sizeof kept);
    memcpy(one, other, sizeof kept);
    memcpy(other, kept, sizeof kept);
}

static uint8_t broken_pipe(const uint8_t *pipe, size_t n, uint32_t frame, const uint8_t *codewords, size_t c,
                           uint8_t *memory, size_t k, uint8_t *out, size_t m)
{
    uint8_t record[64];
    memcpy(record, pipe, n);
    if (is_fault("not_regrouped"))
        record[3] &= 0xBF;
    if (is_fault("profile_flipped"))
        record[3] ^= 0x80;
    if (is_fault("memory_forgotten"))
        memset(memory, 0, k);
    if (is_fault("frame_miscounted") && frame == 2)
        frame = 1;
    uint8_t refusal = opl_pipe(record, n, frame, codewords, c, memory, k, out, m);
    if (is_fault("bit_changed"))
        out[m - 1] ^= 0xFF;
    if (is_fault("units_swapped"))
        swap_units(out, out + 64);
    return refusal;
}

static uint8_t broken_mix(uint32_t pattern, const uint8_t *codeword, size_t n, uint8_t *mixed, size_t m)
{
    uint8_t refusal = opl_mix(pattern, codeword, n, mixed, m);
    if (is_fault("tail_not_mixed"))
        memcpy(mixed, codeword, n);
    if (is_fault("tail_restarted"))
        memmove(mixed + 256, mixed, n - 256);
    return refusal;
}

#define opl_pipe broken_pipe
#define opl_mix broken_mix
#include "../../../examples/sender.c"
