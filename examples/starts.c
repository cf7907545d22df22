#include "starts.h"

#include <stdio.h>

#include "opl_text.h"
#include "say.h"
#include "table.h"

/* The first byte of each form of the preamble. */
struct firsts {
    uint8_t upright, inverted;
};

static bool firsts_of(struct firsts *firsts)
{
    uint8_t upright[OPL_PREAMBLE_BYTES], inverted[OPL_PREAMBLE_BYTES];
    bool ok = accepted(opl_preamble(0, upright, sizeof upright), "opl_preamble", "32 bytes") &&
              accepted(opl_preamble(1, inverted, sizeof inverted), "opl_preamble", "32 bytes");
    *firsts = ok ? (struct firsts){upright[0], inverted[0]} : (struct firsts){0};
    return ok;
}

/*
 * Finds the next preamble from a place on, and its form; n where there is none. The library is asked only where a first
 * byte is, as a call at every byte would take longer than all else that is done with a recording.
 */
static size_t next_start(const struct firsts *firsts, const uint8_t *bytes, size_t n, size_t from, uint8_t *form)
{
    for (size_t at = from; at + OPL_PREAMBLE_BYTES <= n; at++) {
        if (bytes[at] != firsts->upright && bytes[at] != firsts->inverted)
            continue;
        uint8_t refusal = opl_preamble_form(bytes + at, OPL_PREAMBLE_BYTES, form, 1);
        if (accepted(refusal, "opl_preamble_form", "32 bytes") && *form != OPL_NEITHER)
            return at;
    }
    return n;
}

/* How many bytes a frame has: as many as there are from the first preamble to the next. */
static size_t frame_length(const struct firsts *firsts, const uint8_t *bytes, size_t n)
{
    uint8_t form;
    return next_start(firsts, bytes, n, 1, &form);
}

/* Says that a frame has to start where the next preamble, at another place or at none, is not. Returns false. */
static bool say_misplaced(size_t at, size_t start, size_t n)
{
    if (at == n)
        return fail("byte %zu has to be the start of a frame, and no preamble is there or behind it", start);
    return fail("byte %zu has a preamble next, and byte %zu the start of a frame", at, start);
}

bool find_frames(const uint8_t *bytes, size_t n, struct recorded *recorded)
{
    uint8_t form = OPL_NEITHER, before = OPL_NEITHER;
    struct firsts firsts;
    if (!firsts_of(&firsts))
        return false;
    size_t frame_bytes = frame_length(&firsts, bytes, n), at = next_start(&firsts, bytes, n, 0, &form), i = 0;
    for (; i * frame_bytes < n; i++) {
        if (at != i * frame_bytes)
            return say_misplaced(at, i * frame_bytes, n);
        if (form == before)
            return fail("byte %zu has the preamble in the form of the one before", at);
        if (is_shown(i))
            printf("  byte %9zu  %s\n", at, form == OPL_UPRIGHT ? "upright" : "inverted");
        before = form;
        at = next_start(&firsts, bytes, n, at + 1, &form);
    }
    *recorded = (struct recorded){bytes, i, frame_bytes};
    if (frame_bytes < START_BYTES || frame_bytes % UNIT_BYTES != 0)
        return fail("a frame has %zu bytes, which are no capacity units, two at least", frame_bytes);
    if (i * frame_bytes != n)
        return fail("the last of %zu frames has %zu of its %zu bytes", i, n - (i - 1) * frame_bytes, frame_bytes);
    printf("  %zu frames of %zu bytes, one behind the other\n", i, frame_bytes);
    return true;
}
