#include "profile.h"

#include <string.h>

#include "opl.h"
#include "say.h"

bool profile_of(const struct pipe *pipe, struct profile *profile)
{
    uint8_t record[PIPE_BYTES + SECTION_BYTES * SECTIONS_MOST];
    uint16_t numbers[TAPS + 1];
    if (!accepted(opl_profile(record, pipe_record(pipe, record), numbers, TAPS + 1), "opl_profile", "a pipe"))
        return false;
    memcpy(profile->lengths, numbers, sizeof profile->lengths);
    profile->greatest = numbers[TAPS];
    for (size_t i = 0; i < TAPS; i++) /* the reader goes back so far in its recording */
        if (profile->lengths[i] > profile->greatest)
            return fail("opl_profile gives tap %zu more than the greatest delay", i);
    return true;
}

bool greatest_delay(const uint8_t *sheet, size_t *greatest)
{
    struct pipe pipes[PIPES_MOST];
    struct profile profile;
    size_t payload_pipes = sheet_pipes(sheet, pipes) - 1;
    *greatest = 0;
    for (size_t i = 0; i < payload_pipes; i++) {
        if (!is_sent(&pipes[i]))
            continue;
        if (!profile_of(&pipes[i], &profile))
            return false;
        if (profile.greatest > *greatest)
            *greatest = profile.greatest;
    }
    return true;
}
