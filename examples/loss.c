#include "loss.h"

struct loss loss_of(size_t words)
{
    struct loss loss = {.first = words / 3, .damaged = 2 * words / 3, .refused = 1};
    loss.lost = words < 2 ? 0 : words < 6 ? 1 : 2;
    return loss;
}

bool is_lost(const struct loss *loss, size_t word)
{
    return word >= loss->first && word - loss->first < loss->lost;
}

bool is_damaged(const struct loss *loss, size_t word)
{
    return loss->refused != 0 && word == loss->damaged;
}

bool is_hit(const struct ip_stream *stream, const struct loss *loss, size_t packet)
{
    bool hit = loss->refused != 0 && ip_carries(stream, loss->damaged, packet);
    for (size_t i = 0; i < loss->lost; i++)
        hit = hit || ip_carries(stream, loss->first + i, packet);
    return hit;
}
