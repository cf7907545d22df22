/*
 * All that was sent, kept so that what comes back can be held to it.
 */
#ifndef SENT_H
#define SENT_H

#include "list.h"
#include "sheet.h"

struct sent {
    struct list sheets;            /* of the frames, OPL_SHEET_MOST bytes each */
    struct list words[PIPES_MOST]; /* the payload words of each pipe, in order; the tail pipe's last may be cut off */
};

void sent_begin(struct sent *sent);

void sent_free(struct sent *sent);

#endif
