#include "sent.h"

#include "opl.h"

void sent_begin(struct sent *sent)
{
    *sent = (struct sent){.sheets.size = OPL_SHEET_MOST};
    for (size_t i = 0; i < PIPES_MOST; i++)
        sent->words[i].size = OPL_PAYLOAD_WORD_BYTES;
}

void sent_free(struct sent *sent)
{
    list_free(&sent->sheets);
    for (size_t i = 0; i < PIPES_MOST; i++)
        list_free(&sent->words[i]);
}
