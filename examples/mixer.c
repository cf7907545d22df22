#include "mixer.h"

#include <string.h>

#include "opl_text.h"
#include "sheet.h"

/* CILM_Inc of the signalling pipe. */
enum { SIGNALLING_INC = 61 };

/* Table 12, by the capacity units of a codeword: these follow from the code rate, as CILM_Inc does (table 13). */
static const uint16_t increments[] = {
    [30] = 247, [27] = 245, [24] = 221, [21] = 197, [20] = 209, [18] = 185, [16] = 179,
    [15] = 167, [14] = 167, [12] = 157, [10] = 149, [9] = 125,  [8] = 139,  [7] = 113,
};

/* Bit i of the mixed codeword is bit (CILM_Inc x i) mod Codeword_Len of the codeword. */
void unmix(const uint8_t *mixed, uint8_t *codeword, size_t n)
{
    size_t increment = n == OPL_SIGNALLING_CODEWORD_BYTES ? SIGNALLING_INC : increments[n / UNIT_BYTES];
    size_t bits = 8 * n, place = 0;
    memset(codeword, 0, n);
    for (size_t i = 0; i < bits; i++) {
        codeword[place / 8] |= (mixed[i / 8] >> (7 - i % 8) & 1) << (7 - place % 8);
        place += increment;
        if (place >= bits) /* the rest without a division, of which there would be one for each bit */
            place -= bits;
    }
}
