#include "takeapart.h"

#include <errno.h>
#include <stdio.h>
#include <stdlib.h>
#include <string.h>

#include "apart.h"
#include "opl.h"
#include "say.h"
#include "starts.h"

/* The stream ids that there are, and the stream types. */
enum { IDS = 256, TYPES = 4 };

/* What was found: how many words each stream has of each type, and how many of which bits are missing. */
struct tally {
    FILE *file; /* that the words are written to, or null */
    const char *path;
    size_t words[IDS][TYPES], unread[IDS];
};

static bool count_sheet(void *self, size_t frame, const uint8_t *sheet)
{
    (void)self;
    (void)frame;
    (void)sheet;
    return true;
}

static bool count_word(void *self, const struct found *found)
{
    struct tally *tally = self;
    uint8_t header[OPL_PAYLOAD_HEADER_BYTES];
    if (!found->all) {
        tally->unread[found->id]++;
        return true;
    }
    if (!accepted(opl_payload_read(found->word, OPL_PAYLOAD_WORD_BYTES, header, sizeof header), "opl_payload_read",
                  "a payload word"))
        return false;
    if (header[4] != found->id)
        return fail("frame %zu: a slot of stream %d has a word of stream %d", found->frame, found->id, header[4]);
    tally->words[found->id][header[5]]++;
    return tally->file == NULL || fwrite(found->word, OPL_PAYLOAD_WORD_BYTES, 1, tally->file) == 1 ||
           fail("%s: %s", tally->path, strerror(errno));
}

static void say_tally(const struct tally *tally)
{
    printf("  stream  words of type 0      1      2      3  not read, for want of a turbo decoder\n");
    for (size_t id = 0; id < IDS; id++) {
        const size_t *words = tally->words[id];
        if (words[0] + words[1] + words[2] + words[3] + tally->unread[id] != 0)
            printf("  %6zu  %15zu  %5zu  %5zu  %5zu  %8zu\n", id, words[0], words[1], words[2], words[3],
                   tally->unread[id]);
    }
}

/* Takes the frames in n bytes apart. */
static bool take_bytes(struct tally *tally, const uint8_t *bytes, size_t n)
{
    struct recorded recorded;
    struct taker taker = {tally, count_sheet, count_word};
    if (!find_frames(bytes, n, &recorded) || !take_apart(&recorded, &taker))
        return false;
    say_tally(tally);
    return true;
}

/* Takes a file apart, into another that is open or none. */
static bool take_file(struct tally *tally, const char *path)
{
    uint8_t *bytes;
    size_t n;
    if (!load_all(path, &bytes, &n))
        return false;
    bool ok = n == 0 ? fail("%s: it has no frame", path) : take_bytes(tally, bytes, n);
    free(bytes);
    return ok;
}

bool take_file_apart(const char *path, const char *words_path)
{
    static struct tally tally;
    tally.path = words_path;
    if (words_path == NULL)
        return take_file(&tally, path);
    tally.file = fopen(words_path, "wb");
    if (tally.file == NULL)
        return fail("%s: %s", words_path, strerror(errno));
    bool ok = take_file(&tally, path);
    if (fclose(tally.file) != 0 && ok)
        ok = fail("%s: %s", words_path, strerror(errno));
    return ok;
}
