/*
 * The payload words that came out of the frames, kept by stream.
 */
#ifndef WORDS_H
#define WORDS_H

#include <stdbool.h>
#include <stddef.h>
#include <stdint.h>

#include "list.h"
#include "opl.h"

/* A payload word that came out, and the stream whose slot it was in. */
struct come {
    uint8_t id;
    bool all; /* whether all its bits are there */
    uint8_t word[OPL_PAYLOAD_WORD_BYTES];
};

/* The words that came out of all frames, in order, and how many frames that were. */
struct words {
    struct list come; /* of struct come */
    size_t frames;
};

/* What is done with each word, 1,536 bytes, by who takes them. False ends the taking. */
typedef bool word_taker(void *taker, const uint8_t *word);

/* How many words of a stream came out. */
size_t words_of(const struct words *words, uint8_t id);

/*
 * Has the payload words of a stream taken, in order. One of which bits are missing, as its pattern does not send all,
 * is left out, and counted in unread. False if a taking was false.
 */
bool take_words(const struct words *words, uint8_t id, word_taker *take, void *taker, size_t *unread);

/* Prints the line that stands in place of all that is said of a stream's words where some were left out. */
void say_unread(void);

/* Prints how many of a stream's words with packets were sent and are not whole yet when the frames end, if some are. */
void say_on_the_way(size_t sent, size_t come);

#endif
