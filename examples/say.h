/*
 * What the head-end needs besides the library: files and numbers read, failures told, refusals said.
 */
#ifndef SAY_H
#define SAY_H

#include <stdbool.h>
#include <stddef.h>
#include <stdint.h>

/* Says on standard error why the head-end fails, after all that it has printed. Returns false. */
bool fail(const char *why, ...);

/* Reads a file, or standard input where path is null, as far as there is room; n becomes the bytes read. */
bool load(const char *path, uint8_t *bytes, size_t room, size_t *n);

/* Reads all of a file into memory that the caller frees. False if that fails, which is said: then there is none. */
bool load_all(const char *path, uint8_t **bytes, size_t *n);

/*
 * Reads how many of something are asked for, from the least to the most that will do. False if the word is no such
 * number, which is said under the name that the usage has for it.
 */
bool read_number(const char *name, const char *of, const char *word, size_t least, size_t most, size_t *number);

/* What the name of something ends with where there are n of it. */
const char *plural(size_t n);

/* Prints bytes in hex. */
void say_hex(const uint8_t *bytes, size_t n);

/* True if a call accepted what it was given; if not, says which rule that breaks. */
bool accepted(uint8_t answer, const char *call, const char *given);

/* Prints a line: what was given to a call, and the refusal. True if that is the expected one. */
bool refused(uint8_t answer, uint8_t expected, const char *given);

/* The room that such lines, and those of what was accepted, leave for what was given. */
enum { GIVEN = 40 };

/* Fills a buffer that is lent to a call which is to refuse; untouched then tells whether it was left alone. */
void mark(uint8_t *bytes, size_t n);

/* True if a marked buffer is as it was; if not, says so. */
bool untouched(const uint8_t *bytes, size_t n);

#endif
