#include "say.h"

#include <errno.h>
#include <stdarg.h>
#include <stdio.h>
#include <stdlib.h>
#include <string.h>

#include "opl_text.h"

/* What marked buffers hold. */
enum { MARK = 0xA5 };

/* How much of a file is read at a time. */
enum { CHUNK = 65536 };

bool fail(const char *why, ...)
{
    va_list words;
    va_start(words, why);
    fflush(stdout);
    fputs("headend: ", stderr);
    vfprintf(stderr, why, words);
    fputc('\n', stderr);
    va_end(words);
    return false;
}

bool load(const char *path, uint8_t *bytes, size_t room, size_t *n)
{
    const char *name = path ? path : "standard input";
    FILE *file = path ? fopen(path, "rb") : stdin;
    if (file == NULL)
        return fail("%s: %s", name, strerror(errno));
    *n = fread(bytes, 1, room, file);
    bool read = !ferror(file) || fail("%s: %s", name, strerror(errno));
    if (file != stdin)
        fclose(file);
    return read;
}

/* Reads the next chunk of a file behind what is there of it; more becomes whether the file goes on. */
static bool load_chunk(FILE *file, const char *path, uint8_t **bytes, size_t *n, bool *more)
{
    uint8_t *longer = realloc(*bytes, *n + CHUNK);
    if (longer == NULL)
        return fail("%s: no memory for it", path);
    *bytes = longer;
    size_t read = fread(longer + *n, 1, CHUNK, file);
    *n += read;
    *more = read == CHUNK;
    return !ferror(file) || fail("%s: %s", path, strerror(errno));
}

bool load_all(const char *path, uint8_t **bytes, size_t *n)
{
    FILE *file = fopen(path, "rb");
    bool more = true, ok = true;
    *bytes = NULL;
    *n = 0;
    if (file == NULL)
        return fail("%s: %s", path, strerror(errno));
    while (ok && more)
        ok = load_chunk(file, path, bytes, n, &more);
    fclose(file);
    if (!ok) {
        free(*bytes);
        *bytes = NULL;
    }
    return ok;
}

bool read_number(const char *name, const char *of, const char *word, size_t least, size_t most, size_t *number)
{
    char *end;
    *number = strtoul(word, &end, 10);
    return (word[0] >= '0' && word[0] <= '9' && *end == '\0' && *number >= least && *number <= most) ||
           fail("%s is a number of %s from %zu to %zu, and not %s", name, of, least, most, word);
}

const char *plural(size_t n)
{
    return n == 1 ? "" : "s";
}

void say_hex(const uint8_t *bytes, size_t n)
{
    for (size_t i = 0; i < n; i++)
        printf("%02X ", bytes[i]);
}

bool accepted(uint8_t answer, const char *call, const char *given)
{
    if (answer == OPL_ACCEPTED)
        return true;
    return fail("%s refused %s: %d, %s", call, given, answer, opl_refusal_text(answer));
}

bool refused(uint8_t answer, uint8_t expected, const char *given)
{
    if (answer != expected)
        return fail("%s: the answer was %d, %s, and not %d", given, answer, opl_refusal_text(answer), expected);
    printf("  %-*s refused %d, %s\n", GIVEN, given, answer, opl_refusal_text(answer));
    return true;
}

void mark(uint8_t *bytes, size_t n)
{
    memset(bytes, MARK, n);
}

bool untouched(const uint8_t *bytes, size_t n)
{
    for (size_t i = 0; i < n; i++)
        if (bytes[i] != MARK)
            return fail("a refused call touched its buffer");
    return true;
}
