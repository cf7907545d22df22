/*
 * Calls the library on behalf of a test program that is compiled for another machine than the library
 * is, and so cannot link it. src/call/bridge.rs starts this program and has the other end.
 *
 * A call, on standard input: the function's name, 32 bytes with zeros after it; how many numbers and
 * how many buffers follow; the numbers; for each buffer its size in bytes, the place in it where the
 * lent part begins, the lent length in elements, and its bytes. Numbers have 32 bits, the least
 * significant byte first.
 * The answer, on standard output: the refusal number, one byte; the bytes of each buffer.
 */
#include <stdbool.h>
#include <stdint.h>
#include <stdio.h>
#include <stdlib.h>
#include <string.h>

/* the functions, as build.rs reads them from opl.h */
#include "calls.h"

enum { NAME = 32 };

/* All of a buffer, what stands around the lent part too. */
struct memory {
    uint8_t *bytes;
    size_t size;
};

struct call {
    char name[NAME + 1];
    size_t numbers;
    size_t buffers;
    struct arguments arguments;
    struct memory memory[BUFFERS];
};

static void fail(const char *why)
{
    fprintf(stderr, "bridge: %s\n", why);
    exit(EXIT_FAILURE);
}

static void take(void *to, size_t n)
{
    if (fread(to, 1, n, stdin) != n)
        fail("a call was cut short");
}

static uint32_t take_number(void)
{
    uint8_t b[4];
    take(b, sizeof b);
    return (uint32_t)b[3] << 24 | (uint32_t)b[2] << 16 | (uint32_t)b[1] << 8 | b[0];
}

static void take_buffer(struct memory *m, struct buffer *b)
{
    m->size = take_number();
    size_t begins = take_number();
    b->n = take_number();
    m->bytes = malloc(m->size);
    if (m->bytes == NULL || begins > m->size)
        fail("a buffer does not fit");
    b->lent = m->bytes + begins;
    take(m->bytes, m->size);
}

static void give(const void *from, size_t n)
{
    if (fwrite(from, 1, n, stdout) != n)
        fail("an answer was cut short");
}

/* Takes a call. False if there is none, the caller having closed its end. */
static bool take_call(struct call *c)
{
    memset(c, 0, sizeof *c);
    size_t got = fread(c->name, 1, NAME, stdin);
    if (got == 0)
        return false;
    if (got != NAME)
        fail("a call was cut short");
    c->numbers = take_number();
    c->buffers = take_number();
    if (c->numbers > NUMBERS || c->buffers > BUFFERS)
        fail("a call has too many arguments");
    for (size_t i = 0; i < c->numbers; i++)
        c->arguments.number[i] = take_number();
    for (size_t i = 0; i < c->buffers; i++)
        take_buffer(&c->memory[i], &c->arguments.buffer[i]);
    return true;
}

static uint8_t refusal_of(const struct call *c)
{
    for (int i = 0; i < FUNCTIONS; i++) {
        const struct function *f = &functions[i];
        if (strcmp(c->name, f->name) == 0 && c->numbers == f->numbers && c->buffers == f->buffers)
            return f->call(&c->arguments);
    }
    fail("a function is not there, or has other arguments");
    return 0;
}

int main(void)
{
    struct call c;
    while (take_call(&c)) {
        uint8_t refusal = refusal_of(&c);
        give(&refusal, 1);
        for (size_t i = 0; i < c.buffers; i++) {
            give(c.memory[i].bytes, c.memory[i].size);
            free(c.memory[i].bytes);
        }
        if (fflush(stdout) != 0)
            fail("an answer was cut short");
    }
    return EXIT_SUCCESS;
}
