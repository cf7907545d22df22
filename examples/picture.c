#include "picture.h"

#include <ctype.h>
#include <stdio.h>
#include <string.h>

#include "opl.h"

/* The bytes of a word that a character stands for, and how many characters a word has. */
enum { CELL = 32, CELLS = OPL_IP_PAYLOAD_BYTES / CELL };

_Static_assert(CELLS * CELL == OPL_IP_PAYLOAD_BYTES, "they fill the line");

/* What stands for padding, for a lost word, and for a packet that does not come out. */
enum { PADDING = '.', GONE = '#', DROPPED = '-' };

char packet_letter(size_t packet)
{
    return "ABCDEFGHIJKLMNOPQRSTUVWXYZ"[packet % 26];
}

/* How many bytes of a packet, its header counted, are sent when the queue has come to a place. */
static size_t sent_by(const struct ip_stream *stream, const struct ip_place *place, size_t packet)
{
    if (packet < place->packet)
        return IP_HEADER_BYTES + ip_length(&stream->queue, packet);
    return packet == place->packet ? place->sent : 0;
}

/*
 * Draws a word: packets stand in it one after the other from its first byte on, and padding behind them. A character in
 * which a packet begins is that packet's capital.
 */
static void draw_word(const struct ip_stream *stream, const struct loss *loss, size_t word, char *picture)
{
    const struct ip_place *before = &stream->places[word], *after = before + 1;
    size_t at = 0;
    memset(picture, PADDING, CELLS);
    for (size_t packet = before->packet; ip_carries(stream, word, packet); packet++) {
        size_t old = sent_by(stream, before, packet), bytes = sent_by(stream, after, packet) - old;
        char *from = picture + at / CELL, *last = picture + (at + bytes - 1) / CELL;
        bool hit = is_hit(stream, loss, packet);
        memset(from, hit ? DROPPED : tolower(packet_letter(packet)), (size_t)(last - from) + 1);
        if (old == 0 && !hit)
            *from = packet_letter(packet);
        at += bytes;
    }
}

void say_picture(const struct loss *loss)
{
    printf("  %4s  %12s  its %d bytes, %d a character: ", "word", "first header", OPL_IP_PAYLOAD_BYTES, CELL);
    if (loss->refused != 0)
        printf("%c does not come, %c is a packet that is not given back\n", GONE, DROPPED);
    else
        printf("A begins a packet, a runs on, %c is padding\n", PADDING);
}

void say_word(const struct ip_stream *stream, const struct loss *loss, size_t word, size_t address)
{
    char picture[CELLS];
    if (word > WORDS_SHOWN)
        return;
    if (word == WORDS_SHOWN) {
        printf("  %4s  %12s  %zu more\n", "..", "", stream->words - word);
        return;
    }
    printf("  %4zu  ", word);
    memset(picture, GONE, CELLS);
    if (is_lost(loss, word) || is_damaged(loss, word)) {
        printf("%12s", is_lost(loss, word) ? "lost" : "refused");
    } else {
        draw_word(stream, loss, word, picture);
        if (address == OPL_IP_NO_HEADER)
            printf("%12s", "none");
        else
            printf("%12zu", address);
    }
    printf("  %.*s\n", CELLS, picture);
}
