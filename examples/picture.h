/*
 * The words of an IP stream as lines of characters, in which one sees where packets begin, run on and are lost.
 */
#ifndef PICTURE_H
#define PICTURE_H

#include "ip.h"
#include "loss.h"

/* The lines of a picture at most: of a longer stream, the first words are shown. */
enum { WORDS_SHOWN = 24 };

/* Prints what stands above the lines, and says what their characters mean. */
void say_picture(const struct loss *loss);

/*
 * Prints a word's line: its number, First_Header_Address or what became of the word, and its 1,504 bytes. Of a longer
 * stream it prints, in place of the word behind the last that is shown, that there are more.
 */
void say_word(const struct ip_stream *stream, const struct loss *loss, size_t word, size_t address);

/* What a packet is called in a picture: A to Z, and so again. */
char packet_letter(size_t packet);

#endif
