/*
 * The reader by itself: a file of frames, of which nothing is known, taken apart.
 */
#ifndef TAKEAPART_H
#define TAKEAPART_H

#include <stdbool.h>

/*
 * Finds the frames in a file by their preambles, takes them apart, and prints how many payload words each stream has.
 * The words, 1,536 bytes each, are written to another file in the order in which they are whole, frame by frame, pipe
 * by pipe and slot by slot; null: to none. True if the file has frames and nothing was refused.
 */
bool take_file_apart(const char *path, const char *words_path);

#endif
