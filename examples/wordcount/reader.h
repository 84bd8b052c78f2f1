#ifndef READER_H
#define READER_H

#include <stdbool.h>
#include <stdio.h>

/* How much of a word is kept: longer ones are told apart by their fronts alone. */
enum { WORD_LIMIT = 63 };

/* A file that is read word by word, and what was met in it so far. */
struct reader {
    FILE *file;
    unsigned long lines;
    unsigned long words;
    unsigned long bytes;
    char word[WORD_LIMIT + 1];
};

void reader_open(struct reader *reader, FILE *file);

/*
 * Reads past the next word and leaves it in `word`, in lower case. A word is a
 * run of letters and digits. Answers false where the file holds no further one.
 */
bool reader_next(struct reader *reader);

#endif
