/*
 * Counts the lines, words and bytes of a file, or of standard input, and names
 * its most frequent words.
 */

#include "reader.h"
#include "table.h"

#include <stdio.h>
#include <stdlib.h>

enum { SHOWN = 5 };

/* Reads the file to its end. Answers NULL, or a message where it could not be counted. */
static const char *count(FILE *file, struct reader *reader, struct table *table)
{
    reader_open(reader, file);
    while (reader_next(reader))
        if (!table_add(table, reader->word))
            return "want of memory";
    return ferror(file) ? "cannot be read" : NULL;
}

static void print(const struct reader *reader, struct table *table)
{
    printf("%lu lines, %lu words, %lu bytes\n", reader->lines, reader->words, reader->bytes);
    table_rank(table);
    for (size_t place = 0; place < table->length && place < SHOWN; place++)
        printf("%6lu %s\n", table->entries[place].count, table->entries[place].word);
}

int main(int argc, char **argv)
{
    if (argc > 2) {
        fprintf(stderr, "usage: wordcount [FILE]\n");
        return EXIT_FAILURE;
    }
    const char *name = argc == 2 ? argv[1] : "standard input";
    FILE *file = argc == 2 ? fopen(name, "r") : stdin;
    if (file == NULL) {
        perror(name);
        return EXIT_FAILURE;
    }

    struct reader reader;
    struct table table = {0};
    const char *problem = count(file, &reader, &table);
    if (problem == NULL)
        print(&reader, &table);
    else
        fprintf(stderr, "%s: %s\n", name, problem);
    table_free(&table);
    fclose(file);
    if (fflush(stdout) != 0) {
        perror("standard output");
        return EXIT_FAILURE;
    }
    return problem == NULL ? EXIT_SUCCESS : EXIT_FAILURE;
}
