#include "reader.h"

#include <ctype.h>
#include <stddef.h>

void reader_open(struct reader *reader, FILE *file)
{
    *reader = (struct reader){.file = file};
}

/* Reads one byte and counts it. */
static int next_byte(struct reader *reader)
{
    int byte = getc(reader->file);
    if (byte != EOF) {
        reader->bytes++;
        if (byte == '\n')
            reader->lines++;
    }
    return byte;
}

bool reader_next(struct reader *reader)
{
    int byte;
    do
        byte = next_byte(reader);
    while (byte != EOF && !isalnum(byte));
    if (byte == EOF)
        return false;

    size_t length = 0;
    for (; byte != EOF && isalnum(byte); byte = next_byte(reader))
        if (length < WORD_LIMIT)
            reader->word[length++] = (char)tolower(byte);
    reader->word[length] = '\0';
    reader->words++;
    return true;
}
