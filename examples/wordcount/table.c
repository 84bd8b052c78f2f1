#include "table.h"

#include <stdint.h>
#include <stdlib.h>
#include <string.h>

/*
 * The place of the word, or the one where it belongs: until the table is ranked,
 * the words stand by the alphabet.
 */
static size_t find(const struct table *table, const char *word)
{
    size_t low = 0;
    size_t high = table->length;
    while (low < high) {
        size_t middle = low + (high - low) / 2;
        if (strcmp(table->entries[middle].word, word) < 0)
            low = middle + 1;
        else
            high = middle;
    }
    return low;
}

static bool make_room(struct table *table)
{
    if (table->length < table->capacity)
        return true;
    if (table->capacity > SIZE_MAX / 2 / sizeof *table->entries)
        return false;
    size_t capacity = table->capacity == 0 ? 64 : 2 * table->capacity;
    struct entry *entries = realloc(table->entries, capacity * sizeof *entries);
    if (entries == NULL)
        return false;
    table->entries = entries;
    table->capacity = capacity;
    return true;
}

bool table_add(struct table *table, const char *word)
{
    size_t place = find(table, word);
    if (place < table->length && strcmp(table->entries[place].word, word) == 0) {
        table->entries[place].count++;
        return true;
    }
    if (!make_room(table))
        return false;
    size_t size = strlen(word) + 1;
    char *copy = malloc(size);
    if (copy == NULL)
        return false;
    memcpy(copy, word, size);

    struct entry *entry = &table->entries[place];
    memmove(entry + 1, entry, (table->length - place) * sizeof *entry);
    *entry = (struct entry){.word = copy, .count = 1};
    table->length++;
    return true;
}

static int by_count(const void *left, const void *right)
{
    const struct entry *first = left;
    const struct entry *second = right;
    if (first->count != second->count)
        return first->count > second->count ? -1 : 1;
    return strcmp(first->word, second->word);
}

void table_rank(struct table *table)
{
    if (table->length > 0)
        qsort(table->entries, table->length, sizeof *table->entries, by_count);
}

void table_free(struct table *table)
{
    for (size_t place = 0; place < table->length; place++)
        free(table->entries[place].word);
    free(table->entries);
    *table = (struct table){0};
}
