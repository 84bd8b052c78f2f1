#ifndef TABLE_H
#define TABLE_H

#include <stdbool.h>
#include <stddef.h>

struct entry {
    char *word;
    unsigned long count;
};

/* How often each word was added. A table that is all zero is empty. */
struct table {
    struct entry *entries;
    size_t length;
    size_t capacity;
};

/* Counts the word once more. For want of memory answers false and changes no count. */
bool table_add(struct table *table, const char *word);

/*
 * Puts the most frequent words first, equally frequent ones by the alphabet. No
 * word may be added after this.
 */
void table_rank(struct table *table);

void table_free(struct table *table);

#endif
