/* The same year in SQLite, as what a bureau would use instead. */
#ifndef SQLITE_H
#define SQLITE_H

#include "plain.h"

void sqlite_start(const uint8_t *table, size_t length);
/* 0 and how many records the numbers named have, or a refusal: 3, 4, 5. One transaction. */
int sqlite_file(int kind, int publisher, int day, const uint8_t *text, size_t length, int *count);
/* The pair of a number, as ids of stored records; NONE where there is none; 12 for a number that is not in the table. */
int sqlite_why(struct number n, struct pair *why);
int sqlite_readable(void);
void sqlite_entry(int i, struct entry *e);
void sqlite_end(void);

#endif
