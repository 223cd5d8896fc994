/* A year at the bureau: a number table and the files of a year in order of arrival. The same seed gives the same year everywhere. */
#ifndef YEAR_H
#define YEAR_H

#include <stddef.h>
#include <stdint.h>

struct year_file {
    int kind; /* 0 default, 1 correction */
    int publisher, day, records, late;
    uint8_t *text;
    size_t length;
};

struct year {
    uint8_t *table;
    size_t table_length;
    int numbers, file_count;
    struct year_file files[1024];
};

/* 1,024 numbers, 1,024 files with 8,192 reports and 2,048 corrections, one file in ten late. */
void make_year(struct year *y, uint64_t seed);

#endif
