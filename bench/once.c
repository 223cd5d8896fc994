/* One call of one phase on a store that holds the whole year, to count its instructions: bench/count runs it under callgrind. Reading is that of the
 * second half of the year's files, each over a store that holds the first half. */
#include "../include/dagskimra.h"
#include "parts.h"
#include "plain.h"
#include "year.h"

#include <stdio.h>
#include <stdlib.h>
#include <string.h>

static struct year year;
static uint8_t table[TABLE_LENGTH], files[FILES_LENGTH], regular[REGULAR_LENGTH], corrections[CORRECTIONS_LENGTH], entries[ENTRIES_LENGTH];
static struct store store = {{table, TABLE_LENGTH}, {files, FILES_LENGTH}, {regular, REGULAR_LENGTH}, {corrections, CORRECTIONS_LENGTH}, {entries, ENTRIES_LENGTH}};

#define STORE table, TABLE_LENGTH, files, FILES_LENGTH, regular, REGULAR_LENGTH, corrections, CORRECTIONS_LENGTH, entries, ENTRIES_LENGTH

static char codes[FILES][8];

static int read_plain(const struct year_file *f) {
    int m;
    struct fault fault;
    return !plain_filed_already(&store, f->kind, f->publisher, f->day) && plain_judge(f->kind, f->text, f->length, &m, &fault) == 0 && plain_has_room(&store, f->kind, m);
}

static int read_proved(const struct year_file *f, const char *code) {
    return dagskimra_phase_check(files, FILES_LENGTH, f->kind, (const uint8_t *)code, 4, f->day, f->text, f->length) == (uint64_t)f->records;
}

int main(int argc, char **argv) {
    int count, stored;
    uint64_t one, two;
    struct pair pair;
    struct line line;
    const char *phase = argc > 1 ? argv[1] : "";
    make_year(&year, 1);
    plain_start(&store, year.table, year.table_length, &count);
    stored = strstr(phase, "read") ? year.file_count / 2 : year.file_count;
    for (int i = 0; i < year.file_count; i++)
        sprintf(codes[i], "D%03d", year.files[i].publisher);
    for (int i = 0; i < stored; i++)
        plain_append(&store, year.files[i].kind, year.files[i].publisher, year.files[i].day, year.files[i].text, year.files[i].records);
    plain_line(&store, 7, &line);
    if (strcmp(phase, "plain-check") == 0)
        return !plain_readable(&store);
    if (strcmp(phase, "check") == 0)
        return !dagskimra_readable(STORE);
    if (strcmp(phase, "plain-read") == 0) {
        int read = 0;
        for (int i = stored; i < year.file_count; i++)
            read += read_plain(&year.files[i]);
        return read != year.file_count - stored;
    }
    if (strcmp(phase, "read") == 0) {
        int read = 0;
        for (int i = stored; i < year.file_count; i++)
            read += read_proved(&year.files[i], codes[i]);
        return read != year.file_count - stored;
    }
    if (strcmp(phase, "plain-renew") == 0)
        return plain_renew(&store) == 0;
    if (strcmp(phase, "renew") == 0)
        return dagskimra_phase_renew(STORE) == 0;
    if (strcmp(phase, "plain-why") == 0)
        return plain_why(&store, line.number, &pair);
    if (strcmp(phase, "why") == 0) {
        char first[24];
        int n = sprintf(first, "%llu", (unsigned long long)line.number.first);
        return dagskimra_why(STORE, (const uint8_t *)first + 1, n - 1, NULL, 0, &one, &two);
    }
    return 2;
}
