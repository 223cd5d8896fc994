/* The same job as the proved program, in plain C: five buffers, filing, asking. The layout of the buffers is that of docs/ARCHITECTURE.md. */
#ifndef PLAIN_H
#define PLAIN_H

#include <stddef.h>
#include <stdint.h>

enum { NUMBERS = 1024, FILES = 1024, REPORTS = 8192, CORRECTIONS = 2048, PLACES = 8 };
enum { LINE = 14, FILE_SLOT = 8, REPORT_SLOT = 45, CORRECTION_SLOT = 98, ENTRY_SLOT = 100, PLACE_SLOT = 12 };
enum {
    TABLE_LENGTH = 2 + NUMBERS * LINE,
    FILES_LENGTH = 2 + FILES * FILE_SLOT,
    REGULAR_LENGTH = REPORTS * REPORT_SLOT,
    CORRECTIONS_LENGTH = CORRECTIONS * CORRECTION_SLOT,
    ENTRIES_LENGTH = NUMBERS * ENTRY_SLOT
};
enum { LAST_DAY = 18992, NONE = -1 };

/* Kinds of file and of report. */
enum file_kind { DEFAULT, CORRECTION, REQUEST, RESPONSE };
enum report_kind { P, L, Z };

struct bytes {
    uint8_t *at;
    size_t length;
};

struct store {
    struct bytes table, files, regular, corrections, entries;
};

/* A number: the digits of each field behind a leading 1, so that 1 is an empty field. */
struct number {
    uint64_t first, last;
};

/* Six fields of a record; NONE where one is empty. */
struct part {
    struct number number;
    int date, gaining, losing, kind;
};

struct correction {
    int code;
    struct part u, k;
};

struct line {
    struct number number;
    int owner, setup;
};

/* An open report; taken is 0 for a free place. `record` is its place in the regular journal. */
struct place {
    int taken, kind, date, losing, gaining, day, at, record;
};

struct entry {
    int holder, last;
    struct place places[PLACES];
};

/* The two reports of a confirmed pair, as places of the regular journal, the one processed first coming first; NONE where there is none. */
struct pair {
    int first, second;
};

/* Why a file is refused with 4; RIGHT is no fault. */
enum cause { RIGHT, CHARACTER, LENGTH, DATE, CODE, VALUE, CLOSING, AFTER };

/* The place of the record, its field by the "Pos." of the specification's table (0: none), and the cause. */
struct fault {
    int place, field, cause;
};

/* A filed record, with the publisher, day and place in its file that it came with. */
struct filed {
    int publisher, day, place, verdict;
    const uint8_t *bytes;
    int length;
};

int read_code(const uint8_t *s, size_t length);
int read_date(const uint8_t *s, size_t length);
int day_of(int year, int month, int day);
void date_of(int day, int *year, int *month, int *date);
int working_day_after(int day, int count);
int read_number(const uint8_t *first, size_t first_length, const uint8_t *last, size_t last_length, struct number *n);
int read_report(const uint8_t *s, size_t length, struct part *p);
int read_correction(const uint8_t *s, size_t length, struct correction *c);
int same_number(struct number a, struct number b);

/* Each answers the paper's number; with 4 the fault is told. */
int plain_start(struct store *s, const uint8_t *text, size_t length, int *count);
int plain_file(struct store *s, int kind, const uint8_t *publisher, size_t publisher_length, int day, const uint8_t *text, size_t length, int *count, struct fault *fault);

/* The parts of filing, in their order. */
int plain_readable(const struct store *s);
int plain_judge(int kind, const uint8_t *text, size_t length, int *count, struct fault *fault);
int plain_filed_already(const struct store *s, int kind, int publisher, int day);
int plain_has_room(const struct store *s, int kind, int count);
void plain_append(struct store *s, int kind, int publisher, int day, const uint8_t *text, int count);
int plain_renew(struct store *s);

/* Asking, of a store that reads. Lines and places count from 0; `files` says over how many files. */
int plain_line_of(const struct store *s, struct number n);
void plain_line(const struct store *s, int i, struct line *l);
void plain_entry(const struct store *s, int i, struct entry *e);
void plain_work_out(const struct store *s, int files, int i, struct entry *e, struct pair *why);
int plain_why(const struct store *s, struct number n, struct pair *why);
int plain_record(const struct store *s, int kind, int place, struct filed *r);
int plain_file_count(const struct store *s);
void plain_file_at(const struct store *s, int i, int *kind, int *publisher, int *day, int *count);
int plain_same_entry(const struct entry *a, const struct entry *b);

/* Works a line's entry out afresh and writes it; answers whether the stored one was another. Both are handed back. */
int plain_rework(struct store *s, int i, struct entry *stored, struct entry *worked);

/* One record of a number's history: its verdict, and its effect on the entry and the pair. */
int plain_step_report(const struct line *l, struct entry *e, struct pair *why, int publisher, int day, int at, int record, const struct part *p);
int plain_step_correction(const struct line *l, struct entry *e, int publisher, const struct correction *c);
void first_entry(const struct line *l, struct entry *e);

#endif
