/* Dagskimra for C: telephone porting data in five buffers that the caller lends.
 *
 * Build the archive by `bin/archive capi` (target/staticlib/libcapi.a, for x86-64 Linux) and link it. Nothing else is needed: the functions keep no
 * state, ask for no memory, and touch only what they are lent. They may be called from several threads as long as no two calls share a buffer that one
 * of them writes. Each function's contract is in crates/capi/src; the numbers of answers and verdicts are those of docs/promises/rows.md.
 *
 * Every buffer is a pointer and a length. The five buffers of a store have to be at least as long as the constants below say, and must not overlap;
 * their contents may be any bytes: what does not read as a store is answered with 44. Other pointers (`uint64_t *`) must be valid and distinct.
 *
 * Every call writes each number that it is lent by such a pointer, whatever it answers. What goes with the answer stands there; where nothing does, 0.
 * Only places in the regular journal (dagskimra_why) are DAGSKIMRA_NOWHERE then, since 0 is a place. Each function says below what goes with which
 * answer, and what its numbers hold on a refusal.
 */
#ifndef DAGSKIMRA_H
#define DAGSKIMRA_H

#include <stdbool.h>
#include <stddef.h>
#include <stdint.h>

#ifdef __cplusplus
extern "C" {
#endif

/* How long the buffers of a store have to be. */
#define DAGSKIMRA_TABLE_LENGTH 14338
#define DAGSKIMRA_FILES_LENGTH 8194
#define DAGSKIMRA_REGULAR_LENGTH 368640
#define DAGSKIMRA_CORRECTIONS_LENGTH 200704
#define DAGSKIMRA_ENTRIES_LENGTH 102400

/* The limits of a store. */
#define DAGSKIMRA_NUMBERS 1024
#define DAGSKIMRA_FILES 1024
#define DAGSKIMRA_REPORTS 8192
#define DAGSKIMRA_CORRECTIONS 2048

/* A stored record stands in a slot of its journal: the slot at a place begins at place * width; its first byte says how many bytes follow that are
 * the record, as published. */
#define DAGSKIMRA_REPORT_SLOT 45
#define DAGSKIMRA_CORRECTION_SLOT 98

/* An entry has 100 bytes, each number with its lowest byte first: the holder in two, 1 + the last confirmed date in two (0: none), then eight places of
 * 12 bytes: 0 free, 1 P, 2 L or 3 Z in one; date, losing network, gaining network and publication day in two each; the place in its file in three. */
#define DAGSKIMRA_ENTRY_LENGTH 100

/* What stands for no day, and for no place in the regular journal. */
#define DAGSKIMRA_NO_DAY 65535
#define DAGSKIMRA_NOWHERE 8192
#define DAGSKIMRA_LAST_DAY 18992

/* How many days the holiday list has. (With 31 October 2017 there are 469; before, there were 468.) */
#define DAGSKIMRA_HOLIDAYS 469

/* Kinds of file, and journals. */
#define DAGSKIMRA_DEFAULT 0
#define DAGSKIMRA_CORRECTION 1
#define DAGSKIMRA_REQUEST 2
#define DAGSKIMRA_RESPONSE 3

/* Why a file is refused with 4: a field with a character outside 4.4.1, of the wrong length, with a date that does not exist, a network code that is none
 * or a value that the table does not allow, tried in this order; a closing record that is missing or wrong; bytes after the end. */
#define DAGSKIMRA_CAUSE_CHARACTER 1
#define DAGSKIMRA_CAUSE_LENGTH 2
#define DAGSKIMRA_CAUSE_DATE 3
#define DAGSKIMRA_CAUSE_CODE 4
#define DAGSKIMRA_CAUSE_VALUE 5
#define DAGSKIMRA_CAUSE_CLOSING 6
#define DAGSKIMRA_CAUSE_AFTER 7

/* ---- days. Day 0 is 1998-01-01, the last day 2049-12-31 */

/* The day of a date; DAGSKIMRA_NO_DAY for none of the calendar. */
uint16_t dagskimra_day_of(uint16_t year, uint8_t month, uint8_t day);

/* The date of a day, ddmmyyyy as one number; 0 past the calendar's end. */
uint32_t dagskimra_date_of(uint16_t day);

/* 1 for a working day, 0 for another, 2 past the calendar's end. */
uint8_t dagskimra_kind_of_day(uint16_t day);

/* The day that is `count` working days after a day; DAGSKIMRA_NO_DAY where the calendar ends. */
uint16_t dagskimra_working_day_after(uint16_t day, uint8_t count);

/* How many days the holiday list has (DAGSKIMRA_HOLIDAYS), and *mark is its mark, a sum over its days. The entries of a store were worked out with the
 * list of their time: keep both numbers beside the buffers, and where one of them is another now, call dagskimra_rework before all else. They are those
 * that the program keeps in the head of its store. */
uint64_t dagskimra_holidays(uint64_t *mark);

/* ---- files. A kind above DAGSKIMRA_RESPONSE is taken as DAGSKIMRA_RESPONSE */

/* 0, and *more is how many records the file has; 4, and *more is the place of its first faulty record, from 0, *field the "Pos." of the faulty field in
 * the specification's table (0: none, a fault of the whole file) and *cause one of DAGSKIMRA_CAUSE_... On 0 *field and *cause are 0. */
uint8_t dagskimra_judge(uint8_t kind, const uint8_t *file, size_t file_length, uint64_t *more, uint64_t *field, uint64_t *cause);

/* What stands at a place of a file: 0 a record; 4 the file has a fault, and *more, *field and *cause tell it, as dagskimra_judge does; 7 the place is
 * beyond its records. On 0 and 7 all three are 0. */
uint8_t dagskimra_find(uint8_t kind, const uint8_t *file, size_t file_length, size_t place, uint64_t *more, uint64_t *field, uint64_t *cause);

/* Where the line that starts at `at` ends: at its CR, or at the file's end. Records start at 0 and behind each CR. */
size_t dagskimra_line_end(const uint8_t *file, size_t file_length, size_t at);

/* Writes a file from the words of its records. A report has six: both number fields with their digits behind a leading 1 (1: empty), day (65535:
 * empty), gaining network, losing network (1000: empty), 0 P, 1 L or 2 Z (3: empty); a correction 13: its code, then six for each part; a request two: its
 * network, its day. 0, and *more is its length; 4, and *more is the place of the first record that its layout can't hold; 41: out is too short, and *more
 * is 0. On 4 and 41 out keeps its bytes. */
uint8_t dagskimra_write(uint8_t kind, const uint64_t *words, size_t words_length, uint8_t *out, size_t out_length, uint64_t *more);

/* ---- the store */

/* Starts a store from the text of a number table: lines `num1,num2,OWNER,ddmmyyyy`, each ended by LF. 0, and *more is how many lines it has; 44: a
 * buffer is too short; 6: the text is no table. On 44 and 6 nothing is written but *more, which is 0. */
uint8_t dagskimra_start(const uint8_t *text, size_t text_length, uint8_t *table, size_t table_length, uint8_t *files, size_t files_length,
                        uint8_t *regular, size_t regular_length, uint8_t *corrections, size_t corrections_length, uint8_t *entries,
                        size_t entries_length, uint64_t *more);

/* Whether the buffers read as a store. */
bool dagskimra_readable(const uint8_t *table, size_t table_length, const uint8_t *files, size_t files_length, const uint8_t *regular,
                        size_t regular_length, const uint8_t *corrections, size_t corrections_length, const uint8_t *entries,
                        size_t entries_length);

/* Files a file of a kind (DAGSKIMRA_DEFAULT or DAGSKIMRA_CORRECTION) from a publisher (`D001`) on its publication day. 0, and *more is the count of
 * the journal records whose number the file names; 44; 1: no network code; 2: no day of the calendar, or no kind that is filed; 3: filed already;
 * 4, and *more, *field and *cause tell its first fault, as dagskimra_judge does; 5: a limit would be passed. On every refusal no byte of the buffers
 * changes. On every answer but 4 *field and *cause are 0, and on 44, 1, 2, 3 and 5 *more is 0 too. */
uint8_t dagskimra_file(const uint8_t *table, size_t table_length, uint8_t *files, size_t files_length, uint8_t *regular, size_t regular_length,
                       uint8_t *corrections, size_t corrections_length, uint8_t *entries, size_t entries_length, uint8_t kind,
                       const uint8_t *publisher, size_t publisher_length, uint16_t day, const uint8_t *text, size_t text_length,
                       uint64_t *more, uint64_t *field, uint64_t *cause);

/* ---- asking. A number is given by its two fields, digits as text; the second is empty but for a block */

/* The record at a place of the regular (0) or the correction journal (1). 0, with its publisher (1 for D001), publication day, place in its file and
 * verdict; 7: the place is beyond the journal's records; 44. On 7 and 44 all four numbers are 0. */
uint8_t dagskimra_record(const uint8_t *table, size_t table_length, const uint8_t *files, size_t files_length, const uint8_t *regular,
                         size_t regular_length, const uint8_t *corrections, size_t corrections_length, const uint8_t *entries,
                         size_t entries_length, uint8_t journal, size_t place, uint64_t *publisher, uint64_t *day, uint64_t *at,
                         uint64_t *verdict);

/* Why a number stands where it does. 0, and *one and *two are the places in the regular journal of the reports of its last confirmed pair, the one
 * processed first in *one; both are DAGSKIMRA_NOWHERE where there is no pair; 12: the number is not in the table; 44. On 12 and 44 both are
 * DAGSKIMRA_NOWHERE. */
uint8_t dagskimra_why(const uint8_t *table, size_t table_length, const uint8_t *files, size_t files_length, const uint8_t *regular,
                      size_t regular_length, const uint8_t *corrections, size_t corrections_length, const uint8_t *entries,
                      size_t entries_length, const uint8_t *first, size_t first_length, const uint8_t *last, size_t last_length, uint64_t *one,
                      uint64_t *two);

/* The stored entry of a number. 0, and out has its DAGSKIMRA_ENTRY_LENGTH bytes; 44; 12: the number is not in the table; 41: out is too short. Only 0
 * writes, and bytes behind the entry stay. */
uint8_t dagskimra_entry(const uint8_t *table, size_t table_length, const uint8_t *files, size_t files_length, const uint8_t *regular,
                        size_t regular_length, const uint8_t *corrections, size_t corrections_length, const uint8_t *entries,
                        size_t entries_length, const uint8_t *first, size_t first_length, const uint8_t *last, size_t last_length, uint8_t *out,
                        size_t out_length);

/* The same as it stood before the file at `file` arrived, counted from 0 in order of arrival; a number beyond the files asks for now. */
uint8_t dagskimra_entry_before(const uint8_t *table, size_t table_length, const uint8_t *files, size_t files_length, const uint8_t *regular,
                               size_t regular_length, const uint8_t *corrections, size_t corrections_length, const uint8_t *entries,
                               size_t entries_length, size_t file, const uint8_t *first, size_t first_length, const uint8_t *last,
                               size_t last_length, uint8_t *out, size_t out_length);

/* 0, and *more is how many stored entries differ from those worked out from the journals; 44, and *more is 0. */
uint8_t dagskimra_figure(const uint8_t *table, size_t table_length, const uint8_t *files, size_t files_length, const uint8_t *regular,
                         size_t regular_length, const uint8_t *corrections, size_t corrections_length, const uint8_t *entries,
                         size_t entries_length, uint64_t *more);

/* Works out every entry again from the journals. 0, and *more is how many stored entries were others; `list` then begins with the lines of these in the
 * table, counted from 0, in its order; 44, also for a list of less than DAGSKIMRA_NUMBERS, and nothing changes but *more, which is 0. A second call
 * finds none. */
uint8_t dagskimra_rework(const uint8_t *table, size_t table_length, const uint8_t *files, size_t files_length, const uint8_t *regular,
                         size_t regular_length, const uint8_t *corrections, size_t corrections_length, uint8_t *entries, size_t entries_length,
                         uint16_t *list, size_t list_length, uint64_t *more);

#ifdef __cplusplus
}
#endif

#endif
