/* A small day at the bureau, by the C interface: every function is called, and what it answers is compared. Status 0: all as expected. */
#include "dagskimra.h"

#include <stdio.h>
#include <string.h>

static uint8_t table[DAGSKIMRA_TABLE_LENGTH], files[DAGSKIMRA_FILES_LENGTH], regular[DAGSKIMRA_REGULAR_LENGTH],
    corrections[DAGSKIMRA_CORRECTIONS_LENGTH], entries[DAGSKIMRA_ENTRIES_LENGTH];
static int passed, failed;

/* The mark of the holiday list with 31 October 2017: its days from the first on are added up, beginning with 1, and so are these sums. */
#define MARK 697677027

#define STORE table, sizeof table, files, sizeof files, regular, sizeof regular, corrections, sizeof corrections, entries, sizeof entries
#define TEXT(s) (const uint8_t *)(s), strlen(s)

static void same(const char *what, uint64_t is, uint64_t should) {
    if (is == should)
        passed++;
    else
        failed++, printf("%s: %llu, not %llu\n", what, (unsigned long long)is, (unsigned long long)should);
}

static void days(void) {
    same("day of 2000-02-29", dagskimra_day_of(2000, 2, 29), 789);
    same("day of 2001-02-29", dagskimra_day_of(2001, 2, 29), DAGSKIMRA_NO_DAY);
    same("the last day", dagskimra_day_of(2049, 12, 31), DAGSKIMRA_LAST_DAY);
    same("date of 9559", dagskimra_date_of(9559), 4032024);
    same("date past the end", dagskimra_date_of(DAGSKIMRA_LAST_DAY + 1), 0);
    same("a Monday", dagskimra_kind_of_day(9559), 1);
    same("a Sunday", dagskimra_kind_of_day(9558), 0);
    same("past the end", dagskimra_kind_of_day(DAGSKIMRA_LAST_DAY + 1), 2);
    same("two after 2014-05-22", dagskimra_working_day_after(dagskimra_day_of(2014, 5, 22), 2), dagskimra_day_of(2014, 5, 26));
    same("31 October 2017", dagskimra_kind_of_day(dagskimra_day_of(2017, 10, 31)), 0);
    same("five after 2017-10-25", dagskimra_working_day_after(dagskimra_day_of(2017, 10, 25), 5), dagskimra_day_of(2017, 11, 2));
    same("one after the last day", dagskimra_working_day_after(DAGSKIMRA_LAST_DAY, 1), DAGSKIMRA_NO_DAY);
    uint64_t mark = 7;
    same("the holidays", dagskimra_holidays(&mark), DAGSKIMRA_HOLIDAYS);
    same("their mark", mark, MARK);
}

static const char p_file[] = "3055501,,04032024,D002,D001,P\rZeilenanzahl:2,\r";
static const char l_file[] = "3055501,,04032024,D002,D001,L\rZeilenanzahl:2,\r";
static const char objection[] = "2500U:3055501,,04032024,D002,D001,P,K:,,,,,\rZeilenanzahl:2,\r";

/* Files that are refused with 4: the place of the record, the field in it, and the cause. The first ones have one fault less each time. */
#define AFTER_ONE(record) "3055501,,04032024,D002,D001,P\r" record "\rZeilenanzahl:3,\r"
static const struct fault {
    int kind;
    const char *text;
    int place, field, cause;
} faults[] = {
    {DAGSKIMRA_DEFAULT, AFTER_ONE("3055501\001,3055502,30022024,D0X2,D001,PP"), 1, 1, DAGSKIMRA_CAUSE_CHARACTER},
    {DAGSKIMRA_DEFAULT, AFTER_ONE("3055501,3055502,30022024,D0X2,D001,PP"), 1, 3, DAGSKIMRA_CAUSE_VALUE},
    {DAGSKIMRA_DEFAULT, AFTER_ONE("3055501,,30022024,D0X2,D001,PP"), 1, 5, DAGSKIMRA_CAUSE_DATE},
    {DAGSKIMRA_DEFAULT, AFTER_ONE("3055501,,04032024,D0X2,D001,PP"), 1, 7, DAGSKIMRA_CAUSE_CODE},
    {DAGSKIMRA_DEFAULT, AFTER_ONE("3055501,,04032024,D002,D001,PP"), 1, 11, DAGSKIMRA_CAUSE_LENGTH},
    {DAGSKIMRA_DEFAULT, AFTER_ONE("Zeilenanzahl:3,"), 1, 0, DAGSKIMRA_CAUSE_CLOSING},
    {DAGSKIMRA_DEFAULT, AFTER_ONE("Zeilenanzahl:2,"), 2, 0, DAGSKIMRA_CAUSE_AFTER},
    {DAGSKIMRA_DEFAULT, "3055501,,04032024,D002,D001,P", 0, 12, DAGSKIMRA_CAUSE_LENGTH},
    {DAGSKIMRA_CORRECTION, "2500U:3055501,,04032024,D002,D001,,K:,,,,,\rZeilenanzahl:2,\r", 0, 13, DAGSKIMRA_CAUSE_VALUE},
    {DAGSKIMRA_CORRECTION, "2500U:3055501,,04032024,D002,D001,P,K:,,,,D1,\rZeilenanzahl:2,\r", 0, 24, DAGSKIMRA_CAUSE_LENGTH},
    {DAGSKIMRA_CORRECTION, p_file, 0, 2, DAGSKIMRA_CAUSE_VALUE},
    {DAGSKIMRA_REQUEST, "D001,30022024,\r", 0, 3, DAGSKIMRA_CAUSE_DATE},
    {DAGSKIMRA_REQUEST, "D001\r", 0, 2, DAGSKIMRA_CAUSE_LENGTH},
    {DAGSKIMRA_RESPONSE, "", 0, 0, DAGSKIMRA_CAUSE_CLOSING},
};
enum { FAULTS = sizeof faults / sizeof faults[0] };

static void same_three(const char *what, const uint64_t *is, int more, int field, int cause) {
    same(what, is[0], more);
    same(what, is[1], field);
    same(what, is[2], cause);
}

/* What stands at a place of a file without a fault: nothing goes with it. */
static void found(int kind, const char *text, int place, int answer) {
    uint64_t told[3] = {7, 7, 7};
    same(text, dagskimra_find(kind, TEXT(text), place, &told[0], &told[1], &told[2]), answer);
    same_three(text, told, 0, 0, 0);
}

static void reading(void) {
    uint64_t told[3] = {7, 7, 7};
    same("judging a file", dagskimra_judge(DAGSKIMRA_DEFAULT, TEXT(p_file), &told[0], &told[1], &told[2]), 0);
    same_three("its records, and no fault", told, 1, 0, 0);
    for (int i = 0; i < FAULTS; i++) {
        const struct fault *f = &faults[i];
        same(f->text, dagskimra_judge(f->kind, TEXT(f->text), &told[0], &told[1], &told[2]), 4);
        same_three(f->text, told, f->place, f->field, f->cause);
        told[0] = told[1] = told[2] = 7;
        same(f->text, dagskimra_find(f->kind, TEXT(f->text), 0, &told[0], &told[1], &told[2]), 4);
        same_three(f->text, told, f->place, f->field, f->cause);
    }
    found(DAGSKIMRA_DEFAULT, p_file, 0, 0);
    found(DAGSKIMRA_DEFAULT, p_file, 1, 7);
    found(DAGSKIMRA_REQUEST, "D001,,\r", 0, 0);
    same("the end of a line", dagskimra_line_end(TEXT(p_file), 0), 29);
}

static void writing(void) {
    static const uint64_t words[6] = {13055501, 1, 9559, 2, 1, 0};
    uint8_t out[64];
    uint64_t more;
    memset(out, 7, sizeof out);
    same("writing", dagskimra_write(DAGSKIMRA_DEFAULT, words, 6, out, sizeof out, &more), 0);
    same("its length", more, strlen(p_file));
    same("its bytes", memcmp(out, p_file, strlen(p_file)), 0);
    same("the byte behind it", out[strlen(p_file)], 7);
    same("writing into less", dagskimra_write(DAGSKIMRA_DEFAULT, words, 6, out, strlen(p_file) - 1, &more), 41);
    same("no length", more, 0);
    same("writing half a record", dagskimra_write(DAGSKIMRA_DEFAULT, words, 3, out, sizeof out, &more), 4);
    same("the half record's place", more, 0);
}

static void starting(void) {
    uint64_t more = 7;
    static const char lines[] = "3055501,,D001,02012024\n30600-30609,,D001,02012024\n";
    same("starting from no table", dagskimra_start(TEXT(lines), STORE, &more), 6);
    same("no lines told", more, 0);
    same("starting with less room", dagskimra_start(TEXT("3055501,,D001,02012024\n"), table, 2, files, sizeof files, regular, sizeof regular, corrections, sizeof corrections, entries, sizeof entries, &more), 44);
    same("starting", dagskimra_start(TEXT("3055501,,D001,02012024\n3060000,3060009,D003,02012024\n"), STORE, &more), 0);
    same("its lines", more, 2);
    same("it reads", dagskimra_readable(STORE), 1);
}

/* What is told beside the answer: a count, and no fault. */
static uint64_t filed(int kind, const char *publisher, int day, const char *text, int answer) {
    uint64_t told[3] = {7, 7, 7};
    same(text, dagskimra_file(STORE, kind, TEXT(publisher), day, TEXT(text), &told[0], &told[1], &told[2]), answer);
    same("no field", told[1], 0);
    same("no cause", told[2], 0);
    if (answer != 0)
        same("nothing told of a refusal", told[0], 0);
    return told[0];
}

/* Refused with 4, as it is judged; a kind that is not filed with 2. */
static void filing_faults(void) {
    for (int i = 0; i < FAULTS; i++) {
        uint64_t told[3] = {7, 7, 7};
        const struct fault *f = &faults[i];
        int is_filed = f->kind <= DAGSKIMRA_CORRECTION;
        same(f->text, dagskimra_file(STORE, f->kind, TEXT("D001"), 9562, TEXT(f->text), &told[0], &told[1], &told[2]), is_filed ? 4 : 2);
        same_three(f->text, told, is_filed ? f->place : 0, is_filed ? f->field : 0, is_filed ? f->cause : 0);
    }
}

static void filing(void) {
    uint64_t one, two;
    same("filing P", filed(DAGSKIMRA_DEFAULT, "D002", 9560, p_file, 0), 1);
    same("filing L", filed(DAGSKIMRA_DEFAULT, "D001", 9561, l_file, 0), 2);
    same("why", dagskimra_why(STORE, TEXT("3055501"), TEXT(""), &one, &two), 0);
    same("the pair's P", one, 0);
    same("the pair's L", two, 1);
    same("why of a block", dagskimra_why(STORE, TEXT("3060000"), TEXT("3060009"), &one, &two), 0);
    same("it has no pair", one, DAGSKIMRA_NOWHERE);
    one = two = 7;
    same("why of another number", dagskimra_why(STORE, TEXT("1"), TEXT(""), &one, &two), 12);
    same("no place", one, DAGSKIMRA_NOWHERE);
    same("nor a second", two, DAGSKIMRA_NOWHERE);
    filed(DAGSKIMRA_DEFAULT, "D001", 9561, l_file, 3);
    filed(DAGSKIMRA_DEFAULT, "D00A", 9562, l_file, 1);
    filed(DAGSKIMRA_DEFAULT, "D001", DAGSKIMRA_LAST_DAY + 1, l_file, 2);
    filed(DAGSKIMRA_REQUEST, "D001", 9562, l_file, 2);
    filing_faults();
}

/* After P and L: holder D002, confirmed 2024-03-04. Before the L arrived: holder D001, and the P open in the first place. */
static void showing(void) {
    uint8_t out[DAGSKIMRA_ENTRY_LENGTH + 1];
    memset(out, 7, sizeof out);
    same("the entry", dagskimra_entry(STORE, TEXT("3055501"), TEXT(""), out, sizeof out), 0);
    same("its holder", out[0] + 256 * out[1], 2);
    same("its last confirmed date", out[2] + 256 * out[3], 9559 + 1);
    same("its first place", out[4], 0);
    same("the byte behind it", out[DAGSKIMRA_ENTRY_LENGTH], 7);
    same("an entry into less", dagskimra_entry(STORE, TEXT("3055501"), TEXT(""), out, DAGSKIMRA_ENTRY_LENGTH - 1), 41);
    same("the entry of another number", dagskimra_entry(STORE, TEXT("1"), TEXT(""), out, sizeof out), 12);
    same("the entry before the L", dagskimra_entry_before(STORE, 1, TEXT("3055501"), TEXT(""), out, sizeof out), 0);
    same("its holder", out[0] + 256 * out[1], 1);
    same("no confirmed date", out[2] + 256 * out[3], 0);
    same("P is open", out[4], 1);
}

static void asked(int journal, int place, int publisher, int day, int verdict) {
    uint64_t p, d, at, v;
    same("asking for a record", dagskimra_record(STORE, journal, place, &p, &d, &at, &v), 0);
    same("its publisher", p, publisher);
    same("its day", d, day);
    same("its place in its file", at, 0);
    same("its verdict", v, verdict);
}

/* The holder of the first line was changed behind the store's back. */
static void reworking(void) {
    static uint16_t list[DAGSKIMRA_NUMBERS];
    uint64_t n;
    memset(list, 255, sizeof list);
    same("reworking with too short a list", dagskimra_rework(STORE, list, DAGSKIMRA_NUMBERS - 1, &n), 44);
    same("its holder is left as it was", entries[0], 0);
    same("reworking", dagskimra_rework(STORE, list, DAGSKIMRA_NUMBERS, &n), 0);
    same("one entry changed", n, 1);
    same("that of the first line", list[0], 0);
    same("nothing behind it in the list", list[1], 65535);
    same("its holder", entries[0], 1);
    same("reworking again", dagskimra_rework(STORE, list, DAGSKIMRA_NUMBERS, &n), 0);
    same("no entry changed", n, 0);
}

static void asking(void) {
    uint64_t p, d, at, v;
    asked(0, 0, 2, 9560, 10);
    asked(0, 1, 1, 9561, 11);
    same("filing an objection", filed(DAGSKIMRA_CORRECTION, "D001", 9561, objection, 0), 3);
    asked(1, 0, 1, 9561, 30);
    asked(0, 1, 1, 9561, 10);
    same("no pair any more", dagskimra_why(STORE, TEXT("3055501"), TEXT(""), &p, &d), 0);
    same("its place", p, DAGSKIMRA_NOWHERE);
    same("a place beyond", dagskimra_record(STORE, 0, 2, &p, &d, &at, &v), 7);
    same("nothing told of it", p + d + at + v, 0);
    same("the record's length in its slot", regular[DAGSKIMRA_REPORT_SLOT], 29);
    same("its bytes", memcmp(regular + DAGSKIMRA_REPORT_SLOT + 1, l_file, 29), 0);
    same("the figure", dagskimra_figure(STORE, &p), 0);
    same("no entry differs", p, 0);
    entries[0] ^= 1;
    same("the figure of a changed entry", dagskimra_figure(STORE, &p), 0);
    same("one entry differs", p, 1);
    reworking();
    regular[0] = 255;
    same("a damaged store", dagskimra_readable(STORE), 0);
    p = 7;
    same("asking it", dagskimra_figure(STORE, &p), 44);
    same("no figure", p, 0);
    same("reworking it", dagskimra_rework(STORE, (uint16_t[DAGSKIMRA_NUMBERS]){0}, DAGSKIMRA_NUMBERS, &p), 44);
    filed(DAGSKIMRA_DEFAULT, "D001", 9563, l_file, 44);
}

int main(void) {
    days();
    reading();
    writing();
    starting();
    filing();
    showing();
    asking();
    printf("%d passed, %d failed\n", passed, failed);
    return failed != 0;
}
