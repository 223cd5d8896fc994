/* Files a year three times, by the proved program, by plain C and with SQLite, in one process, and prints what each phase takes.
 *
 *   bench [SEED [RUNS [FILES]]]
 *
 * Times are of the processor, not of the wall; the least of all runs counts. What is printed last is the comparison of what the three hold at the end:
 * a difference is status 1.
 */
#include "plain.h"
#include "sqlite.h"
#include "year.h"
#ifdef PROVED
#include "../include/dagskimra.h"
#include "parts.h"
#endif

#include <math.h>
#include <stdio.h>
#include <stdlib.h>
#include <string.h>
#include <time.h>

enum phase { CHECK, READING, APPENDING, WORKING, WHOLE, WHY, PHASES };
static const char *const phase_names[PHASES] = {"44 check", "reading", "appending", "working out", "a whole file", "asking why"};

enum side { PLAIN, PROVED_SIDE, SQLITE, SIDES };

/* Nanoseconds: of each phase over the year, and of each file. */
static double total[SIDES][PHASES], file_time[SIDES][FILES];
static struct year year;

static double now(void) {
    struct timespec t;
    clock_gettime(CLOCK_PROCESS_CPUTIME_ID, &t);
    return t.tv_sec * 1e9 + t.tv_nsec;
}

static struct store new_store(void) {
    static const size_t lengths[5] = {TABLE_LENGTH, FILES_LENGTH, REGULAR_LENGTH, CORRECTIONS_LENGTH, ENTRIES_LENGTH};
    struct bytes b[5];
    for (int i = 0; i < 5; i++)
        b[i] = (struct bytes){calloc(1, lengths[i]), lengths[i]};
    return (struct store){b[0], b[1], b[2], b[3], b[4]};
}

static void expect(int good, const char *what, int i) {
    if (!good) {
        fprintf(stderr, "bench: %s at file %d\n", what, i);
        exit(1);
    }
}

static void least(double *to, double value) {
    if (*to == 0 || value < *to)
        *to = value;
}

/* ---- plain C */

static void plain_whole(struct store *s) {
    double sum = 0;
    int count;
    struct fault fault;
    expect(plain_start(s, year.table, year.table_length, &count) == 0, "plain start", 0);
    for (int i = 0; i < year.file_count; i++) {
        const struct year_file *f = &year.files[i];
        char code[8];
        sprintf(code, "D%03d", f->publisher);
        double t = now();
        int answer = plain_file(s, f->kind, (const uint8_t *)code, 4, f->day, f->text, f->length, &count, &fault);
        t = now() - t;
        expect(answer == 0, "plain filing", i);
        sum += t;
        least(&file_time[PLAIN][i], t);
    }
    least(&total[PLAIN][WHOLE], sum);
}

static void plain_phases(struct store *s) {
    double sum[PHASES] = {0}, t[5];
    int count;
    struct fault fault;
    plain_start(s, year.table, year.table_length, &count);
    for (int i = 0; i < year.file_count; i++) {
        const struct year_file *f = &year.files[i];
        t[0] = now();
        int good = plain_readable(s);
        t[1] = now();
        good &= !plain_filed_already(s, f->kind, f->publisher, f->day) && plain_judge(f->kind, f->text, f->length, &count, &fault) == 0 && plain_has_room(s, f->kind, count);
        t[2] = now();
        plain_append(s, f->kind, f->publisher, f->day, f->text, count);
        t[3] = now();
        plain_renew(s);
        t[4] = now();
        expect(good, "plain phases", i);
        for (int p = CHECK; p <= WORKING; p++)
            sum[p] += t[p + 1] - t[p];
    }
    for (int p = CHECK; p <= WORKING; p++)
        least(&total[PLAIN][p], sum[p]);
}

static void plain_asks(const struct store *s, struct pair *pairs) {
    double t = now();
    for (int i = 0; i < year.numbers; i++) {
        struct line l;
        plain_line(s, i, &l);
        expect(plain_why(s, l.number, &pairs[i]) == 0, "plain why", i);
    }
    least(&total[PLAIN][WHY], now() - t);
}

/* ---- the proved program */

#ifdef PROVED
#define FIVE(s) (s)->table.at, (s)->table.length, (s)->files.at, (s)->files.length, (s)->regular.at, (s)->regular.length, (s)->corrections.at, (s)->corrections.length, (s)->entries.at, (s)->entries.length
#define THREE(s) (s)->files.at, (s)->files.length, (s)->regular.at, (s)->regular.length, (s)->corrections.at, (s)->corrections.length

static void proved_start(struct store *s) {
    uint64_t count;
    expect(dagskimra_start(year.table, year.table_length, FIVE(s), &count) == 0, "proved start", 0);
}

static void proved_whole(struct store *s) {
    double sum = 0;
    uint64_t count, field, cause;
    proved_start(s);
    for (int i = 0; i < year.file_count; i++) {
        const struct year_file *f = &year.files[i];
        char code[8];
        sprintf(code, "D%03d", f->publisher);
        double t = now();
        int answer = dagskimra_file(FIVE(s), f->kind, (const uint8_t *)code, 4, f->day, f->text, f->length, &count, &field, &cause);
        t = now() - t;
        expect(answer == 0, "proved filing", i);
        sum += t;
        least(&file_time[PROVED_SIDE][i], t);
    }
    least(&total[PROVED_SIDE][WHOLE], sum);
}

static void proved_phases(struct store *s) {
    double sum[PHASES] = {0}, t[5];
    proved_start(s);
    for (int i = 0; i < year.file_count; i++) {
        const struct year_file *f = &year.files[i];
        char code[8];
        sprintf(code, "D%03d", f->publisher);
        t[0] = now();
        int good = dagskimra_readable(FIVE(s));
        t[1] = now();
        uint64_t count = dagskimra_phase_check(s->files.at, s->files.length, f->kind, (const uint8_t *)code, 4, f->day, f->text, f->length);
        t[2] = now();
        dagskimra_phase_enter(THREE(s), f->kind, f->publisher, f->day, f->text, f->length, count);
        t[3] = now();
        dagskimra_phase_renew(FIVE(s));
        t[4] = now();
        expect(good && count == (uint64_t)f->records, "proved phases", i);
        for (int p = CHECK; p <= WORKING; p++)
            sum[p] += t[p + 1] - t[p];
    }
    for (int p = CHECK; p <= WORKING; p++)
        least(&total[PROVED_SIDE][p], sum[p]);
}

/* A number field as text. */
static int field(uint64_t digits, char *out) {
    return sprintf(out, "%llu", (unsigned long long)digits) - 1;
}

static void proved_asks(const struct store *s, struct pair *pairs) {
    double t = now();
    for (int i = 0; i < year.numbers; i++) {
        struct line l;
        char first[24], last[24];
        uint64_t a = 0, b = 0;
        plain_line(s, i, &l);
        int n = field(l.number.first, first), m = field(l.number.last, last);
        int answer = dagskimra_why(FIVE(s), (const uint8_t *)first + 1, n, (const uint8_t *)last + 1, m, &a, &b);
        expect(answer == 0, "proved why", i);
        pairs[i] = a == DAGSKIMRA_NOWHERE ? (struct pair){NONE, NONE} : (struct pair){a, b};
    }
    least(&total[PROVED_SIDE][WHY], now() - t);
}
#endif

/* ---- SQLite */

/* The check is taken once in 16 files, and stands for the others. */
static void sqlite_whole(void) {
    double sum = 0, checks = 0;
    int count;
    sqlite_start(year.table, year.table_length);
    for (int i = 0; i < year.file_count; i++) {
        const struct year_file *f = &year.files[i];
        double t = now();
        if (i % 16 == 0) {
            expect(sqlite_readable(), "sqlite check", i);
            checks += 16 * (now() - t);
        }
        t = now();
        int answer = sqlite_file(f->kind, f->publisher, f->day, f->text, f->length, &count);
        t = now() - t;
        expect(answer == 0, "sqlite filing", i);
        sum += t;
        least(&file_time[SQLITE][i], t);
    }
    least(&total[SQLITE][WHOLE], sum);
    least(&total[SQLITE][CHECK], checks);
}

static void sqlite_asks(const struct store *s) {
    double t = now();
    for (int i = 0; i < year.numbers; i++) {
        struct line l;
        struct pair pair;
        plain_line(s, i, &l);
        expect(sqlite_why(l.number, &pair) == 0, "sqlite why", i);
    }
    least(&total[SQLITE][WHY], now() - t);
}

/* ---- what is printed */

static void print_ratio(double a, double b) {
    if (a > 0 && b > 0)
        printf("\t%.2f", a / b);
    else
        printf("\t-");
}

static void print_phases(void) {
    printf("phase\tplain us\tproved us\tsqlite us\tproved : plain\tproved : sqlite\n");
    for (int p = 0; p < PHASES; p++) {
        int each = p == WHY ? year.numbers : year.file_count;
        printf("%s", phase_names[p]);
        for (int side = 0; side < SIDES; side++)
            if (total[side][p] > 0)
                printf("\t%.1f", total[side][p] / each / 1e3);
            else
                printf("\t-");
        print_ratio(total[PROVED_SIDE][p], total[PLAIN][p]);
        print_ratio(total[PROVED_SIDE][p], total[SQLITE][p]);
        putchar('\n');
    }
}

/* The mean of the 64 files before a point of the year. */
static double time_at(int side, int files) {
    double sum = 0;
    for (int i = files - 64; i < files; i++)
        sum += file_time[side][i];
    return sum / 64;
}

/* The slope is that of the time's logarithm over the logarithm of the records stored: 1 is proportional, 1.13 is n log n. */
static void print_growth(void) {
    static const int points[4] = {128, 256, 512, 1024};
    static const char *const names[SIDES] = {"plain", "proved", "sqlite"};
    printf("us per file\t1/8 full\t1/4 full\t1/2 full\tfull\tslope\n");
    for (int side = 0; side < SIDES; side++) {
        if (total[side][WHOLE] == 0)
            continue;
        printf("%s", names[side]);
        for (int i = 0; i < 4; i++)
            printf("\t%.1f", time_at(side, points[i]) / 1e3);
        printf("\t%.2f\n", log(time_at(side, 1024) / time_at(side, 128)) / log(8));
    }
}

/* Whether all hold the same at the end, byte by byte or entry by entry. */
static int same_end(const struct store *plain, const struct store *proved) {
    int differ = 0;
    for (int i = 0; i < year.numbers; i++) {
        struct entry a, b;
        plain_entry(plain, i, &a);
        sqlite_entry(i, &b);
        differ += !plain_same_entry(&a, &b);
    }
    printf("entries that differ between plain and sqlite\t%d\n", differ);
    if (!proved)
        return differ == 0;
    const struct bytes *a = &plain->table, *b = &proved->table;
    for (int i = 0; i < 5; i++) {
        int same = memcmp(a[i].at, b[i].at, a[i].length) == 0;
        differ += !same;
        printf("buffer %d, plain and proved\t%s\n", i, same ? "the same bytes" : "DIFFERENT");
    }
    return differ == 0;
}

int main(int argc, char **argv) {
    static struct pair pairs[2][NUMBERS];
    uint64_t seed = argc > 1 ? strtoull(argv[1], NULL, 10) : 1;
    int runs = argc > 2 ? atoi(argv[2]) : 3, same = 1;
    make_year(&year, seed);
    if (argc > 3 && atoi(argv[3]) < year.file_count)
        year.file_count = atoi(argv[3]);
    for (int run = 0; run < runs; run++) {
        struct store plain = new_store(), *proved = NULL;
        plain_whole(&plain);
        plain_asks(&plain, pairs[0]);
        struct store again = new_store();
        plain_phases(&again);
#ifdef PROVED
        struct store mine = new_store(), other = new_store();
        proved = &mine;
        proved_whole(proved);
        proved_asks(proved, pairs[1]);
        proved_phases(&other);
        same &= memcmp(pairs[0], pairs[1], sizeof pairs[0]) == 0 && memcmp(mine.entries.at, other.entries.at, ENTRIES_LENGTH) == 0;
#endif
        sqlite_whole();
        sqlite_asks(&plain);
        if (run + 1 == runs) {
            print_phases();
            if (year.file_count == FILES)
                print_growth();
            same &= same_end(&plain, proved);
        }
        sqlite_end();
    }
    printf("all the same at the end\t%s\n", same ? "yes" : "NO");
    return !same;
}
