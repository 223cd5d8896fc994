/* A year at the bureau, made up.
 *
 * Twelve networks publish on working days. A porting is a P of the gaining and an L of the losing network, a return a Z of the losing network
 * and, five working days later, a P of the owner. Whoever publishes first opens, the other follows in a file of its own some days on. Objections
 * name reports that are open, or were. A few reports are wrong: of a number that is not in the table, by the wrong network, too early, twice.
 */
#include "year.h"
#include "plain.h"

#include <stdio.h>
#include <stdlib.h>
#include <string.h>

enum { NETWORKS = 12, DEFAULTS = 820, OBJECTIONS = 204, DAYS = 250, MOST_PENDING = 4096 };

/* ---- chance */

static uint64_t state;

static uint64_t chance(void) {
    state += 0x9e3779b97f4a7c15u;
    uint64_t z = state;
    z = (z ^ z >> 30) * 0xbf58476d1ce4e5b9u;
    z = (z ^ z >> 27) * 0x94d049bb133111ebu;
    return z ^ z >> 31;
}

static int below(int n) {
    return chance() % n;
}

static int one_in(int n) {
    return below(n) == 0;
}

/* ---- numbers and what is open on them */

struct subscriber {
    char first[12], last[12];
    int owner, holder, last_date, busy;
};

static struct subscriber numbers[NUMBERS];

static int network(int i) {
    return 1 + i * 37 % 997;
}

static int any_network(void) {
    return network(below(NETWORKS));
}

/* A report that is still to be published, by `by` and not before `due`. */
struct pending {
    int number, kind, date, losing, gaining, by, due;
};

static struct pending pending[MOST_PENDING];
static int pending_count;

/* Reports published of late, for objections to name. */
static struct pending recent[256];
static int recent_count;

static void make_numbers(struct year *y) {
    uint8_t *at = y->table = malloc(NUMBERS * 64);
    for (int i = 0; i < NUMBERS; i++) {
        struct subscriber *n = &numbers[i];
        int area = 30 + i % 60;
        memset(n, 0, sizeof *n);
        if (i % 10 == 0) {
            sprintf(n->first, "%d%04d00", area, i);
            sprintf(n->last, "%d%04d99", area, i);
        } else {
            sprintf(n->first, "%d%04d%03d", area, i, below(1000));
        }
        n->owner = n->holder = any_network();
        n->last_date = day_of(2023, 1, 2);
        at += sprintf((char *)at, "%s,%s,D%03d,02012023\n", n->first, n->last, n->owner);
    }
    y->table_length = at - y->table;
    y->numbers = NUMBERS;
}

/* ---- records */

static int write_part(char *at, const struct pending *r, int unknown) {
    int year, month, day;
    const struct subscriber *n = &numbers[r->number];
    char gaining[8] = "";
    date_of(r->date, &year, &month, &day);
    if (r->gaining != NONE)
        sprintf(gaining, "D%03d", r->gaining);
    if (unknown)
        return sprintf(at, "99%05d,,%02d%02d%04d,%s,D%03d,%c", r->number, day, month, year, gaining, r->losing, "PLZ"[r->kind]);
    return sprintf(at, "%s,%s,%02d%02d%04d,%s,D%03d,%c", n->first, n->last, day, month, year, gaining, r->losing, "PLZ"[r->kind]);
}

static void remember(const struct pending *r) {
    recent[recent_count++ % 256] = *r;
}

/* The report that a network has to publish by now, if any. */
static int take_pending(int by, int day, struct pending *r) {
    for (int i = 0; i < pending_count; i++)
        if (pending[i].by == by && pending[i].due <= day) {
            *r = pending[i];
            pending[i] = pending[--pending_count];
            return 1;
        }
    return 0;
}

static void await(struct pending r, int kind, int by, int due) {
    r.kind = kind, r.by = by, r.due = due;
    if (pending_count < MOST_PENDING)
        pending[pending_count++] = r;
}

/* A number with nothing under way, dated before the day. */
static int idle_number(int day) {
    for (int tries = 0; tries < 4 * NUMBERS; tries++) {
        int i = below(NUMBERS);
        if (!numbers[i].busy && numbers[i].last_date < day - 1)
            return i;
    }
    return below(NUMBERS);
}

/* A report that opens a porting or a return, with `by` as its publisher; its counterpart is awaited. */
static struct pending open_report(int by, int day) {
    int i = idle_number(day), date = day - 1 - below(2);
    struct subscriber *n = &numbers[i];
    if (date <= n->last_date)
        date = day - 1;
    struct pending r = {i, P, date, n->holder, by, by, day};
    n->busy = 1;
    if (n->holder == by) {
        r.gaining = n->owner != by && one_in(3) ? n->owner : any_network();
        r.kind = r.gaining == n->owner && n->owner != by && one_in(2) ? Z : L;
        await(r, P, r.gaining, r.kind == Z ? working_day_after(day, 5 + below(4)) : day + below(5));
        if (r.kind == Z && one_in(2))
            r.gaining = NONE;
    } else {
        await(r, L, n->holder, day + below(5));
    }
    return r;
}

static void settle(const struct pending *r) {
    struct subscriber *n = &numbers[r->number];
    n->busy = 0;
    if (r->date > n->last_date)
        n->holder = r->gaining, n->last_date = r->date;
}

static int write_report(char *at, int by, int day) {
    struct pending r;
    int unknown = 0;
    if (take_pending(by, day, &r)) {
        settle(&r);
    } else if (one_in(12)) {
        r = recent_count ? recent[below(recent_count < 256 ? recent_count : 256)] : open_report(by, day);
        unknown = one_in(4);
    } else {
        r = open_report(by, day);
    }
    remember(&r);
    return write_part(at, &r, unknown);
}

static int write_objection(char *at) {
    static const int codes[8] = {2500, 2501, 2502, 2505, 2510, 2599, 2546, 6000};
    struct pending r = recent[below(recent_count < 256 ? recent_count : 256)];
    if (pending_count && one_in(3)) {
        struct pending p = pending[below(pending_count)];
        r = p, r.kind = p.kind == P ? L : P;
    }
    int n = sprintf(at, "%04dU:", codes[below(8)]);
    n += write_part(at + n, &r, 0);
    return n + sprintf(at + n, ",K:,,,,,");
}

/* ---- files */

static void write_file(struct year_file *f) {
    char *at = malloc(f->records * 100 + 40), *start = at;
    for (int i = 0; i < f->records; i++) {
        at += f->kind == CORRECTION ? write_objection(at) : write_report(at, f->publisher, f->day);
        *at++ = '\r';
    }
    at += sprintf(at, "Zeilenanzahl:%d,\r", f->records + 1);
    f->text = (uint8_t *)start;
    f->length = at - start;
}

/* Default and correction files spread over the year, each network once a day and kind at most; then how many records each has. */
static void plan(struct year *y) {
    static uint8_t used[2][DAYS][NETWORKS];
    int first = day_of(2024, 1, 2), left[2] = {DEFAULTS, OBJECTIONS}, records[2] = {REPORTS, CORRECTIONS};
    memset(used, 0, sizeof used);
    y->file_count = 0;
    for (int i = 0; i < FILES; i++) {
        int slot = (long)i * DAYS / FILES, kind = below(left[0] + left[1]) < left[1] && i > 8, who;
        if (left[kind] == 0)
            kind = !kind;
        do
            who = below(NETWORKS);
        while (used[kind][slot][who]);
        used[kind][slot][who] = 1;
        int share = left[kind] == 1 ? records[kind] : records[kind] / left[kind] / 2 + below(records[kind] / left[kind] + 1);
        y->files[y->file_count++] = (struct year_file){kind, network(who), working_day_after(first, slot), share, 0, NULL, 0};
        left[kind]--;
        records[kind] -= share;
    }
}

static int by_arrival(const void *a, const void *b) {
    const struct year_file *x = a, *y = b;
    return x->late < y->late ? -1 : x->late > y->late;
}

/* One file in ten arrives behind up to 40 others. */
static void set_arrival(struct year *y) {
    for (int i = 0; i < y->file_count; i++)
        y->files[i].late = i * 2 + (one_in(10) ? 2 * (2 + below(40)) + 1 : 0);
    qsort(y->files, y->file_count, sizeof *y->files, by_arrival);
}

void make_year(struct year *y, uint64_t seed) {
    state = seed;
    pending_count = recent_count = 0;
    make_numbers(y);
    plan(y);
    for (int i = 0; i < y->file_count; i++)
        write_file(&y->files[i]);
    set_arrival(y);
}
