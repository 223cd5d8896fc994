/* The same job in SQLite: in memory, one transaction for each file, statements prepared once. Parsing and verdicts are plain.c's; what SQLite
 * does is to keep numbers, files, records, entries and open reports, to refuse a file twice, and to find a number's records in processing order. */
#include "sqlite.h"

#include <sqlite3.h>
#include <stdio.h>
#include <stdlib.h>
#include <string.h>

static const char schema[] =
    "PRAGMA journal_mode = MEMORY;"
    "CREATE TABLE numbers (id INTEGER PRIMARY KEY, first INTEGER NOT NULL, last INTEGER NOT NULL, owner INTEGER NOT NULL, setup INTEGER NOT NULL, UNIQUE (first, last));"
    "CREATE TABLE files (id INTEGER PRIMARY KEY, kind INTEGER NOT NULL, publisher INTEGER NOT NULL, day INTEGER NOT NULL, UNIQUE (kind, publisher, day));"
    "CREATE TABLE records (id INTEGER PRIMARY KEY, file INTEGER NOT NULL REFERENCES files (id), first INTEGER NOT NULL, last INTEGER NOT NULL,"
    " day INTEGER NOT NULL, class INTEGER NOT NULL, publisher INTEGER NOT NULL, place INTEGER NOT NULL, text TEXT NOT NULL);"
    "CREATE INDEX history ON records (first, last, day, class, publisher, place);"
    "CREATE TABLE entries (number INTEGER PRIMARY KEY REFERENCES numbers (id), holder INTEGER NOT NULL, confirmed INTEGER);"
    "CREATE TABLE places (number INTEGER NOT NULL, place INTEGER NOT NULL, kind INTEGER NOT NULL, date INTEGER NOT NULL, losing INTEGER NOT NULL,"
    " gaining INTEGER NOT NULL, day INTEGER NOT NULL, at INTEGER NOT NULL, PRIMARY KEY (number, place)) WITHOUT ROWID;";

static sqlite3 *db;
static sqlite3_stmt *begin, *commit, *rollback, *add_number, *add_file, *add_record, *find_number, *history, *put_holder, *clear_places, *put_place, *get_entry, *get_places, *quick_check;
static int stored[2];

static void check(int good) {
    if (!good) {
        fprintf(stderr, "sqlite: %s\n", sqlite3_errmsg(db));
        exit(2);
    }
}

static sqlite3_stmt *prepare(const char *text) {
    sqlite3_stmt *s;
    check(sqlite3_prepare_v3(db, text, -1, SQLITE_PREPARE_PERSISTENT, &s, NULL) == SQLITE_OK);
    return s;
}

/* Binds numbers, in order. */
static void bind(sqlite3_stmt *s, int n, const sqlite3_int64 *values) {
    for (int i = 0; i < n; i++)
        sqlite3_bind_int64(s, i + 1, values[i]);
}

static void run(sqlite3_stmt *s) {
    check(sqlite3_step(s) == SQLITE_DONE);
    sqlite3_reset(s);
}

static void run_with(sqlite3_stmt *s, int n, const sqlite3_int64 *values) {
    bind(s, n, values);
    run(s);
}

static void prepare_all(void) {
    begin = prepare("BEGIN");
    commit = prepare("COMMIT");
    rollback = prepare("ROLLBACK");
    add_number = prepare("INSERT INTO numbers VALUES (?, ?, ?, ?, ?)");
    add_file = prepare("INSERT INTO files (kind, publisher, day) VALUES (?, ?, ?)");
    add_record = prepare("INSERT INTO records (file, first, last, day, class, publisher, place, text) VALUES (?, ?, ?, ?, ?, ?, ?, ?)");
    find_number = prepare("SELECT id, owner, setup FROM numbers WHERE first = ? AND last = ?");
    history = prepare("SELECT id, day, class, publisher, place, text FROM records WHERE first = ? AND last = ? ORDER BY day, class, publisher, place");
    put_holder = prepare("REPLACE INTO entries VALUES (?, ?, ?)");
    clear_places = prepare("DELETE FROM places WHERE number = ?");
    put_place = prepare("INSERT INTO places VALUES (?, ?, ?, ?, ?, ?, ?, ?)");
    get_entry = prepare("SELECT holder, confirmed FROM entries WHERE number = ?");
    quick_check = prepare("PRAGMA quick_check(1)");
    get_places = prepare("SELECT place, kind, date, losing, gaining, day, at FROM places WHERE number = ?");
}

/* The table has passed plain_start; each line with its first entry. */
void sqlite_start(const uint8_t *table, size_t length) {
    check(sqlite3_open(":memory:", &db) == SQLITE_OK);
    check(sqlite3_exec(db, schema, NULL, NULL, NULL) == SQLITE_OK);
    prepare_all();
    stored[0] = stored[1] = 0;
    const uint8_t *end = table + length;
    run(begin);
    for (int i = 0; table < end; i++) {
        const uint8_t *lf = memchr(table, '\n', end - table), *comma = memchr(table, ',', end - table), *second = memchr(comma + 1, ',', end - comma);
        struct number n;
        check(read_number(table, comma - table, comma + 1, second - comma - 1, &n));
        sqlite3_int64 line[5] = {i, n.first, n.last, read_code(second + 1, 4), read_date(second + 6, 8)};
        run_with(add_number, 5, line);
        sqlite3_int64 entry[3] = {i, line[3], NONE};
        run_with(put_holder, 3, entry);
        table = lf + 1;
    }
    run(commit);
}

/* ---- a number's history, folded */

static int line_of(struct number n, struct line *l) {
    sqlite3_int64 key[2] = {n.first, n.last};
    int id = NONE;
    bind(find_number, 2, key);
    if (sqlite3_step(find_number) == SQLITE_ROW) {
        id = sqlite3_column_int(find_number, 0);
        *l = (struct line){n, sqlite3_column_int(find_number, 1), sqlite3_column_int(find_number, 2)};
    }
    sqlite3_reset(find_number);
    return id;
}

static void step_row(const struct line *l, struct entry *e, struct pair *why) {
    int id = sqlite3_column_int(history, 0), day = sqlite3_column_int(history, 1), class = sqlite3_column_int(history, 2);
    int publisher = sqlite3_column_int(history, 3), place = sqlite3_column_int(history, 4);
    const uint8_t *text = sqlite3_column_text(history, 5);
    int length = sqlite3_column_bytes(history, 5);
    if (class == 0) {
        struct correction c;
        read_correction(text, length, &c);
        plain_step_correction(l, e, publisher, &c);
    } else {
        struct part p;
        read_report(text, length, &p);
        plain_step_report(l, e, why, publisher, day, place, id, &p);
    }
}

/* Answers how many records the number has. */
static int fold(struct number n, const struct line *l, struct entry *e, struct pair *why) {
    sqlite3_int64 key[2] = {n.first, n.last};
    int count = 0;
    bind(history, 2, key);
    while (sqlite3_step(history) == SQLITE_ROW) {
        count++;
        if (l)
            step_row(l, e, why);
    }
    sqlite3_reset(history);
    return count;
}

static void put_entry(int id, const struct entry *e) {
    sqlite3_int64 holder[3] = {id, e->holder, e->last}, number[1] = {id};
    run_with(put_holder, 3, holder);
    run_with(clear_places, 1, number);
    for (int i = 0; i < PLACES; i++) {
        const struct place *p = &e->places[i];
        sqlite3_int64 values[8] = {id, i, p->kind, p->date, p->losing, p->gaining, p->day, p->at};
        if (p->taken)
            run_with(put_place, 8, values);
    }
}

static int renew(struct number n) {
    struct line l;
    struct entry e;
    struct pair why;
    int id = line_of(n, &l);
    if (id == NONE)
        return fold(n, NULL, NULL, NULL);
    first_entry(&l, &e);
    int count = fold(n, &l, &e, &why);
    put_entry(id, &e);
    return count;
}

/* SQLite's own check of the whole database, its counterpart of 44. */
int sqlite_readable(void) {
    int good = sqlite3_step(quick_check) == SQLITE_ROW && strcmp((const char *)sqlite3_column_text(quick_check, 0), "ok") == 0;
    sqlite3_reset(quick_check);
    return good;
}

/* ---- filing */

static struct number add(int kind, sqlite3_int64 file, int publisher, int day, int place, const uint8_t *text, int length) {
    struct number n;
    int class = 0;
    if (kind == CORRECTION) {
        struct correction c;
        read_correction(text, length, &c);
        n = c.u.number.first == 1 ? c.k.number : c.u.number;
    } else {
        struct part p;
        read_report(text, length, &p);
        n = p.number, class = 1 + p.kind;
    }
    sqlite3_int64 values[7] = {file, n.first, n.last, day, class, publisher, place};
    bind(add_record, 7, values);
    sqlite3_bind_text(add_record, 8, (const char *)text, length, SQLITE_STATIC);
    run(add_record);
    return n;
}

static int by_number(const void *a, const void *b) {
    return memcmp(a, b, sizeof(struct number));
}

int sqlite_file(int kind, int publisher, int day, const uint8_t *text, size_t length, int *count) {
    static struct number named[REPORTS];
    static const int most[2] = {REPORTS, CORRECTIONS};
    sqlite3_int64 key[3] = {kind, publisher, day};
    struct fault fault;
    int m;
    run(begin);
    bind(add_file, 3, key);
    int twice = sqlite3_step(add_file) != SQLITE_DONE;
    sqlite3_reset(add_file);
    int answer = twice ? 3 : plain_judge(kind, text, length, &m, &fault) != 0 ? 4 : stored[kind] + m > most[kind] ? 5 : 0;
    if (answer) {
        run(rollback);
        return answer;
    }
    sqlite3_int64 file = sqlite3_last_insert_rowid(db);
    for (int i = 0; i < m; i++) {
        const uint8_t *cr = memchr(text, 13, 100);
        named[i] = add(kind, file, publisher, day, i, text, cr - text);
        text = cr + 1;
    }
    qsort(named, m, sizeof *named, by_number);
    *count = 0;
    for (int i = 0; i < m; i++)
        if (i == 0 || !same_number(named[i], named[i - 1]))
            *count += renew(named[i]);
    run(commit);
    stored[kind] += m;
    return 0;
}

/* ---- asking */

int sqlite_why(struct number n, struct pair *why) {
    struct line l;
    struct entry e;
    if (line_of(n, &l) == NONE)
        return 12;
    first_entry(&l, &e);
    *why = (struct pair){NONE, NONE};
    fold(n, &l, &e, why);
    return 0;
}

void sqlite_entry(int i, struct entry *e) {
    sqlite3_int64 key[1] = {i};
    memset(e, 0, sizeof *e);
    bind(get_entry, 1, key);
    check(sqlite3_step(get_entry) == SQLITE_ROW);
    e->holder = sqlite3_column_int(get_entry, 0);
    e->last = sqlite3_column_int(get_entry, 1);
    sqlite3_reset(get_entry);
    bind(get_places, 1, key);
    while (sqlite3_step(get_places) == SQLITE_ROW) {
        int v[7];
        for (int k = 0; k < 7; k++)
            v[k] = sqlite3_column_int(get_places, k);
        e->places[v[0]] = (struct place){1, v[1], v[2], v[3], v[4], v[5], v[6], NONE};
    }
    sqlite3_reset(get_places);
}

void sqlite_end(void) {
    sqlite3_stmt *s;
    while ((s = sqlite3_next_stmt(db, NULL)))
        sqlite3_finalize(s);
    sqlite3_close(db);
}
