/* The command line of the tool over plain.c, so that tests/compare can hold it to the witness: what the benchmark compares with is right. */
#include "plain.h"

#include <stdio.h>
#include <stdlib.h>
#include <string.h>
#include <sys/stat.h>

static uint8_t table[TABLE_LENGTH], files[FILES_LENGTH], regular[REGULAR_LENGTH], corrections[CORRECTIONS_LENGTH], entries[ENTRIES_LENGTH];
static struct store store = {{table, TABLE_LENGTH}, {files, FILES_LENGTH}, {regular, REGULAR_LENGTH}, {corrections, CORRECTIONS_LENGTH}, {entries, ENTRIES_LENGTH}};

static void stop(const char *what) {
    fflush(stdout);
    fprintf(stderr, "%s\n", what);
    exit(2);
}

static uint8_t *read_whole(const char *path, size_t *length) {
    FILE *f = fopen(path, "rb");
    struct stat st;
    if (!f || fstat(fileno(f), &st) != 0 || !S_ISREG(st.st_mode))
        stop(path);
    uint8_t *bytes = malloc(st.st_size + 1);
    *length = fread(bytes, 1, st.st_size, f);
    fclose(f);
    return bytes;
}

static const struct bytes *buffers[5] = {&store.table, &store.files, &store.regular, &store.corrections, &store.entries};

static void load(const char *path) {
    FILE *f = fopen(path, "rb");
    if (!f)
        stop(path);
    for (int i = 0; i < 5; i++)
        if (fread(buffers[i]->at, 1, buffers[i]->length, f) != buffers[i]->length)
            stop(path);
    fclose(f);
}

static void save(const char *path) {
    FILE *f = fopen(path, "wb");
    if (!f)
        stop(path);
    for (int i = 0; i < 5; i++)
        fwrite(buffers[i]->at, 1, buffers[i]->length, f);
    fclose(f);
}

/* ---- what is printed */

static void print_day(int day) {
    int y, m, d;
    date_of(day, &y, &m, &d);
    printf("%04d-%02d-%02d", y, m, d);
}

static void print_number(struct number n) {
    char digits[24];
    sprintf(digits, "%llu", (unsigned long long)n.first);
    printf("%s", digits + 1);
    if (n.last != 1) {
        sprintf(digits, "%llu", (unsigned long long)n.last);
        printf("-%s", digits + 1);
    }
}

static void print_entry(const struct entry *e) {
    printf("\tD%03d\t", e->holder);
    if (e->last == NONE)
        putchar('-');
    else
        print_day(e->last);
    putchar('\t');
    int any = 0;
    for (int i = 0; i < PLACES; i++) {
        const struct place *p = &e->places[i];
        if (!p->taken)
            continue;
        printf("%s%d:%c:", any++ ? ";" : "", i, "PLZ"[p->kind]);
        print_day(p->date);
        printf(":D%03d>D%03d:", p->losing, p->gaining);
        print_day(p->day);
    }
    if (!any)
        putchar('-');
}

static void print_report(int place) {
    struct filed f;
    plain_record(&store, DEFAULT, place, &f);
    printf("\t%.*s\t", f.length, f.bytes);
    print_day(f.day);
}

static void print_fault(const struct fault *f) {
    static const char *const causes[] = {"", "character", "length", "date", "code", "value", "closing", "after"};
    printf("refused\t4\t%d\t%d\t%s\n", f->place, f->field, causes[f->cause]);
}

/* ---- names */

static int read_name(const char *path, int *day) {
    const char *slash = strrchr(path, '/'), *name = slash ? slash + 1 : path;
    if (strlen(name) != 12 || name[0] != '1' || strcmp(name + 8, ".txt") != 0)
        return NONE;
    for (int i = 2; i < 8; i++)
        if (name[i] < '0' || name[i] > '9')
            return NONE;
    int six = atoi(name + 2), year = six / 10000;
    if (year >= 50 && year < 98)
        return NONE;
    *day = day_of(year + (year >= 98 ? 1900 : 2000), six / 100 % 100, six % 100);
    const char *letters = "DKQR", *letter = strchr(letters, name[1]);
    return *day == NONE || !name[1] || !letter ? NONE : letter - letters;
}

static int find_line(const char *text) {
    const char *dash = strchr(text, '-');
    struct number n;
    size_t first = dash ? (size_t)(dash - text) : strlen(text);
    const char *last = dash ? dash + 1 : text + first;
    if ((dash && !*last) || !read_number((const uint8_t *)text, first, (const uint8_t *)last, strlen(last), &n))
        return NONE;
    return plain_line_of(&store, n);
}

/* ---- the commands; each answers the status */

static int start(const char *path, const char *text_path) {
    struct stat st;
    if (lstat(path, &st) == 0)
        stop("it is there already");
    size_t length;
    int count;
    uint8_t *text = read_whole(text_path, &length);
    if (plain_start(&store, text, length, &count) != 0) {
        printf("refused\t6\n");
        return 1;
    }
    save(path);
    printf("started\t%d\n", count);
    return 0;
}

static int file_one(const char *publisher, const char *path) {
    int day, count = 0, answer;
    struct fault fault;
    if (read_code((const uint8_t *)publisher, strlen(publisher)) == NONE) {
        answer = 1;
    } else {
        int kind = read_name(path, &day);
        if (kind == DEFAULT || kind == CORRECTION) {
            size_t length;
            uint8_t *text = read_whole(path, &length);
            answer = plain_file(&store, kind, (const uint8_t *)publisher, strlen(publisher), day, text, length, &count, &fault);
            free(text);
        } else {
            answer = 2;
        }
    }
    printf("%s\t", path);
    if (answer == 0)
        printf("filed\t%d\n", count);
    else if (answer == 4)
        print_fault(&fault);
    else
        printf("refused\t%d\n", answer);
    return answer != 0;
}

static int file_all(const char *path, char **args, int n) {
    int status = 0;
    load(path);
    for (int i = 1; i < n; i++) {
        status |= file_one(args[0], args[i]);
        save(path);
    }
    return status;
}

static int file_list(const char *path, const char *list) {
    size_t length;
    int status = 0;
    char *text = (char *)read_whole(list, &length), *line = text;
    text[length] = 0;
    load(path);
    while (*line) {
        char *end = strchr(line, '\n');
        if (end)
            *end = 0;
        if (*line) {
            char *tab = strchr(line, '\t');
            if (!tab)
                stop("a line without a tab");
            *tab = 0;
            status |= file_one(line, tab + 1);
            save(path);
        }
        if (!end)
            break;
        line = end + 1;
    }
    return status;
}

static int list_files(void) {
    for (int i = 0; i < plain_file_count(&store); i++) {
        int kind, publisher, day, count;
        plain_file_at(&store, i, &kind, &publisher, &day, &count);
        printf("%d\t%s\tD%03d\t", i + 1, kind ? "correction" : "default", publisher);
        print_day(day);
        printf("\t%d\n", count);
    }
    return 0;
}

/* A line's entry as stored, or over the first files where `over` is not NONE. */
static void show_line(int i, int over) {
    struct entry e;
    struct pair why;
    if (over == NONE)
        plain_entry(&store, i, &e);
    else
        plain_work_out(&store, over, i, &e, &why);
    print_entry(&e);
    putchar('\n');
}

static int show(char **numbers, int n, int over) {
    int status = 0, lines = table[0] | table[1] << 8;
    if (n == 0)
        for (int i = 0; i < lines; i++) {
            struct line l;
            plain_line(&store, i, &l);
            print_number(l.number);
            show_line(i, over);
        }
    for (int k = 0; k < n; k++) {
        int i = find_line(numbers[k]);
        printf("%s", numbers[k]);
        if (i == NONE) {
            printf("\trefused\t12\n");
            status = 1;
        } else {
            show_line(i, over);
        }
    }
    return status;
}

static int show_before(char **args, int n) {
    int before = atoi(args[0]);
    if (before <= 0)
        stop("--before wants the number of a file, from 1");
    if (before > plain_file_count(&store)) {
        printf("refused\t7\n");
        return 1;
    }
    return show(args + 1, n - 1, before - 1);
}

static int why(char **numbers, int n) {
    int status = 0;
    for (int k = 0; k < n; k++) {
        int i = find_line(numbers[k]);
        struct line l;
        struct pair pair;
        printf("%s", numbers[k]);
        if (i == NONE) {
            printf("\trefused\t12\n");
            status = 1;
            continue;
        }
        plain_line(&store, i, &l);
        plain_why(&store, l.number, &pair);
        if (pair.first == NONE) {
            printf("\tnone\n");
            continue;
        }
        printf("\tpair");
        print_report(pair.first);
        print_report(pair.second);
        putchar('\n');
    }
    return status;
}

static int verdicts(void) {
    struct filed f;
    for (int kind = DEFAULT; kind <= CORRECTION; kind++)
        for (int i = 0; plain_record(&store, kind, i, &f) == 0; i++) {
            printf("%c\t%d\tD%03d\t", "RC"[kind], i, f.publisher);
            print_day(f.day);
            printf("\t%d\t%d\t%.*s\n", f.place, f.verdict, f.length, f.bytes);
        }
    return 0;
}

static int figure(void) {
    int lines = table[0] | table[1] << 8, differ = 0;
    for (int i = 0; i < lines; i++) {
        struct entry stored, worked;
        struct pair pair;
        plain_entry(&store, i, &stored);
        plain_work_out(&store, plain_file_count(&store), i, &worked, &pair);
        differ += !plain_same_entry(&stored, &worked);
    }
    printf("differ\t%d\tof\t%d\n", differ, lines);
    return differ != 0;
}

static int rework(const char *path) {
    int lines = table[0] | table[1] << 8, changed = 0;
    for (int i = 0; i < lines; i++) {
        struct line l;
        struct entry stored, worked;
        if (!plain_rework(&store, i, &stored, &worked))
            continue;
        changed++;
        plain_line(&store, i, &l);
        print_number(l.number);
        print_entry(&stored);
        print_entry(&worked);
        putchar('\n');
    }
    save(path);
    printf("changed\t%d\tof\t%d\n", changed, lines);
    return 0;
}

static int read_file(const char *path) {
    int day, count, kind = read_name(path, &day);
    struct fault fault;
    if (kind == NONE) {
        printf("refused\t2\n");
        return 1;
    }
    size_t length;
    uint8_t *text = read_whole(path, &length), *at = text;
    if (plain_judge(kind, text, length, &count, &fault) != 0) {
        print_fault(&fault);
        return 1;
    }
    for (int i = 0; i < count; i++) {
        uint8_t *cr = memchr(at, 13, text + length - at);
        printf("record\t%d\t%.*s\n", i, (int)(cr - at), at);
        at = cr + 1;
    }
    return 0;
}

int main(int argc, char **argv) {
    if (argc < 3)
        stop("usage: as witness/README.md has it");
    const char *command = argv[1], *path = argv[2];
    int list = argc > 3 && strcmp(argv[3], "--list") == 0, before = argc > 4 && strcmp(argv[3], "--before") == 0;
    if (strcmp(command, "start") == 0 && argc == 4)
        return start(path, argv[3]);
    if (strcmp(command, "read") == 0)
        return read_file(path);
    if (strcmp(command, "file") == 0 && argc > 4)
        return list ? file_list(path, argv[4]) : file_all(path, argv + 3, argc - 3);
    load(path);
    if (strcmp(command, "files") == 0)
        return list_files();
    if (strcmp(command, "show") == 0)
        return before ? show_before(argv + 4, argc - 4) : show(argv + 3, argc - 3, NONE);
    if (strcmp(command, "why") == 0 && argc > 3)
        return why(argv + 3, argc - 3);
    if (strcmp(command, "verdicts") == 0)
        return verdicts();
    if (strcmp(command, "figure") == 0)
        return figure();
    if (strcmp(command, "rework") == 0 && argc == 3)
        return rework(path);
    stop("usage: as witness/README.md has it");
}
