/* Writes a year as a scenario (witness/README.md), so that tests/compare runs it: scenario SEED FOLDER. */
#include "plain.h"
#include "year.h"

#include <stdio.h>
#include <stdlib.h>
#include <sys/stat.h>

static FILE *create(const char *folder, const char *name) {
    char path[4096];
    snprintf(path, sizeof path, "%s/%s", folder, name);
    FILE *f = fopen(path, "wb");
    if (!f) {
        perror(path);
        exit(2);
    }
    return f;
}

int main(int argc, char **argv) {
    static struct year year;
    if (argc != 3)
        return 2;
    const char *folder = argv[2];
    make_year(&year, strtoull(argv[1], NULL, 10));
    mkdir(folder, 0777);
    FILE *table = create(folder, "table.txt"), *list = create(folder, "LIST"), *commands = create(folder, "COMMANDS");
    fwrite(year.table, 1, year.table_length, table);
    fclose(table);
    for (int i = 0; i < year.file_count; i++) {
        struct year_file *f = &year.files[i];
        char name[64], path[4096];
        int y, m, d;
        date_of(f->day, &y, &m, &d);
        snprintf(path, sizeof path, "%s/D%03d", folder, f->publisher);
        mkdir(path, 0777);
        snprintf(name, sizeof name, "D%03d/1%c%02d%02d%02d.txt", f->publisher, "DK"[f->kind], y % 100, m, d);
        FILE *out = create(folder, name);
        fwrite(f->text, 1, f->length, out);
        fclose(out);
        fprintf(list, "D%03d\t%s\n", f->publisher, name);
    }
    fclose(list);
    fprintf(commands, "start store table.txt\nfile store --list LIST\nfiles store\nshow store\nshow store --before 500\nverdicts store\nfigure store\n");
    fclose(commands);
    return 0;
}
