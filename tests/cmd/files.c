/* Writes the files of tests/vectors, from standard input, into a folder as NAME.cgx, and prints a line for each: its name
   and the verdict that is stored with it. Where its records are stored too, NAME.list is what `cgx list -v` should print. */
#include <stdbool.h>
#include <stdio.h>
#include <stdlib.h>
#include <string.h>

enum { LARGEST = 1 << 20, LONGEST = 1 << 16 };

static char line[LONGEST];
static char name[200];
static unsigned char bytes[LARGEST];
static size_t size;

static bool next(void) {
    if (fgets(line, sizeof line, stdin) == NULL) return false;
    line[strcspn(line, "\n")] = 0;
    return true;
}

static bool begins(const char *word) {
    return strncmp(line, word, strlen(word)) == 0;
}

static FILE *create(const char *folder, const char *ending) {
    char path[1000];
    FILE *f;
    snprintf(path, sizeof path, "%s/%s%s", folder, name, ending);
    f = fopen(path, "wb");
    if (f == NULL) {
        perror(path);
        exit(2);
    }
    return f;
}

/* A piece of bytes, once or as often as the number after a star says. */
static void read_hex(const char *digits) {
    size_t start = size, piece, times = 1, i;
    unsigned byte;
    for (; sscanf(digits, "%2x", &byte) == 1 && *digits != '*'; digits += 2) bytes[size++] = (unsigned char)byte;
    piece = size - start;
    if (*digits == '*') times = (size_t)strtoul(digits + 1, NULL, 10);
    for (i = piece; i < piece * times && size < LARGEST; i++) bytes[size++] = bytes[start + i % piece];
}

/* Of `OFFSET KIND flags F cell C layer L run R ..` all but the flags and what comes after the run. */
static void write_record(FILE *list) {
    char at[24], kind[12], cell[24], layer[24], run[48];
    if (sscanf(line, " %23[0-9] %11[A-Z] flags %*d cell %23s layer %23s run %47s", at, kind, cell, layer, run) == 5)
        fprintf(list, "%s %s cell %s layer %s run %s\n", at, kind, cell, layer, run);
}

/* The answers, up to the line that ends the walk. A walk that is stored as a checksum has no list. */
static void read_answers(const char *folder) {
    FILE *list;
    printf("%s %s\n", name, line + 2);
    if (!next() || strstr(line, " lines ") != NULL) return;
    list = create(folder, ".list");
    for (; begins("  ") && !begins("  done") && !begins("  refused") && !begins("  start"); next()) write_record(list);
    fclose(list);
}

int main(int argc, char **argv) {
    bool more = next();
    if (argc != 2) {
        fputs("usage: files FOLDER < VECTORS\n", stderr);
        return 2;
    }
    while (more) {
        FILE *f;
        if (sscanf(line, "case %199s", name) != 1) {
            more = next();
            continue;
        }
        more = next();
        if (begins("from ")) continue;
        for (size = 0; more && begins("hex "); more = next()) read_hex(line + 4);
        f = create(argv[1], ".cgx");
        fwrite(bytes, 1, size, f);
        fclose(f);
        if (more) read_answers(argv[1]);
    }
    return 0;
}
