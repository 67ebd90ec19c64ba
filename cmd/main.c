/* cgx: one command for CGX drawings, with a word for each thing that it does. */
#include "command.h"
#include "words.h"

#include <stdio.h>
#include <stdlib.h>
#include <string.h>

#define DECLARE(name) extern const word word_##name;
WORDS(DECLARE)
#define ENTRY(name) &word_##name,
static const word *const words[] = {WORDS(ENTRY)};
enum { WORD_COUNT = sizeof words / sizeof words[0] };

static const word *word_named(const char *name) {
    size_t i;
    for (i = 0; i < WORD_COUNT; i++)
        if (strcmp(words[i]->name, name) == 0) return words[i];
    return NULL;
}

/* ---- help */

static void put_line(const char *format, const char *a, const char *b) {
    char line[200];
    snprintf(line, sizeof line, format, a, b);
    put(line);
}

static void help(void) {
    size_t i;
    put("usage: cgx WORD [OPTION..] FILE..\n\nFor drawings in CGX, the chip-layout format. The words:\n\n");
    for (i = 0; i < WORD_COUNT; i++) put_line("  %-8s %s\n", words[i]->name, words[i]->summary);
    put("\nA FILE of - is standard input. `cgx WORD --help` says more of a word,\n"
        "`cgx --version` which version this is, and the page cgx(1) the rest.\n\n"
        "Exit status: 0 all files are accepted, 1 a file is refused, 2 trouble.\n");
}

static void option_help(const option *o) {
    char form[40], letter[5] = "    ";
    if (o->letter != 0) snprintf(letter, sizeof letter, "-%c, ", o->letter);
    snprintf(form, sizeof form, o->value != NULL ? "%s--%s=%s" : "%s--%s", letter, o->name, o->value);
    put_line("  %-18s %s\n", form, o->help);
}

static void word_help(const word *w) {
    const option *o;
    put_line(w->options[0].name != NULL ? "usage: cgx %s [OPTION..] %s\n\n" : "usage: cgx %s %s\n\n", w->name, w->arguments);
    put(w->details);
    put("\n");
    for (o = w->options; o->name != NULL; o++) option_help(o);
    put("      --help         print this\n");
}

static void version(void) {
    char line[80];
    snprintf(line, sizeof line, "cgx %d.%d, library %u.%u\n", CGX_VERSION_MAJOR, CGX_VERSION_MINOR,
        (unsigned)(cgx_version() / 0x10000), (unsigned)(cgx_version() % 0x10000));
    put(line);
}

/* ---- work */

/* What each line about a file begins with, where several are given. */
static char *prefix_of(const char *name) {
    char *form = escaped(name);
    size_t len = strlen(form);
    form = allocate(form, (uint64_t)len + 3);
    memcpy(form + len, ": ", 3);
    return form;
}

static status one_file(const request *r, const char *name, status (*one)(const input *file, const request *r)) {
    char *prefix = NULL;
    status result;
    input file;
    if (!open_input(name, &file)) return TROUBLE;
    if (r->file_count > 1) file.prefix = prefix = prefix_of(name);
    result = one(&file, r);
    flush_output();
    close_input(&file);
    free(prefix);
    return result;
}

status each_file(const request *r, status (*one)(const input *file, const request *r)) {
    status worst = ACCEPTED;
    int i;
    for (i = 0; i < r->file_count; i++) {
        status result = one_file(r, r->files[i], one);
        if (result > worst) worst = result;
    }
    return worst;
}

static void check_file_count(const request *r) {
    char takes[40];
    int wanted = r->w->files;
    if (r->file_count == 0) usage_trouble(r->w, r->w->name, "no file is named");
    snprintf(takes, sizeof takes, wanted == 1 ? "takes one file" : "takes %d files", wanted);
    if (wanted > 0 && r->file_count != wanted) usage_trouble(r->w, r->w->name, takes);
}

static status word_main(const word *w, int count, char **arguments) {
    request r = {.w = w};
    status result = ACCEPTED;
    r.files = allocate(NULL, sizeof *r.files * ((uint64_t)count + 1));
    read_arguments(&r, count, arguments);
    if (r.help) {
        word_help(w);
    } else {
        check_file_count(&r);
        result = w->run(&r);
    }
    free(r.files);
    return result;
}

int main(int argc, char **argv) {
    const char *first = argc > 1 ? argv[1] : "";
    const word *w = word_named(first);
    status result = ACCEPTED;
    if (!cgx_version_fits()) usage_trouble(NULL, "", "the library is of another version");
    if (w != NULL)
        result = word_main(w, argc - 2, argv + 2);
    else if (strcmp(first, "--help") == 0 || strcmp(first, "-h") == 0)
        help();
    else if (strcmp(first, "--version") == 0)
        version();
    else
        usage_trouble(NULL, first, argc > 1 ? "no such word" : "no word is given");
    flush_output();
    return (int)result;
}
