/* Reads what was typed after a word: options before and after files; after -- there are only files. */
#include "command.h"

#include <stdio.h>
#include <stdlib.h>
#include <string.h>

void usage_trouble(const word *w, const char *what, const char *why) {
    char line[200];
    if (w == NULL)
        snprintf(line, sizeof line, "%s; see cgx --help", why);
    else
        snprintf(line, sizeof line, "%s; see cgx %s --help", why, w->name);
    complain(what, line);
    exit(TROUBLE);
}

/* The option of a letter, or of a name; that without a name, which ends them, where there is none. */
static const option *by_letter(const word *w, char letter) {
    const option *o = w->options;
    while (o->name != NULL && o->letter != letter) o++;
    return o;
}

static const option *by_name(const word *w, const char *name, size_t len) {
    const option *o = w->options;
    while (o->name != NULL && (strncmp(o->name, name, len) != 0 || o->name[len] != 0)) o++;
    return o;
}

/* Takes the option; its value is in the same argument, or is the next one. Answers how many arguments were read. */
static int take_option(request *r, const option *o, const char *typed, const char *value, const char *next) {
    if (o->name == NULL) usage_trouble(r->w, typed, "no such option");
    if (o->value == NULL && value != NULL) usage_trouble(r->w, typed, "the option takes no value");
    if (o->value != NULL && value == NULL && next == NULL) usage_trouble(r->w, typed, "a value is missing");
    r->given[o - r->w->options] = o->value == NULL ? "" : value != NULL ? value : next;
    return o->value != NULL && value == NULL ? 2 : 1;
}

/* Reads one argument that begins with a dash, or two. */
static int read_option(request *r, const char *typed, const char *next) {
    const char *equals = strchr(typed, '=');
    size_t len = equals != NULL ? (size_t)(equals - typed) : strlen(typed);
    if (strcmp(typed, "--help") == 0 || strcmp(typed, "-h") == 0) {
        r->help = true;
        return 1;
    }
    if (typed[1] != '-') return take_option(r, by_letter(r->w, typed[1]), typed, typed[2] != 0 ? typed + 2 : NULL, next);
    return take_option(r, by_name(r->w, typed + 2, len - 2), typed, equals != NULL ? equals + 1 : NULL, next);
}

void read_arguments(request *r, int count, char **arguments) {
    bool options = true;
    int i = 0;
    while (i < count) {
        const char *a = arguments[i];
        if (options && strcmp(a, "--") == 0) {
            options = false;
            i++;
        } else if (options && a[0] == '-' && a[1] != 0) {
            i += read_option(r, a, arguments[i + 1]);
        } else {
            r->files[r->file_count++] = a;
            i++;
        }
    }
}
