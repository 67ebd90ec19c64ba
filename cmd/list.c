/* cgx list: the records of a file, as the proved lister prints them. */
#include "command.h"

static void put_none_or(const char *what, uint64_t at) {
    put(what);
    if (at == 0)
        put("-");
    else
        put_offset(at);
}

static void put_context(const cgx_view *view) {
    put_none_or(" cell ", view->cell);
    put_none_or(" layer ", view->layer);
    put_none_or(" run ", view->properties.first);
    if (view->properties.count == 0) return;
    put("+");
    put_offset(view->properties.count);
}

static void put_record(const input *file, const cgx_view *view, void *verbose) {
    put(file->prefix);
    put_offset(view->at);
    put(" ");
    put(cgx_kind_name(view->kind));
    if (verbose != NULL) put_context(view);
    put("\n");
}

static status list(const input *file, const request *r) {
    return walk(file, put_record, (void *)(uintptr_t)r->given[0]);
}

static status run(const request *r) {
    return each_file(r, list);
}

const word word_list = {
    .name = "list",
    .arguments = "FILE..",
    .summary = "print the offset and the name of each record",
    .details = "Prints a line for each record: OFFSET KIND. Unknown records are skipped.\n"
               "With several files each line begins with the file's name.\n",
    .options = {{'v', "verbose", NULL, "with the offsets of its cell, layer and properties"}},
    .run = run,
};
