/* cgx labels: every TEXT with its cell, its layer and its place. */
#include "command.h"

#include <stdio.h>

/* What was read before a TEXT. */
typedef struct {
    cgx_text cell;
    char numbers[16]; /* of the layer, shown where it has no name */
    int len;
} context;

static void put_layer(const input *file, const cgx_view *view, const context *before) {
    const uint8_t *numbers = (const uint8_t *)before->numbers;
    cgx_text name;
    if (cgx_layer_name(file->bytes, file->size, view->layer, numbers, (uint64_t)before->len, &name) == CGX_OK)
        put_text(file, &name);
    else
        put(before->numbers);
}

static void put_label(const input *file, const cgx_view *view, const context *before) {
    put(file->prefix);
    put_text(file, &before->cell);
    put("\t");
    put_layer(file, view, before);
    put("\t");
    put_number(view->fields.text.point.x);
    put("\t");
    put_number(view->fields.text.point.y);
    put("\t");
    put_text(file, &view->fields.text.label);
    put("\n");
}

static void record(const input *file, const cgx_view *view, void *state) {
    context *c = state;
    const cgx_layer_id *id = &view->fields.layer.id;
    if (view->kind == CGX_STRUCT) c->cell = view->fields.structure.name;
    if (view->kind == CGX_LAYER) c->len = snprintf(c->numbers, sizeof c->numbers, "%d/%d", id->number, id->datatype);
    if (view->kind == CGX_TEXT) put_label(file, view, c);
}

static status labels(const input *file, const request *r) {
    context start = {{0, 0}, "", 0};
    (void)r;
    return walk(file, record, &start);
}

static status run(const request *r) {
    return each_file(r, labels);
}

const word word_labels = {
    .name = "labels",
    .arguments = "FILE..",
    .summary = "print each label with its cell, its layer and its place",
    .details = "Prints a line for each TEXT, with tabs between: the name of its cell, the name\n"
               "of its layer, x, y, the label. A layer without a name is shown by its numbers,\n"
               "as 7/1. With several files each line begins with the file's name.\n",
    .run = run,
};
