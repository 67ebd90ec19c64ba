/* Lists the labels of the drawing on standard input, up to 1 MiB, a line each: its cell, its layer and the label. */
#include "cgx.h"
#include <stdio.h>

static void print(const uint8_t *from, cgx_text text, char end) {
    fwrite(from + text.at, 1, (size_t)text.len, stdout);
    putchar(end);
}

int main(void) {
    static uint8_t file[1 << 20], numbers[16]; /* a layer without a name is shown by its numbers */
    uint64_t size = fread(file, 1, sizeof file, stdin), at = 0;
    int len = 0;
    cgx_text cell = {0, 0}, layer;
    cgx_place place;
    cgx_view view;
    uint32_t answer = cgx_start(file, size, &place, &at);
    while (answer == CGX_OK && (answer = cgx_step(file, size, &place, &view, &at)) == CGX_OK) {
        const cgx_fields *f = &view.fields;
        if (view.kind == CGX_STRUCT) cell = f->structure.name;
        if (view.kind == CGX_LAYER)
            len = snprintf((char *)numbers, sizeof numbers, "%d/%d", f->layer.id.number, f->layer.id.datatype);
        if (view.kind != CGX_TEXT) continue;
        uint32_t shown = cgx_layer_name(file, size, view.layer, numbers, (uint64_t)len, &layer);
        print(file, cell, '\t');
        print(shown == CGX_SUBSTITUTE ? numbers : file, layer, '\t');
        print(file, f->text.label, '\n');
    }
    if (answer == CGX_DONE) return 0;
    printf("refused %u at %llu: %s\n", (unsigned)answer, (unsigned long long)at, cgx_refusal_words(answer));
    return 1;
}
