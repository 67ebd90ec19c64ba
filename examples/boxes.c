/* Says how many boxes the drawing on standard input has. */
#include "cgx.h"
#include <stdio.h>

int main(void) {
    static uint8_t file[65536];
    uint64_t size = fread(file, 1, sizeof file, stdin), boxes = 0, at = 0;
    cgx_place place;
    cgx_view view;
    uint32_t answer = cgx_start(file, size, &place, &at);
    while (answer == CGX_OK && (answer = cgx_step(file, size, &place, &view, &at)) == CGX_OK) {
        if (view.kind == CGX_BOX) boxes += view.fields.box.boxes.count;
    }
    if (answer != CGX_DONE) {
        printf("refused %u at %llu\n", (unsigned)answer, (unsigned long long)at);
        return 1;
    }
    printf("%llu boxes\n", (unsigned long long)boxes);
    return 0;
}
