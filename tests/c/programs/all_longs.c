/* Every long there is, from the lowest to the highest, read from its four bytes through cgx_box_at, four at a time. The numbers are counted up,
   and their bytes with them, so that neither is worked out from the other. Ends with status 0 where all are right. */
#include "cgx.h"

#include <stdio.h>

/* The next number's bytes: one more, from the last byte on. */
static void count_up(uint8_t bytes[4]) {
    int i = 3;
    while (++bytes[i] == 0 && i > 0) i--;
}

int main(void) {
    const cgx_list boxes = {0, 1};
    uint8_t bytes[4] = {0x80, 0, 0, 0}, file[16];
    int64_t number = INT32_MIN;
    uint64_t wrong = 0;
    while (number <= INT32_MAX) {
        cgx_box box;
        int i, j;
        for (i = 0; i < 4; i++) {
            for (j = 0; j < 4; j++) file[4 * i + j] = bytes[j];
            count_up(bytes);
        }
        wrong += cgx_box_at(file, sizeof file, &boxes, 0, &box) != CGX_OK || box.left != number || box.bottom != number + 1
            || box.right != number + 2 || box.top != number + 3;
        number += 4;
    }
    printf("%llu of 1073741824 boxes are read as other numbers\n", (unsigned long long)wrong);
    return wrong != 0;
}
