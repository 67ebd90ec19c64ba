/* Checks a drawing without a C library: the archive needs nothing else. x86-64 Linux; the exit status is 0 where
   cgx_check says what it should. */
#include "cgx.h"

/* LIBRARY "m", STRUCT "a", an unnamed LAYER, one box, ENDLIB. */
static const uint8_t drawing[96] = {
    'c', 'g', 'x', 0,
    0, 38, 0, 0, 0x3e, 0x41, 0x89, 0x37, 0x4b, 0xc6, 0xa7, 0xf0, 0x39, 0x44, 0xb8, 0x2f, 0xa0, 0x9b, 0x5a, 0x54,
    0x07, 0xe9, 2, 6, 14, 9, 45, 0, 0x07, 0xe9, 2, 6, 14, 9, 51, 0, 'm', 0,
    0, 22, 1, 0, 0x07, 0xe9, 2, 6, 14, 9, 45, 0, 0x07, 0xe9, 2, 6, 14, 9, 51, 0, 'a', 0,
    0, 8, 4, 0, 0, 1, 0, 0,
    0, 20, 5, 0, 0xff, 0xff, 0xff, 0xb0, 0, 0, 0, 0, 0, 0, 0, 82, 0, 0, 0, 58,
    0, 4, 10, 0,
};

int checked(void);

int checked(void) {
    uint64_t at = 1;
    if (cgx_check(drawing, sizeof drawing, &at) != CGX_OK || at != 1) return 1;
    if (cgx_check(drawing, sizeof drawing - 1, &at) != CGX_REFUSED_CUT || at != 92) return 2;
    return 0;
}

__asm__(
    ".globl _start\n"
    "_start:\n"
    "    xor %ebp, %ebp\n"
    "    and $-16, %rsp\n"
    "    call checked\n"
    "    mov %eax, %edi\n"
    "    mov $60, %eax\n"
    "    syscall\n");
