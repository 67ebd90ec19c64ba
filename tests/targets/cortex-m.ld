/* Code from 0 on; RAM bytes from 0x20000000 on (--defsym=RAM=..). The stack is the first quarter of them, so that a stack that is
   too large faults, and overwrites nothing. Nothing is copied at the start: no variable may have an initial value. */
SECTIONS {
    .text 0 : { KEEP(*(.vectors)) *(.text*) *(.rodata*) }
    .ARM.exidx : { *(.ARM.exidx*) }
    .data : { *(.data*) }
    stack_top = 0x20000000 + RAM / 4;
    .bss stack_top (NOLOAD) : { *(.bss*) *(COMMON) }
    ASSERT(SIZEOF(.data) == 0, "a variable has an initial value")
    ASSERT(ADDR(.bss) + SIZEOF(.bss) <= 0x20000000 + RAM, "more variables than RAM")
}
