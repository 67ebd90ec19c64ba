/* The digest program on a bare Cortex-M under qemu-system-arm: it reads the file `cases` and writes the file `answers` of
   the folder in which qemu runs, by semihosting. A fault, such as an access that is not aligned, ends it with status 1. */
#include "port.h"

enum { SYS_OPEN = 1, SYS_WRITE = 5, SYS_READ = 6, SYS_EXIT = 0x18 };
enum { OPEN_RB = 1, OPEN_WB = 5, STOPPED_WELL = 0x20026, STOPPED_BADLY = 0x20023 };

__asm__(".text\n.syntax unified\n.thumb\n.globl semihosting\n.type semihosting, %function\n"
        "semihosting: bkpt 0xab\n bx lr\n");
uint32_t semihosting(uint32_t operation, const void *words);

static uint32_t cases, answers;

static uint32_t opened(const char *name, uint32_t mode) {
    uint32_t words[3] = {(uint32_t)name, mode, 0};
    while (name[words[2]] != 0) words[2]++;
    return semihosting(SYS_OPEN, words);
}

uint32_t port_read(uint8_t *to, uint32_t count) {
    uint32_t words[3] = {cases, (uint32_t)to, count};
    return count - semihosting(SYS_READ, words); /* it answers how many it did not read */
}

void port_write(const uint8_t *from, uint32_t count) {
    uint32_t words[3] = {answers, (uint32_t)from, count};
    semihosting(SYS_WRITE, words);
}

static void stop(int good) {
    for (;;) semihosting(SYS_EXIT, (const void *)(good ? STOPPED_WELL : STOPPED_BADLY));
}

static void fault(void) { stop(0); }

static void begin(void) {
    *(volatile uint32_t *)0xe000ed14 |= 8; /* CCR.UNALIGN_TRP: a Cortex-M3 faults too where a Cortex-M0 always does */
    __asm__ volatile("dsb\n isb");
#ifdef UNALIGNED
    uint32_t word = 0x20000002; /* does this board fault? */
    __asm__ volatile("ldr %0, [%0]" : "+l"(word));
#endif
    cases = opened("cases", OPEN_RB);
    answers = opened("answers", OPEN_WB);
    stop(digest() == 0);
}

extern uint8_t stack_top[];
__attribute__((section(".vectors"), used)) static void *const vectors[16] = {
    stack_top, begin, fault, fault, fault, fault, fault};
