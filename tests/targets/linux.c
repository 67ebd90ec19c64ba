/* The digest program on Linux, with no C library: cases on standard input, answers on standard output. */
#include "port.h"

/* long system_call(long number, long a, long b, long c), and the first instructions. */
#if defined(__x86_64__)
enum { EXIT = 60, READ = 0, WRITE = 1 };
__asm__(".text\n.globl _start, system_call\n"
        "_start: and $-16, %rsp\n call begin\n"
        "system_call: mov %rdi, %rax\n mov %rsi, %rdi\n mov %rdx, %rsi\n mov %rcx, %rdx\n syscall\n ret\n");
#elif defined(__aarch64__)
enum { EXIT = 93, READ = 63, WRITE = 64 };
__asm__(".text\n.globl _start, system_call\n"
        "_start: bl begin\n"
        "system_call: mov x8, x0\n mov x0, x1\n mov x1, x2\n mov x2, x3\n svc 0\n ret\n");
#elif defined(__arm__)
enum { EXIT = 1, READ = 3, WRITE = 4 };
__asm__(".text\n.arm\n.globl _start, system_call\n.type _start, %function\n.type system_call, %function\n"
        "_start: bic sp, sp, #7\n bl begin\n"
        "system_call: push {r7, lr}\n mov r7, r0\n mov r0, r1\n mov r1, r2\n mov r2, r3\n svc 0\n pop {r7, pc}\n");
#elif defined(__riscv)
enum { EXIT = 93, READ = 63, WRITE = 64 };
__asm__(".text\n.globl _start, system_call\n"
        "_start: .option push\n .option norelax\n la gp, __global_pointer$\n .option pop\n andi sp, sp, -16\n call begin\n"
        "system_call: mv a7, a0\n mv a0, a1\n mv a1, a2\n mv a2, a3\n ecall\n ret\n");
#else
#error "linux.c: no system calls for this machine"
#endif

long system_call(long number, long a, long b, long c);

uint32_t port_read(uint8_t *to, uint32_t count) {
    uint32_t n = 0;
    long got;
    while (n < count && (got = system_call(READ, 0, (long)(to + n), (long)(count - n))) > 0) n += (uint32_t)got;
    return n;
}

void port_write(const uint8_t *from, uint32_t count) { system_call(WRITE, 1, (long)from, (long)count); }

static void leave(int status) {
    for (;;) system_call(EXIT, status, 0, 0);
}

/* libgcc's division calls it, where one divides by 0. */
int raise(int signal);
int raise(int signal) {
    leave(128 + signal);
    return 0;
}

void begin(void);
void begin(void) { leave(digest()); }
