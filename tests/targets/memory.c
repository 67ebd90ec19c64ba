/* The routines on memory that compilers call by themselves, for programs without a C library. */
#include <stddef.h>

void *memcpy(void *to, const void *from, size_t count);
void *memmove(void *to, const void *from, size_t count);
void *memset(void *to, int byte, size_t count);

void *memmove(void *to, const void *from, size_t count) {
    char *t = to;
    const char *f = from;
    if (t <= f) {
        while (count-- > 0) *t++ = *f++;
    } else {
        while (count-- > 0) t[count] = f[count];
    }
    return to;
}

void *memcpy(void *to, const void *from, size_t count) { return memmove(to, from, count); }

void *memset(void *to, int byte, size_t count) {
    char *t = to;
    while (count-- > 0) *t++ = (char)byte;
    return to;
}

#if defined(__arm__)
/* Arm's own names; its memset has the size second. The digit says what the addresses are multiples of. */
#define COPY(name) \
    void name(void *to, const void *from, size_t count); \
    void name(void *to, const void *from, size_t count) { memmove(to, from, count); }
#define CLEAR(name) \
    void name(void *to, size_t count); \
    void name(void *to, size_t count) { memset(to, 0, count); }
#define SET(name) \
    void name(void *to, size_t count, int byte); \
    void name(void *to, size_t count, int byte) { memset(to, byte, count); }
COPY(__aeabi_memcpy)
COPY(__aeabi_memcpy4)
COPY(__aeabi_memcpy8)
COPY(__aeabi_memmove)
COPY(__aeabi_memmove4)
COPY(__aeabi_memmove8)
CLEAR(__aeabi_memclr)
CLEAR(__aeabi_memclr4)
CLEAR(__aeabi_memclr8)
SET(__aeabi_memset)
SET(__aeabi_memset4)
SET(__aeabi_memset8)
#endif
