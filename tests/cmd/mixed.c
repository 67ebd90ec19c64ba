/* Writes a good drawing of about so many bytes to standard output: records of all kinds and sizes, unknown ones among them,
   as in the benchmark's mixed file. The same number gives the same bytes. */
#include <stdint.h>
#include <stdio.h>
#include <stdlib.h>
#include <string.h>

static uint64_t written;

/* ---- numbers that look like chance (Knuth's MMIX) */

static uint64_t state = 2026;

static uint32_t below(uint32_t limit) {
    state = state * 6364136223846793005u + 1442695040888963407u;
    return (uint32_t)(state >> 33) % limit;
}

/* ---- a record in the making */

static uint8_t record[65536];
static size_t size;

static void put(const void *bytes, size_t count) {
    memcpy(record + size, bytes, count);
    size += count;
}

static void put_long(int32_t number) {
    uint32_t bits = (uint32_t)number;
    const uint8_t bytes[4] = {(uint8_t)(bits >> 24), (uint8_t)(bits >> 16), (uint8_t)(bits >> 8), (uint8_t)bits};
    put(bytes, 4);
}

static void put_longs(uint32_t count) {
    while (count-- > 0) put_long((int32_t)below(2000000) - 1000000);
}

/* A text of letters, with its closing zero bytes. */
static void put_text(uint32_t len) {
    uint32_t i;
    for (i = 0; i < len; i++) record[size++] = (uint8_t)('a' + below(26));
    record[size++] = 0;
    if (len % 2 == 0) record[size++] = 0;
}

static void begin(uint8_t type, uint8_t flags) {
    const uint8_t header[4] = {0, 0, type, flags};
    size = 0;
    put(header, 4);
}

static void end(void) {
    record[0] = (uint8_t)(size >> 8);
    record[1] = (uint8_t)size;
    if (fwrite(record, 1, size, stdout) != size) {
        perror("mixed");
        exit(2);
    }
    written += size;
}

/* ---- records */

static const uint8_t dates[16] = {7, 233, 2, 6, 14, 9, 45, 0, 7, 233, 2, 6, 14, 33, 0, 0};
static const uint8_t units[16] = {
    0x3e, 0x41, 0x89, 0x37, 0x4b, 0xc6, 0xa7, 0xf0, 0x39, 0x44, 0xb8, 0x2f, 0xa0, 0x9b, 0x5a, 0x54};

static void opening(void) {
    begin(0, 1);
    put(units, 16);
    put(dates, 16);
    put_text(5);
    end();
    begin(1, 0);
    put(dates, 16);
    put_text(3);
    end();
    begin(4, 0);
    record[size++] = 0;
    record[size++] = 1;
    record[size++] = 0;
    record[size++] = 0;
    end();
}

static void boxes(uint32_t count) {
    begin(5, 0);
    while (count-- > 0) {
        int32_t left = (int32_t)below(1000000), bottom = (int32_t)below(1000000);
        put_long(left);
        put_long(bottom);
        put_long(left + (int32_t)below(1000));
        put_long(bottom + (int32_t)below(1000));
    }
    end();
}

static void polygon(uint32_t count) {
    begin(6, 0);
    put_longs(2 * (count - 1));
    put(record + 4, 8);
    end();
}

static void wire(uint32_t count) {
    begin(7, 2);
    put_longs(1 + 2 * count);
    end();
}

static void text(uint32_t len) {
    begin(8, (uint8_t)below(256));
    put_longs(3);
    put_text(len);
    end();
}

static void property(void) {
    begin(3, 0);
    put_longs(1);
    put_text(8);
    end();
}

static void sref(void) {
    static const uint8_t two[8] = {0x41, 0x20};
    begin(9, (uint8_t)below(16));
    put_longs(2);
    if (record[3] & 1) put(two, 8);
    if (record[3] & 2) put(two, 8);
    if (record[3] & 8) {
        put_long(1 + (int32_t)below(100));
        put_long(1 + (int32_t)below(100));
        put_longs(4);
    }
    put_text(3);
    end();
}

static void unknown(void) {
    begin((uint8_t)(11 + below(245)), (uint8_t)below(256));
    put_longs(below(50));
    end();
}

static void any(void) {
    switch (below(12)) {
    case 0: boxes(1 + below(200)); break;
    case 1: boxes(1); break;
    case 2: polygon(4 + below(497)); break;
    case 3: polygon(5); break;
    case 4: wire(1 + below(100)); break;
    case 5: wire(2); break;
    case 6: text(1 + below(300)); break;
    case 7: text(6); break;
    case 8: property(); break;
    case 9: unknown(); break;
    default: sref(); break;
    }
}

int main(int argc, char **argv) {
    static char pieces[1 << 20];
    uint64_t wanted = argc == 2 ? strtoull(argv[1], NULL, 10) : 0;
    if (wanted == 0) {
        fputs("usage: mixed BYTES\n", stderr);
        return 2;
    }
    /* In small pieces the kernel would keep the file in single pages, which are slow to map. */
    setvbuf(stdout, pieces, _IOFBF, sizeof pieces);
    fwrite("cgx", 1, 4, stdout);
    opening();
    while (written < wanted) any();
    boxes(1); /* takes a property that may be left */
    begin(10, 0);
    end();
    return fflush(stdout) == 0 ? 0 : 2;
}
