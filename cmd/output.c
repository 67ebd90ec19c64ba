/* Standard output, and messages on standard error. */
#include "command.h"

#include <errno.h>
#include <inttypes.h>
#include <stdio.h>
#include <stdlib.h>
#include <string.h>
#include <unistd.h>

/* ---- standard output */

static char buffer[1 << 16];
static size_t used;

bool write_all(int to, const uint8_t *bytes, uint64_t len) {
    while (len > 0) {
        ssize_t n = write(to, bytes, (size_t)len);
        if (n < 0 && errno == EINTR) continue;
        if (n < 0) return false;
        bytes += n;
        len -= (uint64_t)n;
    }
    return true;
}

/* What cannot be written is dropped before the message, which would else be held up by it. */
void flush_output(void) {
    size_t len = used;
    used = 0;
    if (write_all(STDOUT_FILENO, (const uint8_t *)buffer, len)) return;
    complain("standard output", strerror(errno));
    exit(TROUBLE);
}

static void put_part(const char *bytes, size_t len) {
    if (len > sizeof buffer - used) flush_output();
    memcpy(buffer + used, bytes, len);
    used += len;
}

void put(const char *text) {
    size_t len = strlen(text);
    for (; len > sizeof buffer; text += sizeof buffer, len -= sizeof buffer) put_part(text, sizeof buffer);
    put_part(text, len);
}

void put_offset(uint64_t at) {
    char digits[20];
    size_t first = sizeof digits;
    do digits[--first] = (char)('0' + at % 10);
    while ((at /= 10) != 0);
    put_part(digits + first, sizeof digits - first);
}

void put_number(int64_t number) {
    if (number < 0) put_part("-", 1);
    put_offset(number < 0 ? 0 - (uint64_t)number : (uint64_t)number);
}

/* ---- what a file says */

void put_escaped(const uint8_t *bytes, uint64_t len) {
    char form[LONGEST_ESCAPE];
    size_t n;
    uint64_t i;
    for (i = 0; i < len;) {
        i += escape(bytes + i, len - i, form, &n);
        put_part(form, n);
    }
}

void put_text(const input *file, const cgx_text *text) {
    const uint8_t *bytes = cgx_text_bytes(file->bytes, file->size, text);
    if (bytes != NULL) put_escaped(bytes, text->len);
}

/* ---- messages */

/* In one write, so that messages of several runs keep apart. */
void complain(const char *about, const char *words) {
    char *name = escaped(about);
    size_t room = strlen(name) + strlen(words) + 10;
    char *line = allocate(NULL, room);
    end_progress();
    flush_output();
    snprintf(line, room, "cgx: %s%s%s\n", name, name[0] != 0 ? ": " : "", words);
    if (write(STDERR_FILENO, line, strlen(line)) < 0) { /* there is nobody left to tell */
    }
    free(line);
    free(name);
}

const char *refusal(uint32_t number, uint64_t at) {
    static char line[200];
    if (number <= CGX_REFUSED_TRAILING)
        snprintf(line, sizeof line, "refused %" PRIu32 " at %" PRIu64 ": %s", number, at, cgx_refusal_words(number));
    else
        snprintf(line, sizeof line, "refused %" PRIu32 ": %s", number, cgx_refusal_words(number));
    return line;
}

void *allocate(void *old, uint64_t size) {
    void *memory = size > SIZE_MAX ? NULL : realloc(old, size > 0 ? (size_t)size : 1);
    if (memory == NULL) {
        fputs("cgx: not enough memory\n", stderr);
        exit(TROUBLE);
    }
    return memory;
}
