/* Asks the archive all that can be asked of the files on standard input, which are written as in tests/vectors, and compares what
   it answers with the lines that are there. It names each case that differs, with the first line that does; its last line is
   `N passed, M failed`. With the argument --digests it compares nothing, and prints a name and a digest of all answers for each
   case. It needs no more of the C library than standard input and output. */
#include "cgx.h"

#include <inttypes.h>
#include <stdarg.h>
#include <stdbool.h>
#include <stdio.h>

enum { LARGEST = 200000, LONGEST = 16384, NAME = 200, MOST_ITEMS = 64, MARGIN = 64, FILLER = 170 };

/* A file, and the output that is lent to the normal-form maker. */
static uint8_t file[LARGEST];
static size_t size;
static uint8_t out[LARGEST + MARGIN];

/* ---- checksums: FNV's start and factor, with a sum in place of its exclusive or */

static const uint32_t EMPTY = 2166136261u;

static uint32_t mixed(uint32_t sum, uint8_t byte) {
    return sum * 16777619u + byte;
}

static uint32_t mixed_line(uint32_t sum, const char *line) {
    for (; *line != 0; line++) sum = mixed(sum, (uint8_t)*line);
    return mixed(sum, '\n');
}

static uint32_t checksum(const uint8_t *bytes, size_t count) {
    uint32_t sum = EMPTY;
    size_t i;
    for (i = 0; i < count; i++) sum = mixed(sum, bytes[i]);
    return sum;
}

/* ---- the lines that are read */

static char next[LONGEST];
static bool ended;

static void advance(void) {
    size_t n = 0;
    int c = getchar();
    ended = c == EOF;
    while (c != EOF && c != '\n') {
        if (n + 1 < sizeof next) next[n++] = (char)c;
        c = getchar();
    }
    next[n] = 0;
}

/* What follows a word at the beginning of a line, or NULL. */
static const char *after(const char *line, const char *word) {
    while (*word != 0 && *line == *word) line++, word++;
    return *word == 0 ? line : NULL;
}

static bool same(const char *a, const char *b) {
    const char *rest = after(a, b);
    return rest != NULL && *rest == 0;
}

static int digit(char c) {
    return c >= '0' && c <= '9' ? c - '0' : c >= 'a' && c <= 'f' ? c - 'a' + 10 : -1;
}

/* A piece of bytes, once or as often as the number after a star says. */
static void read_hex(const char *word) {
    size_t start = size, piece, times = 1, i;
    for (; digit(word[0]) >= 0 && digit(word[1]) >= 0 && size < LARGEST; word += 2)
        file[size++] = (uint8_t)(digit(word[0]) * 16 + digit(word[1]));
    piece = size - start;
    if (*word == '*') sscanf(word + 1, "%zu", &times);
    for (i = piece; i < piece * times && size < LARGEST; i++) file[size++] = file[start + i % piece];
}

/* ---- the lines that are answered */

static bool digests;
static char name[NAME];
static char line[LONGEST];
static size_t length;
static uint32_t digest;          /* of all lines of the case */
static bool differs;
static bool folded;              /* whether a part is stored as a count and a checksum */
static size_t lines;
static uint32_t lines_sum;

static void put(const char *format, ...) {
    va_list words;
    int n;
    va_start(words, format);
    n = vsnprintf(line + length, sizeof line - length, format, words);
    va_end(words);
    if (n > 0) length += (size_t)n < sizeof line - length ? (size_t)n : sizeof line - length - 1;
}

/* Compares the line with the one that is there. */
static void compare(void) {
    const char *stored = after(next, "  ");
    if (digests || differs) return;
    if (stored == NULL || !same(line, stored)) {
        printf("%s: FAILED\n  stored: %s\n  answer: %s\n", name, stored == NULL ? "nothing more" : stored, line);
        differs = true;
    }
    advance();
}

static void end_line(void) {
    digest = mixed_line(digest, line);
    lines++;
    lines_sum = mixed_line(lines_sum, line);
    if (!folded) compare();
    length = 0;
    line[0] = 0;
}

static void begin_part(void) {
    size_t count;
    unsigned sum;
    folded = sscanf(next, "  %zu lines %8x", &count, &sum) == 2;
    lines = 0;
    lines_sum = EMPTY;
}

static void end_part(void) {
    if (folded) {
        put("%zu lines %08lx", lines, (unsigned long)lines_sum);
        compare();
        length = 0;
    }
    folded = false;
}

/* ---- words of a line */

/* What `at` holds before a call: where it still does, the answer names no offset. */
#define UNNAMED UINT64_MAX

static void put_refusal(uint32_t number, uint64_t at) {
    put("refused %" PRIu32, number);
    if (at != UNNAMED) put(" at %" PRIu64, at);
}

static void put_offset(const char *word, uint64_t at) {
    put(" %s ", word);
    if (at != 0) {
        put("%" PRIu64, at);
    } else {
        put("-");
    }
}

static void put_context(uint64_t cell, uint64_t layer, cgx_list properties) {
    put_offset("cell", cell);
    put_offset("layer", layer);
    if (properties.count != 0) {
        put(" run %" PRIu64 "+%" PRIu64, properties.first, properties.count);
    } else {
        put(" run -");
    }
}

static void put_place(const cgx_place *p) {
    put("place %" PRIu64, p->at);
    put_context(p->cell, p->layer, p->properties);
    put("%s%s%s", p->seen & CGX_SEEN_LIBRARY ? " library" : "", p->seen & CGX_SEEN_FRESH ? " fresh" : "",
        p->seen & CGX_SEEN_ENDLIB ? " ended" : "");
    end_line();
}

static void put_real(cgx_real r) {
    union {
        double value;
        uint64_t bits;
    } exact;
    if (cgx_real_double(&r, &exact.value) == CGX_OK) {
        put(" exact %016" PRIx64, exact.bits);
    } else {
        put(" inexact %c %" PRIu32 " %" PRIu64, cgx_real_negative(&r) ? '-' : '+', cgx_real_exponent(&r),
            cgx_real_mantissa(&r));
    }
}

static void put_date(cgx_date d) {
    put(" %d %u %u %u %u %u", d.year, d.month, d.day, d.hour, d.minute, d.second);
}

static void put_long(int32_t n) {
    put(" %ld", (long)n);
}

static void put_point(cgx_point p) {
    put_long(p.x);
    put_long(p.y);
}

static void put_bytes(const uint8_t *bytes, size_t count) {
    size_t i;
    put(" \"");
    for (i = 0; i < count; i++) {
        bool plain = bytes[i] >= ' ' && bytes[i] <= '~' && bytes[i] != '"' && bytes[i] != '\\';
        put(plain ? "%c" : "\\%02x", bytes[i]);
    }
    put("\"");
}

static void put_text(cgx_text t) {
    const uint8_t *bytes = cgx_text_bytes(file, size, &t);
    put(" %" PRIu64 "+%" PRIu64, t.at, t.len);
    if (bytes == NULL) {
        put(" outside");
    } else if (t.len > MOST_ITEMS) {
        put(" %08lx", (unsigned long)checksum(bytes, (size_t)t.len));
    } else {
        put_bytes(bytes, (size_t)t.len);
    }
}

static void put_list(cgx_list l) {
    put(" %" PRIu64 "+%" PRIu64, l.first, l.count);
}

/* What the flags do not have is `-`. */
static void put_placement(uint32_t flags, const cgx_placement *p) {
    put_point(p->point);
    if (flags & CGX_SREF_ANGLE) {
        put_real(p->angle);
    } else {
        put(" -");
    }
    if (flags & CGX_SREF_MAGNIF) {
        put_real(p->magnif);
    } else {
        put(" -");
    }
    if (flags & CGX_SREF_ARRAY) {
        put_long(p->cols);
        put_long(p->rows);
        put_point(p->across);
        put_point(p->up);
    } else {
        put(" -");
    }
}

static void put_fields(const cgx_view *v) {
    const cgx_fields *f = &v->fields;
    switch (v->kind) {
    case CGX_LIBRARY:
        put_real(f->library.munit);
        put_real(f->library.uunit);
        put_date(f->library.created);
        put_date(f->library.modified);
        put_text(f->library.name);
        break;
    case CGX_STRUCT:
        put_date(f->structure.created);
        put_date(f->structure.modified);
        put_text(f->structure.name);
        break;
    case CGX_CPRPTY:
    case CGX_PROPERTY:
        put_long(f->property.number);
        put_text(f->property.value);
        break;
    case CGX_LAYER:
        put(" %d %d", f->layer.id.number, f->layer.id.datatype);
        if (f->layer.named) {
            put_text(f->layer.name);
        } else {
            put(" -");
        }
        break;
    case CGX_BOX: put_list(f->box.boxes); break;
    case CGX_POLY: put_list(f->poly.points); break;
    case CGX_WIRE:
        put_long(f->wire.width);
        put_list(f->wire.points);
        break;
    case CGX_TEXT:
        put_point(f->text.point);
        put_long(f->text.width);
        put_text(f->text.label);
        break;
    case CGX_SREF:
        put_placement(v->flags, &f->sref.placement);
        put_text(f->sref.name);
        break;
    default: break;
    }
}

/* ---- boxes and points: all items, or of a long list their checksum, and then the first index outside */

/* The longs of an item, two or four; whether there is one. */
static bool item_at(bool boxes, cgx_list list, uint64_t i, int32_t longs[4]) {
    if (boxes) {
        cgx_box b = {0, 0, 0, 0};
        uint32_t answer = cgx_box_at(file, size, &list, i, &b);
        longs[0] = b.left;
        longs[1] = b.bottom;
        longs[2] = b.right;
        longs[3] = b.top;
        return answer == CGX_OK;
    } else {
        cgx_point p = {0, 0};
        uint32_t answer = cgx_point_at(file, size, &list, i, &p);
        longs[0] = p.x;
        longs[1] = p.y;
        return answer == CGX_OK;
    }
}

static void put_items(bool boxes, cgx_list list) {
    uint32_t sum = EMPTY;
    int32_t longs[4];
    uint64_t i;
    size_t k;
    int shift;
    put(boxes ? "boxes" : "points");
    for (i = 0; i < list.count; i++) {
        if (!item_at(boxes, list, i, longs)) put(" none");
        for (k = 0; k < (boxes ? 4 : 2); k++) {
            if (list.count <= MOST_ITEMS) put_long(longs[k]);
            for (shift = 24; shift >= 0; shift -= 8) sum = mixed(sum, (uint8_t)((uint32_t)longs[k] >> shift));
        }
    }
    if (list.count > MOST_ITEMS) put(" %08lx", (unsigned long)sum);
    put(item_at(boxes, list, list.count, longs) ? " more" : " outside");
    end_line();
}

static void put_record(const cgx_view *v) {
    put("%" PRIu64 " %s flags %" PRIu32, v->at, cgx_kind_name(v->kind), v->flags);
    put_context(v->cell, v->layer, v->properties);
    put_fields(v);
    end_line();
    if (v->kind == CGX_BOX) put_items(true, v->fields.box.boxes);
    if (v->kind == CGX_POLY) put_items(false, v->fields.poly.points);
    if (v->kind == CGX_WIRE) put_items(false, v->fields.wire.points);
}

/* ---- the parts of a case */

static void put_end(uint32_t answer, uint64_t at) {
    if (answer == CGX_DONE) {
        put("done");
    } else {
        put_refusal(answer, at);
    }
    end_line();
}

static void ask_check(void) {
    uint64_t at = UNNAMED;
    uint32_t answer = cgx_check(file, size, &at);
    if (answer == CGX_OK) {
        put("accepted");
    } else {
        put_refusal(answer, at);
    }
    end_line();
}

static void ask_walk(void) {
    cgx_place place;
    cgx_view view;
    uint64_t at = UNNAMED;
    uint32_t answer = cgx_start(file, size, &place, &at);
    if (answer != CGX_OK) {
        put("start ");
        put_refusal(answer, at);
        end_line();
        return;
    }
    while ((answer = cgx_step(file, size, &place, &view, &at)) == CGX_OK) put_record(&view);
    put_end(answer, at);
}

static void ask_step(cgx_place place) {
    cgx_view view;
    uint64_t at = UNNAMED;
    uint32_t answer = cgx_step(file, size, &place, &view, &at);
    if (answer == CGX_OK) {
        put_record(&view);
    } else {
        put_end(answer, at);
    }
    if (answer != CGX_DONE) put_place(&place);
}

/* One call of the maker, and its length, 0 where it refuses. Bytes beyond what it says that it has written, and all where it
   refuses, must be the filler still. */
static uint64_t made(const char *word, uint64_t room) {
    uint64_t length = 0, at = UNNAMED;
    size_t i;
    uint32_t answer;
    for (i = 0; i < size + MARGIN; i++) out[i] = FILLER;
    answer = cgx_normal_form(file, size, out, room, &length, &at);
    put("%s ", word);
    for (i = (size_t)length; i < size + MARGIN; i++) {
        if (out[i] != FILLER) {
            put("touched at %zu ", i);
            break;
        }
    }
    if (answer == CGX_OK) {
        put("%" PRIu64 " %08lx", length, (unsigned long)checksum(out, (size_t)length));
    } else {
        put_refusal(answer, at);
    }
    end_line();
    return length;
}

/* With room as for the file, and then with one byte too few. The normal form is never longer than the file. */
static void ask_normal(void) {
    uint64_t length = made("normal", size), measured = 0, at;
    if (cgx_normal_length(file, size, &measured, &at) == CGX_OK ? measured != length : length != 0) {
        put("measured %" PRIu64, measured);
        end_line();
    }
    if (length > 0) made("short", length - 1);
}

/* Every offset is asked, and the end. */
static void ask_layers(void) {
    static const uint8_t substitute[7] = {'u', 'n', 'n', 'a', 'm', 'e', 'd'};
    uint64_t at;
    for (at = 0; at <= size; at++) {
        cgx_text name = {0, 0};
        uint32_t good = cgx_layer_at(file, size, at);
        uint32_t shown = cgx_layer_name(file, size, at, substitute, sizeof substitute, &name);
        if (good == CGX_OK && shown == CGX_OK) {
            put("layer %" PRIu64, at);
            put_text(name);
            end_line();
        } else if (good == CGX_OK && shown == CGX_SUBSTITUTE) {
            put("layer %" PRIu64 " substitute %" PRIu64, at, name.len);
            end_line();
        } else if (good != CGX_REFUSED_NO_SUCH || shown != CGX_REFUSED_NO_SUCH || name.at != 0 || name.len != 0) {
            put("layer %" PRIu64 " has answers %" PRIu32 " and %" PRIu32, at, good, shown);
            end_line();
        }
    }
}

/* The cells in turn, up to the refusal. */
static void ask_cells(void) {
    uint64_t k;
    uint32_t answer = CGX_OK;
    for (k = 0; answer == CGX_OK || answer == CGX_NOTHING; k++) {
        cgx_box e;
        uint64_t at = UNNAMED;
        answer = cgx_extent(file, size, k, &e, &at);
        put("cell %" PRIu64 " ", k);
        if (answer == CGX_OK) {
            put("%ld %ld %ld %ld", (long)e.left, (long)e.bottom, (long)e.right, (long)e.top);
        } else if (answer == CGX_NOTHING) {
            put("nothing");
        } else {
            put_refusal(answer, at);
        }
        end_line();
    }
}

static void ask_part(void (*ask)(void)) {
    begin_part();
    ask();
    end_part();
}

static void ask_file(void) {
    ask_check();
    ask_part(ask_walk);
    ask_normal();
    ask_part(ask_layers);
    ask_part(ask_cells);
}

/* ---- cases */

/* A number of a place, up to 2^64 - 1, or `-`, which is 0. */
static uint64_t read_number(const char *word) {
    uint64_t n = 0;
    if (*word != '-') sscanf(word, "%" SCNu64, &n);
    return n;
}

/* The place of `4 cell - layer 64 run 72+2 library fresh ended`. */
static cgx_place read_place(const char *words) {
    char at[24], cell[24], layer[24], first[24] = "-", count[24] = "0", marks[3][12] = {"", "", ""};
    cgx_place p;
    int i, n = 0;
    sscanf(words, "%23s cell %23s layer %23s run %23[^+ ]%n", at, cell, layer, first, &n);
    words += n;
    if (*words == '+') sscanf(words, "+%23s%n", count, &n), words += n;
    sscanf(words, "%11s %11s %11s", marks[0], marks[1], marks[2]);
    p.at = read_number(at);
    p.cell = read_number(cell);
    p.layer = read_number(layer);
    p.properties.first = read_number(first);
    p.properties.count = read_number(count);
    p.seen = 0;
    for (i = 0; i < 3; i++) {
        if (same(marks[i], "library")) p.seen |= CGX_SEEN_LIBRARY;
        if (same(marks[i], "fresh")) p.seen |= CGX_SEEN_FRESH;
        if (same(marks[i], "ended")) p.seen |= CGX_SEEN_ENDLIB;
    }
    return p;
}

int main(int argc, char **argv) {
    size_t passed = 0, failed = 0;
    digests = argc > 1 && same(argv[1], "--digests");
    advance();
    while (!ended) {
        const char *word = after(next, "case ");
        cgx_place place;
        bool from = false;
        size_t i;
        if (word == NULL) {
            advance();
            continue;
        }
        for (i = 0; word[i] != 0 && i + 1 < NAME; i++) name[i] = word[i];
        name[i] = 0;
        size = 0;
        digest = EMPTY;
        differs = false;
        for (advance(); (word = after(next, "from ")) != NULL; advance()) {
            from = true;
            place = read_place(word);
        }
        for (; (word = after(next, "hex ")) != NULL; advance()) read_hex(word);
        if (from) {
            ask_step(place);
        } else {
            ask_file();
        }
        if (digests) {
            printf("%s %08lx\n", name, (unsigned long)digest);
            fflush(stdout);
            continue;
        }
        if (!differs && after(next, "  ") != NULL) {
            printf("%s: FAILED\n  stored: %s\n  answer: nothing more\n", name, next + 2);
            differs = true;
        }
        if (differs) {
            failed++;
        } else {
            passed++;
        }
    }
    if (!digests) printf("%zu passed, %zu failed\n", passed, failed);
    return failed == 0 ? 0 : 1;
}
