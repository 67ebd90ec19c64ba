/* What the words of the command share. A word decides nothing about a drawing: its answers are the library's. */
#ifndef COMMAND_H
#define COMMAND_H

#define _XOPEN_SOURCE 700    /* POSIX of 2008 */
#define _FILE_OFFSET_BITS 64 /* files above 2 GiB on every machine */

#include "cgx.h"

#include <stdbool.h>
#include <sys/stat.h>

/* How a run ends: with the greatest that one of its files has. */
typedef enum { ACCEPTED = 0, REFUSED = 1, TROUBLE = 2 } status;

/* ---- a file that is read (input.c) */

typedef struct {
    const char *name;     /* as it was typed; "-" is standard input */
    const char *prefix;   /* what each line about it begins with: "", or its name where several are given */
    const uint8_t *bytes; /* not NULL, also where there are none */
    uint64_t size;
    bool mapped;
    struct ahead *ahead; /* who maps it ahead, or NULL */
    struct stat about;
} input;

/* Maps a file, or reads it whole where it cannot be mapped. Complains and answers false where it can be neither. */
bool open_input(const char *name, input *file);
void close_input(input *file);

/* ---- a mapped file's pages, brought in ahead of their use (ahead.c) */

/* NULL where nothing is to be gained by it, or it cannot be done. */
struct ahead *begin_ahead(uint8_t *bytes, uint64_t size);

/* Before the bytes are unmapped. */
void end_ahead(struct ahead *a);

/* ---- words (main.c): each is a file that defines word_NAME, and a line of words.h */

typedef struct {
    char letter;       /* 0 where it has only a name */
    const char *name;
    const char *value; /* what its value is called, or NULL where it takes none */
    const char *help;
} option;

enum { MOST_OPTIONS = 8 }; /* one less, since one without a name ends them */

typedef struct request request;

typedef struct {
    const char *name;
    const char *arguments;
    const char *summary; /* its line in `cgx --help` */
    const char *details; /* lines of `cgx NAME --help` */
    option options[MOST_OPTIONS];
    int files; /* how many it takes; 0: one or more */
    status (*run)(const request *r);
} word;

/* Calls a function for each file in turn, and answers the greatest status. A file that cannot be read is TROUBLE. */
status each_file(const request *r, status (*one)(const input *file, const request *r));

/* ---- what was typed after a word (arguments.c) */

struct request {
    const word *w;
    const char *given[MOST_OPTIONS]; /* of each option its value, or "" where it takes none; NULL where it was not typed */
    const char **files;
    int file_count;
    bool help;
};

/* `files` must have room for all arguments. */
void read_arguments(request *r, int count, char **arguments);

/* Complains and ends the run; `w` is the word whose help says more, or NULL. */
void usage_trouble(const word *w, const char *what, const char *why);

/* ---- standard output and messages (output.c) */

/* Text of the program's own. A write that fails ends the run with TROUBLE. */
void put(const char *text);
void put_number(int64_t number);
void put_offset(uint64_t at);

/* Bytes that the program did not choose, escaped. */
void put_escaped(const uint8_t *bytes, uint64_t len);
void put_text(const input *file, const cgx_text *text);

void flush_output(void);

/* Writes all of it, past what was put. false, and errno, where it cannot. */
bool write_all(int to, const uint8_t *bytes, uint64_t len);

/* A message on standard error: `cgx: ABOUT: WORDS`, ABOUT escaped; only the words where ABOUT is "". */
void complain(const char *about, const char *words);

/* "refused N at P: WORDS", in memory that the next call overwrites. */
const char *refusal(uint32_t number, uint64_t at);

/* Memory, or the end of the run. */
void *allocate(void *old, uint64_t size);

/* ---- the escape (escape.c): a backslash becomes two; of control characters, of characters that turn a line or end it, and
   of what is not UTF-8, each byte becomes \xHH; the rest stays */

enum { LONGEST_ESCAPE = 4 };

/* The next letter, or byte, in its escaped form of `len` bytes: how many of the `left` bytes, at least one, it is. */
unsigned escape(const uint8_t *bytes, uint64_t left, char form[LONGEST_ESCAPE], size_t *len);

/* A whole string, escaped; the caller frees it. */
char *escaped(const char *name);

/* ---- a walk over the records of a file (walk.c) */

/* Hands each record to `record`, and complains where the file is refused. */
status walk(const input *file, void (*record)(const input *file, const cgx_view *view, void *state), void *state);

/* ---- progress (progress.c): a line on standard error, after a second, and only where that is a terminal */

bool progress_is_shown(void);

/* `whole` is what `progress_at` will come to; 0 where how far the work is cannot be known: then the seconds are told. */
void begin_progress(const char *name, const char *doing, uint64_t whole);
void progress_at(uint64_t at);
void end_progress(void);

#endif
