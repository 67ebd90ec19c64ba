/* cgx normal: the normal form of a file, whole or not at all, and never over its input. */
#include "command.h"

#include <errno.h>
#include <signal.h>
#include <stdio.h>
#include <stdlib.h>
#include <string.h>
#include <unistd.h>

/* ---- the temporary file: gone also where the run is interrupted */

static char *temporary;
static const int interruptions[] = {SIGHUP, SIGINT, SIGTERM, SIGQUIT, SIGXCPU};
enum { INTERRUPTIONS = sizeof interruptions / sizeof interruptions[0] };

static void interrupted(int number) {
    unlink(temporary);
    signal(number, SIG_DFL);
    raise(number); /* it comes when this returns */
}

/* What is ignored stays so. A second interruption waits until the first is through: `timeout` sends two. */
static void on_interruption(void (*handler)(int)) {
    struct sigaction action = {.sa_handler = handler}, before;
    size_t i;
    sigemptyset(&action.sa_mask);
    for (i = 0; i < INTERRUPTIONS; i++) sigaddset(&action.sa_mask, interruptions[i]);
    for (i = 0; i < INTERRUPTIONS; i++)
        if (sigaction(interruptions[i], NULL, &before) == 0 && before.sa_handler != SIG_IGN)
            sigaction(interruptions[i], &action, NULL);
    signal(SIGXFSZ, SIG_IGN); /* a file too large is then an error of write */
}

/* Makes it in the folder of `out`, since rename does not go from one disk to another. */
static int make_temporary(const char *out) {
    static const char name[] = ".cgx-XXXXXX";
    const char *slash = strrchr(out, '/');
    size_t folder = slash == NULL ? 0 : (size_t)(slash - out) + 1;
    temporary = allocate(NULL, folder + sizeof name);
    memcpy(temporary, out, folder);
    memcpy(temporary + folder, name, sizeof name);
    on_interruption(interrupted);
    return mkstemp(temporary);
}

/* ---- the file that is written */

/* The mode of the file that is replaced, or of a new one. */
static mode_t mode_for(const struct stat *old) {
    mode_t mask;
    if (old != NULL) return old->st_mode & 0777;
    mask = umask(0);
    umask(mask);
    return 0666 & ~mask;
}

/* In pieces, so that progress is told. false, and errno, where they cannot all be written. */
static bool write_pieces(int to, const uint8_t *bytes, uint64_t len) {
    const uint64_t piece = 1 << 22;
    uint64_t at;
    for (at = 0; at < len; at += piece) {
        if (!write_all(to, bytes + at, len - at < piece ? len - at : piece)) return false;
        progress_at(at);
    }
    return true;
}

/* Whether the bytes are now all in `out`; else there is no trace of them, and errno says why. */
static bool replace(const char *out, const struct stat *old, const uint8_t *bytes, uint64_t len) {
    int to = make_temporary(out), why;
    bool good = to >= 0 && write_pieces(to, bytes, len) && fchmod(to, mode_for(old)) == 0 && fsync(to) == 0;
    why = errno;
    if (to >= 0) close(to); /* what could be lost here was written by fsync */
    if (good && rename(temporary, out) != 0) {
        good = false;
        why = errno;
    }
    if (to >= 0 && !good) unlink(temporary);
    on_interruption(SIG_DFL);
    errno = why;
    return good;
}

static bool same_file(const struct stat *a, const struct stat *b) {
    return S_ISREG(a->st_mode) && a->st_dev == b->st_dev && a->st_ino == b->st_ino;
}

/* Why `out` is not to be replaced, or NULL. */
static const char *not_to_be_replaced(const input *file, const char *out, const struct stat *old) {
    if (S_ISDIR(old->st_mode)) return strerror(EISDIR);
    if (!S_ISREG(old->st_mode)) return "not a regular file";
    if (same_file(old, &file->about)) return "is the input";
    return access(out, W_OK) != 0 ? strerror(errno) : NULL;
}

static status write_file(const input *file, const char *out, const uint8_t *bytes, uint64_t len) {
    struct stat old;
    bool there = stat(out, &old) == 0;
    char *real = there ? realpath(out, NULL) : NULL; /* a link stays one, and what it leads to is replaced */
    const char *why = there ? not_to_be_replaced(file, out, &old) : NULL;
    begin_progress(out, "writing", len);
    if (why == NULL && !replace(real != NULL ? real : out, there ? &old : NULL, bytes, len)) why = strerror(errno);
    end_progress();
    free(real);
    if (why == NULL) return ACCEPTED;
    complain(out, why);
    return TROUBLE;
}

static status write_standard_output(const input *file, const uint8_t *bytes, uint64_t len) {
    struct stat out;
    const char *why = NULL;
    if (fstat(STDOUT_FILENO, &out) == 0 && same_file(&out, &file->about)) why = "is the input";
    if (isatty(STDOUT_FILENO)) why = "is a terminal, which the bytes of a drawing would disturb; name a file with -o";
    begin_progress(file->name, "writing", len);
    if (why == NULL && !write_pieces(STDOUT_FILENO, bytes, len)) why = strerror(errno);
    end_progress();
    if (why == NULL) return ACCEPTED;
    complain("standard output", why);
    return TROUBLE;
}

static status normal(const input *file, const request *r) {
    uint8_t *bytes = allocate(NULL, file->size); /* it is never longer than the file */
    uint64_t len = 0, at = 0;
    uint32_t answer;
    status result = REFUSED;
    begin_progress(file->name, "making the normal form", 0);
    answer = cgx_normal_form(file->bytes, file->size, bytes, file->size, &len, &at);
    end_progress();
    if (answer != CGX_OK)
        complain(file->name, refusal(answer, at));
    else if (r->given[0] == NULL || strcmp(r->given[0], "-") == 0)
        result = write_standard_output(file, bytes, len);
    else
        result = write_file(file, r->given[0], bytes, len);
    free(bytes);
    return result;
}

static status run(const request *r) {
    return each_file(r, normal);
}

const word word_normal = {
    .name = "normal",
    .arguments = "FILE",
    .summary = "write the normal form of a file",
    .details = "Two drawings that mean the same have the same normal form: without unknown\n"
               "records, with unused flags 0 and every real in its normal form. It is written\n"
               "whole or not at all, and never over FILE.\n",
    .options = {{'o', "output", "OUT", "to the file OUT, not to standard output"}},
    .files = 1,
    .run = run,
};
