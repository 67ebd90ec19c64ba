/* How long `cgx check FILE` takes, from start to exit, beside cgx_check alone on the same bytes in memory; the two take
   turns. It tells and does not judge, since machines differ: build/cmd-speed FILE [ROUNDS]. */
#define _XOPEN_SOURCE 700
#include "cgx.h"

#include <spawn.h>
#include <stdio.h>
#include <stdlib.h>
#include <sys/wait.h>
#include <time.h>

static double now(void) {
    struct timespec t;
    clock_gettime(CLOCK_MONOTONIC, &t);
    return (double)t.tv_sec * 1e3 + (double)t.tv_nsec / 1e6;
}

/* The status of build/cgx check. */
static int command(const char *file) {
    char name[] = "cgx", word[] = "check", *arguments[] = {name, word, (char *)(uintptr_t)file, NULL}, *none[] = {NULL};
    int status = 0;
    pid_t child;
    if (posix_spawn(&child, "build/cgx", NULL, NULL, arguments, none) != 0) return 127;
    waitpid(child, &status, 0);
    return WIFEXITED(status) ? WEXITSTATUS(status) : 128;
}

static uint8_t *read_file(const char *name, size_t *size) {
    FILE *f = fopen(name, "rb");
    uint8_t *bytes = NULL;
    if (f != NULL && fseek(f, 0, SEEK_END) == 0) {
        *size = (size_t)ftell(f);
        rewind(f);
        bytes = malloc(*size + 1);
    }
    if (bytes == NULL || fread(bytes, 1, *size, f) != *size) {
        perror(name);
        exit(2);
    }
    fclose(f);
    return bytes;
}

static double least(double a, double b) {
    return a < b ? a : b;
}

int main(int argc, char **argv) {
    int rounds = argc > 2 ? atoi(argv[2]) : 30, i;
    double alone = 1e9, whole = 1e9, begun;
    size_t size = 0;
    uint8_t *bytes;
    uint64_t at = 0;
    uint32_t answer = 0;
    if (argc < 2) return 2;
    bytes = read_file(argv[1], &size);
    fflush(stdout);
    for (i = 0; i < rounds; i++) {
        begun = now();
        answer = cgx_check(bytes, size, &at);
        alone = least(alone, now() - begun);
        begun = now();
        if (command(argv[1]) != (answer == CGX_OK ? 0 : 1)) return 2;
        whole = least(whole, now() - begun);
    }
    fprintf(stderr, "%zu bytes: cgx_check in memory %.2f ms, cgx check %.2f ms, %.3f times\n", size, alone, whole,
        whole / alone);
    free(bytes);
    return 0;
}
