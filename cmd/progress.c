/* Progress: a line on standard error that a timer writes anew, while the work goes on and need not think of it. */
#include "command.h"

#include <signal.h>
#include <stdlib.h>
#include <string.h>
#include <sys/time.h>
#include <time.h>
#include <unistd.h>

enum { LINE = 80 }; /* what is longer would not be overwritten on a narrow terminal */

static volatile uint64_t position;
static uint64_t all;
static time_t begun;
static char line[LINE]; /* begins with what is said of the work; the handler writes the rest */
static size_t said;     /* how much of it that is */
static size_t shown;    /* the length of the line that is on the terminal */

static size_t append(char *to, size_t at, const char *text) {
    while (*text != 0 && at + 1 < LINE) to[at++] = *text++;
    return at;
}

static size_t append_number(char *to, size_t at, uint64_t number) {
    char digits[21];
    size_t first = sizeof digits - 1;
    digits[first] = 0;
    do digits[--first] = (char)('0' + number % 10);
    while ((number /= 10) != 0);
    return append(to, at, digits + first);
}

/* Only calls that a handler may make. */
static void show(int number) {
    size_t at = said, end;
    (void)number;
    at = append_number(line, at, all != 0 ? position * 100 / all : (uint64_t)(time(NULL) - begun));
    end = at = append(line, at, all != 0 ? "%" : " s");
    while (at < shown) line[at++] = ' ';
    shown = end;
    if (write(STDERR_FILENO, line, at) < 0) { /* then there is no line */
    }
}

static void set_timer(long seconds, long then_microseconds) {
    const struct itimerval timer = {{0, then_microseconds}, {seconds, 0}};
    struct sigaction action;
    memset(&action, 0, sizeof action);
    action.sa_handler = show;
    action.sa_flags = SA_RESTART;
    sigaction(SIGALRM, &action, NULL);
    setitimer(ITIMER_REAL, &timer, NULL);
}

bool progress_is_shown(void) {
    return isatty(STDERR_FILENO) == 1;
}

void begin_progress(const char *name, const char *doing, uint64_t whole) {
    char *form;
    if (!progress_is_shown()) return;
    form = escaped(name);
    position = 0;
    all = whole;
    begun = time(NULL);
    said = append(line, 0, "\r");
    if (strlen(form) < LINE / 2) said = append(line, append(line, said, form), ": ");
    said = append(line, append(line, said, doing), ", ");
    free(form);
    set_timer(1, 250000);
}

void progress_at(uint64_t at) {
    position = at;
}

/* Takes the line away. */
void end_progress(void) {
    if (said == 0) return;
    set_timer(0, 0);
    said = 0;
    if (shown == 0) return;
    memset(line, ' ', shown);
    line[0] = '\r';
    line[shown] = '\r';
    if (write(STDERR_FILENO, line, shown + 1) < 0) { /* then there was no line */
    }
    shown = 0;
}
