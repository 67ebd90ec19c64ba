/* A mapped file's pages, brought in ahead of their use and dropped after it, by a thread on another processor. A file that was
   written in small pieces lies in memory in single pages, and to map and unmap each of them takes 0.4 of the time that the
   library takes to check what they hold. The thread reads no byte of the file, and no answer depends on it: a page that is not
   mapped is mapped where it is read. */
#define _GNU_SOURCE /* processors by their numbers */
#include "command.h"

#include <fcntl.h>
#include <stdlib.h>
#include <sys/mman.h>
#include <time.h>
#include <unistd.h>

#ifdef MADV_POPULATE_READ /* Linux 5.14 */

#include <pthread.h>
#include <sched.h>
#include <semaphore.h>
#include <signal.h>

enum { STACK = 1 << 16, PARTS = 8 };
static const uint64_t LEAST = 1 << 23; /* below this there is nothing to gain */
static const uint64_t PIECE = 1 << 19; /* what is mapped at once; a multiple of every page's size */
static const uint64_t GAP = 1 << 17;   /* twice what the kernel maps where one page is read */
static const long SHORTEST = 250000, LONGEST = 500000000; /* nanoseconds from one look at the reader to the next */

struct ahead {
    uint8_t *bytes;
    uint64_t size;
    uint64_t part; /* a multiple of PIECE */
    int pagemap;   /* the kernel's account of the pages that are mapped */
    sem_t over;    /* posted when nobody reads the bytes any more */
    pthread_t thread;
};

/* All but the beginning of a part: that this gap is mapped tells how far the reader is, who cannot be asked. false where the
   kernel cannot, or where the file has become shorter. */
static bool map_piece(const struct ahead *a, uint64_t at) {
    uint64_t end = a->size - at < PIECE ? a->size : at + PIECE;
    if (at != 0 && at % a->part == 0) at += GAP;
    return at >= end || madvise(a->bytes + at, (size_t)(end - at), MADV_POPULATE_READ) == 0;
}

/* Whether the reader has come to the part at `at`. */
static bool is_reached(const struct ahead *a, uint64_t at) {
    uintptr_t page = (uintptr_t)(a->bytes + at + GAP / 2) / (uintptr_t)sysconf(_SC_PAGESIZE);
    uint64_t entry = 0;
    return pread(a->pagemap, &entry, sizeof entry, (off_t)(page * sizeof entry)) == sizeof entry && entry >> 63 != 0;
}

/* Whether nobody reads any more; waits so long for it, which is less than a second. */
static bool is_over(struct ahead *a, long nanoseconds) {
    struct timespec until;
    clock_gettime(CLOCK_REALTIME, &until);
    until.tv_nsec += nanoseconds;
    if (until.tv_nsec >= 1000000000) {
        until.tv_nsec -= 1000000000;
        until.tv_sec++;
    }
    return sem_timedwait(&a->over, &until) == 0;
}

static void *run(void *given) {
    struct ahead *a = given;
    uint64_t at = PIECE, next = a->part;
    long wait = SHORTEST;
    bool over = false;
    while (!over && at < a->size && map_piece(a, at)) {
        at += PIECE;
        over = sem_trywait(&a->over) == 0;
    }
    while (!over && !(over = is_over(a, wait)) && next < at) {
        if (is_reached(a, next)) {
            madvise(a->bytes + next - a->part, (size_t)a->part, MADV_DONTNEED);
            next += a->part;
            wait = SHORTEST;
        } else if (wait < LONGEST) { /* a reader who waits for a person is asked less and less often */
            wait += wait / 4;
        }
    }
    return NULL;
}

/* Whether the thread runs, on any processor but the caller's: there it would only take turns with the caller, and a new thread
   is often put there. It is sent no signal. */
static bool is_started(struct ahead *a) {
    cpu_set_t others;
    sigset_t all, before;
    pthread_attr_t how;
    int here = sched_getcpu();
    bool started;
    if (here < 0 || here >= CPU_SETSIZE || sched_getaffinity(0, sizeof others, &others) != 0) return false;
    CPU_CLR(here, &others);
    if (CPU_COUNT(&others) == 0 || pthread_attr_init(&how) != 0) return false;
    sigfillset(&all);
    pthread_sigmask(SIG_SETMASK, &all, &before);
    started = pthread_attr_setaffinity_np(&how, sizeof others, &others) == 0 &&
        pthread_attr_setstacksize(&how, STACK) == 0 && pthread_create(&a->thread, &how, run, a) == 0;
    pthread_sigmask(SIG_SETMASK, &before, NULL);
    pthread_attr_destroy(&how);
    return started;
}

struct ahead *begin_ahead(uint8_t *bytes, uint64_t size) {
    struct ahead *a;
    if (size < LEAST) return NULL;
    a = allocate(NULL, sizeof *a);
    a->bytes = bytes;
    a->size = size;
    a->part = (size / PARTS / PIECE + 1) * PIECE;
    a->pagemap = open("/proc/self/pagemap", O_RDONLY | O_CLOEXEC);
    if (sem_init(&a->over, 0, 0) == 0) {
        if (map_piece(a, 0) && is_started(a)) return a; /* the first piece here: so the thread is ahead from the start */
        sem_destroy(&a->over);
    }
    if (a->pagemap >= 0) close(a->pagemap);
    free(a);
    return NULL;
}

void end_ahead(struct ahead *a) {
    if (a == NULL) return;
    sem_post(&a->over);
    pthread_join(a->thread, NULL);
    sem_destroy(&a->over);
    if (a->pagemap >= 0) close(a->pagemap);
    free(a);
}

#else

struct ahead *begin_ahead(uint8_t *bytes, uint64_t size) {
    (void)bytes;
    (void)size;
    return NULL;
}

void end_ahead(struct ahead *a) {
    (void)a;
}

#endif
