/* Files: mapped, so that a large one is not copied; read whole where they cannot be, as a pipe cannot. */
#include "command.h"

#include <errno.h>
#include <fcntl.h>
#include <signal.h>
#include <stdio.h>
#include <stdlib.h>
#include <string.h>
#include <sys/mman.h>
#include <unistd.h>

/* ---- a mapped file that cannot be read after all: the machine says so by SIGBUS, in the middle of a call */

static char lost[1024];
static size_t lost_len;

static void mapped_file_lost(int number) {
    (void)number;
    if (write(STDERR_FILENO, lost, lost_len) < 0) { /* there is nobody left to tell */
    }
    _exit(TROUBLE);
}

static void prepare_for_loss(const char *name) {
    struct sigaction action;
    char *form = escaped(name);
    int len = snprintf(lost, sizeof lost, "cgx: %s: an input error, or the file was cut off while it was read\n", form);
    lost_len = (size_t)len < sizeof lost ? (size_t)len : sizeof lost - 1;
    free(form);
    memset(&action, 0, sizeof action);
    action.sa_handler = mapped_file_lost;
    sigaction(SIGBUS, &action, NULL);
}

/* ---- the two ways */

/* Whether the file is now mapped. Of standard input only where nothing has been read of it yet; then all of it is. */
static bool map(int from, input *file) {
    void *bytes;
    if (!S_ISREG(file->about.st_mode) || file->about.st_size <= 0 || lseek(from, 0, SEEK_CUR) != 0) return false;
    file->size = (uint64_t)file->about.st_size;
    if (file->size > SIZE_MAX) return false;
    bytes = mmap(NULL, (size_t)file->size, PROT_READ, MAP_PRIVATE, from, 0);
    if (bytes == MAP_FAILED) return false;
    posix_madvise(bytes, (size_t)file->size, POSIX_MADV_SEQUENTIAL);
    lseek(from, 0, SEEK_END);
    prepare_for_loss(file->name);
    file->bytes = bytes;
    file->mapped = true;
    file->ahead = begin_ahead(bytes, file->size);
    return true;
}

/* Whether the rest of the file is now read. */
static bool read_whole(int from, input *file) {
    uint64_t room = 1 << 16;
    uint8_t *bytes = allocate(NULL, room);
    ssize_t n = 1;
    file->size = 0;
    begin_progress(file->name, "reading", 0);
    while (n != 0) {
        if (file->size == room) bytes = allocate(bytes, room *= 2);
        n = read(from, bytes + file->size, (size_t)(room - file->size));
        if (n < 0 && errno != EINTR) break;
        if (n > 0) file->size += (uint64_t)n;
    }
    end_progress();
    file->bytes = bytes;
    return n == 0;
}

static bool take(int from, input *file) {
    if (fstat(from, &file->about) != 0) return false;
    if (S_ISDIR(file->about.st_mode)) {
        errno = EISDIR;
        return false;
    }
    return map(from, file) || read_whole(from, file);
}

/* ---- in and out */

bool open_input(const char *name, input *file) {
    bool standard = strcmp(name, "-") == 0, taken;
    int from = standard ? STDIN_FILENO : open(name, O_RDONLY | O_CLOEXEC | O_NOCTTY), why;
    memset(file, 0, sizeof *file);
    file->name = name;
    file->prefix = "";
    taken = from >= 0 && take(from, file);
    why = errno;
    if (!standard && from >= 0) close(from);
    if (taken) return true;
    complain(name, strerror(why));
    close_input(file);
    return false;
}

void close_input(input *file) {
    end_ahead(file->ahead);
    if (file->mapped)
        munmap((void *)(uintptr_t)file->bytes, (size_t)file->size);
    else
        free((void *)(uintptr_t)file->bytes);
}
