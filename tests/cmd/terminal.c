/* Runs a command whose standard error is a terminal, and prints on standard error what appears there. With -a before the
   command its standard output is that terminal too. The exit status is the command's. */
#define _XOPEN_SOURCE 700
#include <fcntl.h>
#include <stdio.h>
#include <stdlib.h>
#include <string.h>
#include <sys/wait.h>
#include <unistd.h>

static int fail(const char *what) {
    perror(what);
    return 125;
}

int main(int argc, char **argv) {
    int all = argc > 1 && strcmp(argv[1], "-a") == 0, master = posix_openpt(O_RDWR | O_NOCTTY), slave, status;
    char bytes[4096];
    ssize_t n;
    pid_t child;
    if (argc < 2 + all) return 125;
    if (master < 0 || grantpt(master) != 0 || unlockpt(master) != 0) return fail("terminal");
    slave = open(ptsname(master), O_RDWR | O_NOCTTY);
    if (slave < 0) return fail("terminal");
    child = fork();
    if (child < 0) return fail("fork");
    if (child == 0) {
        if (all) dup2(slave, STDOUT_FILENO);
        dup2(slave, STDERR_FILENO);
        close(slave);
        close(master);
        execvp(argv[1 + all], argv + 1 + all);
        _exit(126);
    }
    close(slave);
    while ((n = read(master, bytes, sizeof bytes)) > 0) /* fails once nobody has the terminal open */
        if (write(STDERR_FILENO, bytes, (size_t)n) < 0) break;
    waitpid(child, &status, 0);
    return WIFEXITED(status) ? WEXITSTATUS(status) : 128 + WTERMSIG(status);
}
