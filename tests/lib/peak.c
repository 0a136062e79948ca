/* Runs a program, and tells its peak memory and its time of the processor.

   Usage: peak FILE PROGRAM WORD..   The kilobytes and milliseconds are written into FILE; the status is that of the program.

   What the system tells of a child is never less than what its parent had when it was made. A script in Python has
   more than the program, and this has less. The room for addresses has a bound, so that a program which takes all that
   it can get takes no memory from others; the program ends where its parent ends. */
#define _GNU_SOURCE
#include <signal.h>
#include <stdio.h>
#include <sys/prctl.h>
#include <sys/resource.h>
#include <sys/wait.h>
#include <unistd.h>

#define MOST (8UL << 30)

static int fault(const char *what)
{
    perror(what);
    return 125;
}

int main(int count, char **words)
{
    if (count < 3) {
        fputs("Usage: peak FILE PROGRAM WORD..\n", stderr);
        return 125;
    }
    pid_t child = fork();
    if (child < 0)
        return fault("fork");
    if (child == 0) {
        struct rlimit room = {MOST, MOST};
        if (prctl(PR_SET_PDEATHSIG, SIGKILL) == 0 && setrlimit(RLIMIT_AS, &room) == 0)
            execv(words[2], words + 2);
        _exit(fault(words[2]));
    }
    int status;
    struct rusage used;
    if (wait4(child, &status, 0, &used) != child)
        return fault("wait4");
    long milliseconds = (used.ru_utime.tv_sec + used.ru_stime.tv_sec) * 1000 + (used.ru_utime.tv_usec + used.ru_stime.tv_usec) / 1000;
    FILE *file = fopen(words[1], "w");
    if (!file || fprintf(file, "%ld %ld\n", used.ru_maxrss, milliseconds) < 0 || fclose(file) != 0)
        return fault(words[1]);
    return WIFEXITED(status) ? WEXITSTATUS(status) : 128 + WTERMSIG(status);
}
