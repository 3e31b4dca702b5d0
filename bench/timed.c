// Runs a command, and writes what it took to a file: the seconds that went by, the most memory in KiB, and the status.
//   timed FILE COMMAND [WORD]..
// It is so small itself that the memory is the command's own: the system counts for a process what its parent had.
#include <stdio.h>
#include <stdlib.h>
#include <sys/resource.h>
#include <sys/wait.h>
#include <time.h>
#include <unistd.h>

static double now(void) {
    struct timespec at;
    clock_gettime(CLOCK_MONOTONIC, &at);
    return (double)at.tv_sec + (double)at.tv_nsec / 1e9;
}

int main(int count, char **words) {
    if (count < 3) {
        fprintf(stderr, "usage: timed FILE COMMAND [WORD]..\n");
        return 1;
    }
    double begun = now();
    pid_t child = fork();
    if (child == 0) {
        execvp(words[2], words + 2);
        perror(words[2]);
        _exit(127);
    }
    int status;
    struct rusage used;
    if (child < 0 || wait4(child, &status, 0, &used) != child) {
        perror("timed");
        return 1;
    }
    double seconds = now() - begun;
    FILE *report = fopen(words[1], "w");
    if (report == NULL) {
        perror(words[1]);
        return 1;
    }
    int code = WIFEXITED(status) ? WEXITSTATUS(status) : 128 + WTERMSIG(status);
    fprintf(report, "%.6f %ld %d\n", seconds, used.ru_maxrss, code);
    return fclose(report) == 0 ? 0 : 1;
}
