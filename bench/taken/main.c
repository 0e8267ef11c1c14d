/* Runs a command and writes what it took to a file: seconds of the processors, seconds that passed, and the most memory
   of one of its processes in KB: taken FILE COMMAND .. It ends with the command's status. The system counts what was in
   memory when a process was begun as that process's own, so a program that is larger than those measured can't tell. */
#include <stdio.h>
#include <stdlib.h>
#include <sys/resource.h>
#include <sys/wait.h>
#include <time.h>
#include <unistd.h>

static double seconds(struct timeval time)
{
    return (double)time.tv_sec + (double)time.tv_usec / 1e6;
}

static double now(void)
{
    struct timespec time;
    clock_gettime(CLOCK_MONOTONIC, &time);
    return (double)time.tv_sec + (double)time.tv_nsec / 1e9;
}

int main(int count, char **words)
{
    int status;
    struct rusage usage;
    if (count < 3) {
        fputs("usage: taken FILE COMMAND ..\n", stderr);
        return EXIT_FAILURE;
    }
    double begun = now();
    pid_t process = fork();
    if (process == 0) {
        execvp(words[2], words + 2);
        perror(words[2]);
        _exit(127);
    }
    if (process < 0 || wait4(process, &status, 0, &usage) < 0) {
        perror("taken");
        return EXIT_FAILURE;
    }
    double passed = now() - begun;
    double spent = seconds(usage.ru_utime) + seconds(usage.ru_stime);
    FILE *file = fopen(words[1], "w");
    if (!file || fprintf(file, "%.6f %.6f %ld\n", spent, passed, usage.ru_maxrss) < 0 || fclose(file) != 0) {
        perror(words[1]);
        return EXIT_FAILURE;
    }
    return WIFEXITED(status) ? WEXITSTATUS(status) : EXIT_FAILURE;
}
