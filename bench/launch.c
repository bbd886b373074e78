/* Runs a program on a file and prints how long it took by the clock, in seconds, and its peak memory, in bytes.
   bench/run.py starts it, and not the program itself: a process counts as its own the memory of the one that started
   it, and this one has next to none.

   usage: launch FILE PROGRAM ARGUMENT ..       the file is standard input; standard output is dropped */
#include <fcntl.h>
#include <stdio.h>
#include <sys/resource.h>
#include <sys/wait.h>
#include <time.h>
#include <unistd.h>

static double now(void) {
    struct timespec at;
    clock_gettime(CLOCK_MONOTONIC, &at);
    return at.tv_sec + at.tv_nsec / 1e9;
}

int main(int count, char **words) {
    if (count < 3) return 2;
    int from = open(words[1], O_RDONLY), to = open("/dev/null", O_WRONLY);
    if (from < 0 || to < 0) return 2;
    double began = now();
    pid_t child = fork();
    if (child == 0) {
        dup2(from, 0);
        dup2(to, 1);
        execv(words[2], words + 2);
        _exit(127);
    }
    int status = 0;
    struct rusage used;
    if (child < 0 || wait4(child, &status, 0, &used) != child) return 2;
    double took = now() - began;
    if (!WIFEXITED(status) || WEXITSTATUS(status) != 0) return 1;
    printf("%.6f %ld\n", took, used.ru_maxrss * 1024L);
    return 0;
}
