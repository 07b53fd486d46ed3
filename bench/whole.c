/* Runs whole programs on a file, in turns, and prints the time and the memory that each took: whole REPETITIONS FILE
 * NAME=PROGRAM.. It is linked statically, since a child's peak counts the memory of its parent until it is replaced. */
#include <fcntl.h>
#include <stdio.h>
#include <stdlib.h>
#include <string.h>
#include <sys/resource.h>
#include <sys/wait.h>
#include <time.h>
#include <unistd.h>

enum { MOST_PROGRAMS = 8, MOST_REPETITIONS = 10000 };

static double times[MOST_PROGRAMS][MOST_REPETITIONS];
static long peaks[MOST_PROGRAMS];

static void stop(const char *what) {
    fprintf(stderr, "whole: %s\n", what);
    exit(1);
}

static double now(void) {
    struct timespec t;
    clock_gettime(CLOCK_MONOTONIC, &t);
    return 1e9 * (double)t.tv_sec + (double)t.tv_nsec;
}

static void become(const char *program, const char *file) {
    int from = open(file, O_RDONLY), to = open("/dev/null", O_WRONLY);
    if (from < 0 || to < 0 || dup2(from, 0) < 0 || dup2(to, 1) < 0)
        _exit(127);
    execl(program, program, (char *)NULL);
    _exit(127);
}

/* Answers the time in nanoseconds, from before the fork until the child has ended. */
static double run(const char *program, const char *file, long *peak) {
    struct rusage used;
    int status;
    double from = now();
    pid_t child = fork();
    if (child < 0)
        stop("no child");
    if (child == 0)
        become(program, file);
    if (wait4(child, &status, 0, &used) != child || status != 0)
        stop("a program did not end with status 0");
    double taken = now() - from;
    if (used.ru_maxrss > *peak)
        *peak = used.ru_maxrss;
    return taken;
}

static int ascending(const void *a, const void *b) {
    double x = *(const double *)a, y = *(const double *)b;
    return x < y ? -1 : x > y;
}

int main(int argc, char **argv) {
    if (argc < 4 || argc - 3 > MOST_PROGRAMS)
        stop("REPETITIONS FILE NAME=PROGRAM..");
    size_t repetitions = strtoul(argv[1], NULL, 10), count = (size_t)argc - 3;
    const char *programs[MOST_PROGRAMS];
    if (repetitions == 0 || repetitions > MOST_REPETITIONS)
        stop("1 to 10000 repetitions");
    for (size_t p = 0; p < count; p++) {
        char *sign = strchr(argv[3 + p], '=');
        if (sign == NULL)
            stop("NAME=PROGRAM");
        *sign = 0;
        programs[p] = sign + 1;
    }
    for (size_t i = 0; i < repetitions; i++)
        for (size_t p = 0; p < count; p++)
            times[p][i] = run(programs[p], argv[2], &peaks[p]);
    for (size_t p = 0; p < count; p++)
        qsort(times[p], repetitions, sizeof(double), ascending);
    printf("| program | best | median | ratio of the bests to the last | peak memory |\n|---|---|---|---|---|\n");
    for (size_t p = 0; p < count; p++)
        printf("| %s | %.0f | %.0f | %.2f | %ld KiB |\n", argv[3 + p], times[p][0] / 1000,
               times[p][repetitions / 2] / 1000, times[p][0] / times[count - 1][0], peaks[p]);
    return 0;
}
