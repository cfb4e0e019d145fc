/* Says how much processor time a run took, and how much of it its first thread took. Loaded into the program before others (LD_PRELOAD).
   STARTS_FILE  a file to which a line is added at the end of the run: seconds of the first thread, and of all threads
   START_LATE   milliseconds by which each further thread starts late; without it none does */
#define _GNU_SOURCE
#include <dlfcn.h>
#include <pthread.h>
#include <stdio.h>
#include <stdlib.h>
#include <sys/resource.h>
#include <sys/syscall.h>
#include <time.h>
#include <unistd.h>

struct start {
    void *(*run)(void *);
    void *with;
    long late;
};

static void *start_late(void *given)
{
    struct start start = *(struct start *)given;
    free(given);
    struct timespec wait = {start.late / 1000, start.late % 1000 * 1000000};
    while (nanosleep(&wait, &wait) != 0)
        ;
    return start.run(start.with);
}

int pthread_create(pthread_t *thread, const pthread_attr_t *attributes, void *(*run)(void *), void *with)
{
    int (*next)(pthread_t *, const pthread_attr_t *, void *(*)(void *), void *);
    *(void **)&next = dlsym(RTLD_NEXT, "pthread_create");
    const char *late = getenv("START_LATE");
    if (late == NULL)
        return next(thread, attributes, run, with);
    struct start *start = malloc(sizeof *start);
    if (start == NULL)
        abort();
    *start = (struct start){run, with, atol(late)};
    return next(thread, attributes, start_late, start);
}

static double seconds(int whose)
{
    struct rusage used;
    if (getrusage(whose, &used) != 0)
        abort();
    return used.ru_utime.tv_sec + used.ru_stime.tv_sec + (used.ru_utime.tv_usec + used.ru_stime.tv_usec) / 1e6;
}

/* The program ends by this call, on its first thread. */
void _exit(int status)
{
    const char *name = getenv("STARTS_FILE");
    FILE *file = name == NULL ? NULL : fopen(name, "a");
    if (file == NULL || fprintf(file, "%.3f %.3f\n", seconds(RUSAGE_THREAD), seconds(RUSAGE_SELF)) < 0 || fclose(file) != 0)
        abort();
    syscall(SYS_exit_group, status);
    __builtin_unreachable();
}
