/* Refuses requests for memory of the program into which it is loaded before others (LD_PRELOAD), counted from the start of `main`.
   REFUSE_AT    the number of the request that is refused, from 1; without it none is
   REFUSE_ON    where it is there, each request from that one on is refused
   REFUSE_TOLD  an empty file, which gets `refused` at the first refusal; where none was refused, it gets the number of requests at the end, so it
                stays empty where the run is ended before its request
   A program that waits for ever is ended after ten seconds, by SIGALRM. */
#define _GNU_SOURCE
#include <dlfcn.h>
#include <errno.h>
#include <fcntl.h>
#include <stdatomic.h>
#include <stddef.h>
#include <stdio.h>
#include <stdlib.h>
#include <string.h>
#include <sys/syscall.h>
#include <unistd.h>

extern void *__libc_malloc(size_t);
extern void *__libc_calloc(size_t, size_t);
extern void *__libc_realloc(void *, size_t);
extern void *__libc_memalign(size_t, size_t);

static atomic_ulong requests;
static atomic_int counting;
static unsigned long at;
static int on;
static const char *told;
static int (*real_main)(int, char **, char **);

static void tell(const char *line)
{
    int file = told == NULL ? -1 : open(told, O_WRONLY);
    if (file < 0)
        return;
    if (write(file, line, strlen(line)) < 0)
        abort();
    close(file);
}
static int is_refused(void)
{
    if (!atomic_load(&counting))
        return 0;
    unsigned long number = atomic_fetch_add(&requests, 1) + 1;
    if (at == 0 || number < at || (number > at && !on))
        return 0;
    if (number == at)
        tell("refused\n");
    errno = ENOMEM;
    return 1;
}

void *malloc(size_t size) { return is_refused() ? NULL : __libc_malloc(size); }
void *calloc(size_t count, size_t size) { return is_refused() ? NULL : __libc_calloc(count, size); }
void *realloc(void *old, size_t size) { return is_refused() ? NULL : __libc_realloc(old, size); }
void *memalign(size_t align, size_t size) { return is_refused() ? NULL : __libc_memalign(align, size); }
void *aligned_alloc(size_t align, size_t size) { return is_refused() ? NULL : __libc_memalign(align, size); }
int posix_memalign(void **result, size_t align, size_t size)
{
    void *memory = is_refused() ? NULL : __libc_memalign(align, size);
    if (memory == NULL)
        return ENOMEM;
    *result = memory;
    return 0;
}

static void tell_number(void)
{
    char line[32];
    atomic_store(&counting, 0);
    snprintf(line, sizeof line, "%lu\n", (unsigned long)atomic_load(&requests));
    tell(at != 0 && atomic_load(&requests) >= at ? "refused\n" : line);
}

/* The program ends by this call, in the midst of `main`. */
void _exit(int status)
{
    tell_number();
    syscall(SYS_exit_group, status);
    __builtin_unreachable();
}

static int counted_main(int words, char **arguments, char **environment)
{
    const char *text = getenv("REFUSE_AT");
    at = text != NULL ? strtoul(text, NULL, 10) : 0;
    on = getenv("REFUSE_ON") != NULL;
    told = getenv("REFUSE_TOLD");
    alarm(10);
    atomic_store(&counting, 1);
    int status = real_main(words, arguments, environment);
    tell_number();
    return status;
}

int __libc_start_main(int (*program)(int, char **, char **), int words, char **arguments, void (*start)(void), void (*end)(void),
    void (*loader_end)(void), void *stack)
{
    int (*next)(int (*)(int, char **, char **), int, char **, void (*)(void), void (*)(void), void (*)(void), void *);
    *(void **)&next = dlsym(RTLD_NEXT, "__libc_start_main");
    real_main = program;
    return next(counted_main, words, arguments, start, end, loader_end, stack);
}
