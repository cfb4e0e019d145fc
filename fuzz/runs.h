/* What trials at random have in common: their numbers, texts, and runs of the program. */
#define _GNU_SOURCE
#include <errno.h>
#include <fcntl.h>
#include <signal.h>
#include <stdint.h>
#include <stdio.h>
#include <stdlib.h>
#include <string.h>
#include <sys/mman.h>
#include <sys/resource.h>
#include <sys/wait.h>
#include <time.h>
#include <unistd.h>

#define MOST_BYTES (1 << 20)

static void stop(const char *what)
{
    perror(what);
    exit(2);
}

/* ---- Numbers at random: those of one trial follow from its number alone. */

static unsigned long number;
static uint64_t state;

static uint64_t draw(void)
{
    uint64_t z = (state += 0x9E3779B97F4A7C15ull);
    z = (z ^ (z >> 30)) * 0xBF58476D1CE4E5B9ull;
    z = (z ^ (z >> 27)) * 0x94D049BB133111EBull;
    return z ^ (z >> 31);
}
static size_t below(size_t bound) { return bound == 0 ? 0 : draw() % bound; }
static void begin_trial(unsigned long of)
{
    number = of;
    state = number * 0xD1342543DE82EF95ull + 1;
}

/* ---- Texts and files */

struct text {
    size_t length;
    char *bytes;
};
static struct text copied(struct text text)
{
    char *bytes = malloc(text.length + 1);
    if (bytes == NULL)
        stop("memory");
    memcpy(bytes, text.bytes, text.length + 1);
    return (struct text){text.length, bytes};
}
static void write_file(const char *name, struct text text)
{
    int file = open(name, O_CREAT | O_WRONLY | O_TRUNC, 0644);
    if (file < 0 || write(file, text.bytes, text.length) != (ssize_t)text.length || close(file) != 0)
        stop(name);
}

static const char *kept;
/* Keeps a text of the trial that fails. */
static void keep(const char *name, struct text text)
{
    char path[4096];
    snprintf(path, sizeof path, "%s/%lu.%s", kept, number, name);
    FILE *stream = fopen(path, "wb");
    if (stream == NULL || fwrite(text.bytes, 1, text.length, stream) != text.length || fclose(stream) != 0)
        stop(path);
}

/* ---- Runs */

struct answer {
    int status; /* 128 and the signal, where one ended it; -1 where it took too long */
    struct text out, err;
};
static const char *program;
static int out_file, err_file;
static char out_bytes[MOST_BYTES], err_bytes[MOST_BYTES];

static struct text taken(int file, char *bytes)
{
    ssize_t length = pread(file, bytes, MOST_BYTES - 1, 0);
    if (length < 0)
        stop("read");
    bytes[length] = '\0';
    return (struct text){(size_t)length, bytes};
}
static void empty(int file)
{
    if (ftruncate(file, 0) != 0 || lseek(file, 0, SEEK_SET) != 0)
        stop("truncate");
}
/* Runs a program with these words. It has ten seconds by the clock, and one of the processor, which is asked behind it. */
static struct answer run_file(const char *name, char *const words[])
{
    static char *none[] = {NULL};
    struct timespec patience = {10, 0};
    struct rusage usage;
    sigset_t ended;
    int status;
    empty(out_file);
    empty(err_file);
    sigemptyset(&ended);
    sigaddset(&ended, SIGCHLD);
    pid_t child = vfork();
    if (child == 0) {
        dup2(out_file, 1);
        dup2(err_file, 2);
        execve(name, words, none);
        _exit(127);
    }
    if (child < 0)
        stop("vfork");
    int late = 0;
    while (wait4(child, &status, WNOHANG, &usage) == 0) {
        if (sigtimedwait(&ended, NULL, &patience) < 0 && errno == EAGAIN) {
            kill(child, SIGKILL);
            wait4(child, &status, 0, &usage);
            late = 1;
            break;
        }
    }
    long microseconds = (usage.ru_utime.tv_sec + usage.ru_stime.tv_sec) * 1000000 + usage.ru_utime.tv_usec + usage.ru_stime.tv_usec;
    late = late || microseconds >= 1000000;
    status = late ? -1 : WIFSIGNALED(status) ? 128 + WTERMSIG(status) : WEXITSTATUS(status);
    return (struct answer){status, taken(out_file, out_bytes), taken(err_file, err_bytes)};
}
static struct answer run(char *const words[]) { return run_file(program, words); }
/* In a process that runs the program: where its answers go, and how it waits for them. */
static void open_answers(void)
{
    out_file = memfd_create("out", MFD_CLOEXEC);
    err_file = memfd_create("err", MFD_CLOEXEC);
    if (out_file < 0 || err_file < 0)
        stop("memfd_create");
    sigset_t ended;
    sigemptyset(&ended);
    sigaddset(&ended, SIGCHLD);
    sigprocmask(SIG_BLOCK, &ended, NULL);
}
/* What a run may have. */
static void limit_runs(void)
{
    struct rlimit memory = {2ull << 30, 2ull << 30}, size = {64 << 20, 64 << 20}, core = {0, 0};
    setrlimit(RLIMIT_AS, &memory);
    setrlimit(RLIMIT_FSIZE, &size);
    setrlimit(RLIMIT_CORE, &core);
    signal(SIGXFSZ, SIG_IGN);
}
