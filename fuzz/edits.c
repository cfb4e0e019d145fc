/* Edits programs, certificates and rows at random, runs pact and pact_explain on each, and judges what they answer. See README.md, "Edits".
   edits PROGRAM EXPLAINS FOLDER KEPT COUNT PROCESSES FIRST FILE..
   FOLDER has programs NAME.pact, certificates NAME.*.json of them, and the programs' sources. The FILEs among them are edited. What fails is kept in
   KEPT, under the edit's number, from which alone it can be made again. */
#include "runs.h"

#define MOST_FILES 256
#define MOST_SPANS 4096

/* ---- Texts */

enum content { PROGRAM, CERTIFICATE, ROWS };
struct file {
    const char *name;
    struct text text;
    enum content content;
};
static struct file files[MOST_FILES];
static size_t file_count;

static int by_name(const void *a, const void *b) { return strcmp(((const struct file *)a)->name, ((const struct file *)b)->name); }
static int ends_in(const char *name, const char *end)
{
    size_t length = strlen(name), part = strlen(end);
    return length >= part && strcmp(name + length - part, end) == 0;
}
static void read_files(char **names)
{
    for (; *names != NULL; names++) {
        if (file_count == MOST_FILES)
            stop("files");
        struct file *file = &files[file_count++];
        file->name = *names;
        file->content = ends_in(*names, ".pact") ? PROGRAM : ends_in(*names, ".json") ? CERTIFICATE : ROWS;
        FILE *stream = fopen(file->name, "rb");
        if (stream == NULL || (file->text.bytes = malloc(MOST_BYTES)) == NULL)
            stop(file->name);
        file->text.length = fread(file->text.bytes, 1, MOST_BYTES, stream);
        fclose(stream);
    }
    qsort(files, file_count, sizeof files[0], by_name);
}

/* A part of a text: from `at`, so many bytes. */
struct span {
    size_t at, length;
};
static int is_of_word(char byte)
{
    return (byte >= 'a' && byte <= 'z') || (byte >= 'A' && byte <= 'Z') || (byte >= '0' && byte <= '9') || strchr("_.-:\"=#", byte) != NULL;
}
static int is_digit(char byte) { return byte >= '0' && byte <= '9'; }
static int is_alike(char a, char b) { return a == b || (is_digit(a) && is_digit(b)); }
/* The words of a text, its numbers, or its lines with their ends; of a certificate commas end what is as a line. */
enum kind { WORDS, NUMBERS, LINES };
static size_t spans_of(struct text text, enum kind kind, char end, struct span *spans)
{
    size_t count = 0, at = 0;
    while (at < text.length && count < MOST_SPANS) {
        size_t from = at;
        if (kind == LINES) {
            while (at < text.length && text.bytes[at] != end)
                at++;
            if (at < text.length)
                at++;
        } else {
            int (*is_part)(char) = kind == WORDS ? is_of_word : is_digit;
            if (text.bytes[at] == '\0' || !is_part(text.bytes[at])) {
                at++;
                continue;
            }
            while (at < text.length && text.bytes[at] != '\0' && is_part(text.bytes[at]))
                at++;
        }
        spans[count++] = (struct span){from, at - from};
    }
    return count;
}
/* Puts other bytes in the place of a part, as far as there is room. */
static void put(struct text *text, struct span span, const char *bytes, size_t length)
{
    if (text->length - span.length + length > MOST_BYTES)
        return;
    memmove(text->bytes + span.at + length, text->bytes + span.at + span.length, text->length - span.at - span.length);
    memcpy(text->bytes + span.at, bytes, length);
    text->length = text->length - span.length + length;
}

static const char *const limits[] = {"0", "1", "2", "3", "7", "8", "9", "15", "16", "17", "31", "32", "63", "64", "65", "255", "256", "999", "1000",
    "1001", "4095", "4096", "4097", "100000", "100001", "1000000", "1000001", "2147483647", "2147483648", "4294967295", "4294967296",
    "9223372036854775807", "9223372036854775808", "-1", "-0", "-9223372036854775808", "-9223372036854775809", "18446744073709551615",
    "18446744073709551616", "00", "+1", "1.0", "1e3", ""};
static struct span spans[MOST_SPANS], others[MOST_SPANS];
static char moved[MOST_BYTES];

/* One edit of a text; what it adds may come from another file. */
static void edit(struct text *text, enum content content)
{
    char end = content == CERTIFICATE ? ',' : '\n', byte;
    size_t count, more, first, second, times;
    struct span span;
    const struct file *other = &files[below(file_count)];
    if (other->content != content)
        other = NULL;
    struct text source = other == NULL ? *text : other->text;
    switch (below(16)) {
    case 0: /* a byte changed or put in, to one of the text, a printable one, or any */
        byte = text->length > 0 && below(2) == 0 ? text->bytes[below(text->length)] : below(4) == 0 ? (char)below(256) : (char)(32 + below(95));
        first = below(text->length + 1);
        put(text, (struct span){first, first < text->length ? below(2) : 0}, &byte, 1);
        break;
    case 1: /* a byte taken out */
        if (text->length > 0)
            put(text, (struct span){below(text->length), 1}, NULL, 0);
        break;
    case 2: /* a word changed, put in before another one, or taken out */
    case 3:
    case 4:
    case 5:
    case 6:
        count = spans_of(*text, WORDS, end, spans);
        more = spans_of(source, WORDS, end, others);
        if (count == 0 || more == 0)
            break;
        span = spans[below(count)];
        first = below(more);
        if (below(4) > 0) { /* mostly to one of its kind: a register for a register, a number for a number */
            for (times = 0; times < 50 && !is_alike(text->bytes[span.at], source.bytes[others[first].at]); times++)
                first = below(more);
            memcpy(moved, source.bytes + others[first].at, others[first].length);
            put(text, span, moved, others[first].length);
            break;
        }
        memcpy(moved, source.bytes + others[first].at, others[first].length);
        moved[others[first].length] = ' ';
        switch (below(3)) {
        case 0: put(text, span, moved, others[first].length); break;
        case 1: put(text, (struct span){span.at, 0}, moved, others[first].length + 1); break;
        default: put(text, span, NULL, 0);
        }
        break;
    case 7: /* a line changed, put in, or taken out */
    case 8:
    case 9:
        count = spans_of(*text, LINES, end, spans);
        more = spans_of(source, LINES, end, others);
        if (count == 0 || more == 0)
            break;
        span = spans[below(count)];
        first = below(more);
        memcpy(moved, source.bytes + others[first].at, others[first].length);
        switch (below(3)) {
        case 0: put(text, span, moved, others[first].length); break;
        case 1: put(text, (struct span){span.at, 0}, moved, others[first].length); break;
        default: put(text, span, NULL, 0);
        }
        break;
    case 10: /* two lines change places */
        count = spans_of(*text, LINES, end, spans);
        if (count < 2)
            break;
        first = below(count - 1);
        second = first + 1 + below(count - first - 1);
        more = spans[second].at - spans[first].at - spans[first].length;
        memcpy(moved, text->bytes + spans[second].at, spans[second].length);
        memcpy(moved + spans[second].length, text->bytes + spans[first].at + spans[first].length, more);
        memcpy(moved + spans[second].length + more, text->bytes + spans[first].at, spans[first].length);
        memcpy(text->bytes + spans[first].at, moved, spans[first].length + more + spans[second].length);
        break;
    case 11: /* some lines come again, once or often */
        count = spans_of(*text, LINES, end, spans);
        if (count == 0)
            break;
        first = below(count);
        second = first + below(count - first < 12 ? count - first : 12);
        span = (struct span){spans[first].at, spans[second].at + spans[second].length - spans[first].at};
        memcpy(moved, text->bytes + span.at, span.length);
        for (times = below(4) == 0 ? 1 + below(40) : 1; times > 0; times--)
            put(text, (struct span){span.at, 0}, moved, span.length);
        break;
    case 12: /* a number at a limit, or another one of the text's */
    case 13:
    case 14:
        count = spans_of(*text, NUMBERS, end, spans);
        if (count == 0)
            break;
        span = spans[below(count)];
        if (below(2) == 0) {
            const char *limit = limits[below(sizeof limits / sizeof limits[0])];
            put(text, span, limit, strlen(limit));
        } else {
            first = below(count);
            memcpy(moved, text->bytes + spans[first].at, spans[first].length);
            put(text, span, moved, spans[first].length);
        }
        break;
    default: /* cut short */
        if (below(4) == 0)
            text->length = below(text->length + 1);
    }
}

/* ---- What is judged */

struct counts {
    unsigned long edits, runs, failures, compared, certified, explained, marked, statuses[6][16];
};
static const char *const command_names[] = {"sets", "plan", "run", "check"};
enum command { SETS, PLAN, RUN, CHECK };
static const char *explains;
static struct counts *counts; /* shared by all processes */
static struct text edited;
static const char *edited_name;
static int has_failed;

static void fails_in(const char *of, char *const words[], struct answer answer, const char *why)
{
    char line[4096];
    size_t length = 0;
    has_failed = 1;
    for (int i = 1; words[i] != NULL && length < sizeof line; i++)
        length += (size_t)snprintf(line + length, sizeof line - length, " %s", words[i]);
    __atomic_add_fetch(&counts->failures, 1, __ATOMIC_SEQ_CST);
    printf("edit %lu of %s: %s%s: status %d: %s\n", number, edited_name, of, line, answer.status, why);
    fflush(stdout);
    keep(strrchr(edited_name, '.') + 1, edited);
    keep("out", answer.out);
    keep("err", answer.err);
}
static void fails(char *const words[], struct answer answer, const char *why) { fails_in("pact", words, answer, why); }
static size_t lines_of(struct text text)
{
    size_t lines = 0;
    for (size_t at = 0; at < text.length; at++)
        lines += text.bytes[at] == '\n';
    return lines;
}
static int begins(struct text text, const char *with) { return strncmp(text.bytes, with, strlen(with)) == 0; }
static int has_repeat(struct text text) { return memmem(text.bytes, text.length, "repeat", 6) != NULL; }
static int is_large; /* whether the program that is run has a loop with a fixed number of turns */
/* Why an answer is none that there may be; NULL where it may. */
static const char *fault_of(enum command command, struct answer answer)
{
    static const char *const allowed[] = {"056", "03567", "03567", "0569"};
    struct text err = answer.err;
    /* Loops that emit may give more than there is room or time for; nothing else may. */
    if (command == RUN && is_large && (answer.status == -1 || answer.status == 1 || answer.status == 4))
        return NULL;
    if (answer.status < 0)
        return "it took too long";
    if (answer.status > 9 || strchr(allowed[command], '0' + answer.status) == NULL)
        return "no such status";
    if (answer.status == 0) {
        if (err.length > 0)
            return "something is told on standard error";
        if (command == CHECK && strcmp(answer.out.bytes, "accepted\n") != 0)
            return "no such text";
        if (command == PLAN && !begins(answer.out, "plans ") && !begins(answer.out, "{\"plan\":"))
            return "no such text";
        int is_whole = answer.out.length < MOST_BYTES - 1;
        return is_whole && answer.out.length > 0 && answer.out.bytes[answer.out.length - 1] != '\n' ? "the last line isn't ended" : NULL;
    }
    if (answer.out.length > 0)
        return "something is written on standard output";
    if (err.length == 0 || err.bytes[err.length - 1] != '\n' || memchr(err.bytes, '\0', err.length) != NULL)
        return "no line on standard error";
    size_t lines = lines_of(err);
    if (answer.status == 9) {
        int is_c3 = strstr(err.bytes, ": C3\n") != NULL, has_both = begins(err, "certificate refused: C5\n") || begins(err, "certificate refused: C6\n");
        if (!begins(err, "certificate refused: ") || lines != (is_c3 ? 5u : has_both ? 3u : 1u))
            return "no such refusal of a certificate";
        return NULL;
    }
    if (lines != 1)
        return "not one line on standard error";
    unsigned long first, second, third;
    char word[64], behind;
    int count;
    switch (answer.status) {
    case 3: return begins(err, "cannot read ") ? NULL : "no such line";
    case 5:
        count = sscanf(err.bytes, "edited.pact:%lu: text fault %lu%c", &first, &second, &behind);
        return count == 3 && behind == '\n' && first >= 1 && second >= 1 && second <= 12 ? NULL : "no such line";
    case 6:
        count = sscanf(err.bytes, "function %32[a-z0-9_]: V%lu at statement %lu%c", word, &first, &second, &behind);
        if (count == 4 && behind == '\n' && first >= 1 && first <= 8)
            return NULL;
        count = sscanf(err.bytes, "%32[a-z0-9_]: P%lu%c", word, &first, &behind);
        return count == 3 && behind == '\n' && first >= 1 && first <= 10 ? NULL : "no such line";
    default:
        count = sscanf(err.bytes, "source %32[a-z0-9_]: row %lu column %lu: why %lu%c", word, &first, &second, &third, &behind);
        return count == 5 && behind == '\n' && first >= 1 && third >= 1 && third <= 4 ? NULL : "no such line";
    }
}
/* The end of the line that begins there, or of the text. */
static const char *line_end(const char *at)
{
    const char *end = strchr(at, '\n');
    return end == NULL ? at + strlen(at) : end;
}
/* Whether the place of an explanation is on the line of a text's fault. Where the text ends too early, it may be on a line before that. */
static int is_on_line(const char *told, const char *place, unsigned long line)
{
    unsigned long shown;
    if (sscanf(place, "\nedited.pact:%lu:", &shown) != 1)
        return 0;
    return shown == line || (shown < line && strstr(told, "\nthe text ends here\n") != NULL);
}
/* Whether an explanation's second to fourth lines are a place, what is there, and marks: of a fault of a text a place on its line, of a broken rule
   another one of the program, and of a bad row one of a file. */
static int has_mark(const char *told, struct answer answer)
{
    static const char file[] = "\nedited.pact:";
    const char *second = line_end(told), *third, *fourth;
    char *after;
    unsigned long line;
    if (answer.status != 7 && strncmp(second, file, strlen(file)) != 0)
        return 0;
    if (answer.status == 5 && sscanf(answer.err.bytes, "edited.pact:%lu:", &line) == 1 && !is_on_line(told, second, line))
        return 0;
    if (*(third = line_end(second + 1)) == '\0' || *(fourth = line_end(third + 1)) == '\0')
        return 0;
    /* The line's number and the column are the last two parts of the place. */
    const char *colon = memrchr(second, ':', (size_t)(third - second));
    if (colon == NULL || memrchr(second, ':', (size_t)(colon - second)) == NULL)
        return 0;
    size_t column = strtoul(colon + 1, &after, 10);
    if (after != third || column == 0)
        return 0;
    size_t blanks = strspn(fourth + 1, " \t"), marks = strspn(fourth + 1 + blanks, "^");
    const char *behind = fourth + 1 + blanks + marks;
    /* The line is shown after four blanks; if it is long, it is cut, and marks may be further to the left. A tab is one in both lines. */
    return strncmp(third + 1, "    ", 4) == 0 && marks > 0 && behind[strspn(behind, "\t^")] == '\n' &&
           (blanks == column + 3 || column > 40 || memchr(third, '\t', (size_t)(fourth - third)) != NULL || strstr(third, "\\x") != NULL);
}
/* Why an explanation is wrong, if pact answers that; NULL where it is right. */
static const char *fault_of_explanation(struct answer told, struct answer answer)
{
    int is_refused = answer.status > 1 && answer.status != 4;
    if (told.status < 0)
        return "it took too long";
    if (told.status > 127)
        return "a signal ended it";
    if (told.err.length > 0)
        return "something is told on standard error";
    if (told.out.length == 0)
        return "nothing is told";
    if (told.out.bytes[told.out.length - 1] != '\n')
        return "the last line isn't ended";
    if (told.status != (is_refused ? answer.status : 0))
        return "another status than pact's";
    if (!is_refused)
        return begins(told.out, "no fault found\n") ? NULL : "it has a fault, and pact has none";
    if (strncmp(told.out.bytes, answer.err.bytes, answer.err.length) != 0)
        return "it doesn't begin with what pact tells";
    if ((answer.status == 5 || answer.status == 6 || answer.status == 7) && !has_mark(told.out.bytes, answer))
        return "no mark";
    return NULL;
}
/* Runs a program, and once more if it took too long: a busy machine can cause that. */
static struct answer run_again(const char *name, char *const words[])
{
    struct answer answer = run_file(name, words);
    return answer.status < 0 ? run_file(name, words) : answer;
}
/* Runs a command over what was edited, explains the answer, and judges both. */
static struct answer judged(enum command command, char *const words[])
{
    struct answer told = run_again(explains, words);
    told.out = copied(told.out);
    told.err = copied(told.err);
    struct answer answer = command == RUN && is_large ? run(words) : run_again(program, words);
    const char *why = fault_of(command, answer);
    const char *why_explained = fault_of_explanation(told, answer);
    __atomic_add_fetch(&counts->explained, 1, __ATOMIC_RELAXED);
    if (answer.status >= 5 && answer.status <= 7)
        __atomic_add_fetch(&counts->marked, 1, __ATOMIC_RELAXED);
    if (why_explained != NULL) {
        fails_in("pact_explain", words, told, why_explained);
        keep("printed", answer.err);
    }
    free(told.out.bytes);
    free(told.err.bytes);
    __atomic_add_fetch(&counts->runs, 1, __ATOMIC_RELAXED);
    __atomic_add_fetch(&counts->statuses[command][answer.status < 0 || answer.status > 14 ? 15 : answer.status], 1, __ATOMIC_RELAXED);
    if (why != NULL)
        fails(words, answer, why);
    return answer;
}
static char *const sets_words[] = {"pact", "sets", "edited.pact", NULL};
static char *const check_words[] = {"pact", "check", "edited.pact", "chosen.json", NULL};
/* Some options of a run, as they are drawn. */
static char *const *options_drawn(void)
{
    static char *words[16], *const numbers[] = {"1", "2", "3", "4", "16"}, *const depths[] = {"1", "4", "64"};
    int count = 0;
    words[count++] = "pact";
    words[count++] = "run";
    words[count++] = "edited.pact";
    words[count++] = "--workers";
    words[count++] = numbers[below(below(4) == 0 ? 5 : 3)];
    if (below(2) == 0) {
        words[count++] = "--local";
        words[count++] = "sort";
    }
    if (below(2) == 0) {
        words[count++] = "--batch";
        words[count++] = numbers[below(5)];
        words[count++] = "--depth";
        words[count++] = depths[below(3)];
    }
    if (below(4) == 0) {
        words[count++] = "--plans";
        words[count++] = numbers[below(5)];
    }
    if (below(2) == 0)
        words[count++] = "--combine";
    words[count] = NULL;
    return words;
}
static void try_program(void)
{
    static char *const plan_words[] = {"pact", "plan", "edited.pact", NULL}, *const cert_words[] = {"pact", "cert", "edited.pact", NULL},
                       *const written_words[] = {"pact", "run", "edited.pact", "--workers", "1", "--plans", "1", NULL};
    struct answer answer;
    is_large = has_repeat(edited);
    write_file("edited.pact", edited);
    switch (below(5)) {
    case 0: judged(SETS, sets_words); return;
    case 1: judged(PLAN, plan_words); return;
    case 2: judged(RUN, options_drawn()); return;
    case 3: /* the certificate of the choice is accepted */
        answer = judged(PLAN, cert_words);
        if (answer.status != 0)
            return;
        write_file("chosen.json", answer.out);
        answer = judged(CHECK, check_words);
        if (!has_failed && answer.status != 0)
            fails(check_words, answer, "its own certificate isn't accepted");
        __atomic_add_fetch(&counts->certified, 1, __ATOMIC_RELAXED);
        return;
    default: /* where the program has one answer, that of the plan as written on one worker is that of any other run */
        answer = judged(SETS, sets_words);
        if (answer.status != 0 || strstr(answer.out.bytes, "order no\n") != NULL)
            return;
        answer = judged(RUN, written_words);
        if (answer.status < 0 || answer.status == 1 || answer.status == 4 || answer.out.length == MOST_BYTES - 1)
            return;
        struct answer first = {answer.status, copied(answer.out), copied(answer.err)};
        char *const *words = options_drawn();
        answer = judged(RUN, words);
        if (!has_failed && answer.status >= 0 && answer.status != 1 && answer.status != 4 &&
            (answer.status != first.status || strcmp(answer.out.bytes, first.out.bytes) != 0 || strcmp(answer.err.bytes, first.err.bytes) != 0))
            fails(words, answer, "another answer than the plan's as written");
        free(first.out.bytes);
        free(first.err.bytes);
        __atomic_add_fetch(&counts->compared, 1, __ATOMIC_RELAXED);
    }
}
/* Whether a program names a file as a word of its own. */
static int names(struct text program_text, const char *name)
{
    size_t length = strlen(name);
    for (const char *at = program_text.bytes, *end = at + program_text.length; (at = memmem(at, (size_t)(end - at), name, length)) != NULL; at++)
        if (at > program_text.bytes && at[-1] == ' ' && at + length < end && at[length] == ' ')
            return 1;
    return 0;
}
/* Edited rows take the place of a file that one of the programs reads. */
static void try_rows(const struct file *file)
{
    const struct file *reader = NULL;
    size_t readers = 0;
    for (size_t at = 0; at < file_count; at++)
        if (files[at].content == PROGRAM && names(files[at].text, file->name) && below(++readers) == 0)
            reader = &files[at];
    if (reader == NULL)
        return;
    is_large = has_repeat(reader->text);
    write_file("edited.pact", reader->text);
    write_file(file->name, edited);
    judged(RUN, options_drawn());
    write_file(file->name, file->text);
}
static void try_certificate(const struct file *file)
{
    char name[300];
    snprintf(name, sizeof name, "%.*s.pact", (int)strcspn(file->name, "."), file->name);
    char *const words[] = {"pact", "check", name, "edited.json", NULL};
    write_file("edited.json", edited);
    judged(CHECK, words);
}
static void try_edit(void)
{
    const struct file *file = &files[below(file_count)];
    edited_name = file->name;
    has_failed = 0;
    memcpy(edited.bytes, file->text.bytes, file->text.length);
    edited.length = file->text.length;
    for (size_t times = below(2) == 0 ? 1 : 1 + below(4); times > 0; times--)
        edit(&edited, file->content);
    switch (file->content) {
    case PROGRAM: try_program(); break;
    case CERTIFICATE: try_certificate(file); break;
    default: try_rows(file);
    }
    __atomic_add_fetch(&counts->edits, 1, __ATOMIC_RELAXED);
}

/* A folder of its own for each process, since it writes files. */
static void enter(const char *folder, unsigned long process)
{
    char own[4096], command[9000];
    snprintf(own, sizeof own, "%s/process%lu", folder, process);
    snprintf(command, sizeof command, "mkdir '%s' && cp '%s'/*.* '%s'", own, folder, own);
    if (system(command) != 0 || chdir(own) != 0)
        stop(own);
    open_answers();
}

int main(int words, char **word)
{
    if (words < 9)
        return 2;
    program = word[1];
    explains = word[2];
    kept = word[4];
    unsigned long count = strtoul(word[5], NULL, 10), processes = strtoul(word[6], NULL, 10), first = strtoul(word[7], NULL, 10);
    counts = mmap(NULL, sizeof *counts, PROT_READ | PROT_WRITE, MAP_SHARED | MAP_ANONYMOUS, -1, 0);
    edited.bytes = malloc(MOST_BYTES);
    if (counts == MAP_FAILED || edited.bytes == NULL || chdir(word[3]) != 0)
        stop("start");
    read_files(word + 8);
    limit_runs();
    for (unsigned long process = 0; process < processes; process++) {
        pid_t child = fork();
        if (child < 0)
            stop("fork");
        if (child > 0)
            continue;
        enter(word[3], process);
        for (unsigned long of = first + process; of < first + count; of += processes) {
            begin_trial(of);
            try_edit();
        }
        exit(0);
    }
    int status, all_ended = 1;
    while (wait(&status) > 0)
        all_ended = all_ended && status == 0;
    printf("%lu edits, %lu runs, %lu explained, %lu with marks, %lu certificates checked again, %lu answers compared, %lu failures\n",
        counts->edits, counts->runs, counts->explained, counts->marked, counts->certified, counts->compared, counts->failures);
    printf("%-6s %9s %9s %9s %9s %9s %9s %9s %9s\n", "status", "0", "1", "3", "5", "6", "7", "9", "other");
    for (int command = 0; command < 4; command++) {
        unsigned long *of = counts->statuses[command];
        unsigned long other = of[15];
        for (int status = 0; status < 15; status++)
            other += strchr("0135679", '0' + status) == NULL ? of[status] : 0;
        printf("%-6s %9lu %9lu %9lu %9lu %9lu %9lu %9lu %9lu\n", command_names[command], of[0], of[1], of[3], of[5], of[6], of[7], of[9], other);
    }
    return all_ended && counts->failures == 0 && counts->edits == count ? 0 : 1;
}
