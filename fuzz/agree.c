/* Makes functions at random, and holds what `pact sets` finds of each against what calls of it give. See README.md, "Sets and calls".
   agree PROGRAM FOLDER KEPT COUNT PROCESSES FIRST FORGOTTEN
   What fails is kept in KEPT, under the function's number, from which alone it can be made again. FORGOTTEN is `reads`, `writes`,
   `control`, `order` or `number`, of which each function's is taken for less than it is, so that faults are told; or `nothing`. */
#include "runs.h"
#include <stdarg.h>
#include <sys/stat.h>

#define MOST_FIELDS 128
#define MOST_PALETTE 8
#define MOST_RECORDS 3
#define MOST_ROWS 400

/* ---- The program of a function */

enum kind { MAP, MATCH, CROSS, REDUCE, COGROUP };
static const char *const kind_names[] = {"map", "match", "cross", "reduce", "cogroup"};
static int version, fields;
static enum kind kind;
/* The fields that statements and columns name, so that they meet. */
static int palette[MOST_PALETTE], palette_size;
/* Of either input. */
struct side {
    int columns[MOST_PALETTE], count, is_text[MOST_FIELDS], keys[2];
};
static struct side sides[2];
static int key_count;
static struct text text;

static void say(const char *form, ...)
{
    va_list words;
    va_start(words, form);
    int length = vsnprintf(text.bytes + text.length, MOST_BYTES - text.length, form, words);
    va_end(words);
    if (length < 0 || text.length + (size_t)length >= MOST_BYTES)
        stop("text");
    text.length += (size_t)length;
}
static int is_grouped(void) { return kind == REDUCE || kind == COGROUP; }
static int has_right(void) { return kind == MATCH || kind == CROSS || kind == COGROUP; }
static int chance(size_t in) { return below(in) == 0; }
static int some_field(void) { return palette[below((size_t)palette_size)]; }
static int some_column(void)
{
    const struct side *side = &sides[has_right() ? below(2) : 0];
    return chance(4) ? some_field() : side->columns[below((size_t)side->count)];
}

/* Where a statement stands, and what was read or copied last, which is often used next. */
static int loops, ifs, each_loops, statements_left, last_field, last_value, last_record;
/* Of a function: whether a Reduce names its first record, with which it fails the order test; whether each loop has registers of its own, and adds up in
   two more, with which it passes; whether one without groups emits at its end alone; and the side that a CoGroup's loops mostly go through. */
static int names_first, is_tidy, emits_once, favoured_side, loop_side;

static int some_target(void) { return is_tidy ? 2 * each_loops + (int)below(2) : chance(40) ? 31 : (int)below(5); }
static int some_operand(void)
{
    if (is_tidy && each_loops == 0 && chance(2))
        return 6 + (int)below(2);
    return is_tidy ? (int)below(2 * (size_t)each_loops + 2) : chance(40) ? 31 : (int)below(5);
}
static int last_or_some(void) { return chance(2) ? last_value : some_operand(); }
static int some_record_target(void) { return is_tidy ? each_loops : chance(40) ? 7 : (int)below(3); }
static int some_record_operand(void) { return is_tidy ? (int)below((size_t)each_loops + 1) : chance(40) ? 7 : (int)below(3); }

static void say_record(void)
{
    static const char *const of_pair[] = {"left", "right", "join"};
    size_t named = kind == MAP ? 1 : kind == REDUCE ? (size_t)names_first : kind == COGROUP ? 0 : 3, at = below(named + 2 * (size_t)each_loops);
    if (named + (size_t)each_loops == 0 || chance(3))
        say("r%d", some_record_operand());
    else if (at >= named)
        say("x%d", 1 + (int)(at - named) / 2);
    else
        say("%s", kind == MAP ? "in" : kind == REDUCE ? "first" : of_pair[at]);
}
static void say_field(void)
{
    if (version == 2 && chance(2))
        say("@v%d", last_or_some());
    else
        say("%d", last_field = chance(2) ? some_field() : some_column());
}
static void say_number(void)
{
    static const int numbers[] = {-1, 0, 1, 2, 3, 200};
    if (chance(3))
        say("%d", numbers[below(6)]);
    else
        say("%d", chance(8) ? fields : some_field());
}
static void say_target(void) { say("v%d = ", some_target()); }
static void say_get(void)
{
    say("v%d = get ", last_value = some_target());
    say_record(), say(" "), say_field(), say("\n");
}
static void say_copy(void)
{
    say("r%d = copy ", last_record = some_record_target());
    say_record(), say("\n");
}
/* A CoGroup is anchored where it emits records of one side alone, and what a Reduce emits behind its loops mostly depends on all. */
static void say_emit(void)
{
    int is_likely = !is_grouped() || (each_loops > 0 && (kind == REDUCE || loop_side == favoured_side));
    if (is_likely || chance(kind == REDUCE ? 3 : 12))
        say("emit r%d\n", chance(kind == COGROUP ? 12 : 5) ? some_record_operand() : last_record);
}

/* Reads a field's number, and then by it a record, of a pair mostly the other one; or sets by it a record that else has little of the input. */
static void say_numbered(void)
{
    static const char *const of_pair[] = {"left", "right"};
    size_t side = below(2), is_pair = (kind == MATCH || kind == CROSS) && !chance(4);
    int at = some_target(), value = some_target();
    say("v%d = get ", at);
    if (is_pair)
        say("%s", of_pair[side]);
    else
        say_record();
    say(" %d\n", is_pair ? sides[side].columns[below((size_t)sides[side].count)] : some_column());
    if (value == at || chance(3))
        value = some_operand();
    else
        say("v%d = int ", value), say_number(), say("\n");
    switch (below(3)) {
    case 0:
        say("v%d = get ", last_value = some_target());
        if (is_pair)
            say("%s", of_pair[1 - side]);
        else
            say_record();
        say(" @v%d\nset r%d %d v%d\n", at, last_record, last_field = some_field(), last_value);
        return;
    case 1: say("r%d = new\n", last_record = some_record_target()); break;
    default:
        say("r%d = copy ", last_record = some_record_target());
        if (is_pair)
            say("%s\n", of_pair[1 - side]);
        else
            say_record(), say("\n");
    }
    say("set r%d @v%d v%d\n", last_record, at, value);
}

static void say_body(int count);
static void say_each(void)
{
    int side_around = loop_side;
    each_loops++, loops++;
    loop_side = chance(4) ? 1 - favoured_side : favoured_side;
    say("each x%d of %s\n", each_loops, kind == REDUCE ? "group" : loop_side == 0 ? "left" : "right");
    if (is_tidy || !chance(4))
        say("r%d = copy x%d\n", last_record = some_record_target(), each_loops);
    if (is_tidy) {
        say("v%d = get x%d %d\n", last_value = 2 * each_loops, each_loops, last_field = some_field());
        say("v%d = int ", 2 * each_loops + 1), say_number(), say("\n");
    }
    say_body(1 + (int)below(5));
    if (chance(2))
        say_emit();
    each_loops--, loops--;
    loop_side = side_around;
    say("end\n");
    if (is_tidy)
        last_value = some_operand(), last_record = some_record_operand();
}
static void say_if(void)
{
    ifs++;
    say("if v%d\n", last_or_some());
    say_body(1 + (int)below(4));
    if (chance(2))
        say("else\n"), say_body(1 + (int)below(4));
    ifs--;
    say("end\n");
}
static void say_repeat(void)
{
    loops++;
    say("repeat %d\n", 1 + (int)below(3));
    say_body(1 + (int)below(4));
    loops--;
    say("end\n");
}
static void say_statement(void)
{
    static const char *const of_one[] = {"not", "isnull", "len"};
    static const char *const of_two[] = {"add", "sub", "mul", "div", "rem", "addw", "min", "max", "lt", "le", "eq", "and", "or", "cat"};
    int a, b;
    switch (below(version == 2 ? 30 : 26)) {
    case 0:
    case 1: say_target(), say("int "), say_number(), say("\n"); return;
    case 2: say_target(), say("text \"%s\"\n", chance(2) ? "a" : "b"); return;
    case 3:
        say_target();
        if (chance(2))
            say("null\n");
        else
            say("mov v%d\n", some_operand());
        return;
    case 4:
    case 5:
    case 6:
    case 7: say_get(); return;
    case 8:
        if (is_grouped()) {
            say("v%d = key ", last_value = some_target());
            say("%d\n", (int)below((size_t)key_count));
        }
        return;
    case 9: say_target(), say("%s", of_one[below(3)]), say(" v%d\n", some_operand()); return;
    case 10:
    case 11:
        if (is_tidy && each_loops > 0 && chance(2)) {
            a = (int)below(2);
            say("v%d = %s v%d", 6 + a, a == 0 ? "addw" : "max", 6 + a), say(" v%d\n", some_operand());
            return;
        }
        say("v%d = %s", a = some_target(), of_two[below(14)]);
        b = some_operand();
        say(" v%d", chance(2) ? a : b), say(" v%d\n", some_operand());
        return;
    case 12: say("r%d = new\n", last_record = some_record_target()); return;
    case 13:
    case 14: say_copy(); return;
    case 15:
    case 16:
    case 17: /* often the value that was read last, and then to where it was read */
        a = some_record_target();
        say("set r%d ", is_tidy || chance(3) ? a : last_record);
        if (chance(3))
            say("%d v%d\n", last_field, last_value);
        else
            say_field(), say(" v%d\n", last_or_some());
        return;
    case 18:
    case 19:
        if (!emits_once)
            say_emit();
        return;
    case 20:
    case 21:
        if (ifs < 3)
            say_if();
        return;
    case 22:
        if (loops < 2)
            say_repeat();
        return;
    case 23:
    case 24:
    case 25:
        if (is_grouped() && loops < 2)
            say_each();
        return;
    default: say_numbered();
    }
}
static void say_body(int count)
{
    for (; count > 0 && statements_left > 0; count--, statements_left--)
        say_statement();
}

static void say_columns(struct side *side)
{
    for (int at = 0; at < side->count; at++)
        say(" %s:%d", side->is_text[side->columns[at]] ? "text" : "int", side->columns[at]);
    say("\n");
}
/* Columns for a side, from that place of the palette on. */
static int take_columns(struct side *side, int from, int most)
{
    side->count = 1 + (int)below((size_t)(most < 3 ? most : 3));
    for (int at = 0; at < side->count; at++) {
        side->columns[at] = palette[from + at];
        side->is_text[palette[from + at]] = chance(5);
    }
    return from + side->count;
}
static void choose_fields(void)
{
    static const int wide[] = {64, 65, 127, 128};
    fields = version == 2 && chance(6) ? wide[below(4)] : chance(10) ? 64 : 4 + (int)below(4);
    palette_size = fields < MOST_PALETTE ? fields : MOST_PALETTE;
    for (int at = 0; at < palette_size; at++) /* of a wide record the first ones, the last ones, and those around 64 */
        palette[at] = fields < MOST_PALETTE || at < 3 ? at : at < 6 ? fields - at + 2 : fields > 66 ? 57 + at : at - 3;
    for (int at = palette_size - 1; at > 0; at--) {
        int other = (int)below((size_t)at + 1), field = palette[at];
        palette[at] = palette[other], palette[other] = field;
    }
}
static void choose_keys(void)
{
    int most = sides[0].count;
    if (has_right() && sides[1].count < most)
        most = sides[1].count;
    key_count = most > 1 && chance(3) ? 2 : 1;
    for (int side = 0; side < 2; side++)
        for (int at = 0; at < key_count && at < sides[side].count; at++)
            sides[side].keys[at] = sides[side].columns[at];
    if (kind == REDUCE && key_count == 2 && chance(4))
        sides[0].keys[1] = sides[0].keys[0];
    if (kind == MATCH || kind == COGROUP) /* of one kind, so that they may be equal */
        for (int at = 0; at < key_count; at++)
            sides[1].is_text[sides[1].keys[at]] = sides[0].is_text[sides[0].keys[at]];
}
static void say_program(void)
{
    version = 1 + (int)below(2);
    kind = (enum kind)below(5);
    choose_fields();
    int from = take_columns(&sides[0], 0, has_right() ? palette_size - 1 : palette_size);
    sides[1].count = 0;
    if (has_right())
        take_columns(&sides[1], from, palette_size - from);
    choose_keys();
    loops = ifs = each_loops = 0, statements_left = 40;
    is_tidy = is_grouped() && chance(2);
    names_first = !is_tidy && chance(2);
    emits_once = !is_grouped() && chance(2);
    favoured_side = (int)below(2);
    last_field = some_field(), last_value = last_record = 0;
    text.length = 0;
    say("pact %d\nfields %d\nsource s s.csv", version, fields), say_columns(&sides[0]);
    if (has_right())
        say("source t t.csv"), say_columns(&sides[1]);
    say("function f %s", kind_names[kind]);
    if (is_grouped())
        say(" %d", key_count);
    say("\n");
    if (kind != COGROUP && !chance(4))
        say_copy();
    if (is_grouped() && !chance(3))
        say_each();
    if (version == 2 && chance(3))
        say_numbered();
    else
        say_body(2 + (int)below(9));
    if (is_grouped() && chance(3))
        say_each();
    if (emits_once && chance(2)) {
        if (!chance(4))
            say("v%d = get ", last_value = some_target()), say_record(), say(" %d\n", some_column());
        say("if v%d\nemit r%d\nend\n", last_value, last_record);
    } else if (!chance(3))
        say_emit();
    say("end\n%s m f s%s", kind_names[kind], has_right() ? " t" : "");
    if (kind != MAP && kind != CROSS) {
        say(" by");
        for (int at = 0; at < key_count; at++)
            say(" %d", sides[0].keys[at]);
        if (has_right())
            say(" =");
        for (int at = 0; has_right() && at < key_count; at++)
            say(" %d", sides[1].keys[at]);
    }
    say("\nsink m");
    for (int field = 0; field < fields; field++)
        say(" %d", field);
    say("\n");
}

/* ---- Inputs of a call */

struct record {
    char cell[MOST_FIELDS][8]; /* as it is written; nothing where it is Null */
};
struct input {
    int count[2];
    struct record of[2][MOST_RECORDS];
};
static const char *some_cell(int is_text, int may_be_null)
{
    static char cell[8];
    static const char *const texts[] = {"a", "b", "ab", "c"};
    static const int numbers[] = {-1, 0, 1, 2, 3, 9};
    if (may_be_null && chance(6))
        cell[0] = '\0';
    else if (is_text)
        strcpy(cell, texts[below(4)]);
    else
        snprintf(cell, sizeof cell, "%d", chance(3) ? numbers[below(6)] : chance(12) ? fields : some_field());
    return cell;
}
static int is_key(const struct side *side, int field)
{
    for (int at = 0; kind != MAP && kind != CROSS && at < key_count; at++)
        if (side->keys[at] == field)
            return 1;
    return 0;
}
static void make_input(struct input *input)
{
    char key[2][8];
    memset(input, 0, sizeof *input);
    input->count[0] = is_grouped() ? 1 + (int)below(MOST_RECORDS) : 1;
    input->count[1] = has_right() ? input->count[0] : 0;
    if (kind == COGROUP) { /* one of the two groups may be empty */
        input->count[1] = (int)below(MOST_RECORDS + 1);
        if (input->count[1] > 0 && chance(6))
            input->count[0] = 0;
    }
    /* In version 2 a Match is called for no key that is Null. */
    for (int at = 0; at < key_count; at++)
        strcpy(key[at], some_cell(sides[0].is_text[sides[0].keys[at]], kind != MATCH || version == 1));
    for (int side = 0; side < 2; side++)
        for (int row = 0; row < input->count[side]; row++) {
            struct record *record = &input->of[side][row];
            for (int at = 0; at < sides[side].count; at++) {
                int field = sides[side].columns[at];
                strcpy(record->cell[field], some_cell(sides[side].is_text[field], 1));
            }
            for (int at = 0; kind != MAP && kind != CROSS && at < key_count; at++)
                strcpy(record->cell[sides[side].keys[at]], key[at]);
        }
}
/* Another input that agrees with this one on these fields, and tells whether it differs elsewhere. Keys stay in any case. */
static int make_other(struct input *other, const struct input *input, const char *agreed)
{
    *other = *input;
    for (int side = 0; side < 2; side++)
        for (int row = 0; row < input->count[side]; row++)
            for (int at = 0; at < sides[side].count; at++) {
                int field = sides[side].columns[at];
                if (!agreed[field] && !is_key(&sides[side], field) && !chance(4))
                    strcpy(other->of[side][row].cell[field], some_cell(sides[side].is_text[field], 1));
            }
    return memcmp(other, input, sizeof *other) != 0;
}
/* The same with the records of each group in another order. */
static int make_reordered(struct input *other, const struct input *input)
{
    *other = *input;
    for (int side = 0; side < 2; side++)
        for (int row = 0; row < input->count[side]; row++)
            other->of[side][row] = input->of[side][input->count[side] - 1 - row];
    return memcmp(other, input, sizeof *other) != 0;
}
static struct text rows_of(const struct input *input, int side)
{
    static char bytes[2][MOST_RECORDS * MOST_PALETTE * 8];
    size_t length = 0;
    for (int row = 0; row < input->count[side]; row++)
        for (int at = 0; at < sides[side].count; at++) {
            const char *cell = input->of[side][row].cell[sides[side].columns[at]];
            /* a row of one Null would be an empty line */
            length += (size_t)sprintf(bytes[side] + length, "%s%s", sides[side].count == 1 && cell[0] == '\0' ? "\"\"" : cell,
                at == sides[side].count - 1 ? "\n" : ",");
        }
    return (struct text){length, bytes[side]};
}

/* ---- What is found, and what a call gives */

static struct {
    char reads[MOST_FIELDS], writes[MOST_FIELDS], control[MOST_FIELDS], touched[MOST_FIELDS];
    long least, most; /* most is -1 where it is many */
    char anchor[8];
    int is_ordered;
} found;
/* What `word {1,2}` says, behind the word. */
static int take_set(const char *line, const char *word, char *set)
{
    const char *at = strstr(line, word);
    memset(set, 0, MOST_FIELDS);
    if (at == NULL)
        return 0;
    for (at += strlen(word); *at != '}'; at++) {
        char *behind;
        unsigned long field = strtoul(at, &behind, 10);
        if (behind != at && field < MOST_FIELDS)
            set[field] = 1;
        at = behind != at ? behind : at;
        if (*at == '}')
            break;
        if (*at != ',')
            return 0;
    }
    return 1;
}
static int take_found(const char *line)
{
    char least[16], most[16], order[8];
    const char *emit = strstr(line, " emit ");
    if (!take_set(line, " reads {", found.reads) || !take_set(line, " writes {", found.writes) || !take_set(line, " control {", found.control) ||
        !take_set(line, " touched {", found.touched) || emit == NULL ||
        sscanf(emit, " emit %15[a-z0-9]..%15[a-z0-9] anchor %7s order %7s", least, most, found.anchor, order) != 4)
        return 0;
    found.least = strcmp(least, "many") == 0 ? 1000000 : atol(least);
    found.most = strcmp(most, "many") == 0 ? -1 : atol(most);
    found.is_ordered = strcmp(order, "yes") == 0;
    return 1;
}

/* The records that a call gives, in the order in which they are written. */
struct output {
    struct text text;
    int count, is_large;
    char *cell[MOST_ROWS][MOST_FIELDS];
};
static void free_output(struct output *output) { free(output->text.bytes); }

struct counts {
    unsigned long functions, by_register, failures, pairs[5], emitting[5], rows, decided, reordered;
};
static struct counts *counts; /* shared by all processes */
static int has_failed;
static void add(unsigned long *to, unsigned long more) { __atomic_add_fetch(to, more, __ATOMIC_RELAXED); }

static void fails(const char *why, const struct input *x, const struct input *y)
{
    if (has_failed)
        return;
    has_failed = 1;
    add(&counts->failures, 1);
    printf("function %lu, %s: %s\n", number, kind_names[kind], why);
    fflush(stdout);
    keep("pact", text);
    for (int side = 0; side < 1 + has_right(); side++) {
        if (x != NULL)
            keep(side == 0 ? "first.s.csv" : "first.t.csv", rows_of(x, side));
        if (y != NULL)
            keep(side == 0 ? "second.s.csv" : "second.t.csv", rows_of(y, side));
    }
}
/* Runs the function for an input. One worker goes through a group in the order of its file. */
static int call(const struct input *input, struct output *output)
{
    static char *const words[] = {"pact", "run", "m.pact", "--workers", "1", "--plans", "1", NULL};
    memset(output, 0, sizeof *output);
    write_file("s.csv", rows_of(input, 0));
    if (has_right())
        write_file("t.csv", rows_of(input, 1));
    struct answer answer = run(words);
    if (answer.status != 0 || answer.err.length > 0) {
        fails("a call of it is refused, or takes too long", input, NULL);
        return 0;
    }
    output->text = copied(answer.out);
    output->is_large = answer.out.length == MOST_BYTES - 1;
    char *at = output->text.bytes;
    while (*at != '\0' && !output->is_large) {
        if (output->count == MOST_ROWS) {
            output->is_large = 1;
            break;
        }
        for (int field = 0; field < fields; field++) {
            output->cell[output->count][field] = at;
            at += strcspn(at, ",\n");
            if (*at != (field == fields - 1 ? '\n' : ','))
                stop("a row that isn't as it was expected");
            *at++ = '\0';
        }
        output->count++;
    }
    return 1;
}

/* ---- What is promised */

/* The records that outputs began as: the one of a Map, both joined of a pair, and those of a group. */
static int anchors_of(const struct input *input, struct record *anchors)
{
    int side = strcmp(found.anchor, "right") == 0;
    memcpy(anchors, input->of[side], sizeof input->of[side]);
    if (kind != MATCH && kind != CROSS)
        return input->count[side];
    for (int at = 0; at < sides[1].count; at++) /* they share no field */
        strcpy(anchors[0].cell[sides[1].columns[at]], input->of[1][0].cell[sides[1].columns[at]]);
    return 1;
}
/* The places of the records that an output may have begun as, as bits: it is such a record in all fields that aren't written. */
static unsigned places_of(const struct output *output, int row, const struct record *anchors, int count)
{
    unsigned places = 0;
    for (int place = 0; place < count; place++) {
        int field = 0;
        while (field < fields && (found.writes[field] || strcmp(output->cell[row][field], anchors[place].cell[field]) == 0))
            field++;
        places |= (unsigned)(field == fields) << place;
    }
    return places;
}
static unsigned places[2][MOST_ROWS];
static struct output outputs[2];
static int partner[MOST_ROWS];
static char is_tried[MOST_ROWS];
/* Whether an output of the first call and one of the second may stand for each other. */
static int may_pair(int row, int other)
{
    if ((places[0][row] & places[1][other]) == 0)
        return 0;
    for (int field = 0; field < fields; field++)
        if (found.writes[field] && strcmp(outputs[0].cell[row][field], outputs[1].cell[other][field]) != 0)
            return 0;
    return 1;
}
static int finds_partner(int row)
{
    for (int other = 0; other < outputs[1].count; other++)
        if (!is_tried[other] && may_pair(row, other)) {
            is_tried[other] = 1;
            if (partner[other] < 0 || finds_partner(partner[other])) {
                partner[other] = row;
                return 1;
            }
        }
    return 0;
}
/* Why these two calls, for inputs that agree on what is read, aren't as promised; NULL where they are. */
static const char *fault_of(const struct input *x, const struct input *y)
{
    static struct record anchors[MOST_RECORDS];
    if (outputs[0].count != outputs[1].count)
        return "they don't give equally many";
    if (kind == COGROUP && strcmp(found.anchor, "none") == 0) { /* equal inputs give equal outputs */
        for (int row = 0; row < outputs[0].count; row++)
            for (int field = 0; field < fields; field++)
                if (strcmp(outputs[0].cell[row][field], outputs[1].cell[row][field]) != 0)
                    return "equal inputs give unlike outputs";
        return NULL;
    }
    for (int of = 0; of < 2; of++) {
        int count = anchors_of(of == 0 ? x : y, anchors);
        for (int row = 0; row < outputs[of].count; row++)
            if ((places[of][row] = places_of(&outputs[of], row, anchors, count)) == 0)
                return "a field that isn't written is another than before";
    }
    for (int other = 0; other < outputs[1].count; other++)
        partner[other] = -1;
    for (int row = 0; row < outputs[0].count; row++) {
        memset(is_tried, 0, sizeof is_tried);
        if (!finds_partner(row))
            return "they don't agree on what is written";
    }
    return NULL;
}
/* A call gives as many records as is found. */
static void check_bounds(const struct input *x, const struct output *output)
{
    if (!output->is_large && (output->count < found.least || (found.most >= 0 && output->count > found.most)))
        fails("it gives fewer records than is found, or more", x, NULL);
}
/* Takes one field out of a set that isn't of a key, and that the input has, or any where it has none of these. */
static void forget(char *set)
{
    int known[MOST_PALETTE], count = 0;
    for (int has = 1; has >= 0 && count == 0; has--)
        for (int at = 0; at < palette_size; at++) {
            int field = palette[at], is_there = 0;
            for (int side = 0; side < 2; side++)
                for (int column = 0; column < sides[side].count; column++)
                    is_there |= sides[side].columns[column] == field && !is_key(&sides[side], field);
            if (set[field] && is_there == has)
                known[count++] = field;
        }
    if (count > 0)
        set[known[below((size_t)count)]] = 0;
}
/* Has `sets` look at a function whose fields have their numbers from a register that is never set, as if nothing depended on these. */
static void write_without_numbers(void)
{
    struct text written = {0, malloc(text.length * 2 + 1)};
    if (written.bytes == NULL)
        stop("memory");
    for (size_t at = 0; at < text.length; at++) {
        written.bytes[written.length++] = text.bytes[at];
        if (text.bytes[at] == '@') {
            written.length += (size_t)sprintf(written.bytes + written.length, "v30");
            at += 1 + strspn(text.bytes + at + 2, "0123456789");
        }
    }
    write_file("m.pact", written);
    free(written.bytes);
}
static void try_function(const char *forgotten)
{
    static char *const words[] = {"pact", "sets", "m.pact", NULL};
    static struct input x, y;
    has_failed = 0;
    say_program();
    write_file("m.pact", text);
    if (strcmp(forgotten, "number") == 0)
        write_without_numbers();
    struct answer answer = run(words);
    if (answer.status != 0 || !take_found(answer.out.bytes)) {
        fails("it is refused, or nothing is found of it", NULL, NULL);
        return;
    }
    for (int field = 0; field < fields; field++)
        if ((found.reads[field] || found.writes[field]) && !found.touched[field])
            fails("what is read or written isn't touched", NULL, NULL);
    if (strcmp(forgotten, "reads") == 0)
        forget(found.reads);
    else if (strcmp(forgotten, "writes") == 0)
        forget(found.writes);
    else if (strcmp(forgotten, "control") == 0)
        forget(found.control);
    else if (strcmp(forgotten, "order") == 0)
        found.is_ordered = 1;
    else if (strcmp(forgotten, "number") == 0)
        write_file("m.pact", text);
    make_input(&x);
    if (!call(&x, &outputs[0])) {
        free_output(&outputs[0]);
        return;
    }
    check_bounds(&x, &outputs[0]);
    for (int times = 0; times < 3 && !has_failed && !outputs[0].is_large; times++) {
        if (!make_other(&y, &x, found.reads) && times > 0)
            continue;
        if (call(&y, &outputs[1]) && !outputs[1].is_large) {
            const char *why = fault_of(&x, &y);
            if (why != NULL)
                fails(why, &x, &y);
            check_bounds(&y, &outputs[1]);
            if (memcmp(&x, &y, sizeof x) != 0) {
                add(&counts->pairs[kind], 1);
                add(&counts->emitting[kind], outputs[0].count > 0);
                add(&counts->rows, (unsigned long)outputs[0].count);
            }
        }
        free_output(&outputs[1]);
    }
    /* A Map that gives at most one record for each gives equally many for two that agree on what decides. */
    for (int times = 0; times < 3 && kind == MAP && found.least < found.most && found.most == 1 && !has_failed; times++) {
        if (!make_other(&y, &x, found.control))
            continue;
        if (call(&y, &outputs[1]) && outputs[0].count != outputs[1].count)
            fails("they agree on what decides, and don't give equally many", &x, &y);
        add(&counts->decided, 1);
        free_output(&outputs[1]);
    }
    /* A function that passes the order test gives the same records for a group in any order. */
    if (is_grouped() && found.is_ordered && !has_failed && !outputs[0].is_large && make_reordered(&y, &x)) {
        if (call(&y, &outputs[1]) && (outputs[0].text.length != outputs[1].text.length ||
                memcmp(outputs[0].text.bytes, outputs[1].text.bytes, outputs[0].text.length) != 0))
            fails("it passes the order test, and another order gives other records", &x, &y);
        add(&counts->reordered, 1);
        free_output(&outputs[1]);
    }
    free_output(&outputs[0]);
    add(&counts->by_register, strchr(text.bytes, '@') != NULL);
    add(&counts->functions, 1);
}

/* A folder of its own for each process, since it writes files. */
static void enter(const char *folder, unsigned long process)
{
    char own[4096];
    snprintf(own, sizeof own, "%s/process%lu", folder, process);
    if (mkdir(own, 0700) != 0 || chdir(own) != 0)
        stop(own);
    open_answers();
}

int main(int words, char **word)
{
    if (words != 8)
        return 2;
    program = word[1];
    kept = word[3];
    unsigned long count = strtoul(word[4], NULL, 10), processes = strtoul(word[5], NULL, 10), first = strtoul(word[6], NULL, 10);
    counts = mmap(NULL, sizeof *counts, PROT_READ | PROT_WRITE, MAP_SHARED | MAP_ANONYMOUS, -1, 0);
    text.bytes = malloc(MOST_BYTES);
    if (counts == MAP_FAILED || text.bytes == NULL)
        stop("start");
    limit_runs();
    for (unsigned long process = 0; process < processes; process++) {
        pid_t child = fork();
        if (child < 0)
            stop("fork");
        if (child > 0)
            continue;
        enter(word[2], process);
        for (unsigned long of = first + process; of < first + count; of += processes) {
            begin_trial(of);
            try_function(word[7]);
        }
        exit(0);
    }
    int status, all_ended = 1, all_kinds = 1;
    while (wait(&status) > 0)
        all_ended = all_ended && status == 0;
    printf("%lu functions, %lu with fields by register, %lu reordered groups, %lu pairs that agree on what decides, %lu failures\n", counts->functions,
        counts->by_register, counts->reordered, counts->decided, counts->failures);
    printf("%-8s %9s %9s\n", "kind", "pairs", "emitting");
    for (int of = 0; of < 5; of++) {
        printf("%-8s %9lu %9lu\n", kind_names[of], counts->pairs[of], counts->emitting[of]);
        all_kinds = all_kinds && (counts->emitting[of] > 0 || count < 100); /* of many functions some tell something, of each kind */
    }
    printf("%lu records held against those of another call\n", counts->rows);
    return all_ended && all_kinds && counts->failures == 0 && counts->functions == count ? 0 : 1;
}
