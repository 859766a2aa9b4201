// The library against plain C, call by call, on tables of 128 classes.
//
//   bench --check              holds plain C to the library, and measures nothing
//   bench --inputs FILE        makes the inputs, and puts them in a file
//   bench --count FILE         runs each row once on those inputs, for a program that counts instructions
//   bench --rows FILE [COUNTS] checks, times each row on those inputs, and prints it; COUNTS has the instructions of
//                              each row, the library's and plain C's, in order
#define _POSIX_C_SOURCE 199309L

#include <math.h>
#include <stdio.h>
#include <stdlib.h>
#include <string.h>
#include <time.h>

#include "bench.h"

// Several rounds, so that a load that lasts a while meets every row at some time but not always.
enum { ROUNDS = 6, REPEATS = 20 };

// A row is slower than it should be above this ratio.
static const double LIMIT = 1.15;

// What a call gives and leaves.
struct outcome {
    ON_A_LINE uint8_t table[MOST_PAIRS];
    ON_A_LINE uint8_t heads[MOST];
    ON_A_LINE uint8_t steps[MOST_STEPS];
    ON_A_LINE uint8_t rungs[MOST];
    ON_A_LINE uint8_t out[MOST_BOOK];
    struct answer answer;
};

// The calls that are measured. Each finds the input's table in the outcome, and runs on its fact or clip number i.
typedef void (*runner)(const struct program *, const struct input *, size_t i, struct outcome *);

static void run_fresh(const struct program *p, const struct input *in, size_t i, struct outcome *o)
{
    (void)i;
    o->answer.reply = p->fresh(in->session.classes, o->table, MOST_PAIRS);
}

static void run_tell_open(const struct program *p, const struct input *in, size_t i, struct outcome *o)
{
    const struct fact *f = &in->open[i];
    o->answer.reply = p->tell(in->session, o->table, MOST_PAIRS, f->lower, f->upper, f->holds);
}

static void run_tell_settled(const struct program *p, const struct input *in, size_t i, struct outcome *o)
{
    const struct fact *f = &in->settled[i];
    o->answer.reply = p->tell(in->session, o->table, MOST_PAIRS, f->lower, f->upper, f->holds);
}

static void run_answer(const struct program *p, const struct input *in, size_t i, struct outcome *o)
{
    const struct fact *f = &in->open[i];
    o->answer.reply = p->answer(in->session, o->table, MOST_PAIRS, f->lower, f->upper, f->holds);
}

static void run_clip(const struct program *p, const struct input *in, size_t i, struct outcome *o)
{
    o->answer.reply = p->clip(in->session, o->table, MOST_PAIRS, in->played[i], MOST);
}

static void run_next(const struct program *p, const struct input *in, size_t i, struct outcome *o)
{
    (void)i;
    o->answer.question = p->next(in->session, o->table, MOST_PAIRS);
}

static void run_open_pairs(const struct program *p, const struct input *in, size_t i, struct outcome *o)
{
    (void)i;
    o->answer.count = p->open_pairs(in->session, o->table, MOST_PAIRS);
}

static void run_hierarchy(const struct program *p, const struct input *in, size_t i, struct outcome *o)
{
    (void)i;
    o->answer.count =
        p->hierarchy(in->session, o->table, MOST_PAIRS, o->heads, sizeof o->heads, o->steps, sizeof o->steps);
}

static void run_ladder(const struct program *p, const struct input *in, size_t i, struct outcome *o)
{
    (void)i;
    o->answer.count =
        p->ladder(in->session, o->table, MOST_PAIRS, in->lowest, in->highest, o->rungs, sizeof o->rungs);
}

static void run_read(const struct program *p, const struct input *in, size_t i, struct outcome *o)
{
    (void)i;
    o->answer.reply = p->read(in->book.bytes, in->book.length, o->table, MOST_PAIRS);
}

static void run_read_stepwise(const struct program *p, const struct input *in, size_t i, struct outcome *o)
{
    (void)i;
    o->answer.reply = p->read(in->stepwise.bytes, in->stepwise.length, o->table, MOST_PAIRS);
}

static void run_write(const struct program *p, const struct input *in, size_t i, struct outcome *o)
{
    (void)i;
    o->answer.count = p->write(in->session, o->table, MOST_PAIRS, o->out, sizeof o->out);
}

// Each call of the header, on the tables from one up to another, with so many facts or clips.
static const struct call {
    const char *name;
    runner run;
    size_t from, to, variants;
} CALLS[] = {
    {"fresh", run_fresh, 0, 1, 1},
    {"tell, open pair", run_tell_open, 0, FIRST_SETTLED, FACTS},
    {"tell, settled pair", run_tell_settled, 0, FIRST_SETTLED, FACTS},
    {"answer, open pair", run_answer, 0, FIRST_SETTLED, FACTS},
    {"clip", run_clip, 0, FIRST_SETTLED, FACTS},
    {"next", run_next, 0, FIRST_SETTLED, 1},
    {"open_pairs", run_open_pairs, 0, FIRST_SETTLED, 1},
    {"hierarchy", run_hierarchy, FIRST_SETTLED, TABLES, 1},
    {"ladder, longest", run_ladder, FIRST_SETTLED, TABLES, 1},
    {"read, its book", run_read, 0, TABLES, 1},
    {"read, fact by fact", run_read_stepwise, FIRST_SETTLED, TABLES, 1},
    {"write", run_write, 0, TABLES, 1},
};

enum { CALL_COUNT = sizeof CALLS / sizeof *CALLS, MOST_ROWS = CALL_COUNT * TABLES };

struct row {
    const struct call *call;
    size_t table;
    double library[FACTS], plain[FACTS];           // the least seconds of each fact or clip
    double library_instructions, plain_instructions; // of all of them; 0 where not counted
};

static struct input inputs[TABLES];
static struct row rows[MOST_ROWS];
static size_t row_count;

static void list_rows(void)
{
    for (const struct call *call = CALLS; call < CALLS + CALL_COUNT; call++) {
        for (size_t table = call->from; table < call->to; table++) {
            struct row *row = &rows[row_count++];
            row->call = call;
            row->table = table;
            for (size_t i = 0; i < FACTS; i++) {
                row->library[i] = row->plain[i] = HUGE_VAL;
            }
        }
    }
}

// The inputs in a file.

static FILE *opened(const char *path, const char *mode)
{
    FILE *file = fopen(path, mode);
    if (!file) {
        fail("%s cannot be opened: look whether it is there and yours", path);
    }
    return file;
}

static void put_inputs(const char *path)
{
    for (size_t table = 0; table < TABLES; table++) {
        make_input(&inputs[table], &TABLE_KINDS[table]);
    }
    FILE *file = opened(path, "wb");
    bool wrote = fwrite(inputs, sizeof inputs, 1, file) == 1;
    if (fclose(file) || !wrote) {
        fail("%s cannot be written: look whether the disk is full", path);
    }
}

static void get_inputs(const char *path)
{
    FILE *file = opened(path, "rb");
    if (fread(inputs, sizeof inputs, 1, file) != 1) {
        fail("%s is not a file of inputs: make it with --inputs", path);
    }
    fclose(file);
}

// Answers.

// Both accept, give the same, and leave the same bytes, also behind those they write.
static void check_row(const struct row *row)
{
    static struct outcome library, plain;
    const struct input *in = &inputs[row->table];
    for (size_t i = 0; i < row->call->variants; i++) {
        memset(&library, 0xa5, sizeof library);
        memset(&library.answer, 0, sizeof library.answer);
        memcpy(library.table, in->table, MOST_PAIRS);
        plain = library;
        row->call->run(&LIBRARY, in, i, &library);
        row->call->run(&PLAIN, in, i, &plain);
        bool same = same_answer(&library.answer, &plain.answer) && !memcmp(library.table, plain.table, MOST_PAIRS) &&
                    !memcmp(library.heads, plain.heads, sizeof library.heads) &&
                    !memcmp(library.steps, plain.steps, sizeof library.steps) &&
                    !memcmp(library.rungs, plain.rungs, sizeof library.rungs) &&
                    !memcmp(library.out, plain.out, sizeof library.out);
        if (!same || number_in(&library.answer)) {
            fail("%s (%s): %s", row->call->name, TABLE_KINDS[row->table].name,
                same ? "the call is refused" : "the library and plain C differ");
        }
    }
}

// Instructions.

// One call. Whoever counts instructions counts those in here.
static void counted_call(
    runner run, const struct program *p, const struct input *in, size_t i, struct outcome *o)
{
    run(p, in, i, o);
    __asm__ volatile(""); // a call at the end would be a jump, and end the count
}

// The calls of one row by one program are done: whoever counts notes the count here, and begins anew.
static void count_done(void)
{
    __asm__ volatile("");
}

// Volatile, so that the compiler neither puts these two in place of their calls nor makes others of them.
static void (*volatile const call_counted)(
    runner, const struct program *, const struct input *, size_t, struct outcome *) = counted_call;
static void (*volatile const note_count)(void) = count_done;

static void count_row(const struct row *row, const struct program *p)
{
    static struct outcome o;
    for (size_t i = 0; i < row->call->variants; i++) {
        memcpy(o.table, inputs[row->table].table, MOST_PAIRS);
        call_counted(row->call->run, p, &inputs[row->table], i, &o);
    }
    note_count();
}

static void get_counts(const char *path)
{
    FILE *file = opened(path, "r");
    for (size_t r = 0; r < row_count; r++) {
        if (fscanf(file, "%lf %lf", &rows[r].library_instructions, &rows[r].plain_instructions) != 2) {
            fail("%s has not two counts for each row", path);
        }
    }
    fclose(file);
}

// Times.

static double now(void)
{
    struct timespec time;
    clock_gettime(CLOCK_MONOTONIC, &time);
    return (double)time.tv_sec + 1e-9 * (double)time.tv_nsec;
}

static double least(double a, double b)
{
    return a < b ? a : b;
}

// What reading the clock costs: it is in every time.
static double clock_cost(void)
{
    double cost = HUGE_VAL;
    for (size_t i = 0; i < 10000; i++) {
        double from = now();
        cost = least(cost, now() - from);
    }
    return cost;
}

// The least time of some calls alone: the table is put in place before the clock is read.
static double timed(const struct row *row, const struct program *p, size_t i)
{
    static struct outcome o;
    double time = HUGE_VAL;
    for (size_t repeat = 0; repeat < REPEATS; repeat++) {
        memcpy(o.table, inputs[row->table].table, MOST_PAIRS);
        double from = now();
        row->call->run(p, &inputs[row->table], i, &o);
        time = least(time, now() - from);
    }
    return time;
}

static void time_rows(void)
{
    for (size_t round = 0; round < ROUNDS; round++) {
        for (struct row *row = rows; row < rows + row_count; row++) {
            for (size_t i = 0; i < row->call->variants; i++) {
                row->library[i] = least(row->library[i], timed(row, &LIBRARY, i));
                row->plain[i] = least(row->plain[i], timed(row, &PLAIN, i));
            }
        }
    }
}

// What is printed.

// The nanoseconds of one call, by the mean of its facts or clips.
static double nanoseconds(const struct row *row, const double *times, double cost)
{
    double sum = 0;
    for (size_t i = 0; i < row->call->variants; i++) {
        sum += times[i] - cost;
    }
    return 1e9 * sum / (double)row->call->variants;
}

static void print_rows(void)
{
    double cost = clock_cost();
    size_t by_time = 0, by_instructions = 0;
    bool counted = rows[0].plain_instructions > 0;
    printf("%-20s%-21s%12s%12s%8s%14s\n", "call", "table", "library ns", "plain ns", "ratio", "instructions");
    for (const struct row *row = rows; row < rows + row_count; row++) {
        double library = nanoseconds(row, row->library, cost), plain = nanoseconds(row, row->plain, cost);
        double instructions = counted ? row->library_instructions / row->plain_instructions : HUGE_VAL;
        printf("%-20s%-21s%12.0f%12.0f%8.2f", row->call->name, TABLE_KINDS[row->table].name, library, plain,
            library / plain);
        if (counted) {
            printf("%14.2f\n", instructions);
        } else {
            printf("%14s\n", "-");
        }
        by_time += library / plain <= LIMIT;
        by_instructions += instructions <= LIMIT;
    }
    printf("%zu of %zu rows at most %.2f by time", by_time, row_count, LIMIT);
    if (counted) {
        printf(", %zu by instructions", by_instructions);
    }
    printf("\n");
}

int main(int count, char **words)
{
    const char *mode = count > 1 ? words[1] : "";
    list_rows();
    if (!strcmp(mode, "--check") && count == 2) {
        check_calls();
    } else if (!strcmp(mode, "--inputs") && count == 3) {
        put_inputs(words[2]);
    } else if (!strcmp(mode, "--count") && count == 3) {
        get_inputs(words[2]);
        for (size_t r = 0; r < row_count; r++) {
            check_row(&rows[r]); // and so that no function of the C library is looked up within the count
            count_row(&rows[r], &LIBRARY);
            count_row(&rows[r], &PLAIN);
        }
    } else if (!strcmp(mode, "--rows") && (count == 3 || count == 4)) {
        get_inputs(words[2]);
        if (count == 4) {
            get_counts(words[3]);
        }
        for (size_t r = 0; r < row_count; r++) {
            check_row(&rows[r]);
        }
        time_rows();
        print_rows();
    } else {
        fail("run it by bench/run");
    }
    return EXIT_SUCCESS;
}
