// Plain C held to the library: random sessions, tables, buffers, clips and books, many of them damaged. Both must give
// the same answer and leave the same bytes, also behind what was lent.
#include "bench.h"

#include <stdarg.h>
#include <stdio.h>
#include <stdlib.h>
#include <string.h>

#ifndef GUARD
#define GUARD 32 // bytes behind each buffer that nobody may touch
#endif

enum {
    TRIALS = 20000,
    PLACED = 10000,
    MOST_FLAGS = MOST + 12,
    ROOM = MOST_BOOK + GUARD, // for any of the buffers
    NUMBERS = 16
};

// What is lent to a call, with the length that is said. A buffer ends where the guard begins.
struct buffer {
    size_t length;
    uint8_t bytes[ROOM];
};

// What the calls of a trial are given.
struct trial {
    dawnhangra_session session;
    struct fact fact;
    struct buffer table, played, book;
    size_t heads_length, steps_length, rungs_length, out_length;
};

// What a call was lent and may have changed, and its answer.
struct outcome {
    struct buffer table, first, second;
    struct answer answer;
};

// Calls compared so far.
static size_t passed;

// Says what failed, and ends the check.
static void end_check(const char *format, ...)
{
    va_list values;
    va_start(values, format);
    printf("FAILED: ");
    vprintf(format, values);
    va_end(values);
    printf("\n%zu passed, 1 failed\n", passed);
    exit(EXIT_FAILURE);
}

static uint8_t *bytes_of(struct buffer *b)
{
    return b->length ? b->bytes + ROOM - GUARD - b->length : NULL;
}

static const uint8_t *bytes_in(const struct buffer *b)
{
    return b->length ? b->bytes + ROOM - GUARD - b->length : NULL;
}

static void set_bytes(struct buffer *b, const uint8_t *bytes, size_t length)
{
    memset(b->bytes, 0xa5, sizeof b->bytes);
    b->length = length;
    if (length) {
        memcpy(bytes_of(b), bytes, length);
    }
}

static void set_empty(struct buffer *b, size_t length)
{
    memset(b->bytes, 0xa5, sizeof b->bytes);
    b->length = length;
}

// The calls.

static void run_fresh(const struct program *p, const struct trial *t, struct outcome *o)
{
    o->answer.reply = p->fresh(t->session.classes, bytes_of(&o->table), o->table.length);
}

static void run_tell(const struct program *p, const struct trial *t, struct outcome *o)
{
    const struct fact *f = &t->fact;
    o->answer.reply = p->tell(t->session, bytes_of(&o->table), o->table.length, f->lower, f->upper, f->holds);
}

static void run_answer(const struct program *p, const struct trial *t, struct outcome *o)
{
    const struct fact *f = &t->fact;
    o->answer.reply = p->answer(t->session, bytes_of(&o->table), o->table.length, f->lower, f->upper, f->holds);
}

static void run_clip(const struct program *p, const struct trial *t, struct outcome *o)
{
    o->answer.reply =
        p->clip(t->session, bytes_of(&o->table), o->table.length, bytes_in(&t->played), t->played.length);
}

static void run_next(const struct program *p, const struct trial *t, struct outcome *o)
{
    o->answer.question = p->next(t->session, bytes_of(&o->table), o->table.length);
}

static void run_open_pairs(const struct program *p, const struct trial *t, struct outcome *o)
{
    o->answer.count = p->open_pairs(t->session, bytes_of(&o->table), o->table.length);
}

static void run_hierarchy(const struct program *p, const struct trial *t, struct outcome *o)
{
    set_empty(&o->first, t->heads_length);
    set_empty(&o->second, t->steps_length);
    o->answer.count = p->hierarchy(
        t->session, bytes_of(&o->table), o->table.length, bytes_of(&o->first), o->first.length, bytes_of(&o->second),
        o->second.length);
}

static void run_ladder(const struct program *p, const struct trial *t, struct outcome *o)
{
    set_empty(&o->first, t->rungs_length);
    o->answer.count = p->ladder(
        t->session, bytes_of(&o->table), o->table.length, t->fact.lower, t->fact.upper, bytes_of(&o->first),
        o->first.length);
}

static void run_read(const struct program *p, const struct trial *t, struct outcome *o)
{
    o->answer.reply = p->read(bytes_in(&t->book), t->book.length, bytes_of(&o->table), o->table.length);
}

static void run_write(const struct program *p, const struct trial *t, struct outcome *o)
{
    set_empty(&o->first, t->out_length);
    o->answer.count =
        p->write(t->session, bytes_of(&o->table), o->table.length, bytes_of(&o->first), o->first.length);
}

// The calls, and the numbers that each must have given in the end: a bit a number.
static const struct call {
    const char *name;
    void (*run)(const struct program *, const struct trial *, struct outcome *);
    unsigned numbers;
} CALLS[] = {
    {"fresh", run_fresh, 0x0007},     {"tell", run_tell, 0x007f},
    {"answer", run_answer, 0x007f},   {"clip", run_clip, 0x007f},
    {"next", run_next, 0x001f},       {"open_pairs", run_open_pairs, 0x001f},
    {"hierarchy", run_hierarchy, 0x019f}, {"ladder", run_ladder, 0x03bf},
    {"read", run_read, 0x7c67},       {"write", run_write, 0x011f},
};

enum { CALL_COUNT = sizeof CALLS / sizeof *CALLS };

// The trials.

static bool chance(size_t in)
{
    return pick(in) == 0;
}

// A class: as a rule one of n, now and then the first that is none, or any number.
static size_t some_class(size_t n)
{
    switch (pick(24)) {
    case 0: return n;
    case 1: return SIZE_MAX - pick(3);
    default: return pick(n);
    }
}

// Near what is needed: enough, too little by one, much, or nothing.
static size_t some_length(size_t needed, size_t most)
{
    size_t length = needed;
    switch (pick(8)) {
    case 0: length = needed ? needed - 1 : 0; break;
    case 1: length = pick(most + 1); break;
    case 2: length = 0; break;
    case 3: length = most; break;
    default: break;
    }
    return length > most ? most : length;
}

// An order of n classes; some classes are made equal to others, so that there are groups in each kind.
static void some_order(size_t n, bool *under)
{
    static const order ORDERS[] = {random_order, tree_order, chain_order, antichain_order};
    size_t like[MOST];
    bool made[MOST_PAIRS];
    ORDERS[pick(4)](n, made);
    for (size_t a = 0; a < n; a++) {
        like[a] = chance(6) ? pick(n) : a;
    }
    for (size_t a = 0; a < n; a++) {
        for (size_t b = 0; b < n; b++) {
            under[a * n + b] = made[like[a] * n + like[b]];
        }
    }
}

// A book of facts of the order, told and answered; all that is to know at the end, if it is to be whole.
static void some_book(struct book *book, size_t n, const bool *under, bool whole)
{
    size_t fields = pick(4);
    begin_book(book, n);
    for (size_t i = 0; i < fields; i++) {
        uint8_t tag = (uint8_t)(2 + pick(3));
        begin_field(book, tag);
        for (size_t facts = pick(2 * n + 1); facts > 0; facts--) {
            size_t at = pick(n * n);
            struct fact f = {at / n, at % n, under[at]};
            if (tag == 4 || f.holds == (tag == 2)) {
                add_fact(book, &f);
            }
        }
    }
    for (size_t at = 0; whole && at < n * n; at++) {
        struct fact f = {at / n, at % n, under[at]};
        if (at == 0) {
            begin_field(book, 4);
        }
        add_fact(book, &f);
    }
}

// Damage to bytes: a few changed a little, or one to any value.
static void damage(uint8_t *bytes, size_t length, size_t limit)
{
    if (length == 0) {
        return;
    }
    for (size_t times = 1 + pick(3); times > 0; times--) {
        bytes[pick(length)] = (uint8_t)(chance(3) ? pick(256) : pick(limit));
    }
}

// Flags: those of a class and all that it is under, or any, as many as there are classes, or another number.
static void set_flags(struct trial *t, size_t n, const bool *under)
{
    uint8_t flags[MOST_FLAGS];
    size_t a = pick(n), length = chance(2) ? n : chance(3) ? pick(MOST_FLAGS + 1) : n + pick(3) - 1;
    bool any = chance(4), beyond = chance(4);
    for (size_t b = 0; b < MOST_FLAGS; b++) {
        bool set = b < n ? (any ? chance(4) : under[a * n + b]) : beyond && chance(8);
        flags[b] = set ? (uint8_t)(1 + pick(255)) : 0;
    }
    set_bytes(&t->played, flags, length);
}

// A class count and tally: as a rule those that the table has.
static void set_session(struct trial *t, dawnhangra_session session, size_t open)
{
    size_t n = session.classes, most = n * n - n;
    t->session = session;
    switch (pick(16)) {
    case 0: t->session.tests = most - open; break;
    case 1: t->session.tests = most - open + 1; break;
    case 2: t->session.tests = SIZE_MAX - pick(MOST_PAIRS); break;
    case 3: t->session.tests = pick(MOST_PAIRS); break;
    case 4: t->session.classes = pick(MOST + 3); break;
    case 5: t->session.classes = chance(2) ? 0 : SIZE_MAX - pick(MOST); break;
    default: break;
    }
}

// The table that a book gives, with bytes behind it; often damaged, now and then cut short, or anything at all.
static dawnhangra_session set_table(struct trial *t, const struct book *book, size_t n, size_t *open)
{
    uint8_t table[MOST_PAIRS + GUARD];
    size_t pairs = n * n;
    memset(table, 0xa5, sizeof table);
    dawnhangra_reply reply = LIBRARY.read(book->bytes, book->length, table, sizeof table);
    if (reply.number) {
        fail("the library refuses a book of an order with %u", reply.number);
    }
    *open = LIBRARY.open_pairs(reply.session, table, sizeof table).count;
    if (chance(3)) {
        damage(table, pairs, 4);
    } else if (chance(12)) {
        for (size_t i = 0; i < pairs; i++) {
            table[i] = i % (n + 1) ? (uint8_t)pick(3) : DAWNHANGRA_YES;
        }
    }
    set_bytes(&t->table, table, chance(16) ? pick(pairs) : pairs + pick(GUARD));
    return reply.session;
}

// The book as it is, damaged, cut short, empty, or for a table that is too short for it.
static void set_book(struct trial *t, struct book *book)
{
    switch (pick(8)) {
    case 0: damage(book->bytes, book->length, 5); break;
    case 1: book->length = pick(book->length); break;
    case 2: damage(book->bytes, book->length < 24 ? book->length : 24, 5); break;
    case 3: damage(book->bytes + book->length / 2, book->length - book->length / 2, MOST); break;
    default: break;
    }
    set_bytes(&t->book, book->bytes, chance(200) ? 0 : book->length);
}

// Room for what is to be written, as a rule.
static void set_lengths(struct trial *t)
{
    static uint8_t some[MOST_BOOK], more[MOST_BOOK];
    uint8_t *table = bytes_of(&t->table);
    size_t length = t->table.length;
    dawnhangra_count steps = LIBRARY.hierarchy(t->session, table, length, some, MOST, more, MOST_STEPS);
    dawnhangra_count rungs = LIBRARY.ladder(t->session, table, length, t->fact.lower, t->fact.upper, some, MOST);
    dawnhangra_count bytes = LIBRARY.write(t->session, table, length, some, MOST_BOOK);
    t->heads_length = some_length(t->session.classes, MOST);
    t->steps_length = some_length(2 * steps.count, MOST_STEPS);
    t->rungs_length = some_length(rungs.count, MOST);
    t->out_length = some_length(bytes.count, MOST_BOOK);
}

static void make_trial(struct trial *t)
{
    static bool under[MOST_PAIRS];
    static struct book book;
    size_t n = chance(8) ? 1 + pick(MOST) : 1 + pick(12), open;
    some_order(n, under);
    some_book(&book, n, under, chance(3));
    dawnhangra_session session = set_table(t, &book, n, &open);
    set_session(t, session, open);
    t->fact = (struct fact){some_class(n), some_class(n), chance(2)};
    if (t->fact.lower < n && t->fact.upper < n && !chance(4)) {
        t->fact.holds = under[t->fact.lower * n + t->fact.upper];
    }
    set_flags(t, n, under);
    set_book(t, &book);
    set_lengths(t);
}

// The comparison.

static bool same_outcome(const struct outcome *a, const struct outcome *b)
{
    return same_answer(&a->answer, &b->answer) && !memcmp(a->table.bytes, b->table.bytes, ROOM) &&
           !memcmp(a->first.bytes, b->first.bytes, ROOM) && !memcmp(a->second.bytes, b->second.bytes, ROOM);
}

// Runs one call on both, and gives its number.
static uint8_t compare(const struct call *call, const struct trial *t, size_t trial)
{
    static struct outcome library, plain;
    memset(&library.answer, 0, sizeof library.answer);
    memset(&plain.answer, 0, sizeof plain.answer);
    library.table = t->table;
    plain.table = t->table;
    call->run(&LIBRARY, t, &library);
    call->run(&PLAIN, t, &plain);
    uint8_t number = number_in(&library.answer);
    if (!same_outcome(&library, &plain)) {
        end_check(
            "trial %zu: %s with %zu classes: the %s differ; the number is %u in the library and %u in plain C", trial,
            call->name, t->session.classes, same_answer(&library.answer, &plain.answer) ? "bytes" : "answers", number,
            number_in(&plain.answer));
    }
    passed++;
    return number;
}

// All small tables, alone and within large ones: each that is not sound is refused, and no other. Chance alone would
// miss what takes several marks at once.

static void compare_open_pairs(size_t n, const uint8_t *table, size_t number)
{
    dawnhangra_session session = {n, 0};
    dawnhangra_count library = LIBRARY.open_pairs(session, table, n * n);
    dawnhangra_count plain = PLAIN.open_pairs(session, table, n * n);
    if (library.number != plain.number || library.count != plain.count) {
        end_check(
            "small table %zu in %zu classes: open_pairs gives %u and %zu in the library, %u and %zu in plain C", number,
            n, library.number, library.count, plain.number, plain.count);
    }
    passed++;
}

// The table whose marks are the digits of a number. With a diagonal all marks are digits; without, it is yes.
static void spell(uint8_t *table, size_t n, size_t number, size_t base, bool diagonal)
{
    for (size_t i = 0; i < n * n; i++) {
        table[i] = DAWNHANGRA_YES;
        if (diagonal || i % (n + 1)) {
            table[i] = (uint8_t)(number % base);
            number /= base;
        }
    }
}

static size_t power(size_t base, size_t digits)
{
    return digits ? base * power(base, digits - 1) : 1;
}

static void check_small(size_t n, size_t base, bool diagonal)
{
    uint8_t table[16];
    for (size_t number = 0; number < power(base, diagonal ? n * n : n * n - n); number++) {
        spell(table, n, number, base, diagonal);
        compare_open_pairs(n, table, number);
    }
}

// The marks of three classes go to any three of a fresh table.
static void check_placed(size_t number)
{
    static uint8_t table[MOST_PAIRS];
    uint8_t marks[9];
    size_t n = 3 + pick(MOST - 2), third = n / 3, shift = pick(n);
    size_t at[] = {pick(third), third + pick(third), 2 * third + pick(third)};
    spell(marks, 3, number, 3, false);
    LIBRARY.fresh(n, table, sizeof table);
    for (size_t i = 0; i < 9; i++) {
        table[(at[i / 3] + shift) % n * n + (at[i % 3] + shift) % n] = marks[i];
    }
    compare_open_pairs(n, table, number);
}

void check_calls(void)
{
    static struct trial t;
    unsigned seen[CALL_COUNT] = {0};
    check_small(2, 4, true);
    check_small(3, 4, true);
    check_small(4, 3, false);
    for (size_t i = 0; i < PLACED; i++) {
        check_placed(i % power(3, 6));
    }
    for (size_t trial = 0; trial < TRIALS; trial++) {
        make_trial(&t);
        for (size_t c = 0; c < CALL_COUNT; c++) {
            seen[c] |= 1u << compare(&CALLS[c], &t, trial);
        }
    }
    for (size_t c = 0; c < CALL_COUNT; c++) {
        for (unsigned number = 0; number < NUMBERS; number++) {
            if ((seen[c] ^ CALLS[c].numbers) >> number & 1) {
                end_check("the trials of %s %s number %u", CALLS[c].name,
                    seen[c] >> number & 1 ? "gave, though they may not," : "never gave", number);
            }
        }
    }
    printf("plain C held to the library on all small tables, and on damaged calls with every refusal of each call\n");
    printf("%zu passed, 0 failed\n", passed);
}
