// The two programs, the orders, and the tables and books that the calls are run on.
#include "bench.h"

#include <stdarg.h>
#include <stdio.h>
#include <stdlib.h>
#include <string.h>

const struct program LIBRARY = {
    dawnhangra_fresh, dawnhangra_tell, dawnhangra_answer, dawnhangra_clip, dawnhangra_next,
    dawnhangra_open_pairs, dawnhangra_hierarchy, dawnhangra_ladder, dawnhangra_read, dawnhangra_write};

const struct program PLAIN = {
    plain_fresh, plain_tell, plain_answer, plain_clip, plain_next, plain_open_pairs, plain_hierarchy,
    plain_ladder, plain_read, plain_write};

const struct table_kind TABLE_KINDS[TABLES] = {
    {"fresh", random_order, 0},
    {"random, 1/4 settled", random_order, 2},
    {"random, 1/2 settled", random_order, 4},
    {"random, 3/4 settled", random_order, 6},
    {"random, 7/8 settled", random_order, 7},
    {"tree, 7/8 settled", tree_order, 7},
    {"chain, 7/8 settled", chain_order, 7},
    {"random, settled", random_order, 8},
    {"tree, settled", tree_order, 8},
    {"chain, settled", chain_order, 8},
    {"antichain, settled", antichain_order, 8},
};

void fail(const char *format, ...)
{
    va_list values;
    va_start(values, format);
    fprintf(stderr, "bench: ");
    vfprintf(stderr, format, values);
    fprintf(stderr, "\n");
    va_end(values);
    exit(EXIT_FAILURE);
}

// Answers.

static bool same_session(dawnhangra_session a, dawnhangra_session b)
{
    return a.classes == b.classes && a.tests == b.tests;
}

static bool same_reply(dawnhangra_reply a, dawnhangra_reply b)
{
    return a.number == b.number && a.place == b.place && same_session(a.session, b.session);
}

static bool same_question(dawnhangra_question a, dawnhangra_question b)
{
    return a.number == b.number && a.place == b.place && a.asks == b.asks && a.lower == b.lower && a.upper == b.upper;
}

static bool same_count(dawnhangra_count a, dawnhangra_count b)
{
    return a.number == b.number && a.place == b.place && a.count == b.count;
}

bool same_answer(const struct answer *a, const struct answer *b)
{
    return same_reply(a->reply, b->reply) && same_question(a->question, b->question) && same_count(a->count, b->count);
}

uint8_t number_in(const struct answer *a)
{
    return a->reply.number | a->question.number | a->count.number;
}

// The orders.

size_t pick(size_t limit)
{
    static uint64_t state = 1;
    state = state * 6364136223846793005u + 1442695040888963407u;
    return (size_t)(state >> 33) % limit;
}

// Each class has two numbers and is under those that have both as high. One in eight has the numbers of an earlier
// class.
void random_order(size_t n, bool *under)
{
    size_t x[MOST], y[MOST];
    for (size_t a = 0; a < n; a++) {
        bool copied = a > 0 && pick(8) == 0;
        size_t from = copied ? pick(a) : 0;
        x[a] = copied ? x[from] : pick(1000);
        y[a] = copied ? y[from] : pick(1000);
    }
    for (size_t a = 0; a < n; a++) {
        for (size_t b = 0; b < n; b++) {
            under[a * n + b] = x[a] <= x[b] && y[a] <= y[b];
        }
    }
}

// Each class but the first is under one earlier class and what that is under.
void tree_order(size_t n, bool *under)
{
    memset(under, 0, n * n * sizeof *under);
    for (size_t a = 0; a < n; a++) {
        if (a > 0) {
            memcpy(under + a * n, under + pick(a) * n, n * sizeof *under);
        }
        under[a * n + a] = true;
    }
}

// Each class is under all later ones.
void chain_order(size_t n, bool *under)
{
    for (size_t a = 0; a < n; a++) {
        for (size_t b = 0; b < n; b++) {
            under[a * n + b] = a <= b;
        }
    }
}

// Each class is under itself alone.
void antichain_order(size_t n, bool *under)
{
    for (size_t a = 0; a < n; a++) {
        for (size_t b = 0; b < n; b++) {
            under[a * n + b] = a == b;
        }
    }
}

// Books.

void begin_book(struct book *book, size_t n)
{
    const uint8_t head[] = {1, 0, 1, (uint8_t)n};
    memcpy(book->bytes, head, sizeof head);
    book->length = sizeof head;
}

void begin_field(struct book *book, uint8_t tag)
{
    book->field = book->length;
    const uint8_t head[] = {tag, 0, 0};
    memcpy(book->bytes + book->length, head, sizeof head);
    book->length += sizeof head;
}

void add_fact(struct book *book, const struct fact *fact)
{
    uint8_t *field = book->bytes + book->field;
    const uint8_t bytes[] = {(uint8_t)fact->lower, (uint8_t)fact->upper, fact->holds};
    size_t width = field[0] == 4 ? 3 : 2;
    memcpy(book->bytes + book->length, bytes, width);
    book->length += width;
    size_t size = book->length - book->field - 3;
    field[1] = (uint8_t)(size >> 8);
    field[2] = (uint8_t)size;
}

// The inputs. Plain C makes them, since it is the faster; each row is held to the library before it is timed.

static struct fact fact_at(size_t i, const bool *under)
{
    return (struct fact){i / MOST, i % MOST, under[i]};
}

// Facts on pairs that are open, or on pairs that are not, spread over the table.
static void choose_facts(const uint8_t *table, const bool *under, bool open, struct fact *facts)
{
    for (size_t chosen = 0; chosen < FACTS;) {
        size_t i = pick(MOST_PAIRS);
        if ((table[i] == DAWNHANGRA_OPEN) == open) {
            facts[chosen++] = fact_at(i, under);
        }
    }
}

// Clips that agree with the order: each is played by a class and all that it is under.
static void choose_clips(const bool *under, uint8_t played[FACTS][MOST])
{
    for (size_t i = 0; i < FACTS; i++) {
        size_t a = pick(MOST);
        for (size_t b = 0; b < MOST; b++) {
            played[i][b] = under[a * MOST + b];
        }
    }
}

static size_t first_open(const uint8_t *table, size_t from)
{
    const uint8_t *found = memchr(table + from, DAWNHANGRA_OPEN, MOST_PAIRS - from);
    return found ? (size_t)(found - table) : MOST_PAIRS;
}

// Facts of the order come in, each on an open pair, told and answered by turns, until no more pairs than these are
// open.
static void settle(struct input *in, const bool *under, size_t most_open)
{
    size_t open = MOST_PAIRS - MOST;
    in->session = PLAIN.fresh(MOST, in->table, MOST_PAIRS).session;
    for (size_t facts = 0; open > most_open; facts++) {
        size_t i = first_open(in->table, pick(MOST_PAIRS));
        struct fact f = fact_at(i < MOST_PAIRS ? i : first_open(in->table, 0), under);
        dawnhangra_reply reply = (facts % 2 ? PLAIN.answer : PLAIN.tell)(
            in->session, in->table, MOST_PAIRS, f.lower, f.upper, f.holds);
        if (reply.number) {
            fail("a fact of an order is refused with %u", reply.number);
        }
        in->session = reply.session;
        open = PLAIN.open_pairs(in->session, in->table, MOST_PAIRS).count;
    }
}

// Answers down the table, each on a pair that is still open.
static void note_steps(struct book *book, const bool *under)
{
    static uint8_t table[MOST_PAIRS];
    dawnhangra_session session = PLAIN.fresh(MOST, table, MOST_PAIRS).session;
    begin_book(book, MOST);
    begin_field(book, 4);
    for (size_t i = 0; i < MOST_PAIRS; i++) {
        if (table[i] == DAWNHANGRA_OPEN) {
            struct fact f = fact_at(i, under);
            session = PLAIN.answer(session, table, MOST_PAIRS, f.lower, f.upper, f.holds).session;
            add_fact(book, &f);
        }
    }
}

static void find_longest(struct input *in)
{
    uint8_t rungs[MOST];
    size_t longest = 0;
    for (size_t i = 0; i < MOST_PAIRS; i++) {
        size_t lower = i / MOST, upper = i % MOST;
        if (in->table[i] == DAWNHANGRA_YES) {
            dawnhangra_count wrote =
                PLAIN.ladder(in->session, in->table, MOST_PAIRS, lower, upper, rungs, sizeof rungs);
            if (wrote.count > longest) {
                longest = wrote.count;
                in->lowest = lower;
                in->highest = upper;
            }
        }
    }
}

void make_input(struct input *in, const struct table_kind *kind)
{
    static bool under[MOST_PAIRS];
    size_t most_open = kind->eighths ? MOST_PAIRS / 8 * (8 - kind->eighths) : MOST_PAIRS;
    kind->order(MOST, under);
    settle(in, under, most_open);
    choose_facts(in->table, under, false, in->settled);
    choose_clips(under, in->played);
    if (most_open) {
        choose_facts(in->table, under, true, in->open);
    } else {
        note_steps(&in->stepwise, under);
        find_longest(in);
    }
    in->book.length =
        PLAIN.write(in->session, in->table, MOST_PAIRS, in->book.bytes, sizeof in->book.bytes).count;
}
