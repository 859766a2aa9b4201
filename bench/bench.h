// What the files of the benchmark share: the two programs, the inputs, and the check.
#ifndef BENCH_H
#define BENCH_H

#include "plain.h"

enum {
    MOST = DAWNHANGRA_MOST_CLASSES,
    MOST_PAIRS = MOST * MOST,
    MOST_STEPS = 2 * (MOST_PAIRS / 4), // bytes
    MOST_BOOK = 4 * MOST_PAIRS,        // bytes: an answer for every pair, and some more
    FACTS = 8
};

// One of the two programs.
struct program {
    dawnhangra_reply (*fresh)(size_t, uint8_t *, size_t);
    dawnhangra_reply (*tell)(dawnhangra_session, uint8_t *, size_t, size_t, size_t, bool);
    dawnhangra_reply (*answer)(dawnhangra_session, uint8_t *, size_t, size_t, size_t, bool);
    dawnhangra_reply (*clip)(dawnhangra_session, uint8_t *, size_t, const uint8_t *, size_t);
    dawnhangra_question (*next)(dawnhangra_session, const uint8_t *, size_t);
    dawnhangra_count (*open_pairs)(dawnhangra_session, const uint8_t *, size_t);
    dawnhangra_count (*hierarchy)(dawnhangra_session, const uint8_t *, size_t, uint8_t *, size_t, uint8_t *, size_t);
    dawnhangra_count (*ladder)(dawnhangra_session, const uint8_t *, size_t, size_t, size_t, uint8_t *, size_t);
    dawnhangra_reply (*read)(const uint8_t *, size_t, uint8_t *, size_t);
    dawnhangra_count (*write)(dawnhangra_session, const uint8_t *, size_t, uint8_t *, size_t);
};

extern const struct program LIBRARY, PLAIN;

// Any of the three kinds of answer; what a call does not give is 0.
struct answer {
    dawnhangra_reply reply;
    dawnhangra_question question;
    dawnhangra_count count;
};

bool same_answer(const struct answer *a, const struct answer *b);

// The refusal number in an answer.
uint8_t number_in(const struct answer *a);

// Says what is wrong on standard error, and ends.
void fail(const char *format, ...);

// The inputs. They are the same in every run: all chance comes from pick.

// A number below a limit.
size_t pick(size_t limit);

// Fills in whether a is under b, at a*n + b.
typedef void (*order)(size_t n, bool *under);

void random_order(size_t n, bool *under);
void tree_order(size_t n, bool *under);
void chain_order(size_t n, bool *under);
void antichain_order(size_t n, bool *under);

struct fact {
    size_t lower, upper;
    bool holds;
};

// A book in the making: its last field begins at field.
struct book {
    size_t length, field;
    uint8_t bytes[MOST_BOOK];
};

// A book with a class count, then a field of facts, then facts: the length of the field is kept right.
void begin_book(struct book *book, size_t n);
void begin_field(struct book *book, uint8_t tag);
void add_fact(struct book *book, const struct fact *fact);

// A table is given by an order and how much of it is settled. The mostly open ones come first, the settled ones last.
enum { TABLES = 11, FIRST_SETTLED = 7 };

extern const struct table_kind {
    const char *name;
    order order;
    size_t eighths; // of the pairs are settled
} TABLE_KINDS[TABLES];

// Tables start on a cache line: where they happen to lie would change the times from build to build.
#define ON_A_LINE __attribute__((aligned(64)))

// What the calls are run on, with 128 classes.
struct input {
    ON_A_LINE uint8_t table[MOST_PAIRS];
    dawnhangra_session session;
    struct fact open[FACTS];     // on open pairs, where there are any
    struct fact settled[FACTS];  // on settled pairs, and agreeing
    uint8_t played[FACTS][MOST]; // clips, each played by a class and all that it is under
    size_t lowest, highest;      // the ends of the longest ladder, where all is settled
    struct book book;            // what write gives
    struct book stepwise;        // answers, each on a pair open until then, that settle all
};

void make_input(struct input *in, const struct table_kind *kind);

// Holds plain C to the library on random and damaged sessions, tables, buffers and books. Says how many calls were
// compared, and ends the program with status 1 where two differ.
void check_calls(void);

#endif
