// Dawnhangra for C, C99 or later, and C++: which class of receiver lies under which. Link it with libdawnhangra.a,
// which is for x86-64 and needs of the C library memcpy and memset alone.
//
// Every call ends, allocates nothing and keeps nothing from call to call. Threads may call side by side as long as no
// buffer that one call writes is lent to another at the same time.
//
// A buffer is lent as a pointer followed by its length in bytes. The pointer must be valid for that length, and for
// writing where it is not const. It may be null only where the length is 0. Buffers lent to one call must not
// overlap. Nothing else is asked of what goes in: any class count, tally, table, class number, book and length gets
// an answer or a refusal.
//
// A table of n classes is n*n bytes: the mark of (a, b), "a is under b", stands at index a*n + b. Bytes behind them
// are neither read nor written. Session and table are passed on from call to call untouched. A table that was changed
// in between is refused where no facts give it; where some do, the calls go on from those.
#ifndef DAWNHANGRA_H
#define DAWNHANGRA_H

#include <stdbool.h>
#include <stddef.h>
#include <stdint.h>

#ifdef __cplusplus
extern "C" {
#endif

// What this header is of: it changes where a call, a struct or a number does.
#define DAWNHANGRA_VERSION 1

// The most classes that a table may have.
#define DAWNHANGRA_MOST_CLASSES 128

// Sizes in bytes that always suffice, whatever the class count: a table, for fresh and read too; the heads, the steps,
// the rungs of a ladder, and a book that write gives.
#define DAWNHANGRA_TABLE_BYTES 16384
#define DAWNHANGRA_HEADS_BYTES 128
#define DAWNHANGRA_STEPS_BYTES 8192
#define DAWNHANGRA_RUNGS_BYTES 128
#define DAWNHANGRA_BOOK_BYTES 32522

// The bytes of stack to leave for a call. As built here hierarchy takes up to 13,000, ladder 10,000, any other 1,200.
#define DAWNHANGRA_STACK_BYTES 65536

// The marks in a table: neither is known, a is under b, a is not under b.
enum dawnhangra_mark {
    DAWNHANGRA_OPEN = 0,
    DAWNHANGRA_YES = 1,
    DAWNHANGRA_NO = 2
};

// The numbers in an answer. Each call says which refusals it has, in the order in which they are looked at: the first
// that is due is given. A refused call writes nothing, except that a refused book leaves the facts before its place.
enum dawnhangra_number {
    DAWNHANGRA_ACCEPTED = 0,
    DAWNHANGRA_BAD_COUNT = 1,      // the class count is 0 or above 128
    DAWNHANGRA_SHORT_TABLE = 2,    // the table is shorter than n*n
    DAWNHANGRA_NOT_SOUND = 3,      // the table is not one that facts give
    DAWNHANGRA_OVERCOUNTED = 4,    // tests and open pairs are more than n*n - n together
    DAWNHANGRA_NO_SUCH_CLASS = 5,  // a class number, or a class that played a clip, is n or more; a class has no flag
    DAWNHANGRA_CONTRADICTED = 6,   // the fact, or one of a clip's, is against a mark
    DAWNHANGRA_STILL_OPEN = 7,     // a pair is still open
    DAWNHANGRA_NO_ROOM = 8,        // a buffer is shorter than what is to be written there
    DAWNHANGRA_NO_LADDER = 9,      // lower is not under upper
    DAWNHANGRA_CUT_SHORT = 10,     // a field's three head bytes, or its contents, run past the end of the book
    DAWNHANGRA_UNKNOWN_TAG = 11,   // a field's tag is not 1 to 4
    DAWNHANGRA_MISPLACED_TAG = 12, // the book is empty, its first field has not tag 1, or tag 1 comes again
    DAWNHANGRA_BAD_LENGTH = 13,    // a field's length is not allowed for its tag
    DAWNHANGRA_BAD_VERDICT = 14,   // an answer's verdict is neither 0 nor 1
    DAWNHANGRA_TOO_LONG = 15       // the input is above 32,768 bytes: the printing program alone gives it
};

// A sentence for a number, to be shown to people; for one that is no number of these, that it is none.
static inline const char *dawnhangra_text(uint8_t number) {
    switch (number) {
    case DAWNHANGRA_ACCEPTED: return "accepted";
    case DAWNHANGRA_BAD_COUNT: return "the class count is 0 or above 128";
    case DAWNHANGRA_SHORT_TABLE: return "the table is shorter than its classes need";
    case DAWNHANGRA_NOT_SOUND: return "the table is not one that facts give";
    case DAWNHANGRA_OVERCOUNTED: return "more tests are counted than can have been made";
    case DAWNHANGRA_NO_SUCH_CLASS: return "a class number is not below the class count";
    case DAWNHANGRA_CONTRADICTED: return "the fact contradicts what is settled";
    case DAWNHANGRA_STILL_OPEN: return "a pair is still open";
    case DAWNHANGRA_NO_ROOM: return "a buffer is shorter than what is to be written there";
    case DAWNHANGRA_NO_LADDER: return "the lower class is not under the upper one";
    case DAWNHANGRA_CUT_SHORT: return "a field runs past the end of the book";
    case DAWNHANGRA_UNKNOWN_TAG: return "a field's tag is not 1 to 4";
    case DAWNHANGRA_MISPLACED_TAG: return "the book is empty, does not begin with its class count, or has a second one";
    case DAWNHANGRA_BAD_LENGTH: return "a field's length is not allowed for its tag";
    case DAWNHANGRA_BAD_VERDICT: return "an answer's verdict is neither 0 nor 1";
    case DAWNHANGRA_TOO_LONG: return "the input is above 32,768 bytes";
    default: return "no number of this library";
    }
}

// The class count n, and the tally of tests.
typedef struct dawnhangra_session {
    size_t classes;
    size_t tests;
} dawnhangra_session;

// What fresh, tell, answer, clip and read give: the number, its place in the book (0 outside books and where
// accepted), the session to pass on.
typedef struct dawnhangra_reply {
    uint8_t number;
    size_t place;
    dawnhangra_session session;
} dawnhangra_reply;

// What next gives: whether lower and upper are to be asked about. Where accepted and nothing is asked, no pair is open.
// Lower and upper are 0 where nothing is asked, the place always.
typedef struct dawnhangra_question {
    uint8_t number;
    size_t place;
    bool asks;
    size_t lower;
    size_t upper;
} dawnhangra_question;

// What open_pairs, hierarchy, ladder and write give: how many pairs are open, how many steps, rungs or bytes were
// written, 0 where refused. The place is always 0.
typedef struct dawnhangra_count {
    uint8_t number;
    size_t place;
    size_t count;
} dawnhangra_count;

// Starts a table: yes on the diagonal, open elsewhere, no tests. Refuses with 1, 2, and then gives a session of no
// classes.
dawnhangra_reply dawnhangra_fresh(size_t classes, uint8_t *table, size_t table_length);

// Takes a fact in: lower is under upper, or is not. All that follows from it is marked too. A fact that agrees with a
// mark is accepted and changes nothing. Refuses with 1 to 4, 5, 6, and then gives the session back as it came.
dawnhangra_reply dawnhangra_tell(
    dawnhangra_session session, uint8_t *table, size_t table_length, size_t lower, size_t upper, bool holds);

// The same for a fact that a test gave: where the pair was open, the session has one test more.
dawnhangra_reply dawnhangra_answer(
    dawnhangra_session session, uint8_t *table, size_t table_length, size_t lower, size_t upper, bool holds);

// Takes in what a trial clip shows: no class that played it is under one that did not. It is as if all these noes
// were told one by one, but where one of them is against a mark nothing changes; no test is counted. Played has a
// flag for each class from 0 on, set where the byte is not 0: n flags, or more up to 128. Refuses with 1 to 4, 5
// where there are fewer or more flags or that of a class of n or more is set, 6, and then gives the session back as
// it came.
dawnhangra_reply dawnhangra_clip(
    dawnhangra_session session, uint8_t *table, size_t table_length, const uint8_t *played, size_t played_length);

// Names the first open pair, rows in rising order and then columns. Refuses with 1 to 4.
dawnhangra_question dawnhangra_next(dawnhangra_session session, const uint8_t *table, size_t table_length);

// Counts the open pairs; changes nothing. Refuses with 1 to 4.
dawnhangra_count dawnhangra_open_pairs(dawnhangra_session session, const uint8_t *table, size_t table_length);

// Writes the head of each class, the lowest number of its group, and the direct steps between heads, a and b for
// each, ordered by a and then b; counts the steps. Refuses with 1 to 4, 7, 8. Heads are n bytes; for the steps
// 2*(n*n/4) bytes always suffice.
dawnhangra_count dawnhangra_hierarchy(
    dawnhangra_session session, const uint8_t *table, size_t table_length, uint8_t *heads, size_t heads_length,
    uint8_t *steps, size_t steps_length);

// Writes the ladder, a byte a rung: from the head of lower, each time to the lowest-numbered head directly above and
// under upper, up to the head of upper; counts the rungs. Refuses with 1 to 4, 5, 7, 9, 8. For the rungs n bytes
// always suffice.
dawnhangra_count dawnhangra_ladder(
    dawnhangra_session session, const uint8_t *table, size_t table_length, size_t lower, size_t upper, uint8_t *rungs,
    size_t rungs_length);

// Reads a book on a fresh table, its facts from the left. A field may be refused with 10 (head), 11, 12, 13, 10
// (contents), tag 1 then with 1, 2, a fact with 14, 5, 6; the place is the index of the field's tag or of the fact's
// first byte, and session and table stay as they are after the facts before it (no classes and an untouched table
// where no class count was accepted). The table takes n*n bytes.
dawnhangra_reply dawnhangra_read(const uint8_t *book, size_t book_length, uint8_t *table, size_t table_length);

// Writes the book of a table: its class count, its yes pairs and its no pairs off the diagonal; counts the bytes.
// Refuses with 1 to 4, 8. A book has 10 + 2*(n*n - n) bytes at most.
dawnhangra_count dawnhangra_write(
    dawnhangra_session session, const uint8_t *table, size_t table_length, uint8_t *out, size_t out_length);

#ifdef __cplusplus
}
#endif

#endif
