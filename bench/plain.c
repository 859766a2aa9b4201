// The calls in plain C, to measure the library against: what a C programmer writes who wants speed and is lent the
// table as bytes. Written from the rules, not from the library's code.
//
// A call packs the marks first: for each class the set of those that it is under and the set of those that it is not
// under, a bit a class. All that is asked of rows is then asked of whole sets at once, and rows that were changed are
// put back as bytes.
#include "plain.h"

#include <string.h>

enum { MOST = DAWNHANGRA_MOST_CLASSES, OPEN = DAWNHANGRA_OPEN, YES = DAWNHANGRA_YES, NO = DAWNHANGRA_NO };

// Sets of classes.

// A set of at most 128 classes. Class 8*i + j of the lower 64 is bit 8*j + i, its slot, and the upper 64 are alike:
// eight bytes then go into a set by a shift and an or, all at once. What belongs to a class stands at its slot.
__extension__ typedef unsigned __int128 set;

// The slot of a class, and the class of a slot.
static size_t swapped(size_t i)
{
    return (i & 64) | (i & 7) << 3 | (i >> 3 & 7);
}

static set one(size_t slot)
{
    return (set)1 << slot;
}

static bool has(set s, size_t slot)
{
    uint64_t half = slot < 64 ? (uint64_t)s : (uint64_t)(s >> 64);
    return half >> (slot & 63) & 1;
}

// The first slot of a set that is not empty.
static size_t first(set s)
{
    uint64_t low = (uint64_t)s;
    return low ? (size_t)__builtin_ctzll(low) : 64 + (size_t)__builtin_ctzll((uint64_t)(s >> 64));
}

// How many ones each byte has.
static uint64_t ones_by_byte(uint64_t x)
{
    x -= x >> 1 & 0x5555555555555555;
    x = (x & 0x3333333333333333) + (x >> 2 & 0x3333333333333333);
    return (x + (x >> 4)) & 0x0f0f0f0f0f0f0f0f;
}

static size_t size_of(set s)
{
    uint64_t bytes = ones_by_byte((uint64_t)s) + ones_by_byte((uint64_t)(s >> 64));
    return (size_t)(bytes * 0x0101010101010101 >> 56);
}

// Half a set in the order of the classes: the bits are turned over as a square of eight by eight.
static uint64_t in_order(uint64_t x)
{
    uint64_t t = (x ^ x >> 7) & 0x00aa00aa00aa00aa;
    x ^= t ^ t << 7;
    t = (x ^ x >> 14) & 0x0000cccc0000cccc;
    x ^= t ^ t << 14;
    t = (x ^ x >> 28) & 0x00000000f0f0f0f0;
    return x ^ t ^ t << 28;
}

// The lowest-numbered class of a set that is not empty.
static size_t lowest_class(set s)
{
    uint64_t low = in_order((uint64_t)s);
    return low ? (size_t)__builtin_ctzll(low) : 64 + (size_t)__builtin_ctzll(in_order((uint64_t)(s >> 64)));
}

// Rows of bytes, packed and unpacked.

static const uint64_t EVEN_BITS = 0x5555555555555555;
static const uint64_t MARK_BITS = 0x0303030303030303;

// By slot: the classes that each class is under, and those that it is not under.
struct marks {
    set yes[MOST], no[MOST];
};

// Eight bytes, the first one lowest, as on any x86-64.
static uint64_t get_eight(const uint8_t *bytes)
{
    uint64_t eight;
    memcpy(&eight, bytes, sizeof eight);
    return eight;
}

// The sets of 64 marks. Gives 0 where each is 0, 1 or 2.
static uint64_t pack_half(const uint8_t *row, uint64_t *yes, uint64_t *no)
{
    uint64_t even = 0, odd = 0, seen = 0;
    for (int i = 0; i < 4; i++) {
        uint64_t left = get_eight(row + 16 * i), right = get_eight(row + 16 * i + 8);
        even |= left << 2 * i;
        odd |= right << 2 * i;
        seen |= left | right;
    }
    *yes = (even & EVEN_BITS) | (odd & EVEN_BITS) << 1;
    *no = (even >> 1 & EVEN_BITS) | (odd & ~EVEN_BITS);
    return (seen & ~MARK_BITS) | (*yes & *no);
}

// The sets of 128 marks. Gives 0 where each is 0, 1 or 2.
static uint64_t pack(const uint8_t *row, set *yes, set *no)
{
    uint64_t yes_low, yes_high, no_low, no_high;
    uint64_t wrong = pack_half(row, &yes_low, &no_low) | pack_half(row + 64, &yes_high, &no_high);
    *yes = (set)yes_high << 64 | yes_low;
    *no = (set)no_high << 64 | no_low;
    return wrong;
}

static void unpack_half(uint64_t yes, uint64_t no, uint8_t *row)
{
    uint64_t even = (yes & EVEN_BITS) | (no & EVEN_BITS) << 1;
    uint64_t odd = (yes >> 1 & EVEN_BITS) | (no & ~EVEN_BITS);
    for (int i = 0; i < 4; i++) {
        uint64_t left = even >> 2 * i & MARK_BITS, right = odd >> 2 * i & MARK_BITS;
        memcpy(row + 16 * i, &left, sizeof left);
        memcpy(row + 16 * i + 8, &right, sizeof right);
    }
}

static void unpack(set yes, set no, uint8_t *row)
{
    unpack_half((uint64_t)yes, (uint64_t)no, row);
    unpack_half((uint64_t)(yes >> 64), (uint64_t)(no >> 64), row + 64);
}

// All n classes.
static set everyone(size_t n)
{
    uint8_t row[MOST] = {0};
    set yes, no;
    memset(row, YES, n);
    pack(row, &yes, &no);
    return yes;
}

// Packs the table. Gives whether each mark is 0, 1 or 2 and the diagonal is yes.
static bool pack_table(size_t n, const uint8_t *table, struct marks *marks)
{
    uint8_t padded[MOST] = {0};
    uint64_t wrong = 0;
    if (n < MOST) {
        memset(marks, 0, sizeof *marks);
    }
    for (size_t a = 0; a < n; a++) {
        const uint8_t *row = table + a * n;
        if (n < MOST) {
            row = memcpy(padded, row, n);
        }
        size_t slot = swapped(a);
        wrong |= pack(row, &marks->yes[slot], &marks->no[slot]);
        wrong |= !has(marks->yes[slot], slot);
    }
    return !wrong;
}

// The rows of these classes go back to the table.
static void unpack_rows(size_t n, const struct marks *marks, set classes, uint8_t *table)
{
    uint8_t padded[MOST];
    for (; classes; classes &= classes - 1) {
        size_t slot = first(classes);
        uint8_t *row = table + swapped(slot) * n;
        unpack(marks->yes[slot], marks->no[slot], n < MOST ? padded : row);
        if (n < MOST) {
            memcpy(row, padded, n);
        }
    }
}

// Soundness.

// Whether every b that a is under agrees: a is under all that b is under, and b is not under what a is not under.
static bool yes_agree(const struct marks *marks, size_t a)
{
    set yes = marks->yes[a], no = marks->no[a], left = yes & ~one(a);
    while (left) {
        size_t b = first(left);
        set above_b = marks->yes[b];
        if ((above_b & ~yes) | (no & ~marks->no[b])) {
            return false;
        }
        // What b is under agrees with a if it agrees with b, so it is left to the row of b. Equal rows would leave it
        // to each other: there only the later row leaves it to the earlier.
        left &= above_b != yes || b < a ? ~above_b : left - 1;
    }
    return true;
}

// For each run of four slots, what each choice of the four is under together.
struct unions {
    set of[MOST / 4][16];
};

static void make_unions(const set *rows, struct unions *unions)
{
    for (size_t run = 0; run < MOST / 4; run++) {
        set *of = unions->of[run];
        of[0] = 0;
        for (size_t i = 0; i < 4; i++) {
            for (size_t choice = 0; choice < (size_t)1 << i; choice++) {
                of[choice | (size_t)1 << i] = of[choice] | rows[4 * run + i];
            }
        }
    }
}

// What any class of a set is under: four slots at a time and without a branch, since sets here are large.
static set above_any(const struct unions *unions, set classes)
{
    uint64_t low = (uint64_t)classes, high = (uint64_t)(classes >> 64);
    set above = 0;
    for (size_t run = 0; run < MOST / 8; run++) {
        above |= unions->of[run][low & 15] | unions->of[MOST / 8 + run][high & 15];
        low >>= 4;
        high >>= 4;
    }
    return above;
}

// Whether no open b of any row a is under a class that a is not under. A class that is under itself alone never is, so
// that most rows need no look where hardly anything, or nearly everything, is known.
static bool open_agree(const struct marks *marks, set all, set under_others)
{
    struct unions unions;
    make_unions(marks->yes, &unions);
    for (set left = all; left; left &= left - 1) {
        size_t a = first(left);
        set no = marks->no[a], open = under_others & ~(marks->yes[a] | no);
        if (no && open && (above_any(&unions, ~no) & no)) {
            return false;
        }
    }
    return true;
}

// Whether a packed table with a yes diagonal is sound.
static bool is_sound(const struct marks *marks, set all)
{
    set under_others = 0;
    for (set left = all; left; left &= left - 1) {
        size_t a = first(left);
        if (marks->yes[a] != one(a)) {
            under_others |= one(a);
            if (!yes_agree(marks, a)) {
                return false;
            }
        }
    }
    return !under_others || open_agree(marks, all, under_others);
}

// The refusals.

static dawnhangra_reply replied(uint8_t number, size_t place, dawnhangra_session session)
{
    dawnhangra_reply reply = {number, place, session};
    return reply;
}

static dawnhangra_count counted(uint8_t number, size_t count)
{
    dawnhangra_count counted = {number, 0, count};
    return counted;
}

static size_t count_open(size_t n, const struct marks *marks, set all)
{
    size_t settled = 0;
    for (; all; all &= all - 1) {
        size_t a = first(all);
        settled += size_of(marks->yes[a] | marks->no[a]);
    }
    return n * n - settled;
}

// A table with which a call starts.
struct standing {
    struct marks marks;
    set all;
    size_t open;
};

// The refusals 1 to 4, and the table packed.
static uint8_t stand(dawnhangra_session session, const uint8_t *table, size_t table_length, struct standing *s)
{
    size_t n = session.classes;
    if (n == 0 || n > MOST) {
        return DAWNHANGRA_BAD_COUNT;
    }
    if (table_length < n * n) {
        return DAWNHANGRA_SHORT_TABLE;
    }
    s->all = everyone(n);
    if (!pack_table(n, table, &s->marks) || !is_sound(&s->marks, s->all)) {
        return DAWNHANGRA_NOT_SOUND;
    }
    size_t most = n * n - n;
    s->open = count_open(n, &s->marks, s->all);
    if (session.tests > most || s->open > most - session.tests) {
        return DAWNHANGRA_OVERCOUNTED;
    }
    return DAWNHANGRA_ACCEPTED;
}

// Facts.

dawnhangra_reply plain_fresh(size_t classes, uint8_t *table, size_t table_length)
{
    dawnhangra_session none = {0};
    if (classes == 0 || classes > MOST) {
        return replied(DAWNHANGRA_BAD_COUNT, 0, none);
    }
    if (table_length < classes * classes) {
        return replied(DAWNHANGRA_SHORT_TABLE, 0, none);
    }
    memset(table, OPEN, classes * classes);
    for (size_t a = 0; a < classes; a++) {
        table[a * classes + a] = YES;
    }
    dawnhangra_session session = {.classes = classes};
    return replied(DAWNHANGRA_ACCEPTED, 0, session);
}

// The classes whose row has a class.
static set column(const set *rows, set all, size_t slot)
{
    set found = 0;
    for (; all; all &= all - 1) {
        size_t a = first(all);
        found |= has(rows[a], slot) ? one(a) : 0;
    }
    return found;
}

// Each x of xs gets all of ys. Columns, where they are kept, are rows turned over.
static void spread(set *rows, set *columns, set xs, set ys)
{
    for (set left = xs; left; left &= left - 1) {
        rows[first(left)] |= ys;
    }
    for (set left = columns ? ys : 0; left; left &= left - 1) {
        columns[first(left)] |= xs;
    }
}

// An open pair (a, b) becomes yes. The sets are those of the table before. Gives the rows that may have changed.
static set settle_yes(
    struct marks *rows, struct marks *columns, set under_a, set above_b, set not_above_a, set not_under_b)
{
    spread(rows->yes, columns ? columns->yes : NULL, under_a, above_b);
    spread(rows->no, columns ? columns->no : NULL, not_above_a ? above_b : 0, not_above_a);
    spread(rows->no, columns ? columns->no : NULL, not_under_b, under_a);
    return under_a | not_under_b | (not_above_a ? above_b : 0);
}

// An open pair becomes yes, or no, with all that follows, in the table.
static void settle_in_table(size_t n, struct standing *s, size_t a, size_t b, bool holds, uint8_t *table)
{
    struct marks *rows = &s->marks;
    set above_a = rows->yes[a], above_b = rows->yes[b], not_above_a = rows->no[a];
    if (holds) {
        set under_a = column(rows->yes, s->all, a), not_under_b = column(rows->no, s->all, b);
        set changed = settle_yes(rows, NULL, under_a, above_b, not_above_a, not_under_b);
        unpack_rows(n, rows, changed, table);
    } else {
        spread(rows->no, NULL, above_a, column(rows->yes, s->all, b));
        unpack_rows(n, rows, above_a, table);
    }
}

static dawnhangra_reply take(
    dawnhangra_session session, uint8_t *table, size_t table_length, size_t lower, size_t upper, bool holds,
    bool counts)
{
    struct standing s;
    size_t n = session.classes;
    uint8_t number = stand(session, table, table_length, &s);
    if (number) {
        return replied(number, 0, session);
    }
    if (lower >= n || upper >= n) {
        return replied(DAWNHANGRA_NO_SUCH_CLASS, 0, session);
    }
    uint8_t mark = table[lower * n + upper];
    if (mark == OPEN) {
        settle_in_table(n, &s, swapped(lower), swapped(upper), holds, table);
        session.tests += counts;
    } else if ((mark == YES) != holds) {
        return replied(DAWNHANGRA_CONTRADICTED, 0, session);
    }
    return replied(DAWNHANGRA_ACCEPTED, 0, session);
}

dawnhangra_reply plain_tell(
    dawnhangra_session session, uint8_t *table, size_t table_length, size_t lower, size_t upper, bool holds)
{
    return take(session, table, table_length, lower, upper, holds, false);
}

dawnhangra_reply plain_answer(
    dawnhangra_session session, uint8_t *table, size_t table_length, size_t lower, size_t upper, bool holds)
{
    return take(session, table, table_length, lower, upper, holds, true);
}

// The classes whose flag is set.
static set flagged(const uint8_t *played, size_t played_length)
{
    uint8_t row[MOST] = {0};
    set yes, no;
    for (size_t a = 0; a < played_length; a++) {
        row[a] = played[a] ? YES : OPEN;
    }
    pack(row, &yes, &no);
    return yes;
}

dawnhangra_reply plain_clip(
    dawnhangra_session session, uint8_t *table, size_t table_length, const uint8_t *played, size_t played_length)
{
    struct standing s;
    size_t n = session.classes;
    uint8_t number = stand(session, table, table_length, &s);
    if (number) {
        return replied(number, 0, session);
    }
    if (played_length < n || played_length > MOST) {
        return replied(DAWNHANGRA_NO_SUCH_CLASS, 0, session);
    }
    set players = flagged(played, played_length);
    if (players & ~s.all) {
        return replied(DAWNHANGRA_NO_SUCH_CLASS, 0, session);
    }
    for (set left = players; left; left &= left - 1) {
        if (s.marks.yes[first(left)] & ~players) {
            return replied(DAWNHANGRA_CONTRADICTED, 0, session);
        }
    }
    spread(s.marks.no, NULL, players, s.all & ~players);
    unpack_rows(n, &s.marks, players, table);
    return replied(DAWNHANGRA_ACCEPTED, 0, session);
}

// Open pairs.

dawnhangra_question plain_next(dawnhangra_session session, const uint8_t *table, size_t table_length)
{
    struct standing s;
    dawnhangra_question question = {0, 0, false, 0, 0};
    size_t n = session.classes;
    question.number = stand(session, table, table_length, &s);
    if (!question.number && s.open) {
        size_t i = (size_t)((const uint8_t *)memchr(table, OPEN, n * n) - table);
        question.asks = true;
        question.lower = i / n;
        question.upper = i % n;
    }
    return question;
}

dawnhangra_count plain_open_pairs(dawnhangra_session session, const uint8_t *table, size_t table_length)
{
    struct standing s;
    uint8_t number = stand(session, table, table_length, &s);
    return counted(number, number ? 0 : s.open);
}

// Groups, steps and ladders.

// The head of each class, and the set of heads. A class above a that is not under a has none above it that is, so
// those are passed over.
static set find_heads(size_t n, const struct marks *marks, uint8_t *heads)
{
    set own = 0, others = 0;
    for (size_t h = 0; h < n; h++) {
        size_t a = swapped(h);
        if (has(others, a)) {
            continue;
        }
        heads[h] = (uint8_t)h;
        own |= one(a);
        for (set left = marks->yes[a] & ~one(a); left;) {
            size_t b = first(left);
            if (has(marks->yes[b], a)) {
                heads[swapped(b)] = (uint8_t)h;
                others |= one(b);
                left &= left - 1;
            } else {
                left &= ~marks->yes[b];
            }
        }
    }
    return own;
}

// Of heads above one head, those with none of the others under them. What is above c is above it by c, and is passed
// over.
static set lowest_of(const struct marks *marks, set heads_above)
{
    set direct = heads_above;
    for (set left = heads_above; left;) {
        size_t c = first(left);
        direct &= ~marks->yes[c] | one(c);
        left &= ~marks->yes[c];
    }
    return direct;
}

// The pairs of a class with each class of a set, in order, two bytes each.
static uint8_t *put_pairs(uint8_t *out, size_t a, set classes)
{
    for (size_t half = 0; half < MOST; half += 64) {
        for (uint64_t left = in_order((uint64_t)(classes >> half)); left; left &= left - 1) {
            out[0] = (uint8_t)a;
            out[1] = (uint8_t)(half + (size_t)__builtin_ctzll(left));
            out += 2;
        }
    }
    return out;
}

dawnhangra_count plain_hierarchy(
    dawnhangra_session session, const uint8_t *table, size_t table_length, uint8_t *heads, size_t heads_length,
    uint8_t *steps, size_t steps_length)
{
    struct standing s;
    uint8_t found_heads[MOST], found_steps[2 * (MOST * MOST / 4)], *end = found_steps;
    size_t n = session.classes;
    uint8_t number = stand(session, table, table_length, &s);
    if (number) {
        return counted(number, 0);
    }
    if (s.open) {
        return counted(DAWNHANGRA_STILL_OPEN, 0);
    }
    set own = find_heads(n, &s.marks, found_heads);
    for (size_t h = 0; h < n; h++) {
        size_t a = swapped(h);
        if (has(own, a)) {
            end = put_pairs(end, h, lowest_of(&s.marks, s.marks.yes[a] & own & ~one(a)));
        }
    }
    size_t size = (size_t)(end - found_steps);
    if (heads_length < n || steps_length < size) {
        return counted(DAWNHANGRA_NO_ROOM, 0);
    }
    memcpy(heads, found_heads, n);
    if (size) {
        memcpy(steps, found_steps, size);
    }
    return counted(DAWNHANGRA_ACCEPTED, size / 2);
}

// The ladder up to a goal, from the first of the rungs on. Gives how many there are.
static size_t climb(const struct standing *s, const uint8_t *heads, set own, size_t goal, uint8_t *rungs)
{
    set under_goal = own & column(s->marks.yes, s->all, swapped(goal));
    size_t count = 1;
    while (rungs[count - 1] != heads[goal]) {
        size_t rung = swapped(rungs[count - 1]);
        set between = s->marks.yes[rung] & under_goal & ~one(rung);
        rungs[count++] = (uint8_t)lowest_class(lowest_of(&s->marks, between));
    }
    return count;
}

dawnhangra_count plain_ladder(
    dawnhangra_session session, const uint8_t *table, size_t table_length, size_t lower, size_t upper, uint8_t *rungs,
    size_t rungs_length)
{
    struct standing s;
    uint8_t heads[MOST], found[MOST];
    size_t n = session.classes;
    uint8_t number = stand(session, table, table_length, &s);
    if (number) {
        return counted(number, 0);
    }
    if (lower >= n || upper >= n) {
        return counted(DAWNHANGRA_NO_SUCH_CLASS, 0);
    }
    if (s.open) {
        return counted(DAWNHANGRA_STILL_OPEN, 0);
    }
    if (table[lower * n + upper] != YES) {
        return counted(DAWNHANGRA_NO_LADDER, 0);
    }
    set own = find_heads(n, &s.marks, heads);
    found[0] = heads[lower];
    size_t count = climb(&s, heads, own, upper, found);
    if (rungs_length < count) {
        return counted(DAWNHANGRA_NO_ROOM, 0);
    }
    memcpy(rungs, found, count);
    return counted(DAWNHANGRA_ACCEPTED, count);
}

// Books.

enum { CLASS_COUNT = 1, YES_FACTS = 2, ANSWERS = 4, HEAD_BYTES = 3 };

// What a book has said so far. It stays packed, by rows and by columns, up to the end of the reading; then the rows
// that differ from the fresh table are put there.
struct reading {
    dawnhangra_session session;
    struct marks rows, columns;
    set changed;
};

// The bytes of a fact.
static size_t width_of(uint8_t tag)
{
    return tag == ANSWERS ? 3 : 2;
}

// What is wrong with a field's head and length, and the size of its contents.
static uint8_t field_fault(const uint8_t *field, size_t left, bool is_first, size_t *size)
{
    if (left < HEAD_BYTES) {
        return DAWNHANGRA_CUT_SHORT;
    }
    uint8_t tag = field[0];
    *size = (size_t)field[1] << 8 | field[2];
    if (tag < CLASS_COUNT || tag > ANSWERS) {
        return DAWNHANGRA_UNKNOWN_TAG;
    }
    if ((tag == CLASS_COUNT) != is_first) {
        return DAWNHANGRA_MISPLACED_TAG;
    }
    if (tag == CLASS_COUNT ? *size != 1 : *size % width_of(tag) != 0) {
        return DAWNHANGRA_BAD_LENGTH;
    }
    return left - HEAD_BYTES < *size ? DAWNHANGRA_CUT_SHORT : DAWNHANGRA_ACCEPTED;
}

// The class count of a book: its refusal, or a fresh table.
static uint8_t read_count(struct reading *r, size_t n, uint8_t *table, size_t table_length)
{
    dawnhangra_reply reply = plain_fresh(n, table, table_length);
    if (!reply.number) {
        r->session = reply.session;
        memset(&r->rows, 0, sizeof r->rows);
        for (size_t a = 0; a < n; a++) {
            r->rows.yes[swapped(a)] = one(swapped(a));
        }
        r->columns = r->rows;
    }
    return reply.number;
}

// An open pair becomes yes, or no, with all that follows. Gives the rows that may have changed.
static set settle_packed(struct marks *rows, struct marks *columns, size_t a, size_t b, bool holds)
{
    set above_a = rows->yes[a];
    if (holds) {
        return settle_yes(rows, columns, columns->yes[a], rows->yes[b], rows->no[a], columns->no[b]);
    }
    spread(rows->no, columns->no, above_a, columns->yes[b]);
    return above_a;
}

// A fact of a book: its refusal, or it is taken in.
static uint8_t read_fact(struct reading *r, uint8_t tag, const uint8_t *fact)
{
    size_t n = r->session.classes;
    uint8_t verdict = tag == ANSWERS ? fact[2] : tag == YES_FACTS;
    if (verdict > 1) {
        return DAWNHANGRA_BAD_VERDICT;
    }
    if (fact[0] >= n || fact[1] >= n) {
        return DAWNHANGRA_NO_SUCH_CLASS;
    }
    size_t a = swapped(fact[0]), b = swapped(fact[1]);
    if (has(verdict ? r->rows.no[a] : r->rows.yes[a], b)) {
        return DAWNHANGRA_CONTRADICTED;
    }
    if (!has(verdict ? r->rows.yes[a] : r->rows.no[a], b)) {
        r->changed |= settle_packed(&r->rows, &r->columns, a, b, verdict);
        r->session.tests += tag == ANSWERS;
    }
    return DAWNHANGRA_ACCEPTED;
}

// The facts of a field, up to the first that is refused: its number, and its place in the contents.
static uint8_t read_facts(struct reading *r, uint8_t tag, const uint8_t *contents, size_t size, size_t *place)
{
    size_t width = width_of(tag);
    for (size_t i = 0; i < size; i += width) {
        uint8_t number = read_fact(r, tag, contents + i);
        if (number) {
            *place = i;
            return number;
        }
    }
    return DAWNHANGRA_ACCEPTED;
}

dawnhangra_reply plain_read(const uint8_t *book, size_t book_length, uint8_t *table, size_t table_length)
{
    struct reading r;
    uint8_t number = book_length ? DAWNHANGRA_ACCEPTED : DAWNHANGRA_MISPLACED_TAG;
    size_t at = 0, size = 0, place = 0;
    r.session = (dawnhangra_session){0, 0};
    r.changed = 0;
    while (at < book_length) {
        const uint8_t *field = book + at;
        place = at;
        number = field_fault(field, book_length - at, at == 0, &size);
        if (!number && field[0] == CLASS_COUNT) {
            number = read_count(&r, field[HEAD_BYTES], table, table_length);
        } else if (!number) {
            size_t within = 0;
            number = read_facts(&r, field[0], field + HEAD_BYTES, size, &within);
            place += HEAD_BYTES + within;
        }
        if (number) {
            break;
        }
        at += HEAD_BYTES + size;
    }
    unpack_rows(r.session.classes, &r.rows, r.changed, table);
    return replied(number, number ? place : 0, r.session);
}

static uint8_t *put_head(uint8_t *out, uint8_t tag, size_t size)
{
    out[0] = tag;
    out[1] = (uint8_t)(size >> 8);
    out[2] = (uint8_t)size;
    return out + HEAD_BYTES;
}

dawnhangra_count plain_write(
    dawnhangra_session session, const uint8_t *table, size_t table_length, uint8_t *out, size_t out_length)
{
    struct standing s;
    size_t n = session.classes, yes = 0;
    uint8_t number = stand(session, table, table_length, &s);
    if (number) {
        return counted(number, 0);
    }
    for (size_t a = 0; a < n; a++) {
        yes += size_of(s.marks.yes[swapped(a)]) - 1;
    }
    size_t settled = n * n - n - s.open, length = 10 + 2 * settled;
    if (out_length < length) {
        return counted(DAWNHANGRA_NO_ROOM, 0);
    }
    out = put_head(out, CLASS_COUNT, 1);
    *out++ = (uint8_t)n;
    uint8_t *at_yes = put_head(out, YES_FACTS, 2 * yes);
    uint8_t *at_no = put_head(at_yes + 2 * yes, YES_FACTS + 1, 2 * (settled - yes));
    for (size_t a = 0; a < n; a++) {
        size_t slot = swapped(a);
        at_yes = put_pairs(at_yes, a, s.marks.yes[slot] & ~one(slot));
        at_no = put_pairs(at_no, a, s.marks.no[slot]);
    }
    return counted(DAWNHANGRA_ACCEPTED, length);
}
