// Five classes of receivers are put in order: some facts are told, a trial clip is played, the rest is asked of a
// reasoner, and the order is printed.
#include <stdio.h>
#include <stdlib.h>

#include "dawnhangra.h"

enum { RECEIVERS = 5 };

static const char *const NAMES[RECEIVERS] = {"phone", "television", "box", "laptop", "projector"};

// What a receiver can play, a bit a kind of stream. The laptop plays what the box plays.
static const unsigned PLAYS[RECEIVERS] = {1, 7, 3, 3, 9};

// The reasoner of this example: one class is under another if every stream the first can play, the second can play too.
static bool is_under(size_t lower, size_t upper)
{
    return (PLAYS[lower] & ~PLAYS[upper]) == 0;
}

// Stops at a refusal, with its number.
static void need(uint8_t number, const char *call)
{
    if (number != DAWNHANGRA_ACCEPTED) {
        fprintf(stderr, "%s was refused with %d\n", call, number);
        exit(EXIT_FAILURE);
    }
}

// Asks as long as a pair is open, and prints how far the night has come. Gives the session after the last answer.
static dawnhangra_session ask_all(dawnhangra_session session, uint8_t *table, size_t table_length)
{
    for (;;) {
        dawnhangra_question question = dawnhangra_next(session, table, table_length);
        need(question.number, "next");
        if (!question.asks) {
            return session;
        }
        size_t lower = question.lower, upper = question.upper;
        bool holds = is_under(lower, upper);
        dawnhangra_reply reply = dawnhangra_answer(session, table, table_length, lower, upper, holds);
        need(reply.number, "answer");
        session = reply.session;
        dawnhangra_count left = dawnhangra_open_pairs(session, table, table_length);
        need(left.number, "open_pairs");
        printf("%s under %s? %s, %zu pairs open\n", NAMES[lower], NAMES[upper], holds ? "yes" : "no", left.count);
    }
}

int main(void)
{
    uint8_t table[RECEIVERS * RECEIVERS];
    dawnhangra_reply reply = dawnhangra_fresh(RECEIVERS, table, sizeof table);
    need(reply.number, "fresh");

    // What is known without asking.
    static const struct { size_t lower, upper; bool holds; } told[] = {{0, 2, true}, {2, 1, true}};
    for (size_t i = 0; i < sizeof told / sizeof *told; i++) {
        reply = dawnhangra_tell(reply.session, table, sizeof table, told[i].lower, told[i].upper, told[i].holds);
        need(reply.number, "tell");
    }

    // The lab played a clip of the second kind on every receiver.
    uint8_t played[RECEIVERS];
    for (size_t i = 0; i < RECEIVERS; i++) {
        played[i] = (PLAYS[i] & 2) != 0;
    }
    reply = dawnhangra_clip(reply.session, table, sizeof table, played, sizeof played);
    need(reply.number, "clip");

    dawnhangra_session session = ask_all(reply.session, table, sizeof table);
    printf("%zu tests\n", session.tests);

    // Groups and direct steps.
    uint8_t heads[RECEIVERS];
    uint8_t steps[2 * (RECEIVERS * RECEIVERS / 4)];
    dawnhangra_count wrote =
        dawnhangra_hierarchy(session, table, sizeof table, heads, sizeof heads, steps, sizeof steps);
    need(wrote.number, "hierarchy");
    for (size_t i = 0; i < RECEIVERS; i++) {
        printf("%s has head %s\n", NAMES[i], NAMES[heads[i]]);
    }
    for (size_t i = 0; i < wrote.count; i++) {
        printf("%s is directly under %s\n", NAMES[steps[2 * i]], NAMES[steps[2 * i + 1]]);
    }

    // From the phone up to the television.
    uint8_t rungs[RECEIVERS];
    wrote = dawnhangra_ladder(session, table, sizeof table, 0, 1, rungs, sizeof rungs);
    need(wrote.number, "ladder");
    printf("ladder:");
    for (size_t i = 0; i < wrote.count; i++) {
        printf(" %s", NAMES[rungs[i]]);
    }
    printf("\n");
    return EXIT_SUCCESS;
}
