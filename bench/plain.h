// The calls of dawnhangra.h in plain C: the same answers, the same refusals in the same order, the same bytes.
#ifndef PLAIN_H
#define PLAIN_H

#include "dawnhangra.h"

dawnhangra_reply plain_fresh(size_t classes, uint8_t *table, size_t table_length);

dawnhangra_reply plain_tell(
    dawnhangra_session session, uint8_t *table, size_t table_length, size_t lower, size_t upper, bool holds);

dawnhangra_reply plain_answer(
    dawnhangra_session session, uint8_t *table, size_t table_length, size_t lower, size_t upper, bool holds);

dawnhangra_reply plain_clip(
    dawnhangra_session session, uint8_t *table, size_t table_length, const uint8_t *played, size_t played_length);

dawnhangra_question plain_next(dawnhangra_session session, const uint8_t *table, size_t table_length);

dawnhangra_count plain_open_pairs(dawnhangra_session session, const uint8_t *table, size_t table_length);

dawnhangra_count plain_hierarchy(
    dawnhangra_session session, const uint8_t *table, size_t table_length, uint8_t *heads, size_t heads_length,
    uint8_t *steps, size_t steps_length);

dawnhangra_count plain_ladder(
    dawnhangra_session session, const uint8_t *table, size_t table_length, size_t lower, size_t upper, uint8_t *rungs,
    size_t rungs_length);

dawnhangra_reply plain_read(const uint8_t *book, size_t book_length, uint8_t *table, size_t table_length);

dawnhangra_count plain_write(
    dawnhangra_session session, const uint8_t *table, size_t table_length, uint8_t *out, size_t out_length);

#endif
