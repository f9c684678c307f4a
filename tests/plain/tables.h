/* The tables of the plain engine in the layout of include/board.h, in an order of places that is the same for all tables that are equal: regions rise, and log
   entries stand oldest write first. The four recent lines of a region, which this engine does not keep, are zeros. */
#ifndef PLAIN_TABLES_H
#define PLAIN_TABLES_H

#include "plain.h"

enum {
    TABLES_HEAD = 18, TABLES_ENTRY = 7, TABLES_THREAD = 35 + PLAIN_LOG * TABLES_ENTRY, TABLES_SLOT = 3, TABLES_RECENT = 27,
    TABLES_REGION = 31 + PLAIN_SLOTS * TABLES_SLOT,
    TABLES_THREADS_AT = TABLES_HEAD, TABLES_REGIONS_AT = TABLES_THREADS_AT + PLAIN_THREADS * TABLES_THREAD,
    TABLES_OWNERS_AT = TABLES_REGIONS_AT + PLAIN_LISTED * TABLES_REGION, TABLES_LOCKS_AT = TABLES_OWNERS_AT + PLAIN_LINES * 4,
    TABLES_BYTES = TABLES_LOCKS_AT + PLAIN_LINES
};

void plain_tables(const plain_engine *engine, uint8_t tables[TABLES_BYTES]);

/* Puts tables of the layout into that order, and zeros for the recent lines. */
void sort_tables(uint8_t tables[TABLES_BYTES]);

#endif
