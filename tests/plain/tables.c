/* The tables as bytes. */
#include "tables.h"

#include <stdlib.h>
#include <string.h>

#include "common.h"

static uint32_t get32(const uint8_t *bytes) { return get16(bytes) | (uint32_t)get16(bytes + 2) << 16; }

static void put_key(uint8_t *out, plain_region r) {
    put16(out, r.number);
    put16(out + 2, r.number == 0 ? 0 : r.thread);
}

static void put32(uint8_t *out, uint64_t value) {
    put16(out, (uint16_t)value);
    put16(out + 2, (uint16_t)(value >> 16));
}

/* How many entries of the same region stand before entry i of a thread's log. */
static uint8_t rank_of(const plain_engine *e, uint8_t t, uint32_t i) {
    uint8_t rank = 0;
    for (uint32_t j = 0; j < i; j++) rank += e->log[t][j].number == e->log[t][i].number;
    return rank;
}

static void put_thread(uint8_t *out, const plain_engine *e, uint8_t t) {
    out[0] = e->depth[t];
    put16(out + 1, e->last[t]);
    for (uint32_t l = 0; l < e->lines; l++)
        if (e->depth[t] > 0 && e->reader[l][t] == e->last[t]) out[3 + l / 8] |= (uint8_t)(1 << l % 8);
    out += 35;
    for (uint32_t i = 0; i < e->log_len[t]; i++, out += TABLES_ENTRY) {
        const plain_log *log = &e->log[t][i];
        put_key(out, (plain_region){t, log->number});
        out[4] = log->line;
        out[5] = rank_of(e, t, i);
        out[6] = log->persistent;
    }
}

static const plain_modified *modified_of(const plain_engine *e, plain_region r) {
    for (uint32_t i = 0; i < PLAIN_MODIFIED; i++)
        if (e->modified[r.thread][i].number == r.number) return &e->modified[r.thread][i];
    return NULL;
}

static void put_region(uint8_t *out, const plain_engine *e, const plain_listed *entry) {
    const plain_modified *m = modified_of(e, entry->region);
    int ended = m == NULL || m->ended;
    put_key(out, entry->region);
    out[4] = entry->channel;
    out[5] = (uint8_t)ended;
    out[6] = entry->done;
    put32(out + 7, ended ? entry->end_stamp + 1 : 0);
    for (uint32_t i = 0; i < entry->held; i++) put_key(out + 11 + 4 * i, entry->dependence[i]);
    for (uint32_t i = 0; m != NULL && i < PLAIN_SLOTS; i++) {
        const plain_slot *s = &m->slot[i];
        if (s->state == SLOT_EMPTY) continue;
        uint8_t *at = out + 31 + TABLES_SLOT * i;
        at[0] = s->line;
        at[1] = s->state;
        at[2] = s->state == SLOT_WAITING ? s->count : 0;
    }
}

void plain_tables(const plain_engine *e, uint8_t tables[TABLES_BYTES]) {
    memset(tables, 0, TABLES_BYTES);
    tables[0] = e->threads;
    put16(tables + 1, e->lines);
    memcpy(tables + 3, e->party, PLAIN_THREADS);
    memcpy(tables + 11, e->reserve, PLAIN_PARTIES);
    tables[13] = e->cut;
    put32(tables + 14, e->ends);
    for (uint8_t t = 0; t < PLAIN_THREADS; t++) put_thread(tables + TABLES_THREADS_AT + TABLES_THREAD * t, e, t);
    for (uint32_t i = 0; i < e->listed_len; i++) put_region(tables + TABLES_REGIONS_AT + TABLES_REGION * i, e, &e->listed[i]);
    for (uint32_t l = 0; l < PLAIN_LINES; l++) {
        put_key(tables + TABLES_OWNERS_AT + 4 * l, e->owner[l]);
        tables[TABLES_LOCKS_AT + l] = e->locked[l];
    }
    sort_tables(tables);
}

/* Free places last; else by the key, then the entry's rank or the slot's line. */
static int by_key(const void *a, const void *b) {
    uint32_t x = get32(a) - 1, y = get32(b) - 1;
    return x != y ? (x < y ? -1 : 1) : ((const uint8_t *)a)[5] - ((const uint8_t *)b)[5];
}

static int by_line(const void *a, const void *b) {
    const uint8_t *x = a, *y = b;
    return (x[1] == 0) != (y[1] == 0) ? (x[1] == 0) - (y[1] == 0) : x[0] - y[0];
}

static int by_region(const void *a, const void *b) {
    uint32_t x = get32(a) - 1, y = get32(b) - 1;
    return x != y ? (x < y ? -1 : 1) : 0;
}

void sort_tables(uint8_t tables[TABLES_BYTES]) {
    for (size_t t = 0; t < PLAIN_THREADS; t++) qsort(tables + TABLES_THREADS_AT + TABLES_THREAD * t + 35, PLAIN_LOG, TABLES_ENTRY, by_key);
    for (size_t i = 0; i < PLAIN_LISTED; i++) {
        uint8_t *region = tables + TABLES_REGIONS_AT + TABLES_REGION * i;
        qsort(region + 11, PLAIN_HELD, 4, by_region);
        memset(region + TABLES_RECENT, 0, 4);
        qsort(region + 31, PLAIN_SLOTS, TABLES_SLOT, by_line);
    }
    qsort(tables + TABLES_REGIONS_AT, PLAIN_LISTED, TABLES_REGION, by_region);
}
