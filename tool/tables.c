/* The tables out of their bytes. */
#include "tables.h"

#include <stdlib.h>
#include <string.h>

/* How long the parts are in bytes, and where the lists of a thread and of a region stand in theirs. */
enum {
    HEAD_BYTES = 18, ENTRY_BYTES = 7, SLOT_BYTES = 3, NAME_BYTES = 4, ENTRIES_AT = 35, DEPENDENCES_AT = 11, SLOTS_AT = 31,
    THREAD_BYTES = ENTRIES_AT + LOG_ENTRIES * ENTRY_BYTES, REGION_BYTES = SLOTS_AT + SLOTS * SLOT_BYTES
};

int same_region(region_name a, region_name b) { return a.thread == b.thread && a.number == b.number; }

static region_name name_at(const uint8_t *bytes) { return (region_name){bytes[2], (uint16_t)number_at(bytes, 2)}; }

/* Regions by thread, then number; also of anything that begins with a region's name. */
static int by_name(const void *left, const void *right) {
    const region_name *a = left, *b = right;
    return a->thread != b->thread ? a->thread - b->thread : a->number - b->number;
}

static int by_age(const void *left, const void *right) {
    const log_entry *a = left, *b = right;
    return same_region(a->region, b->region) ? a->before - b->before : by_name(left, right);
}

static int by_line(const void *left, const void *right) {
    const slot *a = left, *b = right;
    return a->line - b->line;
}

static void read_thread(const uint8_t *bytes, thread *out) {
    out->depth = bytes[0];
    out->last = (uint16_t)number_at(bytes + 1, 2);
    memcpy(out->read, bytes + 3, sizeof out->read);
    out->entries = 0;
    for (const uint8_t *at = bytes + ENTRIES_AT; at < bytes + THREAD_BYTES; at += ENTRY_BYTES)
        if (name_at(at).number != 0) out->entry[out->entries++] = (log_entry){name_at(at), at[4], at[5], at[6]};
    qsort(out->entry, out->entries, sizeof out->entry[0], by_age);
}

static void read_region(const uint8_t *bytes, region *out) {
    *out = (region){.name = name_at(bytes), .channel = bytes[4], .ended = bytes[5], .done = bytes[6]};
    for (const uint8_t *at = bytes + DEPENDENCES_AT; at < bytes + DEPENDENCES_AT + DEPENDENCES * NAME_BYTES; at += NAME_BYTES)
        if (name_at(at).number != 0) out->dependence[out->depends++] = name_at(at);
    for (const uint8_t *at = bytes + SLOTS_AT; at < bytes + REGION_BYTES; at += SLOT_BYTES)
        if (at[1] != SLOT_EMPTY) out->slot[out->held++] = (slot){at[0], at[1], at[2]};
    qsort(out->dependence, out->depends, sizeof out->dependence[0], by_name);
    qsort(out->slot, out->held, sizeof out->slot[0], by_line);
}

static void read_regions(const uint8_t *bytes, tables *out) {
    out->regions = 0;
    for (const uint8_t *at = bytes; at < bytes + REGIONS * REGION_BYTES; at += REGION_BYTES)
        if (name_at(at).number != 0) read_region(at, &out->region[out->regions++]);
    qsort(out->region, out->regions, sizeof out->region[0], by_name);
}

void read_tables(const run *events, size_t count, tables *out) {
    uint8_t bytes[BOARD_TABLES_BYTES], *at = bytes + HEAD_BYTES;
    board_tables(events->file.bytes, events->at[count], events->memory.bytes, events->memory.length, bytes, sizeof bytes);
    out->threads = bytes[0];
    out->lines = (uint16_t)number_at(bytes + 1, 2);
    memcpy(out->party, bytes + 3, THREADS);
    memcpy(out->reserve, bytes + 3 + THREADS, RESERVES);
    out->cut = bytes[13];
    for (size_t t = 0; t < THREADS; t++, at += THREAD_BYTES) read_thread(at, &out->thread[t]);
    read_regions(at, out);
    at += REGIONS * REGION_BYTES;
    for (size_t l = 0; l < LINES; l++, at += NAME_BYTES) out->owner[l] = name_at(at);
    memcpy(out->locked, at, LINES);
}

const region *find_region(const tables *at, region_name name) {
    for (size_t i = 0; i < at->regions; i++)
        if (same_region(at->region[i].name, name)) return &at->region[i];
    return NULL;
}

int has_read(const thread *of, size_t line) { return of->depth > 0 && of->read[line / 8] >> line % 8 & 1; }

const slot *find_slot(const region *of, uint8_t line) {
    for (size_t i = 0; i < of->held; i++)
        if (of->slot[i].line == line) return &of->slot[i];
    return NULL;
}

const log_entry *entry_in_flight(const tables *at, uint8_t line) {
    for (size_t t = 0; t < THREADS; t++)
        for (size_t i = 0; i < at->thread[t].entries; i++)
            if (at->thread[t].entry[i].line == line && !at->thread[t].entry[i].persistent) return &at->thread[t].entry[i];
    return NULL;
}
