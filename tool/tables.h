/* The tables of the board as numbers, out of the bytes that board_tables writes. Free places are left out, and what is held stands in one order whatever the
   places: regions rise by thread, then number, slots by line, and log entries stand oldest write first. */
#ifndef TOOL_TABLES_H
#define TOOL_TABLES_H

#include "events.h"

enum { THREADS = 8, LINES = 256, WORDS = 8, RESERVES = 2, REGIONS = 32, CHANNELS = 2, DEPENDENCES = 4, SLOTS = 8, LOG_ENTRIES = 32 };

/* A region by its thread and its number; number 0 is none. */
typedef struct { uint8_t thread; uint16_t number; } region_name;

enum { SLOT_EMPTY = 0, SLOT_WAITING = 1, SLOT_IN_FLIGHT = 2 };
typedef struct { uint8_t line, state, count; } slot;

typedef struct { region_name region; uint8_t line, before, persistent; } log_entry; /* before: how many the region wrote before it */

typedef struct {
    region_name name;
    uint8_t channel, ended, done;
    size_t depends, held;
    region_name dependence[DEPENDENCES];
    slot slot[SLOTS];
} region;

typedef struct {
    uint8_t depth;
    uint16_t last;
    uint8_t read[LINES / 8]; /* a bit for each line that its open region has read */
    size_t entries;
    log_entry entry[LOG_ENTRIES];
} thread;

typedef struct {
    uint8_t threads; /* 0 before setup */
    uint16_t lines;
    uint8_t party[THREADS], reserve[RESERVES], cut;
    thread thread[THREADS];
    size_t regions;
    region region[REGIONS]; /* the uncommitted ones */
    region_name owner[LINES];
    uint8_t locked[LINES];
} tables;

/* The tables after the first events of a run, so many of them. */
void read_tables(const run *events, size_t count, tables *out);

int same_region(region_name a, region_name b);

/* The entry of an uncommitted region; NULL for one that has committed, and for none. */
const region *find_region(const tables *at, region_name name);

/* Whether the open region of a thread has read a line. */
int has_read(const thread *of, size_t line);

/* The region's slot of a line; NULL if it has none. */
const slot *find_slot(const region *of, uint8_t line);

/* The log entry of a line that is in flight; NULL if none is. */
const log_entry *entry_in_flight(const tables *at, uint8_t line);

#endif
