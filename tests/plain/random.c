/* Seeded event records and files. */
#include "random.h"

#include <string.h>

#include "common.h"

uint64_t random_next(random_source *source) {
    uint64_t x = source->state += UINT64_C(0x9e3779b97f4a7c15);
    x = (x ^ x >> 30) * UINT64_C(0xbf58476d1ce4e5b9);
    x = (x ^ x >> 27) * UINT64_C(0x94d049bb133111eb);
    return x ^ x >> 31;
}

uint64_t random_below(random_source *source, uint64_t bound) { return random_next(source) % bound; }

int random_chance(random_source *source, uint64_t one_in) { return random_below(source, one_in) == 0; }

uint8_t random_known_kind(random_source *source) {
    uint8_t kind = (uint8_t)random_below(source, EVENT_CUT + 1);
    return kind == EVENT_CUT ? EVENT_WRITE_BYTES : kind;
}

uint8_t random_unknown_kind(random_source *source) {
    static const uint8_t beside[] = {EVENT_CUT + 1, EVENT_WRITE_BYTES + 1};
    if (random_chance(source, 2)) return beside[random_below(source, 2)];
    return (uint8_t)(EVENT_WRITE_BYTES + 1 + random_below(source, 255 - EVENT_WRITE_BYTES));
}

uint8_t random_mask(random_source *source) {
    switch (random_below(source, 8)) {
    case 0: return 0;
    case 1: return 255;
    case 2: case 3: case 4: return (uint8_t)(1 << random_below(source, 8));
    }
    return (uint8_t)random_next(source);
}

/* Reserves of at most 16 together: in half of the draws one party has most of each channel, in a quarter they are at an edge. */
static void random_reserves(random_source *source, uint8_t reserve[PLAIN_PARTIES]) {
    static const uint8_t edges[][PLAIN_PARTIES] = {{16, 0}, {0, 16}, {8, 8}, {15, 1}, {0, 1}, {15, 0}};
    uint64_t kind = random_below(source, 4), first = random_below(source, 2);
    uint64_t larger = kind < 2 ? PLAIN_CHANNEL - random_below(source, 5) : random_below(source, PLAIN_CHANNEL + 1);
    reserve[first] = (uint8_t)larger;
    reserve[!first] = (uint8_t)random_below(source, PLAIN_CHANNEL - larger + 1);
    if (kind == 2) memcpy(reserve, edges[random_below(source, sizeof edges / sizeof edges[0])], PLAIN_PARTIES);
}

void random_shares(random_source *source, uint8_t threads, uint8_t shares[PLAIN_SHARES]) {
    uint64_t parties = random_next(source);
    memset(shares, 0, PLAIN_SHARES);
    if (random_chance(source, 3)) return;
    if (random_chance(source, 8)) parties = random_chance(source, 2) ? 255 : 0; /* all threads in one party */
    for (uint8_t t = 0; t < threads; t++) shares[t] = parties >> t & 1;
    random_reserves(source, shares + PLAIN_THREADS);
}

void random_wrong_shares(random_source *source, uint8_t threads, uint8_t shares[PLAIN_SHARES]) {
    static const uint8_t above[][PLAIN_PARTIES] = {{17, 0}, {0, 17}, {9, 8}, {1, 16}, {16, 16}, {0, 33}, {200, 100}, {255, 2}};
    random_shares(source, threads, shares);
    switch (random_below(source, threads < PLAIN_THREADS ? 3 : 2)) {
    case 0: shares[random_below(source, PLAIN_THREADS)] = (uint8_t)(random_chance(source, 2) ? 2 : 2 + random_below(source, 254)); break;
    case 1: memcpy(shares + PLAIN_THREADS, above[random_below(source, sizeof above / sizeof above[0])], PLAIN_PARTIES); break;
    default: shares[threads + random_below(source, (uint64_t)PLAIN_THREADS - threads)] = 1;
    }
}

void random_start(random_events *events, uint64_t seed, random_mode mode) {
    memset(events, 0, sizeof *events);
    events->source.state = seed;
    events->mode = mode;
    events->phase = PHASE_DRAINING;
}

/* Weights of the kinds 1 to 7; that of a write is of both kinds together. */
static const uint8_t mixed_weight[] = {6, 9, 6, 20, 16, 14, 1};
static const uint8_t filling_weight[] = {20, 24, 14, 36, 30, 2, 1};
static const uint8_t draining_weight[] = {4, 8, 3, 8, 16, 12, 1};
static const uint8_t nesting_weight[] = {24, 1, 10, 40, 40, 40, 1};
static const uint8_t listing_weight[] = {40, 70, 12, 5, 1, 0, 1};
static const uint8_t reserves_weight[] = {30, 90, 4, 12, 5, 3, 1};

static const uint8_t *weights_of(const random_events *events) {
    static const uint8_t *const phase_weight[] = {filling_weight, draining_weight, nesting_weight, listing_weight};
    if (events->mode == RANDOM_DEEP || events->mode == RANDOM_DEEP_WORDS) return phase_weight[events->phase];
    return events->mode == RANDOM_RESERVES ? reserves_weight : mixed_weight;
}

static uint8_t random_kind(random_events *events) {
    int words = events->mode == RANDOM_MIXED_WORDS || events->mode == RANDOM_DEEP_WORDS || events->mode == RANDOM_RESERVES;
    const uint8_t *weight = weights_of(events);
    uint64_t sum = 0;
    for (int i = 0; i < 7; i++) sum += weight[i];
    uint64_t pick = random_below(&events->source, sum);
    uint8_t kind = EVENT_BEGIN;
    for (; pick >= weight[kind - 1]; kind++) pick -= weight[kind - 1];
    return kind == EVENT_WRITE && !words && random_chance(&events->source, 2) ? EVENT_WRITE_BYTES : kind;
}

static uint8_t random_line(random_source *source, const plain_engine *e) {
    uint64_t bound = random_chance(source, 2) && e->lines > 16 ? 16 : e->lines; /* half of them on shared lines */
    return (uint8_t)random_below(source, bound);
}

/* A line that waits for the acknowledgement, searched from a random one on. */
static uint8_t random_awaiting(random_source *source, const plain_engine *e, uint8_t kind) {
    uint64_t from = random_below(source, e->lines);
    for (uint64_t i = 0; i < e->lines; i++) {
        uint64_t line = (from + i) % e->lines;
        if (kind == EVENT_LOG_ACK ? e->locked[line] : e->flight[line].number != 0) return (uint8_t)line;
    }
    return (uint8_t)from;
}

/* A slot of the thread's open region that names a line, searched from a random one on, or NULL. */
static const plain_slot *random_slot(random_source *source, const plain_engine *e, uint8_t thread) {
    uint64_t from = random_below(source, PLAIN_SLOTS);
    for (int i = 0; i < PLAIN_MODIFIED; i++) {
        const plain_modified *m = &e->modified[thread][i];
        if (e->depth[thread] == 0 || m->number != e->last[thread]) continue;
        for (uint64_t j = 0; j < PLAIN_SLOTS; j++)
            if (m->slot[(from + j) % PLAIN_SLOTS].state != SLOT_EMPTY) return &m->slot[(from + j) % PLAIN_SLOTS];
    }
    return NULL;
}

/* A thread for the kind: a begin mostly goes to a thread without an open region. */
static uint8_t random_thread(random_source *source, const plain_engine *e, uint8_t kind) {
    uint64_t from = random_below(source, e->threads);
    if (kind != EVENT_BEGIN || random_chance(source, 4)) return (uint8_t)from;
    for (uint64_t i = 0; i < e->threads; i++)
        if (e->depth[(from + i) % e->threads] == 0) return (uint8_t)((from + i) % e->threads);
    return (uint8_t)from;
}

/* Mask and value of a write of bytes; now and then it changes nothing. */
static void fill_bytes(random_source *source, const plain_engine *e, uint8_t *record) {
    record[4] = random_mask(source);
    put64(record + 5, random_chance(source, 8) ? e->current[record[2]].word[record[3]] : random_next(source));
}

/* A setup with the T that stands in the record and any L, half of them with parties or reserves that are wrong. */
static void fill_setup(random_source *source, uint8_t *record) {
    uint8_t shares[PLAIN_SHARES];
    if (random_chance(source, 2)) random_shares(source, record[1], shares);
    else random_wrong_shares(source, record[1], shares);
    put_setup(record, record[1], (uint16_t)(1 + random_below(source, PLAIN_LINES)), shares);
}

/* A record of the kind, its fields in range. */
static void fill_record(random_source *source, const plain_engine *e, uint8_t kind, uint8_t *record) {
    record[0] = kind;
    record[1] = random_thread(source, e, kind);
    record[2] = random_line(source, e);
    record[3] = (uint8_t)random_below(source, PLAIN_WORDS);
    if (kind == EVENT_WRITE_BYTES) fill_bytes(source, e, record);
    else put64(record + 4, random_next(source));
    if (kind == EVENT_LOG_ACK || kind == EVENT_DATA_ACK) record[1] = random_awaiting(source, e, kind);
    if (kind == EVENT_SETUP) fill_setup(source, record);
}

/* A record of any content: one byte of a good record changed, or a kind that does not fit here. */
static void damage_record(random_source *source, const plain_engine *e, uint8_t *record) {
    if (random_chance(source, 4)) {
        fill_record(source, e, random_chance(source, 8) ? EVENT_SETUP : random_known_kind(source), record);
        return;
    }
    uint64_t at = 1 + random_below(source, 4);
    record[at] = random_chance(source, 2) ? (uint8_t)(record[at] + 1) : (uint8_t)random_next(source);
}

/* Filling and draining take turns; now and then, after a draining, regions stay open and nest, or short regions that do not commit fill the channels.
   The deep run of words has no such listing. */
static void move_phase(random_events *events) {
    static const uint32_t longest[] = {500, 120, 800, 800};
    if (events->phase_left-- > 0) return;
    if (events->phase != PHASE_DRAINING) events->phase = PHASE_DRAINING;
    else if (events->mode == RANDOM_DEEP && random_chance(&events->source, 3)) events->phase = PHASE_LISTING;
    else events->phase = random_chance(&events->source, 6) ? PHASE_NESTING : PHASE_FILLING;
    events->phase_left = longest[events->phase] / 4 + (uint32_t)random_below(&events->source, longest[events->phase] * 3 / 4);
}

/* Now and then a data acknowledgement for a line that still waits in an open region: it tells whether the slot has flown too early. Gives whether there
   is one. */
static int ask_early(random_events *events, const plain_engine *e, uint8_t *record) {
    if (events->mode > RANDOM_DAMAGED || !random_chance(&events->source, 32)) return 0;
    fill_record(&events->source, e, EVENT_DATA_ACK, record);
    const plain_slot *slot = random_slot(&events->source, e, random_thread(&events->source, e, EVENT_DATA_ACK));
    if (slot == NULL || slot->state != SLOT_WAITING) return 0;
    record[1] = slot->line;
    return 1;
}

/* Whether an open region, of whatever thread, has read the line. */
static int is_read(const plain_engine *e, uint64_t line) {
    for (uint8_t t = 0; t < e->threads; t++)
        if (e->depth[t] > 0 && e->reader[line][t] == e->last[t]) return 1;
    return 0;
}

/* Now and then a write, mostly of a thread with an open region, to a line that an open region has read, searched from a random one on. Gives whether there
   is one. */
static int ask_read(random_events *events, const plain_engine *e, uint8_t *record) {
    if (events->mode > RANDOM_DAMAGED || !random_chance(&events->source, 48)) return 0;
    fill_record(&events->source, e, random_chance(&events->source, 2) ? EVENT_WRITE : EVENT_WRITE_BYTES, record);
    for (int i = 0; i < 4 && e->depth[record[1]] == 0; i++) record[1] = random_thread(&events->source, e, EVENT_WRITE);
    for (uint64_t i = 0, from = random_below(&events->source, e->lines); i < e->lines; i++) {
        record[2] = (uint8_t)((from + i) % e->lines);
        if (is_read(e, record[2])) return 1;
    }
    return 0;
}

/* Now and then a write goes to a line that its region has a slot for, so that neighbours repeat. */
static void repeat_line(random_events *events, const plain_engine *e, uint8_t *record) {
    int write = record[0] == EVENT_WRITE || record[0] == EVENT_WRITE_BYTES;
    if (!write || events->mode > RANDOM_DAMAGED || !random_chance(&events->source, 8)) return;
    const plain_slot *slot = random_slot(&events->source, e, record[1]);
    if (slot != NULL) record[2] = slot->line;
}

size_t random_record(random_events *events, const plain_engine *e, uint8_t record[PLAIN_RECORD_BYTES]) {
    random_source *source = &events->source;
    int tries = random_chance(source, events->phase == PHASE_LISTING ? 2 : 32) ? 1 : 24; /* full channels are to be met often */
    move_phase(events);
    if (ask_early(events, e, record) || ask_read(events, e, record)) tries = 0;
    for (; tries > 0; tries--) {
        fill_record(source, e, random_kind(events), record);
        repeat_line(events, e, record);
        if (plain_refusal(e, record, PLAIN_RECORD_BYTES) == 0) break;
    }
    if (events->mode == RANDOM_DAMAGED && random_chance(source, 12)) damage_record(source, e, record);
    return plain_record_length(record, PLAIN_RECORD_BYTES);
}

/* Flips a few bytes anywhere, and perhaps cuts the file short or puts an unknown kind at its end. */
static size_t damage_file(random_source *source, uint8_t *file, size_t length) {
    for (uint64_t flips = random_below(source, 3); flips > 0; flips--)
        file[random_below(source, length)] ^= (uint8_t)(1 << random_below(source, 8));
    switch (random_below(source, 4)) {
    case 0: return random_below(source, length + 1);
    case 1: file[length] = random_unknown_kind(source); return length + 1;
    case 2:
        file[length] = (const uint8_t[]){EVENT_SETUP, EVENT_WRITE, EVENT_WRITE_BYTES}[random_below(source, 3)];
        memset(file + length + 1, 0, PLAIN_RECORD_BYTES - 1);
        return length + 1 + random_below(source, plain_record_length(file + length, PLAIN_RECORD_BYTES) - 1);
    }
    return length;
}

/* The parties and reserves of a file's setup, by its mode. */
static void shares_of_mode(random_events *events, uint8_t threads, uint8_t shares[PLAIN_SHARES]) {
    memset(shares, 0, PLAIN_SHARES);
    if (events->mode <= RANDOM_DAMAGED) random_shares(&events->source, threads, shares);
    if (events->mode != RANDOM_RESERVES) return;
    for (uint8_t t = 0; t < threads; t++) shares[t] = t % PLAIN_PARTIES;
    shares[PLAIN_THREADS] = shares[PLAIN_THREADS + 1] = PLAIN_CHANNEL / PLAIN_PARTIES;
}

/* Setups that are refused, in front of a damaged file: none to three. Gives how many. */
static uint64_t refused_setups(random_source *source, uint8_t threads, uint16_t lines, uint64_t most, uint8_t *file) {
    uint8_t shares[PLAIN_SHARES];
    uint64_t count = random_below(source, 4);
    if (count > most) count = most;
    for (uint64_t i = 0; i < count; i++) {
        random_wrong_shares(source, threads, shares);
        put_setup(file + PLAIN_RECORD_BYTES * i, threads, lines, shares);
    }
    return count;
}

size_t random_file(uint64_t seed, random_mode mode, uint8_t threads, uint16_t lines, uint64_t count, uint8_t *file) {
    plain_engine e;
    random_events events;
    uint8_t shares[PLAIN_SHARES];
    random_start(&events, seed, mode);
    plain_init(&e);
    shares_of_mode(&events, threads, shares);
    uint64_t refused = mode == RANDOM_DAMAGED ? refused_setups(&events.source, threads, lines, count - 2, file) : 0;
    size_t length = PLAIN_RECORD_BYTES * refused;
    put_setup(file + length, threads, lines, shares);
    plain_event(&e, file + length, PLAIN_RECORD_BYTES);
    length += PLAIN_RECORD_BYTES;
    for (uint64_t i = 2 + refused; i < count; i++) {
        size_t next = random_record(&events, &e, file + length);
        plain_event(&e, file + length, next);
        length += next;
    }
    file[length++] = EVENT_CUT;
    return mode == RANDOM_DAMAGED ? damage_file(&events.source, file, length) : length;
}

size_t largest_file(uint8_t file[LARGEST_FILE_BYTES]) {
    size_t n = 0;
    const uint8_t setup[PLAIN_RECORD_BYTES] = {EVENT_SETUP, PLAIN_THREADS, 0, 1};
    memcpy(file, setup, sizeof setup);
    n += sizeof setup;
    for (int r = 0; r < PLAIN_MODIFIED; r++)
        for (int t = 0; t < PLAIN_THREADS; t++) {
            file[n++] = EVENT_BEGIN, file[n++] = (uint8_t)t;
            for (int l = 0; l < PLAIN_SLOTS; l++) {
                const uint8_t line = (uint8_t)(32 * t + 8 * r + l), record[] = {EVENT_WRITE, (uint8_t)t, line, 0, 7, 0, 0, 0, 0, 0, 0, 0, EVENT_LOG_ACK, line};
                memcpy(file + n, record, sizeof record);
                n += sizeof record;
            }
            file[n++] = EVENT_END, file[n++] = (uint8_t)t;
        }
    file[n++] = EVENT_CUT;
    return n;
}
