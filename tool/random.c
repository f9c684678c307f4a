/* Random event files: each record follows the tables before it. */
#include "random.h"

#include <stdlib.h>
#include <string.h>

#include "tables.h"

enum { RECORD_BYTES = 14, MOST_EVENTS = 300, MOST_BYTES = RECORD_BYTES * (MOST_EVENTS + 8), CHANNEL_ENTRIES = REGIONS / CHANNELS };

/* A file in the making: its records, the tables after them, and how often each kind comes. */
typedef struct {
    uint64_t source;
    const uint8_t *weights;
    uint8_t common_lines; /* most accesses are to as many; 0 if each is to the next one */
    run made;
    tables now;
} maker;

/* ---- numbers: one draw in a statement, where the order counts, so that a seed gives the same files whatever the compiler */

static uint64_t draw(maker *m) {
    uint64_t x = m->source += UINT64_C(0x9e3779b97f4a7c15);
    x = (x ^ x >> 30) * UINT64_C(0xbf58476d1ce4e5b9);
    x = (x ^ x >> 27) * UINT64_C(0x94d049bb133111eb);
    return x ^ x >> 31;
}

static uint64_t below(maker *m, uint64_t bound) { return draw(m) % bound; }
static int chance(maker *m, uint64_t one_in) { return below(m, one_in) == 0; }
static uint64_t least(uint64_t a, uint64_t b) { return a < b ? a : b; }
static uint8_t any_byte(maker *m) { return (uint8_t)draw(m); }

/* ---- records that follow the tables */

/* How often each kind comes, by its number: mixed, few acknowledgements, many, deep nesting, many short regions, long ones, many reads. */
static const uint8_t weights[][BOARD_WRITE_BYTES + 1] = {
    {0, 8, 8, 8, 16, 14, 12, 2, 0, 0, 8}, {0, 6, 6, 8, 24, 20, 0, 1, 0, 0, 8}, {0, 6, 8, 4, 8, 24, 24, 2, 0, 0, 4},
    {0, 20, 2, 6, 14, 12, 8, 1, 0, 0, 6}, {0, 30, 30, 6, 5, 3, 0, 1, 0, 0, 2}, {0, 4, 1, 4, 30, 34, 24, 1, 0, 0, 10}, {0, 12, 12, 24, 14, 16, 0, 1, 0, 0, 4},
};

static uint8_t random_kind(maker *m) {
    uint64_t sum = 0, drawn;
    uint8_t kind = 0;
    for (size_t i = 0; i < sizeof weights[0]; i++) sum += m->weights[i];
    for (drawn = below(m, sum); drawn >= m->weights[kind]; kind++) drawn -= m->weights[kind];
    return kind;
}

/* A thread, searched from a random one on, the low ones more often: for a begin one at depth 0, else one in a region, if there is one; now and then any. */
static uint8_t random_thread(maker *m, uint8_t kind) {
    uint64_t from = below(m, 1 + below(m, m->now.threads)), any = chance(m, 8);
    for (uint64_t i = 0; i < m->now.threads && !any; i++) {
        uint8_t t = (uint8_t)((from + i) % m->now.threads);
        if ((m->now.thread[t].depth == 0) == (kind == BOARD_BEGIN)) return t;
    }
    return (uint8_t)from;
}

static uint8_t random_line(maker *m) {
    if (m->common_lines == 0) return (uint8_t)(m->made.count % m->now.lines);
    return (uint8_t)below(m, chance(m, 8) ? m->now.lines : m->common_lines);
}

/* A line that waits for the acknowledgement, searched from a random one on; now and then one whose slot does not fly yet. */
static uint8_t random_awaited(maker *m, uint8_t kind) {
    uint64_t from = below(m, m->now.lines), early = chance(m, 6);
    for (uint64_t i = 0; kind == BOARD_LOG_ACK && i < m->now.lines; i++)
        if (m->now.locked[(from + i) % m->now.lines]) return (uint8_t)((from + i) % m->now.lines);
    for (uint64_t i = 0; kind == BOARD_DATA_ACK && i < REGIONS * SLOTS; i++) {
        uint64_t place = (from + i) % (REGIONS * SLOTS);
        const region *r = &m->now.region[place / SLOTS];
        if (place / SLOTS >= m->now.regions || place % SLOTS >= r->held) continue;
        if (early || r->slot[place % SLOTS].state == SLOT_IN_FLIGHT) return r->slot[place % SLOTS].line;
    }
    return (uint8_t)from;
}

/* Half of the values are small, so that they repeat. */
static void put_value(maker *m, uint8_t *out) {
    uint64_t value = chance(m, 2) ? below(m, 4) : draw(m);
    for (size_t i = 0; i < 8; i++) out[i] = (uint8_t)(value >> 8 * i);
}

/* A record that may well be accepted; gives its length. */
static size_t put_event(maker *m, uint8_t *out) {
    uint8_t kind = random_kind(m);
    int acknowledges = kind == BOARD_LOG_ACK || kind == BOARD_DATA_ACK;
    out[0] = kind;
    out[1] = acknowledges ? random_awaited(m, kind) : random_thread(m, kind);
    out[2] = random_line(m);
    out[3] = (uint8_t)below(m, chance(m, 32) ? WORDS + 1 : WORDS);
    out[4] = chance(m, 2) ? (uint8_t)(1 << below(m, 9)) : any_byte(m);
    put_value(m, out + (kind == BOARD_WRITE_BYTES ? 5 : 4));
    return (size_t)board_record(out, RECORD_BYTES).value;
}

/* ---- setups */

/* Half of the setups have parties and reserves. */
static void put_setup(maker *m, uint8_t *out, uint8_t threads, unsigned lines) {
    memset(out, 0, RECORD_BYTES);
    out[0] = BOARD_SETUP;
    out[1] = threads;
    out[2] = (uint8_t)lines;
    out[3] = (uint8_t)(lines >> 8);
    if (chance(m, 2)) return;
    for (size_t t = 0; t < threads && t < THREADS; t++) out[4 + t] = (uint8_t)below(m, 2);
    out[4 + THREADS] = (uint8_t)below(m, CHANNEL_ENTRIES + 1);
    out[5 + THREADS] = (uint8_t)below(m, CHANNEL_ENTRIES + 1u - out[4 + THREADS]);
}

/* A setup that may be wrong in a number. */
static void put_any_setup(maker *m, uint8_t *out) {
    uint8_t threads = (uint8_t)(1 + below(m, THREADS));
    put_setup(m, out, threads, (unsigned)(1 + below(m, LINES)));
    size_t wrong = 1 + below(m, RECORD_BYTES - 1);
    if (chance(m, 2)) out[wrong] = chance(m, 2) ? any_byte(m) : (uint8_t)below(m, 20);
}

/* ---- files */

/* Takes the record that stands behind the file into it. */
static void take_record(maker *m, size_t length) {
    m->made.file.length += length;
    m->made.at[++m->made.count] = m->made.file.length;
    read_tables(&m->made, m->made.count, &m->now);
}

/* Whether the last event of the file would be accepted if so many bytes more belonged to it. */
static int is_accepted(const maker *m, size_t length) {
    uint8_t answers[BOARD_ANSWER_BYTES * (MOST_EVENTS + 1)];
    board_events(m->made.file.bytes, m->made.file.length + length, m->made.memory.bytes, m->made.memory.length, answers, sizeof answers);
    return answers[BOARD_ANSWER_BYTES * m->made.count] == BOARD_ACCEPTED;
}

/* One more event: the first of a few that is accepted, or the last of them; now and then whichever comes. */
static void add_event(maker *m) {
    uint8_t *end = m->made.file.bytes + m->made.file.length;
    if (chance(m, 100)) m->weights = weights[below(m, sizeof weights / sizeof weights[0])];
    size_t length = put_event(m, end);
    for (int tries = chance(m, 6) ? 0 : 4; tries > 0 && !is_accepted(m, length); tries--) length = put_event(m, end);
    take_record(m, length);
}

/* One more event of this kind, with thread and line as far as it has them; a write stores 1. */
static void add_one(maker *m, uint8_t kind, uint8_t thread, uint8_t line) {
    uint8_t *end = m->made.file.bytes + m->made.file.length;
    int acknowledges = kind == BOARD_LOG_ACK || kind == BOARD_DATA_ACK;
    memset(end, 0, RECORD_BYTES);
    end[0] = kind;
    end[1] = acknowledges ? line : thread;
    end[2] = line;
    end[4] = kind == BOARD_WRITE;
    take_record(m, (size_t)board_record(end, RECORD_BYTES).value);
}

/* A log that fills up, which chance seldom does: four regions of thread 0 with eight lines each, of which the second is done but for a dependence; a fifth one
   wants the 33rd entry. */
static void fill_log(maker *m) {
    for (uint8_t line = 0; line < LOG_ENTRIES; line++) {
        if (line % SLOTS == 0) add_one(m, BOARD_BEGIN, 0, 0);
        add_one(m, BOARD_WRITE, 0, line);
        add_one(m, BOARD_LOG_ACK, 0, line);
        if (line % SLOTS == SLOTS - 1) add_one(m, BOARD_END, 0, 0);
    }
    for (uint8_t line = SLOTS; line < 2 * SLOTS; line++) add_one(m, BOARD_DATA_ACK, 0, line);
    add_one(m, BOARD_BEGIN, 0, 0);
    add_one(m, BOARD_WRITE, 0, LOG_ENTRIES);
}

/* Dependences that fill up: a region of thread 0 reads the lines of one more region than it can depend on. */
static void fill_dependences(maker *m) {
    for (uint8_t line = 0; line <= DEPENDENCES; line++) {
        uint8_t owner = (uint8_t)(1 + line % (m->now.threads - 1));
        add_one(m, BOARD_BEGIN, owner, 0);
        add_one(m, BOARD_WRITE, owner, line);
        add_one(m, BOARD_END, owner, 0);
    }
    add_one(m, BOARD_BEGIN, 0, 0);
    for (uint8_t line = 0; line <= DEPENDENCES; line++) add_one(m, BOARD_READ, 0, line);
}

/* Where a record starts, or the file ends. */
static size_t random_boundary(maker *m, contents file) {
    size_t at = 0;
    while (at < file.length && !chance(m, 12)) at += (size_t)board_record(file.bytes + at, file.length - at).value;
    return at;
}

/* Puts bytes in at some place; there is room for them. */
static void insert(contents *file, size_t at, const uint8_t *bytes, size_t length) {
    memmove(file->bytes + at + length, file->bytes + at, file->length - at);
    memcpy(file->bytes + at, bytes, length);
    file->length += length;
}

/* A byte changed, a record of any content, a second setup, one in front, the end cut off, or bytes of any kind behind it. */
static void damage(maker *m, contents *file) {
    uint8_t record[RECORD_BYTES];
    size_t place = below(m, file->length);
    for (size_t i = 0; i < sizeof record; i++) record[i] = any_byte(m);
    if (chance(m, 2)) record[0] = (uint8_t)below(m, BOARD_WRITE_BYTES + 1);
    switch (below(m, 6)) {
    case 0: file->bytes[place] ^= (uint8_t)(1 << below(m, 8)); break;
    case 1: insert(file, random_boundary(m, *file), record, (size_t)board_record(record, sizeof record).value); break;
    case 2:
        put_any_setup(m, record);
        insert(file, random_boundary(m, *file), record, sizeof record);
        break;
    case 3:
        put_any_setup(m, record);
        insert(file, 0, record, sizeof record);
        break;
    case 4: file->length -= below(m, least(file->length, 8)); break;
    case 5: insert(file, file->length, record, 1 + below(m, sizeof record)); break;
    }
}

contents random_file(uint64_t seed, uint64_t number) {
    static uint8_t zeros[BOARD_MEMORY_BYTES];
    static maker made;
    maker *m = &made;
    uint64_t threads = 1 + number / 4 % THREADS, lines = 1 + (37 * number + 101 * (number / LINES)) % LINES;
    size_t at[MOST_EVENTS + 1] = {0};
    *m = (maker){.source = seed ^ number << 32, .made = {{need(MOST_BYTES), 0}, {zeros, (size_t)(BOARD_LINE_BYTES * lines)}, 0, at, NULL}};
    m->weights = weights[below(m, sizeof weights / sizeof weights[0])];
    m->common_lines = (uint8_t)(chance(m, 6) ? 0 : 1 + below(m, least(lines, 10)));
    put_setup(m, m->made.file.bytes, (uint8_t)threads, (unsigned)lines);
    take_record(m, RECORD_BYTES);
    if (lines > LOG_ENTRIES && chance(m, 16)) fill_log(m);
    else if (threads > 2 && lines > DEPENDENCES && chance(m, 16)) fill_dependences(m);
    for (uint64_t left = 2 + below(m, 200 >> below(m, 5)); left > 0; left--) add_event(m);
    if (!chance(m, 8)) m->made.file.bytes[m->made.file.length++] = BOARD_CUT;
    for (uint64_t times = number % 4 == 3 ? 1 + below(m, 3) : 0; times > 0 && m->made.file.length > 0; times--) damage(m, &m->made.file);
    return m->made.file;
}
