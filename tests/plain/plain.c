/* The engine: event records, refusals, steps, and the calls that run a file. */
#include "plain.h"

#include <string.h>

#include "common.h"

int plain_wrong;

/* By kind; 0 for a number that is no kind's. */
static const size_t record_length[] = {PLAIN_RECORD_BYTES, 2, 2, 4, PLAIN_WRITE_RECORD, 2, 2, 2, 1, 0, PLAIN_BYTES_RECORD};

/* A write stores the bits of its value that are set in `stored`. */
typedef struct { uint8_t kind, thread, line, word; uint64_t stored, value; } event;

/* ---- Regions and lists ---- */

/* The thread's newest region: the current one while the thread's depth is above 0. */
static plain_region newest(const plain_engine *e, uint8_t thread) {
    return (plain_region){thread, e->last[thread]};
}

static int is_open(const plain_engine *e, plain_region r) {
    return r.number != 0 && e->depth[r.thread] > 0 && e->last[r.thread] == r.number;
}

/* The channel in which the entry of a region with this number lives. */
static uint8_t channel_of(uint32_t number) { return number % PLAIN_CHANNELS; }

/* Index of the region in the dependence list, searched in its channel, or -1: a region is uncommitted while it is listed. */
static int find_listed(const plain_engine *e, plain_region r) {
    uint8_t channel = channel_of(r.number);
    for (uint32_t i = 0; i < e->listed_len; i++)
        if (same(e->listed[i].region, r) && e->listed[i].channel == channel) return (int)i;
    return -1;
}

static int find_modified(const plain_engine *e, uint8_t thread, uint16_t number) {
    for (int i = 0; i < PLAIN_MODIFIED; i++)
        if (e->modified[thread][i].number == number) return i;
    return -1;
}

static int holds(const plain_listed *entry, plain_region r) {
    for (uint32_t i = 0; i < entry->held; i++)
        if (same(entry->dependence[i], r)) return 1;
    return 0;
}

/* Adds a dependence that is not held yet, in rising order. */
static void add_dependence(plain_listed *entry, plain_region r) {
    uint32_t i = entry->held++;
    for (; i > 0 && before(r, entry->dependence[i - 1]); i--) entry->dependence[i] = entry->dependence[i - 1];
    entry->dependence[i] = r;
}

static void drop_dependence(plain_listed *entry, plain_region r) {
    uint32_t kept = 0;
    for (uint32_t i = 0; i < entry->held; i++)
        if (!same(entry->dependence[i], r)) entry->dependence[kept++] = entry->dependence[i];
    entry->held = kept;
}

/* Index of the slot that names the line, or -1. */
static int find_slot(const plain_modified *m, uint8_t line) {
    for (int i = 0; i < PLAIN_SLOTS; i++)
        if (m->slot[i].state != SLOT_EMPTY && m->slot[i].line == line) return i;
    return -1;
}

static int free_slot(const plain_modified *m) {
    for (int i = 0; i < PLAIN_SLOTS; i++)
        if (m->slot[i].state == SLOT_EMPTY) return i;
    return -1;
}

/* A region's entry in the modified list; the region is there. */
static plain_modified *modified_of(plain_engine *e, plain_region r) {
    return &e->modified[r.thread][find_modified(e, r.thread, r.number)];
}

/* ---- Refusals ---- */

/* A party that there is not, also of a thread that there is not, or more entries kept in each channel than it has. */
static int shares_wrong(uint64_t threads, const uint8_t *shares) {
    for (uint64_t t = 0; t < PLAIN_THREADS; t++)
        if (shares[t] >= (t < threads ? PLAIN_PARTIES : 1)) return 1;
    return PLAIN_CHANNEL - shares[PLAIN_THREADS] - shares[PLAIN_THREADS + 1] < 0;
}

static uint8_t setup_refusal(const plain_engine *e, uint64_t threads, uint64_t lines, const uint8_t *shares) {
    if (threads < 1 || threads > PLAIN_THREADS || lines < 1 || lines > PLAIN_LINES) return 6;
    if (e->is_lent && e->lent_len != PLAIN_LINE_BYTES * lines) return 6;
    if (e->threads != 0) return 6;
    return shares_wrong(threads, shares) ? 24 : 0;
}

/* The bits of a word that lie in the bytes of a mask. */
static uint64_t widened(uint8_t mask) {
    uint64_t bits = 0;
    for (int i = 0; i < 8; i++) bits |= UINT64_C(255) * (mask >> i & 1) << 8 * i;
    return bits;
}

/* What a write stores, out of the bytes behind its word: all bits of its value, or those of its mask. A write of bytes is a write from here on. */
static void decode_stored(event *ev, const uint8_t *bytes) {
    ev->stored = UINT64_MAX;
    if (ev->kind == EVENT_WRITE_BYTES) ev->stored = widened(*bytes++);
    ev->kind = EVENT_WRITE;
    ev->value = get64(bytes);
}

/* Takes a whole record of any kind but setup apart. */
static event decode(const uint8_t *record) {
    event ev = {record[0], 0, 0, 0, 0, 0};
    switch (ev.kind) {
    case EVENT_LOG_ACK: case EVENT_DATA_ACK:
        ev.line = record[1];
        break;
    case EVENT_READ: case EVENT_WRITE: case EVENT_WRITE_BYTES:
        ev.line = record[2];
        ev.word = record[3];
        if (ev.kind != EVENT_READ) decode_stored(&ev, record + 4);
        ev.thread = record[1];
        break;
    case EVENT_BEGIN: case EVENT_END: case EVENT_FENCE:
        ev.thread = record[1];
    }
    return ev;
}

/* Refusals because of the input, for any kind but setup; a field that the kind lacks is 0 and never refused. */
static uint8_t input_refusal(const plain_engine *e, const event *ev) {
    if (e->threads == 0) return 6;
    if (ev->thread >= e->threads) return 3;
    if (ev->line >= e->lines) return 4;
    if (ev->word >= PLAIN_WORDS) return 5;
    return ev->kind == EVENT_WRITE && ev->stored == 0 ? 27 : 0;
}

/* In the channel of the thread's next number, the entries that stay free behind one more, less what the other party may still claim there; below 0 there is
   no room. Each entry of the other party in this channel takes one from its claim, until nothing of its reserve is left. */
static int room_behind(const plain_engine *e, uint8_t thread) {
    uint8_t party = e->party[thread], channel = channel_of(e->last[thread] + 1u);
    int left = PLAIN_CHANNEL - 1, claim = e->reserve[!party];
    for (uint32_t i = 0; i < e->listed_len; i++) {
        if (e->listed[i].channel != channel) continue;
        left--;
        claim -= claim > 0 && e->party[e->listed[i].region.thread] != party;
    }
    return left - claim;
}

static uint8_t begin_refusal(const plain_engine *e, uint8_t thread) {
    if (e->depth[thread] == PLAIN_DEPTH) return 13;
    if (e->depth[thread] > 0) return 0;
    if (e->last[thread] == PLAIN_NUMBERS) return 14;
    if (find_modified(e, thread, 0) < 0) return 15;
    return room_behind(e, thread) < 0 ? 16 : 0;
}

/* Whether the open region of another thread has read the line: one that has ended reads no more. */
static int is_being_read(const plain_engine *e, uint8_t line, uint8_t writer) {
    for (uint8_t t = 0; t < e->threads; t++)
        if (t != writer && is_open(e, (plain_region){t, e->reader[line][t]})) return 1;
    return 0;
}

/* Refusals of a read or a write. */
static uint8_t access_refusal(const plain_engine *e, const event *ev) {
    if (e->depth[ev->thread] == 0) return 12;
    plain_region region = newest(e, ev->thread), owner = e->owner[ev->line];
    int needs_log = ev->kind == EVENT_WRITE && !same(owner, region);
    if (owner.thread != region.thread && is_open(e, owner)) return 17;
    if (ev->kind == EVENT_WRITE && is_being_read(e, ev->line, ev->thread)) return 25;
    if (needs_log && e->locked[ev->line] && plain_wrong != WRONG_LOCK) return 18;
    if (!same(owner, region) && find_listed(e, owner) >= 0) {
        const plain_listed *entry = &e->listed[find_listed(e, region)];
        if (!holds(entry, owner) && entry->held == PLAIN_HELD) return 19;
    }
    if (ev->kind == EVENT_READ) return 0;
    const plain_modified *m = &e->modified[ev->thread][find_modified(e, ev->thread, region.number)];
    if (find_slot(m, ev->line) < 0 && free_slot(m) < 0) return 20;
    return needs_log && e->log_len[ev->thread] == PLAIN_LOG ? 21 : 0;
}

static uint8_t state_refusal(const plain_engine *e, const event *ev) {
    if (e->cut) return 11;
    switch (ev->kind) {
    case EVENT_BEGIN: return begin_refusal(e, ev->thread);
    case EVENT_END: return e->depth[ev->thread] == 0 ? 12 : 0;
    case EVENT_READ: case EVENT_WRITE: return access_refusal(e, ev);
    case EVENT_LOG_ACK: return e->locked[ev->line] ? 0 : 22;
    case EVENT_DATA_ACK: return e->flight[ev->line].number != 0 ? 0 : 22;
    }
    return 0;
}

/* ---- Steps ---- */

/* Lets every slot of the region fly that may. */
static void fly(plain_engine *e, plain_region r) {
    plain_modified *m = modified_of(e, r);
    for (int i = 0; i < PLAIN_SLOTS; i++) {
        plain_slot *s = &m->slot[i];
        if (s->state != SLOT_WAITING || e->locked[s->line]) continue;
        if (s->count < PLAIN_COUNT - (plain_wrong == WRONG_COUNT) && !m->ended) continue;
        s->state = SLOT_IN_FLIGHT;
        e->flight[s->line] = r;
        e->carried[s->line] = e->current[s->line];
    }
}

/* Ends the line's flight and empties its slot; gives the slot's region. */
static plain_region land(plain_engine *e, uint8_t line) {
    plain_region r = e->flight[line];
    plain_modified *m = modified_of(e, r);
    m->slot[find_slot(m, line)].state = SLOT_EMPTY;
    e->flight[line].number = 0;
    return r;
}

/* Commits one listed region: frees its log entries, its list entry and the dependences on it. */
static void commit(plain_engine *e, uint32_t index) {
    plain_region r = e->listed[index].region;
    uint32_t kept = 0;
    for (uint32_t i = 0; i < e->log_len[r.thread]; i++)
        if (e->log[r.thread][i].number != r.number) e->log[r.thread][kept++] = e->log[r.thread][i];
    e->log_len[r.thread] = kept;
    e->listed[index] = e->listed[--e->listed_len];
    for (uint32_t i = 0; i < e->listed_len; i++) drop_dependence(&e->listed[i], r);
}

/* Commits while a done region without dependences exists, the earliest ended first. */
static uint64_t commit_all(plain_engine *e) {
    for (uint64_t commits = 0;; commits++) {
        int first = -1;
        for (uint32_t i = 0; i < e->listed_len; i++) {
            if (!e->listed[i].done || e->listed[i].held > 0) continue;
            if (first < 0 || e->listed[i].end_stamp < e->listed[first].end_stamp) first = (int)i;
        }
        if (first < 0) return commits;
        commit(e, (uint32_t)first);
    }
}

/* The wrong way to be done: slots that wait leave their lines unlocked, and flights are forgotten. */
static void give_up_slots(plain_engine *e, plain_modified *m) {
    for (int i = 0; i < PLAIN_SLOTS; i++) {
        if (m->slot[i].state == SLOT_WAITING) e->locked[m->slot[i].line] = 0;
        if (m->slot[i].state == SLOT_IN_FLIGHT) e->flight[m->slot[i].line].number = 0;
        m->slot[i].state = SLOT_EMPTY;
    }
}

/* After a slot of the region was emptied or the region ended: done if it may be, then the commits. */
static uint64_t settle(plain_engine *e, plain_region r) {
    plain_modified *m = modified_of(e, r);
    if (!m->ended) return 0;
    if (plain_wrong == WRONG_COMMIT) give_up_slots(e, m);
    for (int i = 0; i < PLAIN_SLOTS; i++)
        if (m->slot[i].state != SLOT_EMPTY) return 0;
    m->number = 0;
    e->listed[find_listed(e, r)].done = 1;
    return commit_all(e);
}

static uint64_t apply_begin(plain_engine *e, uint8_t thread) {
    if (e->depth[thread]++ > 0) return 0;
    plain_region predecessor = newest(e, thread);
    int uncommitted = find_listed(e, predecessor) >= 0;
    plain_modified *m = &e->modified[thread][find_modified(e, thread, 0)];
    plain_listed *entry = &e->listed[e->listed_len++];
    memset(m, 0, sizeof *m);
    memset(entry, 0, sizeof *entry);
    m->number = ++e->last[thread];
    entry->region = newest(e, thread);
    entry->channel = channel_of(entry->region.number);
    if (uncommitted) add_dependence(entry, predecessor);
    return 0;
}

static uint64_t apply_end(plain_engine *e, uint8_t thread) {
    if (--e->depth[thread] > 0) return 0;
    plain_region r = newest(e, thread);
    modified_of(e, r)->ended = 1;
    e->listed[find_listed(e, r)].end_stamp = e->ends++;
    fly(e, r);
    return settle(e, r);
}

/* The line's owner joins the dependences of the region that reads or writes it. */
static void join_owner(plain_engine *e, plain_region r, plain_region owner) {
    if (same(owner, r) || find_listed(e, owner) < 0) return;
    plain_listed *entry = &e->listed[find_listed(e, r)];
    if (!holds(entry, owner)) add_dependence(entry, owner);
}

static uint64_t apply_read(plain_engine *e, const event *ev) {
    if (plain_wrong != WRONG_READ) join_owner(e, newest(e, ev->thread), e->owner[ev->line]);
    e->reader[ev->line][ev->thread] = newest(e, ev->thread).number;
    return e->current[ev->line].word[ev->word];
}

/* One more line for a waiting slot, if it is a different one and there are not four yet. */
static void see(plain_slot *s, uint8_t line) {
    if (s->count == PLAIN_COUNT) return;
    for (int i = 0; i < s->count; i++)
        if (s->seen[i] == line) return;
    s->seen[s->count++] = line;
}

/* The written line's slot waits with count 0, a flight of it is taken back;
   the region's other waiting slots see the line, whether theirs are locked or not. */
static void count_write(plain_engine *e, plain_region r, uint8_t line) {
    plain_modified *m = modified_of(e, r);
    int own = find_slot(m, line);
    if (own < 0) own = free_slot(m);
    else if (m->slot[own].state == SLOT_IN_FLIGHT) e->flight[line].number = 0;
    for (int i = 0; i < PLAIN_SLOTS; i++)
        if (i != own && m->slot[i].state == SLOT_WAITING) see(&m->slot[i], line);
    m->slot[own] = (plain_slot){line, SLOT_WAITING, 0, {0}};
}

static uint64_t apply_write(plain_engine *e, const event *ev) {
    plain_region r = newest(e, ev->thread);
    plain_line *line = &e->current[ev->line];
    join_owner(e, r, e->owner[ev->line]);
    if (!same(e->owner[ev->line], r)) {
        e->log[ev->thread][e->log_len[ev->thread]++] = (plain_log){r.number, ev->line, 0, *line};
        e->owner[ev->line] = r;
        e->locked[ev->line] = 1;
    }
    line->word[ev->word] = (line->word[ev->word] & ~ev->stored) | (ev->value & ev->stored);
    count_write(e, r, ev->line);
    fly(e, r);
    return 0;
}

/* A locked line's log entry in flight is its owner's; a flight on the line is an earlier region's. */
static uint64_t apply_log_ack(plain_engine *e, uint8_t line) {
    plain_region owner = e->owner[line], earlier = {0, 0};
    e->locked[line] = 0;
    for (uint32_t i = 0; i < e->log_len[owner.thread]; i++) {
        plain_log *entry = &e->log[owner.thread][i];
        if (entry->number == owner.number && entry->line == line) entry->persistent = 1;
    }
    if (e->flight[line].number != 0) earlier = land(e, line);
    fly(e, owner);
    return earlier.number != 0 ? settle(e, earlier) : 0;
}

static uint64_t apply_data_ack(plain_engine *e, uint8_t line) {
    e->medium[line] = e->carried[line];
    return settle(e, land(e, line));
}

/* Counts the thread's listed regions: inside an open region there is that one, and 1 means that there is no other. */
static uint64_t apply_fence(const plain_engine *e, uint8_t thread) {
    uint32_t uncommitted = 0;
    for (uint32_t i = 0; i < e->listed_len; i++) uncommitted += e->listed[i].region.thread == thread;
    return uncommitted == (e->depth[thread] > 0);
}

static uint64_t apply(plain_engine *e, const event *ev) {
    switch (ev->kind) {
    case EVENT_BEGIN: return apply_begin(e, ev->thread);
    case EVENT_END: return apply_end(e, ev->thread);
    case EVENT_READ: return apply_read(e, ev);
    case EVENT_WRITE: return apply_write(e, ev);
    case EVENT_LOG_ACK: return apply_log_ack(e, ev->line);
    case EVENT_DATA_ACK: return apply_data_ack(e, ev->line);
    case EVENT_FENCE: return apply_fence(e, ev->thread);
    }
    e->cut = 1;
    return e->listed_len;
}

static void apply_setup(plain_engine *e, uint8_t threads, uint16_t lines, const uint8_t *shares) {
    e->threads = threads;
    e->lines = lines;
    memcpy(e->party, shares, sizeof e->party);
    memcpy(e->reserve, shares + sizeof e->party, sizeof e->reserve);
    for (size_t l = 0; e->is_lent && l < lines; l++) e->current[l] = get_line(e->lent + PLAIN_LINE_BYTES * l);
    memcpy(e->medium, e->current, sizeof e->medium);
}

/* ---- Events one by one ---- */

void plain_init(plain_engine *e) { memset(e, 0, sizeof *e); }

void plain_init_lent(plain_engine *e, const uint8_t *memory, size_t memory_len) {
    plain_init(e);
    e->is_lent = 1;
    e->lent = memory;
    e->lent_len = memory_len;
}

static int is_known(uint8_t kind) { return kind < sizeof record_length / sizeof record_length[0] && record_length[kind] > 0; }

size_t plain_record_length(const uint8_t *bytes, size_t len) {
    if (len == 0 || !is_known(bytes[0]) || len < record_length[bytes[0]]) return 0;
    return record_length[bytes[0]];
}

/* The refusals 1 and 2, which end a file. */
static uint8_t record_refusal(const uint8_t *record, size_t len) {
    if (len > 0 && !is_known(record[0])) return 2;
    return plain_record_length(record, len) == 0 ? 1 : 0;
}

uint8_t plain_refusal(const plain_engine *e, const uint8_t *record, size_t len) {
    uint8_t refusal = record_refusal(record, len);
    if (refusal != 0) return refusal;
    if (record[0] == EVENT_SETUP) return setup_refusal(e, record[1], get16(record + 2), record + 4);
    event ev = decode(record);
    refusal = input_refusal(e, &ev);
    return refusal != 0 ? refusal : state_refusal(e, &ev);
}

plain_answer plain_event(plain_engine *e, const uint8_t *record, size_t len) {
    uint8_t refusal = plain_refusal(e, record, len);
    if (refusal != 0) return (plain_answer){refusal, 0};
    if (record[0] == EVENT_SETUP) {
        apply_setup(e, record[1], get16(record + 2), record + 4);
        return (plain_answer){0, 0};
    }
    event ev = decode(record);
    return (plain_answer){0, apply(e, &ev)};
}

/* ---- Calls over a file ---- */

plain_answer plain_start(uint64_t threads, uint64_t lines, const uint8_t *shares, size_t shares_len, const uint8_t *memory, size_t memory_len) {
    plain_engine e;
    if (shares_len != PLAIN_SHARES) return (plain_answer){6, 0};
    plain_init_lent(&e, memory, memory_len);
    return (plain_answer){setup_refusal(&e, threads, lines, shares), 0};
}

/* Runs a file; writes the answers if they are asked for. */
static void run_file(plain_engine *e, const uint8_t *file, size_t file_len, uint8_t *answers) {
    for (size_t at = 0; at < file_len;) {
        size_t length = plain_record_length(file + at, file_len - at);
        plain_answer answer = plain_event(e, file + at, file_len - at);
        if (answers != NULL) {
            answers[0] = answer.refusal;
            put64(answers + 1, answer.value);
            answers += PLAIN_ANSWER_BYTES;
        }
        if (length == 0) return;
        at += length;
    }
}

/* The number of answers hangs on the records alone. */
static uint64_t count_answers(const uint8_t *file, size_t file_len) {
    uint64_t answers = 0;
    for (size_t at = 0; at < file_len; answers++) {
        size_t length = plain_record_length(file + at, file_len - at);
        if (length == 0) return answers + 1;
        at += length;
    }
    return answers;
}

plain_answer plain_events(const uint8_t *file, size_t file_len, const uint8_t *memory, size_t memory_len,
                          uint8_t *answers, size_t answers_len) {
    plain_engine e;
    uint64_t count = count_answers(file, file_len);
    if (answers_len / PLAIN_ANSWER_BYTES < count) return (plain_answer){6, 0};
    plain_init_lent(&e, memory, memory_len);
    run_file(&e, file, file_len, answers);
    return (plain_answer){0, count};
}

static plain_answer image_call(const uint8_t *file, size_t file_len, const uint8_t *memory, size_t memory_len,
                               int headed, uint8_t *image, size_t image_len) {
    plain_engine e;
    plain_init_lent(&e, memory, memory_len);
    run_file(&e, file, file_len, NULL);
    return plain_save(&e, headed, image, image_len);
}

plain_answer plain_image(const uint8_t *file, size_t file_len, const uint8_t *memory, size_t memory_len,
                         uint8_t *image, size_t image_len) {
    return image_call(file, file_len, memory, memory_len, 0, image, image_len);
}

plain_answer plain_image_headed(const uint8_t *file, size_t file_len, const uint8_t *memory, size_t memory_len,
                                uint8_t *image, size_t image_len) {
    return image_call(file, file_len, memory, memory_len, 1, image, image_len);
}
