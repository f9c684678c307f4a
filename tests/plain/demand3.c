/* Demand 3 tried on the plain engine: seeded event lists, a cut after any event, recovery steps with cuts between. Each image is tried as it was saved, and
   torn: any words of each line in flight at the cut are in the medium, and cuts fall inside recovery steps, with any words of the line that was restored.
   What must be found is the same in both, worked out of the list of accepted events and the set of committed regions. So is what a party holds in a
   channel: below its reserve it never meets 16 at a begin whose number falls there. So is the count of every slot: the different other lines that its
   region has written since its last write of the slot's line; and what a flight carries: the line as that write left it. So are the lines that open
   regions have read, and what a read gives: as if the committed regions ran one after another in the order they ended. The old image and the new one are
   recovered side by side: every answer, every place and every line after a step is the same. */
#include <stdio.h>
#include <stdlib.h>
#include <string.h>

#include "common.h"
#include "random.h"

static uint64_t seed, cuts_tried, steps_tried, lines_torn, steps_torn, headers, headers_behind, regions_committed, reads_committed, writes_kept_off;

static void require(int holds, const char *what) {
    if (holds) return;
    printf("FAILED demand 3, seed %llu: %s\n", (unsigned long long)seed, what);
    exit(1);
}

/* ---- The history: accepted events and what they say ---- */

enum { MOST_EVENTS = 256 };

typedef struct { plain_region region; int ended, committed; } history_region;
typedef struct { int region; size_t at; uint8_t mask, bytes[8]; } history_write; /* of the word at that place in memory the bytes of the mask */
typedef struct { int region; size_t at; int writes; uint64_t value; } history_read; /* the word at that place, behind so many accepted writes */
typedef struct { int region, on; } history_dependence;

static struct {
    int regions, writes, reads, dependences, ends;
    int depth[PLAIN_THREADS];
    int newest[PLAIN_THREADS];     /* each thread's newest region, -1 before the first */
    int last_writer[PLAIN_LINES];  /* -1 before the first write */
    uint8_t shares[PLAIN_SHARES];  /* of the setup that stands */
    history_region region[MOST_EVENTS];
    int ended[MOST_EVENTS];        /* the regions in the order they ended */
    history_write write[MOST_EVENTS];
    history_read read[MOST_EVENTS];
    history_dependence dependence[2 * MOST_EVENTS];
} history;

static void history_clear(void) {
    memset(&history, 0, sizeof history);
    for (int t = 0; t < PLAIN_THREADS; t++) history.newest[t] = -1;
    for (int l = 0; l < PLAIN_LINES; l++) history.last_writer[l] = -1;
}

static void note_dependence(int region, int on) {
    if (on >= 0 && on != region) history.dependence[history.dependences++] = (history_dependence){region, on};
}

static void note_begin(uint8_t thread) {
    if (history.depth[thread]++ > 0) return;
    int predecessor = history.newest[thread], region = history.regions++;
    uint16_t number = predecessor < 0 ? 1 : (uint16_t)(history.region[predecessor].region.number + 1);
    history.region[region] = (history_region){{thread, number}, 0, 0};
    history.newest[thread] = region;
    note_dependence(region, predecessor);
}

static void note_access(const uint8_t *record, plain_answer answer) {
    int region = history.newest[record[1]];
    note_dependence(region, history.last_writer[record[2]]);
    if (record[0] == EVENT_READ) {
        size_t at = PLAIN_LINE_BYTES * (size_t)record[2] + 8 * (size_t)record[3];
        history.read[history.reads++] = (history_read){region, at, history.writes, answer.value};
        return;
    }
    history_write *w = &history.write[history.writes++];
    const uint8_t *value = record + 4;
    w->region = region;
    w->at = PLAIN_LINE_BYTES * (size_t)record[2] + 8 * (size_t)record[3];
    w->mask = record[0] == EVENT_WRITE_BYTES ? *value++ : 255;
    memcpy(w->bytes, value, sizeof w->bytes);
    require(w->mask != 0, "a write of no bytes is accepted");
    history.last_writer[record[2]] = region;
}

static void note_end(uint8_t thread) {
    if (--history.depth[thread] > 0) return;
    history.region[history.newest[thread]].ended = 1;
    history.ended[history.ends++] = history.newest[thread];
}

static void note_event(const uint8_t *record, plain_answer answer) {
    switch (record[0]) {
    case EVENT_SETUP: memcpy(history.shares, record + 4, sizeof history.shares); break;
    case EVENT_BEGIN: note_begin(record[1]); break;
    case EVENT_END: note_end(record[1]); break;
    case EVENT_READ: case EVENT_WRITE: case EVENT_WRITE_BYTES: note_access(record, answer); break;
    }
}

static int is_listed(const plain_engine *e, plain_region r) {
    for (uint32_t i = 0; i < e->listed_len; i++)
        if (same(e->listed[i].region, r)) return 1;
    return 0;
}

/* Regions that left the dependence list have committed; the event's value must count them. */
static void note_commits(const plain_engine *e, const uint8_t *record, plain_answer answer) {
    uint64_t commits = 0;
    for (int i = 0; i < history.regions; i++) {
        history_region *r = &history.region[i];
        if (r->committed || is_listed(e, r->region)) continue;
        require(r->ended, "an open region committed");
        r->committed = 1;
        commits++;
    }
    for (int i = 0; i < history.dependences; i++) {
        const history_dependence *d = &history.dependence[i];
        require(!history.region[d->region].committed || history.region[d->on].committed, "committed before a dependence");
    }
    regions_committed += commits;
    if (record[0] != EVENT_SETUP && record[0] != EVENT_READ && record[0] != EVENT_FENCE)
        require(answer.value == commits, "value is not the number of commits");
    else require(commits == 0, "a commit in a step that has none");
}

/* Every region that the thread opened, other than the one open now, has committed. */
static int others_committed(uint8_t thread) {
    int open = history.depth[thread] > 0 ? history.newest[thread] : -1;
    for (int i = 0; i < history.regions; i++)
        if (i != open && history.region[i].region.thread == thread && !history.region[i].committed) return 0;
    return 1;
}

/* ---- Channels and reserves ---- */

/* The regions of the party's threads that were opened and have not committed, of those whose number is odd (channel 1) or even (channel 0). */
static int held_by(uint8_t party, int channel) {
    int held = 0;
    for (int i = 0; i < history.regions; i++) {
        plain_region r = history.region[i].region;
        held += !history.region[i].committed && history.shares[r.thread] == party && (r.number & 1) == channel;
    }
    return held;
}

/* The channel of the number that the thread's next begin opens. */
static int next_channel(uint8_t thread) {
    int newest = history.newest[thread];
    return newest < 0 || (history.region[newest].region.number & 1) == 0;
}

static int larger(int a, int b) { return a > b ? a : b; }

/* The entries of the channel that are held or kept for one party and the other have room in it; a party that has fewer there than its reserve never meets
   16 at a begin whose number falls there. */
static void check_channel(const plain_engine *e, int channel) {
    const uint8_t *reserve = history.shares + PLAIN_THREADS;
    int held[PLAIN_PARTIES] = {held_by(0, channel), held_by(1, channel)};
    require(larger(held[0], reserve[0]) + larger(held[1], reserve[1]) <= PLAIN_CHANNEL, "the entries held and kept");
    for (uint8_t t = 0; t < e->threads; t++) {
        uint8_t party = history.shares[t];
        if (history.depth[t] == 0 && next_channel(t) == channel && held[party] < reserve[party])
            require(plain_refusal(e, (uint8_t[]){EVENT_BEGIN, t}, 2) != 16, "16 below the reserve");
    }
}

/* ---- Slots ---- */

static uint8_t start_memory[PLAIN_LINES * PLAIN_LINE_BYTES];

/* The bytes of a write go into its word. */
static void store(const history_write *w, uint8_t word[8]) {
    for (int b = 0; b < 8; b++)
        if ((w->mask & 1 << b) != 0) word[b] = w->bytes[b];
}

enum { NEIGHBOURS = 4 }; /* the request's number, whatever the engine's is */

static int index_of(plain_region r) {
    for (int i = 0; i < history.regions; i++)
        if (same(history.region[i].region, r)) return i;
    return -1;
}

/* How many different other lines the region has written since its last write of the line, up to 4: its writes, newest first. Every one counts, whatever
   became of its slot. -1 if the region has not written the line. */
static int different_since(int region, uint8_t line) {
    uint8_t is_counted[PLAIN_LINES] = {0};
    int different = 0;
    for (int i = history.writes - 1; i >= 0; i--) {
        size_t written = history.write[i].at / PLAIN_LINE_BYTES;
        if (history.write[i].region != region) continue;
        if (written == line) return different < NEIGHBOURS ? different : NEIGHBOURS;
        different += !is_counted[written];
        is_counted[written] = 1;
    }
    return -1;
}

/* The count of a waiting slot is the definition's, locked or not, in an ended region too. Out of an open region only what has four flies. */
static void check_count(plain_region r, const plain_modified *m, const plain_slot *s) {
    int different = different_since(index_of(r), s->line);
    if (s->state == SLOT_WAITING) require(s->count == different, "the count of a slot");
    else require(m->ended || different == NEIGHBOURS, "a flight out of an open region");
}

/* A flight carries the line as its region's last write of it left it, whoever has written it since. */
static void check_carried(int region, size_t line, plain_line carried) {
    uint8_t now[PLAIN_LINE_BYTES], due[PLAIN_LINE_BYTES] = {0}, found[PLAIN_LINE_BYTES];
    memcpy(now, start_memory + PLAIN_LINE_BYTES * line, sizeof now);
    for (int i = 0; i < history.writes; i++) {
        const history_write *w = &history.write[i];
        if (w->at / PLAIN_LINE_BYTES != line) continue;
        store(w, now + w->at % PLAIN_LINE_BYTES);
        if (w->region == region) memcpy(due, now, sizeof due);
    }
    put_line(found, carried);
    require(memcmp(found, due, sizeof due) == 0, "what a flight carries");
}

/* ---- Reads ---- */

/* An accepted read of a region that is open now, of another thread than the writer, has been of this line. */
static int is_being_read(uint8_t line, uint8_t writer) {
    for (int i = 0; i < history.reads; i++) {
        const history_region *r = &history.region[history.read[i].region];
        if (history.read[i].at / PLAIN_LINE_BYTES == line && !r->ended && r->region.thread != writer) return 1;
    }
    return 0;
}

/* A write that comes to the test for 25, which stands between 17 and 18, gets it exactly when its line is being read; nothing else gets it. */
static void check_writer(const uint8_t *record, uint8_t refusal) {
    int write = record[0] == EVENT_WRITE || record[0] == EVENT_WRITE_BYTES;
    int tested = refusal == 0 || refusal == 25 || (refusal >= 18 && refusal <= 21);
    int due = write && tested && is_being_read(record[2], record[1]);
    require((refusal == 25) == due, "25 and a line that somebody is reading");
    writes_kept_off += due;
}

/* Into the word at that place go the writes of the region that are among the first so many. */
static void apply_writes(uint8_t word[8], size_t at, int region, int writes) {
    for (int i = 0; i < writes; i++) {
        const history_write *w = &history.write[i];
        if (w->region == region && w->at == at) store(w, word);
    }
}

/* Every read of a committed region gave the word in the starting memory, with the writes of the committed regions that ended before that one, in the order
   they ended, and its own writes before the read. Gives how many such reads there are. */
static uint64_t check_reads(void) {
    uint64_t reads = 0;
    for (int i = 0; i < history.reads; i++) {
        const history_read *r = &history.read[i];
        uint8_t word[8];
        if (!history.region[r->region].committed) continue;
        memcpy(word, start_memory + r->at, sizeof word);
        for (int j = 0; history.ended[j] != r->region; j++)
            if (history.region[history.ended[j]].committed) apply_writes(word, r->at, history.ended[j], history.writes);
        apply_writes(word, r->at, r->region, r->writes);
        require(get64(word) == r->value, "a read of a committed region");
        reads++;
    }
    return reads;
}

/* ---- The tables after each event, rule by rule ---- */

static void check_slots(const plain_engine *e, plain_region r, const plain_modified *m, int flights[PLAIN_LINES]) {
    int held = 0;
    for (int i = 0; i < PLAIN_SLOTS; i++) {
        const plain_slot *s = &m->slot[i];
        if (s->state == SLOT_EMPTY) continue;
        held++;
        for (int j = 0; j < i; j++)
            require(m->slot[j].state == SLOT_EMPTY || m->slot[j].line != s->line, "two slots name one line");
        check_count(r, m, s);
        if (s->state == SLOT_IN_FLIGHT) {
            flights[s->line]++;
            require(same(e->flight[s->line], r), "the line's flight is another's");
            check_carried(index_of(r), s->line, e->carried[s->line]);
        } else {
            require(e->locked[s->line] || (s->count < NEIGHBOURS && !m->ended), "a waiting slot that may fly");
        }
    }
    require(held > 0 || !m->ended, "an ended region without slots is not done");
}

static void check_lines(const plain_engine *e, const int flights[PLAIN_LINES]) {
    int in_flight[PLAIN_LINES] = {0};
    for (uint8_t t = 0; t < e->threads; t++)
        for (uint32_t i = 0; i < e->log_len[t]; i++)
            if (!e->log[t][i].persistent) {
                in_flight[e->log[t][i].line]++;
                require(same(e->owner[e->log[t][i].line], (plain_region){t, e->log[t][i].number}), "log in flight, another owner");
            }
    for (int l = 0; l < e->lines; l++) {
        require(in_flight[l] == e->locked[l], "lock and log entry in flight differ");
        require(flights[l] == (e->flight[l].number != 0), "flights of a line");
    }
}

static void check_tables(const plain_engine *e) {
    int flights[PLAIN_LINES] = {0};
    for (uint8_t t = 0; t < e->threads; t++)
        for (int i = 0; i < PLAIN_MODIFIED; i++)
            if (e->modified[t][i].number != 0)
                check_slots(e, (plain_region){t, e->modified[t][i].number}, &e->modified[t][i], flights);
    for (uint32_t i = 0; i < e->listed_len; i++) {
        require(!e->listed[i].done || e->listed[i].held > 0, "a region that may commit");
        require(e->listed[i].channel == (e->listed[i].region.number & 1), "a region in the other channel");
    }
    check_lines(e, flights);
}

/* ---- A cut here, and recovery ---- */

enum { TEARS = 4 }; /* times that each image is torn */

/* The starting memory with the writes of the committed regions, in event order. */
static void expected_memory(uint8_t *memory, size_t length) {
    memcpy(memory, start_memory, length);
    for (int i = 0; i < history.writes; i++) {
        const history_write *w = &history.write[i];
        if (history.region[w->region].committed) store(w, memory + w->at);
    }
}

static size_t line_at(size_t line) { return 4 + 65 * line + 1; }

/* None, one, all or any words of the whole line have reached the line. Gives whether it is torn: neither as it was nor whole. */
static int tear_line(random_source *source, uint8_t *line, const uint8_t *whole) {
    uint8_t was[PLAIN_LINE_BYTES], words = random_mask(source);
    memcpy(was, line, sizeof was);
    for (int w = 0; w < PLAIN_WORDS; w++)
        if ((words & 1 << w) != 0) memcpy(line + 8 * w, whole + 8 * w, 8);
    return memcmp(line, was, sizeof was) != 0 && memcmp(line, whole, sizeof was) != 0;
}

/* The lines in flight at the cut, each by words of the line that its flight carries. */
static void tear_flights(random_source *source, const plain_engine *e, uint8_t *image) {
    for (size_t l = 0; l < e->lines; l++) {
        uint8_t whole[PLAIN_LINE_BYTES];
        if (e->flight[l].number == 0) continue;
        put_line(whole, e->carried[l]);
        lines_torn += tear_line(source, image + line_at(l), whole);
    }
}

/* An image is recovered three times side by side: in the old form by the old step and by the new one, in the new form by the new step. */
typedef plain_answer recovery_step(uint8_t *, size_t, uint8_t *, size_t);
typedef struct { recovery_step *step; int headed; size_t length; uint8_t image[PLAIN_IMAGE_BYTES], place[8]; } recovery;

enum { RECOVERIES = 3 };
static recovery recoveries[RECOVERIES] = {
    {.step = plain_recovery_step}, {.step = plain_recovery_step_headed}, {.step = plain_recovery_step_headed, .headed = 1},
};

static const uint8_t *old_line(const recovery *r, const plain_contents *c, uint32_t log) { return r->image + c->log[log].old_at; }

/* What the images hold, which is the same in all three; gives that of the first. */
static const plain_contents *read_images(void) {
    static plain_contents c[RECOVERIES];
    for (int i = 0; i < RECOVERIES; i++) {
        require(plain_read_image(recoveries[i].image, recoveries[i].length, recoveries[i].step != plain_recovery_step, &c[i]) == 0, "a saved image is refused");
        require(c[i].logs == c[0].logs && c[i].entries == c[0].entries && memcmp(c[i].entry, c[0].entry, sizeof c[0].entry) == 0, "the regions read");
        for (uint32_t j = 0; j < c[0].logs; j++) {
            require(same(c[i].log[j].region, c[0].log[j].region) && c[i].log[j].line == c[0].log[j].line, "the log entries read");
            require(memcmp(old_line(&recoveries[i], &c[i], j), old_line(&recoveries[0], &c[0], j), PLAIN_LINE_BYTES) == 0, "the old lines read");
        }
    }
    return &c[0];
}

/* The line that the next step was restoring, if one is left. */
static void tear_step(random_source *source, uint8_t *image) {
    uint32_t order[PLAIN_LOGGED];
    const plain_contents *c = read_images();
    uint64_t place = get64(recoveries[0].place);
    if (place >= c->logs) return;
    plain_walk(c, order);
    const plain_image_log *log = &c->log[order[place]];
    steps_torn += tear_line(source, image + line_at(log->line), image + log->old_at);
}

/* The lines of the first image go into the others, and the places to the start: the same cut in all of them. */
static void share_cut(size_t behind) {
    for (int i = 0; i < RECOVERIES; i++) {
        memmove(recoveries[i].image, recoveries[0].image, behind);
        memset(recoveries[i].place, 0, sizeof recoveries[i].place);
    }
}

/* A step over each image: accepted, and alike in answer, place and lines. Gives its value. */
static uint64_t step_images(size_t behind) {
    uint64_t value = 0;
    for (int i = 0; i < RECOVERIES; i++) {
        recovery *r = &recoveries[i];
        plain_answer a = r->step(r->image, r->length, r->place, sizeof r->place);
        require(a.refusal == 0, "a step is refused");
        require(i == 0 || a.value == value, "the answers to a step");
        require(memcmp(r->place, recoveries[0].place, sizeof r->place) == 0 && memcmp(r->image, recoveries[0].image, behind) == 0, "what a step leaves");
        value = a.value;
    }
    return value;
}

/* Steps with cuts between, or inside a step, then from the last cut on until 'finished', which must come in time and not before. */
static void recover(random_source *source, size_t behind, int torn) {
    uint64_t logs = read_images()->logs, due = logs > 0 ? logs : 1;
    for (uint64_t cuts = random_below(source, 4); cuts > 0; cuts--) {
        for (uint64_t steps = random_below(source, due + 2); steps > 0; steps--) step_images(behind);
        if (torn) tear_step(source, recoveries[0].image);
        share_cut(behind);
    }
    for (uint64_t i = 1; i <= due; i++, steps_tried++) require(step_images(behind) == (i < due), "'finished' too late or too early");
    require(get64(recoveries[0].place) == logs, "place at 'finished'");
}

/* The images of a cut in the two forms. */
typedef struct { size_t length; uint8_t image[PLAIN_IMAGE_BYTES]; } saved_image;

/* Recovers copies of the saved images, torn or not, and compares the memory found; nothing but lines may have changed. */
static void try_images(random_source *source, const plain_engine *e, const saved_image saved[2], int torn) {
    static uint8_t memory[sizeof start_memory];
    size_t behind = 4 + 65 * (size_t)e->lines;
    for (int i = 0; i < RECOVERIES; i++) {
        recovery *r = &recoveries[i];
        r->length = saved[r->headed].length;
        memcpy(r->image, saved[r->headed].image, r->length);
    }
    if (torn) tear_flights(source, e, recoveries[0].image);
    share_cut(behind);
    recover(source, behind, torn);
    expected_memory(memory, PLAIN_LINE_BYTES * (size_t)e->lines);
    for (size_t l = 0; l < e->lines; l++)
        require(memcmp(recoveries[0].image + line_at(l), memory + PLAIN_LINE_BYTES * l, PLAIN_LINE_BYTES) == 0, "the memory found");
    for (int i = 0; i < RECOVERIES; i++) {
        const recovery *r = &recoveries[i];
        require(memcmp(r->image + behind, saved[r->headed].image + behind, r->length - behind) == 0, "a step changed more than a line");
    }
}

/* How many records a new image has for these log entries: one for every seven of a region, and one for what is left. */
static size_t count_headers(const plain_contents *c) {
    size_t records = 0, entries = 0;
    for (uint32_t i = 0; i < c->logs; i++) {
        entries = i > 0 && same(c->log[i - 1].region, c->log[i].region) ? entries + 1 : 1;
        records += entries % 7 == 1;
        headers_behind += entries > 1 && entries % 7 == 1;
    }
    return records;
}

/* The new image against the old one: it is shorter by four bytes for each record that it saves, and the old reader refuses its first header; without log
   entries the two are the same bytes. */
static void check_forms(const saved_image saved[2]) {
    plain_contents c;
    require(plain_read_image(saved[0].image, saved[0].length, 0, &c) == 0, "the old image is refused");
    size_t records = count_headers(&c), front = saved[0].length - 1 - 69 * (size_t)c.logs;
    require(saved[0].length - saved[1].length == 4 * (c.logs - records) && memcmp(saved[0].image, saved[1].image, front) == 0, "the new image");
    require(plain_read_image(saved[1].image, saved[1].length, 0, &c) == (records > 0 ? 2 : 0), "the old reader and the new image");
    headers += records;
}

/* Cuts a copy of the engine and saves both images; tries them as they are, then torn. */
static void try_cut(random_source *source, const plain_engine *engine) {
    static plain_engine e;
    static saved_image saved[2];
    int uncommitted = 0;
    for (int i = 0; i < history.regions; i++) uncommitted += !history.region[i].committed;
    e = *engine;
    plain_answer cut = plain_event(&e, (uint8_t[]){EVENT_CUT}, 1);
    require(cut.refusal == 0 && cut.value == (uint64_t)uncommitted, "value of the cut");
    for (int headed = 0; headed < 2; headed++) {
        plain_answer save = plain_save(&e, headed, saved[headed].image, PLAIN_IMAGE_BYTES);
        require(save.refusal == 0, "the image is not saved");
        saved[headed].length = (size_t)save.value;
    }
    check_forms(saved);
    for (int torn = 0; torn <= TEARS; torn++) try_images(source, &e, saved, torn > 0);
    cuts_tried++;
}

/* ---- Lists ---- */

/* One event; a refused one must leave the engine as it was. */
static void try_event(plain_engine *e, const uint8_t *record, size_t length) {
    static plain_engine entry;
    uint8_t refusal = plain_refusal(e, record, length);
    if (refusal != 0) entry = *e;
    plain_answer answer = plain_event(e, record, length);
    require(answer.refusal == refusal, "refusal foretold");
    check_writer(record, refusal);
    if (refusal != 0) {
        require(answer.value == 0 && memcmp(&entry, e, sizeof entry) == 0, "a refused event changed something");
        return;
    }
    note_event(record, answer);
    note_commits(e, record, answer);
    check_reads();
    if (record[0] == EVENT_FENCE) require(answer.value == (uint64_t)others_committed(record[1]), "value of the fence");
    check_tables(e);
    for (int channel = 0; channel < PLAIN_CHANNELS; channel++) check_channel(e, channel);
}

/* A record that follows the engine, or one with any fields near the board's; now and then cut short or unknown. */
static size_t next_record(random_events *events, const plain_engine *e, int wild, uint8_t record[PLAIN_RECORD_BYTES]) {
    random_source *source = &events->source;
    size_t length = random_record(events, e, record);
    if (wild) {
        record[0] = random_known_kind(source);
        record[1] = (uint8_t)random_below(source, e->threads + 1u);
        if (record[0] == EVENT_LOG_ACK || record[0] == EVENT_DATA_ACK)
            record[1] = (uint8_t)random_below(source, e->lines + 1u);
        record[2] = (uint8_t)random_below(source, e->lines + 1u);
        record[4] = random_mask(source);
        length = PLAIN_RECORD_BYTES;
    }
    if (random_chance(source, 60)) record[0] = random_unknown_kind(source);
    if (random_chance(source, 60)) length = random_below(source, length);
    return length;
}

/* The recorded file must give the same images as the events one by one. */
static void compare_file(plain_engine *e, uint8_t *file, size_t length, size_t lent) {
    static uint8_t one[PLAIN_IMAGE_BYTES], other[PLAIN_IMAGE_BYTES];
    file[length++] = EVENT_CUT;
    plain_event(e, (uint8_t[]){EVENT_CUT}, 1);
    for (int headed = 0; headed < 2; headed++) {
        plain_answer a = plain_save(e, headed, one, sizeof one);
        plain_answer b = (headed ? plain_image_headed : plain_image)(file, length, start_memory, lent, other, sizeof other);
        require(a.refusal == 0 && b.refusal == 0 && a.value == b.value && memcmp(one, other, a.value) == 0, "file and events differ");
    }
}

static void try_list(void) {
    static plain_engine e;
    static uint8_t file[(MOST_EVENTS + 2) * PLAIN_RECORD_BYTES];
    random_events events;
    random_start(&events, seed, (random_mode)(seed % 3));
    random_source *source = &events.source;
    uint8_t threads = (uint8_t)(1 + random_below(source, seed % 16 == 0 ? 8 : 3));
    uint16_t lines = (uint16_t)(1 + random_below(source, seed % 8 == 0 ? 40 : seed % 2 == 0 ? 8 : 4)); /* below five none flies out of an open region */
    uint64_t count = 4 + random_below(source, MOST_EVENTS - 4);
    size_t lent = PLAIN_LINE_BYTES * (size_t)lines, length = PLAIN_RECORD_BYTES;
    int wild = random_chance(source, 4);
    uint8_t shares[PLAIN_SHARES];
    for (size_t i = 0; i < lent; i++) start_memory[i] = (uint8_t)random_next(source);
    random_shares(source, threads, shares);
    put_setup(file, threads, lines, shares);
    history_clear();
    plain_init_lent(&e, start_memory, lent);
    try_event(&e, file, length);
    for (uint64_t i = 0; i < count; i++) {
        uint8_t record[PLAIN_RECORD_BYTES] = {0};
        size_t next = next_record(&events, &e, wild, record), whole = plain_record_length(record, next);
        if (whole > 0 && record[0] == EVENT_CUT) continue;
        try_event(&e, record, next);
        memcpy(file + length, record, whole);
        length += whole;
        if (random_chance(source, 6)) try_cut(source, &e);
    }
    try_cut(source, &e);
    reads_committed += check_reads();
    compare_file(&e, file, length, lent);
}

int main(int argc, char **argv) {
    uint64_t lists = argc > 1 ? strtoull(argv[1], NULL, 10) : 2000;
    for (seed = 1; seed <= lists; seed++) try_list();
    printf("demand 3: %llu lists, %llu cuts, %llu last-run recovery steps, %llu lines torn by a cut, %llu by a cut inside a step, "
           "%llu headers, %llu of them behind one of their region, %llu commits, %llu reads of committed regions, %llu times 25, 0 failed\n",
           (unsigned long long)lists, (unsigned long long)cuts_tried, (unsigned long long)steps_tried, (unsigned long long)lines_torn,
           (unsigned long long)steps_torn, (unsigned long long)headers, (unsigned long long)headers_behind, (unsigned long long)regions_committed,
           (unsigned long long)reads_committed, (unsigned long long)writes_kept_off);
    return 0;
}
