/* timeline: regions, slots and log entries over time, as a picture. What stands in it are the tables after each event. */
#include <inttypes.h>
#include <stdlib.h>
#include <string.h>

#include "commands.h"
#include "svg.h"
#include "tables.h"

enum { MOST_EVENTS = 500, MARGIN = 20, LEFT = 190, COLUMN = 108, LETTER = 7, MOST_LETTERS = 26, RIGHT = 130, LEAST_WIDTH = 960 };
enum { TOP = 76, THREAD_ROW = 92, BAR = 38, LANE = 30, BAR_HEIGHT = 22, BOARD_ROW = 50, CAPTIONS = 94, MOST_WORDS = 4 }; /* BAR: below the top of a row */

/* What a bar shows. Only a region is open, ended or done; only a slot waits; only a log entry is persistent. */
typedef enum { NOTHING, OPEN, HAS_ENDED, DONE, WAITING, IN_FLIGHT, PERSISTENT } state;
static const char *const words[] = {"", "open", "ended", "done", "waiting", "in flight", "persistent"};
static const char *const fills[] = {"", "#7fb2e5", "#cfe2f5", "#e6eff9", "#ece3f5", "#f5b971", "#fbe3c3"};

/* A row of bars: a region, or a log entry or slot of a region and a line. The event by which it first shows, and the one by which it is gone for good; of a
   region, how many rows stand above it in its thread's. */
typedef enum { A_REGION, A_LOG_ENTRY, A_SLOT } sort;
typedef struct { sort sort; region_name region; uint8_t line; size_t from, gone, row; } lane;

typedef struct {
    FILE *out;
    run events;
    tables *after; /* the tables after each number of events */
    size_t cut, last; /* the event of the cut, 0 if there is none; the event after which nothing changes */
    lane *lanes; /* regions first */
    size_t count, regions;
    int column, top, lines_top, bottom; /* the width of an event; where the rows of threads and of lines begin, and where those end */
    int thread_top[THREADS];            /* 0 for a thread without a row */
    char *found;                        /* what recovery finds, in words */
} chart;

static const look label = {"end", INK, 0, 0, 0}, bold_label = {"end", INK, 0, 0, 1}, inside = {"middle", INK, 0, 0, 0};

static int x_of(const chart *c, size_t event) { return LEFT + c->column * ((int)event - 1) + c->column / 2; }

/* ---- what the tables tell */

static state state_of(const lane *l, const tables *at) {
    const region *r = find_region(at, l->region);
    const thread *of = &at->thread[l->region.thread];
    const slot *s = r == NULL ? NULL : find_slot(r, l->line);
    if (l->sort == A_REGION) return r == NULL ? NOTHING : r->done ? DONE : r->ended ? HAS_ENDED : OPEN;
    if (l->sort == A_SLOT) return s == NULL ? NOTHING : s->state == SLOT_WAITING ? WAITING : IN_FLIGHT;
    for (size_t i = 0; i < of->entries; i++)
        if (same_region(of->entry[i].region, l->region) && of->entry[i].line == l->line) return of->entry[i].persistent ? PERSISTENT : IN_FLIGHT;
    return NOTHING;
}

static int same_lane(const lane *a, const lane *b) { return a->sort == b->sort && same_region(a->region, b->region) && a->line == b->line; }

/* A lane for something that is there after an event, unless there is one already. */
static void add_lane(chart *c, size_t event, lane found) {
    if (state_of(&found, &c->after[event]) == NOTHING) return;
    for (size_t i = 0; i < c->count; i++)
        if (same_lane(&c->lanes[i], &found)) return;
    found.from = event;
    for (found.gone = c->last + 1; state_of(&found, &c->after[found.gone - 1]) == NOTHING;) found.gone--;
    c->lanes[c->count++] = found;
}

/* What is new after an event is its thread's region, or that region's log entry or slot of its line. */
static void find_lanes(chart *c) {
    for (size_t event = 1; event <= c->last; event++) {
        contents record = record_of(&c->events, event - 1);
        int t = thread_of(record), line = line_of(record);
        if (t < 0 || t >= THREADS) continue;
        region_name current = {(uint8_t)t, c->after[event].thread[t].last};
        add_lane(c, event, (lane){.sort = A_REGION, .region = current});
        if (line < 0) continue;
        add_lane(c, event, (lane){.sort = A_LOG_ENTRY, .region = current, .line = (uint8_t)line});
        add_lane(c, event, (lane){.sort = A_SLOT, .region = current, .line = (uint8_t)line});
    }
}

/* Regions first; then by line, then region, a log entry before its slot. */
static int by_line(const void *left, const void *right) {
    const lane *a = left, *b = right;
    if ((a->sort == A_REGION) != (b->sort == A_REGION)) return a->sort == A_REGION ? -1 : 1;
    if (a->line != b->line) return a->line - b->line;
    if (a->region.thread != b->region.thread) return a->region.thread - b->region.thread;
    if (a->region.number != b->region.number) return a->region.number - b->region.number;
    return (int)a->sort - (int)b->sort;
}

/* ---- the layout */

/* Whether a bar of the thread stands in a row when region i comes. */
static int is_taken(const chart *c, size_t i, size_t row) {
    for (size_t j = 0; j < i; j++)
        if (c->lanes[j].region.thread == c->lanes[i].region.thread && c->lanes[j].row == row && c->lanes[j].gone >= c->lanes[i].from) return 1;
    return 0;
}

static void place_regions(chart *c) {
    for (size_t i = 0; i < c->regions; i++)
        while (is_taken(c, i, c->lanes[i].row)) c->lanes[i].row++;
}

/* The thread in whose row an event stands; -1 for the board's. */
static int row_of(const chart *c, size_t event) {
    int t = thread_of(record_of(&c->events, event - 1));
    return t < c->after[c->last].threads ? t : -1;
}

/* The rows of the threads that any event names, each as high as its bars ask for; gives where they end. */
static int place_threads(chart *c) {
    int end = c->top;
    for (int t = 0; t < THREADS; t++) {
        size_t named = 0, rows = 1;
        for (size_t event = 1; event <= c->events.count; event++) named += row_of(c, event) == t;
        for (size_t i = 0; i < c->regions; i++)
            if (c->lanes[i].region.thread == t && c->lanes[i].row >= rows) rows = c->lanes[i].row + 1;
        if (named == 0) continue;
        c->thread_top[t] = end;
        end += THREAD_ROW + LANE * ((int)rows - 1);
    }
    return end;
}

/* The most regions that commit by one event: their names stand above each other. */
static size_t most_commits(const chart *c) {
    size_t most = 1;
    for (size_t i = 0; i < c->regions; i++) {
        size_t commits = 0;
        for (size_t j = 0; j < c->regions; j++) commits += c->lanes[j].gone == c->lanes[i].gone && c->lanes[j].gone <= c->last;
        if (commits > most) most = commits;
    }
    return most;
}

/* An event as it stands in its column, cut off where it is too long; of a setup without parties and reserves T and L alone. The caller's. */
static char *short_text(contents record) {
    static const char zeros[] = " 0 0 0 0 0 0 0 0 0 0";
    char *text = event_text(record);
    size_t length = strlen(text), end = sizeof zeros - 1;
    if (kind_of(record) == BOARD_SETUP && length > end && strcmp(text + length - end, zeros) == 0) text[length - end] = 0;
    if (strlen(text) > MOST_LETTERS) strcpy(text + MOST_LETTERS - 2, "..");
    return text;
}

/* Wide enough for the longest event and the longest answer. */
static int column_width(const run *events) {
    size_t longest = 0;
    for (size_t i = 0; i < events->count; i++) {
        char *text = short_text(record_of(events, i));
        size_t letters = strlen(text), answer = (size_t)snprintf(NULL, 0, "value %" PRIu64, answer_of(events, i).value);
        if (answer > letters) letters = answer;
        if (letters > longest) longest = letters;
        free(text);
    }
    return LETTER * (int)longest + LETTER > COLUMN ? LETTER * (int)longest + LETTER : COLUMN;
}

static void lay_out(chart *c) {
    qsort(c->lanes, c->count, sizeof c->lanes[0], by_line);
    while (c->regions < c->count && c->lanes[c->regions].sort == A_REGION) c->regions++;
    place_regions(c);
    c->column = column_width(&c->events);
    c->top = TOP + 14 * ((int)most_commits(c) - 1);
    c->lines_top = place_threads(c) + BOARD_ROW;
    c->bottom = c->lines_top + LANE * ((int)(c->count - c->regions) + 1) + 8;
}

static int y_of(const chart *c, size_t i) {
    const lane *l = &c->lanes[i];
    return i < c->regions ? c->thread_top[l->region.thread] + BAR + LANE * (int)l->row : c->lines_top + LANE * (int)(i - c->regions);
}

/* ---- drawing */

/* How a lane ends by an event: by its kind a slot landed or was dropped. */
static const char *end_word(const chart *c, const lane *l, size_t event) {
    int landed = kind_of(record_of(&c->events, event - 1)) == BOARD_DATA_ACK;
    return l->sort == A_REGION ? "committed" : l->sort == A_LOG_ENTRY ? "freed" : landed ? "landed" : "dropped";
}

static const char *lost_word(const lane *l, state last) { return l->sort == A_REGION ? "not committed" : last == PERSISTENT ? "in the image" : "lost"; }

/* One bar; the first of a region has its name. */
static void draw_bar(const chart *c, const lane *l, int y, state s, state before, int from, int until) {
    const char *word = s == WAITING && before == IN_FLIGHT ? "taken back" : words[s];
    if (until <= from) return;
    svg_box(c->out, from, y, until - from, BAR_HEIGHT, fills[s]);
    if (s == OPEN) svg_text(c->out, (from + until) / 2, y + BAR_HEIGHT - 6, inside, "%u.%u %s", l->region.thread, l->region.number, word);
    else svg_text(c->out, (from + until) / 2, y + BAR_HEIGHT - 6, inside, "%s", word);
}

/* A lane's bars, each as long as its state stays, and a word where there are no more. */
static void draw_lane(const chart *c, const lane *l, int y) {
    const look good = {"start", GREEN, 0, 0, 0}, bad = {"start", RED, 0, 0, 0};
    state s = NOTHING, before = NOTHING;
    int from = 0, end = x_of(c, c->last) + (c->cut > 0 ? 0 : c->column / 2);
    for (size_t event = l->from; event <= c->last; event++) {
        state next = state_of(l, &c->after[event]);
        if (next == s) continue;
        if (s != NOTHING) draw_bar(c, l, y, s, before, from, x_of(c, event));
        if (next == NOTHING) svg_text(c->out, x_of(c, event) + 6, y + BAR_HEIGHT - 6, good, "%s", end_word(c, l, event));
        before = s;
        s = next;
        from = x_of(c, event);
    }
    if (s != NOTHING) draw_bar(c, l, y, s, before, from, end);
    if (s != NOTHING && c->cut > 0) svg_text(c->out, end + 6, y + BAR_HEIGHT - 6, bad, "%s", lost_word(l, s));
}

static void draw_lanes(const chart *c) {
    for (size_t i = 0; i < c->count; i++) {
        const lane *l = &c->lanes[i];
        const char *what = l->sort == A_SLOT ? "slot" : "log entry";
        int y = y_of(c, i);
        if (l->sort != A_REGION) svg_text(c->out, LEFT - 12, y + 16, label, "line %u: %s of %u.%u", l->line, what, l->region.thread, l->region.number);
        draw_lane(c, l, y);
    }
}

/* A vertical line for each event, bold at commits and at the cut. */
static void draw_moments(const chart *c) {
    const look number = {"middle", GREY, 0, 0, 0}, cut = {"middle", RED, 0, 0, 1};
    svg_text(c->out, LEFT - 12, c->top - 24, (look){"end", GREY, 0, 0, 0}, "event");
    for (size_t event = 1; event <= c->events.count; event++) {
        svg_text(c->out, x_of(c, event), c->top - 24, number, "%zu", event);
        svg_line(c->out, x_of(c, event), c->top - 18, x_of(c, event), c->bottom, FAINT, 1, 0);
    }
    if (c->cut == 0) return;
    svg_line(c->out, x_of(c, c->cut), c->top - 18, x_of(c, c->cut), c->bottom, RED, 3, 1);
    svg_text(c->out, x_of(c, c->cut), c->top - 40, cut, "power cut");
}

static void draw_commits(const chart *c) {
    const look commit = {"middle", GREEN, 0, 0, 1};
    for (size_t i = 0; i < c->regions; i++) {
        const lane *l = &c->lanes[i];
        int above = 0;
        if (l->gone > c->last) continue;
        for (size_t j = 0; j < i; j++) above += c->lanes[j].gone == l->gone;
        svg_line(c->out, x_of(c, l->gone), c->top - 18, x_of(c, l->gone), c->bottom, GREEN, 3, 0);
        svg_text(c->out, x_of(c, l->gone), c->top - 40 - 14 * above, commit, "%u.%u commits", l->region.thread, l->region.number);
    }
}

static void draw_event(const chart *c, size_t event) {
    int t = row_of(c, event), y = t < 0 ? c->lines_top - 42 : c->thread_top[t], kind = kind_of(record_of(&c->events, event - 1));
    board_answer answer = answer_of(&c->events, event - 1);
    int commits = (kind == BOARD_END || kind == BOARD_LOG_ACK || kind == BOARD_DATA_ACK) && answer.value > 0;
    char *text = short_text(record_of(&c->events, event - 1));
    svg_text(c->out, x_of(c, event), y + 14, (look){"middle", INK, 1, 0, 1}, "%s", text);
    if (answer.refusal != 0) svg_text(c->out, x_of(c, event), y + 29, (look){"middle", RED, 1, 0, 0}, "refusal %u", answer.refusal);
    else svg_text(c->out, x_of(c, event), y + 29, (look){"middle", commits ? GREEN : INK, 1, 0, 0}, "value %" PRIu64, answer.value);
    free(text);
}

/* ---- dependences */

static size_t lane_of(const chart *c, region_name name) {
    size_t i = 0;
    while (!same_region(c->lanes[i].region, name)) i++;
    return i;
}

/* An arrow from the event by which a region came to depend on one of another thread to the other's bar. */
static void draw_arrow(const chart *c, size_t event, region_name name, region_name other) {
    size_t from = lane_of(c, name), to = lane_of(c, other);
    const look beside = {"start", INK, 1, 0, 0};
    int x = x_of(c, event), up = other.thread < name.thread;
    int start = up ? c->thread_top[name.thread] : y_of(c, from) + BAR_HEIGHT, end = y_of(c, to) + (up ? BAR_HEIGHT + 2 : -2);
    svg_arrow(c->out, x, start, x, end);
    svg_text(c->out, x + 8, start + (up ? -11 : 18), beside, "%u.%u depends on %u.%u", name.thread, name.number, other.thread, other.number);
}

static int depends_on(const region *r, region_name other) {
    for (size_t i = 0; r != NULL && i < r->depends; i++)
        if (same_region(r->dependence[i], other)) return 1;
    return 0;
}

/* The dependences that a thread's region gains by its event. */
static void draw_dependences(const chart *c, size_t event) {
    int t = row_of(c, event);
    if (t < 0) return;
    region_name current = {(uint8_t)t, c->after[event].thread[t].last};
    const region *r = find_region(&c->after[event], current), *before = find_region(&c->after[event - 1], current);
    for (size_t i = 0; r != NULL && i < r->depends; i++)
        if (r->dependence[i].thread != t && !depends_on(before, r->dependence[i])) draw_arrow(c, event, current, r->dependence[i]);
}

/* ---- the medium and what recovery finds */

/* The line that landed by an event, as the region wrote it whose slot is gone. */
static void draw_landing(const chart *c, size_t event) {
    const look landed = {"middle", GREEN, 1, 0, 0};
    int line = line_of(record_of(&c->events, event - 1)), y = c->lines_top + LANE * (int)(c->count - c->regions);
    if (kind_of(record_of(&c->events, event - 1)) != BOARD_DATA_ACK) return;
    for (size_t i = c->regions; i < c->count; i++) {
        const lane *l = &c->lanes[i];
        if (l->sort != A_SLOT || l->line != line || state_of(l, &c->after[event - 1]) != IN_FLIGHT || state_of(l, &c->after[event]) == IN_FLIGHT) continue;
        svg_text(c->out, x_of(c, event), y + 16, landed, "line %d of %u.%u", line, l->region.thread, l->region.number);
    }
}

/* The words in the image that recovery leaves which are not zero: the first few of them, and how many more there are. */
static void tell_words(const chart *c, FILE *out) {
    uint8_t image[BOARD_IMAGE_BYTES], place[BOARD_PLACE_BYTES] = {0};
    contents file = c->events.file, memory = c->events.memory;
    size_t found = 0, length = (size_t)board_image(file.bytes, file.length, memory.bytes, memory.length, image, sizeof image).value;
    while (board_recovery_step(image, length, place, sizeof place).value != 0) continue;
    for (size_t i = 0; i < WORDS * (size_t)c->after[c->last].lines; i++) {
        uint64_t value = number_at(image + 5 + 65 * (i / WORDS) + 8 * (i % WORDS), 8);
        if (value != 0 && ++found <= MOST_WORDS) fprintf(out, "%sword %zu of line %zu is %" PRIu64, found == 1 ? "" : ", ", i % WORDS, i / WORDS, value);
    }
    if (found == 0) fprintf(out, "no word that is not zero");
    if (found > MOST_WORDS) fprintf(out, ", and %zu more words", found - MOST_WORDS);
}

/* What recovery finds, if there is a cut. */
static void find_words(chart *c) {
    size_t length;
    FILE *out = open_memstream(&c->found, &length);
    if (out == NULL) fail("no memory");
    if (c->cut > 0) {
        fprintf(out, "Recovery finds: ");
        tell_words(c, out);
        fprintf(out, ".");
    }
    if (fclose(out) != 0) fail("no memory");
}

static void draw_captions(const chart *c) {
    static const char *const captions[] = {
        "Region 0.1 is the first of thread 0. A region that ended commits when its slots are empty and it depends on nothing uncommitted. A slot waits",
        "while its line is locked and until its count is 4 or its region has ended; a line is locked while its log entry is in flight. What is in",
        "flight at the cut is lost; log entries that are persistent survive in the image, and recovery undoes by them.",
    };
    svg_text(c->out, MARGIN, c->bottom + 26, (look){"start", INK, 0, 0, 1}, "%s", c->found);
    for (int i = 0; i < 3; i++) svg_text(c->out, MARGIN, c->bottom + 46 + 16 * i, (look){"start", INK, 0, 0, 0}, "%s", captions[i]);
}

/* ---- the picture */

static int larger(int a, int b) { return a > b ? a : b; }

static void draw(const chart *c, const char *title) {
    int width = larger(x_of(c, c->events.count) + RIGHT, 2 * MARGIN + LETTER * (int)strlen(c->found));
    svg_start(c->out, larger(width, LEAST_WIDTH), c->bottom + CAPTIONS, title);
    svg_text(c->out, MARGIN, 24, (look){"start", INK, 0, 16, 1}, "%s", title);
    draw_moments(c);
    draw_commits(c);
    for (int t = 0; t < THREADS; t++)
        if (c->thread_top[t] > 0) svg_text(c->out, LEFT - 12, c->thread_top[t] + 54, bold_label, "thread %d", t);
    svg_text(c->out, LEFT - 12, c->lines_top - 28, bold_label, "board");
    svg_text(c->out, LEFT - 12, c->bottom - LANE - 8 + 16, bold_label, "medium");
    draw_lanes(c);
    for (size_t event = 1; event <= c->events.count; event++) {
        draw_event(c, event);
        draw_dependences(c, event);
        draw_landing(c, event);
    }
    draw_captions(c);
    svg_end(c->out);
}

/* The cut that was accepted, 0 if none was. */
static size_t cut_event(const run *events) {
    for (size_t i = 0; i < events->count; i++)
        if (kind_of(record_of(events, i)) == BOARD_CUT && answer_of(events, i).refusal == 0) return i + 1;
    return 0;
}

/* A file's name without its folder and its ending. The caller's. */
static char *title_of(const char *name) {
    const char *slash = strrchr(name, '/'), *start = slash == NULL ? name : slash + 1;
    char *title = need(strlen(start) + 1);
    strcpy(title, start);
    size_t length = strlen(title), end = strlen(".events");
    if (length > end && strcmp(title + length - end, ".events") == 0) title[length - end] = 0;
    return title;
}

/* What is to be drawn of a run; it is freed with it. */
static chart chart_of(run events) {
    chart c = {.events = events, .cut = cut_event(&events)};
    c.last = c.cut > 0 ? c.cut : events.count;
    c.after = need((events.count + 1) * sizeof c.after[0]);
    for (size_t i = 0; i <= events.count; i++) read_tables(&events, i, &c.after[i]);
    c.lanes = need(3 * (events.count + 1) * sizeof c.lanes[0]);
    find_lanes(&c);
    find_words(&c);
    lay_out(&c);
    return c;
}

static void free_chart(chart *c) {
    free(c->after);
    free(c->lanes);
    free(c->found);
    free_run(&c->events);
}

int timeline_command(const char *usage, int argc, char **argv) {
    const char *name = NULL, *memory_name = NULL, *picture_name = NULL;
    size_t memories = 0, pictures = 0, length;
    const option options[] = {{"-m", &memory_name, 1, &memories}, {"-o", &picture_name, 1, &pictures}, {0}};
    take_words(usage, argc, argv, options, &name, 1, 1);
    if (picture_name == NULL) fail("-o is missing\nusage: board %s", usage);
    contents file = read_file(name);
    const contents *memory = memory_in(memory_name, file);
    run events = run_events(file, memory);
    if (events.count > MOST_EVENTS) fail("%s: %zu events, a picture has at most %d", input_name(name), events.count, MOST_EVENTS);
    chart c = chart_of(events);
    char *picture, *title = title_of(input_name(name));
    c.out = open_memstream(&picture, &length);
    if (c.out == NULL) fail("no memory");
    draw(&c, title);
    if (fclose(c.out) != 0) fail("no memory");
    write_file(picture_name, (const uint8_t *)picture, length);
    free(picture);
    free(title);
    free_chart(&c);
    free(file.bytes);
    if (memory != NULL) free(memory->bytes);
    return SAME;
}
