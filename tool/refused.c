/* Why an image is refused. The verdict is the engine's; which record it is about, and the cause, is looked for here. */
#include "image.h"

/* ---- 1 to 7: what the engine answers to the fronts of the image */

/* The length of the shortest front that is refused as the image is: the shorter ones are cut short. */
static size_t shortest_refused(contents image, uint8_t refusal) {
    size_t low = 0, high = image.length;
    while (low < high) {
        size_t middle = low + (high - low) / 2;
        if (board_recovery_entry(image.bytes, middle, 0).refusal == refusal) high = middle;
        else low = middle + 1;
    }
    return high;
}

/* Regions are ordered by thread, then number. */
static int is_below(region_name a, region_name b) { return a.thread != b.thread ? a.thread < b.thread : a.number < b.number; }

static words unfit_thread(const image_record *record, unsigned threads) {
    if (region_of(record).thread >= threads) return say("thread %u, and T is %u", region_of(record).thread, threads);
    size_t i = 0;
    while (i + 1 < DEPENDENCES && dependence_of(record, i).thread < threads) i++;
    return say("thread %u in dependence %zu, and T is %u", dependence_of(record, i).thread, i + 1, threads);
}

static words unfit_line(const image_record *record, unsigned lines) {
    size_t i = 0;
    while (i + 1 < entries_of(record->kind) && line_logged(record, i) < lines) i++;
    return say("line %u, and L is %u", line_logged(record, i), lines);
}

/* Of two records of one list, the second of which is refused. */
static words unfit_order(const image_record *last, const image_record *record) {
    int is_region = record->kind == BOARD_IMAGE_REGION, is_same = same_region(region_of(last), region_of(record));
    int is_full = record->kind == BOARD_IMAGE_LOG || entries_of(last->kind) == MOST_UNDER_HEADER;
    if (is_below(region_of(record), region_of(last))) return say("it stands behind %s", name_words(region_of(last)).text);
    if (is_same && is_region) return say("it stands there twice");
    if (is_same && !is_full) return say("the header of its region before it is not full");
    return say(is_region ? "one region too many" : "too many log entries of its thread");
}

/* A kind is refused for its place as soon as it is read, what stands behind it only when the record is whole. */
static words unfit_place(contents image, const image_record *record, size_t shortest) {
    image_record last = {0};
    if (record->at > 0) last = record_holding(image, record->at - 1);
    if (last.kind == BOARD_IMAGE_END) return say("bytes behind the end");
    if (shortest == record->at + 1) return say("kind %u is out of its place", record->bytes[0]);
    return unfit_order(&last, record);
}

static words unfit_field(contents image, const image_record *record, size_t shortest, uint8_t refusal) {
    switch (refusal) {
    case BOARD_UNKNOWN_KIND: return say("%u", record->bytes[0]);
    case BOARD_NO_THREAD: return unfit_thread(record, threads_of(image));
    case BOARD_NO_LINE: return unfit_line(record, lines_of(image));
    case BOARD_OUT_OF_RANGE: return say("T is %u, L is %u", threads_of(image), lines_of(image));
    default: return unfit_place(image, record, shortest);
    }
}

/* ---- 8: the causes in the order of the specification. An image that comes so far has records in their places, and no more than there is room for. */

typedef struct {
    size_t regions, logs;
    image_record region[REGIONS], log[THREADS * LOG_ENTRIES];
    uint32_t reached[REGIONS]; /* bit j: the region depends on region j, or on one that reaches it */
} lists;

/* Where a region is listed; the number of regions if it is not. */
static size_t find_listed(const lists *in, region_name name) {
    size_t i = 0;
    while (i < in->regions && !same_region(region_of(&in->region[i]), name)) i++;
    return i;
}

static int depends_on(const image_record *record, region_name name) {
    for (size_t i = 0; i < DEPENDENCES; i++)
        if (same_region(dependence_of(record, i), name)) return 1;
    return 0;
}

static void find_reached(lists *in) {
    for (size_t i = 0; i < in->regions; i++)
        for (size_t j = 0; j < in->regions; j++)
            if (depends_on(&in->region[i], region_of(&in->region[j]))) in->reached[i] |= UINT32_C(1) << j;
    for (size_t by = 0; by < in->regions; by++)
        for (size_t i = 0; i < in->regions; i++)
            if (in->reached[i] >> by & 1) in->reached[i] |= in->reached[by];
}

static void find_lists(contents image, lists *in) {
    for (image_record record = {0}; next_record(image, &record);) {
        if (record.kind == BOARD_IMAGE_REGION) in->region[in->regions++] = record;
        if (entries_of(record.kind) > 0) in->log[in->logs++] = record;
    }
    find_reached(in);
}

/* A cause in words, if region i or log record i gives it; else no words. */
typedef words cause(const lists *in, size_t i);
static const words none = {""};

static words zero_number(const lists *in, size_t i) { return region_of(&in->region[i]).number == 0 ? say("its number is 0") : none; }

static words unknown_state(const lists *in, size_t i) {
    uint8_t state = state_of(&in->region[i]);
    return state > 1 ? say("its state is %u", state) : none;
}

static words unordered_dependence(const lists *in, size_t i) {
    region_name last = {0, 0}, next;
    for (size_t k = 0; k < DEPENDENCES; k++, last = next) {
        next = dependence_of(&in->region[i], k);
        if (next.number == 0 && next.thread != 0) return say("dependence %zu is none, but has thread %u", k + 1, next.thread);
        if (k > 0 && next.number != 0 && (last.number == 0 || !is_below(last, next))) return say("dependence %zu is out of order", k + 1);
    }
    return none;
}

static words unlisted_dependence(const lists *in, size_t i) {
    for (size_t k = 0; k < DEPENDENCES; k++) {
        region_name name = dependence_of(&in->region[i], k);
        if (name.number == 0 || find_listed(in, name) < in->regions) continue;
        return say("dependence %zu is %s, which is not listed", k + 1, name_words(name).text);
    }
    return none;
}

static words unlisted_entry(const lists *in, size_t i) {
    return find_listed(in, region_of(&in->log[i])) == in->regions ? say("its region is not listed") : none;
}

static words missing_predecessor(const lists *in, size_t i) {
    if (i == 0) return none;
    region_name last = region_of(&in->region[i - 1]), name = region_of(&in->region[i]);
    if (last.thread != name.thread) return none;
    if (last.number + 1 != name.number) return say("numbers of its thread are left out behind %s", name_words(last).text);
    return depends_on(&in->region[i], last) ? none : say("it does not depend on %s", name_words(last).text);
}

static words circle(const lists *in, size_t i) { return i < REGIONS && (in->reached[i] >> i & 1) ? say("its dependences lead back to it") : none; }

static words done_alone(const lists *in, size_t i) {
    return state_of(&in->region[i]) == 1 && dependence_of(&in->region[i], 0).number == 0 ? say("it is done and has no dependences") : none;
}

/* Whether one of two listed regions reaches the other. */
static int are_ordered(const lists *in, region_name a, region_name b) {
    size_t i = find_listed(in, a), j = find_listed(in, b);
    return ((in->reached[i] >> j) | (in->reached[j] >> i)) & 1;
}

/* Whether a line is among the first entries of a record, so many of them. */
static int is_logged(const image_record *record, size_t entries, uint8_t line) {
    for (size_t i = 0; i < entries; i++)
        if (line_logged(record, i) == line) return 1;
    return 0;
}

/* Of a line under record i, and the entries before it. */
static words line_twice(const lists *in, size_t i, size_t entry) {
    region_name name = region_of(&in->log[i]), other;
    uint8_t line = line_logged(&in->log[i], entry);
    for (size_t j = 0; j <= i; j++) {
        if (!is_logged(&in->log[j], j < i ? entries_of(in->log[j].kind) : entry, line)) continue;
        other = region_of(&in->log[j]);
        if (same_region(name, other)) return say("it logs line %u a second time", line);
        if (!are_ordered(in, name, other)) return say("line %u is logged for %s too, and neither reaches the other", line, name_words(other).text);
    }
    return none;
}

static words logged_twice(const lists *in, size_t i) {
    words found = none;
    for (size_t k = 0; k < entries_of(in->log[i].kind) && found.text[0] == 0; k++) found = line_twice(in, i, k);
    return found;
}

/* The first cause, and the record that gives it. */
static words find_cause(contents image, image_record *record) {
    static const struct { cause *find; int in_log; } causes[] = {
        {zero_number, 0}, {unknown_state, 0}, {unordered_dependence, 0}, {unlisted_dependence, 0}, {unlisted_entry, 1}, {missing_predecessor, 0},
        {circle, 0}, {done_alone, 0}, {logged_twice, 1},
    };
    lists in = {0};
    words found = none;
    find_lists(image, &in);
    for (size_t c = 0; c < sizeof causes / sizeof causes[0]; c++)
        for (size_t i = 0; i < (causes[c].in_log ? in.logs : in.regions) && found.text[0] == 0; i++) {
            *record = causes[c].in_log ? in.log[i] : in.region[i];
            found = causes[c].find(&in, i);
        }
    return found;
}

/* ---- the message */

/* The last record is cut short, or is not the end. */
static _Noreturn void refuse_short(const char *name, contents image) {
    image_record last = record_holding(image, image.length > 0 ? image.length - 1 : 0);
    int is_cut = last.kind == 0 && last.length > 0;
    words why = is_cut ? say("record %zu, from byte %zu on, is cut short", last.number, last.at) : say("the end record is missing");
    fail("%s: byte %zu, where it ends: refused with %d: %s: %s", name, image.length, BOARD_CUT_SHORT, board_refusal_text(BOARD_CUT_SHORT), why.text);
}

void refuse_image(const char *name, contents image, uint8_t refusal) {
    image_record record = {0};
    words why;
    if (refusal == BOARD_CUT_SHORT) refuse_short(name, image);
    if (refusal == BOARD_CONTRADICTION) {
        why = find_cause(image, &record);
    } else {
        size_t shortest = shortest_refused(image, refusal);
        record = record_holding(image, shortest - 1);
        why = unfit_field(image, &record, shortest, refusal);
    }
    fail("%s: byte %zu: record %zu, %s: refused with %u: %s: %s", name, record.at, record.number, record_words(&record).text, refusal,
         board_refusal_text(refusal), why.text);
}
