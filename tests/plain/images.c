/* Image refusals 1 to 8 in their order, the walk, and damaged images, in both forms, on the plain engine. */
#include <stdio.h>
#include <string.h>

#include "common.h"
#include "damage.h"

static unsigned passed, failed;

static void check(int holds, const char *what, unsigned long long at) {
    if (holds) {
        passed++;
    } else {
        failed++;
        printf("FAILED image: %s %llu\n", what, at);
    }
}

/* ---- Building an image ---- */

static uint8_t image[PLAIN_IMAGE_BYTES + 70];
static size_t length;

static void put(uint8_t byte) { image[length++] = byte; }

static void put_region(uint8_t thread, uint8_t number) {
    put(thread);
    put(number);
    put(0);
}

static void put_head(uint8_t threads, uint8_t lines) {
    length = 0;
    put(IMAGE_HEAD);
    put(threads);
    put(lines);
    put(0);
    for (uint8_t l = 0; l < lines; l++) {
        put(IMAGE_LINE);
        for (int i = 0; i < PLAIN_LINE_BYTES; i++) put((uint8_t)(100 + l));
    }
}

/* An entry with one dependence, or none for number 0. */
static void put_entry(uint8_t thread, uint8_t number, uint8_t state, uint8_t on_thread, uint8_t on_number) {
    put(IMAGE_DEPENDENCE);
    put_region(thread, number);
    put(state);
    put_region(on_thread, on_number);
    for (int i = 0; i < 3; i++) put_region(0, 0);
}

/* A record of log entries: as many as its kind says, their lines and the bytes of their old lines rising one by one. */
static void put_record(uint8_t kind, uint8_t thread, uint8_t number, uint8_t line, uint8_t old) {
    uint8_t k = kind == IMAGE_LOG ? 1 : kind < IMAGE_HEADER ? 0 : (uint8_t)(kind - IMAGE_HEADER);
    put(kind);
    put_region(thread, number);
    for (uint8_t i = 0; i < k; i++) put((uint8_t)(line + i));
    for (int i = 0; i < PLAIN_LINE_BYTES * k; i++) put((uint8_t)(old + i / PLAIN_LINE_BYTES));
}

static void put_log(uint8_t thread, uint8_t number, uint8_t line, uint8_t old) { put_record(IMAGE_LOG, thread, number, line, old); }

/* A good image: lines at 4 and 69, entries at 134, 151, 168, log entries at 185, 254, 323, end at 392. */
static void put_good(void) {
    put_head(2, 2);
    put_entry(0, 1, 0, 0, 0);
    put_entry(0, 2, 0, 0, 1);
    put_entry(1, 5, 1, 0, 2);
    put_log(0, 1, 0, 11);
    put_log(0, 2, 1, 12);
    put_log(1, 5, 0, 15);
    put(IMAGE_END);
}

/* A good new image: lines from 4 on, entries at 784, 801, 818, headers at 835 and 1294 (one region), 1363, 1497, end at 1696. */
static void put_good_headed(void) {
    put_head(2, 12);
    put_entry(0, 1, 0, 0, 0);
    put_entry(0, 2, 0, 0, 1);
    put_entry(1, 5, 1, 0, 2);
    put_record(47, 0, 1, 0, 11);
    put_record(41, 0, 1, 7, 18);
    put_record(42, 0, 2, 8, 21);
    put_record(43, 1, 5, 0, 31);
    put(IMAGE_END);
}

typedef plain_answer recovery_step(uint8_t *, size_t, uint8_t *, size_t);

/* A step over the image must give the refusal and then leave image and place. */
static void expect_of(recovery_step *call, uint8_t refusal, const char *what, unsigned long long at) {
    static uint8_t entry[sizeof image];
    uint8_t place[8] = {0};
    memcpy(entry, image, sizeof entry);
    plain_answer a = call(image, length, place, sizeof place);
    check(a.refusal == refusal && (refusal == 0 || a.value == 0), what, at);
    if (refusal != 0) check(memcmp(entry, image, sizeof entry) == 0 && get64(place) == 0, "bytes changed by a refused step", at);
}

/* What the old step and the new one give. */
static void expect_both(uint8_t old, uint8_t headed, const char *what, unsigned long long at) {
    expect_of(plain_recovery_step, old, what, at);
    expect_of(plain_recovery_step_headed, headed, what, at);
}

/* Of an image without headers both give the same. */
static void expect(uint8_t refusal, const char *what, unsigned long long at) { expect_both(refusal, refusal, what, at); }

/* ---- Edits of the good image ---- */

typedef struct { size_t at; uint8_t to; } byte_edit;
typedef struct { uint8_t refusal; byte_edit edit[3]; } image_edit; /* at 0 with 0 is no edit */

static const image_edit edits[] = {
    {2, {{0, 31}}}, {7, {{0, 33}}}, {7, {{0, 36}}}, {6, {{1, 9}}}, {6, {{2, 0}}}, {6, {{3, 2}}}, {7, {{2, 1}}}, {7, {{2, 3}}},
    {7, {{4, 34}}}, {2, {{69, 37}}}, {7, {{69, 36}}}, {7, {{69, 32}}},
    {3, {{135, 2}}}, {3, {{139, 2}}}, {8, {{139, 1}}}, {3, {{148, 2}}}, {8, {{148, 1}}}, /* threads of region and dependences */
    {8, {{136, 0}}}, {7, {{136, 2}}}, {7, {{136, 3}}}, {8, {{138, 2}}}, {8, {{138, 1}}}, /* number 0, keys, states */
    {8, {{153, 3}}}, {8, {{157, 0}}}, {8, {{157, 2}}},             /* consecutive, predecessor, itself */
    {8, {{174, 9}}}, {8, {{177, 1}}}, {8, {{177, 2}}}, {8, {{180, 2}}}, /* not listed, falling, repeated, behind an empty one */
    {8, {{139, 1}, {140, 5}}}, {8, {{176, 1}, {177, 5}}},          /* circles */
    {0, {{174, 1}, {177, 2}}}, {8, {{174, 0}}},                  /* two in order, done without dependences */
    {3, {{186, 2}}}, {4, {{189, 2}}}, {3, {{186, 2}, {189, 2}}}, {7, {{187, 3}}}, {4, {{256, 0}, {258, 2}}}, {7, {{256, 0}}},
    {8, {{256, 3}}}, {8, {{187, 0}}}, {0, {{258, 0}}}, {8, {{256, 1}, {258, 0}}}, /* not listed, one line in three regions, twice in one */
    {8, {{172, 0}, {174, 0}}},                                     /* two regions log line 0, neither reaches the other */
    {7, {{254, 34}}}, {7, {{254, 33}}}, {7, {{254, 36}}}, {1, {{392, 35}}}, {7, {{392, 34}}}, {2, {{392, 8}}},
    {7, {{138, 2}, {254, 36}}}, {3, {{152, 2}, {153, 0}}}, {3, {{138, 2}, {186, 2}}},
};

/* Edits of the new one, by what the new step gives; the old step gives 2 at the first header. */
static const image_edit headed_edits[] = {
    {2, {{835, 40}}}, {2, {{835, 48}}}, {2, {{835, 37}}}, {2, {{1294, 40}}}, {2, {{1497, 48}}}, {2, {{1696, 40}}}, {1, {{1696, 41}}}, {1, {{1696, 47}}},
    {7, {{0, 41}}}, {7, {{4, 47}}}, {7, {{719, 41}}}, /* where the head and lines stand */
    {7, {{1294, 35}}}, {7, {{1497, 35}}}, {7, {{1696, 35}}}, {7, {{1294, 34}}}, {7, {{1696, 33}}}, {7, {{1363, 32}}}, {7, {{1294, 36}}},
    {3, {{836, 2}}}, {3, {{1498, 255}}}, {7, {{836, 1}}}, {8, {{1364, 1}}}, {8, {{1498, 0}}},    /* thread: unknown, falling, not listed */
    {7, {{837, 2}}}, {7, {{838, 1}}}, {8, {{837, 0}}}, {7, {{1296, 0}}}, {7, {{1365, 0}}}, {8, {{1365, 3}}}, {8, {{1500, 1}}}, /* number */
    {7, {{1296, 2}}}, {7, {{1365, 1}}}, {8, {{837, 0}, {1296, 0}}}, {7, {{837, 0}, {1296, 0}, {1365, 0}}}, /* behind one of its region: key 0 too */
    {4, {{839, 12}}}, {4, {{842, 255}}}, {4, {{845, 12}}}, {4, {{1298, 12}}}, {4, {{1368, 12}}}, {4, {{1503, 12}}}, /* the first, a middle, the last line */
    {0, {{845, 11}}}, {0, {{1367, 7}}}, {8, {{845, 5}}}, {8, {{1298, 0}}}, {8, {{1368, 8}}}, {8, {{1503, 1}}}, /* a line twice in a record, in a region */
    {8, {{822, 0}, {824, 0}}}, {8, {{788, 2}}}, {8, {{805, 1}, {807, 0}}}, /* lines 0 to 2 in two regions apart, a state, done without dependences */
    {3, {{836, 2}, {845, 12}}}, {4, {{1296, 0}, {1298, 12}}}, {4, {{1365, 1}, {1368, 12}}}, {3, {{1364, 2}, {1365, 0}}}, /* the order, with what fits too */
    {7, {{1294, 35}, {1295, 2}}}, {2, {{1294, 48}, {1295, 2}}}, {7, {{788, 2}, {1365, 1}}}, {4, {{788, 2}, {1503, 12}}}, {2, {{788, 2}, {1696, 48}}},
};

static void make_edit(const image_edit *e) {
    for (int j = 0; j < 3; j++)
        if (e->edit[j].at != 0 || e->edit[j].to != 0) image[e->edit[j].at] = e->edit[j].to;
}

static void try_edits(void) {
    for (size_t i = 0; i < sizeof edits / sizeof edits[0]; i++) {
        put_good();
        make_edit(&edits[i]);
        expect(edits[i].refusal, "edit", i);
    }
    for (size_t i = 0; i < sizeof headed_edits / sizeof headed_edits[0]; i++) {
        put_good_headed();
        make_edit(&headed_edits[i]);
        expect_both(2, headed_edits[i].refusal, "edit of a new image", i);
    }
    put_good();
    image[1] = 0;
    expect(6, "no threads", 0);
}

/* Every cut of a good image is 1; a byte behind it is 7, also before 8. The old step sees no more of the new image than its first header. */
static void try_lengths(void) {
    put_good();
    check(length == 393, "length of the good image", length);
    for (length = 0; length < 393; length++) expect(1, "length", length);
    put_good();
    put(IMAGE_END);
    expect(7, "byte after the end", 0);
    image[138] = 2;
    expect(7, "byte after the end, before 8", 0);
    put_good_headed();
    check(length == 1697, "length of the good new image", length);
    for (length = 0; length < 1697; length++) expect_both(length <= 835 ? 1 : 2, 1, "length of a new image", length);
    expect_both(2, 0, "good new image", 0);
    put(IMAGE_END);
    expect_both(2, 7, "byte after the end of a new image", 0);
    image[788] = 2;
    expect_both(2, 7, "byte after the end of a new image, before 8", 0);
}

/* Entries of so many consecutive numbers of a thread, each with its predecessor. */
static void put_run(uint8_t thread, uint8_t first, uint8_t count) {
    put_entry(thread, first, 0, 0, 0);
    for (uint8_t i = 1; i < count; i++) put_entry(thread, (uint8_t)(first + i), 0, thread, (uint8_t)(first + i - 1));
}

/* An image has no channels: 20 entries of one parity, that of the first numbers, and 12 of the other are accepted. */
static void try_parities(void) {
    for (uint8_t first = 1; first <= 2; first++) {
        put_head(PLAIN_THREADS, 1);
        for (uint8_t t = 0; t < PLAIN_THREADS; t++) put_run(t, first, t < 4 ? 5 : 3);
        put(IMAGE_END);
        expect(0, "entries of one parity, from number", first);
    }
}

/* 32 entries of kind 34 and 32 log entries of a thread are accepted, the 33rd is 7. */
static void try_counts(void) {
    for (uint8_t entries = 32; entries <= 33; entries++) {
        put_head(1, 1);
        put_run(0, 1, entries);
        put(IMAGE_END);
        expect(entries == 32 ? 0 : 7, "dependence entries", entries);
        put_head(1, 33);
        put_entry(0, 1, 0, 0, 0);
        for (uint8_t i = 0; i < entries; i++) put_log(0, 1, i, 1);
        put(IMAGE_END);
        expect(entries == 32 ? 0 : 7, "log entries", entries);
    }
}

/* ---- Log records one behind the other ---- */

/* 40 lines, regions 1 and 2 of threads 0 and 1; each second one depends on the first. Log records follow. */
static void put_front(void) {
    put_head(2, 40);
    for (uint8_t t = 0; t < 2; t++) put_run(t, 1, 2);
}

typedef struct { uint8_t kind, thread, number, line; } log_record;
typedef struct { uint8_t refusal, left; log_record record[6]; } log_case; /* so many bytes of the last record are left; 0: the whole, and the end */

static const log_case log_cases[] = {
    {0, 0, {{41, 0, 1, 0}}}, {0, 0, {{47, 0, 1, 0}}}, {0, 0, {{47, 1, 2, 33}}},
    /* 8 and 14 entries of one region; records of fewer than seven before another region */
    {0, 0, {{47, 0, 1, 0}, {41, 0, 1, 7}}}, {0, 0, {{47, 0, 1, 0}, {47, 0, 1, 7}}}, {0, 0, {{41, 0, 1, 0}, {41, 0, 2, 1}, {41, 1, 1, 2}, {41, 1, 2, 3}}},
    {0, 0, {{47, 0, 1, 0}, {44, 0, 1, 7}, {46, 0, 2, 11}, {47, 1, 1, 17}, {41, 1, 1, 24}}},
    /* 7: behind fewer than seven of its region */
    {7, 0, {{47, 0, 1, 0}, {46, 0, 1, 7}, {41, 0, 1, 13}}}, {7, 0, {{41, 0, 1, 0}, {47, 0, 1, 1}}}, {7, 0, {{45, 0, 1, 0}, {45, 0, 1, 5}}},
    /* 7: regions that fall */
    {7, 0, {{41, 0, 2, 0}, {41, 0, 1, 1}}}, {7, 0, {{47, 1, 1, 0}, {41, 0, 2, 7}}}, {7, 0, {{41, 0, 1, 0}, {41, 0, 2, 1}, {41, 0, 1, 2}}},
    /* 7: both forms, also where the second is cut short, or has a thread or a line that is not there */
    {7, 0, {{35, 0, 1, 0}, {41, 0, 1, 1}}}, {7, 0, {{35, 0, 1, 0}, {47, 1, 2, 1}}}, {7, 0, {{41, 0, 1, 0}, {35, 0, 2, 1}}},
    {7, 0, {{47, 0, 1, 0}, {35, 0, 1, 7}}}, {7, 1, {{35, 0, 1, 0}, {41, 0, 1, 1}}}, {7, 1, {{41, 0, 1, 0}, {35, 0, 2, 1}}},
    {7, 9, {{35, 0, 1, 0}, {47, 2, 1, 40}}}, {7, 4, {{47, 0, 1, 0}, {35, 2, 1, 40}}},
    /* 7: no place behind a header, bytes after the end */
    {7, 1, {{41, 0, 1, 0}, {34, 0, 0, 0}}}, {7, 1, {{47, 0, 1, 0}, {33, 0, 0, 0}}}, {7, 1, {{41, 0, 1, 0}, {32, 0, 0, 0}}},
    {7, 4, {{41, 0, 1, 0}, {36, 0, 0, 0}}},
    /* 2: kinds beside those of headers, before 7 and 1 */
    {2, 1, {{40, 0, 0, 0}}}, {2, 1, {{48, 0, 0, 0}}}, {2, 0, {{48, 0, 1, 0}}}, {2, 1, {{41, 0, 1, 0}, {37, 0, 0, 0}}},
    {2, 4, {{46, 0, 1, 0}, {40, 0, 1, 6}}}, {2, 1, {{35, 0, 1, 0}, {40, 0, 0, 0}}}, {2, 1, {{35, 0, 1, 0}, {48, 0, 0, 0}}},
    /* 3, then 4 for any line, then 7, then 8 */
    {3, 0, {{41, 2, 1, 0}}}, {3, 0, {{47, 255, 1, 34}}}, {3, 0, {{41, 1, 1, 0}, {41, 2, 1, 40}}}, {4, 0, {{41, 0, 1, 40}}},
    {4, 0, {{47, 0, 1, 34}}}, {4, 0, {{42, 0, 1, 39}}}, {4, 0, {{41, 0, 2, 0}, {47, 0, 1, 34}}}, {4, 0, {{41, 0, 1, 0}, {42, 0, 1, 39}}},
    {7, 0, {{41, 0, 3, 0}, {41, 0, 1, 1}}}, {7, 0, {{41, 0, 1, 0}, {41, 0, 1, 0}}},
    /* 1: cut short in the header, the lines, the old lines, before 3, 4 and 7 for regions */
    {1, 1, {{41, 0, 1, 0}}}, {1, 3, {{41, 0, 1, 0}}}, {1, 4, {{47, 0, 1, 0}}}, {1, 10, {{47, 2, 1, 0}}}, {1, 11, {{47, 0, 1, 40}}},
    {1, 250, {{47, 0, 1, 34}}}, {1, 68, {{41, 2, 1, 0}}}, {1, 5, {{41, 0, 1, 0}, {42, 0, 1, 1}}}, {1, 68, {{41, 0, 2, 0}, {41, 0, 1, 1}}},
    {1, 4, {{35, 0, 1, 0}}},
    /* 8: number 0, which stands before all others; not listed; one line twice in a region, and in two of which neither reaches the other */
    {8, 0, {{41, 0, 0, 0}}}, {8, 0, {{47, 0, 0, 0}, {41, 0, 0, 7}}}, {7, 0, {{41, 0, 0, 0}, {41, 0, 0, 1}}}, {8, 0, {{41, 0, 0, 0}, {41, 0, 1, 1}}},
    {8, 0, {{41, 0, 3, 0}}}, {8, 0, {{47, 0, 1, 0}, {41, 0, 1, 6}}}, {8, 0, {{42, 0, 1, 0}, {41, 1, 1, 1}}}, {8, 0, {{47, 0, 1, 0}, {47, 1, 2, 6}}},
    {0, 0, {{42, 0, 1, 0}, {42, 0, 2, 1}}},
};

/* The old step gives 2 at the first header, and what the new one gives where there is none. */
static void try_log_cases(void) {
    for (size_t i = 0; i < sizeof log_cases / sizeof log_cases[0]; i++) {
        const log_case *c = &log_cases[i];
        size_t last = 0;
        int headed = 0;
        put_front();
        for (const log_record *r = c->record; r < c->record + 6 && r->kind != 0; r++) {
            last = length;
            put_record(r->kind, r->thread, r->number, r->line, 1);
            headed |= r->kind > IMAGE_HEADER;
        }
        if (c->left == 0) put(IMAGE_END);
        else length = last + c->left;
        expect_both(headed ? 2 : c->refusal, c->refusal, "log records, case", i);
    }
}

/* Every two kinds: of one region the second may stand only behind seven, of another one always, unless regions fall. */
static void try_pairs(void) {
    static const struct { uint8_t number, thread, next, refusal; } regions[] = {
        {1, 0, 1, 7}, {1, 0, 2, 0}, {1, 1, 1, 0}, {2, 1, 1, 0}, {2, 0, 1, 7}, {1, 0, 0, 7},
    };
    for (uint8_t first = 41; first <= 47; first++)
        for (uint8_t second = 41; second <= 47; second++)
            for (size_t i = 0; i < sizeof regions / sizeof regions[0]; i++) {
                put_front();
                put_record(first, 0, regions[i].number, 0, 1);
                put_record(second, regions[i].thread, regions[i].next, 7, 8);
                put(IMAGE_END);
                expect_both(2, i == 0 && first == 47 ? 0 : regions[i].refusal, "two kinds", 100 * first + second);
            }
}

/* n entries of region 1 of thread 0, in records of seven and one for what is left. */
static void put_sevens(uint8_t n) {
    for (uint8_t line = 0; line < n; line = (uint8_t)(line + 7)) put_record(n - line < 7 ? (uint8_t)(40 + n - line) : 47, 0, 1, line, 1);
}

/* 32 entries of a thread with those of the last record are accepted, 33 are 7: of one region and of two, whatever other threads have. */
static void try_headed_counts(void) {
    for (uint8_t n = 1; n <= 40; n++) {
        put_front();
        put_sevens(n);
        put(IMAGE_END);
        expect_both(2, n <= 32 ? 0 : 7, "entries under headers", n);
    }
    for (uint8_t n = 32; n <= 33; n++)
        for (uint8_t k = 1; k <= 7; k++) {
            put_front();
            put_sevens((uint8_t)(n - k));
            put_record((uint8_t)(40 + k), 0, 2, (uint8_t)(n - k), 1);
            put_record(47, 1, 1, 33, 1);
            put(IMAGE_END);
            expect_both(2, n == 32 ? 0 : 7, "entries under headers of two regions", k);
        }
}

/* ---- The walk ---- */

/* A step must set the line's 64 bytes to the byte, leave all others, and answer the value. */
static void step_by(recovery_step *call, uint8_t *place, size_t line, uint8_t byte, uint64_t value) {
    static uint8_t wanted[sizeof image];
    memcpy(wanted, image, sizeof wanted);
    memset(wanted + 4 + 65 * line + 1, byte, PLAIN_LINE_BYTES);
    plain_answer a = call(image, length, place, 8);
    check(a.refusal == 0 && a.value == value, "step to", byte);
    check(memcmp(wanted, image, sizeof wanted) == 0, "restored", byte);
}

static void step(uint8_t *place, size_t line, uint8_t byte, uint64_t value) { step_by(plain_recovery_step, place, line, byte, value); }

static void try_walk(void) {
    uint8_t place[8] = {0};
    put_good();
    check(plain_recovery_step(image, length, place, 7).refusal == 6, "place of seven bytes", 7);
    step(place, 0, 15, 1);
    step(place, 1, 12, 1);
    step(place, 0, 11, 0);
    step(place, 0, 11, 0);
    check(get64(place) == 3, "place at the end", get64(place));
    put_good();
    put64(place, UINT64_MAX);
    step(place, 0, 100, 0);
    check(get64(place) == UINT64_MAX, "place past the last", get64(place));
    /* Lowest thread first among the free; thread 1's region without entries holds thread 0's back until its turn. */
    put_head(3, 3);
    put_entry(0, 1, 0, 0, 0);
    put_entry(1, 1, 0, 0, 1);
    put_entry(2, 1, 0, 0, 0);
    put_log(0, 1, 0, 20);
    put_log(0, 1, 2, 21);
    put_log(2, 1, 1, 22);
    put(IMAGE_END);
    put64(place, 0);
    step(place, 2, 21, 1);
    step(place, 0, 20, 1);
    step(place, 1, 22, 0);
}

/* The entries of a new image go last first, over all records of a region. */
static void try_headed_walk(void) {
    static const uint8_t walk[][2] = {{2, 33}, {1, 32}, {0, 31}, {9, 22}, {8, 21}, {7, 18}, {6, 17}, {5, 16}, {4, 15}, {3, 14}, {2, 13}, {1, 12}, {0, 11}};
    uint8_t place[8] = {0};
    put_good_headed();
    check(plain_recovery_step_headed(image, length, place, 9).refusal == 6, "place of nine bytes", 9);
    for (size_t i = 0; i < 13; i++) step_by(plain_recovery_step_headed, place, walk[i][0], walk[i][1], i < 12);
    check(get64(place) == 13, "place at the end of a new image", get64(place));
    step_by(plain_recovery_step_headed, place, 0, 11, 0);
    check(get64(place) == 13, "place past the last of a new image", get64(place));
}

/* ---- Damaged images ---- */

/* The log of an accepted image is the one that its form has for these entries, byte by byte. */
static void expect_single(unsigned long long seed) {
    static uint8_t given[sizeof image];
    static plain_contents c;
    size_t given_len = length;
    memcpy(given, image, length);
    check(plain_read_image(given, given_len, 1, &c) == 0, "accepted image", seed);
    length = 4 + 65 * (size_t)c.lines + 17 * (size_t)c.entries;
    int headed = given[length] != IMAGE_LOG;
    for (uint32_t i = 0, k; i < c.logs; i += k) {
        for (k = 1; headed && k < 7 && i + k < c.logs && same(c.log[i].region, c.log[i + k].region);) k++;
        put_record((uint8_t)(headed ? 40 + k : IMAGE_LOG), c.log[i].region.thread, (uint8_t)c.log[i].region.number, 0, 0);
        for (uint32_t j = 0; j < k; j++) image[length - 65 * k + j] = c.log[i + j].line;
        for (uint32_t j = 0; j < k; j++) memcpy(image + length - 64 * (k - j), given + c.log[i + j].old_at, PLAIN_LINE_BYTES);
    }
    put(IMAGE_END);
    check(length == given_len && memcmp(image, given, length) == 0, "an image of the same state", seed);
}

/* Both steps give a refusal that there is, and then change nothing; the old one gives what the new one gives, or 2. */
static void try_damaged_image(unsigned long long seed) {
    static uint8_t entry[sizeof image];
    uint8_t place[2][8] = {{0}, {0}};
    memcpy(entry, image, length);
    plain_answer a = plain_recovery_step(image, length, place[0], 8);
    memcpy(image, entry, length);
    plain_answer b = plain_recovery_step_headed(image, length, place[1], 8);
    check(b.refusal <= 8 && b.refusal != 5, "refusal of a damaged image", b.refusal);
    check(a.refusal == 2 || (a.refusal == b.refusal && a.value == b.value && memcmp(place[0], place[1], 8) == 0), "the two steps over a damaged image", seed);
    if (b.refusal != 0) check(memcmp(entry, image, length) == 0 && get64(place[1]) == 0, "damaged image changed", seed);
    else expect_single(seed);
}

/* A few bytes of the list and the log, or of any place. */
static void damage_bytes(random_source *source, size_t lists) {
    for (uint64_t left = 1 + random_below(source, 3); left > 0; left--) {
        size_t at = random_chance(source, 8) ? random_below(source, length) : lists + random_below(source, length - lists);
        image[at] = random_chance(source, 4) ? (uint8_t)random_next(source) : (uint8_t)random_below(source, 6);
    }
}

static void try_damaged(uint64_t seed) {
    static uint8_t file[402 * PLAIN_RECORD_BYTES];
    static const uint8_t memory[PLAIN_LINE_BYTES * 24];
    random_source source = {seed};
    uint8_t threads = (uint8_t)(1 + random_below(&source, 4));
    uint16_t lines = (uint16_t)(1 + random_below(&source, random_chance(&source, 2) ? 6 : 24));
    size_t file_len = random_file(seed, RANDOM_DEEP, threads, lines, 2 + random_below(&source, 398), file), lent = PLAIN_LINE_BYTES * (size_t)lines;
    length = (random_chance(&source, 2) ? plain_image : plain_image_headed)(file, file_len, memory, lent, image, sizeof image).value;
    if (random_chance(&source, 2)) damage_bytes(&source, 4 + 65 * (size_t)lines);
    else length = damage_records(&source, image, sizeof image);
    if (random_chance(&source, 8)) length = random_below(&source, length);
    try_damaged_image(seed);
}

int main(void) {
    try_edits();
    try_lengths();
    try_counts();
    try_parities();
    try_log_cases();
    try_pairs();
    try_headed_counts();
    try_walk();
    try_headed_walk();
    for (uint64_t seed = 1; seed <= 10000; seed++) try_damaged(seed);
    printf("%u passed, %u failed\n", passed, failed);
    return failed > 0;
}
