/* The cases P1 to P11 of document 01, the 33rd logged line, counts, fences inside a region, writes of bytes, spent numbers, parties and reserves,
   channels, lines that somebody is reading, log entries under headers, and the calls' own refusals. */
#include <stdio.h>
#include <string.h>

#include "common.h"
#include "random.h"

static unsigned passed, failed;

static void check(int holds, const char *name, const char *what, unsigned long long at) {
    if (holds) {
        passed++;
    } else {
        failed++;
        printf("FAILED %s: %s %llu\n", name, what, at);
    }
}

/* ---- A case: an event file and the answers it must get ---- */

enum { MOST_EVENTS = 400 };
static const char *name;
static uint8_t file[MOST_EVENTS * PLAIN_RECORD_BYTES], image[2][PLAIN_IMAGE_BYTES]; /* the old image and the new one */
static const uint8_t memory[PLAIN_LINES * PLAIN_LINE_BYTES];
static plain_answer wanted[MOST_EVENTS];
static size_t file_len, events, image_len[2];
static unsigned board_lines;

static void put(uint8_t refusal, uint64_t value, size_t length, const uint8_t *record) {
    memcpy(file + file_len, record, length);
    file_len += length;
    wanted[events++] = (plain_answer){refusal, value};
}

static void start_case(const char *title, uint16_t lines) {
    name = title;
    file_len = events = 0;
    board_lines = lines;
}

/* A setup with the parties of thread 0 and up and the two reserves; the refusal that is due. */
static void setup_shares(uint8_t threads, uint16_t lines, uint64_t parties, uint8_t first, uint8_t second, uint8_t r) {
    uint8_t record[PLAIN_RECORD_BYTES], shares[PLAIN_SHARES];
    put64(shares, parties);
    shares[PLAIN_THREADS] = first;
    shares[PLAIN_THREADS + 1] = second;
    put_setup(record, threads, lines, shares);
    put(r, 0, sizeof record, record);
}

static void setup(const char *title, uint8_t threads, uint16_t lines) {
    start_case(title, lines);
    setup_shares(threads, lines, 0, 0, 0, 0);
}

/* Each takes its fields, then the refusal and value that are due. */
static void begin(uint8_t t, uint8_t r, uint64_t v) { put(r, v, 2, (uint8_t[]){EVENT_BEGIN, t}); }
static void end(uint8_t t, uint8_t r, uint64_t v) { put(r, v, 2, (uint8_t[]){EVENT_END, t}); }
static void log_ack(uint8_t l, uint8_t r, uint64_t v) { put(r, v, 2, (uint8_t[]){EVENT_LOG_ACK, l}); }
static void data_ack(uint8_t l, uint8_t r, uint64_t v) { put(r, v, 2, (uint8_t[]){EVENT_DATA_ACK, l}); }
static void fence(uint8_t t, uint8_t r, uint64_t v) { put(r, v, 2, (uint8_t[]){EVENT_FENCE, t}); }
static void cut(uint8_t r, uint64_t v) { put(r, v, 1, (uint8_t[]){EVENT_CUT}); }
static void read_word(uint8_t t, uint8_t l, uint8_t w, uint8_t r, uint64_t v) { put(r, v, 4, (uint8_t[]){EVENT_READ, t, l, w}); }

static void write_word(uint8_t t, uint8_t l, uint8_t w, uint64_t stored, uint8_t r) {
    uint8_t record[PLAIN_WRITE_RECORD] = {EVENT_WRITE, t, l, w};
    put64(record + 4, stored);
    put(r, 0, sizeof record, record);
}

static void write_bytes(uint8_t t, uint8_t l, uint8_t w, uint8_t mask, uint64_t stored, uint8_t r) {
    uint8_t record[PLAIN_BYTES_RECORD] = {EVENT_WRITE_BYTES, t, l, w, mask};
    put64(record + 5, stored);
    put(r, 0, sizeof record, record);
}

/* Runs the case event by event over zero memory and as a file over lent zeros; both must give the answers due. */
static void run(void) {
    static plain_engine e;
    static uint8_t answers[MOST_EVENTS * PLAIN_ANSWER_BYTES];
    size_t lent = PLAIN_LINE_BYTES * board_lines, at = 0;
    plain_init(&e);
    plain_answer whole = plain_events(file, file_len, memory, lent, answers, sizeof answers);
    check(whole.refusal == 0 && whole.value == events, name, "number of answers", whole.value);
    for (size_t i = 0; i < events; i++) {
        size_t length = plain_record_length(file + at, file_len - at);
        plain_answer a = plain_event(&e, file + at, length);
        const uint8_t *nine = answers + PLAIN_ANSWER_BYTES * i;
        check(a.refusal == wanted[i].refusal && a.value == wanted[i].value, name, "event", i);
        check(nine[0] == wanted[i].refusal && get64(nine + 1) == wanted[i].value, name, "nine bytes of event", i);
        at += length;
    }
}

/* Saves the image of the case in one form; its length must be as given. */
static void save_form(int headed, size_t length) {
    plain_answer (*call)(const uint8_t *, size_t, const uint8_t *, size_t, uint8_t *, size_t) = headed ? plain_image_headed : plain_image;
    size_t lent = PLAIN_LINE_BYTES * board_lines;
    uint8_t *out = image[headed];
    memset(out, 0xee, sizeof image[headed]);
    plain_answer shorter = call(file, file_len, memory, lent, out, length - 1);
    check(shorter.refusal == 6 && shorter.value == 0 && out[0] == 0xee, name, "buffer shorter than", length);
    plain_answer saved = call(file, file_len, memory, lent, out, sizeof image[headed]);
    check(saved.refusal == 0 && saved.value == length, name, "image length", saved.value);
    check(out[length - 1] == IMAGE_END && out[length] == 0xee, name, "bytes behind the image", length);
    image_len[headed] = saved.value;
}

/* Saves it in both; without a second entry under a header the lengths are the same. */
static void save(size_t length) {
    save_form(0, length);
    save_form(1, length);
}

typedef plain_answer recovery_step(uint8_t *, size_t, uint8_t *, size_t);

/* Recovers a saved image in as many steps as it holds entries; gives what it leaves. */
static const uint8_t *recover_form(int headed, recovery_step *step, unsigned entries) {
    static uint8_t found[PLAIN_IMAGE_BYTES];
    uint8_t place[8] = {0};
    unsigned steps = entries > 0 ? entries : 1;
    memcpy(found, image[headed], sizeof found);
    for (unsigned i = 1; i <= steps; i++) {
        plain_answer a = step(found, image_len[headed], place, sizeof place);
        check(a.refusal == 0 && a.value == (i < steps), name, "recovery step", i);
    }
    check(get64(place) == entries, name, "place", get64(place));
    return found;
}

/* The old image by both steps, and the new one by the new step, must leave the words given for the lines, in word 0 and up; the old step refuses the new
   image if it holds an entry, else the images are the same. */
static void recover_words(unsigned entries, const uint64_t words[][PLAIN_WORDS]) {
    for (int i = 0; i < 3; i++) {
        const uint8_t *found = recover_form(i == 2, i == 0 ? plain_recovery_step : plain_recovery_step_headed, entries);
        for (unsigned l = 0; l < board_lines; l++)
            for (unsigned w = 0; w < PLAIN_WORDS; w++)
                check(get64(found + 4 + 65 * l + 1 + 8 * w) == words[l][w], name, "recovered line", l);
    }
    if (entries == 0) check(memcmp(image[0], image[1], sizeof image[0]) == 0, name, "images without entries", image_len[1]);
    else check(plain_recovery_step(image[1], image_len[1], (uint8_t[8]){0}, 8).refusal == 2, name, "the old step over the new image", 2);
}

/* One word must be nonzero, or none for 0. */
static void recover(unsigned entries, unsigned line, unsigned word, uint64_t value) {
    uint64_t words[PLAIN_LINES][PLAIN_WORDS] = {{0}};
    words[line][word] = value;
    recover_words(entries, words);
}

/* ---- The cases ---- */

/* P1 to P3 differ in one event; P3 leaves out the log acknowledgement. */
static void shared_line(const char *title, int log_acked, uint8_t last_kind) {
    setup(title, 2, 2);
    begin(0, 0, 0);
    write_word(0, 0, 0, 7, 0);
    begin(1, 0, 0);
    read_word(1, 0, 0, 17, 0);
    if (log_acked) log_ack(0, 0, 0);
    end(0, 0, 0);
    write_word(1, 0, 0, 9, log_acked ? 0 : 18);
    end(1, 0, log_acked ? 0 : 1);
    if (last_kind == EVENT_LOG_ACK) log_ack(0, 0, 1);
    else data_ack(0, log_acked ? 0 : 22, log_acked ? 1 : 0);
    cut(0, 1);
    run();
}

static void p1_to_p3(void) {
    shared_line("P1", 1, EVENT_DATA_ACK);
    save(152);
    recover(0, 0, 0, 7);
    shared_line("P2", 1, EVENT_LOG_ACK);
    save(152 + 69);
    recover(1, 0, 0, 7);
    shared_line("P3", 0, EVENT_DATA_ACK);
    save(152);
    recover(0, 0, 0, 0);
}

static void p4_and_p5(void) {
    setup("P4", 1, 1);
    fence(0, 0, 1);
    begin(0, 0, 0);
    end(0, 0, 1);
    fence(0, 0, 1);
    run();
    setup("P5", 1, 1);
    for (int i = 0; i < PLAIN_DEPTH; i++) begin(0, 0, 0);
    begin(0, 13, 0);
    run();
}

static void p6_and_p7(void) {
    setup("P6", 1, 8);
    begin(0, 0, 0);
    write_word(0, 0, 0, 1, 0);
    log_ack(0, 0, 0);
    for (uint8_t l = 1; l <= 3; l++) write_word(0, l, 0, 1, 0);
    data_ack(0, 22, 0);
    write_word(0, 4, 0, 1, 0);
    data_ack(0, 0, 0);
    run();
    setup("P7", 1, 9);
    begin(0, 0, 0);
    for (uint8_t l = 0; l < 8; l++) write_word(0, l, 0, 1, 0);
    write_word(0, 8, 0, 1, 20);
    write_word(0, 3, 1, 1, 0);
    run();
}

static void p8(void) {
    setup("P8", 1, 4);
    for (uint8_t l = 0; l < PLAIN_MODIFIED; l++) {
        begin(0, 0, 0);
        write_word(0, l, 0, 1, 0);
        end(0, 0, 0);
    }
    begin(0, 15, 0);
    run();
}

static void p9_and_p10(void) {
    setup("P9", 1, 5);
    begin(0, 0, 0);
    write_word(0, 4, 7, 3, 0);
    read_word(0, 4, 7, 0, 3);
    write_word(0, 5, 0, 3, 4);
    read_word(0, 5, 0, 4, 0);
    log_ack(5, 4, 0);
    data_ack(5, 4, 0);
    run();
    setup("P9", 1, 256);
    begin(0, 0, 0);
    write_word(0, 255, 0, 3, 0);
    run();
    setup("P10", 1, 1);
    begin(0, 0, 0);
    read_word(0, 0, 8, 5, 0);
    write_word(0, 0, 8, 1, 5);
    run();
}

static void p11(void) {
    setup("P11", 1, 1);
    cut(0, 0);
    run();
    save(70);
    recover(0, 0, 0, 0);
}

/* So many lines are logged by thread t, whose slots are freed as they fly: word 0 of each gets the value and the line's number. */
static void log_lines(uint8_t t, uint8_t from, uint8_t count, uint64_t value) {
    for (uint8_t i = 0, l = from; i < count; i++, l++) {
        write_word(t, l, 0, value + l, 0);
        log_ack(l, 0, 0);
        if (i >= 4) data_ack((uint8_t)(l - 4), 0, 0);
    }
}

/* 32 lines logged by one region; after its commit the 33rd is accepted. */
static void logged_33(void) {
    setup("33rd logged line", 1, 33);
    begin(0, 0, 0);
    log_lines(0, 0, PLAIN_LOG, 1);
    write_word(0, 32, 0, 1, 21);
    write_word(0, 31, 0, 1, 0);
    data_ack(28, 22, 0); /* the refused write does not count */
    for (uint8_t l = 0; l < 4; l++) write_word(0, l, 0, 1, 0);
    write_word(0, 32, 0, 1, 20); /* before 21 */
    end(0, 0, 0);
    for (uint8_t l = 0; l < 4; l++) data_ack(l, 0, 0);
    for (uint8_t l = 28; l < 31; l++) data_ack(l, 0, 0);
    begin(0, 0, 0);
    write_word(0, 32, 0, 1, 21);
    data_ack(31, 0, 1);
    write_word(0, 32, 0, 1, 0);
    cut(0, 1);
    run();
}

/* ---- Counts: four different other lines since the last write of this one ---- */

/* A data acknowledgement tells whether the line has flown. */
static void waits(uint8_t l) { data_ack(l, 22, 0); }
static void flies(uint8_t l) { data_ack(l, 0, 0); }

/* Writes of thread 0, to each of these lines. */
static void write_lines(uint8_t from, uint8_t to) {
    for (uint8_t l = from; l <= to; l++) write_word(0, l, 0, 1, 0);
}

/* Thread 0 writes line 0 first, and its log entry is persistent. */
static void line_0(const char *title) {
    setup(title, 2, 12);
    begin(0, 0, 0);
    write_word(0, 0, 0, 1, 0);
    log_ack(0, 0, 0);
}

static void repeats(void) {
    line_0("a repeat counts once");
    for (int i = 0; i < 9; i++) write_word(0, 1, (uint8_t)(i % 8), 1, 0);
    waits(0);
    write_lines(2, 3);
    write_lines(1, 3);
    waits(0);
    write_word(0, 4, 0, 1, 0);
    flies(0);
    write_word(0, 0, 0, 2, 0); /* owned, not logged again: a new slot */
    log_ack(0, 22, 0);
    waits(0);
    run();
    line_0("two lines in turn count two");
    for (int i = 0; i < 5; i++) write_lines(1, 2);
    write_word(0, 3, 0, 1, 0);
    waits(0);
    write_lines(1, 2);
    waits(0);
    write_word(0, 4, 0, 1, 0);
    flies(0);
    run();
}

/* A write of the line itself does not count: it begins anew, and lines that had counted count again. So it does where it takes a flight back, and it
   counts for others as ever. */
static void begun_anew(void) {
    line_0("the line itself");
    for (int i = 0; i < 5; i++) write_word(0, 0, 1, 1, 0);
    write_lines(1, 3);
    waits(0);
    write_word(0, 0, 1, 1, 0);
    write_lines(2, 4);
    waits(0);
    write_word(0, 1, 0, 1, 0); /* line 0 flies */
    write_word(0, 0, 2, 1, 0);
    waits(0);
    log_ack(1, 0, 0);
    write_word(0, 5, 0, 1, 0);
    waits(0);
    write_lines(2, 3);
    waits(0);
    flies(1); /* has counted the write that took the flight back */
    write_word(0, 4, 0, 1, 0);
    flies(0);
    run();
}

/* Lines are written in one order and then in another; each has a set of its own. */
static void sets_apart(void) {
    setup("each its own", 1, 256);
    begin(0, 0, 0);
    write_lines(0, 2);
    write_word(0, 255, 0, 1, 0);
    for (uint8_t l = 0; l <= 2; l++) log_ack(l, 0, 0);
    log_ack(255, 0, 0);
    write_word(0, 1, 0, 1, 0); /* counted by line 0 before, and new to 2 and 255 */
    waits(0);
    write_word(0, 4, 0, 1, 0);
    flies(0);
    waits(2);
    write_word(0, 5, 0, 1, 0);
    waits(1);
    flies(2);
    waits(255);
    write_word(0, 1, 0, 1, 0);
    write_word(0, 6, 0, 1, 0);
    waits(1);
    flies(255);
    run();
}

/* A lock does not stop the counting, and a repeat under it counts nothing either. */
static void under_a_lock(void) {
    setup("counts under a lock", 1, 8);
    begin(0, 0, 0);
    write_lines(0, 4);
    waits(0);
    log_ack(0, 0, 0);
    flies(0);
    log_ack(1, 0, 0); /* has counted three */
    waits(1);
    write_lines(2, 4);
    waits(1);
    write_word(0, 5, 0, 1, 0);
    flies(1);
    run();
    setup("repeats under a lock", 1, 8);
    begin(0, 0, 0);
    write_word(0, 0, 0, 1, 0);
    for (int i = 0; i < 5; i++) write_lines(1, 2);
    log_ack(0, 0, 0);
    waits(0);
    write_word(0, 3, 0, 1, 0);
    waits(0);
    write_word(0, 4, 0, 1, 0);
    flies(0);
    run();
}

/* Line 0 is locked while its four neighbours fly and land: they count although their slots are empty. A line that gets a new slot counts as before. */
static void landed(void) {
    setup("landed lines count", 1, 12);
    begin(0, 0, 0);
    write_lines(0, 4);
    for (uint8_t l = 1; l <= 4; l++) {
        log_ack(l, 0, 0);
        write_word(0, l + 4, 0, 1, 0);
        flies(l);
    }
    log_ack(0, 0, 0);
    flies(0);
    log_ack(8, 0, 0);
    for (int i = 0; i < 3; i++) write_lines(1, 3);
    waits(8);
    write_word(0, 0, 0, 1, 0);
    flies(8);
    run();
    setup("one landed line counts", 1, 12);
    begin(0, 0, 0);
    write_lines(0, 4);
    log_ack(1, 0, 0);
    write_word(0, 5, 0, 1, 0);
    flies(1);
    log_ack(0, 0, 0);
    flies(0);
    run();
}

/* The fourth line comes in refused writes, and one of them is of the line itself. */
static void refused_writes(void) {
    line_0("refused writes");
    begin(1, 0, 0);
    write_word(1, 4, 0, 1, 0);
    write_lines(1, 3);
    write_word(0, 4, 0, 1, 17);
    write_word(0, 5, 8, 1, 5);
    write_word(0, 12, 0, 1, 4);
    write_word(2, 5, 0, 1, 3);
    write_bytes(0, 5, 0, 0, 1, 27);
    waits(0);
    end(1, 0, 0);
    write_word(0, 4, 0, 1, 18);
    waits(0);
    write_bytes(0, 0, 0, 0, 1, 27);
    write_word(0, 0, 8, 1, 5);
    write_word(0, 5, 0, 1, 0);
    flies(0);
    run();
    setup("no slot for the fourth", 1, 9);
    begin(0, 0, 0);
    write_lines(0, 7);
    write_word(0, 8, 0, 1, 20);
    log_ack(4, 0, 0);
    waits(4);
    write_word(0, 0, 0, 1, 0);
    flies(4);
    run();
}

/* A flight holds its slot until it lands; then a line whose slot is behind the empty one keeps it. */
static void held_slots(void) {
    line_0("held slots");
    write_lines(1, 7);
    write_word(0, 8, 0, 1, 20);
    flies(0);
    write_word(0, 7, 0, 1, 0);
    write_word(0, 8, 0, 1, 0);
    write_word(0, 0, 0, 1, 20);
    read_word(0, 0, 0, 0, 1);
    run();
}

/* Writes of bytes go by the line, whatever their word and mask, beside writes of words. */
static void counted_bytes(void) {
    line_0("bytes count by line");
    for (uint8_t i = 0; i < 8; i++) write_bytes(0, 1, i, (uint8_t)(1 << i), 0, 0);
    write_word(0, 1, 0, 1, 0);
    write_word(0, 2, 0, 1, 0);
    write_bytes(0, 2, 0, 255, 1, 0);
    write_bytes(0, 3, 0, 1, 0, 0);
    waits(0);
    write_bytes(0, 0, 7, 128, 0, 0); /* begins anew */
    for (uint8_t l = 1; l <= 3; l++) write_bytes(0, l, 0, 1, 0, 0);
    waits(0);
    write_bytes(0, 4, 0, 1, 0, 0); /* flies */
    write_bytes(0, 0, 0, 1, 0, 0);
    waits(0);
    for (uint8_t l = 1; l <= 4; l++) write_bytes(0, l, 0, 1, 0, 0);
    flies(0);
    run();
}

/* Another thread's writes count nothing here, nor do those of the thread's region before; reads count nothing; nested begins go on with the region. */
static void counted_elsewhere(void) {
    line_0("another thread's writes");
    begin(1, 0, 0);
    for (uint8_t l = 4; l <= 8; l++) write_word(1, l, 0, 1, 0);
    waits(0);
    write_lines(1, 3);
    waits(0);
    write_word(1, 9, 0, 1, 0);
    waits(0);
    write_word(0, 10, 0, 1, 0);
    flies(0);
    run();
    line_0("the region before");
    write_lines(1, 3);
    end(0, 0, 0);
    for (uint8_t l = 1; l <= 3; l++) log_ack(l, 0, 0);
    for (uint8_t l = 0; l <= 3; l++) data_ack(l, 0, l == 3);
    begin(0, 0, 0);
    write_lines(0, 1);
    log_ack(0, 0, 0);
    write_lines(4, 5);
    waits(0);
    write_word(0, 6, 0, 1, 0);
    flies(0);
    run();
    line_0("reads, and nested begins");
    write_lines(1, 2);
    begin(0, 0, 0);
    for (uint8_t l = 4; l <= 8; l++) read_word(0, l, 0, 0, 0);
    write_word(0, 3, 0, 1, 0);
    waits(0);
    read_word(0, 0, 0, 0, 1);
    end(0, 0, 0);
    write_word(0, 4, 0, 1, 0);
    flies(0);
    run();
}

/* ---- Fences and bytes ---- */

/* Inside a region, at any depth, a fence looks at the thread's other regions; outside at all of them. */
static void fences(void) {
    setup("fence inside a region", 2, 2);
    begin(0, 0, 0);
    fence(0, 0, 1);
    write_word(0, 0, 0, 7, 0);
    begin(0, 0, 0);
    fence(0, 0, 1);
    end(0, 0, 0);
    fence(0, 0, 1);
    end(0, 0, 0);
    fence(0, 0, 0);
    begin(0, 0, 0); /* the first region waits for its line's log acknowledgement */
    fence(0, 0, 0);
    begin(0, 0, 0);
    fence(0, 0, 0);
    begin(1, 0, 0);
    fence(1, 0, 1);
    log_ack(0, 0, 0);
    data_ack(0, 0, 1);
    fence(0, 0, 1);
    write_word(0, 1, 0, 8, 0);
    fence(0, 0, 1);
    cut(0, 2);
    fence(0, 11, 0);
    run();
}

/* Each bit of a mask stores its own byte and no other, whatever the value's other bytes are; with all bits the word is the value. */
static void each_byte(void) {
    static const uint64_t old = 0x1716151413121110, value = 0x2726252423222120;
    static const uint64_t due[] = {0x1716151413121120, 0x1716151413122110, 0x1716151413221110, 0x1716151423121110,
                                   0x1716152413121110, 0x1716251413121110, 0x1726151413121110, 0x2716151413121110};
    setup("each byte", 1, 1);
    begin(0, 0, 0);
    for (int i = 0; i < 8; i++) {
        write_word(0, 0, 3, old, 0);
        write_bytes(0, 0, 3, (uint8_t)(1 << i), value, 0);
        read_word(0, 0, 3, 0, due[i]);
    }
    write_bytes(0, 0, 3, 255, value, 0);
    read_word(0, 0, 3, 0, value);
    read_word(0, 0, 2, 0, 0);
    read_word(0, 0, 4, 0, 0);
    run();
}

/* Two regions store bytes of one word, and the second depends on the first. Found are the bytes of both or, where the second has not committed, those
   of the first alone. */
static void shared_word(const char *title, int both) {
    setup(title, 2, 2);
    begin(0, 0, 0);
    write_bytes(0, 0, 0, 3, 0x09090201, 0);
    write_bytes(0, 1, 0, 1, 0, 0);
    begin(1, 0, 0);
    write_bytes(1, 0, 0, 12, 0x04030909, 17);
    log_ack(0, 0, 0);
    log_ack(1, 0, 0);
    end(0, 0, 0);
    write_bytes(1, 0, 0, 12, 0x04030909, 0);
    read_word(1, 0, 0, 0, 0x04030201);
    log_ack(0, 0, 0); /* drops the first region's flight of the line */
    end(1, 0, 0);
    if (both) data_ack(0, 0, 0); /* the second region waits for the first */
    data_ack(1, 0, both ? 2 : 1);
    cut(0, both ? 0 : 1);
    run();
    save(both ? 135 : 135 + 17 + 69);
    recover(both ? 0 : 1, 0, 0, both ? 0x04030201 : 0x0201);
}

/* A write that changes no byte is one like any other: it locks and logs its line, counts, and takes a slot. */
static void same_bytes(void) {
    setup("no byte changed", 1, 9);
    begin(0, 0, 0);
    write_bytes(0, 0, 0, 1, 0, 0);
    log_ack(0, 0, 0);
    for (uint8_t l = 1; l <= 3; l++) write_bytes(0, l, 0, 1, 0, 0);
    waits(0);
    write_bytes(0, 4, 0, 1, 0, 0);
    flies(0);
    for (uint8_t l = 5; l < 9; l++) write_bytes(0, l, 0, 1, 0, 0);
    write_bytes(0, 0, 0, 1, 0, 20);
    end(0, 0, 0);
    begin(0, 0, 0);
    write_bytes(0, 1, 0, 1, 0, 18);
    run();
}

/* Mask 0 is refused after thread, line and word are tested, and before the state is. */
static void no_mask(void) {
    setup("mask 0", 2, 1);
    write_bytes(2, 1, 8, 0, 7, 3);
    write_bytes(0, 1, 8, 0, 7, 4);
    write_bytes(0, 0, 8, 0, 7, 5);
    write_bytes(0, 0, 7, 0, 7, 27);
    write_bytes(0, 0, 7, 1, 7, 12);
    begin(0, 0, 0);
    write_bytes(0, 0, 7, 0, 7, 27);
    log_ack(0, 22, 0);
    write_bytes(0, 0, 7, 1, 7, 0);
    begin(1, 0, 0);
    write_bytes(1, 0, 7, 0, 9, 27);
    write_bytes(1, 0, 7, 1, 9, 17);
    cut(0, 2);
    write_bytes(0, 0, 7, 0, 7, 27);
    write_bytes(0, 0, 7, 1, 7, 11);
    run();
}

/* All entries of a channel but one are kept for a party without threads, so that at the last begins 16 fits as well; 14 comes first. */
static void numbers_spent(void) {
    static plain_engine e;
    plain_init(&e);
    plain_event(&e, (uint8_t[PLAIN_RECORD_BYTES]){EVENT_SETUP, 2, 1, [13] = 15}, PLAIN_RECORD_BYTES);
    for (int i = 0; i < PLAIN_NUMBERS; i++) {
        plain_answer opened = plain_event(&e, (uint8_t[]){EVENT_BEGIN, 0}, 2);
        plain_answer ended = plain_event(&e, (uint8_t[]){EVENT_END, 0}, 2);
        if (opened.refusal != 0 || ended.value != 1) check(0, "numbers spent", "region", (unsigned)i);
    }
    check(plain_event(&e, (uint8_t[]){EVENT_BEGIN, 0}, 2).refusal == 14, "numbers spent", "next begin", 14);
    for (unsigned number = 1; number <= 2; number++) { /* in either channel */
        check(plain_event(&e, (uint8_t[]){EVENT_BEGIN, 1}, 2).refusal == 0, "numbers spent", "another thread's begin", number);
        check(plain_event(&e, (uint8_t[]){EVENT_BEGIN, 0}, 2).refusal == 14, "numbers spent", "before 16", 14);
        check(plain_event(&e, (uint8_t[]){EVENT_END, 1}, 2).value == 1, "numbers spent", "another thread's end", number);
    }
}

/* A record of this kind whose body is zeros, cut short at every length; whole, it is a setup with T 0 or stands before setup. */
static void cut_short(uint8_t kind, size_t whole) {
    uint8_t answers[PLAIN_ANSWER_BYTES], record[PLAIN_RECORD_BYTES] = {kind};
    for (size_t length = 1; length <= whole; length++) {
        plain_answer a = plain_events(record, length, memory, 64, answers, sizeof answers);
        check(a.value == 1 && answers[0] == (length < whole ? 1 : 6), "ends", "one of the longest records, length", length);
    }
}

/* Records that end a file: of unknown kind, and the two longest cut short. */
static void ends(void) {
    static const uint8_t unknown[] = {9, 11, 255};
    uint8_t answers[PLAIN_ANSWER_BYTES];
    for (size_t i = 0; i < sizeof unknown; i++) {
        plain_answer a = plain_events((uint8_t[]){unknown[i], 0}, 2, memory, 64, answers, sizeof answers);
        check(a.value == 1 && answers[0] == 2, "ends", "unknown kind", unknown[i]);
    }
    cut_short(EVENT_WRITE_BYTES, 13);
    cut_short(EVENT_SETUP, 14);
}

/* ---- Parties and reserves ---- */

/* The parties of all threads: 0, but that of thread t. */
static uint64_t only(int t, uint8_t party) { return (uint64_t)party << 8 * t; }

/* One region of the thread that waits for its line's log acknowledgement, then so many that wait for it: all stay uncommitted. */
static void hold(uint8_t t, uint8_t line, int regions) {
    begin(t, 0, 0);
    write_word(t, line, 0, 7, 0);
    end(t, 0, 0);
    for (int i = 1; i < regions; i++) {
        begin(t, 0, 0);
        end(t, 0, 0);
    }
}

/* Each cause of 24 at its edge, where no other refusal fits; a refused setup does not stand, leaves no share, and the next is judged afresh. */
static void wrong_shares(void) {
    static const uint8_t above[][2] = {{17, 0}, {0, 17}, {9, 8}, {1, 16}, {16, 16}, {0, 32}, {33, 0}, {255, 1}, {128, 128}, {200, 100}, {255, 255}};
    start_case("24", 2);
    for (int t = 0; t < PLAIN_THREADS; t++) {
        setup_shares(3, 2, only(t, 2), 0, 0, 24);
        setup_shares(3, 2, only(t, 128), 0, 0, 24);
        if (t >= 3) setup_shares(3, 2, only(t, 1), 0, 0, 24);
    }
    for (size_t i = 0; i < sizeof above / sizeof above[0]; i++) setup_shares(3, 2, 1, above[i][0], above[i][1], 24);
    begin(0, 6, 0);
    setup_shares(3, 2, only(2, 1), 0, 16, 0);
    setup_shares(3, 2, only(0, 1), 0, 0, 6);
    begin(0, 16, 0);
    begin(1, 16, 0);
    begin(2, 0, 0);
    setup_shares(3, 2, only(3, 1), 8, 9, 6);
    cut(0, 1);
    setup_shares(3, 2, 2, 0, 0, 6);
    run();
}

/* Every cause of 6 comes before 24; the start call tries the memory's length. */
static void six_before_24(void) {
    start_case("6 before 24", 1);
    setup_shares(0, 1, only(0, 1), 0, 0, 6);
    setup_shares(9, 1, only(7, 2), 0, 0, 6);
    setup_shares(1, 0, 2, 0, 0, 6);
    setup_shares(1, 257, 0, 17, 0, 6);
    setup_shares(1, 1, 0, 17, 0, 24);
    setup_shares(1, 1, 0, 0, 0, 0);
    setup_shares(1, 1, 0, 17, 0, 6);
    run();
}

/* Parties and reserves that are accepted: of each thread, of all, and 16 entries of each channel kept. */
static void right_shares(void) {
    for (int t = 0; t < PLAIN_THREADS; t++) {
        start_case("party 1 of the last thread", 1);
        setup_shares((uint8_t)(t + 1), 1, only(t, 1), 16, 0, 0);
        run();
    }
    start_case("party 1 of all", 1);
    setup_shares(8, 1, UINT64_C(0x0101010101010101), 0, 16, 0);
    run();
}

/* Thread 0 is of party 0 and thread 1 of party 1, for which 15 entries of each channel are kept: thread 0 gets one of each, and thread 1 all of its own. */
static void kept_entries(void) {
    start_case("kept entries", 2);
    setup_shares(2, 2, only(1, 1), 0, 15, 0);
    hold(0, 0, 2);
    begin(0, 16, 0);
    hold(1, 1, 1);
    begin(0, 16, 0); /* one entry fewer is free, and one fewer is lacking */
    for (int i = 1; i < 30; i++) {
        begin(1, 0, 0);
        begin(0, 16, 0);
        end(1, 0, 0);
    }
    begin(1, 16, 0);
    begin(0, 16, 0);
    log_ack(0, 0, 0);
    data_ack(0, 0, 2);
    begin(0, 0, 0); /* the commit of thread 0's two freed an entry of each channel, and none is lacking */
    end(0, 0, 1);
    hold(0, 0, 2);
    begin(1, 16, 0);
    cut(0, 32);
    run();
}

/* Two threads of each party, and three entries of each channel kept for party 0, which may hold more: then nothing is lacking, and a channel is full at 16. */
static void used_up(void) {
    start_case("a reserve used up", 4);
    setup_shares(4, 4, only(0, 1) | only(2, 1), 3, 0, 0);
    begin(1, 0, 0);
    write_word(1, 1, 0, 7, 0);
    hold(0, 0, 18);
    hold(2, 2, 8);
    begin(0, 16, 0); /* 14 of channel 1 are held, and two of three are lacking: an open region counts */
    begin(2, 16, 0);
    end(1, 0, 0);
    hold(3, 3, 3);
    begin(0, 16, 0); /* channel 1 is full; the numbers 2 of thread 1 and 4 of thread 3 fill channel 0 */
    begin(1, 0, 0);
    end(1, 0, 0);
    begin(1, 16, 0);
    begin(3, 0, 0);
    end(3, 0, 0);
    log_ack(0, 0, 0);
    data_ack(0, 0, 18);
    for (int i = 0; i < 3; i++) { /* beyond the reserve, as long as entries are free */
        begin(1, 0, 0);
        end(1, 0, 0);
    }
    hold(0, 0, 14);
    begin(0, 16, 0); /* 16 of channel 1 are held: 11 by party 1 and five by party 0 */
    begin(3, 16, 0);
    begin(1, 0, 0); /* the last of channel 0 */
    cut(0, 32);
    run();
}

/* With both reserves 0 a channel is full at 16, whatever the parties are; a nested begin needs no entry. */
static void full_channels(uint64_t parties) {
    start_case("both channels full", 8);
    setup_shares(8, 8, parties, 0, 0, 0);
    for (uint8_t t = 0; t < PLAIN_THREADS; t++) hold(t, t, t < 7 ? 4 : 3);
    begin(7, 0, 0);
    for (uint8_t t = 0; t < PLAIN_THREADS; t++) begin(t, t < 7 ? 16 : 0, 0);
    end(7, 0, 0);
    end(7, 0, 0);
    begin(7, 16, 0);
    log_ack(4, 0, 0);
    data_ack(4, 0, 4);
    begin(7, 0, 0);
    run();
}

/* Thread 0 holds 31 regions from number 1 or 2 on, 16 in the first one's channel and 15 in the other. Of threads 1 and 2, whose next numbers are 1 and 2,
   one finds its channel full, and the other takes the last entry. */
static void full_channel(uint8_t from) {
    uint8_t refused = from, other = (uint8_t)(3 - from);
    start_case("one channel full", 1);
    setup_shares(3, 1, 0, 0, 0, 0);
    begin(2, 0, 0);
    end(2, 0, 1);
    if (from == 2) {
        begin(0, 0, 0);
        end(0, 0, 1);
    }
    hold(0, 0, 31);
    begin(refused, 16, 0);
    begin(other, 0, 0);
    begin(other, 0, 0); /* nested */
    begin(0, 16, 0);
    begin(refused, 16, 0);
    end(other, 0, 0);
    end(other, 0, 1);
    begin(other, 16, 0); /* its next number falls into the full channel */
    begin(0, 0, 0);
    cut(0, 32);
    run();
}

/* What a party holds in one channel takes nothing from what it lacks in the other: threads 2 and 3 have 15 entries of each. */
static void lack_by_channel(void) {
    start_case("lack by channel", 1);
    setup_shares(4, 1, only(2, 1) | only(3, 1), 0, 15, 0);
    begin(2, 0, 0);
    end(2, 0, 1);
    begin(2, 0, 0); /* number 2, channel 0 */
    begin(0, 0, 0);
    begin(1, 16, 0); /* 14 would stay free in channel 1, and 15 are lacking */
    begin(3, 0, 0);
    begin(1, 16, 0); /* 13, and 14 */
    end(0, 0, 1);
    begin(0, 0, 0); /* 14 stay free in channel 0, and 14 are lacking */
    begin(1, 0, 0);
    end(1, 0, 1);
    begin(1, 16, 0);
    cut(0, 3);
    run();
}

/* All entries kept for a party without threads: no region ever begins. */
static void nobody(void) {
    start_case("kept for nobody", 1);
    setup_shares(1, 1, 0, 0, 16, 0);
    for (int i = 0; i < 3; i++) {
        begin(0, 16, 0);
        end(0, 12, 0);
        fence(0, 0, 1);
    }
    cut(0, 0);
    begin(0, 11, 0);
    run();
    save(70);
    recover(0, 0, 0, 0);
    start_case("kept for nobody, all but one", 1);
    setup_shares(1, 1, 0, 0, 15, 0);
    begin(0, 0, 0);
    begin(0, 0, 0); /* nested */
    end(0, 0, 0);
    end(0, 0, 1);
    begin(0, 0, 0);
    run();
}

/* A thread with four regions in its modified list meets 15 before 16. */
static void fifteen_first(void) {
    start_case("15 before 16", 5);
    setup_shares(2, 5, only(1, 1), 0, 14, 0);
    for (uint8_t l = 0; l < 4; l++) hold(0, l, 1);
    begin(0, 15, 0);
    hold(1, 4, 1);
    log_ack(3, 0, 0);
    data_ack(3, 0, 0); /* done, and its entry stays */
    begin(0, 16, 0);
    run();
}

/* A region with eight slots and four dependences meets 19 before 20. */
static void nineteen_first(void) {
    setup("19 before 20", 6, 14);
    for (uint8_t t = 1; t < 6; t++) hold(t, t, 1);
    begin(0, 0, 0);
    write_lines(6, 13);
    for (uint8_t t = 1; t < 5; t++) read_word(0, t, 0, 0, 7);
    write_word(0, 5, 0, 1, 18);
    log_ack(5, 0, 0);
    write_word(0, 5, 0, 1, 19);
    log_ack(1, 0, 0);
    data_ack(1, 0, 1);
    write_word(0, 5, 0, 1, 20);
    run();
}

/* Regions of both parties, of which recovery takes back what had not committed; the image has nothing of parties and reserves. */
static void both_recovered(void) {
    start_case("both parties recovered", 2);
    setup_shares(3, 2, only(1, 1), 1, 15, 0);
    hold(0, 0, 1);
    begin(2, 16, 0);
    log_ack(0, 0, 0);
    data_ack(0, 0, 1);
    begin(1, 0, 0);
    write_word(1, 0, 0, 9, 0);
    log_ack(0, 0, 0);
    end(1, 0, 0);
    begin(0, 0, 0);
    read_word(0, 0, 0, 0, 9);
    write_word(0, 1, 1, 8, 0);
    log_ack(1, 0, 0);
    end(0, 0, 0);
    data_ack(1, 0, 0);
    cut(0, 2);
    run();
    save(4 + 65 * 2 + 17 * 2 + 69 * 2 + 1);
    recover(2, 0, 0, 7);
}

/* ---- Lines that somebody is reading ---- */

/* Threads 0 to `threads` - 1 have an open region each. */
static void open_board(const char *title, uint8_t threads, uint16_t lines) {
    setup(title, threads, lines);
    for (uint8_t t = 0; t < threads; t++) begin(t, 0, 0);
}

/* Thread 0 has read one word: a write of any word of its line is refused, of a word or of bytes, whoever else writes; a line beside it is not. What is
   refused locks and logs nothing, and reads go on. */
static void being_read(void) {
    open_board("a line that is being read", 3, 3);
    read_word(0, 1, 3, 0, 0);
    write_word(1, 1, 3, 7, 25);
    read_word(0, 1, 3, 0, 0);
    for (uint8_t w = 0; w < PLAIN_WORDS; w++) {
        write_word(1, 1, w, 7, 25);
        write_bytes(2, 1, w, 128, 7, 25);
        write_bytes(1, 1, w, 255, 0, 25);
    }
    log_ack(1, 22, 0);
    data_ack(1, 22, 0);
    write_word(1, 0, 3, 7, 0);
    write_bytes(2, 2, 3, 1, 8, 0);
    for (uint8_t t = 0; t < 3; t++) read_word(t, 1, 3, 0, 0);
    end(0, 0, 1);
    write_word(1, 1, 3, 7, 25); /* thread 2 has read it by now */
    end(2, 0, 0);
    write_word(1, 1, 3, 7, 0);
    read_word(1, 1, 3, 0, 7);
    run();
}

/* What a thread's own region has read it may write, as a word and as bytes; what it has written others may not even read. */
static void own_reads(void) {
    open_board("own reads", 2, 2);
    read_word(0, 0, 0, 0, 0);
    write_word(0, 0, 0, 7, 0);
    write_bytes(0, 0, 1, 1, 7, 0);
    read_word(0, 0, 1, 0, 7);
    write_word(0, 0, 1, 8, 0); /* the line is its own, and read again */
    write_word(1, 0, 0, 9, 17); /* 25 fits too */
    write_bytes(1, 0, 0, 1, 9, 17);
    read_word(1, 0, 0, 17, 0);
    read_word(0, 1, 0, 0, 0);
    write_bytes(0, 1, 0, 1, 7, 0);
    write_word(1, 1, 0, 9, 17);
    log_ack(0, 0, 0);
    end(0, 0, 0);
    write_word(1, 0, 0, 9, 0);
    write_word(1, 1, 0, 9, 18);
    run();
}

/* A line read at any depth stays so through inner ends, until the end back to depth 0. */
static void read_depths(void) {
    for (int depth = 1; depth <= PLAIN_DEPTH; depth++) {
        setup("depths", 2, 2);
        begin(1, 0, 0);
        for (int i = 0; i < depth; i++) begin(0, 0, 0);
        read_word(0, 0, 0, 0, 0);
        for (int i = depth; i < PLAIN_DEPTH; i++) begin(0, 0, 0);
        begin(0, 13, 0);
        write_word(1, 0, 0, 7, 25);
        for (int i = 1; i < PLAIN_DEPTH; i++) {
            end(0, 0, 0);
            write_word(1, 0, 0, 7, 25);
        }
        begin(0, 0, 0);
        read_word(0, 1, 0, 0, 0);
        end(0, 0, 0);
        write_word(1, 0, 0, 7, 25);
        write_word(1, 1, 0, 7, 25);
        end(0, 0, 1);
        write_word(1, 0, 0, 7, 0);
        write_word(1, 1, 0, 7, 0);
        run();
    }
}

/* A region that has ended reads no more, whether it has committed or waits, nor does the thread's next one before it reads itself. */
static void reads_over(void) {
    setup("reads are over", 3, 9);
    begin(2, 0, 0);
    write_word(2, 8, 0, 5, 0);
    end(2, 0, 0);
    begin(1, 0, 0);
    begin(0, 0, 0);
    for (uint8_t l = 0; l < 9; l++) read_word(0, l, 0, 0, l == 8 ? 5 : 0);
    for (uint8_t l = 0; l < 8; l++) write_word(1, l, 0, 7, 25);
    end(0, 0, 0); /* waits for the region of thread 2 */
    fence(0, 0, 0);
    for (uint8_t l = 0; l < 7; l++) write_word(1, l, 0, 7, 0);
    begin(0, 0, 0);
    write_word(1, 7, 0, 7, 0);
    read_word(0, 8, 0, 0, 5);
    write_word(1, 8, 0, 7, 25); /* before 18 and 20 */
    end(1, 0, 0);
    begin(1, 0, 0);
    write_word(1, 8, 0, 7, 25);
    end(0, 0, 0);
    write_word(1, 8, 0, 7, 18);
    log_ack(8, 0, 0);
    begin(0, 0, 0);
    write_word(1, 8, 0, 7, 0);
    run();
    open_board("a new region", 2, 1);
    read_word(0, 0, 0, 0, 0);
    end(0, 0, 1);
    begin(0, 0, 0);
    write_word(1, 0, 0, 7, 0);
    write_word(1, 0, 1, 7, 0);
    log_ack(0, 0, 0);
    end(1, 0, 0);
    begin(1, 0, 0);
    read_word(0, 0, 0, 0, 7);
    write_word(1, 0, 0, 9, 25);
    end(0, 0, 0);
    begin(0, 0, 0);
    begin(0, 0, 0);
    write_word(1, 0, 0, 9, 0);
    run();
}

/* A refused read is none: of a line that another's open region owns, whose owner goes on; of one that would be a fifth dependence; outside a region; of a
   word or a line that there is not; of a thread that there is not. */
static void refused_reads(void) {
    open_board("a refused read, 17", 3, 1);
    write_word(0, 0, 0, 7, 0);
    read_word(1, 0, 0, 17, 0);
    write_word(0, 0, 0, 8, 0);
    write_bytes(0, 0, 0, 1, 9, 0);
    log_ack(0, 0, 0);
    end(0, 0, 0);
    write_word(2, 0, 0, 7, 0); /* the region of thread 1 is still open */
    run();
    setup("a refused read, 19", 7, 6);
    for (uint8_t t = 1; t < 6; t++) hold(t, t, 1);
    begin(0, 0, 0);
    for (uint8_t t = 1; t < 5; t++) read_word(0, t, 0, 0, 7);
    read_word(0, 5, 0, 19, 0);
    log_ack(4, 0, 0);
    log_ack(5, 0, 0);
    begin(6, 0, 0);
    write_word(6, 4, 0, 8, 25);
    write_word(6, 5, 0, 8, 0);
    run();
    setup("a refused read, 12", 2, 1);
    begin(1, 0, 0);
    read_word(0, 0, 0, 12, 0);
    write_word(1, 0, 0, 7, 0);
    log_ack(0, 0, 0);
    end(1, 0, 0);
    begin(1, 0, 0);
    read_word(0, 0, 0, 12, 0);
    begin(0, 0, 0);
    write_word(1, 0, 0, 8, 0);
    run();
    open_board("a refused read, 3, 4 and 5", 2, 3);
    read_word(0, 0, 8, 5, 0);
    read_word(0, 1, 255, 5, 0);
    read_word(0, 3, 0, 4, 0);
    read_word(0, 66, 0, 4, 0);
    read_word(2, 2, 0, 3, 0);
    read_word(8, 2, 0, 3, 0);
    for (uint8_t l = 0; l < 3; l++) write_word(1, l, 0, 7, 0);
    run();
}

/* The refusals of the input, 12 and 11 come before 25. */
static void before_25(void) {
    setup("before 25", 2, 1);
    begin(1, 0, 0);
    read_word(1, 0, 0, 0, 0);
    write_word(0, 0, 0, 7, 12);
    write_bytes(0, 0, 0, 1, 7, 12);
    begin(0, 0, 0);
    write_word(2, 0, 0, 7, 3);
    write_word(0, 1, 0, 7, 4);
    write_word(0, 0, 8, 7, 5);
    write_bytes(0, 0, 0, 0, 7, 27);
    write_word(0, 0, 0, 7, 25);
    write_bytes(0, 0, 0, 1, 7, 25);
    cut(0, 2);
    write_bytes(0, 0, 0, 0, 7, 27);
    write_word(0, 0, 0, 7, 11);
    write_bytes(0, 0, 0, 1, 7, 11);
    run();
    save(4 + 65 + 17 * 2 + 1); /* nothing of reads */
    recover(0, 0, 0, 0);
}

/* A line still locked by a region that has ended, and read by an open one that depends on it: 25, then 18, then neither. So it is where the reader is of the
   owner's thread. */
static void before_18(uint8_t reader) {
    setup("25 before 18", 3, 1);
    begin(0, 0, 0);
    write_word(0, 0, 0, 7, 0);
    end(0, 0, 0);
    begin(reader, 0, 0);
    begin(2, 0, 0);
    write_word(2, 0, 0, 9, 18);
    read_word(reader, 0, 0, 0, 7);
    write_word(2, 0, 0, 9, 25);
    write_bytes(2, 0, 0, 1, 9, 25);
    write_word(reader, 0, 0, 9, 18);
    end(reader, 0, 0);
    write_word(2, 0, 0, 9, 18);
    log_ack(0, 0, 0);
    write_word(2, 0, 0, 9, 0);
    run();
}

/* 19, 20 and 21 stand behind 25. */
static void before_19_to_21(void) {
    setup("25 before 19", 7, 6);
    for (uint8_t t = 1; t < 6; t++) hold(t, t, 1);
    begin(0, 0, 0);
    for (uint8_t t = 1; t < 5; t++) read_word(0, t, 0, 0, 7);
    log_ack(5, 0, 0);
    begin(6, 0, 0);
    read_word(6, 5, 0, 0, 7);
    write_word(0, 5, 0, 9, 25);
    write_bytes(0, 5, 0, 1, 9, 25);
    end(6, 0, 0);
    write_word(0, 5, 0, 9, 19);
    run();
    open_board("25 before 20", 2, 9);
    write_lines(0, 7);
    read_word(1, 8, 0, 0, 0);
    write_word(0, 8, 0, 9, 25);
    write_bytes(0, 8, 0, 1, 9, 25);
    end(1, 0, 1);
    write_word(0, 8, 0, 9, 20);
    run();
    open_board("25 before 21", 2, 33);
    log_lines(0, 0, PLAIN_LOG, 1);
    read_word(1, 32, 0, 0, 0);
    write_word(0, 32, 0, 1, 25);
    write_bytes(0, 32, 0, 1, 1, 25);
    end(1, 0, 1);
    write_word(0, 32, 0, 1, 21);
    run();
}

/* Two tasks that have both read a line and both want to write it refuse each other until one ends; it begins again and waits for the other. */
static void both_want_to_write(void) {
    open_board("both want to write", 2, 2);
    read_word(0, 0, 0, 0, 0);
    read_word(1, 0, 7, 0, 0);
    for (int i = 0; i < 3; i++) {
        write_word(0, 0, 0, 7, 25);
        write_word(1, 0, 0, 8, 25);
    }
    write_word(0, 1, 0, 5, 0);
    log_ack(1, 0, 0);
    end(0, 0, 0); /* without that write: it commits with the other one */
    data_ack(1, 0, 1);
    write_word(1, 0, 0, 8, 0);
    begin(0, 0, 0);
    read_word(0, 0, 0, 17, 0);
    write_word(0, 0, 0, 7, 17);
    log_ack(0, 0, 0);
    end(1, 0, 0);
    read_word(0, 0, 0, 0, 8);
    write_word(0, 0, 0, 9, 0);
    log_ack(0, 0, 1);
    end(0, 0, 0);
    data_ack(0, 0, 1);
    cut(0, 0);
    run();
    open_board("who writes first reads alone", 2, 1);
    write_word(0, 0, 0, 7, 0);
    read_word(1, 0, 0, 17, 0);
    read_word(0, 0, 0, 0, 7);
    write_word(0, 0, 0, 8, 0);
    run();
}

/* One reader keeps the line, whatever it does while its region is open, and whatever becomes of the line: an earlier region's log entry and flight of it
   are acknowledged, and that region commits. */
static void one_reader(void) {
    setup("one reader", 3, 8);
    hold(0, 0, 1);
    begin(1, 0, 0);
    begin(2, 0, 0);
    read_word(1, 0, 0, 0, 7);
    log_ack(0, 0, 0);
    write_word(2, 0, 0, 9, 25);
    data_ack(0, 0, 1);
    write_word(2, 0, 0, 9, 25);
    fence(1, 0, 1);
    write_word(2, 0, 0, 9, 25);
    write_word(1, 1, 0, 8, 0); /* other lines, read and written */
    write_bytes(1, 2, 0, 1, 8, 0);
    read_word(1, 3, 0, 0, 0);
    write_word(1, 3, 0, 8, 0);
    log_ack(1, 0, 0);
    write_word(2, 0, 0, 9, 25);
    write_word(1, 0, 8, 8, 5);
    read_word(1, 0, 8, 5, 0);
    begin(0, 0, 0);
    end(0, 0, 1);
    write_word(2, 0, 0, 9, 25);
    write_word(1, 0, 0, 8, 0);
    write_word(2, 0, 0, 9, 17);
    end(1, 0, 0);
    write_word(2, 0, 0, 9, 18);
    run();
}

/* Each of several readers keeps the line, whatever the others do: refused and accepted writes, ends, commits. */
static void several_readers(void) {
    open_board("several readers", 4, 4);
    for (uint8_t t = 0; t < 3; t++) read_word(t, 0, t, 0, 0);
    for (uint8_t t = 0; t < 4; t++) write_word(t, 0, 0, 7, 25);
    read_word(1, 1, 0, 0, 0);
    write_word(1, 1, 0, 7, 0); /* by the reader itself, of a line that it alone has read */
    write_word(1, 0, 0, 7, 25);
    write_word(3, 0, 0, 7, 25);
    log_ack(1, 0, 0);
    end(1, 0, 0);
    write_word(3, 0, 0, 7, 25);
    data_ack(1, 0, 1);
    fence(0, 0, 1);
    write_word(3, 0, 0, 7, 25);
    end(0, 0, 1);
    write_word(3, 0, 0, 7, 25); /* thread 2 alone is left */
    begin(0, 0, 0);
    write_word(0, 0, 0, 7, 25);
    write_word(2, 0, 0, 7, 0);
    write_word(3, 0, 0, 7, 17);
    end(2, 0, 0);
    write_word(3, 0, 0, 7, 18);
    write_word(0, 1, 0, 9, 0);
    run();
}

/* Each thread keeps off each other one. */
static void each_pair(void) {
    for (uint8_t reader = 0; reader < PLAIN_THREADS; reader++)
        for (uint8_t writer = 0; writer < PLAIN_THREADS; writer++) {
            open_board("each pair of threads", PLAIN_THREADS, 2);
            read_word(reader, 1, 0, 0, 0);
            write_word(writer, 1, 7, 7, reader == writer ? 0 : 25);
            end(reader, 0, reader != writer);
            write_word(writer, 1, 7, 7, reader == writer ? 12 : 0);
            run();
        }
}

/* A line is not taken for another; nor is the only one taken that has not been read. */
static void each_line(void) {
    static const uint8_t tried[] = {0, 1, 7, 8, 31, 32, 62, 63, 64, 65, 127, 128, 191, 192, 254, 255};
    for (size_t i = 0; i < sizeof tried; i++) {
        for (size_t j = 0; j < sizeof tried; j++) {
            open_board("one line read", 2, 256);
            read_word(0, tried[i], 0, 0, 0);
            write_word(1, tried[j], 0, 7, i == j ? 25 : 0);
            run();
        }
        open_board("one line not read", 2, 256);
        for (int l = 0; l < PLAIN_LINES; l++)
            if (l != tried[i]) read_word(0, (uint8_t)l, 0, 0, 0);
        for (size_t j = 0; j < sizeof tried; j++) write_word(1, tried[j], 0, 7, i == j ? 0 : 25);
        run();
    }
}

/* What is refused with 25 counts for no slot, takes no slot or log entry, and brings no dependence. */
static void kept_off(void) {
    line_0("25 counts nothing");
    begin(1, 0, 0);
    read_word(1, 4, 0, 0, 0);
    write_lines(1, 3);
    write_word(0, 4, 0, 1, 25);
    write_bytes(0, 4, 0, 1, 1, 25);
    waits(0);
    write_word(0, 5, 0, 1, 0);
    flies(0);
    run();
    setup("25 brings no dependence", 3, 2);
    hold(0, 0, 1);
    log_ack(0, 0, 0);
    begin(1, 0, 0);
    read_word(1, 0, 0, 0, 7);
    begin(2, 0, 0);
    write_word(2, 0, 0, 9, 25);
    end(2, 0, 1);
    read_word(1, 0, 0, 0, 7);
    end(1, 0, 0);
    data_ack(0, 0, 2);
    run();
}

/* The dryer reads one figure twice, while sampling waits. Then sampling stores, and commits by itself: the dryer's region is lost at the cut. */
static void one_figure(void) {
    setup("one figure", 2, 2);
    hold(1, 0, 1); /* stores 7 */
    log_ack(0, 0, 0);
    data_ack(0, 0, 1);
    begin(0, 0, 0);
    read_word(0, 0, 0, 0, 7);
    begin(1, 0, 0);
    write_word(1, 0, 0, 8, 25);
    read_word(0, 0, 0, 0, 7);
    fence(0, 0, 1);
    fence(1, 0, 1);
    write_word(0, 1, 0, 14, 0);
    log_ack(1, 0, 0);
    end(0, 0, 0);
    write_word(1, 0, 0, 8, 0);
    log_ack(0, 0, 0);
    end(1, 0, 0);
    data_ack(0, 0, 1); /* sampling does not depend on who has read */
    cut(0, 1);
    run();
    save(4 + 65 * 2 + 17 + 69 + 1);
    recover(1, 0, 0, 8);
}

/* ---- Log entries under headers ---- */

enum { OLD = 100, NEW = 200 }; /* what the lines hold before and after they are logged, beside their numbers */

/* Thread 0 commits these lines, so that what is logged of each later can be told. */
static void commit_lines(uint8_t from, uint8_t count) {
    begin(0, 0, 0);
    log_lines(0, from, count, OLD);
    end(0, 0, 0);
    for (uint8_t i = count < 4 ? 0 : count - 4; i < count; i++) data_ack((uint8_t)(from + i), 0, i == count - 1);
}

/* The word 0 of these lines is the old one again. */
static void recover_lines(unsigned entries, uint8_t from, uint8_t count) {
    uint64_t words[PLAIN_LINES][PLAIN_WORDS] = {{0}};
    for (uint8_t i = 0; i < count; i++) words[from + i][0] = OLD + from + i;
    recover_words(entries, words);
}

/* The record at this place of the new image holds k lines of a region, each so far behind the one before; gives the place behind it. */
static size_t header(size_t at, uint8_t k, uint8_t from, uint8_t apart, uint8_t t, uint8_t number) {
    const uint8_t *record = image[1] + at, front[] = {(uint8_t)(40 + k), t, number, 0}, zeros[56] = {0};
    check(memcmp(record, front, sizeof front) == 0, name, "header at", at);
    for (uint8_t i = 0; i < k; i++) {
        const uint8_t line = (uint8_t)(from + apart * i), *old = record + 4 + k + 64 * i;
        check(record[4 + i] == line, name, "line under a header", line);
        check(get64(old) == (uint64_t)OLD + line && memcmp(old + 8, zeros, sizeof zeros) == 0, name, "old line under a header", line);
    }
    return at + 4 + 65 * (size_t)k;
}

/* One region with every number of entries: records of seven, and a last one for what is left. */
static void sevens(void) {
    for (uint8_t n = 1; n <= PLAIN_LOG; n++) {
        setup("records of seven", 1, PLAIN_LOG);
        commit_lines(0, n);
        begin(0, 0, 0);
        log_lines(0, 0, n, NEW);
        cut(0, 1);
        run();
        size_t at = 4 + 65 * PLAIN_LOG + 17, records = ((size_t)n + 6) / 7;
        save_form(0, at + 69 * (size_t)n + 1);
        save_form(1, at + 4 * records + 65 * (size_t)n + 1);
        for (uint8_t done = 0, k; done < n; done = (uint8_t)(done + k)) {
            k = n - done < 7 ? (uint8_t)(n - done) : 7;
            at = header(at, k, done, 1, 0, 2);
        }
        recover_lines(n, 0, n);
    }
}

/* Every region has records of its own: 7 + 1, then two of the same thread, then 7 of the next; of the last one an entry is still in flight, and not in the
   image, and the others share a record. */
static void regions_apart(void) {
    setup("regions apart", 3, 20);
    commit_lines(0, 20);
    begin(0, 0, 0);
    log_lines(0, 0, 8, NEW);
    end(0, 0, 0);
    begin(0, 0, 0);
    log_lines(0, 8, 2, NEW);
    begin(1, 0, 0);
    log_lines(1, 10, 7, NEW);
    begin(2, 0, 0);
    for (uint8_t l = 17; l < 20; l++) write_word(2, l, 0, NEW, 0);
    for (uint8_t l = 17; l < 20; l += 2) log_ack(l, 0, 0);
    cut(0, 4);
    run();
    size_t at = 4 + 65 * 20 + 17 * 4;
    save_form(0, at + 69 * 19 + 1);
    save_form(1, at + 4 * 5 + 65 * 19 + 1);
    at = header(at, 7, 0, 1, 0, 2);
    at = header(at, 1, 7, 1, 0, 2);
    at = header(at, 2, 8, 1, 0, 3);
    at = header(at, 7, 10, 1, 1, 1);
    at = header(at, 2, 17, 2, 2, 1);
    check(at == image_len[1] - 1, name, "end", at);
    recover_lines(19, 0, 20);
}

/* The largest new image: every region has eight entries, in records of seven and one. */
static void largest(void) {
    static uint8_t longest[LARGEST_FILE_BYTES];
    size_t length = largest_file(longest), at = 4 + 65 * PLAIN_LINES + 17 * PLAIN_LISTED;
    plain_answer a = plain_image_headed(longest, length, memory, sizeof memory, image[1], PLAIN_HEADED_BYTES - 1);
    check(a.refusal == 6 && a.value == 0, "largest", "buffer shorter than", PLAIN_HEADED_BYTES);
    a = plain_image_headed(longest, length, memory, sizeof memory, image[1], PLAIN_HEADED_BYTES);
    check(a.refusal == 0 && a.value == PLAIN_HEADED_BYTES && a.value == 34085, "largest", "length", a.value);
    for (int i = 0; i < PLAIN_LISTED; i++, at += 459 + 69)
        check(image[1][at] == 47 && image[1][at + 459] == 41, "largest", "records of region", (unsigned)i);
    check(image[1][at] == IMAGE_END, "largest", "end", at);
}

/* Refusals of the calls themselves, and how a file ends. */
static void calls(void) {
    static const uint8_t cut_short[] = {EVENT_CUT, EVENT_SETUP, 1, 1, [15] = EVENT_SETUP, 1, 1, [29] = EVENT_CUT, EVENT_BEGIN, 0, EVENT_READ, 0};
    static const uint8_t due[] = {6, 0, 6, 0, 11, 1};
    uint8_t answers[64];
    memset(answers, 0xee, sizeof answers);
    plain_answer a = plain_events(cut_short, sizeof cut_short, memory, 64, answers, 53);
    check(a.refusal == 6 && a.value == 0 && answers[0] == 0xee, "calls", "short answers", a.refusal);
    a = plain_events(cut_short, sizeof cut_short, memory, 64, answers, 54);
    check(a.refusal == 0 && a.value == 6 && answers[54] == 0xee, "calls", "answers", a.value);
    for (size_t i = 0; i < sizeof due; i++) check(answers[9 * i] == due[i], "calls", "refusal of event", i);
    a = plain_events(cut_short, sizeof cut_short, memory, 128, answers, 54);
    for (size_t i = 0; i < 5; i++) check(answers[9 * i] == 6, "calls", "memory that does not fit, event", i);
    check(plain_events(cut_short, 0, memory, 64, answers, 0).value == 0, "calls", "empty file", 0);
    check(plain_image(cut_short, sizeof cut_short, memory, 64, image[0], sizeof image[0]).value == 70, "calls", "image", 70);
    check(plain_image(cut_short, 15, memory, 64, image[0], sizeof image[0]).refusal == 6, "calls", "image without cut", 6);
    check(plain_image_headed(cut_short, sizeof cut_short, memory, 64, image[1], sizeof image[1]).value == 70, "calls", "new image", 70);
    check(plain_image_headed(cut_short, 15, memory, 64, image[1], sizeof image[1]).refusal == 6, "calls", "new image without cut", 6);
}

/* The answer of the start call with this memory's length and so many bytes of the shares. */
static void start(uint64_t threads, uint64_t lines, const uint8_t *shares, size_t shares_len, size_t memory_len, uint8_t due) {
    plain_answer a = plain_start(threads, lines, shares, shares_len, memory, memory_len);
    check(a.refusal == due && a.value == 0, "start", "refusal", a.refusal);
}

static void starts(void) {
    static const uint8_t none[PLAIN_SHARES + 1], right[PLAIN_SHARES + 1] = {0, 1, [8] = 8, 8, 7}, wrong[PLAIN_SHARES + 1] = {0, 0, 1};
    start(8, 256, none, 10, sizeof memory, 0);
    start(9, 256, none, 10, sizeof memory, 6);
    start(UINT64_C(1) << 32 | 1, 1, none, 10, 64, 6);
    start(1, 257, none, 10, 64, 6);
    start(1, 0, none, 10, 0, 6);
    start(1, 1, none, 10, 63, 6);
    start(2, 1, right, 10, 64, 0);
    start(1, 1, right, 10, 64, 24);
    start(2, 1, wrong, 10, 64, 24);
    start(3, 1, wrong, 10, 64, 0);
    start(2, 1, wrong, 10, 63, 6);
    start(UINT64_MAX, 1, wrong, 10, 64, 6);
    for (size_t length = 0; length <= sizeof right; length++) start(2, 1, right, length, 64, length == 10 ? 0 : 6);
    for (size_t length = 0; length <= sizeof wrong; length++) start(2, 1, wrong, length, 64, length == 10 ? 24 : 6);
}

int main(void) {
    p1_to_p3();
    p4_and_p5();
    p6_and_p7();
    p8();
    p9_and_p10();
    p11();
    logged_33();
    repeats();
    begun_anew();
    sets_apart();
    under_a_lock();
    landed();
    refused_writes();
    held_slots();
    counted_bytes();
    counted_elsewhere();
    fences();
    each_byte();
    shared_word("bytes of one word, both commit", 1);
    shared_word("bytes of one word, the first commits", 0);
    same_bytes();
    no_mask();
    numbers_spent();
    ends();
    wrong_shares();
    six_before_24();
    right_shares();
    kept_entries();
    used_up();
    full_channels(0);
    full_channels(UINT64_C(0x0100010100000100));
    full_channel(1);
    full_channel(2);
    lack_by_channel();
    nobody();
    fifteen_first();
    nineteen_first();
    both_recovered();
    being_read();
    own_reads();
    read_depths();
    reads_over();
    refused_reads();
    before_25();
    before_18(1);
    before_18(0);
    before_19_to_21();
    both_want_to_write();
    one_reader();
    several_readers();
    each_pair();
    each_line();
    kept_off();
    one_figure();
    sevens();
    regions_apart();
    largest();
    calls();
    starts();
    printf("%u passed, %u failed\n", passed, failed);
    return failed > 0;
}
