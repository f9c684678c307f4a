/* compare SEED LISTS: the proved engine against the plain one, on random event files, valid and damaged: answers, images of both forms, images after
   every recovery step of either, of torn images and behind cuts inside a step too, places, refusals of short buffers and of damaged images; and on every
   mask, every party and reserve of a setup, all pairs of reserves that setup accepts, with begins that fill the channels, and every line that each thread
   reads and others write. The last line is 'N passed, M failed'. */
#include <stdio.h>
#include <stdlib.h>
#include <string.h>

#include "../include/board.h"
#include "check.h"
#include "plain/common.h"
#include "plain/damage.h"

enum { EVENTS = 400, FILE_BYTES = (EVENTS + 1) * PLAIN_RECORD_BYTES, SPARE = 16 };

static int agree(board_answer a, plain_answer b) { return a.refusal == b.refusal && a.value == b.value; }

static uint8_t file[FILE_BYTES], memory[PLAIN_LINES * PLAIN_LINE_BYTES];
static uint8_t answers[2][(EVENTS + 2) * PLAIN_ANSWER_BYTES + SPARE], image[2][PLAIN_IMAGE_BYTES + SPARE];

/* Answers of the whole file, into a buffer of a given length. */
static void compare_answers(size_t length, size_t memory_len, size_t room, unsigned long long seed) {
    memset(answers, 0xA5, sizeof answers);
    board_answer a = board_events(file, length, memory, memory_len, answers[0], room);
    plain_answer b = plain_events(file, length, memory, memory_len, answers[1], room);
    check(agree(a, b), "answer of the events call", seed);
    check(memcmp(answers[0], answers[1], sizeof answers[0]) == 0, "answers", seed);
}

/* The calls that save and recover the old form, and those of the new one, whose step takes both. */
static const struct {
    board_answer (*proved_image)(const uint8_t *, size_t, const uint8_t *, size_t, uint8_t *, size_t);
    plain_answer (*plain_image)(const uint8_t *, size_t, const uint8_t *, size_t, uint8_t *, size_t);
    board_answer (*proved_step)(uint8_t *, size_t, uint8_t *, size_t);
    plain_answer (*plain_step)(uint8_t *, size_t, uint8_t *, size_t);
} calls[] = {
    {board_image, plain_image, board_recovery_step, plain_recovery_step},
    {board_image_headed, plain_image_headed, board_recovery_step_headed, plain_recovery_step_headed},
};

/* The image of the file in a form; gives its length, 0 if it was refused. */
static size_t compare_image(int headed, size_t length, size_t memory_len, size_t room, unsigned long long seed) {
    memset(image, 0x5A, sizeof image);
    board_answer a = calls[headed].proved_image(file, length, memory, memory_len, image[0], room);
    plain_answer b = calls[headed].plain_image(file, length, memory, memory_len, image[1], room);
    check(agree(a, b), "answer of the image call", seed);
    check(memcmp(image[0], image[1], sizeof image[0]) == 0, "image", seed);
    return a.refusal == 0 ? (size_t)a.value : 0;
}

static size_t line_at(size_t line) { return 4 + 65 * line + 1; }

/* A cut inside stores: of the words of lines that differ from an earlier image any are still as they were, in both images alike. */
static void tear(random_source *source, const uint8_t *earlier, size_t length) {
    for (size_t w = 0, at; (at = line_at(w / PLAIN_WORDS) + 8 * (w % PLAIN_WORDS)) + 8 <= length; w++)
        if (memcmp(image[0] + at, earlier + at, 8) != 0 && random_chance(source, 2))
            for (int k = 0; k < 2; k++) memcpy(image[k] + at, earlier + at, 8);
}

/* One recovery step in both engines, of the old kind or the new one; gives the proved one's answer. */
static board_answer compare_step(int by, size_t length, uint8_t place[2][8], unsigned long long seed) {
    board_answer a = calls[by].proved_step(image[0], length, place[0], 8);
    plain_answer b = calls[by].plain_step(image[1], length, place[1], 8);
    check(agree(a, b), "answer of a recovery step", seed);
    check(memcmp(image[0], image[1], sizeof image[0]) == 0 && memcmp(place[0], place[1], 8) == 0, "image or place after a step", seed);
    return a;
}

/* Recovery steps with cuts between and inside, until both have finished twice; gives whether they have. */
static int compare_recovery(int by, size_t length, random_source *source, unsigned long long seed) {
    static uint8_t earlier[sizeof image[0]];
    uint8_t place[2][8] = {{0}, {0}};
    int finished = 0;
    for (int steps = 0; finished < 2 && steps < 2000; steps++) {
        uint64_t cut = random_below(source, 80);
        if (cut == 0) memset(place, 0, sizeof place);
        memcpy(earlier, image[0], length);
        board_answer a = compare_step(by, length, place, seed);
        if (a.refusal != 0) return 0;
        if (cut == 1) {
            tear(source, earlier, length);
            memset(place, 0, sizeof place);
        } else {
            finished += a.value == 0;
        }
    }
    return finished == 2;
}

/* Both images with every line in flight at the file's cut as its flight carries it. */
static void land_flights(size_t length, size_t memory_len) {
    static plain_engine e;
    plain_init_lent(&e, memory, memory_len);
    for (size_t at = 0, next; (next = plain_record_length(file + at, length - at)) > 0; at += next) plain_event(&e, file + at, next);
    for (size_t l = 0; l < e.lines; l++)
        for (int k = 0; k < 2 && e.flight[l].number != 0; k++) put_line(image[k] + line_at(l), e.carried[l]);
}

/* Both images are the one given. */
static void put_images(const uint8_t *given) {
    for (int k = 0; k < 2; k++) memcpy(image[k], given, sizeof image[k]);
}

/* Recovery of the saved image, and of the same torn by the cut: the memory found is the same. */
static void compare_torn(int by, size_t length, size_t memory_len, size_t image_len, random_source *source, unsigned long long seed) {
    static uint8_t saved[sizeof image[0]], found[sizeof image[0]];
    memcpy(saved, image[0], sizeof saved);
    int finished = compare_recovery(by, image_len, source, seed);
    memcpy(found, image[0], sizeof found);
    put_images(saved);
    land_flights(length, memory_len);
    tear(source, saved, image_len);
    if (compare_recovery(by, image_len, source, seed) && finished)
        check(memcmp(image[0], found, image_len) == 0, "memory found from a torn image", seed);
    put_images(saved);
}

/* Recovery of an image with one byte changed, or with its log records moved about; sometimes cut short or lengthened. */
static void compare_damaged(int by, size_t length, random_source *source, unsigned long long seed) {
    static uint8_t saved[sizeof image[0]];
    memcpy(saved, image[0], sizeof saved);
    for (int i = 0; i < 30; i++) {
        size_t at = (size_t)random_below(source, random_chance(source, 2) && length > 70 ? length - 70 : length), damaged_len = length;
        if (i < 20) image[0][at] = (uint8_t)(random_chance(source, 2) ? random_below(source, 256) : random_below(source, 50));
        else damaged_len = damage_records(source, image[0], PLAIN_IMAGE_BYTES);
        if (random_chance(source, 5)) damaged_len = (size_t)random_below(source, damaged_len + 2);
        memcpy(image[1], image[0], sizeof image[0]);
        compare_recovery(by, damaged_len, source, seed);
        put_images(saved);
    }
}

/* A small image damaged at every byte, each by several values: one recovery step on each. */
static void compare_every_byte(int by, size_t length, unsigned long long seed) {
    static uint8_t saved[sizeof image[0]];
    static const uint8_t values[] = {0, 1, 2, 7, 8, 31, 32, 33, 34, 35, 36, 37, 40, 41, 42, 47, 48, 255};
    memcpy(saved, image[0], sizeof saved);
    for (size_t at = 0; at < length; at++)
        for (size_t v = 0; v < 2 + sizeof values; v++) {
            uint8_t place[2][8] = {{0}, {0}};
            for (int k = 0; k < 2; k++) image[k][at] = v < sizeof values ? values[v] : (uint8_t)(saved[at] + (v == sizeof values ? 1 : 255));
            compare_step(by, length, place, seed);
            put_images(saved);
        }
}

/* The image of the file in a form: damaged, torn and as it is, by both steps. */
static void compare_form(int headed, size_t length, size_t memory_len, random_source *source, unsigned long long seed) {
    compare_image(headed, length, memory_len, (size_t)random_below(source, sizeof image[0]), seed);
    size_t image_len = compare_image(headed, length, memory_len, sizeof image[0], seed);
    for (int by = 0; by < 2 && image_len > 0; by++) {
        if (image_len < 700 && seed % 16 == 0) compare_every_byte(by, image_len, seed);
        compare_damaged(by, image_len, source, seed);
        compare_torn(by, length, memory_len, image_len, source, seed);
    }
}

static void compare_file(unsigned long long seed) {
    random_source source = {seed * 2654435761u + 1};
    static const uint16_t sizes[] = {1, 2, 3, 5, 8, 17, 64, 256};
    uint8_t threads = (uint8_t)(1 + random_below(&source, PLAIN_THREADS));
    uint16_t lines = sizes[random_below(&source, 8)];
    random_mode mode = (random_mode)random_below(&source, 3);
    uint64_t count = 2 + random_below(&source, EVENTS - 2);
    size_t length = random_file(seed, mode, threads, lines, count, file);
    size_t memory_len = (size_t)lines * PLAIN_LINE_BYTES;
    if (random_chance(&source, 20)) memory_len = (size_t)random_below(&source, sizeof memory);
    for (size_t i = 0; i < memory_len; i++) memory[i] = (uint8_t)random_next(&source);
    compare_answers(length, memory_len, sizeof answers[0], seed);
    compare_answers(length, memory_len, (size_t)random_below(&source, sizeof answers[0]), seed);
    for (int headed = 0; headed < 2; headed++) compare_form(headed, length, memory_len, &source, seed);
}

/* The start call, also with fewer and more than ten bytes of parties and reserves. */
static void compare_start(uint64_t threads, uint64_t lines, const uint8_t *shares, size_t shares_len, size_t memory_len) {
    board_answer a = board_start(threads, lines, shares, shares_len, memory, memory_len);
    check(agree(a, plain_start(threads, lines, shares, shares_len, memory, memory_len)), "start", shares_len);
}

/* Every record of one byte, the empty file, setups in and out of range, places of other lengths. */
static void compare_small(void) {
    static const uint8_t shares[PLAIN_SHARES + 2] = {0, 1};
    uint8_t place[9] = {0};
    for (unsigned b = 0; b < 256; b++) {
        file[0] = (uint8_t)b;
        compare_answers(1, 0, PLAIN_ANSWER_BYTES, b);
        compare_answers(0, 0, b % 4, b);
    }
    for (uint64_t t = 0; t < 11; t++)
        for (uint64_t l = 0; l < 300; l += 7)
            for (size_t n = 0; n <= sizeof shares; n++) compare_start(t, l, shares, n, (size_t)(64 * l) % sizeof memory);
    for (size_t n = 0; n < 20; n++)
        check(agree(calls[n % 2].proved_step(image[0], 3, place, n / 2), calls[n % 2].plain_step(image[1], 3, place, n / 2)), "place of another length", n / 2);
}

/* A write of bytes with every mask, each of thread, line and word in range or just above it; before setup, outside a region, inside one, after a cut.
   The word is read behind it. */
static void compare_masks(void) {
    static const uint8_t front[] = {EVENT_SETUP, 1, 1, [PLAIN_RECORD_BYTES] = EVENT_BEGIN, 0, EVENT_CUT};
    static const size_t lengths[] = {0, PLAIN_RECORD_BYTES, PLAIN_RECORD_BYTES + 2, PLAIN_RECORD_BYTES + 3};
    for (size_t i = 0; i < PLAIN_LINE_BYTES; i++) memory[i] = (uint8_t)(16 + i);
    for (unsigned mask = 0; mask < 256; mask++)
        for (unsigned above = 0; above < 8; above++)
            for (size_t f = 0; f < sizeof lengths / sizeof lengths[0]; f++) {
                uint8_t thread = above & 1, line = above >> 1 & 1, word = above >> 2 & 1 ? PLAIN_WORDS : 3;
                const uint8_t records[] = {EVENT_WRITE_BYTES, thread, line, word, (uint8_t)mask, 1, 2, 3, 4, 5, 6, 7, 8, EVENT_READ, 0, 0, 3};
                memcpy(file, front, lengths[f]);
                memcpy(file + lengths[f], records, sizeof records);
                compare_answers(lengths[f] + sizeof records, PLAIN_LINE_BYTES, sizeof answers[0], mask);
            }
}

/* A setup and a begin of each thread, at that place of the file; gives the place behind them. */
static size_t put_board(size_t at, uint8_t threads, const uint8_t shares[PLAIN_SHARES]) {
    put_setup(file + at, threads, 1, shares);
    at += PLAIN_RECORD_BYTES;
    for (uint8_t t = 0; t < PLAIN_THREADS; t++) file[at++] = EVENT_BEGIN, file[at++] = t;
    return at;
}

/* A setup with these parties and reserves, at every T and as a start call. Behind it stands one that is accepted if the first was not, in which party 0 may
   hold one entry of each channel; then the first again, which is refused. */
static void compare_setup(const uint8_t shares[PLAIN_SHARES]) {
    static const uint8_t accepted[PLAIN_SHARES] = {[PLAIN_THREADS + 1] = PLAIN_CHANNEL - 1};
    for (uint8_t threads = 0; threads < 10; threads++) {
        size_t length = put_board(put_board(put_board(0, threads, shares), PLAIN_THREADS, accepted), threads, shares);
        compare_answers(length, PLAIN_LINE_BYTES, sizeof answers[0], threads);
        compare_start(threads, 1, shares, PLAIN_SHARES, PLAIN_LINE_BYTES);
    }
}

/* Each of the ten bytes of a setup behind L with every value, the others as they stand in two that are accepted at T 8. */
static void compare_setups(void) {
    static const uint8_t accepted[][PLAIN_SHARES] = {{0}, {0, 1, 0, 1, 0, 1, 0, 1, 5, 11}};
    for (size_t i = 0; i < sizeof accepted / sizeof accepted[0]; i++)
        for (unsigned v = 0; v < 256 * PLAIN_SHARES; v++) {
            uint8_t shares[PLAIN_SHARES];
            memcpy(shares, accepted[i], sizeof shares);
            shares[v / 256] = (uint8_t)(v % 256);
            compare_setup(shares);
        }
}

/* One region of each thread that waits for the thread's line: number 1 of the first `odd` threads, number 2 of the others. Gives the place behind them. */
static size_t put_firsts(size_t at, uint8_t odd) {
    for (uint8_t t = 0; t < PLAIN_THREADS; t++) {
        const uint8_t first[] = {EVENT_BEGIN, t, EVENT_END, t, EVENT_BEGIN, t, EVENT_WRITE, t, t, 0, 7, [18] = EVENT_END, t};
        size_t from = t < odd ? 4 : 0;
        memcpy(file + at, first + from, sizeof first - from);
        at += sizeof first - from;
    }
    return at;
}

/* Begins of threads of both parties in an order, again and again, until no more entry is had: all regions of a thread stay uncommitted while its first one
   waits, and where more of the first ones are odd channel 1 is full before channel 0. Then those of threads 0 and 5 commit, and all threads begin. */
static void compare_begins(const uint8_t shares[PLAIN_SHARES], uint8_t odd, const char *order) {
    static const uint8_t last[] = {EVENT_LOG_ACK, 0, EVENT_DATA_ACK, 0, EVENT_BEGIN, 0, EVENT_BEGIN, 1, EVENT_LOG_ACK, 5, EVENT_DATA_ACK, 5, EVENT_BEGIN, 2,
                                   EVENT_BEGIN, 4, EVENT_BEGIN, 3, EVENT_BEGIN, 5, EVENT_BEGIN, 6, EVENT_BEGIN, 7, EVENT_CUT};
    put_setup(file, PLAIN_THREADS, PLAIN_THREADS, shares);
    size_t length = put_firsts(PLAIN_RECORD_BYTES, odd);
    for (size_t i = 0; i < 132; i++) {
        uint8_t t = (uint8_t)(order[i % strlen(order)] - '0');
        const uint8_t next[] = {EVENT_BEGIN, t, EVENT_END, t};
        memcpy(file + length, next, sizeof next);
        length += sizeof next;
    }
    memcpy(file + length, last, sizeof last);
    compare_answers(length + sizeof last, PLAIN_THREADS * PLAIN_LINE_BYTES, sizeof answers[0], shares[PLAIN_THREADS]);
}

/* All pairs of reserves that setup accepts, and those of 17 together, each with begins in several orders: one party alone, both in turn, one more often
   than the other. */
static void compare_reserves(void) {
    static const struct { uint8_t odd; const char *order; } runs[] = {
        {2, "0"}, {6, "0"}, {2, "1"}, {6, "1"}, {4, "01"}, {4, "1000"}, {2, "7531"}, {6, "0246"}, {6, "45670000"}, {2, "01235555"}, {4, "07162534"},
    };
    for (uint8_t first = 0; first <= PLAIN_CHANNEL + 1; first++)
        for (uint8_t second = 0; first + second <= PLAIN_CHANNEL + 1; second++)
            for (size_t i = 0; i < sizeof runs / sizeof runs[0]; i++) {
                const uint8_t shares[PLAIN_SHARES] = {0, 1, 0, 1, 0, 1, 0, 1, first, second};
                compare_begins(shares, runs[i].odd, runs[i].order);
            }
}

static size_t put_read(size_t at, uint8_t thread, uint8_t line) {
    memcpy(file + at, (uint8_t[]){EVENT_READ, thread, line, line % PLAIN_WORDS}, 4);
    return at + 4;
}

/* A write of a word or, of odd threads, of bytes. */
static size_t put_write(size_t at, uint8_t thread, uint8_t line) {
    const uint8_t bytes = thread % 2, word[] = {EVENT_WRITE, thread, line, thread, 7, [PLAIN_WRITE_RECORD] = 0};
    const uint8_t some[] = {EVENT_WRITE_BYTES, thread, line, thread, 1, 7, [PLAIN_BYTES_RECORD] = 0};
    size_t length = bytes ? PLAIN_BYTES_RECORD : PLAIN_WRITE_RECORD;
    memcpy(file + at, bytes ? some : word, length);
    return at + length;
}

/* The reader has read a line, at depth 2, and all others want to write it; one of them writes the lines whose numbers differ in one bit. So it is behind
   the inner end; behind the other one all want to write again. */
static void compare_reader(uint8_t reader, uint8_t line) {
    static const uint8_t shares[PLAIN_SHARES];
    uint8_t writer = (uint8_t)((reader + 1 + line % 7) % PLAIN_THREADS);
    size_t length = PLAIN_RECORD_BYTES;
    put_setup(file, PLAIN_THREADS, PLAIN_LINES, shares);
    for (uint8_t t = 0; t < PLAIN_THREADS; t++) file[length++] = EVENT_BEGIN, file[length++] = t;
    file[length++] = EVENT_BEGIN, file[length++] = reader;
    length = put_read(length, reader, line);
    for (uint8_t t = 0; t < PLAIN_THREADS; t++)
        if (t != reader) length = put_write(length, t, line);
    for (int bit = 0; bit < 7; bit++) length = put_write(length, writer, (uint8_t)(line ^ 1 << bit));
    file[length++] = EVENT_END, file[length++] = reader;
    for (uint8_t t = 0; t < PLAIN_THREADS; t++)
        if (t != reader) length = put_write(length, t, line);
    length = put_write(length, writer, line ^ 128);
    file[length++] = EVENT_END, file[length++] = reader;
    for (uint8_t t = 0; t < PLAIN_THREADS; t++) length = put_write(length, t, line);
    compare_answers(length, sizeof memory, sizeof answers[0], line);
}

static void compare_readers(void) {
    for (unsigned line = 0; line < PLAIN_LINES; line++)
        for (uint8_t reader = 0; reader < PLAIN_THREADS; reader++) compare_reader(reader, (uint8_t)line);
}

int main(int argc, char **argv) {
    unsigned long long seed = argc > 1 ? strtoull(argv[1], NULL, 10) : 1, lists = argc > 2 ? strtoull(argv[2], NULL, 10) : 500;
    compare_small();
    compare_masks();
    compare_setups();
    compare_reserves();
    compare_readers();
    for (unsigned long long i = 0; i < lists; i++) compare_file(seed + i);
    printf("%llu passed, %llu failed\n", passed, failed);
    return failed != 0;
}
