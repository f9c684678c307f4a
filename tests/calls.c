/* calls SEED FILES: the calls that tell of a run against the plain engine, on random event files, valid and damaged: records, tables behind every event, the
   readable form both ways, the first fault of damaged texts, and the log entry of every recovery step. The last line is 'N passed, M failed'. */
#include <stdio.h>
#include <stdlib.h>
#include <string.h>

#include "../include/board.h"
#include "check.h"
#include "plain/common.h"
#include "plain/random.h"
#include "plain/tables.h"
#include "plain/text.h"

enum { EVENTS = 120, FILE_BYTES = (EVENTS + 1) * PLAIN_RECORD_BYTES, TEXT_BYTES = BOARD_TEXT_BYTES(FILE_BYTES), READ_BYTES = BOARD_FILE_BYTES(TEXT_BYTES) };

_Static_assert(TABLES_BYTES == BOARD_TABLES_BYTES && PLAIN_IMAGE_BYTES == BOARD_IMAGE_BYTES, "the lengths that the header tells");

static uint8_t file[FILE_BYTES], memory[PLAIN_LINES * PLAIN_LINE_BYTES], text[2][TEXT_BYTES], bytes[2][READ_BYTES];

/* Each record and the tables behind it; the calls run the file from its front, the plain engine goes on. */
static void compare_tables(size_t length, size_t memory_len, unsigned long long seed) {
    static plain_engine e;
    static uint8_t found[TABLES_BYTES], due[TABLES_BYTES];
    size_t at = 0;
    plain_init_lent(&e, memory, memory_len);
    while (at < length) {
        board_answer record = board_record(file + at, length - at);
        plain_answer next = plain_record(file + at, length - at);
        check(record.refusal == 0 && record.value == next.value, "length of a record", seed);
        plain_event(&e, file + at, length - at);
        at += (size_t)next.value;
        board_answer a = board_tables(file, at, memory, memory_len, found, sizeof found);
        plain_tables(&e, due);
        sort_tables(found);
        check(a.refusal == 0 && a.value == TABLES_BYTES && memcmp(found, due, sizeof due) == 0, "tables", seed);
    }
}

/* A text is read as the plain reader reads it: its bytes, or its first fault and where that stands, with nothing written. */
static void compare_read(const uint8_t *lent, size_t length, unsigned long long seed) {
    size_t made, at, room = BOARD_FILE_BYTES(length);
    memset(bytes[0], 0x5A, room);
    board_answer a = board_bytes(lent, length, bytes[0], room);
    uint8_t fault = plain_read_text(lent, length, bytes[1], &made, &at);
    memset(bytes[1] + (fault == 0 ? made : 0), 0x5A, room - (fault == 0 ? made : 0));
    check(a.refusal == fault && a.value == (fault == 0 ? made : 0) && memcmp(bytes[0], bytes[1], room) == 0, "bytes of a text", seed);
    board_answer place = board_fault_at(lent, length);
    check(place.refusal == 0 && place.value == at, "place of a fault", seed);
}

/* The readable form of a file, which reads back; and the same text with some bytes changed. */
static void compare_text(size_t length, random_source *source, unsigned long long seed) {
    static const uint8_t some[] = {' ', '\t', '\r', '\n', '#', '0', '9', 'b', 'x', '-', 0, 255};
    memset(text, 0xA5, sizeof text);
    board_answer a = board_text(file, length, text[0], sizeof text[0]);
    plain_answer b = plain_text(file, length, text[1], sizeof text[1]);
    check(a.refusal == b.refusal && a.value == b.value && memcmp(text[0], text[1], sizeof text[0]) == 0, "text", seed);
    compare_read(text[0], (size_t)a.value, seed);
    check(board_bytes(text[0], (size_t)a.value, bytes[0], sizeof bytes[0]).value == length && memcmp(bytes[0], file, length) == 0, "text read back", seed);
    for (int i = 0; i < 20 && a.value > 0; i++) {
        size_t changed = (size_t)random_below(source, a.value);
        text[0][changed] = some[random_below(source, sizeof some)];
        compare_read(text[0], (size_t)random_below(source, a.value + 1), seed);
    }
}

/* The log entry of each step, and none behind the last; of an image with a byte changed, the same refusal as a step gives. */
static void compare_walk(size_t length, size_t memory_len, random_source *source, unsigned long long seed) {
    static uint8_t image[PLAIN_IMAGE_BYTES];
    static plain_contents c;
    uint32_t order[PLAIN_LOGGED] = {0};
    int headed = random_chance(source, 2);
    plain_answer saved = (headed ? plain_image_headed : plain_image)(file, length, memory, memory_len, image, sizeof image);
    if (saved.refusal != 0) return;
    size_t image_len = (size_t)saved.value;
    plain_read_image(image, image_len, 1, &c);
    plain_walk(&c, order);
    for (uint64_t step = 0; step <= c.logs; step++) {
        const plain_image_log *log = &c.log[order[step < c.logs ? step : 0]];
        board_answer a = board_recovery_entry(image, image_len, step);
        uint64_t due = step < c.logs ? log->line + 256 * (uint64_t)log->region.number + 16777216 * (uint64_t)log->region.thread : 0;
        check(a.refusal == 0 && a.value == due, "log entry of a step", seed);
    }
    size_t changed = (size_t)random_below(source, image_len);
    image[changed] = (uint8_t)random_below(source, 50);
    size_t shorter = (size_t)random_below(source, image_len + 1);
    check(board_recovery_entry(image, shorter, 0).refusal == plain_read_image(image, shorter, 1, &c), "refusal of an image", seed);
}

static void compare_file(unsigned long long seed) {
    random_source source = {seed * 2654435761u + 1};
    uint8_t threads = (uint8_t)(1 + random_below(&source, PLAIN_THREADS));
    uint16_t lines = (uint16_t)(1 + random_below(&source, random_chance(&source, 2) ? 9 : PLAIN_LINES));
    random_mode mode = (random_mode)random_below(&source, 3);
    uint64_t count = 2 + random_below(&source, EVENTS - 2);
    size_t length = random_file(seed, mode, threads, lines, count, file);
    size_t memory_len = (size_t)lines * PLAIN_LINE_BYTES;
    for (size_t i = 0; i < memory_len; i++) memory[i] = (uint8_t)random_next(&source);
    compare_tables(length, memory_len, seed);
    compare_text(length, &source, seed);
    compare_walk(length, memory_len, &source, seed);
}

/* Every line of one word, and of a word and a number, around the ends of what a number may be. */
static void compare_lines(void) {
    static const char *const words[] = {"setup", "begin", "end", "read", "write", "log-ack", "data-ack", "fence", "cut", "write-bytes", "bytes", "setu", "x", ""};
    static const char *const numbers[] = {
        "", "0", "255", "256", "65535", "65536", "18446744073709551615", "18446744073709551616", "-1", "1x", "0x1", "007", "#", "1 2 3", "1 2 3 4", "1 2 3 4 5",
        "1 2 3 4 5 6", "1 2 3 4 5 6 7 8 9 10 11 12", "1 2 3 4 5 6 7 8 9 10 11 12 13", "\t1\r", "1\n\n#x\r\n bad",
    };
    char line[128];
    for (size_t w = 0; w < sizeof words / sizeof words[0]; w++)
        for (size_t n = 0; n < sizeof numbers / sizeof numbers[0]; n++) {
            int length = snprintf(line, sizeof line, "%s %s", words[w], numbers[n]);
            for (int part = 0; part <= length; part++) compare_read((const uint8_t *)line, (size_t)part, w);
        }
}

int main(int argc, char **argv) {
    unsigned long long seed = argc > 1 ? strtoull(argv[1], NULL, 10) : 1, files = argc > 2 ? strtoull(argv[2], NULL, 10) : 500;
    compare_lines();
    for (unsigned long long i = 0; i < files; i++) compare_file(seed + i);
    printf("calls that tell of a run: %llu passed, %llu failed\n", passed, failed);
    return failed != 0;
}
