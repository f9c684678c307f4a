/* short [FILES]: every call with buffers of every short length, from 0 to a little beyond what is needed, each a heap block of exactly that length, so that
   valgrind sees any access outside. Answers and bytes must be those of the plain engine; an output that is too short, a place not of eight bytes, or parties
   and reserves not of ten, must give 6 with nothing written, and a fault of a text its number. The last line is 'N passed, M failed'. */
#include <stdio.h>
#include <stdlib.h>
#include <string.h>

#include "../include/board.h"
#include "plain/common.h"
#include "plain/random.h"
#include "plain/tables.h"
#include "plain/text.h"

enum { EVENTS = 48, BEYOND = 10, FILL = 0xA5 };

static unsigned long long passed, failed;

static void check(int holds, const char *what, size_t length) {
    if (holds) {
        passed++;
    } else {
        failed++;
        printf("FAILED %s, length %zu\n", what, length);
    }
}

static int agree(board_answer a, plain_answer b) { return a.refusal == b.refusal && a.value == b.value; }
static int is_six(board_answer a) { return a.refusal == 6 && a.value == 0; }

/* A block of exactly that length: its front from the source, as far as that reaches, then the fill. */
static uint8_t *block(const uint8_t *source, size_t source_len, size_t length) {
    uint8_t *b = malloc(length);
    if (b == NULL) exit(2);
    for (size_t i = 0; i < length; i++) b[i] = i < source_len ? source[i] : FILL;
    return b;
}

/* The file, the memory, an image that they give, and the lengths that are needed. */
static uint8_t file[(EVENTS + 1) * PLAIN_RECORD_BYTES], memory[8 * PLAIN_LINE_BYTES], image[PLAIN_IMAGE_BYTES];
static size_t file_len, memory_len, answers_len, image_len;

typedef board_answer board_call(const uint8_t *, size_t, const uint8_t *, size_t, uint8_t *, size_t);
typedef plain_answer plain_call(const uint8_t *, size_t, const uint8_t *, size_t, uint8_t *, size_t);

/* One call that runs a file, with buffers of these lengths; `is_short` says that its output is too short. */
static void try_file(board_call *proved, plain_call *plain, const char *what, size_t f, size_t m, size_t out, int is_short) {
    uint8_t *lent_file = block(file, file_len, f), *lent_memory = block(memory, memory_len, m);
    uint8_t *given = block(NULL, 0, out), *due = block(NULL, 0, out), *untouched = block(NULL, 0, out);
    board_answer a = proved(lent_file, f, lent_memory, m, given, out);
    plain_answer b = plain(lent_file, f, lent_memory, m, due, out);
    check(agree(a, b) && memcmp(given, due, out) == 0, what, out);
    if (is_short) check(is_six(a) && memcmp(given, untouched, out) == 0, what, out);
    free(lent_file);
    free(lent_memory);
    free(given);
    free(due);
    free(untouched);
}

/* Files of every length, memories of every length, outputs of every length. */
static void try_lengths(board_call *proved, plain_call *plain, const char *what, size_t needed) {
    for (size_t n = 0; n <= file_len + BEYOND; n++) try_file(proved, plain, what, n, memory_len, needed + 9 * BEYOND, 0);
    for (size_t n = 0; n <= memory_len + BEYOND; n++) try_file(proved, plain, what, file_len, n, needed, 0);
    for (size_t n = 0; n <= needed + BEYOND; n++) try_file(proved, plain, what, file_len, memory_len, n, n < needed);
}

typedef board_answer board_step(uint8_t *, size_t, uint8_t *, size_t);
typedef plain_answer plain_step(uint8_t *, size_t, uint8_t *, size_t);

/* One recovery step, with an image and a place of these lengths. */
static void try_step(board_step *proved, plain_step *plain, size_t i, size_t p) {
    static const uint8_t zero[8];
    uint8_t *given = block(image, image_len, i), *due = block(image, image_len, i), *untouched = block(image, image_len, i);
    uint8_t *place = block(zero, 8, p), *due_place = block(zero, 8, p), *untouched_place = block(zero, 8, p);
    board_answer a = proved(given, i, place, p);
    plain_answer b = plain(due, i, due_place, p);
    check(agree(a, b) && memcmp(given, due, i) == 0 && memcmp(place, due_place, p) == 0, "recovery step", i);
    if (p != 8) check(is_six(a), "place of another length", p);
    if (a.refusal != 0) check(memcmp(given, untouched, i) == 0 && memcmp(place, untouched_place, p) == 0, "nothing written by a refused step", i);
    free(given);
    free(due);
    free(untouched);
    free(place);
    free(due_place);
    free(untouched_place);
}

/* One start call, with parties and reserves (those of the file's setup) and a memory of these lengths. */
static void try_start(uint64_t threads, size_t s, size_t m) {
    uint8_t *shares = block(file + 4, PLAIN_SHARES, s), *lent = block(memory, memory_len, m);
    uint64_t lines = memory_len / PLAIN_LINE_BYTES;
    board_answer a = board_start(threads, lines, shares, s, lent, m);
    check(agree(a, plain_start(threads, lines, shares, s, lent, m)), "start", m);
    if (s != PLAIN_SHARES) check(is_six(a), "parties and reserves of another length", s);
    free(shares);
    free(lent);
}

static void try_starts(void) {
    for (uint64_t t = 0; t < 10; t++) {
        for (size_t n = 0; n <= memory_len + BEYOND; n++) try_start(t, PLAIN_SHARES, n);
        for (size_t n = 0; n <= PLAIN_SHARES + BEYOND; n++) try_start(t, n, memory_len);
    }
}

/* Images and places of every length. */
static void try_steps(board_step *proved, plain_step *plain) {
    for (size_t n = 0; n <= image_len + BEYOND; n++) try_step(proved, plain, n, 8);
    for (size_t n = 0; n <= 8 + BEYOND; n++) try_step(proved, plain, image_len, n);
}

/* The image in a form: the call that saves it, and both steps over it. */
static void try_image(board_call *proved, plain_call *plain) {
    image_len = (size_t)plain(file, file_len, memory, memory_len, image, sizeof image).value;
    try_lengths(proved, plain, "image", image_len);
    try_steps(board_recovery_step, plain_recovery_step);
    try_steps(board_recovery_step_headed, plain_recovery_step_headed);
}

/* What a call that may be refused leaves in a buffer of some length: all of it where it is refused, and what stands behind its bytes where it is not. */
static void check_rest(board_answer a, const uint8_t *given, size_t length, const char *what) {
    size_t written = a.refusal == 0 ? (size_t)a.value : 0;
    for (size_t i = written; i < length; i++)
        if (given[i] != FILL) check(0, what, length);
}

/* The tables, with buffers of every length around theirs, and files of every length. */
static void try_tables(size_t f, size_t out) {
    uint8_t *lent = block(file, file_len, f), *lent_memory = block(memory, memory_len, memory_len), *given = block(NULL, 0, out);
    board_answer a = board_tables(lent, f, lent_memory, memory_len, given, out);
    check(out < TABLES_BYTES ? is_six(a) : a.refusal == 0 && a.value == TABLES_BYTES, "tables", out);
    check_rest(a, given, out, "behind the tables");
    free(lent);
    free(lent_memory);
    free(given);
}

/* A text of the first bytes of the file, in a buffer of a length around the one that is asked for; and the record at the front. */
static void try_text(size_t f, size_t out) {
    uint8_t *lent = block(file, file_len, f), *given = block(NULL, 0, out), *due = block(NULL, 0, out);
    board_answer a = board_text(lent, f, given, out);
    check(agree(a, plain_text(lent, f, due, out)) && memcmp(given, due, out) == 0, "text", f);
    check_rest(a, given, out, "behind the text");
    check(agree(board_record(lent, f), plain_record(lent, f)), "record", f);
    free(lent);
    free(given);
    free(due);
}

/* The first bytes of the file's text, read into a buffer of a length around the one that is asked for. */
static void try_bytes(const uint8_t *text, size_t n, size_t out) {
    size_t made, at;
    uint8_t *lent = block(text, n, n), *given = block(NULL, 0, out), *due = block(NULL, 0, 4 * n + 1);
    uint8_t fault = plain_read_text(lent, n, due, &made, &at);
    board_answer a = board_bytes(lent, n, given, out);
    if (out / 4 < n) check(is_six(a), "bytes into a short buffer", out);
    else check(a.refusal == fault && (fault != 0 || (a.value == made && memcmp(given, due, made) == 0)), "bytes", n);
    check_rest(a, given, out, "behind the bytes");
    check(board_fault_at(lent, n).value == at, "place of a fault", n);
    free(lent);
    free(given);
    free(due);
}

/* The calls that tell of a run, on inputs and outputs of every length. */
static void try_telling(void) {
    uint8_t *text = block(NULL, 0, 32 * file_len);
    size_t length = (size_t)plain_text(file, file_len, text, 32 * file_len).value;
    for (size_t n = TABLES_BYTES - BEYOND; n <= TABLES_BYTES + BEYOND; n++) try_tables(file_len, n);
    for (size_t n = 0; n <= file_len; n++) try_tables(n, TABLES_BYTES);
    for (size_t n = 0; n <= file_len; n++)
        for (size_t out = n > 0 ? 32 * n - 1 : 0; out <= 32 * n + 1; out++) try_text(n, out);
    for (size_t n = 0; n <= length; n++)
        for (size_t out = n > 0 ? 4 * n - 1 : 0; out <= 4 * n + 1; out++) try_bytes(text, n, out);
    for (size_t n = 0; n <= image_len; n++) {
        static plain_contents c;
        uint8_t *lent = block(image, image_len, n);
        check(board_recovery_entry(lent, n, n % 4).refusal == plain_read_image(lent, n, 1, &c), "log entry of a step", n);
        free(lent);
    }
    free(text);
}

/* All calls on the file, which has so many events, over any memory of its lines. */
static void try_calls(uint64_t seed, size_t events, size_t lines) {
    random_source source = {seed};
    memory_len = lines * PLAIN_LINE_BYTES;
    for (size_t i = 0; i < memory_len; i++) memory[i] = (uint8_t)random_next(&source);
    answers_len = events * PLAIN_ANSWER_BYTES;
    try_starts();
    try_lengths(board_events, plain_events, "events", answers_len);
    try_image(board_image, plain_image);
    try_image(board_image_headed, plain_image_headed);
    try_telling();
}

/* A file of a few threads and lines. */
static void try_seed(uint64_t seed) {
    uint16_t lines = (uint16_t)(1 + seed % 3);
    file_len = random_file(seed, RANDOM_MIXED, (uint8_t)(1 + seed % PLAIN_THREADS), lines, EVENTS, file);
    try_calls(seed, EVENTS, lines);
}

/* A file that logs eight lines in one region: headers of seven and of one. */
static void try_headers(void) {
    static const uint8_t shares[PLAIN_SHARES];
    put_setup(file, 1, 8, shares);
    file_len = PLAIN_RECORD_BYTES;
    file[file_len++] = EVENT_BEGIN, file[file_len++] = 0;
    for (uint8_t l = 0; l < 8; l++) {
        const uint8_t records[] = {EVENT_WRITE, 0, l, 0, 7, [PLAIN_WRITE_RECORD] = EVENT_LOG_ACK, l};
        memcpy(file + file_len, records, sizeof records);
        file_len += sizeof records;
    }
    file[file_len++] = EVENT_CUT;
    try_calls(0, 19, 8);
}

int main(int argc, char **argv) {
    uint64_t files = argc > 1 ? strtoull(argv[1], NULL, 10) : 6;
    for (uint64_t seed = 1; seed <= files; seed++) try_seed(seed);
    try_headers();
    printf("short buffers: %llu passed, %llu failed\n", passed, failed);
    return failed != 0;
}
