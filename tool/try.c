/* try: random event files against a model, and the smallest file that makes a difference. */
#include <inttypes.h>
#include <stdlib.h>
#include <string.h>
#include <sys/wait.h>
#include <unistd.h>

#include "commands.h"
#include "events.h"
#include "image.h"
#include "process.h"
#include "random.h"
#include "shrink.h"

enum { LIMIT = 10000, SHORT_LIMIT = 1000, BAR = 40, MORE_FILES = 50, MOST_SHRUNK = 8 };

/* A model, what it is to give behind the answers, how long it may take, and what its last run that made a difference did. */
typedef struct {
    const char *command;
    size_t image, recovered;
    uint64_t limit, slowest; /* milliseconds; slowest of the runs that ended */
    char *words;             /* the difference */
    int hung;
} trial;

/* What a model is to write: answers, then images, each of the same length. */
typedef struct { contents bytes; size_t answers, image; } expected;

static void add_bytes(contents *to, const uint8_t *bytes, size_t length) {
    memcpy(to->bytes + to->length, bytes, length);
    to->length += length;
}

static expected expected_of(const trial *t, const run *events) {
    uint8_t image[BOARD_IMAGE_BYTES], place[BOARD_PLACE_BYTES] = {0};
    size_t answers = BOARD_ANSWER_BYTES * events->count;
    board_answer saved = board_image(events->file.bytes, events->file.length, events->memory.bytes, events->memory.length, image, sizeof image);
    expected due = {{need(answers + 2 * sizeof image), 0}, answers, (size_t)saved.value};
    add_bytes(&due.bytes, events->answers, answers);
    if (t->image) add_bytes(&due.bytes, image, due.image);
    while (due.image > 0 && board_recovery_step(image, due.image, place, sizeof place).value != 0) continue;
    if (t->recovered) add_bytes(&due.bytes, image, due.image);
    return due;
}

/* ---- a difference in words */

static void tell_end(FILE *out, const outcome *done, uint64_t limit) {
    if (done->end == HUNG) fprintf(out, "the command had not ended after %" PRIu64 " ms\n", limit);
    else if (done->end == WROTE_TOO_MUCH) return;
    else if (WIFSIGNALED(done->status)) fprintf(out, "the command was ended by signal %d (%s)\n", WTERMSIG(done->status), strsignal(WTERMSIG(done->status)));
    else if (WEXITSTATUS(done->status) != 0) fprintf(out, "the command ended with code %d\n", WEXITSTATUS(done->status));
}

static void tell_answer(FILE *out, const run *events, size_t i, contents found) {
    contents record = record_of(events, i);
    char *text = event_text(record);
    size_t left = found.length - BOARD_ANSWER_BYTES * i;
    fprintf(out, "event %zu: %s\n  expected: ", i + 1, text);
    print_answer(out, kind_of(record), answer_of(events, i));
    fprintf(out, "\n  found:    ");
    if (left >= BOARD_ANSWER_BYTES) print_answer(out, kind_of(record), answer_at(found.bytes + BOARD_ANSWER_BYTES * i));
    else if (left > 0) fprintf(out, "%zu bytes of an answer's %d", left, BOARD_ANSWER_BYTES);
    else fprintf(out, "no answer");
    fprintf(out, "\n");
    free(text);
}

/* The image that stands at some place, up to its end record. */
static contents image_at(contents bytes, size_t at) {
    contents rest = {bytes.bytes + at, bytes.length - at};
    image_record record = {0};
    while (next_record(rest, &record) && record.kind != BOARD_IMAGE_END) continue;
    rest.length = record.at + record.length;
    return rest;
}

static void tell_image(FILE *out, const trial *t, const expected *due, size_t at, contents found) {
    int second = at >= due->answers + due->image;
    size_t start = due->answers + (second ? due->image : 0);
    fprintf(out, second || !t->image ? "the recovered image: " : "the image: ");
    print_difference(out, "the reference", image_at(due->bytes, start), "the model", image_at(found, start));
    fprintf(out, "\n");
}

/* Where the output begins to differ from what is due: in an answer, in an image, or behind all of it. */
static void tell_difference(FILE *out, const trial *t, const run *events, const expected *due, const outcome *done) {
    size_t at = 0, least = done->output.length < due->bytes.length ? done->output.length : due->bytes.length;
    while (at < least && done->output.bytes[at] == due->bytes.bytes[at]) at++;
    if (at < due->answers) tell_answer(out, events, at / BOARD_ANSWER_BYTES, done->output);
    else if (at < due->bytes.length) tell_image(out, t, due, at, done->output);
    else if (at < done->output.length) fprintf(out, "more than the %zu bytes that are due were written\n", at);
    if (done->unread > 0) fprintf(out, "%zu bytes of %zu were not read\n", done->unread, events->file.length);
}

/* Whether the model makes a difference on a file; if so its words are those of this one. */
static int differs(void *context, contents file) {
    trial *t = context;
    run events = run_events(file, NULL);
    expected due = expected_of(t, &events);
    outcome done = run_process(t->command, file, due.bytes.length + BOARD_IMAGE_BYTES, t->limit);
    int same = done.end == ENDED && done.status == 0 && done.output.length == due.bytes.length
               && memcmp(done.output.bytes, due.bytes.bytes, due.bytes.length) == 0;
    if (done.end == ENDED && done.milliseconds > t->slowest) t->slowest = done.milliseconds;
    if (!same) {
        size_t length;
        free(t->words);
        t->hung = done.end == HUNG;
        FILE *out = open_memstream(&t->words, &length);
        if (out == NULL) fail("no memory");
        tell_end(out, &done, t->limit);
        tell_difference(out, t, &events, &due, &done);
        if (fclose(out) != 0) fail("no memory");
    }
    free(done.output.bytes);
    free(due.bytes.bytes);
    free_run(&events);
    return !same;
}

/* ---- the smallest file */

/* The name of the text beside an event file; the caller's. */
static char *text_name(const char *name) {
    static const char ending[] = ".events";
    size_t length = strlen(name), end = sizeof ending - 1;
    char *other = need(length + sizeof ".txt");
    if (length > end && strcmp(name + length - end, ending) == 0) length -= end;
    memcpy(other, name, length);
    strcpy(other + length, ".txt");
    return other;
}

/* The difference as a comment, and the readable form. */
static void save_text(const char *name, const char *difference, contents file) {
    char *text;
    size_t length, room = BOARD_TEXT_BYTES(file.length);
    uint8_t *readable = need(room);
    FILE *out = open_memstream(&text, &length);
    if (out == NULL) fail("no memory");
    for (const char *line = difference; *line != 0; line += strcspn(line, "\n") + 1) fprintf(out, "# %.*s\n", (int)strcspn(line, "\n"), line);
    fwrite(readable, 1, (size_t)board_text(file.bytes, file.length, readable, room).value, out);
    if (fclose(out) != 0) fail("no memory");
    write_file(name, (const uint8_t *)text, length);
    free(text);
    free(readable);
}

/* The smallest file so far that makes a difference: which one it was shrunk from, its events, and the difference in words. */
typedef struct { contents file; uint64_t number; size_t events; char *words; } smallest;

/* Shrinks a file that makes a difference, and keeps it if no smaller one is known. */
static void keep_smaller(trial *t, uint64_t number, contents file, smallest *least) {
    if (t->hung && SHORT_LIMIT + 10 * t->slowest < t->limit) t->limit = SHORT_LIMIT + 10 * t->slowest;
    contents small = shrink(file, differs, t);
    size_t *at = need((small.length + 1) * sizeof *at), events = split(small, at);
    int is_smaller = least->words == NULL || events < least->events;
    free(at);
    free(is_smaller ? least->file.bytes : small.bytes);
    if (!is_smaller) return;
    free(least->words);
    *least = (smallest){small, number, events, t->words};
    t->words = NULL;
}

/* Saves the file and tells of it. */
static void report(const smallest *least, const char *name) {
    run events = run_events(least->file, NULL);
    char *beside = text_name(name);
    write_file(name, least->file.bytes, least->file.length);
    save_text(beside, least->words, least->file);
    printf("file %" PRIu64 " makes a difference; shrunk to %zu %s:\n%s\n", least->number, events.count, events.count == 1 ? "event" : "events", least->words);
    for (size_t i = 0; i < events.count; i++) print_row(stdout, &events, i);
    printf("\nsaved as %s, and in the readable form as %s\n", name, beside);
    free(beside);
    free_run(&events);
}

/* ---- the command */

static void show_progress(uint64_t done, uint64_t count, int last) {
    static const char bar[BAR + 1] = "########################################";
    if (!isatty(STDERR_FILENO)) return;
    fprintf(stderr, "\r[%-*.*s] %" PRIu64 " of %" PRIu64 "%s", BAR, (int)((double)done / (double)count * BAR), bar, done, count, last ? "\n" : "");
}

/* Tries files until one makes a difference, and then as many again and some more, of which the smallest counts: another one may shrink further. */
static smallest try_files(trial *t, uint64_t seed, uint64_t count) {
    smallest least = {.words = NULL};
    size_t shrunk = 0;
    for (uint64_t number = 0, until = count; number < until; number++) {
        contents file = random_file(seed, number);
        int different = differs(t, file);
        if (different && least.words == NULL && count - number > number + MORE_FILES) until = 2 * number + MORE_FILES;
        if (different) keep_smaller(t, number + 1, file, &least);
        if (different && (++shrunk == MOST_SHRUNK || t->hung)) until = number + 1;
        show_progress(number + 1, until, number + 1 >= until);
        free(file.bytes);
    }
    return least;
}

int try_command(const char *usage, int argc, char **argv) {
    const char *seed_word = "1", *count_word = "1000", *name = "difference.events";
    size_t seeds = 0, counts = 0, names = 0;
    trial t = {.limit = LIMIT};
    const option options[] = {{"--seed", &seed_word, 1, &seeds}, {"--count", &count_word, 1, &counts}, {"--image", NULL, 0, &t.image},
                              {"--recovered", NULL, 0, &t.recovered}, {"-o", &name, 1, &names}, {0}};
    take_words(usage, argc, argv, options, &t.command, 1, 1);
    if (strcmp(name, "-") == 0) fail("-o: a file, not standard output\nusage: board %s", usage);
    uint64_t seed = number_of("--seed", seed_word, UINT64_MAX), count = number_of("--count", count_word, UINT64_MAX);
    smallest least = try_files(&t, seed, count);
    int different = least.words != NULL;
    if (different) report(&least, name);
    else printf("%" PRIu64 " files agree\n", count);
    free(least.file.bytes);
    free(least.words);
    free(t.words);
    return different ? DIFFERENT : SAME;
}
