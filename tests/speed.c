/* speed [EVENTS]: nanoseconds per event of the proved engine beside the plain one, on a mixed and a deep run at T 8, L 256, whose writes are of words, on
   a mixed one where half of them are of bytes, on one of many begins with half of each channel kept for each party, and on one of writes; then
   microseconds for the largest image (32 regions, 256 log entries): the image call, one judgement, a whole recovery; then the same for the new form, and how
   often the old form's time that is; then nanoseconds per event for the readable form, written and read back. Each time is the best of five runs over the same
   input; both must give the same bytes. */
#define _POSIX_C_SOURCE 199309L
#include <stdio.h>
#include <stdlib.h>
#include <string.h>
#include <time.h>

#include "../include/board.h"
#include "plain/common.h"
#include "plain/random.h"
#include "plain/text.h"

enum { RUNS = 5 };

static const uint8_t memory[PLAIN_LINES * PLAIN_LINE_BYTES];

static double now(void) {
    struct timespec t;
    clock_gettime(CLOCK_PROCESS_CPUTIME_ID, &t);
    return (double)t.tv_sec * 1e9 + (double)t.tv_nsec;
}

/* The best time of a run in nanoseconds per event; 0 if an answer is missing. */
static double timed(int proved, const uint8_t *file, size_t length, uint64_t count, uint8_t *answers) {
    double best = 0;
    for (int run = 0; run < RUNS; run++) {
        uint64_t refusal, value;
        double start = now();
        if (proved) {
            board_answer a = board_events(file, length, memory, sizeof memory, answers, count * PLAIN_ANSWER_BYTES);
            refusal = a.refusal, value = a.value;
        } else {
            plain_answer a = plain_events(file, length, memory, sizeof memory, answers, count * PLAIN_ANSWER_BYTES);
            refusal = a.refusal, value = a.value;
        }
        double took = (now() - start) / (double)count;
        if (refusal != 0 || value != count) return 0;
        if (run == 0 || took < best) best = took;
    }
    return best;
}

/* A file of `count` records, all but a few of them accepted writes: each thread has a region open with a slot for each of eight lines, and the writes go to
   any of them. Lines fly and are taken back. Gives its length. */
static size_t writes_file(uint64_t count, uint8_t *file) {
    static const uint8_t shares[PLAIN_SHARES];
    random_source source = {1};
    size_t n = PLAIN_RECORD_BYTES;
    uint64_t records = 1;
    put_setup(file, PLAIN_THREADS, PLAIN_LINES, shares);
    for (uint8_t t = 0; t < PLAIN_THREADS && records < count; t++, records++) file[n++] = EVENT_BEGIN, file[n++] = t;
    for (uint8_t l = 0; records < count; records++) {
        int first = l < PLAIN_THREADS * PLAIN_SLOTS;
        uint8_t line = first ? l++ : (uint8_t)random_below(&source, PLAIN_THREADS * PLAIN_SLOTS);
        file[n] = EVENT_WRITE, file[n + 1] = line / PLAIN_SLOTS, file[n + 2] = line, file[n + 3] = (uint8_t)random_below(&source, PLAIN_WORDS);
        put64(file + n + 4, random_next(&source));
        n += PLAIN_WRITE_RECORD;
        if (first && ++records < count) file[n++] = EVENT_LOG_ACK, file[n++] = line;
    }
    return n;
}

/* Both engines on one file; 0 if they differ. */
static int compared(const char *name, const uint8_t *file, size_t length, uint64_t count, uint8_t *answers) {
    size_t room = count * PLAIN_ANSWER_BYTES;
    double proved = timed(1, file, length, count, answers), plain = timed(0, file, length, count, answers + room);
    if (proved == 0 || plain == 0 || memcmp(answers, answers + room, room) != 0) return 0;
    printf("%s: proved %.1f ns, plain %.1f ns per event, %.2f times, over %llu events\n", name, proved, plain, proved / plain, (unsigned long long)count);
    return 1;
}

/* Engines and forms are 0 or 1: the plain engine, the proved one; the old form, the new one. */
static size_t save(int proved, int headed, const uint8_t *file, size_t length, uint8_t *image) {
    if (proved) return (size_t)(headed ? board_image_headed : board_image)(file, length, memory, sizeof memory, image, PLAIN_IMAGE_BYTES).value;
    return (size_t)(headed ? plain_image_headed : plain_image)(file, length, memory, sizeof memory, image, PLAIN_IMAGE_BYTES).value;
}

static uint64_t step(int proved, int headed, uint8_t *image, size_t length, uint8_t place[8]) {
    if (proved) return (headed ? board_recovery_step_headed : board_recovery_step)(image, length, place, 8).value;
    return (headed ? plain_recovery_step_headed : plain_recovery_step)(image, length, place, 8).value;
}

enum { TIMES = 3 }; /* the image call, a judgement alone (a place past the last entry), a whole recovery */

/* The best of so many runs, in microseconds, of each of these; gives the image's length. */
static size_t image_times(int proved, int headed, const uint8_t *file, size_t length, uint8_t *image, double best[TIMES]) {
    size_t image_len = 0;
    for (int run = 0; run < RUNS; run++) {
        uint8_t past[8] = {255, 255}, place[8] = {0};
        double times[TIMES], start = now();
        image_len = save(proved, headed, file, length, image);
        times[0] = (now() - start) / 1e3, start = now();
        step(proved, headed, image, image_len, past);
        times[1] = (now() - start) / 1e3, start = now();
        while (step(proved, headed, image, image_len, place) != 0) {}
        times[2] = (now() - start) / 1e3;
        for (int i = 0; i < TIMES; i++)
            if (run == 0 || times[i] < best[i]) best[i] = times[i];
    }
    return image_len;
}

/* Both engines and forms on the largest image; 0 if engines differ. */
static int image_speed(void) {
    static uint8_t file[LARGEST_FILE_BYTES], image[2][PLAIN_IMAGE_BYTES];
    static const char *const names[][TIMES] = {{"image call", "judgement", "recovery"}, {"new image call", "new judgement", "new recovery"}};
    size_t length = largest_file(file);
    double times[2][2][TIMES];
    for (int headed = 0; headed < 2; headed++) {
        size_t due = headed ? PLAIN_HEADED_BYTES : PLAIN_IMAGE_BYTES;
        for (int proved = 0; proved < 2; proved++)
            if (image_times(proved, headed, file, length, image[proved], times[headed][proved]) != due) return 0;
        if (memcmp(image[0], image[1], due) != 0) return 0;
        for (int i = 0; i < TIMES; i++) {
            double plain = times[headed][0][i], proved = times[headed][1][i];
            printf("%s: proved %.1f us, plain %.1f us, %.1f times", names[headed][i], proved, plain, proved / plain);
            if (headed) printf("; proved %.2f times the old form, plain %.2f", proved / times[0][1][i], plain / times[0][0][i]);
            printf("\n");
        }
    }
    return 1;
}

/* The readable form of a file into a text, and back into bytes; gives their number, and the best time of each in nanoseconds. */
static size_t text_times(int proved, const uint8_t *file, size_t length, uint8_t *text, uint8_t *bytes, double best[2]) {
    size_t made = 0, at;
    for (int run = 0; run < RUNS; run++) {
        double start = now(), between;
        if (proved) {
            size_t text_len = (size_t)board_text(file, length, text, BOARD_TEXT_BYTES(length)).value;
            between = now();
            made = (size_t)board_bytes(text, text_len, bytes, BOARD_FILE_BYTES(text_len)).value;
        } else {
            size_t text_len = (size_t)plain_text(file, length, text, BOARD_TEXT_BYTES(length)).value;
            between = now();
            plain_read_text(text, text_len, bytes, &made, &at);
        }
        double times[2] = {between - start, now() - between};
        for (int i = 0; i < 2; i++)
            if (run == 0 || times[i] < best[i]) best[i] = times[i];
    }
    return made;
}

/* Both engines on the readable form of a mixed file; 0 if what is read back is not the file. */
static int text_speed(void) {
    enum { COUNT = 50000 };
    static uint8_t file[(COUNT + 1) * PLAIN_RECORD_BYTES];
    size_t length = random_file(1, RANDOM_MIXED, PLAIN_THREADS, PLAIN_LINES, COUNT, file);
    uint8_t *text = malloc(BOARD_TEXT_BYTES(length)), *bytes = malloc(BOARD_FILE_BYTES(BOARD_TEXT_BYTES(length)));
    double times[2][2];
    int same = text != NULL && bytes != NULL;
    for (int proved = 0; proved < 2 && same; proved++)
        same = text_times(proved, file, length, text, bytes, times[proved]) == length && memcmp(bytes, file, length) == 0;
    for (int i = 0; i < 2 && same; i++)
        printf("text %s: proved %.1f ns, plain %.1f ns per event, %.2f times\n", i == 0 ? "written" : "read", times[1][i] / COUNT, times[0][i] / COUNT,
               times[1][i] / times[0][i]);
    free(text);
    free(bytes);
    return same;
}

int main(int argc, char **argv) {
    static const struct { const char *name; random_mode mode; } runs[] = {
        {"mixed", RANDOM_MIXED_WORDS}, {"deep", RANDOM_DEEP_WORDS}, {"bytes", RANDOM_MIXED_BYTES}, {"reserves", RANDOM_RESERVES},
    };
    uint64_t count = argc > 1 ? strtoull(argv[1], NULL, 10) : 1000000;
    uint8_t *file = malloc((count + 1) * PLAIN_RECORD_BYTES), *answers = malloc(2 * count * PLAIN_ANSWER_BYTES);
    if (file == NULL || answers == NULL || count < 2) return 1;
    for (size_t i = 0; i < sizeof runs / sizeof runs[0]; i++) {
        size_t length = random_file(1, runs[i].mode, PLAIN_THREADS, PLAIN_LINES, count, file);
        if (!compared(runs[i].name, file, length, count, answers)) return 1;
    }
    if (!compared("writes", file, writes_file(count, file), count, answers)) return 1;
    free(file);
    free(answers);
    return image_speed() && text_speed() ? 0 : 1;
}
