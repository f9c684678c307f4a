/* threads [ROUNDS]: eight threads make all calls side by side, on different files at a time. Every answer and every byte must equal what the same
   calls gave before, made one after another. The last line is 'N passed, M failed'. */
#define _POSIX_C_SOURCE 200112L
#include <pthread.h>
#include <stdio.h>
#include <stdlib.h>
#include <string.h>

#include "../include/board.h"
#include "plain/random.h"

enum { WORKERS = 8, FILES = 32, EVENTS = 300, NUMBERS = 4, TOLD = 12, TEXT_FILE = 200 };

/* What the calls are lent. */
typedef struct {
    uint8_t threads;
    size_t file_len, memory_len;
    uint8_t file[(EVENTS + 1) * PLAIN_RECORD_BYTES], memory[PLAIN_LINES * PLAIN_LINE_BYTES];
} input;

/* What those of one form gave: the answers of saving and recovery, the image as it was saved and as recovery left it. */
typedef struct {
    uint64_t number[NUMBERS];
    uint8_t saved[PLAIN_IMAGE_BYTES], recovered[PLAIN_IMAGE_BYTES], place[8];
} form_result;

/* What those gave that tell of a run: the tables, the text, and the bytes of a text. */
typedef struct {
    uint64_t number[TOLD];
    uint8_t tables[BOARD_TABLES_BYTES], text[BOARD_TEXT_BYTES(TEXT_FILE)], bytes[BOARD_FILE_BYTES(BOARD_TEXT_BYTES(TEXT_FILE))];
} told_result;

/* What they gave: refusals and values, the answers, both forms, what was told. No byte of it is left unset. */
typedef struct {
    uint64_t number[NUMBERS];
    uint8_t answers[(EVENTS + 1) * PLAIN_ANSWER_BYTES];
    form_result form[2];
    told_result told;
} result;

typedef struct {
    int first; /* the file that this worker begins with */
    unsigned long long passed, failed;
    result found;
} worker;

static input inputs[FILES];
static result alone[FILES];
static worker workers[WORKERS];
static unsigned long rounds;
static pthread_barrier_t start;

static void make_input(int f) {
    static const uint16_t lines[] = {1, 3, 8, 20, 256};
    input *in = &inputs[f];
    random_source source = {(uint64_t)f};
    uint16_t l = lines[f % 5];
    in->threads = (uint8_t)(1 + f % PLAIN_THREADS);
    in->memory_len = (size_t)l * PLAIN_LINE_BYTES;
    in->file_len = random_file((uint64_t)f, (random_mode)(f % 3), in->threads, l, EVENTS, in->file);
    for (size_t i = 0; i < in->memory_len; i++) in->memory[i] = (uint8_t)random_next(&source);
}

static void put_answer(uint64_t *number, board_answer a) {
    number[0] = a.refusal;
    number[1] = a.value;
}

typedef board_answer image_call(const uint8_t *, size_t, const uint8_t *, size_t, uint8_t *, size_t);
typedef board_answer step_call(uint8_t *, size_t, uint8_t *, size_t);

/* Saving and recovery in a form, with a cut after the third step, until it has finished. */
static void run_form(const input *in, image_call *save, step_call *step, form_result *r) {
    board_answer saved = save(in->file, in->file_len, in->memory, in->memory_len, r->saved, sizeof r->saved);
    put_answer(r->number, saved);
    memcpy(r->recovered, r->saved, sizeof r->saved);
    board_answer a = {0, saved.refusal == 0};
    for (int steps = 0; a.refusal == 0 && a.value == 1; steps++) {
        if (steps == 3) memset(r->place, 0, sizeof r->place);
        a = step(r->recovered, (size_t)saved.value, r->place, sizeof r->place);
    }
    put_answer(r->number + 2, a);
}

/* The calls that tell of a run; the readable form of the file's front. */
static void run_told(const input *in, const form_result *form, told_result *r) {
    size_t front = in->file_len < TEXT_FILE ? in->file_len : TEXT_FILE;
    board_answer text = board_text(in->file, front, r->text, sizeof r->text);
    put_answer(r->number, text);
    put_answer(r->number + 2, board_bytes(r->text, (size_t)text.value, r->bytes, sizeof r->bytes));
    put_answer(r->number + 4, board_fault_at(r->text, (size_t)text.value / 2));
    put_answer(r->number + 6, board_record(in->file, in->file_len));
    put_answer(r->number + 8, board_tables(in->file, in->file_len, in->memory, in->memory_len, r->tables, sizeof r->tables));
    put_answer(r->number + 10, board_recovery_entry(form->saved, (size_t)form->number[1], 1));
}

/* All calls on one file. */
static void run_calls(const input *in, result *r) {
    memset(r, 0, sizeof *r);
    put_answer(r->number, board_start(in->threads, in->memory_len / PLAIN_LINE_BYTES, in->file + 4, PLAIN_SHARES, in->memory, in->memory_len));
    put_answer(r->number + 2, board_events(in->file, in->file_len, in->memory, in->memory_len, r->answers, sizeof r->answers));
    run_form(in, board_image, board_recovery_step, &r->form[0]);
    run_form(in, board_image_headed, board_recovery_step_headed, &r->form[1]);
    run_told(in, &r->form[1], &r->told);
}

static void *work(void *argument) {
    worker *w = argument;
    pthread_barrier_wait(&start);
    for (unsigned long i = 0; i < rounds * FILES; i++) {
        int f = (int)((w->first + i) % FILES);
        run_calls(&inputs[f], &w->found);
        if (memcmp(&w->found, &alone[f], sizeof w->found) == 0) w->passed++;
        else w->failed++;
    }
    return NULL;
}

int main(int argc, char **argv) {
    pthread_t thread[WORKERS];
    unsigned long long passed = 0, failed = 0;
    rounds = argc > 1 ? strtoul(argv[1], NULL, 10) : 8;
    for (int f = 0; f < FILES; f++) {
        make_input(f);
        run_calls(&inputs[f], &alone[f]);
    }
    if (pthread_barrier_init(&start, NULL, WORKERS) != 0) return 1;
    for (int k = 0; k < WORKERS; k++) {
        workers[k].first = k * FILES / WORKERS;
        if (pthread_create(&thread[k], NULL, work, &workers[k]) != 0) return 1;
    }
    for (int k = 0; k < WORKERS; k++) {
        if (pthread_join(thread[k], NULL) != 0) return 1;
        passed += workers[k].passed;
        failed += workers[k].failed;
    }
    printf("%d threads: %llu passed, %llu failed\n", WORKERS, passed, failed);
    return failed != 0;
}
