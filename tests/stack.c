/* stack: the most stack that each call uses. A call runs in a thread whose stack was painted before; what lies between the caller's frame and the deepest
   byte that lost its paint is what it used. The inputs are the largest: T 8, L 256, long runs, the largest image. */
#define _DEFAULT_SOURCE
#include <pthread.h>
#include <stdio.h>
#include <string.h>
#include <sys/mman.h>

#include "../include/board.h"
#include "plain/random.h"

enum { STACK_BYTES = 8 << 20, PAINT = 0xC7, EVENTS = 20000 };

static const uint8_t memory[PLAIN_LINES * PLAIN_LINE_BYTES], shares[PLAIN_SHARES] = {0, 1, 0, 1, 0, 1, 0, 1, 8, 8};
static uint8_t file[(EVENTS + 1) * PLAIN_RECORD_BYTES], answers[EVENTS * PLAIN_ANSWER_BYTES], image[2][PLAIN_IMAGE_BYTES]; /* the old and the new one */
static uint8_t tables[BOARD_TABLES_BYTES], text[BOARD_TEXT_BYTES(sizeof file)], bytes[BOARD_FILE_BYTES(sizeof text)];
static size_t file_len, image_len[2], text_len;
static volatile uint64_t answered; /* so that no call is left out */

static void no_call(void) {}
static void start_call(void) { answered += board_start(PLAIN_THREADS, PLAIN_LINES, shares, sizeof shares, memory, sizeof memory).refusal; }
static void events_call(void) { answered += board_events(file, file_len, memory, sizeof memory, answers, sizeof answers).value; }
static void image_call(void) { image_len[0] = (size_t)board_image(file, file_len, memory, sizeof memory, image[0], sizeof image[0]).value; }
static void headed_call(void) { image_len[1] = (size_t)board_image_headed(file, file_len, memory, sizeof memory, image[1], sizeof image[1]).value; }

/* Whole recoveries; the new step over both images. */
static void recovery_calls(void) {
    uint8_t place[8] = {0};
    while (board_recovery_step(image[0], image_len[0], place, sizeof place).value == 1) answered++;
}

static void headed_recovery_calls(void) {
    for (int headed = 0; headed < 2; headed++) {
        uint8_t place[8] = {0};
        while (board_recovery_step_headed(image[headed], image_len[headed], place, sizeof place).value == 1) answered++;
    }
}

static void entry_call(void) { answered += board_recovery_entry(image[1], image_len[1], 3).value; }
static void record_call(void) { answered += board_record(file, file_len).value; }
static void tables_call(void) { answered += board_tables(file, file_len, memory, sizeof memory, tables, sizeof tables).value; }
static void text_call(void) { text_len = (size_t)board_text(file, file_len, text, sizeof text).value; }
static void bytes_call(void) { answered += board_bytes(text, text_len, bytes, sizeof bytes).value; }
static void fault_call(void) { answered += board_fault_at(text, text_len).value; }

typedef struct { void (*call)(void); const uint8_t *stack; size_t used; } measure;

static void *measured(void *argument) {
    measure *m = argument;
    const uint8_t *frame = __builtin_frame_address(0), *deepest = m->stack;
    m->call();
    while (*deepest == PAINT) deepest++;
    m->used = (size_t)(frame - deepest);
    return NULL;
}

/* Bytes of stack that a call uses, with its caller's frame; 0 if it could not be measured. */
static size_t used_by(void (*call)(void)) {
    pthread_attr_t attributes;
    pthread_t thread;
    uint8_t *stack = mmap(NULL, STACK_BYTES, PROT_READ | PROT_WRITE, MAP_PRIVATE | MAP_ANONYMOUS, -1, 0);
    if (stack == MAP_FAILED) return 0;
    measure m = {call, stack, 0};
    memset(stack, PAINT, STACK_BYTES);
    call(); /* once before, so that linking is over */
    if (pthread_attr_init(&attributes) == 0 && pthread_attr_setstack(&attributes, stack, STACK_BYTES) == 0 &&
        pthread_create(&thread, &attributes, measured, &m) == 0)
        pthread_join(thread, NULL);
    munmap(stack, STACK_BYTES);
    return m.used;
}

static size_t larger(size_t a, size_t b) { return a > b ? a : b; }

/* In the order in which they are measured: a recovery needs the images, a reader of texts the text. */
static const struct { const char *name; void (*call)(void); } calls[] = {
    {"board_start", start_call}, {"board_events", events_call}, {"board_image", image_call}, {"board_image_headed", headed_call},
    {"board_recovery_step", recovery_calls}, {"board_recovery_step_headed", headed_recovery_calls}, {"board_recovery_entry", entry_call},
    {"board_record", record_call}, {"board_tables", tables_call}, {"board_text", text_call}, {"board_bytes", bytes_call}, {"board_fault_at", fault_call},
};

int main(void) {
    enum { CALLS = sizeof calls / sizeof calls[0] };
    size_t base = used_by(no_call), most[CALLS] = {0};
    for (uint64_t seed = 0; seed <= 12; seed++) {
        file_len = seed == 0 ? largest_file(file) : random_file(seed, (random_mode)(seed % 3), PLAIN_THREADS, PLAIN_LINES, EVENTS, file);
        for (size_t i = 0; i < CALLS; i++) most[i] = larger(most[i], used_by(calls[i].call));
    }
    for (size_t i = 0; i < CALLS; i++) {
        if (base == 0 || most[i] < base) return 1;
        printf("%s %zu bytes\n", calls[i].name, most[i] - base);
    }
    return 0;
}
