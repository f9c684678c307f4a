/* Event files: their records, what the engine answers to them, and both in words. */
#ifndef TOOL_EVENTS_H
#define TOOL_EVENTS_H

#include "common.h"

/* A file that was run over some starting memory: where each of its records starts (and behind them the file's length), and nine bytes of answer for each. */
typedef struct {
    contents file, memory;
    size_t count;
    size_t *at;
    uint8_t *answers;
} run;

/* Runs a file; without memory over zeros, as many as its setup asks for. */
run run_events(contents file, const contents *memory);
void free_run(run *events); /* the file and the memory stay */

/* The memory in a file, which has the length that the setup asks for; the end if it has not. NULL for a name gives no memory. */
const contents *memory_in(const char *name, contents file);

/* The refusal of a setup record over zeros, as many as it asks for, with these ten bytes for its parties and reserves. */
uint8_t setup_refusal(contents setup, const uint8_t *shares);

/* The length of the memory that the first setup which can stand asks for; 0 if none can. */
size_t memory_length(contents file);

/* Finds where the records of a file start, and behind them its length; gives how many there are. There is room for one more place than bytes. */
size_t split(contents file, size_t *at);

/* The record of event i, counted from 0; the answer to it. */
contents record_of(const run *events, size_t i);
board_answer answer_of(const run *events, size_t i);
board_answer answer_at(const uint8_t *nine);

/* A record in the readable form, without a newline, as a string of the caller's. */
char *event_text(contents record);

/* An answer in words, to an event of this kind: what its value means. */
void print_answer(FILE *out, int kind, board_answer answer);

/* Event i with its answer, in a line. */
void print_row(FILE *out, const run *events, size_t i);

/* The kind of a record; -1 if it ends its file. */
int kind_of(contents record);

/* The thread and the line that a record names; -1 if it names none. */
int thread_of(contents record);
int line_of(contents record);

/* The bytes of a record's number i, counted from 0; none behind the last. */
contents number_in(contents record, size_t i);

#endif
