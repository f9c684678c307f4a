/* Event files. */
#include "events.h"

#include <inttypes.h>
#include <stdlib.h>
#include <string.h>

/* Of each kind the length of its record, where its thread and its line stand, 0 for none, and the width of each of its numbers. Number 9 is no kind's. */
static const struct { uint8_t length, thread, line; const char *widths; } forms[] = {
    [BOARD_SETUP] = {14, 0, 0, "121111111111"}, [BOARD_BEGIN] = {2, 1, 0, "1"}, [BOARD_END] = {2, 1, 0, "1"}, [BOARD_READ] = {4, 1, 2, "111"},
    [BOARD_WRITE] = {12, 1, 2, "1118"}, [BOARD_LOG_ACK] = {2, 0, 1, "1"}, [BOARD_DATA_ACK] = {2, 0, 1, "1"}, [BOARD_FENCE] = {2, 1, 0, "1"},
    [BOARD_CUT] = {1, 0, 0, ""}, [BOARD_WRITE_BYTES] = {13, 1, 2, "11118"},
};

int kind_of(contents record) {
    if (record.length == 0 || record.bytes[0] >= sizeof forms / sizeof forms[0]) return -1;
    size_t length = forms[record.bytes[0]].length;
    return length > 0 && record.length == length ? record.bytes[0] : -1;
}

int thread_of(contents record) {
    int kind = kind_of(record);
    return kind < 0 || forms[kind].thread == 0 ? -1 : record.bytes[forms[kind].thread];
}

int line_of(contents record) {
    int kind = kind_of(record);
    return kind < 0 || forms[kind].line == 0 ? -1 : record.bytes[forms[kind].line];
}

contents number_in(contents record, size_t i) {
    int kind = kind_of(record);
    const char *widths = kind < 0 ? "" : forms[kind].widths;
    size_t at = 1;
    for (; i > 0 && *widths != 0; i--) at += (size_t)(*widths++ - '0');
    return (contents){record.bytes + at, *widths == 0 ? 0 : (size_t)(*widths - '0')};
}

size_t split(contents file, size_t *at) {
    size_t count = 0;
    for (size_t i = 0; i < file.length; i += (size_t)board_record(file.bytes + i, file.length - i).value) at[count++] = i;
    at[count] = file.length;
    return count;
}

uint8_t setup_refusal(contents setup, const uint8_t *shares) {
    static const uint8_t memory[BOARD_MEMORY_BYTES];
    uint64_t lines = number_at(setup.bytes + 2, 2), length = BOARD_LINE_BYTES * lines;
    if (length > sizeof memory) length = 0;
    return board_start(setup.bytes[1], lines, shares, BOARD_SHARES_BYTES, memory, (size_t)length).refusal;
}

size_t memory_length(contents file) {
    size_t next;
    for (size_t i = 0; i < file.length; i += next) {
        next = (size_t)board_record(file.bytes + i, file.length - i).value;
        contents record = {file.bytes + i, next};
        if (kind_of(record) != BOARD_SETUP || setup_refusal(record, record.bytes + 4) != 0) continue;
        return (size_t)(BOARD_LINE_BYTES * number_at(record.bytes + 2, 2));
    }
    return 0;
}

const contents *memory_in(const char *name, contents file) {
    static contents memory;
    size_t asked = memory_length(file);
    if (name == NULL) return NULL;
    memory = read_file(name);
    if (memory.length != asked) fail("%s: %zu bytes, but the setup asks for %zu", name, memory.length, asked);
    return &memory;
}

/* Over zeros every setup has as many as it asks for: one before the one that is accepted is refused as if it stood alone. */
static void answer_setups(run *events) {
    for (size_t i = 0; i < events->count && answer_of(events, i).refusal != 0; i++) {
        contents record = record_of(events, i);
        if (kind_of(record) == BOARD_SETUP) events->answers[BOARD_ANSWER_BYTES * i] = setup_refusal(record, record.bytes + 4);
    }
}

run run_events(contents file, const contents *memory) {
    static uint8_t zeros[BOARD_MEMORY_BYTES];
    run events = {file, {zeros, 0}, 0, need((file.length + 1) * sizeof(size_t)), NULL};
    if (memory != NULL) events.memory = *memory;
    else events.memory.length = memory_length(file);
    events.count = split(file, events.at);
    events.answers = need(BOARD_ANSWER_BYTES * events.count);
    board_events(file.bytes, file.length, events.memory.bytes, events.memory.length, events.answers, BOARD_ANSWER_BYTES * events.count);
    if (memory == NULL) answer_setups(&events);
    return events;
}

void free_run(run *events) {
    free(events->at);
    free(events->answers);
}

contents record_of(const run *events, size_t i) {
    return (contents){events->file.bytes + events->at[i], events->at[i + 1] - events->at[i]};
}

board_answer answer_at(const uint8_t *nine) { return (board_answer){nine[0], number_at(nine + 1, 8)}; }

board_answer answer_of(const run *events, size_t i) { return answer_at(events->answers + BOARD_ANSWER_BYTES * i); }

char *event_text(contents record) {
    size_t room = BOARD_TEXT_BYTES(record.length);
    uint8_t *text = need(room + 1);
    uint64_t length = board_text(record.bytes, record.length, text, room).value;
    text[length > 0 ? length - 1 : 0] = 0;
    return (char *)text;
}

void print_answer(FILE *out, int kind, board_answer answer) {
    const char *regions = answer.value == 1 ? "region" : "regions";
    if (answer.refusal != 0) {
        fprintf(out, "refused with %u: %s", answer.refusal, board_refusal_text(answer.refusal));
        if (answer.value != 0) fprintf(out, ", value %" PRIu64, answer.value);
        return;
    }
    fputs("accepted", out);
    if (kind == BOARD_READ) fprintf(out, ", the word is %" PRIu64, answer.value);
    else if (kind == BOARD_FENCE) fprintf(out, ", %" PRIu64 ": %s uncommitted", answer.value, answer.value == 1 ? "nothing else is" : "a region is");
    else if (kind == BOARD_CUT) fprintf(out, ", %" PRIu64 " %s uncommitted", answer.value, regions);
    else if (answer.value != 0) fprintf(out, ", %" PRIu64 " %s committed", answer.value, regions);
}

void print_row(FILE *out, const run *events, size_t i) {
    contents record = record_of(events, i);
    char *text = event_text(record);
    fprintf(out, "%5zu  %-30s  ", i + 1, text);
    print_answer(out, kind_of(record), answer_of(events, i));
    fprintf(out, "\n");
    free(text);
}
