/* run, text, bytes: event files and their answers, and both forms of them. */
#include <stdlib.h>
#include <string.h>

#include "commands.h"
#include "events.h"

int run_command(const char *usage, int argc, char **argv) {
    const char *file_name = NULL, *memory_name = NULL, *answers_name = NULL;
    size_t memories = 0, answers = 0;
    const option options[] = {{"-m", &memory_name, 1, &memories}, {"-a", &answers_name, 1, &answers}, {0}};
    take_words(usage, argc, argv, options, &file_name, 1, 1);
    contents file = read_file(file_name);
    const contents *memory = memory_in(memory_name, file);
    run events = run_events(file, memory);
    for (size_t i = 0; i < events.count; i++) print_row(stdout, &events, i);
    if (answers > 0) write_file(answers_name, events.answers, BOARD_ANSWER_BYTES * events.count);
    free_run(&events);
    free(file.bytes);
    if (memory != NULL) free(memory->bytes);
    return SAME;
}

/* Where the words of `text` and `bytes` say: a file to read, and one to write, standard output unless told. */
static contents take_in(const char *usage, int argc, char **argv, const char **in, const char **out) {
    size_t outputs = 0;
    const option options[] = {{"-o", out, 1, &outputs}, {0}};
    *out = "-";
    take_words(usage, argc, argv, options, in, 1, 1);
    return read_file(*in);
}

int text_command(const char *usage, int argc, char **argv) {
    const char *in = NULL, *out;
    contents file = take_in(usage, argc, argv, &in, &out);
    size_t room = BOARD_TEXT_BYTES(file.length);
    uint8_t *text = need(room);
    write_file(out, text, (size_t)board_text(file.bytes, file.length, text, room).value);
    free(text);
    free(file.bytes);
    return SAME;
}

/* Says which fault a text has and where, with the word. */
static void name_fault(const char *name, contents text, uint8_t fault) {
    size_t at = (size_t)board_fault_at(text.bytes, text.length).value, line = 1, column = 1, length = 0;
    for (size_t i = 0; i < at; i++) {
        line += text.bytes[i] == '\n';
        column = text.bytes[i] == '\n' ? 1 : column + 1;
    }
    while (at + length < text.length && strchr(" \t\r\n#", text.bytes[at + length]) == NULL) length++;
    fprintf(stderr, "board: %s:%zu:%zu: %s", name, line, column, board_fault_text(fault));
    if (length > 0) fprintf(stderr, " '%.*s'", length > 40 ? 40 : (int)length, (const char *)text.bytes + at);
    fprintf(stderr, "\n");
}

int bytes_command(const char *usage, int argc, char **argv) {
    const char *in = NULL, *out;
    contents text = take_in(usage, argc, argv, &in, &out);
    size_t room = BOARD_FILE_BYTES(text.length);
    uint8_t *file = need(room);
    board_answer read = board_bytes(text.bytes, text.length, file, room);
    if (read.refusal != 0) name_fault(input_name(in), text, read.refusal);
    else write_file(out, file, (size_t)read.value);
    free(file);
    free(text.bytes);
    return read.refusal != 0 ? BAD : SAME;
}
