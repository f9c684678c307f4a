/* What the commands of the tool share: files, options, messages. */
#ifndef TOOL_COMMON_H
#define TOOL_COMMON_H

#include <stddef.h>
#include <stdint.h>
#include <stdio.h>

#include "../include/board.h"

/* What a command says by its exit code. */
enum { SAME = 0, DIFFERENT = 1, BAD = 2 };

/* The bytes of a file, or of anything else. */
typedef struct { uint8_t *bytes; size_t length; } contents;

int same_bytes(contents a, contents b);

/* Says what is wrong on standard error, behind 'board: ', and ends with code 2. */
_Noreturn void fail(const char *format, ...) __attribute__((format(printf, 1, 2)));

/* Memory, or the end. */
void *need(size_t size);

/* A whole file; '-' is standard input. Ends if it cannot be read. */
contents read_file(const char *name);

/* What such a file is called in a message. */
const char *input_name(const char *name);

/* Writes a whole file; '-' is standard output. Ends if it cannot be written. */
void write_file(const char *name, const uint8_t *bytes, size_t length);

/* An option: a flag if it has no place for a value; else it may be given as often as there are places. */
typedef struct { const char *name; const char **values; size_t most; size_t *count; } option;

/* Takes the words of a command apart: options, and from `least` to `most` other words, the rest of which stay NULL. An option list ends with a NULL name. */
void take_words(const char *usage, int argc, char **argv, const option *options, const char **words, size_t least, size_t most);

/* A number in decimal up to a most, from the words of a command; ends if it is none. */
uint64_t number_of(const char *what, const char *word, uint64_t most);

/* A little-endian number of up to eight bytes. */
uint64_t number_at(const uint8_t *bytes, size_t width);

#endif
