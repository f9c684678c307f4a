/* Images: their records by the layout in board.h, and in words what stands in them, why one is refused and where two differ. */
#ifndef TOOL_IMAGE_H
#define TOOL_IMAGE_H

#include "tables.h"

/* A few words, of the form that printf takes. */
typedef struct { char text[120]; } words;
words say(const char *format, ...) __attribute__((format(printf, 1, 2)));

words name_words(region_name name);

/* A record of an image: its number, from 1; where it starts; how many records of lines stand before it. The bytes of an unknown kind, of a record
   cut short or behind the end record are all one record of kind 0. */
typedef struct {
    size_t number, at, length, lines;
    uint8_t kind;
    const uint8_t *bytes;
} image_record;

/* Moves on to the next record, from {0} to the first; behind the last there is an empty one of kind 0, for which it gives 0. */
int next_record(contents image, image_record *record);

/* The record in which a byte stands; if the image is not so long, the one of kind 0 at its end. */
image_record record_holding(contents image, size_t at);
words record_words(const image_record *record);

/* T and L of an image that begins with a head. */
unsigned threads_of(contents image);
unsigned lines_of(contents image);

/* The region of a record that has one, else none; of a region's record, its state (0 in progress, 1 done) and a dependence. */
region_name region_of(const image_record *record);
uint8_t state_of(const image_record *record);
region_name dependence_of(const image_record *record, size_t i);

/* How many log entries a record of this kind holds; the line of one of them, and the old line. */
enum { MOST_UNDER_HEADER = 7 };
size_t entries_of(uint8_t kind);
uint8_t line_logged(const image_record *record, size_t entry);
const uint8_t *old_line(const image_record *record, size_t entry);
uint64_t word_at(const uint8_t *line, size_t word);

/* What an image holds: regions, log entries, and whether those stand under headers. */
typedef struct { size_t regions, entries; int headed; } image_counts;
image_counts count_records(contents image);
void print_counts(contents image);

/* The image in a file. Ends, and says why, if it is refused. */
contents read_image(const char *name);

/* The image that the cut of a run leaves, with headers or without; it is the caller's. Ends if no cut was accepted. */
contents image_of(const run *events, const char *name, int headed);

/* What the recovery step at a place restores, in a line. */
void print_step(contents image, uint64_t place, uint64_t step);

/* Ends, with the refusal of an image, the byte and the cause (refused.c). */
_Noreturn void refuse_image(const char *name, contents image, uint8_t refusal);

/* The first difference of two images that are not the same, without a newline (diff.c). */
void print_difference(FILE *out, const char *name_a, contents a, const char *name_b, contents b);

#endif
