/* Images for the examples: the one that an event file leaves, recovery of it from the start, the words of its lines. */
#ifndef SAVED_IMAGE_H
#define SAVED_IMAGE_H

#include "../include/board.h"
#include "files.h"

typedef struct {
    int headed; /* in the new form: log entries under headers */
    uint8_t bytes[BOARD_IMAGE_BYTES];
    size_t length, lines;
    uint64_t regions, entries; /* the uncommitted regions and the log entries */
} saved_image;

/* Whether the first argument asks for the new form; it is taken away then. */
int is_headed(int *argc, char ***argv);

/* Runs an event file over zero memory and saves the image in a form. */
board_answer save_form(int headed, const uint8_t *file, size_t length, uint8_t bytes[BOARD_IMAGE_BYTES]);

/* The image that the cut of an event file left, in the form that image->headed says. Says so and gives 0 if there is none. */
int save_image(const uint8_t *file, size_t length, saved_image *image);

/* Where the bytes of a line stand in an image. */
size_t line_at(size_t line);

/* Length and counts of an image, and its words. */
void print_image(const saved_image *image);

/* The nonzero words of the lines, behind a title. */
void print_words(const char *title, const saved_image *image);

/* One recovery step, by the call for its form. */
board_answer step_image(saved_image *image, uint8_t place[BOARD_PLACE_BYTES]);

/* Makes recovery steps from the first one on, until 'finished' or until as many as `most` are made, and counts them. Gives the refusal of a step, else 0. */
uint8_t recover(saved_image *image, uint64_t most, uint64_t *made);

#endif
