/* show: what stands in an image, and what recovery will do with it. */
#include <inttypes.h>
#include <stdlib.h>
#include <string.h>

#include "commands.h"
#include "image.h"

static int is_zero(const uint8_t line[BOARD_LINE_BYTES]) {
    static const uint8_t zeros[BOARD_LINE_BYTES];
    return memcmp(line, zeros, BOARD_LINE_BYTES) == 0;
}

/* The words of a line that are not zero. */
static void print_line(const uint8_t line[BOARD_LINE_BYTES]) {
    const char *between = "";
    for (size_t i = 0; i < WORDS; i++) {
        if (word_at(line, i) == 0) continue;
        printf("%sword %zu is %" PRIu64, between, i, word_at(line, i));
        between = ", ";
    }
    printf("%s\n", is_zero(line) ? "all words are 0" : "");
}

static void print_region(const image_record *record) {
    const char *between = ", depends on ";
    printf("  %s: %s", record_words(record).text, state_of(record) == 0 ? "in progress" : "done");
    for (size_t i = 0; i < DEPENDENCES; i++) {
        if (dependence_of(record, i).number == 0) continue;
        printf("%s%s", between, name_words(dependence_of(record, i)).text);
        between = ", ";
    }
    printf("\n");
}

static void print_entries(const image_record *record) {
    for (size_t i = 0; i < entries_of(record->kind); i++) {
        printf("  log entry of %s: old line %u: ", name_words(region_of(record)).text, line_logged(record, i));
        print_line(old_line(record, i));
    }
}

/* The lines of the medium that are not zero. */
static void print_medium(contents image) {
    int found = 0;
    for (image_record record = {0}; next_record(image, &record);) {
        if (record.kind != BOARD_IMAGE_LINE || is_zero(record.bytes + 1)) continue;
        printf("  %s: ", record_words(&record).text);
        print_line(record.bytes + 1);
        found = 1;
    }
    if (!found) printf("  no word that is not 0\n");
}

static void print_lists(contents image) {
    for (image_record record = {0}; next_record(image, &record);) {
        if (record.kind == BOARD_IMAGE_REGION) print_region(&record);
        print_entries(&record);
    }
}

/* Prints each step of recovery and makes it. */
static void recover_all(contents image, size_t entries) {
    uint8_t place[BOARD_PLACE_BYTES] = {0};
    for (size_t step = 0; step < entries; step++) {
        printf("  ");
        print_step(image, step, step + 1);
        board_recovery_step_headed(image.bytes, image.length, place, sizeof place);
    }
}

int show_command(const char *usage, int argc, char **argv) {
    const char *name = NULL;
    const option options[] = {{0}};
    take_words(usage, argc, argv, options, &name, 1, 1);
    contents image = read_image(name);
    image_counts counts = count_records(image);
    const char *form = counts.entries == 0 ? "of either form" : counts.headed ? "with headers" : "of the old form";
    print_counts(image);
    printf("; T %u, L %u, %s\n", threads_of(image), lines_of(image), form);
    print_medium(image);
    print_lists(image);
    printf(counts.entries > 0 ? "recovery:\n" : "recovery restores nothing\n");
    recover_all(image, counts.entries);
    printf("the memory that it finds:\n");
    print_medium(image);
    free(image.bytes);
    return SAME;
}
