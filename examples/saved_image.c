/* Images for the examples. */
#include "saved_image.h"

#include <inttypes.h>
#include <stdio.h>
#include <string.h>

enum { HEAD_BYTES = 4, LINE_RECORD = 1 + BOARD_LINE_BYTES, REGION_RECORD = 17 };

size_t line_at(size_t line) { return HEAD_BYTES + LINE_RECORD * line + 1; }

int is_headed(int *argc, char ***argv) {
    int headed = *argc > 1 && strcmp((*argv)[1], "-n") == 0;
    *argc -= headed, *argv += headed;
    return headed;
}

/* Number of regions in a list of them, at a place in the image that moves behind it. */
static uint64_t count_regions(const uint8_t *image, size_t *at) {
    uint64_t count = 0;
    for (; image[*at] == BOARD_IMAGE_REGION; *at += REGION_RECORD) count++;
    return count;
}

/* Number of log entries from there to the end: a record of kind 35 holds one, one of kind 40 + k holds k. */
static uint64_t count_entries(const uint8_t *image, size_t at) {
    uint64_t count = 0;
    while (image[at] != BOARD_IMAGE_END) {
        size_t k = image[at] == BOARD_IMAGE_LOG ? 1 : image[at] - BOARD_IMAGE_HEADER;
        count += k;
        at += 4 + 65 * k;
    }
    return count;
}

board_answer save_form(int headed, const uint8_t *file, size_t length, uint8_t bytes[BOARD_IMAGE_BYTES]) {
    static const uint8_t memory[BOARD_MEMORY_BYTES];
    return (headed ? board_image_headed : board_image)(file, length, memory, memory_length(file, length), bytes, BOARD_IMAGE_BYTES);
}

int save_image(const uint8_t *file, size_t length, saved_image *image) {
    board_answer saved = save_form(image->headed, file, length, image->bytes);
    if (saved.refusal != 0) {
        printf("no image: refused with %u\n", saved.refusal);
        return 0;
    }
    image->length = (size_t)saved.value;
    image->lines = (size_t)number_at(image->bytes + 2, 2);
    size_t at = HEAD_BYTES + LINE_RECORD * image->lines;
    image->regions = count_regions(image->bytes, &at);
    image->entries = count_entries(image->bytes, at);
    return 1;
}

void print_image(const saved_image *image) {
    printf("image of %zu bytes: %" PRIu64 " uncommitted regions, %" PRIu64 " log entries\n", image->length, image->regions, image->entries);
    print_words("words in it:", image);
}

void print_words(const char *title, const saved_image *image) {
    printf("%s\n", title);
    for (size_t l = 0; l < image->lines; l++)
        for (size_t w = 0; w < 8; w++) {
            uint64_t value = number_at(image->bytes + line_at(l) + 8 * w, 8);
            if (value != 0) printf("  line %zu word %zu: %" PRIu64 "\n", l, w, value);
        }
}

board_answer step_image(saved_image *image, uint8_t place[BOARD_PLACE_BYTES]) {
    return (image->headed ? board_recovery_step_headed : board_recovery_step)(image->bytes, image->length, place, BOARD_PLACE_BYTES);
}

uint8_t recover(saved_image *image, uint64_t most, uint64_t *made) {
    uint8_t place[BOARD_PLACE_BYTES] = {0};
    for (*made = 0; *made < most;) {
        board_answer a = step_image(image, place);
        if (a.refusal != 0) return a.refusal;
        ++*made;
        if (a.value == 0) break;
    }
    return 0;
}
