/* replay FILE ANSWERS: runs an event file over zero memory and compares with the answers that a board gave, nine bytes each. Exit code 0 if all agree, 1 at the
   first difference. `board check` tells the same in words, with the events that matter. Build: make -C tests replay */
#include <inttypes.h>
#include <stdio.h>
#include <stdlib.h>
#include <string.h>

#include "../include/board.h"
#include "files.h"

/* Number of answers at the front of two lists that are the same. */
static size_t agreeing(const uint8_t *due, const uint8_t *found, size_t count) {
    size_t same = 0;
    while (same < count && memcmp(due + BOARD_ANSWER_BYTES * same, found + BOARD_ANSWER_BYTES * same, BOARD_ANSWER_BYTES) == 0) same++;
    return same;
}

static void print_answer(const char *title, const uint8_t *answer) {
    printf("%s refusal %u (%s), value %" PRIu64, title, answer[0], board_refusal_text(answer[0]), number_at(answer + 1, 8));
}

int main(int argc, char **argv) {
    static const uint8_t memory[BOARD_MEMORY_BYTES];
    size_t length, found_length;
    if (argc != 3) {
        fprintf(stderr, "usage: replay FILE ANSWERS\n");
        return 2;
    }
    uint8_t *file = read_file(argv[1], &length), *found = read_file(argv[2], &found_length);
    size_t count = event_count(file, length), room = BOARD_ANSWER_BYTES * count, given = found_length / BOARD_ANSWER_BYTES;
    uint8_t *due = malloc(room + 1);
    if (due == NULL) return 2;
    board_events(file, length, memory, memory_length(file, length), due, room);
    size_t same = agreeing(due, found, given < count ? given : count);
    int differs = same < count || found_length != room;
    if (!differs) {
        printf("%zu answers agree\n", same);
    } else if (same < count && same < given) {
        printf("event %zu:", same + 1);
        print_answer(" expected", due + BOARD_ANSWER_BYTES * same);
        print_answer("; found", found + BOARD_ANSWER_BYTES * same);
        printf("\n");
    } else {
        printf("%zu answers agree, but the board gave %zu bytes and %zu are due\n", same, found_length, room);
    }
    free(file);
    free(found);
    free(due);
    return differs;
}
