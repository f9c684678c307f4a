/* tear [-n] FILE: runs an event file over zero memory and saves the image that its cut left, with -n in the new form. Power may fail inside a store: any
   words of a line in flight at the cut may be in the medium, and any words of the line that a recovery step was restoring. Tries every set of words, in each
   line in flight alone, in all of them, and in the line of every recovery step, and recovers from the start. Prints what it tried and the words found, which
   are always the same (exit 0), or which tear is not made good (exit 1). Build: make -C tests tear */
#include <inttypes.h>
#include <stdio.h>
#include <stdlib.h>
#include <string.h>

#include "saved_image.h"

enum { WORDS = 8, SETS = 1 << WORDS };

/* The image of the cut; the same with every line in flight as its flight carries it; the saved one recovered. */
static saved_image saved, landed, found;
static int in_flight[BOARD_MEMORY_BYTES / BOARD_LINE_BYTES];
static uint64_t flights, images_torn, steps_torn;

/* Where the accepted cut stands in a file that has one; the pointer to the first answer moves to the cut's. */
static size_t find_cut(const uint8_t *file, size_t length, const uint8_t **answer) {
    size_t at = 0;
    for (; file[at] != BOARD_CUT || **answer != 0; *answer += BOARD_ANSWER_BYTES) at += (size_t)board_record(file + at, length - at).value;
    return at;
}

/* A line was in flight at the cut if its data acknowledgement, put in front of the cut, is accepted; the image of that file then has the line that the
   flight carried. The file has room for two bytes more, and there is room for the answer of one event more. */
static void find_flights(uint8_t *file, size_t length, uint8_t *answers, size_t room) {
    static const uint8_t memory[BOARD_MEMORY_BYTES];
    static uint8_t image[BOARD_IMAGE_BYTES];
    size_t memory_len = memory_length(file, length);
    const uint8_t *answer = answers;
    board_events(file, length, memory, memory_len, answers, room);
    size_t cut = find_cut(file, length, &answer);
    for (size_t l = 0; l < saved.lines; l++) {
        memcpy(file + cut, (uint8_t[]){BOARD_DATA_ACK, (uint8_t)l, BOARD_CUT}, 3);
        board_events(file, cut + 3, memory, memory_len, answers, room);
        if (*answer != 0) continue;
        save_form(saved.headed, file, cut + 3, image);
        memcpy(landed.bytes + line_at(l), image + line_at(l), BOARD_LINE_BYTES);
        in_flight[l] = 1;
        flights++;
    }
}

/* The words of a set, bit w for word w, of the lines `from` to before `to` reach the image, as they stand in the whole one. */
static void reach(saved_image *image, const saved_image *whole, size_t from, size_t to, unsigned set) {
    for (size_t w = WORDS * from; w < WORDS * to; w++) {
        size_t at = line_at(w / WORDS) + 8 * (w % WORDS);
        if ((set >> w % WORDS & 1) != 0) memcpy(image->bytes + at, whole->bytes + at, 8);
    }
}

/* Recovers an image from the start. Gives what is wrong; NULL if 'finished' comes in time, not before, and the image is the one found. */
static const char *wrong(saved_image *image) {
    uint64_t due = saved.entries > 0 ? saved.entries : 1, made;
    if (recover(image, due + 1, &made) != 0) return "a recovery step is refused";
    if (made != due) return "'finished' comes too early or too late";
    return memcmp(image->bytes, found.bytes, found.length) != 0 ? "recovery finds other memory" : NULL;
}

/* The end of a line that tells of a tear which is not made good. */
static int tell(unsigned set, const char *what) {
    printf(", torn by the words");
    for (unsigned w = 0; w < WORDS; w++)
        if ((set >> w & 1) != 0) printf(" %u", w);
    printf(": %s\n", what);
    return 0;
}

/* The image with the words of a set in these lines, as far as they were in flight. */
static const char *tear_lines(size_t from, size_t to, unsigned set) {
    static saved_image torn;
    torn = saved;
    reach(&torn, &landed, from, to, set);
    images_torn++;
    return wrong(&torn);
}

/* Each line in flight by itself, then all of them. */
static int tear_flights(unsigned set) {
    const char *what;
    for (size_t l = 0; l < saved.lines; l++)
        if (in_flight[l] && (what = tear_lines(l, l + 1, set)) != NULL) {
            printf("line %zu", l);
            return tell(set, what);
        }
    if (flights == 0 || (what = tear_lines(0, saved.lines, set)) == NULL) return 1;
    printf("all lines in flight");
    return tell(set, what);
}

/* Each recovery step, behind whole ones, on the image with the words of a set in all lines in flight: of the line that the step restores only the words of
   the set reach the image, and power fails. */
static int tear_steps(unsigned set) {
    static saved_image whole, torn;
    uint8_t place[BOARD_PLACE_BYTES] = {0};
    whole = saved;
    reach(&whole, &landed, 0, saved.lines, set);
    for (uint64_t step = 1; step <= saved.entries; step++, steps_torn++) {
        torn = whole;
        board_answer a = step_image(&whole, place);
        reach(&torn, &whole, 0, saved.lines, set);
        const char *what = a.refusal != 0 ? "the step is refused" : wrong(&torn);
        if (what == NULL) continue;
        printf("recovery step %" PRIu64, step);
        return tell(set, what);
    }
    return 1;
}

/* Every tear of the saved image; gives the exit code. */
static int tear(void) {
    found = saved;
    const char *what = wrong(&found);
    if (what != NULL) {
        printf("the image as it was saved: %s\n", what);
        return 1;
    }
    for (unsigned set = 0; set < SETS; set++)
        if (!tear_flights(set) || !tear_steps(set)) return 1;
    printf("%" PRIu64 " torn images and %" PRIu64 " torn recovery steps: each recovered to the same memory\n", images_torn, steps_torn);
    print_words("words found:", &found);
    return 0;
}

/* The lines in flight, then the tears; gives the exit code. */
static int tear_file(const uint8_t *file, size_t length) {
    size_t room = BOARD_ANSWER_BYTES * (event_count(file, length) + 1);
    uint8_t *longer = malloc(length + 2), *answers = malloc(room);
    int has_memory = longer != NULL && answers != NULL;
    if (has_memory) {
        landed = saved;
        memcpy(longer, file, length);
        find_flights(longer, length, answers, room);
        print_image(&saved);
        printf("%" PRIu64 " lines in flight\n", flights);
        print_words("words if all of them land:", &landed);
    } else {
        fprintf(stderr, "tear: no memory\n");
    }
    free(longer);
    free(answers);
    return has_memory ? tear() : 2;
}

int main(int argc, char **argv) {
    size_t length;
    saved.headed = is_headed(&argc, &argv);
    if (argc != 2) {
        fprintf(stderr, "usage: tear [-n] FILE\n");
        return 2;
    }
    uint8_t *file = read_file(argv[1], &length);
    int code = save_image(file, length, &saved) ? tear_file(file, length) : 1;
    free(file);
    return code;
}
