/* bench [-n] FILE [STEPS]: runs an event file over zero memory and saves the image that its cut left, with -n in the new form; recovers, but loses power
   after some steps (half of the log entries unless told), and recovers from the start. Prints the words that it finds in the image at each of the three
   moments. Build: make -C tests bench */
#include <inttypes.h>
#include <stdio.h>
#include <stdlib.h>

#include "saved_image.h"

int main(int argc, char **argv) {
    static saved_image image;
    uint64_t made;
    image.headed = is_headed(&argc, &argv);
    if (argc != 2 && argc != 3) {
        fprintf(stderr, "usage: bench [-n] FILE [STEPS]\n");
        return 2;
    }
    size_t length;
    uint8_t *file = read_file(argv[1], &length);
    int is_saved = save_image(file, length, &image);
    free(file);
    if (!is_saved) return 1;
    print_image(&image);
    recover(&image, argc == 3 ? strtoull(argv[2], NULL, 10) : image.entries / 2, &made);
    printf("power lost after recovery step %" PRIu64 "\n", made);
    print_words("words then:", &image);
    recover(&image, image.entries + 1, &made);
    printf("recovered from the start, finished at step %" PRIu64 "\n", made);
    print_words("words found:", &image);
    return 0;
}
