/* generate SEED MODE THREADS LINES EVENTS: writes an event file to standard output. */
#include <stdio.h>
#include <stdlib.h>
#include <string.h>

#include "random.h"

static int mode_of(const char *name) {
    static const char *const names[] = {"mixed", "deep", "damaged", "mixed-words", "deep-words", "mixed-bytes", "reserves"};
    for (int i = 0; i < 7; i++)
        if (strcmp(name, names[i]) == 0) return i;
    return -1;
}

int main(int argc, char **argv) {
    if (argc != 6 || mode_of(argv[2]) < 0) {
        fprintf(stderr, "usage: generate SEED mixed|deep|damaged|mixed-words|deep-words|mixed-bytes|reserves THREADS LINES EVENTS\n");
        return 2;
    }
    unsigned long threads = strtoul(argv[3], NULL, 10), lines = strtoul(argv[4], NULL, 10);
    uint64_t count = strtoull(argv[5], NULL, 10);
    if (threads < 1 || threads > PLAIN_THREADS || lines < 1 || lines > PLAIN_LINES || count < 2) {
        fprintf(stderr, "generate: threads 1 to 8, lines 1 to 256, events from 2\n");
        return 2;
    }
    uint8_t *file = malloc((count + 1) * PLAIN_RECORD_BYTES);
    if (file == NULL) return 1;
    size_t length = random_file(strtoull(argv[1], NULL, 10), (random_mode)mode_of(argv[2]), (uint8_t)threads,
                                (uint16_t)lines, count, file);
    size_t written = fwrite(file, 1, length, stdout);
    free(file);
    return written == length && fflush(stdout) == 0 ? 0 : 1;
}
