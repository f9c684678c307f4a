/* image, recover: the image that a cut leaves, and recovery inside it. */
#include <inttypes.h>
#include <stdlib.h>
#include <string.h>

#include "commands.h"
#include "image.h"

/* The file that is to be written: standard output has the words already. */
static void need_output(const char *usage, const char *name) {
    if (name == NULL) fail("-o is missing\nusage: board %s", usage);
    if (strcmp(name, "-") == 0) fail("-o: a file, not standard output\nusage: board %s", usage);
}

int image_command(const char *usage, int argc, char **argv) {
    const char *file_name = NULL, *out = NULL, *memory_name = NULL;
    size_t outs = 0, memories = 0, headed = 0;
    const option options[] = {{"-o", &out, 1, &outs}, {"-m", &memory_name, 1, &memories}, {"-n", NULL, 0, &headed}, {0}};
    take_words(usage, argc, argv, options, &file_name, 1, 1);
    need_output(usage, out);
    contents file = read_file(file_name);
    const contents *memory = memory_in(memory_name, file);
    run events = run_events(file, memory);
    contents image = image_of(&events, file_name, headed > 0);
    write_file(out, image.bytes, image.length);
    print_counts(image);
    printf("\n");
    free(image.bytes);
    free_run(&events);
    free(file.bytes);
    if (memory != NULL) free(memory->bytes);
    return SAME;
}

/* The steps after which power is lost. */
typedef struct { uint64_t *steps; size_t count; } losses;

static losses losses_in(const char **told, size_t count) {
    losses lost = {need(count * sizeof *lost.steps), count};
    for (size_t i = 0; i < count; i++) {
        lost.steps[i] = number_of("--lose-power-at", told[i], UINT64_MAX);
        if (lost.steps[i] == 0) fail("--lose-power-at: steps count from 1");
    }
    return lost;
}

static int is_lost_after(losses lost, uint64_t step) {
    for (size_t i = 0; i < lost.count; i++)
        if (lost.steps[i] == step) return 1;
    return 0;
}

/* Makes steps until one finishes and power stays, or there are as many as `most`; says what each does. */
static void recover(contents image, uint64_t most, losses lost) {
    uint8_t place[BOARD_PLACE_BYTES] = {0};
    uint64_t made = 0;
    int more = 1;
    while (more && made < most) {
        print_step(image, number_at(place, sizeof place), ++made);
        more = board_recovery_step_headed(image.bytes, image.length, place, sizeof place).value != 0;
        if (!is_lost_after(lost, made)) continue;
        printf("power lost after step %" PRIu64 "\n", made);
        memset(place, 0, sizeof place);
        more = 1;
    }
    if (!more) {
        printf("finished at step %" PRIu64 "\n", made);
    } else {
        int remain = board_recovery_entry(image.bytes, image.length, number_at(place, sizeof place)).value != 0;
        printf("stopped after step %" PRIu64 ", %s\n", made, remain ? "entries remain" : "no entries remain");
    }
}

int recover_command(const char *usage, int argc, char **argv) {
    const char *name = NULL, *out = NULL, *limit = NULL, **told = need((size_t)argc * sizeof *told);
    size_t outs = 0, limits = 0, count = 0;
    const option options[] = {{"-o", &out, 1, &outs}, {"--steps", &limit, 1, &limits}, {"--lose-power-at", told, (size_t)argc, &count}, {0}};
    take_words(usage, argc, argv, options, &name, 1, 1);
    need_output(usage, out);
    uint64_t most = limit != NULL ? number_of("--steps", limit, UINT64_MAX) : UINT64_MAX;
    losses lost = losses_in(told, count);
    contents image = read_image(name);
    recover(image, most, lost);
    write_file(out, image.bytes, image.length);
    free(image.bytes);
    free(lost.steps);
    free(told);
    return SAME;
}
