/* diff: the first difference of two images. */
#include <inttypes.h>
#include <stdlib.h>
#include <string.h>

#include "commands.h"
#include "image.h"

/* What differs, and what it is in the one and in the other. */
typedef struct { words what, a, b; } difference;

static difference numbers_differ(words what, uint64_t a, uint64_t b) { return (difference){what, say("%" PRIu64, a), say("%" PRIu64, b)}; }

static difference heads_differ(const image_record *a, const image_record *b) {
    if (a->bytes[1] != b->bytes[1]) return numbers_differ(say("T"), a->bytes[1], b->bytes[1]);
    return numbers_differ(say("L"), number_at(a->bytes + 2, 2), number_at(b->bytes + 2, 2));
}

/* The word in which two lines differ, and its value in either. */
static difference lines_differ(const uint8_t *a, const uint8_t *b) {
    size_t i = 0;
    while (i + 1 < WORDS && word_at(a, i) == word_at(b, i)) i++;
    return numbers_differ(say("word %zu", i), word_at(a, i), word_at(b, i));
}

static words state_words(uint8_t state) { return state == 0 ? say("in progress") : state == 1 ? say("done") : say("%u", state); }

static words dependence_words(region_name name) { return name.number == 0 && name.thread == 0 ? say("none") : name_words(name); }

static difference regions_differ(const image_record *a, const image_record *b) {
    size_t i = 0;
    if (state_of(a) != state_of(b)) return (difference){say("state"), state_words(state_of(a)), state_words(state_of(b))};
    while (i + 1 < DEPENDENCES && same_region(dependence_of(a, i), dependence_of(b, i))) i++;
    return (difference){say("dependence %zu", i + 1), dependence_words(dependence_of(a, i)), dependence_words(dependence_of(b, i))};
}

static difference entries_differ(const image_record *a, const image_record *b) {
    size_t entries = entries_of(a->kind), i = 0;
    while (i < entries && line_logged(a, i) == line_logged(b, i)) i++;
    if (i < entries) return numbers_differ(say("line of entry %zu", i + 1), line_logged(a, i), line_logged(b, i));
    for (i = 0; i + 1 < entries && memcmp(old_line(a, i), old_line(b, i), BOARD_LINE_BYTES) == 0;) i++;
    difference old = lines_differ(old_line(a, i), old_line(b, i));
    return (difference){say("%s of old line %u", old.what.text, line_logged(a, i)), old.a, old.b};
}

/* Of two records that are the same in words. */
static difference records_differ(const image_record *a, const image_record *b) {
    switch (a->kind) {
    case BOARD_IMAGE_HEAD: return heads_differ(a, b);
    case BOARD_IMAGE_LINE: return lines_differ(a->bytes + 1, b->bytes + 1);
    case BOARD_IMAGE_REGION: return regions_differ(a, b);
    default: return entries_differ(a, b);
    }
}

static words byte_words(contents image, size_t at) { return at < image.length ? say("%u", image.bytes[at]) : say("none"); }

/* The first byte that differs. */
static size_t different_byte(contents a, contents b) {
    size_t at = 0;
    while (at < a.length && at < b.length && a.bytes[at] == b.bytes[at]) at++;
    return at;
}

/* The records before the byte are the same, so those in which it stands have the same place and number. */
void print_difference(FILE *out, const char *name_a, contents a, const char *name_b, contents b) {
    size_t at = different_byte(a, b);
    image_record in_a = record_holding(a, at), in_b = record_holding(b, at);
    difference found = {say("record %zu", in_a.number), record_words(&in_a), record_words(&in_b)};
    if (in_a.kind == 0 && in_b.kind == 0) {
        found = (difference){say("the byte"), byte_words(a, at), byte_words(b, at)};
    } else if (strcmp(found.a.text, found.b.text) == 0) {
        fprintf(out, "record %zu (%s): ", in_a.number, found.a.text);
        found = records_differ(&in_a, &in_b);
    }
    fprintf(out, "%s is %s in %s, %s in %s (byte %zu", found.what.text, found.a.text, name_a, found.b.text, name_b, at);
    if (a.length != b.length) fprintf(out, "; lengths %zu and %zu", a.length, b.length);
    fprintf(out, ")");
}

int diff_command(const char *usage, int argc, char **argv) {
    const char *names[2] = {NULL, NULL};
    const option options[] = {{0}};
    take_words(usage, argc, argv, options, names, 2, 2);
    contents a = read_file(names[0]), b = read_file(names[1]);
    int same = same_bytes(a, b);
    if (same) printf("the images are the same");
    else print_difference(stdout, names[0], a, names[1], b);
    printf("\n");
    free(a.bytes);
    free(b.bytes);
    return same ? SAME : DIFFERENT;
}
