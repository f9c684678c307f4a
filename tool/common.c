/* Files, options, messages. */
#include "common.h"

#include <errno.h>
#include <stdarg.h>
#include <stdlib.h>
#include <string.h>

void fail(const char *format, ...) {
    va_list arguments;
    va_start(arguments, format);
    fputs("board: ", stderr);
    vfprintf(stderr, format, arguments);
    fputs("\n", stderr);
    va_end(arguments);
    exit(BAD);
}

void *need(size_t size) {
    void *memory = calloc(1, size > 0 ? size : 1);
    if (memory == NULL) fail("no memory");
    return memory;
}

int same_bytes(contents a, contents b) { return a.length == b.length && memcmp(a.bytes, b.bytes, a.length) == 0; }

static int is_standard(const char *name) { return strcmp(name, "-") == 0; }

const char *input_name(const char *name) { return is_standard(name) ? "standard input" : name; }

contents read_file(const char *name) {
    FILE *in = is_standard(name) ? stdin : fopen(name, "rb");
    contents file = {NULL, 0};
    size_t room = 0;
    if (in == NULL) fail("%s: %s", name, strerror(errno));
    do {
        room = 2 * room + 4096;
        uint8_t *larger = realloc(file.bytes, room);
        if (larger == NULL) fail("%s: no memory", name);
        file.bytes = larger;
        file.length += fread(file.bytes + file.length, 1, room - file.length, in);
    } while (file.length == room);
    if (ferror(in)) {
        int cause = errno;
        free(file.bytes);
        fail("%s: %s", input_name(name), strerror(cause));
    }
    if (!is_standard(name)) fclose(in);
    return file;
}

void write_file(const char *name, const uint8_t *bytes, size_t length) {
    FILE *out = is_standard(name) ? stdout : fopen(name, "wb");
    if (out == NULL) fail("%s: %s", name, strerror(errno));
    int lost = fwrite(bytes, 1, length, out) != length || fflush(out) != 0;
    if (lost) fail("%s: %s", is_standard(name) ? "standard output" : name, strerror(errno));
    if (!is_standard(name) && fclose(out) != 0) fail("%s: %s", name, strerror(errno));
}

/* The option that a word names, or the end. */
static const option *option_named(const char *usage, const char *word, const option *options) {
    while (options->name != NULL && strcmp(options->name, word) != 0) options++;
    if (options->name == NULL) fail("unknown option %s\nusage: board %s", word, usage);
    if (options->most > 0 && *options->count == options->most) fail("too many times %s\nusage: board %s", word, usage);
    return options;
}

void take_words(const char *usage, int argc, char **argv, const option *options, const char **words, size_t least, size_t most) {
    size_t count = 0;
    for (int i = 0; i < argc; i++) {
        if (argv[i][0] == '-' && argv[i][1] != 0) {
            const option *o = option_named(usage, argv[i], options);
            if (o->most == 0) {
                *o->count = 1;
            } else {
                if (++i == argc) fail("%s lacks its value\nusage: board %s", o->name, usage);
                o->values[(*o->count)++] = argv[i];
            }
        } else {
            if (count == most) fail("one word too many: %s\nusage: board %s", argv[i], usage);
            words[count++] = argv[i];
        }
    }
    if (count < least) fail("a word is missing\nusage: board %s", usage);
}

uint64_t number_of(const char *what, const char *word, uint64_t most) {
    char *end;
    errno = 0;
    unsigned long long value = strtoull(word, &end, 10);
    if (word[0] < '0' || word[0] > '9' || *end != 0) fail("%s: not a number: %s", what, word);
    if (errno == ERANGE || value > most) fail("%s: number out of range: %s", what, word);
    return value;
}

uint64_t number_at(const uint8_t *bytes, size_t width) {
    uint64_t value = 0;
    for (size_t i = width; i > 0; i--) value = value << 8 | bytes[i - 1];
    return value;
}
