/* Event files for the examples. */
#include "files.h"

#include <stdio.h>
#include <stdlib.h>

#include "../include/board.h"

uint64_t number_at(const uint8_t *bytes, size_t width) {
    uint64_t value = 0;
    for (size_t i = width; i > 0; i--) value = value << 8 | bytes[i - 1];
    return value;
}

uint8_t *read_file(const char *name, size_t *length) {
    FILE *in = fopen(name, "rb");
    uint8_t *bytes = NULL;
    size_t room = 0;
    *length = 0;
    do {
        room = 2 * room + 4096;
        uint8_t *larger = in != NULL ? realloc(bytes, room) : NULL;
        if (larger == NULL) break;
        bytes = larger;
        *length += fread(bytes + *length, 1, room - *length, in);
    } while (*length == room);
    if (in == NULL || *length == room || ferror(in)) {
        fprintf(stderr, "cannot read %s\n", name);
        exit(2);
    }
    fclose(in);
    return bytes;
}

size_t event_count(const uint8_t *file, size_t length) {
    size_t count = 0;
    for (size_t at = 0; at < length; at += (size_t)board_record(file + at, length - at).value) count++;
    return count;
}

size_t memory_length(const uint8_t *file, size_t length) {
    size_t asked = length >= 4 && file[0] == BOARD_SETUP ? BOARD_LINE_BYTES * (size_t)number_at(file + 2, 2) : 0;
    return asked <= BOARD_MEMORY_BYTES ? asked : 0;
}
