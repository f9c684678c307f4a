/* A model of the board as a supplier has one, over the plain engine: it reads an event file on standard input and writes nine bytes for each answer; after an
   accepted cut the image too with --image, and the image that recovery leaves with --recovered. With --wrong N it is wrong in the way N of plain.h. */
#include <stdio.h>
#include <stdlib.h>
#include <string.h>

#include "plain/common.h"
#include "plain/plain.h"

static void write_out(const uint8_t *bytes, size_t length) {
    if (fwrite(bytes, 1, length, stdout) != length) exit(2);
}

/* Standard input, whole; a buffer of the caller's. */
static uint8_t *read_in(size_t *length) {
    uint8_t *file = NULL;
    size_t room = 0;
    *length = 0;
    do {
        room = 2 * room + 4096;
        file = realloc(file, room);
        if (file == NULL) exit(2);
        *length += fread(file + *length, 1, room - *length, stdin);
    } while (*length == room);
    return file;
}

static void run(plain_engine *engine, const uint8_t *file, size_t file_len) {
    size_t length;
    plain_init(engine);
    for (size_t at = 0; at < file_len; at += length) {
        uint8_t nine[PLAIN_ANSWER_BYTES];
        plain_answer answer = plain_event(engine, file + at, file_len - at);
        length = plain_record_length(file + at, file_len - at);
        nine[0] = answer.refusal;
        put64(nine + 1, answer.value);
        write_out(nine, sizeof nine);
        if (length == 0) return;
    }
}

static void write_images(const plain_engine *engine, int saved, int recovered) {
    static uint8_t image[PLAIN_IMAGE_BYTES];
    uint8_t place[8] = {0};
    size_t length = (size_t)plain_save(engine, 0, image, sizeof image).value;
    if (saved) write_out(image, length);
    if (!recovered) return;
    while (plain_recovery_step(image, length, place, sizeof place).value != 0) continue;
    write_out(image, length);
}

int main(int argc, char **argv) {
    static plain_engine engine;
    int saved = 0, recovered = 0;
    for (int i = 1; i < argc; i++) {
        if (strcmp(argv[i], "--image") == 0) saved = 1;
        else if (strcmp(argv[i], "--recovered") == 0) recovered = 1;
        else if (strcmp(argv[i], "--wrong") == 0 && i + 1 < argc) plain_wrong = atoi(argv[++i]);
        else return 2;
    }
    size_t length;
    uint8_t *file = read_in(&length);
    run(&engine, file, length);
    if (engine.cut) write_images(&engine, saved, recovered);
    free(file);
    return fflush(stdout) != 0 ? 2 : 0;
}
