/* Images. */
#include "image.h"

#include <inttypes.h>
#include <stdarg.h>

enum { HEAD_BYTES = 4, LINE_RECORD = 1 + BOARD_LINE_BYTES, REGION_BYTES = 17, LOG_HEAD = 4, WORD_BYTES = 8 };

words say(const char *format, ...) {
    words said;
    va_list arguments;
    va_start(arguments, format);
    vsnprintf(said.text, sizeof said.text, format, arguments);
    va_end(arguments);
    return said;
}

words name_words(region_name name) { return say("region %u.%u", name.thread, name.number); }

static region_name name_at(const uint8_t *bytes) { return (region_name){bytes[0], (uint16_t)number_at(bytes + 1, 2)}; }

size_t entries_of(uint8_t kind) {
    if (kind == BOARD_IMAGE_LOG) return 1;
    return kind > BOARD_IMAGE_HEADER && kind <= BOARD_IMAGE_HEADER + MOST_UNDER_HEADER ? (size_t)kind - BOARD_IMAGE_HEADER : 0;
}

/* 0 for what is no kind. */
static size_t length_of(uint8_t kind) {
    switch (kind) {
    case BOARD_IMAGE_HEAD: return HEAD_BYTES;
    case BOARD_IMAGE_LINE: return LINE_RECORD;
    case BOARD_IMAGE_REGION: return REGION_BYTES;
    case BOARD_IMAGE_END: return 1;
    default: return entries_of(kind) > 0 ? LOG_HEAD + entries_of(kind) * LINE_RECORD : 0;
    }
}

int next_record(contents image, image_record *record) {
    int behind = record->kind == BOARD_IMAGE_END;
    record->lines += record->kind == BOARD_IMAGE_LINE;
    record->number++;
    record->at += record->length;
    record->bytes = image.bytes + record->at;
    size_t left = image.length - record->at, length = left > 0 && !behind ? length_of(record->bytes[0]) : 0;
    int whole = length > 0 && length <= left;
    record->kind = whole ? record->bytes[0] : 0;
    record->length = whole ? length : left;
    return left > 0;
}

image_record record_holding(contents image, size_t at) {
    image_record record = {0};
    while (next_record(image, &record) && record.kind != 0 && record.at + record.length <= at) {}
    return record;
}

unsigned threads_of(contents image) { return image.bytes[1]; }

unsigned lines_of(contents image) { return (unsigned)number_at(image.bytes + 2, 2); }

uint64_t word_at(const uint8_t *line, size_t word) { return number_at(line + WORD_BYTES * word, WORD_BYTES); }

uint8_t line_logged(const image_record *record, size_t entry) { return record->bytes[LOG_HEAD + entry]; }

const uint8_t *old_line(const image_record *record, size_t entry) {
    return record->bytes + LOG_HEAD + entries_of(record->kind) + BOARD_LINE_BYTES * entry;
}

region_name region_of(const image_record *record) {
    return record->kind == BOARD_IMAGE_REGION || entries_of(record->kind) > 0 ? name_at(record->bytes + 1) : (region_name){0};
}

uint8_t state_of(const image_record *record) { return record->bytes[4]; }

region_name dependence_of(const image_record *record, size_t i) { return name_at(record->bytes + 5 + 3 * i); }

words record_words(const image_record *record) {
    size_t entries = entries_of(record->kind);
    words name = name_words(region_of(record));
    switch (record->kind) {
    case BOARD_IMAGE_HEAD: return say("head");
    case BOARD_IMAGE_LINE: return say("line %zu", record->lines);
    case BOARD_IMAGE_REGION: return name;
    case BOARD_IMAGE_LOG: return say("log entry of %s", name.text);
    case BOARD_IMAGE_END: return say("end");
    case 0: return say(record->length > 0 ? "bytes that are no record" : "nothing");
    default: return say("header with %zu log %s of %s", entries, entries == 1 ? "entry" : "entries", name.text);
    }
}

image_counts count_records(contents image) {
    image_counts counts = {0};
    for (image_record record = {0}; next_record(image, &record);) {
        counts.regions += record.kind == BOARD_IMAGE_REGION;
        counts.entries += entries_of(record.kind);
        counts.headed |= record.kind > BOARD_IMAGE_HEADER;
    }
    return counts;
}

void print_counts(contents image) {
    image_counts counts = count_records(image);
    printf("%zu bytes: %zu uncommitted %s, %zu log %s", image.length, counts.regions, counts.regions == 1 ? "region" : "regions", counts.entries,
           counts.entries == 1 ? "entry" : "entries");
}

contents read_image(const char *name) {
    contents image = read_file(name);
    uint8_t refusal = board_recovery_entry(image.bytes, image.length, 0).refusal;
    if (refusal != 0) refuse_image(input_name(name), image, refusal);
    return image;
}

contents image_of(const run *events, const char *name, int headed) {
    contents image = {need(BOARD_IMAGE_BYTES), 0}, file = events->file, memory = events->memory;
    board_answer (*save)(const uint8_t *, size_t, const uint8_t *, size_t, uint8_t *, size_t) = headed ? board_image_headed : board_image;
    board_answer saved = save(file.bytes, file.length, memory.bytes, memory.length, image.bytes, BOARD_IMAGE_BYTES);
    if (saved.refusal != 0) fail("%s: no cut is accepted, so there is no image", input_name(name));
    image.length = (size_t)saved.value;
    return image;
}

void print_step(contents image, uint64_t place, uint64_t step) {
    uint64_t entry = board_recovery_entry(image.bytes, image.length, place).value;
    region_name name = {(uint8_t)(entry >> 24), (uint16_t)(entry >> 8)};
    if (entry == 0) printf("step %" PRIu64 " restores nothing\n", step);
    else printf("step %" PRIu64 " restores line %" PRIu64 " for %s\n", step, entry & 0xff, name_words(name).text);
}
