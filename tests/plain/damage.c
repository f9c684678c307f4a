/* The log records of an image, moved about and changed one by one. */
#include "damage.h"

#include <string.h>

#include "common.h"

/* A record that holds k entries; its kind need not say so. */
typedef struct { uint8_t kind, k, region[3], line[PLAIN_UNDER], old[PLAIN_UNDER][PLAIN_LINE_BYTES]; } log_record;

enum { MOST_RECORDS = PLAIN_LOGGED + 8 };
static log_record record[MOST_RECORDS];
static size_t records;

/* Takes the records out of an image; gives where the first one stood. */
static size_t take_records(const uint8_t *image) {
    size_t front = 4 + 65 * (size_t)get16(image + 2);
    while (image[front] == IMAGE_DEPENDENCE) front += 17;
    records = 0;
    for (const uint8_t *at = image + front; *at != IMAGE_END; records++) {
        log_record *r = &record[records];
        r->kind = at[0];
        r->k = r->kind == IMAGE_LOG ? 1 : (uint8_t)(r->kind - IMAGE_HEADER);
        memcpy(r->region, at + 1, 3);
        memcpy(r->line, at + 4, r->k);
        memcpy(r->old, at + 4 + r->k, PLAIN_LINE_BYTES * (size_t)r->k);
        at += 4 + 65 * r->k;
    }
    return front;
}

/* Puts them there, as many as there is room for, and the end behind them; gives the image's length. */
static size_t put_records(uint8_t *image, size_t at, size_t room) {
    for (size_t i = 0; i < records && 4 + 65 * (size_t)record[i].k < room - at; i++) {
        const log_record *r = &record[i];
        image[at] = r->kind;
        memcpy(image + at + 1, r->region, 3);
        memcpy(image + at + 4, r->line, r->k);
        memcpy(image + at + 4 + r->k, r->old, PLAIN_LINE_BYTES * (size_t)r->k);
        at += 4 + 65 * (size_t)r->k;
    }
    image[at] = IMAGE_END;
    return at + 1;
}

/* The record stands twice. */
static void double_record(size_t i) {
    if (records == MOST_RECORDS) return;
    memmove(record + i + 1, record + i, (records - i) * sizeof record[0]);
    records++;
}

static void leave_out(size_t i) {
    records--;
    memmove(record + i, record + i + 1, (records - i) * sizeof record[0]);
}

/* The first n entries of a record go to the end of the one before, as many as it has room for; both have kinds that say so. */
static void move_entries(log_record *to, log_record *from, uint8_t n) {
    if (n > PLAIN_UNDER - to->k) n = (uint8_t)(PLAIN_UNDER - to->k);
    memcpy(to->line + to->k, from->line, n);
    memcpy(to->old[to->k], from->old, PLAIN_LINE_BYTES * (size_t)n);
    to->k = (uint8_t)(to->k + n), from->k = (uint8_t)(from->k - n);
    memmove(from->line, from->line + n, from->k);
    memmove(from->old, from->old[n], PLAIN_LINE_BYTES * (size_t)from->k);
    to->kind = (uint8_t)(IMAGE_HEADER + to->k), from->kind = (uint8_t)(IMAGE_HEADER + from->k);
}

/* A record in two parts. */
static void split(random_source *source, size_t i) {
    if (record[i].k < 2 || records == MOST_RECORDS) return;
    double_record(i);
    record[i].k = 0;
    move_entries(&record[i], &record[i + 1], (uint8_t)(1 + random_below(source, record[i + 1].k - 1u)));
}

/* A record and the next in one, as far as seven reach. */
static void join(size_t i) {
    if (i + 1 == records) return;
    move_entries(&record[i], &record[i + 1], record[i + 1].k);
    if (record[i + 1].k == 0) leave_out(i + 1);
}

static void exchange(size_t i, size_t j) {
    log_record r = record[i];
    record[i] = record[j];
    record[j] = r;
}

static void damage_record(random_source *source, size_t i) {
    log_record *r = &record[i];
    size_t other = random_below(source, records);
    switch (random_below(source, 11)) {
    case 0: split(source, i); break;
    case 1: join(i); break;
    case 2: exchange(i, other); break;
    case 3: exchange(i, i > 0 ? i - 1 : other); break;
    case 4: double_record(i); break;
    case 5: leave_out(i); break;
    case 6: memcpy(r->region, record[other].region, 3); break;
    case 7: r->region[random_below(source, 2)] ^= (uint8_t)(1 + random_below(source, 3)); break;
    case 8: r->line[random_below(source, r->k)] = random_chance(source, 3) ? (uint8_t)random_next(source) : record[other].line[0]; break;
    case 9: r->kind = (uint8_t)(39 + random_below(source, 10)); break;
    case 10: r->kind = r->kind == IMAGE_LOG ? IMAGE_HEADER + 1 : IMAGE_LOG; break;
    }
}

size_t damage_records(random_source *source, uint8_t *image, size_t room) {
    size_t front = take_records(image);
    for (uint64_t left = 1 + random_below(source, 3); left > 0 && records > 0; left--) damage_record(source, random_below(source, records));
    return put_records(image, front, room);
}
