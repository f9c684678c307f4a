/* Making an event file smaller. */
#include "shrink.h"

#include <stdlib.h>
#include <string.h>

#include "events.h"

/* The file as far as it has shrunk, and where its records start. */
typedef struct {
    contents file;
    size_t *at, count;
    holds *still;
    void *context;
} shrinking;

static contents copy_of(contents file) {
    contents copy = {need(file.length), file.length};
    memcpy(copy.bytes, file.bytes, file.length);
    return copy;
}

/* Takes a file in place of the last one if it holds of it. */
static int take(shrinking *s, contents file) {
    int taken = s->still(s->context, file);
    free(taken ? s->file.bytes : file.bytes);
    if (taken) s->file = file;
    if (taken) s->count = split(file, s->at);
    return taken;
}

static contents record_at(const shrinking *s, contents file, size_t i) { return (contents){file.bytes + s->at[i], s->at[i + 1] - s->at[i]}; }

/* ---- fewer records */

/* Without the bytes from one place to another. */
static contents without(contents file, size_t from, size_t to) {
    contents rest = {need(file.length), file.length - (to - from)};
    memcpy(rest.bytes, file.bytes, from);
    memcpy(rest.bytes + from, file.bytes + to, file.length - to);
    return rest;
}

/* Without one part of the records after another: all of them, halves, and so on down to single ones. */
static int leave_out_parts(shrinking *s) {
    int changed = 0;
    for (size_t size = s->count; size > 0; size /= 2)
        for (size_t i = 0; i + size <= s->count;) {
            int left_out = take(s, without(s->file, s->at[i], s->at[i + size]));
            changed |= left_out;
            if (!left_out) i += size;
        }
    return changed;
}

/* Of a record that ends its file, the first byte alone. */
static int shorten_end(shrinking *s) {
    if (s->count == 0 || kind_of(record_at(s, s->file, s->count - 1)) >= 0 || s->at[s->count - 1] + 1 == s->file.length) return 0;
    return take(s, without(s->file, s->at[s->count - 1] + 1, s->file.length));
}

static int leave_out_two(shrinking *s, size_t i, size_t j) {
    contents one = without(s->file, s->at[j], s->at[j + 1]);
    int left_out = take(s, without(one, s->at[i], s->at[i + 1]));
    free(one.bytes);
    return left_out;
}

static int leave_out_pairs(shrinking *s) {
    for (size_t i = 0; i < s->count; i++)
        for (size_t j = i + 1; j < s->count; j++)
            if (leave_out_two(s, i, j)) return 1;
    return 0;
}

/* ---- fewer threads and lines */

/* What a record names: a thread or a line; which of its numbers that is, in a record with a thread. */
typedef struct { int (*of)(contents record); size_t place; } part;
static const part threads = {thread_of, 0}, lines = {line_of, 1};

enum { NAMES = 256, MOST_JOINED = 8 };

/* Gives each thread, or line, another name; nothing changes if they are the same. */
static int rename_parts(shrinking *s, part p, const uint8_t names[NAMES]) {
    contents file = copy_of(s->file);
    for (size_t i = 0; i < s->count; i++) {
        contents record = record_at(s, file, i);
        int name = p.of(record);
        if (name >= 0) number_in(record, thread_of(record) < 0 ? 0 : p.place).bytes[0] = names[name];
    }
    if (memcmp(file.bytes, s->file.bytes, file.length) != 0) return take(s, file);
    free(file.bytes);
    return 0;
}

/* The numbers from 0 on, in the order in which they first stand in the file. */
static int order_names(shrinking *s, part p) {
    uint8_t names[NAMES] = {0}, known[NAMES] = {0}, next = 0;
    for (size_t i = 0; i < s->count; i++) {
        int name = p.of(record_at(s, s->file, i));
        if (name < 0 || known[name]++ > 0) continue;
        names[name] = next++;
    }
    return rename_parts(s, p, names);
}

/* One name becomes a smaller one that may be in use. */
static int join_names(shrinking *s, part p) {
    uint8_t names[NAMES];
    for (size_t i = 0; i < NAMES; i++) names[i] = (uint8_t)i;
    for (size_t i = 0; i < s->count; i++) {
        int from = p.of(record_at(s, s->file, i));
        for (int to = 0; to < from && to < MOST_JOINED; to++) {
            names[from] = (uint8_t)to;
            if (rename_parts(s, p, names)) return 1;
            names[from] = (uint8_t)from;
        }
    }
    return 0;
}

/* ---- smaller numbers */

static int set_number(shrinking *s, size_t i, size_t place, uint64_t value) {
    contents file = copy_of(s->file), number = number_in(record_at(s, file, i), place);
    for (size_t b = 0; b < number.length; b++) number.bytes[b] = (uint8_t)(value >> 8 * b);
    return take(s, file);
}

/* A number becomes 0, 1 or 2, or less by its half, its quarter and so on. */
static int lower_number(shrinking *s, size_t i, size_t place) {
    contents number = number_in(record_at(s, s->file, i), place);
    uint64_t value = number_at(number.bytes, number.length);
    for (uint64_t small = 0; small <= 2 && small < value; small++)
        if (set_number(s, i, place, small)) return 1;
    for (int part = 1; part <= 8 && value >> part > 0 && value > 3; part++)
        if (set_number(s, i, place, value - (value >> part))) return 1;
    return 0;
}

static int lower_numbers(shrinking *s) {
    int changed = 0;
    for (size_t i = 0; i < s->count; i++)
        for (size_t place = 0; number_in(record_at(s, s->file, i), place).length > 0; place++) changed |= lower_number(s, i, place);
    return changed;
}

/* Writes of bytes become writes of words; the mask is their fourth number. */
static int widen_writes(shrinking *s) {
    int changed = 0;
    for (size_t i = 0; i < s->count; i++) {
        contents record = record_at(s, s->file, i);
        if (kind_of(record) != BOARD_WRITE_BYTES) continue;
        size_t mask = (size_t)(number_in(record, 3).bytes - s->file.bytes);
        contents file = without(s->file, mask, mask + 1);
        file.bytes[s->at[i]] = BOARD_WRITE;
        changed |= take(s, file);
    }
    return changed;
}

contents shrink(contents file, holds *still, void *context) {
    shrinking s = {copy_of(file), need((file.length + 1) * sizeof(size_t)), 0, still, context};
    s.count = split(s.file, s.at);
    while (leave_out_parts(&s) || shorten_end(&s) || order_names(&s, threads) || order_names(&s, lines) || join_names(&s, threads) || join_names(&s, lines)
           || widen_writes(&s) || lower_numbers(&s) || leave_out_pairs(&s))
        continue;
    free(s.at);
    return s.file;
}
