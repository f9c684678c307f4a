/* check: a board's answers, and its image, against the reference. */
#include <stdlib.h>
#include <string.h>

#include "commands.h"
#include "image.h"

enum { MOST_ROWS = 40 };

/* ---- the regions that an event meets: uncommitted ones, the last one of its thread and the owner of its line */

typedef struct { region_name names[REGIONS + 2]; size_t count; } meeting;

static int is_met(const meeting *met, region_name name) {
    for (size_t i = 0; i < met->count; i++)
        if (same_region(met->names[i], name)) return 1;
    return 0;
}

static void meet(meeting *met, region_name name) {
    if (name.number != 0 && !is_met(met, name)) met->names[met->count++] = name;
}

static int has_entry(const tables *before, region_name name, uint8_t line) {
    const thread *of = &before->thread[name.thread];
    for (size_t i = 0; i < of->entries; i++)
        if (same_region(of->entry[i].region, name) && of->entry[i].line == line) return 1;
    return 0;
}

static int is_write(int kind) { return kind == BOARD_WRITE || kind == BOARD_WRITE_BYTES; }

/* Whether a region is in the way of a write to the line, or waits for its acknowledgement. */
static int is_on_line(const tables *before, const region *each, int kind, uint8_t line) {
    if (is_write(kind)) return !each->ended && has_read(&before->thread[each->name.thread], line);
    return (kind == BOARD_LOG_ACK || kind == BOARD_DATA_ACK) && (find_slot(each, line) != NULL || has_entry(before, each->name, line));
}

static void meet_first(const tables *before, contents record, int all, meeting *met) {
    int kind = kind_of(record), t = thread_of(record), line = line_of(record);
    if (t >= 0 && t < THREADS) meet(met, (region_name){(uint8_t)t, before->thread[t].last});
    if (line >= 0) meet(met, before->owner[line]);
    for (size_t i = 0; i < before->regions; i++)
        if (all || (line >= 0 && is_on_line(before, &before->region[i], kind, (uint8_t)line))) meet(met, before->region[i].name);
}

static int depends_on(const region *each, region_name name) {
    for (size_t i = 0; i < each->depends; i++)
        if (same_region(each->dependence[i], name)) return 1;
    return 0;
}

/* The regions that one depends on; where commits are counted also those that depend on it. */
static void meet_next(const tables *before, region_name name, int commits, meeting *met) {
    const region *of = find_region(before, name);
    for (size_t i = 0; i < before->regions; i++) {
        const region *each = &before->region[i];
        if ((of != NULL && depends_on(of, each->name)) || (commits && depends_on(each, name))) meet(met, each->name);
    }
}

static meeting find_met(const tables *before, contents record, board_answer due, board_answer found) {
    int kind = kind_of(record), all = kind == BOARD_CUT || due.refusal == BOARD_CHANNEL_FULL || found.refusal == BOARD_CHANNEL_FULL;
    int commits = due.refusal == 0 && found.refusal == 0 && kind != BOARD_READ;
    meeting met = {.count = 0};
    meet_first(before, record, all, &met);
    for (size_t i = 0; i < met.count; i++) meet_next(before, met.names[i], commits, &met);
    return met;
}

/* ---- the events before it that matter */

/* What accepted events have done so far: depth and last number of each thread, the lines that a region met has written. */
typedef struct { uint8_t depth[THREADS], written[LINES]; uint16_t last[THREADS]; } history;

/* Whether an accepted event matters: setup and cut, those of a region met, and acknowledgements of a line that such a region has written. */
static int matters(history *past, const meeting *met, contents record) {
    int kind = kind_of(record), t = thread_of(record), line = line_of(record);
    if (kind == BOARD_SETUP || kind == BOARD_CUT) return 1;
    if (t < 0) return past->written[line];
    if (kind == BOARD_BEGIN && past->depth[t]++ == 0) past->last[t]++;
    if (kind == BOARD_END) past->depth[t]--;
    int is_of_met = kind != BOARD_FENCE && is_met(met, (region_name){(uint8_t)t, past->last[t]});
    if (is_of_met && is_write(kind)) past->written[line] = 1;
    return is_of_met;
}

static void print_past(const run *events, size_t event, board_answer found) {
    tables before;
    history past = {.depth = {0}};
    size_t *rows = need(event * sizeof *rows), count = 0, left_out;
    read_tables(events, event, &before);
    meeting met = find_met(&before, record_of(events, event), answer_of(events, event), found);
    for (size_t i = 0; i < event; i++)
        if (answer_of(events, i).refusal == 0 && matters(&past, &met, record_of(events, i))) rows[count++] = i;
    left_out = count > MOST_ROWS ? count - MOST_ROWS : 0;
    if (count > 0) printf("the events before it that matter:\n");
    if (left_out > 0) printf("       (%zu earlier ones are left out)\n", left_out);
    for (size_t i = left_out; i < count; i++) print_row(stdout, events, rows[i]);
    free(rows);
}

/* ---- the comparison */

static size_t count_agreeing(const run *events, contents found) {
    size_t i = 0, at = 0;
    for (; i < events->count && at + BOARD_ANSWER_BYTES <= found.length; i++, at += BOARD_ANSWER_BYTES)
        if (memcmp(events->answers + at, found.bytes + at, BOARD_ANSWER_BYTES) != 0) break;
    return i;
}

/* The event behind those that agree, what was expected and what was found. */
static void print_answers_differ(const run *events, size_t event, contents found) {
    size_t at = BOARD_ANSWER_BYTES * event, left = found.length - at;
    int is_event = event < events->count, kind = is_event ? kind_of(record_of(events, event)) : -1;
    char *text = is_event ? event_text(record_of(events, event)) : NULL;
    if (is_event) printf("event %zu: %s: expected ", event + 1, text);
    else printf("behind the last event: expected no answer");
    if (is_event) print_answer(stdout, kind, answer_of(events, event));
    printf("; found ");
    if (left >= BOARD_ANSWER_BYTES) print_answer(stdout, kind, answer_at(found.bytes + at));
    else if (left > 0) printf("%zu of an answer's nine bytes", left);
    else printf("no answer");
    printf("\n");
    free(text);
    if (found.length != BOARD_ANSWER_BYTES * events->count)
        printf("%zu answers were found, %zu are due\n", found.length / BOARD_ANSWER_BYTES, events->count);
    if (is_event && left >= BOARD_ANSWER_BYTES) print_past(events, event, answer_at(found.bytes + at));
}

static void print_agreeing(const run *events) { printf("%zu %s", events->count, events->count == 1 ? "answer agrees" : "answers agree"); }

/* Where the answers agree: the image of a file against the one that is due, in the form that it has. */
static int check_image(const run *events, const char *file_name, const char *name) {
    contents found = read_file(name), due = image_of(events, file_name, count_records(found).headed);
    int same = same_bytes(due, found);
    print_agreeing(events);
    printf(same ? ", and the image" : "; the image differs: ");
    if (!same) print_difference(stdout, "the reference", due, name, found);
    printf("\n");
    free(found.bytes);
    free(due.bytes);
    return same ? SAME : DIFFERENT;
}

static int check(const run *events, const char *file_name, contents found, const char *image_name) {
    size_t agreeing = count_agreeing(events, found);
    if (agreeing < events->count || found.length != BOARD_ANSWER_BYTES * agreeing) {
        print_answers_differ(events, agreeing, found);
        return DIFFERENT;
    }
    if (image_name != NULL) return check_image(events, file_name, image_name);
    print_agreeing(events);
    printf("\n");
    return SAME;
}

int check_command(const char *usage, int argc, char **argv) {
    const char *names[3] = {NULL, NULL, NULL}, *memory_name = NULL;
    size_t memories = 0;
    const option options[] = {{"-m", &memory_name, 1, &memories}, {0}};
    take_words(usage, argc, argv, options, names, 2, 3);
    contents file = read_file(names[0]), found = read_file(names[1]);
    const contents *memory = memory_in(memory_name, file);
    run events = run_events(file, memory);
    int code = check(&events, names[0], found, names[2]);
    free_run(&events);
    free(file.bytes);
    free(found.bytes);
    if (memory != NULL) free(memory->bytes);
    return code;
}
