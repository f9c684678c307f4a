/* explain: an event with its answer and with what refused it, and the tables after it. */
#include <stdlib.h>

#include "commands.h"
#include "tables.h"

/* ---- words */

/* What stands before item i of so many in a sentence. */
static const char *joint(size_t i, size_t count) { return i == 0 ? "" : i + 1 == count ? " and " : ", "; }

static void print_names(const region_name *names, size_t count) {
    printf(count == 1 ? "region " : "regions ");
    for (size_t i = 0; i < count; i++) printf("%s%u.%u", joint(i, count), names[i].thread, names[i].number);
}

/* Names of regions that are gathered one by one. */
typedef struct { region_name names[REGIONS]; size_t count; } name_list;

static void add_name(name_list *list, region_name name) { list->names[list->count++] = name; }

/* The event by which setup, or the cut, was accepted, counted from 1; there is one. */
static size_t accepted_event(const run *events, int kind) {
    size_t i = 0;
    while (kind_of(record_of(events, i)) != kind || answer_of(events, i).refusal != 0) i++;
    return i + 1;
}

/* ---- why an event was refused, from the tables before it */

static void explain_range(const run *events, const tables *before, contents record) {
    if (kind_of(record) != BOARD_SETUP) printf("no setup has been accepted before");
    else if (before->threads != 0) printf("setup was event %zu", accepted_event(events, BOARD_SETUP));
    else if (setup_refusal(record, record.bytes + 4) != BOARD_OUT_OF_RANGE) printf("the memory has %zu bytes", events->memory.length);
    else printf("T is %u, of 1 to %d; L is %u, of 1 to %d", record.bytes[1], THREADS, (unsigned)number_at(record.bytes + 2, 2), LINES);
}

/* The parties, or else the reserves, that are refused when all else is zeros. */
static void explain_parties(contents record) {
    for (size_t t = 0; t < THREADS; t++) {
        uint8_t alone[BOARD_SHARES_BYTES] = {0};
        alone[t] = record.bytes[4 + t];
        if (setup_refusal(record, alone) == 0) continue;
        printf("T is %u, and the party of thread %zu is %u", record.bytes[1], t, alone[t]);
        return;
    }
    printf("the reserves are %u and %u", record.bytes[4 + THREADS], record.bytes[5 + THREADS]);
}

static void explain_depth(const tables *before, int t) {
    if (before->thread[t].last == 0) printf("thread %d has begun no region", t);
    else printf("the last region of thread %d, %d.%u, has ended", t, t, before->thread[t].last);
}

static void explain_modified(const tables *before, int t) {
    name_list list = {.count = 0};
    for (size_t i = 0; i < before->regions; i++)
        if (before->region[i].name.thread == t && !before->region[i].done) add_name(&list, before->region[i].name);
    print_names(list.names, list.count);
    printf(" are not done");
}

/* The channel of the region that would begin, which is told by its number, and what the other party has of it. */
static void explain_channel(const tables *before, int t) {
    unsigned number = before->thread[t].last + 1u, channel = number % CHANNELS, other = !before->party[t], used = 0;
    name_list list = {.count = 0};
    for (size_t i = 0; i < before->regions; i++) {
        const region *r = &before->region[i];
        if (r->channel != channel) continue;
        add_name(&list, r->name);
        used += before->party[r->name.thread] == other;
    }
    printf("region %d.%u would stand in channel %u, which holds %zu of %d entries", t, number, channel, list.count, REGIONS / CHANNELS);
    if (list.count > 0) {
        printf(": ");
        print_names(list.names, list.count);
    }
    printf("\n  %u are kept for party %u, which has %u", before->reserve[other], other, used);
}

/* The new dependence and those that are held. */
static void explain_dependences(const tables *before, int line, region_name name) {
    const region *r = find_region(before, name);
    printf("line %d belongs to region %u.%u, which has not committed; ", line, before->owner[line].thread, before->owner[line].number);
    printf("region %u.%u depends already on ", name.thread, name.number);
    print_names(r->dependence, r->depends);
}

static void explain_slots(const tables *before, region_name name) {
    const region *r = find_region(before, name);
    printf("region %u.%u holds slots of lines ", name.thread, name.number);
    for (size_t i = 0; i < r->held; i++) printf("%s%u", joint(i, r->held), r->slot[i].line);
}

/* A thread's log by regions: entries of one region stand together. */
static void explain_log(const tables *before, int t) {
    const thread *of = &before->thread[t];
    printf("thread %d holds %zu log entries", t, of->entries);
    for (size_t i = 0, next; i < of->entries; i = next) {
        for (next = i; next < of->entries && same_region(of->entry[next].region, of->entry[i].region);) next++;
        printf("%s %zu of region %u.%u", i == 0 ? ":" : ",", next - i, of->entry[i].region.thread, of->entry[i].region.number);
    }
}

/* Nothing in flight: who waits with the line. */
static void explain_acknowledgement(const tables *before, int kind, uint8_t line) {
    printf("no %s of line %u is in flight", kind == BOARD_LOG_ACK ? "log entry" : "slot", line);
    for (size_t i = 0; kind == BOARD_DATA_ACK && i < before->regions; i++) {
        const region *r = &before->region[i];
        const slot *s = find_slot(r, line);
        if (s == NULL) continue;
        printf("; region %u.%u waits with count %u%s", r->name.thread, r->name.number, s->count, before->locked[line] ? ", the line is locked" : "");
    }
}

static void explain_readers(const tables *before, int line, int writer) {
    name_list list = {.count = 0};
    for (int t = 0; t < THREADS; t++)
        if (t != writer && has_read(&before->thread[t], (size_t)line)) add_name(&list, (region_name){(uint8_t)t, before->thread[t].last});
    printf("line %d has been read by open ", line);
    print_names(list.names, list.count);
}

/* What the tables before an event tell of a region that it names by its thread and of its line. */
static void explain_access(const tables *before, uint8_t refusal, contents record) {
    int t = thread_of(record), line = line_of(record);
    region_name name = {(uint8_t)t, before->thread[t].last};
    const log_entry *entry;
    switch (refusal) {
    case BOARD_OWNED: printf("line %d belongs to region %u.%u, which is open", line, before->owner[line].thread, before->owner[line].number); break;
    case BOARD_LOCKED:
        entry = entry_in_flight(before, (uint8_t)line);
        printf("line %d is locked: the log entry of region %u.%u is still in flight", line, entry->region.thread, entry->region.number);
        break;
    case BOARD_DEPENDENCES_FULL: explain_dependences(before, line, name); break;
    case BOARD_SLOTS_FULL: explain_slots(before, name); break;
    case BOARD_LOG_FULL: explain_log(before, t); break;
    case BOARD_BEING_READ: explain_readers(before, line, t); break;
    }
}

static void explain_refusal(const run *events, const tables *before, uint8_t refusal, contents record) {
    int t = thread_of(record);
    switch (refusal) {
    case BOARD_CUT_SHORT: printf("%zu bytes are left, too few for kind %u", record.length, record.bytes[0]); break;
    case BOARD_UNKNOWN_KIND: printf("%u is no kind", record.bytes[0]); break;
    case BOARD_NO_THREAD: printf("T is %u", before->threads); break;
    case BOARD_NO_LINE: printf("L is %u", before->lines); break;
    case BOARD_NO_WORD: printf("the word is %u", record.bytes[3]); break;
    case BOARD_OUT_OF_RANGE: explain_range(events, before, record); break;
    case BOARD_AFTER_CUT: printf("the cut was event %zu", accepted_event(events, BOARD_CUT)); break;
    case BOARD_NO_OPEN_REGION: explain_depth(before, t); break;
    case BOARD_TOO_DEEP: printf("thread %d is at depth %u, in region %d.%u", t, before->thread[t].depth, t, before->thread[t].last); break;
    case BOARD_NUMBERS_SPENT: printf("the last region of thread %d is %d.%u", t, t, before->thread[t].last); break;
    case BOARD_MODIFIED_FULL: explain_modified(before, t); break;
    case BOARD_CHANNEL_FULL: explain_channel(before, t); break;
    case BOARD_NOT_IN_FLIGHT: explain_acknowledgement(before, kind_of(record), (uint8_t)line_of(record)); break;
    case BOARD_UNFIT_PARTIES: explain_parties(record); break;
    case BOARD_NO_BYTE: printf("no bit of the mask is set"); break;
    default: explain_access(before, refusal, record);
    }
}

/* ---- the tables */

/* The label of a line of the tables, in a column of its own. */
static void print_label(const char *what, int first, int second) {
    char label[32];
    snprintf(label, sizeof label, second < 0 ? "%s %d" : "%s %d.%d", what, first, second);
    printf("%-15s ", label);
}

static void print_head(const tables *at) {
    if (at->threads == 0) {
        printf("no setup yet\n");
        return;
    }
    printf("T %u, L %u", at->threads, at->lines);
    uint64_t shares = 0;
    for (size_t t = 0; t < THREADS; t++) shares += at->party[t];
    if (shares + at->reserve[0] + at->reserve[1] > 0) {
        printf(", parties");
        for (size_t t = 0; t < at->threads; t++) printf(" %u", at->party[t]);
        printf(", reserves %u and %u", at->reserve[0], at->reserve[1]);
    }
    printf(at->cut ? ", power cut\n" : "\n");
}

static void print_thread(const tables *at, int t) {
    const thread *of = &at->thread[t];
    size_t lines = 0;
    print_label("thread", t, -1);
    printf("depth %u, last region %d.%u", of->depth, t, of->last);
    for (size_t l = 0; l < LINES; l++)
        if (has_read(of, l)) printf("%s line %zu", lines++ == 0 ? ", it has read" : ",", l);
    printf("\n");
}

static void print_slots(const region *r) {
    for (size_t i = 0; i < r->held; i++) {
        printf("%s line %u ", i == 0 ? "  slots        " : ",", r->slot[i].line);
        if (r->slot[i].state == SLOT_WAITING) printf("waiting with count %u", r->slot[i].count);
        else printf("in flight");
    }
    if (r->held > 0) printf("\n");
}

static void print_log(const thread *of, region_name name) {
    size_t entries = 0;
    for (size_t i = 0; i < of->entries; i++)
        if (same_region(of->entry[i].region, name))
            printf("%s line %u %s", entries++ == 0 ? "  log entries  " : ",", of->entry[i].line, of->entry[i].persistent ? "persistent" : "in flight");
    if (entries > 0) printf("\n");
}

static void print_region(const tables *at, const region *r) {
    print_label("region", r->name.thread, r->name.number);
    printf("%s, channel %u\n", r->done ? "done" : r->ended ? "ended" : "open", r->channel);
    if (r->depends > 0) {
        printf("  depends on    ");
        print_names(r->dependence, r->depends);
        printf("\n");
    }
    print_slots(r);
    print_log(&at->thread[r->name.thread], r->name);
}

static void print_owner(const tables *at, int line) {
    region_name name = at->owner[line];
    print_label("line", line, -1);
    printf("region %u.%u%s%s\n", name.thread, name.number, find_region(at, name) == NULL ? ", committed" : "", at->locked[line] ? ", locked" : "");
}

static void print_tables(const tables *at) {
    print_head(at);
    for (int t = 0; t < THREADS; t++)
        if (at->thread[t].last > 0) print_thread(at, t);
    for (size_t i = 0; i < at->regions; i++) print_region(at, &at->region[i]);
    for (int l = 0; l < LINES; l++)
        if (at->owner[l].number != 0) print_owner(at, l);
}

/* ---- the command */

/* Event i, counted from 0, with its answer, and with what refused it. */
static void print_event(const run *events, size_t i) {
    tables before;
    contents record = record_of(events, i);
    board_answer answer = answer_of(events, i);
    char *text = event_text(record);
    printf("event %zu: %s\n  ", i + 1, text);
    print_answer(stdout, kind_of(record), answer);
    printf("\n");
    if (answer.refusal != 0) {
        read_tables(events, i, &before);
        printf("  ");
        explain_refusal(events, &before, answer.refusal, record);
        printf("\n");
    }
    printf("\n");
    free(text);
}

int explain_command(const char *usage, int argc, char **argv) {
    const char *words[2] = {NULL, NULL}, *memory_name = NULL;
    size_t memories = 0;
    const option options[] = {{"-m", &memory_name, 1, &memories}, {0}};
    tables after;
    take_words(usage, argc, argv, options, words, 1, 2);
    contents file = read_file(words[0]);
    const contents *memory = memory_in(memory_name, file);
    run events = run_events(file, memory);
    size_t count = words[1] == NULL ? events.count : (size_t)number_of("event", words[1], SIZE_MAX);
    if (count > events.count) fail("%s: no event %zu, it has %zu", input_name(words[0]), count, events.count);
    if (count > 0) print_event(&events, count - 1);
    read_tables(&events, count, &after);
    if (count > 0) printf("after event %zu: ", count);
    else printf("before the first event: ");
    print_tables(&after);
    free_run(&events);
    free(file.bytes);
    if (memory != NULL) free(memory->bytes);
    return SAME;
}
