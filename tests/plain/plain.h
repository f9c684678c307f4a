/* The memory board's engine in plain C, worked from document 01 and the requests alone.
   Nothing here is proved: it is held against the proved engine, answer by answer and in speed. */
#ifndef PLAIN_H
#define PLAIN_H

#include <stddef.h>
#include <stdint.h>

enum {
    PLAIN_THREADS = 8,     /* threads of a board */
    PLAIN_LINES = 256,     /* lines of a board */
    PLAIN_WORDS = 8,       /* words of a line */
    PLAIN_LINE_BYTES = 64, /* bytes of a line */
    PLAIN_MODIFIED = 4,    /* regions in a thread's modified list */
    PLAIN_SLOTS = 8,       /* line slots of a region */
    PLAIN_HELD = 4,        /* dependences of a region */
    PLAIN_CHANNELS = 2,    /* channels of the dependence list */
    PLAIN_CHANNEL = 16,    /* entries of a channel */
    PLAIN_LISTED = PLAIN_CHANNELS * PLAIN_CHANNEL, /* entries of the dependence list */
    PLAIN_LOG = 32,        /* log entries of a thread */
    PLAIN_DEPTH = 15,      /* nesting depth */
    PLAIN_NUMBERS = 65535, /* region numbers of a thread */
    PLAIN_COUNT = 4,       /* different other lines after which a waiting slot may fly */
    PLAIN_PARTIES = 2,     /* parties that share each channel */
    PLAIN_SHARES = PLAIN_THREADS + PLAIN_PARTIES, /* bytes of a setup behind L: the party of each thread, the reserve of each party */
    PLAIN_ANSWER_BYTES = 9,
    PLAIN_WRITE_RECORD = 12, /* the record of a write of a word */
    PLAIN_BYTES_RECORD = 13, /* that of a write of bytes */
    PLAIN_RECORD_BYTES = 4 + PLAIN_SHARES, /* the longest event record, of a setup */
    PLAIN_LOGGED = PLAIN_THREADS * PLAIN_LOG,
    PLAIN_UNDER = 7,       /* log entries under one header */
    PLAIN_IMAGE_BYTES = 4 + 65 * PLAIN_LINES + 17 * PLAIN_LISTED + 69 * PLAIN_LOGGED + 1, /* the longest image */
    PLAIN_HEADED_BYTES = PLAIN_IMAGE_BYTES - 4 * (PLAIN_LOGGED - 2 * PLAIN_LISTED) /* the longest new one: eight entries of each region, in two records */
};

enum { EVENT_SETUP, EVENT_BEGIN, EVENT_END, EVENT_READ, EVENT_WRITE, EVENT_LOG_ACK, EVENT_DATA_ACK, EVENT_FENCE, EVENT_CUT, EVENT_WRITE_BYTES = 10 };
enum { IMAGE_HEAD = 32, IMAGE_LINE, IMAGE_DEPENDENCE, IMAGE_LOG, IMAGE_END, IMAGE_HEADER = 40 }; /* with k entries a header is 40 + k */

/* Refusal 0 is acceptance; a refusal's value is 0. */
typedef struct { uint8_t refusal; uint64_t value; } plain_answer;

typedef struct { uint64_t word[PLAIN_WORDS]; } plain_line;

/* A region; number 0 is no region. */
typedef struct { uint8_t thread; uint16_t number; } plain_region;

enum { SLOT_EMPTY, SLOT_WAITING, SLOT_IN_FLIGHT };

/* While a slot waits, the first `count` lines of `seen` are the different other lines that the region has written since its last write of this line,
   until there are four. */
typedef struct { uint8_t line, state, count, seen[PLAIN_COUNT]; } plain_slot;

/* An entry of the modified list; number 0 is a free one. */
typedef struct { uint16_t number; uint8_t ended; plain_slot slot[PLAIN_SLOTS]; } plain_modified;

/* An entry of the dependence list, in the channel of its region's number; its dependences rise by thread, then number. */
typedef struct {
    plain_region region;
    uint8_t channel, done;
    uint64_t end_stamp;
    uint32_t held;
    plain_region dependence[PLAIN_HELD];
} plain_listed;

typedef struct { uint16_t number; uint8_t line, persistent; plain_line old; } plain_log;

typedef struct {
    uint8_t threads; /* 0 before setup */
    uint16_t lines;
    uint8_t party[PLAIN_THREADS], reserve[PLAIN_PARTIES];
    uint8_t cut;
    uint8_t is_lent;
    const uint8_t *lent;
    size_t lent_len;
    uint64_t ends; /* regions ended so far: the next end stamp */
    uint8_t depth[PLAIN_THREADS];
    uint16_t last[PLAIN_THREADS]; /* each thread's newest number */
    plain_modified modified[PLAIN_THREADS][PLAIN_MODIFIED];
    uint32_t listed_len;
    plain_listed listed[PLAIN_LISTED];
    uint32_t log_len[PLAIN_THREADS];
    plain_log log[PLAIN_THREADS][PLAIN_LOG]; /* oldest write first */
    plain_region owner[PLAIN_LINES];
    uint8_t locked[PLAIN_LINES];
    plain_region flight[PLAIN_LINES]; /* by line, the region of its slot in flight: at most one per line exists */
    uint16_t reader[PLAIN_LINES][PLAIN_THREADS]; /* the number of each thread's newest region that has read the line, 0 before the first */
    plain_line current[PLAIN_LINES];
    plain_line medium[PLAIN_LINES];
    plain_line carried[PLAIN_LINES];
} plain_engine;

/* Ways for the engine to be wrong, to try what should find them; 0 is right. */
enum {
    WRONG_COMMIT = 1, /* a region that ended counts as done with its slots not empty, which are given up */
    WRONG_LOCK,       /* a write that needs a log entry is not refused on a locked line */
    WRONG_COUNT,      /* a slot flies at count 3 */
    WRONG_READ,       /* a read brings no dependence */
    WRONG_SAVE,       /* an image has the log entries that are in flight too */
    WRONG_WALK        /* recovery undoes oldest first */
};
extern int plain_wrong;

/* An engine before setup, over zero memory or over lent memory, which setup copies. */
void plain_init(plain_engine *engine);
void plain_init_lent(plain_engine *engine, const uint8_t *memory, size_t memory_len);

/* The refusal an event would get (nothing changes), and the event itself. */
uint8_t plain_refusal(const plain_engine *engine, const uint8_t *record, size_t len);
plain_answer plain_event(plain_engine *engine, const uint8_t *record, size_t len);

/* Length of the whole record that stands first, or 0 if it is empty, cut short or unknown. */
size_t plain_record_length(const uint8_t *bytes, size_t len);

/* Saves the image of an engine that was cut: in the old form, or in the new one, with log entries under headers. */
plain_answer plain_save(const plain_engine *engine, int headed, uint8_t *image, size_t image_len);

/* What an accepted image holds beside its lines. */
typedef struct { plain_region region; uint8_t state; plain_region dependence[PLAIN_HELD]; } plain_image_entry;
typedef struct { plain_region region; uint8_t line; size_t old_at; } plain_image_log;
typedef struct {
    uint8_t threads;
    uint16_t lines;
    uint32_t entries, logs;
    uint32_t thread_logs[PLAIN_THREADS];
    plain_image_entry entry[PLAIN_LISTED];
    plain_image_log log[PLAIN_LOGGED];
} plain_contents;

/* Reads a whole image of the old form, or of either; gives its refusal. */
uint8_t plain_read_image(const uint8_t *image, size_t image_len, int headed, plain_contents *contents);

/* Puts the indices of the log entries into the order in which recovery restores them. */
void plain_walk(const plain_contents *contents, uint32_t order[PLAIN_LOGGED]);

/* The calls of the benches; no engine state passes between them. */
plain_answer plain_start(uint64_t threads, uint64_t lines, const uint8_t *shares, size_t shares_len, const uint8_t *memory, size_t memory_len);
plain_answer plain_events(const uint8_t *file, size_t file_len, const uint8_t *memory, size_t memory_len,
                          uint8_t *answers, size_t answers_len);
plain_answer plain_image(const uint8_t *file, size_t file_len, const uint8_t *memory, size_t memory_len,
                         uint8_t *image, size_t image_len);
plain_answer plain_recovery_step(uint8_t *image, size_t image_len, uint8_t *place, size_t place_len);

/* The same for the new form, and a step over either. */
plain_answer plain_image_headed(const uint8_t *file, size_t file_len, const uint8_t *memory, size_t memory_len,
                                uint8_t *image, size_t image_len);
plain_answer plain_recovery_step_headed(uint8_t *image, size_t image_len, uint8_t *place, size_t place_len);

#endif
