/* The reference engine of the memory board, for benches in C and C++. Link with libboard.a (`make board`, or `make install PREFIX=..`).
   No call keeps state, so calls may run side by side. A slice is a pointer and a length; an empty one may have any pointer that is not NULL.
   A refusal is a number from 1 on, 0 is accepted; the value of a refusal is 0, and a refusal writes nothing. */
#ifndef BOARD_H
#define BOARD_H

#include <stddef.h>
#include <stdint.h>

#ifdef __cplusplus
extern "C" {
#endif

#define BOARD_VERSION "1.0.0"

typedef struct {
    uint8_t refusal;
    uint64_t value;
} board_answer;

/* ---- events

   A record is one byte of kind and a body of numbers, the low byte first:
     setup       T (1), L (2), the party of the threads 0 to 7 (1 each), the reserve of party 0 and of party 1 (1 each)
     begin, end, fence   thread (1)
     read        thread, line, word (1 each)
     write       thread, line, word (1 each), value (8)
     write-bytes thread, line, word, mask (1 each), value (8): bit i of the mask is set where byte i of the value is stored
     log-ack, data-ack   line (1)
     cut         nothing
   Threads, lines and words count from 0. A region is told by its thread and its number, which counts from 1. */
enum board_kind {
    BOARD_SETUP = 0, BOARD_BEGIN = 1, BOARD_END = 2, BOARD_READ = 3, BOARD_WRITE = 4, BOARD_LOG_ACK = 5, BOARD_DATA_ACK = 6, BOARD_FENCE = 7, BOARD_CUT = 8,
    BOARD_WRITE_BYTES = 10
};

/* The refusals of events, images and calls. */
enum board_refusal {
    BOARD_ACCEPTED = 0,
    BOARD_CUT_SHORT = 1,        /* record cut short, or an image without end record */
    BOARD_UNKNOWN_KIND = 2,
    BOARD_NO_THREAD = 3,        /* thread not below T */
    BOARD_NO_LINE = 4,          /* line not below L */
    BOARD_NO_WORD = 5,          /* word above 7 */
    BOARD_OUT_OF_RANGE = 6,     /* T, L or the memory's length; setup again, or before setup; no accepted cut; a buffer too short, a place not of eight bytes */
    BOARD_OUT_OF_PLACE = 7,     /* image record out of its place or order, or too many */
    BOARD_CONTRADICTION = 8,    /* image that contradicts itself */
    BOARD_AFTER_CUT = 11,
    BOARD_NO_OPEN_REGION = 12,
    BOARD_TOO_DEEP = 13,        /* begin at depth 15 */
    BOARD_NUMBERS_SPENT = 14,
    BOARD_MODIFIED_FULL = 15,   /* four regions of the thread are not done */
    BOARD_CHANNEL_FULL = 16,    /* or its free entries are kept for the other party */
    BOARD_OWNED = 17,           /* the line's owner is another thread's open region */
    BOARD_LOCKED = 18,          /* needs a log entry on a line still locked */
    BOARD_DEPENDENCES_FULL = 19,
    BOARD_SLOTS_FULL = 20,
    BOARD_LOG_FULL = 21,
    BOARD_NOT_IN_FLIGHT = 22,   /* acknowledgement of nothing in flight */
    BOARD_UNFIT_PARTIES = 24,   /* a party above 1 or of a thread not below T, or reserves above 16 together */
    BOARD_BEING_READ = 25,      /* another thread's open region has read the line */
    BOARD_NO_BYTE = 27          /* mask 0 */
};

/* What a refusal means, in English; for a number that is none it says so. Never NULL. */
const char *board_refusal_text(uint8_t refusal);

/* ---- lengths of buffers, in bytes */
#define BOARD_SHARES_BYTES 10                       /* parties and reserves, as in a setup record */
#define BOARD_LINE_BYTES 64
#define BOARD_MEMORY_BYTES 16384                    /* the largest memory: 256 lines */
#define BOARD_ANSWER_BYTES 9
#define BOARD_ANSWERS_BYTES(file_len) (9 * (file_len))  /* room for the answers of any file of that length */
#define BOARD_IMAGE_BYTES 34853                     /* the largest image, of either form */
#define BOARD_PLACE_BYTES 8
#define BOARD_TABLES_BYTES 5130
#define BOARD_TEXT_BYTES(file_len) (32 * (file_len))    /* what board_text asks for */
#define BOARD_FILE_BYTES(text_len) (4 * (text_len))     /* what board_bytes asks for */

/* ---- running events */

/* The answer that setup with these numbers gets over the lent memory. `shares` are the ten bytes that a setup record has behind L: the party (0 or 1) of
   the threads 0 to 7, then the reserves: the entries that are kept for party 0 and for party 1, of the 16 in each channel of the dependence list. 6 if
   they are not ten bytes, T is not 1 to 8, L not 1 to 256, or the memory not 64 * L bytes; else 24 if a party is above 1, or not 0 for a thread not below
   T, or the two reserves are above 16 together. */
board_answer board_start(uint64_t threads, uint64_t lines, const uint8_t *shares, size_t shares_len, const uint8_t *memory, size_t memory_len);

/* Runs an event file over lent starting memory and writes nine bytes for each answer (refusal, then the value, little-endian).
   Its value is the number of answers; bytes behind them stay. 6 if the buffer is shorter than the answers. */
board_answer board_events(const uint8_t *file, size_t file_len, const uint8_t *memory, size_t memory_len, uint8_t *answers, size_t answers_len);

/* The record at the front of an event file. Its value is the record's length; one that ends its file (cut short, or of unknown kind) takes all that is left.
   0 for an empty file alone. */
board_answer board_record(const uint8_t *file, size_t file_len);

/* Runs an event file in the same way and writes the tables after its last event, BOARD_TABLES_BYTES in the layout below. Its value is that number; bytes
   behind them stay. 6 if the buffer is shorter.
     head, 18 bytes     T (1), L (2), the party of the threads 0 to 7 (8), the reserves (2), 1 after a cut (1), number of regions that have ended (4)
     8 threads, 259 each   depth (1), number of its last region (2), a bit for each line that its open region has read (32; line l is bit l % 8 of byte l / 8),
                        32 log entries of 7: region (4), line (1), number of entries that the region wrote before it (1), 1 if persistent, 0 in flight (1)
     32 regions, 55 each   region (4), channel (1), 1 if ended (1), 1 if done (1), as which it ended, the first is 1, 0 while it is open (4), four dependences
                        (regions, 4 each), its last four different lines, the newest first (1 each), 8 slots of 3: line, state (0 empty, 1 waiting, 2 in
                        flight), count
     256 owners         the last region that wrote the line, committed or not (4 each)
     256 locks          1 if the line is locked (1 each)
   A region in four bytes is its number (2), its thread (1) and 0; four zeros are none, and a free place of its list. Numbers are little-endian. */
board_answer board_tables(const uint8_t *file, size_t file_len, const uint8_t *memory, size_t memory_len, uint8_t *tables, size_t tables_len);

/* ---- the readable form: one event a line, its word (setup, begin, .. as above) and its numbers in decimal, spaces or tabs between them, '#' in front of a
   comment. `bytes` and numbers are bytes as they stand. */

/* Writes an event file in the readable form: a line for each record; the record that ends a file is a line of bytes, with all that stands behind it. Its value
   is the text's length; bytes behind it stay. 6 unless the buffer has BOARD_TEXT_BYTES(file_len). */
board_answer board_text(const uint8_t *file, size_t file_len, uint8_t *text, size_t text_len);

/* What can be wrong with a readable text. */
enum board_fault {
    BOARD_FAULT_WORD = 1,       /* the first word of a line is no event's */
    BOARD_FAULT_NUMBER = 2,     /* a word that is no number */
    BOARD_FAULT_RANGE = 3,      /* a number above the most of its place */
    BOARD_FAULT_MISSING = 4,    /* a number is missing */
    BOARD_FAULT_EXTRA = 5       /* a number too many */
};

/* What a fault means, in English. Never NULL. */
const char *board_fault_text(uint8_t fault);

/* Writes the bytes of a readable text. Its value is their number; bytes behind them stay. 6 unless the buffer has BOARD_FILE_BYTES(text_len); then the first
   fault, 1 to 5. */
board_answer board_bytes(const uint8_t *text, size_t text_len, uint8_t *file, size_t file_len);

/* Where the first fault of a text stands: its value is the place of the byte; the length of the text if there is none. */
board_answer board_fault_at(const uint8_t *text, size_t text_len);

/* ---- images

   An image is the records of the medium, the uncommitted regions and the persistent log entries, in this order:
     32 head     T (1), L (2)
     33 line     64 bytes; L of them, line 0 upward
     34 region   thread (1), number (2), state (1: 0 in progress, 1 done), four dependences of thread (1) and number (2); rising by thread, then number
     35 log      thread (1), number (2), line (1), old line (64); by thread, oldest write first
     36 end      nothing
   The new form has its log entries under headers: 41 to 47, with 1 to 7 entries of one region: thread (1), number (2), then the line (1) of each, then their
   old lines (64 each). So line l stands at byte 4 + 65 * l + 1. */
enum board_image_kind {
    BOARD_IMAGE_HEAD = 32, BOARD_IMAGE_LINE = 33, BOARD_IMAGE_REGION = 34, BOARD_IMAGE_LOG = 35, BOARD_IMAGE_END = 36, BOARD_IMAGE_HEADER = 40
};

/* Runs an event file over lent starting memory and saves the image that its cut left. Its value is the image's length; bytes behind the image stay.
   6 if no cut was accepted or the buffer is shorter than the image. */
board_answer board_image(const uint8_t *file, size_t file_len, const uint8_t *memory, size_t memory_len, uint8_t *image, size_t image_len);

/* One recovery step inside the image, which is lent alone, at the place in eight bytes, little-endian; a cut sets the place to 0, between two steps or
   inside one. Words of a line in flight at the cut, or of the line that a step was restoring, may be in the image or not: recovery finds the same memory.
   Its value is 1 while log entries remain after it ('more'), else 0 ('finished'). 6 if the place is not of eight bytes, then 1 to 8 for an image that is refused. */
board_answer board_recovery_step(uint8_t *image, size_t image_len, uint8_t *place, size_t place_len);

/* As board_image, but saves the new image: its log entries stand under headers, 1 to 7 of one region in a record of kind 41 to 47. It is never longer than
   the other one. */
board_answer board_image_headed(const uint8_t *file, size_t file_len, const uint8_t *memory, size_t memory_len, uint8_t *image, size_t image_len);

/* As board_recovery_step, but takes images of both forms, and gives the same answers, places and lines for either. board_recovery_step refuses an image with
   headers by 2. */
board_answer board_recovery_step_headed(uint8_t *image, size_t image_len, uint8_t *place, size_t place_len);

/* The log entry that a step at this place would restore, in an image of either form. Its value has the line in its low byte, then the number (2) and the thread
   (1) of the region; 0 if no entry is left there. 1 to 8 for an image that is refused. */
board_answer board_recovery_entry(const uint8_t *image, size_t image_len, uint64_t place);

#ifdef __cplusplus
}
#endif
#endif
