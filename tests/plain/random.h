/* Seeded event records and event files that follow an engine, so that most events are accepted. */
#ifndef PLAIN_RANDOM_H
#define PLAIN_RANDOM_H

#include "plain.h"

typedef struct { uint64_t state; } random_source;

uint64_t random_next(random_source *source);
uint64_t random_below(random_source *source, uint64_t bound);
int random_chance(random_source *source, uint64_t one_in);

/* Any kind but a cut; a number that is no kind's, half of them beside one that is. */
uint8_t random_known_kind(random_source *source);
uint8_t random_unknown_kind(random_source *source);

/* The mask of a write of bytes: none, one, all or any of the bits. */
uint8_t random_mask(random_source *source);

/* Parties and reserves that setup accepts with so many threads: often all zeros, often with most of each channel or the whole of it kept for one party.
   Wrong ones are the same with a cause of 24. */
void random_shares(random_source *source, uint8_t threads, uint8_t shares[PLAIN_SHARES]);
void random_wrong_shares(random_source *source, uint8_t threads, uint8_t shares[PLAIN_SHARES]);

/* mixed: events of every kind, tables about half full.
   deep: phases of filling, draining, nesting and listing, lists and channels near or at their limits.
   damaged: mixed, with setups refused in front, records of any content, bytes flipped, and an end cut short or of unknown kind.
   In these half of the writes are of bytes, setup has random parties and reserves, and now and then a write repeats a line of its region or asks for one
   that an open region has read, or a data acknowledgement asks for a line that still waits.
   mixed words, deep words, mixed bytes: the same with every write of a word, or half of them of bytes, zeros for parties and reserves, and no listing,
   repeating or asking.
   reserves: most events begin or end, writes are of words, the parties of the threads alternate, and half of each channel is kept for each. */
typedef enum {
    RANDOM_MIXED, RANDOM_DEEP, RANDOM_DAMAGED, RANDOM_MIXED_WORDS, RANDOM_DEEP_WORDS, RANDOM_MIXED_BYTES, RANDOM_RESERVES
} random_mode;

enum { PHASE_FILLING, PHASE_DRAINING, PHASE_NESTING, PHASE_LISTING }; /* of a deep run */

typedef struct {
    random_source source;
    random_mode mode;
    uint8_t phase;
    uint32_t phase_left; /* events until the next phase */
} random_events;

void random_start(random_events *events, uint64_t seed, random_mode mode);

/* Proposes the next record (never a cut, except a damaged one); gives its length. The engine stays as it is. */
size_t random_record(random_events *events, const plain_engine *engine, uint8_t record[PLAIN_RECORD_BYTES]);

/* A whole file: setup (in a damaged one others before it), events, a cut last, `count` records in all; gives its length.
   The buffer must hold `count` times the longest record, and one record more. */
size_t random_file(uint64_t seed, random_mode mode, uint8_t threads, uint16_t lines, uint64_t count, uint8_t *file);

/* A file whose image is the largest there is: four ended regions of each thread, each with eight logged lines, none of them in the medium; then the cut.
   Gives its length. */
enum { LARGEST_FILE_BYTES = PLAIN_RECORD_BYTES + PLAIN_THREADS * PLAIN_MODIFIED * (2 + 2 + PLAIN_SLOTS * (PLAIN_WRITE_RECORD + 2)) + 1 };
size_t largest_file(uint8_t file[LARGEST_FILE_BYTES]);

#endif
