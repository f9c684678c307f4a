/* Event files for the examples: reading one, its events, the starting memory that it asks for. */
#ifndef FILES_H
#define FILES_H

#include <stddef.h>
#include <stdint.h>

/* A little-endian number of up to eight bytes. */
uint64_t number_at(const uint8_t *bytes, size_t width);

/* The whole file, which the caller frees. Says so and ends with code 2 if it cannot be read. */
uint8_t *read_file(const char *name, size_t *length);

/* Number of events; the engine gives as many answers. */
size_t event_count(const uint8_t *file, size_t length);

/* Bytes of starting memory: 64 * L of the setup, which stands first; 0 if there is none. */
size_t memory_length(const uint8_t *file, size_t length);

#endif
