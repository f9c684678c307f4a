/* Records of event files, and their readable form, in plain C. */
#ifndef PLAIN_TEXT_H
#define PLAIN_TEXT_H

#include "plain.h"

enum { FAULT_WORD = 1, FAULT_NUMBER, FAULT_RANGE, FAULT_MISSING, FAULT_EXTRA };

/* The record at the front of a file: its length; one that ends its file takes all that is left. */
plain_answer plain_record(const uint8_t *file, size_t file_len);

/* The readable form of a file; 6 unless the buffer has 32 bytes for each of its bytes. */
plain_answer plain_text(const uint8_t *file, size_t file_len, uint8_t *text, size_t text_len);

/* Reads a text: its first fault, 0 for none, and where it stands (else the text's length); the bytes of what is read go into a buffer, four for each of the
   text's. */
uint8_t plain_read_text(const uint8_t *text, size_t text_len, uint8_t *file, size_t *made, size_t *fault_at);

#endif
