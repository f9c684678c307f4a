/* Records of event files; their readable form, both ways, and the first fault of a text. */
#include <string.h>

#include "common.h"
#include "text.h"

enum { BYTES_LINE = 11, FORMS };

/* By kind: the word, and the width of each number, a digit for each; number 9 is no kind's. The last one is a line of bytes, of as many as there are. */
static const struct { const char *word, *widths; } forms[FORMS] = {
    {"setup", "121111111111"}, {"begin", "1"}, {"end", "1"}, {"read", "111"}, {"write", "1118"}, {"log-ack", "1"}, {"data-ack", "1"}, {"fence", "1"},
    {"cut", ""}, {"", ""}, {"write-bytes", "11118"}, {"bytes", NULL},
};

plain_answer plain_record(const uint8_t *file, size_t file_len) {
    size_t whole = plain_record_length(file, file_len);
    return (plain_answer){0, whole > 0 ? whole : file_len};
}

/* ---- Writing ---- */

static size_t put_number(uint8_t *out, uint64_t value) {
    char digits[20];
    size_t n = 0, length = 1;
    do digits[n++] = (char)('0' + value % 10);
    while ((value /= 10) > 0);
    out[0] = ' ';
    while (n > 0) out[length++] = (uint8_t)digits[--n];
    return length;
}

static size_t put_word(uint8_t *out, const char *word) {
    memcpy(out, word, strlen(word));
    return strlen(word);
}

static uint64_t number_of(const uint8_t *bytes, size_t width) {
    uint64_t value = 0;
    for (size_t i = width; i > 0; i--) value = value << 8 | bytes[i - 1];
    return value;
}

plain_answer plain_text(const uint8_t *file, size_t file_len, uint8_t *text, size_t text_len) {
    size_t out = 0, width;
    if (text_len / 32 < file_len) return (plain_answer){6, 0};
    for (size_t at = 0, next; at < file_len; at += next) {
        size_t whole = plain_record_length(file + at, file_len - at), form = whole > 0 ? file[at] : BYTES_LINE;
        const char *widths = forms[form].widths;
        next = (size_t)plain_record(file + at, file_len - at).value;
        out += put_word(text + out, forms[form].word);
        for (size_t i = whole > 0; i < next; i += width) {
            width = whole > 0 ? (size_t)(*widths++ - '0') : 1;
            out += put_number(text + out, number_of(file + at + i, width));
        }
        text[out++] = '\n';
    }
    return (plain_answer){0, out};
}

/* ---- Reading ---- */

static int is_space(uint8_t b) { return b == ' ' || b == '\t' || b == '\r'; }

/* The words of a line: from one place to the end of the word, and on to the next. */
typedef struct { const uint8_t *text; size_t at, end, word_end; } line_reader;

static int next_word(line_reader *line) {
    while (line->at < line->end && is_space(line->text[line->at])) line->at++;
    line->word_end = line->at;
    while (line->word_end < line->end && !is_space(line->text[line->word_end]) && line->text[line->word_end] != '#') line->word_end++;
    return line->word_end > line->at;
}

static size_t form_of(const line_reader *line) {
    size_t length = line->word_end - line->at, form = 0;
    while (form < FORMS && (strlen(forms[form].word) != length || memcmp(forms[form].word, line->text + line->at, length) != 0)) form++;
    return form;
}

/* The fault of a word as a number of some width, and the number. */
static uint8_t read_number(const line_reader *line, size_t width, uint64_t *value) {
    const uint64_t most = width == 8 ? UINT64_MAX : ((uint64_t)1 << 8 * width) - 1;
    int above = 0;
    *value = 0;
    for (size_t i = line->at; i < line->word_end; i++) {
        uint64_t digit = (uint64_t)line->text[i] - '0';
        if (line->text[i] < '0' || digit > 9) return FAULT_NUMBER;
        if (*value > (most - digit) / 10) above = 1;
        *value = *value * 10 + digit;
    }
    return above ? FAULT_RANGE : 0;
}

/* A line at its first word: its fault, where the reader then stands, or its bytes. */
static uint8_t read_line(line_reader *line, uint8_t *out, size_t *made) {
    size_t form = form_of(line), fields = 0;
    if (form == FORMS) return FAULT_WORD;
    const char *widths = forms[form].widths;
    if (form != BYTES_LINE) out[(*made)++] = (uint8_t)form;
    for (line->at = line->word_end; next_word(line); line->at = line->word_end, fields++) {
        uint64_t value;
        if (form != BYTES_LINE && *widths == 0) return FAULT_EXTRA;
        size_t width = form == BYTES_LINE ? 1 : (size_t)(*widths++ - '0');
        uint8_t fault = read_number(line, width, &value);
        if (fault != 0) return fault;
        for (size_t i = 0; i < width; i++) out[(*made)++] = (uint8_t)(value >> 8 * i);
    }
    return (form == BYTES_LINE ? fields == 0 : *widths != 0) ? FAULT_MISSING : 0;
}

uint8_t plain_read_text(const uint8_t *text, size_t text_len, uint8_t *file, size_t *made, size_t *fault_at) {
    *made = 0;
    for (size_t at = 0; at < text_len;) {
        const uint8_t *newline = memchr(text + at, '\n', text_len - at);
        line_reader line = {text, at, newline != NULL ? (size_t)(newline - text) : text_len, at};
        uint8_t fault = next_word(&line) ? read_line(&line, file, made) : 0;
        *fault_at = line.at;
        if (fault != 0) return fault;
        at = line.end + 1;
    }
    *fault_at = text_len;
    return 0;
}
