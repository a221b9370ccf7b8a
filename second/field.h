/* field.h: a field of a call in a batch (length, then bytes), read from standard input into the middle of marked bytes. */
#ifndef FIELD_H
#define FIELD_H

#include <stdbool.h>
#include <stddef.h>
#include <stdint.h>
#include <stdio.h>
#include <string.h>

/* A call: entry (1), three fields, action (1). A field: its length (2), big-endian,
 * and as many bytes. */
enum { CHECK = 0, OPEN = 1, OFFER = 2, CLOSE = 3, WRITE = 4, TRACE = 5 };
enum { MAX_FIELD = 65535, MARGIN = 64, MARK = 0xA5 };

struct field {
    size_t length;
    uint8_t ahead[MARGIN];
    uint8_t bytes[MAX_FIELD + MARGIN];
};

static inline bool read_field(struct field *field)
{
    const int high = getchar();
    const int low = getchar();

    if (high == EOF || low == EOF) {
        return false;
    }
    field->length = (size_t)high << 8 | (size_t)low;
    memset(field->ahead, MARK, MARGIN);
    memset(field->bytes + field->length, MARK, MARGIN);
    return fread(field->bytes, 1, field->length, stdin) == field->length;
}

/* Where the policy ends in the first field of a trace run; the trace is behind it. As
 * in guardrun's input "the first two bytes say how many bytes, at most 6,646 taken";
 * these two are there in any case, and no more are taken than the field has. */
static inline size_t policy_end(const struct field *field)
{
    enum { MOST = 6646 };
    size_t end;

    if (field->length < 2) {
        return field->length;
    }
    end = (size_t)field->bytes[0] << 8 | field->bytes[1];
    end = end < 2 ? 2 : end > MOST ? MOST : end;
    return end < field->length ? end : field->length;
}

/* Where all counts of a trace run's tally begin, by its action byte: at 0, or so many
 * below 4,294,967,296. */
static inline uint32_t tally_start(uint8_t action)
{
    return UINT32_C(0) - action;
}

/* No byte beside the field has been written since it was read. */
static inline bool surrounded(const struct field *field)
{
    for (size_t i = 0; i < MARGIN; i++) {
        if (field->ahead[i] != MARK || field->bytes[field->length + i] != MARK) {
            return false;
        }
    }
    return true;
}

#endif
