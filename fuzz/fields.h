// What decoding itself says of each command's fields, found by decoding single bits: how many there are, their bits and their ranges.
#ifndef FUZZ_FIELDS_H
#define FUZZ_FIELDS_H
#include <stdbool.h>
#include <stddef.h>
#include <stdint.h>

enum { MOST_FIELDS = 64, BASE_WORDS = 4, MOST_WORDS = 22 };

struct shape {
    size_t words, base;         // all words of the command; those before a triangle's suffix
    uint64_t used[BASE_WORDS];  // the bits that some field or the number holds
    size_t count;               // of the fields
    int64_t lowest[MOST_FIELDS], highest[MOST_FIELDS];
};
const struct shape *shape_of(unsigned number);
bool fits(const struct shape *shape, size_t field, uint64_t value);

uint64_t word_at(const uint8_t *bytes);

#endif
