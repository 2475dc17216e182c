// Drawing pixel by pixel and texel by texel (01 "Fill", and 02, #106), for lists whose draws and loads are small.
#ifndef FUZZ_ACTS_H
#define FUZZ_ACTS_H
#include <stdbool.h>
#include <stddef.h>
#include <stdint.h>

enum { TEXTURE_BYTES = 4096 };

struct machine {
    uint8_t *memory;
    size_t memory_length;
    uint64_t start;
    uint8_t *texture;
};

// Draws a list that passes the check. The answer is left in answer; false, and nothing is done, where its draws and loads have too many pixels or texels.
bool draw_slowly(const uint8_t *list, size_t words, const struct machine *machine, uint64_t *answer);

#endif
