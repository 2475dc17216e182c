// The bytes of a stream's record as the library lays them out, for drivers that look into records and damage them.
#ifndef FUZZ_RECORD_H
#define FUZZ_RECORD_H
#include <stdint.h>
#include <string.h>

enum { HELD = 256, HELD_COUNT = 432, TAKEN = 436, NUMBER = 440, PLACE = 444, HAZARDS = 448, ENDED = 449, SPARE = 450, WAITED = 452, RECORD = 456 };
enum { ROOM = HELD_COUNT - HELD, MOST_WAITED = 204800 };

static inline uint32_t number_in(const uint8_t *record, int at) {
    uint32_t number;
    memcpy(&number, record + at, sizeof number);
    return number;
}

static inline void put_number(uint8_t *record, int at, uint32_t number) { memcpy(record + at, &number, sizeof number); }

#endif
