// What the drivers of both repairs share: calls in every place, what an answer says of the buffers, the limits of 13 and 14, and syncs that could be less.
#ifndef FUZZ_REPAIRS_H
#define FUZZ_REPAIRS_H
#include "lent.h"
#include "lists.h"

enum { ROOM = 65536 };
typedef uint64_t repair_function(const uint8_t *list, size_t list_length, uint8_t *work, size_t work_length, uint8_t *out, size_t out_length);

// What a driver demands of a list that is written, in so many words and with these cycles said.
typedef void written_function(const uint8_t *list, size_t length, const uint8_t *new, size_t words, unsigned cycles);

// The answer to an input by what 01 says of each number, every byte of both buffers, the list unchanged, in every place.
void try_repair(const struct input *in, repair_function *repair, written_function *written);

// One more call, with room for any repair of the list; what it writes stands in out.
uint64_t repair_once(repair_function *repair, const uint8_t *list, size_t length, uint8_t *out);

// The cycles of a sync that is written: no bit is set but those of its number. 0 where it is none.
unsigned written_cycles(const uint8_t *word);

bool passes(const uint8_t *list, size_t words);

// That the sync at a place of a list, of so many cycles, can neither be left out nor be a shorter one.
void demand_needed(const uint8_t *new, size_t words, size_t at, unsigned wait);

#endif
