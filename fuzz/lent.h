// Buffers that are lent to the library, each with exactly the length that is stated, in four places:
//   HEAP         from malloc, under AddressSanitizer: it sees the driver's own accesses and the library's calls of memcpy and memset
//   BEFORE_GUARD ending at a page that may not be touched: any access beyond the end faults, also one by the library's own code
//   AFTER_GUARD  beginning after such a page: any access before the beginning faults
//   SIDE_BY_SIDE the buffers of a call one directly behind the other (at multiples of 8), in the order in which they are lent, from slot 0 on
#ifndef FUZZ_LENT_H
#define FUZZ_LENT_H
#include <stdbool.h>
#include <stddef.h>
#include <stdint.h>

enum place { HEAP, BEFORE_GUARD, AFTER_GUARD, SIDE_BY_SIDE, PLACES };

// Two buffers of one call are in two slots.
enum { SLOTS = 4, LONGEST = 65536 };

struct lent {
    uint8_t *bytes;
    size_t length;
    uint8_t *arena;
    size_t arena_length;
};

// The bytes are not set. An empty buffer on the heap is the null pointer where null_if_empty says so.
struct lent lend(int slot, enum place place, size_t length, bool null_if_empty);
// With the given bytes.
struct lent lend_copy(int slot, enum place place, const uint8_t *bytes, size_t length, bool null_if_empty);
// Fails if a byte beside the buffer has changed.
void give_back(struct lent lent);

bool same(const void *a, const void *b, size_t length);
// Fails, with the text, where the demand does not hold.
#define DEMAND(holds) ((holds) ? (void)0 : demand_failed(#holds, __FILE__, __LINE__))
_Noreturn void demand_failed(const char *text, const char *file, int line);

#endif
