#include "lent.h"
#include <stdio.h>
#include <stdlib.h>
#include <string.h>
#include <sys/mman.h>

enum { PAGE = 4096, CLASSES = 5, UNUSED = 0xC7 };  // arenas of 1, 2, 4, 8 and 16 pages

_Noreturn void demand_failed(const char *text, const char *file, int line) {
    fprintf(stderr, "DEMAND FAILED %s:%d: %s\n", file, line, text);
    abort();
}

bool same(const void *a, const void *b, size_t length) { return length == 0 || memcmp(a, b, length) == 0; }

static uint8_t *arena_of(int slot, int class) {
    static uint8_t *arenas[SLOTS][CLASSES];
    uint8_t **arena = &arenas[slot][class];
    if (*arena) return *arena;
    size_t length = (size_t)PAGE << class;
    uint8_t *whole = mmap(NULL, length + 2 * PAGE, PROT_NONE, MAP_PRIVATE | MAP_ANONYMOUS, -1, 0);
    if (whole == MAP_FAILED || mprotect(whole + PAGE, length, PROT_READ | PROT_WRITE)) abort();
    *arena = whole + PAGE;
    memset(*arena, UNUSED, length);
    return *arena;
}

static bool unused(const uint8_t *from, const uint8_t *to) {
    return from >= to || (*from == UNUSED && memcmp(from, from + 1, (size_t)(to - from) - 1) == 0);
}

static struct lent lend_beside(int slot, size_t length) {
    static uint8_t *row, *next;
    if (!row) {
        row = next = malloc(SLOTS * LONGEST + 64);
        memset(row, UNUSED, SLOTS * LONGEST + 64);
    }
    if (slot == 0) {
        DEMAND(unused(next, next + 64));
        next = row;
    }
    uint8_t *bytes = next;
    next += (length + 7) / 8 * 8;
    return (struct lent){bytes, length, bytes, (size_t)(next - bytes)};
}

struct lent lend(int slot, enum place place, size_t length, bool null_if_empty) {
    if (length > LONGEST) abort();
    if (place == SIDE_BY_SIDE) return lend_beside(slot, length);
    if (place == HEAP) {
        if (length == 0 && null_if_empty) return (struct lent){NULL, 0, NULL, 0};
        return (struct lent){malloc(length), length, NULL, 0};
    }
    int class = 0;
    while ((size_t)PAGE << class < length) class ++;
    uint8_t *arena = arena_of(slot, class);
    size_t arena_length = (size_t)PAGE << class;
    return (struct lent){place == BEFORE_GUARD ? arena + arena_length - length : arena, length, arena, arena_length};
}

struct lent lend_copy(int slot, enum place place, const uint8_t *bytes, size_t length, bool null_if_empty) {
    struct lent lent = lend(slot, place, length, null_if_empty);
    if (length) memcpy(lent.bytes, bytes, length);
    return lent;
}

void give_back(struct lent lent) {
    if (!lent.arena) {
        free(lent.bytes);
        return;
    }
    DEMAND(unused(lent.arena, lent.bytes));
    DEMAND(unused(lent.bytes + lent.length, lent.arena + lent.arena_length));
    memset(lent.bytes, UNUSED, lent.length);
}
