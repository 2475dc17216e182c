// lanyardrove_view: the answer and all of the output, pixel by pixel as 02 says (#113); memory unchanged, the output unchanged at a refusal and beyond what is
// written. The bytes of the input's list are the memory.
#include "lent.h"
#include "library.h"
#include "lists.h"
#include <string.h>

enum { ROOM = 65536, MOST_SIDE = 1024 };
static bool null_if_empty;
static uint8_t before[ROOM], after[ROOM], due_bytes[ROOM];

struct view {
    const uint8_t *memory;
    size_t length;
    uint64_t start, address;
    uint32_t width, height, size;
};

static uint64_t view_at(enum place place, const struct view *view, size_t out_length) {
    struct lent memory = lend_copy(0, place, view->memory, view->length, null_if_empty);
    struct lent out = lend_copy(1, place, before, out_length, null_if_empty);
    const uint64_t answer =
        lanyardrove_view(memory.bytes, memory.length, view->start, view->address, view->width, view->height, view->size, out.bytes, out.length);
    DEMAND(same(memory.bytes, view->memory, view->length));
    if (out_length) memcpy(after, out.bytes, out_length);
    give_back(memory);
    give_back(out);
    return answer;
}

// "A five-bit channel v (red highest) becomes 8v + floor(v/4)"
static uint8_t channel(unsigned pixel, unsigned low) {
    const unsigned v = pixel >> low & 31;
    return (uint8_t)(8 * v + v / 4);
}

static void pixel(const uint8_t *at, uint32_t size, uint8_t *rgba) {
    const unsigned word = size == 2 ? (unsigned)at[0] << 8 | at[1] : 0;
    for (unsigned i = 0; i < 4; i++) rgba[i] = size == 3 ? at[i] : size == 1 ? at[0] : channel(word, 11 - 5 * (i % 3));
    if (size == 1) rgba[3] = 255;
    if (size == 2) rgba[3] = word & 1 ? 255 : 0;
}

static bool is_side(uint32_t side) { return 1 <= side && side <= MOST_SIDE; }

// A byte of the image at an index is outside memory. No sum wraps: a start is at most the address, and then their distance counts.
static bool is_outside(const struct view *view, uint64_t bytes) {
    if (view->address < view->start) return true;
    const uint64_t first = view->address - view->start;
    return first > view->length || view->length - first < bytes;
}

// The answer, and what the front of the output becomes
static uint64_t answer_due(const struct view *view, size_t out_length) {
    if (!is_side(view->width) || !is_side(view->height) || view->size < 1 || view->size > 3) return 27ull << 56;
    const uint64_t pixels = (uint64_t)view->width * view->height, step = 1u << (view->size - 1);
    if (is_outside(view, pixels * step)) return 12ull << 56;
    if (out_length < 4 * pixels) return 14ull << 56 | 4 * pixels;
    for (uint64_t i = 0; i < pixels; i++) pixel(view->memory + (view->address - view->start) + i * step, view->size, due_bytes + 4 * i);
    return 4 * pixels;
}

// A width or height: most often small, sometimes at a limit, or any
static uint32_t chosen_side(uint8_t way, uint32_t number) {
    static const uint32_t limits[] = {0, 1, 1023, 1024, 1025, 65536, UINT32_MAX};
    if (way % 8 == 6) return limits[number % (sizeof limits / sizeof *limits)];
    if (way % 8 == 7) return number;
    return way % 8 == 5 ? number % 1030 : 1 + number % 40;
}

// Where memory starts, and the image: at its start or inside, at its end or beyond, and near the last address
static void choose_place(const struct input *in, struct view *view, uint64_t bytes) {
    const uint64_t near = in->start % 64;
    view->start = in->choice & 2 ? in->start : in->choice & 4 ? UINT64_MAX - near : in->start % 4096;
    switch (in->choice / 8 % 8) {
    case 0: view->address = in->start; break;
    case 1: view->address = view->start - 1; break;
    case 2: view->address = view->start + (view->length > bytes ? view->length - bytes : 0); break;
    case 3: view->address = view->start + (view->length > bytes ? view->length - bytes : 0) + 1; break;
    case 4: view->address = UINT64_MAX - in->number % 64; break;
    case 5: view->address = view->start; break;
    default: view->address = view->start + near;
    }
}

int LLVMFuzzerTestOneInput(const uint8_t *data, size_t size) {
    const struct input *in = read_input(data, size);
    null_if_empty = in->choice & 1;
    struct view view = {.memory = in->list, .length = in->length};
    view.width = chosen_side(in->spare[0], in->number);
    view.height = chosen_side(in->spare[1], in->number >> 7 | in->number << 25);
    view.size = in->spare[2] % 16 == 15 ? in->number : in->spare[2] % 16 == 14 ? in->spare[2] / 16 : 1 + in->spare[2] % 3;
    const uint64_t pixels = (uint64_t)view.width * view.height;
    choose_place(in, &view, view.size >= 1 && view.size <= 3 ? pixels << (view.size - 1) : pixels);
    const size_t out_length = chosen_length(in, 0, pixels < ROOM / 4 ? 4 * pixels : ROOM, ROOM);

    const uint64_t due = answer_due(&view, out_length);
    const size_t written = number_of(due) ? 0 : place_of(due);
    for (int p = HEAP; p < PLACES; p++) {
        for (size_t i = 0; i < out_length; i++) before[i] = (uint8_t)(in->number * (i + 1) >> 3) ^ (p % 2 ? 0xFF : 0);
        DEMAND(view_at(p, &view, out_length) == due);
        DEMAND(same(after, due_bytes, written) && same(after + written, before + written, out_length - written));
    }
    count_answer(number_of(due));
    note(0, number_of(due) * 4 + (view.size <= 3 ? view.size : 0));
    note(1, (unsigned)(64 - __builtin_clzll(place_of(due) + 1ull)));
    return 0;
}
