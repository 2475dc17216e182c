/*
 * The stack of the first call of a process, where the dynamic linker looks up `memcpy` at the call's deepest place: some 3 KiB more than test_stack.c sees,
 * whose lists have had every name looked up before. A fill of rows that are many bytes long is drawn on a stack of its own that was painted before.
 * It compiles as C11 and as C++17, prints the bytes, and its exit status says whether the promise of include/lanyardrove.h holds, less than 8 KiB.
 */
#include "own_stack.h"

#include "lanyardrove.h"

#include <stdio.h>

static uint64_t answer;

static uint8_t memory[512 * 1024], texture[LANYARDROVE_TEXTURE_BYTES];

/* FILL mode, 16 bits and width 512, a scissor of 4,095 quarter pixels each way, a colour, and a rectangle of 512 by 512 pixels. */
static const uint8_t list[] = {
    0x2F, 0x30, 0, 0, 0, 0, 0, 0, 0x3F, 0x10, 0x01, 0xFF, 0, 0, 0, 0, 0x2D, 0, 0, 0, 0, 0xFF, 0xFF, 0xFF,
    0x37, 0, 0, 0, 0xF8, 0x01, 0, 0x3F, 0x36, 0x7F, 0xC7, 0xFC, 0, 0, 0, 0,
};

static void draw(void) { answer = lanyardrove_draw(list, sizeof list, memory, sizeof memory, 0, texture, sizeof texture); }

int main(void) {
    const size_t first = touched_by(draw), second = touched_by(draw);
    const int is_drawn = answer == sizeof list / 8 && memory[sizeof memory - 1] == 0x3F;
    printf("stack in bytes: the first draw of a process %u, the second %u, of %u; it is %s\n", (unsigned)first, (unsigned)second, PROMISED,
           is_drawn ? "drawn" : "not drawn");
    return first >= PROMISED || !is_drawn;
}
