/*
 * Measures the stack that the functions of include/lanyardrove.h use, which promises less than 8 KiB: each is called on a stack
 * of its own that was painted before, with the longest lists and on its deep ways. What the test itself uses there is counted too.
 * It compiles as C11 and as C++17, prints the bytes of each function, and its exit status says whether the promise holds.
 */
#include "own_stack.h"

#include "lanyardrove.h"

#include <stdio.h>
#include <string.h>

static unsigned wrong;

/* An answer has this number: so the call went the way that is meant. */
static void answers(uint64_t answer, uint32_t number) { wrong += lanyardrove_number(answer) != number; }

/* ---- Lists. */

#define SETUP 0x2F30000000000000u, 0x3F10007F00000000u, 0x2D00000000200100u /* FILL mode, 16 bits and width 128, 128 by 64 pixels */
#define FILL 0x361FC0FC00000000u     /* all of them */
#define FILL_PART 0x361000FC00020000u
#define LOAD_BLOCK 0x3300000000007800u /* eight texels, two lines */
#define LOAD_TILE 0x340000000000C004u  /* the same */
#define SET_TILE 0x3510020000000000u   /* 16-bit RGBA, a word a line */
#define COLOR 0x37000000F801003Fu
#define SYNC_LOAD 0x2600000000000000u
#define SYNC_TILE 0x2800000000000000u
#define COUNT(array) (sizeof(array) / sizeof *(array))

typedef struct {
    uint8_t bytes[32768];
    size_t length;
} List;

static void add(List *list, uint64_t word) {
    int i;
    for (i = 0; i < 8; i++) list->bytes[list->length++] = (uint8_t)(word >> (56 - 8 * i));
}

/* The words at the front, and then others again and again, as often as they fit wholly. */
static void fill_list(List *list, size_t most, const uint64_t *front, size_t n, const uint64_t *again, size_t m) {
    size_t i;
    list->length = 0;
    for (i = 0; i < n; i++) add(list, front[i]);
    while (list->length + 8 * m <= most)
        for (i = 0; i < m; i++) add(list, again[i]);
}

static List synced, bare, triangles, picture, every, other, display;
static struct lanyardrove_stream whole, cut;
static uint8_t out[32768], work[32768], memory[65536], texture[LANYARDROVE_TEXTURE_BYTES];
static uint32_t entries[LANYARDROVE_INDEX_NUMBERS];

static void make_lists(void) {
    static const uint64_t setup[] = {SETUP}, step[] = {FILL, SYNC_LOAD, LOAD_TILE, SYNC_TILE, SET_TILE}, missing[] = {FILL, LOAD_TILE};
    static const uint64_t triangle[22] = {0x0F00000000000000u};
    static const uint64_t drawn[] = {SETUP, COLOR, FILL, FILL_PART, 0x3F08007F00000000u, FILL, FILL_PART, 0x3F18007F00000000u, FILL, FILL_PART,
                                     0x3F10007F00000000u, 0x3D10000300000040u, SET_TILE, LOAD_TILE, LOAD_BLOCK, LOAD_TILE, 0x2F20000000000000u,
                                     0x2401000800004004u, 0x0000000010000400u};
    /* list k calls the next, draws a texture rectangle and changes the modes; the ninth calls none */
    static const uint64_t called[] = {0xE412345678ABCDEFu, 0xE100000000100020u, 0xF100000004000400u, 0xE200001C00504240u, 0xDF00000000000000u};
    uint64_t number, words, k;
    fill_list(&synced, sizeof synced.bytes, setup, COUNT(setup), step, COUNT(step));
    fill_list(&bare, 16384, setup, COUNT(setup), missing, COUNT(missing));
    fill_list(&triangles, sizeof triangles.bytes, setup, COUNT(setup), triangle, COUNT(triangle));
    answers(lanyardrove_stream_feed(&whole, triangles.bytes, triangles.length), 0);
    answers(lanyardrove_stream_feed(&cut, triangles.bytes, triangles.length - 8), 0);
    fill_list(&picture, 0, drawn, COUNT(drawn), NULL, 1);
    picture.length = 8 * lanyardrove_place(lanyardrove_repair(picture.bytes, picture.length, work, sizeof work, out, sizeof out));
    memcpy(picture.bytes, out, picture.length);
    for (number = 0; number < 64; number++) /* every command twice, with other bits in all its fields */
        for (words = lanyardrove_words(number << 56), k = 0; k < words; k++) {
            const uint64_t head = k == 0 ? (uint64_t)0xFF << 56 : 0, bits = 0xAAAAAAAAAAAAAAAAu;
            add(&every, (number << 56 & head) | (bits & ~head));
            add(&other, (number << 56 & head) | (bits >> 1 & ~head));
        }
    for (k = 0; k < 9; k++) {
        add(&display, k < 8 ? 0xDE00000000000000u | 48 * (k + 1) : 0xE700000000000000u);
        for (words = 0; words < COUNT(called); words++) add(&display, called[words]);
    }
}

/* ---- The calls. */

static void no_call(void) {}
static void version(void) { wrong += lanyardrove_version() != LANYARDROVE_VERSION; }
static void words(void) { wrong += lanyardrove_words(0x0F00000000000000u) != LANYARDROVE_MOST_WORDS; }
static void step(void) { answers(lanyardrove_step(5, LANYARDROVE_LOAD_BLOCK), 0); }

static void check(void) {
    answers(lanyardrove_check(synced.bytes, synced.length), 0);
    answers(lanyardrove_check(triangles.bytes, triangles.length), 0);
    answers(lanyardrove_check(bare.bytes, bare.length), 7);
    answers(lanyardrove_check(every.bytes, every.length), 19);
}

/* A list in portions of this many bytes, and the number of its last answer. */
static void portions(const List *list, size_t most, uint32_t number) {
    static struct lanyardrove_stream record;
    size_t at, n;
    memset(&record, 0, sizeof record);
    for (at = 0; at < list->length; at += n) {
        n = list->length - at < most ? list->length - at : most;
        if (lanyardrove_number(lanyardrove_stream_feed(&record, list->bytes + at, n)) != 0) break;
    }
    answers(lanyardrove_stream_feed(&record, NULL, 0), number);
    record.opaque[0] = record.opaque[1] = record.opaque[56] = ~(uint64_t)0;
    answers(lanyardrove_stream_feed(&record, NULL, 0), LANYARDROVE_RECORD_DAMAGED);
}

static void stream_feed(void) {
    static const size_t bytes[] = {1, 7, 8, 175, 176, 1000, 32768};
    size_t i;
    for (i = 0; i < COUNT(bytes); i++) {
        portions(&synced, bytes[i], 0);
        portions(&triangles, bytes[i], 0);
        portions(&bare, bytes[i], 7);
        portions(&every, bytes[i], 19);
    }
}

static void stream_close(void) {
    answers(lanyardrove_stream_close(&whole), 0);
    answers(lanyardrove_stream_close(&cut), 3);
}

static void index_build(void) {
    answers(lanyardrove_index_build(triangles.bytes, triangles.length, entries, COUNT(entries)), 0);
    answers(lanyardrove_index_build(synced.bytes, synced.length, entries, COUNT(entries)), 0);
}
static void index_ask(void) {
    answers(lanyardrove_index_ask(synced.bytes, synced.length, entries, COUNT(entries), 4031), 0);
    answers(lanyardrove_index_ask(synced.bytes, synced.length, entries, COUNT(entries), 4095), 24);
}
static void index_replace(void) {
    answers(lanyardrove_index_replace(synced.bytes, synced.length, entries, COUNT(entries), 3, synced.bytes + 24, 8), 0);
    answers(lanyardrove_index_replace(synced.bytes, synced.length, entries, COUNT(entries), 4000, triangles.bytes + 24, 176), 25);
}

static void repair(void) {
    answers(lanyardrove_repair(bare.bytes, bare.length, work, sizeof work, out, sizeof out), 0);
    answers(lanyardrove_repair(bare.bytes, bare.length, work, sizeof work, out, 8), 14);
}
static void repair_afresh(void) {
    answers(lanyardrove_repair_afresh(bare.bytes, bare.length, work, sizeof work, out, sizeof out), 0);
    answers(lanyardrove_repair_afresh(picture.bytes, picture.length, work, sizeof work, out, sizeof out), 0);
}

static void draw(void) {
    answers(lanyardrove_draw(picture.bytes, picture.length, memory, sizeof memory, 0, texture, sizeof texture), 0);
    answers(lanyardrove_draw(synced.bytes, 8 * 4, memory, sizeof memory, 0, texture, sizeof texture), 0);
    answers(lanyardrove_draw(picture.bytes, picture.length, memory, 100, 0, texture, sizeof texture), 12);
}

static void view(void) {
    uint32_t size;
    for (size = 1; size <= 3; size++) answers(lanyardrove_view(memory, sizeof memory, 0, 0, 128, 64, size, out, sizeof out), 0);
}

static void compare(void) {
    static uint32_t differences[4 * 64];
    answers(lanyardrove_compare(every.bytes, every.length, other.bytes, other.length, differences, COUNT(differences)), 0);
    answers(lanyardrove_compare(every.bytes, every.length, other.bytes, other.length, NULL, 0), 14);
}
static void rest(void) { answers(lanyardrove_rest(every.bytes, every.length, other.bytes, other.length, 256), 0); }

static void translate(void) {
    answers(lanyardrove_translate(display.bytes, display.length, 0, out, sizeof out), 0);
    answers(lanyardrove_translate(display.bytes, display.length, 0, out, 8), 14);
}

/* Each command is decoded, and then encoded or not. */
static void every_command(int encoded) {
    static uint64_t fields[LANYARDROVE_MOST_FIELDS];
    size_t at, suffix, length;
    for (at = 0; at < every.length; at += length) {
        const uint64_t number = every.bytes[at] & 63, decoded = lanyardrove_decode(every.bytes + at, every.length - at, fields, COUNT(fields));
        length = 8 * lanyardrove_words(number << 56);
        suffix = number >= 8 && number < 16 ? length - 32 : 0; /* a triangle's words after its first four */
        answers(decoded, 0);
        if (encoded)
            answers(lanyardrove_encode((uint32_t)number, fields, lanyardrove_place(decoded), every.bytes + at + length - suffix, suffix, out, sizeof out), 0);
    }
}
static void decode(void) { every_command(0); }
static void encode(void) { every_command(1); }

static const struct {
    const char *name;
    void (*call)(void);
} CALLS[] = {{"no call", no_call}, {"version", version}, {"words", words}, {"step", step}, {"check", check}, {"stream_feed", stream_feed},
             {"stream_close", stream_close}, {"index_build", index_build}, {"index_ask", index_ask}, {"index_replace", index_replace},
             {"repair", repair}, {"repair_afresh", repair_afresh}, {"draw", draw}, {"view", view}, {"compare", compare}, {"rest", rest},
             {"translate", translate}, {"decode", decode}, {"encode", encode}};

int main(void) {
    size_t i, most = 0;
    make_lists();
    for (i = 0; i < COUNT(CALLS); i++) {
        const size_t bytes = touched_by(CALLS[i].call);
        most = bytes > most ? bytes : most;
        printf("%s%s %u", i ? ", " : "stack in bytes: ", CALLS[i].name, (unsigned)bytes);
    }
    printf("\nat most %u of %u bytes of stack; %u answers are wrong\n", (unsigned)most, PROMISED, wrong);
    return most >= PROMISED || wrong > 0;
}
