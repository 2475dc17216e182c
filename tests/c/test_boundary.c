/*
 * Calls every function of include/lanyardrove.h through the archive: empty, short, cut and longest lists, null pointers where
 * a length is 0, document 01's examples, guard bytes around every buffer, every command number there and back, its length,
 * its step from each of the sixteen hazards, every unassigned number, lists in portions with the cycles that their syncs wait,
 * textures that are loaded and copied, lists whose syncs are chosen afresh, two lists compared, an index asked at every place and
 * kept up by replacements, images viewed, and display lists translated.
 * It compiles as C11 and as C++17. The last line counts the checks; the exit status says whether all passed.
 */
#include "lanyardrove.h"

#include <stdio.h>
#include <stdlib.h>
#include <string.h>

static unsigned long checks, failures;

static void expect(int holds, const char *what, int line) {
    checks++;
    if (!holds) {
        failures++;
        printf("line %d: %s\n", line, what);
    }
}
#define CHECK(holds) expect((holds) != 0, #holds, __LINE__)

/* An answer has this number, third number and place, and no bit besides. */
static void expect_answer(uint64_t answer, unsigned number, unsigned third, unsigned place, int line) {
    checks++;
    if (lanyardrove_number(answer) != number || lanyardrove_third(answer) != third || lanyardrove_place(answer) != place) {
        failures++;
        printf("line %d: answer %u, %u at %u instead of %u, %u at %u\n", line, (unsigned)lanyardrove_number(answer),
               (unsigned)lanyardrove_third(answer), (unsigned)lanyardrove_place(answer), number, third, place);
    }
}
#define ANSWERS(answer, number, third, place) expect_answer((answer), (number), (third), (place), __LINE__)

/* ---- Buffers: bytes with guards on both sides, all 0xA5 before a call. */

#define GUARD 64
#define ROOM 40000
#define OLD 0xA5

typedef struct {
    uint8_t all[GUARD + ROOM + GUARD];
    uint8_t *bytes;
} Buffer;

static Buffer a_list, a_work, an_out, a_texture;

static uint8_t *fresh(Buffer *b) {
    memset(b->all, OLD, sizeof b->all);
    b->bytes = b->all + GUARD;
    return b->bytes;
}

static int all_are(const uint8_t *bytes, size_t n, uint8_t value) {
    size_t i;
    for (i = 0; i < n; i++)
        if (bytes[i] != value) return 0;
    return 1;
}

/* Nothing is written from a byte on, nor before the buffer. */
static int untouched_from(const Buffer *b, size_t from) {
    return all_are(b->all, GUARD, OLD) && all_are(b->bytes + from, ROOM - from + GUARD, OLD);
}

/* ---- Words. */

static void put(uint8_t *bytes, uint64_t w) {
    int i;
    for (i = 0; i < 8; i++) bytes[i] = (uint8_t)(w >> (56 - 8 * i));
}

static uint64_t get(const uint8_t *bytes) {
    uint64_t w = 0;
    int i;
    for (i = 0; i < 8; i++) w = w << 8 | bytes[i];
    return w;
}

/* The list a_list with these words; its length in bytes. */
static size_t list_of(const uint64_t *words, size_t n) {
    size_t i;
    fresh(&a_list);
    for (i = 0; i < n; i++) put(a_list.bytes + 8 * i, words[i]);
    return 8 * n;
}
#define LIST(words) list_of((words), sizeof(words) / 8)

/* Whether a buffer begins with these words. */
static int begins(const uint8_t *bytes, const uint64_t *words, size_t n) {
    size_t i;
    for (i = 0; i < n; i++)
        if (get(bytes + 8 * i) != words[i]) return 0;
    return 1;
}

static uint64_t random_word(void) {
    static uint64_t x = 0x9E3779B97F4A7C15u;
    x ^= x << 13;
    x ^= x >> 7;
    x ^= x << 17;
    return x * 0x2545F4914F6CDD1Du;
}

/* Draws a_list on an_out, with all of texture memory. */
static uint64_t draw(size_t length, size_t memory, uint64_t start) {
    return lanyardrove_draw(a_list.bytes, length, an_out.bytes, memory, start, a_texture.bytes, LANYARDROVE_TEXTURE_BYTES);
}

/* ---- Document 01's words. */

#define S1 0x2F30000000000000u
#define S2 0x3F10000700000000u
#define S3 0x2D00000000020010u
#define S S1, S2, S3
#define R 0x3600800800004004u
#define N 0x0000000000000000u
#define C 0x37000000F801003Fu
#define L 0x3400000000000000u
#define TLUT 0x3000000000000000u
#define BLOCK 0x3300000000000000u
#define SET_TILE 0x3500000000000000u
#define TEXTURED 0x2400000000000000u /* the first word of a texture rectangle */
#define LOAD 0x2600000000000000u
#define PIPE 0x2700000000000000u
#define TILE 0x2800000000000000u
#define FULL 0x2900000000000000u

static void parts(void) {
    uint64_t answer = (uint64_t)9 << 56 | (uint64_t)0x0186A1 << 32 | 4;
    CHECK(lanyardrove_version() == LANYARDROVE_VERSION);
    CHECK(lanyardrove_number(answer) == LANYARDROVE_SYNC_PIPE_MISSING);
    CHECK(lanyardrove_third(answer) == 100001);
    CHECK(lanyardrove_cause(answer) == 100001);
    CHECK(lanyardrove_cycles(answer) == 100001);
    CHECK(lanyardrove_command(answer) == 100001);
    CHECK(lanyardrove_commands_read(answer) == 100001);
    CHECK(lanyardrove_list(answer) == 100001);
    CHECK(lanyardrove_place(answer) == 4);
    answer = ~(uint64_t)0;
    CHECK(lanyardrove_number(answer) == 0xFF && lanyardrove_third(answer) == 0xFFFFFF && lanyardrove_place(answer) == 0xFFFFFFFFu);
    answer = (uint64_t)6 << 32 | 13;
    CHECK(lanyardrove_hazards(answer) == 13 && lanyardrove_required(answer) == 2);
    answer = (uint64_t)(11 + 16 * 64) << 32 | 13;
    CHECK(lanyardrove_hazards_before(answer) == 11 && lanyardrove_index_read(answer) == 64);
}

/* A null pointer, for each pointer of each function, where its length is 0. */
static void null_pointers(void) {
    const uint64_t one[] = {N};
    uint64_t field = 7;
    size_t n;
    ANSWERS(lanyardrove_check(NULL, 0), 0, 0, 0);
    ANSWERS(lanyardrove_repair(NULL, 0, NULL, 0, NULL, 0), 0, 0, 0);
    ANSWERS(lanyardrove_repair_afresh(NULL, 0, NULL, 0, NULL, 0), 0, 0, 0);
    fresh(&a_texture);
    ANSWERS(lanyardrove_draw(NULL, 0, NULL, 0, 0, NULL, 0), 16, 0, 0);
    ANSWERS(lanyardrove_draw(NULL, 0, NULL, 0, 0, a_texture.bytes, LANYARDROVE_TEXTURE_BYTES), 0, 0, 0);
    ANSWERS(lanyardrove_draw(NULL, 0, NULL, 0, UINT64_MAX, a_texture.bytes, LANYARDROVE_TEXTURE_BYTES), 0, 0, 0);
    ANSWERS(lanyardrove_index_build(NULL, 0, NULL, 0), 0, 0, 0);
    ANSWERS(lanyardrove_index_ask(NULL, 0, NULL, 0, 0), 26, 0, 0);
    ANSWERS(lanyardrove_index_ask(NULL, 0, NULL, 0, UINT32_MAX), 26, 0, UINT32_MAX);
    ANSWERS(lanyardrove_index_replace(NULL, 0, NULL, 0, 7, NULL, 0), 26, 0, 7);
    ANSWERS(lanyardrove_view(NULL, 0, 0, 0, 0, 0, 0, NULL, 0), 27, 0, 0);
    ANSWERS(lanyardrove_view(NULL, 0, 0, 0, 1, 1, 1, NULL, 0), 12, 0, 0);
    ANSWERS(lanyardrove_view(NULL, 0, UINT64_MAX, UINT64_MAX, 1, 1, 1, NULL, 0), 12, 0, 0);
    ANSWERS(lanyardrove_translate(NULL, 0, 0, NULL, 0), 20, 0, 0);
    ANSWERS(lanyardrove_translate(NULL, 0, UINT32_MAX, NULL, 0), 20, 0, UINT32_MAX);
    ANSWERS(lanyardrove_decode(NULL, 0, NULL, 0), 3, 0, 0);
    ANSWERS(lanyardrove_encode(0, NULL, 0, NULL, 0, NULL, 0), 14, 0, 1);
    ANSWERS(lanyardrove_encode(64, NULL, 0, NULL, 0, NULL, 0), 15, 0, 0);

    fresh(&a_work);
    fresh(&an_out);
    ANSWERS(lanyardrove_repair(NULL, 0, a_work.bytes, 32, an_out.bytes, 32), 0, 0, 0);
    ANSWERS(lanyardrove_draw(NULL, 0, an_out.bytes, 32, 0, a_texture.bytes, LANYARDROVE_TEXTURE_BYTES), 0, 0, 0);
    ANSWERS(lanyardrove_view(NULL, 0, 0, 0, 1, 1, 1, an_out.bytes, 32), 12, 0, 0);
    ANSWERS(lanyardrove_view(a_work.bytes, 1, 0, 0, 1, 1, 1, NULL, 0), 14, 0, 4);
    ANSWERS(lanyardrove_translate(NULL, 0, 0, an_out.bytes, 32), 20, 0, 0);
    ANSWERS(lanyardrove_decode(NULL, 0, &field, 1), 3, 0, 0);
    ANSWERS(lanyardrove_encode(0, NULL, 0, NULL, 0, an_out.bytes, 7), 14, 0, 1);
    CHECK(untouched_from(&a_work, 0) && untouched_from(&an_out, 0) && field == 7);
    ANSWERS(lanyardrove_encode(0, NULL, 0, NULL, 0, an_out.bytes, 8), 0, 0, 1);
    CHECK(get(an_out.bytes) == N && untouched_from(&an_out, 8));

    n = LIST(one);
    ANSWERS(lanyardrove_draw(a_list.bytes, n, NULL, 0, 0, a_texture.bytes, LANYARDROVE_TEXTURE_BYTES), 0, 0, 1);
    CHECK(untouched_from(&a_texture, 0));
    ANSWERS(lanyardrove_decode(a_list.bytes, n, NULL, 0), 0, 0, 0);
    ANSWERS(lanyardrove_repair(a_list.bytes, n, NULL, 0, NULL, 0), 13, 0, 1);
    ANSWERS(lanyardrove_repair(a_list.bytes, n, NULL, 0, an_out.bytes, 8), 13, 0, 1);
    ANSWERS(lanyardrove_repair(a_list.bytes, n, a_work.bytes, 16, NULL, 0), 14, 0, 1);
    ANSWERS(lanyardrove_repair_afresh(a_list.bytes, n, NULL, 0, NULL, 0), 13, 0, 1);
    ANSWERS(lanyardrove_repair_afresh(a_list.bytes, n, a_work.bytes, 16, NULL, 0), 14, 0, 1);
    CHECK(all_are(a_work.bytes, 16, 0) && untouched_from(&a_work, 16));

    /* fields of a Set Fill Color, with nothing else */
    field = 0xF801003F;
    ANSWERS(lanyardrove_encode(LANYARDROVE_SET_FILL_COLOR, &field, 1, NULL, 0, NULL, 0), 14, 0, 1);
    ANSWERS(lanyardrove_encode(LANYARDROVE_SET_FILL_COLOR, NULL, 0, NULL, 0, NULL, 0), 15, 0, 0);
    ANSWERS(lanyardrove_encode(0, NULL, 0, an_out.bytes, 8, NULL, 0), 15, 0, 0);
}

/* ---- The check: examples A to H, cut lists, the longest. The third number is the list's whole words, and at 7 to 9 the cause. */

static void check_lists(void) {
    const uint64_t c1[] = {0x2400000000000000u};
    const uint64_t f[] = {FULL, N};
    const uint64_t g[] = {S, R, C};
    const uint64_t h_tile[] = {S, R, TILE, C};
    const uint64_t h_pipe[] = {S, R, PIPE, C};
    size_t i;

    fresh(&a_list);
    ANSWERS(lanyardrove_check(a_list.bytes, 0), 0, 0, 0); /* A */
    memset(a_list.bytes, 0, 8);
    ANSWERS(lanyardrove_check(a_list.bytes, 7), 2, 0, 0); /* B */
    ANSWERS(lanyardrove_check(a_list.bytes, 8), 0, 1, 1);
    ANSWERS(lanyardrove_check(a_list.bytes, LIST(c1)), 3, 1, 0);
    fresh(&a_list);
    memset(a_list.bytes, 0, 22 * 8);
    put(a_list.bytes, 0x0F00000000000000u);
    ANSWERS(lanyardrove_check(a_list.bytes, 21 * 8), 3, 21, 0); /* D */
    ANSWERS(lanyardrove_check(a_list.bytes, 22 * 8), 5, 22, 0); /* E */
    for (i = 0; i < 22; i++) ANSWERS(lanyardrove_check(a_list.bytes, 8 * i), i ? 3 : 0, (unsigned)i, 0);
    for (i = 0; i < 22 * 8; i++)
        if (i % 8) ANSWERS(lanyardrove_check(a_list.bytes, i), 2, (unsigned)(i / 8), (unsigned)(i / 8));
    ANSWERS(lanyardrove_check(a_list.bytes, LIST(f)), 4, 2, 1);
    ANSWERS(lanyardrove_check(a_list.bytes, LIST(g)), 9, 3, 4);
    ANSWERS(lanyardrove_check(a_list.bytes, LIST(h_tile)), 9, 3, 5);
    ANSWERS(lanyardrove_check(a_list.bytes, LIST(h_pipe)), 0, 6, 6);
    CHECK(begins(a_list.bytes, h_pipe, 6) && untouched_from(&a_list, 48));

    fresh(&a_list);
    memset(a_list.bytes, 0, 32784);
    ANSWERS(lanyardrove_check(a_list.bytes, 32760), 0, 4095, 4095);
    ANSWERS(lanyardrove_check(a_list.bytes, 32767), 2, 4095, 4095);
    ANSWERS(lanyardrove_check(a_list.bytes, 32768), 0, 4096, 4096);
    ANSWERS(lanyardrove_check(a_list.bytes, 32769), 1, 4096, 4096);
    ANSWERS(lanyardrove_check(a_list.bytes, 32776), 1, 4097, 4096);
    CHECK(all_are(a_list.bytes, 32784, 0) && untouched_from(&a_list, 32784));
}

/* The cause of a missing sync: the latest command that set the hazard, and none that only looks like one. */
static void check_causes(void) {
    const uint64_t i[] = {S, C, R}, j[] = {S, R, L, C}, k[] = {S, R, L, R}, m[] = {S, R, N, C};
    const uint64_t four_bits[] = {S1, 0x3F00000700000000u, S3, R, N};
    const uint64_t latest_load[] = {S, L, TLUT, N, R};            /* a draw waits for the latest load and not the first, */
    const uint64_t latest_draw[] = {S, R, R, N, L};               /* a load for the latest draw, */
    const uint64_t after_load[] = {S, L, LOAD, R, L};             /* and not for a load, */
    const uint64_t textured[] = {S, TEXTURED, 0, R, SET_TILE};    /* a Set Tile for a textured draw, though another came later, */
    const uint64_t load_last[] = {S, TEXTURED, 0, LOAD, BLOCK, LOAD, SET_TILE}; /* or for a load, the later of the two, */
    const uint64_t load_alone[] = {BLOCK, SET_TILE}, load_synced[] = {BLOCK, LOAD, SET_TILE}, load_waits[] = {BLOCK, TILE, SET_TILE};
    const uint64_t attribute[] = {S, TEXTURED, 0, R, C};          /* an attribute for any draw; */
    const uint64_t short_sync[] = {S, R, PIPE, R, TILE, LOAD, C}; /* and syncs may stand between that do not serve */
    static uint64_t words[4096];
    size_t n;

    ANSWERS(lanyardrove_check(a_list.bytes, LIST(i)), 0, 5, 5);
    ANSWERS(lanyardrove_check(a_list.bytes, LIST(j)), 7, 3, 4);
    ANSWERS(lanyardrove_check(a_list.bytes, LIST(k)), 7, 3, 4);
    ANSWERS(lanyardrove_check(a_list.bytes, LIST(m)), 9, 3, 5);
    ANSWERS(lanyardrove_check(a_list.bytes, LIST(four_bits)), 6, 5, 3);
    ANSWERS(lanyardrove_check(a_list.bytes, LIST(latest_load)), 7, 4, 6);
    ANSWERS(lanyardrove_check(a_list.bytes, LIST(latest_draw)), 7, 4, 6);
    ANSWERS(lanyardrove_check(a_list.bytes, LIST(after_load)), 7, 5, 6);
    ANSWERS(lanyardrove_check(a_list.bytes, LIST(textured)), 8, 3, 6);
    ANSWERS(lanyardrove_check(a_list.bytes, LIST(load_last)), 8, 6, 8);
    ANSWERS(lanyardrove_check(a_list.bytes, LIST(load_alone)), 8, 0, 1);
    ANSWERS(lanyardrove_check(a_list.bytes, LIST(load_synced)), 8, 0, 2);
    ANSWERS(lanyardrove_check(a_list.bytes, LIST(load_waits)), 0, 3, 3);
    ANSWERS(lanyardrove_check(a_list.bytes, LIST(attribute)), 9, 5, 6);
    ANSWERS(lanyardrove_check(a_list.bytes, LIST(short_sync)), 9, 5, 8);

    /* a triangle of 22 words: those after its first are no draws, whatever they hold */
    words[0] = S1;
    words[1] = S2;
    words[2] = S3;
    words[3] = 0x0F00000000000000u;
    for (n = 4; n < 25; n++) words[n] = R;
    words[n++] = C;
    words[n++] = R;
    ANSWERS(lanyardrove_check(a_list.bytes, list_of(words, n)), 9, 3, 25);
    words[25] = SET_TILE;
    ANSWERS(lanyardrove_check(a_list.bytes, list_of(words, n)), 8, 3, 25);
    /* the whole list between the two */
    for (n = 25; n < 4095; n++) words[n] = N;
    words[n++] = C;
    ANSWERS(lanyardrove_check(a_list.bytes, list_of(words, n)), 9, 3, 4095);
    CHECK(begins(a_list.bytes, words, n) && untouched_from(&a_list, 8 * n));
}

/* A list of 128 MiB has more whole words than 24 bits hold. It is refused by its length, so its pages are never touched. */
static void check_most_words(void) {
    const size_t most = (size_t)1 << 27;
    uint8_t *list = (uint8_t *)calloc(most + 8, 1);
    CHECK(list != NULL);
    if (list == NULL) return;
    ANSWERS(lanyardrove_check(list, most - 16), 1, 16777214, 4096);
    ANSWERS(lanyardrove_check(list, most - 8), 1, 16777215, 4096);
    ANSWERS(lanyardrove_check(list, most - 1), 1, 16777215, 4096);
    ANSWERS(lanyardrove_check(list, most), 1, 16777215, 4096);
    ANSWERS(lanyardrove_check(list, most + 8), 1, 16777215, 4096);
    free(list);
}

/* ---- The repair: examples J, K and M, refusals, the longest; and the second repair, which forgets the syncs of a list. */

typedef uint64_t (*repair_function)(const uint8_t *list, size_t list_length, uint8_t *work, size_t work_length, uint8_t *out, size_t out_length);

/* A list in, a list out, with exactly the room needed; and the refusals where there is a byte less. */
static void repairs(repair_function repair, const uint64_t *words, size_t n, unsigned commands, const uint64_t *repaired, size_t m, unsigned cycles, int line) {
    size_t length = list_of(words, n);
    fresh(&a_work);
    fresh(&an_out);
    expect_answer(repair(a_list.bytes, length, a_work.bytes, 16 * commands - 1, an_out.bytes, 8 * m), 13, 0, commands, line);
    expect(untouched_from(&a_work, 0) && untouched_from(&an_out, 0), "13 leaves all bytes", line);
    expect_answer(repair(a_list.bytes, length, a_work.bytes, 16 * commands, an_out.bytes, 8 * m - 1), 14, 0, (unsigned)m, line);
    expect(all_are(a_work.bytes, 16 * commands, 0) && untouched_from(&a_work, 16 * commands), "14 zeroes the work buffer", line);
    expect(untouched_from(&an_out, 0), "14 leaves the output", line);
    fresh(&a_work);
    expect_answer(repair(a_list.bytes, length, a_work.bytes, 16 * commands, an_out.bytes, 8 * m), 0, cycles, (unsigned)m, line);
    expect(begins(an_out.bytes, repaired, m) && untouched_from(&an_out, 8 * m), "the repaired list, and nothing beyond", line);
    expect(all_are(a_work.bytes, 16 * commands, 0) && untouched_from(&a_work, 16 * commands), "0 zeroes the work buffer", line);
    expect(begins(a_list.bytes, words, n) && untouched_from(&a_list, length), "the given list stays", line);
    expect_answer(lanyardrove_check(an_out.bytes, 8 * m), 0, (unsigned)m, (unsigned)m, line);
    /* room to spare changes nothing */
    fresh(&a_work);
    fresh(&an_out);
    expect_answer(repair(a_list.bytes, length, a_work.bytes, ROOM, an_out.bytes, ROOM), 0, cycles, (unsigned)m, line);
    expect(begins(an_out.bytes, repaired, m) && untouched_from(&an_out, 8 * m), "the repaired list, with room to spare", line);
    expect(all_are(a_work.bytes, 16 * commands, 0) && untouched_from(&a_work, 16 * commands), "the work buffer, with room to spare", line);
}
#define REPAIRS(words, commands, repaired, cycles) \
    repairs(lanyardrove_repair, (words), sizeof(words) / 8, (commands), (repaired), sizeof(repaired) / 8, (cycles), __LINE__)
#define REPAIRS_AFRESH(words, commands, repaired, cycles) \
    repairs(lanyardrove_repair_afresh, (words), sizeof(words) / 8, (commands), (repaired), sizeof(repaired) / 8, (cycles), __LINE__)

/* Both repairs refuse the list as it is given. */
static void repair_refuses(size_t length, unsigned number, unsigned place, int line) {
    fresh(&a_work);
    fresh(&an_out);
    expect_answer(lanyardrove_repair(a_list.bytes, length, a_work.bytes, ROOM, an_out.bytes, ROOM), number, 0, place, line);
    expect(untouched_from(&a_work, 0) && untouched_from(&an_out, 0), "a refusal leaves all bytes", line);
    expect_answer(lanyardrove_repair_afresh(a_list.bytes, length, a_work.bytes, ROOM, an_out.bytes, ROOM), number, 0, place, line);
    expect(untouched_from(&a_work, 0) && untouched_from(&an_out, 0), "a refusal of the second repair leaves all bytes", line);
}
#define REPAIR_REFUSES(length, number, place) repair_refuses((length), (number), (place), __LINE__)

static void repair_lists(void) {
    const uint64_t j[] = {S, R, L, C}, j_repaired[] = {S, R, PIPE, L, C};
    const uint64_t k[] = {S, R, L, R}, k_repaired[] = {S, R, LOAD, L, LOAD, R};
    const uint64_t m[] = {S, R, N, C}, m_repaired[] = {S, R, N, PIPE, C};
    const uint64_t h[] = {S, R, PIPE, C};
    const uint64_t block[] = {BLOCK, SET_TILE}, block_repaired[] = {BLOCK, TILE, SET_TILE};
    const uint64_t tiles[] = {L, SET_TILE, L, SET_TILE}, tiles_repaired[] = {L, TILE, SET_TILE, L, TILE, SET_TILE};
    const uint64_t cut[] = {S, 0x2400000000000000u};
    const uint64_t full[] = {FULL, N};
    const uint64_t bare[] = {R};
    const uint64_t four_bits[] = {S1, 0x3F00000700000000u, S3, R};
    size_t i;

    REPAIRS(j, 6, j_repaired, 50);
    REPAIRS(k, 6, k_repaired, 50);
    REPAIRS(m, 6, m_repaired, 50);
    REPAIRS(h, 6, h, 0);
    REPAIRS(block, 2, block_repaired, 33); /* 2 * 2 - 1 words of 2 */
    REPAIRS(tiles, 4, tiles_repaired, 66);

    fresh(&a_list);
    memset(a_list.bytes, 0, 16400);
    REPAIR_REFUSES(16385, 1, 2048);
    REPAIR_REFUSES(16392, 1, 2048);
    REPAIR_REFUSES(16383, 2, 2047);
    REPAIR_REFUSES(7, 2, 0);
    REPAIR_REFUSES(LIST(cut), 3, 3);
    REPAIR_REFUSES(LIST(full), 4, 1);
    REPAIR_REFUSES(LIST(bare), 5, 0);
    REPAIR_REFUSES(LIST(four_bits), 6, 3);

    /* the longest list: nothing is missing */
    {
        static uint64_t longest[2048];
        REPAIRS(longest, 2048, longest, 0);
    }
    /* the longest list, with a sync before every command after the setup and a rectangle */
    {
        static uint64_t most[2048], repaired[4092];
        size_t n = 0;
        most[0] = S1;
        most[1] = S2;
        most[2] = S3;
        for (i = 3; i < 2048; i++) most[i] = i % 2 ? R : L;
        for (i = 0; i < 2048; i++) {
            if (i > 3) repaired[n++] = LOAD;
            repaired[n++] = most[i];
        }
        CHECK(n == 4092);
        REPAIRS(most, 2048, repaired, 2044 * 25);
    }
}

/* Request #109. */
static void repair_lists_afresh(void) {
    const uint64_t any = 0xC0FFFFFFFFFFFFFFu; /* bits that a sync may have besides its number */
    const uint64_t old[] = {S, PIPE | any, R, TILE | any, LOAD, FULL}, old_repaired[] = {S, R, FULL};
    const uint64_t twice[] = {S, R, PIPE, L, PIPE | any, C}, late[] = {S, R, L, PIPE, C}, moved[] = {S, R, PIPE, L, C};
    const uint64_t tile[] = {S, R, TILE, PIPE, PIPE, C}, h[] = {S, R, PIPE, C};
    const uint64_t block[] = {LOAD, BLOCK, PIPE, SET_TILE, TILE}, block_repaired[] = {BLOCK, TILE, SET_TILE};
    const uint64_t syncs[] = {LOAD, TILE | any, PIPE};
    const uint64_t full[] = {FULL, PIPE}, bare[] = {PIPE, R}, cut[] = {S, TILE, 0x2400000000000000u}, unassigned[] = {PIPE, 0x3100000000000000u};
    static uint64_t pipes[2048], most[2048], repaired[2048];
    size_t i, n = 0, length;

    REPAIRS_AFRESH(old, 8, old_repaired, 0);
    REPAIRS_AFRESH(twice, 8, moved, 50);
    REPAIRS_AFRESH(late, 7, moved, 50);
    REPAIRS_AFRESH(moved, 7, moved, 50); /* a second time changes nothing */
    REPAIRS_AFRESH(tile, 8, h, 50);
    REPAIRS_AFRESH(block, 5, block_repaired, 33);

    /* a list of syncs is written as nothing, and has commands all the same */
    length = LIST(syncs);
    fresh(&a_work);
    fresh(&an_out);
    ANSWERS(lanyardrove_repair_afresh(a_list.bytes, length, a_work.bytes, 47, an_out.bytes, ROOM), 13, 0, 3);
    CHECK(untouched_from(&a_work, 0));
    ANSWERS(lanyardrove_repair_afresh(a_list.bytes, length, a_work.bytes, ROOM, NULL, 0), 0, 0, 0);
    CHECK(all_are(a_work.bytes, 48, 0) && untouched_from(&a_work, 48) && untouched_from(&an_out, 0));

    /* the list is judged as it is given, with the syncs that would be forgotten */
    REPAIR_REFUSES(LIST(full), 4, 1);
    REPAIR_REFUSES(LIST(bare), 5, 1);
    REPAIR_REFUSES(LIST(cut), 3, 4);
    REPAIR_REFUSES(LIST(unassigned), 19, 1);
    for (i = 0; i < 2048; i++) pipes[i] = PIPE;
    length = list_of(pipes, 2048);
    ANSWERS(lanyardrove_repair_afresh(a_list.bytes, length + 1, a_work.bytes, ROOM, an_out.bytes, ROOM), 1, 0, 2048);
    ANSWERS(lanyardrove_repair_afresh(a_list.bytes, length - 1, a_work.bytes, ROOM, an_out.bytes, ROOM), 2, 0, 2047);
    ANSWERS(lanyardrove_repair_afresh(a_list.bytes, length, a_work.bytes, ROOM, an_out.bytes, 0), 0, 0, 0);

    /* the longest list, where every other word is a Sync Pipe: the least syncs come in their place */
    for (i = 0; i < 2048; i++) most[i] = i < 3 ? (i == 0 ? S1 : i == 1 ? S2 : S3) : i % 2 ? PIPE : i % 4 ? L : R;
    for (i = 0; i < 2048; i++) {
        if (i > 4 && most[i] != PIPE) repaired[n++] = LOAD;
        if (most[i] != PIPE) repaired[n++] = most[i];
    }
    CHECK(n == 3 + 1022 + 1021);
    repairs(lanyardrove_repair_afresh, most, 2048, 2048, repaired, n, 25 * 1021, __LINE__);
}

/* The second repair is the first of what remains; where the list passes, it does not wait longer; and again it changes nothing. */
static void random_repairs_afresh(void) {
    static const uint64_t some[] = {R, R, L, L, C, N, TILE, LOAD, PIPE, PIPE, 0xE7AAAAAAAAAAAAAAu, SET_TILE, S1, S3, 0x3E00000000000000u};
    static uint8_t written[640];
    uint64_t words[40], kept[40];
    size_t round;
    for (round = 0; round < 2000; round++) {
        size_t n = 3 + (size_t)(random_word() % 37), m = 3, i;
        unsigned waits = 0;
        uint64_t answer, other;
        int passes;
        words[0] = kept[0] = S1;
        words[1] = kept[1] = S2;
        words[2] = kept[2] = S3;
        for (i = 3; i < n; i++) {
            unsigned number;
            words[i] = some[random_word() % (sizeof some / 8)];
            number = (unsigned)(words[i] >> 56) & 63;
            waits += number == 0x26 ? 25 : number == 0x28 ? 33 : number == 0x27 ? 50 : 0;
            if (number < 0x26 || number > 0x28) kept[m++] = words[i];
        }
        list_of(words, n);
        passes = lanyardrove_number(lanyardrove_check(a_list.bytes, 8 * n)) == 0;
        fresh(&a_work);
        fresh(&an_out);
        answer = lanyardrove_repair_afresh(a_list.bytes, 8 * n, a_work.bytes, 16 * n, an_out.bytes, 16 * n);
        CHECK(lanyardrove_number(answer) == 0 && untouched_from(&an_out, 8 * (size_t)lanyardrove_place(answer)));
        CHECK(all_are(a_work.bytes, 16 * n, 0) && untouched_from(&a_work, 16 * n));
        CHECK(!passes || lanyardrove_cycles(answer) <= waits);
        memcpy(written, an_out.bytes, 8 * (size_t)lanyardrove_place(answer));
        list_of(kept, m);
        other = lanyardrove_repair(a_list.bytes, 8 * m, a_work.bytes, 16 * m, an_out.bytes, 16 * n);
        CHECK(answer == other && memcmp(an_out.bytes, written, 8 * (size_t)lanyardrove_place(answer)) == 0);
        other = lanyardrove_repair_afresh(written, 8 * (size_t)lanyardrove_place(answer), a_work.bytes, 32 * n, an_out.bytes, 16 * n);
        CHECK(answer == other && memcmp(an_out.bytes, written, 8 * (size_t)lanyardrove_place(answer)) == 0);
    }
}

/* Any list of one-word commands that the repair accepts: what it writes passes, and the words that it adds are its cycles. */
static void random_repairs(void) {
    static const uint64_t some[] = {R, R, L, L, C, N, TILE, LOAD, PIPE, SET_TILE, S1, S3, 0x3E00000000000000u};
    uint64_t words[40];
    size_t n, i, round;
    for (round = 0; round < 2000; round++) {
        uint64_t answer;
        size_t added = 0, at = 0;
        unsigned cycles = 0;
        n = 3 + (size_t)(random_word() % 37);
        words[0] = S1;
        words[1] = S2;
        words[2] = S3;
        for (i = 3; i < n; i++) words[i] = some[random_word() % (sizeof some / 8)];
        list_of(words, n);
        fresh(&a_work);
        fresh(&an_out);
        answer = lanyardrove_repair(a_list.bytes, 8 * n, a_work.bytes, 16 * n, an_out.bytes, 16 * n);
        for (i = 0; i < lanyardrove_place(answer); i++) {
            uint64_t w = get(an_out.bytes + 8 * i);
            if (at < n && w == words[at])
                at++;
            else {
                added++;
                cycles += w == LOAD ? 25 : w == TILE ? 33 : 50;
            }
        }
        CHECK(lanyardrove_number(answer) == 0 && at == n && n + added == lanyardrove_place(answer));
        CHECK(cycles == lanyardrove_cycles(answer) && added < n);
        CHECK(untouched_from(&an_out, 8 * (n + added)) && untouched_from(&a_work, 16 * n));
        ANSWERS(lanyardrove_check(an_out.bytes, 8 * (n + added)), 0, (unsigned)(n + added), (unsigned)(n + added));
        answer = lanyardrove_check(a_list.bytes, 8 * n);
        CHECK((lanyardrove_number(answer) == 0) == (added == 0));
    }
}

/* ---- Two lists compared (request #110). */

#define LENT_NUMBERS 64
static uint32_t all_entries[LENT_NUMBERS + 16];
#define ENTRIES (all_entries + 8)

static void fresh_entries(void) {
    size_t i;
    for (i = 0; i < LENT_NUMBERS + 16; i++) all_entries[i] = 0xA5A5A5A5u;
}

static int entries_untouched_from(size_t from) {
    size_t i;
    for (i = 0; i < 8; i++)
        if (all_entries[i] != 0xA5A5A5A5u) return 0;
    for (i = 8 + from; i < LENT_NUMBERS + 16; i++)
        if (all_entries[i] != 0xA5A5A5A5u) return 0;
    return 1;
}

/* Two lists: the entries, with exactly the room needed and with one number less, and the rest: a list and its byte. */
static void compares(const uint64_t *one, size_t n, const uint64_t *two, size_t m, const uint32_t *entries, size_t count, unsigned list, unsigned byte, int line) {
    static uint8_t second[8 * 64];
    size_t length = list_of(one, n), i;
    for (i = 0; i < m; i++) put(second + 8 * i, two[i]);
    fresh_entries();
    if (count > 0) {
        expect_answer(lanyardrove_compare(a_list.bytes, length, second, 8 * m, ENTRIES, count - 1), 14, 0, (unsigned)count, line);
        expect(entries_untouched_from(0), "14 leaves the entries", line);
        expect_answer(lanyardrove_rest(a_list.bytes, length, second, 8 * m, count - 1), 14, 0, (unsigned)length, line);
    }
    expect_answer(lanyardrove_compare(a_list.bytes, length, second, 8 * m, ENTRIES, count), 0, 0, (unsigned)count, line);
    expect(entries_untouched_from(count), "nothing beyond the entries", line);
    for (i = 0; i < count; i++) expect(ENTRIES[i] == entries[i], "an entry", line);
    expect_answer(lanyardrove_rest(a_list.bytes, length, second, 8 * m, count), 0, list, byte, line);
    expect_answer(lanyardrove_rest(a_list.bytes, length, second, 8 * m, SIZE_MAX), 0, list, byte, line);
    expect(begins(a_list.bytes, one, n) && untouched_from(&a_list, length), "the first list stays", line);
    expect(begins(second, two, m), "the second list stays", line);
}
#define COMPARES(one, two, entries, count, list, byte) \
    compares((one), sizeof(one) / 8, (two), sizeof(two) / 8, (entries), (count), (list), (byte), __LINE__)

static void compared_lists(void) {
    const uint64_t i[] = {S, C, R}, other_color[] = {S, 0x37000000F801003Eu, R}, unused[] = {S1 | 0xC0ull << 56, S2, S3, C | 0x00FFFFFF00000000u, R};
    const uint64_t more[] = {S, C, R, PIPE, TEXTURED, 0}, modes[] = {0x2FFFFFFFFFFFFFFFu}, no_modes[] = {0x2F00000000000000u};
    const uint64_t named[] = {0x2F40000F00008000u}, rectangle[] = {TEXTURED, 0, N}, moved[] = {N, TEXTURED, 1};
    const uint32_t color[] = {3, 3, 0, 1}, all_modes[] = {0, 0, 0xFF, 0xFBFDFFFDu}, numbers[] = {0, 0, 0, 0, 2, 1, 0, 0};
    const uint64_t cut[] = {S, TEXTURED}, bad[] = {FULL, 0x3100000000000000u, R};
    size_t length;

    COMPARES(i, i, NULL, 0, 0, 40);
    COMPARES(i, other_color, color, 4, 0, 40);
    COMPARES(other_color, i, color, 4, 0, 40);
    COMPARES(i, unused, NULL, 0, 0, 40); /* bits of no field */
    COMPARES(i, more, NULL, 0, 1, 40);
    COMPARES(more, other_color, color, 4, 0, 40);
    COMPARES(modes, no_modes, all_modes, 4, 0, 8); /* every line but the three without a name */
    COMPARES(named, no_modes, NULL, 0, 0, 8);
    COMPARES(rectangle, moved, numbers, 8, 0, 24);
    COMPARES(bad, bad, NULL, 0, 0, 24); /* 4 and 19 are not looked at */

    /* the first list's grounds come first, then the second's, then 14 */
    length = LIST(cut);
    fresh_entries();
    ANSWERS(lanyardrove_compare(a_list.bytes, length, a_list.bytes, 7, ENTRIES, LENT_NUMBERS), 3, 0, 3);
    ANSWERS(lanyardrove_compare(a_list.bytes, 7, a_list.bytes, length, ENTRIES, LENT_NUMBERS), 2, 0, 0);
    ANSWERS(lanyardrove_compare(a_list.bytes, 24, a_list.bytes, length, ENTRIES, LENT_NUMBERS), 3, 0, 3);
    ANSWERS(lanyardrove_compare(a_list.bytes, 24, a_list.bytes, 15, NULL, 0), 2, 0, 1);
    ANSWERS(lanyardrove_compare(a_list.bytes, 32776, a_list.bytes, length, NULL, 0), 1, 0, 4096);
    ANSWERS(lanyardrove_compare(a_list.bytes, 24, a_list.bytes, 32769, NULL, 0), 1, 0, 4096);
    ANSWERS(lanyardrove_compare(NULL, 0, a_list.bytes, 24, NULL, 0), 0, 0, 0);
    ANSWERS(lanyardrove_compare(NULL, 0, NULL, 0, NULL, 0), 0, 0, 0);
    CHECK(entries_untouched_from(0));
    ANSWERS(lanyardrove_rest(a_list.bytes, length, a_list.bytes, 7, 0), 3, 0, 32);
    ANSWERS(lanyardrove_rest(a_list.bytes, 24, a_list.bytes, length, 0), 3, 0, 24);
    ANSWERS(lanyardrove_rest(NULL, 0, a_list.bytes, 24, 0), 0, 1, 0);
    ANSWERS(lanyardrove_rest(a_list.bytes, 24, NULL, 0, 0), 0, 0, 0);
    ANSWERS(lanyardrove_rest(NULL, 0, NULL, 0, 0), 0, 0, 0);
}

/* What differs of two commands of one number, by their fields as they are decoded. */
static uint64_t differing(unsigned number, const uint8_t *one, const uint8_t *two, size_t words) {
    uint64_t fields[2][LANYARDROVE_MOST_FIELDS], mask = 0;
    size_t i, count = lanyardrove_place(lanyardrove_decode(one, 8 * words, fields[0], LANYARDROVE_MOST_FIELDS));
    lanyardrove_decode(two, 8 * words, fields[1], LANYARDROVE_MOST_FIELDS);
    for (i = 0; i < count; i++)
        if (fields[0][i] != fields[1][i]) mask |= (uint64_t)1 << lanyardrove_field_bit(number, (uint32_t)i);
    if (number >= 8 && number <= 15 && memcmp(one + 32, two + 32, 8 * words - 32) != 0) mask |= (uint64_t)1 << LANYARDROVE_SUFFIX_BIT;
    return mask;
}

/* One bit turned over in every word of every command: the field that has it, or nothing. */
static void compared_bits(void) {
    unsigned number, bit;
    for (number = 0; number < 64; number++) {
        size_t words = (size_t)lanyardrove_words((uint64_t)number << 56), i;
        uint8_t two[8 * LANYARDROVE_MOST_WORDS];
        fresh(&a_list);
        for (i = 0; i < words; i++) put(a_list.bytes + 8 * i, random_word());
        a_list.bytes[0] = (uint8_t)((a_list.bytes[0] & 0xC0) | number);
        for (bit = 0; bit < 64 * words; bit++) {
            uint64_t mask;
            if (bit >= 2 && bit < 8) continue; /* the command's number */
            memcpy(two, a_list.bytes, 8 * words);
            two[bit / 8] = (uint8_t)(two[bit / 8] ^ 0x80 >> bit % 8);
            mask = differing(number, a_list.bytes, two, words);
            CHECK((mask & (mask - 1)) == 0); /* one field has it */
            fresh_entries();
            ANSWERS(lanyardrove_compare(a_list.bytes, 8 * words, two, 8 * words, ENTRIES, LENT_NUMBERS), 0, 0, mask ? 4 : 0);
            CHECK(entries_untouched_from(mask ? 4 : 0));
            CHECK(!mask || (ENTRIES[0] == 0 && ENTRIES[1] == 0 && ENTRIES[2] == (uint32_t)(mask >> 32) && ENTRIES[3] == (uint32_t)mask));
        }
    }
}

/* ---- Drawing: examples I and O, the edges of memory and scissor, refusals. */

/* Draws a list on bytes 0x11 from an address: the answer, and the painted addresses, the only ones whose bytes change. */
static void draws(const uint64_t *words, size_t n, size_t memory, uint64_t start, unsigned number, unsigned place,
                  const unsigned *painted, size_t count, int line) {
    size_t length = list_of(words, n), i, k = 0;
    int right = 1;
    fresh(&an_out);
    fresh(&a_texture);
    memset(an_out.bytes, 0x11, memory);
    expect_answer(draw(length, memory, start), number, 0, place, line);
    for (i = 0; i < memory; i++) {
        static const uint8_t color[4] = {0xF8, 0x01, 0x00, 0x3F};
        uint64_t address = start + i;
        uint8_t due = 0x11;
        if (k < count && painted[k] == address) {
            due = color[address % 4];
            k++;
        }
        right = right && an_out.bytes[i] == due;
    }
    expect(right && k == count, "the painted bytes, and no others", line);
    expect(untouched_from(&an_out, memory) && untouched_from(&a_texture, 0), "no byte outside memory", line);
    expect(begins(a_list.bytes, words, n) && untouched_from(&a_list, length), "the list stays", line);
}
#define DRAWS(words, memory, start, painted) \
    draws((words), sizeof(words) / 8, (memory), (start), 0, (unsigned)(sizeof(words) / 8), (painted), sizeof(painted) / sizeof(painted[0]), __LINE__)
#define DRAW_REFUSES(words, memory, start, number, place) draws((words), sizeof(words) / 8, (memory), (start), (number), (place), NULL, 0, __LINE__)

static void draw_lists(void) {
    const uint64_t i[] = {S, C, R};
    const unsigned i_bytes[] = {18, 19, 20, 21, 34, 35, 36, 37};
    const uint64_t o[] = {S1, 0x3F10000600000000u, S3, C, 0x3600000400000004u};
    const unsigned o_bytes[] = {14, 15};
    /* the scissor's right edge at 8 keeps x up to 1, at 9 up to 2 */
    const uint64_t edge_8[] = {S1, S2, 0x2D00000000008010u, C, R};
    const unsigned edge_8_bytes[] = {18, 19, 34, 35};
    const uint64_t edge_9[] = {S1, S2, 0x2D00000000009010u, C, R};
    const uint64_t g[] = {S, R, C};
    const uint64_t one_cycle[] = {0x2F00000000000000u, S2, S3, R};
    const uint64_t misaligned[] = {S1, 0x3F10000700000020u, S3, C, R};
    const uint64_t later[] = {S, C, R, 0x3601401400004004u}; /* pixels (1,1) to (5,5) */
    const uint64_t nothing[] = {N, N};
    const uint64_t cut[] = {0x0F00000000000000u, N};
    size_t k;

    DRAWS(i, 64, 0, i_bytes);
    DRAWS(o, 64, 0, o_bytes);
    DRAWS(i, 38, 0, i_bytes);
    DRAW_REFUSES(i, 37, 0, 12, 4);
    DRAWS(i, 20, 18, i_bytes);
    DRAW_REFUSES(i, 64, 19, 12, 4);
    DRAW_REFUSES(i, 19, 18, 12, 4);
    DRAW_REFUSES(i, 64, 38, 12, 4);
    DRAW_REFUSES(i, 64, (uint64_t)1 << 32, 12, 4);
    DRAW_REFUSES(i, 64, UINT64_MAX, 12, 4);
    DRAW_REFUSES(i, 64, UINT64_MAX - 40, 12, 4);
    DRAW_REFUSES(i, 0, 0, 12, 4);
    DRAWS(edge_8, 64, 0, edge_8_bytes);
    DRAWS(edge_9, 64, 0, i_bytes);
    DRAW_REFUSES(g, 64, 0, 9, 4);
    DRAW_REFUSES(one_cycle, 64, 0, 10, 3);
    DRAW_REFUSES(misaligned, 256, 0, 11, 4);
    DRAW_REFUSES(later, 38, 0, 12, 5); /* the first rectangle is not painted either */
    DRAW_REFUSES(cut, 64, 0, 3, 0);
    draws(nothing, 2, 0, 0, 0, 2, NULL, 0, __LINE__);

    for (k = 0; k < 40; k++) { /* every cut of I */
        list_of(i, 5);
        fresh(&an_out);
        ANSWERS(draw(k, 64, 0), k % 8 ? 2 : 0, 0, (unsigned)(k / 8));
        CHECK(untouched_from(&an_out, 0));
    }
    fresh(&a_list);
    memset(a_list.bytes, 0, 32784);
    fresh(&an_out);
    ANSWERS(draw(32768, 64, 0), 0, 0, 4096);
    ANSWERS(draw(32769, 64, 0), 1, 0, 4096);
    CHECK(untouched_from(&an_out, 0) && untouched_from(&a_texture, 0));
}

/* ---- Textures (document 02, #106): Load Tile and Texture Rectangles in COPY mode, on memory and texture memory of bytes that
   tell where they come from. */

#define COPY 0x2F20000000000000u
#define MEMORY 128
#define TEXTURE LANYARDROVE_TEXTURE_BYTES
#define OF_TEXTURE(byte) (MEMORY + (byte)) /* a byte that texture memory had, where others are of memory */

/* The byte that was there before: even in memory, odd in texture memory. */
static uint8_t given(size_t at) { return (uint8_t)(at < MEMORY ? 2 * at : 2 * (at + at / 128 * 37) + 1); }

static uint64_t texture_image(uint64_t width, uint64_t address) { return 0x3D10000000000000u | (width - 1) << 32 | address; }

static uint64_t set_tile(uint64_t tile, uint64_t line, uint64_t tmem) {
    return 0x3510000000000000u | line << 41 | tmem << 32 | tile << 24;
}

/* A Load Tile or Set Tile Size from one corner to the other, in whole texels. */
static uint64_t area(uint64_t number, uint64_t tile, uint64_t left, uint64_t top, uint64_t right, uint64_t bottom) {
    return number << 56 | left << 46 | top << 34 | tile << 24 | right << 14 | bottom << 2;
}
#define LOAD_TILE(tile, left, top, right, bottom) area(0x34, (tile), (left), (top), (right), (bottom))
/* A Load Block of the texels from s to last of row t, in whole texels. */
static uint64_t load_block(uint64_t tile, uint64_t s, uint64_t t, uint64_t last, uint64_t dxt) {
    return 0x3300000000000000u | s << 44 | t << 32 | tile << 24 | last << 12 | dxt;
}
#define TILE_SIZE(tile, left, top) area(0x32, (tile), (left), (top), 0, 0)

/* The two words of a Texture Rectangle from one pixel to the other, that begins with a texel. */
static uint64_t pixels(uint64_t tile, uint64_t left, uint64_t top, uint64_t right, uint64_t bottom) {
    return TEXTURED | right << 46 | bottom << 34 | tile << 24 | left << 14 | top << 2;
}
static uint64_t from_texel(int s, int t) { return (uint64_t)(uint16_t)(32 * s) << 48 | (uint64_t)(uint16_t)(32 * t) << 32 | 0x10000400u; }

/* Memory of a length from an address, and texture memory, as they are given. */
static void give(size_t memory, uint64_t start) {
    size_t i;
    fresh(&an_out);
    fresh(&a_texture);
    for (i = 0; i < memory; i++) an_out.bytes[i] = given((size_t)start + i);
    for (i = 0; i < TEXTURE; i++) a_texture.bytes[i] = given(OF_TEXTURE(i));
}

/* A texel that is written to a byte, and where it was before. */
typedef struct {
    size_t to, from;
} Texel;

/* Whether the bytes that have this address or number from the first on are as given, but for these texels. */
static int are_given_but(const uint8_t *bytes, size_t length, size_t first, const Texel *texels, size_t count) {
    size_t i, k;
    for (i = 0; i < length; i++) {
        size_t from = first + i;
        for (k = 0; k < count; k++)
            if (first + i >= texels[k].to && first + i - texels[k].to < 2) from = texels[k].from + (first + i - texels[k].to);
        if (bytes[i] != given(from)) return 0;
    }
    return 1;
}

/* Draws a list on memory from an address: the answer, and the texels that memory and texture memory then have. */
static void copies(const uint64_t *words, size_t n, size_t memory, uint64_t start, unsigned number, unsigned place,
                   const Texel *copied, size_t copied_count, const Texel *loaded, size_t loaded_count, int line) {
    Texel in_texture[16];
    size_t length = list_of(words, n), k;
    for (k = 0; k < loaded_count; k++) {
        in_texture[k].to = OF_TEXTURE(loaded[k].to);
        in_texture[k].from = loaded[k].from;
    }
    give(memory, start);
    expect_answer(draw(length, memory, start), number, 0, place, line);
    expect(are_given_but(an_out.bytes, memory, (size_t)start, copied, copied_count), "the copied bytes, and no others", line);
    expect(are_given_but(a_texture.bytes, TEXTURE, OF_TEXTURE(0), in_texture, loaded_count), "the loaded bytes, and no others", line);
    expect(untouched_from(&an_out, memory) && untouched_from(&a_texture, TEXTURE), "no byte outside", line);
    expect(begins(a_list.bytes, words, n) && untouched_from(&a_list, length), "the list stays", line);
}
#define COUNT(array) (sizeof(array) / sizeof((array)[0]))
#define COPIES(words, copied, loaded) \
    copies((words), COUNT(words), MEMORY, 0, 0, COUNT(words), (copied), COUNT(copied), (loaded), COUNT(loaded), __LINE__)

/* The answer alone, and at a refusal both memories as given. */
static void drawn_as(const uint64_t *words, size_t n, size_t memory, uint64_t start, unsigned number, unsigned place, int line) {
    if (number)
        copies(words, n, memory, start, number, place, NULL, 0, NULL, 0, line);
    else {
        const size_t length = list_of(words, n);
        give(memory, start);
        expect_answer(draw(length, memory, start), 0, 0, place, line);
        expect(untouched_from(&an_out, memory) && untouched_from(&a_texture, TEXTURE), "no byte outside", line);
    }
}
#define DRAWN(words, memory, start, number, place) drawn_as((words), COUNT(words), (memory), (start), (number), (place), __LINE__)

/* A block of 3 by 2 texels from the second column and row of an image 4 wide, to tile 1 of 16 bytes a row from byte 24 on; its
   second row is turned. It is copied to pixels (2,1) to (4,2), from rows and columns at, above and left of the block. */
static void load_and_copy(void) {
    const uint64_t image = texture_image(4, 64), tile = set_tile(1, 2, 3), load = LOAD_TILE(1, 1, 1, 3, 2), place = pixels(1, 2, 1, 4, 2);
    const uint64_t whole[] = {COPY, S2, S3, image, tile, load, LOAD, place, from_texel(1, 1)};
    const uint64_t above[] = {COPY, S2, S3, image, tile, load, LOAD, place, from_texel(1, 0)};
    const uint64_t left[] = {COPY, S2, S3, image, tile, load, LOAD, place, from_texel(-1, 1)};
    const uint64_t resized[] = {COPY, S2, S3, image, tile, load, TILE_SIZE(1, 1, 2), LOAD, place, from_texel(1, 1)};
    const Texel block[] = {{24, 74}, {26, 76}, {28, 78}, {44, 82}, {46, 84}, {40, 86}};
    const Texel at[] = {{20, 74}, {22, 76}, {24, 78}, {36, 82}, {38, 84}, {40, 86}};
    /* row -1 is odd: bytes 8, 10, 12 turned */
    const Texel one_up[] = {{20, OF_TEXTURE(12)}, {22, OF_TEXTURE(14)}, {24, OF_TEXTURE(8)}, {36, 74}, {38, 76}, {40, 78}};
    /* columns -2, -1 and 0: bytes 20, 22, 24, and in the odd row 36, 38, 40 turned */
    const Texel two_left[] = {{20, OF_TEXTURE(20)}, {22, OF_TEXTURE(22)}, {24, 74}, {36, OF_TEXTURE(32)}, {38, OF_TEXTURE(34)}, {40, 82}};
    COPIES(whole, at, block);
    COPIES(above, one_up, block);
    COPIES(left, two_left, block);
    COPIES(resized, one_up, block); /* Set Tile Size takes the place of the size that the load left */
}

/* Seven texels from the second column and row of an image 4 wide, on past the row's end, to tile 1 from byte 24 on. By dxt 0x800 every
   second word is turned over; the byte after the last texel, in its half word, is left. */
static void load_a_block(void) {
    const uint64_t image = texture_image(4, 64), tile = set_tile(1, 2, 3), place = pixels(1, 2, 1, 4, 1);
    const uint64_t turned[] = {COPY, S2, S3, image, tile, load_block(1, 1, 1, 7, 0x800), TILE_SIZE(1, 0, 0), LOAD, place, from_texel(4, 0)};
    const Texel texels[] = {{24, 74}, {26, 76}, {28, 78}, {30, 80}, {36, 82}, {38, 84}, {32, 86}};
    const Texel copied[] = {{20, 86}, {22, OF_TEXTURE(34)}, {24, 82}};
    const uint64_t plain[] = {image, tile, load_block(1, 1, 1, 7, 0x7FF)}; /* word 1 is of line 0 still */
    const Texel in_order[] = {{24, 74}, {26, 76}, {28, 78}, {30, 80}, {32, 82}, {34, 84}, {36, 86}};
    const uint64_t raw[] = {COPY, S2, S3, image, tile, load_block(1, 1, 1, 7, 0x800), LOAD, place, from_texel(4, 0)};
    const uint64_t last[] = {image, set_tile(1, 2, 511), load_block(1, 0, 0, 3, 0x800)}, past[] = {image, set_tile(1, 2, 511), load_block(1, 0, 0, 4, 0)};
    COPIES(turned, copied, texels);
    copies(plain, COUNT(plain), MEMORY, 0, 0, COUNT(plain), NULL, 0, in_order, COUNT(in_order), __LINE__);
    DRAWN(raw, MEMORY, 0, 17, 7); /* its s and t are the tile's size as they are, in quarters of a texel */
    DRAWN(plain, 14, 74, 0, 3);
    DRAWN(plain, 13, 74, 12, 2);
    DRAWN(plain, 14, 75, 12, 2);
    DRAWN(last, MEMORY, 0, 0, 3);
    DRAWN(past, MEMORY, 0, 18, 2);
    DRAWN(past, 9, 64, 12, 2);
}

/* A texture image inside the colour image is loaded as drawn so far; of texels and of pixels that share bytes the later stays. */
static void later_bytes_stay(void) {
    const uint64_t first = set_tile(0, 1, 0), second = set_tile(1, 1, 8);
    const uint64_t inside[] = {COPY, S2, S3, first, second,
                               texture_image(4, 64), LOAD_TILE(0, 0, 0, 1, 0), LOAD, pixels(0, 0, 0, 1, 0), from_texel(0, 0), LOAD,
                               texture_image(4, 2), LOAD_TILE(1, 0, 0, 1, 0), LOAD, pixels(1, 4, 1, 5, 1), from_texel(0, 0)};
    const Texel inside_copied[] = {{0, 64}, {2, 66}, {24, 66}, {26, 4}}, inside_loaded[] = {{0, 64}, {2, 66}, {64, 66}, {66, 4}};
    /* an image 2 wide under pixels (0,0) to (3,1): the second row begins at byte 4 */
    const uint64_t narrow[] = {COPY, 0x3F10000100000000u, S3, first, pixels(0, 0, 0, 3, 1), from_texel(0, 0)};
    const Texel narrow_copied[] = {{0, OF_TEXTURE(0)}, {2, OF_TEXTURE(2)}, {4, OF_TEXTURE(12)},
                                   {6, OF_TEXTURE(14)}, {8, OF_TEXTURE(8)}, {10, OF_TEXTURE(10)}};
    /* a tile of no bytes a row: the third row over the first */
    const uint64_t flat[] = {texture_image(4, 64), set_tile(0, 0, 0), LOAD_TILE(0, 0, 0, 1, 2)};
    const Texel flat_loaded[] = {{0, 80}, {2, 82}, {4, 72}, {6, 74}};
    COPIES(inside, inside_copied, inside_loaded);
    copies(narrow, COUNT(narrow), MEMORY, 0, 0, COUNT(narrow), narrow_copied, COUNT(narrow_copied), NULL, 0, __LINE__);
    copies(flat, COUNT(flat), MEMORY, 0, 0, COUNT(flat), NULL, 0, flat_loaded, COUNT(flat_loaded), __LINE__);
}

/* Scissor and field drop pixels, and the others read what they read without; a load or a rectangle may cover nothing. */
static void kept_pixels(void) {
    const uint64_t tile = set_tile(0, 1, 0), place = pixels(0, 0, 0, 2, 2);
    const uint64_t scissor[] = {COPY, S2, 0x2D00400400020010u, tile, place, from_texel(0, 0)};
    const uint64_t field[] = {COPY, S2, 0x2D00400403020010u, tile, place, from_texel(0, 0)};
    const Texel kept[] = {{18, OF_TEXTURE(14)}, {20, OF_TEXTURE(8)}, {34, OF_TEXTURE(18)}, {36, OF_TEXTURE(20)}};
    /* a load of nothing leaves its upper left, (2, 0), as the tile's size */
    const uint64_t nothing[] = {COPY, S2, S3, texture_image(1, 0), tile, LOAD_TILE(0, 2, 0, 1, 0), LOAD, pixels(0, 1, 1, 1, 1), from_texel(3, 0)};
    const Texel one_on[] = {{18, OF_TEXTURE(2)}};
    const uint64_t covers_none[] = {COPY, S2, S3, tile, pixels(0, 3, 0, 2, 5), from_texel(-1000, -1000)};
    copies(scissor, COUNT(scissor), MEMORY, 0, 0, COUNT(scissor), kept, 4, NULL, 0, __LINE__);
    copies(field, COUNT(field), MEMORY, 0, 0, COUNT(field), kept, 2, NULL, 0, __LINE__);
    copies(nothing, COUNT(nothing), MEMORY, 0, 0, COUNT(nothing), one_on, 1, NULL, 0, __LINE__);
    copies(covers_none, COUNT(covers_none), 0, 0, 0, COUNT(covers_none), NULL, 0, NULL, 0, __LINE__);
}

/* 16: after the check, of every list that passes it, and before 10. */
static void texture_length(void) {
    static const size_t lengths[] = {0, 1, 4095, 4097, ROOM};
    const uint64_t i[] = {S, C, R}, g[] = {S, R, C}, one_cycle[] = {0x2F00000000000000u, S2, S3, R};
    size_t k;
    for (k = 0; k < COUNT(lengths); k++) {
        fresh(&an_out);
        fresh(&a_texture);
        ANSWERS(lanyardrove_draw(a_list.bytes, LIST(i), an_out.bytes, 64, 0, a_texture.bytes, lengths[k]), 16, 0, 0);
        ANSWERS(lanyardrove_draw(a_list.bytes, 0, an_out.bytes, 64, 0, a_texture.bytes, lengths[k]), 16, 0, 0);
        ANSWERS(lanyardrove_draw(a_list.bytes, LIST(g), an_out.bytes, 64, 0, a_texture.bytes, lengths[k]), 9, 0, 4);
        ANSWERS(lanyardrove_draw(a_list.bytes, LIST(one_cycle), an_out.bytes, 64, 0, a_texture.bytes, lengths[k]), 16, 0, 0);
        CHECK(untouched_from(&an_out, 0) && untouched_from(&a_texture, 0));
    }
}

/* 10: Fill Rectangle in FILL mode and 0x24 in COPY mode are drawn, and nothing else is in any mode. */
static void drawn_or_not(void) {
    static const unsigned numbers[] = {0x08, 0x09, 0x0A, 0x0B, 0x0C, 0x0D, 0x0E, 0x0F, 0x24, 0x25, 0x36};
    uint64_t cycle_type;
    size_t k;
    for (cycle_type = 0; cycle_type < 4; cycle_type++)
        for (k = 0; k < COUNT(numbers); k++) {
            uint64_t words[4 + 22] = {0x2F00000000000000u | cycle_type << 52, S2, S3, set_tile(0, 1, 0), (uint64_t)numbers[k] << 56};
            const size_t n = 4 + (size_t)lanyardrove_words(words[4]);
            const int drawn = (numbers[k] == 0x24 && cycle_type == 2) || (numbers[k] == 0x36 && cycle_type == 3);
            if (numbers[k] == 0x24) words[5] = from_texel(0, 0);
            drawn_as(words, n, MEMORY, 0, drawn ? 0 : 10, drawn ? (unsigned)n : 4, __LINE__);
        }
}

/* A list with one bit of one word turned over: refused at the place where the bit is one of a mask, else accepted. */
static void every_bit(const uint64_t *words, size_t n, size_t word, uint64_t skipped, uint64_t refusing, unsigned place, int line) {
    uint64_t changed[8];
    int bit;
    for (bit = 0; bit < 64; bit++) {
        const uint64_t turned = (uint64_t)1 << bit;
        const int refused = (turned & refusing) != 0;
        if (turned & skipped) continue;
        memcpy(changed, words, 8 * n);
        changed[word] ^= turned;
        drawn_as(changed, n, 0, 0, refused ? 17 : 0, refused ? place : (unsigned)n, line);
    }
}
#define COMMAND 0x3F00000000000000u /* the bits of a command's number */
#define EVERY_BIT(words, word, skipped, refusing, place) every_bit((words), COUNT(words), (word), (skipped), (refusing), (place), __LINE__)

/* Each need of a COPY rectangle, also where no pixel is kept: everything else is free. */
static void copy_needs(void) {
    const uint64_t words[] = {COPY, S2, S3, set_tile(5, 1, 0), TILE_SIZE(5, 0, 0), pixels(5, 100, 100, 101, 101), from_texel(0, 0)};
    const uint64_t not_set[] = {COPY, S2, S3, TILE_SIZE(5, 0, 0), pixels(5, 0, 0, 0, 0), from_texel(0, 0)};
    const uint64_t no_size[] = {COPY, S2, S3, set_tile(5, 1, 0), pixels(5, 100, 100, 101, 101), from_texel(0, 0)};
    const uint64_t quarters[] = {COPY, S2, S3, texture_image(1, 0), set_tile(5, 1, 0), LOAD_TILE(5, 2, 0, 1, 0) | (uint64_t)1 << 44,
                                 LOAD, pixels(5, 100, 100, 101, 101), from_texel(0, 0)};
    DRAWN(words, 0, 0, 0, 7);
    EVERY_BIT(words, 0, COMMAND | (uint64_t)3 << 52, (uint64_t)1 << 51 | (uint64_t)1 << 47 | 1, 5); /* perspective, look-up, alpha compare */
    EVERY_BIT(words, 1, COMMAND | 0x3F, (uint64_t)3 << 51, 5);                                      /* an image not of 16 bits */
    EVERY_BIT(words, 3, COMMAND, (uint64_t)0x1F << 51 | 7u << 24 | 0x1FFu << 10 | 0x1FFu, 5); /* the tile, 16-bit RGBA, mirror, mask, shift */
    EVERY_BIT(words, 4, COMMAND, (uint64_t)3 << 44 | (uint64_t)3 << 32, 5);                   /* the tile's upper left in whole texels */
    EVERY_BIT(words, 5, ~((uint64_t)7 << 24), (uint64_t)7 << 24, 5);
    EVERY_BIT(words, 6, 0, (uint64_t)31 << 48 | (uint64_t)31 << 32 | 0xFFFFFFFFu, 5);         /* s and t likewise, dsdx, dtdy */
    DRAWN(not_set, MEMORY, 0, 17, 4);
    DRAWN(no_size, 0, 0, 0, 6);
    DRAWN(quarters, MEMORY, 0, 17, 7); /* a load leaves its raw corners as the size */
}

/* Those of Load Tile, also where nothing is loaded, and of Load Block; Load TLUT is refused with all of them. */
static void load_needs(void) {
    const uint64_t words[] = {texture_image(1, 0), set_tile(5, 1, 0), LOAD_TILE(5, 2, 0, 1, 0)};
    const uint64_t no_image[] = {set_tile(5, 1, 0), LOAD_TILE(5, 2, 0, 1, 0)}, no_tile[] = {texture_image(1, 0), LOAD_TILE(5, 2, 0, 1, 0)};
    const uint64_t tlut[] = {words[0], words[1], area(0x30, 5, 0, 0, 0, 0)}, block[] = {words[0], words[1], load_block(5, 0, 0, 0, 0)};
    const uint64_t no_texel[] = {words[0], words[1], load_block(5, 7, 0, 6, 0)}, many[] = {words[0], words[1], load_block(5, 1, 0, 2049, 0)};
    const uint64_t untiled[] = {words[0], load_block(5, 0, 0, 0, 0)}, bare[] = {words[1], load_block(5, 0, 0, 0, 0)};
    const uint64_t k[] = {S, R, PIPE, L};
    int bit;
    DRAWN(words, 0, 0, 0, 3);
    EVERY_BIT(words, 0, COMMAND, (uint64_t)0x1F << 51, 2);
    EVERY_BIT(words, 1, COMMAND, (uint64_t)0x1F << 51 | 7u << 24, 2);
    EVERY_BIT(words, 2, ~((uint64_t)7 << 24), (uint64_t)7 << 24, 2);
    DRAWN(no_image, MEMORY, 0, 17, 1);
    DRAWN(no_tile, MEMORY, 0, 17, 1);
    DRAWN(tlut, MEMORY, 0, 17, 2);
    DRAWN(block, MEMORY, 0, 0, 3);
    for (bit = 51; bit < 56; bit++) { /* any other format and size of the image or the tile is 17, and before 12 */
        const uint64_t image[] = {words[0] ^ (uint64_t)1 << bit, words[1], block[2]}, tile[] = {words[0], words[1] ^ (uint64_t)1 << bit, block[2]};
        DRAWN(image, 0, 0, 17, 2);
        DRAWN(tile, 0, 0, 17, 2);
    }
    DRAWN(block, 1, 0, 12, 2);
    DRAWN(no_texel, 0, 0, 17, 2);
    DRAWN(many, 0, 0, 17, 2);
    DRAWN(untiled, 0, 0, 17, 1);
    DRAWN(bare, 0, 0, 17, 1);
    DRAWN(k, MEMORY, 0, 17, 5);
}

/* One draw with every ground of refusal, which are taken away one by one; and one load, which 11 does not ask. */
static void order_at_an_act(void) {
    uint64_t draws[] = {0x2F00000000000000u, S2 | 32, S3, set_tile(0, 1, 511), pixels(0, 0, 0, 4, 0), from_texel(0, 0) ^ 1};
    uint64_t loads[] = {COPY, S2 | 32, S3, texture_image(8, 0) | (uint64_t)1 << 51, set_tile(0, 1, 511), LOAD_TILE(0, 0, 0, 4, 0)};
    DRAWN(draws, 9, 0, 10, 4);
    draws[0] = COPY;
    DRAWN(draws, 9, 0, 11, 4);
    draws[1] = S2;
    DRAWN(draws, 9, 0, 17, 4);
    draws[5] = from_texel(0, 0);
    DRAWN(draws, 9, 0, 12, 4);
    draws[5] = from_texel(1, 0);
    DRAWN(draws, 9, 0, 12, 4); /* the fourth pixel's texel is outside, and only the fifth pixel's address */
    DRAWN(draws, 10, 0, 18, 4);
    draws[5] = from_texel(-1, 0);
    DRAWN(draws, 10, 0, 0, 6);
    DRAWN(loads, 9, 0, 17, 5);
    loads[3] = texture_image(8, 0);
    DRAWN(loads, 9, 0, 12, 5);
    DRAWN(loads, 10, 0, 18, 5);
    loads[4] = set_tile(0, 1, 510);
    DRAWN(loads, 10, 0, 0, 6);
}

/* Memory that ends and begins with the first and last byte that a load or a copy needs. */
static void edges_of_memory(void) {
    const uint64_t load[] = {texture_image(4, 64), set_tile(1, 2, 3), LOAD_TILE(1, 1, 1, 3, 2)}; /* bytes 74 to 87 */
    const uint64_t odd[] = {texture_image(4, 65), load[1], load[2]};
    const uint64_t copy[] = {COPY, S2, S3, set_tile(1, 2, 3), pixels(1, 2, 1, 4, 2), from_texel(0, 0)}; /* bytes 20 to 41 */
    DRAWN(load, 14, 74, 0, 3);
    DRAWN(load, 13, 74, 12, 2);
    DRAWN(load, 14, 75, 12, 2);
    DRAWN(load, 14, 73, 12, 2);
    DRAWN(load, 0, 0, 12, 2);
    DRAWN(odd, 14, 75, 0, 3);
    DRAWN(odd, 13, 75, 12, 2);
    DRAWN(odd, 20, 76, 12, 2);
    DRAWN(copy, 22, 20, 0, 6);
    DRAWN(copy, 21, 20, 12, 4);
    DRAWN(copy, 22, 21, 12, 4);
    DRAWN(copy, 22, 19, 12, 4);
}

/* The same for texture memory: bytes 4,095 and 4,096, 0 and -1, in even and in turned rows, loaded to and read for kept pixels. */
static void edges_of_texture(void) {
    uint64_t load[] = {texture_image(8, 0), set_tile(0, 1, 511), LOAD_TILE(0, 0, 0, 3, 0)};
    uint64_t copy[] = {COPY, S2, S3, set_tile(0, 1, 511), pixels(0, 0, 0, 3, 0), from_texel(0, 0)};
    DRAWN(load, MEMORY, 0, 0, 3);
    load[2] = LOAD_TILE(0, 0, 0, 4, 0);
    DRAWN(load, MEMORY, 0, 18, 2);
    load[1] = set_tile(0, 1, 510);
    DRAWN(load, MEMORY, 0, 0, 3);
    load[2] = LOAD_TILE(0, 0, 0, 4, 1);
    DRAWN(load, MEMORY, 0, 18, 2);
    load[2] = LOAD_TILE(0, 0, 0, 3, 1);
    DRAWN(load, MEMORY, 0, 0, 3);

    DRAWN(copy, MEMORY, 0, 0, 6);
    copy[5] = from_texel(1, 0);
    DRAWN(copy, MEMORY, 0, 18, 4);
    copy[4] = pixels(0, 5, 0, 8, 0); /* the scissor drops the pixel that would read outside */
    DRAWN(copy, MEMORY, 0, 0, 6);
    copy[5] = from_texel(0, 1); /* an odd row, whose bytes are 4,096 and up */
    DRAWN(copy, MEMORY, 0, 18, 4);
    copy[3] = set_tile(0, 1, 0);
    DRAWN(copy, MEMORY, 0, 0, 6);
    copy[5] = from_texel(-1, 0);
    DRAWN(copy, MEMORY, 0, 18, 4);
    copy[5] = from_texel(0, -1);
    DRAWN(copy, MEMORY, 0, 18, 4);
    copy[3] = set_tile(0, 1, 1);
    DRAWN(copy, MEMORY, 0, 0, 6);
    copy[5] = from_texel(-1, -1);
    DRAWN(copy, MEMORY, 0, 18, 4);
}

/* A load and a copy that could be done, then a refusal: neither memory changes. */
static void refused_after_work(void) {
    const uint64_t work[] = {COPY, S2, S3, texture_image(4, 64), set_tile(0, 1, 0), LOAD_TILE(0, 0, 0, 3, 1),
                             LOAD, pixels(0, 0, 0, 3, 1), from_texel(0, 0)};
    const uint64_t last[][3] = {{LOAD, 0x3000000000000000u, 17}, {LOAD, LOAD_TILE(0, 0, 0, 3, 15), 12}, {TILE, set_tile(0, 1, 511), 18},
                                {LOAD, LOAD_TILE(0, 0, 0, 3, 1), 0}, {N, 0x3600000000000000u, 10}};
    uint64_t words[13];
    size_t k;
    memcpy(words, work, sizeof work);
    for (k = 0; k < COUNT(last); k++) {
        const unsigned number = (unsigned)last[k][2];
        const size_t n = number == 18 ? 13 : 11;
        words[9] = last[k][0];
        words[10] = last[k][1];
        words[11] = pixels(0, 0, 0, 4, 0);
        words[12] = from_texel(0, 0);
        drawn_as(words, n, MEMORY, 0, number, number == 0 || number == 18 ? 11 : 10, __LINE__);
    }
}

/* ---- Unassigned numbers (document 02, #107): refused by 19 after 4 and before 5, by every function that judges lists. */

static const uint8_t UNASSIGNED[] = {0x01, 0x02, 0x03, 0x04, 0x05, 0x06, 0x07, 0x10, 0x11, 0x12, 0x13, 0x14, 0x15, 0x16,
                                     0x17, 0x18, 0x19, 0x1A, 0x1B, 0x1C, 0x1D, 0x1E, 0x1F, 0x20, 0x21, 0x22, 0x23, 0x31};

/* The word of one of them, with any bits besides, those that are ignored too. */
static uint64_t unassigned_word(size_t i) { return (random_word() & 0xC0FFFFFFFFFFFFFFu) | (uint64_t)UNASSIGNED[i] << 56; }

/* What the check, a repair and a drawing with too little room answer; a refusal leaves the buffers. */
static void judged(size_t length, unsigned number, unsigned place, int line) {
    expect_answer(lanyardrove_check(a_list.bytes, length), number, (unsigned)(length / 8), place, line);
    fresh(&a_work);
    fresh(&an_out);
    expect_answer(lanyardrove_repair(a_list.bytes, length, a_work.bytes, 0, an_out.bytes, 0), number, 0, place, line);
    expect_answer(lanyardrove_repair(a_list.bytes, length, a_work.bytes, ROOM, an_out.bytes, 0), number, 0, place, line);
    expect_answer(lanyardrove_repair(a_list.bytes, length, a_work.bytes, ROOM, an_out.bytes, ROOM), number, 0, place, line);
    fresh(&a_texture);
    expect_answer(draw(length, 64, 0), number, 0, place, line);
    expect_answer(lanyardrove_draw(a_list.bytes, length, an_out.bytes, 64, 0, a_texture.bytes, 0), number, 0, place, line);
    expect(untouched_from(&a_work, 0) && untouched_from(&an_out, 0) && untouched_from(&a_texture, 0), "a refusal leaves all bytes", line);
}
#define JUDGED(length, number, place) judged((length), (number), (place), __LINE__)

/* A list with one of them, which is the last command that counts. */
static void one_unassigned(uint64_t u) {
    const uint64_t first[] = {u, N}, after_full[] = {N, FULL, u}, after_that[] = {FULL, N, u}, full_after[] = {u, FULL, N};
    const uint64_t before_bare[] = {u, R}, after_bare[] = {R, u}, four_bits[] = {S1, 0x3F00000700000000u, S3, u, R};
    const uint64_t before_cut[] = {S, u, TEXTURED}, last[] = {S, C, R, u}, inside[] = {S, C, TEXTURED, u};
    const uint64_t one_cycle[] = {0x2F00000000000000u, S2, S3, R, u}, misaligned[] = {S1, 0x3F10000700000020u, S3, R, u};
    JUDGED(LIST(first), 19, 0);
    JUDGED(LIST(first) - 1, 2, 1);
    JUDGED(LIST(after_full), 4, 2);
    JUDGED(LIST(after_that), 4, 1);
    JUDGED(LIST(full_after), 19, 0);
    JUDGED(LIST(before_bare), 19, 0);
    JUDGED(LIST(after_bare), 5, 0);
    JUDGED(LIST(four_bits), 19, 3);
    JUDGED(LIST(before_cut), 19, 3); /* it has one word and is never cut itself */
    JUDGED(LIST(before_cut) - 8, 19, 3);
    JUDGED(LIST(last), 19, 5);
    JUDGED(LIST(one_cycle), 19, 4);  /* before 10 */
    JUDGED(LIST(misaligned), 19, 4); /* before 11 */
    ANSWERS(lanyardrove_check(a_list.bytes, LIST(inside)), 0, 6, 6); /* the second word of a command is no number */
}

/* A missing sync before it is refused first, but by the repair, which would insert it: there 19 stays. */
static void unassigned_and_syncs(uint64_t u) {
    const uint64_t missing[] = {S, R, C, u}, passed[] = {S, R, u, C};
    const size_t length = LIST(missing);
    ANSWERS(lanyardrove_check(a_list.bytes, length), 9, 3, 4);
    REPAIR_REFUSES(length, 19, 5);
    fresh(&an_out);
    fresh(&a_texture);
    ANSWERS(draw(length, 64, 0), 9, 0, 4);
    CHECK(untouched_from(&an_out, 0) && untouched_from(&a_texture, 0));
    JUDGED(LIST(passed), 19, 4);
}

static void unassigned_numbers(void) {
    const uint64_t nothing[] = {0x00FFFFFFFFFFFFFFu, 0xC000000000000000u};
    size_t i;
    CHECK(sizeof UNASSIGNED == 28);
    for (i = 0; i < sizeof UNASSIGNED; i++) {
        one_unassigned((uint64_t)UNASSIGNED[i] << 56);
        one_unassigned(unassigned_word(i));
        unassigned_and_syncs(unassigned_word(i));
    }
    ANSWERS(lanyardrove_check(a_list.bytes, LIST(nothing)), 0, 2, 2); /* 0x00 is a no operation, whatever its other bits */
    REPAIRS(nothing, 2, nothing, 0);
    draws(nothing, 2, 0, 0, 0, 2, NULL, 0, __LINE__);
    fresh(&a_list);
    memset(a_list.bytes, 0x11, 32776);
    ANSWERS(lanyardrove_check(a_list.bytes, 32768), 19, 4096, 0);
    ANSWERS(lanyardrove_check(a_list.bytes, 32776), 1, 4097, 4096);
}

/* ---- Decoding and encoding: every command number. The bit lines are those that document 000 lists; Set Combine Mode as one number
   and the colour image's address of 26 bits are document 01's. */

typedef struct {
    int word, high, low, is_signed;
} Line;

static const Line TRIANGLE[] = {
    {0, 58, 58, 0}, {0, 57, 57, 0}, {0, 56, 56, 0}, {0, 55, 55, 0}, {0, 53, 51, 0}, {0, 50, 48, 0}, {0, 45, 32, 1},
    {0, 29, 16, 1}, {0, 13, 0, 1},  {1, 59, 48, 1}, {1, 47, 32, 0}, {1, 29, 16, 1}, {1, 15, 0, 0},  {2, 59, 48, 1},
    {2, 47, 32, 0}, {2, 29, 16, 1}, {2, 15, 0, 0},  {3, 59, 48, 1}, {3, 47, 32, 0}, {3, 29, 16, 1}, {3, 15, 0, 0}};
static const Line TEXTURE_RECTANGLE[] = {{0, 55, 44, 0}, {0, 43, 32, 0}, {0, 26, 24, 0}, {0, 23, 12, 0}, {0, 11, 0, 0},
                                         {1, 63, 48, 1}, {1, 47, 32, 1}, {1, 31, 16, 1}, {1, 15, 0, 1}};
static const Line KEY_GB[] = {{0, 55, 44, 0}, {0, 43, 32, 0}, {0, 31, 24, 0}, {0, 23, 16, 0}, {0, 15, 8, 0}, {0, 7, 0, 0}};
static const Line KEY_R[] = {{0, 27, 16, 0}, {0, 15, 8, 0}, {0, 7, 0, 0}};
static const Line CONVERT[] = {{0, 53, 45, 0}, {0, 44, 36, 0}, {0, 35, 27, 0}, {0, 26, 18, 0}, {0, 17, 9, 0}, {0, 8, 0, 0}};
static const Line SCISSOR[] = {{0, 55, 44, 0}, {0, 43, 32, 0}, {0, 25, 25, 0}, {0, 24, 24, 0}, {0, 23, 12, 0}, {0, 11, 0, 0}};
static const Line DEPTH[] = {{0, 31, 16, 0}, {0, 15, 0, 0}};
static const Line OTHER_MODES[] = {
    {0, 55, 55, 0}, {0, 53, 52, 0}, {0, 51, 51, 0}, {0, 50, 50, 0}, {0, 49, 49, 0}, {0, 48, 48, 0}, {0, 47, 47, 0}, {0, 46, 46, 0},
    {0, 45, 45, 0}, {0, 44, 44, 0}, {0, 43, 43, 0}, {0, 42, 42, 0}, {0, 41, 41, 0}, {0, 40, 40, 0}, {0, 39, 38, 0}, {0, 37, 36, 0},
    {0, 31, 30, 0}, {0, 29, 28, 0}, {0, 27, 26, 0}, {0, 25, 24, 0}, {0, 23, 22, 0}, {0, 21, 20, 0}, {0, 19, 18, 0}, {0, 17, 16, 0},
    {0, 14, 14, 0}, {0, 13, 13, 0}, {0, 12, 12, 0}, {0, 11, 10, 0}, {0, 9, 8, 0},   {0, 7, 7, 0},   {0, 6, 6, 0},   {0, 5, 5, 0},
    {0, 4, 4, 0},   {0, 3, 3, 0},   {0, 2, 2, 0},   {0, 1, 1, 0},   {0, 0, 0, 0}};
static const Line AREA[] = {{0, 55, 44, 0}, {0, 43, 32, 0}, {0, 26, 24, 0}, {0, 23, 12, 0}, {0, 11, 0, 0}};
static const Line DESCRIPTOR[] = {{0, 55, 53, 0}, {0, 52, 51, 0}, {0, 49, 41, 0}, {0, 40, 32, 0}, {0, 26, 24, 0}, {0, 23, 20, 0}, {0, 19, 19, 0},
                                  {0, 18, 18, 0}, {0, 17, 14, 0}, {0, 13, 10, 0}, {0, 9, 9, 0},   {0, 8, 8, 0},   {0, 7, 4, 0},   {0, 3, 0, 0}};
static const Line RECTANGLE[] = {{0, 55, 44, 0}, {0, 43, 32, 0}, {0, 23, 12, 0}, {0, 11, 0, 0}};
static const Line FILL_COLOR[] = {{0, 31, 0, 0}};
static const Line COLOR[] = {{0, 31, 24, 0}, {0, 23, 16, 0}, {0, 15, 8, 0}, {0, 7, 0, 0}};
static const Line PRIMITIVE_COLOR[] = {{0, 47, 40, 0}, {0, 39, 32, 0}, {0, 31, 24, 0}, {0, 23, 16, 0}, {0, 15, 8, 0}, {0, 7, 0, 0}};
static const Line COMBINE[] = {{0, 55, 0, 0}};
static const Line TEXTURE_IMAGE[] = {{0, 55, 53, 0}, {0, 52, 51, 0}, {0, 41, 32, 0}, {0, 23, 0, 0}};
static const Line DEPTH_IMAGE[] = {{0, 23, 0, 0}};
static const Line COLOR_IMAGE[] = {{0, 55, 53, 0}, {0, 52, 51, 0}, {0, 41, 32, 0}, {0, 25, 0, 0}};

static size_t lines_of(unsigned number, const Line **lines) {
#define LINES(table) (*lines = (table), sizeof(table) / sizeof(Line))
    if (number / 8 == 1) return LINES(TRIANGLE);
    switch (number) {
    case LANYARDROVE_TEXTURE_RECTANGLE: case LANYARDROVE_TEXTURE_RECTANGLE_FLIP: return LINES(TEXTURE_RECTANGLE);
    case LANYARDROVE_SET_KEY_GB: return LINES(KEY_GB);
    case LANYARDROVE_SET_KEY_R: return LINES(KEY_R);
    case LANYARDROVE_SET_CONVERT: return LINES(CONVERT);
    case LANYARDROVE_SET_SCISSOR: return LINES(SCISSOR);
    case LANYARDROVE_SET_PRIMITIVE_DEPTH: return LINES(DEPTH);
    case LANYARDROVE_SET_OTHER_MODES: return LINES(OTHER_MODES);
    case LANYARDROVE_LOAD_TLUT: case LANYARDROVE_SET_TILE_SIZE: case LANYARDROVE_LOAD_BLOCK: case LANYARDROVE_LOAD_TILE: return LINES(AREA);
    case LANYARDROVE_SET_TILE: return LINES(DESCRIPTOR);
    case LANYARDROVE_FILL_RECTANGLE: return LINES(RECTANGLE);
    case LANYARDROVE_SET_FILL_COLOR: return LINES(FILL_COLOR);
    case LANYARDROVE_SET_FOG_COLOR: case LANYARDROVE_SET_BLEND_COLOR: case LANYARDROVE_SET_ENVIRONMENT_COLOR: return LINES(COLOR);
    case LANYARDROVE_SET_PRIMITIVE_COLOR: return LINES(PRIMITIVE_COLOR);
    case LANYARDROVE_SET_COMBINE_MODE: return LINES(COMBINE);
    case LANYARDROVE_SET_TEXTURE_IMAGE: return LINES(TEXTURE_IMAGE);
    case LANYARDROVE_SET_DEPTH_IMAGE: return LINES(DEPTH_IMAGE);
    case LANYARDROVE_SET_COLOR_IMAGE: return LINES(COLOR_IMAGE);
    default: *lines = NULL; return 0;
    }
}

static unsigned words_of(unsigned number) {
    if (number / 8 == 1) return 4 + (number & 4 ? 8 : 0) + (number & 2 ? 8 : 0) + (number & 1 ? 2 : 0);
    return number == LANYARDROVE_TEXTURE_RECTANGLE || number == LANYARDROVE_TEXTURE_RECTANGLE_FLIP ? 2 : 1;
}

static uint64_t mask_of(const Line *l) { return ~(uint64_t)0 >> (63 - (l->high - l->low)); }

/* A field by its line: its bits, carried to 64 bits where signed. */
static uint64_t field_of(const Line *l, const uint64_t *words) {
    uint64_t mask = mask_of(l), v = words[l->word] >> l->low & mask;
    return l->is_signed && v > mask / 2 ? v | ~mask : v;
}

#define FIELDS 48
static uint64_t some_fields[FIELDS];

static void fresh_fields(void) { memset(some_fields, OLD, sizeof some_fields); }

static int fields_untouched_from(size_t k) { return all_are((const uint8_t *)(some_fields + k), sizeof some_fields - 8 * k, OLD); }

static void one_number(unsigned number, uint64_t *words) {
    const Line *lines;
    size_t count = lines_of(number, &lines), k, n = words_of(number), suffix = n > 4 ? 8 * (n - 4) : 0;
    uint64_t kept[22], expected[FIELDS], changed[FIELDS];
    int right = 1;

    /* the words with the unused bits zero */
    for (k = 0; k < n; k++) kept[k] = k < 4 ? 0 : words[k];
    kept[0] = (uint64_t)(number / 8 == 1 ? 8 : number) << 56;
    for (k = 0; k < count; k++) {
        kept[lines[k].word] |= words[lines[k].word] & mask_of(&lines[k]) << lines[k].low;
        expected[k] = field_of(&lines[k], words);
    }

    /* decode: the fields, nothing beyond; too few fields; cut words. It takes as many words as are due */
    CHECK(lanyardrove_words(words[0]) == n);
    list_of(words, n);
    fresh_fields();
    ANSWERS(lanyardrove_decode(a_list.bytes, 8 * n, some_fields, count), 0, number, (unsigned)count);
    for (k = 0; k < count; k++) right = right && some_fields[k] == expected[k];
    CHECK(right && fields_untouched_from(count));
    fresh_fields();
    ANSWERS(lanyardrove_decode(a_list.bytes, ROOM, some_fields, FIELDS), 0, number, (unsigned)count);
    CHECK(fields_untouched_from(count));
    fresh_fields();
    if (count) ANSWERS(lanyardrove_decode(a_list.bytes, 8 * n, some_fields, count - 1), 14, 0, (unsigned)count);
    for (k = 0; k < 8 * n; k++) ANSWERS(lanyardrove_decode(a_list.bytes, k, some_fields, FIELDS), 3, 0, 0);
    CHECK(fields_untouched_from(0));

    /* encode: the words, nothing beyond; and decoded again */
    fresh(&an_out);
    for (k = 0; k < 8 * n; k++) ANSWERS(lanyardrove_encode(number, expected, count, a_list.bytes + 32, suffix, an_out.bytes, k), 14, 0, (unsigned)n);
    CHECK(untouched_from(&an_out, 0));
    ANSWERS(lanyardrove_encode(number, expected, count, a_list.bytes + 32, suffix, an_out.bytes, 8 * n), 0, 0, (unsigned)n);
    CHECK(begins(an_out.bytes, kept, n) && untouched_from(&an_out, 8 * n));
    fresh_fields();
    ANSWERS(lanyardrove_decode(an_out.bytes, 8 * n, some_fields, FIELDS), 0, number, (unsigned)count);
    CHECK(memcmp(some_fields, expected, 8 * count) == 0 && fields_untouched_from(count));

    /* 15: one field more or less, a suffix that is not as long as due, and every field at and beyond its bits */
    fresh(&an_out);
    memcpy(changed, expected, sizeof changed);
    changed[count] = 0;
    ANSWERS(lanyardrove_encode(number, changed, count + 1, a_list.bytes + 32, suffix, an_out.bytes, ROOM), 15, 0, 0);
    if (count) ANSWERS(lanyardrove_encode(number, changed, count - 1, a_list.bytes + 32, suffix, an_out.bytes, ROOM), 15, 0, 0);
    ANSWERS(lanyardrove_encode(number, changed, count, a_list.bytes + 32, suffix + 8, an_out.bytes, ROOM), 15, 0, 0);
    ANSWERS(lanyardrove_encode(number, changed, count, a_list.bytes + 32, suffix + 1, an_out.bytes, ROOM), 15, 0, 0);
    if (suffix) ANSWERS(lanyardrove_encode(number, changed, count, a_list.bytes + 32, suffix - 8, an_out.bytes, ROOM), 15, 0, 0);
    if (suffix) ANSWERS(lanyardrove_encode(number, changed, count, NULL, 0, an_out.bytes, ROOM), 15, 0, 0);
    CHECK(untouched_from(&an_out, 0));
    for (k = 0; k < count; k++) {
        uint64_t mask = mask_of(&lines[k]), most = lines[k].is_signed ? mask / 2 : mask;
        int flag = number / 8 == 1 && k < 3; /* a triangle's flags are those of its number */
        changed[k] = flag ? !expected[k] : most;
        ANSWERS(lanyardrove_encode(number, changed, count, a_list.bytes + 32, suffix, an_out.bytes, ROOM), flag ? 15 : 0, 0, flag ? 0 : (unsigned)n);
        changed[k] = most + 1;
        ANSWERS(lanyardrove_encode(number, changed, count, a_list.bytes + 32, suffix, an_out.bytes, ROOM), 15, 0, 0);
        changed[k] = ~(uint64_t)0; /* -1 */
        ANSWERS(lanyardrove_encode(number, changed, count, a_list.bytes + 32, suffix, an_out.bytes, ROOM), lines[k].is_signed ? 0 : 15, 0,
                lines[k].is_signed ? (unsigned)n : 0);
        if (lines[k].is_signed) {
            changed[k] = ~(mask / 2); /* the least, and one less */
            ANSWERS(lanyardrove_encode(number, changed, count, a_list.bytes + 32, suffix, an_out.bytes, ROOM), 0, 0, (unsigned)n);
            changed[k] = ~(mask / 2) - 1;
            ANSWERS(lanyardrove_encode(number, changed, count, a_list.bytes + 32, suffix, an_out.bytes, ROOM), 15, 0, 0);
        }
        changed[k] = expected[k];
    }
    CHECK(begins(a_list.bytes, words, n) && untouched_from(&a_list, 8 * n));
}

static void every_number(void) {
    uint64_t words[22];
    unsigned number, round, k;
    for (number = 0; number < 64; number++) {
        for (round = 0; round < 20; round++) {
            for (k = 0; k < 22; k++) words[k] = round == 0 ? 0 : round == 1 ? ~(uint64_t)0 : random_word();
            /* bits 63:62 of a command's first word are ignored */
            words[0] = (words[0] & 0xC0FFFFFFFFFFFFFFu) | (uint64_t)number << 56;
            one_number(number, words);
        }
    }
    fresh(&an_out);
    ANSWERS(lanyardrove_encode(64, NULL, 0, NULL, 0, an_out.bytes, ROOM), 15, 0, 0);
    ANSWERS(lanyardrove_encode(UINT32_MAX, NULL, 0, NULL, 0, an_out.bytes, ROOM), 15, 0, 0);
    ANSWERS(lanyardrove_encode(256, NULL, 0, NULL, 0, an_out.bytes, ROOM), 15, 0, 0);
    CHECK(untouched_from(&an_out, 0));
}

/* Lists in blocks of exactly their length, so that a tool that watches memory sees a read or a write beyond them. */
static void exact_blocks(void) {
    static const uint64_t words[] = {S, C, R, PIPE, L, LOAD, R};
    size_t length;
    for (length = 1; length <= 8 * 9; length++) {
        uint8_t *list = (uint8_t *)malloc(length), *work = (uint8_t *)malloc(2 * length), *out = (uint8_t *)malloc(2 * length);
        uint8_t *texture = (uint8_t *)calloc(LANYARDROVE_TEXTURE_BYTES, 1);
        uint64_t *fields = (uint64_t *)malloc(8);
        CHECK(list && work && out && texture && fields);
        if (list && work && out && texture && fields) {
            const unsigned drawn = length % 8 ? 2 : length < 8 * 7 ? 0 : 17; /* L has no texture image */
            list_of(words, 9);
            memcpy(list, a_list.bytes, length);
            memset(work, OLD, 2 * length);
            memset(out, OLD, 2 * length);
            CHECK(lanyardrove_check(list, length) == lanyardrove_check(a_list.bytes, length));
            CHECK(lanyardrove_number(lanyardrove_repair(list, length, work, 2 * length, out, 2 * length)) == (length % 8 ? 2 : 0));
            CHECK(lanyardrove_number(lanyardrove_draw(list, length, out, 2 * length, 0, texture, LANYARDROVE_TEXTURE_BYTES)) == drawn);
            CHECK(lanyardrove_number(lanyardrove_decode(list, length, fields, 1)) == (length < 8 ? 3 : 14));
        }
        free(list);
        free(work);
        free(out);
        free(texture);
        free(fields);
    }
}

/* ---- Lengths: every number, with each setting of the bits 63:62 that are ignored, and any bits below the number. */

static void lengths(void) {
    static const unsigned triangles[] = {4, 6, 12, 14, 12, 14, 20, 22}; /* 0x08 to 0x0F */
    uint64_t number, high;
    unsigned round;
    for (number = 0; number < 64; number++) {
        const uint64_t due = number / 8 == 1 ? triangles[number % 8] : number == LANYARDROVE_TEXTURE_RECTANGLE || number == LANYARDROVE_TEXTURE_RECTANGLE_FLIP ? 2 : 1;
        for (high = 0; high < 4; high++)
            for (round = 0; round < 20; round++) {
                const uint64_t low = round == 0 ? 0 : round == 1 ? ~(uint64_t)0 : random_word();
                CHECK(lanyardrove_words(high << 62 | number << 56 | low >> 8) == due);
            }
    }
    CHECK(lanyardrove_words(UINT64_MAX) == 1);
    CHECK(lanyardrove_words(0x0FFFFFFFFFFFFFFFu) == LANYARDROVE_MOST_WORDS);
}

/* ---- One step of the hazards, by document 01's table of commands and its needs. */

#define P LANYARDROVE_HAZARD_PIPE
#define T LANYARDROVE_HAZARD_TILE
#define D LANYARDROVE_HAZARD_DRAW
#define G LANYARDROVE_HAZARD_LOAD

/* What a kind of command does: the hazards that it sets and that it leaves, the one that it waits for, and the sync that then
   is missing (1 Load, 2 Tile, 3 Pipe). */
typedef struct {
    char kind;
    unsigned sets, leaves, waits_for, sync;
} Kind;

static const Kind KINDS[] = {
    {'.', 0, P | T | D | G, 0, 0},         /* no operation, unassigned or free */
    {'d', P | D, P | T | D | G, G, 1},     /* draw: triangle without texture, Fill Rectangle */
    {'t', P | T | D, P | T | D | G, G, 1}, /* textured draw: triangle with bit 57, texture rectangle */
    {'g', T | G, P | T | D | G, D, 1},     /* load */
    {'s', 0, P | T | D | G, T, 2},         /* Set Tile */
    {'a', 0, P | T | D | G, P, 3},         /* attribute */
    {'1', 0, P | T, 0, 0},                 /* Sync Load */
    {'2', 0, P, 0, 0},                     /* Sync Tile */
    {'3', 0, 0, 0, 0}                      /* Sync Pipe and Sync Full */
};

/* The kind of each command number, eight to a line. */
static const char *const NUMBERS = "........"  /* 0x00 */
                                   "ddttddtt"  /* 0x08 */
                                   "........"  /* 0x10 */
                                   "........"  /* 0x18 */
                                   "....tt13"  /* 0x20 */
                                   "23aaa..a"  /* 0x28 */
                                   "g..ggsda"  /* 0x30 */
                                   "aa.aa.aa"; /* 0x38 */

static const Kind *kind_of(unsigned number) {
    const Kind *kind = KINDS;
    while (kind->kind != NUMBERS[number]) kind++;
    return kind;
}

/* Bits above the low four of the hazards and the low six of the number do not count. */
static void steps(void) {
    static const uint32_t above[] = {0, 0x10, 0x40, 0x80000000u, 0xFFFFFFC0u};
    uint32_t number, hazards;
    size_t i;
    for (number = 0; number < 64; number++)
        for (hazards = 0; hazards < 16; hazards++) {
            const Kind *kind = kind_of(number);
            const unsigned missing = hazards & kind->waits_for ? kind->sync + 4 : 0;
            const unsigned after = (hazards & kind->leaves) | kind->sets;
            for (i = 0; i < sizeof above / sizeof above[0]; i++) {
                ANSWERS(lanyardrove_step(hazards | above[i], number), 0, missing, after);
                ANSWERS(lanyardrove_step(hazards, number | (above[i] & ~(uint32_t)63)), 0, missing, after);
            }
            ANSWERS(lanyardrove_step(hazards | 0xFFFFFFF0u, number | 0xFFFFFFC0u), 0, missing, after);
        }
}

/* A list walked by lengths and steps: the first sync that is missing is the one that the check names. */
static void walk(const uint64_t *words, size_t n, size_t place, unsigned required, unsigned last, int line) {
    uint32_t hazards = 0;
    size_t at, first = n;
    unsigned sync = 0;
    for (at = 0; at < n; at += (size_t)lanyardrove_words(words[at])) {
        const uint64_t answer = lanyardrove_step(hazards, (uint32_t)(words[at] >> 56));
        if (lanyardrove_required(answer) && first == n) {
            first = at;
            sync = lanyardrove_required(answer);
        }
        hazards = lanyardrove_hazards(answer);
    }
    expect(at == n && first == place && sync == required && hazards == last, "the walk of a list", line);
}
#define WALK(words, place, required, last) walk((words), sizeof(words) / 8, (place), (required), (last), __LINE__)

static void walks(void) {
    const uint64_t g[] = {S, R, C}, h_pipe[] = {S, R, PIPE, C}, j[] = {S, R, L, C}, k[] = {S, R, LOAD, L, R};
    const uint64_t tiles[] = {S, TEXTURED, R, LOAD, SET_TILE, FULL}; /* R is the texture rectangle's second word */
    WALK(g, 4, 3, P | D);
    WALK(h_pipe, 6, 0, 0);
    WALK(j, 4, 1, P | T | D | G); /* as if the load had run, and the attribute after it */
    WALK(k, 6, 1, P | T | D | G);
    WALK(tiles, 6, 2, 0);
}
#undef P
#undef T
#undef D
#undef G

/* ---- Lists in portions: the record between guards, all zero before the first portion. */

typedef struct {
    uint8_t before[GUARD];
    struct lanyardrove_stream record;
    uint8_t after[GUARD];
} Guarded;

static Guarded a_stream;

/* The record's own layout, for records that are looked into and damaged on purpose. */
enum { HELD = 256, HELD_COUNT = 432, TAKEN = 436, NUMBER = 440, PLACE = 444, HAZARDS = 448, ENDED = 449, SPARE = 450, WAITED = 452, RECORD = 456 };

#define MOST_WAITED 204800 /* the most cycles of a record: 4,096 times 50 */

static uint8_t *record_bytes(void) { return (uint8_t *)&a_stream.record; }

static void put_number(int at, uint32_t number) { memcpy(record_bytes() + at, &number, sizeof number); }

static uint32_t number_in(int at) {
    uint32_t number;
    memcpy(&number, record_bytes() + at, sizeof number);
    return number;
}

static void fresh_stream(void) {
    memset(&a_stream, OLD, sizeof a_stream);
    memset(&a_stream.record, 0, sizeof a_stream.record);
}

static uint64_t feed(const uint8_t *portion, size_t length) { return lanyardrove_stream_feed(&a_stream.record, portion, length); }

static uint64_t end_stream(void) { return lanyardrove_stream_close(&a_stream.record); }

static int record_is(const struct lanyardrove_stream *record) { return memcmp(&a_stream.record, record, sizeof *record) == 0; }

/* Feeding and closing answer this and leave the record. */
static void repeats(unsigned number, unsigned cycles, unsigned place, int line) {
    const struct lanyardrove_stream kept = a_stream.record;
    expect_answer(feed(a_list.bytes, 8), number, cycles, place, line);
    expect_answer(feed(NULL, 0), number, cycles, place, line);
    expect_answer(end_stream(), number, cycles, place, line);
    expect(record_is(&kept), "the record stays", line);
}
#define REPEATS(number, cycles, place) repeats((number), (cycles), (place), __LINE__)

static unsigned cycles_of(unsigned number) {
    return number == LANYARDROVE_SYNC_LOAD ? 25 : number == LANYARDROVE_SYNC_TILE ? 33 : number == LANYARDROVE_SYNC_PIPE ? 50 : 0;
}

/* What the commands of a_list before a place wait; the sum goes on from an earlier place. */
typedef struct {
    size_t place;
    unsigned cycles;
} Waits;

static void wait_to(Waits *waits, size_t place) {
    while (waits->place < place) {
        const unsigned number = a_list.bytes[8 * waits->place] & 63;
        waits->cycles += cycles_of(number);
        waits->place += words_of(number);
    }
}

/* A list in portions of a length, with an empty one before each, which changes nothing; what closing answers. */
static uint64_t in_portions(size_t length, size_t portion, int line) {
    Waits waits = {0, 0};
    size_t at;
    uint64_t answer, told;
    fresh_stream();
    for (at = 0; at < length; at += portion) {
        const struct lanyardrove_stream kept = a_stream.record;
        answer = feed(NULL, 0);
        expect(record_is(&kept), "an empty portion leaves the record", line);
        told = feed(a_list.bytes + at, length - at < portion ? length - at : portion);
        wait_to(&waits, lanyardrove_place(told));
        expect(lanyardrove_cycles(told) == waits.cycles && number_in(WAITED) == waits.cycles, "the cycles of the accepted commands", line);
        if (lanyardrove_number(answer)) expect(feed(NULL, 0) == answer && record_is(&kept), "a refusal is repeated", line);
    }
    answer = end_stream();
    expect(all_are(a_stream.before, GUARD, OLD) && all_are(a_stream.after, GUARD, OLD), "nothing beside the record is touched", line);
    return answer;
}

/* However a list is cut, closing answers this and the record is the same; closing again repeats it, after a refusal feeding too. */
static void stream_ends(size_t length, unsigned number, unsigned cycles, unsigned place, int line) {
    static const size_t cuts[] = {1, 2, 3, 5, 7, 8, 9, 12, 16, 63, 64, 175, 176, 177};
    struct lanyardrove_stream whole;
    size_t i;
    expect_answer(in_portions(length, ROOM, line), number, cycles, place, line);
    whole = a_stream.record;
    expect_answer(end_stream(), number, cycles, place, line);
    expect(record_is(&whole), "closing twice leaves the record", line);
    if (number) repeats(number, cycles, place, line);
    for (i = 0; i < sizeof cuts / sizeof cuts[0]; i++) {
        expect_answer(in_portions(length, cuts[i], line), number, cycles, place, line);
        expect(record_is(&whole), "every cutting leaves the same record", line);
    }
}
#define STREAM_ENDS(length, number, cycles, place) stream_ends((length), (number), (cycles), (place), __LINE__)

/* Examples A to O: closing answers as the check does. */
static void stream_examples(void) {
    const uint64_t c1[] = {TEXTURED}, f[] = {FULL, N}, g[] = {S, R, C}, h_tile[] = {S, R, TILE, C}, h_pipe[] = {S, R, PIPE, C};
    const uint64_t i[] = {S, C, R}, j[] = {S, R, L, C}, k[] = {S, R, L, R}, m[] = {S, R, N, C};
    const uint64_t o[] = {S1, 0x3F10000600000000u, S3, C, 0x3600000400000004u};

    fresh(&a_list);
    memset(a_list.bytes, 0, 22 * 8);
    STREAM_ENDS(0, 0, 0, 0); /* A */
    STREAM_ENDS(7, 2, 0, 0); /* B */
    put(a_list.bytes, 0x0F00000000000000u);
    STREAM_ENDS(21 * 8, 3, 0, 0); /* D */
    STREAM_ENDS(22 * 8, 5, 0, 0); /* E */
    STREAM_ENDS(LIST(c1), 3, 0, 0);
    STREAM_ENDS(LIST(f), 4, 0, 1);
    STREAM_ENDS(LIST(g), 9, 0, 4);
    STREAM_ENDS(LIST(h_tile), 9, 33, 5);
    STREAM_ENDS(LIST(h_pipe), 0, 50, 6);
    STREAM_ENDS(LIST(i), 0, 0, 5);
    STREAM_ENDS(LIST(j), 7, 0, 4);
    STREAM_ENDS(LIST(k), 7, 0, 4);
    STREAM_ENDS(LIST(m), 9, 0, 5);
    STREAM_ENDS(LIST(o), 0, 0, 5);
    STREAM_ENDS(LIST(g) + 1, 9, 0, 4);  /* complete commands come before 2 */
    ANSWERS(lanyardrove_check(a_list.bytes, 5 * 8 + 1), 2, 5, 5);
    STREAM_ENDS(LIST(g) - 1, 2, 0, 4);  /* a command that is not complete is not judged */
    STREAM_ENDS(LIST(c1) - 1, 2, 0, 0); /* 2 comes before 3 */
    CHECK(begins(a_list.bytes, c1, 1) && untouched_from(&a_list, 8));
}

/* A command is judged with its last byte. Its refusal leaves all else as before its first byte. */
static void stream_refusal(void) {
    const uint64_t words[] = {S, TEXTURED, 0, C, N};
    static const unsigned accepted[] = {0, 1, 2, 3, 3, 5};
    struct lanyardrove_stream before;
    size_t at;

    LIST(words);
    fresh_stream();
    for (at = 0; at < 40; at++) ANSWERS(feed(a_list.bytes + at, 1), 0, 0, accepted[(at + 1) / 8]);
    before = a_stream.record;
    CHECK(record_bytes()[HAZARDS] == (LANYARDROVE_HAZARD_PIPE | LANYARDROVE_HAZARD_TILE | LANYARDROVE_HAZARD_DRAW));
    ANSWERS(feed(a_list.bytes + 40, 7), 0, 0, 5);
    CHECK(number_in(HELD_COUNT) == 7 && number_in(TAKEN) == 47 && memcmp(record_bytes() + HELD, a_list.bytes + 40, 7) == 0);
    ANSWERS(feed(a_list.bytes + 47, 9), 9, 0, 5);
    CHECK(number_in(NUMBER) == 9 && number_in(PLACE) == 5 && number_in(TAKEN) == 40 && number_in(HELD_COUNT) == 0);
    REPEATS(9, 0, 5);
    put_number(NUMBER, 0);
    put_number(PLACE, 0);
    CHECK(record_is(&before));
}

/* Byte 32,769 is refused, with all else as after byte 32,768; an empty portion is not, and commands before it are judged first. */
static void stream_over_limit(void) {
    struct lanyardrove_stream full;
    fresh(&a_list);
    memset(a_list.bytes, 0, 32784);
    fresh_stream();
    ANSWERS(feed(a_list.bytes, 32768), 0, 0, 4096);
    full = a_stream.record;
    ANSWERS(feed(NULL, 0), 0, 0, 4096);
    CHECK(record_is(&full));
    ANSWERS(feed(a_list.bytes, 1), 1, 0, 4096);
    CHECK(number_in(NUMBER) == 1 && number_in(PLACE) == 4096);
    REPEATS(1, 0, 4096);
    put_number(NUMBER, 0);
    put_number(PLACE, 0);
    CHECK(record_is(&full));
    STREAM_ENDS(32768, 0, 0, 4096);
    STREAM_ENDS(32769, 1, 0, 4096);
    put(a_list.bytes + 32760, TEXTURED); /* a command across the limit is never complete */
    STREAM_ENDS(32768, 3, 0, 4095);
    STREAM_ENDS(32784, 1, 0, 4096);
    put(a_list.bytes + 32752, R);
    STREAM_ENDS(32784, 5, 0, 4094);
}

/* 28 at 0 by one reason, whatever is remembered; and not after the reason is gone. */
static void damaged(int at, uint32_t number, int line) {
    static const unsigned remembered[] = {0, 1, 3, 9, LANYARDROVE_UNASSIGNED};
    const struct lanyardrove_stream sound = a_stream.record;
    size_t i;
    for (i = 0; i < sizeof remembered / sizeof remembered[0]; i++) {
        a_stream.record = sound;
        put_number(NUMBER, remembered[i]);
        if (at < HELD_COUNT)
            record_bytes()[at] = (uint8_t)number;
        else
            put_number(at, number);
        repeats(28, 0, 0, line);
    }
    a_stream.record = sound;
}
#define DAMAGED(at, number) damaged((at), (number), __LINE__)

/* Each reason of 28, on a record of three words taken and the 175 bytes that can be held of a triangle. */
static void stream_damage(void) {
    uint64_t words[25] = {S, 0x0F00000000000000u};
    uint32_t number;
    list_of(words, 25);
    fresh_stream();
    ANSWERS(feed(a_list.bytes, 24 + 175), 0, 0, 3);
    DAMAGED(HELD_COUNT, 176); /* over 175 held bytes */
    DAMAGED(HELD_COUNT, 0xFFFFFFFFu);
    DAMAGED(HELD + 175, 1);   /* a byte past them that is not zero */
    DAMAGED(HELD, 0x0E);      /* they already make a command */
    DAMAGED(TAKEN, 32769);    /* over 32,768 taken */
    DAMAGED(TAKEN, 0xFFFFFFFFu);
    DAMAGED(TAKEN, 174);      /* taken less held below 0 */
    DAMAGED(TAKEN, 198);      /* no multiple of 8 */
    DAMAGED(HELD_COUNT, 174);
    DAMAGED(NUMBER, 0x100);
    DAMAGED(NUMBER, 0x113); /* its low byte alone is 19 */
    DAMAGED(NUMBER, 0x80000000u);
    DAMAGED(WAITED, MOST_WAITED + 1);
    DAMAGED(WAITED, 0xFFFFFFFFu);
    put_number(PLACE, 0xFFFFFFFFu); /* the remembered place is not judged */
    for (number = 1; number < 256; number++)
        if (number <= 9 || number == LANYARDROVE_UNASSIGNED) {
            put_number(NUMBER, number);
            REPEATS(number, 0, 0xFFFFFFFFu);
        } else
            DAMAGED(NUMBER, number); /* these calls do not give it */
    put_number(NUMBER, 0);
    put_number(TAKEN, 175); /* nothing but the held bytes */
    ANSWERS(end_stream(), 2, 0, 21);
    fresh_stream();
    record_bytes()[HELD] = 1;
    REPEATS(28, 0, 0);
}

/* 19 comes with the word's last byte, is remembered and repeated, and leaves all else as before the word. */
static void stream_unassigned(void) {
    size_t i;
    for (i = 0; i < sizeof UNASSIGNED; i++) {
        const uint64_t words[] = {S, R, PIPE, unassigned_word(i), C}, after_full[] = {TILE, FULL, unassigned_word(i)};
        const uint64_t before_bare[] = {unassigned_word(i), R};
        struct lanyardrove_stream before;
        LIST(words);
        fresh_stream();
        ANSWERS(feed(a_list.bytes, 40), 0, 50, 5);
        before = a_stream.record;
        ANSWERS(feed(a_list.bytes + 40, 7), 0, 50, 5);
        ANSWERS(feed(a_list.bytes + 47, 9), 19, 50, 5);
        REPEATS(19, 50, 5);
        put_number(NUMBER, 0);
        put_number(PLACE, 0);
        CHECK(record_is(&before));
        STREAM_ENDS(LIST(words), 19, 50, 5);
        STREAM_ENDS(LIST(words) - 9, 2, 50, 5); /* a word that is not complete is not judged */
        STREAM_ENDS(LIST(words) - 1, 19, 50, 5);
        STREAM_ENDS(LIST(after_full), 4, 33, 2);
        STREAM_ENDS(LIST(before_bare), 19, 0, 0);
    }
}

/* The syncs of accepted commands are counted, by their kind; Sync Full is not, nor is a command that is refused. */
static void stream_cycles(void) {
    const uint64_t words[] = {LOAD, TILE, PIPE, N, LOAD, FULL}, after_full[] = {TILE, FULL, PIPE}, missing[] = {S, R, TILE, L, R, PIPE};
    static const unsigned cycles[] = {0, 25, 58, 108, 108, 133, 133};
    size_t at;
    LIST(words);
    fresh_stream();
    for (at = 0; at < sizeof words; at++) ANSWERS(feed(a_list.bytes + at, 1), 0, cycles[(at + 1) / 8], (unsigned)(at + 1) / 8);
    STREAM_ENDS(LIST(words), 0, 133, 6);
    STREAM_ENDS(LIST(words) - 1, 2, 133, 5);
    STREAM_ENDS(LIST(after_full), 4, 33, 2);
    STREAM_ENDS(LIST(missing), 7, 33, 6);
    fresh(&a_list);
    for (at = 0; at < 4097; at++) put(a_list.bytes + 8 * at, PIPE);
    STREAM_ENDS(32768, 0, MOST_WAITED, 4096);
    STREAM_ENDS(32769, 1, MOST_WAITED, 4096);
}

/* A record at the most cycles is taken, and one call leads it above; then it is refused. Its spare bytes stay through all. */
static void stream_most_cycles(void) {
    const uint64_t words[] = {PIPE, FULL, PIPE};
    LIST(words);
    fresh_stream();
    memset(record_bytes() + SPARE, OLD, 2);
    put_number(WAITED, MOST_WAITED);
    ANSWERS(feed(NULL, 0), 0, MOST_WAITED, 0);
    ANSWERS(end_stream(), 0, MOST_WAITED, 0);
    ANSWERS(feed(a_list.bytes, 8), 0, MOST_WAITED + 50, 1);
    REPEATS(28, 0, 0);
    put_number(WAITED, MOST_WAITED - 7);
    ANSWERS(feed(a_list.bytes + 8, 16), 4, MOST_WAITED - 7, 2);
    REPEATS(4, MOST_WAITED - 7, 2);
    put_number(WAITED, MOST_WAITED + 1);
    REPEATS(28, 0, 0);
    CHECK(all_are(record_bytes() + SPARE, 2, OLD) && number_in(WAITED) == MOST_WAITED + 1);
}

/* Every setting of the bytes is answered, with no byte beside them touched; of the hazards the low four bits count. */
static void stream_any_bytes(void) {
    const uint64_t words[] = {L};
    size_t round, i;
    LIST(words);
    for (round = 0; round < 2000; round++) {
        const uint32_t waited = (uint32_t)(random_word() % (MOST_WAITED + 1));
        uint8_t spare[WAITED - SPARE];
        unsigned number;
        fresh_stream();
        for (i = 0; i < RECORD / 8; i++) a_stream.record.opaque[i] = random_word();
        memcpy(spare, record_bytes() + SPARE, sizeof spare);
        REPEATS(28, 0, 0);
        memset(record_bytes() + HELD, 0, PLACE - HELD);
        put_number(WAITED, waited);
        if (round % 2) record_bytes()[ENDED] = 0;
        number = record_bytes()[ENDED] ? 4 : record_bytes()[HAZARDS] & LANYARDROVE_HAZARD_DRAW ? 7 : 0;
        ANSWERS(feed(a_list.bytes, 8), number, waited, number ? 0 : 1);
        CHECK(memcmp(record_bytes() + SPARE, spare, sizeof spare) == 0 && number_in(WAITED) == waited);
        CHECK(all_are(a_stream.before, GUARD, OLD) && all_are(a_stream.after, GUARD, OLD));
    }
}

/* ---- Images viewed (request #113). */

/* An image in a_list, as the caller says red, green, blue and alpha: with exactly the room needed, with a byte less, and with no memory before and after. */
static void views(size_t at, uint32_t width, uint32_t height, uint32_t size, const uint8_t *rgba, int line) {
    size_t pixels = (size_t)width * height, bytes = pixels << (size - 1);
    const uint8_t *image = a_list.bytes + at;
    uint64_t start;
    fresh(&an_out);
    expect_answer(lanyardrove_view(a_list.bytes, at + bytes, 0, at, width, height, size, an_out.bytes, 4 * pixels - 1), 14, 0, (unsigned)(4 * pixels), line);
    expect_answer(lanyardrove_view(a_list.bytes, at + bytes, 0, at, width, height, size, NULL, 0), 14, 0, (unsigned)(4 * pixels), line);
    expect_answer(lanyardrove_view(a_list.bytes, at + bytes - 1, 0, at, width, height, size, an_out.bytes, ROOM), 12, 0, 0, line);
    expect_answer(lanyardrove_view(image, bytes, at + 1, at, width, height, size, an_out.bytes, ROOM), 12, 0, 0, line);
    expect(untouched_from(&an_out, 0), "a refusal leaves the output", line);
    expect_answer(lanyardrove_view(a_list.bytes, at + bytes, 0, at, width, height, size, an_out.bytes, 4 * pixels), 0, 0, (unsigned)(4 * pixels), line);
    expect(memcmp(an_out.bytes, rgba, 4 * pixels) == 0 && untouched_from(&an_out, 4 * pixels), "the rows, and nothing beyond", line);
    for (start = 0; start < 2; start++) { /* just the image, low and at the end of the addresses */
        uint64_t address = start ? UINT64_MAX - 3 : 5;
        fresh(&an_out);
        expect_answer(lanyardrove_view(image, bytes, address, address, width, height, size, an_out.bytes, ROOM), 0, 0, (unsigned)(4 * pixels), line);
        expect(memcmp(an_out.bytes, rgba, 4 * pixels) == 0 && untouched_from(&an_out, 4 * pixels), "the same of the image alone", line);
    }
}

/* Every value of 8 bits, every value of 16 in parts, and pixels of 32. */
static void viewed_pixels(void) {
    static uint8_t rgba[16384];
    unsigned i, part, bits;
    fresh(&a_list);
    for (i = 0; i < 256; i++) {
        a_list.bytes[3 + i] = (uint8_t)i;
        memset(rgba + 4 * i, (int)i, 3);
        rgba[4 * i + 3] = 255;
    }
    views(3, 256, 1, 1, rgba, __LINE__);
    views(3, 1, 256, 1, rgba, __LINE__);
    views(3, 16, 16, 1, rgba, __LINE__);
    for (part = 0; part < 16; part++) {
        for (i = 0; i < 4096; i++) {
            bits = part << 12 | i;
            a_list.bytes[1 + 2 * i] = (uint8_t)(bits >> 8);
            a_list.bytes[2 + 2 * i] = (uint8_t)bits;
            rgba[4 * i] = (uint8_t)(bits / 2048 * 8 + bits / 8192);
            rgba[4 * i + 1] = (uint8_t)(bits / 64 % 32 * 8 + bits / 256 % 8);
            rgba[4 * i + 2] = (uint8_t)(bits / 2 % 32 * 8 + bits / 8 % 8);
            rgba[4 * i + 3] = bits % 2 ? 255 : 0;
        }
        views(1, 64, 64, 2, rgba, __LINE__);
    }
    for (i = 0; i < 4 * 33; i++) rgba[i] = a_list.bytes[9 + i] = (uint8_t)random_word();
    views(9, 11, 3, 3, rgba, __LINE__);
    CHECK(untouched_from(&a_list, 8193));
}

/* The order 27, 12, 14, the limits of the sides and the size, and the ends of memory and of the addresses. */
static void viewed_limits(void) {
    static const uint32_t wrong_sides[] = {0, 1025, 2048, 65536, 65537, UINT32_MAX}, wrong_sizes[] = {0, 4, 5, 257, 65537, UINT32_MAX};
    const uint64_t far = UINT64_MAX - 7;
    uint32_t i, size;
    fresh(&a_list);
    fresh(&an_out);
    for (i = 0; i < COUNT(wrong_sides); i++) {
        ANSWERS(lanyardrove_view(a_list.bytes, ROOM, 0, 0, wrong_sides[i], 1, 1, an_out.bytes, ROOM), 27, 0, 0);
        ANSWERS(lanyardrove_view(a_list.bytes, ROOM, 0, 0, 1, wrong_sides[i], 2, an_out.bytes, ROOM), 27, 0, 0);
        ANSWERS(lanyardrove_view(a_list.bytes, 0, 1, 0, wrong_sides[i], wrong_sides[i], 3, an_out.bytes, 0), 27, 0, 0);
        ANSWERS(lanyardrove_view(a_list.bytes, ROOM, 0, 0, 1, 1, wrong_sizes[i], an_out.bytes, ROOM), 27, 0, 0);
        ANSWERS(lanyardrove_view(a_list.bytes, 0, 1, 0, 1, 1, wrong_sizes[i], an_out.bytes, 0), 27, 0, 0);
    }
    for (size = 1; size <= 3; size++) { /* eight bytes of memory, at the end of the addresses and beyond it */
        uint32_t pixels = 8u >> (size - 1);
        ANSWERS(lanyardrove_view(a_list.bytes, 8, far, far, pixels, 1, size, an_out.bytes, 0), 14, 0, 4 * pixels);
        ANSWERS(lanyardrove_view(a_list.bytes, 8, far, far, 1, pixels, size, NULL, 0), 14, 0, 4 * pixels);
        ANSWERS(lanyardrove_view(a_list.bytes, 16, far, far, 2 * pixels, 1, size, NULL, 0), 14, 0, 8 * pixels);
        ANSWERS(lanyardrove_view(a_list.bytes, 8, far, far, pixels + 1, 1, size, an_out.bytes, 0), 12, 0, 0);
        ANSWERS(lanyardrove_view(a_list.bytes, 8, far, far + 1, pixels, 1, size, an_out.bytes, 0), 12, 0, 0);
        ANSWERS(lanyardrove_view(a_list.bytes, 8, far, far - 1, pixels, 1, size, an_out.bytes, 0), 12, 0, 0);
        ANSWERS(lanyardrove_view(a_list.bytes, 16, far, 0, 1, 1, size, an_out.bytes, ROOM), 12, 0, 0); /* no sum wraps */
        ANSWERS(lanyardrove_view(a_list.bytes, ROOM, 0, UINT64_MAX, 1, 1, size, an_out.bytes, ROOM), 12, 0, 0);
        ANSWERS(lanyardrove_view(a_list.bytes, 8, 0, 8, 1, 1, size, an_out.bytes, ROOM), 12, 0, 0);
        ANSWERS(lanyardrove_view(a_list.bytes, ROOM, 0, 0, 1024, 1024, size, an_out.bytes, ROOM), 12, 0, 0);
    }
    CHECK(untouched_from(&an_out, 0) && untouched_from(&a_list, 0));
}

/* The largest image, of each size. */
static void viewed_largest(void) {
    const size_t most = (size_t)4 * LANYARDROVE_MOST_SIDE * LANYARDROVE_MOST_SIDE;
    uint8_t *memory = (uint8_t *)malloc(most), *out = (uint8_t *)malloc(most);
    size_t i, wrong = 0;
    uint32_t size;
    CHECK(memory != NULL && out != NULL);
    for (i = 0; i < most; i++) memory[i] = (uint8_t)(i * 7 + i / 4096);
    for (size = 1; size <= 3; size++) {
        size_t bytes = most >> (3 - size), step = (size_t)1 << (size - 1);
        ANSWERS(lanyardrove_view(memory, bytes, 0, 0, 1024, 1024, size, out, most - 1), 14, 0, (unsigned)most);
        ANSWERS(lanyardrove_view(memory, bytes - 1, 0, 0, 1024, 1024, size, out, most), 12, 0, 0);
        ANSWERS(lanyardrove_view(memory, bytes, 0, 0, 1024, 1024, size, out, most), 0, 0, (unsigned)most);
        for (i = 0; i < most / 4; i++) {
            const uint8_t *pixel = memory + i * step;
            wrong += size == 2 ? out[4 * i] != pixel[0] / 8 * 8 + pixel[0] / 32 : out[4 * i] != pixel[0];
            wrong += size == 1 ? out[4 * i + 3] != 255 : size == 2 ? out[4 * i + 3] != pixel[1] % 2 * 255 : out[4 * i + 3] != pixel[3];
        }
    }
    CHECK(wrong == 0);
    free(memory);
    free(out);
}

/* A list and its second repair, drawn and viewed: the same picture. */
static void viewed_afresh(void) {
    const uint64_t words[] = {PIPE, S, C, LOAD, R, PIPE};
    static uint8_t picture[128];
    size_t length = LIST(words), at;
    for (at = 0; at < 2; at++) {
        uint64_t repaired = lanyardrove_repair_afresh(a_list.bytes, length, fresh(&a_work), ROOM, fresh(&an_out), ROOM);
        ANSWERS(repaired, 0, 0, 5);
        if (at) memcpy(a_list.bytes, an_out.bytes, length = 40);
        fresh(&an_out);
        memset(an_out.bytes, 0, 64);
        fresh(&a_texture);
        ANSWERS(draw(length, 64, 0), 0, 0, (unsigned)(length / 8));
        fresh(&a_work);
        ANSWERS(lanyardrove_view(an_out.bytes, 64, 0, 0, 8, 4, 2, a_work.bytes, 128), 0, 0, 128);
        CHECK(untouched_from(&a_work, 128) && untouched_from(&an_out, 64));
        if (at == 0) memcpy(picture, a_work.bytes, 128);
    }
    CHECK(memcmp(picture, a_work.bytes, 128) == 0);
    CHECK(picture[4 * 10] == 255 && picture[4 * 9] == 0 && picture[4 * 9 + 2] == 255 && picture[4 * 9 + 3] == 255 && picture[3] == 0);
}

/* ---- Display lists (document 02, #108, and document 003's formats): a memory of commands, and the RDP list that one stands for. */

#define END 0xDF00000000000000u
#define CALL(offset) (0xDE00000000000000u | (offset))
#define GO(offset) (0xDE01000000000000u | (offset))
#define PIPE_SYNC 0xE700000000000000u
#define TEXRECT 0xE412345678ABCDEFu
#define HALF_1 0xE1FFFFFF00100020u /* the bits above a half-word do not count */
#define HALF_2 0xF1FFFFFF04000400u

/* A display list in a_list from an offset: the words written, with exactly the room needed, and 14 with a byte less. */
static void translates(size_t length, uint32_t start, const uint64_t *written, size_t m, unsigned read, int line) {
    fresh(&an_out);
    if (m) expect_answer(lanyardrove_translate(a_list.bytes, length, start, an_out.bytes, 8 * m - 1), 14, read, (unsigned)m, line);
    if (m) expect_answer(lanyardrove_translate(a_list.bytes, length, start, NULL, 0), 14, read, (unsigned)m, line);
    expect(untouched_from(&an_out, 0), "14 leaves the output", line);
    expect_answer(lanyardrove_translate(a_list.bytes, length, start, an_out.bytes, 8 * m), 0, read, (unsigned)m, line);
    expect(begins(an_out.bytes, written, m) && untouched_from(&an_out, 8 * m), "the words, and nothing beyond", line);
    fresh(&an_out);
    expect_answer(lanyardrove_translate(a_list.bytes, length, start, an_out.bytes, ROOM), 0, read, (unsigned)m, line);
    expect(begins(an_out.bytes, written, m) && untouched_from(&an_out, 8 * m), "the words, with room to spare", line);
    expect(untouched_from(&a_list, length), "nothing beside the memory", line);
}
#define TRANSLATES(words, written, read) translates(LIST(words), 0, (written), COUNT(written), (read), __LINE__)

/* The refusal, with room and without. */
static void translate_refuses(size_t length, uint32_t start, unsigned number, unsigned place, unsigned read, int line) {
    fresh(&an_out);
    expect_answer(lanyardrove_translate(a_list.bytes, length, start, an_out.bytes, ROOM), number, read, place, line);
    expect_answer(lanyardrove_translate(a_list.bytes, length, start, NULL, 0), number, read, place, line);
    expect(untouched_from(&an_out, 0), "a refusal leaves the output", line);
}
#define TRANSLATE_REFUSES(words, number, place, read) translate_refuses(LIST(words), 0, (number), (place), (read), __LINE__)

/* Straight commands, a texture rectangle with its half-words, and where a list begins. */
static void translate_words(void) {
    const uint64_t nothing[] = {END};
    const uint64_t straight[] = {PIPE_SYNC, 0xFF10013F00100000u, 0xF0FFFFFFFFFFFFFFu, END, PIPE_SYNC};
    const uint64_t straight_written[] = {PIPE, 0x3F10013F00100000u, 0x30FFFFFFFFFFFFFFu};
    const uint64_t rectangles[] = {TEXRECT, HALF_1, HALF_2, 0xE500000007000000u, 0xE100000089ABCDEFu, 0xF100000012345678u, END};
    const uint64_t rectangles_written[] = {0x2412345678ABCDEFu, 0x0010002004000400u, 0x2500000007000000u, 0x89ABCDEF12345678u};
    translates(LIST(nothing), 0, NULL, 0, 1, __LINE__);
    TRANSLATES(straight, straight_written, 4);
    translates(LIST(straight), 8, straight_written + 1, 2, 3, __LINE__);
    translates(LIST(straight), 24, NULL, 0, 1, __LINE__);
    TRANSLATES(rectangles, rectangles_written, 7);
    CHECK(begins(a_list.bytes, rectangles, COUNT(rectangles)));
}

/* 0xE2 and 0xE3 change a word each, keep the other, and write the whole setting; 0xEF sets it. Every shift and count is tried. */
static void translate_modes(void) {
    /* the render mode, 29 bits from bit 3 on; the cycle type, 2 bits from bit 20 of the high word on; alpha compare, 2 bits from bit 0 */
    const uint64_t words[] = {0xE200001C00504240u, 0xE3000A0100300000u, 0xE2001E0100000001u, 0xEFABCDEF0123456Fu, 0xE2001E0100000001u, END};
    const uint64_t written[] = {0x2F00000000504240u, 0x2F30000000504240u, 0x2F30000000504241u, 0x2FABCDEF0123456Fu, 0x2FABCDEF0123456Du};
    const uint64_t called[] = {0xEFFFFFFFFFFFFFFFu, CALL(32), 0xE300001F00000000u, END, 0xE2001F0000000000u, END};
    const uint64_t called_written[] = {0x2FFFFFFFFFFFFFFFu, 0x2FFFFFFFFFFFFFFEu, 0x2F000000FFFFFFFEu}; /* the setting lasts over calls */
    uint64_t shift, count;
    TRANSLATES(words, written, 6);
    TRANSLATES(called, called_written, 6);
    for (shift = 0; shift < 256; shift++)
        for (count = 0; count < 256; count++) {
            const uint64_t set = 0xEF00FF00FF00FF00u, data = 0x8000000000000001u * (shift & 1) & 0xFFFFFFFFu; /* bits outside the mask too */
            const uint64_t one[] = {set, 0xE200000000000000u | shift << 40 | count << 32 | data, END};
            const uint64_t cleared = shift + count < 32 ? (((uint64_t)1 << (count + 1)) - 1) << (31 - shift - count) : 0;
            const uint64_t one_written[] = {set & ~((uint64_t)0xC0 << 56), (0x2F00FF00FF00FF00u & ~cleared) | data};
            if (shift + count < 32)
                TRANSLATES(one, one_written, 3);
            else
                TRANSLATE_REFUSES(one, 23, 8, 1);
        }
}

/* Calls return, to eight deep; going for good takes no depth, and its end is that of the list that went. */
static void translate_calls(void) {
    const uint64_t twice[] = {CALL(32), PIPE_SYNC, CALL(32), END, 0xE600000000000000u, END}, twice_written[] = {LOAD, PIPE, LOAD};
    const uint64_t gone[] = {CALL(24), PIPE_SYNC, END, GO(40), PIPE_SYNC, 0xE800000000000000u, END}, gone_written[] = {TILE, PIPE};
    const uint64_t itself[] = {CALL(0), END}, circle[] = {PIPE_SYNC, GO(0)};
    uint64_t deep[22], written[] = {PIPE};
    size_t k;
    TRANSLATES(twice, twice_written, 8);
    TRANSLATES(gone, gone_written, 6);
    for (k = 0; k < 11; k++) { /* list k at 16 * k calls the next */
        deep[2 * k] = CALL(16 * (k + 1));
        deep[2 * k + 1] = END;
    }
    TRANSLATE_REFUSES(deep, 23, 128, 8);
    deep[16] = PIPE_SYNC;
    TRANSLATES(deep, written, 18);
    translate_refuses(LIST(deep), 17, 20, 17, 0, __LINE__);
    deep[0] = GO(16); /* a call fewer is open */
    deep[16] = CALL(144);
    deep[18] = PIPE_SYNC;
    TRANSLATES(deep, written, 1 + 8 + 2 + 8);
    TRANSLATE_REFUSES(itself, 23, 0, 8);
    TRANSLATE_REFUSES(circle, 21, 0, 4096);
}

/* Each half-word is judged at its own offset; the rectangle counts as read, and a half-word that is refused does not. */
static void translate_half_words(void) {
    static const uint64_t others[] = {END, HALF_2, PIPE_SYNC, TEXRECT, GO(0), 0xFD00000001000000u, N};
    size_t k;
    for (k = 0; k < COUNT(others); k++) {
        const uint64_t first[] = {TEXRECT, others[k], HALF_2, END}, second[] = {TEXRECT, HALF_1, others[k] == HALF_2 ? HALF_1 : others[k], END};
        TRANSLATE_REFUSES(first, 22, 8, 1);
        TRANSLATE_REFUSES(second, 22, 16, 2);
        translate_refuses(LIST(first) - 24, 0, 20, 8, 1, __LINE__);
        translate_refuses(LIST(first) - 17, 0, 20, 8, 1, __LINE__);
        translate_refuses(LIST(second) - 16, 0, 20, 16, 2, __LINE__);
    }
}

/* Every number, as the first command: those that 02 names, and 22. */
static void translate_numbers(void) {
    uint64_t number;
    for (number = 0; number < 256; number++) {
        const uint64_t words[] = {number << 56 | 0x0001020300000000u, HALF_1, HALF_2, END};
        const uint64_t as_command[] = {number << 58 >> 2 | 0x0001020300000000u};
        if (number == 0xDF)
            translates(LIST(words), 0, NULL, 0, 1, __LINE__);
        else if (number == 0xE4 || number == 0xE5)
            CHECK(lanyardrove_number(lanyardrove_translate(a_list.bytes, LIST(words), 0, an_out.bytes, ROOM)) == 0);
        else if (number >= 0xE6 && number != 0xF1) {
            TRANSLATE_REFUSES(words, 22, 8, 1); /* a half-word out of place */
            put(a_list.bytes + 8, END);
            translates(sizeof words, 0, as_command, 1, 2, __LINE__);
        } else if (number == 0xDE)
            TRANSLATE_REFUSES(words, 21, 0, 4096); /* its parameter is 01, and it goes to itself */
        else if (number == 0xE2 || number == 0xE3)
            TRANSLATE_REFUSES(words, 22, 8, 1);
        else
            TRANSLATE_REFUSES(words, 22, 0, 0);
    }
}

/* 20: an offset that is no multiple of 8, or a command that is not all in the memory; also where a call or a return leads. */
static void translate_outside(void) {
    const uint64_t words[] = {PIPE_SYNC, END}, to_odd[] = {CALL(12), END}, to_end[] = {GO(16), END}, far_off[] = {PIPE_SYNC, CALL(0xFFFFF8)};
    const uint64_t calls_last[] = {GO(16), END, CALL(8)};
    uint32_t start;
    size_t length;
    for (start = 1; start < 32; start++)
        if (start % 8 || start > 8) translate_refuses(LIST(words), start, 20, start, 0, __LINE__);
    translate_refuses(LIST(words), UINT32_MAX, 20, UINT32_MAX, 0, __LINE__);
    translate_refuses(LIST(words), UINT32_MAX - 7, 20, UINT32_MAX - 7, 0, __LINE__);
    for (length = 0; length < 16; length++) translate_refuses(length, 0, 20, length < 8 ? 0 : 8, length < 8 ? 0 : 1, __LINE__);
    TRANSLATE_REFUSES(to_odd, 20, 12, 1);
    TRANSLATE_REFUSES(to_end, 20, 16, 1);
    TRANSLATE_REFUSES(far_off, 20, 0xFFFFF8, 2);
    TRANSLATE_REFUSES(calls_last, 20, 24, 3);
}

/* 23: addresses with a top byte, of 0xDE and 0xFD to 0xFF alone, and parameters of 0xDE. */
static void translate_settings(void) {
    uint64_t number, parameter, bit;
    for (bit = 0; bit < 32; bit++) {
        const uint64_t address = (uint64_t)1 << bit, called[] = {CALL(address), END}, gone[] = {GO(address), END};
        const unsigned refusal = bit > 23 ? 23 : bit == 3 ? 0 : 20;
        for (number = 0xF2; number < 0x100; number++) {
            const uint64_t words[] = {number << 56 | address, END}, written[] = {number << 58 >> 2 | address};
            if (number > 0xFC && bit > 23)
                TRANSLATE_REFUSES(words, 23, 0, 0);
            else
                TRANSLATES(words, written, 2);
        }
        if (refusal == 0) {
            translates(LIST(called), 0, NULL, 0, 3, __LINE__);
            translates(LIST(gone), 0, NULL, 0, 2, __LINE__);
        } else {
            TRANSLATE_REFUSES(called, refusal, refusal == 23 ? 0 : (unsigned)address, refusal == 23 ? 0 : 1);
            TRANSLATE_REFUSES(gone, refusal, refusal == 23 ? 0 : (unsigned)address, refusal == 23 ? 0 : 1);
        }
    }
    for (parameter = 2; parameter < 256; parameter++) {
        const uint64_t words[] = {CALL(8) | parameter << 48, END};
        TRANSLATE_REFUSES(words, 23, 0, 0);
    }
}

/* A memory of 0xE7 from the first on, so many, and then these commands; its length. */
static size_t after_syncs(size_t count, const uint64_t *last, size_t n) {
    size_t k;
    fresh(&a_list);
    for (k = 0; k < count; k++) put(a_list.bytes + 8 * k, PIPE_SYNC);
    for (k = 0; k < n; k++) put(a_list.bytes + 8 * (count + k), last[k]);
    return 8 * (count + n);
}

/* 4,096 commands are read, half-words among them; at the next 20 comes before 21, and 21 before 22 and 23. */
static void translate_most_commands(void) {
    const uint64_t end[] = {END}, rectangle[] = {TEXRECT, HALF_1, HALF_2, END}, odd[] = {GO(12)}, unnamed[] = {N}, ninth[] = {GO(0xFF000000u)};
    static uint64_t written[4095];
    size_t k;
    for (k = 0; k < COUNT(written); k++) written[k] = PIPE;
    translates(after_syncs(4095, end, 1), 0, written, 4095, 4096, __LINE__);
    translate_refuses(after_syncs(4096, end, 1), 0, 21, 8 * 4096, 4096, __LINE__);
    translate_refuses(after_syncs(4096, end, 0), 0, 20, 8 * 4096, 4096, __LINE__);
    written[4092] = 0x2412345678ABCDEFu;
    written[4093] = 0x0010002004000400u;
    translates(after_syncs(4092, rectangle, 4), 0, written, 4094, 4096, __LINE__);
    translate_refuses(after_syncs(4093, rectangle, 4), 0, 21, 8 * 4096, 4096, __LINE__);
    translate_refuses(after_syncs(4094, rectangle, 4), 0, 21, 8 * 4096, 4096, __LINE__);
    translate_refuses(after_syncs(4095, rectangle, 4), 0, 21, 8 * 4096, 4096, __LINE__);
    translate_refuses(after_syncs(4095, odd, 1), 0, 20, 12, 4096, __LINE__);
    translate_refuses(after_syncs(4096, unnamed, 1), 0, 21, 8 * 4096, 4096, __LINE__);
    translate_refuses(after_syncs(4096, ninth, 1), 0, 21, 8 * 4096, 4096, __LINE__);
    translate_refuses(after_syncs(4095, unnamed, 1), 0, 22, 8 * 4095, 4095, __LINE__);
    translate_refuses(after_syncs(4095, ninth, 1), 0, 23, 8 * 4095, 4095, __LINE__);
}

/* What lies beyond 4,294,967,288 bytes counts as not lent. Two pages are touched; where there is no such block, this is left out. */
static void translate_most_memory(void) {
    const size_t most = 4294967288u;
    uint8_t *memory = sizeof(size_t) > 4 ? (uint8_t *)calloc(most + 64, 1) : NULL;
    if (memory == NULL) return;
    put(memory + most - 8, PIPE_SYNC);
    put(memory + most, END);
    ANSWERS(lanyardrove_translate(memory, most + 64, (uint32_t)(most - 8), NULL, 0), 20, 1, (unsigned)most);
    ANSWERS(lanyardrove_translate(memory, most + 64, (uint32_t)most, NULL, 0), 20, 0, (unsigned)most);
    put(memory + most - 8, END);
    ANSWERS(lanyardrove_translate(memory, most + 64, (uint32_t)(most - 8), NULL, 0), 0, 1, 0);
    ANSWERS(lanyardrove_translate(memory, most, (uint32_t)(most - 8), NULL, 0), 0, 1, 0);
    ANSWERS(lanyardrove_translate(memory, most - 1, (uint32_t)(most - 8), NULL, 0), 20, 0, (unsigned)(most - 8));
    free(memory);
}

/* ---- An index of a list (#111). */

#define MOST_COMMANDS 4096
#define OLD_NUMBER 0xA5A5A5A5u

/* Entries with guards on both sides, and what a walk from the first command on finds. */
static uint32_t index_numbers[16 + LANYARDROVE_INDEX_NUMBERS + 16], *const entries = index_numbers + 16;
static uint32_t places[MOST_COMMANDS + 1], before[MOST_COMMANDS];
static size_t commands;

static void fresh_index(void) {
    size_t i;
    for (i = 0; i < COUNT(index_numbers); i++) index_numbers[i] = OLD_NUMBER;
}

/* Nothing is written from a number on, nor before the entries. */
static int entries_end_at(size_t from) {
    size_t i;
    for (i = 0; i < COUNT(index_numbers); i++)
        if ((i < 16 || i >= 16 + from) && index_numbers[i] != OLD_NUMBER) return 0;
    return 1;
}

/* Walks a_list by the lengths and the steps. */
static void walk_list(size_t length) {
    uint32_t place = 0, hazards = 0;
    for (commands = 0; place < length / 8; commands++) {
        uint64_t word = get(a_list.bytes + 8 * place);
        places[commands] = place;
        before[commands] = hazards;
        hazards = lanyardrove_hazards(lanyardrove_step(hazards, (uint32_t)(word >> 56)));
        place += (uint32_t)lanyardrove_words(word);
    }
    places[commands] = place;
}

/* Whether these are the entries of the commands walked. */
static int are_entries(const uint32_t *found) {
    size_t i;
    for (i = 0; i < commands; i += 64)
        if (found[i / 32] != places[i] || found[i / 32 + 1] != before[i]) return 0;
    return 1;
}

/* A list of so many words: random whole commands, mostly of one word, and no operations where none fits; its length in bytes. */
static size_t random_list(size_t most) {
    size_t n = 0, words, i;
    fresh(&a_list);
    while (n < most) {
        uint64_t word = random_word();
        if (random_word() % 4) word = word % 0x0100000000000000u | (0x24 + random_word() % 28) << 56;
        if (n + lanyardrove_words(word) > most) word = N;
        words = (size_t)lanyardrove_words(word);
        put(a_list.bytes + 8 * n, word);
        for (i = 1; i < words; i++) put(a_list.bytes + 8 * (n + i), random_word());
        n += words;
    }
    return 8 * n;
}

/* Builds with just the room, with a number less and with room to spare, and asks at every place. */
static void index_of(size_t length, int line) {
    size_t numbers, i, k = 0;
    walk_list(length);
    numbers = 2 * ((commands + 63) / 64);
    fresh_index();
    if (numbers) expect_answer(lanyardrove_index_build(a_list.bytes, length, entries, numbers - 1), 14, 0, (unsigned)numbers / 2, line);
    expect(entries_end_at(0), "14 leaves the entries", line);
    expect_answer(lanyardrove_index_build(a_list.bytes, length, entries, numbers), 0, 0, (unsigned)numbers / 2, line);
    expect(are_entries(entries) && entries_end_at(numbers), "the entries, and nothing beyond", line);
    fresh_index();
    expect_answer(lanyardrove_index_build(a_list.bytes, length, entries, LANYARDROVE_INDEX_NUMBERS), 0, 0, (unsigned)numbers / 2, line);
    expect(are_entries(entries) && entries_end_at(numbers), "the entries, with room to spare", line);
    for (i = 0; i <= length / 8; i++) {
        uint64_t answer = lanyardrove_index_ask(a_list.bytes, length, entries, numbers, (uint32_t)i);
        if (k < commands && places[k] == i) {
            expect_answer(answer, 0, before[k] + 16 * (unsigned)(k % 64 + 1), (unsigned)i, line);
            k++;
        } else
            expect_answer(answer, commands ? 24 : 26, 0, (unsigned)i, line);
    }
    expect(untouched_from(&a_list, length), "nothing beside the list", line);
}

/* Replaces each command by another of its length, and compares with the index built anew. */
static void replace_each(size_t length, int line) {
    size_t k, all = commands, numbers = 2 * ((all + 63) / 64);
    uint8_t command[8 * LANYARDROVE_MOST_WORDS + 8], old[ROOM];
    for (k = 0; k < all; k++) {
        uint32_t place = places[k];
        size_t words = places[k + 1] - place, i;
        uint64_t first = random_word();
        while (lanyardrove_words(first) != words) first = random_word() % 0x4000000000000000u;
        put(command, first);
        for (i = 8; i < sizeof command; i++) command[i] = (uint8_t)random_word();
        memcpy(old, a_list.bytes, length);
        expect_answer(lanyardrove_index_replace(a_list.bytes, length, entries, numbers, place, command, 8 * words - 1), 3, 0, place, line);
        expect(memcmp(old, a_list.bytes, length) == 0 && are_entries(entries), "3 leaves all", line);
        expect_answer(lanyardrove_index_replace(a_list.bytes, length, entries, numbers, place, command, sizeof command), 0, 0, place, line);
        memcpy(old + 8 * place, command, 8 * words);
        expect(memcmp(old, a_list.bytes, length) == 0, "the command's bytes alone", line);
        walk_list(length);
        expect(commands == all && are_entries(entries) && entries_end_at(numbers), "the entries of the new list", line);
    }
    expect(untouched_from(&a_list, length), "nothing beside the list", line);
}

static void index_every_place(void) {
    const size_t lengths[] = {0, 1, 2, 63, 64, 65, 127, 128, 129, 1000, 4095, 4096};
    size_t i, j;
    for (i = 0; i < COUNT(lengths); i++) index_of(random_list(lengths[i]), __LINE__);
    fresh(&a_list);
    for (j = 0; j < 4096; j++) put(a_list.bytes + 8 * j, j % 3 ? R : j % 2 ? L : PIPE);
    index_of(32768, __LINE__); /* 64 entries, the most */
    for (i = 0; i < 12; i++) {
        size_t length = random_list(1 + (size_t)(random_word() % 400));
        index_of(length, __LINE__);
        replace_each(length, __LINE__);
    }
}

/* Building, a question and a replacement at the lists that they refuse, and the order of their refusals. */
static void index_refusals(void) {
    const uint64_t three[] = {R, L, C}, cut[] = {R, 0x0800000000000000u, 0, 0}, longer[] = {R, TEXTURED, 0, C};
    const uint8_t sync[8] = {0x27}, rectangle[16] = {0x24};
    size_t n;
    fresh_index();
    fresh(&a_list);
    ANSWERS(lanyardrove_index_build(a_list.bytes, 32776, entries, 0), 1, 0, 4096);
    ANSWERS(lanyardrove_index_ask(a_list.bytes, 32769, entries, 0, 5), 1, 0, 4096);
    ANSWERS(lanyardrove_index_replace(a_list.bytes, 32776, entries, 0, 5, NULL, 0), 1, 0, 4096);
    ANSWERS(lanyardrove_index_build(a_list.bytes, 23, entries, 0), 2, 0, 2);
    ANSWERS(lanyardrove_index_ask(a_list.bytes, 23, entries, 0, 5), 2, 0, 2);
    ANSWERS(lanyardrove_index_replace(a_list.bytes, 23, entries, 0, 5, NULL, 0), 2, 0, 2);
    n = LIST(cut);
    ANSWERS(lanyardrove_index_build(a_list.bytes, n, entries, 0), 3, 0, 1);
    ANSWERS(lanyardrove_index_replace(a_list.bytes, n, entries, 0, 9, NULL, 0), 3, 0, 1);
    ANSWERS(lanyardrove_index_ask(a_list.bytes, n, entries, 0, 1), 26, 0, 1); /* before 3 */
    entries[0] = 0, entries[1] = 0;
    ANSWERS(lanyardrove_index_ask(a_list.bytes, n, entries, 2, 0), 0, 16, 0);
    ANSWERS(lanyardrove_index_ask(a_list.bytes, n, entries, 2, 1), 3, 0, 1);
    ANSWERS(lanyardrove_index_ask(a_list.bytes, n, entries, 2, 3), 3, 0, 3);
    n = LIST(longer);
    ANSWERS(lanyardrove_index_replace(a_list.bytes, n, entries, 1, 1, NULL, 0), 14, 0, 1);
    ANSWERS(lanyardrove_index_replace(a_list.bytes, n, entries, 2, 2, NULL, 0), 24, 0, 2);
    ANSWERS(lanyardrove_index_replace(a_list.bytes, n, entries, 2, 1, NULL, 0), 3, 0, 1);
    ANSWERS(lanyardrove_index_replace(a_list.bytes, n, entries, 2, 1, rectangle, 15), 3, 0, 1);
    ANSWERS(lanyardrove_index_replace(a_list.bytes, n, entries, 2, 1, sync, 8), 25, 0, 1);
    ANSWERS(lanyardrove_index_replace(a_list.bytes, n, entries, 2, 0, rectangle, 16), 25, 0, 0);
    ANSWERS(lanyardrove_index_replace(a_list.bytes, n, entries, 2, 4, sync, 8), 24, 0, 4);
    CHECK(begins(a_list.bytes, longer, COUNT(longer)) && untouched_from(&a_list, n));
    n = LIST(three);
    ANSWERS(lanyardrove_index_ask(a_list.bytes, n, entries, 2, 2), 0, 15 + 16 * 3, 2);
    ANSWERS(lanyardrove_index_ask(a_list.bytes, n, entries, 2, 3), 24, 0, 3);
    ANSWERS(lanyardrove_index_replace(a_list.bytes, n, entries, 2, 1, sync, 8), 0, 0, 1);
    ANSWERS(lanyardrove_index_ask(a_list.bytes, n, entries, 2, 2), 0, 16 * 3, 2);
}

/* Entries that were not built from the list: unsorted, with hazards that there are not, far off, and inside a command. */
static void index_foreign_entries(void) {
    const uint64_t triangle[] = {N, 0x0800000000000000u, 0, 0, PIPE, R};
    const uint8_t sync[8] = {0x27};
    size_t n = LIST(triangle), i;
    fresh_index();
    entries[0] = 1, entries[1] = 0;
    ANSWERS(lanyardrove_index_ask(a_list.bytes, n, entries, 2, 0), 26, 0, 0); /* beyond the place */
    ANSWERS(lanyardrove_index_ask(a_list.bytes, n, entries, 1, 1), 26, 0, 1); /* half an entry */
    entries[0] = 0, entries[1] = 16;
    ANSWERS(lanyardrove_index_ask(a_list.bytes, n, entries, 2, 0), 26, 0, 0);
    entries[1] = 9, entries[2] = 5, entries[3] = 0, entries[4] = 1, entries[5] = 6;
    ANSWERS(lanyardrove_index_ask(a_list.bytes, n, entries, 6, 5), 0, 7 + 16 * 2, 5); /* the last of the three that are not beyond */
    ANSWERS(lanyardrove_index_ask(a_list.bytes, n, entries, 4, 5), 0, 16, 5);
    ANSWERS(lanyardrove_index_ask(a_list.bytes, n, entries, 2, 5), 0, 13 + 16 * 3, 5); /* entry hazards as they stand */
    ANSWERS(lanyardrove_index_ask(a_list.bytes, n, entries, 4, 1), 0, 9 + 16 * 2, 1);
    entries[0] = UINT32_MAX, entries[1] = 0;
    ANSWERS(lanyardrove_index_ask(a_list.bytes, n, entries, 2, UINT32_MAX), 24, 0, UINT32_MAX); /* outside the list */
    entries[0] = 4; /* the triangle's last word, which looks like a Sync Pipe */
    ANSWERS(lanyardrove_index_ask(a_list.bytes, n, entries, 2, 4), 0, 16, 4);
    ANSWERS(lanyardrove_index_replace(a_list.bytes, n, entries, 2, 4, sync, 8), 24, 0, 4);
    CHECK(begins(a_list.bytes, triangle, COUNT(triangle)) && entries[0] == 4 && entries[1] == 0);
    ANSWERS(lanyardrove_index_replace(a_list.bytes, n, entries, 2, 5, sync, 8), 0, 0, 5);
    CHECK(entries[0] == 4 && get(a_list.bytes + 40) == PIPE); /* the only entry is the command's own */

    fresh(&a_list);
    for (i = 0; i < 200; i++) put(a_list.bytes + 8 * i, N);
    for (i = 0; i < 8; i++) entries[i] = 0;
    ANSWERS(lanyardrove_index_ask(a_list.bytes, 1600, entries, 8, 63), 0, 16 * 64, 63);
    ANSWERS(lanyardrove_index_ask(a_list.bytes, 1600, entries, 8, 64), 24, 0, 64); /* more than 64 commands on */
    ANSWERS(lanyardrove_index_replace(a_list.bytes, 1600, entries, 8, 40, sync, 8), 0, 0, 40);
    CHECK(entries[0] == 0 && entries[2] == 64 && entries[4] == 128 && entries[6] == 192); /* the later ones are as built */
}

int main(void) {
    parts();
    null_pointers();
    check_lists();
    check_causes();
    check_most_words();
    repair_lists();
    random_repairs();
    repair_lists_afresh();
    random_repairs_afresh();
    compared_lists();
    compared_bits();
    draw_lists();
    load_and_copy();
    load_a_block();
    later_bytes_stay();
    kept_pixels();
    texture_length();
    drawn_or_not();
    copy_needs();
    load_needs();
    order_at_an_act();
    edges_of_memory();
    edges_of_texture();
    refused_after_work();
    unassigned_numbers();
    every_number();
    exact_blocks();
    lengths();
    steps();
    walks();
    stream_examples();
    stream_refusal();
    stream_over_limit();
    stream_damage();
    stream_unassigned();
    stream_cycles();
    stream_most_cycles();
    stream_any_bytes();
    viewed_pixels();
    viewed_limits();
    viewed_largest();
    viewed_afresh();
    translate_words();
    translate_modes();
    translate_calls();
    translate_half_words();
    translate_numbers();
    translate_outside();
    translate_settings();
    translate_most_commands();
    translate_most_memory();
    index_every_place();
    index_refusals();
    index_foreign_entries();
    if (failures)
        printf("test_boundary: %lu checks, %lu FAILED\n", checks, failures);
    else
        printf("test_boundary: %lu checks, all passed\n", checks);
    return failures ? 1 : 0;
}
