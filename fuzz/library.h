// The C functions under test, and the parts of their answers.
#ifndef FUZZ_LIBRARY_H
#define FUZZ_LIBRARY_H
#include <stddef.h>
#include <stdint.h>

#if __has_include("lanyardrove.h")
#include "lanyardrove.h"
#else
uint64_t lanyardrove_check(const uint8_t *list, size_t list_length);
uint64_t lanyardrove_repair(const uint8_t *list, size_t list_length, uint8_t *work, size_t work_length, uint8_t *out, size_t out_length);
uint64_t lanyardrove_repair_afresh(const uint8_t *list, size_t list_length, uint8_t *work, size_t work_length, uint8_t *out, size_t out_length);
uint64_t lanyardrove_draw(const uint8_t *list, size_t list_length, uint8_t *memory, size_t memory_length, uint64_t start, uint8_t *texture,
                          size_t texture_length);
uint64_t lanyardrove_compare(const uint8_t *first, size_t first_length, const uint8_t *second, size_t second_length, uint32_t *entries, size_t count);
uint64_t lanyardrove_rest(const uint8_t *first, size_t first_length, const uint8_t *second, size_t second_length, size_t count);
uint64_t lanyardrove_view(const uint8_t *memory, size_t memory_length, uint64_t start, uint64_t address, uint32_t width, uint32_t height, uint32_t size,
                          uint8_t *out, size_t out_length);
uint64_t lanyardrove_translate(const uint8_t *memory, size_t memory_length, uint32_t start, uint8_t *out, size_t out_length);
uint64_t lanyardrove_decode(const uint8_t *list, size_t list_length, uint64_t *fields, size_t count);
uint64_t lanyardrove_index_build(const uint8_t *list, size_t list_length, uint32_t *entries, size_t count);
uint64_t lanyardrove_index_ask(const uint8_t *list, size_t list_length, const uint32_t *entries, size_t count, uint32_t place);
uint64_t lanyardrove_index_replace(uint8_t *list, size_t list_length, uint32_t *entries, size_t count, uint32_t place, const uint8_t *command,
                                   size_t command_length);
uint64_t lanyardrove_encode(uint32_t number, const uint64_t *fields, size_t count, const uint8_t *suffix, size_t suffix_length, uint8_t *out,
                            size_t out_length);
uint64_t lanyardrove_words(uint64_t first_word);
uint64_t lanyardrove_step(uint32_t hazards, uint32_t number);
struct lanyardrove_stream;
uint64_t lanyardrove_stream_feed(struct lanyardrove_stream *stream, const uint8_t *portion, size_t portion_length);
uint64_t lanyardrove_stream_close(struct lanyardrove_stream *stream);
#endif

static inline unsigned number_of(uint64_t answer) { return (unsigned)(answer >> 56); }
static inline unsigned third_of(uint64_t answer) { return (unsigned)(answer >> 32) & 0xFFFFFF; }
static inline uint32_t place_of(uint64_t answer) { return (uint32_t)answer; }

#endif
