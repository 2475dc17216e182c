/* The plain C version, against which the library is measured. The functions take and answer what the library's do. */
#ifndef PLAIN_H
#define PLAIN_H

#include <stddef.h>
#include <stdint.h>

/* Every answer is one number: bits 63:56 the number of the refusal or 0, bits 55:32 the cause of a check, the cycles of a repair or
   those that a stream has waited, bits 31:0 the place. */
uint64_t plain_check(const uint8_t *list, size_t list_length);
uint64_t plain_repair(const uint8_t *list, size_t list_length, uint8_t *work, size_t work_length, uint8_t *out, size_t out_length);
uint64_t plain_repair_afresh(const uint8_t *list, size_t list_length, uint8_t *work, size_t work_length, uint8_t *out, size_t out_length);
uint64_t plain_draw(const uint8_t *list, size_t list_length, uint8_t *memory, size_t memory_length, uint64_t start, uint8_t *texture,
                    size_t texture_length);

/* A list in portions: the caller's record has 456 bytes, all zero before the first portion. */
struct plain_stream;
uint64_t plain_stream_feed(struct plain_stream *stream, const uint8_t *portion, size_t portion_length);
uint64_t plain_stream_close(struct plain_stream *stream);

/* The hazards before the command at a place, by a full walk; answered as lanyardrove_index_ask does by entries of this list. */
uint64_t plain_index_ask(const uint8_t *list, size_t list_length, const uint32_t *entries, size_t count, uint32_t place);

/* The RDP list of a display list in memory; bits 55:32 are the display list commands read. */
uint64_t plain_translate(const uint8_t *memory, size_t memory_length, uint32_t start, uint8_t *out, size_t out_length);

/* Two lists compared, four numbers an entry, and the rest of the longer one: bits 55:32 say which that is. */
uint64_t plain_compare(const uint8_t *first, size_t first_length, const uint8_t *second, size_t second_length, uint32_t *entries, size_t count);
uint64_t plain_rest(const uint8_t *first, size_t first_length, const uint8_t *second, size_t second_length, size_t count);

/* An image in memory as rows of red, green, blue and alpha. */
uint64_t plain_view(const uint8_t *memory, size_t memory_length, uint64_t start, uint64_t address, uint32_t width, uint32_t height, uint32_t size,
                    uint8_t *out, size_t out_length);

/* The check's answer and the registers after a list, as one number: what lanyardrove_bench_registers of crates/rdp_bench answers. */
uint64_t plain_registers(const uint8_t *list, size_t list_length);

#endif
