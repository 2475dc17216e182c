/*
 * Lanyardrove: checks, repairs, compares, indexes, draws, decodes and encodes command lists of the Nintendo 64's display
 * processor (RDP), shows the images that they draw, and translates the display lists of games into them.
 *
 * Link with build/liblanyardrove.a (`make`) and the C library. The functions allocate nothing, keep no state between calls,
 * use less than 8 KiB of stack and touch only the bytes that they are lent, so calls on different buffers may run at the
 * same time. Lists that are only read may be shared.
 *
 * A list is 64-bit words, most significant byte first, at any alignment. Places are counted in words from 0.
 *
 * Lent bytes. Each buffer is a pointer and a length, in bytes for bytes and in elements for numbers of 32 or 64 bits; the
 * pointer may be null where the length is 0. Pointers to numbers are aligned as the platform asks, no buffer is longer
 * than PTRDIFF_MAX bytes, and a buffer that is written overlaps no other buffer of the call: C cannot check these three,
 * and they are the caller's to keep. Every content and every length is otherwise allowed. A record is lent by its pointer,
 * which is never null.
 *
 * Answers. Each function but lanyardrove_version and lanyardrove_words answers one 64-bit number, whose parts
 * lanyardrove_number, lanyardrove_place and lanyardrove_third give (or by their meaning _cause, _cycles, _command,
 * _commands_read, _list, _hazards, _required, _hazards_before, _index_read). Number 0 says that all went well; any other is
 * the first refusal that holds, in this order unless the function's description gives another: 1 and 2 of the list, then
 * command by command 3, 4, 19, 5, 6 and 7 to 9, then those that the function adds. A refusal leaves every byte as it was, but
 * for the repair's work buffer at 14 and a stream's record, which remembers it.
 */
#ifndef LANYARDROVE_H
#define LANYARDROVE_H

#include <stddef.h>
#include <stdint.h>

#ifdef __cplusplus
extern "C" {
#endif

/* The version of this header: major, minor and patch number, eight bits each. The archive and the header belong together
   where this equals what lanyardrove_version() answers: compare the two once, before the first call.
   A release steps the major number where a function of the last release is gone, takes other parameters, or answers or
   writes anything else for some input; else the minor number where a function is added; else the patch number. The numbers
   after the one that steps become 0. */
#define LANYARDROVE_VERSION 0x070100

uint32_t lanyardrove_version(void);

/* The number of an answer, with the place that it has. */
enum lanyardrove_ground {
    LANYARDROVE_ACCEPTED = 0,           /* Accepted; the place is the words of the list, or what the function says. */
    LANYARDROVE_TOO_LONG = 1,           /* The list is over 32,768 bytes (repair: 16,384); place 4,096 (repair: 2,048). */
    LANYARDROVE_NOT_WORDS = 2,          /* The byte length is no multiple of 8; place length / 8, rounded down. */
    LANYARDROVE_PAST_END = 3,           /* A command runs past the end of the list; place its first word. Decoding: place 0.
                                           Index: a command that a question reads, or a new one, is cut; the place asked. */
    LANYARDROVE_AFTER_SYNC_FULL = 4,    /* A command stands after a Sync Full; place its first word. */
    LANYARDROVE_NOT_SET = 5,            /* A draw with modes, colour image or scissor not set in this list; its first word. */
    LANYARDROVE_FILL_ON_FOUR_BITS = 6,  /* A draw in FILL mode on a 4-bit image, which crashes a console; its first word. */
    LANYARDROVE_SYNC_LOAD_MISSING = 7,  /* A Sync Load is missing before the command at the place. */
    LANYARDROVE_SYNC_TILE_MISSING = 8,  /* A Sync Tile is missing before the command at the place. */
    LANYARDROVE_SYNC_PIPE_MISSING = 9,  /* A Sync Pipe is missing before the command at the place. */
    LANYARDROVE_NOT_A_FILL = 10,        /* Drawing: any draw but a Fill Rectangle in FILL mode or a Texture Rectangle (0x24)
                                           in COPY mode; place its first word. */
    LANYARDROVE_MISALIGNED = 11,        /* Drawing: the colour image's address is no multiple of 64; the draw's first word. */
    LANYARDROVE_OUTSIDE_MEMORY = 12,    /* Drawing: a byte of a kept pixel or a loaded texel is outside the memory; the draw's
                                           or load's first word. Viewing: a byte of the image is; place 0. */
    LANYARDROVE_WORK_TOO_SHORT = 13,    /* Repair: the work buffer is below 16 bytes a command; place the commands. */
    LANYARDROVE_OUTPUT_TOO_SHORT = 14,  /* The output is too short for all that would be written; place what is needed. */
    LANYARDROVE_NOT_ENCODABLE = 15,     /* Encoding: a field exceeds its bits, the number is none of 0 to 63, or the fields or
                                           suffix bytes are not as many as are due; place 0. */
    LANYARDROVE_TEXTURE_LENGTH = 16,    /* Drawing: the texture memory is not 4,096 bytes long; place 0. */
    LANYARDROVE_NOT_COPYABLE = 17,      /* Drawing: a load or COPY rectangle that is none of those that lanyardrove_draw
                                           describes; place its first word. */
    LANYARDROVE_OUTSIDE_TEXTURE = 18,   /* Drawing: a byte loaded to, or read for a kept pixel, is outside the texture memory;
                                           the draw's or load's first word. */
    LANYARDROVE_UNASSIGNED = 19,        /* A number that no command has (0x01-0x07, 0x10-0x23, 0x31); place its word. */
    LANYARDROVE_UNREADABLE = 20,        /* Translating: the offset is no multiple of 8, or the command there is not all in the
                                           memory; place the offset. */
    LANYARDROVE_TOO_MANY_COMMANDS = 21, /* Translating: the 4,097th command; place its offset. */
    LANYARDROVE_NOT_TRANSLATABLE = 22,  /* Translating: a number that stands for nothing, or a half-word missing or out of
                                           place; place its offset. */
    LANYARDROVE_INVALID_SETTING = 23,   /* Translating: a ninth call deep, an address, parameter, shift or count that is not
                                           allowed; place the command's offset. */
    LANYARDROVE_NO_COMMAND = 24,        /* Index: no command that is read, or none of the list, starts at the place asked; that
                                           place. */
    LANYARDROVE_LENGTHS_DIFFER = 25,    /* Index: the new command has not as many words as the one at the place; that place. */
    LANYARDROVE_NO_ENTRY = 26,          /* Index: no entry has a place that is not beyond the one asked, or that entry's hazards
                                           are none of 0 to 15; the place asked. */
    LANYARDROVE_NOT_VIEWABLE = 27,      /* Viewing: the width or the height is 0 or above 1,024, or the size is none of 1 to 3;
                                           place 0. */
    LANYARDROVE_RECORD_DAMAGED = 28     /* Stream: the record is damaged, for a reason that lanyardrove_stream_feed lists;
                                           place 0. */
};

/* The parts of an answer: bits 63:56, 31:0 and 55:32. */
static inline uint32_t lanyardrove_number(uint64_t answer) { return (uint32_t)(answer >> 56); }
static inline uint32_t lanyardrove_place(uint64_t answer) { return (uint32_t)answer; }
static inline uint32_t lanyardrove_third(uint64_t answer) { return (uint32_t)(answer >> 32) & 0xFFFFFFu; }

/* The third number by its meaning: the cause that the check gives; the cycles, of a repair those that it inserted, of a repair
   afresh all that the written list waits, of a stream those that its syncs have waited; the number of a decoded command; the
   display list commands that translating has read.
   Those of a repair and of decoding are 0 at a refusal. In the answers of drawing, viewing and encoding the third number is 0.
   Of a step's answer the place is the hazards after it, and the third number's low two bits are the sync required. Of the
   answer of a question to an index the third number has the hazards, and above them the commands read; both are 0 at a
   refusal. */
static inline uint32_t lanyardrove_cause(uint64_t checked) { return lanyardrove_third(checked); }
static inline uint32_t lanyardrove_cycles(uint64_t repaired_or_fed) { return lanyardrove_third(repaired_or_fed); }
static inline uint32_t lanyardrove_command(uint64_t decoded) { return lanyardrove_third(decoded); }
static inline uint32_t lanyardrove_commands_read(uint64_t translated) { return lanyardrove_third(translated); }
static inline uint32_t lanyardrove_list(uint64_t rest) { return lanyardrove_third(rest); }
static inline uint32_t lanyardrove_hazards(uint64_t stepped) { return lanyardrove_place(stepped); }
static inline uint32_t lanyardrove_required(uint64_t stepped) { return lanyardrove_third(stepped) % 4; }
static inline uint32_t lanyardrove_hazards_before(uint64_t asked) { return lanyardrove_third(asked) % 16; }
static inline uint32_t lanyardrove_index_read(uint64_t asked) { return lanyardrove_third(asked) / 16; }

/* The check of a list: 0 at the number of its words, or the first refusal: 1 and 2, then command by command 3, 4, 19, 5, 6 and
   7 to 9. The list is read only.
   The third number is the cause. At 7, 8 and 9 it is the place of the command that the missing sync has to wait for, the
   latest of its kind before the refused one: for a refused draw a load, for a load a draw, for a Set Tile a textured draw
   (a triangle with texture, a texture rectangle) or a load, for a command that sets an attribute a draw.
   At every other answer it is the list's whole words, list_length / 8 rounded down, also at 1; it is at most 16,777,215,
   which stands for that and more (a list of 128 MiB and up). */
uint64_t lanyardrove_check(const uint8_t *list, size_t list_length);

/* The record of a list that arrives in portions, through a pipe for example. It is the caller's: all zero before the first
   portion, and the library's own to write after that. It may be copied and kept. It holds the hazards, the registers, the bytes
   of a command that is not yet complete, the cycles waited, and the refusal once there is one. Every setting of its bytes is
   answered, and all of them are part of what is promised of a call; two hold nothing, and stay as they are. */
struct lanyardrove_stream {
    uint64_t opaque[57];
};

/* Takes the next portion of a list into its record. Portions are cut anywhere, also inside a word, and may be empty.
   A command is judged when its last byte is in. Answers 0, the words of the commands accepted so far as the place; or 28, as
   below; or the refusal that the record remembers; or the first refusal of what comes in, which the record remembers from then
   on: at each command that becomes complete 4, 19, 5, 6 and 7 to 9 in this order, as in the check, and 1 at 4,096 where a byte
   comes after 32,768.
   At 1 all else in the record is as after byte 32,768, at the others as before the refused command's first byte; further bytes
   of the portion are not looked at. Calls after a refusal repeat it and change nothing.
   The third number, lanyardrove_cycles, is the cycles that the accepted commands' syncs have waited, all since the record was
   fresh: 25 for each Sync Load, 33 for each Sync Tile, 50 for each Sync Pipe, none for Sync Full. A refused command is not
   counted, and with a refusal it is the total that the record keeps.
   Before all others comes 28 at 0, with third number 0, which leaves the record as it is and is not remembered: over 175 bytes
   are held, a byte past them is not zero, they already make a command, over 32,768 bytes are taken, those taken less those held
   are below 0 or no multiple of 8, the remembered number is none that these calls give (0 to 9 and 19), or the cycles are above
   204,800. From a fresh record they never are; where a record was set otherwise, a call may lead above, and the next one is
   refused. */
uint64_t lanyardrove_stream_feed(struct lanyardrove_stream *stream,
                                 const uint8_t *portion, size_t portion_length);

/* Closes a list after its last portion: 28 as in feeding, then the remembered refusal; 2 at the whole words taken where the bytes
   taken are no multiple of 8; 3 at its first word where a command is not complete; else 0 at the words of the list.
   It adds a refusal to the record and nothing else, and leaves the record as it is at 0. The third number is as in feeding.
   Portions of a list of whole words and at most 32,768 bytes, however they are cut, end in the number and the place that
   lanyardrove_check gives of the whole list. Of any other list the commands complete in its first 32,768 bytes are judged
   first. The cause of a missing sync is asked of lanyardrove_check. */
uint64_t lanyardrove_stream_close(struct lanyardrove_stream *stream);

/* The hazards: earlier work that may still run. A state is the sum of those that stand, 0 to 15; a list starts at 0. */
enum lanyardrove_hazard {
    LANYARDROVE_HAZARD_PIPE = 1, /* A draw since the last Sync Pipe or Sync Full. */
    LANYARDROVE_HAZARD_TILE = 2, /* A textured draw or a load since the last Sync Tile, Pipe or Full. */
    LANYARDROVE_HAZARD_DRAW = 4, /* A draw since the last sync of any kind. */
    LANYARDROVE_HAZARD_LOAD = 8  /* A load since the last sync of any kind. */
};

/* One step of the hazards: of hazards only the low four bits count, of the command's number only the low six.
   Answers 0, the hazards after the command as the place, as if it ran also where it misses a sync, and as the third number
   the sync that it requires: 0 none, 1 Sync Load, 2 Sync Tile, 3 Sync Pipe, and 4 more where it is missing. A sync is required
   exactly where it is missing, so the third number is 0, 5, 6 or 7: lanyardrove_required gives 0 to 3.
   With lanyardrove_words a list is walked command by command, whether the check accepts it or not; word is the one at place:
       hazards = lanyardrove_hazards(lanyardrove_step(hazards, (uint32_t)(word >> 56)));
       place += lanyardrove_words(word); */
uint64_t lanyardrove_step(uint32_t hazards, uint32_t number);

/* The numbers of an index's entry, and the numbers that the entries of every list fit into. */
#define LANYARDROVE_ENTRY_NUMBERS 2
#define LANYARDROVE_INDEX_NUMBERS 128

/* The index of a list: at every 64th command, from the first, an entry of two numbers, the command's place and the hazards
   before it, as if every command before it ran also where it misses a sync; the check's refusals of a command do not count.
   Writes the entries to the front of entries, which lends count numbers, two for an entry; an odd one at the end holds none.
   Answers 0 and the entries written as the place (half as many as numbers); or 1, 2 and 3 of the list, at the places that the
   check gives, then 14 at the entries needed. Numbers beyond the entries are not touched.
   To learn the entries needed, lend a count of 0. An index of one list says nothing about another. */
uint64_t lanyardrove_index_build(const uint8_t *list, size_t list_length,
                                 uint32_t *entries, size_t count);

/* The hazards before the command at a place, from an index: lend it the entries that building has written, count being twice
   their number. It starts at the last entry whose place is not beyond the one asked, and reads at most 64 commands, the one
   asked included, none that starts past it or outside the list.
   Answers 0 with lanyardrove_hazards_before and lanyardrove_index_read, the number of commands read; or, in this order, 1 and 2
   of the list; 26 where there is no such entry or its hazards are above 15; 3 where a command that is read is cut; 24 where none
   that is read starts at the place. The place is the one asked, but at 1 and 2.
   With the entries of this list the answer is 0 at the place of every command, and the hazards are those of the walk from the
   first one. Whatever the entries are, the answer is as described. */
uint64_t lanyardrove_index_ask(const uint8_t *list, size_t list_length,
                               const uint32_t *entries, size_t count, uint32_t place);

/* Replaces the command at a place by the first command of other bytes, which has as many words, in the list and in its index.
   Of the list only that command's bytes change. Entry 0 to the command's own, whose number is that of the commands before it
   divided by 64, are not touched, nor are numbers beyond the entries; the later ones become those that building gives of the
   new list, whatever they were. So an index of the list becomes the index of the new list.
   Answers 0 at the place; or refuses, in this order, as building does, at its places; as the question does; by 24 where no
   command of the list starts at the place, also where the entries, of another list, say otherwise; by 3 where the new command is
   cut; by 25 where it has not as many words as the old one; all but building's at the place asked. Bytes after the new command
   are not read.
   A refusal leaves the list and the entries as they were. The check is not asked: see what it says of the new list. */
uint64_t lanyardrove_index_replace(uint8_t *list, size_t list_length,
                                   uint32_t *entries, size_t count, uint32_t place,
                                   const uint8_t *command, size_t command_length);

/* The repair of a list: writes it to the front of out with the Sync Load, Sync Tile and Sync Pipe words inserted that it
   misses, at the fewest cycles possible (25, 33 and 50 each). The written list passes the check and keeps every given word.
   Answers 0, the words written as the place and the cycles inserted; or the first of refusals 1 to 6 and 19 of the list (7 to 9
   are what it repairs), then 13 at the number of commands, then 14 at the words needed.
   work: 16 bytes for each command of the list; a command has at least one word, so 2 * list_length bytes always suffice.
   out: at most one sync is put before a command, so 2 * list_length bytes always suffice. None is put before the first
   command, so n words come out as at most 2 * n - 1, and none as none.
   To learn the words needed, lend an out of length 0 and read the place of 14.
   At 0 and at 14 the first 16 bytes a command of work are left zero, and its rest as received. Every other refusal leaves
   both buffers as received. Bytes of out beyond the words written are not touched. */
uint64_t lanyardrove_repair(const uint8_t *list, size_t list_length,
                            uint8_t *work, size_t work_length,
                            uint8_t *out, size_t out_length);

/* The second repair of a list: forgets its Sync Load, Sync Tile and Sync Pipe commands, whatever their other bits, and chooses
   afresh. It writes all other commands to the front of out, in order and byte for byte, with syncs between them: the written
   list passes the check, and no list of those other commands that passes waits fewer cycles (25, 33 and 50 each).
   Answers 0, the words written as the place and as lanyardrove_cycles all that the written list waits; or the first refusal of
   lanyardrove_repair, in its order and of the list as given, a sync that would be forgotten among its commands: 1 to 6 and 19,
   then 13 at the number of these commands, then 14 at the words that this repair needs.
   Where the given list passes the check, it waits at least as long; what was written is written again, byte for byte.
   work and out: as for lanyardrove_repair, by the commands as given, and left as there. */
uint64_t lanyardrove_repair_afresh(const uint8_t *list, size_t list_length,
                                   uint8_t *work, size_t work_length,
                                   uint8_t *out, size_t out_length);

/* The bytes of texture memory. */
#define LANYARDROVE_TEXTURE_BYTES 4096

/* Draws a list into memory: its Fill Rectangles in FILL mode, its Load Tiles and Load Blocks, and its Texture Rectangles (0x24)
   in COPY mode, in the list's order. memory[i] is the byte at address start + i of the console's memory, which the colour
   image's and the texture image's address count in. start is any number, and no sum of it wraps. Texture memory is
   LANYARDROVE_TEXTURE_BYTES bytes, which a load writes and a copy reads; what it holds at first is the caller's, and what it
   holds at last stays there.
   Answers 0 at the words of the list; or the first refusal of the check (1 to 9 and 19), then 16 at 0, then the first along
   the draws and loads: at a draw 10, 11, 17, 12, 18 in this order, at a load 17, 12, 18. 12 is asked of all bytes of a command
   before 18 is of any.
   Load Tile takes the texels from the floor of its upper left to the floor of its lower right, both included, row by row:
   that of row r and column c of this block to byte 8 * tmem + 8 * line * r + 2 * c, with the byte number's bit 2 turned over
   in odd rows. It leaves its corners as the tile's size.
   Load Block takes s and t as whole texels: from upper left s in row upper left t, lower right s - upper left s + 1 texels, on
   past the image's width too; texel k to byte 8 * tmem + 2 * k, with bit 2 turned over where k / 4 * dxt / 2048 is odd, each
   quotient rounded down. Just these texels are loaded. It leaves its fields as the tile's size as they are, dxt as lower right t.
   A copied pixel (x, y) reads the texel of row t + y - top - tile top, column likewise, top being the rectangle's own first row,
   turned over in odd rows too; rows and columns may be negative. Pixels are written row by row, each row from the left, and the
   later one stays.
   17 is a Load TLUT, a Load Tile or Load Block without a texture image of 16-bit RGBA, any of these two and copy without a tile
   descriptor (Set Tile) of 16-bit RGBA, a Load Block of no texel or of more than 2,048, and a copy onto an image not of 16
   bits, with dsdx other than 0x1000 or dtdy than 0x0400, with s, t or the tile's upper left between texels (a size that was
   never set has (0, 0)), or with any of mask, shift and mirror of the tile or perspective, look-up and alpha compare on; also
   where no pixel is kept.
   A refusal leaves every byte of both memories as it was: nothing is drawn before all is tested. */
uint64_t lanyardrove_draw(const uint8_t *list, size_t list_length,
                          uint8_t *memory, size_t memory_length, uint64_t start,
                          uint8_t *texture, size_t texture_length);

/* The most pixels of a row, and the most rows, of an image that is viewed. */
#define LANYARDROVE_MOST_SIDE 1024

/* Views an image: writes its pixels as rows of red, green, blue and alpha, four bytes a pixel, to the front of out, the upper row
   first. The image is width by height pixels, one row right after the other from address on; memory[i] is the byte at address
   start + i, start and address are any numbers, and no sum of them wraps. size is that of Set Color Image: 1 for pixels of 8
   bits, 2 for 16 and 3 for 32.
   A value of 8 bits fills red, green and blue, with alpha 255. Of 16 bits, most significant byte first, red, green and blue are
   the three times five bits from the highest on, of which v becomes 8 * v + v / 4, and the lowest bit is alpha, 0 or 255. Pixels
   of 32 bits are copied.
   Answers 0 at the bytes written; or 27 at 0 where width or height is 0 or above LANYARDROVE_MOST_SIDE, or size is none of 1 to
   3; then 12 at 0 where a byte of the image is outside memory; then 14 at the bytes needed, 4 * width * height. The third
   number is 0. memory is read only; a refusal leaves every byte of out as it was, and bytes beyond those written are not
   touched. */
uint64_t lanyardrove_view(const uint8_t *memory, size_t memory_length, uint64_t start,
                          uint64_t address, uint32_t width, uint32_t height, uint32_t size,
                          uint8_t *out, size_t out_length);

/* Compares two lists command by command, by their index from the first on. Two commands differ where their numbers do, or a
   field; bits that belong to no field don't count, nor do bits 63:62 of a first word. Each pair that differs is an entry of
   four numbers, written to the front of entries in the order of the commands: the place in the first list, the place in the
   second, and 64 bits, the high half first, that say which fields differ: lanyardrove_field_bit has the bit of a field, and
   LANYARDROVE_SUFFIX_BIT that of the words after a triangle's first four, as one field. They are all zero where the numbers
   of the commands differ.
   Answers 0 at the numbers written; or the first of refusals 1, 2 and 3 of the first list, then of the second, each at the
   place that the check gives it; then 14 at the numbers needed. So 3 of the first list comes before 1 and 2 of the second. The
   third number is 0. No other refusal is looked at: a list that the check refuses by 4 and up is compared too. Both lists are
   read only, and may be the same bytes.
   entries: count is its length in numbers; 4 for each command of the shorter list always suffice. A refusal leaves every number
   as it was, and numbers beyond those written are not touched. */
uint64_t lanyardrove_compare(const uint8_t *first, size_t first_length,
                             const uint8_t *second, size_t second_length,
                             uint32_t *entries, size_t count);

/* The rest of two lists: the commands of the longer one that have none to be compared with. Answers the number that
   lanyardrove_compare answers where count numbers are lent for its entries. At 0 the third number, lanyardrove_list, says
   which list has more commands, 0 the first and 1 the second, and the place is the byte of that list where they begin: they
   go on to its end. Where both have as many, and at every other number, it is the empty end of the first: 0 and
   first_length, as the place at most 4,294,967,295, which stands for that and more. */
uint64_t lanyardrove_rest(const uint8_t *first, size_t first_length,
                          const uint8_t *second, size_t second_length,
                          size_t count);

/* Translates a display list of Fast3DEX2 at an offset of a memory: writes the RDP list that it stands for to the front of out.
   A command is 8 bytes, most significant first, and its number the first of them. 0xE6 to 0xF0 and 0xF2 to 0xFF are written as
   the command of the low six bits, with bits 63:62 zero; 0xE4 and 0xE5 so too, and then a second word of the low 32 bits of
   the 0xE1 and the 0xF1 that must directly follow. 0xE2 and 0xE3 change the low and the high word of the other modes, which
   start at zero and which 0xEF sets too, and are written as one Set Other Modes of the whole. Of 0xDE 00 calls the list at its
   address, an offset, and 01 goes there for good; 0xDF returns, or ends the outermost list.
   Answers 0 at the words written; or the first refusal along the commands as they are read, at each 20, 21, 22 and 23 in this
   order, also at a half-word; and then 14 at the words needed. 23 is a ninth call that has not returned, an address of 0xDE or
   of 0xFD to 0xFF whose top byte is not 0, a parameter of 0xDE other than 00 and 01, and a shift and count that go beyond 32
   bits. The third number, lanyardrove_commands_read, is the commands read, half-words counted, a refused one not: at most
   4,096, so 4,096 words of out always suffice.
   Offsets are 32 bits: memory is taken up to 4,294,967,288 bytes, and what lies beyond counts as not lent.
   A refusal leaves every byte of out as it was, and bytes beyond the words written are not touched. */
uint64_t lanyardrove_translate(const uint8_t *memory, size_t memory_length, uint32_t start,
                               uint8_t *out, size_t out_length);

/* The longest command's words, and the most fields that a command has. */
#define LANYARDROVE_MOST_WORDS 22
#define LANYARDROVE_MOST_FIELDS 37

/* The words of the command that begins with this word: a plain count, 1 to LANYARDROVE_MOST_WORDS, never refused.
   A triangle (0x08-0x0F) has 4, and 8, 8 and 2 more for bits 58, 57 and 56; 0x24 and 0x25 have 2, all others 1. Bits 63:62
   and bits 55:0 do not count. Decoding takes exactly so many words. */
uint64_t lanyardrove_words(uint64_t first_word);

/* The first command of a list: writes its fields to the front of fields, one number each, in the order of the names below.
   Answers 0, the fields written as the place, and the command's number (0 to 63) as lanyardrove_command; 3 at 0 where its
   words are not all there, or there are none; 14 at the fields needed where count is too small.
   Bytes of the list after the first command are not read, and fields beyond those written are not touched.
   A triangle's words after its first four (its suffix) are no fields: they are the list's own bytes from byte 32 on. */
uint64_t lanyardrove_decode(const uint8_t *list, size_t list_length, uint64_t *fields, size_t count);

/* Encodes a command: writes the words of the command with this number and these fields to the front of out, with unused
   bits zero, and for a triangle the suffix after them: its words beyond the first four, 8 bytes each, as given.
   Answers 0 and the words written as the place; 15 at 0 for a number of 64 or more, a count of fields that is not the
   command's, a field that exceeds its bits, triangle flags that contradict the number, or a suffix that is not exactly as
   long as is due (no bytes, for a command that is no triangle); then 14 at the words needed where out is too short.
   Bytes of out beyond those written are not touched. LANYARDROVE_MOST_WORDS * 8 bytes always suffice. */
uint64_t lanyardrove_encode(uint32_t number,
                            const uint64_t *fields, size_t count,
                            const uint8_t *suffix, size_t suffix_length,
                            uint8_t *out, size_t out_length);

/* The numbers of commands; every other from 0 to 63 is unassigned: decoded and encoded as a command of one word without fields,
   and refused in lists by 19. Of a triangle's number bit 2 says that it has shade, bit 1 texture, bit 0 depth. */
enum lanyardrove_command_number {
    LANYARDROVE_NO_OPERATION = 0x00, LANYARDROVE_FILL_TRIANGLE = 0x08, LANYARDROVE_FILL_TRIANGLE_Z = 0x09,
    LANYARDROVE_FILL_TRIANGLE_T = 0x0A, LANYARDROVE_FILL_TRIANGLE_TZ = 0x0B, LANYARDROVE_FILL_TRIANGLE_S = 0x0C,
    LANYARDROVE_FILL_TRIANGLE_SZ = 0x0D, LANYARDROVE_FILL_TRIANGLE_ST = 0x0E, LANYARDROVE_FILL_TRIANGLE_STZ = 0x0F,
    LANYARDROVE_TEXTURE_RECTANGLE = 0x24, LANYARDROVE_TEXTURE_RECTANGLE_FLIP = 0x25, LANYARDROVE_SYNC_LOAD = 0x26,
    LANYARDROVE_SYNC_PIPE = 0x27, LANYARDROVE_SYNC_TILE = 0x28, LANYARDROVE_SYNC_FULL = 0x29, LANYARDROVE_SET_KEY_GB = 0x2A,
    LANYARDROVE_SET_KEY_R = 0x2B, LANYARDROVE_SET_CONVERT = 0x2C, LANYARDROVE_SET_SCISSOR = 0x2D,
    LANYARDROVE_SET_PRIMITIVE_DEPTH = 0x2E, LANYARDROVE_SET_OTHER_MODES = 0x2F, LANYARDROVE_LOAD_TLUT = 0x30,
    LANYARDROVE_SET_TILE_SIZE = 0x32, LANYARDROVE_LOAD_BLOCK = 0x33, LANYARDROVE_LOAD_TILE = 0x34,
    LANYARDROVE_SET_TILE = 0x35, LANYARDROVE_FILL_RECTANGLE = 0x36, LANYARDROVE_SET_FILL_COLOR = 0x37,
    LANYARDROVE_SET_FOG_COLOR = 0x38, LANYARDROVE_SET_BLEND_COLOR = 0x39, LANYARDROVE_SET_PRIMITIVE_COLOR = 0x3A,
    LANYARDROVE_SET_ENVIRONMENT_COLOR = 0x3B, LANYARDROVE_SET_COMBINE_MODE = 0x3C, LANYARDROVE_SET_TEXTURE_IMAGE = 0x3D,
    LANYARDROVE_SET_DEPTH_IMAGE = 0x3E, LANYARDROVE_SET_COLOR_IMAGE = 0x3F
};

/*
 * The fields of each command: for each the index in fields[], and its bits. A field marked s is signed: its number is the
 * value in two's complement of 64 bits, so (int64_t)fields[i] is the value. All others are unsigned, flags 0 or 1. The last
 * name of each kind is the count of its fields. A no operation, the four syncs and the unassigned numbers have none. A
 * command has one word where nothing else is said.
 * The x and y of rectangles and of the scissor, and a triangle's yl, ym and yh, are in quarter pixels. A triangle's x is in
 * pixels: its integer part (I) and its fraction (F), in parts of 65,536; so are its slopes, dx/dy.
 */
enum lanyardrove_triangle_field { /* A triangle: 4 words, + 8 with shade, + 8 with texture, + 2 with zbuffer. */
    LANYARDROVE_TRIANGLE_SHADE, /* 1 */ LANYARDROVE_TRIANGLE_TEXTURE, /* 1 */ LANYARDROVE_TRIANGLE_ZBUFFER, /* 1 */
    LANYARDROVE_TRIANGLE_LMAJOR, /* 1 */ LANYARDROVE_TRIANGLE_LEVEL, /* 3 */ LANYARDROVE_TRIANGLE_TILE, /* 3 */
    LANYARDROVE_TRIANGLE_YL, /* s14 */ LANYARDROVE_TRIANGLE_YM, /* s14 */ LANYARDROVE_TRIANGLE_YH, /* s14 */
    LANYARDROVE_TRIANGLE_XL_I, /* s12 */ LANYARDROVE_TRIANGLE_XL_F, /* 16 */ LANYARDROVE_TRIANGLE_DXLDY_I, /* s14 */
    LANYARDROVE_TRIANGLE_DXLDY_F, /* 16 */ LANYARDROVE_TRIANGLE_XH_I, /* s12 */ LANYARDROVE_TRIANGLE_XH_F, /* 16 */
    LANYARDROVE_TRIANGLE_DXHDY_I, /* s14 */ LANYARDROVE_TRIANGLE_DXHDY_F, /* 16 */ LANYARDROVE_TRIANGLE_XM_I, /* s12 */
    LANYARDROVE_TRIANGLE_XM_F, /* 16 */ LANYARDROVE_TRIANGLE_DXMDY_I, /* s14 */ LANYARDROVE_TRIANGLE_DXMDY_F, /* 16 */
    LANYARDROVE_TRIANGLE_FIELDS
};
enum lanyardrove_texrect_field { /* Texture Rectangle and Texture Rectangle Flip: 2 words. */
    LANYARDROVE_TEXRECT_LRX, /* 12 */ LANYARDROVE_TEXRECT_LRY, /* 12 */ LANYARDROVE_TEXRECT_TILE, /* 3 */
    LANYARDROVE_TEXRECT_ULX, /* 12 */ LANYARDROVE_TEXRECT_ULY, /* 12 */ LANYARDROVE_TEXRECT_S, /* s16 */
    LANYARDROVE_TEXRECT_T, /* s16 */ LANYARDROVE_TEXRECT_DSDX, /* s16 */ LANYARDROVE_TEXRECT_DTDY, /* s16 */
    LANYARDROVE_TEXRECT_FIELDS
};
enum lanyardrove_key_gb_field { /* Set Key GB. */
    LANYARDROVE_KEY_GB_WIDTH_G, /* 12 */ LANYARDROVE_KEY_GB_WIDTH_B, /* 12 */ LANYARDROVE_KEY_GB_CENTER_G, /* 8 */
    LANYARDROVE_KEY_GB_SCALE_G, /* 8 */ LANYARDROVE_KEY_GB_CENTER_B, /* 8 */ LANYARDROVE_KEY_GB_SCALE_B, /* 8 */
    LANYARDROVE_KEY_GB_FIELDS
};
enum lanyardrove_key_r_field { /* Set Key R. */
    LANYARDROVE_KEY_R_WIDTH_R, /* 12 */ LANYARDROVE_KEY_R_CENTER_R, /* 8 */ LANYARDROVE_KEY_R_SCALE_R, /* 8 */
    LANYARDROVE_KEY_R_FIELDS
};
enum lanyardrove_convert_field { /* Set Convert. */
    LANYARDROVE_CONVERT_K0, /* 9 */ LANYARDROVE_CONVERT_K1, /* 9 */ LANYARDROVE_CONVERT_K2, /* 9 */
    LANYARDROVE_CONVERT_K3, /* 9 */ LANYARDROVE_CONVERT_K4, /* 9 */ LANYARDROVE_CONVERT_K5, /* 9 */
    LANYARDROVE_CONVERT_FIELDS
};
enum lanyardrove_scissor_field { /* Set Scissor. */
    LANYARDROVE_SCISSOR_UPPER_LEFT_X, /* 12 */ LANYARDROVE_SCISSOR_UPPER_LEFT_Y, /* 12 */ LANYARDROVE_SCISSOR_FIELD, /* 1 */
    LANYARDROVE_SCISSOR_ODD, /* 1 */ LANYARDROVE_SCISSOR_LOWER_RIGHT_X, /* 12 */ LANYARDROVE_SCISSOR_LOWER_RIGHT_Y, /* 12 */
    LANYARDROVE_SCISSOR_FIELDS
};
enum lanyardrove_primitive_depth_field { /* Set Primitive Depth. */
    LANYARDROVE_PRIMITIVE_DEPTH_Z, /* 16 */ LANYARDROVE_PRIMITIVE_DEPTH_DZ, /* 16 */ LANYARDROVE_PRIMITIVE_DEPTH_FIELDS
};
enum lanyardrove_other_modes_field { /* Set Other Modes. */
    LANYARDROVE_OTHER_MODES_ATOMIC_PRIM, /* 1 */ LANYARDROVE_OTHER_MODES_CYCLE_TYPE, /* 2 */
    LANYARDROVE_OTHER_MODES_PERSP_TEX_EN, /* 1 */ LANYARDROVE_OTHER_MODES_DETAIL_TEX_EN, /* 1 */
    LANYARDROVE_OTHER_MODES_SHARPEN_TEX_EN, /* 1 */ LANYARDROVE_OTHER_MODES_TEX_LOD_EN, /* 1 */
    LANYARDROVE_OTHER_MODES_TLUT_EN, /* 1 */ LANYARDROVE_OTHER_MODES_TLUT_TYPE, /* 1 */
    LANYARDROVE_OTHER_MODES_SAMPLE_TYPE, /* 1 */ LANYARDROVE_OTHER_MODES_MID_TEXEL, /* 1 */
    LANYARDROVE_OTHER_MODES_BI_LERP_0, /* 1 */ LANYARDROVE_OTHER_MODES_BI_LERP_1, /* 1 */
    LANYARDROVE_OTHER_MODES_CONVERT_ONE, /* 1 */ LANYARDROVE_OTHER_MODES_KEY_EN, /* 1 */
    LANYARDROVE_OTHER_MODES_RGB_DITHER_SEL, /* 2 */ LANYARDROVE_OTHER_MODES_ALPHA_DITHER_SEL, /* 2 */
    LANYARDROVE_OTHER_MODES_BL_M1A_0, /* 2 */ LANYARDROVE_OTHER_MODES_BL_M1A_1, /* 2 */
    LANYARDROVE_OTHER_MODES_BL_M1B_0, /* 2 */ LANYARDROVE_OTHER_MODES_BL_M1B_1, /* 2 */
    LANYARDROVE_OTHER_MODES_BL_M2A_0, /* 2 */ LANYARDROVE_OTHER_MODES_BL_M2A_1, /* 2 */
    LANYARDROVE_OTHER_MODES_BL_M2B_0, /* 2 */ LANYARDROVE_OTHER_MODES_BL_M2B_1, /* 2 */
    LANYARDROVE_OTHER_MODES_FORCE_BLEND, /* 1 */ LANYARDROVE_OTHER_MODES_ALPHA_CVG_SELECT, /* 1 */
    LANYARDROVE_OTHER_MODES_CVG_X_ALPHA, /* 1 */ LANYARDROVE_OTHER_MODES_Z_MODE, /* 2 */
    LANYARDROVE_OTHER_MODES_CVG_DEST, /* 2 */ LANYARDROVE_OTHER_MODES_COLOR_ON_CVG, /* 1 */
    LANYARDROVE_OTHER_MODES_IMAGE_READ_EN, /* 1 */ LANYARDROVE_OTHER_MODES_Z_UPDATE_EN, /* 1 */
    LANYARDROVE_OTHER_MODES_Z_COMPARE_EN, /* 1 */ LANYARDROVE_OTHER_MODES_ANTIALIAS_EN, /* 1 */
    LANYARDROVE_OTHER_MODES_Z_SOURCE_SEL, /* 1 */ LANYARDROVE_OTHER_MODES_DITHER_ALPHA_EN, /* 1 */
    LANYARDROVE_OTHER_MODES_ALPHA_COMPARE_EN, /* 1 */ LANYARDROVE_OTHER_MODES_FIELDS
};
enum lanyardrove_area_field { /* Load TLUT, Set Tile Size and Load Tile. */
    LANYARDROVE_AREA_UPPER_LEFT_S, /* 12 */ LANYARDROVE_AREA_UPPER_LEFT_T, /* 12 */ LANYARDROVE_AREA_TILE, /* 3 */
    LANYARDROVE_AREA_LOWER_RIGHT_S, /* 12 */ LANYARDROVE_AREA_LOWER_RIGHT_T, /* 12 */ LANYARDROVE_AREA_FIELDS
};
enum lanyardrove_block_field { /* Load Block. */
    LANYARDROVE_BLOCK_UPPER_LEFT_S, /* 12 */ LANYARDROVE_BLOCK_UPPER_LEFT_T, /* 12 */ LANYARDROVE_BLOCK_TILE, /* 3 */
    LANYARDROVE_BLOCK_LOWER_RIGHT_S, /* 12 */ LANYARDROVE_BLOCK_DXT, /* 12 */ LANYARDROVE_BLOCK_FIELDS
};
enum lanyardrove_tile_field { /* Set Tile. */
    LANYARDROVE_TILE_FORMAT, /* 3 */ LANYARDROVE_TILE_SIZE, /* 2 */ LANYARDROVE_TILE_LINE, /* 9 */
    LANYARDROVE_TILE_ADDRESS, /* 9 */ LANYARDROVE_TILE_INDEX, /* 3 */ LANYARDROVE_TILE_PALETTE, /* 4 */
    LANYARDROVE_TILE_CLAMP_T, /* 1 */ LANYARDROVE_TILE_MIRROR_T, /* 1 */ LANYARDROVE_TILE_MASK_T, /* 4 */
    LANYARDROVE_TILE_SHIFT_T, /* 4 */ LANYARDROVE_TILE_CLAMP_S, /* 1 */ LANYARDROVE_TILE_MIRROR_S, /* 1 */
    LANYARDROVE_TILE_MASK_S, /* 4 */ LANYARDROVE_TILE_SHIFT_S, /* 4 */ LANYARDROVE_TILE_FIELDS
};
enum lanyardrove_rectangle_field { /* Fill Rectangle. */
    LANYARDROVE_RECTANGLE_LOWER_RIGHT_X, /* 12 */ LANYARDROVE_RECTANGLE_LOWER_RIGHT_Y, /* 12 */
    LANYARDROVE_RECTANGLE_UPPER_LEFT_X, /* 12 */ LANYARDROVE_RECTANGLE_UPPER_LEFT_Y, /* 12 */ LANYARDROVE_RECTANGLE_FIELDS
};
enum lanyardrove_fill_color_field { /* Set Fill Color. */
    LANYARDROVE_FILL_COLOR_COLOR, /* 32 */ LANYARDROVE_FILL_COLOR_FIELDS
};
enum lanyardrove_color_field { /* Set Fog Color, Set Blend Color and Set Environment Color. */
    LANYARDROVE_COLOR_RED, /* 8 */ LANYARDROVE_COLOR_GREEN, /* 8 */ LANYARDROVE_COLOR_BLUE, /* 8 */
    LANYARDROVE_COLOR_ALPHA, /* 8 */ LANYARDROVE_COLOR_FIELDS
};
enum lanyardrove_primitive_color_field { /* Set Primitive Color. */
    LANYARDROVE_PRIMITIVE_COLOR_MIN_LEVEL, /* 8 */ LANYARDROVE_PRIMITIVE_COLOR_PRIM_LOD_FRAC, /* 8 */
    LANYARDROVE_PRIMITIVE_COLOR_RED, /* 8 */ LANYARDROVE_PRIMITIVE_COLOR_GREEN, /* 8 */
    LANYARDROVE_PRIMITIVE_COLOR_BLUE, /* 8 */ LANYARDROVE_PRIMITIVE_COLOR_ALPHA, /* 8 */ LANYARDROVE_PRIMITIVE_COLOR_FIELDS
};
enum lanyardrove_combine_field { /* Set Combine Mode: its 56 low bits as one number. */
    LANYARDROVE_COMBINE_MODE, /* 56 */ LANYARDROVE_COMBINE_FIELDS
};
enum lanyardrove_image_field { /* Set Texture Image, whose address has 24 bits, and Set Color Image. */
    LANYARDROVE_IMAGE_FORMAT, /* 3 */ LANYARDROVE_IMAGE_SIZE, /* 2 */ LANYARDROVE_IMAGE_WIDTH, /* 10 less one */
    LANYARDROVE_IMAGE_ADDRESS, /* 26 */ LANYARDROVE_IMAGE_FIELDS
};
enum lanyardrove_depth_image_field { /* Set Depth Image. */
    LANYARDROVE_DEPTH_IMAGE_ADDRESS, /* 24 */ LANYARDROVE_DEPTH_IMAGE_FIELDS
};

/* The bit of a field of a command in what lanyardrove_compare writes: its line in N64brew's list, counted from the one after
   the command's on. In Set Other Modes three lines without a name are counted too; their bits are never set. */
static inline uint32_t lanyardrove_field_bit(uint32_t command_number, uint32_t field)
{
    if (command_number != LANYARDROVE_SET_OTHER_MODES) return field;
    return field + (field >= LANYARDROVE_OTHER_MODES_CYCLE_TYPE) + (field >= LANYARDROVE_OTHER_MODES_BL_M1A_0) +
           (field >= LANYARDROVE_OTHER_MODES_FORCE_BLEND);
}
#define LANYARDROVE_SUFFIX_BIT 21

#ifdef __cplusplus
}
#endif

#endif
