/* Where the commands of a translated list come from, for telling alone: a walk of the display list that follows its calls as the library does. It is
   held to the library's own counts, and where they differ no offset is told. */
#include "cli.h"

#include <inttypes.h>
#include <stdlib.h>

#define READ_LIMIT 4096u /* display list commands; each writes one word at most */
#define CALL_LIMIT 8u

enum { GO = 0xDE, END = 0xDF, RECTANGLE = 0xE4, RECTANGLE_FLIP = 0xE5, CALL = 0x00 };

typedef struct {
    const Memory *memory;
    uint32_t at; /* the offset of the next command */
    uint32_t returns[CALL_LIMIT];
    size_t calls; /* that have not returned */
    uint32_t *offsets;
    size_t words, read;
    bool ended;
} Walk;

static void add_words(Walk *walk, size_t count)
{
    for (size_t i = 0; i < count; i++)
        walk->offsets[walk->words++] = walk->at;
}

/* Runs one command, a rectangle with its two half-words; false where the library would refuse it, or another one would not be read. */
static bool step(Walk *walk)
{
    if (walk->at % 8 != 0 || walk->memory->length < 8 || walk->at > walk->memory->length - 8)
        return false;
    uint64_t word = word_at(walk->memory->bytes, walk->at / 8);
    unsigned number = (unsigned)(word >> 56), parameter = (unsigned)(word >> 48 & 255);
    bool rectangle = number == RECTANGLE || number == RECTANGLE_FLIP;
    walk->read += rectangle ? 3 : 1;
    if (walk->read > READ_LIMIT || (number == GO && parameter == CALL && walk->calls == CALL_LIMIT))
        return false;
    if (number == GO) {
        if (parameter == CALL)
            walk->returns[walk->calls++] = walk->at + 8;
        walk->at = (uint32_t)word;
    } else if (number == END) {
        walk->ended = walk->calls == 0;
        walk->at = walk->ended ? walk->at : walk->returns[--walk->calls];
    } else {
        add_words(walk, rectangle ? 2 : 1);
        walk->at += rectangle ? 24 : 8;
    }
    return true;
}

/* For each word of the list that was translated with this answer, the offset of the display list command that its command comes from: of a texture
   rectangle the first of three. To be freed. NULL where the walk reads or writes another number than the library did, or memory is short. */
uint32_t *offsets_of(const Memory *memory, uint32_t start, Answer answer)
{
    Walk walk = { .memory = memory, .at = start, .offsets = calloc(READ_LIMIT, sizeof *walk.offsets) };
    while (walk.offsets != NULL && !walk.ended && step(&walk)) { }
    if (walk.ended && is_accepted(answer) && walk.words == answer.place && walk.read == answer.third)
        return walk.offsets;
    free(walk.offsets);
    return NULL;
}

/* The offset that a word of a list comes from; false where none is known. */
bool offset_at(const List *list, size_t place, uint32_t *offset)
{
    bool known = list->offsets != NULL && place < list->length / 8;
    if (known)
        *offset = list->offsets[place];
    return known;
}

/* What is written after a place: the offset, between these texts; nothing where none is known. */
const char *offset_text(const List *list, size_t place, const char *before, const char *after, char text[OFFSET_ROOM])
{
    uint32_t offset;
    text[0] = '\0';
    if (offset_at(list, place, &offset))
        snprintf(text, OFFSET_ROOM, "%soffset 0x%" PRIX32 "%s", before, offset, after);
    return text;
}
