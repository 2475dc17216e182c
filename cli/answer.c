/* The parts of an answer, and what it means. */
#include "cli.h"

#include <string.h>

Answer answer_of(uint64_t packed)
{
    return (Answer){ lanyardrove_number(packed), lanyardrove_third(packed), lanyardrove_place(packed) };
}

bool is_accepted(Answer answer)
{
    return answer.number == LANYARDROVE_ACCEPTED;
}

bool is_refused(Answer answer)
{
    return !is_accepted(answer);
}

bool is_missing_sync(Answer answer)
{
    return answer.number >= LANYARDROVE_SYNC_LOAD_MISSING && answer.number <= LANYARDROVE_SYNC_PIPE_MISSING;
}

/* A refusal that no sync mends, and that the repair of a list gives too. Its limit of length is its own. */
bool is_beyond_repair(Answer verdict)
{
    return verdict.number >= LANYARDROVE_NOT_WORDS && !is_missing_sync(verdict);
}

int status_of(Answer answer)
{
    return is_accepted(answer) ? STATUS_ACCEPTED : STATUS_REFUSED;
}

/* What follows the name of a command in a refusal. */
static const char *refusal_text(unsigned number)
{
    switch (number) {
    case LANYARDROVE_PAST_END: return "runs past the end of the list";
    case LANYARDROVE_AFTER_SYNC_FULL: return "stands after Sync Full";
    case LANYARDROVE_NOT_SET: return "draws with other modes, colour image or scissor not set in this list";
    case LANYARDROVE_FILL_ON_FOUR_BITS: return "draws in FILL mode on a 4-bit colour image";
    case LANYARDROVE_SYNC_LOAD_MISSING: return "requires Sync Load";
    case LANYARDROVE_SYNC_TILE_MISSING: return "requires Sync Tile";
    case LANYARDROVE_SYNC_PIPE_MISSING: return "requires Sync Pipe";
    case LANYARDROVE_NOT_A_FILL: return "is not drawn: only Fill Rectangle in FILL mode and Texture Rectangle in COPY mode are";
    case LANYARDROVE_MISALIGNED: return "draws on a colour image whose address is no multiple of 64";
    case LANYARDROVE_OUTSIDE_MEMORY: return "reads or writes outside memory";
    case LANYARDROVE_NOT_COPYABLE: return "is not drawn: only plain copies of 16-bit RGBA texels are";
    case LANYARDROVE_OUTSIDE_TEXTURE: return "reads or writes outside texture memory";
    case LANYARDROVE_UNASSIGNED: return "number, which no command has: often data or a stray pointer";
    default: return "is refused for a reason that this tool does not know";
    }
}

/* What an answer means, without a cause. */
static void explain(const List *list, Answer answer, Purpose purpose, Meaning *meaning)
{
    char *text = meaning->text, offset[OFFSET_ROOM];
    size_t room = sizeof meaning->text;
    unsigned place = answer.place;
    meaning->start = 0;
    switch (answer.number) {
    case LANYARDROVE_ACCEPTED:
        if (place == 0)
            snprintf(text, room, "accepted: 0 words, the list is empty");
        else
            snprintf(text, room, "accepted: %u %s", place, place == 1 ? "word" : "words");
        break;
    case LANYARDROVE_TOO_LONG: snprintf(text, room, "the list is over %s bytes", purpose == FOR_REPAIR ? "16,384" : "32,768"); break;
    case LANYARDROVE_NOT_WORDS: snprintf(text, room, "the length of %zu bytes is no multiple of 8", list->length); break;
    case LANYARDROVE_TEXTURE_LENGTH: snprintf(text, room, "texture memory is not 4,096 bytes"); break;
    default:
        meaning->start = (size_t)snprintf(text, room, "word %u%s: ", place, offset_text(list, place, " (", ")", offset));
        snprintf(text + meaning->start, room - meaning->start, "%s %s", name_at(list, place), refusal_text(answer.number));
    }
}

/* What an answer means; of a missing sync also for which command it is missing. With each word of a translated list stands its offset in memory. */
Meaning meaning_of(const List *list, Answer answer, Purpose purpose)
{
    static const char between[] = ", for the ";
    Meaning meaning;
    char offset[OFFSET_ROOM];
    explain(list, answer, purpose, &meaning);
    meaning.end = meaning.cause = strlen(meaning.text);
    if (is_missing_sync(answer)) {
        unsigned place = answer.third;
        snprintf(meaning.text + meaning.end, sizeof meaning.text - meaning.end, "%s%s at word %u%s", between, name_at(list, place), place,
                 offset_text(list, place, " (", ")", offset));
        meaning.cause += strlen(between);
    }
    return meaning;
}

/* `number place`, and on the next line what it means. */
void print_answer(FILE *stream, const List *list, Answer answer, Purpose purpose)
{
    Meaning meaning = meaning_of(list, answer, purpose);
    fprintf(stream, "%u %u\n%s\n", answer.number, (unsigned)answer.place, meaning.text);
}

/* What a load or a copy needs to be drawn, for a person who does not know the rule. */
const char copy_needs[] =
    "Load Tile and Load Block need a texture image and a tile that are set, both of 16-bit RGBA, and Load Block 1 to 2,048 texels. "
    "Texture Rectangle in COPY mode needs such a tile, a colour image of 16 bits, dsdx 4.00 and dtdy 1.00, s, t and the tile's upper "
    "left in whole texels, and no mask, shift, mirror, perspective, look-up or alpha compare. Load TLUT is not drawn.";

/* Why the check refuses, for a person who does not know the rule. */
const char *reason_of(unsigned number)
{
    switch (number) {
    case LANYARDROVE_TOO_LONG: return "A list may have up to 4,096 words of 8 bytes. A longer one has to be split.";
    case LANYARDROVE_NOT_WORDS: return "A list is made of words of 8 bytes. This file may be cut, or may be no command list.";
    case LANYARDROVE_PAST_END: return "The file ends before the command has all its words. The console would take what comes next for the rest.";
    case LANYARDROVE_AFTER_SYNC_FULL: return "Sync Full has to be the last command of a list; otherwise the console may hang.";
    case LANYARDROVE_NOT_SET:
        return "Set Other Modes, Set Color Image and Set Scissor have to stand before a draw in the same list. Otherwise it draws with what an "
               "earlier list left.";
    case LANYARDROVE_FILL_ON_FOUR_BITS: return "Drawing in FILL mode on a colour image of 4 bits a pixel crashes the console.";
    case LANYARDROVE_SYNC_LOAD_MISSING:
        return "A load and a draw must not run at the same time. The earlier of the two may still run here; a Sync Load (25 cycles), or any longer "
               "sync, waits for it.";
    case LANYARDROVE_SYNC_TILE_MISSING:
        return "A textured draw or a load may still read the tile that this command changes; a Sync Tile (33 cycles), or a Sync Pipe, waits for it.";
    case LANYARDROVE_SYNC_PIPE_MISSING: return "A draw may still use what this command changes; a Sync Pipe (50 cycles) waits for it.";
    case LANYARDROVE_UNASSIGNED:
        return "No command has this number. Such a word is often data that was taken for commands, or comes from a stray pointer.";
    default: return "";
    }
}
