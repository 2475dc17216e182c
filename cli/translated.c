/* The list that a display list stands for, from the memory that it lies in. */
#include "cli.h"

#include <inttypes.h>
#include <stdlib.h>
#include <string.h>

/* Translates the display list at an offset of a file, of standard input for "-". Memory and list are to be freed. The list has no bytes where the
   file cannot be read, which is told, and no length where the display list is refused. */
Answer translated(const char *path, uint64_t start, Memory *memory, List *list)
{
    Answer answer = { 0 };
    *memory = (Memory){ 0 };
    *list = (List){ .limit = LIST_LIMIT };
    if (!memory_read(strcmp(path, "-") == 0 ? "/dev/stdin" : path, memory))
        return answer;
    list->bytes = calloc(1, LIST_LIMIT + 1 + 8 * LANYARDROVE_MOST_WORDS); /* 4,096 words are always enough */
    if (list->bytes == NULL) {
        complain("not enough memory");
        return answer;
    }
    answer = answer_of(lanyardrove_translate(memory->bytes, memory->length, (uint32_t)start, list->bytes, LIST_LIMIT));
    list->length = is_accepted(answer) ? 8 * (size_t)answer.place : 0;
    list->offsets = offsets_of(memory, (uint32_t)start, answer);
    return answer;
}

/* What a refusal says of a display list's command. */
static const char *refusal_text(unsigned number)
{
    switch (number) {
    case LANYARDROVE_UNREADABLE: return "no multiple of 8, or its command is not all inside memory";
    case LANYARDROVE_TOO_MANY_COMMANDS: return "the 4,097th command: the display list may go in circles";
    case LANYARDROVE_NOT_TRANSLATABLE: return "no command that becomes one of the RDP, or a half-word (E1, F1) is missing or out of place";
    case LANYARDROVE_INVALID_SETTING:
        return "a ninth call deep, an address whose first byte is not 00, a parameter of DE other than 00 and 01, or a shift and count outside 32 "
               "bits";
    default: return "refused for a reason that this tool does not know";
    }
}

/* The offset of the refused command, the command where there is one, why, and how many came before. */
static void refusal_at(Answer answer, const Memory *memory, char text[TRANSLATION_ROOM])
{
    uint32_t offset = answer.place;
    int length = snprintf(text, TRANSLATION_ROOM, "offset 0x%" PRIX32, offset);
    if (offset % 8 == 0 && memory->length >= 8 && offset <= memory->length - 8)
        length += snprintf(text + length, TRANSLATION_ROOM - (size_t)length, " (%016" PRIX64 ")", word_at(memory->bytes, offset / 8));
    snprintf(text + length, TRANSLATION_ROOM - (size_t)length, ": %s; commands read before: %" PRIu32, refusal_text(answer.number), answer.third);
}

/* What the answer of a translation means, in one line. */
void translation_text(Answer answer, const Memory *memory, char text[TRANSLATION_ROOM])
{
    if (is_accepted(answer))
        snprintf(text, TRANSLATION_ROOM, "translated: %" PRIu32 " %s; display list commands read: %" PRIu32, answer.place,
                 answer.place == 1 ? "word" : "words", answer.third);
    else
        refusal_at(answer, memory, text);
}
