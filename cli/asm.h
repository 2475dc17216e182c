/* What the files of the text form of a list share: dump --asm prints it, asm and edit read it. */
#ifndef LANYARDROVE_ASM_H
#define LANYARDROVE_ASM_H

#include "cli.h"

/* -- mnemonics.c: commands by name, encoded by the library --------------- */

#define MNEMONIC_ROOM 32 /* bytes that the longest fits in */
#define BASE_WORDS 4     /* the words of a triangle that have fields; no other command has more */
#define MOST_SUFFIX (LANYARDROVE_MOST_WORDS - BASE_WORDS)
#define RAW_WORDS "word"    /* in place of a command: words as they stand */
#define UNUSED_BITS "unused." /* in place of a field, with the index of a word after it: the bits there that belong to no field */

void mnemonic_of(unsigned number, char text[MNEMONIC_ROOM]);
bool number_of(const char *text, size_t length, unsigned *number);
bool nearest_of(const char *text, size_t length, unsigned *number);
void plain_command(unsigned number, Command *command);
size_t suffix_count(const Command *command);
bool is_encoded(const Command *command, const uint8_t *suffix, size_t words, uint8_t *out);

/* -- asm_print.c ---------------------------------------------------------- */

void asm_print(const List *list, size_t first, size_t last, bool brief);

/* -- asm_tokens.c: the text, sign by sign -------------------------------- */

typedef enum { TEXT_END, A_NAME, A_FIELD, A_NUMBER, NO_TOKEN } TokenKind;

/* A part of the text, and the line and column where it begins, from 1. */
typedef struct {
    const char *text;
    size_t length, line, column;
} Part;

typedef struct {
    TokenKind kind;
    Part name, value; /* of a field both, of all else the first */
} Token;

typedef struct {
    const char *at, *end;
    size_t line, column;
} Reader;

Reader reader_of(const char *text, size_t length);
Token next_token(Reader *reader);
bool part_is(const Part *part, const char *text);
bool part_number(const Part *part, uint64_t *number);

/* -- assembled.c: the list that a text stands for ------------------------- */

bool assembled(const char *path, const char *text, size_t length, List *list);

#endif
