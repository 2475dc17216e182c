/* The text form of a list, sign by sign: names, fields as NAME=VALUE, numbers; between them spaces, lines and commas; # before the rest of a line. */
#include "asm.h"

#include <string.h>

Reader reader_of(const char *text, size_t length)
{
    return (Reader){ text, text + length, 1, 1 };
}

static bool is_at(const Reader *reader, const char *signs)
{
    return reader->at < reader->end && *reader->at != '\0' && strchr(signs, *reader->at) != NULL;
}

static void step(Reader *reader)
{
    bool line = *reader->at++ == '\n';
    reader->line += line;
    reader->column = line ? 1 : reader->column + 1;
}

static void skip(Reader *reader, const char *signs)
{
    while (is_at(reader, signs))
        step(reader);
}

/* Passes over what says nothing, comments too. */
static void skip_between(Reader *reader)
{
    for (skip(reader, " \t\r\n,"); is_at(reader, "#"); skip(reader, " \t\r\n,"))
        while (reader->at < reader->end && *reader->at != '\n')
            step(reader);
}

/* All up to a sign that ends a part. */
static Part next_part(Reader *reader)
{
    Part part = { reader->at, 0, reader->line, reader->column };
    while (reader->at < reader->end && !is_at(reader, " \t\r\n,#="))
        step(reader);
    part.length = (size_t)(reader->at - part.text);
    return part;
}

Token next_token(Reader *reader)
{
    skip_between(reader);
    if (reader->at == reader->end)
        return (Token){ TEXT_END, { NULL, 0, reader->line, reader->column }, { 0 } };
    Token token = { NO_TOKEN, next_part(reader), { 0 } };
    Reader after = *reader;
    skip(&after, " \t");
    if (is_at(&after, "=")) {
        step(&after);
        skip(&after, " \t");
        *reader = after;
        token.value = next_part(reader);
        token.kind = token.name.length > 0 && token.value.length > 0 ? A_FIELD : NO_TOKEN;
    } else if (token.name.length > 0)
        token.kind = token.name.text[0] == '-' || digit_of(token.name.text[0]) < 10 ? A_NUMBER : A_NAME;
    return token;
}

bool part_is(const Part *part, const char *text)
{
    return strlen(text) == part->length && memcmp(part->text, text, part->length) == 0;
}

/* A number, in decimal or after 0x in hexadecimal, as 64 bits; a negative one in two's complement. False where it is none. */
bool part_number(const Part *part, uint64_t *number)
{
    const char *at = part->text, *end = at + part->length;
    bool negative = at < end && *at == '-';
    at += negative;
    bool hex = end - at > 2 && at[0] == '0' && (at[1] == 'x' || at[1] == 'X');
    unsigned base = hex ? 16 : 10;
    uint64_t limit = negative ? (uint64_t)INT64_MAX + 1 : UINT64_MAX, value = 0;
    if ((at += hex ? 2 : 0) == end)
        return false;
    for (; at < end; at++) {
        unsigned digit = digit_of(*at);
        if (digit >= base || value > (limit - digit) / base)
            return false;
        value = value * base + digit;
    }
    *number = negative ? 0 - value : value;
    return true;
}
