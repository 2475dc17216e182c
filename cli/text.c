/* A text that grows. */
#include "report.h"

#include <stdarg.h>
#include <stdlib.h>
#include <string.h>

/* Room for so many bytes and an end. */
static bool make_room(Text *text, size_t more)
{
    size_t needed = text->length + more + 1;
    if (needed > text->room && !text->failed) {
        size_t room = 2 * needed + 4096;
        char *bytes = realloc(text->bytes, room);
        text->failed = bytes == NULL;
        if (!text->failed) {
            text->bytes = bytes;
            text->room = room;
        }
    }
    return !text->failed;
}

void text_add(Text *text, const char *format, ...)
{
    va_list values, again;
    va_start(values, format);
    va_copy(again, values);
    int length = vsnprintf(NULL, 0, format, values);
    if (length >= 0 && make_room(text, (size_t)length)) {
        vsnprintf(text->bytes + text->length, (size_t)length + 1, format, again);
        text->length += (size_t)length;
    }
    va_end(again);
    va_end(values);
}

/* Another text, which may have failed. */
void text_append(Text *text, const Text *more)
{
    text->failed |= more->failed;
    if (more->length == 0 || !make_room(text, more->length))
        return;
    memcpy(text->bytes + text->length, more->bytes, more->length + 1);
    text->length += more->length;
}

/* Characters that mean something in HTML are written as entities, and control characters as '?'. */
void text_add_escaped(Text *text, const char *plain)
{
    for (; *plain != '\0'; plain++) {
        unsigned char c = (unsigned char)*plain;
        if (c == '<' || c == '>' || c == '&' || c == '"' || c == '\'')
            text_add(text, "&#%u;", (unsigned)c);
        else
            text_add(text, "%c", c < 32 || c == 127 ? '?' : c);
    }
}

void text_add_base64(Text *text, const uint8_t *bytes, size_t length)
{
    static const char digits[] = "ABCDEFGHIJKLMNOPQRSTUVWXYZabcdefghijklmnopqrstuvwxyz0123456789+/";
    if (!make_room(text, (length + 2) / 3 * 4))
        return;
    char *out = text->bytes + text->length;
    for (size_t i = 0; i < length; i += 3) {
        size_t left = length - i;
        uint32_t group = (uint32_t)bytes[i] << 16 | (left > 1 ? (uint32_t)bytes[i + 1] << 8 : 0) | (left > 2 ? bytes[i + 2] : 0u);
        *out++ = digits[group >> 18];
        *out++ = digits[group >> 12 & 63];
        *out++ = left > 1 ? digits[group >> 6 & 63] : '=';
        *out++ = left > 2 ? digits[group & 63] : '=';
    }
    *out = '\0';
    text->length = (size_t)(out - text->bytes);
}
