/* The bytes of a list where they are: in a part of a file, in hexadecimal text, in little-endian words. */
#define _XOPEN_SOURCE 700
#include "cli.h"

#include <errno.h>
#include <string.h>
#include <unistd.h>

/* -- hexadecimal text: pairs of digits, spaces, commas, 0x before digits, and # before the rest of a line ------------------------- */

typedef enum { A_DIGIT, A_SPACE, A_COMMENT, A_FAULT } Sign;

static Sign sign_of(Source *source, char c)
{
    if (source->comment)
        source->comment = c != '\n';
    else if (c == '#')
        source->comment = true;
    else if (digit_of(c) < 16)
        return A_DIGIT;
    else if ((c == 'x' || c == 'X') && source->digits == 1 && source->high == 0) {
        source->digits = 0; /* the digit before was that of 0x */
        return A_SPACE;
    } else
        return strchr(" \t\r\n,_", c) != NULL && c != '\0' ? A_SPACE : A_FAULT;
    return A_COMMENT;
}

/* Decodes text in place; how many bytes it makes, or -1 at a sign that is none of the text, which is told. */
static ssize_t decode_hex(Source *source, uint8_t *bytes, size_t length)
{
    size_t made = 0;
    for (size_t i = 0; i < length; i++) {
        char c = (char)bytes[i];
        Sign sign = sign_of(source, c);
        if (sign == A_FAULT || (sign != A_DIGIT && source->digits == 1)) {
            source->fault = "not pairs of hexadecimal digits";
            return -1;
        }
        if (sign == A_DIGIT && source->digits++ == 0)
            source->high = digit_of(c);
        else if (sign == A_DIGIT) {
            bytes[made++] = (uint8_t)(source->high << 4 | digit_of(c));
            source->digits = 0;
        }
    }
    return (ssize_t)made;
}

/* Reads bytes, at least one of them unless the file ends. */
static ssize_t read_bytes(Source *source, uint8_t *to, size_t room)
{
    ssize_t count, made;
    do {
        count = read(source->file, to, room);
        made = count > 0 && source->input->hex ? decode_hex(source, to, (size_t)count) : count;
    } while (count > 0 && made == 0);
    if (made == 0 && room > 0 && source->digits == 1) {
        source->fault = "ends in half a byte of hexadecimal digits";
        return -1;
    }
    return made;
}

/* -- a part of a file ----------------------------------------------------------------------------------------------------------- */

static size_t lesser(uint64_t one, size_t two)
{
    return one < two ? (size_t)one : two;
}

/* Passes over what comes before the part. A part that is not there is a fault: an empty list would pass. */
static bool skip(Source *source)
{
    uint8_t rest[4096];
    ssize_t count;
    for (; source->skipped < source->input->offset.value; source->skipped += (uint64_t)count) {
        count = read_bytes(source, rest, lesser(source->input->offset.value - source->skipped, sizeof rest));
        if (count == 0)
            source->fault = "ends before --offset";
        if (count <= 0)
            return false;
    }
    return true;
}

static ssize_t read_part(Source *source, uint8_t *to, size_t room)
{
    const Input *input = source->input;
    if (!skip(source))
        return -1;
    ssize_t count = read_bytes(source, to, input->length.is_given ? lesser(input->length.value - source->taken, room) : room);
    if (count == 0 && room > 0 && input->length.is_given && source->taken < input->length.value) {
        source->fault = "ends before --length bytes";
        return -1;
    }
    source->taken += count > 0 ? (uint64_t)count : 0;
    return count;
}

/* -- little-endian words -------------------------------------------------------------------------------------------------------- */

void swap_words(uint8_t *bytes, size_t words)
{
    for (uint8_t *word = bytes; word < bytes + 8 * words; word += 8)
        for (int i = 0; i < 4; i++) {
            uint8_t byte = word[i];
            word[i] = word[7 - i];
            word[7 - i] = byte;
        }
}

/* Hands on whole words, turned; at the end also the bytes that make none, as they are. */
static ssize_t read_swapped(Source *source, uint8_t *to, size_t room)
{
    size_t whole = 0, length;
    ssize_t count;
    do {
        memcpy(to, source->held, source->holds);
        count = read_part(source, to + source->holds, room - source->holds);
        if (count < 0)
            return -1;
        length = source->holds + (size_t)count;
        whole = count > 0 ? length / 8 : 0;
        source->holds = count > 0 ? length % 8 : 0;
        memcpy(source->held, to + 8 * whole, source->holds);
    } while (count > 0 && whole == 0);
    swap_words(to, whole);
    return (ssize_t)(count > 0 ? 8 * whole : length);
}

/* The next bytes of a list, up to so many: 0 at its end, -1 where they cannot be read. */
ssize_t source_read(Source *source, uint8_t *to, size_t room)
{
    return source->input->swap ? read_swapped(source, to, room) : read_part(source, to, room);
}

const char *source_fault(const Source *source)
{
    return source->fault != NULL ? source->fault : strerror(errno);
}

/* The whole file is the list. */
bool is_as_it_stands(const Input *input)
{
    return !input->offset.is_given && !input->length.is_given && !input->swap && !input->hex;
}
