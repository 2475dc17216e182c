/* The values of options: numbers, in decimal or in hexadecimal after 0x, and what is made of them. */
#include "cli.h"

#include <string.h>

#define SIDE_LIMIT 4096u

/* The value of a hexadecimal digit, by its place; 16 of what is none. */
unsigned digit_of(char c)
{
    static const char digits[] = "0123456789abcdef0123456789ABCDEF";
    const char *found = c != '\0' ? strchr(digits, c) : NULL;
    return found != NULL ? (unsigned)(found - digits) % 16 : 16;
}

/* A number up to a limit. What follows it is handed back; NULL where there is no number. */
static const char *take_number(const char *text, uint64_t limit, uint64_t *number)
{
    bool hex = text[0] == '0' && (text[1] == 'x' || text[1] == 'X');
    unsigned base = hex ? 16 : 10;
    const char *digits = hex ? text + 2 : text;
    const char *rest = digits;
    for (*number = 0; digit_of(*rest) < base; rest++) {
        unsigned digit = digit_of(*rest);
        if (digit > limit || *number > (limit - digit) / base)
            return NULL;
        *number = *number * base + digit;
    }
    return rest > digits ? rest : NULL;
}

/* A number of bytes, with K or M for 1,024 or 1,048,576 of them. */
bool take_bytes(const char *text, uint64_t *number)
{
    const char *rest = take_number(text, MEMORY_LIMIT, number);
    if (rest == NULL)
        return false;
    uint64_t unit = *rest == 'K' ? 1024 : *rest == 'M' ? 1024 * 1024 : 1;
    *number *= unit;
    return rest[unit > 1] == '\0' && *number <= MEMORY_LIMIT;
}

bool take_address(const char *text, uint64_t *number)
{
    const char *rest = take_number(text, UINT64_MAX, number);
    return rest != NULL && *rest == '\0';
}

/* An offset of 32 bits. */
bool take_offset(const char *text, uint64_t *number)
{
    const char *rest = take_number(text, UINT32_MAX, number);
    return rest != NULL && *rest == '\0';
}

/* ADDRESS,WIDTH,HEIGHT,SIZE */
bool take_image(const char *text, Image *image)
{
    static const uint64_t limits[4] = { UINT64_MAX, SIDE_LIMIT, SIDE_LIMIT, 32 };
    uint64_t parts[4];
    for (int i = 0; i < 4; i++) {
        text = take_number(text, limits[i], &parts[i]);
        if (text == NULL || *text++ != (i < 3 ? ',' : '\0'))
            return false;
    }
    *image = (Image){ parts[0], (uint32_t)parts[1], (uint32_t)parts[2], (uint32_t)parts[3] };
    return parts[1] > 0 && parts[2] > 0 && (parts[3] == 8 || parts[3] == 16 || parts[3] == 32);
}
