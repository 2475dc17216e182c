/* Messages, and names that are shown. */
#include "cli.h"

#include <stdarg.h>

/* The bytes of a control character, which would end the line or move what a terminal shows: 0 where there is none. UTF-8 has some of two. */
static size_t control_length(const unsigned char *at)
{
    if (at[0] == 0xC2 && at[1] >= 0x80 && at[1] < 0xA0)
        return 2;
    return at[0] < 32 || at[0] == 127;
}

/* A text in one line: each byte of a control character is written as \xHH. */
void print_shown(FILE *stream, const char *text)
{
    size_t control = 0;
    for (const unsigned char *at = (const unsigned char *)text; *at != '\0'; at++) {
        control = control > 0 ? control : control_length(at);
        fprintf(stream, control > 0 ? "\\x%02X" : "%c", *at);
        control -= control > 0;
    }
}

void complain(const char *format, ...)
{
    char text[8192]; /* two of the longest paths and more; a longer one is cut */
    va_list values;
    va_start(values, format);
    vsnprintf(text, sizeof text, format, values);
    va_end(values);
    fflush(stdout); /* so that the two stand in order where they go to one place */
    fputs("lanyardrove: ", stderr);
    print_shown(stderr, text);
    fputc('\n', stderr);
}

/* The version is major, minor and patch number, eight bits each. */
void version_text(char text[VERSION_ROOM])
{
    uint32_t version = lanyardrove_version();
    snprintf(text, VERSION_ROOM, "%u.%u.%u", (unsigned)(version >> 16 & 255), (unsigned)(version >> 8 & 255), (unsigned)(version & 255));
}

int usage_error(const char *command)
{
    fprintf(stderr, "Try 'lanyardrove %s%s--help'.\n", command, command[0] != '\0' ? " " : "");
    return STATUS_ERROR;
}
