/* The list that a text stands for: each command encoded by the library, errors told as compilers do. */
#include "asm.h"

#include <inttypes.h>
#include <stdarg.h>
#include <stdlib.h>
#include <string.h>

/* A text that is read, and the command that has begun. */
typedef struct {
    const char *path;
    List *list;
    size_t room, errors;
    Part start; /* the name of the command; no text before the first */
    bool known, raw, faulty;
    Command command;
    bool given[LANYARDROVE_MOST_FIELDS];
    uint64_t unused[BASE_WORDS];
    uint8_t suffix[8 * MOST_SUFFIX];
    size_t words; /* after the fields, or as they stand */
} Assembly;

#define SHOWN(part) (int)((part)->length < 64 ? (part)->length : 64), (part)->text

/* FILE:LINE:COLUMN: error: .. */
__attribute__((format(printf, 3, 4))) static void fail(Assembly *assembly, const Part *part, const char *format, ...)
{
    char text[1024];
    va_list values;
    va_start(values, format);
    vsnprintf(text, sizeof text, format, values);
    va_end(values);
    fflush(stdout);
    print_shown(stderr, assembly->path);
    fprintf(stderr, ":%zu:%zu: error: ", part->line, part->column);
    print_shown(stderr, text);
    fputc('\n', stderr);
    assembly->errors++;
    assembly->faulty = true;
}

/* -- the list ------------------------------------------------------------- */

static void append(Assembly *assembly, const uint8_t *bytes, size_t length)
{
    List *list = assembly->list;
    size_t needed = list->length + length + 8 * LANYARDROVE_MOST_WORDS;
    if (needed > assembly->room) {
        uint8_t *more = realloc(list->bytes, 2 * needed);
        if (more == NULL) {
            fail(assembly, &assembly->start, "not enough memory");
            return;
        }
        list->bytes = more;
        assembly->room = 2 * needed;
    }
    memcpy(list->bytes + list->length, bytes, length);
    list->length += length;
    memset(list->bytes + list->length, 0, 8 * LANYARDROVE_MOST_WORDS);
}

static void put_word(uint8_t *bytes, uint64_t word)
{
    for (int i = 7; i >= 0; i--, word >>= 8)
        bytes[i] = (uint8_t)word;
}

/* -- fields ---------------------------------------------------------------- */

/* Whether the library encodes the command with a field of this value, all others as they are without being given. */
static bool accepts(const Command *plain, size_t field, uint64_t value)
{
    static const uint8_t suffix[8 * MOST_SUFFIX];
    uint8_t out[8 * LANYARDROVE_MOST_WORDS];
    Command command = *plain;
    command.fields[field] = value;
    return is_encoded(&command, suffix, suffix_count(plain), out);
}

/* Tells between which values a field may be, as the library has it. */
static void fail_of_range(Assembly *assembly, const Part *value, const Command *plain, size_t field)
{
    int high = 63, low = 63;
    const char *name = field_name(plain->number, field);
    while (high > 0 && !accepts(plain, field, ((uint64_t)1 << high) - 1))
        high--;
    while (low > 0 && !accepts(plain, field, 0 - ((uint64_t)1 << low)))
        low--;
    int64_t most = (int64_t)(((uint64_t)1 << high) - 1);
    if (!accepts(plain, field, 0) || most == 0)
        fail(assembly, value, "%s=%.*s: not %" PRId64 " [%u]", name, SHOWN(value), most, LANYARDROVE_NOT_ENCODABLE);
    else
        fail(assembly, value, "%s=%.*s: not from %" PRId64 " to %" PRId64 " [%u]", name, SHOWN(value),
             accepts(plain, field, UINT64_MAX) ? -((int64_t)1 << low) : 0, most, LANYARDROVE_NOT_ENCODABLE);
}

/* Tells which fields the command has. */
static void fail_of_field(Assembly *assembly, const Part *name)
{
    const Command *command = &assembly->command;
    char all[768];
    for (size_t i = 0, end = 0; i < command->count && end < sizeof all; i++)
        end += (size_t)snprintf(all + end, sizeof all - end, "%s%s", i > 0 ? ", " : "", field_name(command->number, i));
    if (command->count == 0)
        fail(assembly, name, "%.*s has no fields", SHOWN(&assembly->start));
    else
        fail(assembly, name, "%.*s has no field '%.*s'; it has %s", SHOWN(&assembly->start), SHOWN(name), all);
}

/* The bits of a word that belong to no field. That they do not is asked of the library, where the command is complete. */
static void take_unused(Assembly *assembly, const Token *token, uint64_t value)
{
    const char *digit = token->name.text + strlen(UNUSED_BITS);
    size_t count = assembly->command.words < BASE_WORDS ? assembly->command.words : BASE_WORDS;
    unsigned word = token->name.length == strlen(UNUSED_BITS) + 1 ? digit_of(*digit) : 16;
    if (word >= count)
        fail(assembly, &token->name, "%.*s: not the index of a word with fields, 0 to %zu", SHOWN(&token->name), count - 1);
    else
        assembly->unused[word] |= value;
}

static void take_field(Assembly *assembly, const Token *token)
{
    Command plain, *command = &assembly->command;
    uint64_t value;
    size_t field = 0;
    if (!part_number(&token->value, &value)) {
        fail(assembly, &token->value, "'%.*s' is no number of 64 bits", SHOWN(&token->value));
        return;
    }
    if (token->name.length > strlen(UNUSED_BITS) && memcmp(token->name.text, UNUSED_BITS, strlen(UNUSED_BITS)) == 0) {
        take_unused(assembly, token, value);
        return;
    }
    while (field < command->count && !part_is(&token->name, field_name(command->number, field)))
        field++;
    if (field == command->count)
        fail_of_field(assembly, &token->name);
    else if (assembly->given[field])
        fail(assembly, &token->name, "'%.*s' is given twice", SHOWN(&token->name));
    else {
        plain_command(command->number, &plain);
        assembly->given[field] = true;
        command->fields[field] = value;
        if (!accepts(&plain, field, value))
            fail_of_range(assembly, &token->value, &plain, field);
    }
}

/* -- commands -------------------------------------------------------------- */

/* Sets the bits that belong to no field; false where the command would read otherwise with them. */
static bool set_unused(const Assembly *assembly, uint8_t *bytes)
{
    uint8_t room[2 * 8 * LANYARDROVE_MOST_WORDS] = { 0 };
    const List list = { .bytes = room, .length = 8 * assembly->command.words };
    const Command *command = &assembly->command;
    Command read;
    for (size_t i = 0; i < BASE_WORDS && i < command->words; i++) {
        if ((word_at(bytes, i) & assembly->unused[i]) != 0)
            return false;
        put_word(bytes + 8 * i, word_at(bytes, i) | assembly->unused[i]);
    }
    memcpy(room, bytes, list.length);
    command_at(&list, 0, &read);
    return read.number == command->number && memcmp(read.fields, command->fields, command->count * sizeof read.fields[0]) == 0;
}

/* The command that has begun is complete: it is encoded. */
static void end_command(Assembly *assembly)
{
    uint8_t bytes[8 * LANYARDROVE_MOST_WORDS];
    const Command *command = &assembly->command;
    const Part *start = &assembly->start;
    if (start->text == NULL || !assembly->known || assembly->raw || assembly->faulty)
        return;
    if (assembly->words != suffix_count(command))
        fail(assembly, start, "%.*s needs %zu words after its fields, not %zu [%u]", SHOWN(start), suffix_count(command), assembly->words,
             LANYARDROVE_NOT_ENCODABLE);
    else if (!is_encoded(command, assembly->suffix, assembly->words, bytes))
        fail(assembly, start, "%.*s cannot be encoded [%u]", SHOWN(start), LANYARDROVE_NOT_ENCODABLE);
    else if (!set_unused(assembly, bytes))
        fail(assembly, start, "unused bits of %.*s belong to a field", SHOWN(start));
    else
        append(assembly, bytes, 8 * command->words);
}

/* Tells which command was perhaps meant. */
static void fail_of_command(Assembly *assembly, const Part *name)
{
    char near[MNEMONIC_ROOM];
    unsigned number;
    if (nearest_of(name->text, name->length, &number)) {
        mnemonic_of(number, near);
        fail(assembly, name, "'%.*s' is no command; did you mean %s?", SHOWN(name), near);
    } else
        fail(assembly, name, "'%.*s' is no command", SHOWN(name));
}

static void begin_command(Assembly *assembly, const Part *name)
{
    unsigned number;
    *assembly = (Assembly){ .path = assembly->path, .list = assembly->list, .room = assembly->room, .errors = assembly->errors, .start = *name };
    assembly->raw = part_is(name, RAW_WORDS);
    assembly->known = assembly->raw || number_of(name->text, name->length, &number);
    if (!assembly->known)
        fail_of_command(assembly, name);
    else if (!assembly->raw)
        plain_command(number, &assembly->command);
}

/* A word after the fields of a triangle, or one that stands as it is. */
static void take_word(Assembly *assembly, const Part *part)
{
    uint64_t word;
    uint8_t bytes[8];
    if (!part_number(part, &word)) {
        fail(assembly, part, "'%.*s' is no number of 64 bits", SHOWN(part));
        return;
    }
    put_word(bytes, word);
    if (assembly->raw)
        append(assembly, bytes, sizeof bytes);
    else if (assembly->words < suffix_count(&assembly->command))
        memcpy(assembly->suffix + 8 * assembly->words++, bytes, sizeof bytes);
    else
        fail(assembly, part, "%.*s has %zu words after its fields, and no more [%u]", SHOWN(&assembly->start), suffix_count(&assembly->command),
             LANYARDROVE_NOT_ENCODABLE);
}

/* What follows a name that is no command is passed over: the name was told. */
static void take_token(Assembly *assembly, const Token *token)
{
    bool begun = assembly->start.text != NULL;
    if (token->kind == A_NAME) {
        end_command(assembly);
        begin_command(assembly, &token->name);
    } else if (token->kind == NO_TOKEN)
        fail(assembly, &token->name, "a field is NAME=VALUE");
    else if (!begun)
        fail(assembly, &token->name, "'%.*s' belongs to no command", SHOWN(&token->name));
    else if (assembly->known && token->kind == A_FIELD && assembly->raw)
        fail(assembly, &token->name, RAW_WORDS " has no fields");
    else if (assembly->known && token->kind == A_FIELD)
        take_field(assembly, token);
    else if (assembly->known)
        take_word(assembly, &token->name);
}

/* The list of a text, to be freed; false where the text has errors, which are told. */
bool assembled(const char *path, const char *text, size_t length, List *list)
{
    Reader reader = reader_of(text, length);
    Assembly assembly = { .path = path, .list = list };
    *list = (List){ .limit = SIZE_MAX };
    append(&assembly, (const uint8_t *)"", 0);
    if (length > 0 && memchr(text, '\0', length) != NULL) {
        const Part start = { .text = text, .line = 1, .column = 1 };
        fail(&assembly, &start, "no text: it has bytes that are 0, as a list has");
        return false;
    }
    for (Token token = next_token(&reader); token.kind != TEXT_END; token = next_token(&reader))
        take_token(&assembly, &token);
    end_command(&assembly);
    return assembly.errors == 0;
}
