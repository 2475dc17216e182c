/* Memory from files, and the memory and the texture memory that drawing is lent. */
#include "cli.h"

#include <errno.h>
#include <stdlib.h>
#include <string.h>

#define FIRST_ROOM 65536u /* doubled as a file goes on */

/* Reads to the end of a file, or past the limit. */
static bool read_all(FILE *file, Memory *memory)
{
    size_t room = 0, count = 1;
    for (; count > 0 && memory->length <= MEMORY_LIMIT; memory->length += count) {
        if (memory->length == room) {
            room = room > 0 ? 2 * room : FIRST_ROOM;
            uint8_t *more = realloc(memory->bytes, room);
            if (more == NULL)
                return false;
            memory->bytes = more;
        }
        count = fread(memory->bytes + memory->length, 1, room - memory->length, file);
    }
    return !ferror(file);
}

/* The bytes of a file; false where they cannot be read, which is told. They are to be freed in both cases. */
bool memory_read(const char *path, Memory *memory)
{
    FILE *file = fopen(path, "rb");
    memory->length = 0;
    bool read = file != NULL && read_all(file, memory);
    bool fits = memory->length <= MEMORY_LIMIT;
    if (!read || !fits)
        complain("%s: %s", path, read ? "over 256M" : strerror(errno));
    if (file != NULL)
        fclose(file);
    return read && fits;
}

/* The file of memory that a list is drawn into; NULL where it is zeros. A display list is drawn into the memory that it lies in. */
const char *memory_path(const Arguments *arguments)
{
    bool is_own = arguments->input.display.is_given && !arguments->has_memory && strcmp(arguments->paths[0], "-") != 0;
    return is_own ? arguments->paths[0] : arguments->memory_file;
}

/* False where there is no room, which is told. */
static bool take_zeros(Memory *memory)
{
    memory->bytes = calloc(1, memory->length + 1);
    if (memory->bytes == NULL)
        complain("not enough memory to draw into");
    return memory->bytes != NULL;
}

static bool take(const char *path, Memory *memory)
{
    return path != NULL ? memory_read(path, memory) : take_zeros(memory);
}

/* Lends both, to be freed also where that fails. `length` is that of zeros where no file of memory is named. */
bool lend(const Arguments *arguments, uint64_t length, Lent *lent)
{
    *lent = (Lent){ { NULL, (size_t)length, arguments->start }, { NULL, LANYARDROVE_TEXTURE_BYTES, 0 } };
    return take(memory_path(arguments), &lent->memory) && take(arguments->texture, &lent->texture);
}

Answer draw_into(const List *list, const Lent *lent)
{
    const Memory *memory = &lent->memory, *texture = &lent->texture;
    return answer_of(lanyardrove_draw(list->bytes, list->length, memory->bytes, memory->length, memory->start, texture->bytes, texture->length));
}

void lent_free(Lent *lent)
{
    free(lent->memory.bytes);
    free(lent->texture.bytes);
}
