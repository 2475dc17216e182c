/* lanyardrove draw: a list drawn into memory. */
#include "cli.h"

#include <inttypes.h>
#include <stdlib.h>
#include <string.h>

#define TEXT_ROOM 128 /* bytes that what is said of a picture or of memory fits in */

typedef enum { AS_BIN, AS_PNG, AS_PPM, AS_UNKNOWN } Form;

/* What is written, by the ending of its name. */
static Form form_of(const char *path)
{
    static const struct { const char *ending; Form form; } forms[] = { { ".png", AS_PNG }, { ".ppm", AS_PPM }, { ".bin", AS_BIN } };
    size_t length = strlen(path);
    for (size_t i = 0; i < sizeof forms / sizeof forms[0]; i++)
        if (length > 4 && strcmp(path + length - 4, forms[i].ending) == 0)
            return forms[i].form;
    return AS_UNKNOWN;
}

static bool write_picture(const char *output, const Image *image, const Memory *memory)
{
    Box whole = whole_of(image);
    uint8_t *rgb = image_rgb(image, &whole, memory);
    size_t length = 0;
    uint8_t *bytes = NULL;
    if (rgb != NULL)
        bytes = form_of(output) == AS_PNG ? image_png(&whole, rgb, &length) : image_ppm(&whole, rgb, &length);
    bool done = bytes != NULL && file_write(output, bytes, length);
    free(bytes);
    free(rgb);
    return done;
}

static void memory_text(const Memory *memory, char *text, size_t room)
{
    snprintf(text, room, "%zu bytes of memory from address 0x%" PRIX64, memory->length, memory->start);
}

/* Writes the picture or its bytes; all of memory where `image` is NULL. `text` says what was written. */
static bool write_drawn(const char *output, const Image *image, const Memory *memory, char *text, size_t room)
{
    if (image == NULL) {
        memory_text(memory, text, room);
        return file_write(output, memory->bytes, memory->length);
    }
    image_text(image, text, room);
    if (!image_inside(image, memory)) {
        complain("the picture, %s, is not inside memory", text);
        return false;
    }
    if (form_of(output) == AS_BIN)
        return file_write(output, memory->bytes + (image->address - memory->start), image_length(image));
    return write_picture(output, image, memory);
}

static int refuse(const List *list, Answer answer, const Lent *lent)
{
    char text[TEXT_ROOM];
    print_answer(stdout, list, answer, FOR_DRAW);
    if (answer.number == LANYARDROVE_OUTSIDE_MEMORY) {
        memory_text(&lent->memory, text, sizeof text);
        printf("--memory and --start give %s\n", text);
    } else if (answer.number == LANYARDROVE_TEXTURE_LENGTH)
        printf("--texture gives %zu bytes\n", lent->texture.length);
    else if (answer.number == LANYARDROVE_NOT_COPYABLE)
        printf("%s\n", copy_needs);
    return STATUS_REFUSED;
}

static void print_written(const char *path, const char *what)
{
    print_shown(stdout, path);
    printf(": %s\n", what);
}

/* Writes what was asked for: what is drawn first, so that where it fails texture memory is still what it was. */
static int write_all(const Arguments *arguments, const List *list, Answer answer, const Lent *lent)
{
    bool memory_alone = !arguments->has_image && form_of(arguments->output) == AS_BIN;
    Image image = arguments->image;
    char written[TEXT_ROOM];
    if (!memory_alone && !arguments->has_image && !image_of_list(list, &image)) {
        complain("the list draws no picture: give --image ADDRESS,WIDTH,HEIGHT,SIZE");
        return STATUS_ERROR;
    }
    if (!write_drawn(arguments->output, memory_alone ? NULL : &image, &lent->memory, written, sizeof written))
        return STATUS_ERROR;
    if (arguments->texture != NULL && !file_write(arguments->texture, lent->texture.bytes, lent->texture.length))
        return STATUS_ERROR;
    print_answer(stdout, list, answer, FOR_DRAW);
    print_written(arguments->output, written);
    if (arguments->texture != NULL)
        print_written(arguments->texture, "texture memory");
    return STATUS_ACCEPTED;
}

/* Draws; nothing is written where the list is refused. */
static int draw_list(const Arguments *arguments, const List *list)
{
    Lent lent;
    int status = STATUS_ERROR;
    if (lend(arguments, arguments->memory, &lent)) {
        Answer answer = draw_into(list, &lent);
        status = is_accepted(answer) ? write_all(arguments, list, answer, &lent) : refuse(list, answer, &lent);
    }
    lent_free(&lent);
    return status;
}

static int draw_file(const Arguments *arguments)
{
    List list;
    if (!list_read(arguments->paths[0], &list, &to_judge, &arguments->input))
        return STATUS_ERROR;
    /* drawing runs the whole check first */
    int status = is_refused(list.verdict) ? refuse(&list, list.verdict, NULL) : draw_list(arguments, &list);
    list_free(&list);
    return status;
}

/* Why the arguments do not go together; NULL where they do. */
static const char *fault_of(const Arguments *arguments)
{
    if (!arguments->has_memory && memory_path(arguments) == NULL)
        return "draw needs --memory BYTES or --memory FILE";
    if (arguments->output == NULL)
        return "draw needs -o OUT";
    if (form_of(arguments->output) == AS_UNKNOWN)
        return "the name of the output ends in none of .png, .ppm and .bin";
    if (is_same_file(arguments->paths[0], arguments->output))
        return "the output is the list itself";
    if (is_same_file(arguments->paths[0], arguments->texture) || is_same_file(memory_path(arguments), arguments->texture)
        || is_same_file(arguments->output, arguments->texture))
        return "texture memory has a file of its own";
    return NULL;
}

int run_draw(const Arguments *arguments)
{
    const char *fault = fault_of(arguments);
    if (fault == NULL)
        return draw_file(arguments);
    complain("%s", fault);
    return usage_error(arguments->command);
}
