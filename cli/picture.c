/* The picture in memory, as PNG or PPM. */
#include "cli.h"

#include <inttypes.h>
#include <png.h>
#include <stdlib.h>
#include <string.h>

/* A colour image and a scissor, as a command leaves them: the image is as high as the scissor. */
void image_set(Image *set, const Command *command)
{
    if (command->number == LANYARDROVE_SET_COLOR_IMAGE) {
        set->address = command->fields[LANYARDROVE_IMAGE_ADDRESS];
        set->width = (uint32_t)command->fields[LANYARDROVE_IMAGE_WIDTH] + 1;
        set->bits = 4u << command->fields[LANYARDROVE_IMAGE_SIZE];
    } else if (command->number == LANYARDROVE_SET_SCISSOR)
        set->height = ((uint32_t)command->fields[LANYARDROVE_SCISSOR_LOWER_RIGHT_Y] + 3) / 4;
}

/* The colour image of the last rectangle of a list that can be drawn, as high as the scissor there; false where there is none. */
bool image_of_list(const List *list, Image *image)
{
    Command command;
    Image set = { 0 }, drawn = { 0 };
    for (size_t place = 0; command_at(list, place, &command) && command.whole; place += command.words) {
        image_set(&set, &command);
        if (command.number == LANYARDROVE_FILL_RECTANGLE || command.number == LANYARDROVE_TEXTURE_RECTANGLE)
            drawn = set;
    }
    bool is_picture = drawn.height > 0 && drawn.width > 0 && drawn.bits >= 8;
    if (is_picture)
        *image = drawn;
    return is_picture;
}

size_t image_length(const Image *image)
{
    return (size_t)image->width * image->height * (image->bits / 8);
}

/* All bytes of the picture are in memory. */
bool image_inside(const Image *image, const Memory *memory)
{
    if (image->address < memory->start || image->address - memory->start > memory->length)
        return false;
    return image_length(image) <= memory->length - (image->address - memory->start);
}

void image_text(const Image *image, char *text, size_t room)
{
    snprintf(text, room, "%" PRIu32 " by %" PRIu32 " pixels of %" PRIu32 " bits at address 0x%" PRIX64, image->width, image->height, image->bits,
             image->address);
}

/* Pixels that lie one after the other from an address on, as the library shows them: a row of an image. At most RUN_LIMIT. */
bool pixels_rgb(const Memory *memory, uint64_t address, uint32_t count, uint32_t bits, uint8_t *rgb)
{
    uint8_t rgba[4 * RUN_LIMIT];
    Answer answer = answer_of(lanyardrove_view(memory->bytes, memory->length, memory->start, address, count, 1, bits / 16 + 1, rgba, sizeof rgba));
    for (uint32_t i = 0; is_accepted(answer) && i < count; i++)
        memcpy(rgb + 3 * (size_t)i, rgba + 4 * (size_t)i, 3);
    return is_accepted(answer);
}

Box whole_of(const Image *image)
{
    return (Box){ 0, 0, image->width, image->height };
}

/* One row of a part: a picture may be wider than the library shows at once. */
static bool row_rgb(const Image *image, const Box *part, uint32_t row, const Memory *memory, uint8_t *rgb)
{
    uint64_t first = image->address + ((uint64_t)(part->top + row) * image->width + part->left) * (image->bits / 8);
    bool seen = true;
    for (uint32_t done = 0, run; seen && done < part->width; done += run) {
        run = part->width - done < RUN_LIMIT ? part->width - done : RUN_LIMIT;
        seen = pixels_rgb(memory, first + (uint64_t)done * (image->bits / 8), run, image->bits, rgb + 3 * (size_t)done);
    }
    return seen;
}

/* A part of the picture as red, green and blue bytes; it must be inside memory. NULL where that fails, which is told. */
uint8_t *image_rgb(const Image *image, const Box *part, const Memory *memory)
{
    uint8_t *rgb = malloc(3 * (size_t)part->width * part->height);
    bool seen = rgb != NULL;
    for (uint32_t row = 0; seen && row < part->height; row++)
        seen = row_rgb(image, part, row, memory, rgb + 3 * (size_t)part->width * row);
    if (seen)
        return rgb;
    complain(rgb == NULL ? "not enough memory for the picture" : "the picture is not inside memory");
    free(rgb);
    return NULL;
}

uint8_t *image_png(const Box *part, const uint8_t *rgb, size_t *length)
{
    png_image png;
    memset(&png, 0, sizeof png);
    png.version = PNG_IMAGE_VERSION;
    png.width = part->width;
    png.height = part->height;
    png.format = PNG_FORMAT_RGB;
    png_alloc_size_t size = PNG_IMAGE_PNG_SIZE_MAX(png);
    uint8_t *bytes = malloc(size);
    if (bytes == NULL || !png_image_write_to_memory(&png, bytes, &size, 0, rgb, 0, NULL)) {
        complain("the PNG could not be made: %s", bytes == NULL ? "not enough memory" : png.message);
        free(bytes);
        return NULL;
    }
    *length = size;
    return bytes;
}

uint8_t *image_ppm(const Box *part, const uint8_t *rgb, size_t *length)
{
    size_t colours = 3 * (size_t)part->width * part->height;
    uint8_t *bytes = malloc(colours + 64);
    if (bytes == NULL) {
        complain("not enough memory");
        return NULL;
    }
    int head = sprintf((char *)bytes, "P6\n%u %u\n255\n", (unsigned)part->width, (unsigned)part->height);
    memcpy(bytes + head, rgb, colours);
    *length = (size_t)head + colours;
    return bytes;
}
