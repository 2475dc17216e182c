/* What changes from step to step, as SVG: one for each image, and in it a part for each step that changes it. The parts lie over one another, so that
   those up to a step are the image after it. */
#include "report.h"

#include <stdlib.h>
#include <string.h>

static bool is_same_image(const Image *one, const Image *other)
{
    return one->address == other->address && one->width == other->width && one->height == other->height && one->bits == other->bits;
}

static const uint8_t *row_of(const Image *image, const uint8_t *bytes, uint32_t row)
{
    return bytes + (size_t)row * image->width * (image->bits / 8);
}

/* Widens a part by the pixels of a row that have changed. */
static void widen(const Image *image, Box *part, uint32_t row, const uint8_t *before, const uint8_t *after)
{
    size_t bytes = (size_t)image->width * (image->bits / 8), first = 0, last = bytes - 1;
    while (first < bytes && before[first] == after[first])
        first++;
    if (first == bytes)
        return;
    while (before[last] == after[last])
        last--;
    uint32_t left = (uint32_t)(first / (image->bits / 8)), end = (uint32_t)(last / (image->bits / 8)) + 1;
    bool is_first = part->height == 0;
    uint32_t right = is_first || part->left + part->width < end ? end : part->left + part->width;
    part->top = is_first ? row : part->top;
    part->left = is_first || left < part->left ? left : part->left;
    part->width = right - part->left;
    part->height = row + 1 - part->top;
}

/* The least part that holds every pixel that has changed; its height is 0 where none has. */
static Box changed_part(const Film *film, const uint8_t *now)
{
    const Image *image = &film->image;
    size_t bytes = (size_t)image->width * (image->bits / 8);
    Box part = { 0 };
    for (uint32_t row = 0; row < image->height; row++) {
        const uint8_t *before = row_of(image, film->bytes, row), *after = row_of(image, now, row);
        if (memcmp(before, after, bytes) != 0)
            widen(image, &part, row, before, after);
    }
    return part;
}

static bool is_one_colour(const Box *part, const uint8_t *rgb)
{
    size_t bytes = 3 * (size_t)part->width * part->height;
    return memcmp(rgb, rgb + 3, bytes - 3) == 0;
}

/* A part of one colour is a rectangle, any other a PNG. */
static bool add_part(Film *film, const Box *part, const Memory *memory, size_t step)
{
    uint8_t *rgb = image_rgb(&film->image, part, memory), *png = NULL;
    size_t length = 0;
    if (rgb == NULL)
        return false;
    bool plain = is_one_colour(part, rgb), done = plain || (png = image_png(part, rgb, &length)) != NULL;
    text_add(&film->shown, "<%s data-s=\"%zu\" x=\"%u\" y=\"%u\" width=\"%u\" height=\"%u\" ", plain ? "rect" : "image", step, (unsigned)part->left,
             (unsigned)part->top, (unsigned)part->width, (unsigned)part->height);
    if (plain)
        text_add(&film->shown, "fill=\"#%02X%02X%02X\"/>\n", rgb[0], rgb[1], rgb[2]);
    else {
        text_add(&film->shown, "href=\"data:image/png;base64,");
        text_add_base64(&film->shown, png, length);
        text_add(&film->shown, "\"/>\n");
    }
    free(png);
    free(rgb);
    return done;
}

/* Another image from this step on: it is shown whole. */
static bool begin(Film *film, const Image *image, size_t step)
{
    char text[160] = "texture memory as pixels of 16 bits, 32 in a row";
    free(film->bytes);
    film->image = *image;
    film->bytes = malloc(image_length(image));
    if (film->bytes == NULL)
        complain("not enough memory for the picture");
    if (!film->is_texture)
        image_text(image, text, sizeof text);
    film_end(film);
    text_add(&film->shown, "<svg data-s=\"%zu\" viewBox=\"0 0 %u %u\" style=\"--w:%u;--h:%u\" role=\"img\" aria-label=\"%s\">\n", step, (unsigned)image->width,
             (unsigned)image->height, (unsigned)image->width, (unsigned)image->height, text);
    film->is_open = true;
    return film->bytes != NULL;
}

void film_end(Film *film)
{
    text_add(&film->shown, film->is_open ? "</svg>\n" : "");
    film->is_open = false;
}

/* An image after a step; it must be inside memory. `changed` is the part that is not as it was. False where that fails, which is told. */
bool film_add(Film *film, const Image *image, const Memory *memory, size_t step)
{
    const uint8_t *now = memory->bytes + (image->address - memory->start);
    bool is_new = !is_same_image(&film->image, image);
    if (is_new && !begin(film, image, step))
        return false;
    film->changed = is_new ? whole_of(image) : changed_part(film, now);
    if (film->changed.height > 0 && !add_part(film, &film->changed, memory, step))
        return false;
    memcpy(film->bytes, now, image_length(image));
    return true;
}

void film_free(Film *film)
{
    free(film->bytes);
    free(film->shown.bytes);
}
