/* The draws and loads of a list one by one, each drawn by the library on what those before have left. A step's list is what the commands before it set, and
   the command itself: its syncs are left out, as nothing before it draws, and each load before it is a Set Tile Size, which leaves the same. */
#include "report.h"

#include <stdlib.h>
#include <string.h>

#define TEXTURE_WIDTH 32 /* pixels in a row of texture memory as it is shown: eight words */

/* The colour images that are drawn on, each as high as the highest scissor there. */
typedef struct {
    Image *images;
    size_t count;
} Images;

typedef struct {
    const Report *report;
    Steps *steps;
    Lent lent;
    Images images;
    Image set;      /* the colour image and scissor that are set */
    Image shown;    /* the image that is shown; width 0 where there is none */
    uint8_t *list;  /* of the next step */
    size_t words;   /* that it has so far */
    size_t *places; /* of each of them in the given list */
} Stage;

/* Whether a command draws or loads: alone it leaves that hazard. */
static bool is_act(const Command *command)
{
    return (hazards_after(0, command) & (LANYARDROVE_HAZARD_DRAW | LANYARDROVE_HAZARD_LOAD)) != 0;
}

static bool is_load(const Command *command)
{
    return (hazards_after(0, command) & LANYARDROVE_HAZARD_LOAD) != 0;
}

static bool is_short_sync(const Command *command)
{
    return command->number == LANYARDROVE_SYNC_LOAD || command->number == LANYARDROVE_SYNC_TILE || command->number == LANYARDROVE_SYNC_PIPE;
}

/* The image among those drawn on, or the one to be added after them. */
static Image *image_among(Images *images, const Image *set)
{
    size_t i = 0;
    while (i < images->count && (images->images[i].address != set->address || images->images[i].width != set->width || images->images[i].bits != set->bits))
        i++;
    return &images->images[i];
}

/* The image that a draw changes, as high as all draws on it need; of memory only the rows that are there. */
static Image image_drawn(Stage *stage)
{
    const Memory *memory = &stage->lent.memory;
    Image image = *image_among(&stage->images, &stage->set);
    uint64_t row = (uint64_t)image.width * (image.bits / 8), from = image.address - memory->start;
    if (row == 0 || image.address < memory->start || from > memory->length)
        return (Image){ 0 };
    uint64_t rows = (memory->length - from) / row;
    image.height = rows < image.height ? (uint32_t)rows : image.height;
    return image.height > 0 ? image : (Image){ 0 };
}

/* A first walk: the images, and the one that is shown before the first draw. */
static bool find_images(Stage *stage)
{
    const Rows *rows = &stage->report->rows;
    Command command;
    Image set = { 0 };
    stage->images.images = calloc(rows->count + 1, sizeof *stage->images.images);
    for (size_t row = 0; stage->images.images != NULL && row < rows->count; row++) {
        if (!command_at(&stage->report->list, rows->rows[row].place, &command) || !command.whole)
            break;
        image_set(&set, &command);
        if (!is_act(&command) || is_load(&command) || set.bits < 8 || set.width == 0)
            continue;
        Image *image = image_among(&stage->images, &set);
        stage->images.count += image == &stage->images.images[stage->images.count];
        set.height = set.height > image->height ? set.height : image->height;
        *image = set;
    }
    if (stage->images.count > 0) {
        stage->set = stage->images.images[0];
        stage->shown = image_drawn(stage);
    }
    return stage->images.images != NULL;
}

/* The words of a command at the end of the step's list, without those that are cut off. */
static size_t put(Stage *stage, const Command *command)
{
    size_t left = stage->report->list.length / 8 - command->place, words = command->words < left ? command->words : left;
    memcpy(stage->list + 8 * stage->words, stage->report->list.bytes + 8 * command->place, 8 * words);
    for (size_t i = 0; i < words; i++)
        stage->places[stage->words + i] = command->place;
    return words;
}

/* What a command leaves for those after it. */
static void keep(Stage *stage, const Command *command)
{
    if (is_short_sync(command) || (is_act(command) && !is_load(command)))
        return;
    size_t words = put(stage, command);
    if (is_load(command))
        stage->list[8 * stage->words] = LANYARDROVE_SET_TILE_SIZE;
    stage->words += words;
}

/* Draws one command; at a refusal the place is that of the given list. */
static Answer draw_act(Stage *stage, const Command *command)
{
    List list = { .bytes = stage->list, .length = 8 * (stage->words + put(stage, command)) };
    Answer answer = draw_into(&list, &stage->lent);
    if (is_refused(answer))
        answer.place = answer.number == LANYARDROVE_TEXTURE_LENGTH ? 0 : (uint32_t)stage->places[answer.place];
    return answer;
}

/* The pixels of a rectangle, before the scissor. */
static Box rectangle_of(const Command *command)
{
    bool fill = command->number == LANYARDROVE_FILL_RECTANGLE;
    const uint64_t *fields = command->fields;
    uint32_t left = (uint32_t)fields[fill ? LANYARDROVE_RECTANGLE_UPPER_LEFT_X : LANYARDROVE_TEXRECT_ULX] / 4;
    uint32_t top = (uint32_t)fields[fill ? LANYARDROVE_RECTANGLE_UPPER_LEFT_Y : LANYARDROVE_TEXRECT_ULY] / 4;
    uint32_t right = (uint32_t)fields[fill ? LANYARDROVE_RECTANGLE_LOWER_RIGHT_X : LANYARDROVE_TEXRECT_LRX] / 4;
    uint32_t bottom = (uint32_t)fields[fill ? LANYARDROVE_RECTANGLE_LOWER_RIGHT_Y : LANYARDROVE_TEXRECT_LRY] / 4;
    return (Box){ left, top, right < left ? 0 : right + 1 - left, bottom < top ? 0 : bottom + 1 - top };
}

/* Both memories as they are after a step. */
static bool show(Stage *stage, size_t step)
{
    Steps *steps = stage->steps;
    const Image texture = { 0, TEXTURE_WIDTH, LANYARDROVE_TEXTURE_BYTES / 2 / TEXTURE_WIDTH, 16 };
    return (stage->shown.width == 0 || film_add(&steps->picture, &stage->shown, &stage->lent.memory, step)) &&
           (stage->lent.texture.length != LANYARDROVE_TEXTURE_BYTES || film_add(&steps->texture, &texture, &stage->lent.texture, step));
}

/* A draw or a load that the library has drawn. */
static bool add_step(Stage *stage, const Command *command)
{
    Steps *steps = stage->steps;
    bool load = is_load(command);
    Image image = load ? stage->shown : image_drawn(stage);
    stage->shown = image.width > 0 ? image : stage->shown;
    if (!show(stage, ++steps->count))
        return false;
    Box drawn = load ? (Box){ 0 } : rectangle_of(command), loaded = load ? steps->texture.changed : (Box){ 0 };
    text_add(&steps->table, "%s[%zu,%u,%u,%u,%u", steps->count > 1 ? ",\n" : "", command->place, (unsigned)drawn.left, (unsigned)drawn.top,
             (unsigned)drawn.width, (unsigned)drawn.height);
    if (loaded.height > 0)
        text_add(&steps->table, ",%u,%u,%u,%u", (unsigned)loaded.left, (unsigned)loaded.top, (unsigned)loaded.width, (unsigned)loaded.height);
    text_add(&steps->table, "]");
    return true;
}

/* All steps, up to the first command that the library refuses. */
static bool take_steps(Stage *stage)
{
    const Report *report = stage->report;
    Command command;
    bool done = show(stage, 0);
    for (size_t row = 0; done && row < report->rows.count && command_at(&report->list, report->rows.rows[row].place, &command); row++) {
        image_set(&stage->set, &command);
        if (is_act(&command)) {
            stage->steps->answer = draw_act(stage, &command);
            if (is_refused(stage->steps->answer))
                break;
            done = add_step(stage, &command);
        }
        keep(stage, &command);
    }
    film_end(&stage->steps->picture);
    film_end(&stage->steps->texture);
    return done;
}

static bool is_same(const Memory *one, const Memory *other)
{
    return one->length == other->length && (one->length == 0 || memcmp(one->bytes, other->bytes, one->length) == 0);
}

/* Where the whole list is drawn, the last step has to leave what it leaves. */
static bool is_right(const Stage *stage)
{
    const Report *report = stage->report;
    Lent whole;
    if (is_refused(report->drawing))
        return true;
    bool right = lend(report->arguments, stage->lent.memory.length, &whole);
    if (right) {
        draw_into(report->repaired.count > 0 ? &report->repaired.list : &report->list, &whole);
        right = is_same(&whole.memory, &stage->lent.memory) && is_same(&whole.texture, &stage->lent.texture);
        if (!right)
            complain("the steps do not end in what the list draws");
    }
    lent_free(&whole);
    return right;
}

/* The steps of a report's list; false where that fails, which is told. They are to be freed in both cases. */
bool steps_of(const Report *report, Steps *steps)
{
    Stage stage = { .report = report, .steps = steps };
    steps->texture.is_texture = true;
    bool done = lend(report->arguments, report->arguments->has_memory ? report->arguments->memory : REPORT_MEMORY, &stage.lent);
    stage.list = malloc(LIST_LIMIT + 8 * LANYARDROVE_MOST_WORDS);
    stage.places = calloc(LIST_LIMIT / 8 + LANYARDROVE_MOST_WORDS, sizeof *stage.places);
    if (done && (stage.list == NULL || stage.places == NULL || !find_images(&stage))) {
        complain("not enough memory");
        done = false;
    }
    stage.set = (Image){ 0 };
    done = done && take_steps(&stage) && is_right(&stage);
    free(stage.list);
    free(stage.places);
    free(stage.images.images);
    lent_free(&stage.lent);
    return done;
}

void steps_free(Steps *steps)
{
    film_free(&steps->picture);
    film_free(&steps->texture);
    free(steps->table.bytes);
}
