/* What the files of the report share. */
#ifndef LANYARDROVE_REPORT_H
#define LANYARDROVE_REPORT_H

#include "cli.h"

/* -- text.c: a text that grows ------------------------------------------ */

typedef struct {
    char *bytes;
    size_t length, room;
    bool failed; /* memory was short */
} Text;

void text_add(Text *text, const char *format, ...) __attribute__((format(printf, 2, 3)));
void text_add_escaped(Text *text, const char *plain);
void text_add_base64(Text *text, const uint8_t *bytes, size_t length);
void text_append(Text *text, const Text *more);

/* -- what the page is about --------------------------------------------- */

typedef struct {
    size_t place;
    unsigned hazards; /* before the command */
} Row;

typedef struct {
    Row *rows;
    size_t count;
    size_t refused; /* the row of the refused command; `count` where none is */
    size_t cause;   /* the row of the command that it has to wait for; `count` where none is */
} Rows;

typedef struct {
    const char *path;
    const Arguments *arguments;
    List list;
    Answer answer;
    Rows rows;
    Repaired repaired;  /* its answer says whether the list can be repaired */
    Afresh afresh;      /* the other plan: all syncs chosen afresh; without changes where both are the same */
    Insertion missing;  /* the sync that the refused command misses, where it cannot; its number is 0 where there is none */
    Rows repaired_rows; /* of the repaired list, where syncs were inserted */
    Answer drawing;     /* what drawing the list, or the repaired list, answers */
    Image image;
    uint8_t *png; /* NULL where there is no picture */
    size_t png_length;
} Report;

/* Zeros that a list is drawn into: an address has 26 bits, and a picture at most 1,024 rows of 1,024 pixels of 4 bytes, so that all of them are inside. */
#define REPORT_MEMORY (72u * 1024u * 1024u)

/* -- report_film.c: what changes from step to step ----------------------- */

typedef struct {
    Text shown;     /* SVGs */
    bool is_open;   /* the last of them has no end yet */
    bool is_texture;
    Image image;    /* that it shows; width 0 where there is none */
    uint8_t *bytes; /* of it, after the last step */
    Box changed;    /* by the last step */
} Film;

bool film_add(Film *film, const Image *image, const Memory *memory, size_t step);
void film_end(Film *film);
void film_free(Film *film);

/* -- steps.c: the draws and loads of a list one by one -------------------- */

typedef struct {
    size_t count;
    Film picture, texture;
    Text table;    /* for the script: of each step the place and the rectangle drawn, of a load also the part of texture memory that changed */
    Answer answer; /* of the last draw or load that was tried */
} Steps;

bool steps_of(const Report *report, Steps *steps);
void steps_free(Steps *steps);

/* -- report_page.c, report_steps.c, report_style.c, report_strip.c, report_table.c ------ */

extern const char command_blocks[];
void style_add(Text *text);
void head_add(Text *text, const char *verdict, const char *path, const char *kind);
void foot_add(Text *text);
void page_add(Text *text, const Report *report);
void steps_page_add(Text *text, const Report *report, const Steps *steps);
void head_start_add(Text *text, const char *verdict, const char *path, const char *more);
void answer_add(Text *text, const List *list, Answer answer, Purpose purpose);
void meaning_add(Text *text, const Report *report);
void strip_add(Text *text, const Rows *rows);
void place_add(Text *text, size_t place);
void table_add(Text *text, const Report *report);

#endif
