/* What the files of the command line tool share. */
#ifndef LANYARDROVE_CLI_H
#define LANYARDROVE_CLI_H

#include <lanyardrove.h>
#include <stdbool.h>
#include <stddef.h>
#include <stdint.h>
#include <stdio.h>
#include <sys/types.h>

/* exit status */
enum { STATUS_ACCEPTED = 0, STATUS_REFUSED = 1, STATUS_ERROR = 2 };

/* the longest list of the check and of the repair, and the most of a file that is shown */
#define LIST_LIMIT 32768u
#define REPAIR_LIMIT 16384u
#define FILE_LIMIT (1024u * 1024u)

/* the most memory */
#define MEMORY_LIMIT (256u * 1024u * 1024u)

/* -- answer.c: the parts of an answer, and what it means ---------------- */

typedef struct {
    unsigned number; /* an enum lanyardrove_ground */
    uint32_t third;  /* cause of the check, cycles of repair, command number of decode */
    uint32_t place;
} Answer;

typedef struct {
    uint8_t *bytes; /* followed by LANYARDROVE_MOST_WORDS words of zeros */
    size_t length;
    size_t limit; /* of the bytes; one more tells that the list goes on */
    bool arrived; /* through a pipe, so that the verdict is that of portions */
    uint32_t *offsets; /* of a translated list: where in memory the command of each word comes from; NULL where that is not known */
    Answer verdict;
} List;

typedef enum { FOR_CHECK, FOR_REPAIR, FOR_DRAW } Purpose;

/* What an answer means, in one line. */
typedef struct {
    char text[200];    /* the longest fits in */
    size_t start, end; /* of what it says of the command: after its place, before its cause */
    size_t cause;      /* where it names the command that a missing sync has to wait for; its end where it names none */
} Meaning;

Answer answer_of(uint64_t packed);
bool is_accepted(Answer answer);
bool is_refused(Answer answer);
bool is_missing_sync(Answer answer);
bool is_beyond_repair(Answer verdict);
int status_of(Answer answer);
Meaning meaning_of(const List *list, Answer answer, Purpose purpose);
void print_answer(FILE *stream, const List *list, Answer answer, Purpose purpose);
const char *reason_of(unsigned number);
extern const char copy_needs[];

/* -- source.c: the bytes of a list where they are ----------------------- */

/* A number that an option gives. */
typedef struct {
    bool is_given;
    uint64_t value;
} Number;

typedef struct {
    Number offset, length;
    bool swap, hex;
    Number display; /* the offset of a display list in the file, which is then memory */
} Input;

/* The file that a list is read from, and how far. */
typedef struct {
    int file;
    const Input *input;
    uint64_t skipped, taken; /* bytes before the list, and of it */
    unsigned digits, high;   /* of hexadecimal text: the digits of a byte so far, and the value of the first */
    bool comment;            /* it is in one, to the end of the line */
    uint8_t held[8];         /* of little-endian words: the bytes of one that is not complete */
    size_t holds;
    const char *fault; /* why the list cannot be read, where the system does not know */
} Source;

ssize_t source_read(Source *source, uint8_t *to, size_t room);
const char *source_fault(const Source *source);
bool is_as_it_stands(const Input *input);
void swap_words(uint8_t *bytes, size_t words);

/* -- list.c: lists are read ---------------------------------------------- */

/* How far a command of the tool reads a list. */
typedef struct {
    size_t of_file, of_pipe; /* the limits of its bytes */
    bool (*is_enough)(Answer verdict); /* at such a verdict no more is read of a pipe */
} Reading;

extern const Reading to_judge, to_walk, to_repair, to_show;

bool list_read(const char *path, List *list, const Reading *reading, const Input *input);
bool goes_on(const List *list);
void list_free(List *list);

/* -- file.c: outputs are written whole or not at all --------------------- */

bool file_write(const char *path, const void *bytes, size_t length);
bool is_same_file(const char *path, const char *other);

/* -- command.c: a list command by command ------------------------------- */

typedef struct {
    size_t place;    /* its first word */
    unsigned number; /* the command number */
    size_t words;    /* the words due */
    bool whole;      /* all of them are in the list */
    size_t count;    /* fields */
    uint64_t fields[LANYARDROVE_MOST_FIELDS];
} Command;

bool command_at(const List *list, size_t place, Command *command);
uint64_t word_at(const uint8_t *bytes, size_t place);

/* -- names.c: names and values as N64brew has them ---------------------- */

bool does_something(unsigned number);
const char *command_name(unsigned number);
const char *name_at(const List *list, size_t place);
const char *field_name(unsigned number, size_t field);
const char *suffix_name(const Command *command, size_t word);

/* How a field is shown. */
typedef enum {
    PLAIN,      /* a number */
    QUARTER,    /* quarter pixels or texels */
    PARTS_32,   /* parts of 32 */
    PARTS_1024, /* parts of 1,024 */
    FIXED,      /* the integer part of a number; its fraction, in parts of 65,536, is the next field */
    HEX,
    COLOUR, /* in eight digits */
    FORMAT, /* of texels or pixels */
    SIZE,   /* of texels or pixels */
    CYCLE,  /* the cycle type */
    LESS_ONE /* one less than the size */
} Style;

Style field_style(unsigned number, size_t field);

/* -- shown.c: fields as they are shown ----------------------------------- */

typedef struct {
    char name[32], value[96];
    bool is_zero; /* all of its bits are */
} Shown;

bool next_shown(const Command *command, size_t *at, Shown *shown);

/* -- hint.c -------------------------------------------------------------- */

bool looks_swapped(const List *list, const Input *input);
void hint_swapped(const char *path, const List *list, const Input *input);

/* -- hazards.c: the hazards along a list -------------------------------- */

#define HAZARDS 4 /* pipe, tile, draw, load: a bit each, as in the header; a list starts at 0 */
unsigned hazards_after(unsigned hazards, const Command *command);
const char *hazard_name(unsigned bit);
void hazards_text(unsigned hazards, char *text, size_t room);

/* -- cycles.c: the cycles that the syncs of a list wait ----------------- */

uint32_t cycles_waited(const List *list);

/* -- repaired.c: the repair, and the syncs that it inserted ------------- */

typedef struct {
    size_t place;    /* the first word of the command after it, in the given list */
    unsigned number; /* the command number of the inserted sync */
} Insertion;

typedef struct {
    Answer answer;
    List list;
    Insertion *inserted;
    size_t count;
    uint32_t before, after; /* the cycles that the given list waits, and the repaired one */
} Repaired;

typedef uint64_t RepairFunction(const uint8_t *list, size_t list_length, uint8_t *work, size_t work_length, uint8_t *out, size_t out_length);

bool repair_by(RepairFunction *repair, const List *list, Answer *answer, List *written);
bool repaired_of(const List *list, Repaired *repaired);
size_t given_place(const Repaired *repaired, size_t place);
void inserted_text(const Repaired *repaired, bool done, char *text, size_t room);
void repaired_free(Repaired *repaired);

/* -- afresh.c: the repair that forgets the syncs of a list --------------- */

/* What becomes of a sync: the command numbers of the given one and of the written one, 0 where there is none. Where they are the same, its other bits go. */
typedef struct {
    size_t place; /* of the given sync; where there is none, of the command that the written one comes before */
    unsigned given, written;
} Change;

typedef struct {
    Answer answer;
    List list;
    Change *changes;
    size_t count;
    uint32_t before, after; /* the cycles that the given list waits, and the written one */
} Afresh;

#define CHANGE_ROOM 192 /* bytes that what is said of changes fits in */

bool afresh_of(const List *list, Afresh *afresh);
void change_text(const List *list, const Change *change, char *text, size_t room);
void afresh_text(const Afresh *afresh, char *text, size_t room);
bool cycles_saved(const List *list, uint32_t *saved);
void afresh_free(Afresh *afresh);

/* -- picture.c: the picture in memory ----------------------------------- */

typedef struct {
    uint64_t address;
    uint32_t width, height, bits; /* bits of a pixel: 8, 16 or 32 */
} Image;

typedef struct {
    uint8_t *bytes;
    size_t length;
    uint64_t start; /* the address of the first */
} Memory;

/* Pixels of a picture: a rectangle of them. */
typedef struct {
    uint32_t left, top, width, height;
} Box;

#define RUN_LIMIT LANYARDROVE_MOST_SIDE /* pixels of a row that the library shows at once */

void image_set(Image *set, const Command *command);
bool image_of_list(const List *list, Image *image);
size_t image_length(const Image *image);
bool image_inside(const Image *image, const Memory *memory);
void image_text(const Image *image, char *text, size_t room);
Box whole_of(const Image *image);
bool pixels_rgb(const Memory *memory, uint64_t address, uint32_t count, uint32_t bits, uint8_t *rgb);
uint8_t *image_rgb(const Image *image, const Box *part, const Memory *memory);
uint8_t *image_png(const Box *part, const uint8_t *rgb, size_t *length);
uint8_t *image_ppm(const Box *part, const uint8_t *rgb, size_t *length);

/* -- translated.c: the list that a display list stands for -------------- */

#define TRANSLATION_ROOM 256 /* bytes that what a translation's answer means fits in */

Answer translated(const char *path, uint64_t start, Memory *memory, List *list);
void translation_text(Answer answer, const Memory *memory, char text[TRANSLATION_ROOM]);

/* -- offsets.c: where the commands of a translated list come from ------- */

#define OFFSET_ROOM 64 /* bytes that an offset fits in with what is around it */

uint32_t *offsets_of(const Memory *memory, uint32_t start, Answer answer);
bool offset_at(const List *list, size_t place, uint32_t *offset);
const char *offset_text(const List *list, size_t place, const char *before, const char *after, char text[OFFSET_ROOM]);

/* -- message.c: messages, and names that are shown ---------------------- */

void complain(const char *format, ...) __attribute__((format(printf, 1, 2)));
int usage_error(const char *command);
void print_shown(FILE *stream, const char *text);

#define VERSION_ROOM 16 /* bytes that the version fits in */
void version_text(char text[VERSION_ROOM]);

/* -- check.c: the forms in which it tells lists -------------------------- */

const struct Format *format_of(const char *name);
void print_annotation(const char *kind, const char *path, const char *text);

/* -- lint.c, warnings.c: the forms in which lint tells warnings, and their names */

const struct LintFormat *lint_format_of(const char *name);
bool take_warning(const char *text, unsigned *silenced);

/* -- values.c: the values of options ------------------------------------ */

unsigned digit_of(char c);
bool take_bytes(const char *text, uint64_t *number);
bool take_address(const char *text, uint64_t *number);
bool take_offset(const char *text, uint64_t *number);
bool take_image(const char *text, Image *image);

/* -- options.c: arguments ----------------------------------------------- */

typedef struct {
    const char *command;
    char **paths; /* the lists, the memory to translate, or the text of a list; of edit the list, a place and a command */
    int count;
    Input input;
    const char *output; /* NULL where -o is not given */
    bool help, brief, text, quiet, verbose, failures, all, afresh, dry, in_place, json, steps, has_memory, has_image;
    const struct Format *format; /* of what check tells */
    const struct LintFormat *lint_format;
    unsigned silenced; /* kinds of warnings, a bit each */
    Number from, to, around; /* places that dump shows */
    const char *memory_file, *texture; /* files of memory and of texture memory; NULL where they are zeros */
    uint64_t memory, start; /* the length of zeros, and the address of the first byte */
    Image image;
} Arguments;

/* The commands of the tool, a bit each. */
enum {
    OF_CHECK = 1, OF_REPAIR = 2, OF_DUMP = 4, OF_DRAW = 8, OF_REPORT = 16, OF_DIFF = 32, OF_TRANSLATE = 64, OF_EDIT = 128, OF_ASM = 256, OF_LINT = 512,
    OF_LISTS = OF_CHECK | OF_REPAIR | OF_DUMP | OF_DRAW | OF_REPORT | OF_DIFF | OF_EDIT | OF_LINT, OF_ALL = OF_LISTS | OF_TRANSLATE | OF_ASM
};

/* A command of the tool. */
typedef struct {
    unsigned command; /* its bit */
    const char *name;
    int (*run)(const Arguments *arguments);
    int least, most;   /* files that it takes */
    const char *takes; /* what one of them is */
    const char *help;
} Entry;

/* An option of commands of the tool. */
typedef struct {
    unsigned commands; /* the bits of those that have it */
    const char *name;
    char letter;       /* 0 where it has none */
    const char *value; /* what the help calls its value; NULL where it takes none */
    bool (*set)(void *member, const char *value); /* false where the value is wrong */
    size_t member;        /* what it sets, in bytes from the start of the arguments */
    const char *expected; /* what a value that is wrong is not */
    const char *text;     /* what the help says, in lines */
} Option;

int run_entry(const Entry *entry, int argc, char **argv);
const Option *option_at(unsigned command, size_t index);

/* -- memory.c: memory from files, and what drawing is lent -------------- */

typedef struct {
    Memory memory, texture;
} Lent;

bool memory_read(const char *path, Memory *memory);
const char *memory_path(const Arguments *arguments);
bool lend(const Arguments *arguments, uint64_t length, Lent *lent);
Answer draw_into(const List *list, const Lent *lent);
void lent_free(Lent *lent);

/* -- help.c ------------------------------------------------------------- */

void print_overview(FILE *stream);
void print_help(FILE *stream, const Entry *entry);

/* -- the commands ------------------------------------------------------- */

int run_check(const Arguments *arguments);
int run_repair(const Arguments *arguments);
int run_dump(const Arguments *arguments);
int run_draw(const Arguments *arguments);
int run_report(const Arguments *arguments);
int run_diff(const Arguments *arguments);
int run_translate(const Arguments *arguments);
int run_edit(const Arguments *arguments);
int run_asm(const Arguments *arguments);
int run_lint(const Arguments *arguments);

#endif
