/* Lists are read: a file whole, and judged then; what comes through a pipe judged as it arrives. */
#define _XOPEN_SOURCE 700
#include "cli.h"

#include <errno.h>
#include <fcntl.h>
#include <stdlib.h>
#include <string.h>
#include <sys/stat.h>
#include <unistd.h>

static bool never(Answer verdict)
{
    (void)verdict;
    return false;
}

/* What comes after a refusal is shown, but of a pipe no more than a list may have: it may never end. */
const Reading to_judge = { LIST_LIMIT, LIST_LIMIT, is_refused };
const Reading to_walk = { LIST_LIMIT, LIST_LIMIT, never };
const Reading to_repair = { REPAIR_LIMIT, REPAIR_LIMIT, is_beyond_repair };
const Reading to_show = { FILE_LIMIT, LIST_LIMIT, never };

bool goes_on(const List *list)
{
    return list->length > list->limit;
}

static bool read_whole(Source *source, List *list)
{
    ssize_t count;
    do {
        count = source_read(source, list->bytes + list->length, list->limit + 1 - list->length);
        list->length += count > 0 ? (size_t)count : 0;
    } while (count > 0 && !goes_on(list));
    list->verdict = answer_of(lanyardrove_check(list->bytes, list->length));
    return count >= 0;
}

/* Portions carry no cause: the check is asked, of the list up to the refused command. */
static Answer with_cause(const List *list, Answer verdict)
{
    size_t end = verdict.place + (size_t)lanyardrove_words(word_at(list->bytes, verdict.place));
    return answer_of(lanyardrove_check(list->bytes, 8 * end));
}

/* Reads until the verdict is enough, or to the end, or one byte more than the limit. After a refusal the stream repeats it. */
static bool read_arriving(Source *source, List *list, bool (*is_enough)(Answer verdict))
{
    struct lanyardrove_stream stream = { { 0 } };
    ssize_t count;
    do {
        uint8_t *portion = list->bytes + list->length;
        count = source_read(source, portion, list->limit + 1 - list->length);
        if (count < 0)
            return false;
        list->length += (size_t)count;
        list->verdict = answer_of(count > 0 ? lanyardrove_stream_feed(&stream, portion, (size_t)count) : lanyardrove_stream_close(&stream));
    } while (count > 0 && !goes_on(list) && !is_enough(list->verdict));
    list->arrived = true;
    if (is_missing_sync(list->verdict))
        list->verdict = with_cause(list, list->verdict);
    return true;
}

/* Standard input, a pipe or a device is judged as it arrives; a file may be read whole first. */
static bool is_pipe(int file)
{
    struct stat kind;
    return file == STDIN_FILENO || fstat(file, &kind) != 0 || !S_ISREG(kind.st_mode);
}

static bool read_source(Source *source, List *list, const Reading *reading)
{
    bool pipe = is_pipe(source->file);
    list->limit = pipe ? reading->of_pipe : reading->of_file;
    list->bytes = calloc(1, list->limit + 1 + 8 * LANYARDROVE_MOST_WORDS);
    return list->bytes != NULL && (pipe ? read_arriving(source, list, reading->is_enough) : read_whole(source, list));
}

/* The list that a display list stands for. Where that is refused there is no list, and it is told as a file that cannot be read. */
static bool read_translated(const char *path, List *list, const Input *input)
{
    Memory memory;
    char text[TRANSLATION_ROOM];
    Answer answer = translated(path, input->display.value, &memory, list);
    if (is_refused(answer)) {
        translation_text(answer, &memory, text);
        complain("%s: %u %u, %s", path, answer.number, (unsigned)answer.place, text);
        list_free(list);
    } else if (list->bytes != NULL)
        list->verdict = answer_of(lanyardrove_check(list->bytes, list->length));
    free(memory.bytes);
    return list->bytes != NULL;
}

/* Reads a list from a file, or from standard input for "-", and its verdict. */
bool list_read(const char *path, List *list, const Reading *reading, const Input *input)
{
    bool standard = strcmp(path, "-") == 0;
    *list = (List){ 0 };
    if (input->display.is_given)
        return read_translated(path, list, input);
    Source source = { .file = standard ? STDIN_FILENO : open(path, O_RDONLY | O_NOCTTY), .input = input };
    bool read = source.file >= 0 && read_source(&source, list, reading);
    if (!read) {
        complain("%s: %s", standard ? "standard input" : path, source_fault(&source));
        list_free(list);
    }
    if (source.file > STDIN_FILENO)
        close(source.file);
    return read;
}

void list_free(List *list)
{
    free(list->bytes);
    free(list->offsets);
    list->bytes = NULL;
    list->offsets = NULL;
    list->length = 0;
}
