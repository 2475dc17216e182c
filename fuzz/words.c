// lanyardrove_words: 01's table for any word, whatever its bits but the command number, and decoding takes exactly so many words (02, #102).
#include "fields.h"
#include "lent.h"
#include "library.h"
#include "lists.h"
#include <string.h>

static uint64_t decode_at(const uint8_t *list, size_t length, uint64_t *fields) {
    struct lent lent = lend_copy(0, BEFORE_GUARD, list, length, false);
    const uint64_t answer = lanyardrove_decode(lent.bytes, length, fields, MOST_FIELDS);
    give_back(lent);
    return answer;
}

// A byte less than the words is 3 at 0, and bytes after them change nothing.
static void decoding(const uint8_t *list, size_t length, size_t need) {
    uint64_t fields[MOST_FIELDS] = {0}, again[MOST_FIELDS] = {0};
    DEMAND(decode_at(list, need - 1, fields) == (uint64_t)3 << 56);
    const uint64_t answer = decode_at(list, need, fields);
    DEMAND(number_of(answer) == 0 && third_of(answer) == command_number(list));
    DEMAND(decode_at(list, length, again) == answer && same(fields, again, sizeof fields));
}

static void one_word(uint64_t word, uint64_t others) {
    const uint64_t words = lanyardrove_words(word);
    DEMAND(words == words_of(word >> 56 & 63));
    for (uint64_t high = 1; high < 4; high++) DEMAND(lanyardrove_words(word ^ high << 62) == words);
    DEMAND(lanyardrove_words(word ^ others >> 8) == words);
    note(0, (unsigned)(word >> 56));
}

int LLVMFuzzerTestOneInput(const uint8_t *data, size_t size) {
    const struct input *in = read_input(data, size);
    const size_t words = in->length / 8;
    for (size_t at = 0; at < words; at++) one_word(word_at(in->list + 8 * at), in->start);
    one_word(in->start, (uint64_t)in->number << 32 | in->number);
    for (size_t at = 0, here; at < words && (here = whole_at(in->list, words, at)); at += here) {
        const size_t need = 8 * here, rest = in->length - 8 * at, further = need + in->choice % 64;
        decoding(in->list + 8 * at, further < rest ? further : rest, need);
    }
    count_answer(0);
    return 0;
}
