// lanyardrove_stream_feed and lanyardrove_stream_close: the input chooses the cuts of the list. Every answer by the check of the commands that are complete
// by then and the sum of what their syncs wait, the record by what 02 says of it (#103, #105), all its bytes the same for every cutting; 28 for records
// damaged in each of its ways, and for any bytes.
#include "lent.h"
#include "library.h"
#include "lists.h"
#include "record.h"

enum { LIMIT = 32768, DAMAGED = 28, SMALL = 2048, WAYS = 10 };

static enum place place_now;

// Fresh but for the bytes that hold nothing.
static void start(const struct input *in, uint8_t *record) {
    memset(record, 0, RECORD);
    memcpy(record + SPARE, in->spare + 1, WAITED - SPARE);
}

// The record after a call, which leaves the bytes that hold nothing.
static void take_back(uint8_t *record, struct lent lent) {
    DEMAND(same(lent.bytes + SPARE, record + SPARE, WAITED - SPARE));
    memcpy(record, lent.bytes, RECORD);
    give_back(lent);
}

// A call on a record that is lent with exactly its length; the portion stays.
static uint64_t feed(uint8_t *record, const uint8_t *portion, size_t length) {
    struct lent lent = lend_copy(0, place_now, record, RECORD, false), bytes = lend_copy(1, place_now, portion, length, true);
    const uint64_t answer = lanyardrove_stream_feed((void *)lent.bytes, bytes.bytes, length);
    DEMAND(same(bytes.bytes, portion, length));
    take_back(record, lent);
    give_back(bytes);
    return answer;
}

static uint64_t end(uint8_t *record) {
    struct lent lent = lend_copy(0, place_now, record, RECORD, false);
    const uint64_t answer = lanyardrove_stream_close((void *)lent.bytes);
    take_back(record, lent);
    return answer;
}

static uint64_t answer_at(unsigned number, uint64_t cycles, size_t place) { return (uint64_t)number << 56 | cycles << 32 | place; }

// Feeding and closing answer this and change nothing.
static void repeats(const uint8_t *record, uint64_t answer, const struct input *in) {
    uint8_t after[RECORD];
    memcpy(after, record, RECORD);
    DEMAND(feed(after, in->list, in->length) == answer && same(after, record, RECORD));
    DEMAND(feed(after, NULL, 0) == answer && same(after, record, RECORD));
    DEMAND(end(after) == answer && same(after, record, RECORD));
}

// The words of the commands that are complete within so many bytes.
static size_t complete(const uint8_t *list, size_t length) {
    size_t at = 0, here;
    while (at < length / 8 && (here = whole_at(list, length / 8, at))) at += here;
    return at;
}

// "The sum over the commands accepted so far."
static unsigned waited(const uint8_t *list, size_t words) {
    unsigned sum = 0;
    for (size_t at = 0; at < words; at += words_of(command_number(list + 8 * at))) sum += cycles_of(command_number(list + 8 * at));
    return sum;
}

// "Until then a portion answers 0 and the words of commands accepted so far"; "commands complete within the first 32,768 bytes are judged first, then 1".
static uint64_t due(const uint8_t *list, size_t taken) {
    const size_t words = complete(list, taken < LIMIT ? taken : LIMIT);
    const uint64_t checked = lanyardrove_check(list, 8 * words);
    const unsigned cycles = waited(list, place_of(checked));
    DEMAND(keeps_to_19(list, words, number_of(checked), place_of(checked)));
    if (number_of(checked)) return answer_at(number_of(checked), cycles, place_of(checked));
    return taken > LIMIT ? answer_at(1, cycles, LIMIT / 8) : answer_at(0, cycles, words);
}

// "At closing, 2, then 3."
static uint64_t due_at_end(const uint8_t *list, size_t taken) {
    const uint64_t answer = due(list, taken);
    if (number_of(answer)) return answer;
    if (taken % 8) return answer_at(2, third_of(answer), taken / 8);
    return place_of(answer) < taken / 8 ? answer_at(3, third_of(answer), place_of(answer)) : answer;
}

// The marks after the accepted words, and whether a Sync Full stands last.
static void marks(const uint8_t *record, const uint8_t *list, size_t words) {
    uint32_t hazards = 0;
    unsigned number = 0;
    for (size_t at = 0; at < words; at += words_of(number)) {
        number = command_number(list + 8 * at);
        hazards = place_of(lanyardrove_step(hazards, number));
    }
    DEMAND((record[HAZARDS] & 15u) == hazards);
    DEMAND((record[ENDED] != 0) == (number == 0x29));
}

// What the record holds after so many bytes: the rest of them that is no command, zeros past it, the cycles and the refusal.
static void holds(const uint8_t *record, const uint8_t *list, size_t taken, uint64_t answer) {
    const unsigned number = number_of(answer);
    const size_t left = number == 0 ? taken : number == 1 ? LIMIT : 8 * (size_t)place_of(answer);
    const size_t words = complete(list, left), held = left - 8 * words;
    DEMAND(number_in(record, TAKEN) == left && number_in(record, HELD_COUNT) == held);
    DEMAND(held < ROOM && same(record + HELD, list + 8 * words, held));
    for (size_t at = held; at < ROOM; at++) DEMAND(record[HELD + at] == 0);
    DEMAND(number_in(record, NUMBER) == number && number_in(record, PLACE) == (number ? place_of(answer) : 0));
    DEMAND(number_in(record, WAITED) == third_of(answer));
    marks(record, list, words);
}

// The length of a portion: all, one length, or the bytes of a number in turn, which may be 0. Long lists are cut into fewer.
static size_t portion(const struct input *in, size_t k, size_t left) {
    const size_t least = in->length > SMALL ? in->length / 64 : 0, varied = in->start >> 8 * (k % 8) & 255;
    const size_t length = in->ways[0] % 4 == 0 || in->start == 0 ? left : in->ways[0] % 4 == 1 ? 1 + in->lengths[0] % 200 : varied;
    const size_t here = length ? length + least : 0;
    return here < left ? here : left;
}

// The list in the portions that the input chooses. Each answer is due; the record is looked into now and then, and at a refusal.
static uint64_t in_portions(const struct input *in, uint8_t *record) {
    uint64_t answer = 0;
    for (size_t at = 0, k = 0; at < in->length; k++) {
        const size_t here = portion(in, k, in->length - at);
        const bool refused = number_of(answer) != 0;
        const uint64_t told = feed(record, in->list + at, here);
        at += here;
        if (refused) DEMAND(told == answer);
        else DEMAND(told == due(in->list, at));
        if ((!refused && number_of(told)) || k % 16 == 0) holds(record, in->list, at, told);
        answer = told;
    }
    holds(record, in->list, in->length, answer);
    return answer;
}

// Every cutting leaves the record of one portion. A refusal leaves the record before the refused command, the registers with it, but for itself.
static void against_one_portion(const struct input *in, const uint8_t *record, uint64_t answer) {
    uint8_t whole[RECORD], before[RECORD];
    start(in, whole);
    start(in, before);
    DEMAND(feed(whole, in->list, in->length) == answer && same(whole, record, RECORD));
    if (!number_of(answer)) return;
    feed(before, in->list, 8 * (size_t)place_of(answer));
    put_number(before, NUMBER, number_of(answer));
    put_number(before, PLACE, place_of(answer));
    DEMAND(same(before, record, RECORD));
    repeats(record, answer, in);
}

// "Closing adds only its refusal and changes nothing if it accepts."
static uint64_t closing(const struct input *in, uint8_t *record) {
    uint8_t before[RECORD];
    memcpy(before, record, RECORD);
    const uint64_t answer = end(record);
    DEMAND(answer == due_at_end(in->list, in->length));
    if (number_of(answer)) put_number(before, NUMBER, number_of(answer)), put_number(before, PLACE, place_of(answer));
    DEMAND(same(before, record, RECORD));
    DEMAND(end(record) == answer && same(before, record, RECORD));
    if (number_of(answer)) repeats(record, answer, in);
    return answer;
}

// The numbers that these calls give, and may be remembered.
static bool is_given(unsigned number) { return number <= 9 || number == 19; }

// 28's reasons, one by one.
static bool is_damaged(const uint8_t *record) {
    const size_t held = number_in(record, HELD_COUNT), taken = number_in(record, TAKEN);
    if (held > 175) return true;
    for (size_t at = held; at < ROOM; at++)
        if (record[HELD + at]) return true;
    if (complete(record + HELD, held)) return true;
    return taken > LIMIT || taken < held || (taken - held) % 8 || !is_given(number_in(record, NUMBER)) || number_in(record, WAITED) > MOST_WAITED;
}

// A record with one of its parts changed, or of any bytes.
static void damage(const struct input *in, uint8_t *record) {
    switch (in->ways[1] % WAYS) {
    case 0: put_number(record, HELD_COUNT, in->lengths[1] % 180); break;
    case 1: put_number(record, TAKEN, in->lengths[1]); break;
    case 2: put_number(record, NUMBER, in->lengths[1] % 32); break;
    case 3: record[HELD + in->lengths[1] % ROOM] ^= in->spare[0]; break;
    case 4: record[HELD + ROOM - 1] = in->spare[0]; break;
    case 5: put_number(record, HELD_COUNT + in->lengths[1] % 3 * 4, in->number); break;
    case 6: record[HELD + in->lengths[1] % (RECORD - HELD)] = in->spare[0]; break;
    case 7: put_number(record, WAITED, MOST_WAITED - 1 + (in->lengths[1] + 1) % 3); break;
    case 8: put_number(record, WAITED, in->number); break;
    default: memcpy(record, in->list, in->length < RECORD ? in->length : RECORD); break;
    }
}

// The place after the accepted commands.
static size_t accepted(const uint8_t *record) { return (number_in(record, TAKEN) - number_in(record, HELD_COUNT)) / 8; }

// To a sound record, whatever it held, the list adds what the commands wait that are accepted of it. That may lead above the most, and then to 28.
static void more(const struct input *in, uint8_t *record) {
    static uint8_t joined[ROOM + LONGEST_LIST];
    const size_t held = number_in(record, HELD_COUNT), place = accepted(record);
    const uint32_t before = number_in(record, WAITED);
    memcpy(joined, record + HELD, held);
    memcpy(joined + held, in->list, in->length);
    const uint64_t fed = feed(record, in->list, in->length);
    const unsigned number = number_of(fed);
    DEMAND(is_given(number) && number != 2 && number != 3);
    DEMAND(third_of(fed) == number_in(record, WAITED) && third_of(fed) == before + waited(joined, accepted(record) - place));
    DEMAND(is_damaged(record) == (third_of(fed) > MOST_WAITED));
    note(5, is_damaged(record));
    if (is_damaged(record)) repeats(record, answer_at(DAMAGED, 0, 0), in);
    else DEMAND(is_given(number_of(end(record))) && !is_damaged(record));
}

// A record that these calls do not leave is refused first and stays; any other is answered, and its remembered refusal repeated.
static void after_damage(const struct input *in, uint8_t *record) {
    const bool damaged = is_damaged(record);
    const unsigned number = number_in(record, NUMBER);
    note(4, (unsigned)(in->ways[1] % WAYS) * 32 + (damaged ? DAMAGED : number));
    if (damaged) repeats(record, answer_at(DAMAGED, 0, 0), in);
    else if (number) repeats(record, answer_at(number, number_in(record, WAITED), number_in(record, PLACE)), in);
    else more(in, record);
}

int LLVMFuzzerTestOneInput(const uint8_t *data, size_t size) {
    const struct input *in = read_input(data, size);
    uint8_t record[RECORD];
    start(in, record);
    place_now = in->choice % PLACES;
    const uint64_t fed = in_portions(in, record);
    against_one_portion(in, record, fed);
    uint8_t open[RECORD];
    memcpy(open, record, RECORD);
    const uint64_t answer = closing(in, record);
    count_answer(number_of(answer));
    note(0, number_of(answer) * 16 + in->ways[0] % 4);
    note(1, number_in(record, HELD_COUNT));
    damage(in, in->choice & 4 ? open : record);
    after_damage(in, in->choice & 4 ? open : record);
    return 0;
}
