// What the drivers know of lists: command numbers and words (document 01's table), the form of an input, and notes for the fuzzer.
#ifndef FUZZ_LISTS_H
#define FUZZ_LISTS_H
#include <stdbool.h>
#include <stddef.h>
#include <stdint.h>

enum { LONGEST_LIST = 33024 };

// An input is 24 bytes of settings and then the bytes of a list, which may be said to be repeated.
enum { SETTINGS = 24 };
struct input {
    uint8_t choice;       // 0: small choices of a driver
    uint8_t ways[2];      // 3, 4: how the length of each buffer is chosen
    uint16_t lengths[2];  // 5 to 8
    uint64_t start;       // 9 to 16
    uint32_t number;      // 17 to 20
    uint8_t spare[3];     // 21 to 23
    uint8_t list[LONGEST_LIST];
    size_t length;
};
// The input that the bytes stand for; any bytes stand for one. The list is extended by settings 1 and cut by setting 2.
const struct input *read_input(const uint8_t *data, size_t size);

// A length for buffer k: beside the length that is just enough, by the setting.
size_t chosen_length(const struct input *in, int k, size_t enough, size_t most);

unsigned command_number(const uint8_t *word);
bool is_draw(unsigned number);
bool is_load(unsigned number);
bool reads_tile(unsigned number);  // a draw with texture or a load
bool is_attribute(unsigned number);
bool is_unassigned(unsigned number);  // 02, #107
size_t words_of(unsigned number);
unsigned cycles_of(unsigned number);  // that a sync waits; Sync Full and all others none
// The words of the command at a place; 0 where it runs past the end.
size_t whole_at(const uint8_t *list, size_t words, size_t place);
// Whether an answer of whole words keeps to 19: it is given at the list's first unassigned number, but where another refusal comes before; at that number
// itself only 4 does.
bool keeps_to_19(const uint8_t *list, size_t words, unsigned number, size_t place);
// The commands of a list, all whole.
size_t commands_of(const uint8_t *list, size_t words);

// Tells the fuzzer that something was seen, so that it keeps inputs that see something new.
void note(unsigned what, unsigned value);

// Counts the answers to an input's own call by their number; printed at the end.
void count_answer(unsigned number);
void answers_given(void);

#endif
