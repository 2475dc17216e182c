/* The cycles that the syncs of a list wait, by the library's stream. */
#include "cli.h"

/* Those of the commands before the first refusal: of an accepted list all. */
uint32_t cycles_waited(const List *list)
{
    struct lanyardrove_stream stream = { { 0 } };
    return lanyardrove_cycles(lanyardrove_stream_feed(&stream, list->bytes, list->length));
}
