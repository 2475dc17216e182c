/* The hazards, from command to command by the library's step. */
#include "cli.h"

/* A command that misses a sync counts as one that ran. */
unsigned hazards_after(unsigned hazards, const Command *command)
{
    return lanyardrove_hazards(lanyardrove_step(hazards, command->number));
}

const char *hazard_name(unsigned bit)
{
    static const char *const names[HAZARDS] = { "pipe", "tile", "draw", "load" };
    return names[bit];
}

void hazards_text(unsigned hazards, char *text, size_t room)
{
    size_t length = 0;
    snprintf(text, room, "none");
    for (unsigned bit = 0; bit < HAZARDS; bit++)
        if (hazards & 1u << bit)
            length += (size_t)snprintf(text + length, room - length, "%s%s", length > 0 ? " " : "", hazard_name(bit));
}
