"""Commands and hazards, as documents 000 and 01 have them. The bit lists are those of tools/vectors.py, typed from document 000."""
import os
import sys

from support import TOP

sys.path.append(os.path.join(TOP, "tools"))
import vectors  # noqa: E402

words_of = vectors.words_of

NAMES = (["No Operation"] + ["Unassigned"] * 7 + ["Fill Triangle"] + [f"Fill Triangle ({s})" for s in ("Z", "T", "TZ", "S", "SZ", "ST", "STZ")]
         + ["Unassigned"] * 20 + ["Texture Rectangle", "Texture Rectangle Flip", "Sync Load", "Sync Pipe", "Sync Tile", "Sync Full",
         "Set Key GB", "Set Key R", "Set Convert", "Set Scissor", "Set Primitive Depth", "Set Other Modes", "Load TLUT", "Unassigned",
         "Set Tile Size", "Load Block", "Load Tile", "Set Tile", "Fill Rectangle", "Set Fill Color", "Set Fog Color", "Set Blend Color",
         "Set Primitive Color", "Set Environment Color", "Set Combine Mode", "Set Texture Image", "Set Depth Image", "Set Color Image"])
ATTRIBUTES = (0x2A, 0x2B, 0x2C, 0x2F, 0x37, 0x38, 0x39, 0x3B, 0x3C, 0x3E, 0x3F)
LOADS = (0x30, 0x33, 0x34)
UNASSIGNED = vectors.UNASSIGNED


def fields_of(number, given):
    """Names and values of a command's fields, in order."""
    names = [name for *_, name in vectors.LAYOUT[number]]
    if number == 0x32:
        names[2] = "index"  # as 000 calls the tile of Set Tile Size
    return list(zip(names, vectors.decoded(number, given)))


def is_draw(number):
    return 8 <= number < 16 or number in (0x24, 0x25, 0x36)


def after(hazards, number):
    """The hazards after a command."""
    if number in (0x27, 0x29):
        return set()
    if number == 0x28:
        return hazards - {"tile", "draw", "load"}
    if number == 0x26:
        return hazards - {"draw", "load"}
    if is_draw(number):
        textured = number in (0x24, 0x25) or (number < 16 and number & 2)
        return hazards | {"pipe", "draw"} | ({"tile"} if textured else set())
    return hazards | {"tile", "load"} if number in LOADS else hazards


def misses_sync(hazards, number):
    return ((number in ATTRIBUTES and "pipe" in hazards) or (number == 0x35 and "tile" in hazards)
            or (number in LOADS and "draw" in hazards) or (is_draw(number) and "load" in hazards))


def cycles_of(given):
    """The cycles that the syncs of a list's words wait."""
    return sum({0x26: 25, 0x28: 33, 0x27: 50}.get(number, 0) for _, number in commands_of(given))


def commands_of(given):
    """Place and number of each command of a list's words."""
    place = 0
    while place < len(given):
        number = given[place] >> 56 & 63
        yield place, number
        place += words_of(number)


def cause_of(given, number):
    """The place of the command for which a sync is missing before one more command: the latest that alone makes it miss one."""
    return max(place for place, here in commands_of(given) if misses_sync(after(set(), here), number))


def hazards_along(given):
    """The hazards before each command of a list's words; a command that misses a sync counts as one that ran."""
    hazards, before = set(), []
    for _, number in commands_of(given):
        before.append(hazards)
        hazards = after(hazards, number)
    return before


def random_command(rng, number, ignored=None):
    """The words of a command, random but for its number; bits 63:62 too, where they are not given."""
    high = rng.getrandbits(2) if ignored is None else ignored
    return [high << 62 | number << 56 | rng.getrandbits(56), *[rng.getrandbits(64) for _ in range(words_of(number) - 1)]]


def accepted_list(rng, setup, commands):
    """The words of a random list that the check accepts. Without a setup nothing is drawn."""
    data, hazards = list(setup), set()
    draws = [8, 0xA, 0xF, 0x24, 0x25, 0x36] if setup else []
    while commands > len(setup):
        number = rng.choice(draws * 2 + [0x26, 0x27, 0x28, 0x34, 0x33, 0x30, 0x35, 0x38, 0x3A, 0x32, 0])
        if not misses_sync(hazards, number):
            data += [number << 56] + [0] * (words_of(number) - 1)
            hazards = after(hazards, number)
            commands -= 1
    return data
