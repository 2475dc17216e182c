"""The header's numbers of commands and indices of fields, beside the bit lists that tools/vectors.py has typed from document 000."""
import os
import re

from rules import NAMES, UNASSIGNED, vectors
from support import TOP, read, same, test

HEADER = read(os.path.join(TOP, "include", "lanyardrove.h")).decode()
KINDS = {"triangle": range(8, 16), "texrect": (0x24, 0x25), "key_gb": (0x2A,), "key_r": (0x2B,), "convert": (0x2C,), "scissor": (0x2D,),
         "primitive_depth": (0x2E,), "other_modes": (0x2F,), "area": (0x30, 0x32, 0x34), "block": (0x33,), "tile": (0x35,), "rectangle": (0x36,),
         "fill_color": (0x37,), "color": (0x38, 0x39, 0x3B), "primitive_color": (0x3A,), "combine": (0x3C,), "image": (0x3D, 0x3F), "depth_image": (0x3E,)}


def identifier(name):
    return re.sub(r"[^A-Z0-9]+", "_", name.upper()).strip("_")


@test
def the_header_numbers_the_commands():
    body = re.search(r"enum lanyardrove_command_number \{(.*?)\};", HEADER, re.S)[1]
    found = {int(number, 16): name for name, number in re.findall(r"LANYARDROVE_(\w+) = (0x[0-9A-F]{2})", body)}
    same(found, {number: identifier(name) for number, name in enumerate(NAMES) if number not in UNASSIGNED})


@test
def the_header_numbers_the_refusals():
    """In the order of their numbers, as the README's table has them."""
    body = re.search(r"enum lanyardrove_ground \{(.*?)\};", HEADER, re.S)[1]
    found = re.findall(r"^    LANYARDROVE_\w+ = (\d+)", body, re.M)
    rows = re.findall(r"^\| (\d[\d, ]*) \|", read(os.path.join(TOP, "README.md")).decode(), re.M)
    same(found, [number for row in rows for number in row.split(", ")])
    same(found, sorted(found, key=int))


@test
def the_header_has_each_field_at_its_index():
    enums = dict(re.findall(r"enum lanyardrove_(\w+)_field \{(.*?)\};", HEADER, re.S))
    same(set(enums), set(KINDS))
    for kind, numbers in KINDS.items():
        names = re.findall(r"LANYARDROVE_(\w+)(?:, /\* (s?)(\d+)[^*]*\*/|\n)", enums[kind])
        for number in numbers:
            lines = vectors.LAYOUT[number]
            expected = [identifier(f"{kind}_{'address' if name == 'dramAddress' else name}") for *_, name in lines]
            same([name for name, *_ in names], [*expected, identifier(f"{kind}_fields")], hex(number))
            bits = [("s" if signed else "", str(high - low + 1)) for _, high, low, signed, _ in lines]
            if number == 0x3D:
                bits[3] = ("", "26")  # its address has 24, as the header says beside it
            same([(sign, count) for _, sign, count in names[:-1]], bits, hex(number))
    same(sorted(number for numbers in KINDS.values() for number in numbers), [n for n in range(64) if vectors.LAYOUT[n]])
