#!/usr/bin/env python3
"""What the programs crates/rdp_drawings and crates/rdp_copies must print for the lists in their sources.

    tools/drawings.py           writes the file stdout of each
    tools/drawings.py --check   says which of these files is not as it would write it

The lists, and the memory that each is drawn into, are read from a program's tables. What is drawn follows documents 000, 01 and 02 (#106, #112), pixel by pixel;
nothing here is taken from crates/rdp_draw or the crates below it, so that a program's output and this file are independent.
"""
import pathlib
import re
import sys

CRATES = pathlib.Path(__file__).resolve().parent.parent / 'crates'
PROGRAMS = CRATES / 'rdp_drawings', CRATES / 'rdp_copies'
WORDS = CRATES / 'rdp_text' / 'src' / 'words.rt'
BEFORE = 0x55


# ---- Document 01, "Words and lengths": the kinds of commands.

SYNC_LOAD, SYNC_PIPE, SYNC_TILE, SYNC_FULL = 0x26, 0x27, 0x28, 0x29
SYNCS = (SYNC_LOAD, SYNC_PIPE, SYNC_TILE, SYNC_FULL)
TRIANGLES = range(0x08, 0x10)
UNASSIGNED = (*range(0x01, 0x08), *range(0x10, 0x24), 0x31)  # 02, #107
TEXTURE_RECTANGLES = (0x24, 0x25)
FILL_RECTANGLE = 0x36
LOADS = (0x30, 0x33, 0x34)
TEXTURE_RECTANGLE, LOAD_TILE, LOAD_BLOCK, SET_TILE_SIZE, SET_TEXTURE_IMAGE = 0x24, 0x34, 0x33, 0x32, 0x3D
SET_TILE = 0x35
ATTRIBUTES = (0x2A, 0x2B, 0x2C, 0x2F, 0x37, 0x38, 0x39, 0x3B, 0x3C, 0x3E, 0x3F)
SET_SCISSOR, SET_OTHER_MODES, SET_FILL_COLOR, SET_COLOR_IMAGE = 0x2D, 0x2F, 0x37, 0x3F


def bits(word, high, low):
    return word >> low & (1 << high - low + 1) - 1


def number_of(word):
    return bits(word, 61, 56)


def words_of(word):
    """The words of the command that has this first word."""
    number = number_of(word)
    if number in TRIANGLES:
        return 4 + 8 * bits(word, 58, 58) + 8 * bits(word, 57, 57) + 2 * bits(word, 56, 56)
    return 2 if number in TEXTURE_RECTANGLES else 1


def is_draw(word):
    return number_of(word) in (*TRIANGLES, *TEXTURE_RECTANGLES, FILL_RECTANGLE)


def is_load(word):
    return number_of(word) in LOADS


def reads_tile(word):
    """02, #104: a textured draw or a load."""
    number = number_of(word)
    return is_load(word) or number in TEXTURE_RECTANGLES or number in TRIANGLES and bits(word, 57, 57) == 1


# ---- "Four marks" and "Grounds" 1 to 9: the check.

def since(seen, event, syncs):
    """Whether there is such an event among the commands since the last of some syncs."""
    for word in reversed(seen):
        if number_of(word) in syncs:
            return False
        if event(word):
            return True
    return False


def missing_sync(seen, word):
    """The ground of a command by the marks that the commands before it leave, or 0."""
    number = number_of(word)
    if number in ATTRIBUTES and since(seen, is_draw, (SYNC_PIPE, SYNC_FULL)):
        return 9
    if number == SET_TILE and since(seen, reads_tile, (SYNC_TILE, SYNC_PIPE, SYNC_FULL)):
        return 8
    if is_load(word) and since(seen, is_draw, SYNCS) or is_draw(word) and since(seen, is_load, SYNCS):
        return 7
    return 0


def last(seen, number):
    """The last word that sets a register, or None."""
    return next((word for word in reversed(seen) if number_of(word) == number), None)


def cycle_type(seen):
    return bits(last(seen, SET_OTHER_MODES), 53, 52)


def ground_of(seen, word, room):
    """The first of grounds 3 to 9 and 19 at a command with so many words from it to the list's end, or 0."""
    if words_of(word) > room:
        return 3
    if last(seen, SYNC_FULL) is not None:
        return 4
    if number_of(word) in UNASSIGNED:
        return 19
    if is_draw(word):
        if None in (last(seen, SET_OTHER_MODES), last(seen, SET_COLOR_IMAGE), last(seen, SET_SCISSOR)):
            return 5
        if cycle_type(seen) == 3 and bits(last(seen, SET_COLOR_IMAGE), 52, 51) == 0:
            return 6
    return missing_sync(seen, word)


def words_in(data):
    return [int.from_bytes(data[i:i + 8], 'big') for i in range(0, len(data), 8)]


def commands(words):
    """Each command's place, its first word, and the first words of the commands before it."""
    place, seen = 0, []
    while place < len(words):
        yield place, words[place], seen
        seen = seen + [words[place]]
        place += words_of(words[place])


def check(data):
    """The check's number and place."""
    if len(data) > 32768:
        return 1, 4096
    if len(data) % 8:
        return 2, len(data) // 8
    words = words_in(data)
    for place, word, seen in commands(words):
        ground = ground_of(seen, word, len(words) - place)
        if ground:
            return ground, place
    return 0, len(words)


# ---- "Fill", document 02's "Copy mode", and grounds 10 to 12 and 16 to 18: drawing.

class Refused(Exception):
    """A ground that holds."""


def demand(holds, ground):
    if not holds:
        raise Refused(ground)


def kept(scissor, x, y):
    across = bits(scissor, 55, 44) <= 4 * x < bits(scissor, 23, 12)
    down = bits(scissor, 43, 32) <= 4 * y < bits(scissor, 11, 0)
    field, odd = bits(scissor, 25, 25), bits(scissor, 24, 24)
    return across and down and (not field or y % 2 == odd)


def pixels(rectangle, scissor):
    """The kept pixels, row by row and each row from the left."""
    for y in range(bits(rectangle, 11, 0) // 4, bits(rectangle, 43, 32) // 4 + 1):
        for x in range(bits(rectangle, 23, 12) // 4, bits(rectangle, 55, 44) // 4 + 1):
            if kept(scissor, x, y):
                yield x, y


def pixel_address(image, x, y):
    size = {1: 1, 2: 2, 3: 4}[bits(image, 52, 51)]
    return bits(image, 25, 0) + (y * (bits(image, 41, 32) + 1) + x) * size, size


def fill(word, seen, memory, start):
    image = last(seen, SET_COLOR_IMAGE)
    places = [pixel_address(image, x, y) for x, y in pixels(word, last(seen, SET_SCISSOR))]
    addresses = [address for first, size in places for address in range(first, first + size)]
    demand(all(start <= address < start + len(memory) for address in addresses), 12)
    color = bits(last(seen, SET_FILL_COLOR) or 0, 31, 0).to_bytes(4, 'big')
    for address in addresses:
        memory[address - start] = color[address % 4]


def is_rgba16(word):
    """Whether an image or a descriptor is set and 16-bit RGBA."""
    return word is not None and bits(word, 55, 53) == 0 and bits(word, 52, 51) == 2


def of_tile(seen, numbers, tile):
    """The last of some commands that names a tile, or None."""
    return next((word for word in reversed(seen) if number_of(word) in numbers and bits(word, 26, 24) == tile), None)


def texture_byte(descriptor, row, column):
    """The byte of a texel, with bit 2 turned over in odd rows."""
    byte = 8 * bits(descriptor, 40, 32) + 8 * bits(descriptor, 49, 41) * row + 2 * column
    return byte ^ 4 if row % 2 else byte


def moves(texels, memory, start):
    """Grounds 12 and 18 over texels, each an address and a texture byte, which are then handed back with indices of memory."""
    demand(all(start <= address and address + 2 <= start + len(memory) for address, _ in texels), 12)
    demand(all(0 <= byte <= 4094 for _, byte in texels), 18)
    return [(address - start, byte) for address, byte in texels]


def texel_address(image, x, y):
    return bits(image, 23, 0) + (y * (bits(image, 41, 32) + 1) + x) * 2


def tile_texels(word, image, tile):
    """The texels of a Load Tile, whose corners are in quarters."""
    left, top = bits(word, 55, 44) // 4, bits(word, 43, 32) // 4
    right, bottom = bits(word, 23, 12) // 4, bits(word, 11, 0) // 4
    return [(texel_address(image, x, y), texture_byte(tile, y - top, x - left)) for y in range(top, bottom + 1) for x in range(left, right + 1)]


def block_texels(word, image, tile):
    """The texels of a Load Block (02, #112), whose s and t are whole texels; ground 17 by their number."""
    first, row, end, dxt = bits(word, 55, 44), bits(word, 43, 32), bits(word, 23, 12) + 1, bits(word, 11, 0)
    demand(1 <= end - first <= 2048, 17)
    turns = [4 if k // 4 * dxt // 2048 % 2 else 0 for k in range(end - first)]
    return [(texel_address(image, first + k, row), 8 * bits(tile, 40, 32) + 2 * k ^ turn) for k, turn in enumerate(turns)]


def load(word, seen, memory, start, texture):
    image, tile = last(seen, SET_TEXTURE_IMAGE), of_tile(seen, (SET_TILE,), bits(word, 26, 24))
    texels_of = {LOAD_TILE: tile_texels, LOAD_BLOCK: block_texels}.get(number_of(word))
    demand(texels_of and is_rgba16(image) and is_rgba16(tile), 17)
    for index, byte in moves(texels_of(word, image, tile), memory, start):
        texture[byte:byte + 2] = memory[index:index + 2]


def signed(number):
    return number - 0x10000 if number >= 0x8000 else number


def copy(word, second, seen, memory, start, texture):
    tile = bits(word, 26, 24)
    descriptor, size = of_tile(seen, (SET_TILE,), tile), of_tile(seen, (SET_TILE_SIZE, *LOADS), tile) or 0
    modes, image = last(seen, SET_OTHER_MODES), last(seen, SET_COLOR_IMAGE)
    s, t, dsdx, dtdy = (signed(bits(second, low + 15, low)) for low in (48, 32, 16, 0))
    tile_left, tile_top = bits(size, 55, 44), bits(size, 43, 32)
    demand(is_rgba16(descriptor) and bits(image, 52, 51) == 2, 17)
    demand(dsdx == 0x1000 and dtdy == 0x0400 and not any((s % 32, t % 32, tile_left % 4, tile_top % 4)), 17)
    demand(not any(bits(descriptor, high, low) for high, low in ((18, 18), (17, 14), (13, 10), (8, 8), (7, 4), (3, 0))), 17)
    demand(not any(bits(modes, bit, bit) for bit in (51, 47, 0)), 17)
    left, top = bits(word, 23, 12) // 4, bits(word, 11, 0) // 4
    texels = [(pixel_address(image, x, y)[0], texture_byte(descriptor, t // 32 + y - top - tile_top // 4, s // 32 + x - left - tile_left // 4))
              for x, y in pixels(word, last(seen, SET_SCISSOR))]
    for index, byte in moves(texels, memory, start):
        memory[index:index + 2] = texture[byte:byte + 2]


def act(words, place, word, seen, memory, start, texture):
    """Draws or loads one command, or raises its first ground."""
    if is_load(word):
        load(word, seen, memory, start, texture)
    elif is_draw(word):
        kind = number_of(word), cycle_type(seen)
        demand(kind in ((FILL_RECTANGLE, 3), (TEXTURE_RECTANGLE, 2)), 10)
        demand(bits(last(seen, SET_COLOR_IMAGE), 25, 0) % 64 == 0, 11)
        if kind[0] == FILL_RECTANGLE:
            fill(word, seen, memory, start)
        else:
            copy(word, words[place + 1], seen, memory, start, texture)


def draw(data, memory, start, texture=bytes(4096)):
    """The answer's number and place, and memory after drawing."""
    number, end = check(data)
    if number:
        return (number, end), memory
    if len(texture) != 4096:
        return (16, 0), memory
    drawn, loaded, words = bytearray(memory), bytearray(texture), words_in(data)
    for place, word, seen in commands(words):
        try:
            act(words, place, word, seen, drawn, start, loaded)
        except Refused as refused:
            return (refused.args[0], place), memory
    return (0, end), bytes(drawn)


# ---- The cases in a program's sources.

def sources(crate):
    """The text of each module whose lists are drawn, in the order of main.rt."""
    names = re.findall(r'(\w+)::show_\w+\(page\)', (crate / 'src' / 'main.rt').read_text())
    return [(crate / 'src' / (name + '.rt')).read_text() for name in names]


def constants(crate):
    """The text of each constant of the sources, a word or an array of words."""
    table = {}
    for path in (WORDS, *sorted((crate / 'src').glob('*.rt'))):
        for name, value in re.findall(r'const (\w+): [^=]* = ([^;]*);', path.read_text()):
            assert name not in table, name
            table[name] = value
    return table


def words_from(text, table):
    """The words of a list or a constant, which are numbers and names of constants."""
    found = []
    for item in re.findall(r'\w+', text):
        found += [int(item, 0)] if item[0].isdigit() else words_from(table[item], table)
    return found


CASES = re.compile(r'(\w+)\(\s*page,\s*&\[((?:\s*\(\s*"[^"]*",[^()]*\),?)+)\s*\],?\s*\)')
CASE = re.compile(r'\(\s*"([^"]*)",([^()]*)\)')
HELPER = re.compile(r'fn (\w+)\(\s*page: &mut Page<impl Write>,\s*cases: &\[\(&str((?:, (?:u64|usize))+)\)\],?\s*\) -> io::Result<\(\)> \{\s*'
                    r'for &\(name, ([^)]*)\) in cases \{\s*(\w+)\(\s*page,\s*name,([^;]*?)\)\?;\s*\}\s*Ok\(\(\)\)\s*\}')


def helpers(crate):
    """The functions that make each case's list out of a few numbers: the parameters, the function called, the text of its arguments."""
    text = '\n'.join(path.read_text() for path in sorted((crate / 'src').glob('*.rt')))
    found = [(name, (re.findall(r'\w+', parameters), function, arguments)) for name, _, parameters, function, arguments in HELPER.findall(text)]
    assert len(dict(found)) == len(found), 'two functions have one name'
    return dict(found)


def written_out(function, arguments, known):
    """A case without helpers."""
    while function in known:
        parameters, function, text = known[function]
        values = dict(zip(parameters, re.findall(r'\w+', arguments), strict=True))
        arguments = re.sub(r'\w+', lambda word: values.get(word[0], word[0]), text)
    return function, arguments


def cases(crate):
    """Each case: its function, the name, the bytes of the list, and its numbers."""
    table, known = constants(crate), helpers(crate)
    for text in sources(crate):
        text = re.sub(r'//.*', '', text)
        calls = [(called, *case) for called, some in CASES.findall(text) for case in CASE.findall(some)]
        assert 2 * len(calls) == text.count('"')
        for called, name, given in calls:
            function, arguments = written_out(called, given, known)
            listed, rest = re.fullmatch(r'\s*(?:&(\w+|\[[^\]]*\]))?(.*)', arguments, re.S).groups(default='')
            words = words_from('FILLED' if function.startswith('after_fill') else '', table) + words_from(listed, table)
            data = b''.join(word.to_bytes(8, 'big') for word in words)
            yield function, name, data, [int(number, 0) for number in re.findall(r'\w+', rest)]


# ---- What is printed.

def rows(data, row):
    return ''.join('\n' + data[i:i + row].hex(' ') for i in range(0, len(data), row))


def fletcher(data):
    """Fletcher's checksum of the whole words of four bytes, modulo 2^32 - 1."""
    a = b = 0
    for i in range(0, len(data) - len(data) % 4, 4):
        a = (a + int.from_bytes(data[i:i + 4], 'big')) % 0xFFFFFFFF
        b = (b + a) % 0xFFFFFFFF
    return b << 32 | a


# What a case says of the memory, by the function that draws it or its table: its length, start, byte before and row.
def drawing(length, start, row):
    return length, start, BEFORE, row


def picture():
    return 64, 0, BEFORE, 16


SHAPES = {
    'drawing': drawing,
    'drawings': drawing,
    'long_drawings': lambda length, start: (length, start, BEFORE, 16),
    'drawings_of_zeros': lambda _: (4, 0, BEFORE, 4),
    'picture': picture,
    'pictures': picture,
    'pictures_on_zeros': lambda: (64, 0, 0, 16),
    'after_fill': picture,
    'after_fills': picture,
    'after_fills_with_small_texture': picture,
}


def printed(function, name, data, numbers):
    """The answer for a case, and what it prints."""
    length, start, byte, row = SHAPES[function](*numbers)
    if function == 'drawings_of_zeros':
        data = bytes(*numbers)
    texture = bytes(4095 if function == 'after_fills_with_small_texture' else 4096)
    answer, memory = draw(data, bytes([byte] * length), start, texture)
    line = f'\n{name}: {answer[0]} {answer[1]}'
    if function == 'long_drawings':
        return answer, f'{line}, checksum {fletcher(memory):016x}{rows(memory[:16], 16)}{rows(memory[-16:], 16)}\n'
    return answer, f'{line}{rows(memory, row)}\n'


def stdouts():
    """The text of each program."""
    shown = {crate: [(name, *printed(function, name, data, numbers)) for function, name, data, numbers in cases(crate)] for crate in PROGRAMS}
    every = [one for some in shown.values() for one in some]
    assert len({name for name, _, _ in every}) == len(every), 'two lists have one name'
    assert {number for _, (number, _), _ in every} == {*range(13), 16, 17, 18, 19}, 'a number of drawing is never answered'
    return {crate: 'name: number place, and memory after drawing\n' + ''.join(text for _, _, text in some) for crate, some in shown.items()}


def check_document():
    """What document 01 itself says of examples I, G and O and of lent memory."""
    setup, color, rectangle = '2F30000000000000 3F10000700000000 2D00000000020010', '37000000F801003F', '3600800800004004'
    i = bytes.fromhex(f'{setup} {color} {rectangle}')
    after = bytearray(64)
    after[18:22] = after[34:38] = bytes.fromhex('003FF801')
    assert draw(i, bytes(64), 0) == ((0, 5), bytes(after))
    assert draw(i, bytes(37), 0) == ((12, 4), bytes(37)) and draw(i, bytes(38), 0) == ((0, 5), bytes(after[:38]))
    assert draw(bytes.fromhex(f'{setup} {rectangle} {color}'), bytes(64), 0) == ((9, 4), bytes(64))
    o = bytes.fromhex(f'2F30000000000000 3F10000600000000 2D00000000020010 {color} 3600000400000004')
    assert draw(o, bytes(64), 0) == ((0, 5), bytes(14) + bytes.fromhex('003F') + bytes(48))


def main():
    check_document()
    texts = {crate / 'stdout': text for crate, text in stdouts().items()}
    if sys.argv[1:] == ['--check']:
        wrong = [path for path, text in texts.items() if not path.exists() or path.read_text() != text]
        for path in wrong:
            print(f'{path} is not what tools/drawings.py writes')
        return 1 if wrong else 0
    for path, text in texts.items():
        path.write_text(text)
    return 0


if __name__ == '__main__':
    sys.exit(main())
