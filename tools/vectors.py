#!/usr/bin/env python3
"""What the program crates/rdp_vectors must print for the lists of its lists.rt.

    tools/vectors.py            writes crates/rdp_vectors/stdout
    tools/vectors.py --check    says whether that file is as it would write it

The bit lines below are typed from the bit lists of document 000 (N64brew, RDP commands); signs, widths of addresses and refusals
follow document 01. Nothing here is taken from crates/rdp_command or rdp_encode, so that the program's output and this file are independent.
"""
import pathlib
import re
import sys

CRATE = pathlib.Path(__file__).resolve().parent.parent / 'crates' / 'rdp_vectors'


# ---- The bit lines of document 000, "word high:low name"; s after the low bit marks a signed field (document 01).

def lines(text):
    table = []
    for entry in text.strip().split('\n'):
        word, bits, name = entry.split()
        signed = bits.endswith('s')
        high, _, low = bits.rstrip('s').partition(':')
        table.append((int(word), int(high), int(low or high), signed, name))
    return table


TRIANGLE = lines('''
0 58 shade
0 57 texture
0 56 zbuffer
0 55 lmajor
0 53:51 level
0 50:48 tile
0 45:32s yl
0 29:16s ym
0 13:0s yh
1 59:48s xl.i
1 47:32 xl.f
1 29:16s dxldy.i
1 15:0 dxldy.f
2 59:48s xh.i
2 47:32 xh.f
2 29:16s dxhdy.i
2 15:0 dxhdy.f
3 59:48s xm.i
3 47:32 xm.f
3 29:16s dxmdy.i
3 15:0 dxmdy.f
''')

TEXTURE_RECTANGLE = lines('''
0 55:44 lrx
0 43:32 lry
0 26:24 tile
0 23:12 ulx
0 11:0 uly
1 63:48s s
1 47:32s t
1 31:16s dsdx
1 15:0s dtdy
''')

SET_KEY_GB = lines('''
0 55:44 width_G
0 43:32 width_B
0 31:24 center_G
0 23:16 scale_G
0 15:8 center_B
0 7:0 scale_B
''')

SET_KEY_R = lines('''
0 27:16 width_R
0 15:8 center_R
0 7:0 scale_R
''')

SET_CONVERT = lines('''
0 53:45 K0
0 44:36 K1
0 35:27 K2
0 26:18 K3
0 17:9 K4
0 8:0 K5
''')

SET_SCISSOR = lines('''
0 55:44 upper_left.x
0 43:32 upper_left.y
0 25 field
0 24 odd
0 23:12 lower_right.x
0 11:0 lower_right.y
''')

SET_PRIMITIVE_DEPTH = lines('''
0 31:16 z
0 15:0 dz
''')

# The lines that 000 marks "-: ?" (54, 35:32, 15) are unused bits.
SET_OTHER_MODES = lines('''
0 55 atomic_prim
0 53:52 cycle_type
0 51 persp_tex_en
0 50 detail_tex_en
0 49 sharpen_tex_en
0 48 tex_lod_en
0 47 tlut_en
0 46 tlut_type
0 45 sample_type
0 44 mid_texel
0 43 bi_lerp_0
0 42 bi_lerp_1
0 41 convert_one
0 40 key_en
0 39:38 rgb_dither_sel
0 37:36 alpha_dither_sel
0 31:30 bl_m1a_0
0 29:28 bl_m1a_1
0 27:26 bl_m1b_0
0 25:24 bl_m1b_1
0 23:22 bl_m2a_0
0 21:20 bl_m2a_1
0 19:18 bl_m2b_0
0 17:16 bl_m2b_1
0 14 force_blend
0 13 alpha_cvg_select
0 12 cvg_x_alpha
0 11:10 z_mode
0 9:8 cvg_dest
0 7 color_on_cvg
0 6 image_read_en
0 5 z_update_en
0 4 z_compare_en
0 3 antialias_en
0 2 z_source_sel
0 1 dither_alpha_en
0 0 alpha_compare_en
''')

# Load TLUT, Set Tile Size (its tile is called index) and Load Tile.
TILE_AREA = lines('''
0 55:44 upper_left.s
0 43:32 upper_left.t
0 26:24 tile
0 23:12 lower_right.s
0 11:0 lower_right.t
''')

LOAD_BLOCK = lines('''
0 55:44 upper_left.s
0 43:32 upper_left.t
0 26:24 tile
0 23:12 lower_right.s
0 11:0 dxt
''')

SET_TILE = lines('''
0 55:53 format
0 52:51 size
0 49:41 line
0 40:32 address
0 26:24 index
0 23:20 palette
0 19 clamp_T
0 18 mirror_T
0 17:14 mask_T
0 13:10 shift_T
0 9 clamp_S
0 8 mirror_S
0 7:4 mask_S
0 3:0 shift_S
''')

FILL_RECTANGLE = lines('''
0 55:44 lower_right.x
0 43:32 lower_right.y
0 23:12 upper_left.x
0 11:0 upper_left.y
''')

SET_FILL_COLOR = lines('0 31:0 color')

COLOR = lines('''
0 31:24 red
0 23:16 green
0 15:8 blue
0 7:0 alpha
''')

SET_PRIMITIVE_COLOR = lines('''
0 47:40 min_level
0 39:32 prim_lod_frac
0 31:24 red
0 23:16 green
0 15:8 blue
0 7:0 alpha
''')

# One number of 56 bits, by document 01.
SET_COMBINE_MODE = lines('0 55:0 mode')

SET_TEXTURE_IMAGE = lines('''
0 55:53 format
0 52:51 size
0 41:32 width
0 23:0 dramAddress
''')

SET_DEPTH_IMAGE = lines('0 23:0 dramAddress')

# Document 01 gives the address as 25:0, where 000 has 23:0.
SET_COLOR_IMAGE = lines('''
0 55:53 format
0 52:51 size
0 41:32 width
0 25:0 dramAddress
''')

NO_OPERATIONS = [0x00]
UNASSIGNED = [*range(0x01, 0x08), *range(0x10, 0x24), 0x31]  # 02, #107

LAYOUT = {
    **{number: [] for number in NO_OPERATIONS + UNASSIGNED},
    **{number: TRIANGLE for number in range(0x08, 0x10)},
    0x24: TEXTURE_RECTANGLE,
    0x25: TEXTURE_RECTANGLE,
    0x26: [],
    0x27: [],
    0x28: [],
    0x29: [],
    0x2A: SET_KEY_GB,
    0x2B: SET_KEY_R,
    0x2C: SET_CONVERT,
    0x2D: SET_SCISSOR,
    0x2E: SET_PRIMITIVE_DEPTH,
    0x2F: SET_OTHER_MODES,
    0x30: TILE_AREA,
    0x32: TILE_AREA,
    0x33: LOAD_BLOCK,
    0x34: TILE_AREA,
    0x35: SET_TILE,
    0x36: FILL_RECTANGLE,
    0x37: SET_FILL_COLOR,
    0x38: COLOR,
    0x39: COLOR,
    0x3A: SET_PRIMITIVE_COLOR,
    0x3B: COLOR,
    0x3C: SET_COMBINE_MODE,
    0x3D: SET_TEXTURE_IMAGE,
    0x3E: SET_DEPTH_IMAGE,
    0x3F: SET_COLOR_IMAGE,
}


# ---- The rules of document 01.

def words_of(number):
    """The words of a command."""
    if 0x08 <= number <= 0x0F:
        return 4 + (8 if number & 4 else 0) + (8 if number & 2 else 0) + (2 if number & 1 else 0)
    return 2 if number in (0x24, 0x25) else 1


def suffix_words(number):
    """The words after a triangle's base; no other command has any."""
    return words_of(number) - 4 if 0x08 <= number <= 0x0F else 0


def fits(line, value):
    """Whether a value is within the bits of its line."""
    _, high, low, signed, _ = line
    bits = high - low + 1
    return -(1 << bits - 1) <= value < 1 << bits - 1 if signed else 0 <= value < 1 << bits


def decoded(number, words):
    """The fields of a command, out of its words."""
    values = []
    for word, high, low, signed, _ in LAYOUT[number]:
        bits = high - low + 1
        value = words[word] >> low & (1 << bits) - 1
        values.append(value - (1 << bits) if signed and value >> bits - 1 else value)
    return values


def encoded(number, values, suffix):
    """The words of a command: its number and fields, every other bit 0, and the suffix as given."""
    words = [0] * (words_of(number) - suffix_words(number))
    words[0] = number << 56
    for (word, high, low, _, _), value in zip(LAYOUT[number], values):
        words[word] |= (value & (1 << high - low + 1) - 1) << low
    return words + suffix


def encoding(number, values, suffix_bytes, room, named=None):
    """What encoding answers: 15 at 0, then 14 at the words needed, else 0 and the words."""
    if named is not None and number not in named:
        return 15, 0
    if not all(map(fits, LAYOUT[number], values)) or suffix_bytes != 8 * suffix_words(number):
        return 15, 0
    return (14 if room // 8 < words_of(number) else 0), words_of(number)


def fields_answer(number, room):
    """What writing the fields as numbers answers."""
    count = len(LAYOUT[number])
    return (14 if room < count else 0), count


def from_fields(number, values):
    """What making a command of a number and its fields answers: 15 at 0, or 0 and the count of fields."""
    if number >= 64 or len(values) != len(LAYOUT[number]) or not all(map(fits, LAYOUT[number], values)):
        return 15, 0
    if 0x08 <= number <= 0x0F and values[:3] != [number >> 2 & 1, number >> 1 & 1, number & 1]:
        return 15, 0
    return 0, len(values)


# ---- What is refused elsewhere, in the order of src/refusals.rt: each entry is an answer, number and place.

def triangle(flags=(0, 0, 0), **changed):
    """The fields of a triangle, 0 but for those given."""
    values = dict.fromkeys((name for *_, name in TRIANGLE), 0)
    values.update(zip(('shade', 'texture', 'zbuffer'), flags))
    values.update((name.replace('_', '.'), value) for name, value in changed.items())
    return list(values.values())


SHORT, LONG = 0, 184

REFUSALS = [
    # fields beyond their bits
    encoding(0x36, [4096, 0, 0, 0], 0, LONG),
    encoding(0x36, [4095, 0, 0, 0], 0, LONG),
    encoding(0x32, [0, 0, 8, 0, 0], 0, LONG),
    encoding(0x2C, [511, 511, 512, 511, 511, 511], 0, LONG),
    encoding(0x3C, [1 << 56], 0, LONG),
    encoding(0x3E, [1 << 24], 0, LONG),
    encoding(0x3D, [0, 0, 0, 1 << 24], 0, LONG),
    encoding(0x3F, [0, 0, 0, 1 << 24], 0, LONG),
    encoding(0x3F, [0, 0, 0, 1 << 26], 0, LONG),
    encoding(0x3F, [0, 0, 1024, 0], 0, LONG),
    # signed fields beyond their bits
    encoding(0x08, triangle(yl=8191), 0, LONG),
    encoding(0x08, triangle(yl=8192), 0, LONG),
    encoding(0x08, triangle(yl=-8192), 0, LONG),
    encoding(0x08, triangle(yl=-8193), 0, LONG),
    encoding(0x08, triangle(xl_i=2047), 0, LONG),
    encoding(0x08, triangle(xl_i=2048), 0, LONG),
    encoding(0x08, triangle(xl_i=-2048), 0, LONG),
    encoding(0x08, triangle(xl_i=-2049), 0, LONG),
    encoding(0x08, triangle(dxldy_i=8191), 0, LONG),
    encoding(0x08, triangle(dxldy_i=8192), 0, LONG),
    encoding(0x08, triangle(dxldy_i=-8192), 0, LONG),
    encoding(0x08, triangle(dxldy_i=-8193), 0, LONG),
    # no operations and unassigned numbers, each name by its own numbers
    encoding(0x00, [], 0, LONG, named=NO_OPERATIONS),
    encoding(0x01, [], 0, LONG, named=NO_OPERATIONS),
    encoding(0x23, [], 0, LONG, named=NO_OPERATIONS),
    encoding(0x24, [], 0, LONG, named=NO_OPERATIONS),
    encoding(0x08, [], 0, LONG, named=NO_OPERATIONS),
    encoding(0x26, [], 0, LONG, named=NO_OPERATIONS),
    encoding(0x29, [], 0, LONG, named=NO_OPERATIONS),
    encoding(0x30, [], 0, LONG, named=NO_OPERATIONS),
    encoding(0x40, [], 0, LONG, named=NO_OPERATIONS),
    encoding(0xFF, [], 0, LONG, named=NO_OPERATIONS),
    encoding(0x00, [], 0, LONG, named=UNASSIGNED),
    encoding(0x01, [], 0, LONG, named=UNASSIGNED),
    encoding(0x07, [], 0, LONG, named=UNASSIGNED),
    encoding(0x08, [], 0, LONG, named=UNASSIGNED),
    encoding(0x0F, [], 0, LONG, named=UNASSIGNED),
    encoding(0x10, [], 0, LONG, named=UNASSIGNED),
    encoding(0x23, [], 0, LONG, named=UNASSIGNED),
    encoding(0x24, [], 0, LONG, named=UNASSIGNED),
    encoding(0x31, [], 0, LONG, named=UNASSIGNED),
    encoding(0x41, [], 0, LONG, named=UNASSIGNED),
    encoding(0xFF, [], 0, LONG, named=UNASSIGNED),
    # suffixes of a wrong length
    encoding(0x08, triangle((0, 0, 0)), 8, LONG),
    encoding(0x0C, triangle((1, 0, 0)), 64, LONG),
    encoding(0x0C, triangle((1, 0, 0)), 63, LONG),
    encoding(0x0C, triangle((1, 0, 0)), 65, LONG),
    encoding(0x09, triangle((0, 0, 1)), 0, LONG),
    encoding(0x0B, triangle((0, 1, 1)), 80, LONG),
    encoding(0x0F, triangle((1, 1, 1)), 136, LONG),
    encoding(0x27, [], 8, LONG),
    encoding(0x27, [], 1, LONG),
    # outputs that are too short
    encoding(0x27, [], 0, SHORT),
    encoding(0x27, [], 0, 7),
    encoding(0x27, [], 0, 8),
    encoding(0x08, triangle((0, 0, 0)), 0, 31),
    encoding(0x08, triangle((0, 0, 0)), 0, 32),
    encoding(0x0F, triangle((1, 1, 1)), 144, 175),
    encoding(0x0F, triangle((1, 1, 1)), 144, 176),
    # 15 comes before 14
    encoding(0x36, [4096, 0, 0, 0], 0, SHORT),
    encoding(0x27, [], 8, SHORT),
    encoding(0x24, [], 0, SHORT, named=NO_OPERATIONS),
    # fields into too few numbers
    fields_answer(0x36, 3),
    fields_answer(0x36, 4),
    fields_answer(0x27, 0),
    fields_answer(0x3C, 0),
    # commands from numbers
    from_fields(0x27, []),
    from_fields(0x27, [0]),
    from_fields(0x36, [1, 2, 3]),
    from_fields(0x36, [1, 2, 3, 4]),
    from_fields(0x36, [1, 2, 3, 4, 5]),
    from_fields(0x36, [1, 2, 3, 4096]),
    from_fields(0x36, [1, 2, 3, 1 << 63]),
    from_fields(0x2A, [4096, 0, 0, 0, 0, 0]),
    from_fields(0x32, [4096, 0, 0, 0, 0]),
    from_fields(0x40, []),
    from_fields(0xFFFFFFFF, []),
    from_fields(0x24, [1, 2, 3, 4, 5, -32768, 32767, -1, 0]),
    from_fields(0x24, [1, 2, 3, 4, 5, -32769, 32767, -1, 0]),
    from_fields(0x24, [1, 2, 3, 4, 5, -32768, 32768, -1, 0]),
    from_fields(0x24, [1, 2, 3, 4, 5, -32768, 32767, 65535, 0]),
    # triangles from numbers
    from_fields(0x0F, triangle((1, 1, 1))),
    from_fields(0x0F, triangle((0, 1, 1))),
    from_fields(0x0F, triangle((1, 0, 1))),
    from_fields(0x0F, triangle((1, 1, 0))),
    from_fields(0x0F, triangle((2, 1, 1))),
    from_fields(0x08, triangle((0, 0, 0))),
    from_fields(0x08, triangle((0, 0, 1))),
    from_fields(0x0A, triangle((0, 1, 0), yl=-8192)),
    from_fields(0x0A, triangle((0, 1, 0), yl=-8193)),
    from_fields(0x0A, triangle((0, 1, 0), yl=8192)),
    from_fields(0x0A, triangle((0, 1, 0), yl=0x3FFF)),
]


# The words of 15 bytes, all bits set, at places 0, 1 and 2^61: only place 0 has a whole word.
WORDS_BEYOND = ' ' + ' '.join(f'{word:016x}' for word in ((1 << 64) - 1, 0, 0))


# ---- The lists of lists.rt, and what is printed for them.

def bytes_of(words, length):
    """The first bytes of words, most significant byte first, with zeros after them."""
    whole = b''.join(word.to_bytes(8, 'big') for word in words)
    return (whole + bytes(length))[:length]


def some(values):
    """A comma, and the values that are not 0, each after its index."""
    return ',' + ''.join(f' {i}: {value}' for i, value in enumerate(values) if value)


def single_bits(number, place):
    """The fields of a command with one bit set in a word of its base, for each bit from the lowest."""
    shown = []
    for bit in range(64):
        words = [number << 56] + [0] * 23
        words[place] |= 1 << bit
        shown.append(some(decoded(words[0] >> 56 & 63, words)))
    return f'{number:02x} {place}' + ''.join(shown)


def every_number():
    """For each number: all other bits 0, all other bits set, and each bit of its base alone."""
    shown = []
    for number in range(64):
        shown.append(printed([number << 56], 192))
        shown.append(printed([(192 | number) << 56 | (1 << 56) - 1] + [(1 << 64) - 1] * 23, 192))
        shown += [single_bits(number, place) for place in range(min(4, words_of(number)))]
    return shown


def fields(number, w):
    """The fields of a command of one word by their names."""
    return dict(zip((name for *_, name in LAYOUT[number]), decoded(number, [w])))


def heads():
    """What the check reads of each bit alone: the number, the cycle type and the size of an image."""
    return 'head' + ''.join(some([w >> 56 & 63, fields(0x2F, w)['cycle_type'], fields(0x3F, w)['size']]) for w in (1 << bit for bit in range(64)))


def fills():
    """What the drawing reads of each bit alone."""
    shown = []
    for w in (1 << bit for bit in range(64)):
        rectangle, scissor, image = decoded(0x36, [w]), decoded(0x2D, [w]), decoded(0x3F, [w])
        parts = [[fields(0x2F, w)['cycle_type'], fields(0x37, w)['color']], rectangle[:2], rectangle[2:], scissor[:2], scissor[2:4], scissor[4:], image]
        shown.append('fill' + ''.join(map(some, parts)))
    return shown


def counts():
    """The words of the numbers, also of those that no word has."""
    return 'words' + ''.join(f' {words_of(number)}' for number in range(255))


def vectors():
    """Each list of lists.rt: the comment above it, its words, and its length in bytes."""
    count, text = re.search(r'LISTS: \[\(&\[u64\], usize\); (\d+)\] = \[\n(.*)\];', (CRATE / 'src' / 'lists.rt').read_text(), re.S).groups()
    lists = re.findall(r'(?:// (.*)\n\s*)?\(\s*&\[([^\]]*)\],\s*(\d+),?\s*\),\n', text)
    assert len(lists) == int(count)
    return [(comment, [int(word, 16) for word in re.findall(r'0x\w+', words)], int(length)) for comment, words, length in lists]


def printed(words, length):
    """The line for a list."""
    data = bytes_of(words, length)
    own = [int.from_bytes(data[i:i + 8], 'big') for i in range(0, length - length % 8, 8)]
    if not own or len(own) < words_of(own[0] >> 56 & 63):
        return 'refused 3 0'
    number = own[0] >> 56 & 63
    values = decoded(number, own)
    base = words_of(number) - suffix_words(number)
    again = encoded(number, values, own[base:words_of(number)])
    assert decoded(number, again) == values and encoding(number, values, 8 * suffix_words(number), LONG) == (0, len(again))
    return ' '.join([f'{number:02x}', *map(str, values), '=', *(f'{word:016x}' for word in again), 'f' * 16, 'same'])


def stdout():
    shown = [printed(words, length) for _, words, length in vectors()] + every_number()
    refusals = [f'{number} {place}' for number, place in REFUSALS]
    return ''.join(line + '\n' for line in shown + refusals + [WORDS_BEYOND, heads(), *fills(), counts()])


def unused(number):
    """The bits of each base word that hold neither the number nor a field."""
    masks = [(1 << 64) - 1] * (words_of(number) - suffix_words(number))
    masks[0] &= ~(63 << 56)
    for word, high, low, _, _ in LAYOUT[number]:
        masks[word] &= ~((1 << high - low + 1) - 1 << low)
    return masks


def check_lists():
    """Every command has a list, an unassigned number of each row's ends too, and a list has the bits that its comment says."""
    seen = set()
    for comment, words, length in vectors():
        if length >= 8:
            number = words[0] >> 56 & 63
            seen.add(number)
            if 'every unused bit' in comment:
                assert all(word & mask == mask for word, mask in zip(words, unused(number))), comment
    assert seen >= set(range(64)) - set(UNASSIGNED) | {0x00, 0x07, 0x10, 0x23, 0x31}


def main():
    check_lists()
    path, text = CRATE / 'stdout', stdout()
    if sys.argv[1:] == ['--check']:
        if path.read_text() == text:
            return 0
        print(f'{path} is not what tools/vectors.py writes')
        return 1
    path.write_text(text)
    return 0


if __name__ == '__main__':
    sys.exit(main())
