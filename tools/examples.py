#!/usr/bin/env python3
"""Document 01's examples A to O as files, from the paper's hexadecimal words, and pictures of fills and of copies, with what the check answers.

    tools/examples.py           writes examples/*.rdp, the memory that the copies read, and example G as the program's input for its test
    tools/examples.py --check   says which of these files differ, and exits with 1 where one does
    tools/examples.py --run     runs each list, and the longest and one byte more, through the program rdpcheck, compiled without its proofs
"""
import math
import pathlib
import re
import subprocess
import sys
import tempfile

ROOT = pathlib.Path(__file__).resolve().parent.parent
SETUP = ['2F30000000000000', '3F10000700000000', '2D00000000020010']
SETUP_WIDTH_7 = ['2F30000000000000', '3F10000600000000', '2D00000000020010']
RECTANGLE = '3600800800004004'
FIRST_COLUMN = '3600000400000004'
NOTHING = '0000000000000000'
COLOR = '37000000F801003F'
LOAD = '3400000000000000'
TILE_SYNC = '2800000000000000'
PIPE_SYNC = '2700000000000000'
FULL_SYNC = '2900000000000000'


def of(words):
    return bytes.fromhex(''.join(words))


# The picture: 160 by 120 pixels of 16 bits at address 0. Corners are pixels and belong to the rectangle; colours are red, green and blue of 5 bits.
PICTURE_SETUP = ['2F30000000000000', '3F10009F00000000', '2D000000002801E0']


def pixel(red, green, blue):
    return f'{red << 11 | green << 6 | blue << 1 | 1:04X}'


def fill(left, top, right, bottom):
    return f'36{4 * right:03X}{4 * bottom:03X}00{4 * left:03X}{4 * top:03X}'


def bands(top, height, colours):
    return [(colour, [fill(0, y, 159, y + height - 1)]) for y, colour in zip(range(top, 120, height), colours)]


def disc(x, y, radius, bottom):
    widths = ((row, math.isqrt(radius * (radius + 1) - (row - y) ** 2)) for row in range(y - radius, bottom))
    return [fill(x - width, row, x + width, row) for row, width in widths]


def ridge(points, bottom):
    """Columns of two pixels from a line of points down to a row."""
    columns = []
    for (left, high), (right, low) in zip(points, points[1:]):
        columns += [fill(x, high + (low - high) * (x - left) // (right - left), x + 1, bottom) for x in range(left, right, 2)]
    return columns


def sunset():
    sky = bands(0, 6, [(5 + 2 * i, 3 + i, 13 - i // 2) for i in range(12)])
    sea = bands(72, 6, [(9 - i, 6 - i // 2, 15 - i) for i in range(8)])
    sun = ((31, 28, 14), disc(80, 62, 22, 72))
    glitter = ((31, 22, 10), [fill(62 + i + i % 3 * 3, 74 + 3 * i, 98 - i - i % 2 * 4, 74 + 3 * i) for i in range(13)])
    far = ((10, 5, 11), ridge([(0, 52), (18, 60), (34, 50), (64, 72)], 71) + ridge([(100, 72), (122, 56), (134, 62), (160, 48)], 71))
    near = ((4, 3, 7), ridge([(0, 62), (12, 66), (20, 64), (40, 74)], 75) + ridge([(128, 75), (146, 66), (160, 60)], 75))
    sail = ((30, 29, 27), [fill(112, 70 + i, 112 + i // 2, 70 + i) for i in range(22)])
    boat = ((6, 3, 3), [fill(110, 68, 110, 94), fill(100, 93, 126, 94), fill(102, 95, 124, 96), fill(104, 97, 122, 98)])
    words = []
    for colour, rectangles in sky + [sun, far] + sea + [glitter, near, sail, boat]:
        words += [PIPE_SYNC, '37000000' + 2 * pixel(*colour)] + rectangles
    return PICTURE_SETUP + words[1:] + [FULL_SYNC]  # nothing is drawn before the first colour


# The picture of copies: 128 by 80 pixels of 16 bits at address 0. Behind it, at 0x5000, a texture of 32 by 24 texels: twelve tiles of 8 by 8.
COLOURS = {'.': (12, 20, 30), 'w': (31, 31, 31), 'l': (24, 27, 31), 'g': (6, 20, 5), 'G': (12, 26, 8), 'd': (3, 13, 4), 'b': (17, 10, 4),
           'B': (11, 6, 3), 'r': (25, 8, 5), 'R': (17, 5, 4), 'y': (31, 27, 6), 'o': (27, 18, 3), 'u': (4, 12, 26), 'U': (10, 20, 31),
           's': (30, 22, 16), 'k': (2, 2, 3)}
TILES = {
    'G': 'GGGGGGGG gGGgGGgG gggggggg bgbggbgg bbbgbbbb bbbbbbBb bBbbbbbb bbbbbBbb',
    'E': 'bbbbbbbb bbBbbbbb bbbbbbBb bBbbbbbb bbbbBbbb bbbbbbbb bbBbbbBb bbbbbbbb',
    'B': 'rrrRrrrr rrrRrrrr RRRRRRRR rrrrrrrR rrrrrrrR RRRRRRRR rrrRrrrr RRRRRRRR',
    'c': '........ ...yy... ..ywyo.. ..ywyo.. ..ywyo.. ..ywyo.. ...yo... ........',
    '(': '........ .....www ...wwwww ..wwwwww .wwwwwww wwwwwwww lwwwwwww .lllllll',
    ')': '........ www..... wwwww... wwwwwww. wwwwwwww wwwwwwww wwwwwwwl lllllll.',
    '~': 'UuuUUuuU uUUuuUUu uuuuuuuu uuuUuuuu uuuuuuuu uUuuuuUu uuuuuuuu uuuuUuuu',
    'h': '..rrrr.. .rrrrrr. ..kssk.. ..ssss.. .rrrrrr. s.uuuu.s ..uuuu.. ..k..k..',
    'o': '..gGGg.. .gGGGGg. gGGgGGGg GGgGGgGG gGGGgGGg dgGgGGgd .dgggdd. ...bB...',
    '|': '...bB... ...bB... ...bB... ...bB... ..bbB... ...bB... ...bB... ..bbBB..',
    'f': '........ ........ ...r.... ..ryr... ...r..y. ...g.yoy .g.g..g. ..gg.gg.',
    '#': '........ ........ .b..b..b bbbbbbbb .b..b..b bbbbbbbb .B..B..B .B..B..B',
}
VALLEY = ['................', '.().......().c..', '.....().....c.c.', '..........c.....', '..c...........()',
          '.....BBcBB..o...', '..B.........|...', 'f.h#..f...##|.f.', 'GGGGGG~~GGGGGGGG', 'EEEEEE~~EEEEEEEE']


def copy(tile, column, row):
    """Copies a tile of the texture onto the square of a column and a row."""
    left, top, at = 32 * column, 32 * row, list(TILES).index(tile)
    return [f'24{left + 28:03X}{top + 28:03X}00{left:03X}{top:03X}', f'{at % 4 * 256:04X}{at // 4 * 256:04X}10000400']


# The texture's 768 texels as a tile, and as a block (02, #112): a line is 32 texels, which are 8 words, and 2048 / 8 is dxt 0x100.
LOAD_TEXTURE, LOAD_TEXTURE_BLOCK = '340000000007C05C', '33000000002FF100'


def valley_setup():
    sky = ['2F30000000000000', '3F10007F00000000', '2D00000000200140', '37000000' + 2 * pixel(*COLOURS['.']), fill(0, 0, 127, 79)]
    return sky + [PIPE_SYNC, '2F20000000000000', '3D10001F00005000', '3510100000000000', LOAD_TEXTURE, '2600000000000000']


def valley_copies():
    return [copy(tile, column, row) for row, tiles in enumerate(VALLEY) for column, tile in enumerate(tiles) if tile != '.']


def valley():
    return valley_setup() + [word for pair in valley_copies() for word in pair] + [FULL_SYNC]


def valley_block():
    """The same picture, with the texture loaded by Load Block."""
    return [LOAD_TEXTURE_BLOCK if word == LOAD_TEXTURE else word for word in valley()]


VALLEY_START = 0x5600  # where its display list begins in memory


def valley_display_list():
    """The same list in the commands of Fast3DEX2 (document 003): the cycle type by 0xE3, and the copies, with their half-words, in a list that is called."""
    def command(word):
        return f'{int(word[:2], 16) | 0xC0:02X}{word[2:]}'
    setup = ['E3000A01' + word[2:8].rjust(8, '0') if word[:2] == '2F' else command(word) for word in valley_setup()]
    copies = [word for first, second in valley_copies() for word in (command(first), 'E1000000' + second[:8], 'F1000000' + second[8:])]
    ending = 'DF00000000000000'
    called = VALLEY_START + 8 * (len(setup) + 3)
    return setup + [f'DE000000{called:08X}', command(FULL_SYNC), ending] + copies + [ending]


def valley_memory():
    """Zeros where the picture comes, then the texture, row by row, then the display list."""
    tiles = [tile.split() for tile in TILES.values()]
    rows = [''.join(tile[row % 8] for tile in tiles[row // 8 * 4:][:4]) for row in range(24)]
    return bytes(0x5000) + of(pixel(*COLOURS[colour]) for row in rows for colour in row) + of(valley_display_list())


# name: the list, and the check's number and place; those of A to H stand in document 01
LISTS = {
    'a': (b'', '0 0'),
    'b': (bytes(7), '2 0'),
    'c1': (of(['2400000000000000']), '3 0'),
    'd': (of(['0F00000000000000'] + [NOTHING] * 20), '3 0'),
    'e': (of(['0F00000000000000'] + [NOTHING] * 21), '5 0'),
    'f': (of(['2900000000000000', NOTHING]), '4 1'),
    'g': (of(SETUP + [RECTANGLE, COLOR]), '9 4'),
    'h-tile': (of(SETUP + [RECTANGLE, TILE_SYNC, COLOR]), '9 5'),
    'h-pipe': (of(SETUP + [RECTANGLE, PIPE_SYNC, COLOR]), '0 6'),
    'i': (of(SETUP + [COLOR, RECTANGLE]), '0 5'),
    'j': (of(SETUP + [RECTANGLE, LOAD, COLOR]), '7 4'),
    'k': (of(SETUP + [RECTANGLE, LOAD, RECTANGLE]), '7 4'),
    'm': (of(SETUP + [RECTANGLE, NOTHING, COLOR]), '9 5'),
    'o': (of(SETUP_WIDTH_7 + [COLOR, FIRST_COLUMN]), '0 5'),
    'old': (of(SETUP + [word for each in (COLOR, RECTANGLE, LOAD, COLOR, FULL_SYNC) for word in (PIPE_SYNC, each)]), '0 13'),
    'sunset': (of(sunset()), '0 244'),
    'valley': (of(valley()), '0 134'),
    'valley-block': (of(valley_block()), '0 134'),
}
LONGEST = {'longest': (bytes(32768), '0 4096'), 'too-long': (bytes(32769), '1 4096')}


def files():
    for name, (data, _) in LISTS.items():
        yield ROOT / 'examples' / (name + '.rdp'), data
    yield ROOT / 'examples/valley.bin', valley_memory()
    yield ROOT / 'crates/rdpcheck/stdin', LISTS['g'][0]


def check():
    wrong = [str(p.relative_to(ROOT)) for p, data in files() if not p.exists() or p.read_bytes() != data]
    if wrong:
        sys.exit('not what tools/examples.py writes: ' + ', '.join(wrong))


def run():
    lists = {**LISTS, **LONGEST}
    with tempfile.TemporaryDirectory() as folder:
        for name, (data, answer) in lists.items():
            pathlib.Path(folder, name).write_bytes(data)
            pathlib.Path(folder, name + '.stdout').write_text(answer + '\n')
        tried = subprocess.run(['rt', 'try', '--cases', folder], cwd=ROOT / 'crates/rdpcheck', capture_output=True, text=True)
    said = tried.stdout + tried.stderr
    right = re.findall(r'^case=(\S+) run=ended status=0 .*\boutput=expected\b', said, re.M)
    if tried.returncode or sorted(right) != sorted(lists):
        sys.exit(f'rdpcheck, of which {len(right)} of {len(lists)} lists were answered as expected:\n{said}')
    print(f'rdpcheck: {len(lists)} lists answered as expected')


if '--check' in sys.argv[1:]:
    check()
elif '--run' in sys.argv[1:]:
    run()
else:
    for path, data in files():
        path.parent.mkdir(exist_ok=True)
        path.write_bytes(data)
