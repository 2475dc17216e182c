"""What the tests share: the tool, document 01's lists, files and pictures. run.py names the tool and runs each test in a folder of its own."""
import os
import pty
import struct
import subprocess
import sys
import threading
import time
import zlib

TOOL = os.path.abspath(sys.argv[1])
TOP = os.path.dirname(os.path.dirname(os.path.dirname(os.path.abspath(__file__))))
LIST_COMMANDS = ("check", "repair", "dump", "draw", "report")
COMMANDS = (*LIST_COMMANDS, "diff", "translate", "edit", "asm", "lint")
TESTS = []

# 01's examples
S = [0x2F30000000000000, 0x3F10000700000000, 0x2D00000000020010]
R, N, C, L = 0x3600800800004004, 0, 0x37000000F801003F, 0x3400000000000000
BLOCK, SET_TILE = 0x33 << 56, 0x35 << 56
LOAD, PIPE, TILE, FULL = 0x26 << 56, 0x27 << 56, 0x28 << 56, 0x29 << 56
ONE_CYCLE = 0x2F00000000000000

# 02's copy mode: a texture image of width 4 at address 64 and tile 0, of one word a line, both of 16-bit RGBA; the modes; a load of 4 by 2 texels;
# and a copy of them onto the pixels (1,1) to (4,2)
TEXELS = [0x3D10000300000040, 0x3510020000000000]
COPY, LOAD_4_BY_2, COPIED = 0x2F20000000000000, 0x340000000000C004, [0x2401000800004004, 0x0000000010000400]


def test(function):
    TESTS.append(function)
    return function


def same(found, expected, what=""):
    assert found == expected, f"{what}: {found!r} where {expected!r} is expected"


def run(*arguments, stdin=b"", **more):
    """Exit status, output and errors of the tool."""
    done = subprocess.run([TOOL, *arguments], input=stdin, capture_output=True, timeout=60, **more)
    return done.returncode, done.stdout.decode(), done.stderr.decode()


def refuses_a_terminal(*arguments):
    """A list is bytes: where standard output is a terminal, the tool writes none."""
    terminal, end = pty.openpty()
    done = subprocess.run([TOOL, *arguments], stdout=end, stderr=subprocess.PIPE, timeout=60)
    os.close(end)
    os.close(terminal)
    same(done.returncode, 2)
    assert b"standard output is a terminal: give -o OUT" in done.stderr, done.stderr


def arriving(arguments, *portions):
    """Status and output where a list comes in portions, the last of which must be the one that ends it: standard input is not closed."""
    with subprocess.Popen([TOOL, *arguments], stdin=subprocess.PIPE, stdout=subprocess.PIPE, bufsize=0) as tool:
        late = threading.Timer(10, tool.kill)
        late.start()
        for portion in portions:
            time.sleep(0.02)
            same(tool.poll(), None, portion)
            tool.stdin.write(portion)
        out = tool.stdout.read().decode()
        late.cancel()
        return tool.wait(), out


def words(*numbers):
    return b"".join(struct.pack(">Q", n) for n in numbers)


def write(name, data):
    with open(name, "wb") as file:
        file.write(data)
    return name


def read(name):
    with open(name, "rb") as file:
        return file.read()


def example(name):
    return os.path.join(TOP, "examples", name)


def inserted(syncs, cycles, in_all, before=0, done="inserted"):
    """The line in which a repair says what it inserted."""
    return (f"{syncs} sync{'' if syncs == 1 else 's'} {done}, {cycles} cycles, {in_all} words in all; "
            f"the list waits {before} cycles before, {before + cycles} after\n")


def chosen(go, come, change, in_all, before, after):
    """The line in which a repair says what it chose afresh."""
    return (f"syncs that go: {go}, that come: {come}, that change: {change}; {in_all} words in all; "
            f"the list waits {before} cycles before, {after} after\n")


def files():
    return sorted(os.listdir("."))


def rgb_of(value):
    """Red, green and blue bytes of a pixel of 16 bits."""
    return bytes((part << 3 | part >> 2) for part in (value >> 11 & 31, value >> 6 & 31, value >> 1 & 31))


def memory_of_i():
    """What example I leaves in 64 zero bytes."""
    memory = bytearray(64)
    memory[18:22] = memory[34:38] = bytes.fromhex("003FF801")
    return bytes(memory)


def png_pixels(data):
    """Width, height and RGB bytes of a PNG of 8 bits without interlace."""
    same(data[:8], b"\x89PNG\r\n\x1a\n")
    at, packed, head = 8, b"", None
    while at < len(data):
        length, kind = struct.unpack(">I4s", data[at:at + 8])
        body = data[at + 8:at + 8 + length]
        same(struct.unpack(">I", data[at + 8 + length:at + 12 + length])[0], zlib.crc32(kind + body))
        head = struct.unpack(">IIBBBBB", body) if kind == b"IHDR" else head
        packed += body if kind == b"IDAT" else b""
        at += 12 + length
    width, height, depth, colour, _, _, interlace = head
    same((depth, colour in (2, 6), interlace), (8, True, 0))
    step = 3 if colour == 2 else 4  # with alpha
    raw, rows, last = zlib.decompress(packed), [], bytes(step * width)
    for y in range(height):
        start = y * (step * width + 1)
        last = unfiltered(raw[start], raw[start + 1:start + 1 + step * width], last, step)
        rows.append(last if step == 3 else b"".join(last[i:i + 3] for i in range(0, len(last), 4)))
    return width, height, b"".join(rows)


def unfiltered(kind, row, above, step):
    """A row of a PNG without its filter."""
    if kind == 0:
        return bytes(row)
    if kind == 2:
        return bytes([(a + b) & 255 for a, b in zip(row, above)])
    out = bytearray()
    for i, value in enumerate(row):
        left, up = out[i - step] if i >= step else 0, above[i]
        corner = above[i - step] if i >= step else 0
        near = min((abs(up - corner), 0, left), (abs(left - corner), 1, up), (abs(left + up - 2 * corner), 2, corner))[2]
        out.append((value + (0, left, up, (left + up) // 2, near)[kind]) % 256)
    return bytes(out)
