"""Copy mode (document 02, #106): what draw and report make of loads and texture rectangles."""
import os
import struct

from support import (BLOCK, C, COPIED, COPY, L, LOAD, LOAD_4_BY_2, ONE_CYCLE, PIPE, R, S, TEXELS, TOP, example, files, memory_of_i, png_pixels, read,
                     rgb_of, run, same, test, words, write)
from test_report import reported

PLAIN = [COPY, *S[1:], *TEXELS, LOAD_4_BY_2, LOAD, *COPIED]
# Example I, and then what it has filled is loaded from the colour image itself and copied four pixels to the right.
OWN = [*S, C, R, LOAD, 0x3D10000700000000, TEXELS[1], 0x3400400400008008, PIPE, COPY, 0x2401800800014004, 0x0020002010000400]
NEEDS = "Load Tile and Load Block need a texture image and a tile that are set, both of 16-bit RGBA, and Load Block 1 to 2,048 texels."


def changed(at, word):
    return [*PLAIN[:at], word, *PLAIN[at + 1:]]


def drawn(given, *more):
    """Status, the lines of the answer and the errors where a list is drawn into 80 bytes."""
    status, out, err = run("draw", "-", "--memory", "80", "-o", "out.bin", *more, stdin=words(*given))
    return status, out.split("\n")[:-1], err


@test
def draw_lends_texture_memory_by_itself():
    same(drawn(PLAIN), (0, ["0 9", "accepted: 9 words", "out.bin: 80 bytes of memory from address 0x0"], ""))
    same(read("out.bin"), bytes(80))


def memory_of_own():
    memory = bytearray(memory_of_i())
    memory[26:30], memory[42:46] = memory[18:22], memory[34:38]
    return bytes(memory)


@test
def draw_copies_what_it_has_filled():
    same(drawn(OWN)[:2], (0, ["0 13", "accepted: 13 words", "out.bin: 80 bytes of memory from address 0x0"]))
    same(read("out.bin"), memory_of_own() + bytes(16))


@test
def draw_says_what_the_refusals_of_copies_mean():
    plain = "is not drawn: only plain copies of 16-bit RGBA texels are"
    neither = "is not drawn: only Fill Rectangle in FILL mode and Texture Rectangle in COPY mode are"
    for given, answer, meaning in (
            ([ONE_CYCLE, *PLAIN[1:]], "10 7", f"Texture Rectangle {neither}"),
            (changed(7, 0x2501000800004004), "10 7", f"Texture Rectangle Flip {neither}"),
            ([COPY, *S[1:], R], "10 3", f"Fill Rectangle {neither}"),
            (changed(1, S[1] | 1), "11 7", "Texture Rectangle draws on a colour image whose address is no multiple of 64"),
            ([BLOCK], "17 0", f"Load Block {plain}"), ([0x30 << 56], "17 0", f"Load TLUT {plain}"), ([L], "17 0", f"Load Tile {plain}"),
            (changed(8, 0x10000800), "17 7", f"Texture Rectangle {plain}"), (changed(1, S[1] | 3 << 51), "17 7", f"Texture Rectangle {plain}"),
            (changed(3, TEXELS[0] | 8), "12 5", "Load Tile reads or writes outside memory"),
            (changed(1, S[1] | 64), "12 7", "Texture Rectangle reads or writes outside memory"),
            (changed(4, TEXELS[1] | 511 << 32), "18 5", "Load Tile reads or writes outside texture memory"),
            (changed(8, 0xFFE0000010000400), "18 7", "Texture Rectangle reads or writes outside texture memory")):
        status, out, err = drawn(given)
        same((status, out[:2], err), (1, [answer, f"word {answer.split()[1]}: {meaning}"], ""), given)
        same(len(out), 3 if answer[:2] in ("12", "17") else 2, given)  # of 12 what memory there is, of 17 what it needs
        assert answer[:2] != "17" or out[2].startswith(NEEDS), out
    same(files(), [])


@test
def the_picture_is_that_of_a_copy_too():
    same(run("draw", write("own.rdp", words(*OWN)), "--memory", "80", "-o", "own.png")[0], 0)
    expected = (8, 4, b"".join(rgb_of(v) for v in struct.unpack(">32H", memory_of_own())))
    same(png_pixels(read("own.png")), expected)
    same(run("draw", write("plain.rdp", words(*PLAIN)), "--memory", "80", "-o", "plain.png")[1].split("\n")[2],
         "plain.png: 8 by 4 pixels of 16 bits at address 0x0")
    same(reported(words(*OWN), 0).picture(), expected)


TEXTURE = bytes(range(1, 17))  # eight texels, in two rows of four
GIVEN = bytes(i * 7 % 251 for i in range(4096))  # of texture memory


def memory_of_plain():
    """The texels at address 64, and the pixels that PLAIN copies them to."""
    memory = bytearray(64) + TEXTURE
    memory[18:26], memory[34:42] = TEXTURE[:8], TEXTURE[8:]
    return bytes(memory)


def texture_of_plain():
    """In odd rows the halves of a word are exchanged."""
    return TEXTURE[:8] + TEXTURE[12:] + TEXTURE[8:12] + GIVEN[16:]


@test
def draw_begins_with_a_file_of_memory():
    name = write("memory.bin", bytes(64) + TEXTURE)
    same(run("draw", "-", "--memory", name, "-o", "out.bin", stdin=words(*PLAIN)), (
        0, "0 9\naccepted: 9 words\nout.bin: 80 bytes of memory from address 0x0\n", ""))
    same((read("out.bin"), read(name)), (memory_of_plain(), bytes(64) + TEXTURE))
    same(run("draw", "-", "--memory", "./64", "-o", "out.bin", stdin=words(*PLAIN))[::2], (2, "lanyardrove: ./64: No such file or directory\n"))
    write("64", bytes(64) + TEXTURE)
    same(run("draw", "-", "--memory", "./64", "-o", "out.bin", stdin=words(*PLAIN))[0], 0)
    same(run("draw", "-", "--memory", "64", "-o", "out.bin", stdin=words(*PLAIN))[:2], (
        1, "12 5\nword 5: Load Tile reads or writes outside memory\n--memory and --start give 64 bytes of memory from address 0x0\n"))
    same(run("draw", "-", "--memory", "64", "--memory", name, "--start", "0", "-o", name, stdin=words(*PLAIN))[0], 0)
    same(read(name), memory_of_plain())  # it may be the output too


@test
def a_file_of_memory_that_cannot_be_read_is_told():
    with open("large.bin", "wb") as large:
        large.truncate((256 << 20) + 1)
    missing = "No such file or directory"
    for name, reason in (("nowhere", missing), (".", "Is a directory"), ("-1", missing), ("K", missing), ("./large.bin", "over 256M")):
        for option in ("--memory", "--texture"):
            done = run("draw", "-", "--memory=80", f"{option}={name}", "-o", "out.bin", stdin=words(*PLAIN))
            same(done, (2, "", f"lanyardrove: {name}: {reason}\n"), name)
    same(files(), ["large.bin"])


@test
def draw_begins_with_texture_memory_and_keeps_it():
    memory, texture = write("memory.bin", bytes(64) + TEXTURE), write("texture.bin", GIVEN)
    command = ["draw", "-", "--memory", memory, "--texture", texture, "-o"]
    same(run(*command, "out.bin", stdin=words(*PLAIN)), (
        0, "0 9\naccepted: 9 words\nout.bin: 80 bytes of memory from address 0x0\ntexture.bin: texture memory\n", ""))
    same((read("out.bin"), read(texture)), (memory_of_plain(), texture_of_plain()))
    copy = [*PLAIN[:5], *PLAIN[7:]]  # the load was another list's
    same(run("draw", "-", "--memory", "64", "--texture", texture, "-o", "out.bin", stdin=words(*copy))[0], 0)
    same((read("out.bin"), read(texture)), (memory_of_plain()[:64], texture_of_plain()))


@test
def texture_memory_stays_where_nothing_is_drawn_or_written():
    write("texture.bin", GIVEN)
    command = ["draw", "-", "--memory", "80", "--texture", "texture.bin", "-o"]
    for given, output, status in (([*PLAIN, C], "out.bin", 1), (changed(8, 0), "out.bin", 1), (PLAIN, "missing/out.bin", 2),
                                  (PLAIN[:6], "out.png", 2)):
        same(run(*command, output, stdin=words(*given))[0], status, output)
    same((files(), read("texture.bin")), (["texture.bin"], GIVEN))
    for length in (0, 4095, 4097):
        write("texture.bin", bytes(length))
        same(run(*command, "out.bin", stdin=words(*PLAIN)), (1, f"16 0\ntexture memory is not 4,096 bytes\n--texture gives {length} bytes\n", ""))
    same((files(), len(read("texture.bin"))), (["texture.bin"], 4097))


@test
def texture_memory_has_a_file_of_its_own():
    write("list.bin", words(*PLAIN))
    write("memory.bin", GIVEN)
    for texture, output in (("./list.bin", "out.bin"), ("memory.bin", "out.bin"), ("other.bin", "./other.bin")):
        write("other.bin", GIVEN)
        status, out, err = run("draw", "list.bin", "--memory", "memory.bin", "--texture", texture, "-o", output)
        same((status, out), (2, ""))
        assert "texture memory has a file of its own" in err, err
    for output in ("memory.bin", "other.bin"):
        status, out, err = run("report", "list.bin", "--memory", "memory.bin", "--texture", "other.bin", "-o", output)
        same((status, out), (2, ""))
        assert "the output is memory that the list is drawn into" in err, err
    same((read("list.bin"), read("memory.bin"), read("other.bin"), files()), (words(*PLAIN), GIVEN, GIVEN, ["list.bin", "memory.bin", "other.bin"]))


@test
def report_draws_into_memory_that_is_given():
    memory, texture = write("memory.bin", bytes(64) + TEXTURE), write("texture.bin", texture_of_plain())
    expected = (8, 4, b"".join(rgb_of(v) for v in struct.unpack(">32H", memory_of_plain()[:64])))
    same(reported(words(*PLAIN), 0, "list.rdp", "--memory", memory).picture(), expected)
    same(reported(words(*PLAIN[:5], *PLAIN[7:]), 0, "list.rdp", "--texture", texture).picture(), expected)
    same((read(memory), read(texture)), (bytes(64) + TEXTURE, texture_of_plain()))  # a report writes neither
    page = reported(words(*PLAIN), 0, "list.rdp", "--memory", memory, "--start", "0x40")
    assert "The list cannot be drawn: 12 7, word 7: Texture Rectangle reads or writes outside memory." in page.text, page.text
    page = reported(words(*S, C, R), 0, "list.rdp", "--memory", "38")
    assert "The picture, 8 by 4 pixels of 16 bits at address 0x0, is not inside memory." in page.text and not page.images, page.text


@test
def report_says_why_a_copy_is_not_drawn():
    page = reported(words(*changed(8, 0x10000800)), 0)
    assert "The list cannot be drawn: 17 7, word 7: Texture Rectangle is not drawn: only plain copies" in page.text and NEEDS in page.text, page.text
    page = reported(words(*changed(8, 0xFFE0000010000400)), 0)
    assert "The list cannot be drawn: 18 7, word 7: Texture Rectangle reads or writes outside texture memory." in page.text and NEEDS not in page.text


@test
def draw_makes_the_picture_of_copies_of_the_readme():
    same(run("draw", example("valley.rdp"), "--memory", example("valley.bin"), "-o", "valley.png")[:2], (
        0, "0 134\naccepted: 134 words\nvalley.png: 128 by 80 pixels of 16 bits at address 0x0\n"))
    width, height, found = png_pixels(read("valley.png"))
    same((width, height, found), png_pixels(read(os.path.join(TOP, "docs", "picture-copy.png"))))

    def block(pixels, across, column, row):
        """Eight by eight pixels, of a picture so many pixels across."""
        return b"".join(pixels[3 * ((8 * row + y) * across + 8 * column):][:24] for y in range(8))
    texture = b"".join(rgb_of(value) for value in struct.unpack(">768H", read(example("valley.bin"))[0x5000:0x5600]))
    tiles = {block(texture, 32, column, row) for column in range(4) for row in range(3)}
    blocks = {block(found, 128, column, row) for column in range(16) for row in range(10)}
    same((len(tiles), blocks - tiles), (12, {64 * found[:3]}))  # each block is a tile or the sky
    same(reported(read(example("valley.rdp")), 0, "valley.rdp", "--memory", example("valley.bin")).picture(), (width, height, found))


@test
def a_texture_loaded_by_load_block_draws_the_same():
    same(run("draw", example("valley-block.rdp"), "--memory", example("valley.bin"), "--texture", write("block.bin", bytes(4096)), "-o", "block.png")[0], 0)
    same(run("draw", example("valley.rdp"), "--memory", example("valley.bin"), "--texture", write("tile.bin", bytes(4096)), "-o", "tile.png")[0], 0)
    same(read("block.png"), read("tile.png"))
    same(read("block.bin"), read("tile.bin"))
    for texels, answer in ((0, 17), (2049, 17), (4, 0)):
        status, out, _ = drawn([*TEXELS, BLOCK | 1 << 44 | texels << 12])  # from texel 1 on
        same((status, out[0]), (1 if answer else 0, f"{answer} {2 if answer else 3}"), texels)
