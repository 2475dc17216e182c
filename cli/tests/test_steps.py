"""lanyardrove report --steps: the pictures after each draw and load, beside what draw makes of the list up to there. test_browser.py looks at the page."""
import base64
import os
import random
import re
import struct

from rules import commands_of, words_of
from support import (C, COPIED, COPY, FULL, L, LOAD, LOAD_4_BY_2, N, ONE_CYCLE, PIPE, R, S, SET_TILE, TEXELS, example, png_pixels, read, run, same, test,
                     words, write)
from test_copy import OWN, PLAIN
from test_report import Page


class Steps(Page):
    """A page of steps: of each the place, the rectangle and what a load changed; and both films."""

    def __init__(self, source):
        super().__init__(re.sub(r"<(rect|image)( [^>]*)/>", r"<\1\2></\1>", source))
        rows = re.search(r"const steps = \[(.*?)\];\n", source, re.S)[1]
        self.steps = [[int(number) for number in row.split(",")] for row in re.findall(r"\[([\d,]+)\]", rows)]
        self.places = [step[0] for step in self.steps]
        self.films = {name: re.search(rf'<figure id="{name}">(.*?)</figure>', source, re.S)[1] for name in ("picture", "texture")}
        self.told = re.search(r'</h1>\n<p class="note">(.*?)</p>', source)[1]

    def after(self, name):
        """The image after each step, from step 0 on: its name, width, height and RGB bytes; None where there is none yet."""
        shown, image, svgs = [], None, re.split(r"(?=<svg )", self.films[name])[1:]
        parts = {}
        for svg in svgs:
            step, width, height, label = re.match(r'<svg data-s="(\d+)" viewBox="0 0 (\d+) (\d+)" [^>]*aria-label="([^"]*)">', svg).groups()
            parts.setdefault(int(step), []).append((label, int(width), int(height)))
            for kind, at, *box, rest in re.findall(r'<(rect|image) data-s="(\d+)" x="(\d+)" y="(\d+)" width="(\d+)" height="(\d+)" (.*?)/>', svg):
                parts.setdefault(int(at), []).append((kind, *map(int, box), rest))
        for step in range(len(self.steps) + 1):
            for part in parts.get(step, []):
                image = (*part, bytearray(3 * part[1] * part[2])) if len(part) == 3 else painted(image, *part)
            shown.append(image and (*image[:3], bytes(image[3])))
        return shown


def painted(image, kind, left, top, width, height, rest):
    label, all_width, all_height, rgb = image
    assert width > 0 and height > 0 and left + width <= all_width and top + height <= all_height, (kind, left, top, width, height)
    if kind == "rect":
        pixels = bytes.fromhex(re.fullmatch(r'fill="#(\w{6})"', rest)[1]) * (width * height)
    else:
        found = png_pixels(base64.b64decode(re.fullmatch(r'href="data:image/png;base64,([^"]+)"', rest)[1], validate=True))
        same(found[:2], (width, height))
        pixels = found[2]
    rgb = bytearray(rgb)
    for y in range(height):
        at = 3 * ((top + y) * all_width + left)
        rgb[at:at + 3 * width] = pixels[3 * width * y:3 * width * (y + 1)]
    return label, all_width, all_height, rgb


def stepped(data, status, *more):
    write("list.rdp", data)
    same(run("report", "list.rdp", "--steps", "-o", "out.html", *more), (status, "", ""), more)
    source = read("out.html").decode()
    page = Steps(source)
    same((page.tags & {"link", "iframe"}, source.count("<script>")), (set(), 1))
    assert not re.search(r"(?<!')https?:(?!//www.w3.org/2000/svg')|@import|url\(|\033", source), "the page needs another file"
    assert "default-src 'none'" in source
    ids = re.findall(r'id="([^"]+)"', source)
    assert len(ids) == len(set(ids)) and {f"w{place}" for place in page.places} <= set(ids), "a step has no row"
    return page


def ppm_of(name):
    head, size, _, pixels = read(name).split(b"\n", 3)
    return *map(int, size.split()), pixels


def image_at(label):
    """The value of --image for what a picture's label says."""
    width, height, bits, address = re.fullmatch(r"(\d+) by (\d+) pixels of (\d+) bits at address (0x\w+)", label).groups()
    return f"{address},{width},{height},{bits}"


def same_as_prefixes(given, page, memory, start="0", every=1):
    """Each step, or one of so many, is what the list up to it draws, of the picture and of texture memory."""
    sizes = {place: words_of(number) for place, number in commands_of(given)}
    pictures, textures = page.after("picture"), page.after("texture")
    for step, place in list(enumerate([None, *page.places]))[::-every]:
        write("prefix.rdp", words(*(given[:place + sizes[place]] if place is not None else [])))
        write("texture", bytes(4096))
        image = image_at(pictures[step][0]) if pictures[step] else "0,1,1,8"
        lent = ["--memory", memory, "--start", start, "--texture", "texture"]
        same(run("draw", "prefix.rdp", *lent, "--image", image, "-o", "prefix.ppm")[0], 0, step)
        if pictures[step]:
            same(ppm_of("prefix.ppm") == pictures[step][1:], True, f"picture after step {step}")
        same(run("draw", "/dev/null", "--memory", "texture", "--image", "0,32,64,16", "-o", "texture.ppm")[0], 0)
        same(ppm_of("texture.ppm") == textures[step][1:], True, f"texture memory after step {step}")


@test
def steps_of_the_examples_are_what_their_prefixes_draw():
    for name, memory, count, every in (("valley.rdp", example("valley.bin"), 63, 2), ("sunset.rdp", "38400", 189, 8)):
        given = struct.unpack(f">{os.path.getsize(example(name)) // 8}Q", read(example(name)))
        page = stepped(words(*given), 0, "--memory", memory)
        same(len(page.steps), count)
        same_as_prefixes(list(given), page, memory, every=every)


@test
def steps_show_fills_loads_and_copies():
    page = stepped(words(*OWN), 0, "--memory", "80")
    same(page.steps, [[4, 1, 1, 2, 2], [8, 0, 0, 0, 0, 0, 0, 8, 1], [11, 5, 1, 2, 2]])
    same_as_prefixes(OWN, page, "80")
    assert "<code>0 13</code>, accepted: 13 words." in page.told, page.told
    page = stepped(words(*PLAIN), 0, "--memory", "80")  # nothing changes: zeros are loaded, and copied
    same((page.steps, page.films["picture"].count("data-s")), ([[5, 0, 0, 0, 0], [7, 1, 1, 4, 2]], 2))


@test
def steps_keep_the_tile_that_a_load_leaves():
    # texels from (2, 1) on are loaded, so that the tile's upper left is there; (2, 1) is copied to (0, 0), and after Set Tile Size (0, 0) is
    memory = write("memory", bytes(range(256)))
    given = [COPY, *S[1:], *TEXELS, 0x3400800400010008, LOAD, 0x2400800400000000, 0x0040002010000400, 0x3200000000000000, 0x2401C01C00010010, 0x0000000010000400]
    page = stepped(words(*given), 0, "--memory", memory)
    same(page.places, [5, 7, 10])
    same_as_prefixes(given, page, memory)


@test
def steps_keep_the_tile_that_a_block_leaves():
    # texels 4 to 11 as two lines, so that the tile's left is 1 by the same bits; then column 1 is copied to column 0
    memory = write("memory", bytes(range(256)))
    given = [COPY, *S[1:], *TEXELS, 0x330040000000B800, LOAD, 0x2400800400000000, 0x0020000010000400]
    page = stepped(words(*given), 0, "--memory", memory)
    same(page.places, [5, 7])
    same_as_prefixes(given, page, memory)


@test
def steps_on_several_images_and_scissors():
    random.seed(5)
    memory = write("memory", random.randbytes(8192))
    given = [S[0]]
    for _ in range(60):
        size, width = random.randint(1, 3), random.randint(1, 24)
        image = 0x3F << 56 | size << 51 | width - 1 << 32 | 0x100 + 64 * random.randint(0, 40)
        scissor = 0x2D << 56 | random.randint(0, 9) << 44 | random.randint(0, 9) << 32 | random.randint(0, 3) << 24 | 4 * width << 12 | random.randint(1, 40)
        left, top = random.randint(0, 60), random.randint(0, 30)
        fill = 0x36 << 56 | random.randint(left, 4 * width + 60) << 44 | random.randint(top, 50) << 32 | left << 12 | top
        colour = 0x37 << 56 | random.getrandbits(32)
        given += [*([PIPE, image] if random.randint(0, 2) == 0 or len(given) == 1 else []), *([scissor] if random.randint(0, 1) or len(given) < 4 else []), PIPE, colour, fill]
    page = stepped(words(*given), 0, "--memory", memory, "--start", "0x100")
    same(len(page.steps), 60)
    same_as_prefixes(given, page, memory, "0x100")
    assert len(set(image[:3] for image in page.after("picture"))) > 8


@test
def steps_are_taken_as_if_no_sync_were_missing():
    given, repaired = [*S, R, C, R], [*S, R, PIPE, C, R]
    page = stepped(words(*given), 1)
    same((page.places, page.after("picture")[1:]), ([3, 5], stepped(words(*repaired), 0).after("picture")[1:]))
    assert "It is drawn as if no sync were missing." in page.told and "steps end" not in page.told, page.told
    same(stepped(words(*S, R, C, *[N] * 4000, R), 1).places, [3, 4005])  # too long for the repair


@test
def steps_end_where_the_library_refuses():
    for given, places, why in (([*S, C, R, ONE_CYCLE, R], [4], "<code>10 6</code>, word 6: Fill Rectangle is not drawn"),
                               ([*S, R, PIPE, FULL, C, R], [3], "<code>4 6</code>, word 6: Set Fill Color stands after Sync Full"),
                               ([*S, R, 0x31 << 56, R], [3], "<code>19 4</code>, word 4: Unassigned number"),
                               ([*S, R, 0x24 << 56], [3], "<code>3 4</code>, word 4: Texture Rectangle runs past the end"),
                               ([R, *S], [], "<code>5 0</code>, word 0: Fill Rectangle draws with other modes"),
                               ([*S, R, 0x33 << 56, R], [3], "<code>17 4</code>, word 4: Load Block is not drawn"),
                               ([*S, R, 0x3600800C00004004, R], [3], "<code>12 4</code>, word 4: Fill Rectangle reads or writes outside memory")):
        write("list.rdp", words(*given))
        status = run("check", "list.rdp")[0]
        page = stepped(words(*given), status, "--memory", "38")
        same(page.places, places, given)
        assert f"The steps end here: {why}" in page.told, page.told
    write("texture", bytes(12))
    page = stepped(words(*S, R), 0, "--texture", "texture")
    assert page.places == [] and "<code>16 0</code>, texture memory is not 4,096 bytes" in page.told, page.told


@test
def steps_of_lists_that_draw_nothing():
    for given in ([], [N], [*S, C], [*TEXELS, LOAD_4_BY_2]):
        page = stepped(words(*given), 0)
        same((len(page.steps), page.films["picture"].count("<svg")), (len(given) // 3 if given[-1:] == [LOAD_4_BY_2] else 0, 0))
        assert "Nothing is drawn." in page.text
    same(stepped(bytes(7), 1).steps, [])
    same(stepped(words(0x24 << 56), 1).steps, [])


@test
def steps_show_of_memory_what_is_there():
    page = stepped(words(*S, C, R), 0, "--memory", "38")  # the rows 0 and 1; the third ends before the scissor does
    same(page.after("picture")[1][:3], ("8 by 2 pixels of 16 bits at address 0x0", 8, 2))
    page = stepped(words(*S, C, R), 0, "--memory", "20", "--start", "18")  # the image begins before memory
    same((len(page.steps), page.films["picture"].count("<svg")), (1, 0))


@test
def steps_of_the_longest_list_are_a_small_page():
    image = 0x3F10013F00000000, 0x2D000000005003C0  # 320 by 240
    full, small = 0x364FC3BC00000000, lambda i: 0x36 << 56 | (i % 300 + 8) * 4 << 44 | (i % 200 + 8) * 4 << 32 | (i % 300) * 4 << 12 | (i % 200) * 4
    plain = len(run("report", "-", "-o", "-", stdin=words(S[0], *image, *[full] * 4093))[1])
    for given, status in (([S[0], *image, *[full] * 4093], 0), ([S[0], *image, *[w for i in range(2046) for w in (C + i * 77, full)]], 1),
                          ([S[0], *image, *[w for i in range(1364) for w in (PIPE, C + i * 65537, small(i))]], 0)):
        page = stepped(words(*given), status)
        same(len(page.steps), sum(w >> 56 == 0x36 for w in given))
        assert os.path.getsize("out.html") < 3 * plain, (os.path.getsize("out.html"), plain)


@test
def steps_are_an_option_of_report_alone():
    for command in ("draw", "dump", "check", "repair"):
        status, _, err = run(command, "--steps", "x")
        same((status, f"{command} has no option --steps" in err), (2, True))
    write("list.rdp", words(*S, C, R))
    run("report", "list.rdp", "-o", "plain.html")
    assert b"<script" not in read("plain.html")


@test
def steps_of_a_translated_list_show_the_offsets():
    write("memory", read(example("valley.bin")))
    same(run("report", "memory", "--f3dex2", "0x5600", "--steps", "-o", "out.html")[0], 0)
    source = read("out.html").decode()
    page = Steps(source)
    write("list.rdp", read(example("valley.rdp")))
    same(page.after("picture"), stepped(read(example("valley.rdp")), 0, "--memory", "memory").after("picture"))
    assert 'class="from"' in source
