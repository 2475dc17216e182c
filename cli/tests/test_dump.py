"""lanyardrove dump."""
import os
import pty
import random
import re
import subprocess

from rules import NAMES, accepted_list, commands_of, fields_of, hazards_along, random_command, words_of
from support import C, FULL, L, N, ONE_CYCLE, PIPE, R, S, SET_TILE, TILE, TOOL, example, read, run, same, test, words, write

FOUR_BITS = [S[0], 0x3F00000000000000, S[2]]  # no draw may follow


def dumped(data, status=None):
    found, out, err = run("dump", "-", stdin=data)
    same(err, "")
    if status is not None:
        same(found, status)
    return out


def dumped_commands(text):
    """[place, first word, name, hazards, fields] of each command of a dump; the fields keep their order."""
    commands = []
    for line in text.split("\n"):
        head = re.match(r" *(\d+)  [0-9A-F]{6}  ([0-9A-F]{16})  (.+?) +hazards: (.*)$", line)
        if head:
            commands.append([int(head[1]), head[2], head[3], head[4], {}])
        elif re.match(r" {8}[A-Za-z]", line) and commands:
            commands[-1][4].update(re.findall(r"([A-Za-z0-9_.]+)=([^,]*)", line))
    return commands


@test
def dump_shows_names_fields_and_hazards():
    found = dumped_commands(dumped(words(*S, R, C), 1))
    same([c[:4] for c in found], [[0, "2F30000000000000", "Set Other Modes", "none"], [1, "3F10000700000000", "Set Color Image", "none"],
                                  [2, "2D00000000020010", "Set Scissor", "none"], [3, "3600800800004004", "Fill Rectangle", "none"],
                                  [4, "37000000F801003F", "Set Fill Color", "pipe draw"]])
    same(len(found[0][4]), 37)
    assert max(map(len, dumped(words(*S, R, C)).split("\n"))) <= 80
    same(found[0][4]["cycle_type"], "3 (FILL)")
    same(found[1][4], {"format": "0 (RGBA)", "size": "2 (16 bits)", "width": "7 (8 pixels)", "dramAddress": "0x0"})
    same(found[3][4], {"lower_right.x": "8 (2.00)", "lower_right.y": "8 (2.00)", "upper_left.x": "4 (1.00)", "upper_left.y": "4 (1.00)"})
    same(found[4][4], {"color": "0xF801003F"})


def notes(text):
    """Each note of a dump, in one line, with the place of the command above it."""
    found = re.findall(r"^ *(\d+)  [0-9A-F]{6}  [0-9A-F]{16}  .* hazards: .*\n {8}>> (.*(?:\n {11}\S.*)*)\n", text, re.M)
    same(len(found), text.count(">>"), text)
    return [(int(place), re.sub(r"\n {11}", " ", note)) for place, note in found]


@test
def dump_shows_the_refusal_at_its_line_and_what_follows():
    text = dumped(words(*S, R, C, L, FULL), 1)
    meaning = "word 4: Set Fill Color requires Sync Pipe, for the Fill Rectangle at word 3"
    assert text.startswith(f"9 4\n{meaning}\n"), text
    assert "        >> refused, 9 4: word 4: Set Fill Color requires Sync Pipe, for the Fill\n           Rectangle at word 3\n        color=" in text, text
    same(notes(text), [(3, "causes the refusal at word 4"), (4, f"refused, 9 4: {meaning}")])
    same([c[2:4] for c in dumped_commands(text)][5:], [["Load Tile", "pipe draw"], ["Sync Full", "pipe tile draw load"]])
    assert ">>" not in dumped(read(example("i.rdp")), 0)


@test
def dump_marks_the_command_that_the_sync_has_to_wait_for():
    triangle = [0x0F << 56, *[R] * 21]
    for given, cause, place in (([*S, *triangle, C], 3, 25), ([*S, R, *[N] * 4091, C], 3, 4095), ([*S, R, *[N] * 796, R, *[N] * 11, C], 800, 812),
                                ([*S, L, L, R], 4, 5), ([ONE_CYCLE, *S[1:], 0x25 << 56, 0, R, SET_TILE], 3, 6)):
        found = notes(dumped(words(*given), 1))
        same((found[0], [n[0] for n in found]), ((cause, f"causes the refusal at word {place}"), [cause, place]))
    same(notes(dumped(read(example("e.rdp")), 1)), [(0, "refused, 5 0: word 0: Fill Triangle (STZ) draws with other modes, colour image or scissor "
                                                        "not set in this list")])
    for name in ("d.rdp", "f.rdp"):
        same(len(notes(dumped(read(example(name)), 1))), 1, name)


@test
def dump_shows_what_is_no_whole_command():
    same(dumped(b"", 0), "0 0\naccepted: 0 words, the list is empty\n")
    assert "     0  000000  00000000000000  no whole word\n" in dumped(bytes(7), 1)
    text = dumped(read(example("d.rdp")), 1)
    assert "Fill Triangle (STZ)" in text and ">> refused, 3 0" in text and "    20  " in text and "    21  " not in text, text
    assert "=" not in text, text  # a cut command has no fields
    text = dumped(words(*S, 0x24 << 56) + b"\xAB", 1)
    assert "     4  000020  AB  no whole word\n" in text and "Texture Rectangle" in text, text
    same(dumped_commands(dumped(words(*S, R, 0x24 << 56), 1))[4][2:4], ["Texture Rectangle", "pipe draw"])  # cut, and yet the hazards before it


@test
def dump_of_a_list_that_is_too_long():
    given = [*S, *[N] * 4091, R, L, L, 0x24 << 56, 0, TILE, N]
    found = dumped_commands(run("dump", write("list.rdp", words(*given)))[1])
    same([(c[0], c[3]) for c in found[4093:]], [(4093, "none"), (4094, "none"), (4095, "pipe draw"), (4096, "pipe tile draw load"),
                                                (4097, "pipe tile draw load"), (4099, "pipe tile draw load"), (4100, "pipe")])
    status, out, _ = run("dump", write("list.rdp", words(R, *[N] * 131072)))
    found = dumped_commands(out)
    same((status, len(found), {c[3] for c in found[1:]}), (1, 131072, {"pipe draw"}))
    assert out.endswith("the list goes on after 1048576 bytes, which is all that is shown\n"), out[-200:]


def in_parts(fields):
    """The fields of a dump as document 000 has them: a number's integer part and fraction apart, without what is shown beside them."""
    for name, text in fields.items():
        value = text.split(" ")[0]
        if re.match(r"(x|dx)[lhm]", name):
            whole, fraction = divmod(round(float(value) * 65536), 65536)
            yield from ((f"{name}.i", whole), (f"{name}.f", fraction))
        elif not re.match(r"RGB_|Alpha_", name):
            yield name, int(value, 0)


@test
def dump_shows_the_fields_of_document_000():
    rng = random.Random(3)
    for number in list(range(64)) * 2:
        given = random_command(rng, number)
        fields = dumped_commands(dumped(words(*given)))[0][4]
        same(list(in_parts(fields)), fields_of(number, given), hex(number))


# The inputs of Set Combine Mode, from document 000: of each input the bits, and the names of its values; those beyond are 0.
COMMON = ["COMBINED", "TEX0", "TEX1", "PRIMITIVE", "SHADE", "ENVIRONMENT"]
INPUTS = {"RGB_A": [*COMMON, "1", "NOISE"], "RGB_B": [*COMMON, "CENTER", "K4"],
          "RGB_C": [*COMMON, "SCALE", "COMBINED_ALPHA", "TEX0_ALPHA", "TEX1_ALPHA", "PRIMITIVE_ALPHA", "SHADE_ALPHA", "ENVIRONMENT_ALPHA",
                    "LOD_FRACTION", "PRIM_LOD_FRAC", "K5"], "RGB_D": [*COMMON, "1"], "Alpha_A": [*COMMON, "1"], "Alpha_B": [*COMMON, "1"],
          "Alpha_C": ["LOD_FRACTION", *COMMON[1:], "PRIM_LOD_FRAC"], "Alpha_D": [*COMMON, "1"]}
INPUT_BITS = {"RGB_A_0": (55, 52), "RGB_C_0": (51, 47), "Alpha_A_0": (46, 44), "Alpha_C_0": (43, 41), "RGB_A_1": (40, 37), "RGB_C_1": (36, 32),
              "RGB_B_0": (31, 28), "RGB_B_1": (27, 24), "Alpha_A_1": (23, 21), "Alpha_C_1": (20, 18), "RGB_D_0": (17, 15), "Alpha_B_0": (14, 12),
              "Alpha_D_0": (11, 9), "RGB_D_1": (8, 6), "Alpha_B_1": (5, 3), "Alpha_D_1": (2, 0)}


def input_of(word, name):
    high, low = INPUT_BITS[name]
    value, names = word >> low & ((2 << high - low) - 1), INPUTS[name[:-2]]
    return names[value] if value < len(names) else "0"


@test
def dump_names_the_inputs_of_the_combiner():
    rng = random.Random(8)
    for word in [0x3C << 56 | rng.getrandbits(56) for _ in range(300)] + [0x3C << 56, 0x3CFFFFFFFFFFFFFF]:
        fields = dumped_commands(dumped(words(word)))[0][4]
        expected = {f"{part}_{cycle}": "({}-{})*{}+{}".format(*(input_of(word, f"{part}_{x}_{cycle}") for x in "ABCD"))
                    for cycle in "01" for part in ("RGB", "Alpha")}
        same({name: text for name, text in fields.items() if name != "mode"}, expected)
        same(int(fields["mode"], 0), word & (1 << 56) - 1)


@test
def dump_leaves_out_what_is_zero():
    full, brief = (dumped_commands(run("dump", example("g.rdp"), *more)[1]) for more in ([], ["--brief"]))
    same([c[:4] for c in brief], [c[:4] for c in full])
    for command, short in zip(full, brief):
        same(short[4], {name: text for name, text in command[4].items() if int(text.split(" ")[0], 0) != 0})
    triangle = dumped_commands(run("dump", "-", "--brief", stdin=words(0x08 << 56, 0x0000000100000000, 0, 0x0001000000000000))[1])[0][4]
    same(triangle, {"xl": "0.00002", "xm": "1"})


@test
def dump_shows_a_part_of_the_list():
    given = [*S, 0x24 << 56, R, *[R] * 20, L, C]
    write("list.rdp", words(*given))
    places = [c[0] for c in dumped_commands(run("dump", "list.rdp")[1])]
    hazards = {c[0]: c[3] for c in dumped_commands(run("dump", "list.rdp")[1])}
    for arguments, expected in ((["--from", "4"], [3, *range(5, 27)]), (["--to=5"], [0, 1, 2, 3, 5]), (["--from=7", "--to=0x9"], [7, 8, 9]), (["--from=99"], []),
                                (["--around", "4"], [0, 1, 2, 3, *range(5, 13)]), (["--around=20"], list(range(12, 27))), (["--around", "26"], list(range(18, 27))),
                                (["--around=0"], [0, 1, 2, 3, *range(5, 10)]), (["--around=13"], [*range(5, 22)])):
        status, out, _ = run("dump", "list.rdp", *arguments)
        found = dumped_commands(out)
        same((status, [c[0] for c in found]), (1, expected), arguments)
        same({c[0]: c[3] for c in found}, {place: hazards[place] for place in expected})
        assert out.startswith("7 25\nword 25: Load Tile requires Sync Load, for the Fill Rectangle at word 24\n"), out
    assert set(places) == {*range(27)} - {4}
    same(run("dump", "list.rdp", "--around", "27"), (2, "", "lanyardrove: list.rdp: no command has word 27\n"))
    same("no whole word" in run("dump", "-", "--to", "0", stdin=words(N, N) + b"x")[1], False)
    write("rom", bytes(100) + words(*S, R, C))
    assert "     4  000084  37000000F801003F  Set Fill Color" in run("dump", "rom", "--offset", "100")[1]


@test
def dump_says_what_a_value_means():
    tile = dumped_commands(dumped(words(0x35 << 56 | 3 << 53 | 1 << 51 | 0x1FF << 32)))[0][4]
    same((tile["format"], tile["size"], tile["address"]), ("3 (IA)", "1 (8 bits)", "0x1FF"))
    image = dumped_commands(dumped(words(0x3FFFFFFFFFFFFFFF)))[0][4]
    same(image, {"format": "7 (I)", "size": "3 (32 bits)", "width": "1023 (1024 pixels)", "dramAddress": "0x3FFFFFF"})
    same(dumped_commands(dumped(words(0x2F10 << 48)))[0][4]["cycle_type"], "1 (2-Cycle)")
    same(dumped_commands(dumped(words(0x3200100207003004)))[0][4], {
        "upper_left.s": "1 (0.25)", "upper_left.t": "2 (0.50)", "index": "7", "lower_right.s": "3 (0.75)", "lower_right.t": "4 (1.00)"})


@test
def dump_shows_signed_fields():
    triangle = words(0x0ABD3FFF20001FFF, 0x0800FFFF20000001, 0x07FF000010001234, 0x0FFF00010FFF0002, *range(8))
    text = dumped(triangle)
    found = dumped_commands(text)[0]
    same((found[2], found[4]), ("Fill Triangle (T)", {
        "shade": "0", "texture": "1", "zbuffer": "0", "lmajor": "1", "level": "7", "tile": "5", "yl": "-1 (-0.25)", "ym": "-8192 (-2048.00)",
        "yh": "8191 (2047.75)", "xl": "-2047.00002", "dxldy": "-8191.99998", "xh": "2047", "dxhdy": "4096.07111", "xm": "-0.99998",
        "dxmdy": "4095.00003"}))
    same(len(re.findall(r"^ *\d+  [0-9A-F]{6}  [0-9A-F]{16}    texture$", text, re.M)), 8)
    rectangle = words(0x2500100205003004, 0xFFFF80007FFF0001)
    found = dumped_commands(dumped(rectangle))[0]
    same((found[2], found[4]), ("Texture Rectangle Flip", {
        "lrx": "1 (0.25)", "lry": "2 (0.50)", "tile": "5", "ulx": "3 (0.75)", "uly": "4 (1.00)",
        "s": "-1 (-0.03125)", "t": "-32768 (-1024)", "dsdx": "32767 (31.99902)", "dtdy": "1 (0.00098)"}))
    same(dumped_commands(dumped(words(0x370000000000003F)))[0][4], {"color": "0x0000003F"})


@test
def dump_names_every_command_number():
    same(len(NAMES), 64)
    for number in range(64):
        found = dumped_commands(dumped(words(number << 56, *[0] * (words_of(number) - 1), 0)))
        same([(c[0], c[2]) for c in found], [(0, NAMES[number]), (words_of(number), "No Operation")], hex(number))


@test
def dump_shows_the_words_of_every_command():
    rng = random.Random(4)
    given = [word for number in range(64) for bits in range(4) for word in random_command(rng, number, bits)]
    text = dumped(words(*given), 1)
    same([(c[0], c[2]) for c in dumped_commands(text)], [(place, NAMES[number]) for place, number in commands_of(given)])
    same([int(word, 16) for word in re.findall(r"^ *\d+  [0-9A-F]{6}  ([0-9A-F]{16})", text, re.M)], given)
    same([int(byte, 16) for byte in re.findall(r"^ *\d+  ([0-9A-F]{6})  [0-9A-F]{16}", text, re.M)], list(range(0, 8 * len(given), 8)))


def dumped_hazards(given, status):
    """The hazards before each command of a dump."""
    return [set(c[3].split()) - {"none"} for c in dumped_commands(dumped(words(*given), status))]


@test
def dump_shows_the_hazards_of_document_01():
    rng = random.Random(1)
    modes = [ONE_CYCLE, S[1], S[2]]
    for setup, commands in ((modes, 150), (modes, 150), ([], 60)):
        given = accepted_list(rng, setup, commands)
        same(dumped_hazards(given, 0), hazards_along(given))
    found = [c[3] for c in dumped_commands(dumped(words(*FOUR_BITS, L, N), 0))]
    same(found, ["none"] * 4 + ["tile load"])
    found = [c[3] for c in dumped_commands(dumped(words(*modes, 0x24 << 56, 0, TILE, L, PIPE, *FOUR_BITS[:2], L, N, FULL), 0))]
    same(found, ["none"] * 4 + ["pipe tile draw", "pipe", "pipe tile load", "none", "none", "none", "tile load", "tile load"])


@test
def dump_shows_the_hazards_after_a_refusal():
    rng = random.Random(5)
    for first in (R, FULL, 0x0F << 56):  # each refused where it stands or right after
        given = [first, *[0] * (words_of(first >> 56) - 1)]
        for _ in range(300):
            given += random_command(rng, rng.randrange(64))
        same(dumped_hazards(given, 1), hazards_along(given))


@test
def dump_of_the_longest_list():
    found = dumped_commands(dumped(words(L, *[N] * 4095), 0))
    same((len(found), {c[3] for c in found[1:]}), (4096, {"tile load"}))
    found = dumped_commands(dumped(words(*FOUR_BITS, *[N] * 4090, L, N, N), 0))
    same([c[3] for c in found[4093:]], ["none", "tile load", "tile load"])
    found = dumped_commands(dumped(words(*S, *[N] * 4090, R, L, C), 1))  # each of the last two misses a sync
    same([c[3] for c in found[4093:]], ["none", "pipe draw", "pipe tile draw load"])


def on_a_terminal(env):
    """What dump writes to a terminal."""
    terminal, end = pty.openpty()
    done = subprocess.Popen([TOOL, "dump", example("g.rdp")], stdout=end, env=env)
    os.close(end)
    text = b""
    try:
        while part := os.read(terminal, 4096):
            text += part
    except OSError:  # the other end is closed
        pass
    done.wait()
    os.close(terminal)
    return text.decode().replace("\r\n", "\n")


@test
def dump_has_colour_on_a_terminal_only():
    env = {**{name: value for name, value in os.environ.items() if name != "NO_COLOR"}, "TERM": "xterm"}
    plain = run("dump", example("g.rdp"), env=env)[1]
    coloured = on_a_terminal(env)
    assert "\033" not in plain and "\033[1;31m" in coloured, coloured
    same(re.sub(r"\033\[[0-9;]*m", "", coloured), plain)
    same(on_a_terminal({**env, "NO_COLOR": ""}), coloured)  # by its convention, empty is unset
    same(on_a_terminal({**env, "NO_COLOR": "1"}), plain)
    same(on_a_terminal({**env, "TERM": "dumb"}), plain)
    same(on_a_terminal({name: value for name, value in env.items() if name != "TERM"}), plain)
