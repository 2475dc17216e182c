"""lanyardrove edit (document 02, #111): one command is replaced by another of equal length."""
import random

from rules import NAMES, hazards_along, random_command, words_of
from support import C, FULL, L, N, PIPE, R, S, TEXELS, files, read, run, same, test, words, write
from test_asm import text_of
from test_dump import dumped_commands

RECTANGLE = [0x2401000800004004, 0x0000000010000400]


def digits(word):
    return f"{word:016X}"


@test
def edit_replaces_one_command():
    write("in.rdp", words(*S, R, N, C))
    text = "0 4\nword 4: Sync Pipe in place of No Operation, hazards before: pipe draw\nthe list now: 0 6, accepted: 6 words\n"
    same(run("edit", "in.rdp", "4", digits(PIPE), "-o", "out.rdp"), (0, text, ""))
    same(read("out.rdp"), words(*S, R, PIPE, C))
    same(run("edit", "out.rdp", "0x4", "0x" + digits(N).lower(), "-i"), (
        0, "0 4\nword 4: No Operation in place of Sync Pipe, hazards before: pipe draw\n"
        "the list now: 9 5, word 5: Set Fill Color requires Sync Pipe, for the Fill Rectangle at word 3\n", ""))
    same(read("out.rdp"), read("in.rdp"))
    same(files(), ["in.rdp", "out.rdp"])


@test
def edit_replaces_commands_of_many_words():
    given = [*S, *RECTANGLE, *TEXELS, 0x0F00000000000000, *range(1, 22), L]
    new = [0x0F80000000000001, *range(100, 121)]
    write("in.rdp", words(*given))
    status, out, err = run("edit", "in.rdp", "7", *map(digits, new), "-o", "out.rdp")
    same((status, err), (0, ""))
    same(read("out.rdp"), words(*given[:7], *new, L))
    same(out.split("\n")[1], f"word 7: {NAMES[15]} in place of {NAMES[15]}, hazards before: pipe tile draw")
    same(run("edit", "in.rdp", "3", *map(digits, reversed(RECTANGLE)), "-o", "out.rdp")[0], 2)  # a no operation, and a word more


@test
def edit_says_what_its_refusals_mean():
    write("in.rdp", words(*S, *RECTANGLE, C))
    write("cut.rdp", words(*S, RECTANGLE[0]))
    write("empty.rdp", b"")
    write("odd.rdp", words(N) + b"1")
    for name, place, command, answer, text in (
            ("in.rdp", 4, [N], "24 4", "word 4: no command starts there, inside the Texture Rectangle at word 3"),
            ("in.rdp", 6, [N], "24 6", "word 6: the list has 6 words"),
            ("in.rdp", 0xFFFFFFFF, [N], "24 4294967295", "word 4294967295: the list has 6 words"),
            ("in.rdp", 3, RECTANGLE[:1], "3 3", "the new command, Texture Rectangle, has 2 words; given: 1"),
            ("in.rdp", 3, [PIPE], "25 3", "word 3: Texture Rectangle has 2 words, the new command, Sync Pipe, 1"),
            ("in.rdp", 5, RECTANGLE, "25 5", "word 5: Set Fill Color has 1 word, the new command, Texture Rectangle, 2"),
            ("cut.rdp", 0, [N], "3 3", "word 3: Texture Rectangle runs past the end of the list"),
            ("empty.rdp", 0, [N], "26 0", "the list is empty"),
            ("odd.rdp", 0, [N], "2 1", "the length of 9 bytes is no multiple of 8")):
        same(run("edit", name, str(place), *map(digits, command), "-o", "out.rdp"), (1, f"{answer}\n{text}\n", ""), text)
    same(files(), ["cut.rdp", "empty.rdp", "in.rdp", "odd.rdp"])
    same(run("edit", write("long.rdp", bytes(32776)), "0", digits(N), "-o", "out.rdp"), (1, "1 4096\nthe list is over 32,768 bytes\n", ""))


@test
def edit_writes_to_standard_output():
    status, out, err = run("edit", "-", "0", digits(PIPE), stdin=words(N, N))
    same((status, out.encode("latin-1")), (0, words(PIPE, N)))
    same(err, "0 0\nword 0: Sync Pipe in place of No Operation, hazards before: none\nthe list now: 0 2, accepted: 2 words\n")
    same(run("edit", "nowhere", "0", digits(N), "-o", "out.rdp"), (2, "", "lanyardrove: nowhere: No such file or directory\n"))
    write("part.bin", b"1234" + words(N, N) + b"5")
    same(run("edit", "part.bin", "1", digits(PIPE), "--offset=4", "--length=16", "-o", "out.rdp")[0], 0)
    same(read("out.rdp"), words(N, PIPE))


@test
def edit_finds_every_command_of_long_lists():
    rng = random.Random(111)
    given, places = [], []
    while len(given) < 600:
        number = rng.choice([0x00, 0x08, 0x24, 0x26, 0x27, 0x28, 0x33, 0x36, 0x37])
        places.append(len(given))
        given += [number << 56, *(rng.getrandbits(64) for _ in range(words_of(number) - 1))]
    write("in.rdp", words(*given))
    for place in rng.sample(places, 30):
        new = [given[place] | 1 << 40, *given[place + 1:place + words_of(given[place] >> 56)]]
        same(run("edit", "in.rdp", str(place), *map(digits, new), "-o", "out.rdp")[0], 0, place)
        same(read("out.rdp"), words(*given[:place], *new, *given[place + len(new):]), place)


@test
def edit_takes_a_command_as_text():
    write("in.rdp", words(*S, R, N, C))
    text = "0 4\nword 4: Sync Pipe in place of No Operation, hazards before: pipe draw\nthe list now: 0 6, accepted: 6 words\n"
    for command, expected in ((["sync_pipe"], PIPE), (["sync_pipe # and more"], PIPE), (["set_fill_color", "color=0xF801003F"], C), (["set_fill_color color=4160815167"], C),
                              (["word", f"0x{digits(PIPE)}"], PIPE), (["unassigned_31"], 0x31 << 56)):
        status, out, err = run("edit", "in.rdp", "4", *command, "-o", "out.rdp")
        same((status, err, read("out.rdp")), (0, "", words(*S, R, expected, C)), command)
        assert expected != PIPE or out == text, out
    same(run("edit", "in.rdp", "3", "texture_rectangle s=-1", "-o", "out.rdp")[:2], (
        1, "25 3\nword 3: Fill Rectangle has 1 word, the new command, Texture Rectangle, 2\n"))
    same(run("edit", "in.rdp", "3", "word", f"0x{digits(RECTANGLE[0])}", "-o", "out.rdp")[:2], (1, "3 3\nthe new command, Texture Rectangle, has 2 words; given: 1\n"))
    same(read("in.rdp"), words(*S, R, N, C))


@test
def errors_in_the_text_of_a_command_are_told():
    write("in.rdp", words(*S, R, N, C))
    for command, reason in ((["sync_pip"], "1:1: error: 'sync_pip' is no command; did you mean sync_pipe?"),
                            (["set_fill_color", "colour=5"], "1:16: error: set_fill_color has no field 'colour'; it has color"),
                            (["set_other_modes cycle_type=4"], "1:28: error: cycle_type=4: not from 0 to 3 [15]"),
                            (["fill_triangle_z", "1"], "1:1: error: fill_triangle_z needs 2 words after its fields, not 1 [15]"), (["g" + "0" * 15], f"1:1: error: 'g{'0' * 15}' is no command")):
        status, out, err = run("edit", "in.rdp", "4", *command, "-o", "out.rdp")
        same((status, out, err), (2, "", f"COMMAND:{reason}\nlanyardrove: the command cannot be read\nTry 'lanyardrove edit --help'.\n"))
    same(files(), ["in.rdp"])


@test
def a_command_that_is_dumped_is_put_back():
    rng = random.Random(112)
    for number in range(64):
        old, new = random_command(rng, number), random_command(rng, number)
        write("in.rdp", words(*S, *old, FULL))
        same(run("edit", "in.rdp", "3", text_of(words(*new)).decode().split("\n", 2)[2], "-o", "out.rdp")[0], 0, hex(number))
        same(read("out.rdp"), words(*S, *new, FULL), hex(number))


@test
def the_index_and_dump_have_the_same_hazards():
    """edit asks the library's index, dump goes step by step, and rules.py has document 01's."""
    rng = random.Random(113)
    given, places = [], []
    for _ in range(200):
        places.append(len(given))
        given += random_command(rng, rng.choice([0x08, 0x0A, 0x24, 0x26, 0x27, 0x28, 0x29, 0x33, 0x34, 0x35, 0x36, 0x37]))
    write("in.rdp", words(*given))
    expected = dict(zip(places, hazards_along(given)))
    for place in rng.sample(places, 25):
        count = words_of(given[place] >> 56 & 63)
        out = run("edit", "in.rdp", str(place), *map(digits, given[place:place + count]), "-o", "out.rdp")[1]
        asked = out.split("hazards before: ")[1].split("\n")[0]
        shown = next(c[3] for c in dumped_commands(run("dump", "in.rdp", "--around", str(place))[1]) if c[0] == place)
        same((asked, set(asked.split()) - {"none"}), (shown, expected[place]), place)
