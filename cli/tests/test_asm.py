"""lanyardrove asm, and the text that dump --asm prints for it."""
import os
import random
import re
import subprocess

from rules import NAMES, commands_of, fields_of, random_command, vectors, words_of
from support import C, FULL, R, S, TOOL, example, files, read, refuses_a_terminal, run, same, test, words, write

MNEMONICS = [f"unassigned_{number:02x}" if name == "Unassigned" else re.sub(r"[()]", "", name).replace(" ", "_").lower() for number, name in enumerate(NAMES)]


def text_of(data, *options):
    return subprocess.run([TOOL, "dump", "--asm", *options, "-"], input=data, capture_output=True, timeout=60).stdout


def assembled(text, status=0):
    done = subprocess.run([TOOL, "asm", "-"], input=text, capture_output=True, timeout=60)
    same((done.returncode, done.stderr), (status, b""))
    return done.stdout


def encoded(number, values):
    """The words of a command by document 000's bit lists, from the values of some of its fields; unused bits are zero."""
    out = [number << 56, *[0] * (words_of(number) - 1)]
    for word, high, low, _, name in vectors.LAYOUT[number]:
        out[word] |= (values.get(name, 0) & ((2 << high - low) - 1)) << low
    return out


def extremes(number):
    """For each field of a command its least and greatest value and those beside 0, the others 0 and then at their greatest."""
    limits = {name: (-(1 << high - low) if signed else 0, (1 << high - low + (not signed)) - 1) for _, high, low, signed, name in vectors.LAYOUT[number]}
    fixed = {name: number >> 2 - i & 1 for i, name in enumerate(("shade", "texture", "zbuffer"))} if 8 <= number < 16 else {}
    yield fixed
    for others in ({}, {name: most for name, (_, most) in limits.items()}):
        for name, (least, most) in limits.items():
            for value in {least, max(least, -1), min(1, most), most}:
                yield {**others, name: value, **fixed}


def lists_of_extremes():
    """Lists of up to 4,096 words with every command and every extreme of its fields; a triangle's further words are random."""
    rng, given = random.Random(1), []
    for number in range(64):
        for values in extremes(number):
            command = encoded(number, values)
            if len(command) > 4:
                command[4:] = [rng.choice((0, (1 << 64) - 1, 1 << 63, rng.getrandbits(64))) for _ in command[4:]]
            if len(given) + len(command) > 4096:
                yield given
                given = []
            given = given + command
    yield given


@test
def every_command_and_every_extreme_of_its_fields_comes_back():
    numbers, count = set(), 0
    for given in lists_of_extremes():
        data = words(*given)
        for options in ([], ["--brief"]):
            text = text_of(data, *options)
            assert b"unused." not in text and b"\nword " not in text, text
            same(assembled(text), data)
        numbers |= {number for _, number in commands_of(given)}
        count += len(list(commands_of(given)))
    same(numbers, set(range(64)))
    assert count > 1500, count


@test
def the_examples_come_back():
    names = [name for name in sorted(os.listdir(example(""))) if name.endswith(".rdp") and len(read(example(name))) % 8 == 0]
    assert len(names) > 15, names
    for name in names:
        for options in ([], ["--brief"]):
            text = run("dump", "--asm", *options, example(name))[1]
            assert max(map(len, [line for line in text.split("\n") if not line.startswith("#")])) <= 80, name
            same(run("asm", write("text", text.encode()), "-o", "out.rdp"), (0, "", ""))
            same(read("out.rdp"), read(example(name)), name)


@test
def lists_with_unused_bits_come_back_too():
    rng = random.Random(2)
    for _ in range(20):
        given = [word for _ in range(60) for word in random_command(rng, rng.randrange(64))]
        same(assembled(text_of(words(*given))), words(*given))
    same(text_of(words(0xE7 << 56 | 1)).decode().split("\n")[2:], ["sync_pipe                       # word 0", "    unused.0=0xC000000000000001", ""])


@test
def the_text_has_each_command_with_its_fields():
    rng = random.Random(3)
    for number in range(64):
        given = random_command(rng, number, 0)
        text = re.sub(r"#.*", "", text_of(words(*given)).decode())
        name, *items = text.replace(",", " ").split()
        same(name, MNEMONICS[number])
        found = [item.split("=") for item in items if "=" in item and not item.startswith("unused.")]
        same([(field, int(value, 0)) for field, value in found], fields_of(number, given), name)
        same([int(item, 16) for item in items if "=" not in item], given[4:])


@test
def the_text_says_what_is_no_command():
    head = run("dump", "--asm", "--brief", write("list.rdp", words(*S, R, C, 0x24 << 56) + b"\xAB"))[1]
    assert "# refused" not in head, head  # 2 is of the whole list
    assert head.startswith("# 2 6\n# the length of 49 bytes is no multiple of 8\n") and head.endswith("\nword 0x2400000000000000\n# no whole word: AB\n"), head
    text = text_of(words(*S, R, C), "--brief").decode()
    assert text.startswith("# 9 4\n# word 4: Set Fill Color requires Sync Pipe, for the Fill Rectangle at word 3\n") and "\n# refused, 9 4:\nset_fill_color " in text, text
    same(text_of(b""), b"# 0 0\n# accepted: 0 words, the list is empty\n")
    same(assembled(text_of(b"")), b"")
    part = run("dump", "--asm", "--from", "3", "--to", "3", example("g.rdp"))[1]
    same(assembled(part.encode()), words(R))
    same(assembled(run("dump", "--asm", "--around", "4", example("g.rdp"))[1].encode()), read(example("g.rdp")))
    assert "# word 0, offset 0x5600\n" in run("dump", "--asm", example("valley.bin"), "--f3dex2", "0x5600")[1]
    same(assembled(run("dump", "--asm", example("valley.bin"), "--f3dex2", "0x5600")[1].encode()), read(example("valley.rdp")))


@test
def text_may_be_written_in_many_ways():
    for text, expected in (("", []), ("# nothing", []), (" \n\t,\r\n#\n", []), ("sync_full", [FULL]), ("sync_full#sync_pipe\n", [FULL]),
                           ("set_fill_color color=0xF801003F", [C]), ("set_fill_color color = 0Xf801003f", [C]),
                           ("set_fill_color\n# a comment\n\n\tcolor=4160815167 # another\n", [C]),
                           ("no_operation unassigned_01,unassigned_31 no_operation", [0, 1 << 56, 0x31 << 56, 0]),
                           ("fill_rectangle upper_left.y=4, upper_left.x=4\nlower_right.y=8 lower_right.x=8 sync_full", [R, FULL]),
                           ("texture_rectangle s=-1 t=-0x8000", [0x24 << 56, 0xFFFF800000000000]),
                           ("fill_triangle_z zbuffer=1 yl=-8192 1 -1", [0x0900200000000000, 0, 0, 0, 1, (1 << 64) - 1]),
                           ("word 1 0xFFFFFFFFFFFFFFFF\n2 word 3", [1, (1 << 64) - 1, 2, 3]), ("word", [])):
        same(assembled(text.encode()), words(*expected), text)


ERRORS = (
    ("sync_pip", "1:1: error: 'sync_pip' is no command; did you mean sync_pipe?"),
    ("sync_full\n  Sync_Pipe x=1 2\nsync_full", "2:3: error: 'Sync_Pipe' is no command; did you mean sync_pipe?"),
    ("fil_rectange", "1:1: error: 'fil_rectange' is no command; did you mean fill_rectangle?"),
    ("set_other_modes_now", "1:1: error: 'set_other_modes_now' is no command"),
    ("modes", "1:1: error: 'modes' is no command"),
    ("x" * 5000, f"1:1: error: '{64 * 'x'}' is no command"),
    ("color=5", "1:1: error: 'color' belongs to no command"),
    ("\n\n 5", "3:2: error: '5' belongs to no command"),
    ("set_fill_color colour=5", "1:16: error: set_fill_color has no field 'colour'; it has color"),
    ("texture_rectangle lower_right.x=5", "1:19: error: texture_rectangle has no field 'lower_right.x'; it has lrx, lry, tile, ulx, uly, s, t, dsdx, dtdy"),
    ("sync_full x=1", "1:11: error: sync_full has no fields"),
    ("set_fill_color color=5,\n color=6", "2:2: error: 'color' is given twice"),
    ("set_fill_color color=0x100000000", "1:22: error: color=0x100000000: not from 0 to 4294967295 [15]"),
    ("set_fill_color color=-1", "1:22: error: color=-1: not from 0 to 4294967295 [15]"),
    ("set_other_modes cycle_type=4", "1:28: error: cycle_type=4: not from 0 to 3 [15]"),
    ("set_other_modes atomic_prim=2", "1:29: error: atomic_prim=2: not from 0 to 1 [15]"),
    ("texture_rectangle s=32768", "1:21: error: s=32768: not from -32768 to 32767 [15]"),
    ("texture_rectangle s=-32769", "1:21: error: s=-32769: not from -32768 to 32767 [15]"),
    ("set_combine_mode mode=0x100000000000000", "1:23: error: mode=0x100000000000000: not from 0 to 72057594037927935 [15]"),
    ("fill_triangle_z zbuffer=0 1 2", "1:25: error: zbuffer=0: not 1 [15]"),
    ("fill_triangle shade=1", "1:21: error: shade=1: not 0 [15]"),
    ("fill_triangle_z 1", "1:1: error: fill_triangle_z needs 2 words after its fields, not 1 [15]"),
    ("fill_triangle_z 1 2 3", "1:21: error: fill_triangle_z has 2 words after its fields, and no more [15]"),
    ("sync_full 0", "1:11: error: sync_full has 0 words after its fields, and no more [15]"),
    ("set_fill_color color=x", "1:22: error: 'x' is no number of 64 bits"),
    ("set_fill_color color=0x", "1:22: error: '0x' is no number of 64 bits"),
    ("set_fill_color color=18446744073709551616", "1:22: error: '18446744073709551616' is no number of 64 bits"),
    ("word 1 12g", "1:8: error: '12g' is no number of 64 bits"),
    ("word a=1", "1:6: error: word has no fields"),
    ("sync_full\0", "1:1: error: no text: it has bytes that are 0, as a list has"),
    ("sync_full = 3 word 1", "1:1: error: 'sync_full' belongs to no command"),
    ("set_fill_color color= # 5", "1:16: error: a field is NAME=VALUE"),
    ("sync_full =5", "1:1: error: 'sync_full' belongs to no command"),
    ("sync_full unused.1=1", "1:11: error: unused.1: not the index of a word with fields, 0 to 0"),
    ("fill_triangle unused.4=1", "1:15: error: unused.4: not the index of a word with fields, 0 to 3"),
    ("set_fill_color color=0 unused.0=1", "1:1: error: unused bits of set_fill_color belong to a field"),
    ("sync_full unused.0=0x0100000000000000", "1:1: error: unused bits of sync_full belong to a field"),
    ("set_tile \x1b[31m=1", "1:10: error: set_tile has no field '\\x1B[31m'; it has " + ", ".join(name for *_, name in vectors.LAYOUT[0x35])),
    ("set_other_modes x=1", "1:17: error: set_other_modes has no field 'x'; it has " + ", ".join(name for *_, name in vectors.LAYOUT[0x2F])),
)


@test
def errors_are_told_as_compilers_do():
    for text, expected in ERRORS:
        name = write("a list.asm", text.encode())
        same(run("asm", name, "-o", "out.rdp"), (1, "", f"a list.asm:{expected}\n"), text)
        same(run("asm", "-", stdin=text.encode()), (1, "", f"-:{expected}\n"), text)
        same(files(), ["a list.asm"])


@test
def every_error_is_told():
    text = b"sync_full x=1 y=2\nfoo z=1 3\nset_tile size=4 format=8\nfill_triangle_z\nsync_pipe"
    status, out, err = run("asm", "-", stdin=text)
    same((status, out), (1, ""))
    same([line.split(" error: ")[0] for line in err.split("\n")[:-1]], ["-:1:11:", "-:1:15:", "-:2:1:", "-:3:15:", "-:3:24:", "-:4:1:"])


@test
def each_range_is_that_of_document_000():
    for number in range(64):
        for word, high, low, signed, name in vectors.LAYOUT[number]:
            least, most = (-(1 << high - low), (1 << high - low) - 1) if signed else (0, (2 << high - low) - 1)
            if name in ("shade", "texture", "zbuffer"):
                continue
            name = "index" if (number, name) == (0x32, "tile") else name
            suffix = " ".join(["0"] * (words_of(number) - 4)) if 8 <= number < 16 else ""
            text = f"{MNEMONICS[number]} {name}={most + 1} {suffix}"
            assert f": {name}={most + 1}: not from {least} to {most} [15]" in run("asm", "-", stdin=text.encode())[2], text
            same(run("asm", "-", stdin=f"{MNEMONICS[number]} {name}={least - 1} {suffix}".encode())[0], 1)


@test
def an_output_is_written_whole_or_not_at_all():
    write("list.asm", b"sync_full")
    same(run("asm", "list.asm", "-o", "out.rdp"), (0, "", ""))
    same(read("out.rdp"), words(FULL))
    write("list.asm", b"sync_full\nx")
    same(run("asm", "list.asm", "-o", "out.rdp")[0], 1)
    same(read("out.rdp"), words(FULL))
    same(run("asm", "gone.asm", "-o", "out.rdp"), (2, "", "lanyardrove: gone.asm: No such file or directory\n"))
    status, out, err = run("asm", "list.asm", "-o", "list.asm")
    same((status, out), (2, ""))
    assert "the output is the text itself" in err, err
    same(run("asm", "-", "-o", "gone/out.rdp", stdin=b"sync_full")[0], 2)
    same(files(), ["list.asm", "out.rdp"])


@test
def a_list_does_not_reach_a_terminal():
    write("list.asm", b"sync_full")
    refuses_a_terminal("asm", "list.asm")


@test
def every_text_is_assembled_or_told():
    rng = random.Random(5)
    text = text_of(words(*[word for number in (0, 1, 9, 0x24, 0x27, 0x2F, 0x35, 0x3F) for word in random_command(rng, number)]))
    for _ in range(150):
        given = bytearray(text)
        for _ in range(rng.randrange(1, 6)):
            at = rng.randrange(len(given))
            given[at:at + rng.randrange(4)] = rng.choice((b"", b"=", b",", b"#", b"\n", b"-", b"x", b"0", b"word ", b"unused.0=", bytes([rng.randrange(256)])))
        done = subprocess.run([TOOL, "asm", "-"], input=bytes(given), capture_output=True, timeout=60)
        lines = done.stderr.decode("latin-1").split("\n")[:-1]
        assert done.returncode in (0, 1) and (done.returncode == 1) == bool(lines) and (done.returncode == 0) >= bool(done.stdout), (bytes(given), done)
        assert all(re.fullmatch(r"-:\d+:\d+: error: .+", line) for line in lines), lines
        same(len(done.stdout) % 8, 0)
