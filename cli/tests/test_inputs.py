"""Lists where they are: in a part of a file, in little-endian words, in text."""
import json
import os
import random
import re
import subprocess

from support import C, LIST_COMMANDS, L, N, PIPE, R, S, TOOL, arriving, example, files, read, run, same, test, words, write

G = words(*S, R, C)
REFUSED = "9 4\nword 4: Set Fill Color requires Sync Pipe, for the Fill Rectangle at word 3\n"


def swapped(data):
    return b"".join(data[i:i + 8][::-1] for i in range(0, len(data) - len(data) % 8, 8)) + data[len(data) - len(data) % 8:]


def both(*arguments, data, name="-"):
    """The answer for a file and for a pipe, which are the same here."""
    of_file = run(*[write("input", data) if a == "-" else a for a in arguments])
    of_pipe = run(*arguments, stdin=data)
    os.remove("input")
    same(of_pipe[:2], of_file[:2], arguments)
    same(of_pipe[2], of_file[2].replace("input", "standard input"), arguments)
    return of_pipe


@test
def a_list_is_found_inside_a_file():
    rom = b"ROM" * 1001 + G + words(0x24 << 56) + b"more"
    same(both("check", "-", "--offset", "3003", "--length", "40", data=rom), (1, REFUSED, ""))
    same(both("check", "-q", "-", "--offset=0xBBB", "--length=0x20", data=rom), (0, "0 4\n", ""))
    same(both("check", "-q", "-", "--offset=3003", data=rom[:-4]), (1, "9 4\n", ""))
    same(both("check", "-q", "-", "--length=0", data=rom), (0, "0 0\n", ""))
    shown = both("dump", "-", "--offset", "3003", "--length", "40", data=rom)[1]
    same(re.sub(r"(?m)^( *\d+)  [0-9A-F]{6}", lambda m: f"{m[1]}  {8 * int(m[1]):06X}", shown), run("dump", "-", stdin=G)[1])
    same(run("repair", write("rom.bin", rom), "--offset", "3003", "--length", "40", "-o", "out.rdp")[0], 0)
    same((read("out.rdp"), read("rom.bin")), (words(*S, R, PIPE, C), rom))
    same(run("draw", "rom.bin", "--offset", "3003", "--length", "32", "--memory", "64", "-o", "out.bin")[0], 0)
    page = run("report", "rom.bin", "--offset", "3003", "--length", "40", "-o", "-")[1]
    same(page.replace("rom.bin", "x"), run("report", write("x", G), "-o", "-")[1])
    found = json.loads(run("check", "--format=sarif", "rom.bin", "--offset", "3003", "--length", "40")[1])["runs"][0]["results"][0]
    same(found["locations"][0]["physicalLocation"]["region"], {"byteOffset": 3003 + 32, "byteLength": 8})


@test
def a_part_that_is_not_there_is_no_list():
    """An empty list would pass."""
    for arguments, reason in ((["--offset", "41"], "ends before --offset"), (["--offset", "0xFFFFFFFFFFFFFFFF"], "ends before --offset"),
                              (["--length", "41"], "ends before --length bytes"), (["--offset", "8", "--length", "40"], "ends before --length bytes")):
        for command in (["check"], ["dump"], ["repair", "-o", "out"]):
            same(both(*command, "-", *arguments, data=bytes(40)), (2, "", f"lanyardrove: standard input: {reason}\n"), arguments)
    same(run("check", "-q", write("list", G), "--offset", "40"), (0, "0 0\n", ""))
    same(files(), ["list"])


@test
def a_pipe_with_an_offset_is_judged_as_it_arrives():
    same(arriving(["check", "-", "--offset", "5"], b"abc", b"de" + G[:39], G[39:]), (1, REFUSED))
    same(arriving(["check", "-", "--length", "32", "-q"], G[:31], G[31:32]), (0, "0 4\n"))
    same(arriving(["check", "-", "--swap"], swapped(G)[:33], swapped(G)[33:39], swapped(G)[39:]), (1, REFUSED))
    same(arriving(["check", "-", "--hex"], G.hex().encode()[:7], G.hex().encode()[7:]), (1, REFUSED))
    same(arriving(["check", "-q", "-", "--swap"], bytes(32768), b"x"), (1, "1 4096\n"))
    same(arriving(["check", "-q", "-", "--hex"], b"00" * 32768, b"0", b"0"), (1, "1 4096\n"))
    for option in ("--swap", "--hex"):
        done = subprocess.run(["sh", "-c", f'yes 00 | tr -d "\\n" | "$0" check -q - {option}', TOOL], capture_output=True, timeout=10)
        same((done.returncode, done.stdout), (1, b"1 4096\n"), option)


@test
def little_endian_words_are_swapped():
    rng = random.Random(7)
    for data in (G, words(*S, C, R), b"", words(R) + b"xyz", words(*[N] * 4096), bytes(rng.randrange(256) for _ in range(4001)), bytes(32769)):
        for command in ("check", "dump"):
            same(run(command, write("list", swapped(data)), "--swap")[:2], run(command, write("list", data))[:2])
            same(run(command, "-", "--swap", stdin=swapped(data))[:2], run(command, "-", stdin=data)[:2])
    same(run("repair", "-", "--swap", "-o", "out.rdp", stdin=swapped(words(*S, R, L, C)))[0], 0)
    same(read("out.rdp"), words(*S, R, PIPE, L, C))  # most significant byte first
    same(run("check", "-q", "-", "--swap", "--offset", "3", stdin=b"abc" + swapped(G))[1], "9 4\n")


@test
def text_of_hexadecimal_digits_is_read():
    lines = "# a comment: no digits\n" + "\n".join(f"0x{word:016X}, # word" for word in (*S, R, C))
    for text in (G.hex(), G.hex().upper(), lines, "\r\n".join(re.findall("..", G.hex())), G.hex("_", 4) + "\n", "\t" + G.hex(" ")):
        same(both("check", "-", "--hex", data=text.encode()), (1, REFUSED, ""), text)
    same(both("check", "-q", "-", "--hex", "--offset", "3", "--length", "40", data=(b"abc" + G + b"x").hex().encode()), (1, "9 4\n", ""))
    same(both("check", "-q", "-", "--hex", "--swap", data=swapped(G).hex().encode()), (1, "9 4\n", ""))
    same(both("check", "-q", "-", "--hex", data=b" # nothing\n"), (0, "0 0\n", ""))
    for text in ("0", "0g", "00 0", "0 0", "00;", "00\0", "x00", "0#"):
        status, out, err = both("check", "-", "--hex", data=text.encode())
        same((status, out), (2, ""), text)
        assert "hexadecimal digits" in err, (text, err)


@test
def a_list_that_looks_little_endian_gets_a_hint():
    hint = "its words look little-endian: try --swap\n"
    for data in (words(*S, 0x3700000000000036, R, N), words(*S, 0x3700000000000029, R, C)):
        turned = write("turned.rdp", swapped(data))
        same(run("check", turned)[0], 1)
        for arguments in (["check", turned], ["dump", turned], ["check", "--format=gcc", turned]):
            same(run(*arguments)[2], f"lanyardrove: turned.rdp: {hint}", arguments)
        same(run("check", turned, "--swap")[2], "")
    for name in sorted(os.listdir(example(""))):
        if name.endswith(".rdp"):
            same(run("check", example(name))[2], "", name)
    for data in (words(R), words(0x29 << 56, N), bytes(7), words(0x36, *[0x0100000000000029] * 4)):
        same(run("check", write("list", data))[2], "", data)


@test
def every_command_has_these_options():
    for command in LIST_COMMANDS:
        for option in ("--offset BYTE", "--length BYTES", "--swap", "--hex"):
            assert f"\n  {option} " in run(command, "--help")[1], (command, option)
