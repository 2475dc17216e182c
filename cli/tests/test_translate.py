"""lanyardrove translate (document 02, #108): display lists of Fast3DEX2."""
import json
import os
import random
import re
import struct
import subprocess

from support import C, R, S, TOOL, TOP, example, files, png_pixels, read, run, same, test, words, write
from test_report import Page

END = 0xDF << 56
UNREADABLE = "no multiple of 8, or its command is not all inside memory"
CIRCLES = "the 4,097th command: the display list may go in circles"
UNKNOWN = "no command that becomes one of the RDP, or a half-word (E1, F1) is missing or out of place"
SETTING = "a ninth call deep, an address whose first byte is not 00, a parameter of DE other than 00 and 01, or a shift and count outside 32 bits"


@test
def translate_writes_the_list():
    same(run("translate", example("valley.bin"), "--start", "0x5600", "-o", "valley.rdp"), (
        0, "0 134\ntranslated: 134 words; display list commands read: 198\n", ""))
    same(read("valley.rdp"), read(example("valley.rdp")))
    write("memory.bin", words(0, 0xE7 << 56, END))
    same(run("translate", "memory.bin", "--start", "8", "-o", "one.rdp"), (0, "0 1\ntranslated: 1 word; display list commands read: 2\n", ""))
    same(read("one.rdp"), words(0x27 << 56))
    same(run("translate", write("memory.bin", words(END)), "-o", "none.rdp"), (0, "0 0\ntranslated: 0 words; display list commands read: 1\n", ""))
    same(read("none.rdp"), b"")


@test
def translate_writes_whole_modes_calls_and_half_words():
    """0xE3 and 0xE2 set the cycle type and the low word's two lowest bits; then a list is called, and one gone to for good."""
    memory = [0xE3000A0100300000, 0xE2001E0100000003, 0xDE00000000000028, 0xDE01000000000048, END,
              0xE401000800004004, 0xE100000000200040, 0xF100000010000400, END, 0xE9 << 56, END]
    same(run("translate", write("memory.bin", words(*memory)), "-o", "out.rdp")[1], "0 5\ntranslated: 5 words; display list commands read: 10\n")
    same(read("out.rdp"), words(0x2F30000000000000, 0x2F30000000000003, 0x2401000800004004, 0x0020004010000400, 0x29 << 56))


@test
def translate_says_what_its_refusals_mean():
    for memory, start, answer, text in (
            (words(END), 4, "20 4", f"offset 0x4: {UNREADABLE}; commands read before: 0"),
            (words(0xE7 << 56), 0, "20 8", f"offset 0x8: {UNREADABLE}; commands read before: 1"),
            (words(END)[:7], 0, "20 0", f"offset 0x0: {UNREADABLE}; commands read before: 0"),
            (b"", 0xFFFFFFF8, "20 4294967288", f"offset 0xFFFFFFF8: {UNREADABLE}; commands read before: 0"),
            (words(0xDE01 << 48), 0, "21 0", f"offset 0x0 (DE01000000000000): {CIRCLES}; commands read before: 4096"),
            (words(0, 0xD9 << 56), 8, "22 8", f"offset 0x8 (D900000000000000): {UNKNOWN}; commands read before: 0"),
            (words(0xE4 << 56, END), 0, "22 8", f"offset 0x8 (DF00000000000000): {UNKNOWN}; commands read before: 1"),
            (words(0xE1 << 56), 0, "22 0", f"offset 0x0 (E100000000000000): {UNKNOWN}; commands read before: 0"),
            (words(0xDE << 56), 0, "23 0", f"offset 0x0 (DE00000000000000): {SETTING}; commands read before: 8"),
            (words(0xFF10000780000000), 0, "23 0", f"offset 0x0 (FF10000780000000): {SETTING}; commands read before: 0"),
            (words(0xDE02 << 48), 0, "23 0", f"offset 0x0 (DE02000000000000): {SETTING}; commands read before: 0"),
            (words(0xE200200000000000), 0, "23 0", f"offset 0x0 (E200200000000000): {SETTING}; commands read before: 0")):
        done = run("translate", write("memory.bin", memory), "--start", str(start), "-o", "out.rdp")
        same(done, (1, f"{answer}\n{text}\n", ""), answer)
    same(files(), ["memory.bin"])


@test
def translate_reads_and_writes_pipes():
    line = '"$0" translate - --start 0x5600 -o - < "$1" | "$0" check -'
    done = subprocess.run(["bash", "-c", line, TOOL, example("valley.bin")], capture_output=True)
    same((done.returncode, done.stdout, done.stderr), (
        0, b"0 134\naccepted: 134 words\n", b"0 134\ntranslated: 134 words; display list commands read: 198\n"))
    same(run("translate", write("memory.bin", words(END)), "-o", "/dev/stdout"), (0, "", "0 0\ntranslated: 0 words; display list commands read: 1\n"))


@test
def translate_tells_files_that_it_cannot_read_or_write():
    write("memory.bin", words(END))
    same(run("translate", "nowhere", "-o", "out.rdp"), (2, "", "lanyardrove: nowhere: No such file or directory\n"))
    same(run("translate", "memory.bin", "-o", "missing/out.rdp"), (2, "", "lanyardrove: missing/out.rdp: No such file or directory\n"))
    status, out, err = run("translate", "memory.bin", "-o", os.path.abspath("memory.bin"))
    same((status, out), (2, ""))
    assert "the output is the memory itself" in err, err
    same((files(), read("memory.bin")), (["memory.bin"], words(END)))


VALLEY = [example("valley.bin"), "--f3dex2", "0x5600"]


@test
def other_commands_translate_what_they_read():
    given = example("valley.rdp")
    for arguments in (["check"], ["check", "-v"], ["check", "--all"], ["check", "--format=gcc"]):
        same(run(*arguments, *VALLEY), run(*arguments, given), arguments)
    same(run("check", "-", "--f3dex2=0x5600", stdin=read(VALLEY[0])), run("check", given))
    picture = png_pixels(read(os.path.join(TOP, "docs", "picture-copy.png")))
    same(run("draw", *VALLEY, "-o", "valley.png"), run("draw", given, "--memory", VALLEY[0], "-o", "valley.png"))  # into the memory that it lies in
    same(run("draw", *VALLEY, "-o", "valley.png")[0], 0)
    same(png_pixels(read("valley.png")), picture)
    same(run("draw", *VALLEY, "--memory", "22016", "-o", "zeros.bin")[0], 0)
    same(read("zeros.bin")[0x5000:], bytes(1536))
    same(run("report", *VALLEY, "-o", "valley.html"), (0, "", ""))
    same(Page(read("valley.html").decode()).picture(), picture)
    status, out, err = run("draw", "-", "--f3dex2=0x5600", "-o", "x.png", stdin=read(VALLEY[0]))
    same((status, out), (2, ""))
    assert "draw needs --memory" in err, err


def offsets_along(memory, start):
    """For each word of the list that a display list stands for, the offset of the command that it comes from: by 02's #108."""
    at, returns, found = start, [], []
    while True:
        word = struct.unpack(">Q", memory[at:at + 8])[0]
        number, parameter = word >> 56, word >> 48 & 255
        if number == 0xDE:
            returns += [at + 8] if parameter == 0 else []
            at = word & 0xFFFFFFFF
        elif number == 0xDF:
            if not returns:
                return found
            at = returns.pop()
        else:
            rectangle = number in (0xE4, 0xE5)
            found += [at] * (2 if rectangle else 1)
            at += 24 if rectangle else 8


def dumped_offsets(*arguments):
    """The places and offsets of the words that a dump shows."""
    lines = run("dump", *arguments)[1].split("\n")
    assert " place  offset  word              command" in lines, lines[:5]
    return [(int(found[1]), int(found[2], 16)) for found in (re.match(r" *(\d+)  ([0-9A-F]{6,})  [0-9A-F]{16}", line) for line in lines) if found]


@test
def dump_shows_the_offset_of_every_word():
    same(dumped_offsets(*VALLEY), list(enumerate(offsets_along(read(VALLEY[0]), 0x5600))))
    given, found = (run("dump", "--brief", *arguments)[1].split("\n") for arguments in ([example("valley.rdp")], VALLEY))
    same([line[:8] + line[14:] for line in found], [line[:8] + line[14:].replace("  byte  ", "offset  ") for line in given])


def random_display(rng):
    """Lists that call later ones, and go to one for good at their ends."""
    lists, at = [], 0
    for index in range(rng.randrange(1, 7)):
        commands = [rng.choice(([0xE7], [0xF7], [0xFA], [0xE4, 0xE1, 0xF1], [0xE5, 0xE1, 0xF1], [0xDE])) for _ in range(rng.randrange(9))]
        lists.append((at, sum(commands, []) + [rng.choice((0xDE01, 0xDF))]))
        at += 8 * len(lists[-1][1])
    lists.append((at, [0xF6, 0xDF]))
    later = lambda index: lists[rng.randrange(index + 1, len(lists))][0]
    return words(*[0xDE << 56 | later(index) if number == 0xDE else 0xDE01 << 48 | later(index) if number == 0xDE01 else number << 56 | rng.getrandbits(32)
                   for index, (_, numbers) in enumerate(lists) for number in numbers])


@test
def offsets_are_those_of_any_display_list():
    rng = random.Random(5)
    for _ in range(40):
        memory = random_display(rng)
        expected = list(enumerate(offsets_along(memory, 0)))
        if expected:
            same(dumped_offsets(write("memory.bin", memory), "--f3dex2", "0"), expected)


def waiting():
    """A memory whose list at 16 calls the one at 64: there a rectangle is drawn, after which a colour is set without Sync Pipe, and then the modes."""
    setup = [word | 3 << 62 for word in (S[1], S[2])]
    shapes = [0xE401000800004004, 0xE100000000000000, 0xF100000010000400, C | 3 << 62, 0xE2001E0100000003, END]
    return write("memory.bin", words(0, 0, *setup, 0xE3000A0100000000, 0xDE00000000000040, END, 0, *shapes))


COLOUR = "Set Fill Color requires Sync Pipe"
WAITS = f"word 5 (offset 0x58): {COLOUR}, for the Texture Rectangle at word 3 (offset 0x40)"
MODES = "word 6 (offset 0x60): Set Other Modes requires Sync Pipe, for the Texture Rectangle at word 3 (offset 0x40)"


@test
def a_translated_list_is_refused_at_its_place_and_its_offset():
    given = [waiting(), "--f3dex2", "16"]
    same(run("check", *given), (1, f"9 5\n{WAITS}\n", ""))
    same(run("check", "--all", *given), (1, f"9 5\n{WAITS}\n9 6\n{MODES}\n", ""))
    same(run("check", "-q", *given), (1, "9 5\n", ""))
    same(run("draw", *given, "-o", "out.png"), (1, f"9 5\n{WAITS}\n", ""))
    lines = run("dump", *given)[1].split("\n")
    same(lines[1], WAITS)
    assert "        >> causes the refusal at word 5 (offset 0x58)" in lines, lines
    same(run("check", *given, "--format=gcc"), (
        1, f"memory.bin:5: error: offset 0x58: {COLOUR} [9]\nmemory.bin:3: note: offset 0x40: the Texture Rectangle that it has to wait for\n", ""))
    same(run("check", *given, "--format=github"), (1, f"::error file=memory.bin::{WAITS}\n", ""))


@test
def documents_have_the_offset_too():
    given = [waiting(), "--f3dex2", "16"]
    found = json.loads(run("check", *given, "--format=json")[1])["lists"][0]["findings"]
    same(found, [{"number": 9, "place": 5, "offset": 0x58, "text": WAITS, "command": "Set Fill Color",
                  "cause": {"place": 3, "offset": 0x40, "command": "Texture Rectangle"}}])
    found = json.loads(run("check", *given, "--format=sarif")[1])["runs"][0]["results"][0]
    at = lambda offset: {"artifactLocation": {"uri": "memory.bin"}, "region": {"byteOffset": offset, "byteLength": 8}}
    same(found["locations"], [{"physicalLocation": at(0x58)}])
    same(found["relatedLocations"], [{"physicalLocation": at(0x40), "message": {"text": "Texture Rectangle at word 3 (offset 0x40)"}}])
    same(found["message"], {"text": WAITS})


@test
def a_report_has_the_offset_of_every_command():
    same(run("report", waiting(), "--f3dex2", "16", "-o", "out.html"), (1, "", ""))
    page = read("out.html").decode()
    rows = re.findall(r'<td class="place" id="w(\d+)"><a href="#w\1">\1</a><br><span class="from">offset 0x([0-9A-F]+)</span></td>', page)
    same([(int(place), int(offset, 16)) for place, offset in rows], [(0, 0x10), (1, 0x18), (2, 0x20), (3, 0x40), (5, 0x58), (6, 0x60)])
    for told in (WAITS.split(", for")[0], 'word 5</a> (offset 0x58)</div>', 'Sync Pipe before <a href="#w5">word 5</a> (offset 0x58), Set Fill Color'):
        assert told in page, told


@test
def an_offset_is_told_only_where_the_library_counts_the_same():
    """The walk of cli/offsets.c beside answers that a library might give: commands read 5, words written 4, and others."""
    write("main.c", rb"""#include "cli.h"
bool is_accepted(Answer answer) { return answer.number == 0; }
uint64_t word_at(const uint8_t *bytes, size_t place) { uint64_t word = 0; for (int i = 0; i < 8; i++) word = word << 8 | bytes[8 * place + i]; return word; }
int main(void)
{
    uint8_t bytes[56] = { [0] = 0xE7, [8] = 0xE4, [16] = 0xE1, [24] = 0xF1, [32] = 0xE8, [40] = 0xDF, [48] = 0xDE };
    Memory memory = { bytes, sizeof bytes, 0 };
    const Answer answers[] = { { 0, 6, 4 }, { 0, 5, 4 }, { 0, 6, 3 }, { 0, 6, 5 }, { 14, 6, 4 } };
    for (int i = 0; i < 5; i++) {
        uint32_t *offsets = offsets_of(&memory, 0, answers[i]);
        for (int k = 0; k < 4 && offsets != NULL; k++)
            printf("%u ", (unsigned)offsets[k]);
        printf(offsets != NULL ? "told\n" : "none\n");
    }
    for (uint32_t start = 0; start < 80; start++) /* no start reads outside, or goes on for ever */
        printf("%s", offsets_of(&memory, start, (Answer){ 0, 1, 0 }) != NULL ? "ends " : "");
}
""")
    sources = ["main.c", os.path.join(TOP, "cli", "offsets.c")]
    flags = ["-std=c11", "-g", "-fsanitize=address,undefined", "-fno-sanitize-recover=all", f"-I{TOP}/include", f"-I{TOP}/cli"]
    subprocess.run(["gcc", *flags, *sources, "-o", "main"], check=True)
    out = subprocess.run(["./main"], capture_output=True, env={**os.environ, "ASAN_OPTIONS": "detect_leaks=0"})
    same((out.returncode, out.stdout.decode()), (0, "0 8 8 32 told\nnone\nnone\nnone\nnone\nends "))


@test
def a_display_list_that_is_refused_is_no_list():
    write("memory.bin", words(0, 0xD9 << 56))
    error = f"lanyardrove: memory.bin: 22 8, offset 0x8 (D900000000000000): {UNKNOWN}; commands read before: 0\n"
    for arguments in (["check"], ["dump"], ["draw", "-o", "out.png"], ["report", "-o", "out.html"]):
        status, out, err = run(*arguments, "memory.bin", "--f3dex2", "8")
        same((status, err), (2, error), arguments)
    same(run("check", "nowhere", "--f3dex2", "8")[::2], (2, "lanyardrove: nowhere: No such file or directory\n"))
    same(files(), ["memory.bin"])
