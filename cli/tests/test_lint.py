"""lanyardrove lint: warnings, which are no verdict."""
import json
import os
import random
import re

from rules import accepted_list
from support import C, COPIED, COPY, FULL, L, LOAD_4_BY_2, N, ONE_CYCLE, PIPE, R, S, TEXELS, TOP, example, read, run, same, test, words, write

NO_VERDICT = "no verdict: check says whether a list is accepted"
NAMES = ("fill-texture", "depth-image", "combine-mode", "texture-memory", "sync-full", "data-run", "swapped")
COMBINE, DEPTH, TWO_CYCLES = 0x3C << 56, 0x3E << 56, 0x2F10000000000000
TRIANGLE, TRIANGLE_Z = [0x08 << 56, 0, 0, 0], [0x09 << 56, 0, 0, 0, 0, 0]
ONE = [ONE_CYCLE, *S[1:]]


def linted(given, *options):
    """Name, place and text of each warning of a list's words; the status is that they give."""
    data = given if isinstance(given, bytes) else words(*given)
    status, out, err = run("lint", "--format=json", *options, write("list.rdp", data))
    found = json.loads(out)
    same(err if found["lists"][0]["read"] else "", "")
    same(status, 2 if not found["lists"][0]["read"] else 1 if found["warnings"] else 0)
    return [(warning["name"], warning["place"], warning["text"]) for warning in found["lists"][0]["warnings"]]


def places(given, *options):
    return [warning[:2] for warning in linted(given, *options)]


def tile(line, address, index=0, size=2):
    return 0x35 << 56 | size << 51 | line << 41 | address << 32 | index << 24


def image(size):
    return 0x3D << 56 | size << 51


def area(number, left, top, right, bottom, index=0):
    return number << 56 | left << 44 | top << 32 | index << 24 | right << 12 | bottom


@test
def a_list_with_nothing_to_warn_of():
    same(run("lint", write("list.rdp", words(*S, C, R, FULL))), (0, f"0 warnings; {NO_VERDICT}\n", ""))
    for name in ("sunset.rdp", "valley.rdp", "old.rdp"):
        same(run("lint", example(name)), (0, f"0 warnings; {NO_VERDICT}\n", ""), name)


@test
def a_texture_rectangle_in_fill_mode():
    same(linted([*S, *COPIED, FULL]), [("fill-texture", 3, "Texture Rectangle in FILL mode fills, and reads no texture")])
    flip = [COPIED[0] + (1 << 56), COPIED[1]]
    same(linted([*S, *flip, *COPIED, FULL])[0], ("fill-texture", 3, "Texture Rectangle Flip in FILL mode fills, and reads no texture"))
    same(places([*S, *flip, *COPIED, FULL]), [("fill-texture", 3), ("fill-texture", 5)])
    same(places([*S, R, PIPE, COPY, *COPIED, PIPE, S[0], *COPIED, FULL]), [("fill-texture", 10)])
    same(places([*COPIED, FULL]), [])  # no modes: the check refuses it, by 5


@test
def a_triangle_with_depth_and_no_depth_image():
    text = "Fill Triangle (Z) has depth, and no Set Depth Image stands before it in this list"
    same(linted([COMBINE, *ONE, *TRIANGLE_Z, *TRIANGLE_Z, PIPE, DEPTH, *TRIANGLE_Z, FULL]), [("depth-image", 4, text)])  # once
    same(places([COMBINE, DEPTH, *ONE, *TRIANGLE_Z, FULL]), [])
    same(places([COMBINE, *ONE, *TRIANGLE, FULL]), [])
    for number in range(8, 16):
        given = [COMBINE, *ONE, number << 56, *[0] * (3 + 8 * (number >> 2 & 1) + 8 * (number >> 1 & 1) + 2 * (number & 1)), FULL]
        same(places(given), [("depth-image", 4)] if number & 1 else [], hex(number))


@test
def a_draw_without_combine_mode():
    same(linted([*ONE, *TRIANGLE, R, FULL]), [
        ("combine-mode", 3, "Fill Triangle draws in 1-Cycle mode, and no Set Combine Mode stands before it in this list")])
    same(linted([TWO_CYCLES, *S[1:], R, PIPE, COMBINE, R, FULL]), [
        ("combine-mode", 3, "Fill Rectangle draws in 2-Cycle mode, and no Set Combine Mode stands before it in this list")])
    for given in ([*ONE, COMBINE, *TRIANGLE, FULL], [*S, R, FULL], [COPY, *S[1:], *COPIED, FULL], [*ONE, L, FULL], [R, FULL]):
        same(places(given), [])  # FILL and COPY mode have no combiner
    same(places([*S, R, PIPE, ONE_CYCLE, R, FULL]), [("combine-mode", 6)])


@test
def loads_beyond_texture_memory():
    for setup, load, text in (
            ([image(2), tile(16, 0)], area(0x34, 0, 0, 252, 124), None),  # 64 by 32 texels of 16 bits: all of it
            ([image(2), tile(16, 0)], area(0x34, 0, 0, 252, 128), "Load Tile goes to byte 4223 of texture memory, which has 4096"),
            ([image(2), tile(16, 1)], area(0x34, 0, 0, 252, 124), "Load Tile goes to byte 4103 of texture memory, which has 4096"),
            ([image(2), tile(16, 0)], area(0x34, 0, 0, 256, 124), "Load Tile goes to byte 4097 of texture memory, which has 4096"),
            ([image(2), tile(16, 0)], area(0x34, 3, 3, 255, 127), None),  # by the floors
            ([image(2), tile(16, 0)], area(0x34, 400, 400, 652, 524), None),
            ([image(2), tile(1, 511)], area(0x34, 0, 0, 12, 0), None),
            ([image(2), tile(1, 511)], area(0x34, 0, 0, 16, 0), "Load Tile goes to byte 4097 of texture memory, which has 4096"),
            ([image(2), tile(511, 511)], area(0x34, 4, 0, 0, 4095), None),  # loads nothing
            ([image(1), tile(16, 0, size=1)], area(0x34, 0, 0, 508, 124), None),
            ([image(3), tile(8, 0, size=3)], area(0x34, 0, 0, 124, 124), None),
            ([image(3), tile(8, 0, size=3)], area(0x34, 0, 0, 124, 128),
             "Load Tile goes to byte 2111 of each half of texture memory, which has 2048"),
            ([image(2), tile(0, 0), tile(0, 511, 7)], area(0x33, 0, 0, 3, 0, 7), None),
            ([image(2), tile(0, 0), tile(0, 511, 7)], area(0x33, 0, 0, 4, 0, 7), "Load Block goes to byte 4097 of texture memory, which has 4096"),
            ([image(2), tile(0, 0)], area(0x33, 0, 0, 2047, 0), None),
            ([image(2), tile(0, 0)], area(0x33, 1000, 0, 3048, 0), "Load Block of 2049 texels, over 2,048, loads nothing"),
            ([image(3), tile(0, 0)], area(0x33, 0, 0, 1023, 0), None),
            ([image(3), tile(0, 0)], area(0x33, 0, 0, 1024, 0), "Load Block goes to byte 2049 of each half of texture memory, which has 2048"),
            ([image(2), tile(0, 0)], area(0x33, 5, 0, 4, 0), None),
            ([image(2), tile(0, 256)], area(0x30, 0, 0, 255 * 4, 0), None),
            ([image(2), tile(0, 257)], area(0x30, 0, 0, 255 * 4, 0), "Load TLUT goes to byte 4103 of texture memory, which has 4096"),
            ([], area(0x34, 0, 0, 4095, 4095), None),  # neither is set: nothing is known
            ([], area(0x33, 0, 0, 4095, 0), "Load Block of 4096 texels, over 2,048, loads nothing")):
        same(linted([*setup, load, FULL]), [("texture-memory", len(setup), text)] if text else [], (setup, hex(load)))


@test
def loads_go_where_document_02_says():
    rng = random.Random(29)
    for _ in range(60):
        line, address = rng.choice((0, 1, 4, 16, rng.randrange(512))), rng.randrange(512)
        left, top, right, bottom = rng.randrange(64), rng.randrange(64), rng.randrange(256), rng.randrange(128)
        touched = {8 * address + 8 * line * row + 2 * column + byte for row in range(bottom // 4 - top // 4 + 1)
                   for column in range(right // 4 - left // 4 + 1) for byte in (0, 1)}
        expected = [("texture-memory", 2, f"Load Tile goes to byte {max(touched)} of texture memory, which has 4096")] if max(touched, default=0) > 4095 else []
        same([warning for warning in linted([image(2), tile(line, address), area(0x34, left, top, right, bottom), FULL])], expected)


@test
def no_sync_full():
    same(linted([*S, C, R]), [("sync-full", 5, "the list has no Sync Full")])
    same(linted([]), [("sync-full", 0, "the list has no Sync Full")])
    same(linted([FULL, N]), [])  # the check refuses what follows


@test
def words_that_look_like_data():
    text = "words that look like data: unassigned numbers, or no operations with other bits set"
    same(linted([*S, 0x0123456789ABCDEF, 0x11 << 56, N + 5, R, FULL]), [("data-run", 3, f"3 {text}")])
    same(places([N, N, N, FULL]), [])
    same(places([1, N, 2, FULL]), [])
    same(places([1, 2, FULL]), [("data-run", 0)])
    same(places([0x40 << 56, 0x80 << 56, FULL]), [("data-run", 0)])
    same(linted([FULL, 0x4142434445464748 & ~(0x3F << 56) | 5 << 56, 0x31 << 56]), [("data-run", 1, f"2 {text}")])
    same(places([1, 2, *S, *COPIED, 1, 2]), [("data-run", 0), ("fill-texture", 5), ("data-run", 7), ("sync-full", 9)])


def swapped(data):
    return b"".join(data[i:i + 8][::-1] for i in range(0, len(data), 8))


@test
def a_list_that_reads_as_swapped():
    data = read(example("sunset.rdp"))
    same(linted(swapped(data)), [("swapped", 0, "the list reads as one of little-endian words: try --swap")])  # and no more: its commands are none
    assert "data-run" in {name for name, *_ in linted(swapped(data), "-Wno-swapped")}
    same(linted(swapped(data), "--swap"), [])
    same("swapped" in [name for name, *_ in linted(data)], False)
    same("swapped" in [name for name, *_ in linted(data, "--swap")], False)  # it is not to be tried twice
    same(run("lint", "list.rdp")[2], "")


@test
def each_warning_can_be_left_out():
    given = swapped(words(*S, C, R, FULL)) + words(1, 2, *S, *COPIED, PIPE, ONE_CYCLE, *TRIANGLE_Z, image(2), tile(0, 511), PIPE, area(0x33, 0, 0, 9, 0))
    found = {name for name, *_ in linted(given)}
    same(found, set(NAMES) - {"swapped"})
    for name in NAMES[:-1]:
        for option in ([f"-Wno-{name}"], ["-W", f"no-{name}"], ["--warn", f"no-{name}"], [f"--warn=no-{name}"], ["-Wno-all", *(f"-W{n}" for n in found - {name})]):
            same({n for n, *_ in linted(given, *option)}, found - {name}, option)
        same({n for n, *_ in linted(given, "-Wno-all", f"-W{name}")}, {name})
        same({n for n, *_ in linted(given, f"-Wno-{name}", "-Wall")}, found)
    same(linted(given, "-Wno-all"), [])
    same(run("lint", "-Wno-all", "list.rdp"), (0, f"0 warnings; {NO_VERDICT}\n", ""))
    same("swapped" in [name for name, *_ in linted(swapped(read(example("sunset.rdp"))), "-Wno-swapped")], False)
    for option in ("x", "no-", "", "sync", "no-sync", "no-no-all", "sync-full,swapped"):
        status, out, err = run("lint", "-W", option, "list.rdp")
        same((status, out), (2, ""), option)
        assert f"--warn {option}: not a warning or all, or no- before it" in err, err


@test
def lint_is_apart_from_the_verdict():
    rng = random.Random(7)
    for given in ([*S, R, C, FULL], [R, FULL], accepted_list(rng, S, 80) + [FULL]):
        write("list.rdp", words(*given))
        before = run("check", "list.rdp")
        run("lint", "list.rdp")
        same(run("check", "list.rdp"), before)
    same(run("lint", "-Wno-sync-full", example("g.rdp")), (0, f"0 warnings; {NO_VERDICT}\n", ""))  # refused, and nothing to warn of
    same(run("check", "-q", example("i.rdp"))[0], 0)
    same(run("lint", example("i.rdp"))[0], 1)  # accepted, and a warning


@test
def a_list_that_cannot_be_read_is_told():
    same(run("lint", "gone.rdp"), (2, f"0 warnings, 1 not read to the end; {NO_VERDICT}\n", "lanyardrove: gone.rdp: No such file or directory\n"))
    given = words(*S, *COPIED)
    for data, reason in ((given + b"x", "2 5, the length of 41 bytes is no multiple of 8"), (given + words(COPIED[0]), "3 5, word 5: Texture Rectangle runs past the end of the list"),
                         (given + bytes(32768), "1 4096, the list is over 32,768 bytes")):
        status, out, err = run("lint", write("list.rdp", data))
        same((status, err), (2, f"lanyardrove: list.rdp: {reason}: not read to its end\n"))
        same(out, f"word 3: Texture Rectangle in FILL mode fills, and reads no texture [-Wfill-texture]\n1 warning, 1 not read to the end; {NO_VERDICT}\n")


def three():
    return write("a.rdp", words(*S, *COPIED)), write("b.rdp", words(*S, C, R, FULL)), "gone.rdp"


@test
def several_lists():
    status, out, err = run("lint", *three())
    same((status, err), (2, "lanyardrove: gone.rdp: No such file or directory\n"))
    same(out, "a.rdp: word 3: Texture Rectangle in FILL mode fills, and reads no texture [-Wfill-texture]\na.rdp: the list has no Sync Full [-Wsync-full]\n"
              f"3 lists: 2 warnings in 1, 1 not read to the end; {NO_VERDICT}\n")
    same(run("lint", "b.rdp", "a.rdp")[0], 1)
    same(run("lint", "b.rdp", "b.rdp"), (0, f"2 lists: 0 warnings in 0; {NO_VERDICT}\n", ""))


@test
def warnings_as_compilers_tell_them():
    status, out, _ = run("lint", "--format=gcc", *three())
    same((status, out), (2, "a.rdp:3: warning: Texture Rectangle in FILL mode fills, and reads no texture (no verdict) [-Wfill-texture]\n"
                            "a.rdp:5: warning: the list has no Sync Full (no verdict) [-Wsync-full]\n"))
    same(run("lint", "--format=gcc", "b.rdp"), (0, "", ""))


@test
def warnings_as_annotations():
    status, out, _ = run("lint", "--format=github", *three())
    same(out, "::warning file=a.rdp::no verdict: word 3: Texture Rectangle in FILL mode fills, and reads no texture [-Wfill-texture]\n"
              "::warning file=a.rdp::no verdict: the list has no Sync Full [-Wsync-full]\n::error file=gone.rdp::the list could not be read\n")
    same(status, 2)


@test
def warnings_as_json():
    status, out, _ = run("lint", "--format=json", *three())
    document = json.loads(out)
    same((status, document.pop("version")), (2, run("--version")[1].split()[1]))
    same(document, {"note": NO_VERDICT, "warnings": 2, "unread": 1, "lists": [
        {"file": "a.rdp", "read": True, "warnings": [
            {"name": "fill-texture", "place": 3, "text": "Texture Rectangle in FILL mode fills, and reads no texture", "command": "Texture Rectangle"},
            {"name": "sync-full", "place": 5, "text": "the list has no Sync Full"}]},
        {"file": "b.rdp", "read": True, "warnings": []}, {"file": "gone.rdp", "read": False, "warnings": []}]})


@test
def warnings_as_sarif():
    status, out, _ = run("lint", "--format=sarif", *three())
    document = json.loads(out)
    same((status, document["version"], len(document["runs"])), (2, "2.1.0", 1))
    done = document["runs"][0]
    same([rule["id"] for rule in done["tool"]["driver"]["rules"]], list(NAMES))
    same(done["invocations"], [{"executionSuccessful": False}])
    same([(result["ruleId"], result["level"], result["message"]["text"]) for result in done["results"]], [
        ("fill-texture", "warning", "no verdict: Texture Rectangle in FILL mode fills, and reads no texture"),
        ("sync-full", "warning", "no verdict: the list has no Sync Full")])
    same([result["locations"][0]["physicalLocation"] for result in done["results"]], [
        {"artifactLocation": {"uri": "a.rdp"}, "region": {"byteOffset": 24, "byteLength": 8}}, {"artifactLocation": {"uri": "a.rdp"}}])
    same(json.loads(run("lint", "--format=sarif", "b.rdp")[1])["runs"][0]["invocations"], [{"executionSuccessful": True}])


@test
def lists_wherever_they_are():
    text = f"word 3: Texture Rectangle in FILL mode fills, and reads no texture [-Wfill-texture]\n1 warning; {NO_VERDICT}\n"
    given = words(*S, *COPIED, FULL)
    same(run("lint", "-", stdin=given), (1, text, ""))
    same(run("lint", "--offset=3", f"--length={len(given)}", write("rom", b"abc" + given + b"d")), (1, text, ""))
    same(run("lint", "--hex", "-", stdin=given.hex().encode()), (1, text, ""))
    same(run("lint", "--swap", "-", stdin=swapped(given)), (1, text, ""))
    same(run("lint", example("valley.bin"), "--f3dex2", "0x5600"), (0, f"0 warnings; {NO_VERDICT}\n", ""))
    write("memory.bin", words(0xEF30000000000000, 0xE400800800004004, 0xE100000000000000, 0xF100000000000000, 0xE9 << 56, 0xDF << 56))
    same(run("lint", "memory.bin", "--f3dex2", "0")[1].split("\n")[0],
         "word 1 (offset 0x8): Texture Rectangle in FILL mode fills, and reads no texture [-Wfill-texture]")
    same(run("lint", "memory.bin", "--f3dex2", "0", "--format=gcc")[1],
         "memory.bin:1: warning: offset 0x8: Texture Rectangle in FILL mode fills, and reads no texture (no verdict) [-Wfill-texture]\n")
    same(json.loads(run("lint", "memory.bin", "--f3dex2", "0", "--format=json")[1])["lists"][0]["warnings"][0]["offset"], 8)


@test
def pages_and_help_name_each_warning():
    page = read(os.path.join(TOP, "cli", "lanyardrove.1")).decode().replace("\\-", "-")
    part = page[page.index(".SH WARNINGS"):page.index(".SH HINTS")]
    same(re.findall(r"^\.TP\n\.B ([a-z-]+)$", part, re.M), list(NAMES))
    text = run("lint", "--help")[1]
    assert all(name in text for name in NAMES) and "no verdict" in text, text
