"""lanyardrove diff (document 02, #110): two lists compared command by command."""
import json
import os
import random
import re

from rules import NAMES, commands_of, fields_of, words_of
from support import C, FULL, L, N, PIPE, R, S, TOP, example, files, read, run, same, test, words, write
from test_report import Page

TRIANGLE = [0x0C00123400000000, *[0x0101010101010101 * i for i in range(11)]]
OTHER = [word ^ turned for word, turned in zip(TRIANGLE, (0, 1 << 48, 0, 0, 0, 0, 5, 0, 0, 0, 1 << 60, 0))]
TEXT = """word 0 | word 0: Set Other Modes
        cycle_type: 3 (FILL) | 2 (COPY)
        alpha_compare_en: 0 | 1
word 3 | word 3: Set Fill Color
        color: 0xF801003F | 0xF80100C0
word 5 | word 5: Load Tile | Sync Pipe
word 6 | word 6: Unassigned 0x01 | Unassigned 0x02
word 7 | word 7: Set Combine Mode
        mode: 0x0 | 0x121824FF33FFFF
        RGB_0: (COMBINED-COMBINED)*COMBINED+COMBINED | (TEX0-0)*SHADE+0
        Alpha_0: (COMBINED-COMBINED)*LOD_FRACTION+COMBINED | (TEX0-0)*SHADE+0
        RGB_1: (COMBINED-COMBINED)*COMBINED+COMBINED | (TEX0-0)*SHADE+0
        Alpha_1: (COMBINED-COMBINED)*LOD_FRACTION+COMBINED | (TEX0-0)*SHADE+0
word 8 | word 8: Fill Triangle (S)
        xl: 0 | 1
        shade, word 6: 0505050505050505 | 0505050505050500
        shade, word 10: 0909090909090909 | 1909090909090909
"""
SUMMARY = "commands that differ: 6 of 9; 3 more in b.rdp, from word 20 on\n"


def two():
    """Two lists that differ in many ways; the second has more commands."""
    return (write("a.rdp", words(*S, C, R, L, 0x01 << 56, 0x3C << 56, *TRIANGLE)),
            write("b.rdp", words(S[0] ^ 1 << 52 | 1, *S[1:], C ^ 0xFF, R, PIPE, 0x02 << 56, 0x3C121824FF33FFFF, *OTHER, R, N, FULL)))


@test
def diff_tells_what_differs():
    same(run("diff", *two()), (1, TEXT + SUMMARY, ""))
    same(run("diff", "-q", *two()), (1, SUMMARY, ""))
    turned = re.sub(r"^(.*?: )(.*) \| (.*)$", r"\1\3 | \2", TEXT, flags=re.M)
    same(run("diff", "b.rdp", "a.rdp"), (1, turned + SUMMARY, ""))


@test
def diff_has_the_status_of_diff():
    a, b = two()
    for name in (a, b, example("sunset.rdp"), example("a.rdp"), example("f.rdp"), example("g.rdp")):  # refused by the check, but whole
        count = len(list(commands_of([int.from_bytes(read(name)[i:i + 8], "big") for i in range(0, len(read(name)), 8)])))
        same(run("diff", name, name), (0, f"commands that differ: 0 of {count}\n", ""), name)
    same(run("diff", a, "gone.rdp"), (2, "", "lanyardrove: gone.rdp: No such file or directory\n"))
    same(run("diff", "gone.rdp", a)[0], 2)
    same(run("diff", example("c1.rdp"), example("b.rdp")), (
        2, "", f"lanyardrove: {example('c1.rdp')}: 3 0, word 0: Texture Rectangle runs past the end of the list\n"))
    same(run("diff", a, example("b.rdp")), (2, "", f"lanyardrove: {example('b.rdp')}: 2 0, the length of 7 bytes is no multiple of 8\n"))
    same(run("diff", a, write("long.rdp", bytes(32776))), (2, "", "lanyardrove: long.rdp: 1 4096, the list is over 32,768 bytes\n"))
    same(run("diff", a, example("a.rdp")), (1, "commands that differ: 0 of 0; 9 more in a.rdp, from word 0 on\n", ""))


@test
def bits_of_no_field_do_not_count():
    given = [*S, C, R, 0x26 << 56, 0x3E << 56, 0x2F << 56]
    other = [S[0] | 3 << 62, *S[1:], C | 0x00FFFFFF << 32, R | 0xFF << 24, 0x26FFFFFFFFFFFFFF, 0x3EFFFFFFFF000000, 0x2F40000F00008000]
    same(run("diff", write("a.rdp", words(*given)), write("b.rdp", words(*other))), (0, "commands that differ: 0 of 8\n", ""))


def expected_fields(number, one, two):
    """The fields that differ of two commands of a number, by document 000's bit lists, and a triangle's suffix."""
    fields = [{"name": name, "first": left, "second": right} for (name, left), (_, right) in zip(fields_of(number, one), fields_of(number, two)) if left != right]
    texts = [[f"{word:016X}" for word in words[4:]] for words in (one, two)]
    return fields + ([{"name": "suffix", "first": texts[0], "second": texts[1]}] if 8 <= number < 16 and texts[0] != texts[1] else [])


@test
def json_has_every_field_that_differs():
    rng = random.Random(11)
    for _ in range(12):
        first, second, expected = [], [], []
        for number in rng.sample(range(64), 40):
            one = [number << 56 | rng.getrandbits(56), *(rng.getrandbits(64) for _ in range(words_of(number) - 1))]
            turned = rng.choice((0, 1 << rng.randrange(56), 1 << rng.randrange(56) | 3 << 62, rng.getrandbits(56)))
            another = rng.randrange(len(one))
            two = [word ^ (turned & ((1 << 56) - 1 if i == 0 else (1 << 64) - 1)) if i == another else word for i, word in enumerate(one)]
            changed = number ^ 1 if rng.random() < 0.1 and words_of(number ^ 1) == words_of(number) else number
            two[0] = two[0] & ~(63 << 56) | changed << 56
            fields = expected_fields(number, one, two) if changed == number else []
            if fields or changed != number:
                side = lambda here, what: {"place": len(here), "number": what, "command": NAMES[what]}
                expected.append({"first": side(first, number), "second": side(second, changed), "fields": fields})
            first, second = first + one, second + two
        status, out, err = run("diff", "--format=json", write("a.rdp", words(*first)), write("b.rdp", words(*second)))
        found = json.loads(out)
        same((status, err, found["differences"]), (1, "", expected))
        same({name: value for name, value in found.items() if name not in ("differences", "version")},
             {"first": "a.rdp", "second": "b.rdp", "same": False, "compared": 40, "rest": None})


@test
def json_has_the_rest():
    a, b = two()
    for names, which in (((a, b), "second"), ((b, a), "first")):
        same(json.loads(run("diff", "--format", "json", *names)[1])["rest"], {"list": which, "place": 20, "commands": 3})
    found = json.loads(run("diff", "--format=json", a, a)[1])
    same((found["same"], found["differences"], found["rest"], found["version"]), (True, [], None, run("--version")[1].split()[1]))


@test
def diff_reads_pipes_and_parts():
    a, b = two()
    same(run("diff", "-", b, stdin=read(a)), (1, TEXT + SUMMARY, ""))
    same(run("diff", b, "-", stdin=read(a))[1].split("\n")[-2], SUMMARY.strip())
    same(run("diff", a, "-", stdin=read(b))[1].split("\n")[-2], SUMMARY.replace("b.rdp", "standard input").strip())
    same(run("diff", "--offset=24", "--length=16", a, b), (1, "word 0 | word 0: Set Fill Color\n        color: 0xF801003F | 0xF80100C0\n"
                                                              "commands that differ: 1 of 2\n", ""))
    same(run("diff", "--hex", write("a.hex", read(a).hex().encode()), write("b.hex", read(b).hex().encode()))[1], (TEXT + SUMMARY).replace("b.rdp", "b.hex"))
    same(run("diff", "-", "-", stdin=read(a))[::2], (2, "lanyardrove: standard input is one list, not two\nTry 'lanyardrove diff --help'.\n"))


def sides(page):
    """The rows of a page: of each its class, and the texts of its six cells."""
    rows = re.findall(r"<tr(?: class=\"(\w+)\")?>(.*?)</tr>", page.split("<tbody>")[1], re.S)
    return [(kind, [re.sub(r"<br>", " ", cell).strip() for cell in re.findall(r"<td[^>]*>(.*?)</td>", row, re.S)]) for kind, row in rows]


@test
def a_page_has_both_lists_side_by_side():
    a, b = two()
    same(run("diff", a, b, "-o", "out.html"), (1, TEXT + SUMMARY, ""))
    source = read("out.html").decode()
    page = Page(source)
    assert not page.tags & {"script", "link", "iframe"} and not re.search(r"https?:|@import|url\(", source)
    ids = re.findall(r'id="([^"]+)"', source)
    assert len(ids) == len(set(ids)) and set(re.findall(r'href="#([^"]+)"', source)) <= set(ids)
    assert SUMMARY.strip() in page.text and "<title>Different: a.rdp</title>" in source and "with b.rdp" in page.text
    rows = sides(source)
    same([kind for kind, _ in rows], ["differs", "", "", "differs", "", "differs", "differs", "differs", "differs", "rest", "rest", "rest"])
    plain = [re.sub(r"<[^>]*>", "", cell) for cell in rows[3][1]]
    same(plain, ["3", "37000000F801003F", "Set Fill Color color 0xF801003F", "3", "37000000F80100C0", "Set Fill Color color 0xF80100C0"])
    same([re.sub(r"<[^>]*>", "", cell) for cell in rows[9][1]], ["", "", "", "20", f"{R:016X}", "Fill Rectangle"])
    same(run("diff", "-q", b, a, "-o", "out.html")[0], 1)
    same([[bool(cell) for cell in cells] for kind, cells in sides(read("out.html").decode()) if kind == "rest"], [[True] * 3 + [False] * 3] * 3)
    same(run("diff", a, a, "-o", "out.html")[0], 0)
    assert "<title>The same: a.rdp</title>" in read("out.html").decode()
    same(len(sides(read("out.html").decode())), 9)


@test
def a_page_is_no_list():
    a, b = two()
    for output, reason in ((a, "the output is one of the lists"), (os.path.abspath(b), "the output is one of the lists"),
                           ("-", "standard output has what is told"), ("missing/out.html", "No such file or directory")):
        status, out, err = run("diff", a, b, "-o", output)
        same((status, out), (2, ""), output)
        assert reason in err, err
    same(files(), ["a.rdp", "b.rdp"])
    odd = "<b>&\".rdp"
    write(odd, read(a))
    same(run("diff", odd, b, "-o", "out.html")[0], 1)
    assert "&#60;b&#62;&#38;&#34;.rdp" in read("out.html").decode() and "<b>&" not in read("out.html").decode()
