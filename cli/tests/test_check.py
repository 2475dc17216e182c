"""lanyardrove check."""
import json
import os
import random
import re
import shutil
import subprocess

from rules import NAMES, accepted_list, cause_of, cycles_of, hazards_along, misses_sync, words_of
from support import BLOCK, C, FULL, L, LOAD, N, ONE_CYCLE, PIPE, R, S, SET_TILE, TILE, TOOL, example, read, run, same, test, words, write


def example_table():
    """Name, number and place of each list in examples/README.md."""
    rows = re.findall(r"\| `([a-z0-9-]+\.rdp)` \|.*\| `(\d+) (\d+)` \|", read(example("README.md")).decode())
    same(sorted(name for name, *_ in rows), sorted(name for name in os.listdir(example("")) if name.endswith(".rdp")))
    return rows


@test
def check_answers_for_each_example():
    for name, number, place in example_table():
        status, out, err = run("check", example(name))
        lines = out.split("\n")
        same((status, lines[0], err, len(lines)), (0 if number == "0" else 1, f"{number} {place}", "", 3), name)
        same(run("check", "-q", example(name)), (status, f"{number} {place}\n", ""), name)
        same(run("check", "-q", "-", stdin=read(example(name))), (status, f"{number} {place}\n", ""), name)


@test
def check_says_what_an_answer_means():
    triangle = words(0x0F << 56, *[0] * 21)
    for data, text in (
            (b"", "0 0\naccepted: 0 words, the list is empty"), (words(N), "0 1\naccepted: 1 word"), (words(N, N), "0 2\naccepted: 2 words"),
            (bytes(32776), "1 4096\nthe list is over 32,768 bytes"), (bytes(7), "2 0\nthe length of 7 bytes is no multiple of 8"),
            (triangle[:168], "3 0\nword 0: Fill Triangle (STZ) runs past the end of the list"),
            (words(0x29 << 56, N), "4 1\nword 1: No Operation stands after Sync Full"),
            (triangle, "5 0\nword 0: Fill Triangle (STZ) draws with other modes, colour image or scissor not set in this list"),
            (words(S[0], 0x3F00000700000000, S[2], R), "6 3\nword 3: Fill Rectangle draws in FILL mode on a 4-bit colour image"),
            (words(*S, R, L), "7 4\nword 4: Load Tile requires Sync Load, for the Fill Rectangle at word 3"),
            (words(*S, L, R), "7 4\nword 4: Fill Rectangle requires Sync Load, for the Load Tile at word 3"),
            (words(ONE_CYCLE, *S[1:], 0x24 << 56, 0, SET_TILE), "8 5\nword 5: Set Tile requires Sync Tile, for the Texture Rectangle at word 3"),
            (words(*S, R, C), "9 4\nword 4: Set Fill Color requires Sync Pipe, for the Fill Rectangle at word 3")):
        same(run("check", "-", stdin=data), (0 if text[0] == "0" else 1, text + "\n", ""))


@test
def check_names_the_latest_command_that_the_sync_has_to_wait_for():
    triangle = [0x0F << 56, *[R] * 21]  # the words after its first are no draws
    textured = [ONE_CYCLE, *S[1:], 0x24 << 56, 0]
    for given, text in (
            ([*S, R, *[N] * 796, R, *[N] * 11, C], "word 812: Set Fill Color requires Sync Pipe, for the Fill Rectangle at word 800"),
            ([*S, R, *[N] * 4091, C], "word 4095: Set Fill Color requires Sync Pipe, for the Fill Rectangle at word 3"),
            ([*S, *triangle, C], "word 25: Set Fill Color requires Sync Pipe, for the Fill Triangle (STZ) at word 3"),
            ([*S, L, 0x30 << 56, R, R], "word 5: Fill Rectangle requires Sync Load, for the Load TLUT at word 4"),
            ([*textured, R, 0x08 << 56, 0, 0, 0, SET_TILE], "word 10: Set Tile requires Sync Tile, for the Texture Rectangle at word 3"),
            ([*textured, R, C], "word 6: Set Fill Color requires Sync Pipe, for the Fill Rectangle at word 5"),
            ([*S, R, PIPE, R, TILE, LOAD, C], "word 8: Set Fill Color requires Sync Pipe, for the Fill Rectangle at word 5")):
        status, out, err = run("check", "-", stdin=words(*given))
        same((status, out.split("\n")[1], err), (1, text, ""))


@test
def check_asks_for_a_sync_between_a_load_and_set_tile():
    meaning = "Set Tile requires Sync Tile, for the Load Block at word 0"
    for between, text in (([], f"8 1\nword 1: {meaning}"), ([LOAD], f"8 2\nword 2: {meaning}"), ([TILE], "0 3\naccepted: 3 words"),
                          ([PIPE], "0 3\naccepted: 3 words")):
        same(run("check", "-", stdin=words(BLOCK, *between, SET_TILE)), (int(text[0] != "0"), text + "\n", ""))


@test
def check_names_the_cause_in_random_lists():
    rng, tried = random.Random(4), 0
    for _ in range(60):
        given = accepted_list(rng, [ONE_CYCLE, *S[1:]], rng.randrange(4, 60))
        hazards = hazards_along([*given, N])[-1]
        for number in [n for n in range(64) if misses_sync(hazards, n)][:3]:
            out = run("check", "-", stdin=words(*given, number << 56, *[0] * (words_of(number) - 1)))[1]
            cause = cause_of(given, number)
            assert out.endswith(f", for the {NAMES[given[cause] >> 56]} at word {cause}\n"), out
            tried += 1
    assert tried > 100, tried


@test
def check_accepts_what_the_readme_says_that_it_does():
    one_cycle = [ONE_CYCLE, *S[1:]]
    for given in ([*S, 0x24 << 56, 0], [*S, 0x08 << 56, 0, 0, 0], [*one_cycle, 0x09 << 56, *[0] * 5], [*one_cycle, R],
                  [*one_cycle, 0x24 << 56, 0], [0x3400000000FFFFFF], [0x3300000000FFF000], [S[0], 0x3F10000703FFFFFF, S[2], R]):
        same(run("check", "-q", "-", stdin=words(*given)), (0, f"0 {len(given)}\n", ""), given)
    same(run("check", "-q", "-", stdin=words(*one_cycle, 0x24 << 56, 0, 0x3500000007000000)), (1, "8 5\n", ""))  # drawn with tile 0, set is tile 7


def told_cycles(*arguments, **more):
    """The cycles that check tells of each list, in its text and in its document."""
    text = run("check", "-v", *arguments, **more)[1]
    return [int(cycles) for cycles in re.findall(r" waits? (\d+) cycles(?:, and syncs chosen afresh would save \d+)?$", text, re.M)], \
        [one["cycles"] for one in json.loads(run("check", "--format=json", *arguments, **more)[1])["lists"]]


@test
def check_says_the_cycles_that_a_list_waits():
    meaning = "word 5: Set Fill Color requires Sync Pipe, for the Fill Rectangle at word 3"
    same(run("check", "-v", example("h-pipe.rdp")), (0, "0 6\naccepted: 6 words; the list waits 50 cycles, and syncs chosen afresh would save 0\n", ""))
    same(run("check", "--verbose", example("h-tile.rdp")), (1, f"9 5\n{meaning}; the syncs before the refusal wait 33 cycles\n", ""))
    same(run("check", "-v", "--all", "-", stdin=words(*S, R, TILE, C, PIPE, R, C))[1],
         f"9 5\n{meaning}; the syncs before the refusal wait 33 cycles\n9 8\n{meaning.replace('5', '8').replace('3', '7')}\n")
    same(run("check", "-q", "-v", "-"), (2, "", "lanyardrove: check has one of --quiet and --verbose\nTry 'lanyardrove check --help'.\n"))
    given = [example("h-tile.rdp"), example("h-pipe.rdp"), write("stray.rdp", words(LOAD) + b"x"), write("long.rdp", words(*[PIPE] * 4097))]
    same(told_cycles(*given), ([33, 50, 25, 204800],) * 2)


@test
def check_says_what_a_fresh_choice_would_save():
    for given, waits, saved in (([*S, PIPE, R, PIPE, TILE, C], 133, 83), ([], 0, 0), ([PIPE] * 2048, 102400, 102400), ([*S, R, PIPE, C, FULL], 50, 0)):
        same(run("check", "-v", write("list.rdp", words(*given)))[1].split("; ")[1], f"the list waits {waits} cycles, and syncs chosen afresh would save {saved}\n")
        found = json.loads(run("check", "--format=json", "list.rdp")[1])["lists"][0]
        same((found["cycles"], found["saved"]), (waits, saved))
        after = run("repair", "--afresh", "list.rdp", "-o", "after.rdp")[1].split(", ")[-1]
        same(after, f"{waits - saved} after\n")
    for given in ([PIPE] * 2049, [*S, R, C]):  # too long for a repair, or refused
        assert "saved" not in json.loads(run("check", "--format=json", write("list.rdp", words(*given)))[1])["lists"][0]
        assert "afresh" not in run("check", "-v", "list.rdp")[1]


@test
def check_counts_the_syncs_of_accepted_commands():
    rng = random.Random(7)
    for _ in range(20):
        given = accepted_list(rng, [ONE_CYCLE, *S[1:]], rng.randrange(4, 200))
        for more in ([FULL], [FULL, PIPE], [PIPE, FULL, N, TILE]):  # Sync Full waits for nothing that is counted, what comes after it is refused
            due = cycles_of(given + more[:more.index(FULL)])
            same(told_cycles("-", stdin=words(*given, *more)), ([due], [due]))


@test
def check_of_several_files_has_a_line_each_and_a_count():
    accepted, refused = example("i.rdp"), example("g.rdp")
    same(run("check", accepted, refused, "-", stdin=words(N)), (1, "\n".join((
        f"0 5 {accepted}: accepted: 5 words", f"9 4 {refused}: word 4: Set Fill Color requires Sync Pipe, for the Fill Rectangle at word 3",
        "0 1 -: accepted: 1 word",
        "3 lists: 2 accepted, 1 refused", "")), ""))
    same(run("check", "-q", accepted, refused), (1, f"0 5 {accepted}\n9 4 {refused}\n", ""))
    status, out, _ = run("check", "-q", accepted, "no-such-file", refused, ".", "-", stdin=words(N))
    same((status, out), (2, f"0 5 {accepted}\n- - no-such-file\n9 4 {refused}\n- - .\n0 1 -\n"))  # a line for each argument
    status, out, _ = run("check", accepted, example("a.rdp"))
    same((status, out.split("\n")[2]), (0, "2 lists: 2 accepted (1 empty), 0 refused"))


@test
def check_of_a_file_that_cannot_be_read():
    same(run("check", "no-such-file"), (2, "", "lanyardrove: no-such-file: No such file or directory\n"))
    same(run("check", "."), (2, "", "lanyardrove: .: Is a directory\n"))
    same(run("check", ""), (2, "", "lanyardrove: : No such file or directory\n"))
    status, out, err = run("check", example("g.rdp"), "no-such-file", example("i.rdp"))
    same((status, out.split("\n")[1], out.split("\n")[3]), (2, "- - no-such-file: not read", "3 lists: 1 accepted, 1 refused, 1 not read"))
    same(err, "lanyardrove: no-such-file: No such file or directory\n")
    done = subprocess.run(["sh", "-c", 'exec "$@" <&-', "sh", TOOL, "check", "-"], capture_output=True)
    same((done.returncode, done.stdout, done.stderr), (2, b"", b"lanyardrove: standard input: Bad file descriptor\n"))


@test
def check_of_a_file_without_permission():
    tool = shutil.copy(TOOL, "tool")
    os.chmod(".", 0o755)
    write("list.rdp", words(N))
    os.chmod("list.rdp", 0)
    user = 65534 if os.geteuid() == 0 else None  # nobody, since root reads everything
    done = subprocess.run(["./tool", "check", "list.rdp"], capture_output=True, user=user)
    same((tool, done.returncode, done.stderr), ("tool", 2, b"lanyardrove: list.rdp: Permission denied\n"))


@test
def check_of_a_pipe_answers_as_of_a_file():
    for name, *_ in example_table():
        of_file, data = run("check", example(name)), read(example(name))
        same(run("check", "-", stdin=data), of_file, name)
        with open(example(name)) as standard:
            same(subprocess.run([TOOL, "check", "-"], stdin=standard, capture_output=True).stdout.decode(), of_file[1], name)
        same(run("check", "/dev/stdin", stdin=data), of_file, name)
    # the refusal of a command comes first in a pipe, the length in a file
    for data, of_pipe, of_file in ((words(R) + b"x", "5 0\n", "2 1\n"), (words(R) + bytes(32768), "5 0\n", "1 4096\n")):
        same(run("check", "-q", "-", stdin=data)[1], of_pipe)
        same(run("check", "-q", write("list.rdp", data))[1], of_file)


@test
def check_at_the_limit_of_length():
    same(run("check", "-q", "-", stdin=bytes(32768)), (0, "0 4096\n", ""))
    same(run("check", "-q", "-", stdin=bytes(32769)), (1, "1 4096\n", ""))
    same(run("check", "-q", "/dev/zero"), (1, "1 4096\n", ""))
    same(run("check", "-q", "/dev/stdin", stdin=words(*S, R, C)), (1, "9 4\n", ""))
