"""lanyardrove repair."""
import os
import random
import re
import subprocess

from rules import NAMES, commands_of, cycles_of, words_of
from support import BLOCK, C, FULL, L, LOAD, N, ONE_CYCLE, PIPE, R, S, SET_TILE, TILE, TOOL, chosen, example, files, inserted, read, refuses_a_terminal, run, same, test, words, write


@test
def repair_inserts_the_least_syncs():
    for name, text, expected in (
            ("j.rdp", "Sync Pipe before word 4, Load Tile\n" + inserted(1, 50, 7), [*S, R, PIPE, L, C]),
            ("k.rdp", "Sync Load before word 4, Load Tile\nSync Load before word 5, Fill Rectangle\n" + inserted(2, 50, 8), [*S, R, LOAD, L, LOAD, R]),
            ("m.rdp", "Sync Pipe before word 5, Set Fill Color\n" + inserted(1, 50, 7), [*S, R, N, PIPE, C]),
            ("h-tile.rdp", "Sync Pipe before word 5, Set Fill Color\n" + inserted(1, 50, 7, 33), [*S, R, TILE, PIPE, C]),
            ("h-pipe.rdp", inserted(0, 0, 6, 50), [*S, R, PIPE, C]),
            ("i.rdp", inserted(0, 0, 5), [*S, C, R]),
            ("a.rdp", inserted(0, 0, 0), [])):
        same(run("repair", example(name), "-o", "out.rdp"), (0, text, ""), name)
        same(read("out.rdp"), words(*expected), name)
        same(run("check", "-q", "out.rdp")[0], 0, name)
        same(files(), ["out.rdp"])
        os.remove("out.rdp")


@test
def repair_inserts_a_sync_between_a_load_and_set_tile():
    for between in ([], [LOAD]):
        given = [BLOCK, *between, SET_TILE]
        same(run("repair", "-", "-o", "out.rdp", stdin=words(*given)),
             (0, f"Sync Tile before word {len(given) - 1}, Set Tile\n{inserted(1, 33, len(given) + 1, 25 * len(between))}", ""))
        same(read("out.rdp"), words(*given[:-1], TILE, SET_TILE))
    same(run("repair", "--check", "-", stdin=words(BLOCK, TILE, SET_TILE))[0], 0)


@test
def repair_says_what_it_wrote():
    """The list with the syncs that the text names is the list written, and the cycles are theirs."""
    rng = random.Random(2)
    kinds = {"Load": (LOAD, 25), "Tile": (TILE, 33), "Pipe": (PIPE, 50)}
    for _ in range(12):
        given = [ONE_CYCLE, *S[1:]]
        for _ in range(60):
            number = rng.choice([0x36, 0x36, 0x24, 0x34, 0x35, 0x37, 0x26, 0x27, 0x28, 0x3A])
            given += [number << 56] + [rng.getrandbits(64)] * (words_of(number) - 1)
        write("in.rdp", words(*given))
        status, out, err = run("repair", "in.rdp", "-o", "out.rdp")
        same((status, err), (0, ""))
        told = re.findall(r"^Sync (Load|Tile|Pipe) before word (\d+), (.+)$", out, re.M)
        expected, before = [], {int(place): kind for kind, place, _ in told}
        for place, word in enumerate(given):
            expected += [kinds[before[place]][0]] if place in before else []
            expected.append(word)
        same(read("out.rdp"), words(*expected))
        assert len(told) > 1
        same(out.split("\n")[-2] + "\n", inserted(len(told), sum(kinds[k][1] for k, _, _ in told), len(expected), cycles_of(given)))
        same([NAMES[given[int(place)] >> 56] for _, place, _ in told], [name for _, _, name in told])
        same(run("check", "-q", "out.rdp")[0], 0)
    write("in.rdp", words(*S, R, TILE, C))
    same(run("repair", "in.rdp", "-o", "out.rdp")[1].split("\n")[0], "Sync Pipe before word 5, Set Fill Color")


@test
def repair_to_standard_output():
    for output in ([], ["-o", "-"]):
        done = subprocess.run([TOOL, "repair", "-", *output], input=words(*S, R, L, C), capture_output=True)
        same((done.returncode, done.stdout), (0, words(*S, R, PIPE, L, C)))
        same(done.stderr.decode(), "Sync Pipe before word 4, Load Tile\n" + inserted(1, 50, 7))
    same(run("repair", example("f.rdp")), (1, "", "4 1\nword 1: No Operation stands after Sync Full\n"))


@test
def repair_writes_no_list_to_a_terminal():
    refuses_a_terminal("repair", example("j.rdp"))


@test
def repair_writes_nothing_at_a_refusal():
    write("kept.rdp", b"as it was")
    for name, number, place in (("b.rdp", 2, 0), ("c1.rdp", 3, 0), ("e.rdp", 5, 0), ("f.rdp", 4, 1)):
        status, out, err = run("repair", example(name), "-o", "kept.rdp")
        same((status, out.split("\n")[0], err), (1, f"{number} {place}", ""), name)
        same(read("kept.rdp"), b"as it was")
        same(run("repair", example(name), "-o", "new.rdp")[0], 1)
    write("long.rdp", bytes(16392))
    status, out, err = run("repair", "long.rdp", "-o", "new.rdp")
    same((status, out), (1, "1 2048\nthe list is over 16,384 bytes\n"))
    same(files(), ["kept.rdp", "long.rdp"])
    write("longest.rdp", bytes(16384))
    same(run("repair", "longest.rdp", "-o", "new.rdp")[:2], (0, inserted(0, 0, 2048)))


@test
def repair_of_the_list_with_most_syncs():
    write("in.rdp", words(*S, *[R, L] * 1022, R))
    status, out, err = run("repair", "in.rdp", "-o", "out.rdp")
    same((status, out.split("\n")[-2] + "\n"), (0, inserted(2044, 2044 * 25, 2048 + 2044)))
    same(run("check", "-q", "out.rdp")[1], f"0 {2048 + 2044}\n")


@test
def repair_of_many_lists_in_place():
    given = {"j.rdp": words(*S, R, L, C), "i.rdp": words(*S, C, R), "k.rdp": words(*S, R, L, R)}
    for name, data in given.items():
        write(name, data)
    before = os.stat("i.rdp").st_ino
    text = (f"j.rdp: Sync Pipe before word 4, Load Tile\nj.rdp: {inserted(1, 50, 7)}i.rdp: {inserted(0, 0, 5)}"
            "k.rdp: Sync Load before word 4, Load Tile\nk.rdp: Sync Load before word 5, Fill Rectangle\n"
            f"k.rdp: {inserted(2, 50, 8)}")
    same(run("repair", "--check", *given), (1, text.replace(" inserted", " would be inserted"), ""))
    same({name: read(name) for name in given}, given)  # nothing is written
    same(run("repair", "--in-place", *given), (0, text, ""))
    same((read("j.rdp"), read("k.rdp")), (words(*S, R, PIPE, L, C), words(*S, R, LOAD, L, LOAD, R)))
    same((os.stat("i.rdp").st_ino, files()), (before, sorted(given)))  # a list that misses nothing is not written anew
    same(run("repair", "--check", *given)[0], 0)
    same(run("repair", "-i", "j.rdp"), (0, inserted(0, 0, 7, 50), ""))


@test
def repair_of_many_lists_goes_on_after_a_refusal():
    write("f.rdp", words(0x29 << 56, N))
    write("j.rdp", words(*S, R, L, C))
    status, out, err = run("repair", "-i", "f.rdp", "gone.rdp", "j.rdp")
    same((status, err), (2, "lanyardrove: gone.rdp: No such file or directory\n"))
    same(out.split("\n")[0], "f.rdp: 4 1, word 1: No Operation stands after Sync Full")
    same((read("f.rdp"), read("j.rdp")), (words(0x29 << 56, N), words(*S, R, PIPE, L, C)))
    same((run("repair", "-i", "f.rdp", "j.rdp")[0], run("repair", "--check", "f.rdp")[:2]), (1, (1, "4 1\nword 1: No Operation stands after Sync Full\n")))
    same(run("repair", "--check", "-", stdin=words(*S, R, C)),
         (1, "Sync Pipe before word 4, Set Fill Color\n" + inserted(1, 50, 6, done="would be inserted"), ""))
    same(run("repair", "--check", example("i.rdp"))[0], 0)


SYNCS = {0x26: "Sync Load", 0x27: "Sync Pipe", 0x28: "Sync Tile"}


@test
def afresh_drops_the_syncs_that_nobody_needs():
    for given, told, expected in (
            ([*S, PIPE, R, TILE, LOAD, FULL], "Sync Pipe goes at word 3\nSync Tile goes at word 5\nSync Load goes at word 6\n" + chosen(3, 0, 0, 5, 108, 0), [*S, R, FULL]),
            ([*S, R, L, PIPE, C], "Sync Pipe comes before word 4, Load Tile\nSync Pipe goes at word 5\n" + chosen(1, 1, 0, 7, 50, 50), [*S, R, PIPE, L, C]),
            ([BLOCK, PIPE, SET_TILE], "Sync Pipe at word 1 becomes Sync Tile\n" + chosen(0, 0, 1, 3, 50, 33), [BLOCK, TILE, SET_TILE]),
            ([*S, R, PIPE, TILE, PIPE, C], "Sync Pipe goes at word 4\nSync Tile goes at word 5\n" + chosen(2, 0, 0, 6, 133, 50), [*S, R, PIPE, C]),
            ([*S, R, PIPE | 0xC1 << 56 | 7, C], "Sync Pipe at word 4 loses its other bits\n" + chosen(0, 0, 1, 6, 50, 50), [*S, R, PIPE, C]),
            ([*S, R, L, C], "Sync Pipe comes before word 4, Load Tile\n" + chosen(0, 1, 0, 7, 0, 50), [*S, R, PIPE, L, C]),
            ([PIPE, TILE], "Sync Pipe goes at word 0\nSync Tile goes at word 1\n" + chosen(2, 0, 0, 0, 83, 0), []),
            ([*S, R, PIPE, C], chosen(0, 0, 0, 6, 50, 50), [*S, R, PIPE, C]), ([], chosen(0, 0, 0, 0, 0, 0), [])):
        same(run("repair", "--afresh", write("in.rdp", words(*given)), "-o", "out.rdp"), (0, told, ""), given)
        same(read("out.rdp"), words(*expected), given)
        same(run("repair", "--afresh", "--check", "in.rdp"), (int(given != expected), told, ""), given)
        same(run("repair", "--afresh", "--check", "out.rdp")[0], 0)  # a second time changes nothing


@test
def afresh_in_place_and_of_many_lists():
    write("a.rdp", words(*S, PIPE, R))
    write("b.rdp", words(*S, R, PIPE, C))
    write("f.rdp", words(FULL, PIPE))
    before = os.stat("b.rdp").st_ino
    status, out, err = run("repair", "--afresh", "-i", "a.rdp", "b.rdp", "f.rdp")
    same((status, err), (1, ""))
    same(out, f"a.rdp: Sync Pipe goes at word 3\na.rdp: {chosen(1, 0, 0, 4, 50, 0)}b.rdp: {chosen(0, 0, 0, 6, 50, 50)}"
              "f.rdp: 4 1, word 1: Sync Pipe stands after Sync Full\n")  # judged as it is given
    same((read("a.rdp"), read("f.rdp"), os.stat("b.rdp").st_ino), (words(*S, R), words(FULL, PIPE), before))
    done = subprocess.run([TOOL, "repair", "--afresh", "-"], input=words(*S, R, TILE, C), capture_output=True)
    same((done.returncode, done.stdout), (0, words(*S, R, PIPE, C)))
    same(done.stderr.decode(), "Sync Tile at word 4 becomes Sync Pipe\n" + chosen(0, 0, 1, 6, 33, 50))


@test
def afresh_refuses_as_the_repair_does():
    for name in ("b.rdp", "c1.rdp", "e.rdp", "f.rdp"):
        same(run("repair", "--afresh", example(name), "-o", "new.rdp"), run("repair", example(name), "-o", "new.rdp"), name)
    same(run("repair", "--afresh", "--check", write("long.rdp", bytes(16392))), (1, "1 2048\nthe list is over 16,384 bytes\n", ""))
    same(files(), ["long.rdp"])


def of_changes(out, given):
    """The list that a text of changes makes of one."""
    words_of_syncs = {name: number << 56 for number, name in SYNCS.items()}
    goes = {int(place): name for name, place in re.findall(r"^(Sync \w+) goes at word (\d+)$", out, re.M)}
    comes = {int(place): name for name, place in re.findall(r"^(Sync \w+) comes before word (\d+), ", out, re.M)}
    becomes = {int(place): (one, two) for one, place, two in re.findall(r"^(Sync \w+) at word (\d+) becomes (Sync \w+)$", out, re.M)}
    plain = {int(place): (name, name) for name, place in re.findall(r"^(Sync \w+) at word (\d+) loses its other bits$", out, re.M)}
    made, starts = [], dict(commands_of(given))
    for place, word in enumerate(given):
        number = starts.get(place)
        named = goes.get(place) or {**becomes, **plain}.get(place, (None,))[0]
        assert named is None or named == SYNCS[number], (place, named)
        made += [words_of_syncs[comes[place]]] if place in comes else []
        made += [] if place in goes else [words_of_syncs[{**becomes, **plain}[place][1]]] if place in {**becomes, **plain} else [word]
    return made, (len(goes), len(comes), len(becomes) + len(plain))


@test
def afresh_says_what_became_of_every_sync():
    """The list that the text describes is the list written, its cycles are those said, and where it passed before they are no more."""
    rng = random.Random(9)
    for _ in range(25):
        given = [ONE_CYCLE, *S[1:]]
        for _ in range(60):
            number = rng.choice([0x36, 0x24, 0x34, 0x35, 0x37, 0x26, 0x27, 0x27, 0x27, 0x28, 0x3A])
            stray = rng.getrandbits(56) if number in SYNCS and rng.random() < 0.2 else 0
            given += [number << 56 | stray] + [rng.getrandbits(64)] * (words_of(number) - 1)
        status, out, err = run("repair", "--afresh", write("in.rdp", words(*given)), "-o", "out.rdp")
        same((status, err), (0, ""))
        made, counts = of_changes(out, given)
        same(read("out.rdp"), words(*made))
        same(out.split("\n")[-2] + "\n", chosen(*counts, len(made), cycles_of(given), cycles_of(made)))
        same(run("check", "-q", "out.rdp")[0], 0)
        passed = run("check", "-q", "in.rdp")[0] == 0
        assert not passed or cycles_of(made) <= cycles_of(given)
