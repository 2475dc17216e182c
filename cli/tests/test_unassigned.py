"""Unassigned numbers (document 02, #107): what each command of the tool says of refusal 19."""
import json
import re

from rules import NAMES, UNASSIGNED
from support import C, FULL, L, N, ONE_CYCLE, PIPE, R, S, arriving, files, inserted, read, run, same, test, words, write

U = 0x31 << 56 | 0x80012345
MEANING = "Unassigned number, which no command has: often data or a stray pointer"
NOT_SET = "Fill Rectangle draws with other modes, colour image or scissor not set in this list"


def refusal(place):
    return f"19 {place}\nword {place}: {MEANING}\n"


@test
def check_refuses_each_unassigned_number():
    same(len(UNASSIGNED), 28)
    same([number for number in range(64) if NAMES[number] == "Unassigned"], sorted(UNASSIGNED))
    for number in UNASSIGNED:
        for bits in (0, 0xC0FFFFFFFFFFFFFF):
            same(run("check", "-", stdin=words(N, number << 56 | bits, R)), (1, refusal(1), ""), hex(number))
    same(run("check", "-q", "-", stdin=words(N, 0xC0FFFFFFFFFFFFFF)), (0, "0 2\n", ""))  # 0x00, whatever its other bits


@test
def check_refuses_it_after_4_and_before_5():
    for given, text in (([FULL, U], "4 1\nword 1: Unassigned stands after Sync Full\n"), ([U, R], refusal(0)), ([R, U], f"5 0\nword 0: {NOT_SET}\n"),
                        ([U, 0x24 << 56], refusal(0)), ([S[0], 0x3F00000700000000, S[2], U, R], refusal(3))):
        same(run("check", "-", stdin=words(*given)), (1, text, ""))
        same(run("check", write("list.rdp", words(*given))), (1, text, ""))
    same(run("check", "-q", write("list.rdp", words(U) + b"x"))[1], "2 1\n")
    same(run("check", "-q", "-", stdin=words(U) + b"x")[1], "19 0\n")  # of a pipe the command comes first
    same(run("check", "-v", "-", stdin=words(PIPE, U, PIPE))[1], refusal(1)[:-1] + "; the syncs before the refusal wait 50 cycles\n")


@test
def a_pipe_ends_at_its_last_byte():
    for command in (["check", "-"], ["draw", "-", "--memory", "64", "-o", "out.bin"], ["repair", "-", "-o", "out.rdp"]):
        same(arriving(command, words(*S)[:20], words(*S)[20:] + words(U)[:7], words(U)[7:]), (1, refusal(3)), command)
    same(files(), [])


@test
def all_tells_it_and_the_missing_syncs():
    for given, answers in (([*S, R, U, C], ["19 4", "9 5"]), ([*S, R, C, U], ["9 4"]), ([*S, U, R, L, U, C], ["19 3", "7 5", "9 7"])):
        same(run("check", "--all", "-q", write("list.rdp", words(*given)))[1].split("\n")[:-1], answers, given)
    same(run("check", "--all", "-", stdin=words(*S, R, U, C))[1],
         refusal(4) + "9 5\nword 5: Set Fill Color requires Sync Pipe, for the Fill Rectangle at word 3\n")


@test
def every_format_has_it():
    name = write("u.rdp", words(N, U))
    same(run("check", "--format=gcc", name)[1], f"u.rdp:1: error: {MEANING} [19]\n")
    same(run("check", "--format=github", name)[1], f"::error file=u.rdp::word 1: {MEANING}\n")
    found = json.loads(run("check", "--format=json", name)[1])["lists"][0]
    same((found["number"], found["findings"]), (19, [{"number": 19, "place": 1, "text": f"word 1: {MEANING}", "command": "Unassigned"}]))
    log = json.loads(run("check", "--format=sarif", name)[1])["runs"][0]
    same([(r["ruleId"], r["locations"][0]["physicalLocation"]["region"], "relatedLocations" in r) for r in log["results"]],
         [("19", {"byteOffset": 8, "byteLength": 8}, False)])
    rule = [r["fullDescription"]["text"] for r in log["tool"]["driver"]["rules"] if r["id"] == "19"]
    assert len(rule) == 1 and "stray pointer" in rule[0], rule


@test
def repair_and_draw_write_nothing():
    name = write("u.rdp", words(*S, R, C, U))  # a missing sync comes first, but for the repair
    same(run("repair", name, "-o", "out.rdp"), (1, refusal(5), ""))
    same(run("repair", "--check", name)[:2], (1, refusal(5)))
    same(run("draw", name, "--memory", "64", "-o", "out.bin")[1].split("\n")[0], "9 4")
    write("cycle.rdp", words(ONE_CYCLE, *S[1:], R, U))
    same(run("draw", "cycle.rdp", "--memory", "0", "-o", "out.bin"), (1, refusal(4), ""))  # before 10
    same(files(), ["cycle.rdp", "u.rdp"])
    write("n.rdp", words(*S, R, C, N))
    same(run("repair", "n.rdp", "-o", "out.rdp")[1].split("\n")[1] + "\n", inserted(1, 50, 7))
    same(read("out.rdp"), words(*S, R, PIPE, C, N))


@test
def dump_marks_it_and_keeps_the_hazards():
    status, out, err = run("dump", "-", stdin=words(*S, R, U, N))
    same((status, out.startswith(refusal(4)), err), (1, True, ""))
    same(re.findall(r"[0-9A-F]{16}  (\S.*?) +hazards: (.*)$", out, re.M)[4:], [("Unassigned", "pipe draw"), ("No Operation", "pipe draw")])
    assert re.search(r"Unassigned .*\n {8}>> refused, 19 4: word 4: Unassigned number, which no command has: often\n {11}data or a stray pointer\n", out), out


@test
def report_says_why_and_has_a_choice_for_it():
    write("u.rdp", words(*S, R, U, N))
    same(run("report", "u.rdp", "-o", "u.html"), (1, "", ""))
    page = read("u.html").decode()
    for text in ("<code>19 4</code>", f"word 4: {MEANING}", "No command has this number.", "The list cannot be repaired: <code>19 4</code>",
                 "The list cannot be drawn: <code>19 4</code>", '<tr id="refused" class="unassigned refused">', '<tr class="none">',
                 '<label><input type="radio" name="show" id="show-unassigned"> unassigned numbers</label>', "tr:not(.unassigned)"):
        assert text in page, text


@test
def a_swapped_list_is_still_hinted_at():
    """Words in the wrong order have unassigned numbers; those that have one either way get no hint, also after a missing sync."""
    for given, hint in (([*S, C, R], "lanyardrove: turned.rdp: its words look little-endian: try --swap\n"), ([*S, R, C, U], "")):
        write("turned.rdp", b"".join(word.to_bytes(8, "little") for word in given))
        same(run("check", "turned.rdp"), (1, refusal(2), hint))
    same(run("check", "--swap", "-q", "turned.rdp"), (1, "9 4\n", ""))
