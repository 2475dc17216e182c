"""lanyardrove check: what it tells machines, failures alone, and every missing sync."""
import json
import os
import random
import re

from rules import NAMES, cause_of, commands_of, hazards_along, misses_sync, words_of
from support import C, FULL, L, N, ONE_CYCLE, R, S, TOP, arriving, example, read, run, same, test, words, write

PAGE = read(os.path.join(TOP, "cli", "lanyardrove.1")).decode()
G = "Set Fill Color requires Sync Pipe"


def three():
    """A refused list, an accepted one, one that is not there."""
    return write("g.rdp", words(*S, R, C)), write("i.rdp", words(*S, C, R)), "gone.rdp"


@test
def failures_are_told_alone():
    lists = three()
    status, out, _ = run("check", "--failures", *lists)
    same((status, out), (2, f"9 4 g.rdp: word 4: {G}, for the Fill Rectangle at word 3\n- - gone.rdp: not read\n"
                            "3 lists: 1 accepted, 1 refused, 1 not read\n"))
    same(run("check", "--failures", "i.rdp"), (0, "", ""))
    same(run("check", "--failures", "-q", "i.rdp", "g.rdp"), (1, "9 4 g.rdp\n", ""))
    same([entry["file"] for entry in json.loads(run("check", "--failures", "--format=json", *lists)[1])["lists"]], ["g.rdp", "gone.rdp"])


def missing_syncs(given):
    """Number, place and cause of every sync that a list's words miss, as documents 01 and 02 have it."""
    sync = {True: 7, False: 9}
    for (place, number), hazards in zip(commands_of(given), hazards_along(given)):
        if misses_sync(hazards, number):
            kind = 8 if number == 0x35 else sync[number in (0x30, 0x33, 0x34) or number < 0x26 or number == 0x36]
            yield kind, place, cause_of(given[:place], number)


@test
def all_tells_every_missing_sync_with_its_cause():
    same(run("check", "--all", example("j.rdp")), (1, "7 4\nword 4: Load Tile requires Sync Load, for the Fill Rectangle at word 3\n"
                                                      f"9 5\nword 5: {G}, for the Fill Rectangle at word 3\n", ""))
    same(run("check", "--all", "-q", example("j.rdp"), example("i.rdp")), (1, f"7 4 {example('j.rdp')}\n9 5 {example('j.rdp')}\n0 5 {example('i.rdp')}\n", ""))
    rng = random.Random(6)
    for _ in range(30):
        given = [ONE_CYCLE, *S[1:]]
        for _ in range(60):
            number = rng.choice([0x36, 0x24, 0x0A, 0x34, 0x30, 0x35, 0x37, 0x26, 0x27, 0x28, 0x3A])
            given += [number << 56] + [rng.getrandbits(64)] * (words_of(number) - 1)
        write("list.rdp", words(*given))
        found = json.loads(run("check", "--all", "--format=json", "list.rdp")[1])["lists"][0]
        expected = list(missing_syncs(given))
        same([(f["number"], f["place"], f["cause"]["place"]) for f in found["findings"]], expected)
        same((found["number"], found["place"]), expected[0][:2])
        same([f["cause"]["command"] for f in found["findings"]], [NAMES[given[cause] >> 56 & 63] for *_, cause in expected])


@test
def all_keeps_the_verdict_and_reads_on_after_it():
    given = words(*S, R, C, FULL, L, R)  # at word 7 the load, a command after Sync Full too
    answers = [line for line in run("check", "--all", write("list.rdp", given))[1].split("\n")[::2] if line]
    same(answers, ["9 4", "7 7"])
    same(run("check", "--all", "-q", "-", stdin=given)[1], "9 4\n7 7\n")
    same(run("check", "--all", "-q", "-", stdin=given + b"x")[1], "9 4\n7 7\n")
    same(run("check", "--all", "-q", write("list.rdp", given + b"x"))[1], "2 8\n9 4\n7 7\n")
    same(run("check", "--all", "-q", write("list.rdp", words(R, C, 0x24 << 56)))[1], "5 0\n9 1\n")
    same(arriving(["check", "--all", "-q", "-"], given, bytes(32768 - 64), b"x"), (1, "9 4\n7 7\n"))
    same(run("check", "--all", example("i.rdp")), run("check", example("i.rdp")))


@test
def gcc_lines_name_file_and_place():
    lists = three()
    status, out, err = run("check", "--format=gcc", *lists)
    same((status, out), (2, f"g.rdp:4: error: {G} [9]\ng.rdp:3: note: the Fill Rectangle that it has to wait for\n"))
    same(err, "lanyardrove: gone.rdp: No such file or directory\n")
    same(run("check", "--format", "gcc", write("b.rdp", bytes(7))), (1, "b.rdp:0: error: the length of 7 bytes is no multiple of 8 [2]\n", ""))
    for name in sorted(os.listdir(example(""))):
        if name.endswith(".rdp"):
            answer = run("check", "-q", example(name))[1].split()
            lines = re.findall(r"^(.+):(\d+): error: .+ \[(\d+)\]$", run("check", "--format=gcc", example(name))[1], re.M)
            same(lines, [] if answer[0] == "0" else [(example(name), answer[1], answer[0])])


@test
def github_annotations_name_the_file():
    lists = three()
    same(run("check", "--format=github", *lists)[1],
         f"::error file=g.rdp::word 4: {G}, for the Fill Rectangle at word 3\n::error file=gone.rdp::the list could not be read\n")
    write("a,b:c%\n.rdp", words(*S, R, C))
    assert run("check", "--format=github", "a,b:c%\n.rdp")[1].startswith("::error file=a%2Cb%3Ac%25%0A.rdp::word 4: ")


def described(start, end):
    """The names in italics of a part of the manual page, but for the large ones."""
    part = PAGE[PAGE.index(start):PAGE.index(end)]
    lines = " ".join(line for line in part.split("\n") if line.startswith(".I"))
    return {name for name in re.findall(r"[a-z]+", re.sub(r"\.I\w* ", " ", re.sub(r"\(.*?\)", "", lines)))} - {"and"}


@test
def json_has_the_fields_of_the_manual_page():
    lists = three()
    status, out, _ = run("check", "--format=json", *lists, "-", stdin=b"")
    found = json.loads(out)
    same(status, 2)
    same({name: value for name, value in found.items() if name != "lists"},
         {"version": run("--version")[1].split()[1], "accepted": 2, "empty": 1, "refused": 1, "unread": 1})
    text = f"word 4: {G}, for the Fill Rectangle at word 3"
    finding = {"number": 9, "place": 4, "text": text, "command": "Set Fill Color", "cause": {"place": 3, "command": "Fill Rectangle"}}
    same(found["lists"], [
        {"file": "g.rdp", "verdict": "refused", "number": 9, "place": 4, "cycles": 0, "empty": False, "findings": [finding]},
        {"file": "i.rdp", "verdict": "accepted", "number": 0, "place": 5, "cycles": 0, "saved": 0, "empty": False, "findings": []},
        {"file": "gone.rdp", "verdict": "unread"},
        {"file": "-", "verdict": "accepted", "number": 0, "place": 0, "cycles": 0, "saved": 0, "empty": True, "findings": []}])
    same(described(".B json\n", ".B sarif\n"), {*found, *found["lists"][1], *finding, *finding["cause"], "offset"})  # of translated lists, see test_translate
    same(json.loads(run("check", "--format=json", write("b.rdp", bytes(7)))[1])["lists"][0]["findings"],
         [{"number": 2, "place": 0, "text": "the length of 7 bytes is no multiple of 8"}])


@test
def json_takes_every_name():
    for name, shown in ((b'a"\\\n\x1b.rdp', 'a"\\\n\x1b.rdp'), ("\u00e9.rdp".encode(), "\u00e9.rdp"), (b"\xff\xe9.rdp", "??.rdp")):
        write(os.fsdecode(name), words(N))
        same(json.loads(run("check", "--format=json", name)[1])["lists"][0]["file"], shown)


# For each object of SARIF 2.1.0 that is used: the properties that its schema requires, the others that it knows, and the objects below it.
SARIF = {
    "log": ({"version", "runs"}, {"$schema"}, {"runs": "run"}), "run": ({"tool"}, {"results", "invocations"}, {"tool": "tool", "results": "result",
                                                                                                            "invocations": "invocation"}),
    "tool": ({"driver"}, set(), {"driver": "component"}), "component": ({"name"}, {"version", "rules"}, {"rules": "rule"}),
    "rule": ({"id"}, {"fullDescription"}, {"fullDescription": "message"}), "invocation": ({"executionSuccessful"}, set(), {}),
    "result": ({"message"}, {"ruleId", "level", "locations", "relatedLocations"}, {"message": "message", "locations": "location",
                                                                                   "relatedLocations": "location"}),
    "location": (set(), {"physicalLocation", "message"}, {"physicalLocation": "physical", "message": "message"}),
    "physical": ({"artifactLocation"}, {"region"}, {"artifactLocation": "artifact", "region": "region"}),
    "artifact": (set(), {"uri"}, {}), "region": (set(), {"byteOffset", "byteLength"}, {}), "message": ({"text"}, set(), {}),
}


def hold_to_schema(value, kind):
    required, known, below = SARIF[kind]
    assert required <= set(value) <= required | known, (kind, value)
    for name, under in below.items():
        for entry in (value[name] if isinstance(value.get(name), list) else [value[name]] if name in value else []):
            hold_to_schema(entry, under)


@test
def sarif_is_held_to_its_schema():
    lists = three()
    status, out, _ = run("check", "--format=sarif", "--all", *lists, example("j.rdp"), example("b.rdp"))
    log = json.loads(out)
    hold_to_schema(log, "log")
    the_run = log["runs"][0]
    same((status, log["version"], len(log["runs"]), the_run["invocations"]), (2, "2.1.0", 1, [{"executionSuccessful": False}]))
    same([rule["id"] for rule in the_run["tool"]["driver"]["rules"]], [str(n) for n in (*range(1, 10), 19)])
    same([(r["ruleId"], r["level"], r["locations"][0]["physicalLocation"]["region"]["byteOffset"]) for r in the_run["results"]],
         [("9", "error", 32), ("7", "error", 32), ("9", "error", 40), ("2", "error", 0)])
    same([r["relatedLocations"][0]["physicalLocation"]["region"] for r in the_run["results"][:3]], [{"byteOffset": 24, "byteLength": 8}] * 3)
    write("a b%.rdp", words(R))
    log = json.loads(run("check", "--format=sarif", "a b%.rdp")[1])
    same(log["runs"][0]["results"][0]["locations"][0]["physicalLocation"]["artifactLocation"]["uri"], "a%20b%25.rdp")
    same(log["runs"][0]["invocations"], [{"executionSuccessful": True}])


@test
def a_document_is_one_also_where_nothing_is_refused():
    for form in ("json", "sarif"):
        status, out, err = run("check", f"--format={form}", "--failures", example("i.rdp"))
        assert status == 0 and err == "" and json.loads(out), out
