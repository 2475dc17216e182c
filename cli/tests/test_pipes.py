"""Lists through a pipe: judged as they arrive, in document 02's order, by every command."""
import os
import re
import subprocess

from support import C, FULL, L, N, PIPE, R, S, TOOL, arriving, example, files, inserted, read, run, same, test, words, write

CHECK, DUMP, REPORT = ["check", "-"], ["dump", "-"], ["report", "-", "-o", "-"]
DRAW = ["draw", "-", "--memory", "64", "-o", "out.bin"]
REPAIR = ["repair", "-", "-o", "out.rdp"]
MISSING = "9 4\nword 4: Set Fill Color requires Sync Pipe, for the Fill Rectangle at word 3\n"
TOO_LONG = "1 4096\nthe list is over 32,768 bytes\n"


def verdict_of(arguments, data):
    """Exit status, and `number place` as each command says it."""
    status, out, err = run(*arguments, stdin=data)
    same(err, "", arguments)
    answer = re.search(r"<code>(\d+ \d+)</code>", out)[1] if arguments == REPORT else out.split("\n")[0]
    return status, answer


@test
def a_refused_command_ends_check_and_draw_at_its_last_byte():
    given = words(*S, R, C)
    for arguments in (CHECK, DRAW):
        same(arriving(arguments, given), (1, MISSING), arguments)
        same(arriving(arguments, given[:3], given[3:32], given[32:39], given[39:]), (1, MISSING), arguments)
        same(arriving(arguments, given[:39], given[39:] + b"no word"), (1, MISSING), arguments)
        same(arriving(arguments, bytes(32768), b"x"), (1, TOO_LONG), arguments)
        same(arriving(arguments, bytes(32761), words(R)[1:], bytes(1)), (1, TOO_LONG), arguments)
    same(arriving(CHECK, *[bytes([byte]) for byte in given]), (1, MISSING))
    same(files(), [])


@test
def repair_reads_on_after_a_missing_sync_and_ends_at_other_refusals():
    not_set = "5 0\nword 0: Fill Rectangle draws with other modes, colour image or scissor not set in this list\n"
    too_long = "1 2048\nthe list is over 16,384 bytes\n"
    same(arriving(REPAIR, words(R)[:5], words(R)[5:] + b"more"), (1, not_set))
    same(arriving(REPAIR, words(FULL), words(N)), (1, "4 1\nword 1: No Operation stands after Sync Full\n"))
    same(arriving(REPAIR, bytes(16384), b"x"), (1, too_long))
    same(arriving(REPAIR, words(*S, R, C), bytes(16384 - 40), b"x"), (1, too_long))
    same(arriving(REPAIR, bytes(16376), words(R)), (1, "5 2047\n" + not_set.split("\n")[1].replace("word 0", "word 2047") + "\n"))
    same(files(), [])
    text = "Sync Pipe before word 4, Load Tile\n" + inserted(1, 50, 7)
    same(run(*REPAIR, stdin=words(*S, R, L, C)), (0, text, ""))
    same((read("out.rdp"), files()), (words(*S, R, PIPE, L, C), ["out.rdp"]))
    # after a missing sync the repair judges the whole list, as from a file
    for given, answer in ((words(*S, R, C, FULL, N), "4 6"), (words(*S, R, C, 0x24 << 56), "3 5"), (words(*S, R, C) + b"x", "2 5")):
        same(verdict_of(REPAIR, given), (1, answer))
        same(run("repair", write("list.rdp", given), "-o", "-")[2].split("\n")[0], answer)


@test
def dump_and_report_show_what_comes_after_a_refusal():
    given = [*S, R, C, L, FULL, N]
    for data in (words(*given), words(*given) + b"\xAB"):  # the refused command comes before the stray byte
        status, out, err = run(*DUMP, stdin=data)
        same((status, out.startswith(MISSING), err), (1, True, ""))
        same([int(place) for place in re.findall(r"^ *(\d+)  [0-9A-F]{6}  [0-9A-F]{16}  ", out, re.M)], list(range(8)))
        same("     8  000040  AB  no whole word\n" in out, len(data) % 8 == 1)
        same(run(*REPORT, stdin=data)[1].count('<td class="place" '), 8)
    same(arriving(DUMP, words(*given), bytes(32768 - 64), b"x")[1].count("hazards:"), 4096)
    status, out = arriving(DUMP, words(*given), bytes(40000))
    same((status, out.startswith(MISSING), out.count("hazards:")), (1, True, 4096))
    assert out.endswith("\n        the list goes on after 32768 bytes, which is all that is shown\n"), out[-200:]
    status, out = arriving(REPORT, words(*given), bytes(40000))
    same((status, out.count('<td class="place" ')), (1, 4096))
    assert "<dd>over 32768</dd>" in out and "the commands of its first 32,768 bytes are shown" in out
    assert "<code>9 4</code>" in out and "The list cannot be repaired: <code>1 2048</code>" in out, out


@test
def every_command_gives_the_verdict_of_portions():
    for data, answer, of_file in ((words(R) + b"x", "5 0", "2 1"), (words(R) + bytes(32768), "5 0", "1 4096"), (words(0x24 << 56) + b"x", "2 1", "2 1"),
                                  (words(FULL, N) + b"xy", "4 1", "2 2"), (words(N, 0x24 << 56), "3 1", "3 1"), (bytes(7), "2 0", "2 0")):
        for arguments in (CHECK, DRAW, DUMP, REPORT, REPAIR):
            same(verdict_of(arguments, data), (1, answer), arguments)
        assert f"The list cannot be drawn: <code>{answer}</code>" in run(*REPORT, stdin=data)[1], answer
        assert f"The list cannot be repaired: <code>{answer}</code>" in run(*REPORT, stdin=data)[1], answer
        same(run("check", "-q", write("list.rdp", data))[1], of_file + "\n")
        os.remove("list.rdp")
    same(files(), [])


@test
def a_list_that_never_ends_is_answered():
    for arguments, answer in ((CHECK, "1 4096"), (DRAW, "1 4096"), (DUMP, "1 4096"), (REPAIR, "1 2048"), (REPORT, "1 4096")):
        for endless in ("yes", "cat /dev/zero"):
            done = subprocess.run(["sh", "-c", f'{endless} | "$0" "$@"', TOOL, *arguments], capture_output=True, timeout=10)
            same(done.returncode, 1, arguments)
            assert done.stdout.decode().startswith(answer + "\n") or f"<code>{answer}</code>" in done.stdout.decode(), arguments
        same(verdict_of(arguments, bytes(40000)), (1, answer))
    same(run("check", "-q", "/dev/zero"), (1, "1 4096\n", ""))
    same(run("dump", "/dev/zero")[1].count("hazards:"), 4096)
    same(files(), [])


@test
def no_command_reads_past_byte_32769():
    """The file that is standard input is left where reading ended."""
    for arguments, data, read_to in ((CHECK, bytes(40000), 32769), (DRAW, bytes(40000), 32769), (DUMP, bytes(40000), 32769),
                                     (REPORT, bytes(40000), 32769), (REPAIR, bytes(40000), 16385), (DUMP, words(R) + bytes(40000), 32769),
                                     (REPAIR, words(*S, R, C) + bytes(40000), 16385)):
        with open(write("list.rdp", data), "rb") as standard:
            subprocess.run([TOOL, *arguments], stdin=standard, capture_output=True)
            same(os.lseek(standard.fileno(), 0, os.SEEK_CUR), read_to, arguments)


@test
def standard_input_is_answered_as_a_file_where_the_list_is_whole():
    for name in sorted(os.listdir(example(""))):
        if name.endswith(".rdp"):
            for command in (["check"], ["dump"], ["repair", "-o", "out"], ["draw", "--memory", "40K", "-o", "out.bin"]):
                same(run(*command, "-", stdin=read(example(name))), run(*command, example(name)), name)
            same(run("dump", "/dev/stdin", stdin=read(example(name))), run("dump", example(name)), name)
