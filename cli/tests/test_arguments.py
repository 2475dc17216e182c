"""Arguments, help, and standard output that cannot be written."""
import os
import re
import subprocess

from support import COMMANDS, LIST_COMMANDS, TOOL, S, R, example, files, run, same, test, words, write

DRAW = ["draw", "a", "--memory", "64"]
WRONG = {
    "Usage: lanyardrove": [[]],
    "'chek' is no command": [["chek"]],
    "unrecognized option '--what'": [["check", "--what"]],
    "invalid option -- 'x'": [["dump", "-x"]],
    "option requires an argument -- 'o'": [["repair", "a", "-o"]],
    "check has no option --memory": [["check", "--memory", "5"], ["check", "--mem=5"]],
    "dump has no option --quiet": [["dump", "-q", "a"], ["dump", "a", "--quiet"]],
    "option '--help' doesn't allow an argument": [["dump", "--help=x"]],
    "repair of several lists needs --in-place or --check": [["repair", "a", "b"], ["repair", "a", "b", "-o", "c"]],
    "repair has one of --check, --in-place and -o": [["repair", "a", "-i", "--check"], ["repair", "a", "-i", "-o", "b"], ["repair", "a", "--check", "-o", "b"]],
    "only whole files are repaired in place": [["repair", "-i", "a", *more] for more in (["--offset=8"], ["--length=8"], ["--swap"], ["--hex"])],
    "not a number": [["check", "a", option, text] for option in ("--offset", "--length") for text in ("", "x", "-1", "8K", "1 ")],
    "standard input is not repaired in place": [["repair", "-i", "-"], ["repair", "--in-place", "a", "-"]],
    "dump has --around, or --from and --to": [["dump", "a", "--around=1", "--from=1"], ["dump", "a", "--around=1", "--to=1"]],
    "takes one list": [["dump", "a", "b"], ["draw", "a", "b"], ["report", "a", "b", "-o", "x.html"]],
    "not one of text, gcc, github, json and sarif": [["check", "--format", "xml", "a"], ["check", "--format=", "a"], ["lint", "--format=", "a"], ["lint", "--format", "tex", "a"]],
    "needs a list; - is standard input": [[command] for command in LIST_COMMANDS] + [["check", "-q"], ["check", "--"]],
    "diff needs two lists; - is standard input": [["diff"], ["diff", "a"], ["diff", "-q", "a"]],
    "diff takes two lists": [["diff", "a", "b", "c"]],
    "not one of text and json": [["diff", "a", "b", "--format", form] for form in ("", "gcc", "jso")],
    "diff has no option --f3dex2": [["diff", "a", "b", "--f3dex2=8"]],
    "translate needs a file of memory; - is standard input": [["translate"], ["translate", "-o", "x"]],
    "translate takes one file of memory": [["translate", "a", "b", "-o", "x"]],
    "translate needs -o OUT": [["translate", "a"], ["translate", "a", "--start", "8"]],
    "edit needs a list; - is standard input": [["edit"]],
    "edit needs a list, a place and a command": [["edit", "a"], ["edit", "a", "0"], ["edit", "a", "0", "word"]],
    "the place is no number of 32 bits": [["edit", "a", text, "0" * 16] for text in ("", "x", "0x100000000", "1K")],
    "a word has sixteen hexadecimal digits": [["edit", "a", "0", text] for text in ("", "27", "0" * 15, "0" * 17, "0x", "0" * 15 + "g", "E7")],
    "more words are given than the command has": [["edit", "a", "0", "27" + "0" * 14, "0" * 16], ["edit", "a", "0", "24" + "0" * 14, "0" * 16, "0" * 16],
                                                  ["edit", "a", "0", "sync_pipe sync_pipe"], ["edit", "a", "0", "word" + " 0" * 23]],
    "edit has one of --in-place and -o": [["edit", "a", "0", "0" * 16, "-i", "-o", "b"]],
    "only whole files are edited in place": [["edit", "-i", "a", "0", "0" * 16, *more] for more in (["--offset=8"], ["--length=8"], ["--swap"], ["--hex"])],
    "standard input is not edited in place": [["edit", "-i", "-", "0", "0" * 16]],
    "edit has no option --f3dex2": [["edit", "a", "0", "0" * 16, "--f3dex2=8"]],
    "--f3dex2 goes with none of --offset, --length, --swap and --hex": [
        ["check", "a", "--f3dex2=8", option] for option in ("--offset=8", "--length=8", "--swap", "--hex")],
    "repair has no option --f3dex2": [["repair", "a", "--f3dex2=8"]],
    "not an offset of 32 bits": [["translate", "a", "--start", text, "-o", "x"] for text in ("", "x", "-8", "0x100000000", "8K")],
    "translate has no option --offset": [["translate", "a", "--offset=8"]],
    "lint needs a list; - is standard input": [["lint"], ["lint", "-Wno-all"]],
    "asm needs a text of a list; - is standard input": [["asm"], ["asm", "-o", "x"]],
    "asm takes one text of a list": [["asm", "a", "b", "-o", "x"]],
    "asm has no option --hex": [["asm", "a", "--hex"]],
    "draw needs --memory BYTES or --memory FILE": [["draw", "a"], ["draw", "a", "-o", "x.bin"]],
    "draw needs -o OUT": [DRAW],
    "report needs -o OUT": [["report", "a"]],
    "ends in none of .png, .ppm and .bin": [[*DRAW, "-o", name] for name in ("x.gif", "x", ".png", "-", "")],
    "not a number of bytes up to 256M": [["draw", "a", "--memory", text, "-o", "x.bin"] for text in (
        "", "64x", "0x", "0xG", "0x0x5", "1KK", "257M", "268435457", "99999999999999999999", "17592186044416M",
        "18446744073709551616")],
    "not an address": [[*DRAW, "--start", text, "-o", "x.bin"] for text in ("", "x", "1,", "-1", "0x10000000000000000", "18446744073709551616")],
    "not ADDRESS,WIDTH,HEIGHT,SIZE": [[*DRAW, "--image", text, "-o", "x.png"] for text in (
        "", "0,8,4", "0,8,4,4", "0,8,4,24", "0,0,4,16", "0,8,0,16", "0,8,4,16,", "0,4097,4,16", "0,8,4097,16", "0,8,,16", "0 ,8,4,16")],
}


@test
def wrong_arguments_are_told():
    for reason, calls in WRONG.items():
        for arguments in calls:
            status, out, err = run(*arguments)
            same((status, out), (2, ""), arguments)
            assert reason in err and "--help" in err, (arguments, err)
            assert err.startswith(("lanyardrove: ", "Usage: ")), (arguments, err)
    same(files(), [])


@test
def a_build_that_names_no_list_is_not_green():
    for line in ('"$0" check $LISTS', '"$0" check $LISTS < /dev/null', '"$0" dump $LISTS < /dev/null'):
        done = subprocess.run(["sh", "-c", line, TOOL], input=b"", capture_output=True)
        same((done.returncode, done.stdout), (2, b""), line)
    same(run("check", "-"), (0, "0 0\naccepted: 0 words, the list is empty\n", ""))  # named, and empty


@test
def control_characters_in_names_do_not_reach_the_terminal():
    odd, shown = "a\033[31m\n\t\u009bZ\x7f\u00e9.bin", "a\\x1B[31m\\x0A\\x09\\xC2\\x9BZ\\x7F\u00e9.bin"
    for arguments in (["check", odd], ["check", odd, odd], ["check", "-q", odd, odd], ["repair", odd, "-o", "-"], ["dump", odd],
                      ["draw", example("i.rdp"), "--memory", "64", "-o", odd], [odd]):
        done = subprocess.run([TOOL, *arguments], input=b"", capture_output=True)
        text = (done.stdout + done.stderr).decode()
        assert shown in text and not [c for c in text.replace("\n", "") if ord(c) < 32 or 127 <= ord(c) < 160], (arguments, text)
    same(run("check", odd, odd)[1].count("\n"), 3)  # and a name is in one line


@test
def numbers_are_decimal_or_hexadecimal():
    for memory, length in (("0", 0), ("0x40", 64), ("0X4f", 79), ("1K", 1024), ("0x1K", 1024), ("007", 7)):
        same(run("draw", example("a.rdp"), "--memory", memory, "--start", "0xFFFFFFFFFFFFFFFF", "-o", "x.bin")[0], 0, memory)
        same(os.path.getsize("x.bin"), length, memory)


@test
def options_may_stand_anywhere():
    write("-q.rdp", words(*S, R))
    same(run("check", "--", "-q.rdp")[:2], (0, "0 4\naccepted: 4 words\n"))
    same(run("check", "-q", "--", "-q.rdp")[:2], (0, "0 4\n"))
    same(run("check", "./-q.rdp", "--quiet")[:2], (0, "0 4\n"))
    same(run("repair", "--output=--.rdp", "--", "-q.rdp")[0], 0)
    same(files(), ["--.rdp", "-q.rdp"])
    status, out, err = run("check", "-q.rdp")
    same((status, out), (2, ""))
    assert "invalid option -- '.'" in err, err


@test
def help_and_version():
    overview = run("--help")[1]
    same((run("-h"), run("help")), ((0, overview, ""), (0, overview, "")))
    same(run("help", "chek")[:2], (2, ""))
    for command in COMMANDS:
        status, out, err = run(command, "--help")
        same((status, err), (0, ""), command)
        assert out.startswith(f"Usage: lanyardrove {command}"), out
        assert f"\n  {command} " in overview, command
        assert max(map(len, out.split("\n"))) <= 80, command
        same((run(command, "-h"), run("help", command)), ((0, out, ""), (0, out, "")), command)
    status, out, err = run("--version")
    same(run("-V"), (0, out, ""))
    same((status, err), (0, ""))
    assert re.fullmatch(r"lanyardrove \d+\.\d+\.\d+\n", out), out


@test
def output_that_cannot_be_written_is_an_error():
    for command in (["check", example("i.rdp")], ["dump", example("i.rdp")], ["dump", example("sunset.rdp")], ["repair", example("i.rdp")],
                    ["--version"], ["check", "--help"]):
        with open("/dev/full", "wb") as full:
            done = subprocess.run([TOOL, *command], stdout=full, stderr=subprocess.PIPE)
        same((done.returncode, done.stderr.count(b"\n")), (2, 1), done.stderr)
        assert b"standard output" in done.stderr, done.stderr
        done = subprocess.run(["sh", "-c", 'exec "$@" >&-', "sh", TOOL, *command], stderr=subprocess.PIPE)
        same(done.returncode, 2, command)
    done = subprocess.run(["sh", "-c", 'exec "$@" >&-', "sh", TOOL, "report", example("i.rdp"), "-o", "i.html"], stderr=subprocess.PIPE)
    same((done.returncode, done.stderr, files()), (0, b"", ["i.html"]))  # nothing is printed, so nothing is missing
