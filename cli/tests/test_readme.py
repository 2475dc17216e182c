"""The README's commands print what it shows, and its program is the one that is linked."""
import os
import re
import shlex
import shutil

from support import TOP, read, run, same, test, write

README = read(os.path.join(TOP, "README.md")).decode()


def blocks(language):
    """The README's blocks of code that are marked so."""
    return [text for mark, text in re.findall(r"^```(\w*)\n(.*?)^```$", README, re.S | re.M) if mark == language]


def program():
    """The README's program in C."""
    return blocks("c")[0].encode()


def shown():
    """Each command of the tool that the README shows, with what it prints."""
    for block in blocks(""):
        for part in re.split(r"^\$ ", block, flags=re.M)[1:]:
            command, _, output = part.partition("\n")
            yield command, output


@test
def the_readme_shows_what_the_commands_print():
    shutil.copytree(os.path.join(TOP, "examples"), "examples")
    commands = list(shown())
    assert {shlex.split(command)[1] for command, _ in commands} >= {"check", "dump", "repair", "draw"}, commands
    for command, output in commands:
        same(run(*shlex.split(command)[1:])[1:], (output, ""), command)


@test
def the_examples_of_the_manual_page_run():
    page = read(os.path.join(TOP, "cli", "lanyardrove.1")).decode().split(".SH EXAMPLES\n.nf\n")[1].split("\n.fi")[0]
    shutil.copytree(os.path.join(TOP, "examples"), "examples")
    for line in page.replace("\\-", "-").split("\n"):
        command, _, out = line.partition(" > ")
        status, text, errors = run(*shlex.split(command)[1:])
        assert status in (0, 1) and errors == "", (line, status, errors)
        if out:
            write(out, text.encode())
    same(read("g.rdp"), read("examples/g.rdp"))


@test
def the_readme_names_the_toolchain():
    assert re.search(r"\(proved and built with `rt version`: rattle-kit-\S+ logic [0-9a-f]{16}\)", README)  # a newer one may serve as well


@test
def the_readme_says_why_check_and_repair_differ_at_example_j():
    assert "`check` refuses examples/j.rdp for a Sync Load (`7 4`)" in README and "at 50 cycles in place of 75" in README
    same(run("check", "-q", os.path.join(TOP, "examples", "j.rdp"))[1], "7 4\n")
    repaired = run("repair", "--check", os.path.join(TOP, "examples", "j.rdp"))[1]
    assert repaired.startswith("Sync Pipe before word 4, Load Tile\n1 sync would be inserted, 50 cycles, 7 words in all"), repaired
    apart = run("check", "--all", "-q", os.path.join(TOP, "examples", "j.rdp"))[1].split()[::2]
    same(sum({"7": 25, "8": 33, "9": 50}[number] for number in apart), 75)


@test
def the_readme_leads_to_the_pages_that_it_names():
    named = set(re.findall(r"(?<![\w/])(?:docs|cli|fuzz|examples|tools|reference|include)/[\w./-]*\w", README))
    missing = [name for name in named if not os.path.exists(os.path.join(TOP, name))]
    assert {"docs/PROOFS.md", "docs/DESIGN.md", "docs/EVIDENCE.md"} <= named and not missing, missing
    proved = README[README.index("## What is proved"):README.index("## What is assumed")]
    assert len(proved.strip().split("\n")) <= 16 and "|" not in proved, proved  # its tables are in docs/PROOFS.md
