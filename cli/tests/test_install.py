"""What is installed: the files, linking from C, the manual page, completion."""
import os
import re
import shlex
import shutil
import subprocess

from support import COMMANDS, TOOL, TOP, example, read, run, same, test, write
from test_readme import program

INSTALLED = ["bin/lanyardrove", "include/lanyardrove.h", "lib/cmake/lanyardrove/lanyardrove-config-version.cmake",
             "lib/cmake/lanyardrove/lanyardrove-config.cmake", "lib/liblanyardrove.a", "lib/pkgconfig/lanyardrove.pc",
             "share/bash-completion/completions/lanyardrove", "share/fish/vendor_completions.d/lanyardrove.fish", "share/man/man1/lanyardrove.1",
             "share/zsh/site-functions/_lanyardrove"]
HEADER = read(os.path.join(TOP, "include", "lanyardrove.h")).decode()
FUNCTIONS = re.findall(r"^uint(?:32|64)_t (lanyardrove_\w+)\(", HEADER, re.M)
INSTALLED = sorted(INSTALLED + [f"share/man/man3/{name}.3" for name in ("lanyardrove", *FUNCTIONS)])


def make(*arguments, status=0, errors=b""):
    """What make prints, run as from a shell: without the flags of a make that runs these tests."""
    env = {name: value for name, value in os.environ.items() if name not in ("MAKEFLAGS", "MFLAGS", "MAKELEVEL")}
    done = subprocess.run(["make", *arguments], cwd=TOP, capture_output=True, env=env)
    same((done.returncode, done.stderr if status == 0 else done.stderr[:len(errors)]), (status, errors), arguments)
    return done.stdout.decode()


def make_built(*arguments, status=0, errors=b""):
    """Runs make on the tool's build; the archive is taken as it is."""
    return make("-s", "-o", "build/liblanyardrove.a", f"CLI_BUILD={os.path.dirname(TOOL)}", *arguments, status=status, errors=errors)


def files_below(root):
    return sorted(os.path.relpath(os.path.join(folder, name), root) for folder, _, names in os.walk(root) for name in names)


@test
def make_makes_archive_and_tool():
    plan = make("-n", "-B")  # nothing is run
    assert re.search(r"^cd crates/lanyardrove && rt lib$", plan, re.M) and re.search(r"^gcc .* -o build/lanyardrove ", plan, re.M), plan


@test
def make_names_the_libraries_that_are_missing():
    for goal in ("cli-libraries", "cli", "all"):
        make("-s", "-B", "-o", "build/liblanyardrove.a", "PKG_CONFIG=false", goal, status=2,
             errors=b"The tool needs libpng and jansson: apt-get install libpng-dev libjansson-dev pkg-config\n")


@test
def install_and_uninstall():
    root = os.path.abspath("a root")
    make_built("install", f"DESTDIR={root}", "PREFIX=/usr")
    same(files_below(root), ["usr/" + name for name in INSTALLED])
    same([name for name in INSTALLED if os.access(f"{root}/usr/{name}", os.X_OK)], ["bin/lanyardrove"])
    done = subprocess.run([f"{root}/usr/bin/lanyardrove", "check", "-q", example("g.rdp")], capture_output=True)
    same((done.returncode, done.stdout), (1, b"9 4\n"))
    write(f"{root}/usr/lib/other", b"")
    make_built("uninstall", f"DESTDIR={root}", "PREFIX=/usr")
    same(files_below(root), ["usr/lib/other"])


@test
def the_dockerfile_has_only_steps_that_are_run():
    """make dockerfile runs them; here is only seen that it knows them all, and that what is copied is made."""
    text = read(os.path.join(TOP, "Dockerfile")).decode()
    steps = re.findall(r"^([A-Z]+) (.*)$", text.replace("\\\n", ""), re.M)
    same({step for step, _ in steps}, {"FROM", "RUN", "COPY"})
    known = re.findall(r"^    ([A-Z]+)\)", read(os.path.join(TOP, "tools", "dockerfile")).decode(), re.M)
    same(set(known), {"FROM", "RUN", "COPY"})
    plan = make("-n", "-o", "build/liblanyardrove.a", "dockerfile")
    assert "bash tools/dockerfile" in plan and 'install -D -m $mode "${pair#*=}" "build/installed/usr/' in plan, plan
    for name in (rest.split()[0] for step, rest in steps if step == "COPY"):
        assert name == "build/installed/usr" or os.path.exists(os.path.join(TOP, name)), name


@test
def a_debian_package_is_installed_and_used():
    version = run("--version")[1].split()[1]
    machine = subprocess.run(["dpkg", "--print-architecture"], capture_output=True, check=True).stdout.decode().strip()
    make_built("deb")
    package = os.path.join(os.path.dirname(TOOL), f"lanyardrove_{version}_{machine}.deb")
    root = os.path.abspath("root")
    os.makedirs("root/var/lib/dpkg/updates")
    os.makedirs("root/var/lib/dpkg/info")
    write("root/var/lib/dpkg/status", read("/var/lib/dpkg/status"))  # so that what it depends on is known
    dpkg = ["dpkg", f"--root={root}", "--force-not-root", "--log=/dev/null"]
    subprocess.run([*dpkg, "-i", package], check=True, capture_output=True)
    installed = [name for name in files_below(root) if not name.startswith("var/")]
    same(installed, ["usr/" + name for name in INSTALLED])
    done = subprocess.run([f"{root}/usr/bin/lanyardrove", "check", "-q", example("g.rdp")], capture_output=True)
    same((done.returncode, done.stdout), (1, b"9 4\n"))
    depends = subprocess.run(["dpkg-deb", "-f", package, "Depends"], capture_output=True, check=True).stdout.decode()
    assert "libc6" in depends and "libpng" in depends and "libjansson" in depends, depends
    subprocess.run([*dpkg, "-r", "lanyardrove"], check=True, capture_output=True)
    same([name for name in files_below(root) if not name.startswith("var/")], [])
    os.remove(package)


@test
def each_function_has_a_manual_page_of_the_headers_text():
    root = os.path.abspath("root")
    make_built("install", f"DESTDIR={root}", "PREFIX=/usr")
    for name in ("lanyardrove", *FUNCTIONS):
        page = f"{root}/usr/share/man/man3/{name}.3"
        done = subprocess.run(["man", "--warnings", "-l", page], capture_output=True, env={**os.environ, "LC_ALL": "C.UTF-8", "MANWIDTH": "200"})
        same((done.returncode, done.stderr), (0, b""), name)
        text = " ".join(done.stdout.decode().split())
        above = HEADER[:HEADER.index("*/") if name == "lanyardrove" else re.search(rf"^uint\d+_t {name}\(", HEADER, re.M).start()]
        comment = re.sub(r"\*/.*", "", above[above.rindex("/*") + 2:], flags=re.S)
        said = " ".join(re.sub(r"^ \*", "", comment, flags=re.M).split()).removeprefix("Lanyardrove: ")
        assert said in text, (name, said, text)
        for ground, number in re.findall(r"(LANYARDROVE_\w+) = (\d+)", HEADER.split("enum lanyardrove_ground {")[1].split("};")[0]) if name == "lanyardrove" else ():
            assert f" {number} {ground} " in text, ground
    declarations = " ".join(HEADER.split())
    for name in FUNCTIONS:
        page = " ".join(read(f"{root}/usr/share/man/man3/{name}.3").decode().split())
        assert re.search(rf"uint\d+_t {name}\([^;]*;", declarations)[0] in page, name


@test
def a_prefix_is_absolute():
    for goal in ("install", "uninstall"):
        for prefix in ("usr", "", "./usr"):
            make_built(goal, f"DESTDIR={os.path.abspath('root')}", f"PREFIX={prefix}", status=2, errors=b"PREFIX is an absolute path")
    same(files_below("."), [])


def pkg_config(prefix, *arguments):
    env = {**os.environ, "PKG_CONFIG_PATH": f"{prefix}/lib/pkgconfig"}
    return subprocess.run(["pkg-config", *arguments, "lanyardrove"], capture_output=True, env=env, check=True).stdout.decode()


@test
def a_program_is_linked_with_pkg_config():
    prefix = os.path.abspath("a prefix & more")
    make_built("install", f"PREFIX={prefix}")
    same("lanyardrove " + pkg_config(prefix, "--modversion"), run("--version")[1])
    write("program.c", program())
    flags = shlex.split(pkg_config(prefix, "--static", "--cflags", "--libs"))
    subprocess.run(["cc", "program.c", "-o", "program", *flags], check=True)
    shutil.rmtree(prefix)  # the library is linked in, and not looked for at run time
    for name, answer in (("g.rdp", "9 4\n"), ("i.rdp", "0 5\n")):
        done = subprocess.run(["./program"], input=read(example(name)), capture_output=True)
        same((done.returncode, done.stdout.decode()), (0, answer))


def sample(name):
    """A folder with a sample of examples/build, the README's program, and one list that is accepted."""
    os.mkdir("game")
    shutil.copy(os.path.join(TOP, "examples", "build", name), "game")
    write("game/check.c", program())
    write("game/a list.rdp" if name != "Makefile" else "game/list.rdp", read(example("i.rdp")))


@test
def lists_are_checked_by_the_sample_for_make():
    sample("Makefile")
    env = {**os.environ, "PATH": f"{os.path.dirname(TOOL)}:{os.environ['PATH']}"}

    def made():
        return subprocess.run(["make", "-C", "game"], capture_output=True, env=env)
    same((made().returncode, b"lanyardrove check" in made().stdout), (0, False))  # the second time nothing is to be done
    write("game/list.rdp", read(example("g.rdp")))
    os.utime("game/list.rdp", (2e9, 2e9))
    for _ in range(2):  # and it stays red
        done = made()
        assert done.returncode == 2 and b"list.rdp:4: error: Set Fill Color requires Sync Pipe [9]\n" in done.stdout, done


def cmake(*arguments):
    assert shutil.which("cmake"), "CMake is not installed: apt-get install cmake"
    return subprocess.run(["cmake", *arguments], capture_output=True, env={**os.environ, "CC": "cc"})


@test
def a_program_and_lists_are_built_by_the_sample_for_cmake():
    prefix = os.path.abspath("a prefix")
    make_built("install", f"PREFIX={prefix}")
    sample("CMakeLists.txt")
    same(cmake("-S", "game", "-B", "made", f"-DCMAKE_PREFIX_PATH={prefix}").stderr, b"")
    same((cmake("--build", "made").returncode, os.path.exists("made/a list.rdp.checked")), (0, True))
    done = subprocess.run(["made/check"], input=read(example("g.rdp")), capture_output=True)
    same((done.returncode, done.stdout), (0, b"9 4\n"))
    write("game/a list.rdp", read(example("g.rdp")))
    os.utime("game/a list.rdp", (2e9, 2e9))
    done = cmake("--build", "made")
    assert done.returncode != 0 and b"a list.rdp:4: error: Set Fill Color requires Sync Pipe [9]\n" in done.stdout, done


@test
def cmake_takes_no_other_major_version():
    prefix = os.path.abspath("prefix")
    make_built("install", f"PREFIX={prefix}")
    sample("CMakeLists.txt")
    version, text = run("--version")[1].split()[1], read("game/CMakeLists.txt")
    major = int(version.split(".")[0])
    for asked, found in ((version, True), (f"{major}", True), (f"{major}.255", False), (f"{major + 1}.0", False), (f"{major - 1}.0", False)):
        write("game/CMakeLists.txt", text.replace(b"find_package(lanyardrove", f"find_package(lanyardrove {asked}".encode()))
        done = cmake("-S", "game", "-B", "made", f"-DCMAKE_PREFIX_PATH={prefix}")
        same((done.returncode == 0, b"compatible" in done.stderr), (found, not found), asked)
        shutil.rmtree("made")


def shell(name, line):
    """What a line of a shell prints, line by line."""
    assert shutil.which(name), f"{name} is not installed: apt-get install {name}"
    flags = {"bash": ["-c"], "zsh": ["-f", "-c"], "fish": ["--no-config", "-c"]}[name]
    done = subprocess.run([name, *flags, line], capture_output=True, env={**os.environ, "HOME": os.path.abspath(".")})
    same((done.returncode, done.stderr), (0, b""), line)
    return done.stdout.decode().split("\n")[:-1]


def completed_by_fish(*typed):
    script = os.path.join(TOP, "cli", "lanyardrove.fish")
    return [line.split("\t")[0] for line in shell("fish", f"source {shlex.quote(script)}; complete -C {shlex.quote(' '.join(['lanyardrove', *typed]))}")]


def completed_by_zsh(*typed):
    """What the function hands to zsh, without its check of files: zsh itself completes only on a terminal."""
    script = os.path.join(TOP, "cli", "lanyardrove.zsh")
    stand_ins = 'compadd() { shift; print -rl -- "$@"; }; _arguments() { for each; do print -r -- "${${each%%:*}%%=}"; done; }'
    words = " ".join(map(shlex.quote, typed))
    return [line for line in shell("zsh", f"{stand_ins}; words=(lanyardrove {words}); CURRENT={len(typed) + 1}; source {shlex.quote(script)}") if line != "*"]


def completed(*typed):
    """What completion by bash offers for the last of the typed words."""
    script = os.path.join(TOP, "cli", "lanyardrove.bash")
    line = (f"source {shlex.quote(script)}; COMP_WORDS=(lanyardrove {' '.join(map(shlex.quote, typed))}); COMP_CWORD={len(typed)}; "
            "_lanyardrove; printf '%s\\n' \"${COMPREPLY[@]}\"")
    return [offered for offered in shell("bash", line) if offered]


@test
def completion_offers_commands_options_and_files():
    write("list one.rdp", b"")
    os.mkdir("lists")
    same(completed(""), [*COMMANDS, "help", "--help", "--version"])
    same(completed("help", "d"), ["dump", "draw", "diff"])
    same((sorted(completed_by_fish("")), completed_by_zsh("")), (sorted([*COMMANDS, "help"]), [*COMMANDS, "help", "--help", "--version"]))
    same((sorted(completed_by_fish("help", "")), completed_by_zsh("help", "")), (sorted(COMMANDS), list(COMMANDS)))
    same(sorted(completed_by_fish("check", "--format", "")), ["gcc", "github", "json", "sarif", "text"])
    assert "lists/" in completed_by_fish("check", "l") and not completed_by_fish("draw", "--start", "l")
    same(sorted(completed_by_fish("diff", "--format", "")), ["json", "text"])
    same(sorted(completed_by_fish("lint", "--warn", "no-s")), ["no-swapped", "no-sync-full"])
    for typed, expected in ((["d"], ["dump", "draw", "diff"]), (["draw", "--m"], ["--memory"]), (["diff", "--format", ""], ["text", "json"]), (["check", "--fo"], ["--format"]), (["check", "--format", "g"], ["gcc", "github"]),
                            (["check", "li"], ["list one.rdp", "lists"]), (["check", "-q", "list "], ["list one.rdp"]),
                            (["repair", "x", "-o", "li"], ["list one.rdp", "lists"]), (["draw", "--start", "l"], []),
                            (["draw", "--memory", "6"], ["64K"]),
                            (["report", "--memory", "li"], ["list one.rdp", "lists"]), (["draw", "--texture", "li"], ["list one.rdp", "lists"]),
                            (["what", "li"], []), (["lint", "-W", "no-s"], ["no-sync-full", "no-swapped"]), (["lint", "--warn", "s"], ["sync-full", "swapped"])):
        same(sorted(completed(*typed)), sorted(expected), typed)


def options_of(command):
    """The options that a command's help lists: letter, name and value. The tool prints them from the table that it reads them by."""
    return re.findall(r"^  (?:-([a-zA-Z]), )?--([a-z0-9-]+)(?: (\S+))?(?=  |$)", run(command, "--help")[1], re.M)


def page_options():
    """For each option that the manual page describes, as its help line has it, the commands that it names; all where it names none."""
    page = read(os.path.join(TOP, "cli", "lanyardrove.1")).decode().replace("\\-", "-")
    part = page[page.index(".SH OPTIONS"):page.index(".SH FORMATS")]
    described = {}
    for head, text in re.findall(r"\.TP\n(\.B.*)\n((?:(?!\.TP).*\n)*)", part):
        plain = re.sub(r"^\.B[RI]? |\\f[A-Z]|\"", "", head)
        named = re.findall(r"[a-z]+", text.split("\n")[0][3:]) if text.startswith(".BR ") else COMMANDS
        for command in named:
            described.setdefault(command, []).append(" ".join(plain.replace(" , ", ", ").split()))
    return described


@test
def completion_and_manual_page_have_the_options_of_the_tool():
    described = page_options()
    for command in COMMANDS:
        options = options_of(command)
        assert len(options) >= 1, command
        offered = [f"-{letter}" for letter, _, _ in options if letter] + [f"--{name}" for _, name, _ in options]
        for complete in (completed, completed_by_fish, completed_by_zsh):
            same(sorted(complete(command, "-")), sorted(offered), (command, complete))
        same(sorted(described[command]), sorted(f"{f'-{letter}, ' if letter else ''}--{name}{f' {value}' if value else ''}"
                                                for letter, name, value in options), command)
    page = read(os.path.join(TOP, "cli", "lanyardrove.1")).decode().split(".SH DESCRIPTION")[0]
    same(re.findall(r"^\.B lanyardrove (\w+)$", page, re.M), list(COMMANDS))


@test
def the_manual_page_is_well_formed():
    page = os.path.join(TOP, "cli", "lanyardrove.1")
    assert shutil.which("man"), "man is not installed: apt-get install man-db"
    done = subprocess.run(["man", "--warnings", "-l", page], capture_output=True, env={**os.environ, "LC_ALL": "C.UTF-8", "MANWIDTH": "80"})
    same((done.returncode, done.stderr), (0, b""))
    assert b"NAME" in done.stdout and b"EXIT STATUS" in done.stdout
