"""The one command of the README for a fresh machine: what is missing is installed, then built, then a first answer is shown."""
import os
import re
import subprocess

from support import TOP, TOOL, read, same, test, write

NEEDED = ["gcc", "g++", "make", "libpng-dev", "libjansson-dev", "pkg-config"]


def started(installs):
    """Status, output and log of tools/start, where apt-get, dpkg-query, make and sleep are stand-ins that keep a log."""
    os.makedirs("bin", exist_ok=True)
    done = 'touch "$LOG.done"' if installs else "false"
    for name, script in (("apt-get", f'echo "apt-get $*" >> "$LOG"; case "$*" in *install*) {done} ;; esac'), ("sleep", ":"), ("make", 'echo "make $*" >> "$LOG"'),
                         ("dpkg-query", 'shift 3; for each; do [ -e "$LOG.done" ] && echo "install ok installed"; done; exit 0')):
        write(f"bin/{name}", f"#!/bin/sh\n{script}\n".encode())
        os.chmod(f"bin/{name}", 0o755)
    env = {**os.environ, "PATH": f"{os.path.abspath('bin')}:{os.environ['PATH']}", "LOG": os.path.abspath("log")}
    run = subprocess.run(["bash", os.path.join(TOP, "tools", "start")], capture_output=True, env=env)
    return run.returncode, run.stdout.decode(), run.stderr.decode(), read("log").decode().split("\n")[:-1]


@test
def one_command_installs_builds_and_answers():
    if TOOL != os.path.join(TOP, "build", "lanyardrove"):
        return  # it shows the answer of the usual build
    status, out, err, log = started(True)
    same((status, out.split("\n")[0], err), (0, "9 4", ""))
    same(log, ["apt-get update -qq", f"apt-get install -y -qq --no-install-recommends {' '.join(NEEDED)}", "make "])
    status, out, err, log = started(True)
    same((status, log[3:]), (0, ["make "]))  # nothing is missing now


@test
def what_cannot_be_installed_is_told():
    status, out, err, log = started(False)
    same((status, out, err), (1, "", f"Not installed: {' '.join(NEEDED)}\n"))
    same(len(log), 6)  # three times, and nothing is made


@test
def the_readme_has_one_command_for_each():
    readme = read(os.path.join(TOP, "README.md")).decode()
    assert re.search(r"^bash tools/start ", readme, re.M) and re.search(r"^bash \.ci/run ", readme, re.M)
    gate = read(os.path.join(TOP, ".ci", "run")).decode()
    assert set(re.search(r"^bash tools/need (.*)$", gate, re.M)[1].split()) >= set(NEEDED) - {"gcc", "g++", "make"}, gate
