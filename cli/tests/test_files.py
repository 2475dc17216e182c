"""Output files: written whole or not at all, beside their place and then renamed."""
import os
import resource
import shutil
import signal
import subprocess

from support import L, PIPE, R, S, C, TOOL, example, files, inserted, read, run, same, test, words, write

REPAIRED_J = words(*S, R, PIPE, L, C)


@test
def what_is_no_file_is_not_written():
    os.mkdir("folder")
    os.mkfifo("pipe")
    os.symlink("nowhere/out.rdp", "dangling")
    os.symlink("dangling", "second")
    for output, reason in (("folder", "Is a directory"), ("/dev/full", "No space left"), ("dangling", "No such file"), ("second", "No such file"),
                           ("missing/out.rdp", "No such file"), ("new/", "Not a directory"), ("", "No such file"),
                           (example("g.rdp") + "/out.rdp", "Not a directory"), (256 * "x", "File name too long")):
        status, out, err = run("repair", example("j.rdp"), "-o", output)
        same((status, out, err.count("\n")), (2, "", 1), output)
        assert reason in err, (output, err)
    same((files(), os.listdir("folder"), os.path.islink("dangling")), (["dangling", "folder", "pipe", "second"], [], True))


@test
def a_device_or_a_pipe_is_written_where_it_stands():
    os.mkfifo("pipe")
    text = "Sync Pipe before word 4, Load Tile\n" + inserted(1, 50, 7)
    same(run("repair", example("j.rdp"), "-o", "/dev/null"), (0, text, ""))
    with subprocess.Popen([TOOL, "repair", example("j.rdp"), "-o", "pipe"], stdout=subprocess.PIPE) as tool:
        same((read("pipe"), tool.stdout.read().decode(), tool.wait()), (REPAIRED_J, text, 0))
    for command in ([TOOL, "repair", example("j.rdp"), "-o", "/dev/stdout"], [TOOL, "repair", example("j.rdp"), "-o", "-"]):
        done = subprocess.run(command, capture_output=True)
        same((done.returncode, done.stdout, done.stderr.decode()), (0, REPAIRED_J, text))
        with open("out.rdp", "wb") as out:
            subprocess.run(command, stdout=out, stderr=subprocess.DEVNULL, check=True)
        same(read("out.rdp"), REPAIRED_J)
    assert os.path.exists("/dev/null") and not os.path.isfile("/dev/null")


@test
def memory_that_is_short_is_told_once():
    def limited(*arguments):
        return subprocess.run(["sh", "-c", 'ulimit -v 60000; exec "$0" "$@"', TOOL, *arguments], capture_output=True)
    if limited("--version").returncode != 0:
        return  # with sanitizers it does not even start
    for arguments in (["report", example("i.rdp"), "-o", "x.html"], ["draw", example("i.rdp"), "--memory", "100M", "-o", "x.bin"]):
        done = limited(*arguments)
        same((done.returncode, done.stdout, done.stderr.count(b"\n")), (2, b"", 1), arguments)
        assert b"not enough memory" in done.stderr, done.stderr
    same(files(), [])


@test
def a_file_that_is_replaced_keeps_link_and_permissions():
    write("real.rdp", b"old")
    os.chmod("real.rdp", 0o640)
    os.symlink("real.rdp", "link.rdp")
    same(run("repair", example("j.rdp"), "-o", "link.rdp")[0], 0)
    assert os.path.islink("link.rdp")
    same((read("real.rdp"), os.stat("real.rdp").st_mode & 0o777), (REPAIRED_J, 0o640))
    mask = os.umask(0o027)
    same(run("repair", example("j.rdp"), "-o", "new.rdp")[0], 0)
    os.umask(mask)
    same((read("new.rdp"), os.stat("new.rdp").st_mode & 0o777), (REPAIRED_J, 0o640))
    longest = 251 * "x" + ".rdp"
    same(run("repair", example("j.rdp"), "-o", longest)[0], 0)
    same(files(), sorted(["link.rdp", "new.rdp", "real.rdp", longest]))


@test
def a_list_may_be_repaired_in_place_and_is_not_overwritten_otherwise():
    write("list.bin", words(*S, R, L, C))
    for arguments in (["draw", "list.bin", "--memory", "64", "-o", "./list.bin"], ["report", "list.bin", "-o", "list.bin"]):
        status, out, err = run(*arguments)
        same((status, out), (2, ""), arguments)
        assert "the output is the list itself" in err, err
    same(read("list.bin"), words(*S, R, L, C))
    same(run("repair", "list.bin", "-o", "list.bin")[0], 0)
    same((read("list.bin"), files()), (REPAIRED_J, ["list.bin"]))


@test
def a_place_without_permission_is_told():
    shutil.copy(TOOL, "tool")
    write("list.rdp", words(*S, R, L, C))
    os.mkdir("open")
    write("open/kept.rdp", b"as it was")
    for name, mode in ((".", 0o755), ("open", 0o777), ("open/kept.rdp", 0o444)):
        os.chmod(name, mode)
    user = 65534 if os.geteuid() == 0 else None  # nobody, since root writes everywhere
    if user is None:
        os.chmod(".", 0o555)
    for output in ("out.rdp", "open/kept.rdp"):
        done = subprocess.run(["./tool", "repair", "list.rdp", "-o", output], capture_output=True, user=user)
        same((done.returncode, done.stdout, done.stderr.decode()), (2, b"", f"lanyardrove: {output}: Permission denied\n"))
    os.chmod(".", 0o755)
    same((files(), os.listdir("open"), read("open/kept.rdp")), (["list.rdp", "open", "tool"], ["kept.rdp"], b"as it was"))


@test
def a_file_that_cannot_be_finished_is_not_left():
    def limit():
        resource.setrlimit(resource.RLIMIT_FSIZE, (1000, 1000))
    write("in.rdp", bytes(8000))
    write("kept.rdp", b"as it was")
    for output in ("kept.rdp", "new.rdp"):
        same(run("repair", "in.rdp", "-o", output, preexec_fn=limit), (2, "", f"lanyardrove: {output}: File too large\n"))
    same((files(), read("kept.rdp")), (["in.rdp", "kept.rdp"], b"as it was"))


@test
def a_file_is_not_left_where_a_signal_ends_the_tool():
    for number in (signal.SIGINT, signal.SIGTERM, signal.SIGHUP):
        done = subprocess.Popen([TOOL, "draw", example("i.rdp"), "--memory", "64M", "-o", "out.bin"], stdout=subprocess.DEVNULL)
        while not files() and done.poll() is None:
            pass
        done.send_signal(number)
        status = done.wait()
        # it may have been too late for the signal: then the file is there, and whole
        assert (status, files()) == (-number, []) or os.path.getsize("out.bin") == 64 << 20 and files() == ["out.bin"], (number, status, files())
        if files():
            os.remove("out.bin")
