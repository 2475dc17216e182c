"""The report in a real browser: headless Chromium, at the width of a desktop and of a phone."""
import html
import json
import os
import re
import shutil
import subprocess

from support import C, L, N, ONE_CYCLE, R, S, png_pixels, read, run, same, test, words, write
from test_copy import OWN

# Where the parts of the page are, whether something else covers them, and their text as it is shown.
PROBE = """<script>
const parts = {};
for (const id of ["verdict", "refused", "cause"]) {
    const part = document.getElementById(id);
    if (part === null)
        continue;
    const box = part.getBoundingClientRect();
    const top = document.elementFromPoint(box.left + box.width / 2, box.top + box.height / 2);
    parts[id] = { box: [box.left, box.top, box.right, box.bottom].map(Math.round), seen: part.contains(top), text: part.innerText };
}
parts.overflow = document.documentElement.scrollWidth - document.documentElement.clientWidth;
document.body.dataset.parts = JSON.stringify(parts);
</script>"""
# Which rows are shown for each choice, and how wide a column of each strip is.
CHOICES = """<script>
const parts = { shown: {}, strips: [] };
for (const choice of document.querySelectorAll("input[name=show]")) {
    choice.click();
    const rows = [...document.querySelectorAll("tbody tr")].filter(row => row.getBoundingClientRect().height > 0);
    parts.shown[choice.id] = rows.map(row => row.querySelector("th").innerText);
}
for (const strip of document.querySelectorAll(".strip svg"))
    parts.strips.push(strip.getBoundingClientRect().width / strip.viewBox.baseVal.width);
parts.overflow = document.documentElement.scrollWidth - document.documentElement.clientWidth;
document.body.dataset.parts = JSON.stringify(parts);
</script>"""
# What a page of steps shows after each of the keys, and after the slider is moved, and how long the longest way takes.
STEPPED = """<script>
const parts = { seen: [] }, started = performance.now();
function look(what) {
    const row = document.querySelector("tr.now"), list = document.querySelector(".list").getBoundingClientRect(), mark = document.querySelector("#picture .mark");
    const box = (row || document.querySelector("tbody tr")).getBoundingClientRect(), under = document.elementFromPoint(box.left + 40, box.top + box.height / 2);
    const svg = document.querySelector("#picture svg:not(.gone)"), whole = svg && svg.getBoundingClientRect();
    parts.seen.push({ what, told: told.innerText, place: row && row.querySelector("a").innerText, hash: location.hash, value: +slider.value,
                      inside: box.top >= list.top - 1 && box.bottom <= list.bottom + 1 && (!row || row.contains(under)),
                      marked: mark && ["x", "y", "width", "height"].map(name => +mark.getAttribute(name)),
                      loaded: [...document.querySelectorAll("#texture .mark")].length, parts: document.querySelectorAll("#picture svg:not(.gone)>:not(.gone,.mark)").length,
                      picture: whole && [whole.left, whole.top, whole.right, whole.bottom] });
}
look("at first");
for (const key of KEYS) {
    if (typeof key === "number") { slider.value = key; slider.dispatchEvent(new Event("input")); }
    else (key === "Tab" ? slider : document.body).dispatchEvent(new KeyboardEvent("keydown", { key: key === "Tab" ? "ArrowLeft" : key, bubbles: true, cancelable: true }));
    look(key);
}
parts.milliseconds = performance.now() - started;
parts.overflow = document.documentElement.scrollWidth - document.documentElement.clientWidth;
document.body.dataset.parts = JSON.stringify(parts);
</script>"""
RED, RED_INK, GREEN = "fde5e3", "b3160b", "e3f4e5"
YELLOW, YELLOW_INK = "fff3c9", "7a5600"


def browse(page, width, height, *arguments):
    names = ("chromium", "chromium-browser", "google-chrome")
    browser = next((found for found in map(shutil.which, names) if found), None)
    assert browser, "Chromium is not installed: apt-get install chromium, or set CLI_NO_BROWSER=1 to leave out the tests that need it"
    done = subprocess.run([browser, "--headless", "--no-sandbox", "--disable-gpu", "--hide-scrollbars", f"--window-size={width},{height}",
                           "--force-device-scale-factor=1", f"--user-data-dir={os.path.abspath('profile')}", *arguments,
                           "file://" + os.path.abspath(page)], capture_output=True, timeout=120)
    same(done.returncode, 0, done.stderr.decode())
    return done.stdout.decode()


def parts_of(page, width, height, probe=PROBE):
    write("probe.html", read(page).replace(b"</body>", probe.encode() + b"</body>"))
    shown = browse("probe.html", width, height, "--dump-dom")
    return json.loads(html.unescape(re.search(r'data-parts="([^"]*)"', shown)[1]))


def colours_of(page, width, height, *arguments):
    """The colours of the page's pixels, row by row, as hexadecimal digits."""
    browse(page, width, height, f"--screenshot={os.path.abspath('page.png')}", *arguments)
    found_width, found_height, pixels = png_pixels(read("page.png"))
    same((found_width, found_height), (width, height))
    return [[pixels[i:i + 3].hex() for i in range(3 * width * y, 3 * width * (y + 1), 3)] for y in range(height)]


def share(rows, box, colour):
    """How much of a box has a colour."""
    left, top, right, bottom = box
    inside = [row[left:right].count(colour) for row in rows[top:bottom]]
    return sum(inside) / ((right - left) * (bottom - top))


def browser_test(function):
    if os.environ.get("CLI_NO_BROWSER") == "1":
        print(f"LEFT OUT {function.__name__}: CLI_NO_BROWSER is 1")
        return function
    return test(function)


@browser_test
def a_refused_list_is_seen_as_such():
    write("g.rdp", words(*S, R, C))
    same(run("report", "g.rdp", "-o", "g.html")[0], 1)
    for width, height in ((1000, 2200), (500, 3000)):
        parts = parts_of("g.html", width, height)
        verdict, refused, cause = parts["verdict"], parts["refused"], parts["cause"]
        same((verdict["seen"], refused["seen"], cause["seen"], parts["overflow"]), (True, True, True, 0), width)
        assert verdict["box"][1] < 150 and verdict["box"][3] - verdict["box"][1] > 80, verdict  # on top of the page
        assert verdict["text"].startswith("Refused\n") and "word 4: Set Fill Color requires Sync Pipe, for the Fill Rectangle at word 3" in verdict["text"], verdict
        assert refused["box"][2] - refused["box"][0] > 0.8 * width and refused["box"][3] - refused["box"][1] > 30, refused
        assert "37000000F801003F" in refused["text"] and "Refused, 9 4: word 4: Set Fill Color requires Sync Pipe" in refused["text"], refused
        assert "3600800800004004" in cause["text"] and "Causes the refusal at word 4" in cause["text"], cause
        rows = colours_of("g.html", width, height)
        for part, soft, ink in ((verdict, RED, RED_INK), (refused, RED, RED_INK), (cause, YELLOW, YELLOW_INK)):
            assert share(rows, part["box"], soft) > 0.6 and share(rows, part["box"], ink) > 0.005, (width, part)


@browser_test
def an_accepted_list_is_seen_as_such():
    write("i.rdp", words(*S, C, R))
    same(run("report", "i.rdp", "-o", "i.html")[0], 0)
    parts = parts_of("i.html", 900, 700)
    assert not {"refused", "cause"} & set(parts) and parts["verdict"]["text"].startswith("Accepted\n"), parts
    rows = colours_of("i.html", 900, 700)
    assert share(rows, parts["verdict"]["box"], GREEN) > 0.6 and all(RED not in row for row in rows)


@browser_test
def rows_are_chosen_by_kind():
    write("list.rdp", words(ONE_CYCLE, *S[1:], R, 0x0F << 56, *[0] * 21, C, N, 0x26 << 56, L, 0x31 << 56))
    same(run("report", "list.rdp", "-o", "list.html")[0], 1)
    shown = parts_of("list.html", 1000, 1500, CHOICES)["shown"]
    same(shown.pop("show-all"), ["Set Other Modes", "Set Color Image", "Set Scissor", "Fill Rectangle", "Fill Triangle (STZ)", "+ Sync Pipe", "Set Fill Color",
                                 "No Operation", "Sync Load", "Load Tile", "Unassigned"])
    same(shown, {"show-marked": ["Fill Triangle (STZ)", "+ Sync Pipe", "Set Fill Color"], "show-draw": ["Fill Rectangle", "Fill Triangle (STZ)"],
                 "show-load": ["Load Tile"], "show-set": ["Set Other Modes", "Set Color Image", "Set Scissor", "Set Fill Color"], "show-sync": ["Sync Load"],
                 "show-none": ["No Operation"], "show-unassigned": ["Unassigned"]})


@browser_test
def the_longest_list_stays_readable():
    write("long.rdp", words(*S, *[R, L] * 2046, C))
    same(run("report", "long.rdp", "-o", "long.html")[0], 1)
    for width, least in ((1000, 1.5), (500, 0.7)):
        parts = parts_of("long.html", width, 1500, CHOICES)
        same((parts["overflow"], len(parts["strips"])), (0, 8), width)
        assert min(parts["strips"]) > least, (width, parts["strips"])  # pixels of a command


@browser_test
def a_page_has_a_dark_form_and_a_printed_one():
    write("g.rdp", words(*S, R, C))
    run("report", "g.rdp", "-o", "g.html")
    rows = colours_of("g.html", 600, 400, "--blink-settings=preferredColorScheme=0")
    assert share(rows, (0, 0, 600, 20), "14181d") > 0.9, rows[0][:3]
    browse("g.html", 1000, 1000, f"--print-to-pdf={os.path.abspath('g.pdf')}")
    assert read("g.pdf").startswith(b"%PDF-") and 0 < len(re.findall(rb"/Type\s*/Page\b", read("g.pdf"))) <= 2


def stepped(given, width, height, keys, page="steps.html"):
    write("list.rdp", words(*given))
    run("report", "--steps", "list.rdp", "--memory", "80", "-o", page)
    return parts_of(page, width, height, STEPPED.replace("KEYS", json.dumps(keys)))


@browser_test
def steps_go_by_keys_and_slider():
    for width, height in ((1200, 700), (500, 900)):
        parts = stepped(OWN, width, height, ["ArrowLeft", "ArrowLeft", "Tab", "ArrowLeft", "ArrowRight", "End", "PageUp", "PageDown", "Home", 2, "ArrowUp", "x"])
        same(parts["overflow"], 0, width)
        same([seen["value"] for seen in parts["seen"]], [3, 2, 1, 0, 0, 1, 3, 0, 3, 0, 2, 1, 1], width)
        for seen in parts["seen"]:
            step = seen["value"]
            place, marked, told = ((None, None, "before the first"), ("4", [1, 1, 2, 2], "word 4, Fill Rectangle, columns 1 to 2, rows 1 to 2"),
                                   ("8", None, "word 8, Load Tile"), ("11", [5, 1, 2, 2], "word 11, Texture Rectangle, columns 5 to 6, rows 1 to 2"))[step]
            same((seen["told"], seen["place"], seen["marked"]), (f"Step {step} of 3: {told}", place, marked), seen["what"])
            same((seen["hash"], seen["inside"], seen["loaded"], seen["parts"]), (f"#s{step}", True, 2 if step == 2 else 0, (1, 2, 2, 3)[step]), (width, seen))


@browser_test
def the_steps_of_an_empty_list_are_none():
    write("list.rdp", b"")
    same(run("report", "--steps", "list.rdp", "-o", "steps.html")[0], 0)
    probe = "<script>document.body.dataset.parts = JSON.stringify([told.innerText, location.hash, slider.max]);</script>"
    same(parts_of("steps.html", 800, 600, probe), ["Step 0 of 0: before the first", "#s0", "0"])


@browser_test
def a_step_is_seen_as_it_is():
    picture = stepped(OWN, 1200, 700, [])["seen"][0]["picture"]
    side = (picture[2] - picture[0]) / 8
    same((side, picture[3] - picture[1]), (float(int(side)), 4 * side))  # whole pixels of the window

    def pixel(rows, x, y):
        return rows[int(picture[1] + (y + 0.5) * side)][int(picture[0] + (x + 0.5) * side)]

    def shown(where, *arguments):
        rows = colours_of(where, 1200, 700, *arguments)
        return [[pixel(rows, x, y) for x in range(8)] for y in range(4)], rows

    black, blue, red = "000000", "0000ff", "ff0000"
    before, first = [[black] * 8 for _ in range(4)], [[black] * 8 for _ in range(4)]
    for row in first[1:3]:
        row[1:3] = [blue, red]
    last = [row[:5] + row[1:3] + row[7:] for row in first]
    for where, expected in (("steps.html#s0", before), ("steps.html#s1", first), ("steps.html#s2", first), ("steps.html#s3", last), ("steps.html", last),
                            ("steps.html#w7", first), ("steps.html#w9", first), ("steps.html#w12", last)):
        found, rows = shown(where)
        same(found, expected, where)
        assert (sum(row.count(YELLOW) for row in rows) > 5000) == (where != "steps.html#s0"), where  # the command's row
        left, top = picture[0] + side * (5 if expected == last else 1), picture[1] + side
        border = {rows[int(top + side)][int(left + i)] for i in range(-3, 4)}
        same("d1006c" in border and "ffffff" in border, where not in ("steps.html#s0", "steps.html#s2", "steps.html#w9"), (where, border))
    rows = shown("steps.html", "--blink-settings=scriptEnabled=false")[1]
    assert min(share(rows, (0, 200, 600, 700), colour) for colour in (blue, red)) > 0.005  # the last step, without a script


@browser_test
def steps_of_the_longest_list_go_quickly():
    given = [*S, *[word for i in range(2046) for word in (C + i * 997, R)]]
    parts = stepped(given, 1200, 700, ["Home", "End", "ArrowLeft", 1000, "ArrowRight", "Home"])
    same([(seen["value"], seen["inside"]) for seen in parts["seen"]], [(value, True) for value in (2046, 0, 2046, 2045, 1000, 1001, 0)])
    same([seen["parts"] for seen in parts["seen"]], [2047, 1, 2047, 2046, 1001, 1002, 1])
    assert parts["milliseconds"] < 5000, parts["milliseconds"]
