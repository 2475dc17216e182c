"""lanyardrove report: what the page says. test_browser.py looks at it in a browser."""
import base64
import html.parser
import os
import re
import struct

from rules import commands_of, hazards_along
from support import (C, FULL, L, N, ONE_CYCLE, PIPE, R, S, SET_TILE, TEXELS, TILE, chosen, example, inserted, memory_of_i,
                     png_pixels, read, rgb_of, run, same, test, words, write)


class Page(html.parser.HTMLParser):
    """A page whose elements are all closed in order; its text, rows and pictures are kept."""

    def __init__(self, source):
        super().__init__()
        self.source, self.text, self.open, self.rows, self.images, self.tags = source, "", [], [], [], set()
        self.hazards = re.findall('<td class="hazards">(.*?)</td>', source)
        self.feed(source)
        self.close()
        same(self.open, [])

    def handle_starttag(self, tag, attributes):
        self.tags.add(tag)
        if tag == "tr":
            self.rows.append([dict(attributes), ""])
        if tag == "img":
            self.images.append(dict(attributes)["src"])
        if tag not in ("meta", "br", "img", "input"):
            self.open.append(tag)

    def handle_endtag(self, tag):
        same(self.open.pop(), tag)

    def handle_data(self, data):
        self.text += data
        if "tr" in self.open:
            self.rows[-1][1] += data + " "

    def rows_of(self, kind):
        return [text for attributes, text in self.rows if kind in attributes.get("class", "").split()]

    def picture(self):
        same(len(self.images), 1)
        head = "data:image/png;base64,"
        assert self.images[0].startswith(head)
        return png_pixels(base64.b64decode(self.images[0][len(head):], validate=True))


def reported(data, status, name="list.rdp", *more):
    write(name, data)
    same(run("report", name, "-o", "out.html", *more), (status, "", ""), name)
    page = Page(read("out.html").decode())
    assert not page.tags & {"script", "link", "iframe"}, page.tags
    assert not re.search(r"https?:|@import|url\(|\033", page.source), "the page needs another file"
    ids = re.findall(r'id="([^"]+)"', page.source)
    assert len(ids) == len(set(ids)) and set(re.findall(r'href="#([^"]+)"', page.source)) <= set(ids), "a link leads nowhere"
    os.remove("out.html")
    os.remove(name)
    return page


@test
def report_of_a_refused_list():
    page = reported(words(*S, R, C), 1)
    verdict = re.search(r'<section id="verdict" class="verdict is-refused">(.*?)</section>', page.source, re.S)[1]
    assert '<p class="word">Refused</p>' in verdict and "word 4: Set Fill Color requires Sync Pipe, for the <a" in verdict, verdict
    assert "A draw may still use what this command changes" in verdict and '<a href="#refused">' in verdict, verdict
    assert "<code>9 4</code>" in page.source
    refused = page.rows_of("refused")
    same(len(refused), 1)
    assert "37000000F801003F" in refused[0] and "Refused, 9 4: word 4: Set Fill Color requires Sync Pipe, for the" in refused[0], refused
    same(len([row for row in page.rows_of("inserted") if "+ Sync Pipe" in row]), 1)
    assert inserted(1, 50, 6, done="would be inserted").strip() in page.text and "Sync Pipe before word 4, Set Fill Color" in page.text
    assert '<li>Sync Pipe before <a href="#w4">word 4</a>, Set Fill Color</li>' in page.source
    same(page.source.count('class="strip"'), 2)  # the list and the repaired list
    assert "drawn by the repaired list" in page.text
    same(page.picture(), (8, 4, bytes(96)))  # the colour is set after the rectangle


@test
def report_shows_the_cycles_with_the_verdict():
    for given, status, fact in (([*S, R, PIPE, C, TILE, FULL], 0, ("cycles waited", "83")), ([], 0, ("cycles waited", "0")),
                                ([*S, R, TILE, C, PIPE], 1, ("cycles waited before the refusal", "33"))):
        facts = re.findall(r"<dt>(.*?)</dt><dd>(.*?)</dd>", reported(words(*given), status).source)
        same(facts[-1], fact, given)


@test
def report_names_links_and_marks_the_cause():
    triangle = [0x0F << 56, *[R] * 21]
    for given, place, cause, name in (([*S, R, C], 4, 3, "Fill Rectangle"), ([*S, *triangle, C], 25, 3, "Fill Triangle (STZ)"),
                                      ([*S, R, *[N] * 796, R, *[N] * 11, C, L], 812, 800, "Fill Rectangle"), ([*S, L, L, R], 5, 4, "Load Tile")):
        page = reported(words(*given), 1)
        link = f', for the <a href="#cause">{name} at word {cause}</a></'
        verdict, rows = page.source.split("<table>")
        same((verdict.count(link), rows.count(link), page.source.count('id="cause"')), (1, 1, 1))
        same([text.split()[0] for text in page.rows_of("cause")], [str(cause)])
        assert f'Causes the refusal at <a href="#refused">word {place}</a>' in page.source
        assert f"causes the refusal: word {cause}" in page.text and ", yellow the one that it has to wait for" in page.text


@test
def report_of_other_refusals_names_no_cause():
    for name in ("b.rdp", "c1.rdp", "d.rdp", "e.rdp", "f.rdp", "i.rdp"):
        page = reported(read(example(name)), 0 if name == "i.rdp" else 1)
        assert 'href="#cause"' not in page.source and ' cause">' not in page.source and 'class="h-cause"' not in page.source, name
    page = reported(words(*S, R, C, 0x24 << 56), 1)  # a missing sync, and later a command that is cut: no repair, and the check's refusal in drawing
    assert "The list cannot be repaired: 3 5" in page.text, page.text
    assert "The list cannot be drawn: 9 4, word 4: Set Fill Color requires Sync Pipe, for the Fill Rectangle at word 3." in page.text, page.text


@test
def report_of_an_accepted_list():
    page = reported(read(example("i.rdp")), 0)
    assert 'class="verdict is-accepted"' in page.source and "accepted: 5 words" in page.text and "No sync is missing." in page.text
    same((page.rows_of("refused"), page.source.count('class="strip"')), ([], 1))
    same(page.picture(), (8, 4, b"".join(rgb_of(v) for v in struct.unpack(">32H", memory_of_i()))))
    same([text.split()[0] for _, text in page.rows][1:], ["0", "1", "2", "3", "4"])


@test
def report_of_lists_that_cannot_be_drawn_or_repaired():
    for name, texts in (("a.rdp", ["accepted: 0 words, the list is empty", "The list draws no picture.", "The list holds no command."]),
                        ("b.rdp", ["7 bytes follow that are no whole word"]), ("d.rdp", ["The list cannot be repaired: 3 0"]),
                        ("e.rdp", ["The list cannot be drawn: 5 0"]), ("f.rdp", ["The list cannot be repaired: 4 1"])):
        page = reported(read(example(name)), 0 if name == "a.rdp" else 1)
        for text in texts:
            assert text in page.text, (name, page.text)
    page = reported(words(ONE_CYCLE, *S[1:], R, C), 1)
    assert "The repaired list cannot be drawn: 10 3, word 3: Fill Rectangle is not drawn" in page.text, page.text
    page = reported(bytes(40000), 1)
    assert "the commands of its first 32,768 bytes are shown" in page.text
    same(len(page.rows), 4097)


@test
def report_knows_the_places_of_the_given_list_only():
    page = reported(words(*TEXELS, *S, R, L, R, C, ONE_CYCLE, R), 1)  # repaired: TEXELS S R Load L Load R Pipe C ONE_CYCLE R
    same(re.findall(r"Sync \w+ before word \d+", page.text), ["Sync Load before word 6", "Sync Load before word 7", "Sync Pipe before word 8"])
    assert "The repaired list cannot be drawn: 10 10, word 10: Fill Rectangle is not drawn" in page.text, page.text
    assert max(map(int, re.findall(r"[Ww]ords? (\d+)", page.text))) == 10, page.text
    same(page.text.count("pipe: before the commands at words 6 to 8"), 1)  # up to the inserted Sync Pipe


@test
def report_gives_a_reason_for_each_refusal():
    lists = [bytes(32776), bytes(7), words(0x24 << 56), words(0x29 << 56, N), words(R), words(S[0], 0x3F00000700000000, S[2], R),
             words(*S, R, L), words(ONE_CYCLE, *S[1:], 0x24 << 56, 0, SET_TILE), words(*S, R, C), words(0x31 << 56)]
    reasons = [re.search('<p class="why">(.+)</p>', reported(data, 1).source)[1] for data in lists]
    same(len(set(reasons)), 10)


@test
def report_of_a_file_with_an_odd_name():
    page = reported(words(N), 0, "<b>&'\"\n\033[1m.rdp")
    assert '<h1 id="top">&#60;b&#62;&#38;&#39;&#34;??[1m.rdp</h1>' in page.source, page.source


@test
def report_of_standard_input_and_to_standard_output():
    status, out, err = run("report", "-", "-o", "-", stdin=words(*S, R, C))
    same((status, err), (1, ""))
    assert '<h1 id="top">standard input</h1>' in Page(out).source


@test
def report_shows_hazards_along_the_list():
    page = reported(words(*S, R, N, L, C), 1)
    strips = re.findall(r'<svg viewBox="0 0 (\d+) 72".*?>(.*?)</svg>', page.source, re.S)
    bars = [re.findall(r'<rect class="h-(\w+)" x="(\d+)" y="(\d+)" width="(\d+)" height="(\d+)"', strip) for _, strip in strips]
    same([columns for columns, _ in strips], ["7", "8"])
    # from word 4 on pipe and draw, after the refused command at word 5 too, and then tile and load; it is refused for the draw at word 3
    same(bars[0], [("pipe", "4", "2", "3", "14"), ("tile", "6", "20", "1", "14"), ("draw", "4", "38", "3", "14"), ("load", "6", "56", "1", "14"),
                   ("cause", "3", "0", "1", "72"), ("refused", "5", "0", "1", "72")])
    # repaired: S R N Pipe L C
    same(bars[1], [("pipe", "4", "2", "2", "14"), ("tile", "7", "20", "1", "14"), ("draw", "4", "38", "2", "14"), ("load", "7", "56", "1", "14")])
    assert "pipe: before the commands at words 4 to 6" in page.text
    assert "After it the hazards go on as if it had run." in page.text and "unknown" not in page.source


@test
def report_shows_the_hazards_to_the_end():
    triangle = [0x0F << 56, *[R] * 21]
    for given in ([*S, L, *[N] * 4092], [*S, R, C, L, *[N] * 4000, *triangle, N], [L, *[N] * 4996, R, C, L], [R, C, 0x24 << 56]):
        page = reported(words(*given), 0 if len(given) == 4096 else 1)
        shown = [text for (place, _), text in zip(commands_of(given), hazards_along(given)) if place < 4096]
        same(page.hazards, [" ".join(name for name in ("pipe", "tile", "draw", "load") if name in hazards) or "none" for hazards in shown])
    assert "Red marks" not in reported(bytes(7), 1).text and "Red marks" not in reported(bytes(32776), 1).text


@test
def report_has_an_anchor_for_each_word():
    given = [*S, 0x0F << 56, *range(21), 0x24 << 56, 0, R]
    page = reported(words(*given), 0)
    same(sorted(map(int, re.findall(r'id="w(\d+)"', page.source))), list(range(len(given))))
    assert '<details><summary>0F00000000000000<br><span class="more">and 21 more</span></summary><span id="w4">0000000000000000</span><br>' in page.source
    assert '2400000000000000<br><span id="w26">0000000000000000</span></td>' in page.source  # two words are not folded
    same(len(re.findall(r'<a href="#w(\d+)">\1</a>', page.source)), 6)


@test
def report_can_be_read_by_all():
    page = reported(words(*S, R, C), 1)
    for part in ("<main>", "<caption>", '<th scope="col">Command</th>', '<th scope="row" class="name">Fill Rectangle</th>', '<a href="#top">Back to top</a>'):
        assert part in page.source, part
    assert "Made by " + run("--version")[1].strip() in page.text
    # what the bars say to a mouse stands in words too, with links
    runs = re.findall(r'<li>(\w+), at <a href="#w(\d+)">word \2</a> to <a href="#w(\d+)">word \3</a></li>', page.source)
    titles = re.findall(r"<title>(\w+): before the commands at words (\d+) to (\d+)</title>", page.source)
    same((sorted(runs), len(runs)), (sorted(titles), 4))
    same(len(re.findall(r'<a href="#(?:w4|refused|cause)" tabindex="-1"><rect', page.source)), 6)


@test
def report_of_a_list_too_long_for_the_repair_names_the_first_sync():
    for given, text in (([*S, R, *[N] * 3000, C], "Sync Pipe before word 3004, Set Fill Color"), ([*S, R, L, *[N] * 3000], "Sync Load before word 4, Load Tile"),
                        ([ONE_CYCLE, *S[1:], 0x24 << 56, 0, 0x35 << 56, *[N] * 3000], "Sync Tile before word 5, Set Tile")):
        page = reported(words(*given), 1)
        assert f"The list cannot be repaired: 1 2048, the list is over 16,384 bytes.\nThe first sync that it misses: {text}." in page.text, page.text[:2000]
        same([row.split() for row in page.rows_of("inserted")], [["+", *text.split()[:2], "this", "sync", "is", "missing"]])
    assert "The first sync" not in reported(words(*S, R, C), 1).text and "The first sync" not in reported(words(0x24 << 56), 1).text


@test
def report_shows_long_lists_in_several_strips():
    page = reported(words(L, *[N] * 4095), 0)
    same(re.findall(r'<div style="width:(\d+)%">\n<svg viewBox="0 0 (\d+) 72"', page.source), [("100", "512")] * 8)
    same(re.findall(r"<span>word (\d+)</span><span>word (\d+)</span>", page.source), [(str(i), str(i + 511)) for i in range(0, 4096, 512)])
    page = reported(words(L, *[N] * 599), 0)
    same(re.findall(r'<div style="width:(\d+)%">\n<svg viewBox="0 0 (\d+) 72"', page.source), [("100", "512"), ("18", "88")])


@test
def report_shows_colours():
    page = reported(words(0x37000000F801003F, 0x3800000012345678, 0x3A00000080FF0040, N), 0)
    same(re.findall(r'<span class="swatch" style="background:#(\w+)">', page.source),
         ["F80100", rgb_of(0xF801).hex().upper(), rgb_of(0x003F).hex().upper(), "123456", "80FF00"])


@test
def report_shows_a_picture_at_a_useful_size():
    for width, height, shown in ((320, 240, (640, 480)), (8, 4, (320, 160)), (1024, 2, (1024, 2))):
        image = 0x3F10000000000000 | width - 1 << 32
        page = reported(words(S[0], image, 0x2D00000000000000 | width * 4 << 12 | height * 4, R), 0)
        same(re.search(r'<img alt="[^"]+" width="(\d+)" height="(\d+)"', page.source).groups(), tuple(map(str, shown)))


@test
def report_shows_both_plans():
    given = [PIPE, *S, R, TILE, PIPE, C, R, L, PIPE, C]
    page = reported(words(*given), 1)
    told = ["Sync Pipe goes at word 0", "Sync Tile goes at word 5", "Sync Pipe comes before word 9, Load Tile", "Sync Pipe goes at word 10"]
    assert inserted(1, 25, 13, 183, done="would be inserted").strip() in page.text and "Sync Load before word 9, Load Tile" in page.text
    assert "Chosen afresh: " + chosen(3, 1, 0, 10, 183, 100).strip() in page.text, page.text
    same(re.findall(r'<li><a href="#w(\d+)">(Sync .*?)</a></li>', page.source), [(re.search(r"word (\d+)", line)[1], line) for line in told])
    same(re.findall(r'<div class="fresh">Chosen afresh: (.*?)</div>', page.source), [line for line in told if " goes " in line])
    same(len(page.rows_of("changes")), 3)
    same([" ".join(row.split()) for row in page.rows_of("comes")], ["+ Sync Pipe chosen afresh, this comes here"])
    same([" ".join(row.split()) for row in page.rows_of("inserted")], ["+ Sync Load a repair would insert this"])


@test
def report_says_where_both_plans_are_the_same():
    for given, status in (([*S, R, PIPE, C], 0), ([*S, R, L, C], 1), ([], 0)):
        page = reported(words(*given), status)
        assert "Chosen afresh, the syncs would be the same." in page.text
        same((page.rows_of("comes"), page.rows_of("changes")), ([], []))
    assert "hosen afresh" not in reported(words(R), 1).text  # no list that can be repaired
