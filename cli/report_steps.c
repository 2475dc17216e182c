/* The page of the steps of a list: the picture and texture memory after each draw and load, beside the commands. It fills the window, and has a script for
   keys and slider; without it the last step is shown. Nothing of the page may be fetched from elsewhere. */
#include "report.h"

static const char policy[] = "<meta http-equiv=\"Content-Security-Policy\" content=\"default-src 'none';img-src data:;style-src 'unsafe-inline';"
                             "script-src 'unsafe-inline'\">\n";

static const char style[] =
    "@media screen{body.steps{max-width:none;padding:0}.steps main{display:grid;grid-template:100vh/minmax(0,11fr) minmax(0,9fr)}\n"
    ".stage,.list{padding:1rem 1.25rem;overflow:auto}.list{border-left:1px solid var(--line);padding-top:0}.steps h1{font-size:1.2rem;margin:0 0 .3rem}\n"
    "@media (max-width:60rem){.steps main{grid-template:auto minmax(0,1fr)/100%;height:100vh}.stage{max-height:62vh}\n"
    ".list{border-left:0;border-top:1px solid var(--line)}}}\n"
    ".controls{display:flex;gap:.6rem;align-items:center;margin:.6rem 0}.controls input{flex:1;min-width:0}\n"
    ".controls button{font:inherit;min-width:2.4rem;padding:.2rem .5rem}#told{display:block;font-weight:600;min-height:1.5em}\n"
    ".views{display:flex;gap:1rem;align-items:flex-start}.views figure{margin:0;min-width:0}#picture{flex:1}#texture{flex:0 0 8.2rem}\n"
    ".views figcaption{color:var(--soft);font-size:.85rem}.views svg{display:block;width:100%;background:#000;outline:1px solid var(--line);\n"
    "overflow:visible;shape-rendering:crispEdges}#picture svg{max-width:calc(var(--w)*40px)}.views image{image-rendering:pixelated}\n"
    ".views .gone{display:none}.mark{fill:none;stroke:#fff;stroke-width:2px;vector-effect:non-scaling-stroke;paint-order:stroke}\n"
    ".mark.under{stroke:#d1006c;stroke-width:5px}tr.now{background:var(--wait-soft);box-shadow:inset .4rem 0 var(--wait)}\n"
    "@media print{.controls,.mark{display:none}}\n";

/* The steps, and what shows one. The parts of both pictures are shown up to the step; the marks are the rectangle drawn and what a load changed. */
static const char script[] =
    "const told = document.getElementById('told'), slider = document.getElementById('slider');\n"
    "const films = ['picture', 'texture'].map(id => {\n"
    "    const film = document.getElementById(id), of = name => [...film.querySelectorAll(name)].map(part => [+part.dataset.s, part]);\n"
    "    const marks = ['mark under', 'mark'].map(name => {\n"
    "        const mark = document.createElementNS('http://www.w3.org/2000/svg', 'rect');\n"
    "        mark.setAttribute('class', name);\n"
    "        return mark;\n"
    "    });\n"
    "    const parts = of('svg>*'), svgs = of('svg');\n"
    "    return { parts, svgs, marks, at: parts.length, caption: film.querySelector('figcaption') };\n"
    "});\n"
    "let now = steps.length, row = null;\n"
    "function showFilm(film, step, box) {\n"
    "    for (; film.at < film.parts.length && film.parts[film.at][0] <= step; film.at++) film.parts[film.at][1].classList.remove('gone');\n"
    "    for (; film.at > 0 && film.parts[film.at - 1][0] > step; film.at--) film.parts[film.at - 1][1].classList.add('gone');\n"
    "    const current = film.svgs.findLastIndex(svg => svg[0] <= step);\n"
    "    film.svgs.forEach((svg, i) => svg[1].classList.toggle('gone', i !== current));\n"
    "    film.marks.forEach(mark => mark.remove());\n"
    "    if (current >= 0) mark(film, film.svgs[current][1], box);\n"
    "}\n"
    "function mark(film, svg, [x, y, width, height]) {\n"
    "    const all = svg.viewBox.baseVal, box = { x, y, width: Math.min(x + width, all.width) - x, height: Math.min(y + height, all.height) - y };\n"
    "    film.caption.textContent = svg.getAttribute('aria-label');\n"
    "    for (const mark of box.width > 0 && box.height > 0 ? film.marks : []) {\n"
    "        for (const name in box) mark.setAttribute(name, box[name]);\n"
    "        svg.append(mark);\n"
    "    }\n"
    "}\n"
    "function show(step) {\n"
    "    now = Math.max(0, Math.min(steps.length, step));\n"
    "    const [place, x, y, w, h, ...load] = now > 0 ? steps[now - 1] : [-1, 0, 0, 0, 0];\n"
    "    showFilm(films[0], now, [x, y, w, h]);\n"
    "    showFilm(films[1], now, load.length ? load : [0, 0, 0, 0]);\n"
    "    if (row) row.classList.remove('now');\n"
    "    row = now > 0 ? document.getElementById('w' + place).closest('tr') : null;\n"
    "    if (row) row.classList.add('now');\n"
    "    const name = row ? row.querySelector('th').textContent : '';\n"
    "    told.textContent = 'Step ' + now + ' of ' + steps.length + (row ? ': word ' + place + ', ' + name : ': before the first') +\n"
    "        (w > 0 && h > 0 ? ', columns ' + x + ' to ' + (x + w - 1) + ', rows ' + y + ' to ' + (y + h - 1) : '');\n"
    "    slider.value = now;\n"
    "    (row || document.querySelector('tbody tr'))?.scrollIntoView({ block: 'center' });\n"
    "    try { history.replaceState(null, '', '#s' + now); } catch (fault) { /* the address stays */ }\n"
    "}\n"
    "/* A pixel is as many of the window's as fit, a whole number where that is one or more: no seam shows. */\n"
    "function fit() {\n"
    "    for (const [, svg] of films[0].svgs) {\n"
    "        const { width, height } = svg.viewBox.baseVal;\n"
    "        const scale = Math.min(document.getElementById('picture').clientWidth / width, Math.max(160, 0.62 * innerHeight) / height, 40);\n"
    "        svg.style.width = width * (scale < 1 ? scale : Math.floor(scale)) + 'px';\n"
    "    }\n"
    "}\n"
    "window.addEventListener('resize', fit);\n"
    "fit();\n"
    "const keys = { ArrowRight: 1, ArrowDown: 1, ArrowLeft: -1, ArrowUp: -1, PageDown: 10, PageUp: -10, Home: -1 / 0, End: 1 / 0 };\n"
    "document.addEventListener('keydown', event => {\n"
    "    if (!(event.key in keys) || event.ctrlKey || event.altKey || event.metaKey || event.target.name === 'show') return;\n"
    "    event.preventDefault();\n"
    "    show(now + keys[event.key]);\n"
    "});\n"
    "slider.addEventListener('input', () => show(+slider.value));\n"
    "document.getElementById('back').addEventListener('click', () => show(now - 1));\n"
    "document.getElementById('on').addEventListener('click', () => show(now + 1));\n"
    "function follow() {\n"
    "    const [, kind, number] = location.hash.match(/^#([sw])(\\d+)$/) || ['', '', ''];\n"
    "    if (kind === 's') show(+number);\n"
    "    if (kind === 'w') show(steps.filter(step => step[0] <= +number).length);\n"
    "    return kind !== '';\n"
    "}\n"
    "window.addEventListener('hashchange', follow);\n"
    "if (!follow()) show(steps.length);\n";

/* What the steps are of, and where they end before the list does. */
static void add_told(Text *text, const Report *report, const Steps *steps)
{
    text_add(text, "<p class=\"kind\">Steps of an RDP command list</p>\n<h1 id=\"top\">");
    text_add_escaped(text, report->path);
    text_add(text, "</h1>\n<p class=\"note\">");
    answer_add(text, &report->list, report->answer, FOR_CHECK);
    text_add(text, ".%s", is_missing_sync(report->answer) ? " It is drawn as if no sync were missing." : "");
    if (is_refused(steps->answer)) {
        text_add(text, " The steps end here: ");
        answer_add(text, &report->list, steps->answer, FOR_DRAW);
        text_add(text, ".");
    }
    text_add(text, "</p>\n");
}

static void add_film(Text *text, const Film *film, const char *name, const char *caption)
{
    text_add(text, "<figure id=\"%s\">\n", name);
    text_append(text, &film->shown);
    text_add(text, "<figcaption>%s</figcaption></figure>\n", caption);
}

static void add_stage(Text *text, const Report *report, const Steps *steps)
{
    char caption[160];
    snprintf(caption, sizeof caption, "Nothing is drawn.");
    if (steps->picture.image.width > 0)
        image_text(&steps->picture.image, caption, sizeof caption);
    text_add(text, "<section class=\"stage\" aria-label=\"Steps\">\n");
    add_told(text, report, steps);
    text_add(text, "<div class=\"controls\"><button id=\"back\" title=\"one step back (left arrow)\">&#9664;</button>"
                   "<input type=\"range\" id=\"slider\" min=\"0\" max=\"%zu\" value=\"%zu\" aria-label=\"step\">"
                   "<button id=\"on\" title=\"one step on (right arrow)\">&#9654;</button></div>\n"
                   "<output id=\"told\">The last step</output>\n"
                   "<p class=\"note\">Arrow keys go one step, Page Up and Page Down ten, Home and End to the first and the last; a place in the table leads to its "
                   "step.</p>\n<div class=\"views\">\n", steps->count, steps->count);
    add_film(text, &steps->picture, "picture", caption);
    add_film(text, &steps->texture, "texture", "");
    text_add(text, "</div>\n</section>\n");
}

void steps_page_add(Text *text, const Report *report, const Steps *steps)
{
    char version[VERSION_ROOM];
    version_text(version);
    head_start_add(text, is_accepted(report->answer) ? "Accepted" : "Refused", report->path, policy);
    text_add(text, "<style>\n@media screen{%s}\n%s</style>\n</head>\n<body class=\"steps\">\n<main>\n", command_blocks, style);
    add_stage(text, report, steps);
    text_add(text, "<section class=\"list\" aria-label=\"Commands\">\n");
    table_add(text, report);
    text_add(text, "<footer>Made by lanyardrove %s</footer>\n</section>\n</main>\n<script>\n\"use strict\";\nconst steps = [", version);
    text_append(text, &steps->table);
    text_add(text, "];\n%s</script>\n</body>\n</html>\n", script);
}
