/* The style of a report: for wide and narrow windows, dark mode and print. */
#include "report.h"

static const char colours[] =
    ":root{color-scheme:light dark;--ink:#1c2128;--soft:#57606a;--paper:#ffffff;--panel:#f4f6f8;--line:#d5dbe1;--link:#0a58b5;\n"
    "--bad:#b3160b;--bad-soft:#fde5e3;--good:#1a6e2e;--good-soft:#e3f4e5;--wait:#7a5600;--wait-soft:#fff3c9;\n"
    "--pipe:#b8540f;--tile:#7a4fb5;--draw:#1f6fb2;--load:#3a7d34}\n"
    "@media screen and (prefers-color-scheme:dark){:root{--ink:#e4e8ec;--soft:#9aa5b1;--paper:#14181d;--panel:#1f252c;--line:#39424c;\n"
    "--link:#7db7ff;"
    "--bad:#ff8f85;--bad-soft:#4a1d1a;--good:#7ed491;--good-soft:#173a20;--wait:#e5bd4f;--wait-soft:#3b2f0d;\n"
    "--pipe:#f0954f;--tile:#b895ee;--draw:#62b0f0;--load:#79c471}}\n";

static const char page[] =
    "*{box-sizing:border-box}\n"
    "body{font:16px/1.5 system-ui,-apple-system,\"Segoe UI\",sans-serif;margin:0 auto;max-width:70rem;padding:1.5rem 1.25rem 4rem;\n"
    "color:var(--ink);background:var(--paper)}\n"
    "h1{font-size:1.6rem;line-height:1.25;margin:0 0 1rem;overflow-wrap:anywhere}h2{font-size:1.15rem;margin:2.2rem 0 .6rem}\n"
    "p{margin:.4rem 0}a{color:var(--link)}code,td.words,td.place{font-family:ui-monospace,\"DejaVu Sans Mono\",Consolas,monospace}\n"
    ".kind{color:var(--soft);margin:0}.note{color:var(--soft);font-size:.9rem}\n"
    "summary{cursor:pointer;font-weight:600}ul{padding-left:1.3rem;margin:.4rem 0}\n"
    ".picture img{image-rendering:pixelated;max-width:100%;height:auto;border:1px solid var(--line);display:block}\n"
    "footer{color:var(--soft);font-size:.85rem;margin-top:2rem}a:focus-visible,summary:focus-visible{outline:2px solid var(--link)}\n"
    ".top{position:fixed;right:1rem;bottom:.6rem;margin:0;padding:.2rem .7rem;border-radius:1rem;background:var(--panel);border:1px solid var(--line);\n"
    "font-size:.85rem}.swatch{display:inline-block;width:1.1em;height:1.1em;margin-right:.3rem;border:1px solid var(--line);vertical-align:-.2em}\n";

static const char verdict[] =
    ".verdict{padding:1.1rem 1.4rem;border-left:.5rem solid;border-radius:.4rem}\n"
    ".is-accepted{background:var(--good-soft);border-color:var(--good)}.is-refused{background:var(--bad-soft);border-color:var(--bad)}\n"
    ".word{font-size:1.7rem;font-weight:700;line-height:1.2;margin:0}.is-accepted .word{color:var(--good)}.is-refused .word{color:var(--bad)}\n"
    ".meaning{font-size:1.15rem;font-weight:600;overflow-wrap:anywhere}\n"
    ".facts{display:flex;flex-wrap:wrap;gap:.6rem 2.2rem;margin:1rem 0 0;padding:0 .2rem}\n"
    ".facts dt{color:var(--soft);font-size:.85rem}.facts dd{margin:0;font-weight:600;font-variant-numeric:tabular-nums}\n";

static const char strips[] =
    ".strip{display:grid;grid-template-columns:3.2rem 1fr;gap:0 .7rem;margin:.5rem 0 1rem}\n"
    ".strip .labels div{height:18px;font-size:.82rem;line-height:18px;text-align:right}\n"
    ".strip svg{width:100%;height:72px;background:var(--panel);border:1px solid var(--line);display:block}\n"
    ".strip>div{min-width:0}.ends span{white-space:nowrap}.strip .ends{display:flex;justify-content:space-between;color:var(--soft);font-size:.8rem}\n"
    ".h-pipe{fill:var(--pipe)}.h-tile{fill:var(--tile)}.h-draw{fill:var(--draw)}.h-load{fill:var(--load)}\n"
    ".h-refused{fill:var(--bad);fill-opacity:.18;stroke:var(--bad);stroke-width:2}\n"
    ".h-cause{fill:#f2c230;fill-opacity:.4;stroke:var(--wait);stroke-width:2}\n"
    ".legend{display:grid;grid-template-columns:repeat(auto-fit,minmax(min(26rem,100%),1fr));gap:.15rem 1.5rem;font-size:.9rem;padding:0;\n"
    "margin:.2rem 0;list-style:none}.legend svg{width:.8rem;height:.8rem;margin-right:.45rem}\n"
    ".runs{font-size:.9rem;margin:.4rem 0 1rem}.runs summary{font-weight:400;color:var(--soft)}.runs ul{columns:3 16rem}\n";

static const char table[] =
    "table{border-collapse:collapse;width:100%;font-size:.93rem}caption{text-align:left;color:var(--soft);font-size:.9rem;padding:.3rem 0}\n"
    "th,td{text-align:left;vertical-align:top;padding:.4rem .6rem;border-bottom:1px solid var(--line)}\n"
    "thead th{background:var(--panel);font-size:.85rem;color:var(--soft);white-space:nowrap;position:sticky;top:0}\n"
    ".place{text-align:right;font-variant-numeric:tabular-nums}.place a{color:inherit;text-decoration:none}.place a:hover{text-decoration:underline}\n"
    ".name{white-space:nowrap;font-weight:600}td.words summary{font-weight:400;list-style:none}\n"
    ".more{color:var(--link);text-decoration:underline}.from{color:var(--soft);font-size:.85em;white-space:nowrap}\n"
    ".choices{border:0;padding:0;margin:0;font-size:.9rem}.choices legend{float:left;padding:0;margin-right:.9rem;color:var(--soft)}\n"
    ".choices label{display:inline-block;margin-right:.9rem}\n"
    ".choices:has(#show-marked:checked)~table tbody tr:not(.refused,.cause,.inserted,.comes,.changes),.choices:has(#show-draw:checked)~table tbody tr:not(.draw),\n"
    ".choices:has(#show-load:checked)~table tbody tr:not(.load),.choices:has(#show-set:checked)~table tbody tr:not(.set),\n"
    ".choices:has(#show-sync:checked)~table tbody tr:not(.sync),.choices:has(#show-none:checked)~table tbody tr:not(.none),\n"
    ".choices:has(#show-unassigned:checked)~table tbody tr:not(.unassigned),\n"
    ".choices:has(#show-differs:checked)~table tbody tr:not(.differs,.rest){display:none}\n"
    "tr:has(:target) td.place,td.place:target{background:var(--wait-soft)}[id^=w]{scroll-margin-top:4rem}\n"
    ".field{display:inline-block;margin-right:.9rem;color:var(--soft)}.field b{color:var(--ink);font-weight:600}\n"
    "tr.refused>*{background:var(--bad-soft)}tr.refused td:first-child{box-shadow:inset .4rem 0 var(--bad)}\n"
    "tr.cause>*{background:var(--wait-soft)}tr.cause td:first-child{box-shadow:inset .4rem 0 var(--wait)}\n"
    "#refused,#cause{scroll-margin-top:7rem}.reason{color:var(--bad);font-weight:700}.cause .reason{color:var(--wait)}\n"
    ".reason a,.meaning a{color:inherit}tr.inserted>*{background:var(--good-soft);color:var(--good)}\n"
    ".fresh{color:var(--draw);font-weight:700}tr.comes>*{background:var(--panel);color:var(--draw)}\n"
    ".pairs tr.differs>*{background:var(--wait-soft)}.pairs tr.rest>*{background:var(--panel)}.pairs .field{display:inline}\n"
    ".pairs{table-layout:fixed}.pairs th:nth-child(3n+1){width:4rem}.pairs th:nth-child(3n+2){width:12rem}.pairs td{overflow-wrap:anywhere}\n";

/* Where there is little room each command is a block. */
const char command_blocks[] =
    "thead{display:none}table,tbody,caption{display:block}\n"
    "tr{display:grid;grid-template-columns:3.4rem 1fr;border-bottom:1px solid var(--line);padding:.4rem 0}\n"
    "td,tbody th{border:0;padding:.1rem .5rem;grid-column:2;min-width:0;overflow-wrap:anywhere}.place{grid-column:1;grid-row:1}.name{grid-row:1}.pairs .place{grid-row:auto}\n"
    "td:empty{display:none}.hazards::before{content:\"hazards before: \";color:var(--soft)}\n"
    "tr.refused{background:var(--bad-soft);box-shadow:inset .4rem 0 var(--bad)}tr.inserted{background:var(--good-soft)}\n"
    "tr.cause{background:var(--wait-soft);box-shadow:inset .4rem 0 var(--wait)}\n"
    "tr.refused>*,tr.cause>*,tr.inserted>*{background:none}tr.refused td:first-child,tr.cause td:first-child{box-shadow:none}\n";

static const char print[] =
    "@media print{html{font-size:11px}body{font-size:1rem;max-width:none;padding:0}.show,.top,.runs,.choices{display:none}h2{break-after:avoid}\n"
    "tr,.strip,.verdict{break-inside:avoid}thead th{position:static}*{print-color-adjust:exact;-webkit-print-color-adjust:exact}}\n";

void style_add(Text *text)
{
    text_add(text, "<style>\n%s%s%s%s%s@media screen and (max-width:48rem){body{padding:1rem .8rem 3rem}%s}\n%s</style>\n", colours, page, verdict, strips, table,
             command_blocks, print);
}
