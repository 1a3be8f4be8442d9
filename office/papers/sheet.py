"""The style sheet of the club's papers: light and dark on a screen, black on white on paper of the size A4."""

COLORS = """\
:root {
  --ground: #fffdf8; --ink: #1d1f24; --quiet: #565c66; --rule: #c9c4b8; --band: #f3efe4; --link: #0b57a4;
  --c0: #0a5fa8; --c1: #b8400a; --c2: #00705a; --c3: #7b3f98; --c4: #7a5a00; --c5: #b01e5b; --c6: #41505f;
  --c7: #3f7400;
  --water: #d6e8f5; --forest: #dcecd3; --mountain: #e4e1e4; --plain: #f6efd2; --swamp: #dfe6cf; --desert: #f7e3c6;
  --other: #ece7f3; --hatch: #5d6570;
}
"""
DARK = """\
@media screen and (prefers-color-scheme: dark) {
  :root {
    --ground: #15181d; --ink: #e6e6e2; --quiet: #a3abb5; --rule: #444b55; --band: #20252c; --link: #8ebef5;
    --c0: #6cb6ff; --c1: #ff9d6c; --c2: #4fd0b0; --c3: #d3a3ec; --c4: #e3c25a; --c5: #ff8fb8; --c6: #b5c2cf;
    --c7: #a5d36a;
    --water: #16324a; --forest: #1d3a24; --mountain: #37363d; --plain: #3c3820; --swamp: #2c3726; --desert: #463521;
    --other: #332d40; --hatch: #a3abb5;
  }
}
"""
PAGE = """\
* { box-sizing: border-box; }
html { background: var(--ground); color: var(--ink); font: 16px/1.5 Georgia, 'Liberation Serif', serif; }
body { max-width: 62rem; margin: 0 auto; padding: 1.5rem 1.25rem 4rem; overflow-wrap: anywhere; }
h1, h2, h3, h4 { line-height: 1.2; margin: 1.6em 0 .5em; break-after: avoid; }
h1 { font-size: 2rem; margin-top: 0; }
h2 { font-size: 1.45rem; border-bottom: 1px solid var(--rule); padding-bottom: .2em; margin-top: 2em; }
h3 { font-size: 1.15rem; }
p, ul, ol { margin: .6em 0; max-width: 46rem; }
a { color: var(--link); }
.quiet { color: var(--quiet); }
code, pre { font-family: 'DejaVu Sans Mono', 'Liberation Mono', monospace; font-size: .85em; }
code { background: var(--band); padding: 0 .2em; border-radius: 3px; }
pre { background: var(--band); padding: .6em .8em; overflow-x: auto; white-space: pre-wrap; border-radius: 4px; }
pre code { background: none; padding: 0; font-size: 1em; }
.wide { overflow-x: auto; margin: .8em 0; }
table { border-collapse: collapse; font: .875rem/1.35 'Liberation Sans', Arial, sans-serif; }
th, td { padding: .25em .7em; text-align: left; vertical-align: top; overflow-wrap: break-word; }
th, td { border-bottom: 1px solid var(--rule); }
thead th { border-bottom: 2px solid var(--quiet); vertical-align: bottom; }
tbody th { font-weight: 600; }
tbody tr:nth-child(even) { background: var(--band); }
.n { text-align: right; font-variant-numeric: tabular-nums; white-space: nowrap; }
td.t { min-width: 5.5em; }
.moved { display: inline-block; width: 2.6em; padding-left: .5em; text-align: left; color: var(--quiet); }
figure { margin: 1em 0; break-inside: avoid; }
figcaption { font-weight: 600; margin-bottom: .3em; }
.press { border-left: 4px solid var(--rule); padding: .1em 0 .1em 1em; margin: 1.2em 0; }
.press h3 { margin: 0 0 .3em; }
.press p { margin: .4em 0; }
"""
CHART = """\
svg { max-width: 100%; height: auto; font-family: 'Liberation Sans', Arial, sans-serif; }
.chart text { font-size: 13px; fill: var(--ink); }
.chart .tick { fill: var(--quiet); font-size: 12px; font-variant-numeric: tabular-nums; }
.chart .axis { stroke: var(--quiet); stroke-width: 1; }
.chart .grid { stroke: var(--rule); stroke-width: 1; }
.chart .curve { fill: none; stroke-width: 2.2; stroke-linejoin: round; }
.chart .lead { stroke-width: .8; opacity: .6; }
""" + "".join(
    f".c{place} line, .c{place} .curve {{ stroke: var(--c{place}); }}\n"
    f".c{place} .mark {{ fill: var(--c{place}); stroke: var(--ground); stroke-width: .8; }}\n"
    for place in range(8)
)
PRINT = """\
@page { size: A4; margin: 16mm 14mm 18mm; }
@media print {
  :root { --ground: #fff; --ink: #000; --quiet: #333; --rule: #999; --band: #f1f1f1; --link: #000; }
  html { font-size: 10.5pt; }
  body { max-width: none; padding: 0; }
  .wide { overflow: visible; }
  table { font-size: 8.5pt; }
  th, td { padding: .18em .5em; }
  thead { display: table-header-group; }
  tr, figure, .press p { break-inside: avoid; }
  p { orphans: 3; widows: 3; }
  a { text-decoration: none; }
  svg.chart { max-height: 56mm; }
  pre { break-inside: avoid; border: 1px solid var(--rule); }
  * { print-color-adjust: exact; -webkit-print-color-adjust: exact; }
}
"""
MAP = """\
.world { font-family: 'Liberation Sans', Arial, sans-serif; }
.world .ground { fill: var(--ground); }
.world text { fill: var(--ink); font-size: 11px; }
.world .name { font-size: 14px; font-weight: 600; }
.world .number { font-weight: 400; fill: var(--quiet); }
.world .letter { font-size: 13px; font-weight: 700; }
.world text.quiet { fill: var(--quiet); }
.world .badge { fill: var(--ground); stroke: var(--quiet); stroke-width: .8; }
.world .cell { stroke: var(--quiet); stroke-width: 1; }
.world .hatch { fill: none; stroke: var(--hatch); stroke-width: 1.1; stroke-linecap: round; }
.world .way { stroke: var(--quiet); stroke-width: 3; }
.world .by-sea { stroke-dasharray: 3 4; }
""" + "".join(f".world .{look} .cell {{ fill: var(--{look}); }}\n" for look in (
    "water", "forest", "mountain", "plain", "swamp", "desert", "other"))
MAP_PAGE = """\
@page { size: A4 landscape; margin: 12mm; }
body { max-width: 80rem; }
.map { text-align: center; }
@media print {
  .world { width: 100%; max-height: 150mm; }
  .world .ground { fill: #fff; }
}
"""
HANDOUT = """\
.part { margin-top: 4rem; }
nav ul { list-style: none; padding: 0; }
nav li { margin: .5em 0; }
.part > h1 { border-bottom: 3px double var(--rule); padding-bottom: .2em; }
@media print {
  .part { break-before: page; margin-top: 0; }
  .world { width: 100%; height: auto; }
}
"""
STYLE = COLORS + DARK + PAGE + CHART + PRINT
