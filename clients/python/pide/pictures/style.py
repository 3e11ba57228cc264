"""The style of all pages: light and dark by the reader's setting, for wide screens, phones and paper."""

LIGHT = """
  --paper: #fcfbf8; --panel: #f3f1ea; --rule: #d9d5c8; --ink: #1f2328; --quiet: #595f69; --link: #0a5a8c;
  --word: #0b4f9c; --keyword: #6a3d9a; --formula: #7a4508; --comment: #5c6470; --fact: #0f6148; --given: #0b5a3f;
  --wrong: #a8201a; --wrong-panel: #fbeceb; --right: #1a6b3c; --mark: #fff1c2; --focus: #0b4f9c;
  --eval: #1d5fae; --fork: #8a4f08; --print: #6a3d9a; --shade: #eeece4;
"""

DARK = """
  --paper: #15171c; --panel: #1e2128; --rule: #3a3f4a; --ink: #e6e7ea; --quiet: #a7aebb; --link: #8cc4f5;
  --word: #8ab8ff; --keyword: #c9aaf7; --formula: #e8b878; --comment: #9ba4b3; --fact: #7fd6b4; --given: #8fe3c2;
  --wrong: #ff938a; --wrong-panel: #33201f; --right: #7ed59b; --mark: #3d3616; --focus: #8ab8ff;
  --eval: #7fb0ff; --fork: #e8b060; --print: #c9aaf7; --shade: #20242c;
"""

_BASE = """
* { box-sizing: border-box; }
html { font: 100%/1.5 system-ui, -apple-system, "Segoe UI", Roboto, "Noto Sans", sans-serif; color: var(--ink);
  background: var(--paper); -webkit-text-size-adjust: 100%; scroll-padding-top: 1.5rem; }
body { margin: 0 auto; padding: 1.25rem clamp(1rem, 3vw, 2.5rem) 4rem; max-width: 110rem; }
h1 { font-size: 1.75rem; line-height: 1.2; margin: .25rem 0 .5rem; font-weight: 650; letter-spacing: -.01em;
  overflow-wrap: anywhere; }
h2 { font-size: 1.0625rem; line-height: 1.4; margin: 2rem 0 .5rem; font-weight: 650; }
p { margin: .25rem 0; max-width: 44rem; }
a { color: var(--link); text-underline-offset: .18em; text-decoration-thickness: .06em; }
a:hover { text-decoration-thickness: .13em; }
:focus-visible { outline: .16rem solid var(--focus); outline-offset: .12rem; border-radius: .15rem; }
main:focus, #text:focus { outline: none; }
:target { background: var(--mark); }
.skip { position: absolute; left: -99rem; background: var(--paper); padding: .5rem 1rem; z-index: 3; }
.skip:focus { left: 1rem; top: .5rem; }
.hidden { position: absolute; width: 1px; height: 1px; overflow: hidden; clip-path: inset(50%); white-space: nowrap; }
header { border-bottom: 1px solid var(--rule); padding-bottom: 1rem; margin-bottom: 1.25rem; }
nav { font-size: .9375rem; margin-bottom: .5rem; display: flex; flex-wrap: wrap; gap: .25rem 1.25rem; }
nav a { padding: .2rem 0; }
nav a[aria-current] { color: var(--ink); font-weight: 650; text-decoration: none; }
nav.neighbours { justify-content: space-between; max-width: 44rem; margin: .25rem 0; }
nav.letters { gap: .25rem .5rem; }
nav.letters a { min-width: 1.75rem; text-align: center; }
.verdict { font-weight: 600; }
.right { color: var(--right); }
.wrong { color: var(--wrong); }
.imports, .remark { color: var(--quiet); }
.remark { font-size: .875rem; }
.errors { max-width: 60rem; border-left: .25rem solid var(--wrong); background: var(--wrong-panel);
  padding: .75rem 1rem; margin: 0 0 1.25rem; border-radius: 0 .375rem .375rem 0; }
.errors h2 { margin: 0 0 .25rem; color: var(--wrong); }
.errors ol, .errors ul { margin: 0; padding-left: 1.5rem; }
.errors li { overflow-wrap: anywhere; }
"""

_TEXT = """
pre, code, .facts dd, .facts dt, svg text { font-family: ui-monospace, "Cascadia Code", "SF Mono", Menlo, Consolas,
  "DejaVu Sans Mono", monospace; }
pre { font-size: .9375rem; line-height: 1.6; margin: 0; padding: 0 0 0 3.25rem; position: relative;
  white-space: pre-wrap; overflow-wrap: anywhere; tab-size: 4; }
code { font: inherit; }
.line::before { content: attr(data-line); position: absolute; left: 0; width: 2.25rem; text-align: right;
  color: var(--quiet); font-size: .75rem; line-height: 2; font-weight: 400; font-style: normal; }
.word { color: var(--word); font-weight: 650; }
.keyword { color: var(--keyword); font-weight: 600; }
.formula { color: var(--formula); }
.comment { color: var(--comment); font-style: italic; }
.broken { color: var(--wrong); }
.given { color: var(--given); font-weight: 650; }
.fact, .theory, .bound { color: var(--fact); }
a.fact, a.theory { text-decoration-style: dotted; }
.control::before { content: attr(data-code); font-size: .6875rem; border: 1px solid var(--wrong);
  color: var(--wrong); border-radius: .2rem; padding: 0 .15rem; }
.control { unicode-bidi: isolate; }
.command { border-radius: .2rem; }
.command:hover, .command:focus { background: var(--shade); }
.in-error { text-decoration: underline wavy var(--wrong) .09em; text-underline-offset: .22em;
  text-decoration-skip-ink: none; }
.note, .fault { font-size: .8125rem; line-height: 1.25rem; user-select: none; white-space: pre-wrap;
  text-decoration: none; }
.note { display: none; position: fixed; z-index: 2; left: 0; right: 0; bottom: 0; max-height: 45vh; overflow: auto;
  background: var(--panel); border-top: .2rem solid var(--word); padding: .6rem 1rem; }
.command:hover + .note, .command:focus + .note, .command:focus-within + .note, .note:hover { display: block; }
.note > * { display: block; position: relative; }
.state .hidden { position: absolute; }
.proved { color: var(--right); }
.suggestion { color: var(--quiet); margin-top: .25rem; }
.fault { display: block; color: var(--wrong); background: var(--wrong-panel);
  border-left: .2rem solid var(--wrong); padding: .125rem .6rem; margin: .1rem 0;
  border-radius: 0 .25rem .25rem 0; width: fit-content; max-width: 100%; }
.note .fault { padding: 0 .6rem; margin: 0 0 .25rem; }
@media (min-width: 75rem) {
  pre { padding-right: 27rem; max-width: calc(30.25rem + 92ch); }
  .note { left: auto; right: 1.5rem; bottom: 1.5rem; width: 26rem; border: 1px solid var(--rule);
    border-left: .2rem solid var(--word); border-radius: 0 .375rem .375rem 0; box-shadow: 0 .25rem 1rem #0003; }
  .fault.below { display: none; }
  .note.beside { display: block; float: right; clear: right; position: static; width: 25.5rem;
    margin: .125rem -27rem .125rem 0; padding: 0 .75rem; box-shadow: none; }
  .note.beside { background: none; border: 0; border-left: .15rem solid var(--rule); border-radius: 0;
    max-height: none; }
  .note.beside .fault { margin: 0 -.75rem; border: 0; width: auto; padding: 0 .75rem; border-radius: 0; }
  .note.beside:has(> .fault) { border-left-color: var(--wrong); }
  .note.beside .resting, .note.beside .suggestion { display: none; }
  .command:hover + .note.beside > *, .command:focus + .note.beside > * { display: block; }
  .command:hover + .note.beside, .command:focus + .note.beside { border-left-color: var(--word);
    background: var(--shade); }
}
"""

_LISTS = """
.keys { margin-top: 1.5rem; clear: both; }
pre::after { content: ""; display: block; clear: both; }
aside { border-top: 1px solid var(--rule); margin-top: 2.5rem; font-size: .9375rem; }
.facts { display: grid; grid-template-columns: minmax(8rem, max-content) 1fr; gap: .2rem 1.5rem; margin: 0;
  font-size: .875rem; }
.facts dt { overflow-wrap: anywhere; }
.facts dd { margin: 0; color: var(--formula); overflow-wrap: anywhere; }
.facts .from { color: var(--quiet); font-size: .8125rem; margin-left: .75rem; }
.unproved { color: var(--wrong); font-size: .8125rem; margin-left: .75rem; }
dl.imports { display: grid; grid-template-columns: minmax(8rem, max-content) 1fr; gap: .2rem 1.5rem; }
dl.imports dd { margin: 0; }
table { border-collapse: collapse; width: 100%; max-width: 60rem; margin: .5rem 0; }
th, td { text-align: left; padding: .4rem 1rem .4rem 0; border-bottom: 1px solid var(--rule); vertical-align: top;
  overflow-wrap: anywhere; }
thead th { font-size: .8125rem; color: var(--quiet); font-weight: 600; overflow-wrap: normal; }
td:last-child { white-space: nowrap; }
tbody th { font-weight: 600; }
td.number, th.number { text-align: right; padding-right: 2rem; font-variant-numeric: tabular-nums; }
.graph { overflow: auto; max-height: 80vh; padding: .25rem 0; }
svg { display: block; }
svg text { font-size: 13px; fill: var(--link); }
svg rect { fill: var(--panel); stroke: var(--rule); }
svg a:hover rect, svg a:focus rect { stroke: var(--focus); stroke-width: 2; }
svg a.wrong rect { stroke: var(--wrong); stroke-dasharray: 5 3; }
svg a.wrong text { fill: var(--wrong); }
svg .import { fill: none; stroke: var(--quiet); stroke-width: 1; }
@media (max-width: 37.5rem) {
  body { padding: .75rem .75rem 5rem; }
  h1 { font-size: 1.375rem; }
  pre { padding-left: 1.9rem; font-size: .8125rem; }
  .line::before { width: 1.4rem; font-size: .6875rem; line-height: 1.9; }
  .facts, dl.imports { grid-template-columns: 1fr; gap: 0; }
  .facts dd, dl.imports dd { padding-left: 1rem; margin-bottom: .4rem; }
  th, td { padding-right: .6rem; font-size: .875rem; }
  td.number, th.number { padding-right: .6rem; }
}
@media print {
  html { font-size: 10pt; }
  body { max-width: none; padding: 0; }
  nav, .skip, .keys, .note:not(.beside) { display: none !important; }
  pre { padding-right: 0; font-size: 9pt; }
  .note.beside { display: inline; position: static; float: none; background: none; border: 0; padding: 0;
    margin: 0 0 0 1.5rem; color: var(--quiet); font-size: 8pt; white-space: normal; }
  .note.beside > * { display: inline; margin-right: .75rem; }
  .note.beside .fault, .note.beside .resting, .note.beside .suggestion { display: none; }
  .fault.below { display: block; }
  .graph { max-height: none; overflow: visible; }
  .graph svg { max-width: 100%; height: auto; }
  a { color: inherit; }
  h2, dt, tr { break-after: avoid; }
}
@media (prefers-reduced-motion: no-preference) { html { scroll-behavior: smooth; } }
"""

STYLE = (
    f":root {{ color-scheme: light dark;{LIGHT}}}\n"
    f"@media (prefers-color-scheme: dark) {{ :root {{{DARK}}} }}\n"
    f"@media print {{ :root {{ color-scheme: light;{LIGHT}}} }}\n"
    f"{_BASE}{_TEXT}{_LISTS}"
)
