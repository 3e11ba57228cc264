"""What a timeline's page has in itself: the style of all pages and its own, and a script that shows hints at once."""

from .style import STYLE as COMMON

STYLE = COMMON + """
.timeline text { font-family: inherit; font-size: 12px; fill: var(--ink); }
.timeline .lane { font-weight: 650; font-size: 13px; }
.timeline .told { font-weight: 400; fill: var(--quiet); }
.timeline .time { fill: var(--quiet); font-size: 11px; }
.tick { stroke: var(--rule); stroke-width: 1; stroke-dasharray: 1 3; }
svg .pause rect { fill: var(--shade); stroke: none; }
svg .request rect { fill: var(--link); stroke: none; }
.request text { font-size: 11px; }
svg .answer path { fill: var(--fact); }
svg .answer.refusal path { fill: var(--wrong); }
svg .reports rect { fill: var(--quiet); stroke: none; }
svg .bar.eval { --colour: var(--eval); }
svg .bar.fork { --colour: var(--fork); }
svg .bar.print { --colour: var(--print); }
svg .bar rect { fill: var(--colour); stroke: none; }
svg .bar.kept rect { fill: none; stroke: var(--colour); stroke-width: 1; }
svg .bar.left rect, svg .bar.pending rect { fill: none; stroke: var(--colour); stroke-width: 1;
  stroke-dasharray: 3 2; }
svg .bar.cancelled rect, svg .bar.dropped rect { fill: none; stroke: var(--colour); stroke-width: 1; }
svg .bar rect.cross { fill: url(#crosses); }
#crosses path { stroke: var(--wrong); stroke-width: 1; fill: none; }
svg g:hover > rect { filter: brightness(1.25); }
.legend { list-style: none; display: flex; flex-wrap: wrap; gap: .25rem 1.5rem; padding: 0; margin: 0 0 .5rem;
  font-size: .875rem; color: var(--quiet); }
.legend svg { display: inline-block; vertical-align: -.1rem; }
.graph { max-height: none; }
.hint { position: fixed; left: 0; right: 0; bottom: 0; margin: 0; max-width: none; white-space: pre-line;
  background: var(--panel); border-top: .2rem solid var(--word); padding: .5rem 1.25rem; font-size: .875rem; }
.hint:empty { display: none; }
@media print { .hint { display: none; } .timeline { max-width: 100%; height: auto; } }
"""

SCRIPT = """
"use strict";
(() => {
  const hint = document.getElementById("hint");
  const drawing = document.querySelector("svg.timeline");
  drawing.addEventListener("pointerover", (event) => {
    const group = event.target.closest("g");
    const title = group && group.querySelector(":scope > title");
    hint.textContent = title ? title.textContent : "";
  });
  drawing.addEventListener("pointerleave", () => { hint.textContent = ""; });
})();
"""
