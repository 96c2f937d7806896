"""The style and the script of the page."""

STYLE = """
body { font: 15px/1.45 system-ui, sans-serif; margin: 2em auto; max-width: 75em; padding: 0 1em; color: #1b1f24; background: #fff; }
h2 { border-bottom: 1px solid #d0d7de; font-family: ui-monospace, monospace; font-size: 1.1em; }
article { border-left: 5px solid #8c959f; margin: .8em 0; padding: .1em .9em; background: #f6f8fa; }
article.unproved { border-color: #bf8700; } article.limit { border-color: #8250df; } article.refused { border-color: #cf222e; }
article.safe { border-color: #1a7f37; } article.safe-if { border-color: #0969da; }
.verdict { font-weight: 600; } .small { color: #57606a; font-size: .9em; margin: .2em 0; }
.badge { background: #ddf4ff; border-radius: .6em; font-size: .85em; padding: 0 .5em; } .badge.error { background: #ffdce0; }
.line { font-family: ui-monospace, monospace; } summary { cursor: pointer; }
#filters { background: #fff; border-bottom: 1px solid #d0d7de; display: flex; flex-wrap: wrap; gap: .4em 1.2em; padding: .6em 0; position: sticky; top: 0; z-index: 1; }
pre { background: #f6f8fa; overflow: auto; padding: .5em 0; } pre .row { display: block; min-height: 1.3em; padding-right: 1em; } pre i { color: #8c959f; display: inline-block; font-style: normal; margin-right: 1em; text-align: right; width: 4em; }
.row.step { background: #eaeef2; } .row.event { background: #fff8c5; } .row.safe { background: #dafbe1; } .row.safe-if { background: #ddf4ff; }
.row.unproved, .row.limit { background: #ffe2b3; } .row.refused { background: #ffdce0; } .row:target { outline: 2px solid #0969da; }
ol.story li { cursor: pointer; padding: .05em .3em; } ol.story li.on { background: #ddf4ff; }
svg.automaton { display: block; height: auto; max-width: 100%; } svg text { font-size: 12px; text-anchor: middle; }
svg circle { fill: #fff; stroke: #57606a; } svg .initial circle { stroke-width: 3; } svg .error circle { fill: #ffdce0; stroke: #cf222e; }
svg .on circle { fill: #54aeff; } svg .error.on circle { fill: #ff8182; } svg .arrow { fill: none; stroke: #57606a; } svg marker path { fill: #57606a; }
.hidden { display: none; }
"""

SCRIPT = """
const all = (where, what) => [...where.querySelectorAll(what)];
function narrow() {
  const rules = new Set(all(document, '[data-filter]').filter(each => each.checked).map(each => each.dataset.filter));
  const protocol = document.getElementById('protocol').value, text = document.getElementById('text').value.toLowerCase();
  const fresh = document.getElementById('new').checked;
  let count = 0;
  for (const each of all(document, 'article')) {
    const of = each.dataset;
    const shown = rules.has(of.rule) && (!protocol || !of.protocol || of.protocol === protocol) && (!fresh || of.known !== 'true')
      && (!text || each.textContent.toLowerCase().includes(text));
    each.classList.toggle('hidden', !shown);
    count += shown;
  }
  for (const each of all(document, 'section.file')) each.classList.toggle('hidden', !all(each, 'article:not(.hidden)').length);
  document.getElementById('count').textContent = count + ' shown';
}
function show(step) {
  const story = step.closest('details');
  for (const each of all(story, 'li')) each.classList.toggle('on', each === step);
  for (const each of all(story, '.state')) each.classList.toggle('on', each.dataset.state === step.dataset.state);
}
function reveal() {
  const found = location.hash && document.getElementById(location.hash.slice(1));
  const around = found && found.closest('details');
  if (around) { around.open = true; found.scrollIntoView({block: 'center'}); }
}
document.getElementById('filters').addEventListener('input', narrow);
document.getElementById('filters').addEventListener('submit', event => event.preventDefault());
for (const step of all(document, 'ol.story li')) for (const kind of ['click', 'focus', 'mouseenter']) step.addEventListener(kind, () => show(step));
addEventListener('hashchange', reveal);
narrow();
reveal();
"""
