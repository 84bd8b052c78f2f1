"""The style of a page, and its one script, without which it can be read too."""

STYLE = """
:root { color-scheme: light dark; --bg: #fff; --fg: #1c2430; --soft: #566173; --line: #d5dbe3;
  --edge: #818b98; --panel: #f6f8fa; --red: #b42318; --redbg: #fdeceb; --green: #17692f;
  --greenbg: #e5f5ea; --blue: #1b5799; --bluebg: #e3ecf7; --mark: #fff3c4; }
@media (prefers-color-scheme: dark) { :root { --bg: #14181d; --fg: #e4e8ee; --soft: #a2adbc;
  --line: #38414d; --edge: #768291; --panel: #1c2229; --red: #ff9a90; --redbg: #43201d;
  --green: #7bdc95; --greenbg: #17311f; --blue: #93bff2; --bluebg: #1f3148; --mark: #3d3512; } }
* { box-sizing: border-box; }
body { margin: 0 auto; max-width: 1100px; padding: 16px; background: var(--bg); color: var(--fg);
  font: 15px/1.5 system-ui, -apple-system, "Segoe UI", "DejaVu Sans", sans-serif; }
h1 { font-size: 22px; line-height: 1.3; margin: 8px 0 12px; overflow-wrap: anywhere; }
h2 { font-size: 18px; margin: 32px 0 8px; padding-top: 8px; border-top: 2px solid var(--line); }
h3 { font-size: 15px; margin: 0 0 8px; font-weight: 600; overflow-wrap: anywhere; }
h4 { font-size: 13px; margin: 14px 0 4px; color: var(--soft); font-weight: 600; }
p { margin: 6px 0; overflow-wrap: anywhere; }
a { color: var(--blue); }
code, pre, .time, svg.graph, table.ways td, .list ul, dd { font-size: 13px;
  font-family: ui-monospace, "DejaVu Sans Mono", Menlo, Consolas, monospace; }
pre { margin: 4px 0; padding: 8px 10px; background: var(--panel); border: 1px solid var(--edge);
  border-radius: 6px; white-space: pre-wrap; overflow-wrap: anywhere; tab-size: 4; }
pre.add { border-left: 4px solid var(--green); user-select: all; }
pre.add, pre.bare { max-height: 320px; overflow-y: auto; }
pre.lines { padding: 4px 0; line-height: 1.45; }
pre.lines span { display: block; padding: 0 10px 0 52px; text-indent: -42px; }
pre.lines i { display: inline-block; width: 34px; margin-right: 8px; text-align: right;
  text-indent: 0; font-style: normal; color: var(--soft); user-select: none; }
pre.lines .rule { background: var(--mark); }
ins { background: var(--greenbg); color: var(--green); text-decoration: underline;
  font-weight: 600; }
.answer { display: inline-block; padding: 1px 12px; border-radius: 14px; margin-right: 8px; }
.no { background: var(--redbg); color: var(--red); } .refused { background: var(--mark); }
.yes { background: var(--greenbg); color: var(--green); }
dl { display: grid; grid-template-columns: max-content 1fr; gap: 2px 14px; margin: 10px 0; }
dt { color: var(--soft); } dd { margin: 0; overflow-wrap: anywhere; min-width: 0; }
table { border-collapse: collapse; width: 100%; }
th { text-align: left; color: var(--soft); font-weight: 600; font-size: 13px; }
th, td { padding: 3px 8px 3px 0; border-bottom: 1px solid var(--line); vertical-align: top;
  overflow-wrap: anywhere; }
.kinds td:first-child { white-space: nowrap; padding-right: 14px; }
td.number, th.number { text-align: right; white-space: nowrap; }
.panel { border: 1px solid var(--edge); border-radius: 8px; padding: 12px; margin: 14px 0; }
.brief { padding: 6px 12px; } .brief h3 { font-weight: 400; margin: 0; }
.place { font-family: ui-monospace, "DejaVu Sans Mono", Menlo, Consolas, monospace; color:
  var(--blue); font-weight: 600; }
.soft { color: var(--soft); } .do, .note { border-left: 4px solid var(--blue); padding: 2px 8px; }
.note { border-color: var(--edge); }
.show { display: flex; flex-wrap: wrap; gap: 8px 28px; align-items: flex-start; }
figure { margin: 10px 0 0; max-width: 100%; min-width: 0; }
figure.timeline { width: 340px; } figure.around { flex: 1 1 420px; }
figcaption { font-size: 13px; color: var(--soft); overflow-wrap: anywhere; margin-bottom: 4px; }
svg { display: block; max-width: 100%; height: auto; }
.scroll { overflow: auto; max-height: 85vh; } .scroll svg { max-width: none; }
summary { cursor: pointer; color: var(--blue); margin: 8px 0 2px; }
.list { display: none; } .list ul { margin: 0; padding-left: 18px; list-style: "– "; }
.list li { overflow-wrap: anywhere; } .list .missing, .missing > span { color: var(--red); }
.plain .list { display: block; }
@media (max-width: 700px) { body { padding: 12px; } .panel { padding: 9px; }
  .list ul ul { padding-left: 12px; }
  .wide > .scroll { display: none; } .wide .list { display: block; }
  table.ways thead { display: none; } table.ways, table.ways tbody, table.ways tr {
  display: block; } table.ways td { display: inline; border: 0; padding: 0; }
  table.ways tr { border-bottom: 1px solid var(--line); padding: 4px 0; }
  table.ways td[data-of]::before { content: " " attr(data-of) " "; color: var(--soft); }
  table.ways td:nth-child(2)::after { content: "\\A"; white-space: pre; } }
.time text { font-size: 11px; fill: var(--fg); } .time .name { font-weight: 700; }
.time .phase, .time .more { fill: var(--soft); } .time .bad { fill: var(--red); font-weight: 700; }
.time .bar { fill: var(--bluebg); stroke: var(--blue); } .time .open, .time .passed {
  fill: none; stroke-dasharray: 4 3; } .time .passed { stroke: var(--red); }
.time .look { fill: var(--blue); } .time .put { fill: var(--green); }
.time .wrong { stroke: var(--red); stroke-width: 2.5; fill: none; }
.time .line { stroke: var(--line); stroke-dasharray: 2 3; }
svg.graph text { fill: var(--fg); font-size: 12px; } svg.graph .edge text { font-size: 11px; }
svg.graph polygon, svg.graph path, svg.graph ellipse, svg.graph polyline { stroke: var(--soft);
  fill: none; } svg.graph .edge polygon { fill: var(--soft); } svg.graph .edge path {
  stroke-width: 0.8; }
svg.graph .recipe path, svg.graph .recipe polygon { fill: var(--bluebg); stroke: var(--blue); }
svg.graph .phony path { stroke-dasharray: 4 3; }
svg.graph .unlisted path { stroke-dasharray: 5 3; stroke-width: 1.5; }
svg.graph .missing path { stroke: var(--red); stroke-width: 2; stroke-dasharray: 5 3; }
svg.graph .missing polygon { stroke: var(--red); fill: var(--red); }
svg.graph .missing text, svg.graph .file text { fill: var(--red); }
svg.graph .file polygon, svg.graph .file polyline { stroke: var(--red); }
svg.graph .more polygon { stroke: none; }
input, button { font: inherit; border: 1px solid var(--edge); border-radius: 6px;
  background: var(--bg); color: var(--fg); }
input { width: 100%; padding: 6px 10px; margin: 6px 0; }
button { float: right; margin: 6px; padding: 1px 10px; font-size: 13px; cursor: pointer; }
ol { padding-left: 30px; margin: 4px 0; } li { margin: 3px 0; overflow-wrap: anywhere; }
.panel:target { outline: 3px solid var(--blue); }
.key { font-size: 13px; color: var(--soft); }
.key span { margin-right: 14px; display: inline-block; }
.key svg { display: inline-block; vertical-align: middle; margin-right: 4px; }
@media print {
  :root { color-scheme: light; --bg: #fff; --fg: #000; --soft: #444; --line: #aaa; --edge: #777;
    --panel: #fff; --red: #a3180f; --redbg: #fff; --green: #11521f; --greenbg: #fff;
    --blue: #123f70; --bluebg: #eef3fa; --mark: #fff3c4; }
  body { max-width: none; padding: 0; font-size: 12px; }
  input, button { display: none; }
  details::details-content { content-visibility: visible; display: block; }
  pre.add, pre.bare, .scroll { max-height: none; overflow: visible; }
  .scroll svg, svg { max-width: 100%; height: auto; }
  h2, h3, h4 { break-after: avoid; } figure, svg, pre.lines { break-inside: avoid; }
  .answer { border: 1px solid; } }
"""

# Puts a field above the table of ways, which hides the rows that don't hold what is typed, and a
# button at lines to add, which copies them. Unfolds all where the page is printed.
SCRIPT = """
var each = Array.prototype.forEach;
var table = document.querySelector("table.ways");
if (table) {
  var field = document.createElement("input");
  field.type = "search";
  field.placeholder = "Filter: a recipe, a file, a kind of way";
  field.setAttribute("aria-label", field.placeholder);
  table.parentNode.insertBefore(field, table);
  var rows = Array.prototype.slice.call(table.tBodies[0].rows);
  var texts = rows.map(function (row) { return row.textContent.toLowerCase(); });
  field.addEventListener("input", function () {
    var words = field.value.toLowerCase().split(" ");
    rows.forEach(function (row, number) {
      row.hidden = !words.every(function (word) { return texts[number].indexOf(word) >= 0; });
    });
  });
}
function selected(block) {
  var range = document.createRange();
  range.selectNodeContents(block);
  getSelection().removeAllRanges();
  getSelection().addRange(range);
  return document.execCommand("copy");
}
each.call(document.querySelectorAll("pre.add"), function (block) {
  var button = document.createElement("button");
  button.type = "button";
  button.textContent = "Copy";
  block.parentNode.insertBefore(button, block);
  button.addEventListener("click", function () {
    var done = function () { button.textContent = "Copied"; };
    var other = function () {
      button.textContent = selected(block) ? "Copied" : "Selected: copy it";
    };
    if (!navigator.clipboard) other();
    else navigator.clipboard.writeText(block.textContent + "\\n").then(done, other);
  });
});
window.addEventListener("beforeprint", function () {
  each.call(document.querySelectorAll("details"), function (one) { one.open = true; });
});
"""
