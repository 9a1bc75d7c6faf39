"""A page that goes through a run step by step: its picture, what each line was answered and why, and the trees of the nodes behind it."""

import json
import os

from explaining import running as explaining
from scripting import grammar, running

from drawing import marks
from drawing.labels import spelled
from drawing.runs import makes_entry

STYLE = """
body{font:14px sans-serif;margin:16px;color:#000;background:#fff}
#picture{overflow-x:auto;border:1px solid #ccc}
#steps{display:flex;flex-wrap:wrap;gap:3px;margin:10px 0}
#steps button{font:12px sans-serif;min-width:30px;padding:3px;border:1px solid #999;background:#f4f4f4;cursor:pointer}
#steps button[aria-current]{background:#000;color:#fff}
#said{min-height:6em}#said b,pre{font:13px monospace;white-space:pre-wrap;overflow-wrap:anywhere}#said b{font-weight:bold}
#trees{display:flex;flex-wrap:wrap;gap:10px}
#trees section{border:1px solid #ccc;padding:0 10px 8px;min-width:130px}#trees h3{font-size:13px;margin:8px 0}pre{margin:0}
.mark.now circle,.mark.now rect,.mark.now path{stroke:#000;stroke-width:4;opacity:1}
"""

# The page's own script: it shows a step, by a button or by the arrow keys.
SCRIPT = """
const steps = JSON.parse(document.getElementById("data").textContent), row = document.getElementById("steps");
function put(parent, name, text) {
  const made = document.createElement(name);
  made.textContent = text;
  parent.append(made);
  return made;
}
let now = 0;
function show(place) {
  now = Math.max(0, Math.min(steps.length - 1, place));
  const step = steps[now], said = document.getElementById("said"), trees = document.getElementById("trees");
  said.replaceChildren(); trees.replaceChildren();
  put(put(said, "p", ""), "b", step.number + ": " + step.line);
  put(said, "pre", step.answer);
  put(said, "p", step.why);
  for (const tree of step.trees) { const box = put(trees, "section", ""); put(box, "h3", tree[0]); put(box, "pre", tree[1]); }
  [...row.children].forEach(button => button.removeAttribute("aria-current"));
  row.children[now].setAttribute("aria-current", "step");
  document.querySelectorAll(".mark.now").forEach(mark => mark.classList.remove("now"));
  const mark = document.querySelector('.mark[data-place="' + step.place + '"]');
  if (mark) { mark.classList.add("now"); mark.scrollIntoView({block: "nearest", inline: "center"}); }
}
steps.forEach((step, place) => {
  const button = put(row, "button", step.number);
  button.title = step.line;
  button.onclick = () => show(place);
});
document.onkeydown = pressed => {
  const by = {ArrowRight: 1, ArrowLeft: -1}[pressed.key];
  if (by) { pressed.preventDefault(); show(now + by); }
};
show(0);
"""


def trees(program, script, drawn):
    """Of each step the trees of the nodes behind it. A node that isn't full has none."""
    words, _ = explaining.words_beside(script)
    count = next((int(step.words[1]) for step, _ in drawn.steps if step.words[0] == "cluster"), 0)
    lines, asked = [], {}
    for line in running.read(script).split("\n"):
        lines.append(line)
        if grammar.texts_of(line):
            asked[len(asked)] = [len(lines) + node for node in range(1, count + 1)]
            lines += [f"tree {node}" for node in range(1, count + 1)]
    answers = running.run(program, ["-", *words], "\n".join(lines)).answers
    return [[shown(node, answers.get(number, [])) for node, number in enumerate(asked[place], 1)] for place in sorted(asked)]


def shown(node, answer):
    if not answer or answer[0].startswith("F"):
        return [f"node {node}: not full", ""]
    return [f"node {node}", "\n".join(answer[1:]) or "no entry"]


def data(program, script, drawn):
    """The steps, as the page's script reads them."""
    place, found = -1, []
    for (step, why), its_trees in zip(drawn.steps, trees(program, script, drawn)):
        place += makes_entry(step)
        said = {"number": step.number, "line": step.line, "answer": "\n".join(step.answer), "why": why, "trees": its_trees}
        found.append({**said, "place": place if makes_entry(step) else -1})
    return json.dumps(found).replace("<", "\\u003c")


def page(program, script, drawn):
    """The lines of the page. It needs no other file."""
    name = spelled(os.path.basename(script))
    yield f'<!DOCTYPE html>\n<html lang="en"><head><meta charset="utf-8"><title>{name}</title><style>{STYLE}</style></head><body>'
    yield f"<h1>{name}</h1><p>A button for each line; the arrow keys go on and back.</p>"
    yield '<div id="picture">'
    yield from marks.picture(drawn)
    yield '</div><div id="steps"></div><div id="said"></div><div id="trees"></div>'
    yield f'<script type="application/json" id="data">{data(program, script, drawn)}</script>'
    yield f"<script>{SCRIPT}</script></body></html>"
