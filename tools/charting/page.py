"""All charts on one page, which opens by itself with no network. A frame is found by its octets: the search runs in the page."""
import json
from html import escape

from . import svg

STYLE = """
html{scroll-padding-top:230px}body{margin:0;font:14px Arial,Helvetica,'Liberation Sans',sans-serif;color:#111;background:#fff}
header{position:sticky;top:0;background:#f1f4f7;border-bottom:1px solid #888;padding:8px 12px;z-index:1}
header h1{font-size:16px;display:inline;margin-right:16px}#octets{width:26em;font:13px monospace;padding:3px}
#answer{margin-left:10px}#hits{max-height:11em;overflow:auto;margin:6px 0 0;padding:0;list-style:none}
#hits a{font:12px monospace;color:#123a61;text-decoration:none}#hits a:hover{text-decoration:underline}#hits mark{background:#ffe9a8}
nav{padding:6px 12px}nav a{margin-right:12px}section{padding:4px 12px 20px;overflow-x:auto}
@media print{header,nav{display:none}section{break-inside:avoid}}
""".strip()

SCRIPT = """
const frames = JSON.parse(document.getElementById("frames").textContent);
const box = document.getElementById("octets"), answer = document.getElementById("answer"), hits = document.getElementById("hits");
const MOST = 200, AROUND = 16;

// Where whole octets of a frame are those that are looked for; -1 where none are.
function place(octets, wanted) {
  let at = octets.indexOf(wanted);
  while (at >= 0 && at % 2 === 1) at = octets.indexOf(wanted, at + 1);
  return at;
}

// The octets with escapes undone.
function plain(octets) {
  let text = "";
  for (let at = 0; at < octets.length; at += 2) {
    const escaped = octets.slice(at, at + 2) === "7d" && at + 2 < octets.length;
    if (escaped) at += 2;
    const octet = parseInt(octets.slice(at, at + 2), 16) ^ (escaped ? 32 : 0);
    text += octet.toString(16).padStart(2, "0");
  }
  return text;
}

function hit(frame, octets, at, length) {
  const item = document.createElement("li"), link = document.createElement("a"), mark = document.createElement("mark");
  const from = Math.max(0, at - AROUND), end = at + length;
  link.href = "#" + frame.id;
  link.append(frame.chart + (frame.line ? ", line " + frame.line : "") + ", from " + frame.side + ": " + frame.label + "  ");
  mark.append(octets.slice(at, end));
  link.append((from ? ".." : "") + octets.slice(from, at), mark, octets.slice(end, end + AROUND) + (end + AROUND < octets.length ? ".." : ""));
  item.append(link);
  return item;
}

function search() {
  const wanted = box.value.toLowerCase().replace(/0x|[\\s:,-]/g, "");
  document.querySelectorAll(".found").forEach(element => element.classList.remove("found"));
  hits.replaceChildren();
  answer.textContent = "";
  if (wanted === "") return [];
  if (!/^([0-9a-f]{2})+$/.test(wanted)) {
    answer.textContent = "whole octets in hexadecimal are wanted";
    return [];
  }
  const found = [];
  for (const frame of frames) {
    let octets = frame.octets, at = place(octets, wanted);
    if (at < 0 && octets.includes("7d")) {
      octets = plain(octets);
      at = place(octets, wanted);
    }
    if (at < 0) continue;
    found.push(frame);
    document.getElementById(frame.id).classList.add("found");
    if (found.length <= MOST) hits.append(hit(frame, octets, at, wanted.length));
  }
  answer.textContent = found.length + (found.length === 1 ? " frame" : " frames") + (found.length > MOST ? ", the first " + MOST + " are listed" : "");
  return found;
}

box.addEventListener("input", search);
box.addEventListener("keydown", event => {
  if (event.key !== "Enter") return;
  const found = search();
  if (found.length > 0) document.getElementById(found[0].id).scrollIntoView({block: "center"});
});

// A page that is opened with ?octets=.. begins with that search.
box.value = new URLSearchParams(location.search).get("octets") || "";
search();
""".strip()


def _frame(drawing, flight, place):
    return {"chart": drawing.chart.name, "id": place, "line": flight.line, "side": flight.side, "label": flight.label,
            "octets": flight.octets.hex()}


def pieces(charts, most, title):
    """The text of the page, piece by piece. It is well-formed XML too."""
    frames = []
    yield '<!DOCTYPE html>\n<html xmlns="http://www.w3.org/1999/xhtml" lang="en"><head><meta charset="utf-8"/>\n'
    yield f"<title>{escape(title)}</title>\n<style>\n{STYLE}\n{svg.STYLE}\n</style></head>\n<body>\n"
    yield f'<header><h1>{escape(title)}</h1><label>Find a frame by its octets: <input id="octets" type="search" autocomplete="off"/></label>'
    yield '<span id="answer"></span><ul id="hits"></ul></header>\n<nav>'
    drawings = [svg.Drawing(chart, most) for chart in charts]
    yield " ".join(f'<a href="#{drawing.id}">{escape(drawing.chart.name)}</a>' for drawing in drawings) + "</nav>\n"
    for drawing in drawings:
        yield "<section>\n"
        for line in drawing.lines(style=False):
            yield line + "\n"
        yield "</section>\n"
        frames += [_frame(drawing, flight, place) for flight, place in drawing.places]
    text = json.dumps(frames, ensure_ascii=False, separators=(",", ":")).replace("<", "\\u003c").replace("&", "\\u0026")
    yield f'<script type="application/json" id="frames">{text}</script>\n'
    yield f"<script>\n//<![CDATA[\n{SCRIPT}\n//]]>\n</script>\n</body></html>\n"
