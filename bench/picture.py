#!/usr/bin/env python3
"""Draws where a message's time goes, layer by layer: bash bench/stack.sh > TOLD; python3 bench/picture.py TOLD > docs/message-time.svg

Reads what bench/stack.sh printed: the machine, the time of a message of each length at two ends, and by perf's samples the share of each crate. Writes an SVG
with a bar for each length, in which each layer has its share, with its microseconds where there is room for them. Only Python's own library is wanted.
"""
import re
import sys
from xml.sax.saxutils import escape

MEASURED = re.compile(r"\s*(\d+) octets, TPDU size\s+(\d+), window\s+\d+ of modulo\s+8:.*?([0-9.]+) us and\s+([0-9.]+) frames a message")
SAMPLED = re.compile(r"(\d+) octets, TPDU size (\d+), by perf's samples: (.*)")
EVENTS = "the events, with what is inlined in them"
OTHER = "all else"
# A layer, its colour, and the crates whose functions are it.
LAYERS = (
    ("frames: flags, escapes, check sequence", "#4477aa", ("hdlc_frames", "hdlc_fcs", "memchr")),
    ("station of the link", "#66ccee", ("hdlc_station", "hdlc_station_model")),
    ("blocks and transport", "#228833", ("t70_header", "x224_tpdu", "x224_class2")),
    ("safety layer without its ciphers", "#ccbb44", ("sapdu", "safety_automaton", "key_store")),
    # MACs are compiled in place in session_keys, which does nothing else for a message.
    ("DES and MACs", "#ee6677", ("des_block", "cbc_mac", "session_keys")),
    ("copies and zeros", "#aa3377", ("libc memcpy", "libc memmove", "libc memset", "libc memcmp")),
    ("events of the ends, with what is compiled in place", "#999999", (EVENTS, "er_end")),
    (OTHER, "#dddddd", ()),
)
WIDTH, LEFT, BAR, HEIGHT, STEP, TOP = 1000, 210, 640, 44, 66, 150


def layer_of(part):
    return next((name for name, _, crates in LAYERS if part in crates), OTHER)


def shares(text):
    """The share of each layer, of a line of perf's samples."""
    found = dict.fromkeys((name for name, _, _ in LAYERS), 0.0)
    for name, share in re.findall(r"(.+?) ([0-9.]+) %(?:, |$)", text):
        found[layer_of(name)] += float(share)
    found[OTHER] += max(0.0, 100 - sum(found.values()))
    return found


def bars(lines):
    """Of each length and TPDU size that was sampled: both, the microseconds and frames of a message, and the share of each layer."""
    times = {match.group(1, 2): (float(match[3]), float(match[4])) for match in map(MEASURED.match, lines) if match}
    sampled = {match.group(1, 2): shares(match[3]) for match in map(SAMPLED.match, lines) if match}
    return [(*key, *times[key], sampled[key]) for key in times if key in sampled]


def text(x, y, words, **how):
    attributes = "".join(f' {name.replace("_", "-")}="{value}"' for name, value in how.items())
    return f'<text x="{x:.1f}" y="{y:.1f}"{attributes}>{escape(words)}</text>'


def bar(place, length, size, microseconds, frames, found):
    y, x = TOP + place * STEP, LEFT
    yield text(LEFT - 12, y + 19, f"{int(length):,} octets, TPDU size {int(size):,}", text_anchor="end")
    yield text(LEFT - 12, y + 35, f"{frames:.1f} frames a message", text_anchor="end", fill="#555555", font_size=12)
    for name, colour, _ in LAYERS:
        wide = BAR * found[name] / sum(found.values())
        spent = microseconds * found[name] / 100
        yield f'<rect x="{x:.1f}" y="{y}" width="{wide:.1f}" height="{HEIGHT}" fill="{colour}"><title>{escape(name)}: {found[name]:.1f} %, {spent:.2f} us</title></rect>'
        if wide >= 34:
            yield text(x + wide / 2, y + 27, f"{spent:.2f}" if spent < 10 else f"{spent:.1f}", text_anchor="middle", font_size=12)
        x += wide
    yield text(LEFT + BAR + 12, y + 27, f"{microseconds:.2f} us", font_weight="bold")


def legend():
    for place, (name, colour, _) in enumerate(LAYERS):
        x, y = 24 + place % 3 * 325, 62 + place // 3 * 24
        yield f'<rect x="{x}" y="{y}" width="14" height="14" fill="{colour}"/>'
        yield text(x + 20, y + 12, name, font_size=13)


def drawn(machine, found):
    height = TOP + len(found) * STEP + 36
    yield f'<svg xmlns="http://www.w3.org/2000/svg" viewBox="0 0 {WIDTH} {height}" width="{WIDTH}" height="{height}" role="img" font-family="sans-serif" font-size="14" fill="#111111">'
    yield "<title>Where a message's time goes at two ends, by layer</title>"
    yield f'<rect width="{WIDTH}" height="{height}" fill="#ffffff"/>'
    yield text(24, 34, "Where a message's time goes at two ends, by layer, in microseconds of processor time", font_size=17, font_weight="bold")
    yield from legend()
    for place, each in enumerate(found):
        yield from bar(place, *each)
    yield text(24, height - 14, machine, font_size=12, fill="#555555")
    yield "</svg>"


def main():
    if len(sys.argv) != 2 or sys.argv[1].startswith("-"):
        print("usage: python3 bench/picture.py TOLD > PICTURE.svg, where TOLD is what bench/stack.sh printed", file=sys.stderr)
        return 2
    with open(sys.argv[1]) as file:
        lines = file.read().splitlines()
    found = bars(lines)
    if not found:
        print("picture.py: no message was sampled by perf there", file=sys.stderr)
        return 1
    machine = next((line for line in lines if "load of the machine" in line), "which machine isn't told")
    print("\n".join(drawn(f"bench/stack.sh, {machine}", found)))
    return 0


if __name__ == "__main__":
    sys.exit(main())
