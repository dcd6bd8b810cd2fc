"""Holds the words of reasons that stand elsewhere against those of the program: of each reason and sub-reason of a release, in er_base's code, its definition,
docs/FORMATS.md, tools/euroradio_link.lua and tools/charting/labels.py. Closes with 'N passed, M failed'."""
import os
import re
import sys

TOP = os.path.dirname(os.path.dirname(os.path.abspath(__file__)))


def text_of(path):
    with open(os.path.join(TOP, path)) as file:
        return file.read()


def part(text, begin, end):
    return text[text.index(begin):text.index(end, text.index(begin))]


def tables():
    """By place, the words of each reason; those of the user's release under 0, those of no reason under ?."""
    code = part(text_of("crates/er_base/src/release.rt"), "match (self.reason, self.sub)", "\n    }\n")
    found = {f"{r}.{s}" if s != "_" else r: words for r, s, words in re.findall(r'\((\d+), (\d+|_)\) => "([^"]*)"', code)}
    found["?"] = re.search(r'_ => "([^"]*)",\s*}', code)[1]
    yield "crates/er_base/src/release.rt", found
    definition = text_of("crates/er_base/specs/ReasonWords.antt")
    found = {f"{r}.{s}": words for r, s, words in re.findall(r'reason == (\d+) && sub == (\d+) then codes "([^"]*)"', definition)}
    found["0"] = re.search(r'if reason == 0 then codes "([^"]*)"', definition)[1]
    found["?"] = re.search(r'else\s+codes "([^"]*)"\s*$', definition)[1]
    yield "crates/er_base/specs/ReasonWords.antt", found
    lua = part(text_of("tools/euroradio_link.lua"), "local CAUSES = {", "\nend\n")
    found = dict(re.findall(r'\["(\d+\.\d+)"\] = "([^"]*)"', lua))
    found["0"], found["?"] = re.search(r'and "([^"]*)" or CAUSES\[reason\] or "([^"]*)"', lua).groups()
    yield "tools/euroradio_link.lua", found
    found = dict(re.findall(r'"(\d+(?:\.\d+)?)": "([^"]*)"', part(text_of("tools/charting/labels.py"), "REASONS = {", "\n}\n")))
    yield "tools/charting/labels.py", found
    rows = re.findall(r"^\| (\d+\.(?:\d+|X)|other) \| ([^|]*?) \|", part(text_of("docs/FORMATS.md"), "## Releases", "\n## Drills"), re.M)
    yield "docs/FORMATS.md", {{"0.X": "0", "other": "?"}.get(reason, reason): words for reason, words in rows}


def main():
    passed = failed = 0
    wanted = None
    for place, found in tables():
        wanted = wanted or found
        here = {key: words for key, words in wanted.items() if key != "?" or "?" in found}
        if found == here and len(wanted) == 24:
            passed += 1
        else:
            failed += 1
            print(f"{place}: {sorted(set(found.items()) ^ set(here.items()))}")
    print(f"{passed} passed, {failed} failed")
    return 1 if failed or not passed else 0


if __name__ == "__main__":
    sys.exit(main())
