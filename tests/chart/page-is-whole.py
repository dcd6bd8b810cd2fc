#!/usr/bin/env python3
"""Holds a page of charts: it is well formed, names nothing outside itself, and each printed frame of the text is found in it.

Usage: page-is-whole.py PAGE TEXT. Prints 'N frames', or what is wrong.
"""
import json
import re
import sys
import xml.etree.ElementTree as trees
from collections import Counter

OUTSIDE = re.compile(r"(?:https?:|//[a-z]|url\(|@import|\bfetch\(|XMLHttpRequest|WebSocket|\bimport\b)")


def wrong(page, text):
    """What is wrong with a page; None where nothing is."""
    tree = trees.fromstring(page)
    elements = list(tree.iter())
    ids = Counter(element.get("id") for element in elements if element.get("id"))
    if max(ids.values()) > 1:
        return f"an id stands twice: {ids.most_common(1)}"
    for element in elements:
        for name, value in element.attrib.items():
            if name.endswith(("src", "href", "data", "action")) and not value.startswith("#"):
                return f"{name} names {value}"
            if name.endswith("href") and value[1:] not in ids:
                return f"a link to {value}, which isn't there"
        code = element.tag.endswith(("style", "script")) and element.get("type") != "application/json"
        if code and OUTSIDE.search(re.sub(r"//.*", "", element.text)):
            return f"a {element.tag} names something outside"
    frames = json.loads(next(element.text for element in elements if element.get("id") == "frames"))
    unseen = [frame["id"] for frame in frames if frame["id"] not in ids]
    if unseen:
        return f"frames without a place: {unseen[:3]}"
    listed = Counter(frame["octets"] for frame in frames)
    missing = Counter(re.findall(r"^\d+ [er] frame (\S+)$", text, re.M)) - listed
    return f"frames that aren't listed: {list(missing)[:3]}" if missing else None


def main():
    with open(sys.argv[1], encoding="utf-8") as page, open(sys.argv[2], encoding="latin-1") as text:
        page, text = page.read(), text.read()
    why = wrong(page, text)
    print(why if why else f"{len(re.findall(' frame ', text))} frames")
    return 1 if why else 0


sys.exit(main())
