"""For pages.sh beside it: pages.py [--names].

What is looked for of a text in backticks; {A, B} behind /, . or :: stands for each of its parts:

| In backticks | What must be there |
|---|---|
| a path, as `tests/rows.sh`, `er_end/specs` or `er_end_pair_laws/specs/Laws.AreInStep` | a file or folder of which it is the end, with .antt or without, and the name in it |
| `crate::name::name` | each name in that crate's code, definitions or proofs |
| `Type::name`, `module::name` | one file that has all of them |
| any other | each word, in any file of the tree but the pages; of `_name` a word that ends so |

Comments of code and definitions don't count. Words of capitals alone stand for others, as NAME does, and what begins with / lies elsewhere. What the
tree needn't have is in the list here. A row of a table, and a claim of docs/CLAIMS.md, says names of the crates that it names itself or that the head of
its section names, by `CRATE/specs` or `CRATE::`: there each definition and type must stand in one of these, and of "`NAME` of CRATE" the name in that crate,
on every page. Of counts those of crates, of must-fail edits, of claims and of wrong designs are looked at wherever a page tells ten or more. Each file of
tests/designs says what refuses its designs.

And the pages can be read: no sentence above 50 words, no cell of a table above 300 characters, no line above 200 columns but in tables and code blocks, no
day but in docs/SPEED.md and docs/DECISIONS.md, no entry of the latter above 60 words; README.md has at most 120 lines of at most 120 columns.
"""
import fnmatch
import os
import re
import subprocess
import sys

sys.dont_write_bytecode = True

import crates as crate_table  # noqa: E402
import proved  # noqa: E402

TOP = os.path.dirname(os.path.dirname(os.path.abspath(__file__)))
# Words that the tree needn't have, by the reason.
ELSEWHERE = {
    "what commands make": "out/euroradio crates/euroradio/out/euroradio",
    "words, flags and messages of the toolchain": "holes fix RT_JOBS Processes hides statements variables",
    "commands and flags of the system": "nice gc sections v2 copytruncate",
    "what isn't used, and why": "sigaction signalfd sigprocmask ppoll z_stream",
    "stands for any such name": "TOrd lemma my_lemma f_n New::make Tests",
}
SPELLED = "zero one two three four five six seven eight nine ten eleven twelve thirteen fourteen fifteen sixteen seventeen eighteen nineteen".split()
TENS = "twenty thirty forty fifty sixty seventy eighty ninety".split()
WORD = re.compile(r"(?<![A-Za-z_0-9])[A-Za-z_][A-Za-z_0-9]*")
PIECE = re.compile(r"(?<=/|\.|:)\{([^{}]*)\}")
PATH = re.compile(r"(?<![\w./-])[\w.*-]+(?:/[\w.*-]+)+/?|(?<![\w./-])[\w-]+/(?!\S)")
NAMES = re.compile(r"\w+(?:::\w+)+")
# What a page may have at the most.
MOST_WORDS, MOST_CELL, MOST_COLUMNS = 50, 300, 200
MOST_OF_DECISION = 60
README_LINES, README_COLUMNS = 120, 120
DAY = re.compile(r"\b20\d\d-\d\d-\d\d\b")
DATED = ("docs/SPEED.md", "docs/DECISIONS.md")
SENTENCE = re.compile(r"(?<=[\w`)\]\"*'])[.?!][)\"*_]*(?=\s)")
NAMED_CRATE = re.compile(r"\b([a-z_0-9]+)(?=/specs|/proofs|::)")
COMMENT = {".rt": re.compile(r"//.*"), ".antt": re.compile(r"(^|\s)--(\s.*)?$", re.M)}


class Tree:
    def __init__(self):
        listed = subprocess.run(["git", "ls-files", "-z"], capture_output=True, cwd=TOP, check=True).stdout.decode().split("\0")
        self.files = {path for path in listed if os.path.isfile(os.path.join(TOP, path))}
        self.folders = {"/".join(path.split("/")[:n]) for path in self.files for n in range(1, path.count("/") + 1)}
        self.crates = {path.split("/")[1] for path in self.folders if path.startswith("crates/")}
        self.words = {path: words_of(path) for path in self.files if not is_page(path)}
        self.all = set().union(*self.words.values()) | {part for path in self.files for part in WORD.findall(path)}
        self.ends = {path.split("/", n)[n] for path in self.files | self.folders for n in range(path.count("/") + 1)}
        self.of_crate = {crate: set() for crate in self.crates}
        for path, words in self.words.items():
            parts = path.split("/")
            if parts[0] == "crates":
                self.of_crate[parts[1]] |= words if parts[2:3] != ["must-fail"] else {parts[3].partition(".")[0]}

    def lacks(self, text):
        """What of a text in backticks isn't in the tree."""
        for one in unfolded(text):
            yield from self.lacks_one(one)

    def lacks_one(self, text):
        paths = [it for it in PATH.findall(text) if not it.startswith("/")]
        for path in paths:
            if not self.has_path(path.rstrip("/")):
                yield path
            text = text.replace(path, " ")
        for names in NAMES.findall(text):
            if not self.has_names(names.split("::")):
                yield names
            text = text.replace(names, " ")
        text = re.sub(r"(?<!\w)/\S+", " ", text)
        for word in WORD.findall(text):
            if word in self.all or re.fullmatch(r"[A-Z]+[0-9]?", word):
                continue
            if not word.startswith("_") or not any(it.endswith(word) for it in self.all):
                yield word

    def has_path(self, path):
        """A path is the end of one in the tree, with .antt or without; behind a file's own name may stand one in it."""
        pattern = re.sub(r"(?<![^/])[A-Z]+(?![^/])", "*", path)
        if "*" in pattern:
            return any(fnmatch.fnmatchcase(end, pattern) for end in self.ends)
        file, _, name = path.rpartition(".")
        return path in self.ends or f"{path}.antt" in self.ends or any(name in self.words[it] for it in self.words if f"/{it}".endswith(f"/{file}.antt"))

    def is_spec(self, path, crates):
        parts = path.split("/")
        return parts[0] == "crates" and parts[1] in crates and parts[2] == "specs"

    def defines(self, path, owner, name):
        """Whether this file of specs/ is named after the owner, or has it as a record, and has the name."""
        return name in self.words[path] and (path.endswith(f"/{owner}.antt") or owner in self.words[path])

    def has_names(self, names):
        names = [name for name in names if not re.fullmatch(r"[A-Z]+", name)]
        if names[0] in self.crates:
            return all(name in self.of_crate[names[0]] for name in names[1:])
        return any(all(name in words for name in names) for words in self.words.values())


def is_page(path):
    return path == "README.md" or path.startswith("docs/") or path == "tests/pages.py"


def read(path):
    with open(os.path.join(TOP, path), encoding="utf-8", errors="replace") as file:
        return file.read()


def words_of(path):
    text = read(path)
    comment = COMMENT.get(os.path.splitext(path)[1])
    return set(WORD.findall(comment.sub("", text) if comment else text))


def unfolded(text):
    """A text for each part of {A, B} in it."""
    found = PIECE.search(text)
    if not found:
        return [text]
    return [each for part in found[1].split(",") for each in unfolded(text[: found.start()] + part.strip() + text[found.end() :])]


def in_backticks(page):
    """(line, text) of each text in backticks outside of code blocks."""
    lines, inside = read(page).split("\n"), False
    for number, line in enumerate(lines):
        if line.startswith("```"):
            inside = not inside
        lines[number] = "" if inside or line.startswith("```") else line
    text = "\n".join(lines)
    for found in re.finditer(r"(?<!`)(`+)(?!`)((?:(?!\n\n).)+?)(?<!`)\1(?!`)", text, re.S):
        yield text[: found.start()].count("\n") + 1, found[2].strip()


def number(text):
    """The number that a word spells or digits write, or None."""
    text = text.lower().replace(",", "")
    tens, _, ones = text.partition("-")
    if text.isdigit():
        return int(text)
    if text in SPELLED:
        return SPELLED.index(text)
    if tens in TENS and (not ones or ones in SPELLED[1:10]):
        return 20 + 10 * TENS.index(tens) + (SPELLED.index(ones) if ones else 0)
    return None


def counts(tree):
    """What the pages may count, and how many there are."""
    of_code = [path for path in tree.files if path.startswith("crates/") and path.endswith((".rt", ".antt"))]
    listed = re.search(r"^CLAIMS = \[\n(.*?)^\]", read("tests/closures.py"), re.M | re.S)[1]
    return {
        r"crates": len(tree.crates),
        r"must-fail edits": sum(path.endswith(".edit") for path in tree.files),
        r"claims": listed.count("\n"),
        r"wrong designs of the code": sum(path.startswith("tests/designs/") and path.endswith(".patch") for path in tree.files),
        r"lines of code, definitions and proofs": round(sum(read(path).count("\n") for path in of_code), -4),
    }


def blocks_of(page):
    """(line, text) of each row of a table, and of docs/CLAIMS.md of each claim: what stands below one heading of the third level, behind what stands at
    the head of its section, which may name crates for all of its claims."""
    section, claim, begin = [], [], None
    for number, line in enumerate(read(page).split("\n") + ["#"], 1):
        if line.startswith("|"):
            yield number, line
        if line.startswith("#"):
            if begin:
                yield begin, "\n".join(section + claim)
            elif claim and claim[0].startswith("## "):
                section = claim
            claim, begin = [], number if line.startswith("### ") and page == "docs/CLAIMS.md" else None
            section = [] if not line.startswith("### ") else section
        claim.append(line)


def lost_in_blocks(tree, page):
    """(line, name) of each definition or type in a block that no crate of the block has: the crates that it names, any where it names none."""
    for number, text in blocks_of(page):
        texts = [each for it in re.findall(r"`([^`]+)`", text) for each in unfolded(it)]
        named = {word for it in texts for word in NAMED_CRATE.findall(it) if word in tree.crates}
        crates = named or tree.crates
        for it in texts:
            found = re.fullmatch(r"(?:([a-z_0-9]+)/specs/)?([A-Z]\w+)\.([A-Za-z_]\w*)(?:\.\w+)?", it)
            if found and not any(tree.defines(path, found[2], found[3]) for path in tree.words if tree.is_spec(path, {found[1]} if found[1] else crates)):
                yield number, it
            if named and re.fullmatch(r"[A-Z]\w*[a-z]\w*", it) and not any(it in tree.of_crate[crate] for crate in named):
                yield number, it


def faults_of_designs(tree):
    """What of the heads of the wrong designs isn't as it should be: each says what refuses it, by names that the tree has."""
    for path in sorted(path for path in tree.files if path.startswith("tests/designs/")):
        head = re.match(r"(?:# .*\n)*", read(path))[0] if path.endswith(".patch") else read(path)
        if not re.search(r"refuse[sd]? (?:by|it)\b", head):
            yield f"{path}: its first lines don't say what refuses it"
        for text in re.findall(r"`([^`]+)`", head):
            yield from (f"{path}: `{text}`: the tree has no {word}" for word in tree.lacks(text))


def lost_of_crates(tree, page):
    """(line, name, crate) of each name that is said of a crate, as `NAME` of CRATE, and isn't in it."""
    text = read(page)
    for found in re.finditer(r"`(\w+)`(?:,? (?:and )?`\w+`)*\s+of\s+`?([a-z_0-9]+)\b`?(?!::|/)", text):
        if found[2] in tree.crates and "_" in found[2] and found[1] not in tree.of_crate[found[2]]:
            yield text[: found.start()].count("\n") + 1, found[1], found[2]


def without_edits(tree, page):
    """(line, crate) of each crate whose must-fail edits a page speaks of, as "edits of CRATE", and that has none."""
    text = read(page)
    edited = {path.split("/")[1] for path in tree.files if path.endswith(".edit")}
    for found in re.finditer(r"\bedits?\s+of\s+(\w+(?:(?:,\s+|\s+and\s+)\w+)*)", text):
        for crate in re.findall(r"\w+", found[1]):
            if crate in tree.crates and crate not in edited:
                yield text[: found.start()].count("\n") + 1, crate


def paragraphs(page):
    """(line, text) of each paragraph, item of a list and heading outside of tables and code blocks."""
    begin, found, inside = 0, [], False
    for number, line in enumerate(read(page).split("\n") + [""], 1):
        fence = line.startswith("```")
        if fence or inside or not line.strip() or line.startswith(("|", "#", "<!--")) or re.match(r"\s*(?:[-*]|\d+\.) ", line):
            if found:
                yield begin, " ".join(found)
            found = []
        if fence:
            inside = not inside
        elif not inside and line.strip() and not line.startswith(("|", "<!--")):
            begin = begin if found else number
            found.append(line.strip())


def unreadable(page):
    """(line, what) of what makes a page hard to read."""
    inside = made = False
    lines = read(page).split("\n")
    for number, line in enumerate(lines, 1):
        inside ^= line.startswith("```")
        made = line == proved.BEGIN or (made and line != proved.END)
        if line.startswith("|") and not inside:
            for cell in re.split(r"(?<!\\)\|", line.strip().strip("|")):
                if len(cell.strip()) > MOST_CELL:
                    yield number, f"a cell of {len(cell.strip())} characters: {cell.strip()[:60]}.."
        elif len(line) > MOST_COLUMNS and not inside:
            yield number, f"a line of {len(line)} columns"
        if page == "README.md" and len(line) > README_COLUMNS:
            yield number, f"a line of {len(line)} columns"
        if DAY.search(line) and not inside and page not in DATED and not made:
            yield number, f"a day: {DAY.search(line)[0]}"
    if page == "README.md" and len(lines) - 1 > README_LINES:
        yield README_LINES + 1, f"{len(lines) - 1} lines"
    for number, text in paragraphs(page):
        if page == "docs/DECISIONS.md" and len(text.split()) > MOST_OF_DECISION:
            yield number, f"a decision of {len(text.split())} words"
        for sentence in SENTENCE.split(text):
            if len(sentence.split()) > MOST_WORDS:
                yield number, f"a sentence of {len(sentence.split())} words: {' '.join(sentence.split()[:10])} .."


def told(page, counted):
    """(line, what, told, there) of each count on a page."""
    text = read(page)
    for what, there in counted.items():
        for found in re.finditer(rf"([\w,-]+)\s+{what}\b", text):
            said = number(found[1])
            if said is not None and said >= 10:
                yield text[: found.start()].count("\n") + 1, what, said, there


def faults_of(tree, page, counted):
    """(line, what) of each fault of a page, but of the names in backticks."""
    for line, name in lost_in_blocks(tree, page):
        yield line, f"`{name}`: no crate that is named beside it has it"
    for line, name, crate in lost_of_crates(tree, page):
        yield line, f"`{name}`: {crate} hasn't it"
    for line, crate in without_edits(tree, page):
        yield line, f"{crate} has no must-fail edit"
    for line, what, said, there in told(page, counted):
        if said != there:
            yield line, f"{said} {what}: there are {there}"
    yield from unreadable(page)


def main():
    tree = Tree()
    elsewhere = {word for words in ELSEWHERE.values() for word in words.split()}
    counted = counts(tree)
    pages = ["README.md"] + [f"docs/{name}" for name in sorted(os.listdir(os.path.join(TOP, "docs"))) if name.endswith(".md")]
    passed, faults = 0, []
    for page in pages:
        for line, text in in_backticks(page):
            if "--names" in sys.argv[1:]:
                print(f"{page}:{line}: {text}")
            lacking = [word for word in tree.lacks(text) if word not in elsewhere]
            passed += not lacking
            faults += [f"{page}:{line}: `{text}`: the tree has no {', '.join(lacking)}"] if lacking else []
        faults += [f"{page}:{line}: {what}" for line, what in faults_of(tree, page, counted)]
    faults += crate_table.faults() + proved.faults() + list(faults_of_designs(tree))
    needless = sorted(word for word in elsewhere if word in tree.all)
    if needless:
        faults.append(f"the list of what needn't be there names what is there: {', '.join(needless)}")
    print("\n".join(faults + [f"{passed} passed, {len(faults)} failed"]))
    return 1 if faults or not passed else 0


if __name__ == "__main__":
    sys.exit(main())
