"""For refusals.sh beside it: refusals.py PROGRAM."""
import os
import re
import socket
import subprocess
import sys
import tempfile

PROGRAM = sys.argv[1]
K = "0123456789abcdef23456789abcdef01456789abcdef0123"
KEYS = f'version = 1\n\n[[key]]\nengine = 5\nrbc = 9\nkmac = "{K}"\n'
WINDOW = f'[[key]]\nengine = 5\nrbc = 9\nkmac = "{K}"\n'
CALL = "> 0 1 call 5 9 0102030405060708\n"
passed = failed = 0


def check(is_right, what):
    global passed, failed
    if is_right:
        passed += 1
    else:
        failed += 1
        print(f"FAILED: {what}")


def run(words, status, printed, told, more=""):
    """One run: its status, its whole standard output (None: that it ends with the line of wires that failed), and what the first line of the standard error has."""
    done = subprocess.run([PROGRAM, *words], stdin=subprocess.DEVNULL, capture_output=True, timeout=60)
    name = " ".join(repr(word)[1:-1] for word in words)
    check(done.returncode == status, f"{name}{more}: status {done.returncode}, wanted {status}")
    check(printed is None and done.stdout.endswith(b"! wires\n") or done.stdout.decode(errors="replace") == printed, f"{name}{more}: printed {done.stdout[-200:]!r}, wanted {printed!r}")
    text = done.stderr.decode(errors="replace")
    # Hints on the key file come before.
    lines = [line for line in text.splitlines() if not line.startswith("euroradio: warning: ")]
    first = lines[0] if lines else ""
    check(first.startswith("euroradio: "), f"{name}{more}: told {text[:200]!r}")
    for it in told:
        check(it in first, f"{name}{more}: {it!r} isn't told: {first!r}")
    check(not re.search(r"[\x00-\x09\x0b-\x1f\x7f]", text), f"{name}{more}: a control octet is told: {text!r}")
    check(not re.search(r"[0-9a-f]{24}", text), f"{name}{more}: digits of a key are told")


def of_file(folder, command, table, before=()):
    """Runs a command on a file of each row: what it holds, line and why, and words that are told."""
    for number, (text, line, why, told) in enumerate(table):
        path = os.path.join(folder, f"file-{number}")
        with open(path, "wb") as file:
            file.write(text if isinstance(text, bytes) else text.encode())
        place = [f"{path}: line {line}: "] if line else [f"{path}: "]
        run([command, *before, path], 3, f"! line {line} {why}\n", place + told, f" of {text[:60]!r}")


def unfetched(folder, words):
    """Runs with words whose FILE can't be fetched: missing, a folder, without a right, with a name that has control characters, too long."""
    secret = os.path.join(folder, "secret")
    with open(secret, "w") as file:
        file.write("x")
    os.chmod(secret, 0)
    large = os.path.join(folder, "large")
    with open(large, "wb") as file:
        file.truncate(33_554_433)
    rows = [(os.path.join(folder, "missing"), "No such file"), (folder, "directory"), (os.path.join(folder, "a\x1b[31m\nb"), "No such file"), (large, "33554432"), ("", "No such file")]
    if os.geteuid() != 0:
        rows.append((secret, "denied"))
    for name, cause in rows:
        shown = name.replace("\x1b", "\\u{1b}").replace("\n", "\\u{a}")
        run([name if word == "FILE" else word for word in words], 2, f"! fetch {name}\n", [f"euroradio: {shown}: ", cause])
    os.chmod(secret, 0o600)


def grammar(folder, name, command, before, letters, status=3, place="line", least=100):
    """Runs a command on each text of a table of tests/grammar: what its last line says behind the place, as the line and the word of its first fault."""
    with open(os.path.join(os.path.dirname(os.path.abspath(__file__)), "grammar", name), encoding="ascii") as table:
        rows = [row.split("|", 1) for row in table.read().splitlines() if not row.startswith("#")]
    path = os.path.join(folder, name)
    for fault, text in rows:
        with open(path, "w", newline="") as file:
            file.write("".join(letters.get(letter, letter) for letter in text.replace("\\r", "\r")))
        run([command, *before, path], status, f"! {place} {fault}\n", [f"{path}: "], f" of {text[:60]!r}")
    check(len(rows) >= least, f"the table {name} has {len(rows)} rows")


def bounds(folder, command, before, rows):
    """Texts that are filled up with one octet to the most that is taken, and behind that: what is printed of each."""
    path = os.path.join(folder, "bound")
    for begin, octet, most, over, fault in rows:
        for length in (most, over):
            with open(path, "wb") as file:
                file.write(begin.encode().ljust(length, octet))
            done = subprocess.run([PROGRAM, command, *before, path], stdin=subprocess.DEVNULL, capture_output=True, timeout=60)
            refused = done.stdout == f"! line {fault}\n".encode() and done.returncode == 3
            check(refused == (length == over), f"{command} of {length} octets {octet!r}: {done.returncode} {done.stdout[-80:]!r}")


def drills(folder):
    full, safe = "drill 1 full\n", "drill 1 safe\n"
    opened = f"{full}link 1 5 9 {K} {K} 1122334455667788 0102030405060708\n"
    of_file(folder, "drill", [
        ("", 1, "header", ["drill 1 LEVEL"]),
        ("drill 1\n", 1, "header", ["drill 1 LEVEL"]),
        ("drill 2 full\n", 1, "header", ["link-sr"]),
        ("# a comment\ndril 1 full\n", 2, "header", ["drill 1 LEVEL"]),
        ("drill 1 full\r\ndrain 1 1\r\n", 1, "header", ["CR LF"]),
        (b"\xef\xbb\xbfdrill 1 full\n", 1, "header", ["byte order mark"]),
        (b"\x7fELF\x02\x01\x01\x00\x00", 1, "header", ["drill 1 LEVEL"]),
        ("drill 1 full # all layers\n", 1, "header", ["a comment has a line of its own"]),
        (f"{full}set shwo 1\n", 2, "value", ["'shwo' is no setting", "settings are show, modulo, window"]),
        (f"{full}set show yes\n", 2, "number", ["'yes'", "show", "0 or 1"]),
        (f"{full}set show 2\n", 2, "value", ["'2'", "0 or 1"]),
        (f"{full}set window 8\n", 2, "value", ["'8'", "window", "1 to 7"]),
        (f"{full}set t1 99\n", 2, "value", ["'99'", "100 to 60000"]),
        ("drill 1 link-sr\nset window 5\n", 2, "value", ["half of the modulo"]),
        (f"{full}set show\n", 2, "count", ["'set'", "NAME VALUE"]),
        (f"{opened}set show 1\n", 3, "late", ["before all other lines"]),
        (f"{full}sned 1 e 41\n", 2, "word", ["'sned' begins no line", "send"]),
        (f"{full}drain\t1 20\n", 2, "word", ["tab"]),
        (b"drill 1 full\n\x1b[31msend\n", 2, "word", ["'\\u{1b}[31msend'"]),
        (b"drill 1 full\n\xff\xfe\n", 2, "word", ["'\\xff\\xfe'"]),
        (f"{full}drain 1\n", 2, "count", ["'drain'", "N MOST", ": 1"]),
        (f"{full}drain 1 20 # all\n", 2, "count", ["'drain'", "a comment has a line of its own"]),
        (f"{full}link 1 5 9 {K} {K} 1122334455667788\n", 2, "count", ["N E R KEY KEY RA RB"]),
        (f"{full}wire 1\n", 2, "level", ["'wire'", "levels link and link-sr"]),
        (f"{safe}take 1 e\n", 2, "level", ["'take'", "level full"]),
        ("drill 1 link\ntake 1 e\n", 2, "level", ["level full"]),
        (f"{full}send 1 x 41\n", 2, "number", ["'x'", "a side, e or r"]),
        (f"{full}send 65 e 41\n", 2, "value", ["'65'", "1 to 64"]),
        (f"{full}send 0 e 41\n", 2, "value", ["'0'", "1 to 64"]),
        (f"{full}send one e 41\n", 2, "number", ["'one'", "1 to 64"]),
        (f"{full}send 1 e hello\n", 2, "hex", ["'hello'", "hexadecimal"]),
        (f"{full}send 1 e 4\n", 2, "hex", ["'4'", "hexadecimal"]),
        (f"{full}send 1 e {'41' * 4097}\n", 2, "value", ["4096 octets"]),
        (f"{full}drain 1 100001\n", 2, "value", ["'100001'", "1 to 100000"]),
        (f"{full}alter 1 e 0 00\n", 2, "value", ["'00'", "other than 00"]),
        (f"{full}release 1 e 256\n", 2, "value", ["'256'", "0 to 255"]),
        (f"{full}tick 1000000000000001\n", 2, "value", ["'1000..' of 16 digits", "moment"]),
        (f"{full}tick 01\n", 2, "number", ["'01'", "moment"]),
        (f"{full}link 1 5 16777216 {K} {K} 1122334455667788 0102030405060708\n", 2, "value", ["'16777216'", "ETCS number"]),
        (f"{full}link 1 5 9 {K[:46]} {K} 1122334455667788 0102030405060708\n", 2, "hex", ["48 hexadecimal digits"]),
        (f"{full}link 1 5 9 {K} {K} 112233 0102030405060708\n", 2, "hex", ["'112233'", "16 hexadecimal digits"]),
        (f"{full}send 1 e 41\n", 2, "nolink", ["no line above it opens link 1"]),
        (f"{opened}link 1 5 9 {K} {K} 1122334455667788 0102030405060708\n", 3, "twice", ["link 1"]),
        (f"{opened}tick 5\ntick 4\n", 4, "back", ["4"]),
        (b"#" * 16_777_217, 0, "long", ["16777216"]),
    ])
    unfetched(folder, ["drill", "FILE"])
    path = os.path.join(folder, "many")
    with open(path, "w") as file:
        file.write(f"drill 1 link\nwire 1\n{'put 1 e 41' + chr(10)}" + "put 1 e 41\n" * 4096)
    run(["drill", path], 8, "! overfull 1 e 4096\n", [f"{path}: ", "link 1", "4097th", "of what e sent"])
    grammar(folder, "drills.txt", "drill", [], {"K": K, "R": "0123456789abcdef", ";": "\n"})
    # Texts of 4,096 octets, 8,192 digits behind 22 or 21 octets, and files of 16 MiB.
    bounds(folder, "drill", [], [("drill 1 safe\nsend 1 e ", b"5", 8214, 8216, "2 value"), ("drill 1 safe\nput 1 e ", b"a", 8213, 8215, "2 value"),
                                 ("drill 1 safe\n#", b"x", 16777216, 16777217, "0 long")])


def traces(folder):
    header = "trace 1 7 15 128 1000 5 40000\n"
    keys = os.path.join(folder, "good.keys")
    with open(keys, "w") as file:
        file.write(KEYS)
    of_file(folder, "replay", [
        ("", 1, "header", ["trace 1 WINDOW"]),
        ("trace 1 7 15 128 1000 5\n", 1, "header", ["trace 1 WINDOW"]),
        ("trace 1 8 15 128 1000 5 40000\n", 1, "header", ["trace 1 WINDOW"]),
        (header.replace("\n", "\r\n"), 1, "header", ["CR LF"]),
        (b"\xef\xbb\xbf" + header.encode(), 1, "header", ["byte order mark"]),
        (b"\x00\x01\x02", 1, "header", ["trace 1 WINDOW"]),
        (f"{header}0 1 call 5 9 0102030405060708\n", 2, "word", ["'0' begins no line", ">"]),
        (f"{header}>\n", 2, "count", ["words are missing"]),
        (f"{header}> 0 1\n", 2, "count", ["words are missing"]),
        (f"{header}> 0 1 calls 5 9 0102030405060708\n", 2, "word", ["'calls' is no event", "unserved"]),
        (f"{header}> 0 1 call 5 9\n", 2, "count", ["'call'", "E R RB"]),
        (f"{header}> 0 1 take 1\n", 2, "count", ["'take'", "no word"]),
        (f"{header}> x 1 call 5 9 0102030405060708\n", 2, "number", ["'x'", "moment"]),
        (f"{header}> 0 x call 5 9 0102030405060708\n", 2, "number", ["'x'", "64 bits"]),
        (f"{header}> 1000000000000001 1 call 5 9 0102030405060708\n", 2, "value", ["moment"]),
        (f"{header}> 0 1 call 5 16777216 0102030405060708\n", 2, "value", ["'16777216'", "ETCS number"]),
        (f"{header}> 0 1 call 5 9 01020304\n", 2, "hex", ["'01020304'", "16 hexadecimal digits"]),
        (f"{header}> 0 1 octets 7\n", 2, "hex", ["'7'", "hexadecimal"]),
        (f"{header}> 0 1 octets {'00' * 4097}\n", 2, "value", ["4096 octets"]),
        (f"{header}> 0 1 release 256\n", 2, "value", ["'256'", "0 to 255"]),
        (f"{header}{CALL}<\n", 3, "count", ["words are missing"]),
        (f"{header}{CALL}< 1 octet 00\n", 3, "word", ["'octet' is no outcome", "octets"]),
        (f"{header}{CALL}< 1 octets 0\n", 3, "hex", ["'0'"]),
        (f"{header}{CALL}< x octets 00\n", 3, "number", ["'x'"]),
        (f"{header}{CALL}< 1 refused later\n", 3, "word", ["'later' is no refusal", "notconnected"]),
        (f"{header}{CALL}< 1 refused full\n", 3, "count", ["'full'"]),
        (f"{header}{CALL}< 1 released 0 0 me\n", 3, "word", ["'me'", "local or peer"]),
        (f"{header}{CALL}< 1 connected 16777216\n", 3, "value", ["'16777216'"]),
        (f"{header}{CALL}< 1 accepted\t00\n", 3, "word", ["tab"]),
        (b"#" * 16_777_217, 0, "long", ["16777216"]),
    ], [keys])
    for events, line, why, told in [
        ("> 0 1 take\n", 2, "noconn", ["connection 1", "hasn't begun"]),
        ("> 5 1 answer 9 0102030405060708\n> 4 1 take\n", 3, "back", ["connection 1"]),
        ("> 0 1 answer 9 0102030405060708\n> 0 1 answer 9 0102030405060708\n", 3, "twice", ["connection 1"]),
        ("> 0 1 call 6 9 0102030405060708\n", 2, "nokey", ["connection 1", "no key"]),
        ("".join(f"> 0 {n} answer 9 0102030405060708\n" for n in range(1, 258)), 258, "many", ["257", "256"]),
    ]:
        path = os.path.join(folder, "events")
        with open(path, "w") as file:
            file.write(header + events)
        done = "".join(f"{it}\n" for it in events.splitlines()[: line - 2])
        run(["replay", keys, path], 3, f"{header}{done}! line {line} {why}\n", [f"{path}: line {line}: ", *told])
    unfetched(folder, ["replay", keys, "FILE"])
    unfetched(folder, ["replay", "FILE", keys])
    grammar(folder, "traces.txt", "replay", [keys], {"H": "trace 1 7 15 128 1000 5 40000", ";": "\n"})
    # A text of 4,096 octets, 8,192 digits behind 43 octets, and a file of 16 MiB.
    header = "trace 1 7 15 128 1000 5 40000\n"
    bounds(folder, "replay", [keys], [(header + "> 0 1 octets ", b"0", 8235, 8237, "2 value"), (header + "#", b"x", 16777216, 16777217, "0 long")])


def taps(folder):
    keys = os.path.join(folder, "good.keys")
    of_file(folder, "audit", [
        ("", 1, "header", ["tap 1"]),
        ("tap 2\n", 1, "header", ["tap 1"]),
        ("tap\n", 1, "header", ["tap 1"]),
        ("tap 1 \r\n", 1, "header", ["CR LF"]),
        (b"\xef\xbb\xbftap 1\n", 1, "header", ["byte order mark"]),
        (b"\x0a\x0d\x0d\x0a", 2, "header", ["tap 1"]),
        ("tap 1\nlinks 1 5 9 0\n", 2, "word", ["'links' begins no line", "octets"]),
        ("tap 1\nlink 1 5 9\n", 2, "count", ["N E R MOMENT"]),
        ("tap 1\nlink 1 5 9 0 0\n", 2, "count", ["N E R MOMENT"]),
        ("tap 1\nlink 65 5 9 0\n", 2, "value", ["'65'", "1 to 64"]),
        ("tap 1\nlink x 5 9 0\n", 2, "number", ["'x'"]),
        ("tap 1\nlink 1 16777216 9 0\n", 2, "value", ["ETCS number"]),
        ("tap 1\nlink 1 5 9 -1\n", 2, "number", ["'-1'", "moment"]),
        ("tap 1\nlink 1 5 9 1000000000000001\n", 2, "value", ["moment"]),
        ("tap 1\nlink 1 5 9 0\noctets 1 s 00\n", 3, "number", ["'s'", "a side, e or r"]),
        ("tap 1\nlink 1 5 9 0\noctets 1 e 0\n", 3, "hex", ["'0'"]),
        ("tap 1\nlink 1 5 9 0\noctets 1 e\n", 3, "count", ["N S HEX"]),
        (f"tap 1\nlink 1 5 9 0\noctets 1 e {'00' * 4097}\n", 3, "value", ["4096 octets"]),
        ("tap 1\noctets 1 e 00\n", 2, "nolink", ["no line above it opens link 1"]),
        ("tap 1\nlink 1 5 9 0\nlink 1 5 9 0\n", 3, "twice", ["link 1"]),
        (b"#" * 16_777_217, 0, "long", ["16777216"]),
    ], [keys])
    unfetched(folder, ["audit", keys, "FILE"])
    unfetched(folder, ["audit", "FILE", keys])
    path = os.path.join(folder, "long.bits")
    with open(path, "wb") as file:
        file.truncate(16_777_217)
    run(["bits", path], 3, "! line 0 long\n", [f"{path}: ", "16777216"])
    unfetched(folder, ["bits", "FILE"])


def key_files(folder):
    table = [
        ("version = 3\n", "version 3", ["version", "1 or 2"]),
        ("", "field 0 version", ["version", "whole number"]),
        ('version = "1"\n', "field 0 version", ["version", "whole number"]),
        ("version = 1\nversion = 1\n", "document", ["line 2"]),
        ("version = 1\n[[key\n", "document", ["line 2", "TOML"]),
        (b"\xff\xfe", "document", ["TOML"]),
        (b"\x7fELF\x02\x01\x01\x00\x00", "document", ["line 1", "TOML"]),
        ("version = 1\nkey = 5\n", "field 0 key", ["key", "[[key]]"]),
        (f"version = 1\n[key]\nengine = 5\n", "field 0 key", ["[[key]]"]),
        (KEYS.replace("engine = 5\n", ""), "field 1 engine", ["entry 1", "engine", "whole number"]),
        (KEYS.replace("engine = 5", 'engine = "5"'), "field 1 engine", ["entry 1", "engine"]),
        (KEYS.replace("rbc = 9\n", ""), "field 1 rbc", ["entry 1", "rbc"]),
        (KEYS.replace("engine = 5", "engine = 16777216"), "number 1", ["entry 1", "16777215"]),
        (KEYS.replace("engine = 5", "engine = -1"), "number 1", ["entry 1", "16777215"]),
        (KEYS.replace(f'"{K}"', f'"{K[:47]}"'), "hex 1", ["entry 1", "48 hexadecimal digits"]),
        (KEYS.replace(f'"{K}"', f'"{K[:47]}g"'), "hex 1", ["entry 1", "48 hexadecimal digits"]),
        (KEYS.replace(f'"{K}"', "5"), "field 1 kmac", ["entry 1", "kmac"]),
        (KEYS + WINDOW, "twice 1 2", ["entries 1 and 2", "of one pair"]),
        (KEYS.replace("version = 1", "version = 2"), "field 1 from", ["entry 1", "from"]),
        (KEYS.replace("version = 1", "version = 2") + "from = 5\nto = 4\n", "range 1", ["entry 1", "from is behind to"]),
        (KEYS.replace("version = 1", "version = 2") + "from = 5\nto = 1000000000000001\n", "number 1", ["entry 1", "1000000000000000"]),
    ]
    good = os.path.join(folder, "empty.tap")
    with open(good, "w") as file:
        file.write("tap 1\n")
    for number, (text, fault, told) in enumerate(table):
        path = os.path.join(folder, f"keys-{number}")
        with open(path, "wb") as file:
            file.write(text if isinstance(text, bytes) else text.encode())
        for words in (["migrate", path], ["audit", path, good], ["audit", path, good, "ends"], ["replay", path, good], ["check", path, good], ["serve", path, "127.0.0.1:0", "9", "0"], ["call", path, "127.0.0.1:1", "5", "9", "0"]):
            run(words, 4, f"! keys {fault}\n", [f"{path}: ", *told], f" of {text[:60]!r}")
    grammar(folder, "keys.txt", "migrate", [], {"K": K, "@": "[[key]]", ";": "\n"}, 4, "keys", 40)
    hints(folder, good)
    unfetched(folder, ["migrate", "FILE"])
    unfetched(folder, ["serve", "FILE", "127.0.0.1:0", "9", "0"])
    unfetched(folder, ["call", "FILE", "127.0.0.1:1", "5", "9", "0"])


def hints(folder, tap):
    """What in a key file that is taken may not be what was meant: a line each, and nothing of a file in which all is."""
    two = KEYS.replace("version = 1", "version = 2") + "from = 0\nto = 9\n"
    zero, equal, pair = "0" * 48, K[:16] + K[:16].upper() + K[:16], K[:16] + K[16:32] + K[16:32]
    table = [
        (KEYS, []), (two, []),
        (KEYS + "from = 1\nto = 2\n", ["entry 1: 'from' is ignored in a file of version 1: the key holds at every moment", "entry 1: 'to' is ignored in a file of version 1: the key holds at every moment"]),
        (two + "note = 1\n", ["entry 1: 'note' is ignored"]), (f"{K} = 1\n" + KEYS, ["'0123..' of 48 digits is ignored"]),
        (KEYS.replace("[[key]]", "[[keys]]"), ["'keys' is ignored: each entry begins with a line [[key]]", "it has no entry, so no key"]),
        ("version = 1\n", ["it has no entry, so no key"]), ("version = 1\nkey = []\n", ["it has no entry, so no key"]),
        (KEYS.replace(K, zero), ["entry 1: kmac is zero"]), (KEYS.replace(K, equal), ["entry 1: the three keys of kmac are equal, so it is as strong as one"]),
        (KEYS.replace(K, pair), ["entry 1: two keys of kmac that follow each other are equal, so it is as strong as one"]),
    ]
    path = os.path.join(folder, "hints")
    for text, wanted in table:
        with open(path, "w") as file:
            file.write(text)
        for words in (["migrate", path], ["audit", path, tap]):
            done = subprocess.run([PROGRAM, *words], stdin=subprocess.DEVNULL, capture_output=True, text=True, timeout=20)
            told = done.stderr.splitlines()
            check(done.returncode == 0 and told == [f"euroradio: warning: {path}: {hint}" for hint in wanted], f"hints of {text[:90]!r}: {done.returncode} {told}")
    for mode, wanted in ((0o644, 1), (0o604, 1), (0o640, 0), (0o600, 0)):
        os.chmod(path, mode)
        done = subprocess.run([PROGRAM, "serve", path, "127.0.0.1:0", "9", "0"], stdin=subprocess.DEVNULL, capture_output=True, text=True, timeout=20)
        check(done.stderr.count(f"warning: {path}: others than its owner may read it\n") == wanted, f"mode {mode:o}: {done.stderr!r}")


# Words that are no number in any place: signs, spaces, leading zeros, other bases, other digits, too large, none.
NO_NUMBERS = [
    "", " ", "+1", "-1", "-0", "00", "01", "007", "1.0", "1,0", "1.", ".1", "1e3", "1E3", "0x10", "0b1", "0o7", "1_000", "1'000", "1 000", " 1", "1 ", "1\n", "\t1", "one", "I", "\u0661", "\uff11",
    "1\u00a0", "\u2212" + "1", "NaN", "inf", "1/2", "1;", "#1", "18446744073709551616", "9999999999999999999999", "1-", "--", "-1000",
]
# Texts that are no IP address and port.
NO_ADDRESSES = [
    "", ":", ":1", "1", "localhost:1", "127.0.0.1", "127.0.0.1:", "127.0.0.1:-1", "127.0.0.1:65536", "127.0.0.1:99999", "127.0.0.1:x", "127.0.0.1:1x", "127.0.0.1: 1", " 127.0.0.1:1", "127.0.0.1:1 ",
    "127.0.0.256:1", "127.0.0:1", "127.0.0.1.1:1", "127.0.0.01:1", "0x7f.0.0.1:1", "127.1:1", "2130706433:1", "::1", "::1:1", "[::1]", "[::1]:", "[::1]:65536", "[::1", "::1]:1", "[::g]:1", "tcp://127.0.0.1:1",
    "127.0.0.1:1/", "127.0.0.1;1", "127.0.0.1,1", "*:1", "0:1", "127.0.0.1:0x1", "127.0.0.1::1", "example.org:80", "\u0661.0.0.1:1",
]


def shown(word):
    """A word as it is told: letters, digits and what ASCII prints as they are."""
    return "".join(it if it.isascii() and it.isprintable() or it.isalnum() and not it.isascii() else f"\\u{{{ord(it):x}}}" for it in word)


def numbers_and_addresses(folder):
    keys = os.path.join(folder, "good.keys")
    for words in (["bulk", "NUMBER", "1"], ["bulk", "7", "NUMBER"], ["serve", keys, "127.0.0.1:0", "NUMBER", "0"], ["serve", keys, "127.0.0.1:0", "9", "NUMBER"],
                  ["call", keys, "127.0.0.1:1", "NUMBER", "9", "0"], ["call", keys, "127.0.0.1:1", "5", "NUMBER", "0"], ["call", keys, "127.0.0.1:1", "5", "9", "NUMBER"]):
        for number in NO_NUMBERS:
            run([number if word == "NUMBER" else word for word in words], 1, "! usage\n", [f"{words[0]} wants ", f"'{shown(number)}'"])
    for address in NO_ADDRESSES:
        run(["serve", keys, address, "9", "0"], 6, "! wires\n", [f"euroradio: {shown(address)}: ", "no IP address and port"])
        run(["call", keys, address, "5", "9", "0"], 6, None, [f"euroradio: {shown(address)}: ", "no IP address and port"])


def words(folder):
    keys = os.path.join(folder, "good.keys")
    for given, told in [
        ([], ["a command is missing"]), (["dril", "x"], ["'dril' is no command"]), (["drill"], ["drill wants SCENARIO", "0 words"]), (["drill", "a", "b"], ["2 words"]),
        (["\x1b[31m"], ["'\\u{1b}[31m'"]), (["help"], ["'help' is no command"]), (["--hlep"], ["'--hlep' is no command"]), (["drill", "--help", "x"], ["2 words"]),
        (["bulk", "x", "1"], ["bulk wants SEED COUNT", "'x'"]), (["bulk", "7", "10001"], ["'10001'"]), (["bulk", "18446744073709551616", "1"], ["'18446744073709551616'"]),
        (["bulk", "7"], ["1 words"]), (["replay", "a"], ["KEYS TRACE"]), (["check", "a"], ["KEYS TRACE"]), (["audit", "a"], ["KEYS TAP"]), (["audit", "a", "b", "end"], ["KEYS TAP, and ends or nothing", "3 words"]), (["bits"], ["FILE"]), (["migrate"], ["KEYS"]),
        (["serve", keys, "127.0.0.1:0", "9"], ["KEYS ADDRESS RBC TURNS"]), (["serve", keys, "127.0.0.1:0", "16777216", "0"], ["'16777216'"]), (["serve", keys, "127.0.0.1:0", "nine", "0"], ["'nine'"]),
        (["serve", keys, "127.0.0.1:0", "9", "1000000001"], ["'1000000001'"]), (["serve", keys, "127.0.0.1:0", "9", "-1"], ["'-1'"]), (["serve", keys, "127.0.0.1:0", "09", "0"], ["'09'"]),
        (["serve", keys, "127.0.0.1:0", "9", "-1", "a"], ["'-1'"]), (["serve", keys, "127.0.0.1:0", "9", "0", "a", "b"], ["APPLICATION", "6 words"]),
        (["call", keys, "127.0.0.1:1", "5", "x", "0", "a"], ["'x'"]), (["call", keys, "127.0.0.1:1", "5", "9", "0", "a", "b"], ["APPLICATION", "7 words"]),
        (["call", keys, "127.0.0.1:1", "5", "9"], ["KEYS ADDRESS ENGINE RBC TURNS"]), (["call", keys, "127.0.0.1:1", "x", "9", "0"], ["'x'"]), (["call", keys, "127.0.0.1:1", "5", "9", ""], ["''"]),
    ]:
        run(given, 1, "! usage\n", told)
    listener = socket.socket()
    listener.bind(("127.0.0.1", 0))
    listener.listen()
    used = f"127.0.0.1:{listener.getsockname()[1]}"
    for address, told in [
        ("localhost:4801", ["no IP address and port"]), (":4801", ["no IP address and port"]), ("127.0.0.1", ["no IP address and port"]), ("127.0.0.1:65536", ["no IP address and port"]),
        ("", ["no IP address and port"]), ("127.0.0.1:x", ["no IP address and port"]), ("\x07:1", ["\\u{7}:1", "no IP address and port"]), (used, ["in use"]),
    ]:
        run(["serve", keys, address, "9", "0"], 6, "! wires\n", ["euroradio: "] + ([address] if address.isprintable() else []) + told)
    listener.close()
    done = subprocess.run([PROGRAM, "call", keys, "127.0.0.1:1", "6", "9", "0"], capture_output=True, timeout=20)
    check(done.returncode == 4 and done.stdout == b"! keys none 6 9\n", f"a call without a key: {done}")
    check(b"good.keys: no key holds now of engine 6 and radio block centre 9" in done.stderr, f"a call without a key: {done.stderr!r}")


def help_and_version():
    for word in ("--help", "-h"):
        done = subprocess.run([PROGRAM, word], capture_output=True, timeout=20)
        check(done.returncode == 0 and done.stderr == b"" and all(it in done.stdout for it in (b"usage: euroradio COMMAND", b"drill SCENARIO", b"serve KEYS")), f"{word}: {done}")
    for word in ("--version", "-V"):
        done = subprocess.run([PROGRAM, word], capture_output=True, timeout=20)
        check(done.returncode == 0 and done.stderr == b"" and re.fullmatch(rb"euroradio \d+\.\d+\nkit \S+ logic \S+\nsources [0-9a-f]{64}\n", done.stdout), f"{word}: {done}")


def main():
    with tempfile.TemporaryDirectory(prefix="refusals-") as folder:
        drills(folder)
        traces(folder)
        taps(folder)
        key_files(folder)
        numbers_and_addresses(folder)
        words(folder)
        help_and_version()
    print(f"{passed} checks, {failed} failed")
    return 1 if failed or not passed else 0


if __name__ == "__main__":
    sys.exit(main())
