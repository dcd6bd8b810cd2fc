"""What a relay prints: its reader, taps, captures with its moments, T1 as it is measured, and the model of what a relay carries on rows worked out by hand."""
import os
import subprocess
import sys

sys.path.insert(0, os.path.dirname(os.path.dirname(os.path.abspath(__file__))))

import relay_model  # noqa: E402
from capture_tests import Capture  # noqa: E402
from decoding import conversation, framing, sources, timing  # noqa: E402

SABM, UA = "7e013febdf7e", "7e017383577e"
CR = "7e0100010009ef0000000120c0010742000005010102030405060708f7007e"
CC = "7e0320010009df0001000120c0010725000009011122334455667788bd1745640dd6c19468f17e"
BAD_SABM = "7e013febde7e"
BEGIN = 1_796_000_000_000
# The first SABM is lost, the UA is repeated, the CR is 300 ms late, the CC is altered, a frame that is none is put before the CR that comes again.
TEXT = f"""relay 1
> {BEGIN} 1 open
> {BEGIN + 10} 1 e {SABM}
< {BEGIN + 10} 1 e 7e
> {BEGIN + 1012} 1 e {SABM}
< {BEGIN + 1012} 1 e {SABM}
> {BEGIN + 1013} 1 r {UA}
< {BEGIN + 1013} 1 r {UA}{UA}
> {BEGIN + 1014} 1 e {CR}
> {BEGIN + 1020} 2 open
> {BEGIN + 1021} 2 r 7e01
> {BEGIN + 1021} 2 end r
< {BEGIN + 1021} 2 r 7e01
< {BEGIN + 1022} 2 closed
< {BEGIN + 1314} 1 e {CR}
> {BEGIN + 1315} 1 r {CC}
< {BEGIN + 1315} 1 r {CC.replace('0001000120', '0001010120')}
> {BEGIN + 2018} 1 e {CR}
< {BEGIN + 2018} 1 e 7e0111aa7e{CR}
> {BEGIN + 2318} 1 r {CC}
< {BEGIN + 2318} 1 r {CC}
> {BEGIN + 2320} 1 end e
< {BEGIN + 2321} 1 closed
"""
SCRIPT = "relay 1\nlose e sabm 1\nrepeat r ua 1\ndelay e cr 1 300\nalter r cc 1 10 01\nput e cr 2 7e0111aa7e\n"
# The rows of a relay: lines of the script, the side, what it brings, what is given.
DATA_0, DATA_1, UNKNOWN = "7e0100010004f0000180ff82987e", "7e0102010004f0000181ffa01a7e", "7e01ffe7197e"
ROWS = [("", "e", "0000" + SABM + SABM + BAD_SABM, "0000" + SABM + SABM + BAD_SABM),
        ("lose e sabm 1", "e", SABM + SABM, "7e" + SABM),
        ("repeat r ua 1", "r", UA, UA + UA),
        ("alter e any 2 3 01", "e", SABM + SABM, SABM + "7e013eebdf7e"),
        ("put r any 1 ff", "r", UA, "ff" + UA),
        ("lose e sabm 1\nput e sabm 1 00", "e", SABM + SABM, "007e" + SABM),
        ("close e sabm 1", "e", SABM + SABM, SABM),
        ("lose e any 1", "e", SABM + SABM[2:] + DATA_0, "7e" + SABM[2:] + DATA_0),
        ("put r ua 1 7e\nrepeat r any 1\nalter r ua 1 1 ff", "r", UA + UA, "81" + UA + UA + UA),
        ("lose e bad 1\nlose e dt 1\nrepeat e other 1", "e", SABM + BAD_SABM + DATA_0 + UNKNOWN + DATA_1, SABM + "7e7e" + UNKNOWN + UNKNOWN + DATA_1),
        ("close e dt 2\nput e dt 2 00", "e", SABM + DATA_0 + DATA_1 + SABM, SABM + DATA_0 + "00" + DATA_1),
        ("lose e any 1\nlose e sabm 1", "e", "7e" + "00" * 4095 + "7e7e" + SABM + SABM, "7e" + "00" * 4095 + "7e" + "7e" + SABM)]


def reader(judge):
    reading = sources.read(TEXT)
    one, two = reading.links
    judge.same("what a relay prints", (reading.kind, [link.name for link in reading.links], reading.bad), (sources.RELAY, ["connection 1", "connection 2"], []))
    judge.same("what came of connection 1", [(item.line, item.moment - BEGIN, item.side, item.octets.hex()) for item in one.came][:3],
               [(3, 10, "e", SABM), (5, 1012, "e", SABM), (7, 1013, "r", UA)])
    judge.same("what it got", [(item.line, item.side, item.word, item.octets.hex()) for item in one.items][:4],
               [(2, None, "open", ""), (4, "e", "octets", "7e"), (6, "e", "octets", SABM), (8, "r", "octets", UA + UA)])
    judge.same("the ends of connection 2", [(item.kind, item.side, item.word) for item in two.items if item.kind != sources.OCTETS],
               [("outcome", None, "open"), ("event", "r", "ended"), ("outcome", None, "closed")])
    bad = sources.read(f"relay 1\n> 5 1 open\n> 5 1 open\n> x 1 e 7e\n> 5 3 e {SABM}\n? 5 1 e 7e\n< 5 1 open\n> 5 1 closed\n> 5 1 q 7e\n> 5 1 e 7\n> 5 1\n> 5 1 end q\n")
    judge.same("bad lines", [(line.line, line.why) for line in bad.bad], [
        (3, "connection 1 is opened twice"), (4, "no decimal: x"), (5, "connection 3 wasn't opened by a line before"), (6, "no line that a relay prints: ?"),
        (7, "no words of a line that a relay prints: open"), (8, "no words of a line that a relay prints: closed"), (9, "no side, e or r: q"), (10, "an odd number of digits: 7"),
        (11, "a line that a relay prints without its words"), (12, "no side, e or r: q")])
    script = sources.read("relay 1 2\nlose e sabm 1\n")
    judge.same("another header", (script.links, [line.line for line in script.bad]), ([], [1]))


def run_of(tool, text, *words):
    run = subprocess.run([sys.executable, f"tools/{tool}", *words], input=text.encode(), capture_output=True, check=False)
    return run.stdout, run.stderr.decode(), run.returncode


def tools(judge):
    got, told, status = run_of("tap", TEXT, "1")
    lines = got.decode().splitlines()
    judge.same("a tap of what was given", (lines[:4], len(lines), told, status),
               (["tap 1", f"link 1 5 9 {BEGIN + 1314}", "octets 1 e 7e", f"octets 1 e {SABM}"], 9, "", 0))
    sent = run_of("tap", TEXT, "1", "--sent")[0].decode().splitlines()
    judge.same("a tap of what was sent", sent[:4], ["tap 1", f"link 1 5 9 {BEGIN + 1014}", f"octets 1 e {SABM}", f"octets 1 e {SABM}"])
    judge.same("what was sent of another text", run_of("tap", f"tap 1\nlink 1 5 9 0\noctets 1 e {SABM}\n", "--sent")[1:],
               ("what was sent and what was got are told apart by a relay alone\n", 1))
    judge.same("words that are wrong", run_of("pcap", TEXT, "--sent", "--tcp", "7")[2], 2)
    printed, told, status = run_of("pcap", TEXT, "1")
    capture = Capture(printed)
    judge.same("a capture of what was given", (capture.interfaces, status), ([(147, "connection 1", f"engine 5, RBC 9, moment {BEGIN + 1314}")], 0))
    judge.same("its moments", [moment - BEGIN for _, moment, *_ in capture.packets], [1012, 1013, 1013, 1314, 1315, 2018, 2018, 2318])
    sent = Capture(run_of("pcap", TEXT, "1", "--sent")[0])
    judge.same("the moments of what was sent", [moment - BEGIN for _, moment, *_ in sent.packets], [10, 1012, 1013, 1014, 1315, 2018, 2318])
    judge.same("a tap of that capture", run_of("tap", "", os.devnull)[2], 1)
    again = subprocess.run([sys.executable, "tools/tap"], input=printed, capture_output=True, check=False).stdout.decode().splitlines()
    judge.same("a tap of the capture", again[:3], ["tap 1", f"link 1 5 9 {BEGIN + 1314}", f"octets 1 e {SABM}"])
    chart, told, status = run_of("chart", TEXT, "1")
    words = chart.decode()
    judge.same("a chart with times", [text in words for text in ("1,012 ms +1,002", "T1 ran 1,002 ms", "engine 5 1,002 to 1,004 ms (2), RBC 9 1,003 ms (1)", "2026-11-30 00:53:20.000 UTC",
                                                                 ">lost<", ">repeated<", ">300 ms later<", "octet 10 altered: ")], [True] * 8)


def session(text):
    """The frames of lines `MOMENT SIDE ADDRESS BODY`, each as (moment, side, frame)."""
    talk = conversation.Conversation(8, False)
    for line in text.split(","):
        moment, side, address, body = line.split()
        for seen in talk.feed(side, framing.spelled(bytes.fromhex(address + body))):
            yield int(moment), side, seen


def ran(text):
    """How long T1 of the engine ran, each time."""
    timer, times = timing.Timer(), []
    for moment, side, seen in session(text):
        found = timer.sent(seen, moment) if side == "e" else timer.heard(seen, moment)
        times += [] if found is None else [found]
    return times


def timers(judge):
    judge.same("a set-up frame that comes again", ran("0 e 01 3f,1000 e 01 3f,2003 e 01 3f,2010 r 01 73"), [1000, 1003])
    judge.same("an I frame that comes again", ran("5 e 01 0000,1007 e 01 0000"), [1002])
    judge.same("the oldest of two alone", ran("0 e 01 0000,300 e 01 0200,1000 e 01 0000,1000 e 01 0200,2001 e 01 0000"), [1000, 1001])
    judge.same("from the acknowledgement on", ran("0 e 01 0000,300 e 01 0200,600 r 01 21,1600 e 01 0200"), [1000])
    judge.same("nothing left, and then anew", ran("0 e 01 0000,600 r 01 21,5000 e 01 0200,6000 e 01 0200"), [1000])
    judge.same("what a REJ asked for", ran("0 e 01 0000,10 e 01 0200,400 r 01 09,400 e 01 0000,400 e 01 0200,1400 e 01 0000"), [1000])
    judge.same("an RR that acknowledges nothing", ran("0 e 01 0000,400 r 01 01,1000 e 01 0000"), [1000])
    judge.same("numbers that wrap", ran(",".join(f"{n * 10} e 01 {n % 8 * 2:02x}00,{n * 10 + 5} r 01 {(n + 1) % 8 * 32 + 1:02x}" for n in range(9)) + ",100 e 01 0200,1100 e 01 0200"), [1000])


def model(judge):
    for text, side, brought, given in ROWS:
        script = relay_model.read_script(f"relay 1\n{text}\n")
        octets = bytes.fromhex(brought)
        judge.same(f"carried by {text!r}", relay_model.carried(script, side, octets).hex(), given)
        carrier = relay_model.Carrier(script, side)
        pieces = b"".join(load.octets for octet in octets for load in carrier.take(bytes([octet]))) + b"".join(load.octets for load in carrier.end())
        judge.same(f"carried octet by octet by {text!r}", pieces.hex(), given)
    script = relay_model.read_script(SCRIPT)
    printed = relay_model.Printed(script, TEXT.replace(f"> {BEGIN + 1021} 2 end r\n< {BEGIN + 1021} 2 r 7e01\n", f"< {BEGIN + 1021} 2 r 7e01\n> {BEGIN + 1021} 2 end r\n"))
    judge.same("what was printed is what is carried", (printed.faults, printed.used() == set(script)), ([], True))
    for name, old, new in (("a frame that wasn't lost", f"< {BEGIN + 10} 1 e 7e\n", f"< {BEGIN + 10} 1 e {SABM}\n"), ("given too early", f"< {BEGIN + 1314} 1 e {CR}", f"< {BEGIN + 1313} 1 e {CR}"),
                           ("given before it came", f"> {BEGIN + 2018} 1 e {CR}\n", ""), ("never given", f"< {BEGIN + 1013} 1 r {UA}{UA}\n", "")):
        text = TEXT.replace(old, new)
        judge.same(f"{name} is found", (text != TEXT, bool(relay_model.Printed(script, text).faults)), (True, True))


def run(judge):
    reader(judge)
    tools(judge)
    timers(judge)
    model(judge)
