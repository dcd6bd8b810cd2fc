"""The laboratory's options, and the runs of its cases: so many are played at once, and each test looks at its own."""
import concurrent.futures
import os
import re
import sys
import tempfile
import tomllib

import pytest

sys.dont_write_bytecode = True
sys.path.insert(0, os.path.dirname(os.path.abspath(__file__)))

import bench as benches  # noqa: E402
import cases  # noqa: E402

PROGRAMS = ("crates/euroradio/out/euroradio", "out/euroradio")


def pytest_addoption(parser):
    group = parser.getgroup("laboratory", "a device under test")
    add = group.addoption
    add("--device", metavar="HOST:PORT", help="the device answers there as a radio block centre")
    add("--trigger", metavar="COMMAND", help="the device calls as a train once this command is run; {address} in it is where it is to call")
    add("--listen", metavar="HOST:PORT", help="the device calls there as a train, by itself or by --trigger (127.0.0.1, any free port)")
    add("--program", metavar="FILE", help="the program euroradio (that which was built in the repository)")
    add("--keys", metavar="FILE", help="the key file with the key of the device and its peer (examples/recorded-session.keys)")
    add("--engine", type=int, default=5, help="the ETCS number of the train (5)")
    add("--rbc", type=int, default=9, help="that of the radio block centre (9)")
    add("--t1", type=int, default=1000, help="T1 of the device in milliseconds (1000)")
    add("--n2", type=int, default=5, help="N2 of the device (5)")
    add("--window", type=int, default=7, help="the window of the device (7)")
    add("--no-echo", action="store_true", help="the device, a centre, doesn't say messages back; what needs it is inconclusive")
    add("--at-once", type=int, default=1, metavar="COUNT", help="how many cases are played beside each other (1)")
    add("--folder", metavar="FOLDER", help="where each run leaves what it kept (a new folder, which is told)")


def roles_of(config):
    return [role for role, given in ((benches.CENTRE, ("--device",)), (benches.TRAIN, ("--trigger", "--listen"))) if any(map(config.getoption, given))]


def pytest_generate_tests(metafunc):
    if "played" in metafunc.fixturenames:
        pairs = [(each, role) for role in roles_of(metafunc.config) for each in cases.CASES if role in each.wanted]
        metafunc.parametrize("played", pairs, ids=[f"{each.name}-{role}" for each, role in pairs], indirect=True)


def pytest_configure(config):
    if config.option.collectonly or config.option.help:
        return
    if not roles_of(config):
        raise pytest.UsageError("where is the device? --device HOST:PORT, where it answers as a radio block centre; --trigger or --listen, where it calls as a train")
    for name in ("--device", "--listen"):
        if not re.fullmatch(r"\S+:[0-9]{1,5}|None", str(config.getoption(name))):
            raise pytest.UsageError(f"{name} {config.getoption(name)}: HOST:PORT is wanted")
    bench_of(config)


def kmac_of(keys, engine, rbc):
    """The KMAC of a pair in a key file."""
    try:
        with open(keys, "rb") as file:
            entries = tomllib.load(file).get("key", [])
    except (OSError, ValueError) as why:
        raise pytest.UsageError(f"{keys}: {why}") from None
    found = [entry["kmac"] for entry in entries if (entry.get("engine"), entry.get("rbc")) == (engine, rbc)]
    if not found:
        raise pytest.UsageError(f"{keys}: no key of engine {engine} and radio block centre {rbc}")
    return bytes.fromhex(found[-1])


def bench_of(config):
    """The bench with the device that the options tell."""
    option = config.getoption
    keys = option("--keys") or os.path.join(benches.TOP, "examples/recorded-session.keys")
    program = option("--program") or next((path for path in (os.path.join(benches.TOP, name) for name in PROGRAMS) if os.access(path, os.X_OK)), None)
    if program is None or not os.access(program, os.X_OK):
        raise pytest.UsageError(f"{program or 'there is no program'}: `bash tests/program.sh` makes one, or --program names it")
    device = benches.Device(option("--device"), option("--listen") or "127.0.0.1:0", option("--trigger"), option("--engine"), option("--rbc"),
                            kmac_of(keys, option("--engine"), option("--rbc")), option("--t1"), option("--n2"), option("--window"), not option("--no-echo"))
    return benches.Bench(os.path.abspath(program), device, os.path.abspath(keys), option("--folder"))


@pytest.fixture(scope="session")
def bench(request):
    made = bench_of(request.config)
    made.folder = made.folder or tempfile.mkdtemp(prefix="laboratory-")
    return made


@pytest.fixture(scope="session")
def runs(request, bench):
    """The run of each selected case, as it will be: they are begun in order, so many at once."""
    wanted = [item.callspec.params["played"] for item in request.session.items if hasattr(item, "callspec")]
    with concurrent.futures.ThreadPoolExecutor(max(1, request.config.getoption("--at-once"))) as lanes:
        yield {(each.name, role): lanes.submit(bench.run, each, role) for each, role in wanted}
        lanes.shutdown(cancel_futures=True)


@pytest.fixture
def played(request, runs):
    """The run of a case."""
    each, role = request.param
    return runs[each.name, role].result()


def pytest_terminal_summary(terminalreporter, config):
    for report in terminalreporter.stats.get("failed", []):
        for name, text in report.user_properties:
            if name == "folder":
                terminalreporter.write_line(f"{report.nodeid.rpartition('::')[2]}: the tap, the capture and the chart are in {text}")
