"""Times the built programs beside others that do the same; `run` builds them and hands over the three folders."""

import os
import shutil
import statistics
import subprocess
import sys
import tempfile
import time

TOP, WORK, CRATES = sys.argv[1:]
PROGRAM = f"{TOP}/crates/farm/out/farm"
FARM = [PROGRAM, "calc"]
TABLE = [PROGRAM, "table", "--site"]
# Where a journal lies whose syncs aren't to be measured: in memory, where the system has a file system there.
MEMORY = tempfile.TemporaryDirectory(dir="/dev/shm" if os.path.isdir("/dev/shm") else WORK)
LINE = f"{TOP}/examples/calc/observed.txt"
LEVELS = f"{WORK}/levels.txt"
SHORT_LEVELS = f"{WORK}/short_levels.txt"
FACTORS = f"{WORK}/factors.csv"


def built(name):
    """A program of bench/programs."""
    return f"{CRATES}/{name}/out/{name}"


def answer(words, path="/dev/null"):
    """What a program prints of a file."""
    with open(path, "rb") as file:
        return subprocess.run(words, stdin=file, stdout=subprocess.PIPE, check=True).stdout


def least(words, runs, path="/dev/null"):
    """The least time of some runs in milliseconds."""
    spent = []
    for _ in range(runs):
        start = time.perf_counter()
        answer(words, path)
        spent.append(time.perf_counter() - start)
    return 1000 * min(spent)


def batch(journal):
    """The words of a batch."""
    return [PROGRAM, "batch", "--journal", journal]


def fresh(folder):
    """A journal of the example site, without an entry, in place of the one that was there."""
    path = os.path.join(folder, "fresh")
    if os.path.exists(path):
        os.remove(path)
    subprocess.run([PROGRAM, "init", "--site", f"{TOP}/examples/site", "--journal", path], check=True)
    return path


def least_fresh(runs, path):
    """The least time of some batches in milliseconds, each on a fresh journal in memory."""
    return min(least(batch(fresh(MEMORY.name)), 1, path) for _ in range(runs))


def kilobytes(words, path):
    """The most memory that a run holds."""
    with open(path, "rb") as file:
        run = subprocess.run(["/usr/bin/time", "-f", "%M", *words], stdin=file, capture_output=True, check=True)
    return run.stderr.decode().strip()


def compare(name, ours, theirs, runs, path="/dev/null", alike=True):
    """One row: both times and their ratio."""
    assert not alike or answer(ours, path) == answer(theirs, path), f"{name}: the two programs did different work"
    here, beside = least(ours, runs, path), least(theirs, runs, path)
    print(f"{name}: {here:.2f} ms, beside it {beside:.2f} ms, ratio {here / beside:.2f}")


compare("a million figures, C", [built("figures_bench")], [f"{WORK}/figures"], 9)
compare("one line of calc, Rust that prints a line", FARM, [f"{WORK}/line"], 300, LINE, alike=False)
compare("the greatest input of calc, Rust", FARM, [f"{WORK}/levels"], 40, LEVELS)
compare("100,000 short factor lines of calc, Rust", FARM, [f"{WORK}/levels"], 40, SHORT_LEVELS)
compare(
    "100,000 factors, Python's csv",
    [built("factors_bench")],
    [sys.executable, f"{TOP}/bench/records.py"],
    20,
    FACTORS,
)
print(f"memory of one line: {kilobytes(FARM, LINE)} KB, of the greatest input: {kilobytes(FARM, LEVELS)} KB, of the 100,000 short lines: {kilobytes(FARM, SHORT_LEVELS)} KB")
# Plain Rust with the `csv`, `toml` and `itoa` crates, where cargo has them.
tables = f"{WORK}/tables-target/release/tables"
if os.path.exists(tables):
    compare("the issued tables of 64 table files, Rust", [*TABLE, f"{WORK}/tables"], [tables, f"{WORK}/tables"], 20)
    compare("a site with every list at its limit, Rust", [*TABLE, f"{WORK}/limits"], [tables, f"{WORK}/limits"], 3)
compare("the issued tables of 64 table files, awk", [*TABLE, f"{WORK}/tables"], ["awk", "-f", f"{TOP}/bench/rows.awk"], 40)
compare("the issued tables of 64 strapping files, C", [*TABLE, f"{WORK}/strappings"], [f"{WORK}/strapped"], 40)
print(f"a site with every list at its limit: {least([*TABLE, f'{WORK}/limits'], 3):.0f} ms, {kilobytes([*TABLE, f'{WORK}/limits'], '/dev/null')} KB")
# C with cJSON that reads the same lines and prints answers of the same text, where there is cJSON.
if os.path.exists(f"{WORK}/batch"):
    for name, text in (("refused", '{"rule":3,"value":0}'), ("repeated", '{"place":1}')):
        compare(f"200,000 {name} lines of a batch, C with cJSON", batch(fresh(MEMORY.name)), [f"{WORK}/batch", text], 9, f"{WORK}/{name}.jsonl")
print(f"10,000 accepted lines of a batch, journal in memory: {least_fresh(3, f'{WORK}/accepted.jsonl'):.0f} ms")
history = least_fresh(5, f"{WORK}/entries.jsonl")
looked = least_fresh(5, f"{WORK}/looks.jsonl")
print(f"a history of 10,000 entries with 2,499 tickets: {history:.0f} ms, and a look at its total: {(looked - history) / 200:.2f} ms")
print(f"memory of a batch of 100,000 entries: {kilobytes(batch(fresh(MEMORY.name)), f'{WORK}/many.jsonl')} KB")


def rate(words, path):
    """How many of a thousand lines a program gets through in a second. Its answers are thrown away, so that no other file is written."""
    with open(path, "rb") as lines:
        start = time.perf_counter()
        subprocess.run(words, stdin=lines, stdout=subprocess.DEVNULL, check=True)
        return 1000 / (time.perf_counter() - start)


def gauge_rates():
    """Gauge lines a second of a batch, and of C that makes the same calls on the disk: medians of five runs in turns, on fresh journals."""
    ours, beside = [], []
    for _ in range(5):
        ours.append(rate(batch(fresh(WORK)), f"{WORK}/thousand.jsonl"))
        beside.append(rate([f"{WORK}/journal", "put", fresh(WORK), "1000"], "/dev/null"))
    return statistics.median(ours), statistics.median(beside)


def zeros(folder):
    """A journal of 1,000,000 records, each with a body of 59 zeros, which no batch would take: of an entry's length, and no entry."""
    path = fresh(folder)
    with open(path, "rb+") as file:
        file.seek(-1, os.SEEK_END)
        file.write((b"\x01" + (59).to_bytes(4, "big") + bytes(59)) * 1_000_000 + b"\x00")
    return path


def disk_calls(path):
    """How many calls on its disk a batch makes."""
    trace = f"{WORK}/trace"
    answer(["strace", "-o", trace, "-e", "trace=fsync,fdatasync,pread64,pwrite64", *batch(fresh(MEMORY.name))], path)
    with open(trace) as file:
        return sum(line.startswith(("f", "p")) for line in file)


# Journals. On a file system in memory a sync costs nothing, so that the first row says something only of one on a disk.
KIND = subprocess.run(["df", "--output=fstype", WORK], stdout=subprocess.PIPE, text=True).stdout.split()[-1]
rates = gauge_rates()
print(f"gauge lines of a batch, a journal on {KIND}: {rates[0]:.0f} a second, C {rates[1]:.0f} a second, ratio {rates[0] / rates[1]:.2f}")
written = fresh(MEMORY.name)
answer(batch(written), f"{WORK}/accepted.jsonl")
gauges = shutil.copy(written, f"{WORK}/gauges")
print(f"10,000 gauges recovered from {KIND}: {least(batch(gauges), 5):.0f} ms")
for where, folder in (("memory", MEMORY.name), (KIND, WORK)):
    path = zeros(folder)
    compare(f"1,000,000 records recovered from {where}, C", [built("journal_bench"), path], [f"{WORK}/journal", "walk", path], 9)
if shutil.which("strace"):
    print(f"calls on the disk for 1,000 looks at a stock: {disk_calls(f'{WORK}/stocks.jsonl') - disk_calls('/dev/null')}")
LOG = f"{TOP}/crates/shared_log/out/shared_log"
for callers, turns in ((1, 200_000), (4, 50_000)):
    words = [str(callers), str(turns), "500"]
    compare(f"200,000 turns of a microsecond, {callers} thread(s), a Mutex", [LOG, *words], [f"{WORK}/turns", *words], 9)


def polls_a_second(words, polls):
    """The most polls a second of some runs."""
    assert answer(words).split() == [str(polls).encode()], "not every poll gave registers"
    return 1000 * polls / least(words, 9)


# libmodbus's own server, polled by us and by libmodbus's client, where there is libmodbus. The server ends by itself after two minutes.
if os.path.exists(f"{WORK}/poll_client"):
    POLLS, PORT = 20_000, str(20_000 + os.getpid() % 20_000)
    server = subprocess.Popen([f"{WORK}/poll_server", PORT], stdout=subprocess.PIPE)
    try:
        assert server.stdout.readline() == b"ready\n", "the server has no port"
        rates = [polls_a_second([program, PORT, str(POLLS)], POLLS) for program in (built("poll_bench"), f"{WORK}/poll_client")]
        print(f"polls of a gauge on 127.0.0.1: {rates[0]:.0f} a second, libmodbus {rates[1]:.0f}, ratio {rates[0] / rates[1]:.2f}")
    finally:
        server.kill()

# The bytes of a site with every list at its limit. What a run takes beside its loop, as reading the folder, is taken off. The memory of each
# copy, each writing and each large list is new from the system: a copy into memory that was used before takes no page faults.
os.environ["MALLOC_MMAP_THRESHOLD_"] = "131072"
SITE = [built("site_bench"), f"{WORK}/limits"]
begun = {what: least([*SITE, what, "0"], 5) for what in ("copy", "write", "read")}
spent = {what: (least([*SITE, what, "40"], 5) - begun[what]) / 40 for what in ("copy", "write", "read")}
for what in ("write", "read"):
    print(f"{what} the bytes of a site: {spent[what]:.2f} ms, copying them {spent['copy']:.2f} ms, ratio {spent[what] / spent['copy']:.2f}")
