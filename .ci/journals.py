"""Journals of the built program, and the lines of commands: what `kills`, `lines`, `desk` and `hostile` stand on."""
import itertools
import json
import os
import re
import shutil
import subprocess

TOP = os.path.dirname(os.path.dirname(os.path.abspath(__file__)))
PROGRAM = os.path.join(TOP, "crates", "farm", "out", "farm")
SITE = os.path.join(TOP, "examples", "site")
TOTAL = b'{"do":"total"}\n'
# A site of one tank with two rows.
SMALL_SITE = {
    "site.toml": """format = 1
name = "S"
[[product]]
number = 1
name = "P"
factors = "factors.csv"
[[tank]]
number = 101
product = 1
shell = "bare"
coefficient = 0
reference_temperature = "15.00"
reference_height = 1000
table = "table.csv"
opening_litres = 0
opening_kg = 0
""",
    "factors.csv": "density,temperature,factor\n850.0,15.00,1.00000\n",
    "table.csv": "mm,litres\n0,0\n10,1000\n",
}


class Wrong(Exception):
    """Something isn't as it has to be."""


def expect(what, wanted, came):
    if wanted != came:
        raise Wrong(f"{what}: wanted {wanted}, came {came}")


def command(do, key, **members):
    """The line of a command."""
    return json.dumps({"do": do, "account": 1, "key": key, **members}).encode() + b"\n"


def gauge(key, level):
    return command("gauge", key, tank=101, level=level, water=0, temperature=1500, ambient=1200)


def sample(key):
    return command("sample", key, tank=101, density=8500, sw=0)


def commands(first):
    """The commands of a history from a place on, without an end, each under its place as key: a sample, and then receipts."""
    cycle = (
        lambda place: gauge(place, 1234),
        lambda place: command("open", place, way="receipt", tank=101, party=7, reading=place - 1, sample=1),
        lambda place: gauge(place, 1235),
        lambda place: command("close", place, movement=place - 2, reading=place - 1, sample=1),
    )
    for place in itertools.count(first):
        yield sample(place) if place == 1 else cycle[(place - 2) % 4](place)


def first_commands(count):
    return list(itertools.islice(commands(1), count))


def batch_words(journal):
    return [PROGRAM, "batch", "--journal", journal]


def init_words(site, journal):
    return [PROGRAM, "init", "--site", site, "--journal", journal]


def run(words, text=b""):
    """The status that a program ends with, and what it prints."""
    done = subprocess.run(words, input=text, stdout=subprocess.PIPE)
    return done.returncode, done.stdout


def redirected(words, how):
    """A program with standard streams as a shell redirects them: `<&-` is without input."""
    return ["sh", "-c", f'exec "$@" {how}', "sh", *words]


def traced(words, text, folder, flags):
    """What a program prints of a text under strace, and the names of its calls from the lock of the journal on."""
    lines, trace = os.path.join(folder, "lines"), os.path.join(folder, "trace")
    with open(lines, "wb") as file:
        file.write(text)
    with open(lines, "rb") as file:
        done = subprocess.run(["strace", "-o", trace, *flags, *words], stdin=file, stdout=subprocess.PIPE)
    return done.returncode, done.stdout, calls_from_the_lock(trace)


def calls_from_the_lock(trace):
    """The names of the calls in what strace wrote, from the lock of the journal on."""
    names = re.findall(r"^(\w+)\(", bytes_of(trace).decode(), re.MULTILINE)
    return names[names.index("flock") :]


def may_trace():
    """Whether strace is there and may trace a program."""
    return shutil.which("strace") and not subprocess.run(["strace", "-o", os.devnull, "true"], stderr=subprocess.DEVNULL).returncode


def make(site, journal):
    expect("init", (0, b""), run(init_words(site, journal)))


def make_small(folder, journal):
    """Makes the journal of the small site, which is written into a folder."""
    os.mkdir(folder)
    for name, text in SMALL_SITE.items():
        with open(os.path.join(folder, name), "w") as file:
            file.write(text)
    make(folder, journal)


def bytes_of(path):
    """What a file has; nothing where there is no file."""
    if not os.path.exists(path):
        return b""
    with open(path, "rb") as file:
        return file.read()


def gates_of(journal):
    """The offsets of the gates of a whole journal's records, the closed one last: docs/formats.md, "The bytes of a journal"."""
    at, gates = 13 + int.from_bytes(journal[9:13], "big"), []
    while journal[at] == 1:
        gates.append(at)
        at += 5 + int.from_bytes(journal[at + 1 : at + 5], "big")
    return gates + [at]
