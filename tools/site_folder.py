"""A site's folder as docs/formats.md describes it: its keys, and where each of its blocks stands in the files.

Read by site_fault.py and site_slips.py. It says where to look; what a folder is refused for is said by `farm table` alone.
"""
import csv
import io
import os
import re
import tomllib
from decimal import Decimal
from itertools import groupby

MOST_BYTES = 4_194_304


def whole(least, most):
    """A TOML integer in a range."""
    def fault(value):
        if type(value) is not int:
            return 2, "isn't a whole number"
        if not least <= value <= most:
            return 3, f"isn't from {least} to {most}"
    return fault


def any_whole(value):
    """A TOML integer; whether the site has its number is looked at elsewhere."""
    if type(value) is not int:
        return 2, "isn't a whole number"


def text(longest, least):
    """A string of printable ASCII."""
    def fault(value):
        if type(value) is not str:
            return 2, "isn't a text"
        if not 1 <= len(value.encode()) <= longest or not all(least <= ord(c) <= 126 for c in value):
            return 3, f"isn't 1 to {longest} printable ASCII characters" + (" without a blank" if least == 33 else "")
    return fault


def one_of(*words):
    """One of these strings."""
    def fault(value):
        if type(value) is not str:
            return 2, "isn't a text"
        if value not in words:
            return 3, "isn't one of " + ", ".join(words)
    return fault


def file_name(value):
    """The name of a file."""
    if type(value) is not str:
        return 2, "isn't the name of a file"


def decimal(places, least, most):
    """A string that is a decimal number, in a range."""
    def fault(value):
        if type(value) is not str:
            return 2, "isn't a number in quotes"
        if not re.fullmatch(r"-?[0-9]+(\.[0-9]+)?", value):
            return 2, "isn't a decimal number"
        front, _, decimals = value.partition(".")
        if len(decimals) > places:
            return 2, f"has more than {places} decimals"
        units = int(front.lstrip("-") + decimals.ljust(places, "0")) * (-1 if front.startswith("-") else 1)
        if not least <= units <= most:
            return 3, f"isn't from {least / 10 ** places:.{places}f} to {most / 10 ** places:.{places}f}"
    return fault


def rounding(*modes):
    """Twelve rows `STEP MODE`, each of one of these modes."""
    form = re.compile(r"(1|2|5|10|20|50|100) (" + "|".join(modes) + ")")

    def fault(value):
        if type(value) is not list or len(value) != 12:
            return 2, "isn't a list of 12 texts"
        for number, row in enumerate(value, 1):
            if type(row) is not str:
                return 2, f"has a row {number} that isn't a text"
            if not form.fullmatch(row) or number == 7 and not row.startswith("1 "):
                return 3, f"has a row {number} that isn't allowed"
    return fault


def switch(value):
    """A TOML boolean."""
    if type(value) is not bool:
        return 2, "isn't true or false"


# The keys of each kind of block in the order of looking, as format 2 has them: the name, whether it is needed, the test of its value.
# Where the test is None, the value is looked at by the code.
KEYS = {
    "top": [("format", True, whole(1, 2)), ("name", True, text(32, 32)), ("rounding", False, rounding("half", "zero", "even")),
            ("product", True, None), ("party", False, None), ("tank", True, None), ("line", False, None)],
    "product": [("number", True, whole(1, 65535)), ("name", True, text(32, 32)), ("factors", True, file_name)],
    "party": [("number", True, whole(1, 65535)), ("name", True, text(32, 32))],
    "tank": [("number", True, whole(1, 65535)), ("product", True, any_whole), ("shell", True, one_of("bare", "insulated")),
             ("coefficient", True, whole(0, 1000)), ("reference_temperature", True, decimal(2, -10000, 30000)),
             ("reference_height", True, whole(1, 50000)), ("roof_kg", False, whole(1, 10000000)),
             ("roof_low", False, whole(0, 50000)), ("roof_high", False, whole(0, 50000)),
             ("roof_reference", False, decimal(1, 4000, 12000)),
             ("table", False, file_name), ("strapping", False, file_name),
             ("opening_litres", True, whole(-10**9, 10**9)), ("opening_kg", True, whole(-10**9, 10**9))],
    "line": [("host", True, text(64, 33)), ("port", True, whole(1, 65535)), ("gauge", True, None)],
    "gauge": [("tank", True, any_whole), ("unit", True, whole(0, 255)), ("function", True, whole(3, 4)),
              ("start", True, whole(0, 65535)), ("quantity", True, whole(1, 125)), ("level", True, None),
              ("temperature", True, None), ("water", False, None), ("ambient", False, None),
              ("ambient_fixed", False, whole(-10000, 30000)), ("valid", False, None),
              ("deadband_mm", False, whole(1, 1000)), ("deadband_centi", False, whole(1, 1000))],
    "field": [("offset", True, whole(0, 124)), ("words", False, whole(1, 2)), ("order", False, one_of("high", "low")),
              ("signed", False, switch), ("mul", False, whole(1, 1000000)), ("div", False, whole(1, 1000000))],
    "valid": [("offset", True, whole(0, 124)), ("bit", True, whole(0, 15))],
    "strapping": [("course", False, None), ("deadwood", False, None), ("bottom", False, None)],
    "course": [("height", True, whole(0, 50000)), ("lower", True, decimal(1, 0, 5000000)),
               ("upper", True, decimal(1, 0, 5000000)), ("lower_deduction", False, decimal(1, 0, 5000000)),
               ("upper_deduction", False, decimal(1, 0, 5000000)), ("plate", False, decimal(1, 0, 5000000)),
               ("paint", False, decimal(1, 0, 5000000))],
    "deadwood": [("low", True, whole(0, 50000)), ("high", True, whole(0, 50000)), ("litres", True, any_whole)],
}

# What format 1 has in another way: the test of a value, or None for a key that it lacks.
FORMAT_1 = {"rounding": rounding("half", "zero"), "roof_reference": None}

FIELDS = ("level", "temperature", "water", "ambient")


def keys_of(kind, table):
    """The keys of a kind of block, as the format has them of the site with this table."""
    if table.get("format") == 2:
        return KEYS[kind]
    return [(key, needed, FORMAT_1.get(key, test)) for key, needed, test in KEYS[kind] if FORMAT_1.get(key, True)]


def no_file(folder, name):
    """Why a name that a site gives is no file that can be read in its folder, as words after the name. None where it is one."""
    path = os.path.join(folder, name)
    if os.path.isabs(name):
        return "is an absolute path, and names are from the folder: write it without what leads there"
    if os.path.isdir(path):
        return "is a directory, and a file is expected"
    if not os.path.exists(path):
        return f"isn't in {folder}"
    return None if os.access(path, os.R_OK) else "may not be read: look at its permissions"


def named_files(site):
    """The files that a site names, each once: its name, its key, and the line and the block where it is named first."""
    found = {}
    for kind, keys in (("product", ("factors",)), ("tank", ("table", "strapping"))):
        for item, block in enumerate(tables(site.table, kind), 1):
            for key in keys:
                name = block.get(key) if isinstance(block, dict) else None
                if isinstance(name, str) and name not in found:
                    start = site.block(kind, item) or 0
                    found[name] = key, site.key(start, key) or start, f"{kind} {item}"
    return [(name, *where) for name, where in found.items()]


def no_text(content):
    """Why bytes are no text in UTF-8: the line, from 1, and the reason. None where they are."""
    if content.startswith((b"\xff\xfe", b"\xfe\xff")):
        return 1, "the file begins as UTF-16: save it as UTF-8"
    if b"\0" in content[:4]:
        return 1, "the file begins as UTF-16 without a mark: save it as UTF-8"
    try:
        content.decode()
    except UnicodeDecodeError as error:
        line = content.count(b"\n", 0, error.start) + 1
        return line, f"byte 0x{content[error.start]:02x} isn't UTF-8: save the file as UTF-8"
    return None


class Toml:
    """A TOML file: its table, and the lines on which its blocks and keys stand. Where it is no TOML, `why` says so, and `wrong` is
    the line of it, where that is known."""

    def __init__(self, folder, name):
        self.name, self.table, self.why, self.wrong, self.lines, self.length = name, {}, None, None, [], None
        try:
            with open(os.path.join(folder, name), "rb") as file:
                content = file.read()
        except OSError as error:
            self.why = no_file(folder, name) or error.strerror
            return
        self.length = len(content)
        self.lines = content.decode("utf-8-sig", errors="replace").splitlines()
        if found := no_text(content):
            self.wrong, self.why = found
            return
        try:
            self.table = tomllib.loads(content.decode("utf-8-sig"))
        except tomllib.TOMLDecodeError as error:
            at = re.search(r" \(at line (\d+), column (\d+)\)$", str(error))
            self.wrong = int(at[1]) if at else len(self.lines)
            self.why = f"{str(error)[:at.start()]}, at column {at[2]}" if at else str(error)

    def blocks(self, header):
        """The lines of the headers `[[header]]`, counted from 1."""
        form = re.compile(r"\s*\[\[\s*" + r"\s*\.\s*".join(map(re.escape, header.split("."))) + r"\s*\]\]")
        return [number for number, line in enumerate(self.lines, 1) if form.match(line)]

    def block(self, header, item):
        """The line of the header of an item, counted from 1; None where it has no header of its own."""
        lines = self.blocks(header)
        return lines[item - 1] if item <= len(lines) else None

    def gauge(self, line, gauge):
        """The line of the header of a gauge of a line, both counted from 1."""
        start = self.block("line", line)
        end = self.block("line", line + 1) or len(self.lines) + 1
        lines = [number for number in self.blocks("line.gauge") if start and start < number < end]
        return lines[gauge - 1] if gauge <= len(lines) else None

    def key(self, start, key):
        """The line of a key of the block whose header is on line `start`, 0 for the top."""
        for number in range(start + 1, len(self.lines) + 1):
            if re.match(r"\s*\[\[?\s*[A-Za-z\"]", self.lines[number - 1]):
                return None
            if re.match(r"\s*\"?" + re.escape(key) + r"\"?\s*=", self.lines[number - 1]):
                return number
        return None


def at_line(name, line):
    """A place in a file: its name, and the line where that is known."""
    return f"{name}:{line}" if line else name


def tables(table, key):
    """The tables of a list; none where it isn't one."""
    value = table.get(key, [])
    return value if isinstance(value, list) else []


def records(folder, name):
    """The records of a CSV file, blank lines left out, each with the line on which it ends."""
    with open(os.path.join(folder, name), "rb") as file:
        content = file.read().decode("utf-8-sig", errors="replace")
    reader = csv.reader(io.StringIO(content, newline=""))
    return [(reader.line_num, fields) for fields in reader if fields]


def is_utf16(folder, name):
    """Why a CSV file is none that the program reads: it begins as UTF-16. None for others."""
    with open(os.path.join(folder, name), "rb") as file:
        found = no_text(file.read(4))
    return found[1] if found and "UTF-16" in found[1] else None


def is_data(record):
    """Whether each field of a record is a number, as those of a header aren't."""
    return all(re.fullmatch(r"\s*-?[0-9.]+\s*", field) for field in record[1])


def numbers(folder, name, count):
    """The records of a CSV file below its header as numbers, each with its line, up to the first that has another count."""
    found = []
    for line, fields in records(folder, name)[1:]:
        if len(fields) != count or not all(re.fullmatch(r"\s*-?[0-9]+(\.[0-9]+)?\s*", field) for field in fields):
            break
        found.append((line, *(Decimal(field.strip()) for field in fields)))
    return found


def blocks_of(factors):
    """The blocks of factors: pairs of a density and its records."""
    return [(density, list(block)) for density, block in groupby(factors, lambda record: record[1])]


def gap_in_grid(folder, name):
    """Where the first block of a factor file stands that lacks a temperature which the others have, or has one more: the line and
    what is wrong. None where no block is a few temperatures apart from the others."""
    blocks = blocks_of(numbers(folder, name, 3))
    densities = [density for density, _ in blocks]
    lists = [[record[2] for record in block] for _, block in blocks]
    if len(blocks) < 2 or densities != sorted(set(densities)) or any(it != sorted(set(it)) for it in lists):
        return None
    usual = sorted({it for each in lists for it in each if 2 * sum(it in other for other in lists) >= len(lists)})
    for (density, block), its in zip(blocks, lists):
        lacks, more = [it for it in usual if it not in its], [it for it in its if it not in usual]
        if not lacks and not more:
            continue
        if len(lacks) + len(more) > max(1, len(usual) // 4):
            return None
        after = [record[0] for record in block if record[2] > (lacks or more)[0]]
        if lacks:
            return after[0] if after else block[-1][0], f"the block of {density} has no {lacks[0]}, and others have it"
        return block[its.index(more[0])][0], f"the block of {density} has {more[0]}, and others don't"
    return None
