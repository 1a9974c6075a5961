#!/usr/bin/env python3
"""Says where the fault of a site stands that `farm table` refused, by the code, the item and the detail that it printed.

Use: ./farm table --site DIR | tools/site_fault.py DIR
     tools/site_fault.py DIR 'site refused: code 5 item 2 detail 0'

It looks at each place that the three numbers can mean, in the order in which the program does, and prints the first in which
it sees something wrong; where it sees nothing, it prints all of them. docs/formats.md says the same in words, under "Finding a
fault". The program's word counts: this script reads TOML 1.0, and sees less.
"""
import os
import re
import sys

sys.dont_write_bytecode = True
from site_folder import FIELDS, KEYS, MOST_BYTES, Toml, at_line, gap_in_grid, is_data, is_utf16, keys_of, named_files, no_file, records, tables

LISTS = {"product": (1, 16), "party": (0, 256), "tank": (1, 64), "line": (0, 16)}
HAVE = {2: ("product", "party", "tank", "line"), 3: ("product", "party", "tank", "line"),
        4: ("product", "party", "tank", "line"), 5: ("tank", "line")}


class Search:
    """The places of a fault, and what is seen wrong there."""

    def __init__(self, folder, code, item, detail):
        self.folder, self.code, self.item, self.detail = folder, code, item, detail
        self.site = Toml(folder, "site.toml")
        self.places, self.found = [], None

    def place(self, name, line, what, wrong=None):
        """A place that the fault can be at; the first that has something wrong is the one."""
        self.places.append(f"{at_line(name, line)}: {what}" + (f": {wrong}" if wrong else ""))
        if wrong and self.found is None:
            self.found = len(self.places) - 1

    def keys(self, file, kind, table, start, what, more=lambda key, value: None):
        """The keys of a block, in the order of looking: the first with the fault's code."""
        keys = table if isinstance(table, dict) else {}
        known = keys_of(kind, self.site.table)
        roof = any(key in keys for key, _, _ in known if key.startswith("roof_"))
        for key, needed, test in known:
            fault = None
            if key in keys:
                fault = test(keys[key]) if test else None
                fault = fault or more(key, keys[key])
            elif needed and test or roof and key in ("roof_kg", "roof_low", "roof_high"):
                fault = 2, "is missing"
            if kind == "tank" and key == "table" and not fault and ("table" in keys) == ("strapping" in keys):
                fault = 2, "and strapping: expected is one of the two"
            if fault:
                self.place(file.name, file.key(start or 0, key) or start, what, f"{key} {fault[1]}" if fault[0] == self.code else None)
                return True
        self.place(file.name, start, what)
        return False

    def top(self):
        """The top keys, and lists that are no lists."""
        def more(key, value):
            if key in LISTS and not isinstance(value, list):
                return 2, "isn't a list of tables: write [[" + key + "]]"
        self.keys(self.site, "top", self.site.table, 0, "the top", more)

    def blocks(self, kind):
        """The block of the item in a list of the site."""
        blocks = tables(self.site.table, kind)
        if not 1 <= self.item <= len(blocks):
            return
        block, start = blocks[self.item - 1], self.site.block(kind, self.item)
        earlier = [other.get("number") for other in blocks[:self.item - 1] if isinstance(other, dict)]
        products = [other.get("number") for other in tables(self.site.table, "product") if isinstance(other, dict)]

        def more(key, value):
            if key == "number" and value in earlier:
                return 4, f"{value} is that of an earlier {kind}"
            if kind == "tank" and key == "product" and value not in products:
                return 5, f"{value} is no product of the site"
            if key == "roof_high" and value < block.get("roof_low", 0):
                return 3, "is below roof_low"
            if key == "gauge" and not isinstance(value, list):
                return 2, "isn't a list of tables: write [[line.gauge]]"
        wrong = self.keys(self.site, kind, block, start, f"{kind} {self.item}", more)
        if kind == "line" and not wrong and isinstance(block, dict):
            self.gauges(block)
        if kind == "tank" and not wrong and isinstance(block, dict) and isinstance(block.get("strapping"), str):
            self.strapping_file(Toml(self.folder, block["strapping"]))

    def gauges(self, line):
        """The gauges of the item's line, with their fields."""
        lines = tables(self.site.table, "line")
        numbers = [tank.get("number") for tank in tables(self.site.table, "tank") if isinstance(tank, dict)]
        gauged = [gauge.get("tank") for other in lines[:self.item - 1] for gauge in tables(other, "gauge")]
        for number, gauge in enumerate(tables(line, "gauge"), 1):
            table = gauge if isinstance(gauge, dict) else {}

            def more(key, value):
                if key == "tank" and value not in numbers:
                    return 5, f"{value} is no tank of the site"
                if key == "tank" and value in gauged:
                    return 4, f"{value} has an earlier gauge"
                if key == "quantity" and table.get("start", 0) + value > 65536:
                    return 3, "reaches past register 65535"
                if key in FIELDS + ("valid",):
                    return self.field("valid" if key == "valid" else "field", value, table.get("quantity", 0))
            for key in ("level", "temperature"):
                if key not in table:
                    table = {**table, key: None}
            if self.keys(self.site, "gauge", table, self.site.gauge(self.item, number), f"gauge {number} of line {self.item}", more):
                return
            gauged.append(table.get("tank"))

    def field(self, kind, value, quantity):
        """What is wrong with a field or a validity bit."""
        if value is None:
            return 2, "is missing"
        keys = value if isinstance(value, dict) else {}
        for key, needed, test in KEYS[kind]:
            if key in keys:
                fault = test(keys[key])
                if fault:
                    return fault[0], f"has {key}, which {fault[1]}"
            elif needed:
                return 2, f"has no {key}"
            if key == ("words" if kind == "field" else "offset") and keys["offset"] + keys.get("words", 1) > quantity:
                return 3, f"reaches past the {quantity} registers that are read"

    def due_record(self):
        """A record of a table file that isn't due."""
        for name, is_toml, _ in self.files():
            if not is_toml and name in [tank.get("table") for tank in tables(self.site.table, "tank") if isinstance(tank, dict)]:
                self.record(name, self.detail, f"a level of {10 * (self.detail - 1)} and its litres are expected, two whole numbers")

    def strapping_file(self, file):
        """The blocks of a strapping file."""
        for key in ("course", "deadwood", "bottom"):
            if not isinstance(file.table.get(key, []), list):
                self.place(file.name, file.key(0, key), f"tank {self.item}", f"{key} isn't a list" if self.code == 2 else None)
                return
            if key == "bottom":
                continue
            for number, block in enumerate(tables(file.table, key), 1):
                if self.keys(file, key, block, file.block(key, number), f"tank {self.item}, {key} {number}"):
                    return
        for number, point in enumerate(tables(file.table, "bottom"), 1):
            pair = isinstance(point, list) and len(point) == 2
            fault = None
            if not pair or type(point[0]) is not int:
                fault = 2, "isn't a pair of a height and litres"
            elif not 0 <= point[0] <= 50000:
                fault = 3, "has a height that isn't from 0 to 50000"
            elif type(point[1]) is not int:
                fault = 2, "isn't a pair of a height and litres"
            if fault and fault[0] == self.code:
                self.place(file.name, file.key(0, "bottom"), f"tank {self.item}", f"point {number} of the bottom {fault[1]}")
                return

    def no_records(self, name, what):
        """Whether a CSV file can't be looked at: it is no file, or begins as UTF-16."""
        wrong = no_file(self.folder, name) or is_utf16(self.folder, name)
        if wrong:
            self.place(name, 1, what, wrong)
        return wrong

    def record(self, name, number, what):
        """A record of a CSV file, counted from 1 after the header."""
        if self.no_records(name, f"record {number}"):
            return
        found = records(self.folder, name)
        if number < len(found):
            line, fields = found[number]
            self.place(name, line, f"record {number}", f"`{','.join(fields)}`: {what}")
        else:
            self.place(name, found[-1][0] if found else None, f"record {number}, which is missing at the end", what)

    def uneven(self, name, what):
        """The first record of another length than the header."""
        if self.no_records(name, what):
            return
        found = records(self.folder, name)
        for number, (line, fields) in enumerate(found):
            if len(fields) != len(found[0][1]):
                return self.place(name, line, f"{what}, record {number}", f"{len(fields)} fields, and {len(found[0][1])} in the header")
        self.place(name, None, what)

    def files(self):
        """The files of the item, in the order of looking: a pair of a name and whether it is TOML."""
        if self.item == 0:
            return [("site.toml", True, "the site")]
        found = []
        for kind, keys in (("product", ("factors",)), ("tank", ("table", "strapping"))):
            blocks = tables(self.site.table, kind)
            block = blocks[self.item - 1] if self.item <= len(blocks) else {}
            found += [(block[key], key == "strapping", f"{kind} {self.item}") for key in keys if isinstance(block.get(key), str)]
        return found

    def search(self):
        """Finds the places of the fault."""
        if self.code == 1:
            for name, is_toml, what in self.files():
                if is_toml:
                    file = Toml(self.folder, name)
                    self.place(name, file.wrong, what, file.why or beyond_the_reader(file.table))
                else:
                    self.uneven(name, what)
        elif self.code in (2, 3) and self.item == 0:
            self.top()
        elif self.code == 2 and self.detail:
            self.due_record()
        elif self.code in HAVE:
            for kind in HAVE[self.code]:
                self.blocks(kind)
        elif self.code == 9:
            self.lengths()
        elif self.code == 10:
            for name, _, what in self.files():
                path = os.path.join(self.folder, name)
                length = os.path.getsize(path) if os.path.exists(path) else 0
                self.place(name, None, what, f"{length} bytes, and {MOST_BYTES} are allowed" if length > MOST_BYTES else None)
        else:
            self.judged()

    def lengths(self):
        """Lists that are too long, or empty where they may not be."""
        for kind, (least, most) in LISTS.items():
            count = len(tables(self.site.table, kind))
            wrong = None if least <= count <= most else f"{count} items, and {least} to {most} are allowed"
            self.place("site.toml", self.site.block(kind, 1), f"the list {kind}", wrong)
        for number, line in enumerate(tables(self.site.table, "line"), 1):
            count = len(tables(line, "gauge"))
            wrong = None if 1 <= count <= 16 else f"{count} gauges, and 1 to 16 are allowed"
            self.place("site.toml", self.site.block("line", number), f"the gauges of line {number}", wrong)

    def judged(self):
        """The files that were read whole and then refused."""
        kind = "product" if self.code == 8 else "tank"
        key = {6: "strapping", 7: "table", 8: "factors"}[self.code]
        block = tables(self.site.table, kind)[self.item - 1:][:1]
        name = block[0].get(key) if block else None
        if name is None:
            return
        if self.code == 6:
            self.strapping(Toml(self.folder, name))
        elif self.code == 7 and self.detail:
            self.record(name, self.detail + 1, f"row {self.detail}, at {10 * self.detail} mm, is below 0, above 10^9 litres or below the row before")
        elif self.code == 7:
            self.place(name, None, f"tank {self.item}", f"{max(len(records(self.folder, name)) - 1, 0)} rows, and 2 to 5001 are allowed; or row 0 is below 0 or above 10^9 litres")
        elif self.detail:
            self.grid(name)
        else:
            self.place(name, None, f"product {self.item}", "more than 100000 records")

    def grid(self, name):
        """A factor file that is no grid: the block that differs from the others, or the record."""
        if self.no_records(name, f"product {self.item}"):
            return
        found, gap = records(self.folder, name), gap_in_grid(self.folder, name)
        if found and is_data(found[0]):
            self.place(name, found[0][0], f"product {self.item}", "the first line is the header and never data: put a header before it")
        elif gap:
            self.place(name, gap[0], f"product {self.item}", gap[1])
        else:
            self.record(name, self.detail, "expected are a density, a temperature and a factor that continue the grid")

    def strapping(self, file):
        """A strapping that was read and then refused: its courses, its deadwoods, its bottom, and then its rows."""
        what = f"tank {self.item}"
        points = file.table.get("bottom", [[0, 0]])
        courses, deadwoods = tables(file.table, "course"), tables(file.table, "deadwood")
        for number, course in enumerate(courses, 1):
            if wrong := bad_course(course):
                return self.place(file.name, file.block("course", number), f"{what}, course {number}", wrong)
        for number, deadwood in enumerate(deadwoods, 1):
            if wrong := bad_deadwood(deadwood, points):
                return self.place(file.name, file.block("deadwood", number), f"{what}, deadwood {number}", wrong)
        for number, point in enumerate(points, 1):
            if wrong := bad_point(points[:number - 1], point):
                return self.place(file.name, file.key(0, "bottom"), f"{what}, point {number} of the bottom", wrong)
        if not points:
            return self.place(file.name, file.key(0, "bottom"), f"{what}, the bottom", "no point")
        height = sum(course["height"] for course in courses)
        if not courses or not max(10, points[-1][0]) <= height <= 50000:
            wrong = f"{height} mm of courses: 10 to 50000 are allowed, not lower than the bottom"
        else:
            wrong = f"row {self.detail}, at {10 * self.detail} mm, is below 0, above 10^9 litres or below the row before"
        self.place(file.name, None, what, wrong)


def tenths(block, key):
    """A length in 0.1 mm."""
    front, _, decimals = block.get(key, "0").partition(".")
    return int(front + decimals.ljust(1, "0"))


def bad_course(course):
    """Why a course isn't one."""
    if course["height"] == 0:
        return "its height is 0"
    left = 0
    for end in ("lower", "upper"):
        if tenths(course, f"{end}_deduction") > tenths(course, end):
            return f"{end}_deduction is above {end}"
        left += tenths(course, end) - tenths(course, f"{end}_deduction")
    if 113 * left <= 1420 * (tenths(course, "plate") + tenths(course, "paint")):
        return "nothing is left inside the plate and the paint"
    return None


def bad_deadwood(deadwood, points):
    """Why a deadwood isn't one."""
    if deadwood["low"] >= deadwood["high"]:
        return "low isn't below high"
    if points and deadwood["low"] < points[-1][0]:
        return f"low is below the bottom's last point, {points[-1][0]} mm"
    return "more than 10^9 litres" if abs(deadwood["litres"]) > 10**9 else None


def bad_point(earlier, point):
    """Why a point of a bottom isn't one."""
    if not earlier and point[0] != 0:
        return "the first point isn't at 0 mm"
    if earlier and point[0] <= earlier[-1][0]:
        return "its height isn't above that of the point before"
    if earlier and point[1] < earlier[-1][1]:
        return "fewer litres than at the point before"
    return None if 0 <= point[1] <= 10**9 else "litres that aren't from 0 to 10^9"


def beyond_the_reader(value, depth=80):
    """What the program's reader of TOML doesn't take and Python's does."""
    if isinstance(value, (dict, list)):
        if not depth:
            return "is nested deeper than 80"
        items = value.values() if isinstance(value, dict) else value
        return next((why for why in (beyond_the_reader(item, depth - 1) for item in items) if why), None)
    if type(value) is int and not -2**63 <= value < 2**63:
        return f"{value} doesn't fit 64 bits"
    return None


def wrong_files(folder):
    """What is wrong with the files that a site names."""
    site = Toml(folder, "site.toml")
    if site.length is None:
        return [f"site.toml {site.why}" if os.path.isdir(folder) else f"{folder} is no folder"]
    wrong = [(f"{at_line(site.name, line)}: {what}: {name}", no_file(folder, name)) for name, _, line, what in named_files(site)]
    return [f"{place} {why}" for place, why in wrong if why]


def said_of(folder, said):
    """The lines that are said of a folder, by what the program printed of it. None where that is no refusal."""
    if said.startswith("port fault"):
        return wrong_files(folder) or ["each file that site.toml names can be read by whoever runs this: look at where the output goes"]
    if said.startswith("tank "):
        return ["not refused"]
    numbers = re.match(r"site refused: code (\d+) item (\d+) detail (\d+)", said)
    if not numbers:
        return None
    search = Search(folder, *map(int, numbers.groups()))
    search.search()
    if search.found is not None:
        return [search.places[search.found]]
    return ["maybe: " + place for place in search.places] or ["nothing of this kind in the folder; is it the one that was refused?"]


def main():
    if len(sys.argv) not in (2, 3) or sys.argv[1] == "--help":
        sys.exit(__doc__)
    lines = said_of(sys.argv[1], sys.argv[2] if len(sys.argv) == 3 else sys.stdin.read())
    if lines is None:
        sys.exit("no line `site refused: code C item I detail D`")
    print("\n".join(lines))


if __name__ == "__main__":
    main()
