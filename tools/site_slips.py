#!/usr/bin/env python3
"""Lists what `farm table` passes over in silence in a site's folder, and the files that it would miss.

Use: tools/site_slips.py DIR

- keys that no format names: a key with a typing error is passed over, and where the key may be missing its default holds;
- files that site.toml names and the folder doesn't have;
- CSV files whose first line reads as data: the first line is never data;
- numbers that are in range and hardly meant: an opening mass in tonnes, a maker's number of a register as a start, a factor or a
  volume that is far from those beside it, and a circumference that is far from the others of its tank;
- at the end, as a note, files of the folder that nothing names.

It ends with 0 where there is nothing to look at but notes, with 1 where there is something, and with 2 where a file can't be read as
what it is. So `tools/site_slips.py DIR && ./farm init --site DIR --journal FILE` makes a journal of a folder without slips alone.
"""
import difflib
import os
import re
import sys
from decimal import Decimal

sys.dont_write_bytecode = True
from site_folder import FIELDS, KEYS, Toml, at_line, blocks_of, is_data, is_utf16, keys_of, named_files, no_file, numbers, records, tables

# The keys of a top that stand for themselves: below the first header they are keys of its block.
TOPS = {"top": ("format", "name", "rounding"), "strapping": ("bottom",)}
# From how many litres on a mass is compared with its volume.
LEAST_LITRES = 1000


class Unreadable(Exception):
    """A file can't be read as what it is: its name, the line if it is known, and why."""


def slips(file, kind, table, start, what, top="top"):
    """The keys of a block that no format names, and those of the tables in it."""
    known = [key for key, _, _ in keys_of(kind, file.table)]
    missing = [key for key in known if key not in table]
    for key, value in table.items():
        if key not in known:
            line = file.key(start or 0, key) or start or file.block(key, 1) or 1
            yield f"{file.name}:{line}: {what} has a key `{key}`{why_unknown(file, kind, key, missing, top)}"
        elif kind == "gauge" and isinstance(value, dict):
            within = "valid" if key == "valid" else "field" if key in FIELDS else None
            if within:
                line = file.key(start or 0, key)
                yield from (slip.replace(f"{file.name}:{line or 1}", f"{file.name}:{line}") for slip in slips(file, within, value, line, f"{what}, {key},"))


def why_unknown(file, kind, key, missing, top):
    """What may have been meant by a key that no format names."""
    if kind != top and key in TOPS[top] and (key not in file.table or key in ("rounding", "bottom")):
        return f": `{key}` belongs before the first `[[..]]`" + (", where one stands" if key in file.table else "")
    if key in (other for other, _, _ in KEYS[kind]):
        return ", which format 2 has: write `format = 2`"
    near = [other for other in missing if are_near(key, other)]
    return f"; `{max(near, key=lambda other: likeness(key, other))}` is missing" if near else ""


def letters_of(key):
    return re.sub(r"[^a-z]", "", key.lower())


def likeness(one, other):
    """How alike two keys are, from 0 to 1."""
    return difflib.SequenceMatcher(None, letters_of(one), letters_of(other)).ratio()


def are_near(one, other):
    """Whether two keys are a slip apart: the same letters but for two, or one within the other."""
    letters = letters_of(one), letters_of(other)
    rest = list(letters[1])
    for letter in letters[0]:
        if letter in rest:
            rest.remove(letter)
    return len(rest) <= 2 and abs(len(letters[0]) - len(letters[1])) <= 2 or min(letters) in max(letters)


def site_slips(site, folder):
    """The slips of site.toml."""
    yield from slips(site, "top", site.table, 0, "the top")
    for kind in ("product", "party", "tank", "line"):
        for item, block in enumerate(tables(site.table, kind), 1):
            if isinstance(block, dict):
                yield from slips(site, kind, block, site.block(kind, item), f"{kind} {item}")
                yield from opening_slips(site, folder, block, item) if kind == "tank" else ()
                for number, gauge in enumerate(tables(block, "gauge") if kind == "line" else [], 1):
                    if isinstance(gauge, dict):
                        start, what = site.gauge(item, number), f"gauge {number} of line {item}"
                        yield from slips(site, "gauge", gauge, start, what)
                        yield from start_slips(site, gauge, start, what)


def opening_slips(site, folder, tank, item):
    """An opening mass that isn't that of the opening volume by any density of the product's factors."""
    litres, kg = tank.get("opening_litres"), tank.get("opening_kg")
    name = next((block.get("factors") for block in tables(site.table, "product")
                 if isinstance(block, dict) and block.get("number") == tank.get("product")), None)
    if type(litres) is not int or type(kg) is not int or abs(litres) < LEAST_LITRES or not isinstance(name, str) or no_file(folder, name):
        return
    densities = [density for _, density, _, _ in numbers(folder, name, 3)]
    if len(densities) < len(records(folder, name)) - 1:
        return  # A record isn't three numbers: the program refuses the file, and the densities below it aren't known.
    # By half a kilogram and half a litre each was rounded at most.
    if densities and not min(densities) * (abs(litres) - 1) / 1000 - 1 <= kg * (1 if litres > 0 else -1) <= max(densities) * (abs(litres) + 1) / 1000 + 1:
        line = site.key(site.block("tank", item) or 0, "opening_kg") or site.block("tank", item)
        given = (Decimal(1000) * kg / litres).quantize(Decimal("0.1"))
        yield f"{at_line(site.name, line)}: tank {item}: opening_kg over opening_litres is {given} kg/m3, and {name} has {min(densities)} to {max(densities)}"


def start_slips(site, gauge, start, what):
    """A register in the numbers of a maker's list."""
    number = gauge.get("start")
    for first, function in ((30001, 4), (40001, 3)):
        if type(number) is int and first <= number < first + 9999:
            line = site.key(start or 0, "start") or start
            yield f"{at_line(site.name, line)}: {what} has start {number}: a maker's number? It would be function {function}, start {number - first}"


def file_slips(folder, name, key, where):
    """The slips of a file that site.toml names."""
    wrong = no_file(folder, name)
    if wrong:
        yield f"{where}: {name} {wrong}"
    elif key == "strapping":
        yield from strapping_slips(folder, name)
    elif wrong := is_utf16(folder, name):
        raise Unreadable(f"{name}:1: {wrong}")
    else:
        found = records(folder, name)
        if found and is_data(found[0]):
            yield f"{name}:{found[0][0]}: the first line reads as data, and is passed over: put a header before it"
        yield from volume_slips(folder, name) if key == "table" else factor_slips(folder, name)


def strapping_slips(folder, name):
    """The slips of a strapping file."""
    file = Toml(folder, name)
    if file.why:
        raise Unreadable(f"{at_line(name, file.wrong)}: {file.why}")
    yield from slips(file, "strapping", file.table, 0, "the top", "strapping")
    for kind in ("course", "deadwood"):
        for item, block in enumerate(tables(file.table, kind), 1):
            if isinstance(block, dict):
                yield from slips(file, kind, block, file.block(kind, item), f"{kind} {item}", "strapping")
    yield from course_slips(file)


def course_slips(file):
    """Circumferences of a strapping that are far from the others: the courses of a tank are equally wide but for some thousandths."""
    found = [(Decimal(block[key]), item, key) for item, block in enumerate(tables(file.table, "course"), 1) if isinstance(block, dict)
             for key in ("lower", "upper") if isinstance(block.get(key), str) and re.fullmatch(r"[0-9]+(\.[0-9]+)?", block[key])]
    usual = sorted(found)[len(found) // 2][0] if found else 0
    for length, item, key in found:
        if abs(length - usual) > usual / 20:
            line = file.key(file.block("course", item) or 0, key) or file.block("course", item)
            yield f"{at_line(file.name, line)}: course {item}: {key} is {length} mm, and others have about {usual}"


def volume_slips(folder, name):
    """Volumes of a table that are far from those of the rows beside them: too much from the row below and too little to the row above,
    or the other way round."""
    rows = numbers(folder, name, 2)
    steps = [after[2] - before[2] for before, after in zip(rows, rows[1:])]
    for place in range(1, len(rows) - 1):
        below, above = steps[place - 1], steps[place]
        beside = steps[max(place - 3, 0) : place - 1] + steps[place + 1 : place + 3]
        least = max(5, max(beside, default=0) / 50)
        if beside and (below - max(beside) > least and min(beside) - above > least or min(beside) - below > least and above - max(beside) > least):
            yield f"{name}:{rows[place][0]}: {rows[place][2]} litres is far from its neighbours: {below} more than the row below, and {above} less than the row above"


def factor_slips(folder, name):
    """Factors that are far from those beside them, along the temperatures and along the densities."""
    factors = numbers(folder, name, 3)
    blocks = [block for _, block in blocks_of(factors)]
    lines = {(density, temperature): line for line, density, temperature, _ in factors}
    rows = [[(temperature, factor, (density, temperature)) for _, density, temperature, factor in block] for block in blocks]
    columns = {}
    for line, density, temperature, factor in factors:
        columns.setdefault(temperature, []).append((density, factor, (density, temperature)))
    far = {}
    for points, least in [(row, row_bend) for row in rows] + [(column, column_bend) for column in columns.values()]:
        for at, factor, near in far_points(points, least):
            far.setdefault(at, (factor, near))
    for at, (factor, near) in sorted(far.items(), key=lambda item: lines[item[0]]):
        yield f"{name}:{lines[at]}: the factor {factor} is far from its neighbours: about {near:.5f} by those beside it"


def row_bend(left, middle, right):
    """How far a factor may be from the line through those at the temperatures beside it: more than any product's factors bend."""
    return Decimal("0.0002") + Decimal("0.000005") * (middle[0] - left[0]) * (right[0] - middle[0])


def column_bend(left, middle, right):
    """The same for the densities beside it. At the density where tables of factors pass from one kind of product to the next, the
    expansion per C changes its slope."""
    return Decimal("0.0002") + Decimal("0.000003") * (right[0] - left[0]) * abs(middle[2][1] - 15)


def off_line(left, middle, right):
    """What the points beside a point say in its place, and how far it is from that."""
    near = left[1] + (right[1] - left[1]) * (middle[0] - left[0]) / (right[0] - left[0])
    return near, abs(middle[1] - near)


def far_points(points, least):
    """The points of a line that are far from what those beside them say, each with that: farther than `least`. A point that is far
    counts no more for the others."""
    points = list(points)
    while len(points) > 2:
        off = []
        for place in range(1, len(points) - 1):
            beside = points[place - 1 : place + 2]
            if not beside[0][0] < beside[1][0] < beside[2][0]:
                return
            near, distance = off_line(*beside)
            off.append((distance - least(*beside), place, near))
        most, place, near = max(off)
        if most <= 0:
            return
        if len(points) > 3:
            place, near = end_or(points, place, near, least)
        yield points[place][2], points[place][1], near
        del points[place]


def end_or(points, place, near, least):
    """The place that is wrong: an end of the line, if the others fit better without it than without the place beside it, or the place
    itself."""
    for end, beside, others, kept in ((0, 1, points[1:4], points[:1] + points[2:4]),
                                      (len(points) - 1, len(points) - 2, points[-4:-1], points[-4:-2] + points[-1:])):
        if place == beside and off_line(*others)[1] <= least(*others) and off_line(*others)[1] < off_line(*kept)[1]:
            first, second = (others[0], others[1]) if end == 0 else (others[2], others[1])
            return end, first[1] + (second[1] - first[1]) * (points[end][0] - first[0]) / (second[0] - first[0])
    return place, near


def print_slips(folder):
    """Prints the slips of a folder, and the names in it that nothing names. Answers the status."""
    site = Toml(folder, "site.toml")
    if site.why:
        print(f"{site.name}:{site.wrong}: {site.why}" if site.wrong else f"{site.name} {site.why}")
        return 2
    files, status = named_files(site), 0
    for slip in site_slips(site, folder):
        status = print(slip) or 1
    for name, key, line, what in files:
        try:
            for slip in file_slips(folder, name, key, f"{at_line(site.name, line)}: {what}"):
                status = print(slip) or max(status, 1)
        except Unreadable as why:
            status = print(why) or 2
    if not status:
        print("nothing to look at")
    used = {"site.toml", *(os.path.normpath(name).split(os.sep)[0] for name, *_ in files)}
    if unnamed := sorted(set(os.listdir(folder)) - used):
        print(f"note: nothing names {', '.join(unnamed)}")
    return status


def main():
    if len(sys.argv) != 2 or sys.argv[1] == "--help":
        print(__doc__)
        return 2
    return print_slips(sys.argv[1])


sys.exit(main())
