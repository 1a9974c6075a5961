#!/usr/bin/env python3
"""Says of the lines of a batch which are no requests, so that they are answered {"error":400} or {"error":413}, and why.

Use: tools/line_fault.py FILE
     tools/line_fault.py < FILE

It prints `line N: REASON` for each such line, and `line N, a note: ..` for a request that has a member twice or an optional member
with a slip in its name, since the program takes these without a word. It ends with 0 where every line is a request, with 1 where one
isn't, and with 2 where FILE can't be read. docs/formats.md has the members, under "Requests to the desk". The program's answer
counts: this script says where to look.
"""
import difflib
import json
import re
import sys
from decimal import Decimal

MOST_BYTES = 65_536
DEEPEST = 127
LEAST_WHOLE, MOST_WHOLE = -(2**63), 2**63 - 1

# How many of its unit a whole one has, and the name of the unit.
MM, CENTI, TENTH, PERMIL5, NUMBER = (1, "mm"), (100, "0.01 C"), (10, "0.1 kg/m3"), (1000, "0.001 percent"), (1, None)
ANY = (LEAST_WHOLE, MOST_WHOLE)
TANK = PARTY = ("whole", (0, 65_535), NUMBER)
PLACE = ("whole", (0, 4_294_967_295), NUMBER)
CALLER = {"account": ("whole", (1, 999_999), NUMBER), "key": ("whole", (0, MOST_WHOLE), NUMBER)}
OUTSIDE = {"tank": TANK, "party": PARTY, "reading": PLACE, "sample": PLACE}
BETWEEN = {"from": TANK, "to": TANK, "from_reading": PLACE, "from_sample": PLACE, "to_reading": PLACE, "to_sample": PLACE}
WAYS = {"receipt": OUTSIDE, "delivery": OUTSIDE, "transfer": BETWEEN}
COMMANDS = {
    "gauge": {"tank": TANK, "level": ("whole", ANY, MM), "water": ("whole", ANY, MM), "temperature": ("whole", ANY, CENTI),
              "ambient": ("whole", ANY, CENTI)},
    "dip": {"tank": TANK, "kind": ("word", ("innage", "outage")), "tapes": ("list", MM), "water": ("list", MM),
            "temperatures": ("list", CENTI), "ambient": ("whole", ANY, CENTI)},
    "sample": {"tank": TANK, "density": ("whole", ANY, TENTH), "sw": ("whole", ANY, PERMIL5)},
    "open": {"way": ("word", tuple(WAYS))},
    "close": {"movement": PLACE, "reading": PLACE, "sample": PLACE},
    "cancel": {"movement": PLACE},
    "reverse": {"ticket": PLACE},
    "settle": {"tank": TANK, "reading": PLACE, "sample": PLACE},
    "stop": {},
}
SECOND = {"to_reading": PLACE, "to_sample": PLACE}
LOOKS = {"ticket": {"place": PLACE}, "stock": {"tank": TANK}, "total": {}}
WORDS = (*COMMANDS, *LOOKS)
# The names of members that some request has.
NAMES = {name for forms in (CALLER, OUTSIDE, BETWEEN, *COMMANDS.values(), *LOOKS.values()) for name in forms}


class Number(str):
    """A number as it is written."""


class Members(list):
    """An object: its members in their order, as pairs."""


class NoRequest(Exception):
    """Why a line is no request."""


def constant(word):
    raise NoRequest(f"`{word}` is no number of JSON")


def value_of(text):
    """The JSON value of a line, with its numbers as they are written."""
    try:
        return json.loads(text, object_pairs_hook=Members, parse_int=Number, parse_float=Number, parse_constant=constant)
    except json.JSONDecodeError as error:
        raise NoRequest(f"not JSON at character {error.pos + 1}: {why_not_json(text, error)}") from None
    except RecursionError:
        raise NoRequest(f"nested deeper than {DEEPEST}") from None


def why_not_json(text, error):
    """What stands where a line stops being JSON."""
    here, before = text[error.pos : error.pos + 1], text[: error.pos].rstrip()
    if here and here in "\u2018\u2019\u201c\u201d\u201e\u00ab\u00bb":
        return f'a quote `{here}` of a text program: write `"`'
    if here == "'":
        return "a single quote: JSON has double ones"
    if error.msg.startswith("Extra data"):
        return "more after the end of the object: one object a line"
    if error.msg.startswith("Invalid control"):
        return "a tab or another control character within quotes"
    if error.msg.startswith("Unterminated") or not here:
        return "the line ends too early: a quote or a bracket is missing"
    if before.endswith(",") and here in "}]":
        return f"a comma before `{here}`"
    if error.msg.startswith("Expecting property name"):
        return "a comma within a number, or a name without quotes" if here.isdigit() else "a name without quotes"
    if re.search(r"[:,\[]\s*-?0$", before) and here.isdigit():
        return "a zero in front of a number"
    if here in "+." or before[-1:].isdigit() and here == ".":
        return f"a number with `{here}` where JSON has none"
    if error.msg.startswith("Expecting ',' delimiter"):
        return "a comma or a bracket is missing"
    if here.isalpha():
        return "a word without quotes"
    return error.msg[0].lower() + error.msg[1:]


def check_depth(value):
    """Refuses a value that is nested too deep, or that has a text or a number which the program's reader doesn't take."""
    level, depth = [value], 0
    while level:
        inner = []
        for item in level:
            if isinstance(item, Members):
                check_texts(name for name, _ in item)
                inner += [member for _, member in item]
            elif isinstance(item, list):
                inner += item
            elif isinstance(item, str) and not isinstance(item, Number):
                check_texts([item])
            elif isinstance(item, Number) and abs(float(item)) == float("inf"):
                raise NoRequest(f"`{item[:20]}` is out of the range of numbers")
        depth += any(isinstance(item, list) for item in level)
        if depth > DEEPEST:
            raise NoRequest(f"nested deeper than {DEEPEST}")
        level = inner


def check_texts(texts):
    """Refuses a text with half of a pair of escapes."""
    for text in texts:
        if re.search("[\ud800-\udfff]", text):
            raise NoRequest("an escape `\\uD8..` to `\\uDF..` without the other one of its pair")


def nearest(word, words):
    """The nearest of some words. None where none is near."""
    same = [other for other in words if other.lower() == word.strip().lower().replace("-", "_")]
    return (same or difflib.get_close_matches(word.lower(), words, 1, 0.7) or [None])[0]


def kind_of(value):
    """The name of a value's kind."""
    if isinstance(value, Members):
        return "an object"
    if isinstance(value, list):
        return "a list"
    if isinstance(value, Number):
        return "a number"
    return {True: "`true`", False: "`false`", None: "`null`"}[value] if not isinstance(value, str) else "a text"


def not_whole(what, value, unit):
    """Why a value is no whole number of 64 bits."""
    scale, name = unit
    of = f" of {name}" if name else ""
    if not isinstance(value, Number):
        hint = ": leave out the quotes" if isinstance(value, str) and re.fullmatch(r"-?[0-9]+", value) else f": it is a whole number{of}"
        return f"{what} is {kind_of(value)}{hint}"
    if value == "-0":
        return f"{what} is -0: write 0"
    if re.search("[.eE]", value):
        units = Decimal(value) * scale if len(value) < 30 and re.fullmatch(r"-?[0-9]+\.[0-9]+", value) else None
        hint = f": write {int(units)}" if units is not None and units == int(units) else ""
        return f"{what} is {value[:30]}, and numbers are whole{',' if name else ''}{of}{hint}"
    if not LEAST_WHOLE <= int(value) <= MOST_WHOLE:
        return f"{what} doesn't fit 64 bits"
    return None


def fault_of(name, form, value):
    """Why the value of a member isn't of its form."""
    if form[0] == "word":
        if not isinstance(value, str) or isinstance(value, Number):
            return f"`{name}` is {kind_of(value)}: it is one of {', '.join(form[1])}"
        near = nearest(value, form[1])
        return None if value in form[1] else f"`{name}` is `{value[:30]}`: write {f'`{near}`' if near else 'one of ' + ', '.join(form[1])}"
    if form[0] == "list":
        if not isinstance(value, list) or isinstance(value, Members):
            return f"`{name}` is {kind_of(value)}: it is a list, also of one number"
        if len(value) > 8:
            return f"`{name}` has {len(value)} numbers, and at most 8 are allowed"
        faults = [not_whole(f"number {place} of `{name}`", item, form[1]) for place, item in enumerate(value, 1)]
        return next((fault for fault in faults if fault), None)
    least, most = form[1]
    fault = not_whole(f"`{name}`", value, form[2])
    return fault or (None if least <= int(value) <= most else f"`{name}` isn't from {least} to {most}")


def faults_of(wanted, members):
    """What is wrong with the members that a request has to have."""
    spare = [name for name in members if name not in NAMES and name != "do"]
    faults = []
    for name, form in wanted.items():
        if name in members:
            faults.append(fault_of(name, form, members[name]))
        else:
            near = [other for other in spare if nearest(other, [name])]
            faults.append(f"`{name}` is missing" + (f", and `{near[0][:30]}` stands there" if near else ""))
    return [fault for fault in faults if fault]


def wanted_of(members):
    """The members that a request has to have, by its `do` and its `way`."""
    if "do" not in members:
        near = [name for name in members if nearest(name, ["do"])]
        raise NoRequest("`do` is missing" + (f", and `{near[0][:30]}` stands there" if near else ""))
    if fault := fault_of("do", ("word", WORDS), members["do"]):
        raise NoRequest(fault)
    word = members["do"]
    if word in LOOKS:
        return LOOKS[word]
    wanted = {**CALLER, **COMMANDS[word]}
    if word == "open" and isinstance(members.get("way"), str):
        wanted.update(WAYS.get(members["way"], {}))
    if word == "close" and any(name in members for name in SECOND):
        wanted.update(SECOND)
    return wanted


def notes_of(pairs, members, wanted):
    """What the program passes over in a request, and was hardly meant."""
    names = [name for name, _ in pairs]
    for name in dict.fromkeys(names):
        if names.count(name) > 1:
            yield f"`{name}` stands {names.count(name)} times, and the last one counts"
    if members.get("do") == "close" and not any(name in members for name in SECOND):
        for name in members:
            if name not in wanted and name != "do" and (near := nearest(name, list(SECOND))):
                yield f"`{name[:30]}` is passed over: `{near}`?"


def judged(line):
    """Why a line is no request, and the notes on it."""
    if len(line) > MOST_BYTES:
        return [f"{len(line)} bytes, and {MOST_BYTES} are allowed: it is answered 413"], []
    try:
        pairs = pairs_of(line)
        members = dict(pairs)
        wanted = wanted_of(members)
    except NoRequest as why:
        return [str(why)], []
    return faults_of(wanted, members), list(notes_of(pairs, members, wanted))


def pairs_of(line):
    """The members of a line."""
    if line.startswith((b"\xff\xfe", b"\xfe\xff")) or b"\0" in line[:8]:
        raise NoRequest("UTF-16: save the lines as UTF-8")
    if line.startswith(b"\xef\xbb\xbf"):
        raise NoRequest("a byte order mark in front: save the lines without it")
    try:
        text = line.decode()
    except UnicodeDecodeError as error:
        raise NoRequest(f"byte {error.start + 1}, 0x{line[error.start]:02x}, isn't UTF-8") from None
    if not text.strip(" \t\r\n"):
        raise NoRequest("an empty line")
    value = value_of(text)
    check_depth(value)
    if not isinstance(value, Members):
        raise NoRequest(f"{kind_of(value)}, and a request is an object in braces")
    return value


def main():
    if len(sys.argv) > 2 or sys.argv[1:2] == ["--help"]:
        print(__doc__)
        return 2
    try:
        with open(sys.argv[1], "rb") if len(sys.argv) == 2 else sys.stdin.buffer as file:
            content = file.read()
    except OSError as error:
        print(f"{sys.argv[1]}: {error.strerror}")
        return 2
    lines = content.split(b"\n")
    if lines[-1] == b"":
        lines.pop()
    bad = 0
    for number, line in enumerate(lines, 1):
        faults, notes = judged(line)
        bad += bool(faults)
        if faults:
            print(f"line {number}: {'; '.join(faults)}")
        for note in notes:
            print(f"line {number}, a note: {note}")
    if not bad:
        print(f"each of {len(lines)} lines is a request")
    return 1 if bad else 0


if __name__ == "__main__":
    sys.exit(main())
