#!/usr/bin/env python3
"""Makes the journals of crates/farm_cases/data/journals again: of the site `few`, from `few_made`, which is what `farm init` makes of it, and
of the site `lines`.

Use: tools/case_journals.py
     tools/case_journals.py --check

The clock of the program can't be set, and some of the files are of histories or sites that no desk leaves, so the others are written
out here, and so is the site `lines`; docs/formats.md has the bytes, under "The bytes of a site" and "The bytes of a journal". A case compares
`few_made` with what the program makes. After a change of the bytes make that one first, by `farm init --site crates/farm_cases/data/few`. With
--check nothing is written: each file that differs is printed, and the status is 1 if one does. The `.jsonl` and `.answers` files beside them
are written by hand.
"""
import os
import sys
from struct import pack

FOLDER = os.path.join(os.path.dirname(os.path.dirname(os.path.abspath(__file__))), "crates", "farm_cases", "data", "journals")
BEFORE_SITE = 13
# Where a count stands among the bytes of the site, and how many bytes it has.
DENSITIES, TEMPERATURES, PARTIES = (32, 4), (40, 4), (64, 2)
# Where the mode of the third row of its rounding table stands, and where its roof ends.
THIRD_MODE, ROOF_END = 8, 87
MOMENT, LAST_MOMENT = 1_700_000_000, 253_000_000_000
STOP = b"\x09"
# The account of line 1, and how many keys it has for each number of entries that its desk was opened with.
LINE_1, KEYS_APART = 1_000_001, 4_294_967_296


def read(name):
    """The bytes of a file of the folder, none if it is missing."""
    path = os.path.join(FOLDER, name)
    if not os.path.exists(path):
        return b""
    with open(path, "rb") as file:
        return file.read()


def journal(site, *bodies):
    """A journal: its opening, an open record of each body, and the closed gate."""
    records = b"".join(b"\1" + pack(">I", len(body)) + body for body in bodies)
    return b"\1FARMJNL1" + pack(">I", len(site)) + site + records + b"\0"


def entry(key, command, moment=MOMENT, caller=0, account=1):
    return pack(">IIQQ", caller, account, key, moment) + command


def sample(tank):
    return b"\3" + pack(">Hqq", tank, 8500, 0)


def gauge(tank, level=10, temperature=1500):
    """What a gauge reads without water, at an ambient temperature of 15.00 C."""
    return b"\1" + pack(">Hqqqq", tank, level, 0, temperature, 1500)


def with_most(site, count):
    """The site with each byte of a count 255."""
    at, length = count
    return site[:at] + b"\xff" * length + site[at + length :]


def of_format_2(site, mode=0, reference=b"\0"):
    """The site in format 2: with the mode of its third row, and with the reference density of its roof."""
    head = b"\2" + site[1:THIRD_MODE] + pack(">B", mode)
    return head + site[THIRD_MODE + 1 : ROOF_END] + reference + site[ROOF_END:]


def text(word):
    return pack(">B", len(word)) + word


def tank(number, litres, kg):
    """A tank of the site `lines`: insulated, without a roof, 100 litres a mm up to 5,010 mm."""
    rows = b"".join(pack(">I", 1000 * row) for row in range(502))
    return pack(">HHBHhHBH", number, 1, 1, 112, 1500, 16000, 0, 502) + rows + pack(">qq", litres, kg)


def field(offset, words=1, flags=0, mul=1, div=1):
    return pack(">BBBII", offset, words, flags, mul, div)


def line(host, port, *gauges):
    return text(host) + pack(">HB", port, len(gauges)) + b"".join(gauges)


def gauge_map(numbers, level, temperature, water=b"\0", valid=b"\0"):
    """The gauge of a tank, with its unit, function, start and quantity; the ambient temperature is 15.00 C, and the deadbands 1 mm and 0.05 C."""
    return pack(">HBBHB", *numbers) + level + temperature + water + b"\0" + pack(">h", 1500) + valid + pack(">HH", 1, 5)


def lines_site():
    """The site `lines`."""
    top = b"\1" + text(b"Lines") + b"\1\0" + b"\5\0" + b"\1\0" * 10
    product = pack(">H", 1) + text(b"Product 1") + pack(">IH", 1, 8500) + pack(">Ih", 1, 1500) + pack(">I", 99150)
    tanks = tank(101, 400000, 340000) + tank(102, 20000, 17000) + tank(103, 0, 0)
    of_101 = gauge_map((101, 17, 4, 8, 2), field(0), field(1, flags=2, mul=10))
    of_102 = gauge_map((102, 1, 3, 256, 3), field(1, words=2, div=10), field(0, flags=2))
    of_103 = gauge_map((103, 2, 3, 0, 4), field(0), field(1, flags=2), b"\1" + field(2), b"\1" + pack(">BB", 3, 15))
    lines = line(b"10.0.0.7", 502, of_101) + line(b"10.0.0.8", 1502, of_102, of_103)
    return top + b"\1" + product + b"\0\0" + b"\3" + tanks + b"\2" + lines


def polled(opened, caller, moment, *readings):
    """The entries of a run of line 1, at a desk that was opened with a number of entries."""
    return [entry(opened * KEYS_APART + number, gauge(101, *reading), moment, caller, LINE_1) for number, reading in enumerate(readings, 1)]


def journals(site):
    """Each file's name and bytes."""
    first = entry(1, sample(7))
    lines = lines_site()
    once = polled(0, 0, MOMENT, (5000, 2000), (5001, 2000))
    again = polled(2, 1, MOMENT + 60, (5001, 2000), (5001, 2010))
    even, reference = 2, b"\1" + pack(">H", 8400)
    return {
        "few_made": journal(site),
        "few_stopped": journal(site, entry(1, STOP)),
        "few_cut_in_site": journal(site, entry(1, STOP))[:171],
        "few_cut_in_record": journal(site, entry(1, STOP))[:201],
        "few_cut_before_gate": journal(site, entry(1, STOP))[:202],
        "few_gauged": journal(site, first, entry(2, gauge(7))),
        "few_falling": journal(site, first, entry(2, gauge(7), MOMENT - 1)),
        "few_unknown_tank": journal(site, first, entry(2, sample(8))),
        "few_first_moment": journal(site, entry(1, sample(7), 0)),
        "few_last_moment": journal(site, entry(1, sample(7), LAST_MOMENT)),
        "few_most_densities": journal(with_most(site, DENSITIES)),
        "few_most_temperatures": journal(with_most(site, TEMPERATURES)),
        "few_most_parties": journal(with_most(site, PARTIES)),
        "few_even": journal(of_format_2(site, even)),
        "few_referenced": journal(of_format_2(site, reference=reference)),
        "few_both": journal(of_format_2(site, even, reference)),
        "lines_polled": journal(lines, *once),
        "lines_polled_again": journal(lines, *once, *again),
    }


def main():
    made = journals(read("few_made")[BEFORE_SITE:-1])
    found = {name for name in os.listdir(FOLDER) if "." not in name}
    differ = sorted(name for name in made.keys() | found if made.get(name) != read(name))
    if sys.argv[1:] == ["--check"]:
        for name in differ:
            print(f"FAILED: {name} of farm_cases/data/journals " + ("isn't as made" if name in made else "is made by nothing"))
        return 1 if differ else 0
    for name, content in made.items():
        with open(os.path.join(FOLDER, name), "wb") as file:
            file.write(content)
    return 0


sys.exit(main())
