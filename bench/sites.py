"""Writes three sites of 64 tanks, each tank with 5,001 rows, into a folder: one of table files, one of strapping files, and
one with every list at its limit: 16 products of 100,000 factors, 256 parties, 64 gauges."""

import pathlib
import sys

TANKS = range(1, 65)
TOP = 'format = 1\nname = "Sixty-four tanks"\n\n[[product]]\nnumber = 1\nname = "Gas oil"\nfactors = "factors.csv"\n'
FACTORS = "density,temperature,factor\n850.0,15.00,1.00000\n"


def tank(number, key, ending):
    """The keys of a tank whose rows are of a file of its own."""
    return (
        f'\n[[tank]]\nnumber = {number}\nproduct = 1\nshell = "bare"\ncoefficient = 12\nreference_temperature = "15.00"\n'
        f'reference_height = 50000\n{key} = "tank{number}.{ending}"\nopening_litres = 0\nopening_kg = 0\n'
    )


def table(number):
    """Litres that `rows.awk` prints too."""
    return "mm,litres\n" + "".join(f"{10 * row},{20_000 * row + number}\n" for row in range(5_001))


def mm(tenths):
    """A length in mm of a number of tenths of one."""
    return f'"{tenths // 10}.{tenths % 10}"'


def strapping(number):
    """Twelve courses and ten deadwoods that `strapped.c` has too."""
    courses = "".join(
        f"\n[[course]]\nheight = {4_167 if course < 8 else 4_166}\nlower = {mm(1_000_000 - 1_000 * course - number)}\n"
        f'upper = {mm(999_900 - 1_000 * course - number)}\nlower_deduction = "1.2"\nupper_deduction = "0.3"\n'
        'plate = "11.3"\npaint = "0.2"\n'
        for course in range(12)
    )
    deadwoods = "".join(
        f"\n[[deadwood]]\nlow = {100 + 1_000 * part}\nhigh = {40_000 + 900 * part}\nlitres = {5_000 + 371 * part}\n"
        for part in range(10)
    )
    return f"bottom = [[0, 0], [100, 5000]]\n{courses}{deadwoods}"


def write(folder, key, ending, text_of):
    """One site."""
    folder.mkdir()
    (folder / "site.toml").write_text(TOP + "".join(tank(number, key, ending) for number in TANKS))
    (folder / "factors.csv").write_text(FACTORS)
    for number in TANKS:
        (folder / f"tank{number}.{ending}").write_text(text_of(number))


def limits(folder):
    """The site with every list at its limit. Four lines have the 64 gauges."""
    write(folder, "table", "csv", table)
    rows = [f"{density:.1f},{temperature / 5:.2f},1.00000\n" for density in range(720, 820) for temperature in range(1_000)]
    factors = "density,temperature,factor\n" + "".join(rows)
    site = TOP
    for number in range(1, 17):
        (folder / f"factors{number}.csv").write_text(factors)
    for number in range(2, 17):
        site += f'\n[[product]]\nnumber = {number}\nname = "Product {number}"\nfactors = "factors{number}.csv"\n'
    for number in range(1, 257):
        site += f'\n[[party]]\nnumber = {number}\nname = "Party {number}"\n'
    site += "".join(tank(number, "table", "csv") for number in TANKS)
    for line in range(4):
        site += f'\n[[line]]\nhost = "10.0.0.{line}"\nport = 502\n'
        for gauge in range(16):
            site += (
                f"\n[[line.gauge]]\ntank = {16 * line + gauge + 1}\nunit = 1\nfunction = 4\nstart = 0\nquantity = 10\n"
                "level = { offset = 0 }\ntemperature = { offset = 1 }\n"
            )
    (folder / "site.toml").write_text(site.replace('"factors.csv"', '"factors1.csv"'))


work = pathlib.Path(sys.argv[1])
write(work / "tables", "table", "csv", table)
write(work / "strappings", "strapping", "toml", strapping)
limits(work / "limits")
