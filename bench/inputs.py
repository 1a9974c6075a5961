"""Writes into a folder two inputs of `calc` from levels, the greatest one and one of 100,000 short factor lines, a factor file, and
batches: refused lines, repeated lines, lines that are accepted, looks, and a history with tickets, without looks at its total and with
them."""

import pathlib
import sys

LIMIT = 1_048_576
TEMPERATURES = 100


def factors(count, first):
    """Lines of a grid: densities from `first` tenths of a kg/m3 on, each with the same hundred temperatures."""
    for index in range(count):
        block, column = divmod(index, TEMPERATURES)
        density, temperature, factor = first + block, 100 + 25 * column, 100_000 - 37 * column - block
        yield (
            f"{density // 10}.{density % 10},{temperature // 100}.{temperature % 100:02},"
            f"{factor // 100_000}.{factor % 100_000:05}\n"
        )


def levels():
    """A table of 5,001 rows, as many whole blocks of factors as there is room for, levels, and blank lines."""
    count = 51_200
    rows = "".join(f"{2 * index * index}\n" for index in range(5_001))
    line = "levels 43217 13 bare 20.25 31.00 15.00 112 85000 1000 1500 405.3 0.125\n"
    text = f"table 5001\n{rows}factors {count}\n{''.join(factors(count, 4_000))}{line}"
    return text + "\n" * (LIMIT - len(text))


def short_levels():
    """A table of 5,001 rows, 100,000 factor lines as short as they can be, and levels."""
    rows = "".join(f"{2 * index * index}\n" for index in range(5_001))
    lines = "".join(f"{400 + block},{temperature},1\n" for block in range(800) for temperature in range(125))
    return f"table 5001\n{rows}factors 100000\n{lines}levels 43217 13 bare 20.25 31.00 15.00 112 85000 1000 1500 405.3 0.125\n"


def gauge(key, tank):
    """A gauge reading that is accepted where the site has the tank."""
    return f'{{"do":"gauge","account":1,"key":{key},"tank":{tank},"level":1234,"water":10,"temperature":1850,"ambient":1200}}\n'


def day():
    """Commands that are accepted, 10,000 of them: a sample, and receipts, each from its two readings, of which the second is 1 mm higher."""
    yield '{"do":"sample","account":1,"key":0,"tank":101,"density":8500,"sw":0}\n'
    for key in range(1, 9_997, 4):
        for offset in (0, 2):
            named = f'"reading":{key + offset + 1},"sample":1'
            level = f'"level":{1234 + offset // 2},"water":10,"temperature":1500,"ambient":1200'
            yield f'{{"do":"gauge","account":1,"key":{key + offset},"tank":101,{level}}}\n'
            if offset == 0:
                yield f'{{"do":"open","account":1,"key":{key + 1},"way":"receipt","tank":101,"party":7,{named}}}\n'
            else:
                yield f'{{"do":"close","account":1,"key":{key + 3},"movement":{key + 2},{named}}}\n'
    for key in range(9_997, 10_000):
        yield gauge(key, 101)


folder = pathlib.Path(sys.argv[1])
entries = "".join(day())
(folder / "entries.jsonl").write_text(entries)
(folder / "looks.jsonl").write_text(entries + '{"do":"total"}\n' * 200)
(folder / "refused.jsonl").write_text("".join(gauge(key, 99) for key in range(200_000)))
(folder / "repeated.jsonl").write_text(gauge(1, 101) * 200_000)
(folder / "thousand.jsonl").write_text("".join(gauge(key, 101) for key in range(1_000)))
(folder / "stocks.jsonl").write_text('{"do":"stock","tank":101}\n' * 1_000)
(folder / "accepted.jsonl").write_text("".join(gauge(key, 101) for key in range(10_000)))
(folder / "many.jsonl").write_text("".join(gauge(key, 101) for key in range(100_000)))
(folder / "levels.txt").write_text(levels())
(folder / "short_levels.txt").write_text(short_levels())
(folder / "factors.csv").write_text("density,temperature,factor\n" + "".join(factors(100_000, 4_000)))
