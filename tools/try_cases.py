#!/usr/bin/env python3
"""Tries site_fault.py on each case of `table` and `init` in crates/farm_cases/data that ends in a refused site, or in a port fault
without a failing call.

Use: tools/try_cases.py
It prints how many cases there are, and each one whose fault isn't found. It ends with 1 where one isn't.
"""
import glob
import os
import shutil
import sys
import tempfile
import tomllib

sys.dont_write_bytecode = True
from site_fault import said_of

TOP = os.path.dirname(os.path.dirname(os.path.abspath(__file__)))
DATA = os.path.join(TOP, "crates", "farm_cases", "data")


def make_folder(case, folder):
    """The folder of a case: a known site, files in their place, texts replaced, files dropped."""
    if "site" in case:
        shutil.copytree(os.path.join(DATA, case["site"]), folder)
    else:
        os.makedirs(folder)
    for name, content in case.get("files", {}).items():
        if isinstance(content, dict):
            shutil.copyfile(os.path.join(DATA, content["file"]), os.path.join(folder, name))
            continue
        with open(os.path.join(folder, name), "w") as file:
            file.write(content)
    for name, old, new in case.get("replace", []):
        with open(os.path.join(folder, name)) as file:
            content = file.read()
        with open(os.path.join(folder, name), "w") as file:
            file.write(content.replace(old, new, 1))
    for name in case.get("drop", []):
        os.remove(os.path.join(folder, name))


def is_found(case):
    """Whether the script names one place for what the program prints of the case."""
    with tempfile.TemporaryDirectory() as top:
        folder = os.path.join(top, "site")
        make_folder(case, folder)
        lines = said_of(folder, case["output"])
    return bool(lines) and not lines[0].startswith(("maybe:", "nothing"))


def main():
    tried, missed = 0, []
    for path in sorted(glob.glob(os.path.join(DATA, "*.toml"))):
        with open(path, "rb") as file:
            cases = tomllib.load(file).get("case", [])
        for case in cases:
            refused = str(case.get("output", "")).startswith(("site refused", "port fault"))
            if refused and "fails" not in case and case["words"][:1] in (["table"], ["init"]):
                tried += 1
                if not is_found(case):
                    missed.append(f"{os.path.basename(path)}: {case['name']}")
    print("\n".join(missed + [f"{tried} cases, {len(missed)} not found"]))
    sys.exit(1 if missed else 0)


main()
