#!/usr/bin/env python3
"""Lists the public calls of the crates with their clauses, and holds docs/calls.md beside them.

Use: tools/list_calls.py [CRATE ..]   prints each call of these crates, or of all: its crate, its name, the names of its clauses
     tools/list_calls.py --check      says which call with a `Result` docs/calls.md doesn't name, and which call or clause that it
                                      names isn't there; ends with 1 if there is one. A type's `impl` of a trait needs no row

A public call is a function or a method that the crate's root hands out, a method of such a trait, or that of a type's `impl` of it. The
crates that only test, try or measure are left out.
"""
import re
import sys
from pathlib import Path

TOP = Path(__file__).resolve().parent.parent
LEFT_OUT = re.compile(r"test_|case_|farm_cases|shared_log|memory_trials|sample_site")
NAME = re.compile(r"`([^`]+)`")


def crates():
    """The crates of crates.txt, in its order."""
    lines = (TOP / "crates.txt").read_text().splitlines()
    names = [re.split(r"[: ]", line)[0] for line in lines if line and not line.startswith("#")]
    return [name for name in names if not LEFT_OUT.match(name)]


def masked(text):
    """A source without what its comments and literals say, each byte in its place."""
    blank = lambda found: re.sub(r"[^\n]", "_", found.group(0))
    text = re.sub(r"//[^\n]*", blank, text)
    text = re.sub(r'b?"(?:\\.|[^"\\])*"', blank, text)
    return re.sub(r"b?'(?:\\.|[^'\\])'", blank, text)


def past_braces(text, at):
    """Where the braces end that open at this place."""
    depth = 0
    while True:
        depth += {"{": 1, "}": -1}.get(text[at], 0)
        at += 1
        if depth == 0:
            return at


def signature(text, at):
    """A function's text from its name up to its body: the braces of clauses are passed over."""
    end, depth = at, 0
    while not (depth == 0 and text[end] == ";"):
        if text[end] == "{":
            if not re.search(r"\b(ensures|requires)\s*\w*\s*$", text[at:end]):
                break
            end = past_braces(text, end) - 1
        depth += {"(": 1, "[": 1, ")": -1, "]": -1}.get(text[end], 0)
        end += 1
    return text[at:end]


def handed_out(crate):
    """The names that a crate's root hands out."""
    root = TOP / "crates" / crate / "src" / "lib.rt"
    text = masked(root.read_text()) if root.exists() else ""
    uses = " ".join(re.findall(r"pub use [\w:]+::(\{[^}]*\}|\w+);", text))
    return set(re.findall(r"\w+", uses)) | set(re.findall(r"^pub (?:fn|trait|struct) (\w+)", text, re.M))


def owner_of(head):
    """Of a block its trait, if it has one, and its type; generic parameters are left out."""
    while re.search(r"<[^<>]*>", head):
        head = re.sub(r"<[^<>]*>", "", head)
    words = re.search(r"(trait|impl)\s+(\w+(?:::\w+)*)(?:\s+for\s+(\w+))?", head)
    kind, first, second = words.groups()
    first = first.split("::")[-1]
    return (first, None) if kind == "trait" else (first, second) if second else (None, first)


def calls(crate):
    """The public calls of a crate: name, whether its result is a `Result`, and its clauses. One of an `impl` is `Type method`."""
    public, found = handed_out(crate), []
    for path in sorted((TOP / "crates" / crate / "src").rglob("*.rt")):
        text = masked(path.read_text())
        blocks = []
        for head in re.finditer(r"^(?:pub )?(?:unsafe )?(?:trait|impl)\b[^{;]*", text, re.M):
            blocks.append((head.end(), past_braces(text, head.end()), *owner_of(head.group(0))))
        for start in re.finditer(r"^ *(pub )?(?:const )?(?:unsafe )?fn (\w+)", text, re.M):
            inside = [block[2:] for block in blocks if block[0] < start.start() < block[1]]
            trait, owner = inside[0] if inside else (None, None)
            if trait == "From" or (not trait and not start.group(1)) or (owner or trait or start.group(2)) not in public:
                continue
            shown = signature(text, start.end())
            joint = " " if trait and owner else "::"
            name = joint.join(part for part in (owner or trait, start.group(2)) if part)
            result = re.split(r"\n *(?:ensures|requires)", shown)[0].rpartition("->")[2]
            found.append((name, result.strip().startswith("Result<"), re.findall(r"ensures (\w+)", shown)))
    return found


def rows(page):
    """The rows of docs/calls.md: the crates that it names, its calls, its clauses."""
    for line in page.splitlines():
        cells = line.strip("| ").split(" | ")
        if not line.startswith("| ") or len(cells) < 2 or cells[0] in ("Crate", "Call"):
            continue
        if len(cells) == 2:
            for part in cells[1].split("; "):
                before, colon, after = re.sub(r"^(M|never): ", "", part).rpartition("`: `")
                named, clauses = (before + "`", "`" + after) if colon else (after, "")
                yield NAME.findall(cells[0]), NAME.findall(named), NAME.findall(clauses)
            continue
        crate, colon, named = cells[0].rpartition(": ")
        owner = re.match(r"`(\w+)` `", named)
        names = NAME.findall(named)
        names = [f"{names[0]} {name}" for name in names[1:]] if owner else names
        yield NAME.findall(crate), names, NAME.findall(" ".join(cells[1:]))


def check(all_calls):
    """What docs/calls.md doesn't name, and what it names that isn't there."""
    page = (TOP / "docs" / "calls.md").read_text()
    wrong, named, crate = [], set(NAME.findall(page)), []
    for row_crates, row_calls, clauses in rows(page):
        crate = row_crates or crate
        known = [(name, own) for of in crate for name, _, own in all_calls.get(of, [])]
        for name in row_calls:
            named.add(name)
            if name not in [other for other, _ in known]:
                wrong.append(f"{'/'.join(crate)}: no call {name}")
        there = {clause for name, own in known if name in row_calls for clause in own}
        wrong += [f"{'/'.join(crate)}: {', '.join(row_calls)}: no clause {clause}" for clause in clauses if clause not in there]
    for of, its_calls in all_calls.items():
        wrong += [f"{of}: {name} isn't named" for name, refused, _ in its_calls if refused and " " not in name and name not in named]
    return wrong


def main(words):
    if words == ["--check"]:
        wrong = check({crate: calls(crate) for crate in crates()})
        print("\n".join(wrong), end="\n" if wrong else "")
        return 1 if wrong else 0
    for crate in words or crates():
        for name, _, clauses in calls(crate):
            print(f"{crate} {name}: {', '.join(clauses)}")
    return 0


if __name__ == "__main__":
    sys.exit(main(sys.argv[1:]))
