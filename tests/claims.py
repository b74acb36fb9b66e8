#!/usr/bin/env python3
"""Looks whether each crate, file, function, clause and definition that docs/CLAIMS.md names is there, whether each promise of README.md has a row, whether
docs/ARCHITECTURE.md has the crates and what they stand on as crates.txt does, and, where `rt` is on the PATH, whether the pages name its kit.

    python3 tests/claims.py

A clause is named as `CRATE` `FILE` `FUNCTION.CLAUSE` `DEFINITION`; without .CLAUSE the function's contract has no names, or several are meant. The
definition has to stand in the function's contract or in that of its trait, and to be defined in some specs/ folder. Ends with 0 where all is there.
"""
import pathlib
import re
import shutil
import subprocess
import sys

TOP = pathlib.Path(__file__).resolve().parent.parent
NAMED = re.compile(r"`(btr_\w+)` `(src/[\w/]+\.rt)` `([\w:]+)(?:\.(\w+))?`(?: `(\w+)`)?")


def heads(text, function):
    """Yields the head of each function of that name: its signature and contract."""
    for found in re.finditer(rf"\bfn {function}\b", text):
        rest = text[found.start():]
        stop = re.search(r"^ *\{$|;$|\n\n *(///|fn|pub)", rest, re.M)
        yield rest[: stop.start() if stop else len(rest)]


def definitions():
    """Returns the names that the specs of all crates define."""
    names = set()
    for file in TOP.glob("crates/*/specs/**/*.antt"):
        names |= set(re.findall(r"^\s*(?:\w+ )*pub (?:record |data )?(\w+)", file.read_text(), re.M))
    return names


def wrong_with(claim, defined):
    """Returns what is wrong with a clause that is named, or None."""
    crate, file, function, clause, definition = claim
    path = TOP / "crates" / crate / file
    if not path.is_file():
        return f"there is no {path.relative_to(TOP)}"
    found = list(heads(path.read_text(), function.split("::")[-1]))
    if not found:
        return f"{file} has no function {function}"
    if clause:
        found = [it for it in found if re.search(rf"\bensures\*? {clause} \{{", it)]
        if not found:
            return f"{function} has no clause {clause}"
    if definition is None:
        return None
    if definition not in defined:
        return f"no specs/ defines {definition}"
    # (a function of a trait's impl has the trait's contract)
    has_contract = any("ensures" in it for it in found)
    if has_contract and not any(re.search(rf"\b{definition}\b", it) for it in found):
        return f"the contract of {function} doesn't name {definition}"
    if not has_contract and definition not in path.read_text():
        return f"{file} doesn't name {definition}"
    return None


def without_kit():
    """Returns what is wrong with the pages that have to name the kit."""
    if not shutil.which("rt"):
        return []
    kit = subprocess.run(["rt", "version"], check=True, capture_output=True, text=True).stdout.strip()
    return [f"{page} doesn't name {kit}" for page in ("README.md", "docs/CLAIMS.md") if kit not in (TOP / page).read_text()]


def without_libraries():
    """Returns the rows of the architecture's table of crates whose libraries aren't those of crates.txt, and the crates that it has in another order."""
    lines = [line.partition(":") for line in (TOP / "crates.txt").read_text().splitlines() if line and not line.startswith("#")]
    libraries = {name: ", ".join(it[4:] for it in words.split() if it.startswith("btr_")) or "nothing" for name, _, words in lines}
    table = re.findall(r"^\| `(btr_\w+)` \| [^|]* \| ([^|]*) \| [^|]* \|$", (TOP / "docs/ARCHITECTURE.md").read_text(), re.M)
    wrong = [f"docs/ARCHITECTURE.md has other libraries of {name} than crates.txt" for name, words in table
             if name not in ("btr_run", "btr_run_laws") and words != libraries.get(name)]
    named = [name for name, _ in table]
    if named != [name for name in libraries if name in named]:
        wrong.append("docs/ARCHITECTURE.md has the crates in another order than crates.txt")
    return wrong


def main():
    rows = [line for line in (TOP / "docs/CLAIMS.md").read_text().splitlines() if line.startswith("| ") and not line.startswith("| Claim")]
    readme = (TOP / "README.md").read_text().partition("## What is promised")[2].partition("\n## ")[0]
    wrong, defined = without_kit() + without_libraries(), definitions()
    for row in rows:
        cells = [cell.strip() for cell in row.strip("|").split("|")]
        if len(cells) != 5:
            wrong.append(f"{row[:60]}: {len(cells)} columns in place of 5")
            continue
        claims = NAMED.findall(cells[2])
        if not claims:
            wrong.append(f"{cells[0][:60]}: no clause is named")
        for claim in claims:
            why = wrong_with([part or None for part in claim], defined)
            if why:
                wrong.append(f"{cells[0][:60]}: {why}")
    for number in re.findall(r"^(\d+)\. ", readme, re.M):
        if not any(row.startswith(f"| README {number}. ") for row in rows):
            wrong.append(f"README's promise {number} has no row")
    for number in {found for row in rows for found in re.findall(r"^\| README (\d+)\. ", row)}:
        if not re.search(rf"^{number}\. ", readme, re.M):
            wrong.append(f"a row names README's promise {number}, which isn't there")
    print(*wrong, f"{len(rows)} claims, {len(wrong)} wrong", sep="\n")
    return bool(wrong)


if __name__ == "__main__":
    sys.exit(main())
