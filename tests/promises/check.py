"""Holds docs/PROMISES.md to the crates.

A statement that stands in specs/ alone is a definition like any other: the prover accepts it, and nothing says that it
holds. It is proved where a lemma of a file that proofs/Lib.antt declares has it as its type, and the prover reads every such
file. So a statement without a lemma is found here.
"""

import glob
import os
import re
import sys

PAGE = "docs/PROMISES.md"
STATEMENT = re.compile(r"^abbrev pub ([A-Z]\w*) : Type \S+$", re.M)
passed = failed = 0


def check(holds, complaint):
    global passed, failed
    if holds:
        passed += 1
    else:
        failed += 1
        print(f"tests/promises: {complaint}", file=sys.stderr)


def read(path):
    with open(path, encoding="utf-8") as file:
        return file.read()


def section_of(page, crate):
    """What the page says of a crate: from its heading to the next one."""
    found = re.search(rf"^## {crate}\n(.*?)(?=^## |\Z)", page, re.M | re.S)
    return found.group(1) if found else ""


def names_in(section):
    return set(re.findall(r"`([A-Za-z]\w*)`", section))


def main():
    page = read(PAGE)
    crates = [line.split(":")[0].split()[0] for line in read("crates.txt").splitlines() if line.split("#")[0].strip()]
    check(bool(crates), "crates.txt lists no crate")
    statements = edits = 0
    for crate in crates:
        names = names_in(section_of(page, crate))

        declared = set()
        lib = f"crates/{crate}/proofs/Lib.antt"
        if os.path.isfile(lib):
            declared = set(re.findall(r"^(?:pub )?mod (\w+)$", read(lib), re.M))
        lemmas = "\n".join(read(f"crates/{crate}/proofs/{name}.antt") for name in sorted(declared))

        for path in sorted(glob.glob(f"crates/{crate}/specs/*.antt")):
            for statement in STATEMENT.findall(read(path)):
                statements += 1
                lemma = re.search(rf"^pub [a-z]\S*(?: {{\w+}})? : {statement}$", lemmas, re.M)
                check(lemma, f"{path}: no lemma that {lib} declares has the statement {statement} as its type")
                check(statement in names, f"{path}: {PAGE} does not name {statement} under '## {crate}'")

        there = {os.path.basename(path)[: -len(".edit")] for path in glob.glob(f"crates/{crate}/must-fail/*.edit")}
        edits += len(there)
        for edit in sorted(there):
            check(edit in names, f"crates/{crate}/must-fail/{edit}.edit: {PAGE} does not name it under '## {crate}'")

    known = set()
    for pattern in ("src/**/*.rt", "specs/**/*.antt", "proofs/*.antt"):
        for path in glob.glob(f"crates/*/{pattern}", recursive=True):
            known |= set(re.findall(r"[A-Za-z]\w*", read(path)))
    known |= {os.path.basename(path)[: -len(".edit")] for path in glob.glob("crates/*/must-fail/*.edit")} | set(crates)
    for name in sorted(names_in(page) - known):
        check(False, f"{PAGE}: nothing in the crates has the name `{name}`")
    check(statements > 0, "no statement was found in specs/")
    check(edits > 0, "no must-fail edit was found")
    print(f"{passed} passed, {failed} failed")
    return 1 if failed else 0


sys.exit(main())
