"""The reports of the examples, in every form, held to stored ones.

`python3 test_golden.py --write` stores them anew from the plain reading and not from
the library, so that a stored report is a second opinion.
"""

import json
import sys
import unittest

from support import EXAMPLES, GOLDEN, dumps, library, run

from double import Double
import make_examples

from tablewalk import Image
from tablewalk.report import Paint, board, text_of_board


def cases():
    """Each stored report: its file's name, and the arguments that make it."""
    for dump in dumps():
        name = f"examples/{dump.name}"
        yield f"{dump.stem}.txt", [name]
        yield f"{dump.stem}.json", ["--json", name]
        yield f"{dump.stem}.entries.txt", ["entries", name]
        yield f"{dump.stem}.find.txt", ["find", "APIC", name]
    yield "summary.txt", ["summary", "examples/sample.dump", *some()]
    yield "summary.csv", ["summary", "--csv", "examples/sample.dump", *some()]
    yield "summary.jsonl", ["summary", "--json-lines", "examples/sample.dump", *some()]
    yield "all.jsonl", ["--json-lines", "examples/sample.dump", *some()]
    yield "explain.txt", ["explain"]
    yield "no-arguments.txt", []


LONGEST_BASE = 0xFFFFFFFFFFFF0000


def longest(space):
    """The pieces of a board in which numbers are as long as they can be, and whose
    registers are in one address space."""
    def table(signature, body, revision):
        head = signature + (36 + len(body)).to_bytes(4, "little") + bytes([revision, 0])
        data = bytearray(head + b"MMMMMMTTTTTTTT" + b"\xff" * 12 + body)
        data[9] = -sum(data) % 256
        return bytes(data)

    full = b"\xff"
    fadt = bytearray(full * 240)
    fadt[91 - 36] = 4
    for at in [116, *range(148, 268, 12)]:
        fadt[at - 36] = space
        fadt[at - 33] = 4
    madt = full * 8 + b"".join(
        bytes([kind, length]) + full * (length - 2) for kind, length in ((9, 16), (5, 12), (1, 12))
    )
    for flags in (5, 15):
        madt += bytes([2, 10, 0]) + full * 5 + bytes([flags, 0])
        madt += bytes([3, 8, flags, 0]) + full * 4
    madt += bytes([10, 12]) + full * 6 + bytes([1, 0, 0, 0]) + bytes([16, 16]) + full * 14
    tables = [
        table(b"APIC", madt, 5), table(b"MCFG", full * 8 + full * 32, 255),
        table(b"HPET", full * 4 + bytes([0]) + full * 15, 255), table(b"FACP", bytes(fadt), 255),
        table(full * 3 + b"X", b"", 255), table(b"SSDT", b"", 255),
    ]
    places = [LONGEST_BASE + 0x1000 * n for n in range(2, 8)]
    root = table(b"XSDT", b"".join(p.to_bytes(8, "little") for p in [*places, (1 << 64) - 1]), 1)
    pointer = bytearray(b"RSD PTR \0MMMMMM\xff" + full * 4 + (36).to_bytes(4, "little")
                        + (LONGEST_BASE + 0x1000).to_bytes(8, "little") + full * 4)
    pointer[8] = -sum(pointer[:20]) % 256
    pointer[32] = (pointer[32] - sum(pointer)) % 256
    return [(LONGEST_BASE, bytes(pointer)), (LONGEST_BASE + 0x1000, root), *zip(places, tables)]


def some():
    return [f"examples/{dump.name}" for dump in dumps()]


class Golden(unittest.TestCase):
    maxDiff = None

    def test_reports(self):
        for name, arguments in cases():
            with self.subTest(name):
                stored = (GOLDEN / name).read_text(encoding="utf-8")
                self.assertEqual(stored, run(*arguments).out)

    def test_nothing_stored_is_left_over(self):
        self.assertEqual(
            sorted(name for name, _ in cases()), sorted(path.name for path in GOLDEN.iterdir())
        )

    def test_lines_fit_a_terminal(self):
        for name, arguments in cases():
            if name.endswith(".txt"):
                for line in run(*arguments).out.split("\n"):
                    self.assertLessEqual(len(line), 80, f"{name}: {line}")

    def test_the_longest_values_fit_a_terminal(self):
        ours = library()
        for space in (0, 1, 2, 3, 4, 5, 6, 7, 8, 9, 10, 0x7F, 0xC0, 0xFF, 0x33):
            image = Image.from_pieces(longest(space), LONGEST_BASE, ours)
            data = board("x" * 60, image)
            for line in text_of_board(data, Paint(False)).split("\n"):
                self.assertLessEqual(len(line), 80, line)
            self.assertEqual(data["hpet"]["answer"], 0)
            self.assertEqual(data["fadt"]["answer"], 0)
            self.assertEqual(data["interrupt_model"]["answer"], 0)
            registers = data["fadt"]["registers"].values()
            self.assertEqual({r["answer"] for r in registers}, {14 if space == 0x33 else 0})

    def test_status_says_the_answer(self):
        for dump in dumps():
            result = run("--json", f"examples/{dump.name}")
            answer = json.loads(result.out)["answer"]
            self.assertEqual(result.status, 0 if answer == 0 else 1, dump.name)
            self.assertEqual(result.err, "")

    def test_what_the_faults_answer(self):
        expected = {
            "sample": 0,
            "length-below-header": 12,
            "root-length-zero": 11,
            "entry-of-length-zero": 15,
            "checksum-over-wrong-range": 12,
            "qemu-q35-seabios": 0,
            "qemu-q35-ovmf": 0,
        }
        self.assertEqual(sorted(expected), [dump.stem for dump in dumps()])
        for name, answer in expected.items():
            data = json.loads(run("--json", f"examples/{name}.dump").out)
            self.assertEqual(data["answer"], answer, name)

    def test_examples_are_made_from_the_sample(self):
        for name, text in make_examples.examples():
            self.assertEqual(text, (EXAMPLES / name).read_text(encoding="ascii"), name)

    def test_every_example_is_described(self):
        readme = (EXAMPLES / "README.md").read_text(encoding="utf-8")
        for dump in dumps():
            self.assertIn(f"`{dump.name}`", readme)


def write():
    GOLDEN.mkdir(exist_ok=True)
    for path in GOLDEN.iterdir():
        path.unlink()
    for name, arguments in cases():
        (GOLDEN / name).write_text(run(*arguments, using=Double()).out, encoding="utf-8")


if __name__ == "__main__":
    if sys.argv[1:] == ["--write"]:
        write()
    else:
        unittest.main()
