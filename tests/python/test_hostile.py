"""Text that is damaged, cut or no text at all: always a message or a report."""

import random
import time
import unittest

from support import EXAMPLES, InFolder, dumps, library, run

from tablewalk import DumpError
from tablewalk.command import Options, image_of
from tablewalk.report import Paint, board, text_of_board

SEED = 20251

# From here on a dump is too long for the whole command on each of its beginnings.
LARGE = 4000


class Hostile(InFolder):
    def setUp(self):
        super().setUp()
        self.library = library()
        self.seen = {0: 0, 1: 0, 2: 0}

    def holds(self, content, *options, name="board", command=()):
        """Run the command on a file of these bytes; an exception fails the test."""
        path = self.file(name, content)
        result = run(*command, *options, path, using=self.library)
        self.assertIn(result.status, (0, 1, 2))
        self.seen[result.status] += 1
        if result.status == 2:
            self.assertIn(path, result.err)
            self.assertTrue(result.err.startswith("tablewalk: "), result.err)
        else:
            self.assertNotEqual(result.out, "")
            self.assertEqual(result.err, "")
        return result

    def test_cut_at_every_byte(self):
        # The whole command on each beginning of the small examples; the large ones follow.
        for dump in dumps():
            data = dump.read_bytes()
            if len(data) < LARGE:
                for end in range(len(data)):
                    self.holds(data[:end])
        self.assertGreater(self.seen[2], 1000)
        self.assertGreater(self.seen[1], 1000)

    def test_large_dumps_cut_at_every_byte(self):
        # What the command does after it has read a file, on each beginning of the text. The
        # report is a function of the image, so it is made once for beginnings with one image.
        for dump in dumps():
            data = dump.read_bytes()
            if len(data) < LARGE:
                continue
            reports = 0
            messages = 0
            before = None
            began = time.process_time()
            for end in range(len(data)):
                try:
                    image = image_of(data[:end], dump.name, Options(), self.library)
                except DumpError as error:
                    messages += 1
                    self.assertIn("expected", error.message)
                    self.assertTrue(str(error).startswith(f"{dump.name}:" if end else dump.name))
                    # The fault is in the line that is cut.
                    last = data.count(b"\n", 0, end) + 1
                    self.assertEqual(error.line, last if end else None)
                    continue
                key = (image.data, image.range_list, image.notes)
                if key != before:
                    before = key
                    reports += 1
                    text = text_of_board(board(dump.name, image), Paint(False))
                    self.assertLessEqual(max(map(len, text.split("\n"))), 80)
            self.assertGreater(messages, len(data) // 3, dump.name)
            self.assertGreater(reports, 500, dump.name)
            # Quickly: of each beginning, in a few thousandths of a second.
            self.assertLess(time.process_time() - began, 0.005 * len(data), dump.name)

    def test_cut_from_the_front(self):
        data = (EXAMPLES / "sample.dump").read_bytes()
        for start in range(0, len(data), 7):
            self.holds(data[start:])

    def test_flipped_bytes(self):
        choose = random.Random(SEED)
        for dump in dumps():
            data = dump.read_bytes()
            for _ in range(250 if len(data) < LARGE else 60):
                damaged = bytearray(data)
                for _ in range(choose.choice([1, 1, 1, 2, 5, 40])):
                    damaged[choose.randrange(len(damaged))] = choose.randrange(256)
                self.holds(bytes(damaged))

    def test_digits_replaced_by_digits(self):
        # The text stays a dump, so that the fault reaches the library.
        choose = random.Random(SEED + 1)
        for dump in dumps():
            data = dump.read_bytes()
            places = [n for n, byte in enumerate(data) if chr(byte) in "0123456789ABCDEF"]
            for _ in range(250 if len(data) < LARGE else 60):
                damaged = bytearray(data)
                for _ in range(choose.choice([1, 1, 2, 8])):
                    damaged[choose.choice(places)] = ord(choose.choice("0123456789ABCDEF"))
                command = choose.choice([(), ("entries",), ("find", "APIC")])
                self.holds(bytes(damaged), command=command)

    def test_lines_left_out_and_repeated(self):
        choose = random.Random(SEED + 2)
        for dump in dumps():
            lines = dump.read_bytes().split(b"\n")
            for _ in range(40):
                changed = list(lines)
                at = choose.randrange(len(changed))
                if choose.random() < 0.5:
                    del changed[at]
                else:
                    changed.insert(choose.randrange(len(changed)), changed[at])
                self.holds(b"\n".join(changed))

    def test_noise(self):
        choose = random.Random(SEED + 3)
        for size in (1, 2, 3, 16, 100, 4096, 65537):
            noise = bytes(choose.randrange(256) for _ in range(size))
            self.assertEqual(self.holds(noise).status, 2)
            self.assertEqual(self.holds(noise, "--base", "7ff00000").status, 1)
            self.holds(b"APIC @ 0x1000\n" + noise)
        self.assertEqual(self.holds(bytes(1 << 20)).status, 1)

    def test_memory_that_holds_a_heading_by_chance(self):
        memory = bytearray(2 << 20)
        memory[0x180000:0x180010] = b"\nAPIC @ 0x1000\n\0"
        self.assertIn("18: no root pointer", self.holds(bytes(memory)).out)
        # A dump stays one if a byte of it becomes zero.
        data = bytearray((EXAMPLES / "sample.dump").read_bytes())
        data[10] = 0
        self.assertEqual(self.holds(bytes(data)).status, 0)

    def test_empty(self):
        result = self.holds(b"")
        self.assertEqual(result.status, 2)
        self.assertIn("empty", result.err)

    def test_very_long_lines(self):
        for line in (
            b"A" * 1000000,
            b"APIC @ 0x" + b"0" * 1000000,
            b"    0000: " + b"41 " * 400000,
            b" " * 1000000 + b"x",
            b"@" * 300000,
            b"APIC @ 0x1000\n    0000: " + b"41 " * 400000,
            b"APIC @ 0x1000\n" + b"0" * 1000000 + b": 41",
        ):
            result = self.holds(line)
            self.assertEqual(result.status, 2)
            self.assertLess(len(result.err), 600)

    def test_line_endings(self):
        for dump in dumps():
            data = dump.read_bytes()
            plain = self.holds(data).out
            self.assertEqual(self.holds(data.replace(b"\n", b"\r\n")).out, plain)
            self.assertEqual(self.holds(data.rstrip(b"\n")).out, plain)
            self.assertEqual(self.holds(data + b"\n\n\n").out, plain)

    def test_messages_name_the_line(self):
        sample = (EXAMPLES / "sample.dump").read_text(encoding="ascii").split("\n")
        at = next(n for n, line in enumerate(sample) if line.startswith("APIC"))
        for line, expected in (
            (sample[at + 1][:20] + "G" + sample[at + 1][21:], "expected a heading"),
            (sample[at + 1][:24], "expected offset 0005"),
            ("  0020: 00", "expected offset 0000"),
            ("@ 0x12", "expected a heading"),
            ("APIC @ 0x12345678123456781", "expected a heading"),
        ):
            text = "\n".join(sample[:at + 1] + [line] + sample[at + 2:])
            result = self.holds(text)
            number = at + 3 if "0005" in expected else at + 2
            self.assertEqual(result.status, 2)
            self.assertIn(f":{number}: ", result.err)
            self.assertIn(expected, result.err)

    def test_addresses_at_the_end_of_memory(self):
        row = "    0000: " + " ".join(["41"] * 16)
        result = self.holds(f"APIC @ 0xFFFFFFFFFFFFFFF8\n{row}\n")
        self.assertEqual(result.status, 2)
        self.assertIn("2^64", result.err)
        self.assertEqual(self.holds(f"RSDP @ 0xFFFFFFFFFFFFFFF0\n{row}\n").status, 1)

    def test_too_many_blocks(self):
        row = "    0000: " + " ".join(["41"] * 16)
        apart = "".join(f"OEM1 @ 0x{n << 12:X}\n{row}\n\n" for n in range(1, 100))
        result = self.holds(apart)
        self.assertEqual(result.status, 2)
        self.assertIn("at most 64", result.err)
        touching = "".join(f"OEM1 @ 0x{n << 4:X}\n{row}\n\n" for n in range(256, 400))
        self.assertEqual(self.holds(touching).status, 1)

    def test_text_for_a_terminal_is_clean(self):
        # A maker's id may hold anything; what reaches the terminal may not.
        text = (EXAMPLES / "sample.dump").read_text(encoding="ascii")
        text = text.replace("52 4F 57 41 4E 53", "1B 5B 32 4A 07 0D")
        for command in ((), ("summary",), ("entries",)):
            out = self.holds(text, command=command).out
            self.assertTrue(all(c == "\n" or c.isprintable() for c in out), out)

    def test_maps(self):
        image = self.file("image", bytes(100))
        for text in ("", "1 2", "x y z", "1 2 3 4", "1 2 11111111111111111", "\xff\x00", "-1 2 3"):
            map_file = self.file("map", text)
            result = run("--map", map_file, image, using=self.library)
            self.assertEqual(result.status, 2)
            self.assertIn(f"{map_file}:1: expected", result.err)
        map_file = self.file("map", "0 100 0\n")
        self.assertEqual(run("--map", map_file, "--rsdp", "0", image, using=self.library).status, 1)


if __name__ == "__main__":
    unittest.main()
