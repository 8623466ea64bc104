"""The command line: messages, exit statuses, and how it is started."""

import json
import os
import pty
import subprocess
import sys
import unittest

from support import (
    EXAMPLES,
    ROOT,
    InFolder,
    Result,
    dumps,
    needs_library,
    run,
    run_script,
    shown_on,
)

import make_examples
import sample

from tablewalk.library import SHARED

SAMPLE = "examples/sample.dump"
FAULT = "examples/entry-of-length-zero.dump"


class Usage(InFolder):
    def message(self, *arguments):
        result = run(*arguments)
        self.assertEqual(result.status, 2, result.out)
        self.assertTrue(result.err.startswith("tablewalk: "), result.err)
        self.assertEqual(result.out, "")
        return result.err

    def test_wrong_usage(self):
        for arguments, expected in (
            (["nothere.dump"], "nothere.dump: No such file"),
            (["--base", "12g", SAMPLE], "--base: '12g' is not a hexadecimal number"),
            (["--rsdp", "", SAMPLE], "--rsdp"),
            (["--base", "0", "--map", "x", SAMPLE], "only one of them"),
            (["--map", "nothere.map", SAMPLE], "nothere.map"),
            (["--colour", SAMPLE], "unrecognized arguments: --colour"),
            (["find", "APIC"], "FILE"),
            (["find", "APICS", SAMPLE], "4 bytes"),
            (["pci", "0:0:0", SAMPLE], "expected SEG:BUS:DEV.FN"),
            (["pci", "10000:00:00.0", SAMPLE], "expected SEG:BUS:DEV.FN"),
            (["explain", "19"], "0 to 18"),
            (["explain", "x"], "0 to 18"),
            (["explain", "1", "2"], "unrecognized arguments: 2"),
            (["summary"], "FILE"),
            (["summary", "--csv", "--json", SAMPLE], "--csv and --json: expected only one"),
            (["--json", "--json-lines", SAMPLE], "--json and --json-lines: expected only one"),
            (["-", "-"], "expected only once"),
            (["--map", "-", "-"], "expected only once"),
            (["find", "\udcff\udcff\udcff\udcff", SAMPLE], "expected four characters"),
            ([""], "No such file"),
        ):
            with self.subTest(arguments=arguments):
                self.assertIn(expected, self.message(*arguments))

    def test_help(self):
        for command in ([], ["summary"], ["find"], ["pci"], ["entries"], ["explain"]):
            result = run_script(*command, "--help", environment={"COLUMNS": "80"})
            self.assertEqual((result.status, result.err), (0, ""))
            self.assertTrue(all(len(line) <= 80 for line in result.out.split("\n")), result.out)
        self.assertRegex(run_script("--version").out, r"^tablewalk \d+\.\d+\.\d+\n$")

    def test_statuses(self):
        self.assertEqual(run(SAMPLE).status, 0)
        self.assertEqual(run(FAULT).status, 1)
        self.assertEqual(run(SAMPLE, FAULT).status, 1)
        self.assertEqual(run(FAULT, "nothere.dump", SAMPLE).status, 2)
        self.assertEqual(run("find", "HPET", SAMPLE).status, 1)
        self.assertEqual(run("pci", "0000:40:00.0", SAMPLE).status, 1)
        self.assertEqual(run("explain", "15").status, 0)

    def test_find(self):
        self.assertEqual(
            run("find", "MCFG", SAMPLE).out,
            "MCFG at 0x7ff00100, 60 bytes, offset 0xb0 in the image\n",
        )
        several = run("find", "MCFG", SAMPLE, FAULT).out.split("\n")
        self.assertEqual([line.split(":")[0] for line in several[:2]], [SAMPLE, FAULT])
        self.assertIn("no entry leads to a table HPET", run("find", "HPET", SAMPLE).out)
        # Not in the root table, so it is said who knows.
        self.assertIn("the FADT says where it is", run("find", "DSDT", SAMPLE).out)

    def test_pci(self):
        self.assertEqual(run("pci", "0000:0c:03.1", SAMPLE).out, "0000:0c:03.1 at 0xb0c19000\n")
        self.assertEqual(run("pci", "0c:3.1", SAMPLE).out, "0000:0c:03.1 at 0xb0c19000\n")
        result = run("pci", "0000:0c:20.0", SAMPLE)
        self.assertEqual(result.status, 1)
        self.assertTrue(result.out.startswith("13: there is no such address"))

    def test_entries_of_another_model(self):
        # A GIC board: its entries are refused, and shown as they stand.
        entries = bytes([11, 20]) + bytes(18) + bytes([12, 24]) + bytes(22) + bytes([13, 1, 9])
        path = self.file("gic", dump_of(with_madt(entries)))
        result = run("entries", path)
        self.assertEqual(result.status, 1)
        self.assertIn("    0x2c    11      20  GIC CPU interface\n", result.out)
        self.assertIn("    0x40    12      24  GIC distributor\n", result.out)
        self.assertIn("  then: 0d 01 09\n", result.out)
        self.assertIn("(MADT entry 0 at offset 0x2c)", result.out)
        data = json.loads(run("entries", "--json", path).out)
        self.assertEqual([e["kind"] for e in data["unread"]], [11, 12])
        self.assertEqual((data["entries"], data["rest"]), ([], "0d 01 09"))

    def test_the_others_are_still_done(self):
        result = run(SAMPLE, "nothere.dump", FAULT)
        self.assertIn("sample.dump: answered", result.out)
        self.assertIn("entry-of-length-zero.dump: refused", result.out)
        lines = run("--json-lines", SAMPLE, "nothere.dump", FAULT).out.strip().split("\n")
        self.assertEqual(len(lines), 3)
        self.assertIn("error", json.loads(lines[1]))

    def test_json(self):
        one = json.loads(run("--json", SAMPLE).out)
        self.assertEqual(one["file"], SAMPLE)
        two = json.loads(run("--json", SAMPLE, FAULT).out)
        self.assertEqual([board["answer"] for board in two["boards"]], [0, 15])
        lines = run("--json-lines", SAMPLE, FAULT).out.split("\n")
        self.assertEqual(json.loads(lines[0]), one)
        found = json.loads(run("find", "APIC", "--json", SAMPLE).out)
        self.assertEqual(found["tables"][0]["length"], 88)
        where = json.loads(run("pci", "--json", "0c:03.1", SAMPLE).out)
        self.assertEqual(where["address"], "0xb0c19000")
        entries = json.loads(run("entries", "--json", FAULT).out)
        self.assertEqual((len(entries["entries"]), entries["answer"]), (4, 15))

    def test_raw_images(self):
        data, _ = sample.sample_image()
        raw = self.file("raw", data)
        self.assertEqual(run("--base", "7ff00000", "--rsdp", "0x7FF00000", raw).status, 0)
        self.assertIn("18: no root pointer", run("--base", "7ff00000", raw).out)
        ranges = self.file("map", f"e0000 40 0\n{sample.BASE:x} {len(data):x} 0\n")
        self.assertEqual(run("--map", ranges, raw).status, 0)
        low = bytearray(1 << 20)
        low[0xE0000:0xE0024] = data[:36]
        self.assertIn("6: the root table is not mapped", run(self.file("low", bytes(low))).out)

    def test_dump_without_addresses(self):
        # As acpidump takes it from a kernel: no root, and no addresses.
        text = (EXAMPLES / "qemu-q35-seabios.dump").read_text(encoding="ascii")
        blocks = [b for b in text.split("\n\n") if b and b[:4] not in ("RSDP", "RSDT")]
        bare = "\n\n".join(b[:5] + "@ 0x0000000000000000" + b[b.index("\n"):] for b in blocks)
        result = run("--json", self.file("bare", bare + "\n"))
        self.assertEqual((result.status, result.err), (0, ""))
        board = json.loads(result.out)
        self.assertEqual(len(board["notes"]), 2)
        self.assertEqual(len(board["interrupt_model"]["processors"]), 4)
        self.assertEqual(board["dsdt"]["answer"], 0)
        # With addresses but without a root pointer.
        blocks = [b for b in text.split("\n\n") if b and b[:4] != "RSDP"]
        board = json.loads(run("--json", self.file("rootless", "\n\n".join(blocks) + "\n")).out)
        self.assertEqual((board["answer"], board["root_table"]["kind"]), (0, "RSDT"))
        self.assertEqual(len(board["notes"]), 1)

    def test_blocks_in_any_order(self):
        text = (EXAMPLES / "sample.dump").read_text(encoding="ascii")
        head, *blocks = text.rstrip("\n").split("\n\n")
        plain = run(self.file("plain", text)).out.split("\n", 1)[1]
        for shuffled in (blocks[::-1], blocks + blocks, blocks[2:] + blocks):
            again = run(self.file("again", "\n\n".join(shuffled) + "\n")).out
            self.assertEqual(again.split("\n", 1)[1], plain)
        renamed = text.replace("RSDP @", "RSD PTR  @")
        self.assertEqual(run(self.file("renamed", renamed)).out.split("\n", 1)[1], plain)
        other = blocks[1].replace("58 53", "59 53")
        result = run(self.file("other", "\n\n".join(blocks + [other]) + "\n"))
        self.assertEqual(result.status, 2)
        self.assertIn("expected the same bytes", result.err)

    def test_summary(self):
        result = run("summary", "examples", "nothere.dump")
        self.assertEqual(result.status, 2)
        self.assertIn("No such file", result.out)
        for dump in dumps():
            self.assertIn(dump.name[-10:], result.out)
        self.assertIn("README.md", result.out)
        lines = run("summary", "--csv", "examples/sample.dump").out.split("\n")
        self.assertEqual(lines[1], "examples/sample.dump,ROWANS,BLADE-07,2,2,2,1,1,0,")
        rows = run("summary", "--json-lines", SAMPLE, FAULT).out.strip().split("\n")
        self.assertEqual([json.loads(row)["answer"] for row in rows], [0, 15])
        self.assertIn("expected files", run("summary", str(self.folder)).err)


def with_madt(entries):
    """The sample's blocks, with other entries in its MADT."""
    blocks = make_examples.blocks_of(sample.sample_image()[0])
    changed = []
    for name, address, data in blocks:
        if name == "APIC":
            data = bytearray(data[:44] + entries)
            data[4:8] = len(data).to_bytes(4, "little")
            data[9] = (data[9] - sum(data)) % 256
        # Far apart, so that a block may grow.
        changed.append((name, address, bytes(data)))
    return changed


def dump_of(blocks):
    return make_examples.dump_text(blocks)


class Dumps(InFolder):
    """The forms that an acpidump text may have."""

    def setUp(self):
        super().setUp()
        self.blocks = make_examples.blocks_of(sample.sample_image()[0])
        self.plain = self.report(dump_of(self.blocks))
        self.assertIn("2 processors", self.plain)

    def report(self, text, status=0):
        result = run(self.file("board", text))
        self.assertEqual((result.status, result.err), (status, ""))
        return result.out

    def test_root_pointer_by_name_or_by_its_bytes(self):
        text = dump_of(self.blocks)
        for name in ("RSD PTR ", "RSD PTR", "RSDP", "RSD ", "RSD", "XYZW"):
            self.assertEqual(self.report(text.replace("RSDP @", f"{name} @")), self.plain)

    def test_root_pointer_of_20_bytes(self):
        # As a BIOS of revision 0 leaves it: an RSDT, and 20 bytes that sum to 0.
        name, address, old = self.blocks[1]
        root = bytearray(b"RSDT" + old[4:36] + b"".join(
            where.to_bytes(4, "little") for _, where, _ in self.blocks[2:]))
        root[4:8] = len(root).to_bytes(4, "little")
        root[9] = (root[9] - sum(root)) % 256
        pointer = bytearray(self.blocks[0][2][:15] + b"\0" + address.to_bytes(4, "little"))
        pointer[8] = (pointer[8] - sum(pointer)) % 256
        self.assertEqual(len(pointer), 20)
        blocks = [("RSDP", self.blocks[0][1], bytes(pointer)), ("RSDT", address, bytes(root)),
                  *self.blocks[2:]]
        shown = self.report(dump_of(blocks))
        self.assertIn("revision 0, 20 bytes", shown)
        self.assertIn("2 processors", shown)

    def test_blocks_that_touch(self):
        # Each block goes on to where the next begins; nothing is lost at the borders.
        data = sample.sample_image()[0]
        starts = [address - sample.BASE for _, address, _ in self.blocks] + [len(data)]
        touching = [
            (name, address, bytes(data[start:end]))
            for (name, address, _), start, end in zip(self.blocks, starts, starts[1:])
        ]
        self.assertEqual(self.report(dump_of(touching)), self.plain)

    def test_blocks_that_overlap(self):
        data = bytes(sample.sample_image()[0])
        for start, end in ((0, len(data)), (0x10, 0x90), (0x90, 0x110), (0x50, 0x51)):
            more = ("OEM1", sample.BASE + start, data[start:end])
            for blocks in ([more, *self.blocks], [*self.blocks, more], [*self.blocks, more] * 2):
                self.assertEqual(self.report(dump_of(blocks)), self.plain)
        wrong = bytearray(data[0x50:0x90])
        wrong[-1] ^= 1
        result = run(self.file("board", dump_of(
            [*self.blocks, ("OEM1", sample.BASE + 0x50, bytes(wrong))])))
        self.assertEqual(result.status, 2)
        self.assertRegex(result.err, r"board:\d+: block .* \(line \d+\) overlap and differ")

    def test_forms_of_text(self):
        text = dump_of(self.blocks)
        self.assertEqual(self.report(b"\xef\xbb\xbf" + text.encode()), self.plain)
        self.assertEqual(self.report(text.replace("\n", "\r\n")), self.plain)
        self.assertEqual(self.report(text.lower().replace("rsdp", "RSDP")), self.plain)
        self.assertEqual(self.report(text.replace("@ 0x00000000", "@ 0x")), self.plain)
        self.assertEqual(self.report(text.replace("    00", "  00")), self.plain)
        # Without the characters beside the bytes, and with spaces at line ends taken away.
        bare = "\n".join(line[:57].rstrip() for line in text.split("\n"))
        self.assertEqual(self.report(bare), self.plain)
        stripped = "\n".join(line.rstrip() for line in text.split("\n"))
        self.assertEqual(self.report(stripped), self.plain)

    def test_a_row_that_is_cut(self):
        # At a border of two bytes the digits alone would look whole.
        lines = dump_of(self.blocks).rstrip("\n").split("\n")
        for end in range(13, 58, 3):
            for whole in (lines[:-1] + [lines[-1][:end]], lines[:3] + [lines[3][:end]] + lines[4:]):
                result = run(self.file("board", "\n".join(whole)))
                number = len(lines) if whole[3] == lines[3] else 4
                self.assertEqual(result.status, 2)
                self.assertIn(f"board:{number}: expected characters after the bytes", result.err)


@needs_library
class Started(InFolder):
    """The command in a process of its own, as a user starts it."""

    def test_no_arguments(self):
        result = run_script()
        self.assertEqual((result.status, result.err), (0, ""))
        self.assertIn("./tablewalk summary FILE..", result.out)
        self.assertIn("examples/sample.dump: answered", result.out)

    def test_from_another_folder(self):
        result = run_script(str(EXAMPLES / "sample.dump"), folder=str(self.folder))
        self.assertEqual(result.status, 0)

    def test_standard_input(self):
        data = (EXAMPLES / "sample.dump").read_bytes()
        result = run_script("-", data=data)
        self.assertEqual(result.status, 0)
        self.assertIn("-: answered", result.out)
        self.assertEqual(run_script("-", data=b"").status, 2)

    def test_no_colour_in_a_pipe(self):
        self.assertNotIn("\x1b", run_script(SAMPLE).out)

    def test_names_that_are_no_text(self):
        path = os.fsencode(self.folder) + b"/caf\xe9\x1b[2J.dump"
        with open(path, "wb") as file:
            file.write((EXAMPLES / "sample.dump").read_bytes())
        for command in ([], ["summary"], ["--json"], ["entries"]):
            result = run_script(*command, os.fsdecode(path))
            self.assertEqual((result.status, result.err), (0, ""))
            self.assertNotIn("\x1b", result.out)

    def test_output_that_nobody_reads(self):
        files = [str(EXAMPLES / "qemu-q35-ovmf.dump")] * 40
        process = subprocess.Popen(
            [sys.executable, "-B", str(ROOT / "tablewalk"), *files],
            stdout=subprocess.PIPE, stderr=subprocess.PIPE,
        )
        process.stdout.readline()
        process.stdout.close()
        self.assertEqual(process.stderr.read(), b"")
        process.stderr.close()
        process.wait(60)

    def test_many_boards_on_all_processors(self):
        texts = [dump.read_bytes() for dump in dumps()]
        for n in range(200):
            self.file(f"{n:03}.dump", texts[n % len(texts)])
        self.file("200.dump", b"no dump")
        result = run_script("summary", "--csv", str(self.folder))
        self.assertEqual((result.status, result.err), (2, ""))
        alone = run("summary", "--csv", str(self.folder))
        self.assertEqual(result.out, alone.out)
        self.assertEqual(result.out.count("\n"), 202)

    def start(self, command, **more):
        """Through a shell, which closes or redirects what is asked for."""
        done = subprocess.run(
            ["bash", "-c", command, sys.executable, str(ROOT / "tablewalk"), SAMPLE], cwd=ROOT,
            stdout=subprocess.PIPE, stderr=subprocess.PIPE, timeout=60, **more,
        )
        return Result(done.returncode, done.stdout.decode(), done.stderr.decode())

    def test_closed_streams(self):
        result = self.start('"$0" -B "$1" - <&-')
        self.assertEqual((result.status, result.err),
                         (2, "tablewalk: -: standard input is closed\n"))
        result = self.start('"$0" -B "$1" "$2" >&-')
        self.assertEqual((result.status, result.err), (2, "tablewalk: standard output is closed\n"))
        self.assertEqual(self.start('"$0" -B "$1" "$2" 2>&-').status, 0)
        self.assertEqual(self.start('"$0" -B "$1" nothere 2>&-').status, 2)

    @unittest.skipUnless(os.path.exists("/dev/full"), "there is no /dev/full")
    def test_no_room_for_the_answer(self):
        for command in ("", "summary", "--json", "explain"):
            files = "" if command == "explain" else '"$2"'
            result = self.start(f'"$0" -B "$1" {command} {files} >/dev/full')
            self.assertEqual(
                (result.status, result.err),
                (2, "tablewalk: the answer can not be written: No space left on device\n"), command,
            )
        result = self.start('"$0" -B "$1" nothere 2>/dev/full')
        self.assertEqual((result.status, result.out), (2, ""))

    def on_terminal(self, *arguments):
        """What the command writes to standard error where that is a terminal."""
        outer, inner = pty.openpty()
        process = subprocess.Popen(
            [sys.executable, "-B", str(ROOT / "tablewalk"), *arguments], cwd=ROOT,
            stdout=subprocess.PIPE, stderr=inner,
        )
        os.close(inner)
        out = process.stdout.read()
        process.stdout.close()
        process.wait(60)
        shown = b""
        try:
            while True:
                part = os.read(outer, 65536)
                if not part:
                    break
                shown += part
        except OSError:
            pass
        os.close(outer)
        return out, shown

    def test_progress_on_a_terminal(self):
        for n in range(3):
            self.file(f"{n}.dump", (EXAMPLES / "sample.dump").read_bytes())
        for form in ([], ["--csv"], ["--json"], ["--json-lines"]):
            out, shown = self.on_terminal("summary", *form, str(self.folder))
            self.assertIn(b"\r\x1b[K0 of 3 boards", shown)
            self.assertIn(b"\r\x1b[K2 of 3 boards", shown)
            # Nothing of it is left, and none of it is in the answer.
            self.assertTrue(shown.endswith(b"\r\x1b[K"), shown)
            self.assertNotIn(b"boards", out.split(b"\n\n")[0] if not form else b"")
            self.assertNotIn(b"\x1b", out)

    def test_missing_library_says_how_to_build(self):
        result = run_script(SAMPLE, environment={"TABLEWALK_LIBRARY": str(self.folder / "x.so")})
        self.assertEqual(result.status, 2)
        self.assertIn("tools/staticlib --shared", result.err)
        self.assertNotIn("Traceback", result.err)

    def test_an_older_python(self):
        program = (
            "import runpy, sys\n"
            "sys.version_info = (3, 8, 0)\n"
            f"runpy.run_path({str(ROOT / 'tablewalk')!r}, run_name='__main__')\n"
        )
        done = subprocess.run(
            [sys.executable, "-B", "-c", program], stdout=subprocess.PIPE,
            stderr=subprocess.PIPE, timeout=60,
        )
        self.assertEqual(done.returncode, 2)
        self.assertEqual(done.stderr, b"tablewalk: expected Python 3.9 or later\n")

    def test_another_library(self):
        copy = self.file("other.so", SHARED.read_bytes())
        result = run_script(SAMPLE, environment={"TABLEWALK_LIBRARY": copy})
        self.assertEqual((result.status, result.err), (0, ""))
        text = self.file("text.so", "no library")
        result = run_script(SAMPLE, environment={"TABLEWALK_LIBRARY": text})
        self.assertEqual(result.status, 2)
        self.assertIn("can not be loaded", result.err)

    def test_terminal(self):
        for environment, coloured in (({"NO_COLOR": ""}, True), ({"NO_COLOR": "1"}, False)):
            outer, inner = pty.openpty()
            process = subprocess.Popen(
                [sys.executable, "-B", str(ROOT / "tablewalk"), SAMPLE],
                stdout=inner, cwd=ROOT,
                env={**os.environ, "TERM": "xterm", **environment},
            )
            os.close(inner)
            shown = shown_on(outer)
            process.wait(60)
            os.close(outer)
            self.assertEqual(b"\x1b[" in shown, coloured)


if __name__ == "__main__":
    unittest.main()
