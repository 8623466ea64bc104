"""A summary of many boards in one command, held to how the boards were made.

many.py writes them, 4,000 for the benchmark and for one test here, and some hundred
for the others. It knows of each board what it put in and which bit it turned, so
nothing here asks another reader.
"""

import csv
import io
import json
import os
import re
import signal
import subprocess
import sys
import time
import unittest
from collections import Counter
from pathlib import Path
from unittest import mock

from support import ROOT, InFolder, needs_library, run_script, temporary_folder

import many

from tablewalk import command

COUNT = 400


def expected(board):
    """The answers that a board may have, and the other columns of its line."""
    whole = [board.maker, board.table_id]
    counts = [board.processors, board.controllers, "" if board.windows is None else board.windows]
    if board.fault is None:
        return {0}, [*whole, board.tables, board.tables, *counts]
    name, place = board.fault
    if name == "RSDP":
        return {3, 4, 5}, ["", "", "", "", "", "", ""]
    if name == "XSDT":
        return {6, 7, 8, 9, 10, 11}, ["", "", "", "", "", "", ""]
    # A table with a turned bit is passed over. Where the bit is in its signature, the
    # board lists no such table, which only an interrupt model can not do without.
    listed = [*whole, board.tables - 1, board.tables]
    if name == "APIC":
        return {12}, [*listed, "", "", counts[2]]
    if name == "MCFG":
        counts[2] = ""
    return {0 if name == "SSDT" or place < 4 else 12}, [*listed, *counts]


def check_csv(case, dumps, boards):
    """The summary of a folder, board by board, is what its boards were made of."""
    result = run_script("summary", "--csv", str(dumps))
    case.assertEqual((result.status, result.err), (1, ""))
    rows = list(csv.reader(io.StringIO(result.out)))
    case.assertEqual(rows[0], list(command.SUMMARY_COLUMNS))
    # Nothing is lost, nothing is twice, and all of it is in the order of the names.
    case.assertEqual([row[0] for row in rows[1:]], [str(path) for path, _ in boards])
    faults = set()
    for row, (path, board) in zip(rows[1:], boards):
        answers, columns = expected(board)
        case.assertIn(int(row[8]), answers, path)
        case.assertEqual(row[1:8], [str(column) for column in columns], path)
        case.assertEqual(row[9] == "", int(row[8]) == 0, path)
        if board.fault is not None:
            faults.add(board.fault[0])
    # The boards are not all alike: else this would say little.
    case.assertLessEqual({"RSDP", "XSDT", "APIC", "MCFG", "HPET", "FACP", "SSDT"}, faults)


@needs_library
class AsManyAsThereAre(InFolder):
    """As many boards as there are revisions of mainboards, in one command."""

    def test_csv(self):
        check_csv(self, self.folder, many.write(self.folder, many.BOARDS))


@needs_library
class Many(InFolder):
    @classmethod
    def setUpClass(cls):
        super().setUpClass()
        holder = temporary_folder()
        cls.addClassCleanup(holder.cleanup)
        cls.made = many.write(Path(holder.name), COUNT)

    def setUp(self):
        super().setUp()
        self.dumps = self.folder / "dumps"
        self.dumps.mkdir()
        self.boards = []
        for path, board in self.made:
            (self.dumps / path.name).symlink_to(path)
            self.boards.append((self.dumps / path.name, board))

    def test_csv(self):
        check_csv(self, self.dumps, self.boards)

    def test_text_and_counts(self):
        (self.dumps / "board-0200a.dump").write_bytes(b"no dump")
        (self.dumps / "gone.dump").symlink_to(self.folder / "nothing")
        result = run_script("summary", str(self.dumps), str(self.folder / "missing.dump"))
        # Files that can not be read are lines like the others, and the worst status wins.
        self.assertEqual((result.status, result.err), (2, ""))
        lines, counts = result.out.split(f"\n\n{COUNT + 2} boards\n")
        names = [line.split()[0] for line in lines.split("\n")[1:] if line[0] != " "]
        self.assertEqual(len(names), COUNT + 2)
        place = names.index("dumps/board-0200a.dump")
        self.assertEqual(names[place - 1:place + 2:2],
                         ["dumps/board-0200.dump", "dumps/board-0201.dump"])
        self.assertEqual(names[-1], "missing.dump")
        found = Counter()
        for number, answer in re.findall(r"^ +(\d+) +(\d+|-): ", counts, re.MULTILINE):
            found[answer] = int(number)
        self.assertEqual(sum(found.values()), COUNT + 2)
        self.assertEqual(found["-"], 2)
        certain = Counter(
            str(*answers) for answers in (expected(board)[0] for _, board in self.boards)
            if len(answers) == 1
        )
        self.assertEqual(found["0"], certain["0"])
        self.assertEqual(found["12"], certain["12"])

    def test_json(self):
        result = run_script("summary", "--json", str(self.dumps))
        data = json.loads(result.out)
        self.assertEqual([row["file"] for row in data["boards"]],
                         [str(path) for path, _ in self.boards])
        self.assertEqual(
            data["counts"], Counter(str(row["answer"]) for row in data["boards"])
        )
        lines = run_script("summary", "--json-lines", str(self.dumps)).out.split("\n")
        self.assertEqual([json.loads(line) for line in lines if line], data["boards"])

    def rows(self, files):
        """The lines of a summary, made in this process and those that it starts."""
        context = command.Context(io.StringIO(), io.StringIO(), None)
        rows = [row for part in command.all_rows(context, files, command.Options())
                for row in part]
        return rows, context.err.getvalue()

    @unittest.skipIf(command.processors() < 2, "only one processor may be used")
    def test_all_processors_work(self):
        files = [str(path) for path, _ in self.boards]
        with mock.patch.object(command, "summary_rows", rows_with_process):
            rows, said = self.rows(files)
        self.assertEqual([row["file"] for row in rows], files)
        self.assertEqual(said, "")
        processes = {row["process"] for row in rows}
        self.assertEqual(len(processes), command.processors())
        self.assertNotIn(os.getpid(), processes)

    @unittest.skipIf(command.processors() < 2, "only one processor may be used")
    def test_a_process_that_dies(self):
        files = [str(path) for path, _ in self.boards]
        with mock.patch.object(command, "summary_rows", rows_or_death):
            rows, said = self.rows(files)
        self.assertEqual([row["file"] for row in rows], files)
        self.assertIn("going on with one process", said)

    def test_no_room_for_processes(self):
        files = [str(path) for path, _ in self.boards]
        with mock.patch("concurrent.futures.ProcessPoolExecutor", side_effect=OSError(38, "no")):
            rows, _ = self.rows(files)
        self.assertEqual([row["file"] for row in rows], files)

    def test_processes_that_begin_anew(self):
        # Where a system does not copy the process, each begins by reading the command's file.
        files = [str(self.dumps)]
        program = (
            "import multiprocessing, runpy, sys\n"
            "if __name__ == '__main__':\n"
            "    multiprocessing.set_start_method('spawn')\n"
            f"    sys.argv = ['tablewalk', 'summary', '--csv', *{files!r}]\n"
            f"    runpy.run_path({str(ROOT / 'tablewalk')!r}, run_name='__main__')\n"
        )
        done = subprocess.run(
            [sys.executable, "-B", "-c", program], stdout=subprocess.PIPE,
            stderr=subprocess.PIPE, timeout=120,
        )
        self.assertEqual((done.returncode, done.stderr), (1, b""))
        self.assertEqual(done.stdout.count(b"\n"), COUNT + 1)

    def test_stopped_by_the_user(self):
        # A file that nobody writes to keeps one process waiting until the user has enough.
        waiting = self.dumps / "board-0100a.dump"
        os.mkfifo(waiting)
        files = sorted(str(path) for path in self.dumps.iterdir())
        process = subprocess.Popen(
            [sys.executable, "-B", str(ROOT / "tablewalk"), "summary", *files],
            stdout=subprocess.PIPE, stderr=subprocess.PIPE, start_new_session=True,
            # A shell that runs the tests in its background has them pass over this signal.
            preexec_fn=lambda: signal.signal(signal.SIGINT, signal.SIG_DFL),
        )
        writer = None
        for _ in range(1200):
            try:
                writer = os.open(waiting, os.O_WRONLY | os.O_NONBLOCK)
                break
            except OSError:
                # Nobody reads it yet.
                time.sleep(0.05)
        self.addCleanup(os.close, writer)
        os.killpg(process.pid, signal.SIGINT)
        out, err = process.communicate(timeout=60)
        self.assertEqual(process.returncode, 130, err)
        self.assertIn(b"tablewalk: stopped", err)
        self.assertNotIn(b"Traceback", err)


def rows_with_process(names, options, path):
    """Lines of boards with the process that made them; slowly, so that all get some."""
    time.sleep(0.05)
    library = command.Library(path)
    rows = [command.summary_row(name, options, lambda: library) for name in names]
    return [{**row, "process": os.getpid()} for row in rows]


def rows_or_death(names, options, path):
    """Lines of boards, from a process that ends when it has come halfway."""
    if any("board-0200" in name for name in names):
        os._exit(9)
    library = command.Library(path)
    return [command.summary_row(name, options, lambda: library) for name in names]


if __name__ == "__main__":
    unittest.main()
