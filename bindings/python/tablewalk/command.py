"""The command `tablewalk`: what a kernel will make of a board's tables."""

import argparse
import csv
import io
import json
import os
import re
import signal
import subprocess
import sys
import tempfile
import textwrap
import time
from typing import (
    IO, Any, Callable, Dict, Iterator, List, NoReturn, Optional, Sequence, TextIO, Tuple,
)

from . import __version__, names
from .answers import FOUND, MEANINGS, NO_VALID_TABLE, Refused, meaning_of
from .dump import (
    DumpError,
    layout_of_acpidump,
    looks_like_dump,
    parse_hex,
    parse_map,
    printable,
)
from .image import Image, signature_number
from .library import HOW_TO_BUILD, ROOT, SHARED, Library, LibraryMissing, missing_function
from .records import Range
from .report import (
    WIDTH,
    Data,
    Paint,
    address,
    board,
    count,
    of_signature,
    refusal,
    text_of_board,
    why_not,
)

ANSWERED = 0
SOME_REFUSED = 1
WRONG_INPUT = 2

SAMPLE = ROOT / "examples" / "sample.dump"

SHORT_HELP = """\
tablewalk: what a kernel will make of a board's ACPI tables.

  ./tablewalk FILE..                     report of a board
  ./tablewalk summary FILE..             one line a board, then counts by answer
  ./tablewalk find SIG FILE..            the tables of a signature
  ./tablewalk pci SEG:BUS:DEV.FN FILE..  configuration space of a PCI function
  ./tablewalk entries FILE..             every entry of the MADT
  ./tablewalk explain [N]                what an answer's number means
  ./tablewalk --help                     all options

FILE is what acpidump writes, a raw image of memory, or - for standard input.
"""

EPILOG = """\
Numbers in hexadecimal need no 0x. A raw image is told by --base or --map;
without them a file of at least 1 MB that is no acpidump text is memory from
address 0 on.

A dump with all addresses: sudo acpidump -c off > board.dump

The board is refused if its root table or its interrupt model is, or if it lists
an MCFG, HPET or FADT that can not be used.

Exit status: 0 answered, 1 some board refused, 2 wrong usage or bad input.
Colour: on a terminal, and not if NO_COLOR is set. TABLEWALK_LIBRARY may name
another libtablewalk.so than the one that is built here.
"""


class Usage(Exception):
    """What the user typed is wrong; the message says what was expected."""


class _Parser(argparse.ArgumentParser):
    """An argument parser whose messages end with where to read more."""

    def error(self, message: str) -> NoReturn:
        raise Usage(f"{message} (see ./tablewalk --help)")


class Context:
    """Where a run of the command writes, and the library it asks."""

    def __init__(self, out: TextIO, err: TextIO, library: Optional[Library]) -> None:
        self.out = out
        self.err = err
        self.given = library
        self.status = ANSWERED

    def library(self) -> Library:
        """The library, built first where it is not built yet."""
        if self.given is None:
            path = library_path()
            if path is None:
                build_if_needed(self.err)
            self.given = Library(path)
        return self.given

    def complain(self, message: str, status: int = WRONG_INPUT) -> None:
        """A message on standard error; the worst status seen is the command's."""
        self.status = max(self.status, status)
        self.out.flush()
        self.say(f"tablewalk: {message}\n")

    def say(self, text: str) -> None:
        """Write to standard error, and do without where that is not possible."""
        try:
            self.err.write(text)
            self.err.flush()
        except OSError:
            pass

    def refused(self) -> None:
        """Some board was refused."""
        self.status = max(self.status, SOME_REFUSED)


def library_path() -> Optional[str]:
    """Another library than the checkout's own, for whoever ships one."""
    return os.environ.get("TABLEWALK_LIBRARY") or None


def build_if_needed(err: TextIO) -> None:
    """Run the checkout's own build where the library is not there, or is an older one
    that lacks a function."""
    tool = ROOT / HOW_TO_BUILD.split()[0]
    if not tool.exists():
        return
    if not SHARED.exists():
        reason = "is not built yet"
    else:
        missing = missing_function(SHARED)
        if missing is None:
            return
        reason = f"that is built is an older one, without {missing}"
    err.write(
        (ERASE if err.isatty() else "")
        + f"tablewalk: the library {reason}; running {HOW_TO_BUILD}\n"
        "tablewalk: this proves it first, which takes some minutes, and is done only once\n"
    )
    err.flush()
    began = time.monotonic()
    with tempfile.TemporaryFile() as said:
        status = run_build([str(tool), *HOW_TO_BUILD.split()[1:]], said, err, began)
        if status != 0 or not SHARED.exists():
            last = lines_of(said)[-5:] or ["(it said nothing)"]
            raise LibraryMissing(
                f"{HOW_TO_BUILD} ended with status {status}; its last words:\n  "
                + "\n  ".join(printable(line, 200) for line in last)
            )
    err.write(f"tablewalk: the library is built, in {time.monotonic() - began:.0f} s\n")
    err.flush()


def run_build(
    command: Sequence[str], said: IO[bytes], err: TextIO, began: float
) -> int:
    """Run a build whose words go to a file; on a terminal, a line shows that it works."""
    try:
        process = subprocess.Popen(
            command, cwd=str(ROOT), stdin=subprocess.DEVNULL, stdout=said,
            stderr=subprocess.STDOUT,
        )
    except OSError as error:
        raise LibraryMissing(f"{HOW_TO_BUILD} could not be run: {error.strerror}") from None
    try:
        while True:
            try:
                return process.wait(1 if err.isatty() else None)
            except subprocess.TimeoutExpired:
                words = (lines_of(said) or [""])[-1]
                line = f"{time.monotonic() - began:.0f} s  {printable(words, 60)}"
                err.write(f"{ERASE}{line}")
                err.flush()
    finally:
        if err.isatty():
            err.write(ERASE)
        if process.poll() is None:
            process.terminate()
            process.wait()


def lines_of(file: IO[bytes]) -> List[str]:
    """The lines that a build has written so far, but for empty ones."""
    size = os.fstat(file.fileno()).st_size
    text = os.pread(file.fileno(), 65536, max(0, size - 65536)).decode("utf-8", "replace")
    return [line.rstrip() for line in text.split("\n") if line.strip()]


# Begins a line of a terminal anew.
ERASE = "\r\x1b[K"


# Input.


class Options:
    """How files are to be read."""

    def __init__(
        self, base: Optional[int] = None, ranges: Optional[List[Range]] = None,
        rsdp: Optional[int] = None,
    ) -> None:
        self.base = base
        self.ranges = ranges
        self.rsdp = rsdp


def read_file(name: str) -> bytes:
    """All bytes of a file, or of standard input for -."""
    if name == "-" and sys.stdin is None:
        raise DumpError(name, None, "standard input is closed")
    try:
        if name == "-":
            return sys.stdin.buffer.read()
        with open(name, "rb") as file:
            return file.read()
    except OSError as error:
        raise DumpError(name, None, error.strerror or "can not be read") from None
    except (ValueError, MemoryError) as error:
        raise DumpError(name, None, f"can not be read: {error}") from None


# The search goes up to here, so a shorter file can not be memory from 0 on.
FIRST_MEGABYTE = 0x100000


def load(name: str, options: Options, library: Callable[[], Library]) -> Image:
    """A file as an image, whatever of the three kinds it is. The library is asked for
    only once the file was read, since building it may take minutes."""
    data = read_file(name)
    return image_of(data, name, options, library())


def image_of(data: bytes, name: str, options: Options, library: Library) -> Image:
    """The bytes of a file as an image."""
    if not data:
        raise DumpError(name, None, "the file is empty; expected an acpidump text or an image")
    if options.ranges is not None:
        image = Image(data, options.ranges, options.rsdp, library)
        image.notes = (f"raw image of {len(data)} bytes in {count(len(options.ranges), 'range')}",)
        return image
    if options.base is None and looks_like_dump(data):
        layout = layout_of_acpidump(data, name)
        rsdp = options.rsdp if options.rsdp is not None else layout.rsdp
        image = Image(layout.data, layout.ranges, rsdp, library)
        image.notes = tuple(layout.notes)
        return image
    # Memory has zero bytes in it, and a text has none.
    text = b"\0" not in data
    if options.base is None and (text or len(data) < FIRST_MEGABYTE):
        raise DumpError(
            name, 1 if text else None,
            "expected an acpidump text, that is, a line as 'APIC @ 0x7FF00080';"
            " for a raw image say where it begins, with --base or --map",
        )
    base = options.base or 0
    if base + len(data) > 1 << 64:
        raise DumpError(name, None, f"{len(data)} bytes from {base:#x} on end above 2^64")
    image = Image(data, [Range(base, len(data), 0)], options.rsdp, library)
    image.notes = (f"raw image of {len(data)} bytes from {base:#x} on",)
    return image


def files_in(words: Sequence[str], context: Context) -> List[str]:
    """The files meant by the words of a command line. A folder means the files in it,
    but not those whose names begin with a dot, and not its folders."""
    files: List[str] = []
    for word in words:
        if word != "-" and os.path.isdir(word):
            try:
                inside = [os.path.join(word, f) for f in sorted(os.listdir(word)) if f[0] != "."]
            except OSError as error:
                context.complain(f"{printable(word, 4096)}: {error.strerror}")
                continue
            found = [path for path in inside if os.path.isfile(path)]
            if not found:
                context.complain(f"{printable(word, 4096)}: expected files in this folder")
            files += found
        else:
            files.append(word)
    return files


# Commands.


def each_image(
    context: Context, files: Sequence[str], options: Options
) -> Iterator[Tuple[str, Optional[Image], Optional[str]]]:
    """Each file as an image, or with the reason why it is none."""
    for name in files:
        try:
            yield name, load(name, options, context.library), None
        except DumpError as error:
            message = printable(str(error), 4096)
            context.complain(message)
            yield name, None, message


def write_json(context: Context, boards: List[Data], lines: bool, several: bool) -> None:
    """Boards as JSON: a line each, or one object."""
    if lines:
        for data in boards:
            context.out.write(json.dumps(data) + "\n")
    elif several:
        context.out.write(json.dumps({"boards": boards}, indent=2) + "\n")
    elif boards:
        context.out.write(json.dumps(boards[0], indent=2) + "\n")


def command_report(context: Context, words: argparse.Namespace, options: Options) -> None:
    """The report of each board."""
    files = files_in(words.files, context)
    paint = Paint(wants_colour(context.out))
    boards: List[Data] = []
    first = True
    for name, image, error in each_image(context, files, options):
        data: Data
        if image is None:
            data = {"file": name, "error": error}
        else:
            data = board(name, image)
            if data["answer"] != FOUND:
                context.refused()
        if words.json_lines:
            write_json(context, [data], True, False)
        elif words.json:
            boards.append(data)
        elif image is not None:
            context.out.write(("" if first else "\n") + text_of_board(data, paint))
            first = False
    if words.json:
        write_json(context, boards, False, len(files) != 1)


SUMMARY_COLUMNS = (
    "file", "maker", "table_id", "tables", "listed", "processors", "controllers", "windows",
    "answer", "reason",
)


def summary_row(name: str, options: Options, library: Callable[[], Library]) -> Data:
    """One board as one line: what the report says, counted."""
    row: Data = dict.fromkeys(SUMMARY_COLUMNS, "")
    row["file"] = name
    try:
        image = load(name, options, library)
    except DumpError as error:
        row["answer"] = "unreadable"
        reason = error.message if error.line is None else f"line {error.line}: {error.message}"
        row["reason"] = printable(reason, 4096)
        return row
    row["answer"] = FOUND
    try:
        image.rsdp_address
        root = image.root()
        header = image.header_at(root.address)
        if header is not None:
            row["maker"], row["table_id"] = header.oem_id, header.oem_table_id
        listed = image.tables()
        row["listed"] = len(listed)
        row["tables"] = sum(entry.answer == FOUND for entry in listed)
    except Refused as refused:
        row["answer"], row["reason"] = refused.number, str(refused).split(": ", 1)[1]
        return row
    borne = {entry.header.signature for entry in listed if entry.header is not None}

    def interrupts() -> None:
        model = image.interrupt_model()
        row["processors"], row["controllers"] = model.processors, model.io_apics

    def windows() -> None:
        row["windows"] = image.mcfg_count()

    # The order in which the report looks for the board's own answer.
    for signature, question in (
        ("APIC", interrupts), ("MCFG", windows), ("HPET", image.hpet), ("FACP", image.fadt_fixed),
    ):
        if signature != "APIC" and signature not in borne:
            continue
        try:
            question()
        except Refused as refused:
            if row["answer"] == FOUND:
                row["answer"] = refused.number
                place = refused.place
                if refused.number == NO_VALID_TABLE:
                    place = why_not(image, signature)
                row["reason"] = f"{refused.meaning} ({place or signature})"
    return row


def summary_rows(names_: Sequence[str], options: Options, path: Optional[str]) -> List[Data]:
    """The lines of some boards, in a process of its own."""
    library = Library(path)
    return [summary_row(name, options, lambda: library) for name in names_]


def processors() -> int:
    """How many processors this process may use."""
    if hasattr(os, "sched_getaffinity"):
        return len(os.sched_getaffinity(0))
    return os.cpu_count() or 1


def end_quietly() -> None:
    """Let an interrupt end this process without a word; the one that the user started
    has something to say then."""
    signal.signal(signal.SIGINT, signal.SIG_DFL)


def all_rows(
    context: Context, files: Sequence[str], options: Options
) -> Iterator[List[Data]]:
    """The lines of all boards, in order, with every processor at work where there
    are enough boards for that to pay."""
    given = context.given
    workers = processors()
    if given is None and workers > 1 and len(files) >= 32 and "-" not in files:
        # Built here, where it is not, and loaded by each process.
        context.library()
        # Loading this takes longer than a report does, so only a summary pays for it.
        from concurrent.futures import ProcessPoolExecutor
        from concurrent.futures.process import BrokenProcessPool

        size = max(1, min(64, len(files) // (4 * workers)))
        parts = [files[at:at + size] for at in range(0, len(files), size)]
        pool: Optional[ProcessPoolExecutor] = None
        try:
            pool = ProcessPoolExecutor(workers, initializer=end_quietly)
            futures = [pool.submit(summary_rows, part, options, library_path()) for part in parts]
            for future in futures:
                rows = future.result()
                files = files[len(rows):]
                yield rows
        except (BrokenProcessPool, OSError, NotImplementedError) as error:
            # A system may have no room for more processes, or end one; what is left is
            # then done here.
            context.say(f"tablewalk: going on with one process ({printable(str(error), 200)})\n")
        finally:
            if pool is not None:
                pool.shutdown(cancel_futures=True)
    for name in files:
        yield [summary_row(name, options, context.library)]


def command_summary(context: Context, words: argparse.Namespace, options: Options) -> None:
    """One line a board, then counts by answer."""
    files = files_in(words.files, context)
    show_progress = context.err.isatty()
    paint = Paint(wants_colour(context.out))
    counts: Dict[Any, int] = {}
    kept: List[Data] = []
    done = 0
    labels = labels_of(files)
    width = min(max([len(label) for label in labels.values()] + [4]), FILE_COLUMN)
    if words.csv:
        context.out.write(csv_line(SUMMARY_COLUMNS))
    elif not (words.json or words.json_lines):
        context.out.write(
            f"{'file':<{width}}  maker   table id  tables  procs  ctrls  wins  answer\n"
        )


    def progress(line: str) -> None:
        if show_progress:
            context.out.flush()
            context.say(ERASE + line)

    progress(f"0 of {count(len(files), 'board')}")
    for rows in all_rows(context, files, options):
        progress("")
        for row in rows:
            counts[row["answer"]] = counts.get(row["answer"], 0) + 1
            if row["answer"] == "unreadable":
                context.status = max(context.status, WRONG_INPUT)
            elif row["answer"] != FOUND:
                context.refused()
            if words.csv:
                context.out.write(csv_line([row[c] for c in SUMMARY_COLUMNS]))
            elif words.json_lines:
                context.out.write(json.dumps(row) + "\n")
            elif words.json:
                kept.append(row)
            else:
                context.out.write(summary_line(row, labels[row["file"]], width, paint))
        done += len(rows)
        if done < len(files):
            progress(f"{done} of {count(len(files), 'board')}")
    if words.json:
        by_answer = {str(answer): counts[answer] for answer in sorted(counts, key=answer_order)}
        context.out.write(json.dumps({"boards": kept, "counts": by_answer}, indent=2) + "\n")
    if words.csv or words.json or words.json_lines:
        return
    context.out.write(f"\n{count(len(files), 'board')}\n")
    for answer in sorted(counts, key=answer_order):
        text = "not a dump, or can not be read" if answer == "unreadable" else meaning_of(answer)
        label = "-" if answer == "unreadable" else str(answer)
        colour = paint.good if answer == FOUND else paint.bad
        lines = textwrap.wrap(
            f"{counts[answer]:>7}  {label:>2}: {text}", WIDTH, subsequent_indent=" " * 13,
            drop_whitespace=False,
        )
        context.out.write("".join(colour(line.rstrip()) + "\n" for line in lines))


def answer_order(answer: Any) -> Tuple[bool, Any]:
    """Answers by their number, and the word for files without one behind them."""
    return isinstance(answer, str), answer


# What the other columns of a summary leave of a line of 80.
FILE_COLUMN = 26


def labels_of(files: Sequence[str]) -> Dict[str, str]:
    """A short name for each file: without the folder that all of them are in."""
    folders = [os.path.dirname(os.path.abspath(name)) for name in files if name != "-"]
    common = os.path.commonpath(folders) if folders else ""
    return {
        name: "-" if name == "-" else printable(
            os.path.relpath(os.path.abspath(name), common), 4096
        )
        for name in files
    }


def summary_line(row: Data, label: str, width: int, paint: Paint) -> str:
    """A board's line; the reason of an unreadable file goes on lines of its own."""
    if len(label) > width:
        label = label[:width // 2 - 1] + ".." + label[len(label) - (width - width // 2 - 1):]
    if row["answer"] == "unreadable":
        reason = textwrap.wrap(
            row["reason"], WIDTH, initial_indent="    ", subsequent_indent="    "
        )
        return "\n".join([f"{label:<{width}}  {paint.bad('unreadable')}", *reason]) + "\n"
    tables = f"{row['tables']}/{row['listed']}" if row["listed"] != "" else "-"
    numbers = [row[c] if row[c] != "" else "-" for c in ("processors", "controllers", "windows")]
    answer = row["answer"]
    shown = paint.good("0") if answer == FOUND else paint.bad(str(answer))
    return (
        f"{label:<{width}}  {plain(row['maker'], 6)}  {plain(row['table_id'], 8)}"
        f"  {tables:>6}  {numbers[0]:>5}  {numbers[1]:>5}  {numbers[2]:>4}  {shown}\n"
    )


def plain(text: str, width: int) -> str:
    """A header's text in a column of its own."""
    shown = "".join(c if c.isprintable() and c.isascii() else "." for c in text) or "-"
    return f"{shown[:width]:<{width}}"


def csv_line(values: Sequence[Any]) -> str:
    """A line of CSV, quoted where that is needed."""
    buffer = io.StringIO()
    csv.writer(buffer, lineterminator="\n").writerow(values)
    return buffer.getvalue()


def command_find(context: Context, words: argparse.Namespace, options: Options) -> None:
    """The valid tables of a signature, and why others of it were passed over."""
    signature = words.signature
    try:
        number = signature_number(signature)
    except ValueError as error:
        raise Usage(f"SIG: {error}; expected four characters as in APIC") from None
    least = names.FIXED_PART.get(signature, names.HEADER_LENGTH)

    def answer(image: Image) -> Data:
        data: Data = {}
        try:
            image.find(number, least)
        except Refused as refused:
            if refused.number != NO_VALID_TABLE:
                raise
            data = refusal(refused)
        rows = of_signature(image, signature)
        if not rows:
            data["place"] = why_not(image, signature)
        data["signature"] = signature
        data["tables"] = [row for row in rows if row["answer"] == FOUND]
        data["passed_over"] = [row for row in rows if row["answer"] != FOUND]
        return data

    def show(data: Data) -> Iterator[str]:
        for table in data["tables"]:
            yield (
                f"{signature} at {table['address']}, {table['length']} bytes,"
                f" offset {table['offset']:#x} in the image"
            )
        for row in data["passed_over"]:
            yield (
                f"{signature} at {row['address']} is passed over,"
                f" {row['answer']}: {row['meaning']}"
            )

    run_question(context, words, options, answer, show)


def command_pci(context: Context, words: argparse.Namespace, options: Options) -> None:
    """Where the configuration space of a PCI function begins."""
    match = re.fullmatch(
        r"(?:([0-9A-Fa-f]{1,4}):)?([0-9A-Fa-f]{1,2}):([0-9A-Fa-f]{1,2})\.([0-9A-Fa-f]{1,2})",
        words.function,
    )
    if match is None:
        raise Usage(
            f"'{printable(words.function)}': expected SEG:BUS:DEV.FN in hexadecimal,"
            " as in 0000:0c:03.1"
        )
    segment, bus, device, function = (int(part or "0", 16) for part in match.groups())

    def answer(image: Image) -> Data:
        where = image.pci_address(segment, bus, device, function)
        return {
            "function": f"{segment:04x}:{bus:02x}:{device:02x}.{function:x}",
            "address": address(where),
        }

    def show(data: Data) -> Iterator[str]:
        yield f"{data['function']} at {data['address']}"

    run_question(context, words, options, answer, show)


def command_entries(context: Context, words: argparse.Namespace, options: Options) -> None:
    """Every entry of the MADT. Behind one that the library refuses, the others are shown
    as their bytes stand, as far as their lengths lead."""

    def answer(image: Image) -> Data:
        table = image.find("APIC", names.FIXED_PART["APIC"])
        madt = image.view(table)
        entries: List[Data] = []
        data: Data = {"table": address(table.address), "entries": entries}
        end = names.FIXED_PART["APIC"]

        def shown(kind: int, offset: int, length: int) -> Data:
            return {
                "offset": offset, "kind": kind, "name": names.kind_name(kind),
                "length": length, "bytes": madt.data[offset:offset + length].hex(" "),
            }

        try:
            for entry in madt.madt_entries():
                end = entry.offset + entry.length
                entries.append(shown(entry.kind, entry.offset, entry.length))
        except Refused as refused:
            refused.place = f"MADT entry {len(entries)} at offset {end:#x}"
            data.update(refusal(refused))
            unread: List[Data] = []
            while end + 2 <= len(madt.data):
                kind, length = madt.data[end], madt.data[end + 1]
                if length < 2 or end + length > len(madt.data):
                    break
                unread.append(shown(kind, end, length))
                end += length
            data["unread"] = unread
            data["rest"] = madt.data[end:end + 16].hex(" ")
        return data

    def rows(entries: List[Data]) -> Iterator[str]:
        for entry in entries:
            yield (
                f"  {entry['offset']:#6x}  {entry['kind']:>4}  {entry['length']:>6}"
                f"  {entry['name']}"
            )
            for at in range(0, len(entry["bytes"]), 48):
                yield f"            {entry['bytes'][at:at + 48].rstrip()}"

    def show(data: Data) -> Iterator[str]:
        yield f"MADT at {data['table']}"
        yield "  offset  kind  length  what"
        yield from rows(data["entries"])
        if data["answer"] != FOUND:
            if data["unread"]:
                yield "  from here on refused; as the bytes stand:"
                yield from rows(data["unread"])
            if data["rest"]:
                yield f"  then: {data['rest']}"

    run_question(context, words, options, answer, show)


def run_question(
    context: Context, words: argparse.Namespace, options: Options,
    answer: Callable[[Image], Data], show: Callable[[Data], Iterator[str]],
) -> None:
    """Ask one question of each board and show the answers."""
    files = files_in(words.files, context)
    boards: List[Data] = []
    for name, image, error in each_image(context, files, options):
        data: Data = {"file": name}
        if image is None:
            data["error"] = error
        else:
            try:
                data.update({"answer": FOUND, **answer(image)})
            except Refused as refused:
                data.update(refusal(refused))
            if not (words.json or words.json_lines):
                lines: List[str] = []
                if data["answer"] == FOUND or "rest" in data or "passed_over" in data:
                    lines += show(data)
                if data["answer"] != FOUND:
                    place = f" ({data['place']})" if "place" in data else ""
                    lines.append(f"{data['answer']}: {data['meaning']}{place}")
                # Of several boards each line is whole and has the file in front, so that it
                # can be searched for; of one board they fit a terminal.
                if len(files) > 1:
                    lines = [f"{printable(name, 4096)}: {line}" for line in lines]
                else:
                    lines = [part for line in lines for part in folded(line)]
                context.out.write("".join(f"{line}\n" for line in lines))
            if data["answer"] != FOUND:
                context.refused()
        boards.append(data)
    if words.json or words.json_lines:
        write_json(context, boards, words.json_lines, len(files) != 1)


def folded(line: str) -> List[str]:
    """A line, or several with the later ones indented, within the width of a terminal."""
    if len(line) <= WIDTH:
        return [line]
    return textwrap.wrap(line, WIDTH, subsequent_indent="    ", break_on_hyphens=False)


def command_explain(context: Context, words: argparse.Namespace) -> None:
    """What an answer's number means."""
    if words.number is None:
        for number in MEANINGS:
            explain(context, number)
        return
    if not re.fullmatch(r"[0-9]{1,9}", words.number) or int(words.number) not in MEANINGS:
        raise Usage(
            f"'{printable(words.number)}': expected the number of an answer,"
            f" 0 to {max(MEANINGS)}"
        )
    explain(context, int(words.number))


def explain(context: Context, number: int) -> None:
    """A number and its meaning, within the width of a terminal."""
    for line in folded(f"{number:>2}: {MEANINGS[number]}"):
        context.out.write(line + "\n")


# The command line.


def wants_colour(out: TextIO) -> bool:
    """Colour on a terminal only, and not where the user has said no."""
    return (
        out.isatty() and not os.environ.get("NO_COLOR") and os.environ.get("TERM") != "dumb"
    )


def add_input(parser: argparse.ArgumentParser) -> None:
    """The options that say how files are to be read."""
    parser.add_argument("files", metavar="FILE", nargs="+",
                        help="acpidump text, raw image, a folder of them, or -")
    group = parser.add_argument_group("raw images")
    group.add_argument("--base", metavar="HEX", help="physical address of the first byte")
    group.add_argument("--map", metavar="FILE",
                       help="ranges: lines START LENGTH OFFSET in hexadecimal")
    group.add_argument("--rsdp", metavar="HEX",
                       help="address of the root pointer; else it is searched for")


def add_json(parser: argparse.ArgumentParser) -> None:
    """The options for other programs to read the answers."""
    parser.add_argument("--json", action="store_true", help="one JSON object")
    parser.add_argument("--json-lines", action="store_true", help="a line of JSON for each board")


def options_of(words: argparse.Namespace) -> Options:
    """The options about input, taken apart."""
    options = Options()
    forms = [f"--{name.replace('_', '-')}" for name in ("csv", "json", "json_lines")
             if getattr(words, name, False)]
    if len(forms) > 1:
        raise Usage(f"{' and '.join(forms)}: expected only one of them")
    if [*words.files, words.map].count("-") > 1:
        raise Usage("-: expected only once, since standard input can be read only once")
    if words.base is not None and words.map is not None:
        raise Usage("--base and --map: expected only one of them")
    for name in ("base", "rsdp"):
        text = getattr(words, name)
        if text is not None:
            try:
                setattr(options, name, parse_hex(text))
            except ValueError as error:
                raise Usage(f"--{name}: {error}") from None
    if words.map is not None:
        options.ranges = parse_map(read_file(words.map), words.map)
    return options


def parser_for(command: Optional[str]) -> argparse.ArgumentParser:
    """The parser of one command, or of the plain report."""
    describe: Dict[Optional[str], str] = {
        None: "The report of a board: what a kernel will make of its ACPI tables.",
        "summary": "One line a board, then how many boards had which answer.",
        "find": "The valid tables of a signature, in the order of the root table.",
        "pci": "Where the configuration space of a PCI function begins.",
        "entries": "Every entry of the MADT: offset, kind, length and bytes.",
        "explain": "What an answer's number means; without N, all of them.",
    }
    parser = _Parser(
        prog="./tablewalk" + (f" {command}" if command else ""),
        description=describe[command],
        epilog=EPILOG if command != "explain" else None,
        formatter_class=argparse.RawDescriptionHelpFormatter,
        allow_abbrev=False,
    )
    if command is None:
        parser.description = SHORT_HELP
        parser.usage = "./tablewalk [COMMAND] [OPTION].. FILE.."
        parser.add_argument("--version", action="version", version=f"tablewalk {__version__}")
    if command == "explain":
        parser.add_argument("number", metavar="N", nargs="?")
        return parser
    if command == "find":
        parser.add_argument("signature", metavar="SIG", help="four characters, as in APIC")
    if command == "pci":
        parser.add_argument("function", metavar="SEG:BUS:DEV.FN",
                            help="in hexadecimal, as lspci prints it; SEG: may be left out")
    add_input(parser)
    if command == "summary":
        parser.add_argument("--csv", action="store_true", help="comma separated values")
    add_json(parser)
    return parser


COMMANDS: Dict[str, Callable[[Context, argparse.Namespace, Options], None]] = {
    "summary": command_summary,
    "find": command_find,
    "pci": command_pci,
    "entries": command_entries,
}


def run(arguments: Sequence[str], context: Context) -> None:
    """One command, with messages as exceptions."""
    if not arguments:
        context.out.write(SHORT_HELP + "\n")
        context.out.flush()
        if not SAMPLE.exists():
            raise DumpError(str(SAMPLE), None, "the sample is missing from this checkout")
        image = load(str(SAMPLE), Options(), context.library)
        data = board("examples/sample.dump", image)
        context.out.write(text_of_board(data, Paint(wants_colour(context.out))))
        if data["answer"] != FOUND:
            context.refused()
        return
    first = arguments[0]
    if first == "explain":
        command_explain(context, parser_for(first).parse_args(arguments[1:]))
    elif first in COMMANDS:
        words = parser_for(first).parse_args(arguments[1:])
        COMMANDS[first](context, words, options_of(words))
    else:
        words = parser_for(None).parse_args(arguments)
        command_report(context, words, options_of(words))


def give_up_output() -> None:
    """Send what is still to be written nowhere, so that nothing complains at the end."""
    if sys.stdout is not None:
        os.dup2(os.open(os.devnull, os.O_WRONLY), sys.stdout.fileno())


def main(
    arguments: Optional[Sequence[str]] = None,
    out: Optional[TextIO] = None,
    err: Optional[TextIO] = None,
    library: Optional[Library] = None,
) -> int:
    """Run the command and give its exit status."""
    err = err if err is not None else sys.stderr
    if err is None:
        # Closed by whoever started the command, so nobody reads messages.
        err = io.StringIO()
    out = out if out is not None else sys.stdout
    if out is None:
        err.write("tablewalk: standard output is closed\n")
        return WRONG_INPUT
    # A file's name need not be text; it must not stop the report of the others.
    for stream in (out, err):
        if isinstance(stream, io.TextIOWrapper):
            stream.reconfigure(errors="backslashreplace")
    context = Context(out, err, library)
    try:
        run(list(sys.argv[1:] if arguments is None else arguments), context)
        out.flush()
    except (Usage, DumpError, LibraryMissing) as error:
        # A name of a file may hold anything; our own messages may hold line ends.
        text = str(error)
        context.complain(printable(text, 4096) if isinstance(error, DumpError) else text)
    except KeyboardInterrupt:
        context.say("\ntablewalk: stopped\n")
        return 130
    except BrokenPipeError:
        # Whoever reads our output has had enough.
        give_up_output()
    except OSError as error:
        # Everything that is read has messages of its own.
        give_up_output()
        context.status = WRONG_INPUT
        context.say(f"tablewalk: the answer can not be written: {error.strerror or error}\n")
    except SystemExit as ending:
        return int(ending.code or 0)
    return context.status
