#!/usr/bin/env python3
"""Write tables, questions and answers to the file that crates/replay_tables replays.

Usage: make_cases.py FILE

The records are those of tests/reference/make_cases.py. An image is one table, with
no ranges; reading.py says what the questions from 20 on are. The same file comes
out of every run.

The answers are those of reading.py. For the tables in fixtures/ each value that
iasl prints is held to it here, so a file comes out only where the two agree.
Two things in the file differ from what reading.py returns:

  30  page protection is 3 for every number above 2.
  53  has five arguments, how many words each lent table has. 17 answers where one
      is too short for its list. The values are the five lists one after the
      other, each with the number of its words in front.
"""

import pathlib
import random
import struct
import sys

HERE = pathlib.Path(__file__).resolve().parent
sys.path.insert(1, str(HERE.parent / "reference"))

import iasl_text
import reading

LENT_TABLE_TOO_SHORT = 17
WORDS_IN_A_RECORD = [3, 3, 3, 2, 2]


def lists_of(table):
    """The answer without lent tables, and the five lists."""
    answer, lists = reading.ask_table(53, table, [])
    return answer, lists if answer == reading.FOUND else [[]] * 5


def answer_to(question, table, arguments):
    if question == 53:
        answer, lists = lists_of(table)
        if answer != reading.FOUND:
            return answer, []
        if any(room < len(words) for room, words in zip(arguments, lists)):
            return LENT_TABLE_TOO_SHORT, []
        return reading.FOUND, [number for words in lists for number in [len(words)] + words]
    answer, values = reading.ask_table(question, table, arguments)
    if question == 30 and answer == reading.FOUND:
        values = values[:-1] + [min(values[-1], 3)]
    return answer, values


class Cases:
    """Collects the records, and asks for every answer."""

    def __init__(self):
        self.parts = []
        self.images = 0
        self.questions = 0
        self.by_answer = {}
        self.table = b""

    def image(self, table):
        self.table = bytes(table)
        self.images += 1
        self.parts.append(struct.pack("<III", 1, 0, len(table)))
        self.parts.append(self.table + bytes(-len(table) % 4))

    def changed(self, patches):
        table = bytearray(self.table)
        for offset, value in patches:
            table[offset] = value
        return bytes(table)

    def ask(self, question, *arguments, patches=()):
        answer, values = answer_to(question, self.changed(patches), arguments)
        self.questions += 1
        key = (question, answer)
        self.by_answer[key] = self.by_answer.get(key, 0) + 1
        self.parts.append(struct.pack("<III", 2, question, len(patches)))
        for patch in patches:
            self.parts.append(struct.pack("<II", *patch))
        self.parts.append(struct.pack(f"<I{len(arguments)}Q", len(arguments), *arguments))
        self.parts.append(struct.pack(f"<II{len(values)}Q", answer, len(values), *values))

    def ask_lists(self, spare=0, patches=()):
        """The lists with lent tables that just have room, or `spare` words more."""
        _, lists = lists_of(self.changed(patches))
        self.ask(53, *[len(words) + spare for words in lists], patches=patches)

    def ask_each(self, questions, patches=()):
        for question, *arguments in questions:
            if question == 53:
                self.ask_lists(patches=patches)
            else:
                self.ask(question, *arguments, patches=patches)

    def bytes(self):
        return b"".join(self.parts) + struct.pack("<I", 0)


# Making tables.


def make_table(signature, body, revision=1, length=None):
    """A table with its sum in order. The questions do not test the sum."""
    stated = 36 + len(body) if length is None else length
    data = bytearray(signature + struct.pack("<I", stated) + bytes([revision, 0]))
    data += b"ROWANSBLADE-07" + struct.pack("<I", 1) + b"RWN " + struct.pack("<I", 1) + body
    data[9] = -sum(data) % 256
    return bytes(data)


def make_madt(entries, local=0xFEE00000, flags=1):
    return make_table(b"APIC", struct.pack("<II", local, flags) + b"".join(entries), 4)


def make_mcfg(windows, rest=b""):
    entries = [struct.pack("<QHBBI", *window, 0) for window in windows]
    return make_table(b"MCFG", bytes(8) + b"".join(entries) + rest)


def local_apic(processor, controller, flags=1):
    return struct.pack("<BBBBI", 0, 8, processor, controller, flags)


def io_apic(number, address, base):
    return struct.pack("<BBBBII", 1, 12, number, 0, address, base)


def override(source, interrupt, flags=0, bus=0):
    return struct.pack("<BBBBIH", 2, 10, bus, source, interrupt, flags)


def nmi_source(interrupt, flags=0):
    return struct.pack("<BBHI", 3, 8, flags, interrupt)


def local_nmi(processor, line, flags=0):
    return struct.pack("<BBBHB", 4, 6, processor, flags, line)


def local_address(address):
    return struct.pack("<BBHQ", 5, 12, 0, address)


def local_x2apic(processor, controller, flags=1):
    return struct.pack("<BBHIII", 9, 16, 0, controller, flags, processor)


def x2apic_nmi(processor, line, flags=0):
    return struct.pack("<BBHIBBBB", 10, 12, flags, processor, line, 0, 0, 0)


def wakeup(mailbox):
    return struct.pack("<BBHIQ", 16, 16, 0, 0, mailbox)


def other(kind, length):
    return bytes([kind, length]) + bytes(length - 2)


# The questions of each kind of table.

FIELDS = sorted(iasl_text.PLAIN.values())
FLAGS = [(109, bit) for bit in range(7)] + [(112, bit) for bit in range(24)] + [(129, bit) for bit in range(3)]
FLAGS += [(109, 15), (109, 16), (112, 31), (112, 32), (129, 63)]
REGISTERS = [(40, which) for which in range(12)]

QUESTIONS = {
    b"MCFG": [(20,), (21, 0), (21, 1), (22, 0, 1, 2, 3), (22, 0x1A2B, 0x20, 31, 7)],
    b"HPET": [(30,)],
    b"FACP": REGISTERS + [(41,), (42,)] + [(43,) + place for place in FIELDS]
        + [(44, 112, 8), (44, 109, 1), (44, 129, 1)],
    b"APIC": [(50,), (51, 0), (51, 1), (51, 6), (52,), (53,), (54,)],
}

# Those whose answer can change with the length of a table that is whole.
BY_LENGTH = REGISTERS + [(41,), (42,), (43, 108, 1), (43, 128, 1), (43, 129, 2)]

# The lengths at which a FADT comes to hold one more of the fields past its fixed part.
FADT_ENDS = [116, 128, 129, 131, 140, 148] + [wide + 12 for _, _, wide in reading.REGISTER_BLOCKS] + [256, 268, 276]


def damaged_values(value):
    """Four ways to damage a byte, without those that change nothing."""
    values = []
    for damaged in [value ^ 0x01, value ^ 0x80, 0x00, 0xFF]:
        if damaged != value and damaged not in values:
            values.append(damaged)
    return values


def length_patches(length):
    return [(4 + place, byte) for place, byte in enumerate(struct.pack("<I", length))]


def fixture(name):
    return (HERE / "fixtures" / f"{name}.aml").read_bytes()


# The cases, group by group.


def fixture_cases(cases):
    """Every question about every fixture, held to what iasl says of it."""
    for path in sorted((HERE / "fixtures").glob("*.aml")):
        table = path.read_bytes()
        cases.image(table)
        said = iasl_text.answers_of(path.with_suffix(".dsl").read_text(encoding="ascii"))
        for (question, *arguments), values in said.items():
            found = reading.ask_table(question, table, arguments)
            if found != (reading.FOUND, values):
                sys.exit(f"make_cases.py: {path.name}, question {question} {arguments}: "
                         f"iasl says {values}, reading.py {found}")
            if question != 53:
                cases.ask(question, *arguments)
        questions = list(QUESTIONS[table[:4]])
        if table[:4] == b"FACP":
            questions += [(44,) + flag for flag in FLAGS]
        cases.ask_each([asked for asked in questions if asked not in said])
        if table[:4] == b"APIC":
            cases.ask_lists(spare=7)
            for k in range(2, 20):
                if (51, k) not in said:
                    cases.ask(51, k)


def length_cases(cases):
    """Every length from 0 to one byte more than the table has: of the slice, of the
    slice with the stated length in step, and of the stated length alone. Three of
    the FADTs have only what differs from the other two."""
    names = ["mcfg", "hpet", "facp-1", "facp-2", "facp-3", "facp-5", "facp-6", "apic-x2apic"]
    for name in names:
        table = fixture(name)
        questions = QUESTIONS[table[:4]]
        for length in range(len(table) + 2):
            if length < {"facp-2": 114, "facp-3": 114, "facp-5": 240}.get(name, 0):
                continue
            turn = questions[length % len(questions)]
            cases.image((table + b"\0")[:length])
            if length != len(table):
                cases.ask_each([turn])
            if length < 8:
                continue
            stated = [patch for patch in length_patches(length) if table[patch[0]] != patch[1]]
            if name == "facp-6" and any(abs(length - end) <= 1 for end in FADT_ENDS):
                cases.ask_each(BY_LENGTH, patches=stated)
            elif table[:4] == b"FACP":
                cases.ask_each([turn, BY_LENGTH[length % len(BY_LENGTH)]], patches=stated)
            elif name == "apic-x2apic":
                cases.ask_each([turn], patches=stated)
            else:
                cases.ask_each(questions, patches=stated)
        cases.image(table)
        for length in list(range(len(table))) + [len(table) + 1, 2 ** 16 + len(table), 2 ** 32 - 1]:
            if name in ("facp-2", "facp-3", "facp-5") and length % 5:
                continue
            stated = [patch for patch in length_patches(length) if table[patch[0]] != patch[1]]
            cases.ask_each([questions[length % len(questions)]], patches=stated)


def damage_cases(cases):
    """Every one of the first 64 bytes damaged; all bytes of one FADT and one MADT."""
    for name in ["mcfg", "hpet", "facp-1", "facp-6", "qemu-q35-1-apic"]:
        table = fixture(name)
        cases.image(table)
        questions = QUESTIONS[table[:4]]
        last = len(table) if name in ("facp-6", "qemu-q35-1-apic", "mcfg", "hpet") else 64
        for place in range(last):
            for turn, value in enumerate(damaged_values(table[place])):
                asked = {questions[(place + 7 * turn) % len(questions)]}
                if table[:4] == b"FACP":
                    asked = fadt_questions_at(place) or asked
                elif place >= 36:
                    asked |= {questions[(place + turn + 1) % len(questions)]}
                cases.ask_each(sorted(asked), patches=[(place, value)])


def fadt_questions_at(place):
    """The questions that read the byte at a place of a FADT."""
    asked = set()
    for question, (narrow, wide) in [((41,), (36, 132)), ((42,), (40, 140))]:
        if narrow <= place < narrow + 4 or wide <= place < wide + 8:
            asked.add(question)
    for which, (narrow, length, wide) in enumerate(reading.REGISTER_BLOCKS):
        if narrow <= place < narrow + 4 or place == length or wide <= place < wide + 12:
            asked.add((40, which))
    for which, offset in [(8, 116), (9, 244), (10, 256)]:
        if offset <= place < offset + 12:
            asked.add((40, which))
    for offset, size in FIELDS:
        if offset <= place < offset + size:
            asked.add((43, offset, size))
    return asked


def mcfg_cases(cases):
    """Windows that overlap, wrap, are empty or come twice, and all limits."""
    top = 2 ** 64
    tables = [
        [],
        [(0xB0000000, 0, 0, 255)],
        [(0xB0000000, 0, 0, 63), (0xC0000000, 0, 32, 127), (0xD0000000, 1, 0, 255)],
        [(0xC0000000, 0, 32, 127), (0xB0000000, 0, 0, 63)],
        [(0xB0000000, 0, 63, 0), (0xE0000000, 0, 0, 63)],
        [(top - 2 ** 28, 0, 0, 255)],
        [(top - 2 ** 28 + 1, 0, 0, 255)],
        [(top - 2 ** 20, 0, 5, 9), (0xB0000000, 0, 0, 255)],
        [(top - 1, 65535, 255, 255)],
        [(0, 0, 0, 0), (0x12345678, 0, 7, 7)],
    ]
    for windows in tables:
        cases.image(make_mcfg(windows))
        cases.ask(20)
        for k in [0, 1, 2, 3, 2 ** 32, 2 ** 60, top - 1]:
            cases.ask(21, k)
        for segment in [0, 1, 65535]:
            for bus in [0, 5, 31, 32, 63, 64, 127, 255]:
                for device, function in [(0, 0), (31, 7), (32, 0), (0, 8), (255, 255)]:
                    if segment == 0 or device in (31, 32):
                        cases.ask(22, segment, bus, device, function)
    # A rest of an entry counts for nothing, whatever it says.
    for rest in range(17):
        cases.image(make_mcfg([(0xB0000000, 0, 0, 63)], struct.pack("<QHBBI", 0xC0000000, 1, 0, 63, 0)[:rest]))
        cases.ask(20)
        cases.ask(21, 1)
        cases.ask(22, 1, 3, 0, 0)


def hpet_cases(cases):
    """Every space, every protection byte, and each bit of the block id."""
    cases.image(fixture("hpet"))
    for space in range(256):
        if space < 16 or space % 16 == 15 or space > 0xF8:
            cases.ask(30, patches=[(40, space)])
    for access in [0, 1, 4, 5, 127, 255]:
        cases.ask(30, patches=[(43, access)])
        cases.ask(30, patches=[(40, 1), (43, access)])
    for last in list(range(36)) + [0x7F, 0x80, 0xF0, 0xF1, 0xF2, 0xF3, 0xFF]:
        cases.ask(30, patches=[(55, last)])
    for bit in range(32):
        cases.ask(30, patches=[(36 + place, 1 << bit % 8 if bit // 8 == place else 0) for place in range(4)])
    cases.ask(30, patches=[(36 + place, 0xFF) for place in range(4)])


def fadt_cases(cases):
    """Every space and access size, both forms of each register, and the profiles."""
    table = fixture("facp-6")
    cases.image(table)
    for value in range(256):
        cases.ask(40, 8, patches=[(116, value)])
        if value < 8 or value % 32 == 0 or value == 255:
            cases.ask(40, value % 8, patches=[(reading.REGISTER_BLOCKS[value % 8][2] + 3, value)])
            cases.ask(40, 9, patches=[(247, value)])
            cases.ask(40, 10, patches=[(256, value)])
        if value < 12 or value > 253:
            cases.ask(43, 45, 1, patches=[(45, value)])
            cases.ask(43, 45, 1, patches=[(8, value)])
    for revision in [0, 1, 2, 3, 6, 255]:
        for which in range(12):
            cases.ask(40, which, patches=[(8, revision)])
        cases.ask(41, patches=[(8, revision)])
        cases.ask(42, patches=[(8, revision)])
    for which, (narrow, length, wide) in enumerate(reading.REGISTER_BLOCKS):
        for revision in [1, 2]:
            for narrow_address in [0, 0x80000001]:
                for wide_address in [0, 1 << 63]:
                    patches = [(8, revision)]
                    patches += [(narrow + i, b) for i, b in enumerate(struct.pack("<I", narrow_address))]
                    patches += [(wide + 4 + i, b) for i, b in enumerate(struct.pack("<Q", wide_address))]
                    cases.ask(40, which, patches=patches)
                    for size in [0, 4, 31, 32, 255]:
                        if wide_address == 0 and (narrow_address or size == 4):
                            cases.ask(40, which, patches=patches + [(length, size)])
        # An unknown space or access size of a wide form does not lead to the narrow one.
        cases.ask(40, which, patches=[(wide, 0x0B), (wide + 4, 1)])
        cases.ask(40, which, patches=[(wide + 3, 5), (wide + 4, 1)])
    for question, narrow, wide in [(41, 36, 132), (42, 40, 140)]:
        for revision in [1, 2]:
            for set_narrow in [0, 1, 0x80]:
                for set_wide in [0, 1, 0x80]:
                    patches = [(8, revision)] + [(narrow + i, 0) for i in range(3)] + [(narrow + 3, set_narrow)]
                    patches += [(wide + i, 0) for i in range(7)] + [(wide + 7, set_wide)]
                    cases.ask(question, patches=patches)
    for which in [12, 255, 2 ** 31, 2 ** 32 - 1]:
        cases.ask(40, which)


def many_processor_cases(cases):
    """0, 1, 512 and 4,096 processors, and 288 as they are numbered above 255."""
    tables = [
        [],
        [local_apic(0, 0)],
        [local_x2apic(1000 + i, 4096 + 2 * i, 1 if i % 9 else 0) for i in range(512)],
        [local_apic(i, i) if i < 255 else local_x2apic(i, i) for i in range(288)] + [x2apic_nmi(0xFFFFFFFF, 1)],
        [local_apic(i % 256, i // 16, i % 5) for i in range(4096)],
    ]
    for entries in tables:
        cases.image(make_madt(entries))
        count = len(entries)
        for k in [0, 1, max(count - 1, 0), count, 2 ** 32, 2 ** 64 - 1]:
            cases.ask(51, k)
        cases.ask(50)
        cases.ask(52)
        cases.ask(54)
        cases.ask_lists()
        _, lists = lists_of(cases.table)
        processors = len(lists[0])
        for room in [processors - 1, processors - 3, 3, 0]:
            if 0 <= room < processors:
                cases.ask(53, room, 3, 3, 3, len(lists[4]))


def single_entry_cases(cases):
    """Every kind alone with every length from 0 to 20. The rest of an entry is such
    that no kind is refused for its bus, line or flags."""
    rest = bytes([0, 0, 5, 0, 0, 0, 1, 0, 0, 0, 0, 0, 0, 0, 0, 0, 0, 0])
    for length in range(21):
        # An entry of length 0 or 1 still has its two bytes.
        cases.image(make_madt([bytes([0, length]) + rest[:max(length - 2, 0)]]))
        for kind in range(256):
            kind_patch = [(44, kind)]
            cases.ask(51, 0, patches=kind_patch)
            cases.ask(52, patches=kind_patch)
            if kind < 18:
                cases.ask_each([(53,), (54,), (51, 1)][(kind + length) % 3:][:1], patches=kind_patch)
            # The same entry states one byte more than the table has.
            if kind < 18 and length >= 2:
                cases.ask_each([(52,) if length % 2 else (51, 0)], patches=kind_patch + [(45, length + 1)])
    # Behind a processor, with a byte left over, and with a second processor behind.
    for kind in range(20):
        for length in [5, 6, 8, 10, 12, 15, 16]:
            for tail in [b"", b"\0", local_apic(2, 2)]:
                cases.image(make_madt([local_apic(1, 1), bytes([kind, length]) + rest[:length - 2], tail]))
                cases.ask_each([(52,) if (kind + length) % 2 else (51, 2)])


def order_cases(cases):
    """Faults that answer 15 and faults that answer 16 in either order, and entries
    of the kinds 15 and 16 in either order: 15 goes first wherever it stands."""
    good = [local_apic(0, 0), local_apic(1, 1)]
    fifteen = [bytes([0, 0]), bytes([1, 1]), other(17, 2)[:1], bytes([2, 9]) + bytes(7), bytes([0, 9]) + bytes(6),
               other(6, 16), other(7, 16), other(8, 16), other(11, 16), other(15, 20), bytes([200, 0])]
    sixteen = [override(1, 1, bus=1), override(1, 1, 2), override(1, 1, 8), override(1, 1, 10), nmi_source(3, 2),
               nmi_source(3, 0xFFFB), local_nmi(0, 2), x2apic_nmi(0, 2), local_nmi(255, 255), x2apic_nmi(0, 255)]
    both = [wakeup(0x1122334455667788), other(15, 20)]
    tables = [good + [fault] for fault in fifteen + sixteen + both]
    tables += [[fault] + good for fault in fifteen + sixteen + both]
    for i, fault in enumerate(fifteen):
        wrong = sixteen[i % len(sixteen)]
        tables += [good + [fault, wrong], good + [wrong, fault], [wrong] + good + [fault], [fault] + good + [wrong]]
    tables += [good + both, good + both[::-1], both + good, both[::-1] + good, both, both[::-1], [both[0]], [both[1]]]
    tables += [good + [wakeup(1), wakeup(2)], good + [wakeup(1), bytes([0, 0])], good + [bytes([0, 0]), wakeup(1)],
               [wakeup(0)], [wakeup(2 ** 64 - 1), override(1, 1, bus=9)], [wakeup(7)[:15]], [bytes([16, 17]) + bytes(15)]]
    # Entries but no processor.
    tables += [[entry] for entry in [io_apic(1, 2, 3), override(1, 2), nmi_source(1), local_nmi(0, 0),
                                     local_address(5), x2apic_nmi(1, 1), override(1, 2, bus=1), local_nmi(0, 2)]]
    # Flags and lines that are right or are not looked at.
    tables += [good + [override(3, 4, flags), nmi_source(4, flags)] for flags in range(20)]
    tables += [good + [local_nmi(7, 1, 0xFFFF), x2apic_nmi(255, 0, 0xFFFF), local_nmi(255, 0), x2apic_nmi(2 ** 32 - 1, 1)]]
    # The last address wins, and a disabled first processor is the boot processor.
    tables += [good + [local_address(2 ** 40), local_address(2 ** 63)], [local_address(7)] + good,
               [local_apic(3, 3, 0), local_apic(4, 4, 1), local_x2apic(5, 5, 2), local_x2apic(6, 6, 3)],
               [local_x2apic(5, 5, 0xFFFFFFFE), local_apic(255, 255, 0xFFFFFFFF)]]
    for entries in tables:
        cases.image(make_madt(entries))
        cases.ask_each([(51, 2), (51, 3), (51, 4), (52,), (53,), (54,)])
    for flags in [0, 1, 2, 0xFFFFFFFE, 0xFFFFFFFF]:
        cases.image(make_madt(good, 0x12345678, flags))
        cases.ask_each([(50,), (52,)])


def room_cases(cases):
    """Lent tables with room to spare, with just enough, a record or a word too
    short, and empty, each list in turn."""
    full = [local_apic(0, 0), local_apic(1, 1), local_x2apic(300, 300), io_apic(1, 0xFEC00000, 0), io_apic(2, 0xFEC01000, 24),
            override(0, 2), override(9, 9, 13), nmi_source(1, 5), nmi_source(2, 15), local_nmi(255, 1), x2apic_nmi(5, 0)]
    wrong = full + [override(1, 1, bus=1)]
    faulty = full + [other(12, 24)]
    for entries in [full, wrong, faulty, full[:2], full[:4], [wakeup(1)], []]:
        cases.image(make_madt(entries))
        _, lists = lists_of(cases.table)
        exact = [len(words) for words in lists]
        cases.ask(53, *exact)
        cases.ask(53, *[room + 5 for room in exact])
        cases.ask(53, 0, 0, 0, 0, 0)
        for which in range(5):
            for less in [1, 2, WORDS_IN_A_RECORD[which], exact[which]]:
                if 0 < less <= exact[which]:
                    rooms = list(exact)
                    rooms[which] -= less
                    cases.ask(53, *rooms)
            rooms = list(exact)
            rooms[which] += 1
            cases.ask(53, *rooms)
    # Faults go before a lack of room.
    for entries in [wrong, faulty, [local_apic(0, 0), bytes([3, 0])]]:
        cases.image(make_madt(entries))
        cases.ask(53, 0, 0, 0, 0, 0)
        cases.ask(53, 30, 30, 30, 30, 30)


def mixed_cases(cases):
    """Tables of entries in any order, drawn from a fixed seed."""
    # Of what the module random has, only random() gives the same in every version.
    draw = random.Random(20)

    def below(most):
        return int(draw.random() * most)

    def one_of(choices):
        return choices[below(len(choices))]

    def entry():
        number = below(2 ** 32)
        flags = one_of([0, 1, 3, 4, 5, 7, 12, 13, 15, 0x30, 0xFFF0])
        return one_of([
            lambda: local_apic(number % 256, number // 256 % 256, number % 4),
            lambda: local_x2apic(number, below(2 ** 32), number % 2),
            lambda: io_apic(number % 256, number, below(256)),
            lambda: override(number % 256, number, flags),
            lambda: nmi_source(number, flags),
            lambda: local_nmi(one_of([0, 254, 255]), number % 2, flags),
            lambda: x2apic_nmi(one_of([255, 2 ** 32 - 1, number]), number % 2, flags),
            lambda: local_address(number * 2 ** 20),
            lambda: wakeup(number),
            lambda: other(17 + below(239), 2 + below(28)),
            lambda: local_apic(1, 2),
            lambda: override(1, number % 300, below(16), one_of([0, 0, 0, 1])),
            lambda: local_nmi(1, one_of([0, 1, 1, 2])),
        ])()

    for _ in range(100):
        cases.image(make_madt([entry() for _ in range(1 + below(13))]))
        cases.ask_each([(51, below(14)), (52,), (53,), (54,)])


GROUPS = [
    fixture_cases,
    length_cases,
    damage_cases,
    mcfg_cases,
    hpet_cases,
    fadt_cases,
    many_processor_cases,
    single_entry_cases,
    order_cases,
    room_cases,
    mixed_cases,
]


def main():
    if len(sys.argv) != 2 or sys.argv[1].startswith("-"):
        print("make_cases.py: expected one argument, the file to write", file=sys.stderr)
        return 2
    cases = Cases()
    for group in GROUPS:
        before = sum(len(part) for part in cases.parts)
        asked = cases.questions
        group(cases)
        after = sum(len(part) for part in cases.parts)
        print(f"{group.__name__}: {cases.questions - asked} questions, {after - before} bytes")
    content = cases.bytes()
    try:
        with open(sys.argv[1], "wb") as file:
            file.write(content)
    except OSError as error:
        print(f"make_cases.py: can not write {sys.argv[1]}: {error.strerror}", file=sys.stderr)
        return 1
    print(f"{cases.images} tables, {cases.questions} questions, {len(content)} bytes")
    for (question, answer), count in sorted(cases.by_answer.items()):
        print(f"question {question}: answer {answer}, {count} times")
    return 0


if __name__ == "__main__":
    sys.exit(main())
