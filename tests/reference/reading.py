"""A second reading of docs/TABLES.md, as slow and obvious as possible.

The proofs say that Tablewalk's answers equal its definitions. This module says
the same things once more, apart from those definitions, so that a slip in a
definition shows as a disagreement on some image. It is written for reading, one
function for each question, and never for speed.

Every question returns a pair: the answer's number and a list of values, which
is empty unless the number is 0. QUESTIONS, at the end, gives each question the
number by which the stored cases name it.

An image is a bytes object. Ranges are a flat list of numbers, three to a range:
physical start, length, offset in the image.
"""

FOUND = 0
WRONG_RANGES = 1
ROOT_POINTER_UNMAPPED = 2
ROOT_POINTER_SIGNATURE = 3
ROOT_POINTER_MAKER = 4
ROOT_POINTER_CHECKSUM = 5
ROOT_TABLE_UNMAPPED = 6
TABLE_SIGNATURE = 7
TABLE_MAKER = 8
TABLE_ID = 9
TABLE_CHECKSUM = 10
TOO_SHORT = 11
NO_VALID_TABLE = 12
NO_SUCH_ADDRESS = 13
UNKNOWN_SPACE_OR_SIZE = 14
WRONG_ENTRY = 15
WRONG_BUS_LINE_OR_FLAGS = 16
NO_ROOT_POINTER = 18

HEADER_LENGTH = 36
MOST_RANGES = 64
END_OF_MEMORY = 2 ** 64


def refused(number):
    return number, []


def number_at(data, offset, size):
    """The number in `size` bytes at `offset`, lowest byte first."""
    piece = data[offset:offset + size]
    assert len(piece) == size, "a reader asked for bytes that are not there"
    return int.from_bytes(piece, "little")


def sums_to_zero(data):
    return sum(data) % 256 == 0


def is_text(data):
    """Whether the bytes are well-formed UTF-8, by Python's own decoder."""
    try:
        bytes(data).decode("utf-8")
    except UnicodeDecodeError:
        return False
    return True


# Memory: docs/TABLES.md, section 1.


def ranges_right(image, ranges):
    if len(ranges) % 3 != 0:
        return False
    if len(ranges) // 3 > MOST_RANGES:
        return False
    end_of_previous = None
    start_of_previous = None
    for place in range(0, len(ranges), 3):
        start, length, offset = ranges[place:place + 3]
        if start_of_previous is not None:
            if start <= start_of_previous:
                return False
            # A range of length 0 inside another range is refused by this too.
            if start < end_of_previous:
                return False
        if start + length > END_OF_MEMORY:
            return False
        if offset + length > len(image):
            return False
        start_of_previous = start
        end_of_previous = start + length
    return True


def place_of(ranges, address):
    """Offset in the image of a physical address, and how many bytes its range
    has from there on; None if no range holds the address."""
    for place in range(0, len(ranges), 3):
        start, length, offset = ranges[place:place + 3]
        if start <= address < start + length:
            return offset + (address - start), start + length - address
    return None


def view(image, ranges, address):
    """Offset in the image of a physical address, and all bytes from there to the
    end of its range. An address that no range holds has no bytes."""
    found = place_of(ranges, address)
    if found is None:
        return None, b""
    offset, room = found
    return offset, image[offset:offset + room]


def check_ranges(image, ranges):
    """Question 1: is the list of ranges right?"""
    if not ranges_right(image, ranges):
        return refused(WRONG_RANGES)
    return FOUND, []


# Root pointer: docs/TABLES.md, section 4.


def root_pointer(image, ranges, address):
    """Question 2: revision, length, RSDT address, XSDT address."""
    if not ranges_right(image, ranges):
        return refused(WRONG_RANGES)

    _, seen = view(image, ranges, address)
    if len(seen) < 20:
        return refused(ROOT_POINTER_UNMAPPED)
    revision = seen[15]
    if revision != 0 and len(seen) < 36:
        return refused(ROOT_POINTER_UNMAPPED)

    if seen[0:8] != b"RSD PTR ":
        return refused(ROOT_POINTER_SIGNATURE)
    if not is_text(seen[9:15]):
        return refused(ROOT_POINTER_MAKER)

    rsdt_address = number_at(seen, 16, 4)
    if revision == 0:
        if not sums_to_zero(seen[:20]):
            return refused(ROOT_POINTER_CHECKSUM)
        return FOUND, [revision, 20, rsdt_address, 0]

    length = number_at(seen, 20, 4)
    if length < 20 or length > 36:
        return refused(ROOT_POINTER_CHECKSUM)
    if not sums_to_zero(seen[:length]):
        return refused(ROOT_POINTER_CHECKSUM)
    return FOUND, [revision, length, rsdt_address, number_at(seen, 24, 8)]


def search_areas(image, ranges):
    """The two areas as (first address, address after the last)."""
    start = None
    _, seen = view(image, ranges, 0x40E)
    if len(seen) >= 2:
        start = number_at(seen, 0, 2) * 16
    if start is not None and 0x80000 <= start < 0x9FFFF:
        data_area = (start, start + 1024)
    else:
        data_area = (0x80000, 0xA0000)
    return [(0xE0000, 0x100000), data_area]


def search(image, ranges):
    """Question 3: the address of the first valid root pointer."""
    if not ranges_right(image, ranges):
        return refused(WRONG_RANGES)
    for first, after_last in search_areas(image, ranges):
        address = first
        while address + 20 <= after_last:
            answer, _ = root_pointer(image, ranges, address)
            if answer == FOUND:
                return FOUND, [address]
            address += 16
    return refused(NO_ROOT_POINTER)


# Tables: docs/TABLES.md, section 5.


def root_table(image, ranges, root_pointer_address):
    """Question 4: kind (0 RSDT, 1 XSDT), address, offset in the image, length,
    size of an entry, number of entries."""
    answer, values = root_pointer(image, ranges, root_pointer_address)
    if answer != FOUND:
        return refused(answer)
    revision, _, rsdt_address, xsdt_address = values
    if revision == 0:
        kind, address, signature, entry_size = 0, rsdt_address, b"RSDT", 4
    else:
        kind, address, signature, entry_size = 1, xsdt_address, b"XSDT", 8

    offset, seen = view(image, ranges, address)
    if len(seen) < HEADER_LENGTH:
        return refused(ROOT_TABLE_UNMAPPED)
    length = number_at(seen, 4, 4)
    if length > len(seen):
        return refused(ROOT_TABLE_UNMAPPED)
    if seen[0:4] != signature:
        return refused(TABLE_SIGNATURE)
    if not is_text(seen[10:16]):
        return refused(TABLE_MAKER)
    if not is_text(seen[16:24]):
        return refused(TABLE_ID)
    if not sums_to_zero(seen[:length]):
        return refused(TABLE_CHECKSUM)
    if length < HEADER_LENGTH:
        return refused(TOO_SHORT)
    count = (length - HEADER_LENGTH) // entry_size
    return FOUND, [kind, address, offset, length, entry_size, count]


def root_entries(image, ranges, root_pointer_address):
    """The answer of the root table, and the list of addresses in it."""
    answer, values = root_table(image, ranges, root_pointer_address)
    if answer != FOUND:
        return answer, []
    _, _, offset, length, entry_size, count = values
    table = image[offset:offset + length]
    addresses = []
    for k in range(count):
        addresses.append(number_at(table, HEADER_LENGTH + k * entry_size, entry_size))
    return FOUND, addresses


def root_entry(image, ranges, root_pointer_address, k):
    """Question 5: the address in the k-th entry of the root table."""
    answer, addresses = root_entries(image, ranges, root_pointer_address)
    if answer != FOUND:
        return refused(answer)
    if k >= len(addresses):
        return refused(NO_SUCH_ADDRESS)
    return FOUND, [addresses[k]]


def table_in_right_ranges(image, ranges, address, signature, least):
    """A table at an address. The signature is a number, or None for any."""
    offset, seen = view(image, ranges, address)
    if len(seen) < HEADER_LENGTH:
        return refused(NO_VALID_TABLE)
    if signature is None:
        if not is_text(seen[0:4]):
            return refused(TABLE_SIGNATURE)
    else:
        if number_at(seen, 0, 4) != signature:
            return refused(TABLE_SIGNATURE)
    if not is_text(seen[10:16]):
        return refused(TABLE_MAKER)
    if not is_text(seen[16:24]):
        return refused(TABLE_ID)
    length = number_at(seen, 4, 4)
    mapped = length <= len(seen)
    if mapped and not sums_to_zero(seen[:length]):
        return refused(TABLE_CHECKSUM)
    if length < HEADER_LENGTH or length < least:
        return refused(TOO_SHORT)
    if not mapped:
        return refused(NO_VALID_TABLE)
    return FOUND, [address, offset, length]


def nth_in_root_table(image, ranges, root_pointer_address, signature, least, n):
    answer, addresses = root_entries(image, ranges, root_pointer_address)
    if answer != FOUND:
        return refused(answer)
    valid = []
    for address in addresses:
        answer, values = table_in_right_ranges(image, ranges, address, signature, least)
        if answer == FOUND:
            valid.append(values)
    if n >= len(valid):
        return refused(NO_VALID_TABLE)
    return FOUND, valid[n]


def find(image, ranges, root_pointer_address, signature, least):
    """Question 6: the first valid table: address, offset in the image, length."""
    return nth_in_root_table(image, ranges, root_pointer_address, signature, least, 0)


def find_nth(image, ranges, root_pointer_address, signature, least, n):
    """Question 7: the n-th valid table of a signature, counted from 0."""
    return nth_in_root_table(image, ranges, root_pointer_address, signature, least, n)


def nth_table(image, ranges, root_pointer_address, n):
    """Question 8: the n-th valid table of any signature, counted from 0."""
    return nth_in_root_table(image, ranges, root_pointer_address, None, HEADER_LENGTH, n)


def table_at(image, ranges, address, signature, least):
    """Question 9: the table of a signature at a physical address."""
    if not ranges_right(image, ranges):
        return refused(WRONG_RANGES)
    return table_in_right_ranges(image, ranges, address, signature, least)


def any_table_at(image, ranges, address):
    """Question 10: the table of any signature at a physical address."""
    if not ranges_right(image, ranges):
        return refused(WRONG_RANGES)
    return table_in_right_ranges(image, ranges, address, None, HEADER_LENGTH)


# From here on a question is asked of bytes that are meant to be one table:
# docs/TABLES.md, section 7.


def is_whole_table(table, fixed_part):
    if len(table) < HEADER_LENGTH or len(table) < fixed_part:
        return False
    return number_at(table, 4, 4) == len(table)


# Generic address: docs/TABLES.md, section 6.


def generic_address(table, offset):
    space = table[offset]
    access_size = table[offset + 3]
    if not (space <= 0x0A or space == 0x7F or space >= 0xC0):
        return refused(UNKNOWN_SPACE_OR_SIZE)
    if access_size > 4:
        return refused(UNKNOWN_SPACE_OR_SIZE)
    bit_width = table[offset + 1]
    bit_offset = table[offset + 2]
    address = number_at(table, offset + 4, 8)
    return FOUND, [space, bit_width, bit_offset, access_size, address]


# MCFG: docs/TABLES.md, section 8.

MCFG_FIXED = 44


def mcfg_windows(table):
    """Base, segment group, first bus and last bus of each entry."""
    windows = []
    offset = MCFG_FIXED
    while offset + 16 <= len(table):
        windows.append([
            number_at(table, offset, 8),
            number_at(table, offset + 8, 2),
            table[offset + 10],
            table[offset + 11],
        ])
        offset += 16
    return windows


def mcfg_count(table):
    """Question 20: the number of entries."""
    if not is_whole_table(table, MCFG_FIXED):
        return refused(TOO_SHORT)
    return FOUND, [len(mcfg_windows(table))]


def mcfg_entry(table, k):
    """Question 21: base, segment group, first bus, last bus of the k-th entry."""
    if not is_whole_table(table, MCFG_FIXED):
        return refused(TOO_SHORT)
    windows = mcfg_windows(table)
    if k >= len(windows):
        return refused(NO_SUCH_ADDRESS)
    return FOUND, windows[k]


def mcfg_address(table, segment, bus, device, function):
    """Question 22: where the configuration space of a function begins."""
    if not is_whole_table(table, MCFG_FIXED):
        return refused(TOO_SHORT)
    if device > 31 or function > 7:
        return refused(NO_SUCH_ADDRESS)
    for base, its_segment, first, last in mcfg_windows(table):
        if its_segment == segment and first <= bus <= last:
            address = base + (bus - first) * 2 ** 20 + device * 2 ** 15 + function * 2 ** 12
            if address >= END_OF_MEMORY:
                return refused(NO_SUCH_ADDRESS)
            return FOUND, [address]
    return refused(NO_SUCH_ADDRESS)


# HPET: docs/TABLES.md, section 9.


def hpet(table):
    """Question 30: hardware revision, number of comparators, wide counter, legacy
    capable, PCI vendor, base address, HPET number, minimum tick, page protection."""
    if not is_whole_table(table, 56):
        return refused(TOO_SHORT)
    space = table[40]
    if space != 0:
        return refused(UNKNOWN_SPACE_OR_SIZE)
    block_id = number_at(table, 36, 4)
    return FOUND, [
        block_id % 2 ** 8,
        block_id // 2 ** 8 % 2 ** 5 + 1,
        block_id // 2 ** 13 % 2,
        block_id // 2 ** 15 % 2,
        block_id // 2 ** 16,
        number_at(table, 44, 8),
        table[52],
        number_at(table, 53, 2),
        table[55] % 2 ** 4,
    ]


# FADT: docs/TABLES.md, section 10.

FADT_FIXED = 116

# Narrow field, length byte and wide field of each register block, in the order
# in which question 40 numbers them.
REGISTER_BLOCKS = [
    (56, 88, 148),  # 0: PM1a event
    (60, 88, 160),  # 1: PM1b event
    (64, 89, 172),  # 2: PM1a control
    (68, 89, 184),  # 3: PM1b control
    (72, 90, 196),  # 4: PM2 control
    (76, 91, 208),  # 5: timer
    (80, 92, 220),  # 6: GPE0
    (84, 93, 232),  # 7: GPE1
]
PM1A_EVENT = 0
PM1A_CONTROL = 2
TIMER = 5
RESET_REGISTER = 8
SLEEP_CONTROL = 9
SLEEP_STATUS = 10


def fadt_register(table, which):
    """Question 40: space, bit width, bit offset, access size, address."""
    if not is_whole_table(table, FADT_FIXED):
        return refused(TOO_SHORT)
    revision = table[8]

    if which == RESET_REGISTER:
        if len(table) < 116 + 12:
            return refused(TOO_SHORT)
        return generic_address(table, 116)

    if which == SLEEP_CONTROL or which == SLEEP_STATUS:
        offset = 244 if which == SLEEP_CONTROL else 256
        if revision < 2:
            return refused(NO_SUCH_ADDRESS)
        if len(table) < offset + 12:
            return refused(TOO_SHORT)
        return generic_address(table, offset)

    if which >= len(REGISTER_BLOCKS):
        return refused(NO_SUCH_ADDRESS)

    narrow, length_byte, wide = REGISTER_BLOCKS[which]
    if which == TIMER and table[length_byte] != 4:
        return refused(NO_SUCH_ADDRESS)
    if revision >= 2:
        if len(table) < wide + 12:
            return refused(TOO_SHORT)
        if number_at(table, wide + 4, 8) != 0:
            return generic_address(table, wide)
    address = number_at(table, narrow, 4)
    if address == 0 and which != PM1A_EVENT and which != PM1A_CONTROL:
        return refused(NO_SUCH_ADDRESS)
    return FOUND, [1, 8 * table[length_byte], 0, 0, address]


def fadt_address(table, narrow, wide):
    if not is_whole_table(table, FADT_FIXED):
        return refused(TOO_SHORT)
    revision = table[8]
    address = 0
    if revision >= 2:
        if len(table) < wide + 8:
            return refused(TOO_SHORT)
        address = number_at(table, wide, 8)
    if address == 0:
        address = number_at(table, narrow, 4)
    if address == 0:
        return refused(NO_SUCH_ADDRESS)
    return FOUND, [address]


def fadt_firmware_control(table):
    """Question 41: the address of the firmware control structure."""
    return fadt_address(table, 36, 132)


def fadt_dsdt(table):
    """Question 42: the address of the DSDT."""
    return fadt_address(table, 40, 140)


def fadt_field(table, offset, size):
    """Question 43: a plain field by its offset and size."""
    if not is_whole_table(table, FADT_FIXED):
        return refused(TOO_SHORT)
    if offset + size > len(table):
        return refused(TOO_SHORT)
    return FOUND, [number_at(table, offset, size)]


def fadt_flag(table, offset, bit):
    """Question 44: a bit of a field of flags, by the field's offset."""
    size = {109: 2, 112: 4, 129: 2}[offset]
    answer, values = fadt_field(table, offset, size)
    if answer != FOUND:
        return refused(answer)
    return FOUND, [values[0] // 2 ** bit % 2]


# MADT: docs/TABLES.md, section 11.

MADT_FIXED = 44

LEAST_LENGTH = {0: 8, 1: 12, 2: 10, 3: 8, 4: 6, 5: 12, 9: 16, 10: 12, 16: 16}
OTHER_MODELS = [6, 7, 8, 11, 12, 13, 14, 15]
THIS_MODEL = [0, 1, 2, 3, 4, 5, 9, 10]
ALL_PROCESSORS = 0xFFFFFFFF

DISABLED = 0
WAITING = 1
RUNNING = 2


def madt_entries(table):
    """The entries as (kind, offset, length) in order, and whether all of them are
    consistent. The list ends in front of the first one that is not."""
    entries = []
    offset = MADT_FIXED
    while offset < len(table):
        if offset + 2 > len(table):
            return entries, False
        kind = table[offset]
        length = table[offset + 1]
        if kind in OTHER_MODELS:
            return entries, False
        if length < 2 or length < LEAST_LENGTH.get(kind, 2):
            return entries, False
        if offset + length > len(table):
            return entries, False
        entries.append((kind, offset, length))
        offset += length
    return entries, True


def madt_fixed(table):
    """Question 50: local address, flags, old controllers present."""
    if not is_whole_table(table, MADT_FIXED):
        return refused(TOO_SHORT)
    flags = number_at(table, 40, 4)
    return FOUND, [number_at(table, 36, 4), flags, flags % 2]


def madt_entry(table, k):
    """Question 51: kind, offset from the table's start and length of the k-th
    entry. What stands behind an inconsistent entry is no entry: 15 for the k-th
    that is inconsistent, 13 for all after it."""
    if not is_whole_table(table, MADT_FIXED):
        return refused(TOO_SHORT)
    entries, consistent = madt_entries(table)
    if k < len(entries):
        return FOUND, list(entries[k])
    if k == len(entries) and not consistent:
        return refused(WRONG_ENTRY)
    return refused(NO_SUCH_ADDRESS)


def flags_right(flags):
    """Whether the polarity in bits 0 and 1 and the trigger in bits 2 and 3 are
    known: each may be 0, 1 or 3."""
    return flags % 4 != 2 and flags // 4 % 4 != 2


def entry_right(table, kind, offset):
    """Whether bus, line, polarity and trigger of an entry are right."""
    if kind == 2:
        return table[offset + 2] == 0 and flags_right(number_at(table, offset + 8, 2))
    if kind == 3:
        return flags_right(number_at(table, offset + 2, 2))
    if kind == 4:
        return table[offset + 5] <= 1
    if kind == 10:
        return table[offset + 8] <= 1
    return True


def madt_read(table):
    """The answer; whether the model is known; its local address; and the records
    of its five lists, each record a list of numbers."""
    entries, consistent = madt_entries(table)
    if not consistent:
        return WRONG_ENTRY, False, 0, []

    known = False
    all_right = True
    local_address = number_at(table, 36, 4)
    processors = []
    controllers = []
    overrides = []
    nmi_sources = []
    nmi_lines = []
    for kind, offset, _ in entries:
        if kind in THIS_MODEL:
            known = True
        if not entry_right(table, kind, offset):
            all_right = False

        if kind == 0 or kind == 9:
            if kind == 0:
                processor = table[offset + 2]
                controller = table[offset + 3]
                flags = number_at(table, offset + 4, 4)
            else:
                processor = number_at(table, offset + 12, 4)
                controller = number_at(table, offset + 4, 4)
                flags = number_at(table, offset + 8, 4)
            if flags % 2 == 0:
                state = DISABLED
            elif not processors:
                state = RUNNING
            else:
                state = WAITING
            processors.append([processor, controller, state])
        elif kind == 1:
            controllers.append([
                table[offset + 2],
                number_at(table, offset + 4, 4),
                number_at(table, offset + 8, 4),
            ])
        elif kind == 2:
            overrides.append([
                table[offset + 3],
                number_at(table, offset + 4, 4),
                number_at(table, offset + 8, 2) % 16,
            ])
        elif kind == 3:
            nmi_sources.append([
                number_at(table, offset + 4, 4),
                number_at(table, offset + 2, 2) % 16,
            ])
        elif kind == 4:
            processor = table[offset + 2]
            if processor == 0xFF:
                processor = ALL_PROCESSORS
            nmi_lines.append([processor, table[offset + 5]])
        elif kind == 10:
            nmi_lines.append([number_at(table, offset + 4, 4), table[offset + 8]])
        elif kind == 5:
            local_address = number_at(table, offset + 4, 8)

    if known and not processors:
        return WRONG_ENTRY, False, 0, []
    if not all_right:
        return WRONG_BUS_LINE_OR_FLAGS, False, 0, []
    lists = [processors, controllers, overrides, nmi_sources, nmi_lines]
    return FOUND, known, local_address, lists


def madt_model(table):
    """Question 52: known, local address, old controllers present, and how many
    processors, controllers, overrides, NMI sources and NMI lines there are. An
    unknown model has no more to say: all of its values are 0."""
    if not is_whole_table(table, MADT_FIXED):
        return refused(TOO_SHORT)
    answer, known, local_address, lists = madt_read(table)
    if answer != FOUND:
        return refused(answer)
    if not known:
        return FOUND, [0] * 8
    old_controllers = number_at(table, 40, 4) % 2
    return FOUND, [1, local_address, old_controllers] + [len(records) for records in lists]


def madt_lists(table):
    """Question 53: processors, controllers, overrides, NMI sources and NMI lines,
    each as one flat list of numbers."""
    if not is_whole_table(table, MADT_FIXED):
        return refused(TOO_SHORT)
    answer, _, _, lists = madt_read(table)
    if answer != FOUND:
        return refused(answer)
    flat = []
    for records in lists:
        flat.append([number for record in records for number in record])
    return FOUND, flat


def madt_mailbox(table):
    """Question 54: the mailbox address of the first entry of kind 16. A table with
    an inconsistent entry is refused, also where that entry comes later."""
    if not is_whole_table(table, MADT_FIXED):
        return refused(TOO_SHORT)
    entries, consistent = madt_entries(table)
    if not consistent:
        return refused(WRONG_ENTRY)
    for kind, offset, _ in entries:
        if kind == 16:
            return FOUND, [number_at(table, offset + 8, 8)]
    return refused(WRONG_ENTRY)


# Questions over an image take (image, ranges, arguments..).
IMAGE_QUESTIONS = {
    1: check_ranges,
    2: root_pointer,
    3: search,
    4: root_table,
    5: root_entry,
    6: find,
    7: find_nth,
    8: nth_table,
    9: table_at,
    10: any_table_at,
}

# Questions over a table take (table, arguments..).
TABLE_QUESTIONS = {
    20: mcfg_count,
    21: mcfg_entry,
    22: mcfg_address,
    30: hpet,
    40: fadt_register,
    41: fadt_firmware_control,
    42: fadt_dsdt,
    43: fadt_field,
    44: fadt_flag,
    50: madt_fixed,
    51: madt_entry,
    52: madt_model,
    53: madt_lists,
    54: madt_mailbox,
}

QUESTIONS = {**IMAGE_QUESTIONS, **TABLE_QUESTIONS}


def ask_image(question, image, ranges, arguments):
    return IMAGE_QUESTIONS[question](image, ranges, *arguments)


def ask_table(question, table, arguments):
    return TABLE_QUESTIONS[question](table, *arguments)
