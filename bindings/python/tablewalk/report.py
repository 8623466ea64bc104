"""The report of a board: once as plain data, which is also its JSON, and from that
the text for a terminal, so that the two can not say different things."""

import textwrap
from dataclasses import asdict
from typing import Any, Callable, Dict, List, Optional

from . import names
from .answers import FOUND, NO_VALID_TABLE, Refused, meaning_of
from .dump import printable
from .image import Image, Listed, text_of
from .records import ALL_PROCESSORS, GenericAddress

Data = Dict[str, Any]

WIDTH = 80


class Paint:
    """Colour for a terminal, or none."""

    def __init__(self, on: bool) -> None:
        self.on = on

    def _wrap(self, code: str, text: str) -> str:
        return f"\x1b[{code}m{text}\x1b[0m" if self.on else text

    def good(self, text: str) -> str:
        """What was found."""
        return self._wrap("32", text)

    def bad(self, text: str) -> str:
        """What was refused."""
        return self._wrap("31", text)

    def head(self, text: str) -> str:
        """The heading of a part."""
        return self._wrap("1", text)


def address(value: int) -> str:
    """An address as the JSON has it: a text, since not every reader of JSON keeps
    64 bits of a number."""
    return f"{value:#x}"


def refusal(refused: Refused) -> Data:
    """A refused question as data."""
    data: Data = {"answer": refused.number, "meaning": refused.meaning}
    if refused.place is not None:
        data["place"] = refused.place
    return data


def ask(question: Callable[[], Data]) -> Data:
    """The data of a question that may be refused."""
    try:
        return {"answer": FOUND, **question()}
    except Refused as refused:
        return refusal(refused)


# The parts of a report.


def _root_pointer(image: Image) -> Data:
    pointer = image.rsdp(image.rsdp_address)
    maker = image.bytes_at(pointer.address + 9, 6)
    return {
        "address": address(pointer.address),
        "revision": pointer.revision,
        "length": pointer.length,
        "oem_id": text_of(maker or b""),
        "rsdt_address": address(pointer.rsdt_address),
        "xsdt_address": address(pointer.xsdt_address),
    }


def _root_table(image: Image) -> Data:
    root = image.root()
    header = image.header_at(root.address)
    return {
        "kind": root.kind,
        "address": address(root.address),
        "length": root.length,
        "oem_id": header.oem_id if header else "",
        "oem_table_id": header.oem_table_id if header else "",
        "entry_size": root.entry_size,
        "entry_count": root.entry_count,
    }


def _tables(entries: List[Listed]) -> List[Data]:
    rows = []
    for listed in entries:
        row: Data = {"entry": listed.entry, "address": address(listed.address)}
        if listed.header is not None:
            row["signature"] = listed.header.signature
            row["length"] = listed.header.length
            row["revision"] = listed.header.revision
            row["oem_id"] = listed.header.oem_id
            row["oem_table_id"] = listed.header.oem_table_id
        row["answer"] = listed.answer
        if listed.answer != FOUND:
            row["meaning"] = at_address(listed.answer)
        rows.append(row)
    return rows


def at_address(number: int) -> str:
    """What a number means of a table at an address: there 12 says what is not mapped."""
    if number == NO_VALID_TABLE:
        return "no header, or not the whole stated length, is mapped at this address"
    return meaning_of(number)


def _interrupt_model(image: Image) -> Data:
    model = image.interrupt_model()
    table = image.find("APIC", names.FIXED_PART["APIC"])
    data: Data = {"table": address(table.address), "known": model.known}
    if not model.known:
        return data
    lists = image.interrupt_lists()
    data["local_apic_address"] = address(model.local_apic_address)
    data["also_has_legacy_pics"] = model.also_has_legacy_pics
    data["processors"] = [
        {
            "processor_uid": p.processor_uid,
            "local_apic_id": p.local_apic_id,
            "state": names.STATES[p.state],
            "is_ap": place != 0,
        }
        for place, p in enumerate(lists.processors)
    ]
    data["io_apics"] = [
        {
            "id": c.id,
            "address": address(c.address),
            "global_system_interrupt_base": c.global_system_interrupt_base,
        }
        for c in lists.io_apics
    ]
    data["interrupt_source_overrides"] = [
        {
            "isa_source": o.isa_source,
            "global_system_interrupt": o.global_system_interrupt,
            "polarity": names.POLARITIES[o.polarity],
            "trigger_mode": names.TRIGGERS[o.trigger_mode],
        }
        for o in lists.interrupt_source_overrides
    ]
    data["nmi_sources"] = [
        {
            "global_system_interrupt": s.global_system_interrupt,
            "polarity": names.POLARITIES[s.polarity],
            "trigger_mode": names.TRIGGERS[s.trigger_mode],
        }
        for s in lists.nmi_sources
    ]
    data["local_apic_nmi_lines"] = [
        {
            "processor_uid": "all" if n.processor_uid == ALL_PROCESSORS else n.processor_uid,
            "line": n.line,
        }
        for n in lists.local_apic_nmi_lines
    ]
    mailbox = ask(lambda: {"address": address(image.mailbox())})
    if mailbox["answer"] == FOUND:
        data["mailbox_address"] = mailbox["address"]
    return data


def _generic(register: GenericAddress) -> Data:
    return {
        "address_space": names.space_name(register.address_space),
        "bit_width": register.bit_width,
        "bit_offset": register.bit_offset,
        "access_size": names.ACCESS_SIZES.get(register.access_size, "unknown"),
        "address": address(register.address),
    }


def _platform(image: Image) -> Data:
    platform = image.platform()
    timer = platform.pm_timer
    return {
        "power_profile": names.profile_name(platform.power_profile),
        "interrupt_model_known": platform.interrupt_model.known,
        "pm_timer": None if timer is None else {
            "bits": 32 if timer.supports_32bit else 24, **_generic(timer.base),
        },
    }


def _pci_windows(image: Image) -> Data:
    table = image.find("MCFG", names.FIXED_PART["MCFG"])
    return {
        "table": address(table.address),
        "windows": [
            {
                "base_address": address(w.base_address),
                "pci_segment_group": w.pci_segment_group,
                "bus_number_start": w.bus_number_start,
                "bus_number_end": w.bus_number_end,
            }
            for w in image.view(table).mcfg_entries()
        ],
    }


def _hpet(image: Image) -> Data:
    hpet = image.hpet()
    data = asdict(hpet)
    data["event_timer_block_id"] = f"{hpet.event_timer_block_id:#010x}"
    data["pci_vendor_id"] = f"{hpet.pci_vendor_id:#06x}"
    data["base_address"] = address(hpet.base_address)
    data["page_protection"] = names.PAGE_PROTECTION[hpet.page_protection]
    return data


def _fadt(image: Image) -> Data:
    table = image.find("FACP", names.FIXED_PART["FACP"])
    fadt = image.view(table)
    fixed = fadt.fadt_fixed()
    data: Data = {"table": address(table.address), "revision": fadt.data[8]}
    data["power_profile"] = names.profile_name(fadt.fadt_number("power_profile"))
    data.update(asdict(fixed))
    data["smi_cmd_port"] = address(fixed.smi_cmd_port)
    data["iapc_boot_arch"] = names.flag_names(fixed.iapc_boot_arch, names.IAPC_BOOT_FLAGS)
    data["flags"] = names.flag_names(fixed.flags, names.FLAGS)
    data["facs_address"] = ask(lambda: {"address": address(fadt.fadt_number("facs_address"))})
    data["dsdt_address"] = ask(lambda: {"address": address(fadt.fadt_number("dsdt_address"))})
    data["reset_value"] = ask(lambda: {"value": fadt.fadt_number("reset_value")})
    data["arm_boot_arch"] = ask(
        lambda: {"flags": names.flag_names(fadt.fadt_number("arm_boot_arch"), names.ARM_BOOT_FLAGS)}
    )
    data["registers"] = {
        name: ask(lambda which=which: _generic(fadt.fadt_register(which)))  # type: ignore[misc]
        for which, name in enumerate(names.REGISTERS)
    }
    return data


def _dsdt(image: Image) -> Data:
    aml = image.dsdt()
    return {"aml_address": address(aml.address), "aml_length": aml.length}


def _ssdts(entries: List[Listed]) -> List[Data]:
    # By the entries and not by asking for the n-th one, which looks at all in front of
    # it each time.
    return [
        {
            "aml_address": address(listed.address + names.HEADER_LENGTH),
            "aml_length": listed.table.length - names.HEADER_LENGTH,
        }
        for listed in entries
        if listed.table is not None and listed.header is not None
        and listed.header.signature == "SSDT"
    ]


def of_signature(image: Image, signature: str) -> List[Data]:
    """Every entry that bears a signature: a valid table, or the number that refuses it
    for its kind, which is the reason behind a 12."""
    least = names.FIXED_PART.get(signature, names.HEADER_LENGTH)
    known: Dict[int, Data] = {}
    rows: List[Data] = []
    for k in range(image.root().entry_count):
        where = image.entry(k)
        data = image.bytes_at(where, names.HEADER_LENGTH)
        if data is None or data[:4] != signature.encode("utf-8"):
            continue
        if where not in known:
            try:
                table = image.table_at(where, signature, least)
                known[where] = {"answer": FOUND, "offset": table.offset, "length": table.length}
            except Refused as refused:
                known[where] = {"answer": refused.number, "meaning": at_address(refused.number)}
        rows.append({"entry": k, "address": address(where), **known[where]})
    return rows


def why_not(image: Image, signature: str) -> str:
    """Where a 12 comes from, in words."""
    rows = of_signature(image, signature)
    if not rows and signature in ("DSDT", "FACS"):
        return f"the root table lists no {signature}; the FADT says where it is"
    if not rows:
        return f"no entry leads to a table {signature}"
    first = rows[0]
    reason = f"{first['answer']}: {first['meaning']}"
    return f"{signature} at {first['address']} is passed over, {reason}"


def board(name: str, image: Image) -> Data:
    """The whole report as data.

    The board's own answer is the first refusal of: its root table; its interrupt
    model; and MCFG, HPET and FADT, each only if an entry bears its signature. So a
    board without an HPET is answered, and one whose HPET can not be used is not.
    """
    data: Data = {"file": name, "answer": FOUND, "meaning": meaning_of(FOUND)}
    if image.notes:
        data["notes"] = list(image.notes)
    data["root_pointer"] = ask(lambda: _root_pointer(image))
    data["root_table"] = ask(lambda: _root_table(image))
    refused: Optional[Data] = None
    if data["root_table"]["answer"] != FOUND:
        refused = {**data["root_table"], "question": "root"}
    else:
        entries = image.tables()
        data["tables"] = _tables(entries)
        data["platform"] = ask(lambda: _platform(image))
        data["interrupt_model"] = ask(lambda: _interrupt_model(image))
        data["pci_windows"] = ask(lambda: _pci_windows(image))
        data["hpet"] = ask(lambda: _hpet(image))
        data["fadt"] = ask(lambda: _fadt(image))
        data["dsdt"] = ask(lambda: _dsdt(image))
        data["ssdts"] = _ssdts(entries)
        borne = {row.get("signature") for row in data["tables"]}
        for part, signature in (
            ("interrupt_model", "APIC"),
            ("pci_windows", "MCFG"),
            ("hpet", "HPET"),
            ("fadt", "FACP"),
        ):
            if data[part]["answer"] == NO_VALID_TABLE:
                data[part]["place"] = why_not(image, signature)
                if part == "fadt" and data["platform"]["answer"] == NO_VALID_TABLE:
                    data["platform"]["place"] = data[part]["place"]
            needed = part == "interrupt_model" or signature in borne
            if refused is None and needed and data[part]["answer"] != FOUND:
                refused = {**data[part], "question": part}
    if refused is not None:
        data["answer"] = refused["answer"]
        data["meaning"] = refused["meaning"]
        data["question"] = refused["question"]
        data["place"] = refused.get("place", refused["question"])
    return data


# The same as text.


def _wrapped(text: str, indent: str) -> List[str]:
    return textwrap.wrap(
        text, WIDTH, initial_indent=indent, subsequent_indent=indent, break_long_words=False
    ) or [indent.rstrip()]


def _refused_line(title: str, part: Data, paint: Paint) -> List[str]:
    place = f" ({part['place']})" if "place" in part else ""
    lines = _wrapped(f"{part['answer']}: {part['meaning']}{place}", "  ")
    return ["", paint.head(title), *[paint.bad(line) for line in lines]]


def _long(value: str) -> str:
    """An address in 16 digits, so that columns line up."""
    return f"0x{int(value, 16):016x}"


def _table_rows(rows: List[Data], paint: Paint) -> List[str]:
    lines = ["", paint.head("Tables")]
    if not rows:
        return lines + ["  the root table has no entries"]
    lines.append("    #  address             sig       length  maker   table id  answer")
    for row in rows:
        if "signature" in row:
            middle = (
                f"{_field(row['signature'], 4)}  {row['length']:>10}"
                f"  {_field(row['oem_id'], 6)}  {_field(row['oem_table_id'], 8)}"
            )
        else:
            middle = f"{'-':<4}  {'-':>10}  {'-':<6}  {'-':<8}"
        answer = paint.good("valid") if row["answer"] == FOUND else paint.bad(f"{row['answer']}")
        lines.append(f"{row['entry']:>5}  {_long(row['address'])}  {middle}  {answer}")
    for number in sorted({row["answer"] for row in rows} - {FOUND}):
        meaning = next(row["meaning"] for row in rows if row["answer"] == number)
        lines += [paint.bad(line) for line in _wrapped(f"{number}: {meaning}", "  ")]
    return lines


def _field(text: str, width: int) -> str:
    """A field of a header in its column; what can not be printed as dots."""
    shown = "".join(c if c.isprintable() and c.isascii() else "." for c in text)
    return f"{shown[:width]:<{width}}"


def _platform_lines(part: Data, paint: Paint) -> List[str]:
    lines = ["", paint.head("Platform"), f"  power profile {part['power_profile']}"]
    timer = part["pm_timer"]
    if timer is None:
        return lines + ["  no power management timer"]
    space = _space(timer["address_space"])
    return lines + [
        f"  power management timer of {timer['bits']} bits at {timer['address']} ({space})"
    ]


def _interrupt_lines(part: Data, paint: Paint) -> List[str]:
    lines = ["", paint.head(f"Interrupt model, from the MADT at {part['table']}")]
    if not part["known"]:
        return lines + ["  unknown: the MADT has no entry of a kind that is read"]
    old = "present" if part["also_has_legacy_pics"] else "not present"
    lines.append(
        f"  local controllers at {part['local_apic_address']}, old controllers {old}"
    )
    processors = part["processors"]
    states = [f"{sum(p['state'] == s for p in processors)} {s}" for s in reversed(names.STATES)]
    lines.append(f"  {count(len(processors), 'processor')}: {', '.join(states)}")
    lines.append("           uid  controller  state")
    for p in processors:
        boot = "" if p["is_ap"] else ", boot processor"
        lines.append(f"    {p['processor_uid']:>10}  {p['local_apic_id']:>10}  {p['state']}{boot}")
    lines.append(f"  {count(len(part['io_apics']), 'I/O controller')}")
    for c in part["io_apics"]:
        lines.append(
            f"    id {c['id']} at {c['address']}, interrupts from"
            f" {c['global_system_interrupt_base']}"
        )
    overrides = part["interrupt_source_overrides"]
    lines.append(f"  {count(len(overrides), 'interrupt source override')}")
    for o in overrides:
        lines.append(
            f"    source {o['isa_source']} to interrupt {o['global_system_interrupt']},"
            f" polarity {o['polarity']}, trigger {o['trigger_mode']}"
        )
    lines.append(f"  {count(len(part['nmi_sources']), 'NMI source')}")
    for s in part["nmi_sources"]:
        lines.append(
            f"    interrupt {s['global_system_interrupt']},"
            f" polarity {s['polarity']}, trigger {s['trigger_mode']}"
        )
    lines.append(f"  {count(len(part['local_apic_nmi_lines']), 'NMI line')}")
    for n in part["local_apic_nmi_lines"]:
        whose = (
            "all processors" if n["processor_uid"] == "all" else f"processor {n['processor_uid']}"
        )
        lines.append(f"    line {n['line']} of {whose}")
    if "mailbox_address" in part:
        lines.append(f"  mailbox at {part['mailbox_address']}")
    return lines


def count(number: int, what: str) -> str:
    """So many of something."""
    return f"{number} {what}" + ("" if number == 1 else "s")


def _pci_lines(part: Data, paint: Paint) -> List[str]:
    lines = ["", paint.head(f"PCI windows, from the MCFG at {part['table']}")]
    if not part["windows"]:
        lines.append("  none: the MCFG has no entries")
    for w in part["windows"]:
        lines.append(
            f"  base {w['base_address']}, segment {w['pci_segment_group']:04x},"
            f" buses {w['bus_number_start']:02x} to {w['bus_number_end']:02x}"
        )
    return lines


def _hpet_lines(part: Data, paint: Paint) -> List[str]:
    wide = "64" if part["main_counter_is_64bits"] else "32"
    legacy = "" if part["legacy_irq_capable"] else "not "
    return [
        "",
        paint.head("HPET"),
        f"  number {part['hpet_number']} at {part['base_address']}, block id"
        f" {part['event_timer_block_id']}",
        f"  hardware revision {part['hardware_rev']}, PCI vendor {part['pci_vendor_id']},"
        f" {count(part['num_comparators'], 'comparator')}",
        f"  counter of {wide} bits, {legacy}capable of legacy interrupt routing",
        f"  minimum tick {part['clock_tick_unit']}, page protection {part['page_protection']}",
    ]


def _fadt_lines(part: Data, paint: Paint) -> List[str]:
    title = f"FADT at {part['table']}, revision {part['revision']}"
    lines = ["", paint.head(title)]
    lines.append(f"  SCI interrupt {part['sci_interrupt']}, GPE1 base {part['gpe1_base']}")
    lines.append(
        f"  SMI command port {part['smi_cmd_port']}: enable {part['acpi_enable']:#04x},"
        f" disable {part['acpi_disable']:#04x}, S4BIOS {part['s4bios_req']:#04x}"
    )
    lines.append(
        f"    P state control {part['pstate_control']:#04x},"
        f" C state control {part['c_state_control']:#04x}"
    )
    lines.append(
        f"  latency of C2 {part['worst_c2_latency']}, of C3 {part['worst_c3_latency']};"
        f" flush size {part['flush_size']}, stride {part['flush_stride']}"
    )
    lines.append(
        f"  duty offset {part['duty_offset']}, width {part['duty_width']};"
        f" day alarm {part['day_alarm']}, month {part['month_alarm']},"
        f" century {part['century']}"
    )
    for title, key, value in (
        ("FACS", "facs_address", "address"),
        ("DSDT", "dsdt_address", "address"),
        ("reset value", "reset_value", "value"),
    ):
        field = part[key]
        shown = field[value] if field["answer"] == FOUND else paint.bad(f"{field['answer']}")
        lines.append(f"  {title} {shown}")
    for title, flags in (("flags", part["flags"]), ("IA-PC boot flags", part["iapc_boot_arch"])):
        lines += _hanging(f"  {title}: ", " ".join(flags) or "none")
    arm = part["arm_boot_arch"]
    if arm["answer"] == FOUND:
        lines += _hanging("  ARM boot flags: ", " ".join(arm["flags"]) or "none")
    lines.append("  register       address             width  offset  access     space")
    for name, register in part["registers"].items():
        title = name.rsplit("_", 1)[0].replace("_", " ")
        if register["answer"] == FOUND:
            lines.append(
                f"  {title:<13}  {_long(register['address'])}  {register['bit_width']:>5}"
                f"  {register['bit_offset']:>6}  {register['access_size']:<9}"
                f"  {_space(register['address_space'])}"
            )
        else:
            lines.append(f"  {title:<13}  {paint.bad(str(register['answer']))}")
    refused = {r["answer"]: r["meaning"] for r in part["registers"].values() if r["answer"]}
    refused.update({part[k]["answer"]: part[k]["meaning"] for k in
                    ("facs_address", "dsdt_address", "reset_value") if part[k]["answer"]})
    for number in sorted(refused):
        lines += [paint.bad(line) for line in _wrapped(f"{number}: {refused[number]}", "  ")]
    return lines


def _space(name: str) -> str:
    """The space in what is left of the line; the JSON has all of it."""
    return names.SHORT_SPACES.get(name, name)


def _hanging(first: str, text: str) -> List[str]:
    return textwrap.wrap(
        text, WIDTH, initial_indent=first, subsequent_indent="    ", break_long_words=False
    )


def text_of_board(data: Data, paint: Paint) -> str:
    """The report as text of at most 80 columns, but for a long file name."""
    name = printable(data["file"], 4096)
    lines: List[str] = []
    if data["answer"] == FOUND:
        lines.append(f"{paint.head(name)}: {paint.good('answered')}")
    else:
        place = f" ({data['place']})" if "place" in data else ""
        lines.append(f"{paint.head(name)}: {paint.bad('refused')}")
        reason = f"{data['answer']}: {data['meaning']}{place}"
        lines += [paint.bad(line) for line in _wrapped(reason, "  ")]
    for note in data.get("notes", []):
        lines += _hanging("  note: ", note)
    pointer = data["root_pointer"]
    if pointer["answer"] == FOUND:
        lines += ["", paint.head("Root pointer")]
        lines.append(
            f"  {pointer['address']}, revision {pointer['revision']}, {pointer['length']} bytes,"
            f" maker {_field(pointer['oem_id'], 6).strip() or '-'}"
        )
        lines.append(
            f"  RSDT address {pointer['rsdt_address']}, XSDT address {pointer['xsdt_address']}"
        )
    else:
        lines += _refused_line("Root pointer", pointer, paint)
    root = data["root_table"]
    if root["answer"] != FOUND:
        if pointer["answer"] == FOUND:
            lines += _refused_line("Root table", root, paint)
        return "\n".join(lines) + "\n"
    lines += ["", paint.head("Root table")]
    lines.append(
        f"  {root['kind']} at {root['address']}, {root['length']} bytes,"
        f" {root['entry_count']} {'entry' if root['entry_count'] == 1 else 'entries'}"
        f" of {root['entry_size']} bytes"
    )
    lines += _table_rows(data["tables"], paint)
    for key, title, render in (
        ("platform", "Platform", _platform_lines),
        ("interrupt_model", "Interrupt model", _interrupt_lines),
        ("pci_windows", "PCI windows", _pci_lines),
        ("hpet", "HPET", _hpet_lines),
        ("fadt", "FADT", _fadt_lines),
    ):
        part = data[key]
        if part["answer"] == FOUND:
            lines += render(part, paint)
        elif key != data.get("question") and part.get("place", "").startswith("no entry"):
            # A board may do without such a table.
            lines += ["", paint.head(title), f"  none: {part['place']} ({part['answer']})"]
        else:
            lines += _refused_line(title, part, paint)
    dsdt = data["dsdt"]
    if dsdt["answer"] == FOUND or data["ssdts"]:
        lines += ["", paint.head("AML")]
        if dsdt["answer"] == FOUND:
            lines.append(f"  DSDT: {dsdt['aml_length']} bytes at {dsdt['aml_address']}")
        else:
            place = f" ({dsdt['place']})" if "place" in dsdt else ""
            reason = f"DSDT: {dsdt['answer']}: {dsdt['meaning']}{place}"
            lines += [paint.bad(line) for line in _wrapped(reason, "  ")]
        for ssdt in data["ssdts"]:
            lines.append(f"  SSDT: {ssdt['aml_length']} bytes at {ssdt['aml_address']}")
    return "\n".join(lines) + "\n"
