"""The boundary to libtablewalk.so: its declarations, and calls through ctypes.

FUNCTIONS says of each exported function which parameters it takes. Nothing checks
it against the proved source at run time, so a test reads bindings/c/tablewalk.h
and compares the two function by function.
"""

import ctypes
import os
from pathlib import Path
from typing import Any, Dict, List, Optional, Sequence, Tuple, Union

# A slice is two C parameters: a pointer, and a length in elements.
BYTES = "const uint8_t *"
NUMBERS = "const uint64_t *"
OUT64 = "uint64_t *"
OUT32 = "uint32_t *"
U8 = "uint8_t"
U16 = "uint16_t"
U32 = "uint32_t"
U64 = "uint64_t"
SIZE = "size_t"

SLICES: Dict[str, Any] = {
    BYTES: ctypes.c_char_p,
    NUMBERS: ctypes.POINTER(ctypes.c_uint64),
    OUT64: ctypes.POINTER(ctypes.c_uint64),
    OUT32: ctypes.POINTER(ctypes.c_uint32),
}
PLAIN: Dict[str, Any] = {
    U8: ctypes.c_uint8,
    U16: ctypes.c_uint16,
    U32: ctypes.c_uint32,
    U64: ctypes.c_uint64,
    SIZE: ctypes.c_size_t,
}
BITS: Dict[str, int] = {kind: 8 * ctypes.sizeof(plain) for kind, plain in PLAIN.items()}

Parameters = Tuple[Tuple[str, str], ...]

_IMAGE: Parameters = (("image", BYTES), ("ranges", NUMBERS))
_FROM_ROOT: Parameters = _IMAGE + (("rsdp", U64),)
_TABLE: Parameters = (("table", BYTES),)
_OUT: Parameters = (("out", OUT64),)

# What each question about one table takes beside the table itself. The library
# has every one of them twice: about a table's bytes, and about an image.
TABLE_QUESTIONS: Dict[str, Parameters] = {
    "hpet": _OUT,
    "mcfg_count": _OUT,
    "mcfg_entry": (("k", SIZE),) + _OUT,
    "pci_address": (
        (("segment", U16), ("bus", U8), ("device", U8), ("function", U8)) + _OUT
    ),
    "fadt_fixed": _OUT,
    "fadt_register": (("which", U32),) + _OUT,
    "fadt_number": (("which", U32),) + _OUT,
    "madt_fixed": _OUT,
    "madt_entry": (("k", SIZE),) + _OUT,
    "interrupt_model": _OUT,
    "interrupt_lists": (
        ("processors", OUT32),
        ("io_apics", OUT32),
        ("interrupt_source_overrides", OUT32),
        ("nmi_sources", OUT32),
        ("local_apic_nmi_lines", OUT32),
    ),
    "mailbox": _OUT,
}

FUNCTIONS: Dict[str, Parameters] = {
    "tablewalk_ranges": _IMAGE,
    "tablewalk_rsdp": _IMAGE + (("address", U64),) + _OUT,
    "tablewalk_search": _IMAGE + _OUT,
    "tablewalk_table_at": (
        _IMAGE + (("address", U64), ("signature", U32), ("least", U32)) + _OUT
    ),
    "tablewalk_any_table_at": _IMAGE + (("address", U64),) + _OUT,
    "tablewalk_root": _FROM_ROOT + _OUT,
    "tablewalk_entry": _FROM_ROOT + (("k", U64),) + _OUT,
    "tablewalk_find": (
        _FROM_ROOT + (("signature", U32), ("least", U32), ("n", U64)) + _OUT
    ),
    "tablewalk_header": _FROM_ROOT + (("n", U64),) + _OUT,
    "tablewalk_platform": _FROM_ROOT + _OUT,
    "tablewalk_dsdt": _FROM_ROOT + _OUT,
    "tablewalk_ssdt": _FROM_ROOT + (("n", U64),) + _OUT,
}
FUNCTIONS.update(
    {f"tablewalk_{name}": _FROM_ROOT + more for name, more in TABLE_QUESTIONS.items()}
)
FUNCTIONS.update(
    {f"tablewalk_table_{name}": _TABLE + more for name, more in TABLE_QUESTIONS.items()}
)

# The folder of the checkout, and what is in it as this package needs it.
ROOT = Path(__file__).resolve().parents[3]
SHARED = ROOT / "target" / "shared" / "libtablewalk.so"
HOW_TO_BUILD = "tools/staticlib --shared"


class LibraryMissing(Exception):
    """The shared library is not there, or is not the one this package is for."""


def argument_types(name: str) -> List[Any]:
    """The C parameters of a function as ctypes has them."""
    types: List[Any] = []
    for _, kind in FUNCTIONS[name]:
        if kind in SLICES:
            types += [SLICES[kind], ctypes.c_size_t]
        else:
            types.append(PLAIN[kind])
    return types


def missing_function(path: Path) -> Optional[str]:
    """The name of a function that the library at a path does not have, if any. The
    file is looked at and not loaded: a library that is loaded can not be loaded anew."""
    data = path.read_bytes()
    return next((name for name in FUNCTIONS if b"\0%s\0" % name.encode() not in data), None)


class Library:
    """libtablewalk.so, loaded, with every function declared.

    Without a path it is the one that the checkout's own command builds. The
    library keeps nothing between calls, so that one Library serves any number of
    images and threads.
    """

    def __init__(self, path: Optional[Union[str, "os.PathLike[str]"]] = None) -> None:
        where = Path(path) if path is not None else SHARED
        if not where.exists():
            raise LibraryMissing(
                f"{where} is not there; the library is built by {HOW_TO_BUILD}"
                f" in the folder of Tablewalk's checkout"
            )
        try:
            loaded = ctypes.CDLL(str(where.resolve()))
        except OSError as error:
            raise LibraryMissing(
                f"{where} can not be loaded: {error}"
                + (f"; remove target/ and run {HOW_TO_BUILD}" if path is None else "")
            ) from None
        self._functions: Dict[str, Any] = {}
        for name in FUNCTIONS:
            try:
                function = getattr(loaded, name)
            except AttributeError:
                raise LibraryMissing(
                    f"{where} has no function {name}; build it again: {HOW_TO_BUILD}"
                ) from None
            function.argtypes = argument_types(name)
            function.restype = ctypes.c_uint32
            self._functions[name] = function

    def ask(self, name: str, arguments: Sequence[Any]) -> int:
        """Call a function. A slice is given as bytes or as a ctypes array; its
        length is added here, so that it can never be another one."""
        parameters = FUNCTIONS[name]
        if len(parameters) != len(arguments):
            raise TypeError(f"{name} takes {len(parameters)} arguments")
        values: List[Any] = []
        for (parameter, kind), argument in zip(parameters, arguments):
            if kind in SLICES:
                values += [argument, len(argument)]
            else:
                # ctypes would cut off what does not fit, and ask something else.
                if not 0 <= argument < 1 << BITS[kind]:
                    raise ValueError(
                        f"{parameter}: {argument} does not fit in {BITS[kind]} bits"
                    )
                values.append(argument)
        return int(self._functions[name](*values))
