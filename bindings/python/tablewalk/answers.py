"""The numbers of the answers, what each means, and the one exception.

docs/TABLES.md, section 2, has the same list; a test holds the two together.
"""

from typing import Dict, Optional

FOUND = 0
WRONG_RANGES = 1
ROOT_POINTER_UNMAPPED = 2
ROOT_POINTER_SIGNATURE = 3
ROOT_POINTER_MAKER = 4
ROOT_POINTER_CHECKSUM = 5
ROOT_TABLE_UNMAPPED = 6
TABLE_SIGNATURE = 7
TABLE_MAKER = 8
TABLE_ID = 9
TABLE_CHECKSUM = 10
TOO_SHORT = 11
NO_VALID_TABLE = 12
NO_SUCH_ADDRESS = 13
UNKNOWN_SPACE_OR_SIZE = 14
WRONG_ENTRY = 15
WRONG_BUS_LINE_OR_FLAGS = 16
BUFFER_TOO_SHORT = 17
NO_ROOT_POINTER = 18

MEANINGS: Dict[int, str] = {
    FOUND: "found",
    WRONG_RANGES: "the list of ranges is wrong",
    ROOT_POINTER_UNMAPPED: "the root pointer is not mapped",
    ROOT_POINTER_SIGNATURE: "root pointer: wrong signature",
    ROOT_POINTER_MAKER: "root pointer: the maker's id is not UTF-8",
    ROOT_POINTER_CHECKSUM: (
        "root pointer: it does not sum to 0, or its stated length is not from 20 to 36"
    ),
    ROOT_TABLE_UNMAPPED: "the root table is not mapped, over its whole stated length",
    TABLE_SIGNATURE: "table: wrong signature",
    TABLE_MAKER: "table: the maker's id is not UTF-8",
    TABLE_ID: "table: the table id is not UTF-8",
    TABLE_CHECKSUM: "table: it does not sum to 0",
    TOO_SHORT: "a table's length is below what it needs",
    NO_VALID_TABLE: "there is no valid table with this signature",
    NO_SUCH_ADDRESS: (
        "there is no such address, entry or field: the fields are zero, or nothing"
        " holds what was asked for"
    ),
    UNKNOWN_SPACE_OR_SIZE: "generic address: unknown space or unknown access size",
    WRONG_ENTRY: (
        "an interrupt entry is inconsistent, or belongs to another interrupt model"
    ),
    WRONG_BUS_LINE_OR_FLAGS: (
        "an interrupt entry has a wrong bus, line, polarity or trigger"
    ),
    BUFFER_TOO_SHORT: "a buffer that the caller lent is too short",
    NO_ROOT_POINTER: "no root pointer was found in the searched areas",
}


def meaning_of(number: int) -> str:
    """What an answer's number means."""
    return MEANINGS.get(number, "a number that this version does not know")


class Refused(Exception):
    """A question was refused.

    `number` is the answer's number and `meaning` says it in words. `question` is
    the library's name for the question. `place` says where the fault stands, as
    far as further questions to the library could tell, and is None otherwise.
    """

    def __init__(self, number: int, question: str, place: Optional[str] = None) -> None:
        super().__init__(number, question, place)
        self.number = number
        self.question = question
        self.place = place

    @property
    def meaning(self) -> str:
        """What the number means."""
        return meaning_of(self.number)

    def __str__(self) -> str:
        where = f" ({self.place})" if self.place else ""
        return f"{self.number}: {self.meaning}{where}"
