"""The refusals: every number with its name and its meaning, the places that the card check names, and Refused, which a refused call raises."""
from __future__ import annotations

TYPE_CHECKING = False
if TYPE_CHECKING:
    from typing import Protocol, TypeVar

    class Answer(Protocol):
        """What a call of the library answers: a number, 0 where it was accepted."""

        number: int

    A = TypeVar("A", bound=Answer)

NUMBERS = {
    1: ("BadBlockSize", "the block size is neither 512 nor 4,096"),
    2: ("Short", "the bytes to read or write are not all inside the slice"),
    3: ("Overflow", "a product or sum passes its width"),
    4: ("InvalidGptSignature", "the header does not begin with EFI PART"),
    5: ("InvalidCRC32Checksum", "the header's check sum does not match"),
    6: ("PartsCrc", "the entry array's check sum does not match"),
    7: ("BadEntrySize", "an entry size that cannot be read or written"),
    8: ("ToSmallForBackup", "the image is shorter than three blocks"),
    9: ("MissingBackupLba", "the backup comes before the primary"),
    10: ("BackupLbaToEarly", "there is no room between the two tables"),
    11: ("WritingToWrongLba", "a primary's block is not before its backup's, or a backup's not after its primary's"),
    12: ("InvalidMBRLength", "the buffer is not one block long"),
    13: ("InvalidMBRSignature", "bytes 510 and 511 are not 55 AA"),
    14: ("InvalidPartitionLength", "the MBR record's buffer is not 16 bytes long"),
    15: ("NoRoom", "more entries or runs are there than there is room for in what was lent"),
    16: ("WrongLayout", "the table is not laid out as a card's"),
    17: ("Disagree", "the two tables differ"),
    18: ("BadSlot", "there is no such slot or record"),
    19: ("NilType", "a partition of no type"),
    20: ("BadRange", "the last block comes before the first"),
    21: ("OutsideUsable", "a block outside the usable ones"),
    22: ("Overlap", "a block that another slot has"),
    23: ("EmptySlot", "the slot is not used"),
    24: ("PastPartition", "the bytes pass the partition's end"),
    25: ("TwinGuid", "a partition GUID that another used slot has"),
    26: ("WrongStage", "the state does not lead to this stage on an image of this length and block size"),
    27: ("NoGoodCopy", "neither table of the card can be read"),
    28: ("ReservedFlag", "a flag that UEFI keeps reserved"),
    29: ("BadHeaderSize", "the header's stated size is below 92 or above the block size"),
    30: ("DirtyBlock", "the header's block has other bytes than zero after the header"),
    31: ("WrongPlace", "the header names another block than the one it was read from"),
    32: ("WindowLength", "a window is not as long as the card asks for"),
    33: ("TableFull", "all 128 slots are used"),
    34: ("BadMark", "the map does not begin with the mark FBM"),
    35: ("UnknownVersion", "the label's version is not 1"),
    36: ("BadDate", "the label's month is not 1 to 12, or its day not 1 to 31"),
    37: ("TwoDates", "the maps have two dates or two style revisions"),
    38: ("EmptyList", "no slot was named"),
}

# Where the card check refused, as an answer numbers it.
NOWHERE, FRONT, BACK, DISK_GUID, SLOT = range(5)

_OF_TABLE = {
    4: "the {} table's header does not begin with EFI PART",
    5: "the {} table's header check sum does not match",
    6: "the {} table's entry check sum does not match",
    16: "the {} table is not laid out as a card's",
}


def _meaning(number: int, slot: int, place: int, differs: int) -> str:
    """The meaning of a refusal, with the slot or the place that it names."""
    if place == DISK_GUID:
        return "the two tables have different disk GUIDs"
    if place == SLOT:
        return f"the two tables differ, first in slot {differs}"
    if place:
        return _OF_TABLE[number].format("front" if place == FRONT else "back")
    return NUMBERS[number][1] + (f" (slot {slot})" if slot else "")


class Refused(Exception):
    """A call that was refused: its number, the slot that 22 and 25 name, or of a judged set the one that 18, 23 and 34 to 37 name (else 0), the place that the card check names (FRONT, BACK, DISK_GUID or SLOT, else
    NOWHERE), and the slot that differs (0 but for SLOT)."""

    def __init__(self, number: int, slot: int = 0, place: int = NOWHERE, differs: int = 0) -> None:
        self.number, self.slot, self.place, self.differs, self.name = number, slot, place, differs, NUMBERS[number][0]
        super().__init__(f"refused {number}, {self.name}: {_meaning(number, slot, place, differs)}")

    def __reduce__(self) -> tuple[type[Refused], tuple[int, int, int, int], dict[str, object]]:
        """Made again from its numbers, with what was noted on it, so that it passes from one process to another."""
        return type(self), (self.number, self.slot, self.place, self.differs), self.__dict__


def take(answer: A) -> A:
    """An answer that was accepted; any other one is raised."""
    if answer.number:
        raise Refused(answer.number, *(getattr(answer, name, 0) for name in ("slot", "place", "differs")))
    return answer
