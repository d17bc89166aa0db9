"""The words of a number, for card_message: the meanings of card.h's two tables of numbers, the names of README.md's table, and the words that
the Python host's Refused has for a place and a slot."""

FRONT, BACK, DISK_GUID, SLOT = 1, 2, 3, 4
WORDS = {
    1: ("BadBlockSize", "the block size is neither 512 nor 4,096"),
    2: ("Short", "the bytes to read or write are not all inside the slice"),
    3: ("Overflow", "a product or sum passes its width"),
    4: ("InvalidGptSignature", "the header does not begin with EFI PART"),
    5: ("InvalidCRC32Checksum", "the header's check sum does not match"),
    6: ("PartsCrc", "the entry array's check sum does not match"),
    7: ("BadEntrySize", "an entry size that cannot be read or written"),
    8: ("ToSmallForBackup", "the image is shorter than three blocks"),
    9: ("MissingBackupLba", "the backup comes before the primary"),
    10: ("BackupLbaToEarly", "there is no room between the two tables"),
    11: ("WritingToWrongLba", "a primary's block is not before its backup's, or a backup's not after its primary's"),
    12: ("InvalidMBRLength", "the buffer is not one block long"),
    13: ("InvalidMBRSignature", "bytes 510 and 511 are not 55 AA"),
    14: ("InvalidPartitionLength", "the MBR record's buffer is not 16 bytes long"),
    15: ("NoRoom", "more entries or runs are there than there is room for in what was lent"),
    16: ("WrongLayout", "the table is not laid out as a card's"),
    17: ("Disagree", "the two tables differ"),
    18: ("BadSlot", "there is no such slot or record"),
    19: ("NilType", "a partition of no type"),
    20: ("BadRange", "the last block comes before the first"),
    21: ("OutsideUsable", "a block outside the usable ones"),
    22: ("Overlap", "a block that another slot has"),
    23: ("EmptySlot", "the slot is not used"),
    24: ("PastPartition", "the bytes pass the partition's end"),
    25: ("TwinGuid", "a partition GUID that another used slot has"),
    26: ("WrongStage", "the state does not lead to this stage on an image of this length and block size"),
    27: ("NoGoodCopy", "neither table of the card can be read"),
    28: ("ReservedFlag", "a flag that UEFI keeps reserved"),
    29: ("BadHeaderSize", "the header's stated size is below 92 or above the block size"),
    30: ("DirtyBlock", "the header's block has other bytes than zero after the header"),
    31: ("WrongPlace", "the header names another block than the one it was read from"),
    32: ("WindowLength", "a window is not as long as the card asks for"),
    33: ("TableFull", "all 128 slots are used"),
    34: ("BadMark", "the map does not begin with the mark FBM"),
    35: ("UnknownVersion", "the label's version is not 1"),
    36: ("BadDate", "the label's month is not 1 to 12, or its day not 1 to 31"),
    37: ("TwoDates", "the maps have two dates or two style revisions"),
    38: ("EmptyList", "no slot was named"),
    39: ("BadText", "the text is no GUID, or no UTF-8, or has a zero in it"),
    40: ("LongName", "the name has more than 36 UTF-16 units"),
}
# card.h, enum card_place: "4, 5, 6 and 16 say the front or the back table", 17 "says the disk GUID .. or a slot".
OF_TABLE = {
    4: "the {} table's header does not begin with EFI PART",
    5: "the {} table's header check sum does not match",
    6: "the {} table's entry check sum does not match",
    16: "the {} table is not laid out as a card's",
}
# card.h, card_answer: "the one that 22 and 25 name"; card_judged: "by 18, 23 and 34 to 37 the slot of the list that is refused".
OF_SLOT = (18, 22, 23, 25, 34, 35, 36, 37)


def meaning(number, place, slot):
    """The meaning of a refusal, with the place or the slot; card.h: a place that the number does not have is left out, a slot that is not 0 is told, but "beside a table or the disk GUIDs"."""
    if number in OF_TABLE and place in (FRONT, BACK):
        return OF_TABLE[number].format("front" if place == FRONT else "back")
    if number == 17 and place == DISK_GUID:
        return "the two tables have different disk GUIDs"
    if number == 17 and place == SLOT:
        return f"the two tables differ, first in slot {slot}"
    return WORDS[number][1] + (f" (slot {slot})" if slot else "")


def message(number, place, slot):
    """card.h: "accepted" is said of 0, and of a number that is in neither table that the library has no such number."""
    if number == 0:
        return "accepted"
    if number not in WORDS:
        return "the library has no such number"
    return f"refused {number}, {WORDS[number][0]}: {meaning(number, place, slot)}"
