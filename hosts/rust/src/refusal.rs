//! The numbers by which a call is refused, with their names and meanings, and the place that the card check names.
use std::{error, fmt};

/// Declares the refusals of the table once: their numbers, names and meanings. 22 and 25 stand beside them, since they carry a slot.
macro_rules! refusals {
    ($($number:literal $name:ident: $meaning:literal,)*) => {
        /// Why a call was refused. A refused call changed no byte of the image.
        #[derive(Clone, Copy, Debug, PartialEq, Eq, Hash)]
        #[non_exhaustive]
        pub enum Refusal {
            $(#[doc = concat!(stringify!($number), ": ", $meaning, ".")] $name,)*
            /// 22: a block that another slot has.
            Overlap {
                /// The lowest slot that has such a block.
                slot: u32,
            },
            /// 25: a partition GUID that another used slot has.
            TwinGuid {
                /// The lowest slot that has it.
                slot: u32,
            },
        }

        impl Refusal {
            /// The number that the library gives, from 1 to 38.
            pub const fn number(self) -> u32 {
                match self {
                    $(Refusal::$name => $number,)*
                    Refusal::Overlap { .. } => 22,
                    Refusal::TwinGuid { .. } => 25,
                }
            }

            /// Its name.
            pub const fn name(self) -> &'static str {
                match self {
                    $(Refusal::$name => stringify!($name),)*
                    Refusal::Overlap { .. } => "Overlap",
                    Refusal::TwinGuid { .. } => "TwinGuid",
                }
            }

            /// The refusal of a number. The slot counts for 22 and 25 alone; 0 and what is above 38 are no refusals.
            pub const fn from_number(number: u32, slot: u32) -> Option<Refusal> {
                match number {
                    $($number => Some(Refusal::$name),)*
                    22 => Some(Refusal::Overlap { slot }),
                    25 => Some(Refusal::TwinGuid { slot }),
                    _ => None,
                }
            }
        }

        /// The number, the name and the plain meaning, as `refused 23, EmptySlot: the slot is not used`.
        impl fmt::Display for Refusal {
            fn fmt(&self, f: &mut fmt::Formatter<'_>) -> fmt::Result {
                write!(f, "refused {}, {}: ", self.number(), self.name())?;
                match self {
                    $(Refusal::$name => f.write_str($meaning),)*
                    Refusal::Overlap { slot } => write!(f, "a block that another slot has (slot {slot})"),
                    Refusal::TwinGuid { slot } => write!(f, "a partition GUID that another used slot has (slot {slot})"),
                }
            }
        }
    };
}

refusals! {
    1 BadBlockSize: "the block size is neither 512 nor 4,096",
    2 Short: "the bytes to read or write are not all inside the slice",
    3 Overflow: "a product or sum passes its width",
    4 InvalidGptSignature: "the header does not begin with EFI PART",
    5 InvalidCRC32Checksum: "the header's check sum does not match",
    6 PartsCrc: "the entry array's check sum does not match",
    7 BadEntrySize: "an entry size that cannot be read or written",
    8 ToSmallForBackup: "the image is shorter than three blocks",
    9 MissingBackupLba: "the backup comes before the primary",
    10 BackupLbaToEarly: "there is no room between the two tables",
    11 WritingToWrongLba: "a primary's block is not before its backup's, or a backup's not after its primary's",
    12 InvalidMBRLength: "the buffer is not one block long",
    13 InvalidMBRSignature: "bytes 510 and 511 are not 55 AA",
    14 InvalidPartitionLength: "the MBR record's buffer is not 16 bytes long",
    15 NoRoom: "more entries or runs are there than there is room for in what was lent",
    16 WrongLayout: "the table is not laid out as a card's",
    17 Disagree: "the two tables differ",
    18 BadSlot: "there is no such slot or record",
    19 NilType: "a partition of no type",
    20 BadRange: "the last block comes before the first",
    21 OutsideUsable: "a block outside the usable ones",
    23 EmptySlot: "the slot is not used",
    24 PastPartition: "the bytes pass the partition's end",
    26 WrongStage: "the state does not lead to this stage on an image of this length and block size",
    27 NoGoodCopy: "neither table of the card can be read",
    28 ReservedFlag: "a flag that UEFI keeps reserved",
    29 BadHeaderSize: "the header's stated size is below 92 or above the block size",
    30 DirtyBlock: "the header's block has other bytes than zero after the header",
    31 WrongPlace: "the header names another block than the one it was read from",
    32 WindowLength: "a window is not as long as the card asks for",
    33 TableFull: "all 128 slots are used",
    34 BadMark: "the map does not begin with the mark FBM",
    35 UnknownVersion: "the label's version is not 1",
    36 BadDate: "the label's month is not 1 to 12, or its day not 1 to 31",
    37 TwoDates: "the maps have two dates or two style revisions",
    38 EmptyList: "no slot was named",
}

impl error::Error for Refusal {}

/// Where the card check refused.
#[derive(Clone, Copy, Debug, PartialEq, Eq, Hash)]
#[non_exhaustive]
pub enum Place {
    /// In the front table: its header, its array, or the entries.
    Front,
    /// In the back table.
    Back,
    /// The two tables have different disk GUIDs.
    DiskGuid,
    /// The first slot whose 128 bytes differ in the two tables.
    Slot(u32),
}

impl Place {
    /// The place of its number in an answer, with the slot that differs; `None` for 0, which is no place.
    const fn from_number(place: u32, differs: u32) -> Option<Place> {
        match place {
            1 => Some(Place::Front),
            2 => Some(Place::Back),
            3 => Some(Place::DiskGuid),
            4 => Some(Place::Slot(differs)),
            _ => None,
        }
    }
}

/// Why a card call was refused: the refusal, and the place of 4, 5, 6, 16 and 17 of the card check. Who asks for [`refusal`](Refused::refusal) alone sees
/// what a call that knows no places would say.
#[derive(Clone, Copy, Debug, PartialEq, Eq, Hash)]
pub struct Refused {
    /// The refusal by its name.
    pub refusal: Refusal,
    /// Where the card check refused; `None` for every other refusal.
    pub place: Option<Place>,
}

impl Refused {
    /// The number that the library gives, from 1 to 38.
    pub const fn number(self) -> u32 {
        self.refusal.number()
    }
}

/// A refusal that names no place.
impl From<Refusal> for Refused {
    fn from(refusal: Refusal) -> Refused {
        Refused { refusal, place: None }
    }
}

/// As a refusal is said, with the place in words, as `refused 6, PartsCrc: the back table's entry check sum does not match`.
impl fmt::Display for Refused {
    fn fmt(&self, f: &mut fmt::Formatter<'_>) -> fmt::Result {
        let place = match self.place {
            Some(place) => place,
            None => return self.refusal.fmt(f),
        };
        write!(f, "refused {}, {}: ", self.number(), self.refusal.name())?;
        let table = match place {
            Place::Front => "front",
            Place::Back => "back",
            Place::DiskGuid => return f.write_str("the two tables have different disk GUIDs"),
            Place::Slot(slot) => return write!(f, "the two tables differ, first in slot {slot}"),
        };
        match self.refusal {
            Refusal::InvalidGptSignature => write!(f, "the {table} table's header does not begin with EFI PART"),
            Refusal::InvalidCRC32Checksum => write!(f, "the {table} table's header check sum does not match"),
            Refusal::PartsCrc => write!(f, "the {table} table's entry check sum does not match"),
            _ => write!(f, "the {table} table is not laid out as a card's"),
        }
    }
}

impl error::Error for Refused {}

/// Accepts 0. Any other number is in the table: each export's contract says so.
pub(crate) fn accepted(number: u32, slot: u32, place: u32, differs: u32) -> Result<(), Refused> {
    match (number, Refusal::from_number(number, slot)) {
        (0, _) => Ok(()),
        (_, Some(refusal)) => Err(Refused { refusal, place: Place::from_number(place, differs) }),
        _ => unreachable!("libcard gave {number}, which include/card.h does not list"),
    }
}

#[cfg(test)]
mod tests {
    use super::*;

    /// The numbers, names and meanings are those of the C header's table, and there are no others.
    #[test]
    fn refusals_are_those_of_the_header() {
        let header = match crate::repository::header() {
            Some(header) => header,
            None => return,
        };
        // The enum behind it has the two numbers of the text calls, which no call of this crate makes.
        let lines: Vec<&str> = header.lines().take_while(|line| !line.starts_with("enum card_text_number")).collect();
        let lines: Vec<&str> =
            lines.into_iter().filter(|line| line.starts_with("    CARD_") && !line.starts_with("    CARD_PLACE_") && line.contains(" = ")).collect();
        assert_eq!(lines.len(), 39);
        assert_eq!((Refusal::from_number(0, 0), Refusal::from_number(39, 0)), (None, None));
        for (number, line) in (1..).zip(&lines[1..]) {
            let refusal = Refusal::from_number(number, 7).unwrap();
            let (name, rest) = line.trim().split_once(" = ").unwrap();
            let (stated, comment) = rest.split_once("/* ").unwrap();
            let meaning = comment.trim_end_matches(" */");
            assert_eq!(name.replace(['_'], "")[4..], refusal.name().to_uppercase());
            assert_eq!(stated.trim().trim_end_matches(',').parse(), Ok(number));
            assert_eq!(refusal.number(), number);
            let said = refusal.to_string();
            match refusal {
                Refusal::Overlap { slot } => assert_eq!((slot, said.as_str()), (7, "refused 22, Overlap: a block that another slot has (slot 7)")),
                Refusal::TwinGuid { slot } => {
                    assert_eq!((slot, said.as_str()), (7, "refused 25, TwinGuid: a partition GUID that another used slot has (slot 7)"))
                }
                _ => assert_eq!(said, format!("refused {number}, {}: {meaning}", refusal.name())),
            }
        }
    }

    /// The places of the C header's enum are these, and each is said in words.
    #[test]
    fn places_are_those_of_the_header() {
        let header = match crate::repository::header() {
            Some(header) => header,
            None => return,
        };
        let lines: Vec<&str> = header.lines().map(str::trim).filter(|line| line.starts_with("CARD_PLACE_")).collect();
        let names = ["NONE", "FRONT", "BACK", "DISK_GUID", "SLOT"];
        assert_eq!(lines, (0..).zip(names).map(|(number, name)| format!("CARD_PLACE_{name} = {number},")).collect::<Vec<_>>());
        let said = |number, place| accepted(number, 0, place, 5).unwrap_err().to_string();
        assert_eq!(said(6, 2), "refused 6, PartsCrc: the back table's entry check sum does not match");
        assert_eq!(said(4, 1), "refused 4, InvalidGptSignature: the front table's header does not begin with EFI PART");
        assert_eq!(said(5, 2), "refused 5, InvalidCRC32Checksum: the back table's header check sum does not match");
        assert_eq!(said(16, 1), "refused 16, WrongLayout: the front table is not laid out as a card's");
        assert_eq!(said(17, 3), "refused 17, Disagree: the two tables have different disk GUIDs");
        assert_eq!(said(17, 4), "refused 17, Disagree: the two tables differ, first in slot 5");
        assert_eq!(said(23, 0), Refusal::EmptySlot.to_string());
    }
}
