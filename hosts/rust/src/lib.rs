//! Cards with a GPT table, as safe Rust over the proved calls of libcard.
//!
//! A card is an image of bytes: a protective MBR, a front table, usable blocks, and a back table that says the same as the front one.
//! A table has 128 slots, counted from 1. [`Card`] lends an image to the calls; nothing is read from or written to a device but by [`FileCard`], [`tables_of`] and [`Staged::store_on`].
//!
//! ```
//! use card::{BlockSize, Card, Guid, Record};
//! # fn main() -> Result<(), Box<dyn std::error::Error>> {
//! let mut image = vec![0; 68 * 512];
//! let mut card = Card::lay(&mut image, BlockSize::B512, "5a3f1c20-11e7-4b6d-9c04-0242ac110000".parse()?)?;
//! let map = Record::new(Guid::BASIC_DATA, "5a3f1c20-11e7-4b6d-9c04-0242ac110001".parse()?, 34, 34, "map")?;
//! card.put(1, &map)?;
//! card.write_payload(1, 0, b"north ridge")?;
//! for entry in card.list()? {
//!     println!("{} {} {}", entry.slot, entry.record.first, entry.record.name);
//! }
//! assert_eq!(card.get(1)?, Some(map));
//! assert_eq!(card.put(2, &map).unwrap_err().to_string(), "refused 22, Overlap: a block that another slot has (slot 1)");
//! # Ok(())
//! # }
//! ```
//!
//! A card in a file or a device need not fit into memory: [`FileCard`] reads and writes the blocks of its tables and the payload's bytes, and nothing else.
//!
//! ```
//! use card::{BlockSize, FileCard, Guid, Record};
//! # fn main() -> Result<(), Box<dyn std::error::Error>> {
//! # let path = std::env::temp_dir().join(format!("card-lib-doc-{}", std::process::id()));
//!
//! let file = std::fs::File::options().read(true).write(true).create_new(true).open(&path)?;
//! file.set_len(64 << 30)?;
//! let mut card = FileCard::lay(file, BlockSize::B512, "5a3f1c20-11e7-4b6d-9c04-0242ac110000".parse()?)?;
//! let map = Record::new(Guid::BASIC_DATA, "5a3f1c20-11e7-4b6d-9c04-0242ac110001".parse()?, 2048, 67_108_863, "map")?;
//! card.start_put(1, &map)?.finish()?; // four stages, each stored before the next is made
//! card.write_payload(1, 20 << 30, b"north ridge")?;
//! # assert_eq!((card.get(1)?, card.free_runs()?), (Some(map), vec![34..=2047, 67_108_864..=(64 << 21) - 34]));
//! # std::fs::remove_file(&path)?;
//! # Ok(())
//! # }
//! ```
//!
//! Every call takes every image and every number. It ends, and accepts or says by [`Refused`] why it does not, and where the card check refused; a refused call changes no byte of the image.
//! People pull cards in the middle of an update: a put or a clear that may be cut goes by [`Card::start_put`] and [`Card::start_clear`], see [`Staged`]. A card that
//! was cut is read by [`reader_list`] and mended by [`start_repair`].
//! Each map's partition begins with a [`Label`]: [`Card::judge`] says whether the maps of a list of slots have one date and one style revision.
//! A table of another maker, with a longer header or other entries, is read by [`uefi_list`].
//! All this is proved of the library; that this crate hands the bytes over rightly is not proved, but tested. The ported calls on headers, entries and the MBR are
//! in [`ffi`], as C has them. [`crc32_next`] is the check sum of bytes that come in pieces.
//!
//! A program takes the crate by its path, `card = { path = "../dirozhal/hosts/rust" }`, and needs no registry. The crate links `libcard.a`, which `make lib`
//! writes, from the folder that the environment names in `CARD_LIB_DIR`, or else from the repository's `target/lib`.
#![deny(missing_docs, clippy::undocumented_unsafe_blocks, clippy::missing_errors_doc)]

#[cfg(not(all(target_arch = "x86_64", target_pointer_width = "64")))]
compile_error!("libcard is for x86-64");

mod calls;
pub mod ffi;
mod files;
mod guid;
mod labels;
mod maps;
mod pulled;
mod read_only;
mod record;
mod refusal;
#[cfg(test)]
#[path = "../tests/repository/mod.rs"]
mod repository;
mod uefi;
mod windows;

/// The version of this crate, which is the library's.
pub const VERSION: &str = env!("CARGO_PKG_VERSION");

/// The version of the library that was linked: major, minor and patch.
pub fn library_version() -> (u32, u32, u32) {
    // SAFETY: the call takes nothing and gives numbers alone.
    let version = unsafe { ffi::card_version() };
    (version.major, version.minor, version.patch)
}

pub use calls::{check, crc32_next, free_runs, get, list, payload_place, read_payload, BlockSize, Card, Listing, FRESH, SLOTS};
pub use files::{Device, FileCard, FileError, FileStaged, SyncBy};
pub use guid::{Guid, GuidError};
pub use labels::{judge, read_label, Dated, Label, SetRefused};
pub use maps::SlotMap;
pub use pulled::{reader_copy, reader_get, reader_list, start_repair, tables_of, Staged, Store, Table};
pub use read_only::{disk_guid, CardRef};
pub use record::{Entry, Flags, Name, NameError, Record};
pub use refusal::{Place, Refusal, Refused};
pub use uefi::{uefi_header, uefi_list};
