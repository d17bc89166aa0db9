//! The Rust original as a program that lists a file's partitions: both headers and both arrays are read, and the front one's slots printed. For bench/list.
use gpt_fast::disk::LogicalBlockSize::Lb512;
use gpt_fast::header::{read_header_from_arbitrary_device, Header};
use gpt_fast::partition::file_read_partitions;
use std::fs::OpenOptions;

fn main() {
    let path = std::env::args().nth(1).expect("a file");
    let mut device = OpenOptions::new().read(true).write(true).open(path).expect("the file opens");
    let primary = read_header_from_arbitrary_device(&mut device, Lb512).expect("a primary header");
    let backup = Header::oracle_read_backup(&mut device, Lb512).expect("a backup header");
    let slots = file_read_partitions(&mut device, &primary, Lb512).expect("the front array");
    assert_eq!(slots.len(), file_read_partitions(&mut device, &backup, Lb512).expect("the back array").len());
    for (slot, partition) in slots {
        println!("{slot} {} {} {} {} {}", partition.first_lba, partition.last_lba, partition.part_type_guid.guid, partition.part_guid, partition.name);
    }
}
