//! The commands with their usage, and what `card help` prints.
use crate::args::{Args, Switch};
use crate::failure::{Failure, Outcome};
use crate::output::Out;
use crate::{apply, look, payload, report, table};

/// A command: its name, the words behind it, what it does, its options and its function.
pub struct Command {
    pub name: &'static str,
    words: &'static str,
    does: &'static str,
    pub options: &'static [Switch],
    pub run: fn(Args, &mut Out) -> Outcome,
}

const BLOCK: Switch = ("block-size", Some("512 or 4096"));
const HELP: Switch = ("help", None);
const DRY: Switch = ("dry-run", None);
const MOUNTED: Switch = ("mounted", None);
const STOP: Switch = ("stop-after", Some("a stage"));
const PROGRESS: Switch = ("progress", None);
const SIZE: Switch = ("size", Some("a size, as 8G"));
const GUID: Switch = ("guid", Some("a GUID"));
const AT: Switch = ("at", Some("a place in the partition"));

/// All of them, in the order of the help.
pub const COMMANDS: &[Command] = &[
    Command {
        name: "lay",
        words: "FILE [--size 8G] [-b 512|4096] [--guid G] [--force]",
        does: "lays an empty card on a file or device; --size makes the file, --force lays over slots, partitions or a file system that are there",
        options: &[HELP, BLOCK, DRY, MOUNTED, SIZE, GUID, ("force", None)],
        run: table::lay,
    },
    Command { name: "check", words: "FILE", does: "says whether the card is whole, and what is unwise about it", options: &[HELP, BLOCK], run: look::check },
    Command {
        name: "list",
        words: "FILE [--json | --map]",
        does: "lists the used slots; as sfdisk's JSON, or drawn to the terminal's width",
        options: &[HELP, BLOCK, ("json", None), ("map", None)],
        run: look::list,
    },
    Command { name: "free", words: "FILE", does: "lists the free ground", options: &[HELP, BLOCK], run: look::free },
    Command {
        name: "put",
        words: "FILE SLOT|next (--first N --last N | --size 2G) [--type T] [--name NAME] [--guid G] [--attrs A] [--replace]",
        does: "puts a partition into a slot, in four stages; --type is data, linux, efi, swap or a GUID; --replace puts over a used slot that would not keep its blocks",
        options: &[
            HELP,
            BLOCK,
            DRY,
            MOUNTED,
            STOP,
            SIZE,
            GUID,
            ("first", Some("a block")),
            ("last", Some("a block")),
            ("type", Some("a type")),
            ("name", Some("a name")),
            ("attrs", Some("flags by name")),
            ("replace", None),
        ],
        run: table::put,
    },
    Command {
        name: "clear",
        words: "FILE SLOT [--wipe]",
        does: "clears a slot, in four stages; its bytes stay on the card unless --wipe writes zeros over them first",
        options: &[HELP, BLOCK, DRY, MOUNTED, STOP, PROGRESS, ("wipe", None)],
        run: table::clear,
    },
    Command {
        name: "write",
        words: "FILE SLOT SOURCE [--at PLACE]",
        does: "writes a file, or - for standard input, into a slot's partition, and reads it back",
        options: &[HELP, BLOCK, DRY, MOUNTED, PROGRESS, AT],
        run: payload::write,
    },
    Command {
        name: "read",
        words: "FILE SLOT [--at PLACE] [--length L]",
        does: "writes a partition's bytes to standard output",
        options: &[HELP, BLOCK, AT, ("length", Some("a number of bytes"))],
        run: payload::read,
    },
    Command {
        name: "show",
        words: "FILE",
        does: "shows what a reader sees of a card, also of one that was pulled, and which table it takes",
        options: &[HELP, BLOCK],
        run: look::show,
    },
    Command {
        name: "repair",
        words: "FILE [--force]",
        does: "gives the table that is not good what the other one has, block by block",
        options: &[HELP, BLOCK, DRY, MOUNTED, STOP, ("force", None)],
        run: table::repair,
    },
    Command {
        name: "label",
        words: "FILE SLOT [--date 2026-05-01] [--style 3] [--sheet 12]",
        does: "reads the label of a slot's map, or writes it; what is not given stays as it is",
        options: &[HELP, BLOCK, DRY, MOUNTED, ("date", Some("a date, as 2026-05-01")), ("style", Some("a style revision")), ("sheet", Some("a sheet number"))],
        run: payload::label,
    },
    Command {
        name: "screen",
        words: "FILE SLOT..",
        does: "says whether the maps of these slots have one date and one style",
        options: &[HELP, BLOCK],
        run: payload::screen,
    },
    Command { name: "uefi", words: "FILE", does: "lists both tables of another maker's card, by the second edition", options: &[HELP, BLOCK], run: look::uefi },
    Command { name: "report", words: "FILE >card.html", does: "makes a page of the card for the briefing", options: &[HELP, BLOCK], run: report::report },
    Command {
        name: "grow",
        words: "FILE",
        does: "gives a card that was copied onto a longer file or device all of its blocks; the slots stay",
        options: &[HELP, BLOCK, DRY, MOUNTED],
        run: table::grow,
    },
    Command {
        name: "apply",
        words: "PLAN FILE.. [--size 8G]",
        does: "brings cards to what a plan says, and writes only what is not so already",
        options: &[HELP, BLOCK, DRY, MOUNTED, PROGRESS, SIZE],
        run: apply::apply,
    },
];

/// A command by its name.
pub fn command(name: &str) -> Outcome<&'static Command> {
    COMMANDS.iter().find(|command| command.name == name).ok_or_else(|| Failure::Usage(format!("{name:?} is no command"), ""))
}

/// The whole help.
pub fn all() -> String {
    let mut out = String::from("usage: card COMMAND FILE ..\n\n");
    for command in COMMANDS {
        out += &format!("  card {} {}\n      {}\n", command.name, command.words, command.does);
    }
    out +=
        "\nCommands that write also take --dry-run (says block by block what would change) and --mounted (a device that is mounted is refused without it);\n";
    out += "put, clear and repair take --stop-after K (ends after stage K, for training); write, clear and apply take --progress. -b is a block device's own size, or else 512.\n";
    out += "Exit status: 0 done, 1 refused, 2 not understood, 3 reading or writing failed.\n";
    out
}

/// The help of one command.
pub fn one(command: &Command) -> String {
    let mut out = format!("usage: card {} {}\n  {}\n", command.name, command.words, command.does);
    for (name, value) in command.options {
        let short = match *name {
            "block-size" => "-b, ",
            "help" => "-h, ",
            _ => "",
        };
        out += &format!("  {short}--{name}{}\n", value.map_or(String::new(), |value| format!(" ({value})")));
    }
    out
}
