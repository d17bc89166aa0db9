//! A card as the JSON document that sfdisk prints of it.
use crate::failure::Outcome;
use crate::opened::Opened;
use crate::words;
use card::Entry;

/// A text as JSON has it.
fn text(text: &str) -> String {
    let mut out = String::from("\"");
    for c in text.chars() {
        match c {
            '"' | '\\' => out.extend(['\\', c]),
            _ if c.is_control() => out += &format!("\\u{:04x}", c as u32),
            _ => out.push(c),
        }
    }
    out + "\""
}

/// The document.
pub fn table(opened: &Opened, entries: &[Entry]) -> Outcome<String> {
    let (guid, usable) = (opened.checked(opened.card.disk_guid())?, opened.checked(opened.card.usable())?);
    let device = opened.shown();
    let mut out = String::from("{\n   \"partitiontable\": {\n");
    out += &format!("      \"label\": \"gpt\",\n      \"id\": {},\n", text(&guid.to_string().to_uppercase()));
    out += &format!("      \"device\": {},\n      \"unit\": \"sectors\",\n", text(&device));
    out += &format!("      \"firstlba\": {},\n      \"lastlba\": {},\n      \"sectorsize\": {},\n", usable.start(), usable.end(), opened.b());
    let rows: Vec<String> = entries.iter().map(|entry| row(&device, entry)).collect();
    match rows.is_empty() {
        true => out += "      \"partitions\": []\n",
        false => out += &format!("      \"partitions\": [\n{}\n      ]\n", rows.join(",\n")),
    }
    Ok(out + "   }\n}\n")
}

/// A used slot.
fn row(device: &str, entry: &Entry) -> String {
    let record = &entry.record;
    let between = if device.ends_with(|c: char| c.is_ascii_digit()) { "p" } else { "" };
    let mut fields = vec![
        format!("\"node\": {}", text(&format!("{device}{between}{}", entry.slot))),
        format!("\"start\": {}", record.first),
        format!("\"size\": {}", record.last - record.first + 1),
        format!("\"type\": {}", text(&record.type_guid.to_string().to_uppercase())),
        format!("\"uuid\": {}", text(&record.guid.to_string().to_uppercase())),
    ];
    let (name, flags) = (record.name.to_string(), words::flags(record.flags, " "));
    if !name.is_empty() {
        fields.push(format!("\"name\": {}", text(&name)));
    }
    if !flags.is_empty() {
        fields.push(format!("\"attrs\": {}", text(&flags)));
    }
    format!("         {{\n            {}\n         }}", fields.join(",\n            "))
}
