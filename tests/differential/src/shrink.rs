//! Makes a case that differs smaller, as long as it still differs.

use crate::case::{Call, Case};
use crate::compare::{whole, Verdict};

/// What both sides did, if that is an unlisted difference.
pub fn differs(case: &Case) -> Option<String> {
    match whole(case) {
        Verdict::Unlisted(text) => Some(text),
        _ => None,
    }
}

/// Zeroes a part of some bytes; false if they are zero already.
fn clear(bytes: &mut [u8]) -> bool {
    let any = bytes.iter().any(|b| *b != 0);
    bytes.fill(0);
    any
}

/// The bytes that a call is given: a header, an entry, an MBR.
fn lent(call: &mut Call) -> Option<&mut [u8]> {
    match call {
        Call::ArraySum { head, .. }
        | Call::WritePrimary { head, .. }
        | Call::WriteBackup { head, .. }
        | Call::BuildFrom { head, .. }
        | Call::ReadArray { head, .. } => Some(&mut head[..]),
        Call::EntryToBytes { entry, .. } | Call::Lengths { entry, .. } | Call::WriteEntry { entry, .. } => Some(&mut entry[..]),
        Call::RecordGet { mbr, .. } | Call::RecordSet { mbr, .. } | Call::Overwrite { mbr } | Call::Conservative { mbr } => {
            Some(&mut mbr[..])
        }
        Call::WriteBoot { boot } => Some(&mut boot[..]),
        _ => None,
    }
}

pub fn smaller(mut case: Case) -> Case {
    let keep = |case: &mut Case, next: Case| {
        let still = differs(&next).is_some();
        if still {
            *case = next;
        }
        still
    };
    let mut cut = case.img.len() / 2;
    while cut > 0 {
        let mut next = case.clone();
        let shorter = next.img.len() - cut.min(next.img.len());
        next.img.truncate(shorter);
        if next.img.len() == case.img.len() || !keep(&mut case, next) {
            cut /= 2;
        }
    }
    for step in [4096, 512, 64, 8, 1] {
        let mut at = 0;
        while at < case.img.len() {
            let mut next = case.clone();
            let end = (at + step).min(next.img.len());
            if clear(&mut next.img[at..end]) {
                keep(&mut case, next);
            }
            at += step;
        }
    }
    for step in [16, 4, 1] {
        let many = lent(&mut case.call).map_or(0, |b| b.len());
        for at in (0..many).step_by(step) {
            let mut next = case.clone();
            let changed = lent(&mut next.call).is_some_and(|b| {
                let end = (at + step).min(b.len());
                clear(&mut b[at..end])
            });
            if changed {
                keep(&mut case, next);
            }
        }
    }
    case
}

/// A case as text: the call, and the image's bytes that are not zero.
pub fn show(case: &Case) -> String {
    let mut runs = String::new();
    let mut at = 0;
    while at < case.img.len() && runs.len() < 2000 {
        if case.img[at] == 0 {
            at += 1;
            continue;
        }
        let end = (at..case.img.len()).find(|i| case.img[*i] == 0).unwrap_or(case.img.len());
        let hex: String = case.img[at..end].iter().take(64).map(|b| format!("{b:02x}")).collect();
        runs += &format!(" {at}: {hex}{};", if end - at > 64 { ".." } else { "" });
        at = end;
    }
    format!(
        "{:?} on {} bytes{}",
        case.call,
        case.img.len(),
        if runs.is_empty() { ", all zero".into() } else { format!(", zero but for{runs}") }
    )
}
