//! One case on both sides, and whether they agree.

use crate::case::{Answer, Call, Case};
use crate::listed::{ends_process, listed, sums_stay, Listed, Original};
use crate::original::{self, Did, NO_NUMBER};
use crate::ported;

/// What one case came to.
pub enum Verdict {
    Agree,
    /// A listed difference, by its class.
    Listed(&'static str),
    Unlisted(String),
}

/// What both sides did.
#[derive(Clone)]
pub struct Ran {
    pub original: Did,
    pub original_img: Vec<u8>,
    pub port: Answer,
    pub port_img: Vec<u8>,
    /// The bytes before and behind the lent ones are as they were.
    pub around: bool,
}

const AROUND: usize = 16;
const MARK: u8 = 0xC3;

pub fn run_port(case: &Case) -> (Answer, Vec<u8>, bool) {
    let mut whole = vec![MARK; case.img.len() + 2 * AROUND];
    let end = AROUND + case.img.len();
    whole[AROUND..end].copy_from_slice(&case.img);
    let answer = ported::run(case, &mut whole[AROUND..end]);
    let around = whole[..AROUND].iter().chain(&whole[end..]).all(|b| *b == MARK);
    whole.truncate(end);
    whole.drain(..AROUND);
    (answer, whole, around)
}

pub fn run(case: &Case) -> Ran {
    let mut original_img = case.img.clone();
    let original = original::run(case, &mut original_img);
    let (port, port_img, around) = run_port(case);
    Ran { original, original_img, port, port_img, around }
}

/// A refusal has no other value and changes no byte.
fn clean(case: &Case, ran: &Ran) -> bool {
    ran.port.number == 0 || (ran.port.values.iter().all(|b| *b == 0) && ran.port_img == case.img)
}

fn same(ran: &Ran) -> bool {
    match &ran.original {
        Did::Panicked => false,
        Did::Answered { answer, .. } => {
            answer.number == ran.port.number && (answer.number != 0 || answer.values == ran.port.values) && ran.original_img == ran.port_img
        }
    }
}

/// FFFD for each lone surrogate of a record, up to the first zero.
fn replaced(record: &mut [u8]) {
    let units: Vec<u16> = (0..36).map(|i| u16::from_le_bytes([record[56 + 2 * i], record[57 + 2 * i]])).collect();
    let end = units.iter().position(|u| *u == 0).unwrap_or(36);
    for (i, u) in String::from_utf16_lossy(&units[..end]).encode_utf16().enumerate() {
        record[56 + 2 * i..58 + 2 * i].copy_from_slice(&u.to_le_bytes());
    }
}

/// The port's values with FFFD for each lone surrogate, in the layout that the array calls have.
fn with_replaced(call: &Call, values: &[u8]) -> Vec<u8> {
    let mut v = values.to_vec();
    if let Call::EntryFromBytes = call {
        replaced(&mut v);
        return v;
    }
    let count = u32::from_le_bytes(v[..4].try_into().unwrap()) as usize;
    let probes = 4 + count * 132;
    for e in v[4..probes].chunks_mut(132) {
        replaced(&mut e[4..]);
    }
    for e in v[probes..].chunks_mut(130) {
        replaced(&mut e[2..]);
    }
    v
}

/// Whether both sides did what the class says.
fn as_listed(case: &Case, ran: &Ran, l: &Listed) -> bool {
    if ran.port.number != l.number {
        return false;
    }
    match (&l.original, &ran.original) {
        (Original::Panics, did) => matches!(did, Did::Panicked) && ran.original_img == case.img,
        (Original::Anything, _) => true,
        (_, Did::Panicked) => false,
        (Original::Answers(n), Did::Answered { answer, .. }) => answer.number == *n && ran.original_img == case.img,
        (Original::WritesFrom(at), Did::Answered { answer, .. }) => {
            let at = *at as usize;
            answer.number == 2 && ran.original_img[..at] == case.img[..at]
        }
        (Original::Replaces, Did::Answered { answer, .. }) => {
            answer.number == 0
                && answer.values != ran.port.values
                && answer.values == with_replaced(&case.call, &ran.port.values)
                && ran.original_img == case.img
                && ran.port_img == case.img
        }
    }
}

pub fn describe(case: &Case, ran: &Ran) -> String {
    let changed = |img: &[u8]| {
        let at: Vec<usize> = (0..img.len()).filter(|i| img[*i] != case.img[*i]).collect();
        match at.first() {
            None => "no byte changed".to_string(),
            Some(first) => format!("{} bytes changed, the first at {first}, the last at {}", at.len(), at[at.len() - 1]),
        }
    };
    let values = |v: &[u8]| v.iter().take(96).map(|b| format!("{b:02x}")).collect::<String>();
    let original = match &ran.original {
        Did::Panicked => "panicked".to_string(),
        Did::Answered { answer, .. } => format!("{} {}", answer.number, values(&answer.values)),
    };
    let first = match &ran.original {
        Did::Answered { answer, .. } if answer.number == 0 && ran.port.number == 0 => answer
            .values
            .iter()
            .zip(&ran.port.values)
            .position(|(a, b)| a != b)
            .map_or(String::new(), |i| format!("\n  values part at byte {i}")),
        _ => String::new(),
    };
    format!(
        "  original: {original}; {}\n  port: {} {}; {}{}{first}",
        changed(&ran.original_img),
        ran.port.number,
        values(&ran.port.values),
        changed(&ran.port_img),
        if ran.around { "" } else { "; a byte outside the lent ones changed" },
    )
}

/// The port alone, where the original is not asked (class I): whether it gives document 01's number and changes nothing.
pub fn port_alone(case: &Case, number: u32) -> Verdict {
    let (port, img, around) = run_port(case);
    if port.number == number && port.values.iter().all(|b| *b == 0) && img == case.img && around {
        return Verdict::Listed("I");
    }
    Verdict::Unlisted(format!("  the original was not asked; the port: {}, due is {number}", port.number))
}

/// One case from beginning to end.
pub fn whole(case: &Case) -> Verdict {
    match ends_process(case) {
        Some(number) => port_alone(case, number),
        None => judge(case, &run(case)),
    }
}

pub fn judge(case: &Case, ran: &Ran) -> Verdict {
    let unlisted = || Verdict::Unlisted(describe(case, ran));
    if !ran.around || !clean(case, ran) {
        return unlisted();
    }
    if let Did::Answered { sums: true, .. } = ran.original {
        if !sums_stay(case) {
            return unlisted();
        }
    }
    if matches!(&ran.original, Did::Answered { answer, .. } if answer.number == NO_NUMBER) {
        return unlisted();
    }
    match listed(case) {
        None if same(ran) => Verdict::Agree,
        None => unlisted(),
        Some(l) if !as_listed(case, ran, &l) => unlisted(),
        Some(_) if same(ran) => Verdict::Agree,
        Some(l) => Verdict::Listed(l.class),
    }
}
