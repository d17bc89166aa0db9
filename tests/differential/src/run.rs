//! A whole run: the fixed list and the cases of a seed, on all cores, counted.

use crate::case::{Case, CALLS};
use crate::cases::{fixed, random};
use crate::compare::{judge, port_alone, run, Verdict};
use crate::listed::ends_process;
use crate::original::Did;
use std::collections::BTreeMap;
use std::thread;

#[derive(Default)]
pub struct Tally {
    pub cases: u64,
    /// How many of them are of the fixed list.
    pub fixed: u64,
    pub per_call: [u64; CALLS.len()],
    /// Cases by call and by the port's number.
    pub numbers: BTreeMap<(usize, u32), u64>,
    pub classes: BTreeMap<&'static str, u64>,
    pub unlisted: u64,
    pub worst: Option<(usize, Case, String)>,
}

/// What is small is read first: few bytes that are not zero, few bytes, small arguments.
fn weight(case: &Case) -> usize {
    let set = case.img.iter().filter(|b| **b != 0).count();
    let numbers = format!("{:?}", case.call).bytes().filter(|c| (b'1'..=b'9').contains(c)).count();
    case.img.len() + 4 * set + numbers
}

impl Tally {
    fn take(&mut self, case: Case) {
        let kind = case.call.kind();
        self.cases += 1;
        self.per_call[kind] += 1;
        let verdict = match ends_process(&case) {
            Some(number) => {
                *self.numbers.entry((kind, number)).or_default() += 1;
                port_alone(&case, number)
            }
            None => {
                let ran = run(&case);
                *self.numbers.entry((kind, ran.port.number)).or_default() += 1;
                if matches!(ran.original, Did::Answered { sums: true, .. }) {
                    *self.classes.entry("G").or_default() += 1;
                }
                judge(&case, &ran)
            }
        };
        match verdict {
            Verdict::Agree => {}
            Verdict::Listed(class) => *self.classes.entry(class).or_default() += 1,
            Verdict::Unlisted(text) => {
                self.unlisted += 1;
                let w = weight(&case);
                if self.worst.as_ref().is_none_or(|(v, ..)| w < *v) {
                    self.worst = Some((w, case, text));
                }
            }
        }
    }

    fn join(&mut self, other: Tally) {
        self.cases += other.cases;
        self.fixed += other.fixed;
        self.unlisted += other.unlisted;
        for (a, b) in self.per_call.iter_mut().zip(other.per_call) {
            *a += b;
        }
        for (k, n) in other.numbers {
            *self.numbers.entry(k).or_default() += n;
        }
        for (k, n) in other.classes {
            *self.classes.entry(k).or_default() += n;
        }
        if let Some(w) = other.worst {
            if self.worst.as_ref().is_none_or(|(v, ..)| w.0 < *v) {
                self.worst = Some(w);
            }
        }
    }
}

/// Panics of the original are part of the comparison, not news; those of this program are told.
pub fn silence() {
    std::panic::set_hook(Box::new(|what| {
        let ours = what.location().is_some_and(|l| l.file().contains("tests/differential/src") || l.file().starts_with("src/"));
        if ours {
            eprintln!("{what}");
        }
    }));
}

/// The fixed list, and from the seed as many cases as make `cases` altogether.
pub fn all(seed: u64, cases: u64) -> Tally {
    let parts = thread::available_parallelism().map_or(2, |n| n.get());
    let mut total = Tally::default();
    let tallies: Vec<Tally> = thread::scope(|s| {
        let threads: Vec<_> = (0..parts)
            .map(|part| {
                s.spawn(move || {
                    let mut t = Tally::default();
                    fixed(part, parts, &mut |case| t.take(case));
                    t.fixed = t.cases;
                    let share = cases / parts as u64 + 1;
                    let mut i = part as u64;
                    while t.cases < share {
                        t.take(random(seed, i));
                        i += parts as u64;
                    }
                    t
                })
            })
            .collect();
        threads.into_iter().map(|t| t.join().expect("a thread ends")).collect()
    });
    for t in tallies {
        total.join(t);
    }
    total
}
