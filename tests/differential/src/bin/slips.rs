//! `make differential-slips`: how many cases it takes to catch each slip, in the fixed list and among the cases of a seed.

use differential::case::Case;
use differential::cases::{fixed, random};
use differential::compare::{judge, run, Verdict};
use differential::listed::ends_process;
use differential::run::silence;
use differential::slips::SLIPS;

const MOST: u64 = 1_000_000;

/// For each slip the number of the case that caught it.
struct Caught {
    at: u64,
    first: Vec<Option<u64>>,
}

impl Caught {
    fn new() -> Self {
        Self { at: 0, first: vec![None; SLIPS.len()] }
    }

    fn done(&self) -> bool {
        self.first.iter().all(Option::is_some)
    }

    fn take(&mut self, case: &Case) {
        if self.done() || ends_process(case).is_some() {
            return;
        }
        self.at += 1;
        let ran = run(case);
        for (slip, first) in SLIPS.iter().zip(&mut self.first) {
            if first.is_none() {
                let mut altered = ran.clone();
                (slip.put)(case, &mut altered);
                if let Verdict::Unlisted(_) = judge(case, &altered) {
                    *first = Some(self.at);
                }
            }
        }
    }
}

fn main() {
    silence();
    let seed = std::env::var("SEED").ok().and_then(|s| s.parse().ok()).unwrap_or(1);
    let mut random_cases = Caught::new();
    let mut i = 0;
    while !random_cases.done() && random_cases.at < MOST {
        random_cases.take(&random(seed, i));
        i += 1;
    }
    let mut list = Caught::new();
    fixed(0, 1, &mut |case| list.take(&case));
    println!("seed {seed}; cases until caught");
    println!("| slip | seed {seed} | fixed list |\n|---|---|---|");
    let show = |n: &Option<u64>| n.map_or("not caught".to_string(), |n| n.to_string());
    let mut missed = 0;
    for (i, slip) in SLIPS.iter().enumerate() {
        let (a, b) = (&random_cases.first[i], &list.first[i]);
        println!("| {} | {} | {} |", slip.what, show(a), show(b));
        missed += (a.is_none() && b.is_none()) as u32;
    }
    println!("{} slips, {} caught", SLIPS.len(), SLIPS.len() - missed as usize);
    std::process::exit((missed != 0) as i32);
}
