//! `make differential`: the port and the original get the same cases. SEED= and CASES= are read from the environment.

use differential::case::CALLS;
use differential::listed::CLASSES;
use differential::run;
use std::time::Instant;

fn number(name: &str, default: u64) -> u64 {
    match std::env::var(name) {
        Err(_) => default,
        Ok(text) => text.parse().unwrap_or_else(|_| {
            eprintln!("{name} is no number: {text}");
            std::process::exit(2)
        }),
    }
}

fn main() {
    run::silence();
    let clock = std::time::SystemTime::now().duration_since(std::time::UNIX_EPOCH).map_or(1, |d| d.as_secs());
    let (seed, cases) = (number("SEED", clock), number("CASES", 1_000_000));
    println!("seed {seed}");
    let began = Instant::now();
    let t = run::all(seed, cases);
    for (kind, name) in CALLS.iter().enumerate() {
        let numbers: Vec<String> = t.numbers.range((kind, 0)..(kind + 1, 0)).map(|((_, n), times)| format!("{n}: {times}")).collect();
        println!("{name:24} {:8} cases; by number {}", t.per_call[kind], numbers.join(", "));
    }
    println!("listed differences met:");
    for (class, text) in CLASSES {
        println!("{class:2} {:8}  {text}", t.classes.get(class).unwrap_or(&0));
    }
    println!("{} cases ({} of the fixed list), {:.1} s, seed {seed}", t.cases, t.fixed, began.elapsed().as_secs_f64());
    match t.worst {
        None => println!("0 unlisted differences"),
        Some((_, case, text)) => {
            let case = differential::shrink::smaller(case);
            println!("{} unlisted differences; the smallest: {}", t.unlisted, differential::shrink::show(&case));
            println!("{}", differential::shrink::differs(&case).unwrap_or(text));
            std::process::exit(1);
        }
    }
}
